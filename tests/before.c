/* Document 02, wish 6: on the same bytes all shares are as before. Version 53 took its tape in bytes; what it put out is kept here as checksums. */
#include "known.h"

#include "dokkumel.h"
#include "lengths.h"
#include "made.h"
#include "noise.h"
#include "table.h"
#include "word_tape.h"

#include <stdio.h>

/* From order 1 on, each over the outputs for strings or keys of 16, 24 and 32 bytes. */
static const uint32_t sums[ROUTINES][DOKKUMEL_MAX_ORDER] = {
	[SPLIT] = { 0xba3c41a0, 0x6983143c, 0x1a4d3030, 0x7ac4f154, 0xd2053b5c, 0x878c6610, 0x81050d6c, 0xa4d60120 },
	[JOIN] = { 0x97cb884b, 0x8c3d911d, 0x195b73e4, 0xe312c396, 0xf55c5bc0, 0x92a35e0e, 0xe4b27245, 0x24e063a0 },
	[REFRESH] = { 0x00c70d5f },
	[PRODUCT] = { 0xca744f97, 0xacdf13ff, 0xb1c99a23, 0x06ab4a64, 0x5675c103, 0xf9e11171, 0x70cf2bdb, 0xc4b1b2cd },
	[SHEET] = { 0xaf98603e, 0xe5f3d464, 0xaeac5fe7, 0xbd7f6a36, 0x9a954678, 0xb44a55c1, 0xa6ec0d0c, 0xf3dda8ef },
	[READ] = { 0x24f6ca9b, 0x433e9c07, 0x3797dd08, 0xad548ccc, 0xd81f7f62, 0xd0e74fa8, 0x6edbfff8, 0xfe422de1 },
	[SBOX] = { 0x94eb49c2 },
	[ENCRYPT] = { 0x365e5a26 },
	[DECRYPT] = { 0x62ddcfa1 },
	[PREPARE] = { 0x5398e414 },
	[ENCRYPT_PREPARED] = { 0x3588d743 },
};

/* Above order 1, whatever refreshes has other needs and other shares since document 02's wish 7; at order 1 its steps are the same. Version 53 had
   no cube. */
static size_t last_order(enum routine routine)
{
	if (routine == CUBE_SHEET || routine == READ_CUBE)
		return 0;
	return routine == SPLIT || routine == JOIN || routine == PRODUCT || routine == SHEET || routine == READ ? DOKKUMEL_MAX_ORDER : 1;
}

/* Bytes of version 53's longest tape: so many are filled for each call, however few it draws. */
#define FILLED 44160

/* FNV-1a. */
static uint32_t sum_on(uint32_t sum, const uint8_t *bytes, size_t len)
{
	for (size_t k = 0; k < len; k++)
		sum = (sum ^ bytes[k]) * 16777619;
	return sum;
}

/* The last place, and others before it. */
static void list_some(struct plan *c)
{
	for (size_t k = 0; k < c->order; k++)
		c->list[k] = (uint16_t)(DOKKUMEL_PLACES(c->order) - 1 - 3 * k);
	c->len[LIST] = c->len[OUTPUT] = c->order;
}

static uint32_t sum_of(enum routine routine, size_t d)
{
	static uint8_t bytes[FILLED], in[3][DOKKUMEL_PREPARED(8, 32)], out[DOKKUMEL_PREPARED(8, 32)];
	static uint32_t words[FILLED / 4];
	struct noise n = { 53 };
	uint32_t sum = 2166136261;
	size_t taken = 0;

	for (size_t l = 16; l <= 32; l += 8) {
		struct plan c = { .routine = routine, .order = d };
		uint8_t *p[BUFFERS] = { in[KEY], in[INPUT], in[RIGHT], (uint8_t *)words, (uint8_t *)c.list, out, (uint8_t *)&taken };

		lengths_fit(&c, d, l);
		if (routine == READ)
			list_some(&c);
		noise_fill(&n, bytes, sizeof bytes);
		noise_fill(&n, in, sizeof in);
		tape_pack(words, bytes, 4 * c.len[TAPE]);
		known_is(made_by_library(&c, p) == DOKKUMEL_OK, "a call on the bytes of version 53's tape is served");
		sum = sum_on(sum, out, c.len[OUTPUT]);
	}
	return sum;
}

void known_before(void)
{
	char what[80];

	for (int r = SPLIT; r < UNUSED; r++)
		for (size_t d = 1; d <= last_order((enum routine)r); d++) {
			uint32_t sum = sum_of((enum routine)r, d);

			snprintf(what, sizeof what, "%s at order %zu: other shares than version 53's on the same bytes, %08x", routine_names[r], d, (unsigned)sum);
			known_is(sum == sums[r][d - 1], what);
		}
}
