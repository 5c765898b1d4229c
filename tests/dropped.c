#include "dropped.h"

#include "dokkumel.h"
#include "made.h"
#include "needs.h"

#include <string.h>

static uint32_t tape[DOKKUMEL_ENCRYPT_TAPE(8, 32) + MAX_SURPLUS];

static void change_byte(size_t k)
{
	tape[k / 4] ^= (uint32_t)0xff << 8 * (k % 4);
}

/* Whether c on the changed tape leaves what it left before. */
static int leaves_the_same(const struct plan *c, const struct guarded *g)
{
	uint8_t output[DOKKUMEL_PREPARED(8, 32)] = { 0 }, *p[BUFFERS];
	size_t taken = 0;

	for (int b = 0; b < BUFFERS; b++)
		p[b] = g[b].before;
	p[TAPE] = (uint8_t *)tape;
	p[OUTPUT] = output;
	p[TAKEN] = (uint8_t *)&taken;
	return made_by_library(c, p) == DOKKUMEL_OK && memcmp(output, g[OUTPUT].lent, c->len[OUTPUT]) == 0
		&& memcmp(&taken, g[TAKEN].lent, sizeof taken) == 0;
}

const char *dropped_differs(const struct plan *c, const struct guarded *g)
{
	size_t need = need_bytes(c->routine, c->order, c->routine == SPLIT ? c->len[INPUT] : plan_key_bytes(c));

	if (need == 0)
		return NULL;
	if (g[TAPE].len > sizeof tape)
		return "the tape is longer than the test provides for";
	memcpy(tape, g[TAPE].before, g[TAPE].len);
	for (size_t k = need; k < g[TAPE].len; k++)
		change_byte(k);
	if (!leaves_the_same(c, g))
		return "a dropped byte or a surplus word has an effect";
	change_byte(need - 1);
	/* a reading shows it only where it is listed */
	if (!plan_reads(c) && leaves_the_same(c, g))
		return "the last byte drawn has no effect";
	return NULL;
}
