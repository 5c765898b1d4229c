/* FIPS 197's examples of encryption, through splitting, encryption by either route or decryption, and joining. */
#include "known.h"

#include "shared.h"

#include <stdio.h>
#include <string.h>

static const struct {
	const char *name;
	size_t key_len;
	uint8_t key[32], block[16], want[16];
} examples[] = {
	{ "appendix B", 16,
		{ 0x2b, 0x7e, 0x15, 0x16, 0x28, 0xae, 0xd2, 0xa6, 0xab, 0xf7, 0x15, 0x88, 0x09, 0xcf, 0x4f, 0x3c },
		{ 0x32, 0x43, 0xf6, 0xa8, 0x88, 0x5a, 0x30, 0x8d, 0x31, 0x31, 0x98, 0xa2, 0xe0, 0x37, 0x07, 0x34 },
		{ 0x39, 0x25, 0x84, 0x1d, 0x02, 0xdc, 0x09, 0xfb, 0xdc, 0x11, 0x85, 0x97, 0x19, 0x6a, 0x0b, 0x32 } },
	{ "appendix C.1", 16,
		{ 0, 1, 2, 3, 4, 5, 6, 7, 8, 9, 10, 11, 12, 13, 14, 15 },
		{ 0x00, 0x11, 0x22, 0x33, 0x44, 0x55, 0x66, 0x77, 0x88, 0x99, 0xaa, 0xbb, 0xcc, 0xdd, 0xee, 0xff },
		{ 0x69, 0xc4, 0xe0, 0xd8, 0x6a, 0x7b, 0x04, 0x30, 0xd8, 0xcd, 0xb7, 0x80, 0x70, 0xb4, 0xc5, 0x5a } },
	{ "appendix C.2", 24,
		{ 0, 1, 2, 3, 4, 5, 6, 7, 8, 9, 10, 11, 12, 13, 14, 15, 16, 17, 18, 19, 20, 21, 22, 23 },
		{ 0x00, 0x11, 0x22, 0x33, 0x44, 0x55, 0x66, 0x77, 0x88, 0x99, 0xaa, 0xbb, 0xcc, 0xdd, 0xee, 0xff },
		{ 0xdd, 0xa9, 0x7c, 0xa4, 0x86, 0x4c, 0xdf, 0xe0, 0x6e, 0xaf, 0x70, 0xa0, 0xec, 0x0d, 0x71, 0x91 } },
	{ "appendix C.3", 32,
		{ 0, 1, 2, 3, 4, 5, 6, 7, 8, 9, 10, 11, 12, 13, 14, 15,
			16, 17, 18, 19, 20, 21, 22, 23, 24, 25, 26, 27, 28, 29, 30, 31 },
		{ 0x00, 0x11, 0x22, 0x33, 0x44, 0x55, 0x66, 0x77, 0x88, 0x99, 0xaa, 0xbb, 0xcc, 0xdd, 0xee, 0xff },
		{ 0x8e, 0xa2, 0xb7, 0xca, 0x51, 0x67, 0x45, 0xbf, 0xea, 0xfc, 0x49, 0x90, 0x4b, 0x49, 0x60, 0x89 } },
};

static int joins_to(const struct shared *s, const uint8_t *shares, const uint8_t want[16])
{
	uint8_t joined[16] = { 0 };

	return shared_join(s, shares, joined) && memcmp(joined, want, 16) == 0;
}

/* By a single call: an example's block or ciphertext becomes the other. */
static int becomes(block_call *call, size_t e, const uint8_t from[16], const uint8_t to[16], size_t d, const uint32_t *tape, size_t tape_len)
{
	struct shared s;

	return shared_split(&s, d, examples[e].key, examples[e].key_len, from, tape, tape_len) && shared_pass(&s, call)
		&& joins_to(&s, s.block, to);
}

static int encrypts(size_t e, size_t d, const uint32_t *tape, size_t tape_len)
{
	return becomes(dokkumel_encrypt, e, examples[e].block, examples[e].want, d, tape, tape_len);
}

static int decrypts(size_t e, size_t d, const uint32_t *tape, size_t tape_len)
{
	return becomes(dokkumel_decrypt, e, examples[e].want, examples[e].block, d, tape, tape_len);
}

/* Prepared once, and encrypted from twice. */
static int encrypts_prepared(size_t e, size_t d, const uint32_t *tape, size_t tape_len)
{
	uint8_t prepared[DOKKUMEL_PREPARED(8, 32)] = { 0 }, output[DOKKUMEL_SHARED(8, 16)] = { 0 };
	size_t prepared_len = DOKKUMEL_PREPARED(d, examples[e].key_len), taken = 0;
	struct shared s;

	if (!shared_split(&s, d, examples[e].key, examples[e].key_len, examples[e].block, tape, tape_len)
		|| dokkumel_prepare(d, s.key, s.key_len, s.tape, s.tape_len, prepared, prepared_len, &taken) != DOKKUMEL_OK
		|| taken != (size_t)DOKKUMEL_PREPARE_TAPE(d, s.key_bytes))
		return 0;
	for (int turn = 0; turn < 2; turn++) {
		shared_move_on(&s, taken);
		memset(output, 0, sizeof output);
		if (dokkumel_encrypt_prepared(d, prepared, prepared_len, s.block, s.block_len, s.tape, s.tape_len,
			output, s.block_len, &taken) != DOKKUMEL_OK
			|| taken != (size_t)DOKKUMEL_ENCRYPT_PREPARED_TAPE(d, s.key_bytes) || !joins_to(&s, output, examples[e].want))
			return 0;
	}
	return 1;
}

void known_published(void)
{
	char name[40];

	for (size_t e = 0; e < sizeof examples / sizeof examples[0]; e++) {
		known_on_tapes(examples[e].name, e, encrypts);
		snprintf(name, sizeof name, "%s, backwards", examples[e].name);
		known_on_tapes(name, e, decrypts);
		snprintf(name, sizeof name, "%s, from prepared keys", examples[e].name);
		known_on_tapes(name, e, encrypts_prepared);
	}
}
