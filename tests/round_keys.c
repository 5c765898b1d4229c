/* FIPS 197's examples of key expansion, through splitting, preparing and joining, round key by round key. */
#include "known.h"

#include "dokkumel.h"

#include <string.h>

/* The words w[0], w[1] and so on as the standard prints them; the first are the key. */
static const struct {
	const char *name;
	size_t key_bytes;
	uint32_t words[60];
} examples[] = {
	{ "appendix A.1", 16, {
		0x2b7e1516, 0x28aed2a6, 0xabf71588, 0x09cf4f3c, 0xa0fafe17, 0x88542cb1, 0x23a33939, 0x2a6c7605,
		0xf2c295f2, 0x7a96b943, 0x5935807a, 0x7359f67f, 0x3d80477d, 0x4716fe3e, 0x1e237e44, 0x6d7a883b,
		0xef44a541, 0xa8525b7f, 0xb671253b, 0xdb0bad00, 0xd4d1c6f8, 0x7c839d87, 0xcaf2b8bc, 0x11f915bc,
		0x6d88a37a, 0x110b3efd, 0xdbf98641, 0xca0093fd, 0x4e54f70e, 0x5f5fc9f3, 0x84a64fb2, 0x4ea6dc4f,
		0xead27321, 0xb58dbad2, 0x312bf560, 0x7f8d292f, 0xac7766f3, 0x19fadc21, 0x28d12941, 0x575c006e,
		0xd014f9a8, 0xc9ee2589, 0xe13f0cc8, 0xb6630ca6 } },
	{ "appendix A.2", 24, {
		0x8e73b0f7, 0xda0e6452, 0xc810f32b, 0x809079e5, 0x62f8ead2, 0x522c6b7b, 0xfe0c91f7, 0x2402f5a5,
		0xec12068e, 0x6c827f6b, 0x0e7a95b9, 0x5c56fec2, 0x4db7b4bd, 0x69b54118, 0x85a74796, 0xe92538fd,
		0xe75fad44, 0xbb095386, 0x485af057, 0x21efb14f, 0xa448f6d9, 0x4d6dce24, 0xaa326360, 0x113b30e6,
		0xa25e7ed5, 0x83b1cf9a, 0x27f93943, 0x6a94f767, 0xc0a69407, 0xd19da4e1, 0xec1786eb, 0x6fa64971,
		0x485f7032, 0x22cb8755, 0xe26d1352, 0x33f0b7b3, 0x40beeb28, 0x2f18a259, 0x6747d26b, 0x458c553e,
		0xa7e1466c, 0x9411f1df, 0x821f750a, 0xad07d753, 0xca400538, 0x8fcc5006, 0x282d166a, 0xbc3ce7b5,
		0xe98ba06f, 0x448c773c, 0x8ecc7204, 0x01002202 } },
	{ "appendix A.3", 32, {
		0x603deb10, 0x15ca71be, 0x2b73aef0, 0x857d7781, 0x1f352c07, 0x3b6108d7, 0x2d9810a3, 0x0914dff4,
		0x9ba35411, 0x8e6925af, 0xa51a8b5f, 0x2067fcde, 0xa8b09c1a, 0x93d194cd, 0xbe49846e, 0xb75d5b9a,
		0xd59aecb8, 0x5bf3c917, 0xfee94248, 0xde8ebe96, 0xb5a9328a, 0x2678a647, 0x98312229, 0x2f6c79b3,
		0x812c81ad, 0xdadf48ba, 0x24360af2, 0xfab8b464, 0x98c5bfc9, 0xbebd198e, 0x268c3ba7, 0x09e04214,
		0x68007bac, 0xb2df3316, 0x96e939e4, 0x6c518d80, 0xc814e204, 0x76a9fb8a, 0x5025c02d, 0x59c58239,
		0xde136967, 0x6ccc5a71, 0xfa256395, 0x9674ee15, 0x5886ca5d, 0x2e2f31d7, 0x7e0af1fa, 0x27cf73c3,
		0x749c47ab, 0x18501dda, 0xe2757e4f, 0x7401905a, 0xcafaaae3, 0xe4d59b34, 0x9adf6ace, 0xbd10190d,
		0xfe4890d1, 0xe6188d0b, 0x046df344, 0x706c631e } },
};

/* Bytes of words, the first of a word highest. */
static void spell(uint8_t *out, const uint32_t *words, size_t bytes)
{
	for (size_t k = 0; k < bytes; k++)
		out[k] = (uint8_t)(words[k / 4] >> (24 - 8 * (k % 4)));
}

/* Round key r out of prepared keys, joined. */
static int round_key(size_t d, size_t key_bytes, size_t r, const uint8_t *prepared, uint8_t out[16])
{
	uint8_t shares[DOKKUMEL_SHARED(8, 16)];
	size_t taken = 0;

	for (size_t i = 0; i <= d; i++)
		memcpy(shares + 16 * i, prepared + i * 16 * (DOKKUMEL_ROUNDS(key_bytes) + 1) + 16 * r, 16);
	return dokkumel_join(d, shares, DOKKUMEL_SHARED(d, 16), out, 16, &taken) == DOKKUMEL_OK;
}

static int as_printed(size_t e, size_t d, const uint32_t *tape, size_t tape_len)
{
	size_t l = examples[e].key_bytes, key_len = DOKKUMEL_SHARED(d, l), prepared_len = DOKKUMEL_PREPARED(d, l), at, taken = 0;
	uint8_t key[32], shares[DOKKUMEL_SHARED(8, 32)] = { 0 }, prepared[DOKKUMEL_PREPARED(8, 32)] = { 0 };
	uint8_t made[16] = { 0 }, want[16];

	spell(key, examples[e].words, l);
	if (dokkumel_split(d, key, l, tape, tape_len, shares, key_len, &taken) != DOKKUMEL_OK)
		return 0;
	at = dokkumel_unused_tape(tape, tape_len, taken);
	if (dokkumel_prepare(d, shares, key_len, tape + at, tape_len - at, prepared, prepared_len, &taken) != DOKKUMEL_OK)
		return 0;
	for (size_t r = 0; r <= DOKKUMEL_ROUNDS(l); r++) {
		spell(want, examples[e].words + 4 * r, 16);
		if (!round_key(d, l, r, prepared, made) || memcmp(made, want, 16) != 0)
			return 0;
	}
	return 1;
}

void known_round_keys(void)
{
	for (size_t e = 0; e < sizeof examples / sizeof examples[0]; e++)
		known_on_tapes(examples[e].name, e, as_printed);
}
