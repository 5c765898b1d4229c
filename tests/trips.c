/* Round trips of document 02, wish 2: there at one order, and back under other shares of the same key, at the same order or at another. */
#include "known.h"

#include "noise.h"
#include "shared.h"

#include <inttypes.h>
#include <stdio.h>
#include <string.h>

#define TURNS 4

static const struct {
	const char *name;
	block_call *there, *back;
} trips[] = {
	{ "encrypted and decrypted", dokkumel_encrypt, dokkumel_decrypt },
	{ "decrypted and encrypted", dokkumel_decrypt, dokkumel_encrypt },
};

/* A random key and block. */
struct secret {
	size_t key_bytes;
	uint8_t key[32], block[16];
};

/* Shares of the key and of a block on fresh tape, so that the key's are others each time. */
static int split_afresh(struct shared *s, size_t d, const struct secret *x, const uint8_t *block, struct noise *n)
{
	static uint32_t tape[DOKKUMEL_SPLIT_TAPE(8, 32) + DOKKUMEL_SPLIT_TAPE(8, 16) + DOKKUMEL_ENCRYPT_TAPE(8, 32)];
	size_t l = x->key_bytes, len = DOKKUMEL_SPLIT_TAPE(d, l) + DOKKUMEL_SPLIT_TAPE(d, 16) + DOKKUMEL_ENCRYPT_TAPE(d, l);

	noise_fill(n, tape, len * sizeof tape[0]);
	return shared_split(s, d, x->key, l, block, tape, len);
}

/* At one order the shares go on as they are; at two they are joined and split again between. What they join to there is another block. */
static int comes_back(size_t trip, const struct secret *x, size_t d, size_t e, struct noise *n)
{
	uint8_t middle[16] = { 0 }, last[16] = { 0 };
	struct shared s, t;

	if (!split_afresh(&s, d, x, x->block, n) || !shared_pass(&s, trips[trip].there) || !shared_join(&s, s.block, middle)
		|| !split_afresh(&t, e, x, middle, n))
		return 0;
	if (d == e)
		memcpy(t.block, s.block, s.block_len);
	return shared_pass(&t, trips[trip].back) && shared_join(&t, t.block, last) && memcmp(last, x->block, 16) == 0
		&& memcmp(middle, x->block, 16) != 0;
}

/* At every two orders. */
static void at_orders(size_t trip, size_t key_bytes, uint64_t seed, struct noise *n)
{
	char what[120];

	for (size_t k = 0; k < TURNS * DOKKUMEL_MAX_ORDER * DOKKUMEL_MAX_ORDER; k++) {
		size_t d = 1 + k % DOKKUMEL_MAX_ORDER, e = 1 + k / DOKKUMEL_MAX_ORDER % DOKKUMEL_MAX_ORDER;
		struct secret x = { .key_bytes = key_bytes };

		noise_fill(n, x.key, sizeof x.key);
		noise_fill(n, x.block, sizeof x.block);
		snprintf(what, sizeof what, "a block %s at orders %zu and %zu, key of %zu bytes, seed %" PRIu64 ", comes back",
			trips[trip].name, d, e, key_bytes, seed);
		known_is(comes_back(trip, &x, d, e, n), what);
	}
}

void known_trips(uint64_t seed)
{
	struct noise n = { seed };

	for (size_t trip = 0; trip < sizeof trips / sizeof trips[0]; trip++)
		for (size_t key_bytes = 16; key_bytes <= 32; key_bytes += 8)
			at_orders(trip, key_bytes, seed, &n);
}
