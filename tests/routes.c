#include "routes.h"

#include "dokkumel.h"
#include "joined.h"
#include "openssl.h"

#include <string.h>

/* The joined ciphertext against an unrelated AES. */
static int unrelated_differs(const struct plan *c, const struct guarded *g, const uint8_t *output)
{
	size_t n = c->order + 1, l = c->len[KEY] / n;
	uint8_t key[32], block[16], made[16], want[16];

	joined_string(key, g[KEY].before, n, l);
	joined_string(block, g[INPUT].before, n, 16);
	joined_string(made, output, n, 16);
	openssl_encrypt(key, l, block, want);
	return memcmp(made, want, 16) != 0;
}

const char *routes_differ(const struct plan *c, const struct guarded *g)
{
	uint8_t prepared[DOKKUMEL_PREPARED(8, 32)] = { 0 }, output[DOKKUMEL_SHARED(8, 16)] = { 0 };
	size_t d = c->order, prepared_len = DOKKUMEL_PREPARED(d, c->len[KEY] / (d + 1)), tape_len = c->len[TAPE];
	size_t at, single, preparing = 0, encrypting = 0;
	const uint32_t *tape = (const uint32_t *)(void *)g[TAPE].before;

	memcpy(&single, g[TAKEN].lent, sizeof single);
	if (dokkumel_prepare(d, g[KEY].before, c->len[KEY], tape, tape_len, prepared, prepared_len, &preparing) != DOKKUMEL_OK)
		return "preparing the key is refused";
	at = dokkumel_unused_tape(tape, tape_len, preparing);
	if (dokkumel_encrypt_prepared(d, prepared, prepared_len, g[INPUT].before, c->len[INPUT], tape + at, tape_len - at,
		output, c->len[OUTPUT], &encrypting) != DOKKUMEL_OK)
		return "encrypting from the prepared keys is refused";
	if (unrelated_differs(c, g, output))
		return "the joined ciphertext from prepared keys is not OpenSSL's";
	if (memcmp(output, g[OUTPUT].lent, c->len[OUTPUT]) != 0)
		return "the shares from prepared keys are not those of the single call";
	if (preparing + encrypting != single)
		return "the counts of preparing and encrypting don't add up to the single call's";
	return NULL;
}
