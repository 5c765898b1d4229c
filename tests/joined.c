#include "joined.h"

#include "openssl.h"
#include "steps.h"

#include <string.h>

void joined_string(uint8_t *out, const uint8_t *shares, size_t n, size_t l)
{
	memset(out, 0, l);
	for (size_t k = 0; k < n * l; k++)
		out[k % l] ^= shares[k];
}

void joined_make(struct joined *j, const struct plan *c, const struct guarded *g)
{
	size_t n = c->order + 1, words = plan_key_bytes(c) / 4;
	uint8_t key[240], block[16];
	struct tape none = { NULL, 0 };

	j->len = c->len[OUTPUT] / n;
	j->whose = c->routine == ENCRYPT || c->routine == DECRYPT ? "OpenSSL's" : "the plain standard's";
	joined_string(j->made, g[OUTPUT].lent, n, j->len);
	joined_string(key, g[KEY].before, n, c->len[KEY] / n);
	if (c->routine == PREPARE) {
		step_prepare(0, words, key, &none, j->want);
		return;
	}
	joined_string(block, g[INPUT].before, n, 16);
	if (c->routine == ENCRYPT)
		openssl_encrypt(key, 4 * words, block, j->want);
	else if (c->routine == DECRYPT)
		openssl_decrypt(key, 4 * words, block, j->want);
	else
		step_encrypt_prepared(0, words, key, block, &none, j->want);
}
