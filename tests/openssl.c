#include "openssl.h"

#include <openssl/evp.h>
#include <stdio.h>
#include <stdlib.h>

/* encrypting is 1, or 0 to decrypt, as OpenSSL has it. */
static void one_block(int encrypting, const uint8_t *key, size_t key_len, const uint8_t *block, uint8_t *out)
{
	const EVP_CIPHER *cipher = key_len == 16 ? EVP_aes_128_ecb() : key_len == 24 ? EVP_aes_192_ecb() : EVP_aes_256_ecb();
	EVP_CIPHER_CTX *ctx = EVP_CIPHER_CTX_new();
	int made = 0;

	if (ctx == NULL || !EVP_CipherInit_ex(ctx, cipher, NULL, key, NULL, encrypting) || !EVP_CIPHER_CTX_set_padding(ctx, 0)
		|| !EVP_CipherUpdate(ctx, out, &made, block, 16) || made != 16) {
		fputs("OpenSSL does not serve\n", stderr);
		exit(2);
	}
	EVP_CIPHER_CTX_free(ctx);
}

void openssl_encrypt(const uint8_t *key, size_t key_len, const uint8_t block[16], uint8_t out[16])
{
	one_block(1, key, key_len, block, out);
}

void openssl_decrypt(const uint8_t *key, size_t key_len, const uint8_t block[16], uint8_t out[16])
{
	one_block(0, key, key_len, block, out);
}
