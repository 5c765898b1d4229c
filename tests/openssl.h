/* AES by OpenSSL's libcrypto: an implementation that has nothing to do with the library. */
#ifndef TESTS_OPENSSL_H
#define TESTS_OPENSSL_H

#include <stddef.h>
#include <stdint.h>

/* One block. key_len is 16, 24 or 32. */
void openssl_encrypt(const uint8_t *key, size_t key_len, const uint8_t block[16], uint8_t out[16]);
void openssl_decrypt(const uint8_t *key, size_t key_len, const uint8_t block[16], uint8_t out[16]);

#endif
