/* Encryption, decryption and encryption from prepared keys have the same parameters: one block in shares, under a key in shares. */
#ifndef BLOCK_CALL_H
#define BLOCK_CALL_H

#include <stddef.h>
#include <stdint.h>

typedef uint32_t block_call(size_t order, const uint8_t *key, size_t key_len, const uint8_t *input, size_t input_len,
	const uint32_t *tape, size_t tape_len, uint8_t *output, size_t output_len, size_t *taken);

/* Their previews, by lengths alone. */
typedef uint32_t block_preview(size_t order, size_t key_len, size_t input_len, size_t tape_len, size_t output_len, size_t *taken);

#endif
