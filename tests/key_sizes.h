/* Numbers of documents 01 and 02 for keys of 16, 24 and 32 bytes, in this order; not by the header's macros. */
#ifndef KEY_SIZES_H
#define KEY_SIZES_H

#include <stddef.h>

/* Bytes of a share of a key, and of its round keys. */
extern const size_t key_bytes[3], round_key_bytes[3];

/* S-boxes of the key expansion, of the rounds, and of both. */
extern const size_t key_sboxes[3], round_sboxes[3], all_sboxes[3];

/* Whether len is d + 1 times one of the three sizes. */
int fits_size(size_t len, size_t d, const size_t sizes[3]);

#endif
