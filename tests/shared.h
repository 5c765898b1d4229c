/* A key and a block in shares, through the C interface, and the tape that is left. Each answers 1, or 0 if a call is refused or takes another
   count. */
#ifndef SHARED_H
#define SHARED_H

#include "block_call.h"
#include "dokkumel.h"

struct shared {
	size_t d, key_bytes, key_len, block_len;
	uint8_t key[DOKKUMEL_SHARED(8, 32)], block[DOKKUMEL_SHARED(8, 16)];
	const uint32_t *tape;
	size_t tape_len;
};

/* Splits key and block at order d. */
int shared_split(struct shared *s, size_t d, const uint8_t *key, size_t key_bytes, const uint8_t *block,
	const uint32_t *tape, size_t tape_len);

/* Encrypts or decrypts the block, whose shares then stand in its place. */
int shared_pass(struct shared *s, block_call *call);

/* Joins a block in shares at the same order. */
int shared_join(const struct shared *s, const uint8_t *shares, uint8_t block[16]);

/* Leaves so many words of the tape behind. */
void shared_move_on(struct shared *s, size_t taken);

#endif
