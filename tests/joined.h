/* What the output of a call with a key joins to, beside what the joined key and block give without shares. */
#ifndef JOINED_H
#define JOINED_H

#include <stddef.h>
#include <stdint.h>

#include "guarded.h"
#include "plan.h"

struct joined {
	uint8_t made[240], want[240]; /* at most the round keys of a 32-byte key */
	size_t len;
	const char *whose;            /* who made want */
};

/* The XOR of n shares of l bytes. */
void joined_string(uint8_t *out, const uint8_t *shares, size_t n, size_t l);

/*
 * Of a call that was carried through. An encryption or a decryption with a key is OpenSSL's to repeat; round keys, and an encryption from
 * whatever the prepared keys hold, the plain standard's: steps.h at order 0, which draws nothing.
 */
void joined_make(struct joined *j, const struct plan *c, const struct guarded *g);

#endif
