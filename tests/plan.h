/* A random call before it is made: which routine, which order, and how long each buffer is. */
#ifndef PLAN_H
#define PLAN_H

#include <stddef.h>
#include <stdint.h>

#include "noise.h"

enum routine {
	SPLIT, JOIN, REFRESH, PRODUCT, SHEET, READ, CUBE_SHEET, READ_CUBE, SBOX, ENCRYPT, DECRYPT, PREPARE, ENCRYPT_PREPARED, UNUSED, ROUTINES
};

/* INPUT is also the left factor, KEY also prepared keys. */
enum buffer { KEY, INPUT, RIGHT, TAPE, LIST, OUTPUT, TAKEN, BUFFERS };

/* Bytes of an entry of each buffer: a tape has words, a list numbers of 16 bits. */
extern const size_t plan_units[BUFFERS];

#define MAX_LIST 64

/* A tape is at most so many words longer than its call needs. */
#define MAX_SURPLUS 2000

struct plan {
	enum routine routine;
	size_t order;
	size_t count;          /* dokkumel_unused_tape's */
	size_t len[BUFFERS];   /* in entries */
	uint16_t list[MAX_LIST];
};

/* Half of the plans fit; the others have one to three things that may not. */
void plan_make(struct plan *p, struct noise *n);

/* Whether the routine reads places by a list. */
int plan_reads(const struct plan *p);

/* Of a call that was carried through: 16, 24 or 32 for its key's size, prepared or not; 0 if the routine takes no key. */
size_t plan_key_bytes(const struct plan *p);

#endif
