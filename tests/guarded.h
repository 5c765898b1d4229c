/*
 * A buffer between two guards, three times over: as lent to the library, as
 * lent to the second implementation, and as it was before both. All three
 * start out alike, guards too.
 */
#ifndef GUARDED_H
#define GUARDED_H

#include <stddef.h>
#include <stdint.h>

#include "noise.h"

#define GUARD 64

struct guarded {
	uint8_t *lent, *second, *before; /* the buffers themselves, behind their front guards */
	size_t front;                    /* bytes of front guard */
	size_t len;                      /* in bytes */
};

/* Random entries of unit bytes each, which is 1, 2, 4 or 8. They stand at some multiple of unit: what else they are aligned to is left to chance. */
void guarded_make(struct guarded *g, struct noise *n, size_t entries, size_t unit);
void guarded_free(struct guarded *g);

/* The bytes of one copy, set to the same in all three. */
void guarded_set(struct guarded *g, size_t at, const void *bytes, size_t len);

/*
 * The first byte, guards included, at which x and y differ, counted from the buffer's own first byte (so it is
 * negative in the front guard); or guarded_end() if there is none. x and y are two of the three.
 */
ptrdiff_t guarded_differ(const struct guarded *g, const uint8_t *x, const uint8_t *y);
ptrdiff_t guarded_end(const struct guarded *g);

#endif
