/* Where the bytes that a call draws end: in the middle of a word, it may be. */
#ifndef DROPPED_H
#define DROPPED_H

#include "guarded.h"
#include "plan.h"

/*
 * Makes c, which was carried through, twice more by the library: once with all changed that it need not draw, dropped bytes and surplus words, and
 * once with the last byte that it must. Answers NULL if the first has no effect, and the second has one; else what differs.
 */
const char *dropped_differs(const struct plan *c, const struct guarded *g);

#endif
