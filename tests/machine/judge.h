/*
 * What a byte is, over all runs of a call. It may be
 *
 *   - the same in every run (a length, an address, a table's byte), or
 *   - a function of one place that is a byte, or of a byte noted apart, or
 *   - a function of the sum of the logs of two factors, at which a table is
 *     read for their product, or
 *   - a sum of bits of one column of one share, in MixColumns and its inverse.
 *
 * The theorem's wide places would allow any function of two factors, or of a
 * whole share. But such a value never repeats, so that every byte would seem
 * to be a function of it: nothing else of a wide place is allowed.
 */
#ifndef JUDGE_H
#define JUDGE_H

#include "../notes.h"
#include "stepping.h"

#include <stdbool.h>

/* Before the first run of a call. */
void judge_new(void);

/* The places of a run, which come in turn. */
void judge_take(const struct notes *n, size_t run);

/* All runs are in. Answers with false where a place takes the same value too seldom to tell what depends on it, and says which. */
bool judge_ready(const struct notes *n, size_t runs);

/* Whether the byte is one that may be held. */
bool judge_allows(const struct lane *l);

/* How many places were noted, how many of them are bytes, and to how many of these some byte was equal in every run. */
struct seen { size_t places, bytes, written; };
struct seen judge_seen(void);

/* What a byte that is not allowed is: the XOR of two or three places, or a function of two. */
const char *judge_tells(const struct lane *l);

#endif
