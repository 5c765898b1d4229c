/* The lengths that a routine asks for, by the header's macros. */
#ifndef LENGTHS_H
#define LENGTHS_H

#include "plan.h"

/* How many places the routine's sheet has at order d: a product's, or a cube's. */
size_t lengths_places(enum routine routine, size_t d);

/* Lengths that fit at order d, with strings of l bytes; the tape has as many words as the call needs. A reading's list comes later. */
void lengths_fit(struct plan *p, size_t d, size_t l);

/* The lengths that the plan's own order would ask for if its numbers wrapped, where these are small. */
void lengths_wrap(struct plan *p, size_t l);

#endif
