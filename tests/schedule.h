/* The round keys of steps.h: all their words, in shares. */
#ifndef SCHEDULE_H
#define SCHEDULE_H

#include "steps.h"

typedef uint8_t schedule_t[MAX_SHARES][60][4];

/* FIPS 197's key expansion. Key is share after share; words is 4, 6 or 8. */
void schedule_expand(size_t d, size_t words, const uint8_t *key, struct tape *t, schedule_t w);

#endif
