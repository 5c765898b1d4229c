/* Bytes and numbers that follow from a seed (splitmix64), so that a run can be run again. */
#ifndef NOISE_H
#define NOISE_H

#include <stddef.h>
#include <stdint.h>

struct noise {
	uint64_t state;
};

uint64_t noise_next(struct noise *n);

/* A number below bound, which is not 0. */
size_t noise_below(struct noise *n, size_t bound);

void noise_fill(struct noise *n, void *to, size_t len);

#endif
