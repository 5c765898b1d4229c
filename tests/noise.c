#include "noise.h"

#include <string.h>

uint64_t noise_next(struct noise *n)
{
	uint64_t z = n->state += UINT64_C(0x9e3779b97f4a7c15);

	z = (z ^ (z >> 30)) * UINT64_C(0xbf58476d1ce4e5b9);
	z = (z ^ (z >> 27)) * UINT64_C(0x94d049bb133111eb);
	return z ^ (z >> 31);
}

size_t noise_below(struct noise *n, size_t bound)
{
	return noise_next(n) % bound;
}

void noise_fill(struct noise *n, void *to, size_t len)
{
	uint8_t *at = to;

	while (len > 0) {
		uint64_t word = noise_next(n);
		size_t some = len < sizeof word ? len : sizeof word;

		memcpy(at, &word, some);
		at += some;
		len -= some;
	}
}
