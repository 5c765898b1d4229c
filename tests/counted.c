#include "counted.h"

#include <string.h>

const struct counted counted_before = { 1234567, 7654321 };

int counted_is(struct counted c, size_t taken, size_t products)
{
	return c.taken == taken && c.products == products;
}

int counted_same(struct counted a, struct counted b)
{
	return counted_is(a, b.taken, b.products);
}

struct counted counted_in(const uint8_t *taken, const uint8_t *products)
{
	struct counted c;

	memcpy(&c.taken, taken, sizeof c.taken);
	memcpy(&c.products, products, sizeof c.products);
	return c;
}
