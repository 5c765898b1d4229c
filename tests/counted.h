/* The two counts that a call leaves behind its last two pointers: words of tape taken, and field products done inside masked products. */
#ifndef COUNTED_H
#define COUNTED_H

#include <stddef.h>
#include <stdint.h>

struct counted {
	size_t taken, products;
};

/* Those two pointers. */
#define COUNTED(c) &(c).taken, &(c).products

/* To stand there before a call. No call counts so many, and the two differ: so a call shows which it has set, and whether it has exchanged them. */
extern const struct counted counted_before;

int counted_is(struct counted c, size_t taken, size_t products);
int counted_same(struct counted a, struct counted b);

/* Two counts out of buffers of bytes. */
struct counted counted_in(const uint8_t *taken, const uint8_t *products);

#endif
