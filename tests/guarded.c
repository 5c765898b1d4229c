#include "guarded.h"

#include <stdio.h>
#include <stdlib.h>
#include <string.h>

static uint8_t *copy_of(const uint8_t *bytes, size_t len)
{
	uint8_t *copy = malloc(len);

	if (copy == NULL) {
		fputs("out of memory\n", stderr);
		exit(2);
	}
	memcpy(copy, bytes, len);
	return copy;
}

void guarded_make(struct guarded *g, struct noise *n, size_t entries, size_t unit)
{
	static uint8_t whole[1 << 17];
	size_t front = GUARD + unit * noise_below(n, 16), len = unit * entries, total = front + len + GUARD;

	if (total > sizeof whole) {
		fputs("a buffer is longer than the test provides for\n", stderr);
		exit(2);
	}
	noise_fill(n, whole, total);
	g->lent = copy_of(whole, total) + front;
	g->second = copy_of(whole, total) + front;
	g->before = copy_of(whole, total) + front;
	g->front = front;
	g->len = len;
}

void guarded_free(struct guarded *g)
{
	free(g->lent - g->front);
	free(g->second - g->front);
	free(g->before - g->front);
}

void guarded_set(struct guarded *g, size_t at, const void *bytes, size_t len)
{
	memcpy(g->lent + at, bytes, len);
	memcpy(g->second + at, bytes, len);
	memcpy(g->before + at, bytes, len);
}

ptrdiff_t guarded_end(const struct guarded *g)
{
	return (ptrdiff_t)(g->len + GUARD);
}

ptrdiff_t guarded_differ(const struct guarded *g, const uint8_t *x, const uint8_t *y)
{
	ptrdiff_t i = -(ptrdiff_t)g->front;

	while (i < guarded_end(g) && x[i] == y[i])
		i++;
	return i;
}
