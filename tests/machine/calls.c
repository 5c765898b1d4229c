#include "calls.h"

#include "inputs.h"
#include "stepping.h"

#include <string.h>

void call_begin(const struct call *c, size_t order, struct notes *n)
{
	in.order = order;
	in.n = DOKKUMEL_SHARES(order);
	in.box = DOKKUMEL_SBOX_BYTES(order);
	in.status = DOKKUMEL_OK;
	c->set();
	n->from = in.from;
	n->to = in.to;
	in.tape = steps_new(in.tape_len, in.start, in.end);
	memset(in.out, 0, sizeof in.out);
	steps_watch(in.out, in.out_len);
}

bool call_counts(const struct call *c, const struct notes *n)
{
	return c->places == NULL || c->places() == n->places;
}

bool call_agrees(void)
{
	return in.status == DOKKUMEL_OK && memcmp(in.out, in.second, in.out_len) == 0;
}
