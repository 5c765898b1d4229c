#include "calls.h"

#include "dropped.h"
#include "foretold.h"
#include "guarded.h"
#include "joined.h"
#include "made.h"
#include "plan.h"
#include "routes.h"
#include "table.h"

#include <inttypes.h>
#include <stdio.h>
#include <stdlib.h>
#include <string.h>

static const char *const buffer_names[BUFFERS] = { "key", "input", "right", "tape", "list", "output", "taken" };

static uint64_t the_seed;
static unsigned long the_call;

static void fail_at(const struct plan *c)
{
	printf("FAIL: %s, seed %" PRIu64 ", call %lu, order %zu", routine_names[c->routine], the_seed, the_call, c->order);
	for (int b = 0; b < BUFFERS; b++)
		printf(", %s_len %zu", buffer_names[b], c->len[b]);
	printf(", count %zu: ", c->count);
}

/* Ends the program if x and y, two copies of a buffer, differ. */
static void same(const struct plan *c, int b, const struct guarded *g, const uint8_t *x, const uint8_t *y, const char *whose)
{
	ptrdiff_t i = guarded_differ(g, x, y);

	if (i == guarded_end(g))
		return;
	fail_at(c);
	printf("%s byte %td%s is %02x, %s %02x\n", buffer_names[b], i,
		i < 0 ? " (the guard in front)" : (size_t)i >= g->len ? " (the guard behind)" : "", x[i], whose, y[i]);
	exit(1);
}

/* Ends the program if something differs. */
static void none(const struct plan *c, const char *differs)
{
	if (differs == NULL)
		return;
	fail_at(c);
	puts(differs);
	exit(1);
}

/* What the output joins to, and for an encryption the other route. */
static void compare_joined(const struct plan *c, const struct guarded *g)
{
	struct joined j;

	joined_make(&j, c, g);
	for (size_t k = 0; k < j.len; k++) {
		if (j.made[k] != j.want[k]) {
			fail_at(c);
			printf("joined output byte %zu is %02x, %s %02x\n", k, j.made[k], j.whose, j.want[k]);
			exit(1);
		}
	}
	if (c->routine == ENCRYPT)
		none(c, routes_differ(c, g));
}

static void compare(const struct plan *c, struct guarded *g)
{
	uint8_t *lent[BUFFERS], *second[BUFFERS];
	uint32_t status, wanted;

	for (int b = 0; b < BUFFERS; b++) {
		lent[b] = g[b].lent;
		second[b] = g[b].second;
	}
	status = made_by_library(c, lent);
	wanted = made_by_second(c, second);
	if (status != wanted) {
		fail_at(c);
		printf("status is %" PRIu32 ", the second's %" PRIu32 "\n", status, wanted);
		exit(1);
	}
	for (int b = 0; b < BUFFERS; b++) {
		if (status != 0 || b < OUTPUT)
			same(c, b, &g[b], g[b].lent, g[b].before, "before the call");
		same(c, b, &g[b], g[b].lent, g[b].second, "the second's");
	}
	none(c, foretold_differs(c, g, status));
	if (status == 0)
		none(c, dropped_differs(c, g));
	if (status == 0 && plan_key_bytes(c) != 0)
		compare_joined(c, g);
	table_count(c, status);
}

void calls_compare(uint64_t seed, unsigned long calls)
{
	struct noise n = { seed };

	the_seed = seed;
	for (the_call = 0; the_call < calls; the_call++) {
		struct guarded g[BUFFERS];
		struct plan c;

		plan_make(&c, &n);
		for (int b = 0; b < BUFFERS; b++)
			guarded_make(&g[b], &n, c.len[b], plan_units[b]);
		guarded_set(&g[LIST], 0, c.list, g[LIST].len);
		compare(&c, g);
		for (int b = 0; b < BUFFERS; b++)
			guarded_free(&g[b]);
	}
	if (!table_print())
		exit(1);
}

void calls_try_guards(void)
{
	struct noise n = { 1 };
	struct guarded g;

	guarded_make(&g, &n, 10, 1);
	for (ptrdiff_t i = -(ptrdiff_t)g.front; i < guarded_end(&g); i++) {
		g.lent[i] ^= 1;
		if (guarded_differ(&g, g.lent, g.before) != i) {
			printf("FAIL: a change at byte %td of a guarded buffer is not found\n", i);
			exit(1);
		}
		g.lent[i] ^= 1;
	}
	guarded_free(&g);
}
