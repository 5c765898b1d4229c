/* The cube's sheet beside the routines that it is made of: the shares squared, dokkumel_refresh(), and dokkumel_product() and its sheet, each on its
   part of the same bytes. */
#include "known.h"

#include "dokkumel.h"
#include "joined.h"
#include "noise.h"
#include "steps.h"

#include <inttypes.h>
#include <stdio.h>
#include <string.h>

#define TURNS 200

/* The shares of a byte, and the bytes that its cube draws: one row for the refresh, and one for the product. */
struct cube {
	size_t d, n, pairs;
	uint8_t x[MAX_SHARES], drawn[DOKKUMEL_CUBE_BYTES(MAX_ORDER)];
};

/* The calls by themselves. In the cube's tape the product's bytes may start in the middle of a word, so both have tapes of their own. */
static int compose(const struct cube *c, uint8_t *squares, uint8_t *product, uint8_t *sheet)
{
	uint32_t first[DOKKUMEL_REFRESH_TAPE(MAX_ORDER)], second[DOKKUMEL_PRODUCT_TAPE(MAX_ORDER)];
	size_t n = c->n, words = tape_words(c->pairs), taken = 0;
	uint8_t z[MAX_SHARES] = { 0 };

	tape_pack(first, c->drawn, c->pairs);
	tape_pack(second, c->drawn + c->pairs, c->pairs);
	for (size_t i = 0; i < n; i++)
		squares[i] = step_times(c->x[i], c->x[i]);
	return dokkumel_refresh(c->d, squares, n, first, words, z, n, &taken) == DOKKUMEL_OK
		&& dokkumel_product(c->d, z, n, c->x, n, second, words, product, n, &taken) == DOKKUMEL_OK
		&& dokkumel_product_sheet(c->d, z, n, c->x, n, second, words, sheet, DOKKUMEL_PLACES(c->d), &taken) == DOKKUMEL_OK;
}

/* Whether the shares join to the cube of what x joins to. */
static int is_cube(const struct cube *c, const uint8_t *product)
{
	uint8_t x, y;

	joined_string(&x, c->x, c->n, 1);
	joined_string(&y, product, c->n, 1);
	return y == step_times(step_times(x, x), x);
}

static int is_composed(const struct cube *c)
{
	uint32_t tape[DOKKUMEL_CUBE_TAPE(MAX_ORDER)];
	uint8_t made[MAX_CUBE_PLACES] = { 0 }, squares[MAX_SHARES], product[MAX_SHARES] = { 0 }, sheet[MAX_PLACES] = { 0 };
	size_t places = DOKKUMEL_CUBE_PLACES(c->d), last = DOKKUMEL_PLACES(c->d), taken = 0;
	int same = 1;

	tape_pack(tape, c->drawn, 2 * c->pairs);
	if (!compose(c, squares, product, sheet)
		|| dokkumel_cube_sheet(c->d, c->x, c->n, tape, tape_words(2 * c->pairs), made, places, &taken) != DOKKUMEL_OK)
		return 0;
	for (size_t k = 0; k < c->pairs; k++)
		same &= made[c->n + 3 * k] == c->drawn[k];
	/* the sheet ends with n rows of running sums, n bytes each; the last of a row is a share of the product */
	for (size_t i = 0; i < c->n; i++)
		same &= made[places - 1 - c->n * (c->d - i)] == product[i];
	return same && memcmp(made, squares, c->n) == 0 && memcmp(made + places - last, sheet, last) == 0 && is_cube(c, product);
}

void known_cubes(uint64_t seed)
{
	struct noise n = { seed };
	char what[100];

	for (size_t k = 0; k < TURNS * MAX_ORDER; k++) {
		size_t d = 1 + k % MAX_ORDER;
		struct cube c = { .d = d, .n = d + 1, .pairs = DOKKUMEL_PAIRS(d) };

		noise_fill(&n, c.x, sizeof c.x);
		noise_fill(&n, c.drawn, sizeof c.drawn);
		snprintf(what, sizeof what, "a cube at order %zu, seed %" PRIu64 ", is composed of its steps", d, seed);
		known_is(is_composed(&c), what);
	}
}
