/* Each call asks document 01's questions in the table's order, and only then writes. */
#include "second.h"
#include "steps.h"

#include <string.h>

/* 16, 24 or 32 if total is so many bytes for each of n shares; else 0. */
static size_t share_length(size_t total, size_t n)
{
	for (size_t l = 16; l <= 32; l += 8)
		if (total == n * l)
			return l;
	return 0;
}

uint32_t second_split(size_t order, const uint8_t *input, size_t input_len, const uint32_t *tape, size_t tape_len,
	uint8_t *output, size_t output_len, size_t *taken)
{
	if (order < 1 || order > MAX_ORDER)
		return 1;
	if (share_length(input_len, 1) == 0)
		return 3;
	if (output_len != input_len + order * input_len)
		return 4;
	if (tape_len < tape_words(order * input_len))
		return 5;
	for (size_t k = 0; k < input_len; k++) {
		output[k] = input[k];
		for (size_t i = 1; i <= order; i++)
			output[k] ^= output[i * input_len + k] = tape_byte(tape, (i - 1) * input_len + k);
	}
	*taken = tape_words(order * input_len);
	return 0;
}

uint32_t second_join(size_t order, const uint8_t *input, size_t input_len,
	uint8_t *output, size_t output_len, size_t *taken)
{
	if (order < 1 || order > MAX_ORDER)
		return 1;
	if (share_length(input_len, order + 1) == 0)
		return 3;
	if (output_len != input_len / (order + 1))
		return 4;
	memset(output, 0, output_len);
	for (size_t k = 0; k < input_len; k++)
		output[k % output_len] ^= input[k];
	*taken = 0;
	return 0;
}

/* Refusal 5 of all that draws so many bytes for each pair of shares: one for the refresh and the three of the product, two for those of the cube. */
static int short_tape(size_t order, size_t bytes, size_t tape_len)
{
	return tape_len < tape_words(bytes * (order * (order + 1) / 2));
}

uint32_t second_refresh(size_t order, const uint8_t *input, size_t input_len, const uint32_t *tape, size_t tape_len,
	uint8_t *output, size_t output_len, size_t *taken)
{
	struct tape t = { tape, 0 };

	if (order < 1 || order > MAX_ORDER)
		return 1;
	if (input_len != order + 1)
		return 3;
	if (output_len != order + 1)
		return 4;
	if (short_tape(order, 1, tape_len))
		return 5;
	memcpy(output, input, input_len);
	step_refresh(order, output, &t);
	*taken = tape_words(t.drawn);
	return 0;
}

/* Refusals 1 and 3 of the product, its sheet and the reading of places; 5 is asked apart, as its turn differs. */
static uint32_t unfit_factors(size_t order, size_t left_len, size_t right_len)
{
	if (order < 1 || order > MAX_ORDER)
		return 1;
	return left_len != order + 1 || right_len != order + 1 ? 3 : 0;
}

static size_t places_of(size_t order)
{
	size_t n = order + 1;

	return 2 * n + 5 * (order * n / 2) + n * n;
}

static size_t cube_places_of(size_t order)
{
	size_t n = order + 1;

	return n + 3 * (order * n / 2) + places_of(order);
}

/* Refusals 4, 6 and 7 of a reading, from a sheet of so many places. */
static uint32_t unfit_list(size_t order, const uint16_t *list, size_t list_len, size_t output_len, size_t places)
{
	if (output_len != list_len)
		return 4;
	if (list_len > order)
		return 6;
	for (size_t k = 0; k < list_len; k++)
		if (list[k] >= places)
			return 7;
	return 0;
}

static void read_listed(const uint8_t *places, const uint16_t *list, size_t list_len, uint8_t *output)
{
	for (size_t k = 0; k < list_len; k++)
		output[k] = places[list[k]];
}

uint32_t second_product(size_t order, const uint8_t *left, size_t left_len, const uint8_t *right, size_t right_len,
	const uint32_t *tape, size_t tape_len, uint8_t *output, size_t output_len, size_t *taken)
{
	struct tape t = { tape, 0 };
	uint8_t places[MAX_PLACES];
	uint32_t refusal = unfit_factors(order, left_len, right_len);

	if (refusal != 0)
		return refusal;
	if (output_len != order + 1)
		return 4;
	if (short_tape(order, 1, tape_len))
		return 5;
	step_product(order, left, right, &t, output, places);
	*taken = tape_words(t.drawn);
	return 0;
}

uint32_t second_product_sheet(size_t order, const uint8_t *left, size_t left_len, const uint8_t *right, size_t right_len,
	const uint32_t *tape, size_t tape_len, uint8_t *output, size_t output_len, size_t *taken)
{
	struct tape t = { tape, 0 };
	uint8_t product[MAX_SHARES];
	uint32_t refusal = unfit_factors(order, left_len, right_len);

	if (refusal != 0)
		return refusal;
	if (output_len != places_of(order))
		return 4;
	if (short_tape(order, 1, tape_len))
		return 5;
	step_product(order, left, right, &t, product, output);
	*taken = tape_words(t.drawn);
	return 0;
}

uint32_t second_read_places(size_t order, const uint8_t *left, size_t left_len, const uint8_t *right, size_t right_len,
	const uint32_t *tape, size_t tape_len, const uint16_t *list, size_t list_len,
	uint8_t *output, size_t output_len, size_t *taken)
{
	struct tape t = { tape, 0 };
	uint8_t product[MAX_SHARES], places[MAX_PLACES];
	uint32_t refusal = unfit_factors(order, left_len, right_len);

	if (refusal != 0)
		return refusal;
	if (short_tape(order, 1, tape_len))
		return 5;
	refusal = unfit_list(order, list, list_len, output_len, places_of(order));
	if (refusal != 0)
		return refusal;
	step_product(order, left, right, &t, product, places);
	read_listed(places, list, list_len, output);
	*taken = tape_words(t.drawn);
	return 0;
}

uint32_t second_cube_sheet(size_t order, const uint8_t *input, size_t input_len, const uint32_t *tape, size_t tape_len,
	uint8_t *output, size_t output_len, size_t *taken)
{
	struct tape t = { tape, 0 };
	uint8_t square[MAX_SHARES], cube[MAX_SHARES];

	if (order < 1 || order > MAX_ORDER)
		return 1;
	if (input_len != order + 1)
		return 3;
	if (output_len != cube_places_of(order))
		return 4;
	if (short_tape(order, 2, tape_len))
		return 5;
	step_cube(order, input, &t, square, cube, output);
	*taken = tape_words(t.drawn);
	return 0;
}

uint32_t second_read_cube_places(size_t order, const uint8_t *input, size_t input_len, const uint32_t *tape, size_t tape_len,
	const uint16_t *list, size_t list_len, uint8_t *output, size_t output_len, size_t *taken)
{
	struct tape t = { tape, 0 };
	uint8_t square[MAX_SHARES], cube[MAX_SHARES], places[MAX_CUBE_PLACES];
	uint32_t refusal;

	if (order < 1 || order > MAX_ORDER)
		return 1;
	if (input_len != order + 1)
		return 3;
	if (short_tape(order, 2, tape_len))
		return 5;
	refusal = unfit_list(order, list, list_len, output_len, cube_places_of(order));
	if (refusal != 0)
		return refusal;
	step_cube(order, input, &t, square, cube, places);
	read_listed(places, list, list_len, output);
	*taken = tape_words(t.drawn);
	return 0;
}

uint32_t second_sbox(size_t order, const uint8_t *input, size_t input_len, const uint32_t *tape, size_t tape_len,
	uint8_t *output, size_t output_len, size_t *taken)
{
	struct tape t = { tape, 0 };

	if (order < 1 || order > MAX_ORDER)
		return 1;
	if (input_len != order + 1)
		return 3;
	if (output_len != order + 1)
		return 4;
	if (tape_len < tape_words(step_sbox_bytes(order)))
		return 5;
	memcpy(output, input, input_len);
	step_sbox(order, output, &t);
	*taken = tape_words(t.drawn);
	return 0;
}

size_t second_unused_tape(const uint32_t *tape, size_t tape_len, size_t count)
{
	(void)tape;
	return count < tape_len ? count : tape_len;
}
