/* The routines on one byte, and the splitting of a block: whole calls, on bytes of small fields. */
#include "calls.h"

#include "counts.h"
#include "inputs.h"

#include <string.h>

#define RUNS 60

void set_refresh(void) { inputs_whole(in.n, DOKKUMEL_REFRESH_TAPE(in.order), in.n); }
static void set_product(void) { inputs_whole(in.n, DOKKUMEL_PRODUCT_TAPE(in.order), in.n); }
static void set_sheet(void) { inputs_whole(in.n, DOKKUMEL_PRODUCT_TAPE(in.order), DOKKUMEL_PLACES(in.order)); }
static void set_cube(void) { inputs_whole(in.n, DOKKUMEL_CUBE_TAPE(in.order), DOKKUMEL_CUBE_PLACES(in.order)); }
void set_sbox(void) { inputs_whole(in.n, DOKKUMEL_SBOX_TAPE(in.order), in.n); }

static void make_refresh(void)
{
	in.status = dokkumel_refresh(in.order, in.left, in.n, in.tape, in.tape_len, in.out, in.out_len, &in.taken);
}

static void make_product(void)
{
	in.status = dokkumel_product(in.order, in.left, in.n, in.right, in.n, in.tape, in.tape_len, in.out, in.out_len, &in.taken);
}

static void make_sheet(void)
{
	in.status = dokkumel_product_sheet(in.order, in.left, in.n, in.right, in.n, in.tape, in.tape_len, in.out, in.out_len, &in.taken);
}

static void make_cube(void)
{
	in.status = dokkumel_cube_sheet(in.order, in.left, in.n, in.tape, in.tape_len, in.out, in.out_len, &in.taken);
}

void make_sbox(void)
{
	in.status = dokkumel_sbox(in.order, in.left, in.n, in.tape, in.tape_len, in.out, in.out_len, &in.taken);
}

void note_refresh(void)
{
	struct tape t = { in.tape, 0 };

	note_where("input");
	for (size_t i = 0; i < in.n; i++)
		in.second[i] = note(in.left[i], "share %zu", i);
	note_where("refresh");
	step_refresh(in.order, in.second, &t);
	note_dropped(&t);
}

static void note_product_of(void)
{
	struct tape t = { in.tape, 0 };
	uint8_t places[MAX_PLACES];

	step_product(in.order, in.left, in.right, &t, in.second, places);
	note_dropped(&t);
	if (in.out_len != in.n)
		memcpy(in.second, places, in.out_len);
}

/* The S-box's first product is noted by the same function: step_sbox() has it from there. */
void note_cube(void)
{
	struct tape t = { in.tape, 0 };
	uint8_t z[MAX_SHARES], places[MAX_CUBE_PLACES];

	step_cube(in.order, in.left, &t, z, in.second, places);
	note_dropped(&t);
	if (in.out_len != in.n)
		memcpy(in.second, places, in.out_len);
}

void note_sbox(void)
{
	struct tape t = { in.tape, 0 };

	memcpy(in.second, in.left, in.n);
	step_sbox(in.order, in.second, &t);
	note_dropped(&t);
}

size_t places_sbox(void)
{
	return count_box(in.order);
}

static void set_split(void)
{
	inputs_whole(BLOCK, DOKKUMEL_SPLIT_TAPE(in.order, BLOCK), DOKKUMEL_SHARED(in.order, BLOCK));
}

static void make_split(void)
{
	in.status = dokkumel_split(in.order, in.left, in.left_len, in.tape, in.tape_len, in.out, in.out_len, &in.taken);
}

/* Share 0 takes in one mask after another. */
static void note_split(void)
{
	for (size_t k = 0; k < BLOCK; k++) {
		in.second[k] = note(in.left[k], "input byte %zu", k);
		for (size_t i = 1; i < in.n; i++) {
			uint8_t mask = note(tape_byte(in.tape, (i - 1) * BLOCK + k), "byte %zu of share %zu", k, i);

			in.second[i * BLOCK + k] = mask;
			in.second[k] = note(in.second[k] ^ mask, "byte %zu of share 0 after mask %zu", k, i);
		}
	}
}

const struct call byte_calls[] = {
	{ "split", 8, RUNS, set_split, draw_field, make_split, note_split, NULL },
	{ "refresh", 8, RUNS, set_refresh, draw_field, make_refresh, note_refresh, NULL },
	{ "product", 8, RUNS, set_product, draw_field, make_product, note_product_of, NULL },
	{ "sheet", 8, RUNS, set_sheet, draw_field, make_sheet, note_product_of, NULL },
	{ "cube", 8, RUNS, set_cube, draw_field, make_cube, note_cube, NULL },
	{ "sbox", 8, RUNS, set_sbox, draw_field, make_sbox, note_sbox, places_sbox },
};
const size_t byte_call_count = sizeof byte_calls / sizeof byte_calls[0];
