/* Faults that the test must find each time: at order 1, and in a refresh at order 2, where a row first has two draws. */
#include "calls.h"

#include "inputs.h"

#define RUNS 60

/* Field products, made beforehand; each is one step. */
static uint8_t times[2][2];

static void make_times(const uint8_t *a, const uint8_t *b)
{
	for (int i = 0; i < 2; i++)
		for (int j = 0; j < 2; j++)
			times[i][j] = step_times(a[i], b[j]);
}

/* Document 01's first mistake: the product with its brackets moved. */
static void set_moved(void) { inputs_whole(in.n, DOKKUMEL_PRODUCT_TAPE(in.order), in.n); }

static void draw_moved(size_t run)
{
	draw_field(run);
	make_times(in.left, in.right);
}

static void make_moved(void)
{
	volatile uint8_t both = times[0][1];

	both ^= times[1][0];
	in.out[0] = times[0][0] ^ (uint8_t)in.tape[0];
	in.out[1] = times[1][1] ^ (both ^ (uint8_t)in.tape[0]);
}

static void note_moved(void)
{
	struct tape t = { in.tape, 0 };
	uint8_t places[MAX_PLACES];

	step_product(in.order, in.left, in.right, &t, in.second, places);
	note_dropped(&t);
}

/* A refresh whose first two draws meet each other before they meet share 0. */
static void make_met(void)
{
	volatile uint8_t *x = in.out, t[3], both;

	for (int k = 0; k < 3; k++) {
		x[k] = in.left[k];
		t[k] = (uint8_t)(in.tape[0] >> 8 * k);
	}
	both = t[0];
	both ^= t[1];
	x[0] ^= both;
	x[1] ^= t[0];
	x[1] ^= t[2];
	x[2] ^= t[1];
	x[2] ^= t[2];
}

/*
 * A cube that also multiplies the square as it was before its refresh: x_0^2 * x_1 is a byte of both shares of x. In the sheet of a product of x^2
 * and x it would have a place; in the cube's own list it must have none.
 */
static uint8_t unrefreshed;

static void set_unrefreshed(void) { inputs_whole(in.n, DOKKUMEL_CUBE_TAPE(in.order), in.n); }

static void draw_unrefreshed(size_t run)
{
	struct tape t = { in.tape, 0 };
	uint8_t z[2];

	draw_field(run);
	for (int i = 0; i < 2; i++)
		z[i] = step_times(in.left[i], in.left[i]);
	unrefreshed = step_times(z[0], in.left[1]);
	step_refresh(in.order, z, &t);
	make_times(z, in.left);
}

static void make_unrefreshed(void)
{
	volatile uint8_t both = unrefreshed, back = (uint8_t)(in.tape[0] >> 8);

	(void)both;
	in.out[0] = times[0][0] ^ back;
	back ^= times[0][1];
	back ^= times[1][0];
	in.out[1] = times[1][1] ^ back;
}

/* An S-box beside which the squares of both shares of its input meet, as they stand before their refresh. */
static uint8_t squares[2];

static void draw_met_squares(size_t run)
{
	draw_field(run);
	for (int i = 0; i < 2; i++)
		squares[i] = step_times(in.left[i], in.left[i]);
}

static void make_met_squares(void)
{
	volatile uint8_t both = squares[0];

	both ^= squares[1];
	make_sbox();
}

/* Doubles a column in each of two shares, and holds a byte of both shares on the way. */
static void set_column(void) { inputs_whole(2 * 4, 0, 2 * 4); }

static void make_two_shares(void)
{
	for (int k = 0; k < 8; k++)
		in.out[k] = (uint8_t)(in.left[k] << 1 ^ (in.left[k] >> 7) * 0x1b);
	volatile uint8_t both = in.out[1] ^ in.out[4 + 1];

	in.out[1] = both ^ in.out[4 + 1];
}

static void note_two_shares(void)
{
	for (int k = 0; k < 8; k++)
		in.second[k] = note(step_times(note(in.left[k], "byte %d of share %d", k % 4, k / 4), 2), "byte %d of share %d doubled", k % 4, k / 4);
	note_column(in.left);
	note_column(in.left + 4);
}

/* A window as in an encryption: tape is unpacked for four boxes, which refresh one byte each, and behind the last a byte of both shares is held. */
static void set_behind(void)
{
	inputs_whole(2 * 4, 2, 2 * 4);
	in.start = 1;
}

__attribute__((noinline)) static void box(size_t k, const volatile uint8_t *drawn)
{
	for (size_t i = 0; i < 2; i++)
		in.out[4 * i + k] = in.left[4 * i + k] ^ drawn[k];
}

static void make_behind(void)
{
	volatile uint8_t drawn[4], both;

	for (size_t k = 0; k < 4; k++)
		drawn[k] = (uint8_t)(in.tape[1] >> 8 * k);
	for (size_t k = 0; k < 4; k++)
		box(k, drawn);
	both = in.out[0] ^ in.out[4];
	in.out[0] = both ^ in.out[4];
}

static void note_behind(void)
{
	for (size_t k = 0; k < 4; k++) {
		uint8_t mask = note(tape_byte(in.tape, 4 + k), "mask %zu", k);

		for (size_t i = 0; i < 2; i++)
			in.second[4 * i + k] = note(note(in.left[4 * i + k], "byte %zu of share %zu", k, i) ^ mask, "byte %zu of share %zu masked", k, i);
	}
}

const struct call planted[] = {
	{ "planted: brackets moved", 1, RUNS, set_moved, draw_moved, make_moved, note_moved, NULL },
	{ "planted: two draws met", 2, RUNS, set_refresh, draw_field, make_met, note_refresh, NULL },
	{ "planted: square not refreshed", 1, RUNS, set_unrefreshed, draw_unrefreshed, make_unrefreshed, note_cube, NULL },
	{ "planted: two squares met", 1, RUNS, set_sbox, draw_met_squares, make_met_squares, note_sbox, places_sbox },
	{ "planted: two shares in a byte", 1, RUNS, set_column, draw_field, make_two_shares, note_two_shares, NULL },
	{ "planted: behind four S-boxes", 1, RUNS, set_behind, draw_field, make_behind, note_behind, NULL },
};
const size_t planted_count = sizeof planted / sizeof planted[0];
