#include "steps.h"

#include "notes.h"

#include <string.h>

static uint8_t draw(struct tape *t)
{
	uint8_t byte = tape_byte(t->words, t->drawn++);

	note_drawn(t->drawn);
	return byte;
}

/* The whole product of the polynomials, then the remainder by x^8 + x^4 + x^3 + x + 1. */
uint8_t step_times(uint8_t a, uint8_t b)
{
	unsigned product = 0;

	for (int i = 0; i < 8; i++)
		if (b >> i & 1)
			product ^= (unsigned)a << i;
	for (int i = 14; i >= 8; i--)
		if (product >> i & 1)
			product ^= 0x11bu << (i - 8);
	return (uint8_t)product;
}

/* Bit i of the answer is the XOR of a's bits i + k, indices modulo 8, for the listed k, and of bit i of c. */
static uint8_t affine(uint8_t a, const int *list, size_t len, uint8_t c)
{
	uint8_t out = c;

	for (int i = 0; i < 8; i++)
		for (size_t m = 0; m < len; m++)
			out ^= (uint8_t)((a >> (i + list[m]) % 8 & 1) << i);
	return out;
}

/* FIPS 197, SubBytes: b_i + b_(i+4) + b_(i+5) + b_(i+6) + b_(i+7) + c_i. */
uint8_t step_affine(uint8_t a)
{
	static const int list[] = { 0, 4, 5, 6, 7 };

	return affine(a, list, 5, 0x63);
}

/* Document 02, wish 2: bits i + 2, i + 5 and i + 7, and bit i of 05. */
uint8_t step_inverse_affine(uint8_t a)
{
	static const int list[] = { 2, 5, 7 };

	return affine(a, list, 3, 0x05);
}

/* Document 02, wish 7: one byte for each pair, in the product's order. Its bytes take the next places; answers with the one behind them. */
static uint8_t *refresh(size_t d, uint8_t *x, struct tape *t, uint8_t *place)
{
	for (size_t i = 0; i <= d; i++) {
		for (size_t j = i + 1; j <= d; j++) {
			uint8_t mask = *place++ = note(draw(t), "t(%zu,%zu)", i, j);

			*place++ = x[i] = note(x[i] ^ mask, "share %zu after t(%zu,%zu)", i, i, j);
			*place++ = x[j] = note(x[j] ^ mask, "share %zu after t(%zu,%zu)", j, i, j);
		}
	}
	return place;
}

void step_refresh(size_t d, uint8_t *x, struct tape *t)
{
	uint8_t places[MAX_CUBE_PLACES];

	refresh(d, x, t, places);
}

/* The factors of all field products of a masked product. */
static void note_pairs(size_t d, const uint8_t *a, const uint8_t *b)
{
	for (size_t i = 0; i <= d; i++)
		for (size_t j = 0; j <= d; j++)
			note_pair(a[i], i, b[j], j);
}

void step_product(size_t d, const uint8_t *a, const uint8_t *b, struct tape *t, uint8_t *c, uint8_t *places)
{
	uint8_t r[MAX_SHARES][MAX_SHARES];
	uint8_t *place = places;

	for (size_t i = 0; i <= d; i++)
		*place++ = note(a[i], "a_%zu", i);
	for (size_t i = 0; i <= d; i++)
		*place++ = note(b[i], "b_%zu", i);
	for (size_t i = 0; i <= d; i++) {
		for (size_t j = i + 1; j <= d; j++) {
			*place++ = r[i][j] = note(draw(t), "r(%zu,%zu)", i, j);
			uint8_t cross = *place++ = note(step_times(a[i], b[j]), "a_%zu*b_%zu", i, j);
			uint8_t half = *place++ = note(r[i][j] ^ cross, "r(%zu,%zu)^a_%zu*b_%zu", i, j, i, j);
			uint8_t crossed = *place++ = note(step_times(a[j], b[i]), "a_%zu*b_%zu", j, i);
			*place++ = r[j][i] = note(half ^ crossed, "r(%zu,%zu)", j, i);
		}
	}
	for (size_t i = 0; i <= d; i++) {
		*place++ = c[i] = note(step_times(a[i], b[i]), "a_%zu*b_%zu", i, i);
		for (size_t j = 0; j <= d; j++)
			if (j != i)
				*place++ = c[i] = note(c[i] ^ r[i][j], "sum %zu after r(%zu,%zu)", i, i, j);
	}
	note_pairs(d, a, b);
}

/* y = a * b, where y may be a or b. */
static void multiply(size_t d, uint8_t *y, const uint8_t *a, const uint8_t *b, struct tape *t)
{
	uint8_t c[MAX_SHARES], places[MAX_PLACES];

	step_product(d, a, b, t, c, places);
	memcpy(y, c, d + 1);
}

/* Share i, which is some power of a byte, squared. */
static uint8_t square(uint8_t a, size_t i, int power)
{
	return note(step_times(a, a), "share %zu to the %d", i, 2 * power);
}

static void note_shares(size_t d, const uint8_t *x)
{
	for (size_t i = 0; i <= d; i++)
		note(x[i], "share %zu", i);
}

/* Each share of x and its squares up to a power of two, the last into y. */
static void squares(size_t d, uint8_t *y, const uint8_t *x, int power)
{
	for (size_t i = 0; i <= d; i++) {
		y[i] = note(x[i], "share %zu", i);
		for (int p = 1; p < power; p *= 2)
			y[i] = square(y[i], i, p);
	}
}

void step_cube(size_t d, const uint8_t *x, struct tape *t, uint8_t *z, uint8_t *y, uint8_t *places)
{
	uint8_t *place;

	note_where("z = x^2");
	for (size_t i = 0; i <= d; i++)
		places[i] = z[i] = square(x[i], i, 1);
	place = refresh(d, z, t, places + d + 1);
	note_where("z*x");
	step_product(d, z, x, t, y, place);
}

/* The shares of x to the 254, in place. */
static void power_254(size_t d, uint8_t *x, struct tape *t)
{
	uint8_t y[MAX_SHARES], z[MAX_SHARES], w[MAX_SHARES], places[MAX_CUBE_PLACES];

	note_where("x");
	note_shares(d, x);
	step_cube(d, x, t, z, y, places);
	note_where("w = y^4");
	squares(d, w, y, 4);
	step_refresh(d, w, t);
	note_where("y*w");
	multiply(d, y, y, w, t);
	note_where("v^16");
	squares(d, y, y, 16);
	note_where("v^16*w");
	multiply(d, y, y, w, t);
	note_where("u*z");
	multiply(d, x, y, z, t);
}

size_t step_sbox_bytes(size_t d)
{
	return 3 * d * (d + 1);
}

/* An affine map of a byte in shares. The n maps take its constant in n times: at odd orders these cancel out, and share 0 takes in one more. */
static void affine_shares(size_t d, uint8_t *x, uint8_t (*map)(uint8_t), uint8_t constant)
{
	for (size_t i = 0; i <= d; i++) {
		note(x[i], "share %zu", i);
		note(map(x[i]) ^ constant, "linear part of share %zu", i);
		x[i] = note(map(x[i]), "map of share %zu", i);
		x[i] = note(x[i] ^ (d % 2 == 1 && i == 0 ? constant : 0), "share %zu corrected", i);
	}
}

void step_sbox(size_t d, uint8_t *x, struct tape *t)
{
	power_254(d, x, t);
	note_where("Af");
	affine_shares(d, x, step_affine, 0x63);
}

void step_inverse_sbox(size_t d, uint8_t *x, struct tape *t)
{
	note_where("inverse Af");
	affine_shares(d, x, step_inverse_affine, 0x05);
	power_254(d, x, t);
}

void step_box_at(size_t d, step_box *box, uint8_t *string, size_t apart, size_t k, struct tape *t)
{
	uint8_t x[MAX_SHARES];

	for (size_t s = 0; s <= d; s++)
		x[s] = string[s * apart + k];
	box(d, x, t);
	for (size_t s = 0; s <= d; s++)
		string[s * apart + k] = x[s];
}
