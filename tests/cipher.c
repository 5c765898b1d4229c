/* The rounds of steps.h in both directions, from a key and from prepared keys. */
#include "schedule.h"

#include "notes.h"

#include <string.h>

/* A state in shares: all of share 0, then all of share 1, and so on. */
typedef uint8_t state_t[MAX_SHARES][16];

static void add_round_key(size_t d, state_t state, schedule_t w, size_t round)
{
	note_where("round key");
	for (size_t s = 0; s <= d; s++)
		for (size_t k = 0; k < 16; k++) {
			uint8_t byte = w[s][4 * round + k / 4][k % 4];

			note_again(byte, "byte %zu of share %zu", k, s);
			note_again(state[s][k], "state byte %zu of share %zu", k, s);
			state[s][k] ^= byte;
		}
	note_string("round key added", d, state[0], 16, 16);
}

/* Row by row: bytes 0, 4, 8, 12, 1, 5, and so on. */
static void sub_bytes(size_t d, step_box *box, state_t state, struct tape *t)
{
	for (size_t row = 0; row < 4; row++)
		for (size_t column = 0; column < 4; column++)
			step_box_at(d, box, state[0], 16, row + 4 * column, t);
}

/* Turns row r left by r columns so many times: once for ShiftRows; three times for InvShiftRows, which turns it right by r. */
static void shift_rows(uint8_t *s, size_t times)
{
	uint8_t old[16];

	memcpy(old, s, 16);
	note_where("ShiftRows or its inverse");
	for (size_t row = 0; row < 4; row++)
		for (size_t column = 0; column < 4; column++) {
			s[row + 4 * column] = old[row + 4 * ((column + times * row) % 4)];
			note_again(s[row + 4 * column], "byte %zu", row + 4 * column);
		}
}

/* FIPS 197, MixColumns and InvMixColumns: the first rows of their matrices. Each further row is the one above, turned right by one. */
static const uint8_t mix[4] = { 0x02, 0x03, 0x01, 0x01 };
static const uint8_t inverse_mix[4] = { 0x0e, 0x0b, 0x0d, 0x09 };

/* Byte k of a mixed state takes in term m. The first sum is the first term, and 01 times a byte is the byte: neither has a place of its own. */
static uint8_t mixed_so_far(uint8_t sum, uint8_t factor, uint8_t byte, size_t k, size_t m)
{
	uint8_t term = step_times(factor, byte);

	if (factor != 1)
		note(term, "term %zu of byte %zu", m, k);
	return m == 0 ? term : note(sum ^ term, "byte %zu after term %zu", k, m);
}

static void mix_columns(uint8_t *s, const uint8_t factor[4])
{
	uint8_t old[16];

	memcpy(old, s, 16);
	note_where("mixed");
	note_mixed(old);
	for (size_t k = 0; k < 16; k++) {
		s[k] = 0;
		for (size_t m = 0; m < 4; m++)
			s[k] = mixed_so_far(s[k], factor[m], old[k / 4 * 4 + (k + m) % 4], k, m);
	}
}

static void all_rounds(size_t d, size_t rounds, schedule_t w, const uint8_t *block, struct tape *t, uint8_t *out)
{
	state_t state;

	memcpy(state, block, 16 * (d + 1));
	add_round_key(d, state, w, 0);
	for (size_t round = 1; round <= rounds; round++) {
		sub_bytes(d, step_sbox, state, t);
		for (size_t s = 0; s <= d; s++)
			shift_rows(state[s], 1);
		for (size_t s = 0; s <= d && round < rounds; s++)
			mix_columns(state[s], mix);
		add_round_key(d, state, w, round);
	}
	memcpy(out, state, 16 * (d + 1));
}

/* FIPS 197, 5.3: the round keys from the last to the first, and the S-boxes on the state that InvShiftRows left. */
static void inverse_rounds(size_t d, size_t rounds, schedule_t w, const uint8_t *block, struct tape *t, uint8_t *out)
{
	state_t state;

	memcpy(state, block, 16 * (d + 1));
	add_round_key(d, state, w, rounds);
	for (size_t round = rounds; round-- > 0;) {
		for (size_t s = 0; s <= d; s++)
			shift_rows(state[s], 3);
		sub_bytes(d, step_inverse_sbox, state, t);
		add_round_key(d, state, w, round);
		for (size_t s = 0; s <= d && round > 0; s++)
			mix_columns(state[s], inverse_mix);
	}
	memcpy(out, state, 16 * (d + 1));
}

/* The shares of a key and of a block: a call's first places. */
static void note_inputs(size_t d, size_t words, const uint8_t *key, const uint8_t *block)
{
	note_string("key", d, key, 4 * words, 4 * words);
	note_string("block", d, block, 16, 16);
}

void step_encrypt(size_t d, size_t words, const uint8_t *key, const uint8_t *block, struct tape *t, uint8_t *out)
{
	schedule_t w;

	note_inputs(d, words, key, block);
	schedule_expand(d, words, key, t, w);
	all_rounds(d, words + 6, w, block, t, out);
}

void step_decrypt(size_t d, size_t words, const uint8_t *key, const uint8_t *block, struct tape *t, uint8_t *out)
{
	schedule_t w;

	note_inputs(d, words, key, block);
	schedule_expand(d, words, key, t, w);
	inverse_rounds(d, words + 6, w, block, t, out);
}

/* Bytes of all round keys: one of 16 bytes for each round, and the one that is added first. */
static size_t schedule_length(size_t words)
{
	return 16 * (words + 6 + 1);
}

void step_prepare(size_t d, size_t words, const uint8_t *key, struct tape *t, uint8_t *prepared)
{
	size_t each = schedule_length(words);
	schedule_t w;

	note_string("key", d, key, 4 * words, 4 * words);
	schedule_expand(d, words, key, t, w);
	for (size_t s = 0; s <= d; s++)
		memcpy(prepared + s * each, w[s], each);
	note_string("prepared key", d, prepared, each, each);
}

/* Its list begins with the last places of the preparation: the prepared keys. */
void step_encrypt_prepared(size_t d, size_t words, const uint8_t *prepared, const uint8_t *block, struct tape *t, uint8_t *out)
{
	size_t each = schedule_length(words);
	schedule_t w;

	note_string("prepared key", d, prepared, each, each);
	note_string("block", d, block, 16, 16);
	for (size_t s = 0; s <= d; s++)
		memcpy(w[s], prepared + s * each, each);
	all_rounds(d, words + 6, w, block, t, out);
}
