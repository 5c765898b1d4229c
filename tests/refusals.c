/* The refusals of the calls that take a key, and of the cube's: their order, and every length up to some past the longest. Each call with a key is
   asked about beforehand. */
#include "known.h"

#include "block_call.h"
#include "dokkumel.h"
#include "key_sizes.h"
#include "needs.h"

#include <stdio.h>
#include <string.h>

#define LONGEST 2400

static const uint8_t zeros[LONGEST];
static const uint32_t tape[DOKKUMEL_ENCRYPT_TAPE(8, 32)];
static uint8_t out[LONGEST];
static size_t taken;

static const struct block {
	const char *name;
	block_call *call;
	block_preview *preview;
	const size_t *key;
	enum routine routine;
} blocks[] = {
	{ "encrypt", dokkumel_encrypt, dokkumel_preview_encrypt, key_bytes, ENCRYPT },
	{ "decrypt", dokkumel_decrypt, dokkumel_preview_decrypt, key_bytes, DECRYPT },
	{ "encrypt_prepared", dokkumel_encrypt_prepared, dokkumel_preview_encrypt_prepared, round_key_bytes, ENCRYPT_PREPARED },
};

static void is(int good, const char *call, const char *what, size_t d, size_t bytes)
{
	char text[120];

	snprintf(text, sizeof text, "%s: %s, order %zu, %zu bytes", call, what, d, bytes);
	known_is(good, text);
}

/* Fills output and count, so that a refusal can be seen to leave them. */
static void before(void)
{
	memset(out, 0xa5, sizeof out);
	taken = 12345;
}

static int refused(uint32_t status, uint32_t number)
{
	for (size_t k = 0; k < sizeof out; k++)
		if (out[k] != 0xa5)
			return 0;
	return status == number && taken == 12345;
}

/* The call's status; the preview must have given the same, and left the same behind taken. */
static uint32_t as_foretold(uint32_t status, uint32_t foretold, size_t count, const char *call, size_t d, size_t key_len)
{
	is(status == foretold && taken == count, call, "its preview", d, key_len);
	return status;
}

static uint32_t prepare(size_t d, size_t key_len, size_t output_len, size_t tape_len)
{
	uint32_t foretold, status;
	size_t count;

	before();
	count = taken;
	foretold = dokkumel_preview_prepare(d, key_len, tape_len, output_len, &count);
	status = dokkumel_prepare(d, zeros, key_len, tape, tape_len, out, output_len, &taken);
	return as_foretold(status, foretold, count, "prepare", d, key_len);
}

static uint32_t block(const struct block *b, size_t d, size_t key_len, size_t input_len, size_t output_len, size_t tape_len)
{
	uint32_t foretold, status;
	size_t count;

	before();
	count = taken;
	foretold = b->preview(d, key_len, input_len, tape_len, output_len, &count);
	status = b->call(d, zeros, key_len, zeros, input_len, tape, tape_len, out, output_len, &taken);
	return as_foretold(status, foretold, count, b->name, d, key_len);
}

/* All causes at once, and then one less in each line. */
static void prepare_in_order(size_t d, size_t size)
{
	size_t l = key_bytes[size], key = (d + 1) * l, prepared = (d + 1) * round_key_bytes[size], need = need_words(PREPARE, d, l);

	is(refused(prepare(9, key + 1, prepared + 1, need - 1), 1), "prepare", "1 first", d, l);
	is(refused(prepare(d, key + 1, prepared + 1, need - 1), 2), "prepare", "2 next", d, l);
	is(refused(prepare(d, key, prepared + 1, need - 1), 4), "prepare", "then 4", d, l);
	is(refused(prepare(d, key, prepared, need - 1), 5), "prepare", "then 5", d, l);
	is(prepare(d, key, prepared, need) == 0 && taken == need, "prepare", "served", d, l);
}

/* The same for a call on one block. */
static void block_in_order(const struct block *b, size_t d, size_t size)
{
	size_t l = key_bytes[size], key = (d + 1) * b->key[size], shared = (d + 1) * 16, need = need_words(b->routine, d, l);

	is(refused(block(b, 9, key + 1, shared + 1, shared + 1, need - 1), 1), b->name, "1 first", d, l);
	is(refused(block(b, d, key + 1, shared + 1, shared + 1, need - 1), 2), b->name, "2 next", d, l);
	is(refused(block(b, d, key, shared + 1, shared + 1, need - 1), 3), b->name, "then 3", d, l);
	is(refused(block(b, d, key, shared, shared + 1, need - 1), 4), b->name, "then 4", d, l);
	is(refused(block(b, d, key, shared, shared, need - 1), 5), b->name, "then 5", d, l);
	is(block(b, d, key, shared, shared, need) == 0 && taken == need, b->name, "served", d, l);
}

/* Places of a cube, from order 1 on. */
static const size_t cube_places[] = { 18, 42, 76, 120, 174, 238, 312, 396 };

static uint32_t cube_sheet(size_t d, size_t input_len, size_t output_len, size_t tape_len)
{
	before();
	return dokkumel_cube_sheet(d, zeros, input_len, tape, tape_len, out, output_len, &taken);
}

/* Every entry of the list is the one place. */
static uint32_t read_cube(size_t d, size_t input_len, size_t tape_len, size_t list_len, size_t output_len, size_t place)
{
	static uint16_t list[LONGEST];

	before();
	for (size_t k = 0; k < list_len; k++)
		list[k] = (uint16_t)place;
	return dokkumel_read_cube_places(d, zeros, input_len, tape, tape_len, list, list_len, out, output_len, &taken);
}

/* All causes at once, and then one less in each line. A reading asks for tape before it asks for output. */
static void cube_in_order(size_t d)
{
	size_t n = d + 1, places = cube_places[d - 1], need = need_words(CUBE_SHEET, d, 0);

	is(refused(cube_sheet(9, n + 1, places + 1, need - 1), 1), "cube_sheet", "1 first", d, n);
	is(refused(cube_sheet(d, n + 1, places + 1, need - 1), 3), "cube_sheet", "3 next", d, n);
	is(refused(cube_sheet(d, n, places + 1, need - 1), 4), "cube_sheet", "then 4", d, n);
	is(refused(cube_sheet(d, n, places, need - 1), 5), "cube_sheet", "then 5", d, n);
	is(cube_sheet(d, n, places, need) == 0 && taken == need, "cube_sheet", "served", d, n);
	is(refused(read_cube(9, n + 1, need - 1, d + 1, d, places), 1), "read_cube_places", "1 first", d, n);
	is(refused(read_cube(d, n + 1, need - 1, d + 1, d, places), 3), "read_cube_places", "3 next", d, n);
	is(refused(read_cube(d, n, need - 1, d + 1, d, places), 5), "read_cube_places", "then 5", d, n);
	is(refused(read_cube(d, n, need, d + 1, d, places), 4), "read_cube_places", "then 4", d, n);
	is(refused(read_cube(d, n, need, d + 1, d + 1, places), 6), "read_cube_places", "then 6", d, n);
	is(refused(read_cube(d, n, need, d, d, places), 7), "read_cube_places", "then 7", d, n);
	is(read_cube(d, n, need, d, d, places - 1) == 0 && taken == need, "read_cube_places", "served", d, n);
}

static void prepare_at(size_t d, size_t len)
{
	size_t n = d + 1;

	is(refused(prepare(d, len, 0, 0), fits_size(len, d, key_bytes) ? 4 : 2), "prepare", "a key share length", d, len);
	for (int size = 0; size < 3; size++)
		is(refused(prepare(d, n * key_bytes[size], len, 0), len == n * round_key_bytes[size] ? 5 : 4), "prepare", "an output length", d, len);
}

static void block_at(const struct block *b, size_t d, size_t len)
{
	size_t shared = (d + 1) * 16, key = (d + 1) * b->key[0];

	is(refused(block(b, d, len, shared, shared, 0), fits_size(len, d, b->key) ? 5 : 2), b->name, "a key's length", d, len);
	is(refused(block(b, d, key, len, shared, 0), len == shared ? 5 : 3), b->name, "an input length", d, len);
	is(refused(block(b, d, key, shared, len, 0), len == shared ? 5 : 4), b->name, "an output length", d, len);
}

static void cube_at(size_t d, size_t len)
{
	size_t n = d + 1, places = cube_places[d - 1], need = need_words(READ_CUBE, d, 0);

	is(refused(cube_sheet(d, len, places, 0), len == n ? 5 : 3), "cube_sheet", "an input length", d, len);
	is(refused(cube_sheet(d, n, len, 0), len == places ? 5 : 4), "cube_sheet", "an output length", d, len);
	is(refused(read_cube(d, len, 0, 1, 1, 0), len == n ? 5 : 3), "read_cube_places", "an input length", d, len);
	is(refused(read_cube(d, n, need, d, len, places), len == d ? 7 : 4), "read_cube_places", "an output length", d, len);
	if (len > 0)
		is(refused(read_cube(d, n, need, len, len, places), len <= d ? 7 : 6), "read_cube_places", "a list length", d, len);
	if (len < places)
		is(read_cube(d, n, need, 1, 1, len) == 0 && taken == need, "read_cube_places", "a place number", d, len);
	else
		is(refused(read_cube(d, n, need, 1, 1, len), 7), "read_cube_places", "a place number", d, len);
}

void known_refusals(void)
{
	for (size_t d = 1; d <= DOKKUMEL_MAX_ORDER; d++) {
		cube_in_order(d);
		for (size_t len = 0; len <= LONGEST; len++)
			cube_at(d, len);
		for (size_t size = 0; size < 3; size++)
			prepare_in_order(d, size);
		for (size_t len = 0; len <= LONGEST; len++)
			prepare_at(d, len);
	}
	for (size_t k = 0; k < sizeof blocks / sizeof blocks[0] * DOKKUMEL_MAX_ORDER; k++) {
		const struct block *b = &blocks[k / DOKKUMEL_MAX_ORDER];
		size_t d = 1 + k % DOKKUMEL_MAX_ORDER;

		for (size_t size = 0; size < 3; size++)
			block_in_order(b, d, size);
		for (size_t len = 0; len <= LONGEST; len++)
			block_at(b, d, len);
	}
}
