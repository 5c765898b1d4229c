/* The header's macros against the library: just so much is served, and one word of tape less, or one place more, is not. */
#include "known.h"

#include "block_call.h"
#include "dokkumel.h"

#include <stdio.h>

/* Document 01's tables, and document 02's numbers for prepared keys and S-boxes; tape in words. */
_Static_assert(DOKKUMEL_PLACES(1) == 13 && DOKKUMEL_PLACES(2) == 30 && DOKKUMEL_PLACES(3) == 54, "P(1) to P(3)");
_Static_assert(DOKKUMEL_PLACES(8) == 279, "P(8)");
_Static_assert(DOKKUMEL_CUBE_PLACES(1) == 18 && DOKKUMEL_CUBE_PLACES(2) == 42 && DOKKUMEL_CUBE_PLACES(3) == 76, "a cube's places");
_Static_assert(DOKKUMEL_CUBE_PLACES(4) == 120 && DOKKUMEL_CUBE_PLACES(5) == 174 && DOKKUMEL_CUBE_PLACES(6) == 238, "a cube's places");
_Static_assert(DOKKUMEL_CUBE_PLACES(7) == 312 && DOKKUMEL_CUBE_PLACES(8) == 396, "a cube's places");
_Static_assert(DOKKUMEL_ENCRYPT_TAPE(1, 16) == 300 && DOKKUMEL_ENCRYPT_TAPE(2, 16) == 900, "16-byte keys");
_Static_assert(DOKKUMEL_ENCRYPT_TAPE(1, 24) == 336 && DOKKUMEL_ENCRYPT_TAPE(2, 24) == 1008, "24-byte keys");
_Static_assert(DOKKUMEL_ENCRYPT_TAPE(1, 32) == 414 && DOKKUMEL_ENCRYPT_TAPE(2, 32) == 1242, "32-byte keys");
_Static_assert(DOKKUMEL_ENCRYPT_TAPE(8, 16) == 10800 && DOKKUMEL_ENCRYPT_TAPE(8, 24) == 12096, "order 8");
_Static_assert(DOKKUMEL_ENCRYPT_TAPE(8, 32) == 14904, "order 8");
_Static_assert(DOKKUMEL_ROUNDS(16) == 10 && DOKKUMEL_ROUNDS(24) == 12 && DOKKUMEL_ROUNDS(32) == 14, "rounds");
_Static_assert(DOKKUMEL_KEY_SBOXES(16) == 40 && DOKKUMEL_KEY_SBOXES(24) == 32 && DOKKUMEL_KEY_SBOXES(32) == 52, "S-boxes");
_Static_assert(DOKKUMEL_ROUND_SBOXES(16) == 160 && DOKKUMEL_ROUND_SBOXES(24) == 192 && DOKKUMEL_ROUND_SBOXES(32) == 224, "S-boxes");
_Static_assert(DOKKUMEL_SBOXES(16) == 200 && DOKKUMEL_SBOXES(24) == 224 && DOKKUMEL_SBOXES(32) == 276, "S-boxes");
_Static_assert(DOKKUMEL_PREPARED(1, 16) == 352 && DOKKUMEL_PREPARED(2, 24) == 624 && DOKKUMEL_PREPARED(8, 32) == 2160, "prepared keys");
_Static_assert(DOKKUMEL_PREPARE_TAPE(1, 16) == 60 && DOKKUMEL_PREPARE_TAPE(2, 24) == 144, "preparing");
_Static_assert(DOKKUMEL_PREPARE_TAPE(8, 32) == 2808 && DOKKUMEL_ENCRYPT_PREPARED_TAPE(8, 32) == 12096, "order 8");
_Static_assert(DOKKUMEL_ENCRYPT_PREPARED_TAPE(1, 16) == 240 && DOKKUMEL_ENCRYPT_PREPARED_TAPE(2, 24) == 864, "from prepared keys");
_Static_assert(DOKKUMEL_SBOX_BYTES(1) == 6 && DOKKUMEL_SBOX_BYTES(2) == 18 && DOKKUMEL_SBOX_BYTES(3) == 36, "S-box");
_Static_assert(DOKKUMEL_SBOX_BYTES(8) == 216, "S-box");
/* Words that are used in part: one byte, a whole word, a byte more. */
_Static_assert(DOKKUMEL_WORDS(1) == 1 && DOKKUMEL_WORDS(4) == 1 && DOKKUMEL_WORDS(5) == 2, "words");
_Static_assert(DOKKUMEL_REFRESH_TAPE(2) == 1 && DOKKUMEL_REFRESH_TAPE(3) == 2 && DOKKUMEL_REFRESH_TAPE(8) == 9, "refresh");
_Static_assert(DOKKUMEL_PRODUCT_TAPE(2) == 1 && DOKKUMEL_PRODUCT_TAPE(3) == 2 && DOKKUMEL_PRODUCT_TAPE(8) == 9, "product");
_Static_assert(DOKKUMEL_CUBE_TAPE(1) == 1 && DOKKUMEL_CUBE_TAPE(2) == 2 && DOKKUMEL_CUBE_TAPE(3) == 3, "cube");
_Static_assert(DOKKUMEL_CUBE_TAPE(4) == 5 && DOKKUMEL_CUBE_TAPE(5) == 8 && DOKKUMEL_CUBE_TAPE(6) == 11, "cube");
_Static_assert(DOKKUMEL_CUBE_TAPE(7) == 14 && DOKKUMEL_CUBE_TAPE(8) == 18 && DOKKUMEL_CUBE_BYTES(8) == 72, "cube");
_Static_assert(DOKKUMEL_SBOX_TAPE(1) == 2 && DOKKUMEL_SBOX_TAPE(2) == 5 && DOKKUMEL_SBOX_TAPE(3) == 9, "S-box");
_Static_assert(DOKKUMEL_SPLIT_TAPE(1, 16) == 4 && DOKKUMEL_SPLIT_TAPE(8, 32) == 64, "split");
/* An argument that is a sum. */
_Static_assert(DOKKUMEL_ENCRYPT_TAPE(1 + 1, 8 + 8) == 900 && DOKKUMEL_PLACES(1 + 2) == 54, "brackets");
_Static_assert(DOKKUMEL_SHARED(1 + 1, 8 + 8) == 48 && DOKKUMEL_SPLIT_TAPE(1 + 1, 8 + 8) == 8, "brackets");
_Static_assert(2 * DOKKUMEL_REFRESH_TAPE(2 + 1) == 4 && 2 * DOKKUMEL_PRODUCT_TAPE(2 + 1) == 4, "brackets");
_Static_assert(2 * DOKKUMEL_CUBE_TAPE(1 + 2) == 6 && 2 * DOKKUMEL_CUBE_BYTES(1 + 2) == 24 && 2 * DOKKUMEL_CUBE_PLACES(1 + 2) == 152, "brackets");
_Static_assert(2 * DOKKUMEL_SBOX_TAPE(1 + 2) == 18 && 2 * DOKKUMEL_WORDS(4 + 1) == 4, "brackets");
_Static_assert(DOKKUMEL_PREPARED(1 + 1, 8 + 8) == 528 && 2 * DOKKUMEL_ROUNDS(8 + 8) == 20, "brackets");
_Static_assert(DOKKUMEL_PREPARE_TAPE(1 + 1, 8 + 8) == 180 && DOKKUMEL_ENCRYPT_PREPARED_TAPE(1 + 1, 8 + 8) == 720, "brackets");

static const uint8_t zeros[DOKKUMEL_PREPARED(8, 32) + 1];
static const uint32_t tape[DOKKUMEL_ENCRYPT_TAPE(8, 32)];
static uint8_t out[DOKKUMEL_PREPARED(8, 32) + 1];

static void is(int good, const char *name, size_t d, size_t bytes)
{
	char what[80];

	snprintf(what, sizeof what, "the macro %s at order %zu, %zu bytes", name, d, bytes);
	known_is(good, what);
}

static void of_bytes(size_t d)
{
	size_t n = DOKKUMEL_SHARES(d), need, taken = 0;

	need = DOKKUMEL_REFRESH_TAPE(d);
	is(dokkumel_refresh(d, zeros, n, tape, need, out, n, &taken) == 0 && taken == need, "DOKKUMEL_REFRESH_TAPE", d, 1);
	is(dokkumel_refresh(d, zeros, n, tape, need - 1, out, n, &taken) == 5, "DOKKUMEL_REFRESH_TAPE", d, 1);
	need = DOKKUMEL_PRODUCT_TAPE(d);
	is(dokkumel_product(d, zeros, n, zeros, n, tape, need, out, n, &taken) == 0 && taken == need, "DOKKUMEL_PRODUCT_TAPE", d, 1);
	is(dokkumel_product(d, zeros, n, zeros, n, tape, need - 1, out, n, &taken) == 5, "DOKKUMEL_PRODUCT_TAPE", d, 1);
	need = DOKKUMEL_SBOX_TAPE(d);
	is(dokkumel_sbox(d, zeros, n, tape, need, out, n, &taken) == 0 && taken == need, "DOKKUMEL_SBOX_TAPE", d, 1);
	is(dokkumel_sbox(d, zeros, n, tape, need - 1, out, n, &taken) == 5, "DOKKUMEL_SBOX_TAPE", d, 1);
}

static void of_places(size_t d)
{
	size_t n = DOKKUMEL_SHARES(d), places = DOKKUMEL_PLACES(d), need = DOKKUMEL_PRODUCT_TAPE(d), taken = 0;
	uint16_t last = (uint16_t)(places - 1), past = (uint16_t)places;

	is(dokkumel_product_sheet(d, zeros, n, zeros, n, tape, need, out, places, &taken) == 0, "DOKKUMEL_PLACES", d, 1);
	is(dokkumel_product_sheet(d, zeros, n, zeros, n, tape, need, out, places + 1, &taken) == 4, "DOKKUMEL_PLACES", d, 1);
	is(dokkumel_read_places(d, zeros, n, zeros, n, tape, need, &last, 1, out, 1, &taken) == 0, "DOKKUMEL_PLACES", d, 1);
	is(dokkumel_read_places(d, zeros, n, zeros, n, tape, need, &past, 1, out, 1, &taken) == 7, "DOKKUMEL_PLACES", d, 1);
}

static void of_cubes(size_t d)
{
	size_t n = DOKKUMEL_SHARES(d), places = DOKKUMEL_CUBE_PLACES(d), need = DOKKUMEL_CUBE_TAPE(d), taken = 0;
	uint16_t last = (uint16_t)(places - 1), past = (uint16_t)places;

	is(dokkumel_cube_sheet(d, zeros, n, tape, need, out, places, &taken) == 0 && taken == need, "DOKKUMEL_CUBE_TAPE", d, 1);
	is(dokkumel_cube_sheet(d, zeros, n, tape, need - 1, out, places, &taken) == 5, "DOKKUMEL_CUBE_TAPE", d, 1);
	is(dokkumel_cube_sheet(d, zeros, n, tape, need, out, places + 1, &taken) == 4, "DOKKUMEL_CUBE_PLACES", d, 1);
	taken = 0;
	is(dokkumel_read_cube_places(d, zeros, n, tape, need, &last, 1, out, 1, &taken) == 0 && taken == need, "DOKKUMEL_CUBE_PLACES", d, 1);
	is(dokkumel_read_cube_places(d, zeros, n, tape, need - 1, &last, 1, out, 1, &taken) == 5, "DOKKUMEL_CUBE_TAPE", d, 1);
	is(dokkumel_read_cube_places(d, zeros, n, tape, need, &past, 1, out, 1, &taken) == 7, "DOKKUMEL_CUBE_PLACES", d, 1);
}

static void of_strings(size_t d, size_t l)
{
	size_t shared = DOKKUMEL_SHARED(d, l), need = DOKKUMEL_SPLIT_TAPE(d, l), taken = 0;

	is(dokkumel_split(d, zeros, l, tape, need, out, shared, &taken) == 0 && taken == need, "DOKKUMEL_SPLIT_TAPE", d, l);
	is(dokkumel_split(d, zeros, l, tape, need - 1, out, shared, &taken) == 5, "DOKKUMEL_SPLIT_TAPE", d, l);
	is(dokkumel_join(d, zeros, shared, out, l, &taken) == 0, "DOKKUMEL_SHARED", d, l);
}

/* The tape of a call on one block, by a macro of that name. */
static void of_block(block_call *call, size_t key_len, size_t need, const char *name, size_t d, size_t l)
{
	size_t block = DOKKUMEL_SHARED(d, 16), taken = 0;

	is(call(d, zeros, key_len, zeros, block, tape, need, out, block, &taken) == 0 && taken == need, name, d, l);
	is(call(d, zeros, key_len, zeros, block, tape, need - 1, out, block, &taken) == 5, name, d, l);
}

static void of_keys(size_t d, size_t l)
{
	size_t shared = DOKKUMEL_SHARED(d, l), prepared = DOKKUMEL_PREPARED(d, l), need = DOKKUMEL_ENCRYPT_TAPE(d, l);

	of_block(dokkumel_encrypt, shared, need, "DOKKUMEL_ENCRYPT_TAPE", d, l);
	of_block(dokkumel_decrypt, shared, need, "DOKKUMEL_ENCRYPT_TAPE, for a decryption,", d, l);
	need = DOKKUMEL_ENCRYPT_PREPARED_TAPE(d, l);
	of_block(dokkumel_encrypt_prepared, prepared, need, "DOKKUMEL_ENCRYPT_PREPARED_TAPE", d, l);
}

static void of_prepared(size_t d, size_t l)
{
	size_t shared = DOKKUMEL_SHARED(d, l), prepared = DOKKUMEL_PREPARED(d, l), block = DOKKUMEL_SHARED(d, 16), taken = 0;
	size_t need = DOKKUMEL_PREPARE_TAPE(d, l);

	is(dokkumel_prepare(d, zeros, shared, tape, need, out, prepared, &taken) == 0 && taken == need, "DOKKUMEL_PREPARE_TAPE", d, l);
	is(dokkumel_prepare(d, zeros, shared, tape, need - 1, out, prepared, &taken) == 5, "DOKKUMEL_PREPARE_TAPE", d, l);
	is(dokkumel_prepare(d, zeros, shared, tape, need, out, prepared + 1, &taken) == 4, "DOKKUMEL_PREPARED", d, l);
	need = DOKKUMEL_ENCRYPT_PREPARED_TAPE(d, l);
	is(dokkumel_encrypt_prepared(d, zeros, prepared + 1, zeros, block, tape, need, out, block, &taken) == 2, "DOKKUMEL_PREPARED", d, l);
}

void known_macros(void)
{
	size_t past = DOKKUMEL_MAX_ORDER + 1, n = DOKKUMEL_SHARES(past), taken = 0;

	for (size_t d = 1; d <= DOKKUMEL_MAX_ORDER; d++) {
		of_bytes(d);
		of_places(d);
		of_cubes(d);
		for (size_t l = 16; l <= 32; l += 8) {
			of_strings(d, l);
			of_keys(d, l);
			of_prepared(d, l);
		}
	}
	is(dokkumel_refresh(past, zeros, n, tape, DOKKUMEL_REFRESH_TAPE(past), out, n, &taken) == DOKKUMEL_REFUSED_ORDER,
		"DOKKUMEL_MAX_ORDER", DOKKUMEL_MAX_ORDER, 1);
}
