/* Document 01's small values and edges, with its tapes in words and document 02's refresh and cube, through the C interface. */
#include "known.h"

#include "block_call.h"
#include "dokkumel.h"

#include <stdio.h>
#include <string.h>

static const uint8_t zeros[48];
static const uint32_t zero_tape[900];

static void values(void)
{
	static const uint8_t a[] = { 0x02, 0x03 }, b[] = { 0x01, 0x04 }, product[] = { 0x12, 0x17 };
	static const uint8_t sheet[] = { 2, 3, 1, 4, 0x10, 8, 0x18, 3, 0x1b, 2, 0x12, 0x0c, 0x17 };
	static const uint8_t shares[] = { 0x10, 0x20, 0x30 }, refreshed[] = { 0x13, 0x22, 0x31 };
	static const uint32_t tape[] = { 0x00000010 }, masks[] = { 0x00030201 };
	uint8_t out[13] = { 0 };
	size_t taken = 0;

	known_is(dokkumel_refresh(2, shares, 3, masks, 1, out, 3, &taken) == 0 && taken == 1 && memcmp(out, refreshed, 3) == 0,
		"refresh of 10 20 30 on the word 00030201 is 13 22 31");
	known_is(dokkumel_product_sheet(1, a, 2, b, 2, tape, 1, out, 13, &taken) == 0 && taken == 1 && memcmp(out, sheet, 13) == 0,
		"the sheet of 02 03 and 01 04 on the word 00000010");
	known_is(dokkumel_product(1, a, 2, b, 2, tape, 1, out, 2, &taken) == 0 && taken == 1 && memcmp(out, product, 2) == 0,
		"the product of 02 03 and 01 04 on the word 00000010 is 12 17");
}

/* Document 02, wish 8. */
static void cubes(void)
{
	static const uint8_t x[] = { 0x02, 0x03 };
	static const uint8_t sheet[] = { 4, 5, 5, 1, 0, 1, 0, 2, 3, 0x10, 3, 0x13, 0, 0x13, 2, 0x12, 0, 0x13 };
	static const uint32_t tape[] = { 0x00001005 };
	static const uint16_t places[] = { 17, 18, 395 };
	uint8_t out[396] = { 0 };
	size_t taken = 0;

	known_is(dokkumel_cube_sheet(1, x, 2, tape, 1, out, 18, &taken) == 0 && taken == 1 && memcmp(out, sheet, 18) == 0,
		"the cube's sheet of 02 03 on the word 00001005");
	known_is(dokkumel_cube_sheet(1, x, 2, tape, 1, out, 17, &taken) == 4, "at order 1, 17 places of a cube are refused (4)");
	known_is(dokkumel_cube_sheet(8, zeros, 9, zero_tape, 18, out, 396, &taken) == 0 && taken == 18, "at order 8 a cube has 396 places");
	known_is(dokkumel_cube_sheet(8, zeros, 9, zero_tape, 18, out, 395, &taken) == 4, "at order 8, 395 places of a cube are refused (4)");
	known_is(dokkumel_cube_sheet(9, zeros, 10, zero_tape, 0, out, 396, &taken) == 1, "a cube at order 9 with an empty tape is refused (1)");
	known_is(dokkumel_read_cube_places(1, x, 2, tape, 1, places, 1, out, 1, &taken) == 0 && taken == 1 && out[0] == 0x13,
		"at order 1, a cube's place 17 is read");
	known_is(dokkumel_read_cube_places(1, x, 2, tape, 1, places + 1, 1, out, 1, &taken) == 7, "at order 1, a cube's place 18 is refused (7)");
	known_is(dokkumel_read_cube_places(2, zeros, 3, zero_tape, 2, places, 2, out, 2, &taken) == 0 && taken == 2,
		"at order 2, two places of a cube are read");
	known_is(dokkumel_read_cube_places(2, zeros, 3, zero_tape, 2, places, 3, out, 3, &taken) == 6,
		"at order 2, three places of a cube are refused (6)");
	known_is(dokkumel_read_cube_places(8, zeros, 9, zero_tape, 18, places, 3, out, 3, &taken) == 0 && taken == 18,
		"at order 8, a cube's place 395 is read");
	known_is(dokkumel_read_cube_places(9, zeros, 10, zero_tape, 0, places, 3, out, 3, &taken) == 1,
		"a reading of a cube at order 9 with an empty tape is refused (1)");
}

static void boxes(void)
{
	static const uint8_t one[] = { 1, 0 }, box_0[] = { 0x00, 0x63 }, box_1[] = { 0x1f, 0x63 }, box_2[] = { 0x63, 0x63, 0x63 };
	uint8_t out[3] = { 0 };
	size_t taken = 0;

	known_is(dokkumel_sbox(1, zeros, 2, zero_tape, 2, out, 2, &taken) == 0 && taken == 2 && memcmp(out, box_0, 2) == 0,
		"the S-box of 00 00 on zero tape is 00 63");
	known_is(dokkumel_sbox(1, one, 2, zero_tape, 2, out, 2, &taken) == 0 && taken == 2 && memcmp(out, box_1, 2) == 0,
		"the S-box of 01 00 on zero tape is 1f 63");
	known_is(dokkumel_sbox(2, zeros, 3, zero_tape, 5, out, 3, &taken) == 0 && taken == 5 && memcmp(out, box_2, 3) == 0,
		"the S-box of 00 00 00 on zero tape is 63 63 63");
}

static void edges(void)
{
	static const uint16_t places[] = { 0, 29, 7 }, past[] = { 0, 30 };
	uint8_t out[10] = { 0 };
	size_t taken = 0;

	known_is(dokkumel_refresh(8, zeros, 9, zero_tape, 9, out, 9, &taken) == 0, "order 8 is served");
	known_is(dokkumel_refresh(9, zeros, 10, zero_tape, 12, out, 10, &taken) == 1, "order 9 is refused (1)");
	known_is(dokkumel_refresh(9, zeros, 10, zero_tape, 0, out, 10, &taken) == 1, "order 9 with an empty tape is refused (1)");
	known_is(dokkumel_read_places(2, zeros, 3, zeros, 3, zero_tape, 1, places, 2, out, 2, &taken) == 0,
		"at order 2, two places are read, 29 among them");
	known_is(dokkumel_read_places(2, zeros, 3, zeros, 3, zero_tape, 1, places, 3, out, 3, &taken) == 6, "at order 2, three places are refused (6)");
	known_is(dokkumel_read_places(2, zeros, 3, zeros, 3, zero_tape, 1, past, 2, out, 2, &taken) == 7, "at order 2, place 30 is refused (7)");
}

static void is(int good, const char *call, const char *what)
{
	char text[100];

	snprintf(text, sizeof text, "%s: %s", call, what);
	known_is(good, text);
}

/* Of an encryption; document 02 has the same of a decryption. */
static void key_edges(const char *name, block_call *call)
{
	uint8_t out[48] = { 0 };
	size_t taken = 0;

	is(call(1, zeros, 32, zeros, 32, zero_tape, 300, out, 32, &taken) == 0 && taken == 300, name,
		"a 16-byte key at order 1 with 300 words of tape is served");
	is(call(1, zeros, 32, zeros, 32, zero_tape, 299, out, 32, &taken) == 5, name,
		"a 16-byte key at order 1 with 299 words of tape is refused (5)");
	is(call(2, zeros, 48, zeros, 48, zero_tape, 900, out, 48, &taken) == 0 && taken == 900, name,
		"a 16-byte key at order 2 with 900 words of tape is served");
	is(call(2, zeros, 48, zeros, 48, zero_tape, 899, out, 48, &taken) == 5, name,
		"a 16-byte key at order 2 with 899 words of tape is refused (5)");
	is(call(1, zeros, 33, zeros, 32, zero_tape, 300, out, 32, &taken) == 2, name, "33 key share bytes at order 1 are refused (2)");
}

void known_small(void)
{
	values();
	cubes();
	boxes();
	edges();
	key_edges("encrypt", dokkumel_encrypt);
	key_edges("decrypt", dokkumel_decrypt);
}
