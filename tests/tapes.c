#include "known.h"

#include "dokkumel.h"
#include "noise.h"

#include <stdio.h>
#include <string.h>

/* Enough for a key and a block to split, and an encryption of the largest need, from prepared keys a second time. */
static uint32_t tape[DOKKUMEL_SPLIT_TAPE(8, 32) + DOKKUMEL_SPLIT_TAPE(8, 16) + DOKKUMEL_ENCRYPT_TAPE(8, 32)
	+ DOKKUMEL_ENCRYPT_PREPARED_TAPE(8, 32)];

void known_on_tapes(const char *name, size_t e, int (*good)(size_t e, size_t d, const uint32_t *tape, size_t tape_len))
{
	static const size_t orders[] = { 1, 2, 3, 8 };
	static struct noise n = { 197 };
	char what[80];

	for (size_t o = 0; o < sizeof orders / sizeof orders[0]; o++) {
		for (int t = 0; t < 4; t++) {
			/* a tape of zeros, one of ones, two random ones */
			memset(tape, t == 0 ? 0 : 0xff, sizeof tape);
			if (t > 1)
				noise_fill(&n, tape, sizeof tape);
			snprintf(what, sizeof what, "FIPS 197, %s, order %zu, tape %d", name, orders[o], t);
			known_is(good(e, orders[o], tape, sizeof tape / sizeof tape[0]), what);
		}
	}
}
