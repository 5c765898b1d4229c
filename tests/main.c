/* main [SEED [CALLS]]: known answers through the C interface, then random calls that are compared. The seed is printed: give it to run the same
   calls again. */
#include "calls.h"
#include "known.h"

#include <inttypes.h>
#include <stdio.h>
#include <stdlib.h>

void known_is(int good, const char *what)
{
	if (good)
		return;
	printf("FAIL: %s\n", what);
	exit(1);
}

static uint64_t fresh_seed(void)
{
	uint64_t seed = 0;
	FILE *f = fopen("/dev/urandom", "rb");

	if (f == NULL || fread(&seed, sizeof seed, 1, f) != 1) {
		fputs("no random seed; give one\n", stderr);
		exit(2);
	}
	fclose(f);
	return seed;
}

int main(int argc, char **argv)
{
	uint64_t seed = argc > 1 ? strtoull(argv[1], NULL, 0) : fresh_seed();
	unsigned long calls = argc > 2 ? strtoul(argv[2], NULL, 0) : 42000;

	setvbuf(stdout, NULL, _IOLBF, 0);
	known_published();
	known_round_keys();
	puts("FIPS 197's examples at orders 1, 2, 3 and 8, by either route and backwards, and its round keys: as printed");
	known_small();
	puts("document 01's small values and edges, and those of document 02's cube: as told");
	known_needs();
	puts("tape of every routine, order and length, in words: one less is refused, one more has no effect");
	known_before();
	puts("on the same bytes all shares that the new refresh leaves alone are as they were when the tape was of bytes");
	known_refusals();
	puts("refusals of the calls that take a key, as foretold, and of the cube's: in their order, and at every length");
	known_previews();
	puts("previews: right on lengths that no buffer has, up to the largest");
	known_macros();
	puts("the header's macros: exact");
	calls_try_guards();
	puts("guards: every change is found");
	known_trips(seed);
	puts("encrypted and decrypted, or the other way round, at one order and at two: every block comes back");
	known_cubes(seed);
	puts("cubes: squares, refresh and product by themselves give the same bytes, and join to the cube");
	printf("%lu random calls, seed %" PRIu64 "\n", calls, seed);
	calls_compare(seed, calls);
	puts("ok");
	return 0;
}
