/*
 * Under valgrind's memcheck: keys, blocks and tapes are marked as undefined,
 * and each routine that takes one is called at every order. A conditional jump
 * that depends on an undefined byte is an error that memcheck tells, with the
 * function; so is an address that does. `run` counts both: there must be no
 * jump but the planted one, and as many table look-ups as there are.
 *
 * What a look-up gives counts as defined again, as the table's byte is: of
 * field products and powers memcheck follows no more than what they are XORed
 * with. The other test sees that every run takes the same instructions.
 */
#include "../noise.h"
#include "dokkumel.h"

#include <stdio.h>
#include <string.h>
#include <valgrind/memcheck.h>

#define KEYS 3
static const size_t key_bytes[KEYS] = { 16, 24, 32 };

static uint8_t key[DOKKUMEL_SHARED(8, 32)], prepared[DOKKUMEL_PREPARED(8, 32)], block[DOKKUMEL_SHARED(8, 16)], left[9], right[9];
static uint32_t tape[DOKKUMEL_ENCRYPT_TAPE(8, 32)];
#define DRAWN tape, sizeof tape / sizeof tape[0]
static uint8_t output[DOKKUMEL_PREPARED(8, 32)];
static struct noise noise;
static size_t calls, failed;

/* Noise that memcheck takes for undefined. */
static void secret(void *at, size_t len)
{
	noise_fill(&noise, at, len);
	VALGRIND_MAKE_MEM_UNDEFINED(at, len);
}

static void secrets(void)
{
	secret(key, sizeof key);
	secret(prepared, sizeof prepared);
	secret(block, sizeof block);
	secret(left, sizeof left);
	secret(right, sizeof right);
	secret(tape, sizeof tape);
	memset(output, 0, sizeof output);
}

/* Counts a call. Its status depends on lengths alone, or this is the next jump that memcheck tells of. */
static void made(uint32_t status)
{
	calls++;
	failed += status != DOKKUMEL_OK;
}

static void bytes_at(size_t d)
{
	size_t n = DOKKUMEL_SHARES(d), taken = 0;
	uint16_t list[1] = { 0 };

	secrets();
	made(dokkumel_split(d, key, 16, DRAWN, output, DOKKUMEL_SHARED(d, 16), &taken));
	made(dokkumel_refresh(d, left, n, DRAWN, output, n, &taken));
	made(dokkumel_product(d, left, n, right, n, DRAWN, output, n, &taken));
	made(dokkumel_product_sheet(d, left, n, right, n, DRAWN, output, DOKKUMEL_PLACES(d), &taken));
	made(dokkumel_read_places(d, left, n, right, n, DRAWN, list, 1, output, 1, &taken));
	made(dokkumel_cube_sheet(d, left, n, DRAWN, output, DOKKUMEL_CUBE_PLACES(d), &taken));
	made(dokkumel_read_cube_places(d, left, n, DRAWN, list, 1, output, 1, &taken));
	made(dokkumel_sbox(d, left, n, DRAWN, output, n, &taken));
	made(dokkumel_join(d, block, DOKKUMEL_SHARED(d, 16), output, 16, &taken));
}

static void blocks_at(size_t d, size_t bytes)
{
	size_t keys = DOKKUMEL_SHARED(d, bytes), len = DOKKUMEL_SHARED(d, 16), taken = 0;

	secrets();
	made(dokkumel_encrypt(d, key, keys, block, len, DRAWN, output, len, &taken));
	made(dokkumel_decrypt(d, key, keys, block, len, DRAWN, output, len, &taken));
	made(dokkumel_prepare(d, key, keys, DRAWN, output, DOKKUMEL_PREPARED(d, bytes), &taken));
	made(dokkumel_encrypt_prepared(d, prepared, DOKKUMEL_PREPARED(d, bytes), block, len, DRAWN, output, len, &taken));
}

/* A jump that depends on a key byte: memcheck must tell of it. */
__attribute__((noinline)) static void planted_jump(void)
{
	static volatile size_t odd;

	secrets();
	if (key[0] % 2 == 1)
		odd++;
}

int main(void)
{
	if (!RUNNING_ON_VALGRIND) {
		fputs("undefined: to be run under valgrind\n", stderr);
		return 2;
	}
	planted_jump();
	for (size_t d = 1; d <= DOKKUMEL_MAX_ORDER; d++) {
		bytes_at(d);
		for (size_t k = 0; k < KEYS; k++)
			blocks_at(d, key_bytes[k]);
	}
	printf("%zu calls, %zu refused\n", calls, failed);
	return failed != 0;
}
