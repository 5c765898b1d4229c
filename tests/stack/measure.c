/* How deep each routine goes into the stack, at every order and key length, against the header's bounds; and which round keys it leaves there.
 * A call runs on a stack of its own, filled with one byte beforehand; what it changed tells. */
#define _XOPEN_SOURCE 700
#include <stdio.h>
#include <stdlib.h>
#include <string.h>
#include <ucontext.h>

#include "dokkumel.h"

#define STACK 65536
#define FILL 0xa5

static uint8_t stack[STACK];
static ucontext_t here, there;
static void (*running)(void);

/* The buffers of a call, and what it is made with. */
static size_t order, key_bytes, taken;
static uint8_t key[288], block[144], output[2160], prepared[2160];
static uint32_t tape[DOKKUMEL_ENCRYPT_TAPE(8, 32)];
#define DRAWN tape, sizeof tape / sizeof tape[0]

static size_t shared(size_t bytes) { return DOKKUMEL_SHARED(order, bytes); }
static size_t prepared_len(void) { return DOKKUMEL_PREPARED(order, key_bytes); }

static void nothing(void) { taken = 0; }
static void split(void) { dokkumel_split(order, block, 16, DRAWN, output, shared(16), &taken); }
static void join(void) { dokkumel_join(order, block, shared(16), output, 16, &taken); }
static void refresh(void) { dokkumel_refresh(order, block, shared(1), DRAWN, output, shared(1), &taken); }
static void product(void)
{
	dokkumel_product(order, key, shared(1), block, shared(1), DRAWN, output, shared(1), &taken);
}
static void sheet(void)
{
	dokkumel_product_sheet(order, key, shared(1), block, shared(1), DRAWN, output, DOKKUMEL_PLACES(order), &taken);
}
static void read_places(void)
{
	static const uint16_t list[] = {0};
	dokkumel_read_places(order, key, shared(1), block, shared(1), DRAWN, list, 1, output, 1, &taken);
}
static void cube_sheet(void)
{
	dokkumel_cube_sheet(order, block, shared(1), DRAWN, output, DOKKUMEL_CUBE_PLACES(order), &taken);
}
static void read_cube_places(void)
{
	static const uint16_t list[] = {0};
	dokkumel_read_cube_places(order, block, shared(1), DRAWN, list, 1, output, 1, &taken);
}
static void sbox(void) { dokkumel_sbox(order, block, shared(1), DRAWN, output, shared(1), &taken); }
static void encrypt(void)
{
	dokkumel_encrypt(order, key, shared(key_bytes), block, shared(16), DRAWN, output, shared(16), &taken);
}
static void decrypt(void)
{
	dokkumel_decrypt(order, key, shared(key_bytes), block, shared(16), DRAWN, output, shared(16), &taken);
}
static void prepare(void) { dokkumel_prepare(order, key, shared(key_bytes), DRAWN, output, prepared_len(), &taken); }
static void encrypt_prepared(void)
{
	dokkumel_encrypt_prepared(order, prepared, prepared_len(), block, shared(16), DRAWN, output, shared(16), &taken);
}
static void previews(void)
{
	dokkumel_preview_encrypt(order, shared(key_bytes), shared(16), SIZE_MAX, shared(16), &taken);
	dokkumel_preview_decrypt(order, shared(key_bytes), shared(16), SIZE_MAX, shared(16), &taken);
	dokkumel_preview_prepare(order, shared(key_bytes), SIZE_MAX, prepared_len(), &taken);
	dokkumel_preview_encrypt_prepared(order, prepared_len(), shared(16), SIZE_MAX, shared(16), &taken);
}
static void unused_tape(void) { taken = dokkumel_unused_tape(DRAWN, order); }

/* How many round keys a call leaves on the stack, of all shares: none, or all. */
enum leaves { NONE, ALL };

static const struct entry {
	const char *name;
	void (*run)(void);
	size_t bound;
	enum leaves leaves;
} entries[] = {
	{"split", split, DOKKUMEL_STACK_SHARES, NONE},
	{"join", join, DOKKUMEL_STACK_SHARES, NONE},
	{"refresh", refresh, DOKKUMEL_STACK_SHARES, NONE},
	{"unused_tape", unused_tape, DOKKUMEL_STACK_SHARES, NONE},
	{"previews", previews, DOKKUMEL_STACK_SHARES, NONE},
	{"product", product, DOKKUMEL_STACK_PRODUCT, NONE},
	{"product_sheet", sheet, DOKKUMEL_STACK_SHEET, NONE},
	{"read_places", read_places, DOKKUMEL_STACK_SHEET, NONE},
	{"cube_sheet", cube_sheet, DOKKUMEL_STACK_CUBE, NONE},
	{"read_cube_places", read_cube_places, DOKKUMEL_STACK_CUBE, NONE},
	{"sbox", sbox, DOKKUMEL_STACK_SBOX, NONE},
	{"encrypt", encrypt, DOKKUMEL_STACK_ENCRYPT, ALL},
	{"decrypt", decrypt, DOKKUMEL_STACK_ENCRYPT, ALL},
	{"prepare", prepare, DOKKUMEL_STACK_PREPARE, NONE},
	{"encrypt_prepared", encrypt_prepared, DOKKUMEL_STACK_PREPARE, NONE},
};
enum { ENTRIES = sizeof entries / sizeof entries[0] };

static void start(void) { running(); }

/* The bytes of the stack that a call changed, from its deepest to the top. */
static size_t depth_of(void (*run)(void))
{
	size_t low = 0;

	memset(stack, FILL, sizeof stack);
	running = run;
	getcontext(&there);
	there.uc_stack.ss_sp = stack;
	there.uc_stack.ss_size = sizeof stack;
	there.uc_link = &here;
	makecontext(&there, start, 0);
	swapcontext(&here, &there);
	while (low < sizeof stack && stack[low] == FILL)
		low++;
	return sizeof stack - low;
}

static int stands(const uint8_t *bytes)
{
	for (size_t i = 0; i + 16 <= sizeof stack; i++)
		if (memcmp(stack + i, bytes, 16) == 0)
			return 1;
	return 0;
}

/* How many of the round keys' shares stand on the stack, each 16 bytes. */
static size_t round_keys_left(void)
{
	size_t found = 0;

	for (size_t at = 0; at < prepared_len(); at += 16)
		found += (size_t)stands(prepared + at);
	return found;
}

static void fill(uint8_t *bytes, size_t length, unsigned seed)
{
	for (size_t i = 0; i < length; i++) {
		seed = seed * 1103515245u + 12345u;
		bytes[i] = (uint8_t)(seed >> 16);
	}
}

int main(void)
{
	size_t deepest[ENTRIES] = {0};
	int faults = 0;

	for (order = 1; order <= 8; order++)
		for (key_bytes = 16; key_bytes <= 32; key_bytes += 8) {
			size_t base;

			fill(key, sizeof key, 1u + (unsigned)order);
			fill(block, sizeof block, 20u + (unsigned)key_bytes);
			fill((uint8_t *)tape, sizeof tape, 300u);
			dokkumel_prepare(order, key, shared(key_bytes), DRAWN, prepared, prepared_len(), &taken);
			base = depth_of(nothing);
			for (size_t e = 0; e < ENTRIES; e++) {
				size_t deep = depth_of(entries[e].run) - base;
				size_t left = round_keys_left(), want = entries[e].leaves == ALL ? prepared_len() / 16 : 0;

				if (deep > deepest[e])
					deepest[e] = deep;
				if (left != want) {
					printf("stack: %s, order %zu, key bytes %zu: %zu of %zu round key shares left, want %zu\n", entries[e].name, order,
						key_bytes, left, prepared_len() / 16, want);
					faults++;
				}
			}
		}
	for (size_t e = 0; e < ENTRIES; e++) {
		int over = deepest[e] > entries[e].bound;

		printf("stack: %-16s %5zu bytes, bound %zu%s\n", entries[e].name, deepest[e], entries[e].bound, over ? ", ABOVE" : "");
		faults += over;
	}
	return faults != 0;
}
