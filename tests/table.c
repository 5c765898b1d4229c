#include "table.h"

#include "dokkumel.h"

#include <stdio.h>

#define OUTCOMES 8

const char *const routine_names[ROUTINES] = {
	[SPLIT] = "split", [JOIN] = "join", [REFRESH] = "refresh", [PRODUCT] = "product", [SHEET] = "product_sheet",
	[READ] = "read_places", [CUBE_SHEET] = "cube_sheet", [READ_CUBE] = "read_cube_places", [SBOX] = "sbox",
	[ENCRYPT] = "encrypt", [DECRYPT] = "decrypt",
	[PREPARE] = "prepare", [ENCRYPT_PREPARED] = "encrypt_prepared", [UNUSED] = "unused_tape",
};

/* The outcomes that document 01, and document 02 for decryption, prepared keys and the cube, give each routine. */
static const char *const outcomes[ROUTINES] = {
	[SPLIT] = "01345", [JOIN] = "0134", [REFRESH] = "01345", [PRODUCT] = "01345", [SHEET] = "01345",
	[READ] = "0134567", [CUBE_SHEET] = "01345", [READ_CUBE] = "0134567", [SBOX] = "01345",
	[ENCRYPT] = "012345", [DECRYPT] = "012345",
	[PREPARE] = "01245", [ENCRYPT_PREPARED] = "012345", [UNUSED] = "0",
};

static unsigned long counted[ROUTINES][OUTCOMES];
static unsigned long served[ROUTINES][DOKKUMEL_MAX_ORDER + 1];
static unsigned long keys[ROUTINES][3][DOKKUMEL_MAX_ORDER + 1];

/* Refused with 2, though the length would fit elsewhere. */
static unsigned long raw_for_prepared, prepared_for_raw, other_orders;

static int fits_raw(size_t len, size_t d)
{
	return len == DOKKUMEL_SHARED(d, 16) || len == DOKKUMEL_SHARED(d, 24) || len == DOKKUMEL_SHARED(d, 32);
}

static int fits_prepared(size_t len, size_t d)
{
	return len == DOKKUMEL_PREPARED(d, 16) || len == DOKKUMEL_PREPARED(d, 24) || len == DOKKUMEL_PREPARED(d, 32);
}

static void count_elsewhere(const struct plan *p)
{
	if (p->routine != ENCRYPT_PREPARED) {
		prepared_for_raw += fits_prepared(p->len[KEY], p->order);
		return;
	}
	raw_for_prepared += fits_raw(p->len[KEY], p->order);
	for (size_t d = 1; d <= DOKKUMEL_MAX_ORDER; d++)
		other_orders += fits_prepared(p->len[KEY], d);
}

void table_count(const struct plan *p, uint32_t status)
{
	counted[p->routine][status < OUTCOMES ? status : OUTCOMES - 1]++;
	if (status == 2)
		count_elsewhere(p);
	if (status != 0 || p->routine == UNUSED)
		return;
	served[p->routine][p->order]++;
	if (plan_key_bytes(p) != 0)
		keys[p->routine][plan_key_bytes(p) / 8 - 2][p->order]++;
}

static int can(enum routine r, int outcome)
{
	for (const char *at = outcomes[r]; *at; at++)
		if (*at == '0' + outcome)
			return 1;
	return 0;
}

static int print_row(enum routine r)
{
	unsigned long calls = 0;
	int good = 1;

	for (int o = 0; o < OUTCOMES; o++)
		calls += counted[r][o];
	printf("%-16s %6lu", routine_names[r], calls);
	for (int o = 0; o < OUTCOMES; o++) {
		if (can(r, o) || counted[r][o] != 0)
			printf(" %*lu", o == 0 ? 8 : 5, counted[r][o]);
		else
			printf(" %*s", o == 0 ? 8 : 5, "-");
		if (can(r, o) != (counted[r][o] != 0))
			good = 0;
	}
	puts(good ? "" : "   an outcome is missing, or one that cannot be came up");
	return good;
}

/* Every order, and for a routine that takes a key every key length. */
static int served_all(enum routine r)
{
	int good = 1;

	for (int d = 1; d <= DOKKUMEL_MAX_ORDER; d++) {
		good &= served[r][d] != 0;
		for (int k = 0; k < 3 && can(r, 2); k++)
			good &= keys[r][k][d] != 0;
	}
	return good;
}

int table_print(void)
{
	int good = raw_for_prepared != 0 && prepared_for_raw != 0 && other_orders != 0;

	puts("routine           calls  carried     1     2     3     4     5     6     7   (refused, by number)");
	for (int r = 0; r < ROUTINES; r++)
		good &= print_row((enum routine)r);
	for (int r = 0; r < UNUSED; r++)
		good &= served_all((enum routine)r);
	printf("refused with 2: %lu keys in place of prepared ones, %lu prepared ones in place of a key, %lu prepared at another order\n",
		raw_for_prepared, prepared_for_raw, other_orders);
	puts(good ? "every outcome came up, and every order and key length was served" : "FAIL: too few kinds of calls");
	return good;
}
