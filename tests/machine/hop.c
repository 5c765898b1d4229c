#define _DEFAULT_SOURCE
#include "hop.h"

#include "stepping.h"

#include <stdlib.h>
#include <sys/mman.h>

#define PAGE       4096
#define BREAKPOINT 0xcc

static const uintptr_t *address;

static int by_address(const void *x, const void *y)
{
	uint32_t a = *(const uint32_t *)x, b = *(const uint32_t *)y;

	if (address[a] != address[b])
		return address[a] < address[b] ? -1 : 1;
	return a < b ? -1 : a > b;
}

/* Whether four of so many steps are the same one of four S-boxes. The compiler may have written the way from one to the next more than once. */
static int are_alike(const uint32_t *p, size_t steps)
{
	size_t gap = p[1] - p[0], slack = gap / 16;

	for (int k = 1; k < 3; k++)
		if (p[k + 1] - p[k] + slack < gap || p[k + 1] - p[k] > gap + slack)
			return 0;
	return gap >= steps / 8;
}

int hop_find(const uintptr_t *at, size_t steps, size_t *first, uintptr_t *head)
{
	static uint32_t sorted[MAX_STEPS];
	size_t end;

	for (size_t k = 0; k < steps; k++)
		sorted[k] = (uint32_t)k;
	address = at;
	*first = steps;
	qsort(sorted, steps, sizeof sorted[0], by_address);
	for (size_t k = 0; k < steps; k = end) {
		for (end = k + 1; end < steps && at[sorted[end]] == at[sorted[k]]; end++)
			;
		if (end - k == 4 && sorted[k] < *first && are_alike(sorted + k, steps))
			*first = sorted[k];
	}
	if (*first == steps)
		return 0;
	*head = at[*first];
	return mprotect((void *)(*head / PAGE * PAGE), PAGE, PROT_READ | PROT_WRITE | PROT_EXEC) == 0;
}

static uint8_t *planted;
static uint8_t under;

void hop_plant(uintptr_t at)
{
	planted = (uint8_t *)at;
	under = *planted;
	*(volatile uint8_t *)planted = BREAKPOINT;
}

void hop_clear(void)
{
	*(volatile uint8_t *)planted = under;
}
