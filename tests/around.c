/* Every routine that draws, on no word of tape, on one too few, on just as many as it needs and on one more: refused with 5, or carried through. */
#include "known.h"

#include "dokkumel.h"
#include "lengths.h"
#include "made.h"
#include "needs.h"
#include "table.h"

#include <stdio.h>
#include <string.h>

/* What a refused call leaves. */
#define KEPT 12345

static void on_words(struct plan *c, size_t words, size_t need)
{
	static uint8_t zeros[sizeof(uint32_t) * (DOKKUMEL_ENCRYPT_TAPE(8, 32) + 1)] __attribute__((aligned(sizeof(uint32_t))));
	static uint8_t out[DOKKUMEL_PREPARED(8, 32)], before[sizeof out];
	size_t taken = KEPT;
	uint8_t *p[BUFFERS] = { zeros, zeros, zeros, zeros, zeros, out, (uint8_t *)&taken };
	uint32_t status;
	char what[120];

	memset(before, 0xa5, sizeof before);
	memcpy(out, before, sizeof out);
	c->len[TAPE] = words;
	status = made_by_library(c, p);
	snprintf(what, sizeof what, "%s at order %zu on %zu words of tape, where it needs %zu: status %u, taken %zu", routine_names[c->routine],
		c->order, words, need, (unsigned)status, taken);
	if (words >= need)
		known_is(status == DOKKUMEL_OK && taken == need, what);
	else
		known_is(status == DOKKUMEL_REFUSED_TAPE && taken == KEPT && memcmp(out, before, sizeof out) == 0, what);
}

void known_needs(void)
{
	for (size_t k = 0; k < ROUTINES * DOKKUMEL_MAX_ORDER * 3; k++) {
		struct plan c = { .routine = (enum routine)(k % ROUTINES), .order = 1 + k / ROUTINES % DOKKUMEL_MAX_ORDER };
		size_t l = 16 + 8 * (k / ROUTINES / DOKKUMEL_MAX_ORDER), need = need_words(c.routine, c.order, l);

		if (need == 0)
			continue;
		lengths_fit(&c, c.order, l);
		if (plan_reads(&c)) /* an empty list still makes the sheet */
			c.len[OUTPUT] = 0;
		on_words(&c, 0, need);
		on_words(&c, need - 1, need);
		on_words(&c, need, need);
		on_words(&c, need + 1, need);
	}
}
