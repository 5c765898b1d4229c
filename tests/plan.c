#include "plan.h"

#include "dokkumel.h"
#include "lengths.h"

#include <string.h>

const size_t plan_units[BUFFERS] = {
	[KEY] = 1, [INPUT] = 1, [RIGHT] = 1, [TAPE] = sizeof(uint32_t), [LIST] = sizeof(uint16_t), [OUTPUT] = 1, [TAKEN] = sizeof(size_t),
};

/* What can be wrong with a call, and who can have it. */
enum fault { BAD_ORDER, BAD_KEY, BAD_INPUT, BAD_RIGHT, BAD_TAPE, BAD_OUTPUT, BAD_LIST, BAD_PLACE, FAULTS };

#define BIT(fault) (1u << (fault))
#define ONE_INPUT  (BIT(BAD_ORDER) | BIT(BAD_INPUT) | BIT(BAD_TAPE) | BIT(BAD_OUTPUT))

static const unsigned possible[ROUTINES] = {
	[SPLIT] = ONE_INPUT,
	[JOIN] = ONE_INPUT & ~BIT(BAD_TAPE),
	[REFRESH] = ONE_INPUT,
	[PRODUCT] = ONE_INPUT | BIT(BAD_RIGHT),
	[SHEET] = ONE_INPUT | BIT(BAD_RIGHT),
	[READ] = ONE_INPUT | BIT(BAD_RIGHT) | BIT(BAD_LIST) | BIT(BAD_PLACE),
	[CUBE_SHEET] = ONE_INPUT,
	[READ_CUBE] = ONE_INPUT | BIT(BAD_LIST) | BIT(BAD_PLACE),
	[SBOX] = ONE_INPUT,
	[ENCRYPT] = ONE_INPUT | BIT(BAD_KEY),
	[DECRYPT] = ONE_INPUT | BIT(BAD_KEY),
	[PREPARE] = (ONE_INPUT & ~BIT(BAD_INPUT)) | BIT(BAD_KEY),
	[ENCRYPT_PREPARED] = ONE_INPUT | BIT(BAD_KEY),
	[UNUSED] = 0,
};

static unsigned choose_faults(struct noise *n, enum routine routine)
{
	size_t roll = noise_below(n, 100);
	int wanted = roll < 50 ? 0 : roll < 80 ? 1 : roll < 93 ? 2 : 3;
	unsigned faults = 0;

	while (wanted > 0 && possible[routine] != 0) {
		unsigned fault = BIT(noise_below(n, FAULTS));

		if (fault & possible[routine]) {
			faults |= fault;
			wanted--;
		}
	}
	return faults;
}

/* Among them orders at which n, n * 16 or d * L would wrap to something small. */
static size_t unserved_order(struct noise *n)
{
	static const size_t orders[] = {
		0, 0, 9, 9, 10, 15, 16, 255, 256, 257, 65535, 65536, 0xffffffff, (size_t)1 << 32, ((size_t)1 << 32) + 1,
		((size_t)1 << 60) - 1, (size_t)1 << 60, ((size_t)1 << 60) + 1, ((size_t)1 << 63) + 1, SIZE_MAX / 2,
		SIZE_MAX - 1, SIZE_MAX,
	};

	return orders[noise_below(n, sizeof orders / sizeof orders[0])];
}

/* Another length: off by one, empty, another key's, double, or any. */
static size_t bend(struct noise *n, size_t len)
{
	switch (noise_below(n, 7)) {
	case 0:
		return len > 0 ? len - 1 : 1;
	case 1:
	case 2:
		return len + 1;
	case 3:
		return 0;
	case 4:
		return len / 2 * 3;
	case 5:
		return len * 2;
	default:
		return noise_below(n, 300);
	}
}

/* Another length for a key: some size's, as it is or prepared, or prepared at another order; or any. */
static size_t bend_key(struct noise *n, size_t len, size_t d)
{
	size_t l = 16 + 8 * noise_below(n, 3), other = 1 + noise_below(n, DOKKUMEL_MAX_ORDER);

	switch (noise_below(n, 6)) {
	case 0:
		return DOKKUMEL_SHARED(d, l);
	case 1:
		return DOKKUMEL_PREPARED(d, l);
	case 2:
		return DOKKUMEL_PREPARED(other, l);
	default:
		return bend(n, len);
	}
}

static size_t tape_length(struct noise *n, size_t need, int is_short)
{
	size_t roll = noise_below(n, 4);

	if (is_short && need > 0)
		return roll == 0 ? 0 : roll == 1 ? noise_below(n, need) : need - 1;
	return roll < 2 ? need : roll == 2 ? need + 1 + noise_below(n, 8) : need + noise_below(n, MAX_SURPLUS + 1);
}

/* At most d places of the sheet, often the last, some twice; or more than d; or one that the sheet does not have. The output is as long. */
static void fill_list(struct plan *p, struct noise *n, size_t d, unsigned faults)
{
	size_t places = lengths_places(p->routine, d), len = noise_below(n, d + 1);
	uint16_t beyond[4] = { (uint16_t)places, (uint16_t)places, 65535, (uint16_t)(places + noise_below(n, 65536 - places)) };

	if (noise_below(n, 3) == 0)
		len = d;
	if (faults & BIT(BAD_LIST))
		len = noise_below(n, 2) ? d + 1 : d + 1 + noise_below(n, 40);
	if ((faults & BIT(BAD_PLACE)) && len == 0)
		len = 1;
	for (size_t k = 0; k < len; k++) {
		size_t roll = noise_below(n, 8);

		p->list[k] = (uint16_t)(roll == 0 ? places - 1 : roll == 1 && k > 0 ? p->list[k - 1] : noise_below(n, places));
	}
	if (faults & BIT(BAD_PLACE))
		p->list[noise_below(n, len)] = beyond[noise_below(n, 4)];
	p->len[LIST] = p->len[OUTPUT] = len;
}

/* Within the tape, at its end, past it, or far off. */
static size_t choose_count(struct noise *n, size_t tape_len)
{
	size_t counts[6] = { 0, tape_len, tape_len + 1, noise_below(n, tape_len + 1), noise_next(n), SIZE_MAX };

	return counts[noise_below(n, 6)];
}

void plan_make(struct plan *p, struct noise *n)
{
	unsigned faults;
	size_t d, l = 16 + 8 * noise_below(n, 3);

	memset(p, 0, sizeof *p);
	p->routine = (enum routine)noise_below(n, ROUTINES);
	faults = choose_faults(n, p->routine);
	p->order = faults & BIT(BAD_ORDER) ? unserved_order(n) : 1 + noise_below(n, DOKKUMEL_MAX_ORDER);
	/* an order above 9 has the lengths of some order from 0 to 9; one up to 9 mostly has its own */
	d = p->order <= 9 && noise_below(n, 64) != 0 ? p->order : noise_below(n, 10);
	lengths_fit(p, d, l);
	if (p->order > 9 && noise_below(n, 4) == 0)
		lengths_wrap(p, l);
	if (plan_reads(p))
		fill_list(p, n, d, faults);
	if (faults & BIT(BAD_KEY))
		p->len[KEY] = bend_key(n, p->len[KEY], d);
	if (faults & BIT(BAD_INPUT))
		p->len[INPUT] = bend(n, p->len[INPUT]);
	if (faults & BIT(BAD_RIGHT))
		p->len[RIGHT] = bend(n, p->len[RIGHT]);
	if (faults & BIT(BAD_OUTPUT))
		p->len[OUTPUT] = bend(n, p->len[OUTPUT]);
	if (p->routine != JOIN)
		p->len[TAPE] = tape_length(n, p->len[TAPE], faults & BIT(BAD_TAPE));
	if (p->routine == UNUSED)
		p->count = choose_count(n, p->len[TAPE]);
	p->len[TAKEN] = 1;
}

int plan_reads(const struct plan *p)
{
	return p->routine == READ || p->routine == READ_CUBE;
}

size_t plan_key_bytes(const struct plan *p)
{
	size_t share = p->len[KEY] / (p->order + 1);

	return p->routine == ENCRYPT_PREPARED ? 4 * (share / 16 - 7) : share;
}
