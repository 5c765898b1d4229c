#include "judge.h"

#include <stdio.h>
#include <string.h>

/* A place must repeat in so many runs: each time a byte that depends on something else differs with chance one half or more. */
#define FEWEST 16

static const struct notes *names;
static size_t runs, count, columns;
static uint16_t place[MAX_NOTES][MAX_RUNS];
static bool seen[MAX_NOTES];

/* A bit in all runs. */
#define WORDS ((MAX_RUNS + 63) / 64)
typedef uint64_t row_t[WORDS];

/* The 32 bits of a column and the constant 1, over the runs from the first on, so reduced that each has a highest run of its own. */
#define BITS 33
struct basis {
	row_t row[BITS];
	int top[BITS];
};
static uint8_t column[MAX_COLUMNS][4][MAX_RUNS];
static struct basis bases[MAX_COLUMNS];

/* Answers for bytes that were judged before: most bytes are held more than once. */
static struct { uint64_t hash; bool known, answer; } judged[1 << 18];

void judge_new(void)
{
	memset(judged, 0, sizeof judged);
	memset(seen, 0, sizeof seen);
}

void judge_take(const struct notes *n, size_t run)
{
	for (size_t k = 0; k < n->count; k++)
		place[k][run] = n->value[k];
	for (size_t k = 0; k < n->columns; k++)
		for (size_t b = 0; b < 4; b++)
			column[k][b][run] = n->column[k][b];
}

/* The highest run in which the row is 1, or -1. */
static int top_of(const row_t r)
{
	for (int w = WORDS - 1; w >= 0; w--)
		if (r[w] != 0)
			return 64 * w + 63 - __builtin_clzll(r[w]);
	return -1;
}

/* What is left of a row when the first `len` rows of a basis are taken out of it. */
static void reduce(row_t r, const struct basis *b, size_t len)
{
	for (size_t k = 0; k < len; k++)
		if (b->top[k] >= 0 && r[b->top[k] / 64] >> b->top[k] % 64 & 1)
			for (size_t w = 0; w < WORDS; w++)
				r[w] ^= b->row[k][w];
}

/* Bit b of a byte, in the runs from `first` on. */
static void row_of(row_t r, const uint8_t *v, size_t first, int b)
{
	memset(r, 0, sizeof(row_t));
	for (size_t k = first; k < runs; k++)
		r[k / 64] |= (uint64_t)(v[k] >> b & 1) << k % 64;
}

static void make_basis(struct basis *b, size_t c, size_t first)
{
	static uint8_t ones[MAX_RUNS];

	memset(ones, 1, sizeof ones);
	for (size_t k = 0; k < BITS; k++) {
		row_of(b->row[k], k < 32 ? column[c][k / 8] : ones, first, k % 8);
		reduce(b->row[k], b, k);
		b->top[k] = top_of(b->row[k]);
	}
}

/* In how many runs a place has a value that it had before. */
static size_t repeats(const uint16_t *p)
{
	static uint32_t mark[65536], current;
	size_t again = 0;

	current++;
	for (size_t k = 0; k < runs; k++) {
		again += mark[p[k]] == current;
		mark[p[k]] = current;
	}
	return again;
}

/* Whether a note has a value. Of a whole share there is none: its columns are judged. */
static bool tells(size_t k)
{
	return names->kind[k] != A_SHARE;
}

bool judge_ready(const struct notes *n, size_t all)
{
	names = n;
	runs = all;
	count = n->count;
	columns = n->columns;
	for (size_t c = 0; c < columns; c++)
		make_basis(&bases[c], c, 0);
	for (size_t k = 0; k < count; k++)
		if (tells(k) && repeats(place[k]) < FEWEST) {
			printf("%s: repeats in %zu runs only, so nothing could be told\n", names->name[k], repeats(place[k]));
			return false;
		}
	return true;
}

/* Whether v is one function of p, in the runs from `first` on. */
static bool follows(const uint8_t *v, size_t first, const uint16_t *p)
{
	static uint32_t mark[65536], current;
	static uint8_t was[65536];

	current++;
	for (size_t k = first; k < runs; k++) {
		if (mark[p[k]] == current && was[p[k]] != v[k])
			return false;
		mark[p[k]] = current;
		was[p[k]] = v[k];
	}
	return true;
}

/* Whether each bit of the byte is a sum of bits of the column. */
static bool sums(const struct lane *l, size_t c)
{
	struct basis own;
	const struct basis *basis = &bases[c];

	if (l->first > 0) { /* it is not known in the runs before */
		make_basis(&own, c, l->first);
		basis = &own;
	}
	for (int b = 0; b < 8; b++) {
		row_t r;

		row_of(r, l->value, l->first, b);
		reduce(r, basis, BITS);
		if (top_of(r) >= 0)
			return false;
	}
	return true;
}

static bool is_place(const struct lane *l, size_t k)
{
	for (size_t r = l->first; r < runs; r++)
		if (place[k][r] != l->value[r])
			return false;
	return true;
}

static bool allowed(const struct lane *l)
{
	static size_t near; /* the place that was found last: most often the next one stands near it */

	for (size_t k = 0; k < count; k++)
		if (!seen[k] && names->kind[k] == A_BYTE && is_place(l, k))
			seen[k] = true;
	if (memcmp(l->value + l->first, l->value + l->first + 1, runs - l->first - 1) == 0)
		return true;
	for (size_t m = 0; m < count; m++) {
		size_t k = (near + (m % 2 ? count - (m + 1) / 2 : m / 2)) % count;

		if (tells(k) && follows(l->value, l->first, place[k])) {
			near = k;
			return true;
		}
	}
	for (size_t c = 0; c < columns; c++)
		if (sums(l, c))
			return true;
	return false;
}

bool judge_allows(const struct lane *l)
{
	uint64_t hash = 14695981039346656037u + l->first;

	for (size_t k = l->first; k < runs; k++)
		hash = (hash ^ l->value[k]) * 1099511628211u;
	size_t at = (size_t)(hash ^ hash >> 40) % (sizeof judged / sizeof judged[0]);
	if (!judged[at].known || judged[at].hash != hash) {
		judged[at].answer = allowed(l);
		judged[at].hash = hash;
		judged[at].known = true;
	}
	return judged[at].answer;
}

struct seen judge_seen(void)
{
	struct seen all = { 0, 0, 0 };

	for (size_t k = 0; k < count; k++) {
		all.places += names->kind[k] != APART;
		all.bytes += names->kind[k] == A_BYTE;
		all.written += seen[k];
	}
	return all;
}

/* Whether the byte is in every run the XOR of the places p, q and m; m may be left out. */
static bool is_sum(const struct lane *l, size_t p, size_t q, size_t m)
{
	for (size_t k = runs; k-- > l->first;)
		if ((place[p][k] ^ place[q][k] ^ (m == SIZE_MAX ? 0 : place[m][k])) != l->value[k])
			return false;
	return true;
}

const char *judge_tells(const struct lane *l)
{
	static char text[200];

	/* Neighbours first: of several sums, that is the one that a reader knows. */
	for (size_t gap = 1; gap < count; gap++)
		for (size_t p = 0; p + gap < count; p++)
			if (is_sum(l, p, p + gap, SIZE_MAX)) {
				snprintf(text, sizeof text, "(%s) ^ (%s)", names->name[p], names->name[p + gap]);
				return text;
			}
	for (size_t p = 0; p < count && count < 600; p++) /* beyond that it would take minutes */
		for (size_t q = p + 1; q < count; q++)
			for (size_t m = q + 1; m < count; m++)
				if (is_sum(l, p, q, m)) {
					snprintf(text, sizeof text, "(%s) ^ (%s) ^ (%s)", names->name[p], names->name[q], names->name[m]);
					return text;
				}
	return "no place, and no sum of two or three";
}
