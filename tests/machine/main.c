/*
 * Which bytes does the built library hold? The theorems speak of the bytes that
 * the defined steps compute, in their brackets. A compiler may move brackets,
 * since XOR is associative, and then a register holds a byte that is no place.
 * This runs the built routines instruction by instruction on many shares and
 * tapes, looks at each byte that each instruction writes, and asks over all
 * runs what it is (judge.h). Anything that it may not be is told, with the
 * instruction, and ends the program with status 1. So does a notebook that has
 * not as many places as the theorem counts.
 *
 * Routines that hold what they must not stand in the test too, and must be
 * found each time: so it cannot pass blindly.
 *
 *   machine                what the gate looks at
 *   machine part K N       every N-th call of it, from the K-th on: for N processors
 *   machine CALL [ORDER]   one call
 *   machine WHOLE [ORDER]  a whole encryption, decryption or preparation, at order 1 or up to 3: some 12 minutes and more
 */
#include "calls.h"
#include "judge.h"
#include "stepping.h"
#include "symbols.h"

#include <stdio.h>
#include <stdlib.h>
#include <string.h>
#include <time.h>

/* So many instructions are told of for each call. */
#define TOLD 8

static struct notes notes;
static char names[MAX_NOTES][40];

/* What was looked at, over all calls. */
static struct { size_t calls, runs, instructions, bytes; } sum;

/* All runs of a call. Answers with false if one cannot be judged, and says why. */
static bool run_all(const struct call *c, size_t order)
{
	call_begin(c, order, &notes);
	judge_new();
	for (size_t run = 0; run < c->runs; run++) {
		c->draw(run);
		notes.name = run == 0 ? names : NULL;
		notes_open(&notes);
		c->note();
		notes_close();
		if (!call_counts(c, &notes)) {
			printf("%s, order %zu: %zu places noted, and the theorem counts %zu\n", c->name, order, notes.places, c->places());
			return false;
		}
		judge_take(&notes, run);
		if (!steps_run(c->make)) {
			printf("%s, order %zu: its instructions depend on the data\n", c->name, order);
			return false;
		}
		if (!call_agrees()) {
			printf("%s, order %zu: refused, or another output than the second implementation's\n", c->name, order);
			return false;
		}
		if (c->runs * step_count > 1000000 && run % 16 == 15)
			fprintf(stderr, "%s: run %zu of %zu\n", c->name, run + 1, c->runs);
	}
	notes.name = names;
	return judge_ready(&notes, c->runs);
}

/* The bytes that may not be held, each instruction once, into `shown`; answers with their number and, in `all`, with that of the bytes. */
static size_t find_bad(const struct lane **shown, size_t most, size_t *all)
{
	size_t found = 0;

	*all = 0;
	for (size_t k = 0; k < lane_count; k++) {
		const struct lane *l = &lanes[k];
		size_t m = 0;

		if (judge_allows(l))
			continue;
		++*all;
		while (m < found && (step_at[shown[m]->step] != step_at[l->step] || shown[m]->where != l->where))
			m++;
		if (m == found && found < most)
			shown[found++] = l;
	}
	return found;
}

/* A call at an order. Answers with how many bytes are held that must not be. */
static size_t examine(const struct call *c, size_t order)
{
	const struct lane *shown[TOLD];
	size_t bad;

	if (!run_all(c, order))
		return 1;
	size_t told = find_bad(shown, TOLD, &bad);
	struct seen seen = judge_seen();
	for (size_t m = 0; m < told; m++)
		printf("%s, order %zu: %s writes %s: %s\n", c->name, order, symbol_of(step_at[shown[m]->step]), lane_name(shown[m]->where),
			judge_tells(shown[m]));
	printf("%s, order %zu: %zu instructions, %zu bytes; %zu of %zu places, %zu of their %zu bytes written; %zu bytes that are no place\n",
		c->name, order, step_count, lane_count, seen.places, notes.places, seen.written, seen.bytes, bad);
	sum.calls++;
	sum.runs += c->runs;
	sum.instructions += step_count;
	sum.bytes += lane_count;
	return bad;
}

/* Whether every planted fault is found, in a call that could be judged: only such are counted. */
static bool sees(void)
{
	for (size_t k = 0; k < planted_count; k++)
		if (examine(&planted[k], planted[k].last_order) == 0 || sum.calls == k) {
			printf("%s: not found, so the test sees nothing\n", planted[k].name);
			return false;
		}
	memset(&sum, 0, sizeof sum);
	return true;
}

/* What the arguments mean: a part of all calls, or one of them, at one order or at all. */
static struct { size_t part, parts, order; const char *name; } wanted = { 1, 1, 0, NULL };

/* Looks at the listed calls, so far as they are wanted. Answers with how many bytes are held that must not be. */
static size_t examine_all(const struct call *list, size_t len)
{
	static size_t place; /* over all lists */
	size_t bad = 0;

	for (size_t k = 0; k < len; k++)
		for (size_t order = 1; order <= list[k].last_order; order++) {
			bool mine = place++ % wanted.parts == wanted.part - 1;
			bool named = wanted.name == NULL || strcmp(wanted.name, list[k].name) == 0;

			if (mine && named && (wanted.order == 0 || wanted.order == order))
				bad += examine(&list[k], order);
		}
	return bad;
}

int main(int argc, char **argv)
{
	time_t start = time(NULL);

	if (argc == 4 && strcmp(argv[1], "part") == 0) {
		wanted.part = strtoul(argv[2], NULL, 10);
		wanted.parts = strtoul(argv[3], NULL, 10);
	} else if (argc > 1) {
		wanted.name = argv[1];
		wanted.order = argc > 2 ? strtoul(argv[2], NULL, 10) : 0;
	}
	setvbuf(stdout, NULL, _IOLBF, 0);
	if (wanted.parts == 0 || !sees())
		return 1;
	size_t bad = examine_all(byte_calls, byte_call_count) + examine_all(block_calls, block_call_count);
	if (wanted.name != NULL) {
		wanted.order += wanted.order == 0;
		bad += examine_all(whole_calls, whole_call_count);
	}
	if (sum.calls == 0) {
		fputs("machine: no such call\n", stderr);
		return 2;
	}
	printf("machine: %zu calls in %zu runs, %zu instructions, %zu bytes; %zu bytes that are no place; %.0f s\n",
		sum.calls, sum.runs, sum.instructions, sum.bytes, bad, difftime(time(NULL), start));
	return bad != 0;
}
