#include "notes.h"

#include "steps.h"

#include <stdarg.h>
#include <stdio.h>
#include <stdlib.h>
#include <string.h>

static struct notes *open;

void notes_open(struct notes *n)
{
	open = n;
	n->drawn = n->places = n->count = n->columns = 0;
	n->where = "";
}

void notes_close(void)
{
	open = NULL;
}

void note_drawn(size_t drawn)
{
	if (open != NULL)
		open->drawn = drawn;
}

void note_where(const char *where)
{
	if (open != NULL)
		open->where = where;
}

/* Whether a notebook is open for what is computed now. */
static int wanted(void)
{
	return open != NULL && open->from <= open->drawn && open->drawn <= open->to;
}

static void put(enum kind kind, uint16_t value, const char *name, va_list rest)
{
	size_t k = open->count++;

	if (k == MAX_NOTES) {
		fputs("notes: the notebook is full\n", stderr);
		exit(2);
	}
	open->value[k] = value;
	open->kind[k] = (uint8_t)kind;
	if (open->name != NULL) {
		int at = snprintf(open->name[k], sizeof open->name[k], "%s%s", open->where, *open->where ? ": " : "");

		vsnprintf(open->name[k] + at, sizeof open->name[k] - (size_t)at, name, rest);
	}
}

/* The next place of the list. It is counted where it is not wanted, too. */
static void next(enum kind kind, uint16_t value, const char *name, va_list rest)
{
	if (open == NULL)
		return;
	open->places++;
	if (wanted())
		put(kind, value, name, rest);
}

uint8_t note(uint8_t value, const char *name, ...)
{
	va_list rest;

	va_start(rest, name);
	next(A_BYTE, value, name, rest);
	va_end(rest);
	return value;
}

__attribute__((format(printf, 3, 4)))
static void note_wide(enum kind kind, uint16_t value, const char *name, ...)
{
	va_list rest;

	va_start(rest, name);
	next(kind, value, name, rest);
	va_end(rest);
}

/* The log to base 03; of 00 it is 510, as in the library's table. */
static unsigned log_of(uint8_t a)
{
	static uint16_t logs[256];

	if (logs[0] == 0) {
		uint8_t power = 1;

		for (uint16_t k = 0; k < 255; k++, power = step_times(power, 3))
			logs[power] = k;
		logs[0] = 510;
	}
	return logs[a];
}

void note_pair(uint8_t a, size_t i, uint8_t b, size_t j)
{
	note_wide(A_PAIR, (uint16_t)(log_of(a) + log_of(b)), "log a_%zu + log b_%zu", i, j);
}

void note_string(const char *where, size_t d, const uint8_t *string, size_t apart, size_t len)
{
	note_where(where);
	for (size_t s = 0; s <= d; s++)
		note_wide(A_SHARE, 0, "share %zu", s);
	for (size_t s = 0; s <= d; s++)
		for (size_t k = 0; k < len; k++)
			note(string[s * apart + k], "byte %zu of share %zu", k, s);
}

void note_column(const uint8_t *four)
{
	if (!wanted())
		return;
	if (open->columns == MAX_COLUMNS) {
		fputs("notes: too many columns\n", stderr);
		exit(2);
	}
	memcpy(open->column[open->columns++], four, 4);
}

void note_mixed(const uint8_t *state)
{
	note_wide(A_SHARE, 0, "a share of the state");
	for (size_t c = 0; c < 4; c++)
		note_column(state + 4 * c);
}

void note_apart(uint8_t value, const char *name, ...)
{
	va_list rest;

	va_start(rest, name);
	if (wanted())
		put(APART, value, name, rest);
	va_end(rest);
}

void note_again(uint8_t value, const char *name, ...)
{
	va_list rest;

	va_start(rest, name);
	if (wanted() && open->from > 0)
		put(APART, value, name, rest);
	va_end(rest);
}
