/*
 * A notebook of the places of a call: of each value that the steps of steps.h
 * compute, by name, in the order of the theorem's list (crates/probing/specs).
 * The steps note them; where no notebook is open, nothing is noted.
 *
 * A place is a byte, or it is wide: both factors of a field product as one
 * value, or a whole share of a string. Of a wide place no more is noted than
 * what a routine may compute from it, which is less than the theorem allows.
 */
#ifndef NOTES_H
#define NOTES_H

#include <stddef.h>
#include <stdint.h>

#define MAX_NOTES   82000 /* a whole decryption at order 3 has 80352 places */
#define MAX_COLUMNS 256

enum kind {
	A_BYTE,
	A_PAIR,  /* of two factors: the sum of their logs, at which a table is read for their product */
	A_SHARE, /* of a whole share: nothing, but of the shares that are mixed their columns */
	APART,   /* a byte that is not counted: of tape that no step reads, or a place from before the notebook's first */
};

struct notes {
	/* Only what is computed after `from` draws or more, and after no more than `to`, is noted. */
	size_t from, to;
	size_t drawn;
	/* How many places the steps had, noted or not. */
	size_t places;
	/* What is noted of each, and its name where names are wanted. */
	size_t count;
	uint16_t value[MAX_NOTES];
	uint8_t kind[MAX_NOTES];
	char (*name)[40];
	const char *where;
	/* The columns of one share that MixColumns or its inverse takes. */
	size_t columns;
	uint8_t column[MAX_COLUMNS][4];
};

/* Opens a notebook, from its first page on. */
void notes_open(struct notes *n);
void notes_close(void);

/* So many bytes of the tape are drawn. */
void note_drawn(size_t drawn);

/* What the next places belong to: "z*x", say. */
void note_where(const char *where);

/* Notes a byte, and answers with it. */
__attribute__((format(printf, 2, 3)))
uint8_t note(uint8_t value, const char *name, ...);

/* Notes both factors a_i and b_j of a field product as one place. */
void note_pair(uint8_t a, size_t i, uint8_t b, size_t j);

/* Notes a string in d + 1 shares that stand so far apart: each share as one place, then the bytes of share 0, of share 1, and so on. */
void note_string(const char *where, size_t d, const uint8_t *string, size_t apart, size_t len);

/* Notes a share of a state that is mixed, as one place, and its four columns; and the four bytes of one column. */
void note_mixed(const uint8_t *state);
void note_column(const uint8_t *four);

/* Notes a byte that is no place of the list: of tape that no step reads. */
__attribute__((format(printf, 2, 3)))
void note_apart(uint8_t value, const char *name, ...);

/* A byte that is read, and is noted where it was computed. A notebook that does not begin with the call may not have it, and notes it apart. */
__attribute__((format(printf, 2, 3)))
void note_again(uint8_t value, const char *name, ...);

#endif
