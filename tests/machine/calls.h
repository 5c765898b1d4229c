/*
 * The calls that are looked at: for each its inputs in a run, the library's
 * routine, the same by the second implementation, which notes its places, and
 * the part of the call that is meant.
 */
#ifndef CALLS_H
#define CALLS_H

#include "../notes.h"

#include <stdbool.h>
#include <stddef.h>

struct call {
	const char *name;
	/* It is looked at from order 1 to this one, in so many runs. */
	size_t last_order, runs;
	/* Lengths and window at an order; inputs of a run; the library's call; the second implementation's. */
	void (*set)(void);
	void (*draw)(size_t run);
	void (*make)(void);
	void (*note)(void);
	/* How many places the theorem counts, where it speaks of the whole call. */
	size_t (*places)(void);
};

/* What the gate looks at: byte_calls.c and block_calls.c. */
extern const struct call byte_calls[], block_calls[];
extern const size_t byte_call_count, block_call_count;

/* Whole calls on a block or a key, which take minutes: an encryption, a decryption, a preparation. */
extern const struct call whole_calls[];
extern const size_t whole_call_count;

/* Routines that hold what they must not: brackets moved, two draws of a refresh in one byte, a cube's square before its refresh times x, two
   squares of an S-box in one byte, and two shares in one byte, in a whole call and in a window (planted.c). Each is tried at its last order alone. */
extern const struct call planted[];
extern const size_t planted_count;

/* Of the refresh, the cube and the S-box, which are also planted. The cube's output is its sheet, or its product where it has as many bytes as
   shares. */
void set_refresh(void);
void note_refresh(void);
void note_cube(void);
void set_sbox(void);
void make_sbox(void);
void note_sbox(void);
size_t places_sbox(void);

/* Before the first run of a call at an order. The window's places are those after so many draws to so many. */
void call_begin(const struct call *c, size_t order, struct notes *n);

/* Whether as many places were noted in a run as the theorem counts. */
bool call_counts(const struct call *c, const struct notes *n);

/* Whether the library carried the last run through, and its output is the second implementation's. */
bool call_agrees(void);

#endif
