/* The buffers of a call that is looked at, and what they are filled with. */
#ifndef INPUTS_H
#define INPUTS_H

#include "../steps.h"
#include "dokkumel.h"

#include <stddef.h>
#include <stdint.h>

#define KEY   16 /* bytes of a key */
#define BLOCK 16

struct inputs {
	size_t order, n, box; /* box: tape bytes of an S-box, and tape words of four */
	size_t key_len, left_len, tape_len, out_len, taken;
	size_t start, end; /* the window, by words of the tape */
	size_t from, to; /* places are noted after so many draws to so many */
	uint8_t key[DOKKUMEL_PREPARED(8, KEY)], left[DOKKUMEL_SHARED(8, BLOCK)], right[MAX_SHARES];
	uint32_t *tape;
	uint8_t out[DOKKUMEL_PREPARED(8, KEY)], second[DOKKUMEL_PREPARED(8, KEY)];
	uint32_t status;
};
extern struct inputs in;

/* The whole of a call on so many bytes of input. */
void inputs_whole(size_t left_len, size_t tape_len, size_t out_len);

/*
 * Bytes of the run's field. Every fourth run draws all bytes; the others draw
 * from the subfields of sixteen and of four elements, which the steps of an
 * S-box but for its affine map do not leave: so each place takes the same
 * values in many runs, and what else a byte depends on shows.
 */
uint8_t field_byte(size_t run);
void field_bytes(uint8_t *to, size_t len, size_t run);

/* Input and tape of the run's field. */
void draw_field(size_t run);

/* Byte k of the tape, for as many bytes as are set at once: a word's lowest comes first. */
uint8_t *tape_at(size_t k);

/* Notes what is left of the call's last word: it is read with the word, and then dropped. No step reads it, so it is noted apart. */
void note_dropped(const struct tape *t);

/* Key, input and tape of any bytes. */
void draw_any(size_t run);

#endif
