/*
 * The steps over shares, written plainly from documents 01 and 02 and FIPS
 * 197, with nothing taken from the library. d is the order, n = d + 1.
 */
#ifndef STEPS_H
#define STEPS_H

#include "word_tape.h"

#include <stddef.h>
#include <stdint.h>

#define MAX_ORDER  8
#define MAX_SHARES 9
#define MAX_PLACES 279
#define MAX_CUBE_PLACES 396

uint8_t step_times(uint8_t a, uint8_t b);
uint8_t step_affine(uint8_t a);
uint8_t step_inverse_affine(uint8_t a);

/* New shares of the byte x. */
void step_refresh(size_t d, uint8_t *x, struct tape *t);

/* c = a * b. Every byte on the way is noted in places, in the order of document 01's numbers. */
void step_product(size_t d, const uint8_t *a, const uint8_t *b, struct tape *t, uint8_t *c, uint8_t *places);

/* z = x^2, refreshed, and y = z * x: the S-box's first product. Every byte on the way is noted in places, in the order of document 02's numbers. */
void step_cube(size_t d, const uint8_t *x, struct tape *t, uint8_t *z, uint8_t *y, uint8_t *places);

/* The S-box of the byte x, and its inverse. */
typedef void step_box(size_t d, uint8_t *x, struct tape *t);
step_box step_sbox, step_inverse_sbox;

/* How many bytes either of them draws. */
size_t step_sbox_bytes(size_t d);

/* Either of them, for byte k of a string in shares that stand so far apart. */
void step_box_at(size_t d, step_box *box, uint8_t *string, size_t apart, size_t k, struct tape *t);

/* One block. Key, block and out are share after share; words is 4, 6 or 8. */
typedef void step_block(size_t d, size_t words, const uint8_t *key, const uint8_t *block, struct tape *t, uint8_t *out);
step_block step_encrypt, step_decrypt;

/* The round keys of a key, and one block from them. Prepared keys are share after share, each share a whole schedule. */
void step_prepare(size_t d, size_t words, const uint8_t *key, struct tape *t, uint8_t *prepared);
step_block step_encrypt_prepared;

#endif
