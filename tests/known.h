/* Answers that are known beforehand. At the first that differs the program says which, and ends with status 1. */
#ifndef KNOWN_H
#define KNOWN_H

#include <stddef.h>
#include <stdint.h>

/* Each ends the program unless it holds. */
void known_is(int good, const char *what);

/* Ends the program unless good answers 1 for example e at orders 1, 2, 3 and 8, each on several tapes. */
void known_on_tapes(const char *name, size_t e, int (*good)(size_t e, size_t d, const uint32_t *tape, size_t tape_len));

/* FIPS 197's examples of encryption, by the single call, backwards, and from prepared keys. */
void known_published(void);

/* FIPS 197's examples of key expansion, as what prepared keys join to. */
void known_round_keys(void);

/* The small values and edges of document 01, and of document 02's cube. */
void known_small(void);

/* Blocks that are encrypted and decrypted, or the other way round: they come back. */
void known_trips(uint64_t seed);

/* The cube's sheet beside the routines that it is made of. */
void known_cubes(uint64_t seed);

/* The tape that each routine needs, in words. */
void known_needs(void);

/* The shares that were given when the tape was of bytes, where no other refresh has changed them since. */
void known_before(void);

/* The refusals of all calls that take a key, and of the cube's sheet and reading, in their order and at every length. */
void known_refusals(void);

/* Previews of jobs whose lengths no buffer could have. */
void known_previews(void);

/* The header's macros: just so much is served, and a word of tape less, or a byte more or less elsewhere, refused. */
void known_macros(void);

#endif
