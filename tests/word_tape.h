/* A tape of words as the steps of steps.h draw from it, byte by byte: from document 02, wish 6, with nothing taken from the library. */
#ifndef WORD_TAPE_H
#define WORD_TAPE_H

#include <stddef.h>
#include <stdint.h>

/* A call's tape, from its first word on, and how many bytes of it have been drawn. */
struct tape {
	const uint32_t *words;
	size_t drawn;
};

/* Byte k of a tape: each word has four, the lowest first. */
uint8_t tape_byte(const uint32_t *words, size_t k);

/* The words that so many bytes are drawn from; what is left of the last one is zeros. */
void tape_pack(uint32_t *words, const uint8_t *bytes, size_t len);

/* How many words so many bytes take: the last counts, however little is drawn from it. */
size_t tape_words(size_t bytes);

#endif
