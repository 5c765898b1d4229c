/* The key schedule over shares. Words are numbered from 0, as in document 01. */
#include "schedule.h"

#include "notes.h"

#include <string.h>

/* A word in shares: all of share 0, then all of share 1, and so on. */
typedef uint8_t words_t[MAX_SHARES][4];

static void sub_word(size_t d, words_t word, struct tape *t)
{
	for (size_t k = 0; k < 4; k++)
		step_box_at(d, step_sbox, word[0], 4, k, t);
}

/* SubWord, RotWord, Rcon: the masked SubWord comes first. */
static void turned_word(size_t d, words_t word, uint8_t rcon, struct tape *t)
{
	sub_word(d, word, t);
	for (size_t s = 0; s <= d; s++) {
		uint8_t first = word[s][0];

		memmove(word[s], word[s] + 1, 3);
		word[s][3] = first;
	}
	word[0][0] ^= rcon;
	note_string("turned word", d, word[0], 4, 4);
}

/* Word i: the word so far, XORed with an earlier one. */
static void add_word(size_t d, schedule_t w, size_t i, size_t earlier, words_t word)
{
	for (size_t s = 0; s <= d; s++)
		for (size_t k = 0; k < 4; k++) {
			note_again(w[s][earlier][k], "word %zu of share %zu", earlier, s);
			note_again(word[s][k], "word %zu so far of share %zu", i, s);
			w[s][i][k] = w[s][earlier][k] ^ word[s][k];
		}
	note_string("key word", d, w[0][i], sizeof w[0], 4);
}

void schedule_expand(size_t d, size_t words, const uint8_t *key, struct tape *t, schedule_t w)
{
	uint8_t rcon = 1;

	for (size_t s = 0; s <= d; s++)
		memcpy(w[s], key + s * 4 * words, 4 * words);
	for (size_t i = words; i < 4 * (words + 7); i++) {
		words_t word;

		for (size_t s = 0; s <= d; s++)
			memcpy(word[s], w[s][i - 1], 4);
		if (i % words == 0) {
			turned_word(d, word, rcon, t);
			rcon = step_times(rcon, 2);
		} else if (words == 8 && i % 8 == 4) {
			sub_word(d, word, t);
		}
		add_word(d, w, i, i - words, word);
	}
}
