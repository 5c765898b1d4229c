/* The calls of second.h that take a key or prepared keys. Each asks its questions in the table's order, and only then writes. */
#include "second.h"
#include "steps.h"

/* S-boxes of the key expansion and of all rounds, by the words of the key. */
static const size_t key_sboxes[9] = { [4] = 40, [6] = 32, [8] = 52 };
static const size_t round_sboxes[9] = { [4] = 160, [6] = 192, [8] = 224 };

/* 4, 6 or 8 if total is a key of so many words in n shares; else 0. */
static size_t key_words(size_t total, size_t n)
{
	return total == n * 16 ? 4 : total == n * 24 ? 6 : total == n * 32 ? 8 : 0;
}

/* The same for its prepared keys: 11, 13 or 15 round keys of 16 bytes. */
static size_t prepared_words(size_t total, size_t n)
{
	return total == n * 176 ? 4 : total == n * 208 ? 6 : total == n * 240 ? 8 : 0;
}

/* One block, by a step that draws so many S-boxes. words is 0 where the key's length fits no size; 1 is asked before it. */
static uint32_t one_block(step_block *step, size_t sboxes, size_t words, size_t order, const uint8_t *key,
	const uint8_t *input, size_t input_len, const uint32_t *tape, size_t tape_len, uint8_t *output, size_t output_len, size_t *taken)
{
	struct tape t = { tape, 0 };

	if (order < 1 || order > MAX_ORDER)
		return 1;
	if (words == 0)
		return 2;
	if (input_len != 16 * (order + 1))
		return 3;
	if (output_len != 16 * (order + 1))
		return 4;
	if (tape_len < tape_words(sboxes * step_sbox_bytes(order)))
		return 5;
	step(order, words, key, input, &t, output);
	*taken = tape_words(t.drawn);
	return 0;
}

uint32_t second_encrypt(size_t order, const uint8_t *key, size_t key_len, const uint8_t *input, size_t input_len,
	const uint32_t *tape, size_t tape_len, uint8_t *output, size_t output_len, size_t *taken)
{
	size_t words = key_words(key_len, order + 1), sboxes = key_sboxes[words] + round_sboxes[words];

	return one_block(step_encrypt, sboxes, words, order, key, input, input_len, tape, tape_len, output, output_len, taken);
}

uint32_t second_decrypt(size_t order, const uint8_t *key, size_t key_len, const uint8_t *input, size_t input_len,
	const uint32_t *tape, size_t tape_len, uint8_t *output, size_t output_len, size_t *taken)
{
	size_t words = key_words(key_len, order + 1), sboxes = key_sboxes[words] + round_sboxes[words];

	return one_block(step_decrypt, sboxes, words, order, key, input, input_len, tape, tape_len, output, output_len, taken);
}

uint32_t second_encrypt_prepared(size_t order, const uint8_t *prepared, size_t prepared_len, const uint8_t *input, size_t input_len,
	const uint32_t *tape, size_t tape_len, uint8_t *output, size_t output_len, size_t *taken)
{
	size_t words = prepared_words(prepared_len, order + 1), sboxes = round_sboxes[words];

	return one_block(step_encrypt_prepared, sboxes, words, order, prepared, input, input_len, tape, tape_len,
		output, output_len, taken);
}

uint32_t second_prepare(size_t order, const uint8_t *key, size_t key_len, const uint32_t *tape, size_t tape_len,
	uint8_t *output, size_t output_len, size_t *taken)
{
	struct tape t = { tape, 0 };
	size_t words;

	if (order < 1 || order > MAX_ORDER)
		return 1;
	words = key_words(key_len, order + 1);
	if (words == 0)
		return 2;
	if (prepared_words(output_len, order + 1) != words)
		return 4;
	if (tape_len < tape_words(key_sboxes[words] * step_sbox_bytes(order)))
		return 5;
	step_prepare(order, words, key, &t, output);
	*taken = tape_words(t.drawn);
	return 0;
}
