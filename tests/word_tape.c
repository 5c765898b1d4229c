#include "word_tape.h"

uint8_t tape_byte(const uint32_t *words, size_t k)
{
	uint32_t word = words[k / 4];

	for (size_t lower = k % 4; lower > 0; lower--)
		word /= 256;
	return word % 256;
}

void tape_pack(uint32_t *words, const uint8_t *bytes, size_t len)
{
	for (size_t k = tape_words(len); k-- > 0;) {
		words[k] = 0;
		for (size_t b = 4; b-- > 0;)
			words[k] = 256 * words[k] + (4 * k + b < len ? bytes[4 * k + b] : 0);
	}
}

size_t tape_words(size_t bytes)
{
	return bytes / 4 + (bytes % 4 != 0);
}
