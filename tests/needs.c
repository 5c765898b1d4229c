#include "needs.h"

#include "key_sizes.h"
#include "steps.h"
#include "word_tape.h"

size_t need_bytes(enum routine routine, size_t d, size_t l)
{
	size_t sbox = step_sbox_bytes(d);

	switch (routine) {
	case SPLIT:
		return d * l;
	case REFRESH:
	case PRODUCT:
	case SHEET:
	case READ:
		return d * (d + 1) / 2;
	case CUBE_SHEET:
	case READ_CUBE:
		return d * (d + 1);
	case SBOX:
		return sbox;
	case ENCRYPT:
	case DECRYPT:
		return all_sboxes[l / 8 - 2] * sbox;
	case PREPARE:
		return key_sboxes[l / 8 - 2] * sbox;
	case ENCRYPT_PREPARED:
		return round_sboxes[l / 8 - 2] * sbox;
	default:
		return 0;
	}
}

size_t need_words(enum routine routine, size_t d, size_t l)
{
	return tape_words(need_bytes(routine, d, l));
}
