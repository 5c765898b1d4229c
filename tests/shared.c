#include "shared.h"

#include <string.h>

void shared_move_on(struct shared *s, size_t taken)
{
	size_t at = dokkumel_unused_tape(s->tape, s->tape_len, taken);

	s->tape += at;
	s->tape_len -= at;
}

static int split_string(struct shared *s, const uint8_t *string, size_t l, uint8_t *shares)
{
	size_t taken = 0;

	if (dokkumel_split(s->d, string, l, s->tape, s->tape_len, shares, DOKKUMEL_SHARED(s->d, l), &taken) != DOKKUMEL_OK
		|| taken != DOKKUMEL_SPLIT_TAPE(s->d, l))
		return 0;
	shared_move_on(s, taken);
	return 1;
}

int shared_split(struct shared *s, size_t d, const uint8_t *key, size_t key_bytes, const uint8_t *block,
	const uint32_t *tape, size_t tape_len)
{
	*s = (struct shared){ .d = d, .key_bytes = key_bytes, .key_len = DOKKUMEL_SHARED(d, key_bytes),
		.block_len = DOKKUMEL_SHARED(d, 16), .tape = tape, .tape_len = tape_len };
	return split_string(s, key, key_bytes, s->key) && split_string(s, block, 16, s->block);
}

int shared_pass(struct shared *s, block_call *call)
{
	uint8_t output[DOKKUMEL_SHARED(8, 16)] = { 0 };
	size_t taken = 0;

	if (call(s->d, s->key, s->key_len, s->block, s->block_len, s->tape, s->tape_len, output, s->block_len, &taken) != DOKKUMEL_OK
		|| taken != (size_t)DOKKUMEL_ENCRYPT_TAPE(s->d, s->key_bytes))
		return 0;
	shared_move_on(s, taken);
	memcpy(s->block, output, s->block_len);
	return 1;
}

int shared_join(const struct shared *s, const uint8_t *shares, uint8_t block[16])
{
	size_t taken = 1;

	return dokkumel_join(s->d, shares, s->block_len, block, 16, &taken) == DOKKUMEL_OK && taken == 0;
}
