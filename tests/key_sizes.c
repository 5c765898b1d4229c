#include "key_sizes.h"

const size_t key_bytes[3] = { 16, 24, 32 }, round_key_bytes[3] = { 176, 208, 240 };
const size_t key_sboxes[3] = { 40, 32, 52 }, round_sboxes[3] = { 160, 192, 224 }, all_sboxes[3] = { 200, 224, 276 };

int fits_size(size_t len, size_t d, const size_t sizes[3])
{
	size_t n = d + 1;

	return len == n * sizes[0] || len == n * sizes[1] || len == n * sizes[2];
}
