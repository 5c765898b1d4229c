#include "counts.h"

#include "dokkumel.h"

size_t count_box(size_t d)
{
	return 3 * (d + 1) * (7 * d + 10);
}

/* The places of so many S-boxes, and for each share those of the linear steps: these by the length of the key, 16, 24 or 32. */
static size_t count(size_t d, size_t boxes, const size_t linear[3], size_t key)
{
	return boxes * count_box(d) + linear[(key - 16) / 8] * (d + 1);
}

size_t count_encryption(size_t d, size_t key)
{
	return count(d, DOKKUMEL_SBOXES(key), (const size_t[]){ 1200, 1424, 1653 }, key);
}

size_t count_decryption(size_t d, size_t key)
{
	return count(d, DOKKUMEL_SBOXES(key), (const size_t[]){ 1488, 1776, 2069 }, key);
}

size_t count_preparation(size_t d, size_t key)
{
	return count(d, DOKKUMEL_KEY_SBOXES(key), (const size_t[]){ 444, 504, 569 }, key);
}

size_t count_prepared(size_t d, size_t key)
{
	return count(d, DOKKUMEL_ROUND_SBOXES(key), (const size_t[]){ 1110, 1338, 1566 }, key);
}
