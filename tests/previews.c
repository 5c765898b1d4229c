/* Previews of jobs that no buffer could be made for: lengths are any numbers, and none may wrap to one that fits. */
#include "known.h"

#include "block_call.h"
#include "dokkumel.h"
#include "key_sizes.h"
#include "needs.h"

#include <stdint.h>
#include <stdio.h>

static const struct job {
	const char *name;
	block_preview *preview;
	const size_t *key;
	enum routine routine;
	int prepares;
} jobs[] = {
	{ "preview_encrypt", dokkumel_preview_encrypt, key_bytes, ENCRYPT, 0 },
	{ "preview_decrypt", dokkumel_preview_decrypt, key_bytes, DECRYPT, 0 },
	{ "preview_encrypt_prepared", dokkumel_preview_encrypt_prepared, round_key_bytes, ENCRYPT_PREPARED, 0 },
	{ "preview_prepare", NULL, key_bytes, PREPARE, 1 },
};

/* The lengths of a job's buffers. */
struct lengths {
	size_t key, input, tape, output;
};

static struct lengths fitting(const struct job *j, size_t d, size_t size)
{
	size_t n = d + 1, output = j->prepares ? round_key_bytes[size] : 16;
	struct lengths l = { n * j->key[size], n * 16, need_words(j->routine, d, key_bytes[size]), n * output };

	return l;
}

/* Ends the program unless the preview's status is wanted, and the count behind taken is the need where that is 0, and else what it was. */
static void is(const struct job *j, size_t d, struct lengths l, uint32_t wanted, size_t need)
{
	size_t taken = 12345;
	uint32_t status = j->prepares ? dokkumel_preview_prepare(d, l.key, l.tape, l.output, &taken)
		: j->preview(d, l.key, l.input, l.tape, l.output, &taken);
	char text[200];

	snprintf(text, sizeof text, "%s at order %zu, lengths %zu, %zu, %zu, %zu: %u, not %u, with %zu", j->name, d, l.key, l.input, l.tape,
		l.output, (unsigned)status, (unsigned)wanted, taken);
	known_is(status == wanted && taken == (wanted == 0 ? need : 12345), text);
}

/* A length that differs from a fitting one by so much does not fit: in low bits, and in those that a product with 4, 16, 24 or n would lose. */
static const size_t more[] = {
	1, 15, 16, 256, 65536, (size_t)1 << 32, (size_t)1 << 59, (size_t)1 << 60, (size_t)1 << 61, (size_t)3 << 61,
	(size_t)1 << 62, (size_t)3 << 62, (size_t)1 << 63,
};
#define MORE (sizeof more / sizeof more[0])

static void far_off(const struct job *j, size_t d, size_t size, size_t add)
{
	struct lengths fit = fitting(j, d, size), l = fit;
	size_t need = fit.tape;

	l.tape = need + add;
	is(j, d, l, 0, need);
	l.tape = add;
	is(j, d, l, add < need ? 5 : 0, need);
	l = fit, l.output = fit.output + add;
	is(j, d, l, 4, need);
	l = fit, l.input = fit.input + add;
	is(j, d, l, j->prepares ? 0 : 3, need);
	l = fit, l.key = fit.key + add;
	/* a longer key's length may be just so much more */
	if (!fits_size(l.key, d, j->key))
		is(j, d, l, 2, need);
}

/* How much tape must be drawn, and what the largest numbers give. */
static void largest(const struct job *j, size_t d, size_t size)
{
	struct lengths fit = fitting(j, d, size), l = fit;
	size_t need = fit.tape;

	l.tape = SIZE_MAX;
	is(j, d, l, 0, need);
	l.tape = need - 1;
	is(j, d, l, 5, need);
	l.output = SIZE_MAX;
	is(j, d, l, 4, need);
	l.input = SIZE_MAX;
	is(j, d, l, j->prepares ? 4 : 3, need);
	l.key = SIZE_MAX;
	is(j, d, l, 2, need);
	is(j, SIZE_MAX, l, 1, need);
	is(j, 0, fit, 1, need);
	is(j, 9, fit, 1, need);
}

void known_previews(void)
{
	for (size_t k = 0; k < sizeof jobs / sizeof jobs[0]; k++)
		for (size_t d = 1; d <= DOKKUMEL_MAX_ORDER; d++)
			for (size_t size = 0; size < 3; size++) {
				largest(&jobs[k], d, size);
				for (size_t m = 0; m < MORE; m++)
					far_off(&jobs[k], d, size, more[m]);
			}
}
