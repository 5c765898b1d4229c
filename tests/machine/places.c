/*
 * The notebook against the theorem's list, with no look at the machine: the
 * second implementation notes as many places as the theorem counts, for an
 * S-box, its inverse and each call, at every order and for every length of a
 * key; and those of them that the library shows are its bytes: the cube's
 * places in an S-box, and the last places of a call, which are its output.
 * What a notebook of a part of a call has apart are places of the whole.
 */
#include "../noise.h"
#include "../notes.h"
#include "../steps.h"
#include "counts.h"
#include "dokkumel.h"

#include <stdbool.h>
#include <stdio.h>
#include <stdlib.h>
#include <string.h>

static struct notes notes;
static struct noise noise;
static size_t lists, wrong;

static uint8_t key[DOKKUMEL_PREPARED(8, 32)], block[DOKKUMEL_SHARED(8, 16)], out[sizeof key], second[sizeof key];
static uint32_t tape[DOKKUMEL_ENCRYPT_TAPE(8, 32)];

static void draw(void)
{
	noise_fill(&noise, key, sizeof key);
	noise_fill(&noise, block, sizeof block);
	noise_fill(&noise, tape, sizeof tape);
}

/* Opens the notebook for what is computed after so many draws. */
static void begin(size_t from)
{
	notes.from = from;
	notes.to = SIZE_MAX;
	notes_open(&notes);
}

/* Whether these bytes stand in the notebook from note k on, each so many notes behind the one before. */
static bool stands(const uint8_t *bytes, size_t len, size_t k, size_t apart)
{
	for (size_t m = 0; m < len; m++, k += apart)
		if (k >= notes.count || notes.kind[k] != A_BYTE || notes.value[k] != bytes[m])
			return false;
	return true;
}

static void tell(const char *name, size_t d, size_t len, size_t wanted, bool shown)
{
	notes_close();
	lists++;
	if (notes.places == wanted && shown)
		return;
	wrong++;
	printf("%s, order %zu, %zu bytes: %zu places noted, and the theorem counts %zu; what the library shows of them is %s\n",
		name, d, len, notes.places, wanted, shown ? "there" : "not there");
}

/* Behind the shares of x come the cube's places; and of the last four for each share, the fourth is the output's. */
static void try_boxes(size_t d)
{
	size_t n = d + 1, taken, cube = DOKKUMEL_CUBE_PLACES(d);
	uint8_t x[MAX_SHARES], made[MAX_SHARES], sheet[MAX_CUBE_PLACES];

	draw();
	begin(0);
	memcpy(x, block, n);
	step_sbox(d, x, &(struct tape){ tape, 0 });
	bool good = dokkumel_sbox(d, block, n, tape, DOKKUMEL_SBOX_TAPE(d), made, n, &taken) == DOKKUMEL_OK
		&& dokkumel_cube_sheet(d, block, n, tape, DOKKUMEL_CUBE_TAPE(d), sheet, cube, &taken) == DOKKUMEL_OK;
	tell("sbox", d, 1, count_box(d), good && stands(block, n, 0, 1) && stands(sheet, cube, n, 1) && stands(made, n, notes.count - 4 * n + 3, 4));
	begin(0);
	memcpy(x, block, n);
	step_inverse_sbox(d, x, &(struct tape){ tape, 0 });
	tell("inverse-sbox", d, 1, count_box(d), stands(block, n, 0, 4));
}

/* The calls: the second implementation's, the library's, and the lengths of tape and output. */
struct lengths { size_t key, tape, out; };
static size_t taken;

static void step_only_prepare(size_t d, size_t words, const uint8_t *k, const uint8_t *x, struct tape *t, uint8_t *to)
{
	(void)x;
	step_prepare(d, words, k, t, to);
}

static uint32_t encrypt(size_t d, struct lengths l)
{
	return dokkumel_encrypt(d, key, l.key, block, DOKKUMEL_SHARED(d, 16), tape, l.tape, out, l.out, &taken);
}

static uint32_t decrypt(size_t d, struct lengths l)
{
	return dokkumel_decrypt(d, key, l.key, block, DOKKUMEL_SHARED(d, 16), tape, l.tape, out, l.out, &taken);
}

static uint32_t prepare(size_t d, struct lengths l)
{
	return dokkumel_prepare(d, key, l.key, tape, l.tape, out, l.out, &taken);
}

static uint32_t encrypt_prepared(size_t d, struct lengths l)
{
	return dokkumel_encrypt_prepared(d, key, l.key, block, DOKKUMEL_SHARED(d, 16), tape, l.tape, out, l.out, &taken);
}

/* Whether the last places are the library's output. They come behind the last draw. */
static void try_call(const char *name, step_block *step, count_call *count, uint32_t (*make)(size_t, struct lengths), size_t d, size_t bytes,
	struct lengths l)
{
	draw();
	begin(4 * l.tape);
	step(d, bytes / 4, key, block, &(struct tape){ tape, 0 }, second);
	bool good = make(d, l) == DOKKUMEL_OK && memcmp(out, second, l.out) == 0;
	tell(name, d, bytes, count(d, bytes), good && notes.count >= l.out && stands(out, l.out, notes.count - l.out, 1));
}

static void try_calls(size_t d, size_t bytes)
{
	size_t keys = DOKKUMEL_SHARED(d, bytes), prepared = DOKKUMEL_PREPARED(d, bytes), len = DOKKUMEL_SHARED(d, 16);
	struct lengths single = { keys, DOKKUMEL_ENCRYPT_TAPE(d, bytes), len };
	struct lengths first = { keys, DOKKUMEL_PREPARE_TAPE(d, bytes), prepared };
	struct lengths later = { prepared, DOKKUMEL_ENCRYPT_PREPARED_TAPE(d, bytes), len };

	try_call("encryption", step_encrypt, count_encryption, encrypt, d, bytes, single);
	try_call("decryption", step_decrypt, count_decryption, decrypt, d, bytes, single);
	try_call("preparation", step_only_prepare, count_preparation, prepare, d, bytes, first);
	try_call("encryption from prepared keys", step_encrypt_prepared, count_prepared, encrypt_prepared, d, bytes, later);
}

/* Notes by what they are in eight runs, the bytes of the list and those that are noted apart. */
static uint64_t listed[MAX_NOTES], apart[MAX_NOTES];

static size_t gather(enum kind kind, uint64_t *to)
{
	size_t len = 0;

	for (size_t k = 0; k < notes.count; k++)
		if (notes.kind[k] == kind) {
			to[len] = to[len] << 8 | notes.value[k];
			len++;
		}
	return len;
}

static int by_value(const void *x, const void *y)
{
	uint64_t a = *(const uint64_t *)x, b = *(const uint64_t *)y;

	return a < b ? -1 : a > b;
}

/* A notebook that begins after the first draw has every byte apart that is read again: each must be a place of the whole list. */
static void try_apart(const char *name, step_block *step, size_t d, size_t bytes)
{
	size_t all = 0, again = 0, strange = 0;

	for (int run = 0; run < 8; run++) {
		draw();
		for (int part = 0; part < 2; part++) {
			begin((size_t)part);
			step(d, bytes / 4, key, block, &(struct tape){ tape, 0 }, second);
			notes_close();
			*(part ? &again : &all) = part ? gather(APART, apart) : gather(A_BYTE, listed);
		}
	}
	qsort(listed, all, sizeof listed[0], by_value);
	for (size_t k = 0; k < again; k++)
		strange += bsearch(&apart[k], listed, all, sizeof listed[0], by_value) == NULL;
	lists++;
	wrong += strange > 0 || again == 0;
	if (strange > 0 || again == 0)
		printf("%s, order %zu, %zu bytes: of %zu bytes noted apart, %zu are no places\n", name, d, bytes, again, strange);
}

int main(void)
{
	for (size_t d = 1; d <= DOKKUMEL_MAX_ORDER; d++) {
		try_boxes(d);
		for (size_t bytes = 16; bytes <= 32; bytes += 8)
			try_calls(d, bytes);
	}
	/* The steps do not depend on the order; windows have keys of 16 bytes. */
	for (size_t d = 1; d <= 2; d++) {
		try_apart("encryption", step_encrypt, d, 16);
		try_apart("decryption", step_decrypt, d, 16);
		try_apart("preparation", step_only_prepare, d, 16);
		try_apart("encryption from prepared keys", step_encrypt_prepared, d, 16);
	}
	printf("places: %zu lists of the notebook, %zu that are not the theorem's\n", lists, wrong);
	return wrong != 0;
}
