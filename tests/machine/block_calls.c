/* Windows of the calls on a block with a key of 16 bytes: the linear steps and key words between S-boxes, each with the unpacked tape of the four
   S-boxes before them and the last of these; and one inverse S-box. */
#include "calls.h"

#include "counts.h"
#include "inputs.h"
#include "stepping.h"

#define FEW_RUNS  60  /* of bytes of small fields, which repeat often */
#define MANY_RUNS 200 /* of any bytes */

/* From the unpacking for S-box `first` and the three behind it to that for S-box `next`; both are multiples of four. */
static void set_window(size_t first, size_t next)
{
	in.left_len = in.out_len = DOKKUMEL_SHARED(in.order, BLOCK);
	in.start = first / 4 * in.box;
	in.end = next == AT_RETURN ? AT_RETURN : next / 4 * in.box;
	in.from = first * in.box;
	in.to = next == AT_RETURN ? 4 * in.tape_len : next * in.box;
}

static void set_prepared(void)
{
	in.key_len = DOKKUMEL_PREPARED(in.order, KEY);
	in.tape_len = DOKKUMEL_ENCRYPT_PREPARED_TAPE(in.order, KEY);
}

static void set_from_key(void)
{
	in.key_len = DOKKUMEL_SHARED(in.order, KEY);
	in.tape_len = DOKKUMEL_ENCRYPT_TAPE(in.order, KEY);
}

#define KEY_BOXES DOKKUMEL_KEY_SBOXES(KEY)
#define ALL_BOXES DOKKUMEL_SBOXES(KEY)

/* The first round key of an encryption: from the call to its first draw. */
static void set_first_key(void)
{
	set_prepared();
	set_window(0, 0);
	in.start = AT_CALL;
	in.from = 0;
}

/* The linear steps between two rounds, and those of the last round. */
static void set_round(void) { set_prepared(); set_window(12, 16); }
static void set_last_round(void) { set_prepared(); set_window(DOKKUMEL_ROUND_SBOXES(KEY) - 4, AT_RETURN); }
static void set_inverse_round(void) { set_from_key(); set_window(KEY_BOXES + 12, KEY_BOXES + 16); }
static void set_last_inverse_round(void) { set_from_key(); set_window(ALL_BOXES - 4, AT_RETURN); }

/* Before the first inverse S-box of a decryption: the last key words, the first round key, InvShiftRows. */
static void set_first_inverse_key(void) { set_from_key(); set_window(KEY_BOXES - 4, KEY_BOXES); }

/* The fourth inverse S-box. */
static void set_inverse_sbox(void) { set_from_key(); set_window(KEY_BOXES, KEY_BOXES + 4); }

static void set_preparation(size_t next)
{
	in.tape_len = DOKKUMEL_PREPARE_TAPE(in.order, KEY);
	set_window(0, next);
	in.key_len = DOKKUMEL_SHARED(in.order, KEY);
	in.out_len = DOKKUMEL_PREPARED(in.order, KEY);
}

/* The key words that the first S-boxes of a preparation serve. */
static void set_key_words(void) { set_preparation(4); }

static void set_whole(void)
{
	set_from_key();
	set_window(0, AT_RETURN);
	in.start = AT_CALL;
}

static void set_whole_preparation(void)
{
	set_preparation(AT_RETURN);
	in.start = AT_CALL;
}

static size_t places_encrypt(void) { return count_encryption(in.order, KEY); }
static size_t places_decrypt(void) { return count_decryption(in.order, KEY); }
static size_t places_prepare(void) { return count_preparation(in.order, KEY); }
static size_t places_prepared(void) { return count_prepared(in.order, KEY); }

/*
 * Byte 12 of the block, which comes fourth, and the draws of its S-box, such
 * that the inverse affine map leaves shares of the run's field. All else is
 * the same in every run: whatever depends on it is too.
 */
static void draw_inverse_sbox(size_t run)
{
	static uint8_t prepared[sizeof in.key];
	size_t each = DOKKUMEL_PREPARED(in.order, KEY) / in.n;

	if (run == 0) {
		struct tape t = { in.tape, 0 };

		draw_any(run);
		step_prepare(in.order, (KEY / 4), in.key, &t, prepared);
	}
	field_bytes(tape_at((KEY_BOXES + 3) * in.box), in.box, run);
	for (size_t i = 0; i < in.n; i++) {
		uint8_t x = field_byte(run) ^ (in.order % 2 == 1 && i == 0 ? 0x05 : 0);

		in.left[i * BLOCK + 12] = step_affine(x) ^ prepared[i * each + each - BLOCK + 12];
	}
}

static void make_encrypt_prepared(void)
{
	in.status = dokkumel_encrypt_prepared(in.order, in.key, in.key_len, in.left, in.left_len, in.tape, in.tape_len,
		in.out, in.out_len, &in.taken);
}

static void make_decrypt(void)
{
	in.status = dokkumel_decrypt(in.order, in.key, in.key_len, in.left, in.left_len, in.tape, in.tape_len, in.out, in.out_len, &in.taken);
}

static void make_encrypt(void)
{
	in.status = dokkumel_encrypt(in.order, in.key, in.key_len, in.left, in.left_len, in.tape, in.tape_len, in.out, in.out_len, &in.taken);
}

static void make_prepare(void)
{
	in.status = dokkumel_prepare(in.order, in.key, in.key_len, in.tape, in.tape_len, in.out, in.out_len, &in.taken);
}

static void note_block(step_block *step)
{
	struct tape t = { in.tape, 0 };

	step(in.order, (KEY / 4), in.key, in.left, &t, in.second);
}

static void note_encrypt_prepared(void) { note_block(step_encrypt_prepared); }
static void note_decrypt(void) { note_block(step_decrypt); }
static void note_encrypt(void) { note_block(step_encrypt); }

static void note_prepare(void)
{
	struct tape t = { in.tape, 0 };

	step_prepare(in.order, (KEY / 4), in.key, &t, in.second);
}

/* In a window, too, all places of the call are counted. */
const struct call block_calls[] = {
	{ "inverse-sbox", 8, FEW_RUNS, set_inverse_sbox, draw_inverse_sbox, make_decrypt, note_decrypt, places_decrypt },
	{ "key-words", 3, MANY_RUNS, set_key_words, draw_any, make_prepare, note_prepare, places_prepare },
	{ "first-inverse-key", 3, MANY_RUNS, set_first_inverse_key, draw_any, make_decrypt, note_decrypt, places_decrypt },
	{ "first-key", 3, MANY_RUNS, set_first_key, draw_any, make_encrypt_prepared, note_encrypt_prepared, places_prepared },
	{ "round", 3, MANY_RUNS, set_round, draw_any, make_encrypt_prepared, note_encrypt_prepared, places_prepared },
	{ "last-round", 3, MANY_RUNS, set_last_round, draw_any, make_encrypt_prepared, note_encrypt_prepared, places_prepared },
	{ "inverse-round", 3, MANY_RUNS, set_inverse_round, draw_any, make_decrypt, note_decrypt, places_decrypt },
	{ "last-inverse-round", 3, MANY_RUNS, set_last_inverse_round, draw_any, make_decrypt, note_decrypt, places_decrypt },
};
const size_t block_call_count = sizeof block_calls / sizeof block_calls[0];

const struct call whole_calls[] = {
	{ "encryption", 3, MANY_RUNS, set_whole, draw_any, make_encrypt, note_encrypt, places_encrypt },
	{ "decryption", 3, MANY_RUNS, set_whole, draw_any, make_decrypt, note_decrypt, places_decrypt },
	{ "preparation", 3, MANY_RUNS, set_whole_preparation, draw_any, make_prepare, note_prepare, places_prepare },
};
const size_t whole_call_count = sizeof whole_calls / sizeof whole_calls[0];
