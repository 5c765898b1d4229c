/*
 * Dokkumel: AES on masked data.
 *
 * SHARES. A secret byte is held as n = d + 1 shares, numbered 0 to d, whose
 * XOR is the byte. d is the order: any d of the values that the defined steps
 * compute say nothing about what is masked. Orders 1 to 8 are served. That is
 * proved of a product, of an S-box, of a whole encryption or decryption with
 * its key expansion, and of a key that is prepared once with all blocks that
 * are encrypted from it: d values in all of these together, not in each call.
 * It is not claimed of splitting and joining, nor where all shares of an output
 * are seen besides. The refresh, by itself and inside the S-box, draws a byte
 * for each pair of shares (since version 70; before, it was the source's short
 * one, with which the S-box is known not to hide at higher orders what each
 * product hides: Coron, Prouff, Rivain and Roche, FSE 2013).
 *
 * LAYOUT. A string of L bytes in shares is one buffer of n * L bytes: all of
 * share 0, then all of share 1, and so on. A single byte in shares is the
 * case L = 1: n bytes, one for each share.
 *
 * TAPE. The library makes no random numbers. The caller lends a tape of fresh,
 * uniform, secret random words of 32 bits; it is read from its first word on,
 * each word from its lowest byte to its highest, and no byte is used twice.
 * Bytes b0 b1 b2 b3 are drawn from b0 | b1 << 8 | b2 << 16 | b3 << 24. A call
 * takes whole words: what is left of its last one is dropped. It may be lent
 * more tape than it needs. Neither the surplus nor a dropped byte has any
 * effect. *taken then says how many words were taken, and the next call must
 * be lent the tape from there on. No word of tape may serve two calls.
 *
 * STATUS. Every routine but dokkumel_unused_tape() answers with a status:
 *
 *   0   the call was carried through; output is written, and *taken is set
 *       (of a preview: it would be; only *taken is set)
 *   1   order is 0 or above 8
 *   2   key share length isn't n * 16, n * 24 or n * 32 (prepared keys:
 *       n * 176, n * 208 or n * 240)
 *   3   an input's length doesn't fit
 *   4   output length isn't the one required
 *   5   tape shorter than the call needs
 *   6   place list longer than d
 *   7   some listed place number isn't below P(d) (a cube's: isn't below its
 *       number of places)
 *
 * If several causes apply, the lowest number is given. (The two readings of
 * places have an order of their own, told there.) A refused call leaves the
 * whole output and *taken as they were, and has used no tape.
 *
 * BUFFERS. A buffer is a pointer and a length: of a tape in words, of a place
 * list in numbers, of all others in bytes. For every call:
 *
 *  - No pointer is NULL, and each lends its whole length until the call
 *    returns. (Behind a length of 0 nothing is read or written; pass any
 *    pointer that is not NULL.)
 *  - No two buffers of a call overlap, and *taken lies in none of them. There
 *    is no working in place.
 *  - Output and *taken hold some value beforehand. Set them to 0.
 *  - A tape is aligned as uint32_t is, a place list as uint16_t, taken as
 *    size_t. Buffers of bytes need no alignment.
 *
 * Lengths are tested, these four points are not: a caller that breaks one gets
 * no promise. Nothing else is asked of a caller: any order, any length and
 * any contents get the answer told here.
 *
 * THREADS. There is no global state, no allocation and no system call. Calls
 * may run at the same time, if no buffer that one of them writes is used by
 * another.
 *
 * STACK. Nothing that a call leaves on the stack is wiped. After
 * dokkumel_encrypt() and dokkumel_decrypt() all shares of all round keys stand
 * there; after dokkumel_prepare() and dokkumel_encrypt_prepared() none of the
 * round keys, but shares of the bytes and words that were worked on last. The
 * tape that was drawn last may stand there too: after dokkumel_split() that is
 * all of it, shares 1 to d. At most so many bytes are used, at any order:
 *
 *   DOKKUMEL_STACK_SHARES    split, join, refresh, unused tape, previews
 *   DOKKUMEL_STACK_PRODUCT   the product
 *   DOKKUMEL_STACK_SHEET     its sheet, and the reading of places
 *   DOKKUMEL_STACK_CUBE      the cube's sheet, and the reading of its places
 *   DOKKUMEL_STACK_SBOX      the S-box
 *   DOKKUMEL_STACK_ENCRYPT   encryption and decryption by a single call
 *   DOKKUMEL_STACK_PREPARE   preparation, and encryption from prepared keys
 *
 * LINKING. libdokkumel_c.a is for x86-64-v2, and needs memcpy() and
 * memset() only. An object that was built with the header of another version does not
 * link with it.
 */

#ifndef DOKKUMEL_H
#define DOKKUMEL_H

#include <stddef.h>
#include <stdint.h>

#ifdef __cplusplus
extern "C" {
#endif

/*
 * The version: ten times the number of the request that landed last, and one
 * more for each landing since. Tape counts and answers may change with it,
 * under the same names; so this header refers to a function whose name
 * carries the version, and an archive of another version does not have it.
 */
#define DOKKUMEL_VERSION          81

uint32_t dokkumel_version_81(void);

#if defined(__GNUC__)
#if defined(__has_attribute)
#if __has_attribute(retain)
__attribute__((retain))
#endif
#endif
__attribute__((used))
static uint32_t (*const dokkumel_linked_version)(void) = dokkumel_version_81;
#endif

#define DOKKUMEL_OK               0
#define DOKKUMEL_REFUSED_ORDER    1 /* order is 0 or above 8 */
#define DOKKUMEL_REFUSED_KEY      2 /* key share length isn't n * 16, n * 24 or n * 32
                                       (prepared keys: n * 176, n * 208 or n * 240) */
#define DOKKUMEL_REFUSED_INPUT    3 /* an input's length doesn't fit */
#define DOKKUMEL_REFUSED_OUTPUT   4 /* output length isn't the one required */
#define DOKKUMEL_REFUSED_TAPE     5 /* tape shorter than the call needs */
#define DOKKUMEL_REFUSED_LIST     6 /* place list longer than d */
#define DOKKUMEL_REFUSED_PLACE    7 /* some listed place number isn't below P(d)
                                       (a cube's: isn't below its number of places) */

/*
 * Lengths and tape, exact at orders 1 to 8. With constant arguments they are
 * constants, fit for the length of an array. Arguments are evaluated more
 * than once.
 */

#define DOKKUMEL_MAX_ORDER        8

/* n, the number of shares. */
#define DOKKUMEL_SHARES(order)    ((order) + 1)

/* Length of a string of so many bytes in shares. */
#define DOKKUMEL_SHARED(order, bytes) \
	(DOKKUMEL_SHARES(order) * (bytes))

/* Nr, the number of rounds; key_bytes is 16, 24 or 32 here and below. */
#define DOKKUMEL_ROUNDS(key_bytes) \
	((key_bytes) / 4 + 6)

/* Length of prepared keys: Nr + 1 round keys of 16 bytes, in shares. */
#define DOKKUMEL_PREPARED(order, key_bytes) \
	DOKKUMEL_SHARED(order, 16 * (DOKKUMEL_ROUNDS(key_bytes) + 1))

/* Pairs of shares i < j: a refresh and a product draw a byte for each. */
#define DOKKUMEL_PAIRS(order) \
	((order) * ((order) + 1) / 2)

/* P(d), the number of places in one product. */
#define DOKKUMEL_PLACES(order) \
	(2 * DOKKUMEL_SHARES(order) + 5 * DOKKUMEL_PAIRS(order) \
	+ DOKKUMEL_SHARES(order) * DOKKUMEL_SHARES(order))

/* The number of places in one cube: n squares, three for each pair of the
   refresh, and P(d). */
#define DOKKUMEL_CUBE_PLACES(order) \
	(DOKKUMEL_SHARES(order) + 3 * DOKKUMEL_PAIRS(order) \
	+ DOKKUMEL_PLACES(order))

/* Bytes that one cube draws, which has a refresh and a product. */
#define DOKKUMEL_CUBE_BYTES(order) \
	((1 + 1) * DOKKUMEL_PAIRS(order))

/* Bytes that one S-box draws, which has two refreshes and four products. */
#define DOKKUMEL_SBOX_BYTES(order) \
	((2 + 4) * DOKKUMEL_PAIRS(order))

/* Words that so many bytes are drawn from; of the last, some may be dropped. */
#define DOKKUMEL_WORDS(bytes) \
	(((bytes) + 3) / 4)

/* Words of tape that a call takes. The product, its sheet and the reading of
   places take the same; so do the cube's sheet and the reading of its places.
   DOKKUMEL_ENCRYPT_TAPE is a decryption's too. */
#define DOKKUMEL_SPLIT_TAPE(order, bytes)  DOKKUMEL_WORDS((order) * (bytes))
#define DOKKUMEL_REFRESH_TAPE(order)       DOKKUMEL_WORDS(DOKKUMEL_PAIRS(order))
#define DOKKUMEL_PRODUCT_TAPE(order)       DOKKUMEL_WORDS(DOKKUMEL_PAIRS(order))
#define DOKKUMEL_CUBE_TAPE(order)          DOKKUMEL_WORDS(DOKKUMEL_CUBE_BYTES(order))
#define DOKKUMEL_SBOX_TAPE(order)          DOKKUMEL_WORDS(DOKKUMEL_SBOX_BYTES(order))
#define DOKKUMEL_ENCRYPT_TAPE(order, key_bytes) \
	DOKKUMEL_WORDS(DOKKUMEL_SBOXES(key_bytes) * DOKKUMEL_SBOX_BYTES(order))
#define DOKKUMEL_PREPARE_TAPE(order, key_bytes) \
	DOKKUMEL_WORDS(DOKKUMEL_KEY_SBOXES(key_bytes) * DOKKUMEL_SBOX_BYTES(order))
#define DOKKUMEL_ENCRYPT_PREPARED_TAPE(order, key_bytes) \
	DOKKUMEL_WORDS(DOKKUMEL_ROUND_SBOXES(key_bytes) * DOKKUMEL_SBOX_BYTES(order))

/* S-boxes of the key expansion, of all rounds, and of a whole encryption or
   decryption. */
#define DOKKUMEL_KEY_SBOXES(key_bytes) \
	((key_bytes) == 16 ? 40 : (key_bytes) == 24 ? 32 : 52)
#define DOKKUMEL_ROUND_SBOXES(key_bytes) \
	(16 * DOKKUMEL_ROUNDS(key_bytes))
#define DOKKUMEL_SBOXES(key_bytes) \
	(DOKKUMEL_KEY_SBOXES(key_bytes) + DOKKUMEL_ROUND_SBOXES(key_bytes))

/* Stack that a call uses at most, in bytes. */
#define DOKKUMEL_STACK_SHARES     512
#define DOKKUMEL_STACK_PRODUCT    2560
#define DOKKUMEL_STACK_SHEET      3072
#define DOKKUMEL_STACK_CUBE       3328
#define DOKKUMEL_STACK_SBOX       2816
#define DOKKUMEL_STACK_ENCRYPT    6144
#define DOKKUMEL_STACK_PREPARE    3840

/*
 * Split a string into shares. Shares 1 to d are tape bytes, in turn; share 0
 * is the input XOR all of them.
 *
 *   input    16, 24 or 32 bytes = L
 *   tape     takes DOKKUMEL_SPLIT_TAPE(order, L), for d * L bytes
 *   output   n * L bytes
 *
 * Refusals: 1, 3, 4, 5.
 */
uint32_t dokkumel_split(size_t order,
	const uint8_t *input, size_t input_len,
	const uint32_t *tape, size_t tape_len,
	uint8_t *output, size_t output_len,
	size_t *taken);

/*
 * Join shares: the XOR of all of them. The output is the secret itself.
 *
 *   input    n * 16, n * 24 or n * 32 bytes
 *   output   the input's length divided by n
 *
 * It uses no tape, and sets *taken to 0. Refusals: 1, 3, 4.
 */
uint32_t dokkumel_join(size_t order,
	const uint8_t *input, size_t input_len,
	uint8_t *output, size_t output_len,
	size_t *taken);

/*
 * Mask refresh: new shares of the same byte. For each pair i < j, i outer,
 * both ascending, one drawn byte is XORed into share i, and then into share j.
 *
 *   input    n bytes
 *   tape     takes DOKKUMEL_REFRESH_TAPE(order), for d * (d + 1) / 2 bytes
 *   output   n bytes
 *
 * Refusals: 1, 3, 4, 5.
 */
uint32_t dokkumel_refresh(size_t order,
	const uint8_t *input, size_t input_len,
	const uint32_t *tape, size_t tape_len,
	uint8_t *output, size_t output_len,
	size_t *taken);

/*
 * Masked product of two bytes, in the field of AES. The masks of left and
 * right must be independent: to multiply a byte by itself, refresh its
 * shares for one of the factors.
 *
 *   left     n bytes
 *   right    n bytes
 *   tape     takes DOKKUMEL_PRODUCT_TAPE(order), for d * (d + 1) / 2 bytes
 *   output   n bytes
 *
 * Refusals: 1, 3, 4, 5.
 */
uint32_t dokkumel_product(size_t order,
	const uint8_t *left, size_t left_len,
	const uint8_t *right, size_t right_len,
	const uint32_t *tape, size_t tape_len,
	uint8_t *output, size_t output_len,
	size_t *taken);

/*
 * The sheet of a masked product: every byte that the product computes, at its
 * place. It is for evaluation, not for production: it holds all the shares.
 *
 *   left, right, tape    as the product
 *   output               P(d) bytes, DOKKUMEL_PLACES(order)
 *
 * Places, numbered from 0:
 *
 *   1. left's shares a_0 to a_d, then right's shares b_0 to b_d.
 *   2. For each pair i < j, i outer, both ascending: r(i,j), the byte drawn;
 *      a_i * b_j; r(i,j) XOR a_i * b_j; a_j * b_i; r(j,i).
 *   3. For each i ascending: a_i * b_i, then the running sum after each
 *      r(i,j) taken in, j ascending, j not i. The last is the product's
 *      share i.
 *
 * Refusals: 1, 3, 4, 5.
 */
uint32_t dokkumel_product_sheet(size_t order,
	const uint8_t *left, size_t left_len,
	const uint8_t *right, size_t right_len,
	const uint32_t *tape, size_t tape_len,
	uint8_t *output, size_t output_len,
	size_t *taken);

/*
 * Read listed places of a product's sheet: output byte k is the byte at place
 * list[k]. The list may be empty, and may name a place twice; each entry
 * counts.
 *
 *   left, right, tape    as the product
 *   list                 list_len numbers of 16 bits, at most d of them
 *   output               list_len bytes
 *
 * Refusals: first the sheet's 1, 3 and 5; then 4, 6, 7.
 */
uint32_t dokkumel_read_places(size_t order,
	const uint8_t *left, size_t left_len,
	const uint8_t *right, size_t right_len,
	const uint32_t *tape, size_t tape_len,
	const uint16_t *list, size_t list_len,
	uint8_t *output, size_t output_len,
	size_t *taken);

/*
 * The sheet of a cube: every byte that x^2 * x computes in an S-box, at its
 * place. Each share of x is squared, the squares are refreshed as by
 * dokkumel_refresh(), and multiplied by the shares of x as by
 * dokkumel_product(). It is for evaluation, not for production: it holds all
 * the shares.
 *
 *   input    n bytes, the shares x_0 to x_d
 *   tape     takes DOKKUMEL_CUBE_TAPE(order), for d * (d + 1) bytes: the
 *            refresh's, and then the product's, without a gap
 *   output   DOKKUMEL_CUBE_PLACES(order) bytes
 *
 * Places, numbered from 0:
 *
 *   1. The squares of x_0 to x_d.
 *   2. For each pair i < j, i outer, both ascending: the byte drawn; share i
 *      of the square after it is XORed in; share j after it is XORed in.
 *   3. The P(d) places of the product, as in its sheet: left's shares are
 *      those of the refreshed square, right's are x_0 to x_d.
 *
 * Refusals: 1, 3, 4, 5.
 */
uint32_t dokkumel_cube_sheet(size_t order,
	const uint8_t *input, size_t input_len,
	const uint32_t *tape, size_t tape_len,
	uint8_t *output, size_t output_len,
	size_t *taken);

/*
 * Read listed places of a cube's sheet, as dokkumel_read_places() reads those
 * of a product's.
 *
 *   input, tape    as the cube's sheet
 *   list           list_len numbers of 16 bits, at most d of them
 *   output         list_len bytes
 *
 * Refusals: first the sheet's 1, 3 and 5; then 4, 6, 7.
 */
uint32_t dokkumel_read_cube_places(size_t order,
	const uint8_t *input, size_t input_len,
	const uint32_t *tape, size_t tape_len,
	const uint16_t *list, size_t list_len,
	uint8_t *output, size_t output_len,
	size_t *taken);

/*
 * Masked S-box of AES, on one byte in shares.
 *
 *   input    n bytes
 *   tape     takes DOKKUMEL_SBOX_TAPE(order), for 3 * d * (d + 1) bytes
 *   output   n bytes
 *
 * Refusals: 1, 3, 4, 5.
 */
uint32_t dokkumel_sbox(size_t order,
	const uint8_t *input, size_t input_len,
	const uint32_t *tape, size_t tape_len,
	uint8_t *output, size_t output_len,
	size_t *taken);

/*
 * Masked AES encryption of one block: key, block and ciphertext in shares.
 * The key schedule is computed anew in each call, and draws first. For many
 * blocks under one key, dokkumel_prepare() computes it once.
 *
 *   key      n * 16, n * 24 or n * 32 bytes
 *   input    n * 16 bytes
 *   tape     takes DOKKUMEL_ENCRYPT_TAPE(order, 16), .. 24) or .. 32)
 *   output   n * 16 bytes
 *
 * Refusals: 1, 2, 3, 4, 5.
 */
uint32_t dokkumel_encrypt(size_t order,
	const uint8_t *key, size_t key_len,
	const uint8_t *input, size_t input_len,
	const uint32_t *tape, size_t tape_len,
	uint8_t *output, size_t output_len,
	size_t *taken);

/*
 * Masked AES decryption of one block, by FIPS 197's inverse cipher: key,
 * ciphertext and block in shares. The output joins to the block whose
 * encryption under the same key is the ciphertext. The key schedule is
 * computed anew in each call, and draws first.
 *
 *   key      n * 16, n * 24 or n * 32 bytes; prepared keys are refused with 2
 *   input    n * 16 bytes
 *   tape     takes DOKKUMEL_ENCRYPT_TAPE(order, 16), .. 24) or .. 32)
 *   output   n * 16 bytes
 *
 * Other shares of the key than the encryption had serve as well. To decrypt
 * at another order, join the ciphertext and split it again.
 *
 * Refusals: 1, 2, 3, 4, 5. Output and *taken then stay as they were.
 */
uint32_t dokkumel_decrypt(size_t order,
	const uint8_t *key, size_t key_len,
	const uint8_t *input, size_t input_len,
	const uint32_t *tape, size_t tape_len,
	uint8_t *output, size_t output_len,
	size_t *taken);

/*
 * Prepare a key: all its round keys in shares, computed once. Any number of
 * blocks can then be encrypted by dokkumel_encrypt_prepared(), each call on
 * fresh tape.
 *
 *   key      n * 16, n * 24 or n * 32 bytes
 *   tape     takes DOKKUMEL_PREPARE_TAPE(order, 16), .. 24) or .. 32)
 *   output   n * 176, n * 208 or n * 240 bytes, DOKKUMEL_PREPARED(order, 16),
 *            .. 24) or .. 32)
 *
 * Prepared keys are laid out share after share over the whole schedule: share
 * i of round key r starts at i * 16 * (Nr + 1) + 16 * r, where r is 0 to Nr,
 * and Nr is 10, 12 or 14. They are as secret as the key itself.
 *
 * Refusals: 1, 2, 4, 5.
 */
uint32_t dokkumel_prepare(size_t order,
	const uint8_t *key, size_t key_len,
	const uint32_t *tape, size_t tape_len,
	uint8_t *output, size_t output_len,
	size_t *taken);

/*
 * Masked AES encryption of one block from prepared keys. It takes any bytes of
 * a fitting length, and cannot tell whether they came from dokkumel_prepare():
 * what they join to serves as the round keys. Their length decides the number
 * of rounds. A key that was not prepared, or was prepared at another order,
 * is refused with 2.
 *
 *   prepared    n * 176, n * 208 or n * 240 bytes, as from a key of 16, 24 or
 *               32 bytes
 *   input       n * 16 bytes
 *   tape        takes DOKKUMEL_ENCRYPT_PREPARED_TAPE(order, 16), .. 24) or
 *               .. 32)
 *   output      n * 16 bytes
 *
 * dokkumel_prepare(), and then this call on the rest of the same tape, give
 * the very shares of dokkumel_encrypt(), and take as much together.
 *
 * Refusals: 1, 2, 3, 4, 5.
 */
uint32_t dokkumel_encrypt_prepared(size_t order,
	const uint8_t *prepared, size_t prepared_len,
	const uint8_t *input, size_t input_len,
	const uint32_t *tape, size_t tape_len,
	uint8_t *output, size_t output_len,
	size_t *taken);

/*
 * Previews: the answer that a call would give, from the order and the lengths
 * of its buffers alone, before any of them is there. Status and *taken come
 * out as dokkumel_encrypt(), dokkumel_decrypt(), dokkumel_prepare() or
 * dokkumel_encrypt_prepared() would leave them on buffers of these lengths,
 * whatever those hold: 0, with the words of tape that the call would take, or
 * its refusal, and *taken stays as it was. Nothing is read but the numbers,
 * and nothing is written but *taken.
 *
 * Any lengths may be asked about. With SIZE_MAX for tape_len, *taken tells how
 * much tape must be drawn for a call whose other lengths fit.
 *
 * Refusals: 1, 2, 3, 4, 5; of dokkumel_preview_prepare() 1, 2, 4, 5.
 */
uint32_t dokkumel_preview_encrypt(size_t order,
	size_t key_len, size_t input_len, size_t tape_len, size_t output_len,
	size_t *taken);

uint32_t dokkumel_preview_decrypt(size_t order,
	size_t key_len, size_t input_len, size_t tape_len, size_t output_len,
	size_t *taken);

uint32_t dokkumel_preview_prepare(size_t order,
	size_t key_len, size_t tape_len, size_t output_len,
	size_t *taken);

uint32_t dokkumel_preview_encrypt_prepared(size_t order,
	size_t prepared_len, size_t input_len, size_t tape_len, size_t output_len,
	size_t *taken);

/*
 * Where the unused tape starts, after count words were taken: at count, or at
 * tape_len if count exceeds it. The unused tape is tape + answer, and has
 * tape_len - answer words. It refuses nothing.
 */
size_t dokkumel_unused_tape(const uint32_t *tape, size_t tape_len,
	size_t count);

#ifdef __cplusplus
}
#endif

#endif
