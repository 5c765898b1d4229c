/*
 * Encrypts one block at order 2 (FIPS 197, appendix C.1) and prints the ciphertext.
 *
 * In a module the key comes in shares from storage, and only the ciphertext is ever joined.
 */
#include <stdio.h>

#include "dokkumel.h"

#define ORDER 2

/* Words of tape for the three calls that draw: two splits and an encryption. */
#define TAPE (2 * DOKKUMEL_SPLIT_TAPE(ORDER, 16) + DOKKUMEL_ENCRYPT_TAPE(ORDER, 16))

/*
 * A refused call has written nothing and used no tape. Refusal 5 asks for more tape: lend a longer one and call again. Any other
 * is a mistake in the caller: stop, and never send what stands in the output.
 */
static int refused(const char *call, uint32_t status)
{
	if (status == DOKKUMEL_OK)
		return 0;
	fprintf(stderr, "%s: refused (%u)\n", call, (unsigned)status);
	return 1;
}

static const uint8_t key[16] = { 0, 1, 2, 3, 4, 5, 6, 7, 8, 9, 10, 11, 12, 13, 14, 15 };
static const uint8_t block[16] = {
	0x00, 0x11, 0x22, 0x33, 0x44, 0x55, 0x66, 0x77, 0x88, 0x99, 0xaa, 0xbb, 0xcc, 0xdd, 0xee, 0xff,
};

static uint32_t tape[TAPE];
static uint8_t key_shares[DOKKUMEL_SHARED(ORDER, 16)];
static uint8_t block_shares[DOKKUMEL_SHARED(ORDER, 16)];
static uint8_t output[DOKKUMEL_SHARED(ORDER, 16)];
static uint8_t ciphertext[16];

/* The tape must be random, secret and fresh: a module reads its own generator here. */
static int read_tape(void)
{
	FILE *f = fopen("/dev/urandom", "rb");
	size_t got = f == NULL ? 0 : fread(tape, sizeof tape[0], TAPE, f);

	if (f != NULL)
		fclose(f);
	return got == TAPE;
}

int main(void)
{
	size_t at = 0; /* where the unused tape starts */
	size_t taken = 0;
	uint32_t status;

	if (!read_tape())
		return 1;

	status = dokkumel_split(ORDER, key, sizeof key, tape + at, TAPE - at, key_shares, sizeof key_shares, &taken);
	if (refused("split", status))
		return 1;
	at += taken; /* no word of tape serves twice */

	status = dokkumel_split(ORDER, block, sizeof block, tape + at, TAPE - at, block_shares, sizeof block_shares, &taken);
	if (refused("split", status))
		return 1;
	at += taken;

	status = dokkumel_encrypt(ORDER, key_shares, sizeof key_shares, block_shares, sizeof block_shares,
		tape + at, TAPE - at, output, sizeof output, &taken);
	if (refused("encrypt", status))
		return 1;
	at += taken;

	status = dokkumel_join(ORDER, output, sizeof output, ciphertext, sizeof ciphertext, &taken);
	if (refused("join", status))
		return 1;

	for (size_t k = 0; k < sizeof ciphertext; k++)
		printf("%02x", ciphertext[k]);
	printf("\ntape: %zu of %d words taken\n", at, TAPE);
	return 0;
}
