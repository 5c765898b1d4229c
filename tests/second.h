/*
 * A second implementation of the library's routines, written from document
 * 01, and for prepared keys, decryption, tapes of words, the refresh and the
 * cube from document 02: the same parameters, the same answers, refusals too.
 */
#ifndef SECOND_H
#define SECOND_H

#include <stddef.h>
#include <stdint.h>

uint32_t second_split(size_t order, const uint8_t *input, size_t input_len, const uint32_t *tape, size_t tape_len,
	uint8_t *output, size_t output_len, size_t *taken);
uint32_t second_join(size_t order, const uint8_t *input, size_t input_len,
	uint8_t *output, size_t output_len, size_t *taken);
uint32_t second_refresh(size_t order, const uint8_t *input, size_t input_len, const uint32_t *tape, size_t tape_len,
	uint8_t *output, size_t output_len, size_t *taken);
uint32_t second_product(size_t order, const uint8_t *left, size_t left_len, const uint8_t *right, size_t right_len,
	const uint32_t *tape, size_t tape_len, uint8_t *output, size_t output_len, size_t *taken);
uint32_t second_product_sheet(size_t order, const uint8_t *left, size_t left_len, const uint8_t *right, size_t right_len,
	const uint32_t *tape, size_t tape_len, uint8_t *output, size_t output_len, size_t *taken);
uint32_t second_read_places(size_t order, const uint8_t *left, size_t left_len, const uint8_t *right, size_t right_len,
	const uint32_t *tape, size_t tape_len, const uint16_t *list, size_t list_len,
	uint8_t *output, size_t output_len, size_t *taken);
uint32_t second_cube_sheet(size_t order, const uint8_t *input, size_t input_len, const uint32_t *tape, size_t tape_len,
	uint8_t *output, size_t output_len, size_t *taken);
uint32_t second_read_cube_places(size_t order, const uint8_t *input, size_t input_len, const uint32_t *tape, size_t tape_len,
	const uint16_t *list, size_t list_len, uint8_t *output, size_t output_len, size_t *taken);
uint32_t second_sbox(size_t order, const uint8_t *input, size_t input_len, const uint32_t *tape, size_t tape_len,
	uint8_t *output, size_t output_len, size_t *taken);
uint32_t second_encrypt(size_t order, const uint8_t *key, size_t key_len, const uint8_t *input, size_t input_len,
	const uint32_t *tape, size_t tape_len, uint8_t *output, size_t output_len, size_t *taken);
uint32_t second_decrypt(size_t order, const uint8_t *key, size_t key_len, const uint8_t *input, size_t input_len,
	const uint32_t *tape, size_t tape_len, uint8_t *output, size_t output_len, size_t *taken);
uint32_t second_prepare(size_t order, const uint8_t *key, size_t key_len, const uint32_t *tape, size_t tape_len,
	uint8_t *output, size_t output_len, size_t *taken);
uint32_t second_encrypt_prepared(size_t order, const uint8_t *prepared, size_t prepared_len, const uint8_t *input, size_t input_len,
	const uint32_t *tape, size_t tape_len, uint8_t *output, size_t output_len, size_t *taken);
size_t second_unused_tape(const uint32_t *tape, size_t tape_len, size_t count);

#endif
