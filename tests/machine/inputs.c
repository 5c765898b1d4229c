#include "inputs.h"

#include "../noise.h"
#include "../notes.h"
#include "stepping.h"

struct inputs in;
static struct noise noise;

void inputs_whole(size_t left_len, size_t tape_len, size_t out_len)
{
	in.left_len = left_len;
	in.tape_len = tape_len;
	in.out_len = out_len;
	in.start = AT_CALL;
	in.end = AT_RETURN;
	in.from = 0;
	in.to = 4 * tape_len;
}

uint8_t field_byte(size_t run)
{
	static const int squarings[4] = { 8, 4, 2, 2 };

	for (;;) {
		uint8_t x = (uint8_t)noise_next(&noise), y = x;

		for (int s = 0; s < squarings[run % 4]; s++)
			y = step_times(y, y);
		if (x == y)
			return x;
	}
}

void field_bytes(uint8_t *to, size_t len, size_t run)
{
	for (size_t k = 0; k < len; k++)
		to[k] = field_byte(run);
}

/* This processor keeps the lowest byte of a word first. */
uint8_t *tape_at(size_t k)
{
	return (uint8_t *)in.tape + k;
}

void note_dropped(const struct tape *t)
{
	note_where("dropped");
	for (size_t k = t->drawn; k < 4 * in.tape_len; k++)
		note_apart(tape_byte(in.tape, k), "byte %zu of the tape", k);
}

void draw_field(size_t run)
{
	field_bytes(in.left, in.left_len, run);
	field_bytes(in.right, in.n, run);
	field_bytes(tape_at(0), 4 * in.tape_len, run);
}

void draw_any(size_t run)
{
	(void)run;
	noise_fill(&noise, in.key, in.key_len);
	noise_fill(&noise, in.left, in.left_len);
	noise_fill(&noise, in.tape, 4 * in.tape_len);
}
