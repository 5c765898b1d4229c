/*
 * One call, instruction by instruction, by the processor's trap flag. After
 * each instruction the bytes that it changed are noted: of the general
 * registers, of xmm0 to xmm15, of the stack below the caller, and of watched
 * buffers. Control flow does not depend on data, so step s of one run is step
 * s of every run.
 *
 * A window is a part of a call, told by the tape: it starts when a word of the
 * tape is first read, and ends when another is. The tape stands so that the
 * first of the two is a page's first word, and that page is closed: each read
 * of it faults, and tells its address. Where a window starts so, four S-boxes
 * are unpacked; the first three are passed over without a look (hop.h).
 */
#ifndef STEPPING_H
#define STEPPING_H

#include <stddef.h>
#include <stdint.h>

#define MAX_RUNS  200
#define MAX_STEPS 600000
#define MAX_LANES 1500000

/* A byte that step `step` writes, and what stands there after it in each run from `first` on. */
struct lane {
	uint32_t step, next;
	uint16_t where, first;
	uint8_t value[MAX_RUNS];
};

extern struct lane *lanes;
extern size_t lane_count, step_count;
/* The address of each step's instruction. */
extern uintptr_t step_at[MAX_STEPS];

/* For a window: from the start of the call, to its end. */
#define AT_CALL   SIZE_MAX
#define AT_RETURN SIZE_MAX

/* Before the first run of a call. Answers with room for a tape of so many words; the window is that from its word `start` to its word `end`. */
uint32_t *steps_new(size_t tape_len, size_t start, size_t end);

/* A buffer whose bytes are noted too. */
void steps_watch(void *at, size_t len);

/* Makes the call. Answers with 0 if the window's instructions were not those of the runs before. */
int steps_run(void (*call)(void));

/* "rax.2", "xmm3.15", "stack-40" or "output+3". */
const char *lane_name(uint16_t where);

#endif
