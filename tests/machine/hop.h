/*
 * The library unpacks the tape of four S-boxes at once, and then takes one
 * after another: no read of the tape tells where the last of them starts. Its
 * instructions do: one that is carried out once for an S-box comes four times,
 * and about as far apart each time, since control flow does not depend on data;
 * and the four S-boxes are more than half of the steps up to the next read.
 */
#ifndef HOP_H
#define HOP_H

#include <stddef.h>
#include <stdint.h>

/*
 * Where four S-boxes stand among so many steps, told by the addresses of their instructions: the step that begins the first of them, and the
 * instruction that begins each, which may then be planted. Answers with 0 if they are not there.
 */
int hop_find(const uintptr_t *at, size_t steps, size_t *first, uintptr_t *head);

/* A breakpoint at an instruction, and the instruction as it was. */
void hop_plant(uintptr_t at);
void hop_clear(void);

#endif
