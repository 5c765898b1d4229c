/* The random calls: each is made twice, by the library and by the second implementation, and compared byte by byte. */
#ifndef CALLS_H
#define CALLS_H

#include <stdint.h>

/* Makes the calls and prints their table. At the first difference it says what differed, and ends the program with status 1. */
void calls_compare(uint64_t seed, unsigned long calls);

/* Changes a byte in front of, in and behind a buffer, and sees that each change is found. */
void calls_try_guards(void);

#endif
