/* How many places the theorem counts (crates/probing): of an S-box or its inverse, and of each call that takes a key of so many bytes. */
#ifndef COUNTS_H
#define COUNTS_H

#include <stddef.h>

size_t count_box(size_t d);

typedef size_t count_call(size_t d, size_t key);
count_call count_encryption, count_decryption, count_preparation;

/* A block of a session, and the prepared keys that it is encrypted from. */
count_call count_prepared;

#endif
