/* The tape that a routine needs, by documents 01 and 02; not by the header's macros. */
#ifndef NEEDS_H
#define NEEDS_H

#include "plan.h"

/* In bytes at order d, on a string or with a key of l bytes, which is 16, 24 or 32; other routines take no heed of l. */
size_t need_bytes(enum routine routine, size_t d, size_t l);

/* In words: rounded up, once for the whole call. */
size_t need_words(enum routine routine, size_t d, size_t l);

#endif
