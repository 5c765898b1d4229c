/* How often each routine was called, and with what outcome. */
#ifndef TABLE_H
#define TABLE_H

#include <stdint.h>

#include "plan.h"

extern const char *const routine_names[ROUTINES];

void table_count(const struct plan *p, uint32_t status);

/* Prints the table. Answers 0 if some outcome that a routine can have never came up, or an order or key length was never served,
   or a length that only fits the other route, or another order, was never refused. */
int table_print(void);

#endif
