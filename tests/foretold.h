/* A random call beside its preview. */
#ifndef FORETOLD_H
#define FORETOLD_H

#include "guarded.h"
#include "plan.h"

/*
 * Asks about c, which has been made and answered with status, by the lengths of its buffers. Answers NULL if the routine has no preview, or if the
 * preview gives the same status and leaves the same behind taken; else what differs.
 */
const char *foretold_differs(const struct plan *c, const struct guarded *g, uint32_t status);

#endif
