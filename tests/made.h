/* A planned call, made on given buffers by the library or by the second implementation. */
#ifndef MADE_H
#define MADE_H

#include "plan.h"

uint32_t made_by_library(const struct plan *c, uint8_t *const p[BUFFERS]);
uint32_t made_by_second(const struct plan *c, uint8_t *const p[BUFFERS]);

#endif
