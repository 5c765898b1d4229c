#include "made.h"

#include "dokkumel.h"
#include "second.h"

/* The same call for both: p has the buffers. */
#define B(b)    p[b], c->len[b]
#define DRAWN   (const uint32_t *)(void *)p[TAPE], c->len[TAPE]
#define TOOK    (size_t *)(void *)p[TAKEN]
#define PLACES  (const uint16_t *)(void *)p[LIST], c->len[LIST]
#define MAKE(name, by)                                                                                            \
	uint32_t name(const struct plan *c, uint8_t *const p[BUFFERS])                                            \
	{                                                                                                         \
		switch (c->routine) {                                                                             \
		case SPLIT: return by##_split(c->order, B(INPUT), DRAWN, B(OUTPUT), TOOK);                        \
		case JOIN: return by##_join(c->order, B(INPUT), B(OUTPUT), TOOK);                                 \
		case REFRESH: return by##_refresh(c->order, B(INPUT), DRAWN, B(OUTPUT), TOOK);                    \
		case PRODUCT: return by##_product(c->order, B(INPUT), B(RIGHT), DRAWN, B(OUTPUT), TOOK);          \
		case SHEET: return by##_product_sheet(c->order, B(INPUT), B(RIGHT), DRAWN, B(OUTPUT), TOOK);      \
		case READ: return by##_read_places(c->order, B(INPUT), B(RIGHT), DRAWN, PLACES, B(OUTPUT), TOOK); \
		case CUBE_SHEET: return by##_cube_sheet(c->order, B(INPUT), DRAWN, B(OUTPUT), TOOK);              \
		case READ_CUBE: return by##_read_cube_places(c->order, B(INPUT), DRAWN, PLACES, B(OUTPUT), TOOK); \
		case SBOX: return by##_sbox(c->order, B(INPUT), DRAWN, B(OUTPUT), TOOK);                          \
		case ENCRYPT: return by##_encrypt(c->order, B(KEY), B(INPUT), DRAWN, B(OUTPUT), TOOK);            \
		case DECRYPT: return by##_decrypt(c->order, B(KEY), B(INPUT), DRAWN, B(OUTPUT), TOOK);            \
		case PREPARE: return by##_prepare(c->order, B(KEY), DRAWN, B(OUTPUT), TOOK);                      \
		case ENCRYPT_PREPARED: return by##_encrypt_prepared(c->order, B(KEY), B(INPUT), DRAWN, B(OUTPUT), TOOK); \
		default: *TOOK = by##_unused_tape(DRAWN, c->count); return 0;                                     \
		}                                                                                                 \
	}
MAKE(made_by_library, dokkumel)
MAKE(made_by_second, second)
