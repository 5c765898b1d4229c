#include "lengths.h"

#include "dokkumel.h"

size_t lengths_places(enum routine routine, size_t d)
{
	return routine == CUBE_SHEET || routine == READ_CUBE ? DOKKUMEL_CUBE_PLACES(d) : DOKKUMEL_PLACES(d);
}

/* For the calls that take a key of l bytes, or its prepared keys. */
static void fit_key(struct plan *p, size_t d, size_t l)
{
	size_t *len = p->len;

	len[KEY] = p->routine == ENCRYPT_PREPARED ? DOKKUMEL_PREPARED(d, l) : DOKKUMEL_SHARED(d, l);
	if (p->routine == PREPARE) {
		len[OUTPUT] = DOKKUMEL_PREPARED(d, l), len[TAPE] = DOKKUMEL_PREPARE_TAPE(d, l);
		return;
	}
	len[INPUT] = len[OUTPUT] = DOKKUMEL_SHARED(d, 16);
	len[TAPE] = p->routine == ENCRYPT_PREPARED ? DOKKUMEL_ENCRYPT_PREPARED_TAPE(d, l) : DOKKUMEL_ENCRYPT_TAPE(d, l);
}

void lengths_fit(struct plan *p, size_t d, size_t l)
{
	size_t n = DOKKUMEL_SHARES(d), *len = p->len;

	switch (p->routine) {
	case SPLIT:
		len[INPUT] = l, len[OUTPUT] = DOKKUMEL_SHARED(d, l), len[TAPE] = DOKKUMEL_SPLIT_TAPE(d, l);
		break;
	case JOIN:
		len[INPUT] = DOKKUMEL_SHARED(d, l), len[OUTPUT] = l;
		break;
	case REFRESH:
		len[INPUT] = len[OUTPUT] = n, len[TAPE] = DOKKUMEL_REFRESH_TAPE(d);
		break;
	case PRODUCT:
	case SHEET:
	case READ:
		len[INPUT] = len[RIGHT] = n, len[TAPE] = DOKKUMEL_PRODUCT_TAPE(d);
		len[OUTPUT] = p->routine == SHEET ? lengths_places(SHEET, d) : n;
		break;
	case CUBE_SHEET:
	case READ_CUBE:
		len[INPUT] = n, len[TAPE] = DOKKUMEL_CUBE_TAPE(d);
		len[OUTPUT] = p->routine == CUBE_SHEET ? lengths_places(CUBE_SHEET, d) : n;
		break;
	case SBOX:
		len[INPUT] = len[OUTPUT] = n, len[TAPE] = DOKKUMEL_SBOX_TAPE(d);
		break;
	case ENCRYPT:
	case DECRYPT:
	case PREPARE:
	case ENCRYPT_PREPARED:
		fit_key(p, d, l);
		break;
	default:
		len[TAPE] = l;
		break;
	}
}

void lengths_wrap(struct plan *p, size_t l)
{
	struct plan own = *p;

	lengths_fit(&own, p->order, l);
	for (int b = 0; b < BUFFERS; b++)
		if (own.len[b] < 1000)
			p->len[b] = own.len[b];
}
