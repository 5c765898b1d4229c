#include "foretold.h"

#include "dokkumel.h"

#include <string.h>

const char *foretold_differs(const struct plan *c, const struct guarded *g, uint32_t status)
{
	const size_t *len = c->len;
	size_t counted, taken;
	uint32_t foretold;

	memcpy(&counted, g[TAKEN].lent, sizeof counted);
	memcpy(&taken, g[TAKEN].before, sizeof taken);
	switch (c->routine) {
	case ENCRYPT:
		foretold = dokkumel_preview_encrypt(c->order, len[KEY], len[INPUT], len[TAPE], len[OUTPUT], &taken);
		break;
	case DECRYPT:
		foretold = dokkumel_preview_decrypt(c->order, len[KEY], len[INPUT], len[TAPE], len[OUTPUT], &taken);
		break;
	case PREPARE:
		foretold = dokkumel_preview_prepare(c->order, len[KEY], len[TAPE], len[OUTPUT], &taken);
		break;
	case ENCRYPT_PREPARED:
		foretold = dokkumel_preview_encrypt_prepared(c->order, len[KEY], len[INPUT], len[TAPE], len[OUTPUT], &taken);
		break;
	default:
		return NULL;
	}
	if (foretold != status)
		return "the preview's status is another";
	if (taken != counted)
		return "the preview leaves another count";
	return NULL;
}
