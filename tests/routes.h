/* The two routes of an encryption: the single call, and preparing and then encrypting on the rest of the tape. */
#ifndef ROUTES_H
#define ROUTES_H

#include "guarded.h"
#include "plan.h"

/*
 * Makes c, an encryption that was carried through, once more by the library, from prepared keys. Answers NULL if it joins to OpenSSL's
 * ciphertext, its shares are those of the single call, and the counts add up to the single call's; else what differs.
 */
const char *routes_differ(const struct plan *c, const struct guarded *g);

#endif
