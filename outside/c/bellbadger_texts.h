/* Made test texts. bellbadger.h includes this header. */
#ifndef BELLBADGER_TEXTS_H
#define BELLBADGER_TEXTS_H

#include "bellbadger.h"

#ifdef __cplusplus
extern "C" {
#endif

/* Accepted is 1 or 0; where it is 0, refused has the number. */
typedef struct {
    uint8_t accepted, refused;
} bellbadger_made_result;

/* Fills the buffer with a text of symbols below k: Marsaglia's 64-bit xorshift with shifts 13 left, 7
 * right, 17 left makes a value from the seed, from that the next, and each modulo k is a symbol. The
 * same k, seed and length make the same text everywhere. A rule with k symbols or more takes it as a
 * chunk, if it has no more bytes than a chunk may have. Refused with
 *   4 k is not 1 to 16      41 the seed is 0
 * in this order; the buffer is then as it was. */
BELLBADGER_RESULT bellbadger_made_result bellbadger_make_text(size_t k, uint64_t seed, uint8_t *text, size_t length);

#ifdef __cplusplus
}
#endif

#endif
