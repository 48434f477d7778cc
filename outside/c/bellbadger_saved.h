/* A judge as bytes, and back: to keep it over an update, to hand it to another machine. bellbadger.h includes
 * this.
 *
 * Saved bytes have one length, whatever stands in the judge, and mean the same on every machine:
 *
 *   0       4 bytes       'B', 'B', 'J', and the version of the format, 1
 *   4       4 bytes       the whole length, 27,838
 *   8       18,541 bytes  the rule: n, k, starts, count, initials, finals, delegates, singles, sets, next
 *   18549   9,281 bytes   the board: places, filled, counts, lengths, revisions, ends
 *   27830   8 bytes       the digest of all bytes before it
 *
 * The numbers are those of bellbadger_judge in their order, each in as many bytes as it has there, the lowest
 * first, and nothing stands between them. The digest begins with 0; each byte x makes of h first the number
 * t = h * 131073 + x + 1 modulo 2^64, and of this, whose upper 32 bits are u and whose lower ones are l, the
 * number whose upper 32 bits are l + u * u modulo 2^32 and whose lower ones are u. It tells any change of one byte;
 * what it tells of several is not proved. It guards against mistakes and is no seal: whoever wants to can make
 * bytes that are accepted.
 */
/* bellbadger.h includes this in its place, before what goes by pointer. */
#ifndef BELLBADGER_H
#include "bellbadger.h"
#elif !defined(BELLBADGER_SAVED_H)
#define BELLBADGER_SAVED_H

#define BELLBADGER_SAVED_SIZE 27838 /* the bytes of a bellbadger_saved */

#ifdef __cplusplus
extern "C" {
#endif

typedef struct {
    uint8_t bytes[BELLBADGER_SAVED_SIZE];
} bellbadger_saved;

/* accepted is 1 or 0; where it is 0, refused has the number, and every number of the judge is 0. */
typedef struct {
    uint8_t accepted, refused;
    bellbadger_judge judge;
} bellbadger_restore_result;

/* The judge as bytes, whatever stands in it: the rule, the board, the chunks' counts and end sets, and the
 * revisions. It refuses nothing. */
BELLBADGER_RESULT bellbadger_saved bellbadger_save(bellbadger_judge judge);

/* The judge that was saved as these bytes, every number of it: calls on it are answered as on the one that was
 * saved. Any bytes may be handed in. Refused with
 *   46 the saved judge is cut, altered or of another version */
BELLBADGER_RESULT bellbadger_restore_result bellbadger_restore(const uint8_t *bytes, size_t length);

#ifdef __cplusplus
}
#endif

#endif
