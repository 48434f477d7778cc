/* Where a trace went wrong, while chunks are still missing too. bellbadger.h includes this.
 *
 * A trace is lost at place p when all places up to p have chunks and their texts, one behind the other,
 * cannot be continued by any text to one that the rule accepts; p is the first such place. No chunk at a
 * later place, and no number of them, can mend it: from then on no verdict is yes, until a chunk at place p
 * or before it is withdrawn or superseded, or a board is opened or a rule installed anew. Of a rule that accepts no text at all the trace is lost at
 * place 0, as soon as a chunk stands there.
 *
 * bellbadger_diagnose tells the place, without the chunks; bellbadger_locate tells the byte, where the
 * chunk is handed in once more. Both change nothing.
 */
/* bellbadger.h includes this in its place, before what goes by pointer. */
#ifndef BELLBADGER_H
#include "bellbadger.h"
#elif !defined(BELLBADGER_LOSSES_H)
#define BELLBADGER_LOSSES_H

#ifdef __cplusplus
extern "C" {
#endif

/* What a diagnosis finds; BELLBADGER_REFUSED, 0, is a refusal. It is no truth value: compare it. No kind is
 * one of a verdict. Neither is
 * a yes: a trace that is open may be lost by the next chunk, and one that is open with all its places may
 * have stopped too early. Whether to ship is for bellbadger_verdict to say. */
enum {
    BELLBADGER_LOST = 5, /* number: the place, counted from 0, at which the trace is lost */
    BELLBADGER_OPEN = 6  /* number: how many places have chunks before the first that has none */
};

typedef struct {
    uint8_t kind, number; /* of a refusal: why */
} bellbadger_diagnose_result;

/* Where in a chunk a trace is lost; BELLBADGER_REFUSED, 0, is a refusal. It is no truth value: compare it.
 * Nowhere is no yes either: the trace may stop too early. */
enum {
    BELLBADGER_LOST_AFTER = 5, /* number: after how many bytes of the chunk, idle marks counted */
    BELLBADGER_NOWHERE = 6     /* after none of them; number: 0 */
};

typedef struct {
    uint8_t kind;
    uint32_t number; /* of a refusal: why */
} bellbadger_locate_result;

/* The place at which the trace is lost, or how far it is there. Refused with
 *   21 no board is open */
BELLBADGER_RESULT bellbadger_diagnose_result bellbadger_diagnose(bellbadger_judge judge);

/* The least number of the chunk's bytes after which the trace is lost, were this the chunk at the place: the
 * texts of the places before it, and behind them that of so many bytes, cannot be continued to a text that
 * the rule accepts. Positions are those of the bytes as they stand at the pointer, idle marks counted. A
 * number b above 0 says that by chunk[b - 1], an event and no idle mark, it was lost; 0 says that the
 * trace is lost before the chunk begins: at an earlier place, or because the rule accepts nothing. What
 * stands at the place, or at later ones, is not looked at. Refused with
 *   21 no board is open      11 the board has no such place      12 the chunk has over 65,536 bytes
 *   13 a byte is no symbol and no idle mark      23 a place before it has no chunk */
BELLBADGER_RESULT bellbadger_locate_result bellbadger_locate(bellbadger_judge judge, size_t place, const uint8_t *chunk, size_t length);

#ifdef __cplusplus
}
#endif

#endif
