/* Two rules compared: whether they accept the same texts, or the first on which they differ. bellbadger.h
 * includes this. */
#ifndef BELLBADGER_COMPARE_H
#define BELLBADGER_COMPARE_H

#include "bellbadger.h"

#ifdef __cplusplus
extern "C" {
#endif

/* What kind of answer it is; BELLBADGER_REFUSED, 0, is a refusal. It is no truth value: compare it. No
 * other kind is one of a verdict or of a diagnosis. */
enum {
    BELLBADGER_FIRST_ALONE = 10,  /* the first rule accepts the text, and the second does not */
    BELLBADGER_SECOND_ALONE = 11, /* the second accepts it, and the first does not */
    BELLBADGER_SAME = 12          /* there is no such text: the two accept the same */
};

/* Zeros after the text; where there is none, the length and every byte are 0. The empty text, of length 0, may
 * be the one on which they differ. */
typedef struct {
    uint8_t kind, refused; /* refused has the number of a refusal, else 0 */
    uint16_t length;       /* at most 511 */
    uint8_t text[511];
} bellbadger_compare_result;

/* Whether the two rules accept the same texts: not where they differ or the call was refused. The kind is no
 * truth value. */
BELLBADGER_RESULT static inline bool bellbadger_is_same(bellbadger_compare_result compared) {
    return compared.kind == BELLBADGER_SAME;
}

/* The shortest text that exactly one of two rules accepts, whatever stands in them, and among the shortest the
 * first by symbols. Refused with 3, 4, 6, 8 as bellbadger_install is, for the first rule, then for the second; then with
 *   36 the rules have different numbers of symbols
 *   45 too many pairs: there are 513 texts of which no two lead to the same pair of sets, one set of each rule,
 *      and none is later than a text that exactly one rule accepts. So a difference that shows soon is told
 *      however many pairs there are. The empty set counts like any other */
BELLBADGER_RESULT bellbadger_compare_result bellbadger_compare(bellbadger_checked_rule one, bellbadger_checked_rule two);

#ifdef __cplusplus
}
#endif

#endif
