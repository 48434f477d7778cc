/* Two rules made one, for a machine with two heads. bellbadger.h includes this.
 *
 * The result is a checked rule as bellbadger_read answers it: it can be installed, merged again, or kept.
 * It may have more than 512 sets: that is reported where it is installed, with 9.
 */
#ifndef BELLBADGER_MERGE_H
#define BELLBADGER_MERGE_H

#include "bellbadger.h"

#ifdef __cplusplus
extern "C" {
#endif

/* Which texts the result accepts. Any other number means BELLBADGER_INTERLEAVING too. */
enum {
    BELLBADGER_BOTH = 0,        /* those that both rules accept */
    BELLBADGER_EITHER = 1,      /* those that either rule accepts */
    BELLBADGER_INTERLEAVING = 2 /* the interleavings of one from each */
};

/* accepted is 1 or 0; where it is 0, refused has the number, and every number of the rule is 0. */
typedef struct {
    uint8_t accepted, refused;
    bellbadger_checked_rule rule;
} bellbadger_merge_result;

/* Makes one rule of two, with n1 and n2 states, whatever stands in them.
 *   both, interleaving   the pair (q1, q2) is state q1 * n2 + q2, initial or final where both its members
 *                        are; an arc moves both, or for interleaving one alone
 *   either               the second rule's states follow the first's, and each is what it was, arcs included
 * Refused with 3, 4, 6, 8 as bellbadger_install is, for the first rule, then for the second; then with
 *   36 the rules have different numbers of symbols      37 the result has more than 32 states */
BELLBADGER_RESULT bellbadger_merge_result bellbadger_merge(uint8_t way, bellbadger_checked_rule one, bellbadger_checked_rule two);

/* Makes one rule of two, whatever stands in them, that accepts the texts which bellbadger_merge's
 * accepts, with few states: both rules are reduced (bellbadger_reduce.h), of their pairs, or for
 * either of the states of both, only those are built that are reachable and live, and the result is
 * reduced. States keep their order, and are numbered from 0. Where reducing a rule or the result
 * would be refused with 9, that step is left out, and the rule as it is is used: so nothing is
 * refused that bellbadger_merge takes. The result may have more sets than bellbadger_merge's,
 * though, as a reduced rule may: where it cannot be installed, and that one can, take that one.
 * Refused with 3, 4, 6, 8 for the first rule, then for the second; then with
 *   36 the rules have different numbers of symbols
 *   37 more than 32 pairs, or for either states, are reachable and live */
BELLBADGER_RESULT bellbadger_merge_result bellbadger_merge_reduced(uint8_t way, bellbadger_checked_rule one, bellbadger_checked_rule two);

#ifdef __cplusplus
}
#endif

#endif
