/* A rule reduced: the same texts, and no state that is unreachable, dead or alike to another. bellbadger.h
 * includes this.
 *
 * It is not the smallest rule that accepts these texts: only states that are alike are made one. And it may have
 * more sets than the rule that it came from, since of alike states, which may lead to different sets, one stands
 * for all.
 */
#ifndef BELLBADGER_REDUCE_H
#define BELLBADGER_REDUCE_H

#include "bellbadger.h"

#ifdef __cplusplus
extern "C" {
#endif

/* accepted is 1 or 0; where it is 0, refused has the number, and installs and every number of the rule are 0. */
typedef struct {
    uint8_t accepted, refused;
    uint8_t installs; /* 1: the rule can be installed; 0: it has over 512 sets (9), so keep the one that it came from */
    bellbadger_checked_rule rule;
} bellbadger_reduce_result;

/* A rule that accepts the same texts as this one, whatever stands in it, with as many symbols and no more states.
 * States go that are unreachable, from the initial ones, or dead: no final state can be reached from them. Each
 * other state is represented by the lowest reachable state alike to it, which accepts the same texts as it does; what
 * is not reached any more then goes too. States keep their order, and are numbered from 0. A rule that accepts no
 * text becomes one state with all masks 0; one that has nothing to take out comes back as it is. Refused with 3, 4,
 * 6, 8, 9 as bellbadger_install is. */
BELLBADGER_RESULT bellbadger_reduce_result bellbadger_reduce(bellbadger_checked_rule rule);

#ifdef __cplusplus
}
#endif

#endif
