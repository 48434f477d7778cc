/* A trace that comes in order, followed chunk by chunk. bellbadger.h includes this. */
#ifndef BELLBADGER_FOLLOW_H
#define BELLBADGER_FOLLOW_H

#include "bellbadger.h"

#ifdef __cplusplus
extern "C" {
#endif

/* Where refused, every other field is 0. */
typedef struct {
    uint8_t accepted, refused;
    uint8_t ends;      /* 1: a final state is in the set, so the rule accepts what came */
    uint8_t lost;      /* 1: no final state can be reached any more, whatever comes */
    uint32_t at;       /* the least number of bytes of this chunk, idle marks counted, after which that is so; 0: before it */
    uint32_t set;      /* the states after the chunk, to be handed in with the next one */
    uint16_t expected; /* bit s: symbol s could have stood at byte at - 1; where not lost, could come next */
    uint8_t complete;  /* 1: the trace could have ended before that byte; where not lost, as ends. It is no verdict */
} bellbadger_follow_result;

/* Whether the rule accepts what came so far, which is the text of the chunks that were taken. That a chunk was taken
 * (`accepted`) says nothing of it; and where a chunk before was refused and left out, neither does a yes: see below. */
BELLBADGER_RESULT static inline bool bellbadger_is_accepted_so_far(bellbadger_follow_result followed) {
    return followed.accepted && followed.ends;
}

/* Follows a chunk from a set of states: rule.initials first, then the set of the answer before. Bits for states that
 * there are not mean nothing. Refused with
 *   3, 4, 6, 8 as bellbadger_install is
 *   12 the chunk has over 65,536 bytes      13 a byte is no symbol and no idle mark
 *
 * Stop at a refusal. The library keeps nothing of a trace, and the chunk that was refused is no part of it: whoever
 * goes on with the next one, from the set before, follows a trace with a hole, and no later answer tells of it, a yes
 * neither. Hand the chunk in anew, from the set before, as it was meant; or the trace is not good. */
BELLBADGER_RESULT bellbadger_follow_result bellbadger_follow(bellbadger_checked_rule rule, uint32_t set, const uint8_t *chunk, size_t length);

/* A rule that was checked once, to follow many chunks by. */
typedef struct {
    bellbadger_checked_rule rule;
    uint32_t live; /* the states from which a final state can be reached */
} bellbadger_follower;

/* Where refused, every other field is 0, those of the follower too. */
typedef struct {
    uint8_t accepted, refused;
    bellbadger_follower follower;
} bellbadger_follower_result;

/* sizeof(bellbadger_follower) in the library that is linked */
BELLBADGER_RESULT size_t bellbadger_follower_size(void);

/* Checks a rule once. Refused with 3, 4, 6 and 8 as bellbadger_install is. */
BELLBADGER_RESULT bellbadger_follower_result bellbadger_follower_prepare(bellbadger_checked_rule rule);

/* What bellbadger_follow answers with the rule, which is not checked anew: refused with 12 and 13 alone. On a
 * follower that no accepted bellbadger_follower_prepare returned the call ends and stays within its bounds; its answer is free. */
BELLBADGER_RESULT bellbadger_follow_result bellbadger_follow_by(bellbadger_follower follower, uint32_t set, const uint8_t *chunk, size_t length);

#ifdef __cplusplus
}
#endif

#endif
