/* The mapping machine: chunks run one by one, on whatever machines, and put together afterwards. It is
 * for rules of at most eight states with at most 512 mappings; bellbadger.h includes this.
 *
 * A profile is built once from a checked rule. A run answers the chunk's mapping, eight bytes: the set
 * of states to which the chunk's text leads from each state. Mappings compose in order of the chunks and
 * in any bracketing; the last one gives the verdict, the same yes or no that a filled board with these
 * chunks gives. So a chunk can be run where it is recorded, and eight bytes travel.
 *
 * A profile goes by value. Any bytes whatever may stand in one: every function still ends and stays
 * within its bounds, but only a profile that bellbadger_profile_build accepted has a meaning.
 */
#ifndef BELLBADGER_MAPPINGS_H
#define BELLBADGER_MAPPINGS_H

#include "bellbadger.h"

#define BELLBADGER_PROFILE_SIZE 20488 /* the bytes of a bellbadger_profile */

#ifdef __cplusplus
extern "C" {
#endif

/* The set that each of eight states is mapped to: masks[q] is that of state q, bit p for state p. In the
 * mapping of a chunk the masks are 0 from state n on. */
typedef struct {
    uint8_t masks[8];
} bellbadger_mapping;

/* The mapping machine of a rule: its states, symbols, masks of initial and final states; how many
 * mappings its texts have, each of them as one number, state 0's mask in the lowest eight bits and number 0
 * the identity; and the table: what mapping i leads to by symbol s stands at i * 16 + s. Zeros elsewhere. */
typedef struct {
    uint8_t n, k, initials, finals;
    uint16_t count;
    uint64_t mappings[512];
    uint16_t next[8192];
} bellbadger_profile;

typedef struct {
    uint8_t accepted, refused;
    bellbadger_profile profile; /* every number in it is 0 where refused */
} bellbadger_profile_build_result;

typedef struct {
    uint8_t accepted, refused;
    bellbadger_mapping mapping; /* every mask in it is 0 where refused */
} bellbadger_profile_run_result;

/* What the library was built with: the bytes of a profile. */
BELLBADGER_RESULT size_t bellbadger_profile_size(void);

/* Checks a rule, whatever stands in it, and builds its profile. Refused with
 *   3, 4, 6, 8 as bellbadger_install is
 *   33 the rule has more than eight states      34 its texts have more than 512 mappings */
BELLBADGER_RESULT bellbadger_profile_build_result bellbadger_profile_build(bellbadger_checked_rule rule);

/* The mapping of a chunk. Byte 255 is an idle mark, as in a delivery. Refused with
 *   12 the chunk has over 65,536 bytes      13 a byte is no symbol and no idle mark */
BELLBADGER_RESULT bellbadger_profile_run_result bellbadger_profile_run(bellbadger_profile profile, const uint8_t *chunk, size_t length);

/* The mapping of two chunks, one behind the other, from those of each. Any two values compose. */
BELLBADGER_RESULT bellbadger_mapping bellbadger_compose(bellbadger_mapping earlier, bellbadger_mapping later);

/* 1 for yes: the mapping leads from an initial state to a final one. 0 for no. Any value has a verdict;
 * bits for states that there are not mean nothing. */
BELLBADGER_RESULT uint8_t bellbadger_profile_verdict(bellbadger_profile profile, bellbadger_mapping mapping);

#ifdef __cplusplus
}
#endif

#endif
