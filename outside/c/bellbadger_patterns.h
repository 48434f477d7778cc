/* Patterns for shop owners: a pattern becomes a rule file. bellbadger.h includes this.
 *
 * A pattern says which texts are to be accepted. A letter a to p is the symbol 0 to 15; what stands side
 * by side follows each other; x|y is x or y; x* is x any number of times; brackets join:
 *   (ab)*c     any number of times 0 1, and then 2
 * `|` binds loosest and `*` tightest: it stands after a letter, a closing bracket or another `*`. An empty
 * alternative, pattern or bracket is the empty text. No other byte may stand in a pattern, no space
 * either, and none has to end it.
 */
#ifndef BELLBADGER_PATTERNS_H
#define BELLBADGER_PATTERNS_H

#include "bellbadger.h"

#ifdef __cplusplus
extern "C" {
#endif

#define BELLBADGER_PATTERN_FILE 2122 /* the most bytes of a pattern's rule file */

/* accepted is 1 or 0; where it is 0, refused has the number. The rule file is the first `length` bytes,
 * and zeros stand after them; where refused the length is 0. */
typedef struct {
    uint8_t accepted, refused;
    uint16_t length;
    uint8_t bytes[BELLBADGER_PATTERN_FILE];
} bellbadger_pattern_result;

/* Turns a pattern into a rule file, for bellbadger_read and bellbadger_load, which give it none of 1 to
 * 8. The rule accepts exactly the pattern's texts: state 0 is its start, state i the i-th letter from
 * the left, and it has 16 symbols. Refused with
 *   30 the pattern has over 128 bytes      31 the bytes are no pattern
 *   32 the pattern has more than 31 letters */
BELLBADGER_RESULT bellbadger_pattern_result bellbadger_pattern(const uint8_t *pattern, size_t length);

#ifdef __cplusplus
}
#endif

#endif
