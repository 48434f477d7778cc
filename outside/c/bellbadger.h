/* The valve trace judge, for x86-64, from C99 or C++11 on. Link with what
 * `pkg-config --cflags --libs bellbadger` prints, or with libbellbadger.a.
 *
 * The caller keeps the judge and hands it in by value; each call that may change it hands the next
 * one back. A refused call hands back the judge that came: look at `accepted` after every call. Any
 * bytes whatever may stand in a judge: every call still ends and stays within its bounds, but only
 * a judge that began with bellbadger_new and went through the calls below has a meaning. Files,
 * chunks and texts are only read; a pointer must lead to as many bytes as the length beside it
 * says, and may be anything where that is 0.
 *
 * A rule comes as a file, which bellbadger_load reads and installs. Who has no judge reads the file
 * alone (bellbadger_read): what comes of it is a checked rule, a value to look at, to keep, and to
 * install into any number of judges (bellbadger_install). Who would rather hand in pointers finds
 * the calls so in bellbadger_at.h; for C++ there is a class, bellbadger.hpp.
 *
 * Threads: no function keeps anything, they work on values only; any number of threads may call at
 * once.
 *
 * Stack: judges and their like go by value, and a chunk with idle marks is packed on the stack. A thread
 * that calls these functions should have 1 MB. Beside what the caller keeps, a judge of 28 KB and results
 * with one in them, a call takes at most, with the copies of its arguments,
 *   440 KB  bellbadger_replay
 *   310 KB  bellbadger_load
 *   275 KB  bellbadger_install
 *   235 KB  bellbadger_deliver
 *   190 KB  bellbadger_tray_install_row, bellbadger_tray_install_column
 *   165 KB  bellbadger_locate
 *   150 KB  bellbadger_merge_reduced, bellbadger_summarize
 *   125 KB  bellbadger_withdraw, bellbadger_reduce
 *   115 KB  bellbadger_save, bellbadger_profile_run
 *   85 KB  any other function
 */
#ifndef BELLBADGER_H
#define BELLBADGER_H

#include <stdbool.h>
#include <stddef.h>
#include <stdint.h>

/* What this header was written for. Compare with what the library tells of itself at run time:
 * bellbadger_version() == BELLBADGER_VERSION && bellbadger_state_size() == BELLBADGER_STATE_SIZE.
 * Another major number or size: the two do not fit. A higher minor number of the library: it can
 * more than this header says. */
#define BELLBADGER_VERSION_MAJOR 5
#define BELLBADGER_VERSION_MINOR 8
#define BELLBADGER_VERSION (BELLBADGER_VERSION_MAJOR * 65536 + BELLBADGER_VERSION_MINOR)
#define BELLBADGER_STATE_SIZE 27832 /* the bytes of a bellbadger_judge */

/* A result that is dropped is a call without effect, or a refusal that nobody sees. */
#if defined(__GNUC__)
#define BELLBADGER_RESULT __attribute__((warn_unused_result))
#else
#define BELLBADGER_RESULT
#endif

#ifdef __cplusplus
extern "C" {
#endif

/* A checked rule: n states, k symbols, the masks of initial and final states, bit q for state q, and
 * for each state and symbol the mask of the targets: that of state q and symbol s stands at q * 16 + s.
 * So bellbadger_read answers it. In one that comes from elsewhere any numbers may stand: it is checked
 * again where it is installed. */
typedef struct {
    uint8_t n, k;
    uint32_t initials, finals;
    uint32_t targets[512];
} bellbadger_checked_rule;

/* What stands in the place of a delegate where a state has none. It is no state: test for it before a
 * delegate is used as an index. */
#define BELLBADGER_NO_DELEGATE 32

/* A rule as it was built: states, symbols, starts (M), sets; masks of initial and final states;
 * each state's delegate and the number of its own set; the sets' masks; 16 cells of next sets for
 * each set. n is 0 where no rule is there.
 *
 * The delegate of a state is the lowest state that accepts the same texts. A state from which no final
 * state can be reached has none: its cell is BELLBADGER_NO_DELEGATE. From n on the cells are 0. The
 * starts are the states that are their own delegate; there are none, and M is 0, where the mask of final
 * states is 0. */
typedef struct {
    uint8_t n, k, starts;
    uint16_t count;
    uint32_t initials, finals;
    uint8_t delegates[32];
    uint16_t singles[32];
    uint32_t sets[512];
    uint16_t next[8192];
} bellbadger_built_rule;

/* A board: how many places, which are filled, the counts and lengths of their texts, one more than the
 * last revision accepted at each since the opening (0 where there was none; a withdrawal leaves it), and
 * 32 end sets for each. places is 0 where no board is there. */
typedef struct {
    uint8_t places;
    uint8_t filled[64];
    uint32_t counts[64];
    uint32_t lengths[64];
    uint64_t revisions[64];
    uint32_t ends[2048];
} bellbadger_board;

typedef struct {
    bellbadger_built_rule rule;
    bellbadger_board board;
} bellbadger_judge;

/* Wherever accepted stands: it is 1 or 0; where it is 0, refused has the number. */
typedef struct {
    uint8_t accepted, refused;
    bellbadger_checked_rule rule; /* every number in it is 0 where refused */
} bellbadger_read_result;

typedef struct {
    uint8_t accepted, refused;
    uint16_t sets;  /* the number of sets, and */
    uint8_t starts; /* M, of an accepted rule: 0 where it has no final state */
    bellbadger_judge judge;
} bellbadger_install_result, bellbadger_load_result;

typedef struct {
    uint8_t accepted, refused;
    bellbadger_judge judge;
} bellbadger_open_result, bellbadger_withdraw_result;

typedef struct {
    uint8_t accepted, refused;
    uint32_t looked; /* the text bytes for which any successor was looked up; 0 where refused */
    bellbadger_judge judge;
} bellbadger_deliver_result;

/* The kind of a verdict is no truth value: 0 is a refusal, so that a result full of zeros is no verdict,
 * and all that follows, waiting and no too, holds in an `if`. There is no shorter form for "ship it" than
 * bellbadger_is_yes, below; of a tray, bellbadger_tray_is_yes; of a trace that is followed, and of which no chunk was
 * refused, bellbadger_is_accepted_so_far. */
enum {
    BELLBADGER_REFUSED = 0,   /* number: why */
    BELLBADGER_WAITING = 1,   /* number: how many places are empty */
    BELLBADGER_YES = 2,       /* number: the count */
    BELLBADGER_NO = 3,        /* number: the count */
    BELLBADGER_MALFORMED = 4  /* number: which line, counted from 1; of bellbadger_replay alone */
};

/* Beside yes and no: how many bytes the text has, and how many transitions there are for each:
 * number == quotient * bytes + remainder with remainder < bytes, or both 0 where bytes is 0. Beside
 * the others all three are 0. */
typedef struct {
    uint8_t kind;
    uint64_t number;
    uint64_t bytes, quotient, remainder;
} bellbadger_verdict_result, bellbadger_replay_result;

/* Whether the trace keeps to the rule: not where places are empty, the call was refused or a line is
 * malformed. */
BELLBADGER_RESULT static inline bool bellbadger_is_yes(bellbadger_verdict_result verdict) {
    return verdict.kind == BELLBADGER_YES;
}

/* What the library was built with: its version, major * 65536 + minor, and the bytes of a judge. */
BELLBADGER_RESULT uint32_t bellbadger_version(void);
BELLBADGER_RESULT size_t bellbadger_state_size(void);

/* A judge with no rule and no board. */
BELLBADGER_RESULT bellbadger_judge bellbadger_new(void);

/* Reads a rule file and answers the rule in it. Refused with
 *   1 too short for a head (10 bytes)      2 longer than any rule (32,906 bytes)
 *   3 the number of states is not in 1..32      4 that of symbols is not in 1..16
 *   5 too short for the list of pairs      6 a mask names a state that does not exist
 *   7 a pair has a wrong offset or an odd length, or the sections do not end where the file does
 *   8 an arc has a symbol or a target that does not exist, or arcs are not ascending */
BELLBADGER_RESULT bellbadger_read_result bellbadger_read(const uint8_t *file, size_t length);

/* Checks and builds a rule, whatever stands in it; replaces the former one and removes the board.
 * Refused with
 *   3, 4, 6 as above
 *   8 a target mask names a state that does not exist, or one kept for a state or a symbol that
 *     does not exist (a state from n on, a symbol from k on) is not 0
 *   9 the rule has over 512 sets */
BELLBADGER_RESULT bellbadger_install_result bellbadger_install(bellbadger_judge judge, bellbadger_checked_rule rule);

/* Reads a rule file and installs the rule in it. Refused with 1 to 8 as bellbadger_read is, then with 9. */
BELLBADGER_RESULT bellbadger_load_result bellbadger_load(bellbadger_judge judge, const uint8_t *file, size_t length);

/* A board of that many empty places; drops an earlier one. Refused with
 *   20 no rule is there      10 the number of places is not in 1..64 */
BELLBADGER_RESULT bellbadger_open_result bellbadger_open(bellbadger_judge judge, size_t places);

/* Runs a chunk and keeps its end sets, count, length and revision at the place. A controller that sends
 * a chunk again, after reading more of its buffer, gives it a greater revision: it replaces what stands
 * there. A place that had no accepted delivery since the opening takes any revision. Byte 255 is an idle mark: it is
 * skipped and is no part of the text, but counts in the limit of 65,536 bytes. Once every run has died
 * no successor is looked up: looked is the least number of text bytes after which every set is empty,
 * else all of them; 0 where nothing is run, as with a rule whose M is 0. Refused with
 *   21 no board is open      11 the board has no such place      12 the chunk has over 65,536 bytes
 *   13 a byte is no symbol and no idle mark
 *   22 the revision is not greater than the last one accepted there, even if that was withdrawn */
BELLBADGER_RESULT bellbadger_deliver_result bellbadger_deliver(bellbadger_judge judge, size_t place, uint32_t revision, const uint8_t *chunk,
                                                              size_t length);

/* Empties a place. Refused with
 *   21 no board is open      11 the board has no such place      23 the place has no chunk */
BELLBADGER_RESULT bellbadger_withdraw_result bellbadger_withdraw(bellbadger_judge judge, size_t place);

/* Changes nothing. Refused with 21 no board is open. */
BELLBADGER_RESULT bellbadger_verdict_result bellbadger_verdict(bellbadger_judge judge);

/* Runs the calls that a text records on a fresh judge, and answers the verdict after them. A line
 * is
 *   load HEX        deliver P REVISION HEX      verdict
 *   install HEX     withdraw P                  or empty: a fresh judge begins
 *   open N
 * with exactly one space between fields. HEX is pairs of hex digits of either case, or - for no
 * bytes. That of an installation is of 2,058 bytes: n and k, then the two masks and the 512 target
 * masks, each of four bytes, the lowest first (a bellbadger_checked_rule without the gap behind k). N,
 * P and REVISION are 1 to 20 decimal digits with a value below 2^64, that of REVISION below 2^32. A line ends with a line feed alone (a
 * carriage return belongs to the line, which is then malformed); the last may end with the text. A
 * call that is refused changes nothing, and the next line is run. Any other line is malformed: the
 * answer is BELLBADGER_MALFORMED with the number of the first such line. */
BELLBADGER_RESULT bellbadger_replay_result bellbadger_replay(const uint8_t *text, size_t length);

#ifdef __cplusplus
}
#endif

#include "bellbadger_losses.h"
#include "bellbadger_saved.h"
#include "bellbadger_mappings.h"
#include "bellbadger_samples.h"
#include "bellbadger_follow.h"
#include "bellbadger_summaries.h"
#include "bellbadger_patterns.h"
#include "bellbadger_merge.h"
#include "bellbadger_compare.h"
#include "bellbadger_reduce.h"
#include "bellbadger_texts.h"
#include "bellbadger_form.h"
#include "bellbadger_trays.h"
#include "bellbadger_at.h"

#endif
