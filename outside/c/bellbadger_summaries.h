/* Summaries: chunks run one by one, on whatever machines, and put together afterwards, for every rule that a
 * judge takes and traces of any length. bellbadger.h includes this.
 *
 * Each chunk of a trace has a number, from 0 on. Its summary is made where the chunk is, by a judge that has
 * the rule and needs no board; it is a value of 176 bytes, and the chunk need not travel. Summaries of
 * neighbours combine to that of both, in any bracketing, without a rule; the last one is concluded by a judge
 * with the rule, for so many chunks. A conclusion that is not refused is the report that a filled board with
 * these chunks gives, every field, and so it is for more chunks than a board takes: yes exactly where the rule
 * accepts their texts joined.
 *
 * A chunk that is lost, doubled or out of its order leaves a summary that is broken, begins elsewhere or ends
 * elsewhere: it is refused, and never a wrong yes. A summary by another rule is recognised by the rule's digest, and
 * refused; two rules that differ have the same digest only by chance. This is a guard against mistakes and not
 * against attackers: whoever makes up the numbers of a summary can have any verdict.
 */
#ifndef BELLBADGER_SUMMARIES_H
#define BELLBADGER_SUMMARIES_H

#include "bellbadger.h"

#define BELLBADGER_SUMMARY_SIZE 176 /* the bytes of a bellbadger_summary */

#ifdef __cplusplus
extern "C" {
#endif

/* What chunks that follow one another come to. For each state q that was run leads[q] has the delegates of the
 * members of its end set, bit d for state d, and for every other 0. count and bytes are those of a verdict;
 * 2^64 - 1 says that many or more, which fewer than 2^43 chunks do not come to. rule is a digest of the rule
 * as it was built, below; first is the number of the first chunk, end the number behind the last. broken is 0
 * where all that is so, and any other number where the chunks are not neighbours in their order, or not of
 * one rule, or one of them was refused.
 *
 * The digest is a guard against mistakes and not against attackers: two rules that differ have the same digest
 * only by chance, and it is no signature: whoever wants to can find two rules with one digest. It is h at the
 * end, which is 0 at first and for each half x of a number, its low 16 bits and then the rest, becomes
 * t + t / 2^23, where t is h * 131073 + x, both modulo 2^64; the numbers are those of a
 * bellbadger_built_rule: n, k, initials, finals, the 32 delegates, the 32 singles,
 * count, the sets (as many as count says), and the 16 cells of next of each of these sets. */
typedef struct {
    uint32_t leads[32];
    uint64_t count, bytes;
    uint64_t rule;
    uint64_t first, end;
    uint8_t broken;
} bellbadger_summary;

typedef struct {
    uint8_t accepted, refused;
    bellbadger_summary summary; /* where refused: broken is 1, and every other number is 0 */
} bellbadger_summarize_result;

/* What the library was built with: the bytes of a summary. */
BELLBADGER_RESULT size_t bellbadger_summary_size(void);

/* The summary of the chunk with that number. Of the judge only the rule is looked at. Byte 255 is an idle mark,
 * as in a delivery. Chunk number 0 is run as at place 0 of a board, every other as at another place. No chunk
 * follows number 2^64 - 1: its summary is broken. Refused with
 *   20 no rule is there      12 the chunk has over 65,536 bytes
 *   13 a byte is no symbol and no idle mark */
BELLBADGER_RESULT bellbadger_summarize_result bellbadger_summarize(bellbadger_judge judge, uint64_t number, const uint8_t *chunk, size_t length);

/* The summary of chunks, and of those that follow them. Any two values combine, and brackets do not matter; the
 * order does. It is broken where one of the two is, where the later does not begin where the earlier ends, and
 * where they are by two rules. */
BELLBADGER_RESULT bellbadger_summary bellbadger_summary_combine(bellbadger_summary earlier, bellbadger_summary later);

/* The verdict on a trace of so many chunks, of which this is the summary: yes or no, as bellbadger_verdict gives
 * it; ask with bellbadger_is_yes. Of the judge only the rule is looked at. Say how many chunks the trace has from
 * what is known of the trace, and not from the summary. Refused with
 *   20 no rule is there      42 the summary is broken, or does not begin with chunk 0
 *   43 it is by another rule than the judge's
 *   44 it does not end with the last chunk, or the trace has none (an empty trace has one empty chunk) */
BELLBADGER_RESULT bellbadger_verdict_result bellbadger_summary_conclude(bellbadger_judge judge, bellbadger_summary summary, uint64_t chunks);

#ifdef __cplusplus
}
#endif

#endif
