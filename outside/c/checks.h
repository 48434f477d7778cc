/* What the tests of the library in C check of every call: the answer that is due, in every field, and
 * that a refused call hands back the judge that came. */
#ifndef CHECKS_H
#define CHECKS_H

#include <stdio.h>
#include <stdlib.h>
#include <string.h>

#include "bellbadger.h"

/* a test may use some of them */
#pragma GCC diagnostic ignored "-Wunused-function"

static long checks;

/* A test need not use all that follows. (Not inline: a judge in each would take too large a stack.) */
#define HELPER static __attribute__((unused))

#define CHECK(fact)                                                  \
    do {                                                             \
        checks++;                                                    \
        if (!(fact)) {                                               \
            printf("%s:%d: %s\n", __FILE__, __LINE__, #fact);        \
            exit(1);                                                 \
        }                                                            \
    } while (0)

/* The two fields of an answer, both of them: 1 and 0, or 0 and the number; ANSWERED by the number that is
 * due, 0 where none is, and TOLD by any. */
#define TAKEN(r) ((r).accepted == 1 && (r).refused == 0)
#define REFUSED_WITH(r, number) ((r).accepted == 0 && (r).refused == (number))
#define ANSWERED(r, number) ((number) == 0 ? TAKEN(r) : REFUSED_WITH(r, number))
#define TOLD(r) (TAKEN(r) || ((r).accepted == 0 && (r).refused != 0))

HELPER int same(const bellbadger_judge *a, const bellbadger_judge *b) {
    return a->rule.n == b->rule.n && a->rule.k == b->rule.k && a->rule.starts == b->rule.starts && a->rule.count == b->rule.count
        && a->rule.initials == b->rule.initials && a->rule.finals == b->rule.finals
        && !memcmp(a->rule.delegates, b->rule.delegates, sizeof a->rule.delegates)
        && !memcmp(a->rule.singles, b->rule.singles, sizeof a->rule.singles)
        && !memcmp(a->rule.sets, b->rule.sets, sizeof a->rule.sets) && !memcmp(a->rule.next, b->rule.next, sizeof a->rule.next)
        && a->board.places == b->board.places && !memcmp(a->board.filled, b->board.filled, sizeof a->board.filled)
        && !memcmp(a->board.counts, b->board.counts, sizeof a->board.counts)
        && !memcmp(a->board.lengths, b->board.lengths, sizeof a->board.lengths)
        && !memcmp(a->board.revisions, b->board.revisions, sizeof a->board.revisions) && !memcmp(a->board.ends, b->board.ends, sizeof a->board.ends);
}

/* every number of a checked rule is 0 */
HELPER int zeros(const bellbadger_checked_rule *r) {
    for (int c = 0; c < 512; c++)
        if (r->targets[c]) return 0;
    return !r->n && !r->k && !r->initials && !r->finals;
}

/* reading answers as loading does but for 9, which it has not, and hands out zeros where it refuses */
HELPER bellbadger_checked_rule read_file(const uint8_t *file, size_t length, int refused) {
    bellbadger_read_result r = bellbadger_read(file, length);
    CHECK(ANSWERED(r, refused));
    CHECK(r.accepted || zeros(&r.rule));
    return r.rule;
}

/* the numbers of sets and starts are the judge's, whose board is gone; 0 where it is refused */
HELPER int installed_into(const bellbadger_judge *j, const bellbadger_install_result *r) {
    if (!r->accepted) return same(&r->judge, j) && r->sets == 0 && r->starts == 0;
    return r->sets == r->judge.rule.count && r->starts == r->judge.rule.starts && r->judge.rule.n != 0 && r->judge.board.places == 0;
}

HELPER void install(bellbadger_judge *j, bellbadger_checked_rule rule, int refused) {
    bellbadger_install_result r = bellbadger_install(*j, rule);
    CHECK(ANSWERED(r, refused) && installed_into(j, &r));
    *j = r.judge;
}

HELPER void load(bellbadger_judge *j, const uint8_t *file, size_t length, int refused) {
    bellbadger_load_result r = bellbadger_load(*j, file, length);
    CHECK(ANSWERED(r, refused) && installed_into(j, &r));
    if (refused != 9) read_file(file, length, refused);
    *j = r.judge;
}

HELPER void open(bellbadger_judge *j, size_t places, int refused) {
    bellbadger_open_result r = bellbadger_open(*j, places);
    CHECK(ANSWERED(r, refused));
    CHECK(r.accepted ? r.judge.board.places == places : same(&r.judge, j));
    *j = r.judge;
}

HELPER void deliver(bellbadger_judge *j, size_t place, uint32_t revision, const uint8_t *chunk, size_t length, int refused) {
    bellbadger_deliver_result r = bellbadger_deliver(*j, place, revision, chunk, length);
    CHECK(ANSWERED(r, refused));
    CHECK(r.accepted ? r.looked <= length && r.judge.board.filled[place] : same(&r.judge, j) && r.looked == 0);
    *j = r.judge;
}

/* an accepted delivery, with the number of bytes for which it looked a successor up */
HELPER void looked(bellbadger_judge *j, size_t place, uint32_t revision, const uint8_t *chunk, size_t length, uint32_t bytes) {
    bellbadger_deliver_result r = bellbadger_deliver(*j, place, revision, chunk, length);
    CHECK(TAKEN(r) && r.looked == bytes && r.judge.board.revisions[place] == (uint64_t)revision + 1);
    *j = r.judge;
}

HELPER void withdraw(bellbadger_judge *j, size_t place, int refused) {
    bellbadger_withdraw_result r = bellbadger_withdraw(*j, place);
    CHECK(ANSWERED(r, refused));
    CHECK(r.accepted ? !r.judge.board.filled[place] : same(&r.judge, j));
    *j = r.judge;
}

/* the quotient and the remainder fit the number and the bytes; no bytes beside waiting, a refusal and a
 * malformed line */
HELPER int divides(bellbadger_verdict_result r) {
    if (r.bytes == 0) return r.quotient == 0 && r.remainder == 0;
    return (r.kind == BELLBADGER_YES || r.kind == BELLBADGER_NO) && r.quotient == r.number / r.bytes && r.remainder == r.number % r.bytes;
}

HELPER void verdict(const bellbadger_judge *j, int kind, uint64_t number, uint64_t bytes) {
    bellbadger_verdict_result r = bellbadger_verdict(*j);
    CHECK(bellbadger_is_yes(r) == (kind == BELLBADGER_YES));
    CHECK(r.kind == kind && r.number == number && r.bytes == bytes && divides(r));
}

HELPER void replay(const char *text, int kind, uint64_t number, uint64_t bytes) {
    bellbadger_replay_result r = bellbadger_replay((const uint8_t *)text, strlen(text));
    CHECK(bellbadger_is_yes(r) == (kind == BELLBADGER_YES));
    CHECK(r.kind == kind && r.number == number && r.bytes == bytes && divides(r));
}

#endif
