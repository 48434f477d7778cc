/* Where a trace is lost, from C: worked by hand, refusals in their order, states of any numbers, and many
 * random boards beside a plain run of the automaton, which is all that is asked of places and bytes. This
 * would catch a loss that is told a place or a byte too early or too late, a trap that counts as hope, an idle
 * mark that is not counted, and a lost trace that is mended by what comes after it. Prints how many checks
 * were made and how the boards were; stops at the first that fails. An argument says how many boards. */
#pragma GCC diagnostic ignored "-Wunused-function" /* not all of checks.h is used */
#include "checks.h"

enum { IDLE = 255, LIMIT = 65536, PLACES = 6, BYTES = 400 };

static const uint8_t rule_a[] = {
    0x03, 0x02, 0x01, 0x00, 0x00, 0x00, 0x04, 0x00, 0x00, 0x00, 0x16, 0x00, 0x06, 0x00, 0x1C,
    0x00, 0x02, 0x00, 0x1E, 0x00, 0x00, 0x00, 0x00, 0x00, 0x00, 0x01, 0x01, 0x00, 0x01, 0x02,
};
/* samples/trap.rule: 0, 0 1 0, 0 1 0 1 0 and so on; what comes out of order leads to state 2 and stays there */
static const uint8_t trap_rule[] = {
    0x03, 0x02, 0x01, 0x00, 0x00, 0x00, 0x02, 0x00, 0x00, 0x00, 0x16, 0x00, 0x04, 0x00, 0x1A, 0x00, 0x04,
    0x00, 0x1E, 0x00, 0x04, 0x00, 0x00, 0x01, 0x01, 0x02, 0x00, 0x02, 0x01, 0x00, 0x00, 0x02, 0x01, 0x02,
};
static uint8_t big[LIMIT + 1];

static void found(const bellbadger_judge *j, int kind, unsigned number) {
    bellbadger_diagnose_result r = bellbadger_diagnose(*j);
    CHECK(r.kind == kind && r.number == number);
}

static void spot(const bellbadger_judge *j, size_t place, const uint8_t *chunk, size_t length, int kind, uint32_t number) {
    bellbadger_locate_result r = bellbadger_locate(*j, place, chunk, length);
    CHECK(r.kind == kind && r.number == number);
}

#define BYTES_OF(...) (const uint8_t[]){__VA_ARGS__}, sizeof((const uint8_t[]){__VA_ARGS__})

static bellbadger_judge opened(const uint8_t *file, size_t length, size_t places) {
    bellbadger_judge j = bellbadger_new();
    load(&j, file, length, 0);
    open(&j, places, 0);
    return j;
}

/* rule A can always go on to 0 1: a no of it is one that stopped too early */
static void never_lost(void) {
    bellbadger_judge j = opened(rule_a, sizeof rule_a, 3);
    found(&j, BELLBADGER_OPEN, 0);
    deliver(&j, 1, 0, BYTES_OF(1), 0);
    found(&j, BELLBADGER_OPEN, 0);
    deliver(&j, 0, 0, BYTES_OF(0), 0);
    found(&j, BELLBADGER_OPEN, 2);
    spot(&j, 2, BYTES_OF(1, 1, 0), BELLBADGER_NOWHERE, 0);
    deliver(&j, 2, 0, BYTES_OF(0), 0);
    found(&j, BELLBADGER_OPEN, 3);
    CHECK(bellbadger_verdict(j).kind == BELLBADGER_NO);
    deliver(&j, 2, 1, BYTES_OF(0, 1), 0);
    found(&j, BELLBADGER_OPEN, 3);
    CHECK(bellbadger_is_yes(bellbadger_verdict(j)));
    withdraw(&j, 1, 0);
    found(&j, BELLBADGER_OPEN, 1);
}

/* the trap has arcs for ever, and leads nowhere all the same */
static void trapped(void) {
    bellbadger_judge j = opened(trap_rule, sizeof trap_rule, 4);
    deliver(&j, 1, 0, BYTES_OF(1, 1), 0);
    found(&j, BELLBADGER_OPEN, 0);
    deliver(&j, 0, 0, BYTES_OF(0), 0);
    found(&j, BELLBADGER_LOST, 1);
    CHECK(bellbadger_verdict(j).kind == BELLBADGER_WAITING);
    spot(&j, 1, BYTES_OF(1, 1), BELLBADGER_LOST_AFTER, 2);
    spot(&j, 1, BYTES_OF(1, 0), BELLBADGER_NOWHERE, 0);
    spot(&j, 1, BYTES_OF(0), BELLBADGER_LOST_AFTER, 1);
    spot(&j, 1, NULL, 0, BELLBADGER_NOWHERE, 0);
    spot(&j, 0, BYTES_OF(1, 0, 1), BELLBADGER_LOST_AFTER, 1);
    spot(&j, 0, BYTES_OF(0, 1, 0), BELLBADGER_NOWHERE, 0);
    spot(&j, 2, BYTES_OF(0), BELLBADGER_LOST_AFTER, 0); /* at place 1 already */
    spot(&j, 2, NULL, 0, BELLBADGER_LOST_AFTER, 0);
    deliver(&j, 2, 0, BYTES_OF(0), 0);
    deliver(&j, 3, 0, BYTES_OF(1), 0);
    found(&j, BELLBADGER_LOST, 1);
    CHECK(bellbadger_verdict(j).kind == BELLBADGER_NO);
    withdraw(&j, 0, 0); /* then nothing is known */
    found(&j, BELLBADGER_OPEN, 0);
    deliver(&j, 0, 1, BYTES_OF(0, 1), 0);
    found(&j, BELLBADGER_LOST, 1);
    deliver(&j, 1, 1, NULL, 0, 0); /* superseded: the text is 0 1 0 1 */
    found(&j, BELLBADGER_OPEN, 4);
    CHECK(bellbadger_verdict(j).kind == BELLBADGER_NO);
}

/* a position is one of the caller's bytes: marks before the loss count, and those behind it do not */
static void idle_marks(void) {
    bellbadger_judge j = opened(trap_rule, sizeof trap_rule, 2);
    deliver(&j, 0, 0, BYTES_OF(IDLE, 0, IDLE), 0);
    found(&j, BELLBADGER_OPEN, 1);
    spot(&j, 1, BYTES_OF(IDLE, 1, IDLE, IDLE, 1, IDLE), BELLBADGER_LOST_AFTER, 5);
    spot(&j, 1, BYTES_OF(0, IDLE, IDLE), BELLBADGER_LOST_AFTER, 1);
    spot(&j, 1, BYTES_OF(IDLE, IDLE, 0), BELLBADGER_LOST_AFTER, 3);
    spot(&j, 1, BYTES_OF(IDLE, IDLE), BELLBADGER_NOWHERE, 0);
    spot(&j, 1, BYTES_OF(IDLE, 1, IDLE, 0, IDLE), BELLBADGER_NOWHERE, 0);
    deliver(&j, 0, 1, BYTES_OF(IDLE, 1), 0);
    found(&j, BELLBADGER_LOST, 0);
    spot(&j, 1, BYTES_OF(IDLE, IDLE), BELLBADGER_LOST_AFTER, 0);
    memset(big, IDLE, sizeof big);
    big[LIMIT - 1] = 1;
    spot(&j, 0, big, LIMIT, BELLBADGER_LOST_AFTER, LIMIT);
    big[LIMIT - 1] = 0;
    spot(&j, 0, big, LIMIT, BELLBADGER_NOWHERE, 0);
    for (size_t i = 0; i < LIMIT; i++) big[i] = i % 2;
    spot(&j, 0, big, LIMIT, BELLBADGER_NOWHERE, 0);
    big[LIMIT - 1] = 0;
    spot(&j, 0, big, LIMIT, BELLBADGER_LOST_AFTER, LIMIT);
}

/* without a final state, without an initial one, without a way from the one to the other */
static void accepts_nothing(void) {
    static const uint32_t masks[][2] = {{1, 0}, {0, 2}, {1, 2}};
    for (int i = 0; i < 3; i++) {
        bellbadger_checked_rule r = {.n = 2, .k = 1, .initials = masks[i][0], .finals = masks[i][1]};
        bellbadger_judge j = bellbadger_new();
        r.targets[0] = 1, r.targets[16] = 2;
        install(&j, r, 0);
        open(&j, 2, 0);
        found(&j, BELLBADGER_OPEN, 0);
        spot(&j, 0, NULL, 0, BELLBADGER_LOST_AFTER, 0);
        spot(&j, 0, BYTES_OF(IDLE, 0), BELLBADGER_LOST_AFTER, 0);
        deliver(&j, 1, 0, BYTES_OF(0), 0);
        found(&j, BELLBADGER_OPEN, 0);
        deliver(&j, 0, 0, NULL, 0, 0);
        found(&j, BELLBADGER_LOST, 0);
        spot(&j, 1, BYTES_OF(0), BELLBADGER_LOST_AFTER, 0);
    }
}

/* each with all that come after it in the order 21, 11, 12, 13, 23 */
static void refusals(void) {
    bellbadger_judge fresh = bellbadger_new(), ruled = fresh, j = opened(trap_rule, sizeof trap_rule, 2);
    memset(big, 2, sizeof big);
    load(&ruled, trap_rule, sizeof trap_rule, 0);
    found(&fresh, BELLBADGER_REFUSED, 21);
    found(&ruled, BELLBADGER_REFUSED, 21);
    spot(&fresh, 2, big, LIMIT + 1, BELLBADGER_REFUSED, 21);
    spot(&ruled, 0, NULL, 0, BELLBADGER_REFUSED, 21);
    spot(&j, 2, big, LIMIT + 1, BELLBADGER_REFUSED, 11);
    spot(&j, SIZE_MAX, NULL, 0, BELLBADGER_REFUSED, 11);
    spot(&j, 1, big, LIMIT + 1, BELLBADGER_REFUSED, 12);
    spot(&j, 1, big, LIMIT, BELLBADGER_REFUSED, 13);
    spot(&j, 1, BYTES_OF(0, IDLE, 2), BELLBADGER_REFUSED, 13);
    spot(&j, 1, BYTES_OF(0, IDLE, 1), BELLBADGER_REFUSED, 23);
    spot(&j, 1, NULL, 0, BELLBADGER_REFUSED, 23);
    spot(&j, 0, BYTES_OF(1, 2), BELLBADGER_REFUSED, 13); /* behind the loss too */
    memset(big, IDLE, sizeof big);
    spot(&j, 0, big, LIMIT + 1, BELLBADGER_REFUSED, 12);
    spot(&j, 0, NULL, 0, BELLBADGER_NOWHERE, 0);
    deliver(&j, 1, 0, BYTES_OF(0), 0); /* what stands at the place itself is not looked at */
    spot(&j, 1, NULL, 0, BELLBADGER_REFUSED, 23);
    deliver(&j, 0, 0, NULL, 0, 0);
    withdraw(&j, 1, 0);
    spot(&j, 1, NULL, 0, BELLBADGER_NOWHERE, 0);
    load(&j, trap_rule, sizeof trap_rule, 0); /* removes the board */
    found(&j, BELLBADGER_REFUSED, 21);
    spot(&j, 0, NULL, 0, BELLBADGER_REFUSED, 21);
}

static uint64_t seed = 88172645463325252u;
static uint32_t below(uint32_t n) {
    seed ^= seed << 13, seed ^= seed >> 7, seed ^= seed << 17;
    return (uint32_t)(seed >> 33) % n;
}

/* random numbers in every field: every call ends, and its answer is one of those that there are */
static void any_numbers(int states) {
    static bellbadger_judge j;
    static uint8_t chunk[300];
    for (int i = 0; i < states; i++) {
        uint8_t *bytes = (uint8_t *)&j;
        for (size_t b = 0; b < sizeof j; b++) bytes[b] = (uint8_t)below(256);
        if (i % 2) j.rule.n = (uint8_t)(1 + below(32)), j.board.places = (uint8_t)(1 + below(64));
        if (i % 4 == 3) memset(j.board.filled, 1, sizeof j.board.filled);
        for (size_t b = 0; b < sizeof chunk; b++) chunk[b] = below(9) ? (uint8_t)below(i % 3 ? 2 : 256) : IDLE;
        bellbadger_diagnose_result d = bellbadger_diagnose(j);
        CHECK((d.kind == BELLBADGER_REFUSED || d.kind == BELLBADGER_LOST || d.kind == BELLBADGER_OPEN) && (d.kind == BELLBADGER_REFUSED ? d.number == 21 && !j.board.places : d.number <= 64));
        bellbadger_locate_result l = bellbadger_locate(j, i % 5 ? below(64) : below(UINT32_MAX), chunk, i % 7 ? sizeof chunk : 0);
        CHECK((l.kind == BELLBADGER_REFUSED || l.kind == BELLBADGER_LOST_AFTER || l.kind == BELLBADGER_NOWHERE) && l.number <= sizeof chunk && (l.kind != BELLBADGER_NOWHERE || l.number == 0));
    }
}

/* what the boards were */
static long lost, open_boards, explained, stopped, after, first_bytes, nowhere, gaps, later_rules;

static bellbadger_checked_rule rule;
static uint32_t hopeful; /* the states from which a final one can be reached */

static uint32_t step(uint32_t set, int symbol) {
    uint32_t next = 0;
    for (int q = 0; q < rule.n; q++)
        if (set >> q & 1) next |= rule.targets[16 * q + symbol];
    return next;
}

static uint32_t run(uint32_t set, const uint8_t *chunk, size_t length) {
    for (size_t i = 0; i < length; i++)
        if (chunk[i] != IDLE) set = step(set, chunk[i]);
    return set;
}

/* few arcs or many, traps, no final state or several */
static void any_rule(void) {
    uint32_t states, arcs = 1 + below(3), there = 1 + below(4), traps = below(4);
    memset(&rule, 0, sizeof rule);
    rule.n = (uint8_t)(below(3) ? 1 + below(8) : 1 + below(32)), rule.k = (uint8_t)(below(3) ? 1 + below(3) : 1 + below(16));
    states = rule.n < 32 ? (1u << rule.n) - 1 : UINT32_MAX;
    rule.initials = below(9) ? 1u << below(rule.n) | (below(3) ? 0 : below(UINT32_MAX) & states) : 0;
    rule.finals = below(9) ? 1u << below(rule.n) | (below(3) ? 0 : below(UINT32_MAX) & states) : 0;
    for (int q = 0; q < rule.n; q++)
        for (int s = 0, trap = traps && !below(5); s < rule.k; s++)
            for (uint32_t i = 0; i < arcs; i++)
                if (below(5) < there) rule.targets[16 * q + s] |= 1u << (trap ? (uint32_t)q : below(rule.n));
    for (hopeful = rule.finals, states = 0; hopeful != states;) {
        states = hopeful;
        for (int c = 0; c < 512; c++)
            if (rule.targets[c] & states) hopeful |= 1u << c / 16;
    }
}

/* from the set mostly events that leave hope, so that losses come late; idle marks among them */
static size_t any_chunk(uint8_t *chunk, uint32_t set) {
    size_t length = below(4) ? below(12) : below(BYTES + 1);
    uint32_t faults = below(3) ? 100 : 8, marks = below(2) * 4;
    for (size_t i = 0; i < length; i++) {
        chunk[i] = IDLE;
        if (marks && !below(marks)) continue;
        chunk[i] = (uint8_t)below(rule.k);
        for (int t = 0; t < 2 * rule.k && below(faults) && !(step(set, chunk[i]) & hopeful); t++) chunk[i] = (uint8_t)((chunk[i] + 1) % rule.k);
        set = step(set, chunk[i]);
    }
    return length;
}

/* the chunk at the place by the words, from the set that the texts before it lead to */
static void compare_spot(const bellbadger_judge *j, size_t place, const uint8_t *chunk, size_t length, uint32_t set, int gap) {
    if (gap) {
        spot(j, place, chunk, length, BELLBADGER_REFUSED, 23);
        gaps++;
        return;
    }
    for (size_t i = 0; i <= length; i++) {
        if (i > 0 && chunk[i - 1] != IDLE) set = step(set, chunk[i - 1]);
        if (!(set & hopeful)) {
            spot(j, place, chunk, length, BELLBADGER_LOST_AFTER, (uint32_t)i);
            CHECK(i == 0 || chunk[i - 1] != IDLE);
            after++, first_bytes += i == 0;
            return;
        }
    }
    spot(j, place, chunk, length, BELLBADGER_NOWHERE, 0);
    nowhere++;
}

static void board(void) {
    static uint8_t chunks[PLACES][BYTES], other[BYTES];
    size_t length[PLACES], places = 1 + below(PLACES), p;
    int there[PLACES], gap = 0, kind = BELLBADGER_OPEN;
    uint32_t set = rule.initials;
    bellbadger_judge j = bellbadger_new();
    bellbadger_install_result installed = bellbadger_install(j, rule);
    if (!installed.accepted) {
        CHECK(REFUSED_WITH(installed, 9));
        later_rules++;
        return;
    }
    j = installed.judge;
    open(&j, places, 0);
    for (p = 0; p < places; p++) {
        length[p] = any_chunk(chunks[p], set), there[p] = below(8) != 0;
        set = run(set, chunks[p], length[p]);
    }
    for (size_t i = 0, at = below((uint32_t)places); i < places; i++, at = (at + 1) % places) /* out of order */
        if (there[at]) deliver(&j, at, below(9), chunks[at], length[at], 0);
    for (p = 0, set = rule.initials; p < places && there[p]; p++) {
        set = run(set, chunks[p], length[p]);
        if (!(set & hopeful)) {
            kind = BELLBADGER_LOST;
            break;
        }
    }
    found(&j, kind, (unsigned)p);
    kind == BELLBADGER_LOST ? lost++ : open_boards++;
    for (size_t i = 0; i < places; gap |= !there[i], i++) {
        for (set = rule.initials, p = 0; p < i; p++) set = run(set, chunks[p], length[p]);
        compare_spot(&j, i, chunks[i], length[i], set, gap);
        compare_spot(&j, i, other, any_chunk(other, set), set, gap);
    }
    /* whatever comes above the place, and then at all places: a lost trace stays lost and is no yes */
    bellbadger_diagnose_result before = bellbadger_diagnose(j);
    for (p = kind == BELLBADGER_LOST ? before.number + 1u : 0; p < places; p++) {
        if (kind == BELLBADGER_LOST || !there[p]) deliver(&j, p, 10, other, any_chunk(other, rule.initials), 0);
        if (kind == BELLBADGER_LOST) found(&j, kind, before.number);
    }
    bellbadger_verdict_result said = bellbadger_verdict(j);
    bellbadger_diagnose_result then = bellbadger_diagnose(j);
    CHECK(said.kind == BELLBADGER_YES || said.kind == BELLBADGER_NO);
    CHECK(kind != BELLBADGER_LOST || said.kind == BELLBADGER_NO);
    CHECK(then.kind == BELLBADGER_LOST ? said.kind == BELLBADGER_NO : then.number == places);
    if (said.kind == BELLBADGER_NO) then.kind == BELLBADGER_LOST ? explained++ : stopped++;
}

int main(int argc, char **argv) {
    int boards = argc > 1 ? atoi(argv[1]) : 4000;
    never_lost();
    trapped();
    idle_marks();
    accepts_nothing();
    refusals();
    any_numbers(boards / 4 + 1);
    for (int i = 0; i < boards; i++) {
        any_rule();
        board();
    }
    /* the boards tell something */
    CHECK(boards < 1000 || (lost > boards / 10 && open_boards > boards / 10 && explained > boards / 10 && stopped > boards / 50));
    CHECK(boards < 1000 || (after - first_bytes > boards / 4 && nowhere > boards && gaps > boards / 10 && later_rules < boards / 4));
    printf("losses: %ld checks; boards: %ld lost, %ld open; a no is %ld lost, %ld stopped too early; chunks: %ld lost, %ld before they begin, %ld nowhere\n",
           checks, lost, open_boards, explained, stopped, after, first_bytes, nowhere);
    return 0;
}
