/* Rules for the tests in C, and what is plainly found of them: the texts that they and two of them
 * together accept, and what a rule is reduced to, state by state, by searches that share nothing
 * with the library. */
#ifndef PLAIN_RULES_H
#define PLAIN_RULES_H

#include "checks.h"

enum { MOST_PAIRS = 4096 };

static bellbadger_checked_rule plain(int n, int k) {
    bellbadger_checked_rule r = {.n = (uint8_t)n, .k = (uint8_t)k, .initials = 1, .finals = 1};
    return r;
}

static void set(bellbadger_checked_rule *r, int state, uint32_t by_0, uint32_t by_1) {
    r->targets[16 * state] = by_0;
    r->targets[16 * state + 1] = by_1;
}

static int equal(const bellbadger_checked_rule *x, const bellbadger_checked_rule *y) {
    return x->n == y->n && x->k == y->k && x->initials == y->initials && x->finals == y->finals
        && !memcmp(x->targets, y->targets, sizeof x->targets);
}

/* a rule by one symbol, with the targets of each state */
static bellbadger_checked_rule by_one(int n, uint32_t initials, uint32_t finals, const uint32_t *targets) {
    bellbadger_checked_rule r = {.n = (uint8_t)n, .k = 1, .initials = initials, .finals = finals};
    for (int q = 0; q < n; q++) r.targets[16 * q] = targets[q];
    return r;
}

#define BY_ONE(initials, finals, ...) \
    by_one(sizeof((uint32_t[]){__VA_ARGS__}) / sizeof(uint32_t), initials, finals, (const uint32_t[]){__VA_ARGS__})

/* the symbol is the n-th from the end: n + 1 states */
static bellbadger_checked_rule from_the_end(int n, int symbol) {
    bellbadger_checked_rule r = plain(n + 1, 2);
    r.finals = 1u << n;
    set(&r, 0, symbol == 0 ? 3 : 1, symbol == 1 ? 3 : 1);
    for (int q = 1; q < n; q++) set(&r, q, 2u << q, 2u << q);
    return r;
}

/* A rule of few sets whose reduction has many. State 0 accepts all texts; by 1 it begins a row of
 * so many states too, so that texts lead to sets of many kinds from it. Behind the row stands a
 * ring of states, of which the first leads by 1 to the last state of all; that accepts all texts
 * too, and is represented by state 0. */
static bellbadger_checked_rule grows(int row, int ring) {
    int first = 1 + row, last = first + ring;
    bellbadger_checked_rule r = plain(last + 1, 2);
    r.initials = 1u | 1u << first, r.finals = 1u | 1u << row | 1u << last;
    set(&r, 0, 1, 3), set(&r, last, 1u << last, 1u << last);
    for (int q = 1; q < row; q++) set(&r, q, 2u << q, 2u << q);
    for (int i = 0; i < ring; i++) set(&r, first + i, 1u << (first + (i + 1) % ring), 1u << (first + (i + 1) % ring));
    r.targets[16 * first + 1] |= 1u << last;
    return r;
}

static uint64_t seed = 88172645463325252u;
static uint32_t random_number(void) {
    seed ^= seed << 13;
    seed ^= seed >> 7;
    seed ^= seed << 17;
    return (uint32_t)(seed >> 32);
}

static uint32_t below(uint32_t n) {
    return random_number() % n;
}

/* a rule with arcs of its own, states that nothing leads to, that lead nowhere, and that are copies
 * of others */
static bellbadger_checked_rule any_rule(int most, int most_symbols) {
    bellbadger_checked_rule r = plain(1 + (int)below((uint32_t)most), 1 + (int)below((uint32_t)most_symbols));
    uint32_t states = r.n < 32 ? (1u << r.n) - 1 : 0xFFFFFFFF;
    r.initials = random_number() & random_number() & states, r.finals = random_number() & random_number() & states;
    if (below(8)) r.initials |= 1u << below(r.n), r.finals |= 1u << below(r.n);
    for (int q = 0; q < r.n; q++) {
        int copy = below(3) == 0 && q > 0 ? (int)below((uint32_t)q) : -1, lost = below(8) == 0;
        if (copy >= 0) r.finals = (r.finals & ~(1u << q)) | (r.finals >> copy & 1) << q;
        for (int s = 0; s < r.k; s++)
            if (copy >= 0)
                r.targets[16 * q + s] = r.targets[16 * copy + s];
            else if (lost)
                r.targets[16 * q + s] = 1u << q;
            else
                for (int arc = (int)below(3); arc > 0; arc--) r.targets[16 * q + s] |= 1u << below(r.n);
    }
    return r;
}

static uint32_t step(const bellbadger_checked_rule *r, uint32_t set, int symbol) {
    uint32_t next = 0;
    for (int q = 0; q < r->n; q++)
        if (set >> q & 1) next |= r->targets[16 * q + symbol];
    return next;
}

/* whether a rule accepts the symbols of a text whose mark is not 0, all of them where all marks are
 * 1 */
static int accepts(const bellbadger_checked_rule *r, const uint8_t *text, int length, unsigned marks) {
    uint32_t set = r->initials;
    for (int i = 0; i < length; i++)
        if (marks >> i & 1) set = step(r, set, text[i]);
    return (set & r->finals) != 0;
}

/* whether a text is one of those that the way says of two rules */
static int due_by(int way, const bellbadger_checked_rule *one, const bellbadger_checked_rule *two, const uint8_t *text, int length) {
    unsigned all = (1u << length) - 1;
    if (way == BELLBADGER_BOTH) return accepts(one, text, length, all) && accepts(two, text, length, all);
    if (way == BELLBADGER_EITHER) return accepts(one, text, length, all) || accepts(two, text, length, all);
    for (unsigned marks = 0; marks <= all; marks++)
        if (accepts(one, text, length, marks) && accepts(two, text, length, all & ~marks)) return 1;
    return 0;
}

/* the states that arcs lead to from a set, itself among them */
static uint32_t onward(const bellbadger_checked_rule *r, uint32_t set) {
    for (int round = 0; round < r->n; round++)
        for (int s = 0; s < r->k; s++) set |= step(r, set, s);
    return set;
}

/* Whether the states accept the same texts: by the pairs of sets that texts lead to from them. -1
 * where these are too many. */
static int alike(const bellbadger_checked_rule *r, int p, int q) {
    static uint32_t ones[MOST_PAIRS], twos[MOST_PAIRS];
    int found = 1;
    ones[0] = 1u << p, twos[0] = 1u << q;
    for (int at = 0; at < found; at++) {
        if (!(ones[at] & r->finals) != !(twos[at] & r->finals)) return 0;
        for (int s = 0; s < r->k; s++) {
            uint32_t one = step(r, ones[at], s), two = step(r, twos[at], s);
            int i = 0;
            while (i < found && !(ones[i] == one && twos[i] == two)) i++;
            if (i < found) continue;
            if (found == MOST_PAIRS) return -1;
            ones[found] = one, twos[found++] = two;
        }
    }
    return 1;
}

/* the states that stand for the members of a set, 32 being none */
static uint32_t all(const int *stands, uint32_t set) {
    uint32_t out = 0;
    for (int q = 0; q < 32; q++)
        if (set >> q & 1 && stands[q] < 32) out |= 1u << stands[q];
    return out;
}

/* The new numbers of the members of a set that stay. */
static uint32_t anew(uint32_t kept, uint32_t set) {
    uint32_t out = 0;
    for (int q = 0, number = 0; q < 32; q++)
        if (kept >> q & 1) out |= (set >> q & 1) << number++;
    return out;
}

/* How many reached states another stands for, and what each number of the reduced rule has to be,
 * in the words of bellbadger_reduce.h; -1 where that was too long to find. */
static int reduction(const bellbadger_checked_rule *r, bellbadger_checked_rule *due) {
    int stands[32], merged = 0;
    uint32_t reached = onward(r, r->initials), kept;
    for (int q = 0; q < 32; q++) stands[q] = 32;
    for (int q = 0; q < r->n; q++) {
        if (!(onward(r, 1u << q) & r->finals)) continue; /* dead */
        for (int p = 0; p < r->n && stands[q] == 32; p++) {
            int same = reached >> p & 1 ? alike(r, p, q) : 0;
            if (same < 0) return -1;
            if (same) stands[q] = p;
        }
        if (reached >> q & 1 && stands[q] != q) merged++;
    }
    bellbadger_checked_rule quotient = *r, out = {.n = 0, .k = r->k};
    quotient.initials = all(stands, r->initials);
    for (int c = 0; c < 512; c++) quotient.targets[c] = all(stands, r->targets[c]);
    kept = onward(&quotient, quotient.initials);
    out.initials = anew(kept, quotient.initials), out.finals = anew(kept, r->finals);
    for (int q = 0; q < r->n; q++) {
        if (!(kept >> q & 1)) continue;
        for (int s = 0; s < r->k; s++) out.targets[16 * out.n + s] = anew(kept, quotient.targets[16 * q + s]);
        out.n++;
    }
    if (out.n == 0) out.n = 1;
    *due = out;
    return merged;
}

#endif
