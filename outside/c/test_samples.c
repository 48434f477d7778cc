/* A sample trace of a rule, from C: texts worked by hand, the shortest by trying all texts in order, the
 * longest there can be, refusals in their order with their zeros, and rules in which any numbers stand.
 * Prints how many checks were made; stops at the first that fails. */
#pragma GCC diagnostic ignored "-Wunused-function" /* not all of checks.h is used */
#include "checks.h"

enum { TRIED = 8 }; /* a rule of up to three states reaches at most 8 sets, and its samples are shorter */

static bellbadger_checked_rule plain(int n, int k) {
    bellbadger_checked_rule r = {.n = (uint8_t)n, .k = (uint8_t)k, .initials = 1, .finals = 1};
    return r;
}

static void set(bellbadger_checked_rule *r, int state, uint32_t by_0, uint32_t by_1) {
    r->targets[16 * state] = by_0;
    r->targets[16 * state + 1] = by_1;
}

/* every byte behind the text is 0 */
static int zeros_from(const bellbadger_sample_result *r, int from) {
    for (int i = from; i < 511; i++)
        if (r->text[i]) return 0;
    return 1;
}

static void text(int wish, bellbadger_checked_rule rule, const uint8_t *due, int length) {
    bellbadger_sample_result r = bellbadger_sample((uint8_t)wish, rule);
    CHECK(r.kind == BELLBADGER_SAMPLE && r.refused == 0 && r.length == length);
    CHECK(!memcmp(r.text, due, (size_t)length) && zeros_from(&r, length));
}

static void none(int wish, bellbadger_checked_rule rule) {
    bellbadger_sample_result r = bellbadger_sample((uint8_t)wish, rule);
    CHECK(r.kind == BELLBADGER_NO_SAMPLE && r.refused == 0 && r.length == 0 && zeros_from(&r, 0));
}

static void refused(bellbadger_checked_rule rule, int number) {
    for (int wish = 0; wish < 2; wish++) {
        bellbadger_sample_result r = bellbadger_sample((uint8_t)wish, rule);
        CHECK(r.kind == BELLBADGER_REFUSED && r.refused == number && r.length == 0 && zeros_from(&r, 0));
    }
}

static void worked(void) {
    bellbadger_checked_rule a = plain(3, 2), every = plain(1, 2), dead = plain(2, 3);
    a.finals = 4;
    set(&a, 0, 3, 1), set(&a, 1, 0, 4); /* what ends in 0 1 */
    text(BELLBADGER_ACCEPTED_TEXT, a, (const uint8_t[]){0, 1}, 2);
    for (int wish = 1; wish < 256; wish++) text(wish, a, NULL, 0);
    set(&every, 0, 1, 1);
    text(BELLBADGER_ACCEPTED_TEXT, every, NULL, 0);
    none(BELLBADGER_REJECTED_TEXT, every);
    every.finals = 0;
    none(BELLBADGER_ACCEPTED_TEXT, every);
    text(BELLBADGER_REJECTED_TEXT, every, NULL, 0);
    every.finals = 1, every.initials = 0; /* the empty set is the only one */
    none(BELLBADGER_ACCEPTED_TEXT, every);
    text(BELLBADGER_REJECTED_TEXT, every, NULL, 0);
    dead.finals = 3;
    set(&dead, 0, 3, 2), set(&dead, 1, 3, 1);
    dead.targets[2] = 1; /* from {1} the symbol 2 leads to the empty set, and no other text is rejected sooner */
    text(BELLBADGER_REJECTED_TEXT, dead, (const uint8_t[]){1, 2}, 2);
}

/* the symbol 1 is the n-th from the end: texts lead to 2 ^ n sets from {0} */
static bellbadger_checked_rule from_the_end(int n, int k) {
    bellbadger_checked_rule r = plain(n + 1, k);
    r.finals = 1u << n;
    set(&r, 0, 1, 3);
    for (int q = 1; q < n; q++) set(&r, q, 2u << q, 2u << q);
    return r;
}

/* 512 sets; with a symbol more, which no arc has, the empty set is reached too */
static void many_sets(void) {
    text(BELLBADGER_ACCEPTED_TEXT, from_the_end(9, 2), (const uint8_t[]){1, 0, 0, 0, 0, 0, 0, 0, 0}, 9);
    text(BELLBADGER_REJECTED_TEXT, from_the_end(9, 2), NULL, 0);
    refused(from_the_end(9, 3), 35);
    refused(from_the_end(10, 2), 35);
}

/* cycles of 7, 8 and 9 states and a chain of 8 that ends: 512 sets in a row, of which the last alone
 * has no final state */
static void longest(void) {
    static const int size[] = {7, 8, 9, 8}, spared[] = {511 % 7, 511 % 8, 511 % 9, -1};
    static uint8_t due[511];
    bellbadger_checked_rule r = plain(32, 1);
    r.initials = r.finals = 0;
    for (int part = 0, at = 0; part < 4; at += size[part++]) {
        r.initials |= 1u << at;
        for (int i = 0; i < size[part]; i++) {
            int last = i + 1 == size[part];
            if (i != spared[part]) r.finals |= 1u << (at + i);
            if (part < 3 || !last) r.targets[16 * (at + i)] = 1u << (last ? at : at + i + 1);
        }
    }
    text(BELLBADGER_REJECTED_TEXT, r, due, 511);
    text(BELLBADGER_ACCEPTED_TEXT, r, due, 0);
}

/* 3, 4, 6, 8 as installing gives them, before 35 */
static void refusals(void) {
    bellbadger_checked_rule r = from_the_end(10, 2);
    r.targets[2] = 1;
    refused(r, 8);
    r.finals = 1u << 11;
    refused(r, 6);
    r.k = 17;
    refused(r, 4);
    r.n = 0;
    refused(r, 3);
}

static uint64_t seed = 88172645463325252u;
static uint32_t random_number(void) {
    seed ^= seed << 13;
    seed ^= seed >> 7;
    seed ^= seed << 17;
    return (uint32_t)(seed >> 32);
}

static int accepts(const bellbadger_checked_rule *r, const uint8_t *text, int length) {
    uint32_t set = r->initials;
    for (int i = 0; i < length; i++) {
        uint32_t next = 0;
        for (int q = 0; q < r->n; q++)
            if (set >> q & 1) next |= r->targets[16 * q + text[i]];
        set = next;
    }
    return (set & r->finals) != 0;
}

/* the next text as long, by symbols; 0 where it was the last */
static int next_text(uint8_t *text, int length, int k) {
    for (int i = length - 1; i >= 0; i--) {
        if (++text[i] < k) return 1;
        text[i] = 0;
    }
    return 0;
}

/* texts of the rule's symbols in their order, until one is as it is wished */
static void first_of_all(int wish, const bellbadger_checked_rule *r) {
    uint8_t tried[TRIED] = {0};
    for (int length = 0; length < TRIED; length++)
        do {
            if (accepts(r, tried, length) == (wish == BELLBADGER_ACCEPTED_TEXT)) {
                text(wish, *r, tried, length);
                return;
            }
        } while (next_text(tried, length, r->k));
    none(wish, *r);
}

static void small(int rounds) {
    for (int round = 0; round < rounds; round++) {
        bellbadger_checked_rule r = plain(1 + (int)(random_number() % 3), 1 + (int)(random_number() % 3));
        uint32_t states = (1u << r.n) - 1;
        r.initials = random_number() & states, r.finals = random_number() & states;
        for (int q = 0; q < r.n; q++)
            for (int s = 0; s < r.k; s++) r.targets[16 * q + s] = random_number() & (random_number() | random_number()) & states;
        first_of_all(BELLBADGER_ACCEPTED_TEXT, &r);
        first_of_all(BELLBADGER_REJECTED_TEXT, &r);
    }
}

/* random numbers in every field, made more and more sensible: the number is what installing gives, and
 * the judge says of a sample what was wished */
static void garbage(int rounds) {
    static bellbadger_checked_rule r;
    for (int i = 0; i < rounds; i++) {
        uint8_t *bytes = (uint8_t *)&r;
        int sense = (int)(random_number() % 6);
        for (size_t b = 0; b < sizeof r; b++) bytes[b] = (uint8_t)random_number();
        if (sense > 0) r.n = 1 + r.n % 8;
        if (sense > 1) r.k = 1 + r.k % 4;
        uint32_t states = r.n < 32 ? (1u << r.n) - 1 : 0xFFFFFFFF;
        if (sense > 2) r.initials &= states, r.finals &= states;
        for (int c = 0; sense > 3 && c < 512; c++)
            r.targets[c] = c / 16 < r.n && c % 16 < r.k ? r.targets[c] & random_number() & states : 0;
        bellbadger_install_result l = bellbadger_install(bellbadger_new(), r);
        if (!l.accepted) {
            refused(r, l.refused);
            continue;
        }
        for (int wish = 0; wish < 2; wish++) {
            bellbadger_sample_result s = bellbadger_sample((uint8_t)wish, r);
            CHECK(s.kind == BELLBADGER_SAMPLE || s.kind == BELLBADGER_NO_SAMPLE);
            if (s.kind == BELLBADGER_NO_SAMPLE) continue;
            bellbadger_judge j = l.judge;
            open(&j, 1, 0);
            deliver(&j, 0, 0, s.text, s.length, 0);
            CHECK(bellbadger_verdict(j).kind == (wish == BELLBADGER_ACCEPTED_TEXT ? BELLBADGER_YES : BELLBADGER_NO));
        }
    }
}

int main(int argc, char **argv) {
    int rounds = argc > 1 ? atoi(argv[1]) : 300;
    worked();
    many_sets();
    longest();
    refusals();
    small(10 * rounds);
    garbage(rounds);
    printf("C, a sample trace: %ld checks\n", checks);
    return 0;
}
