/* Two rules made one, from C: the result number by number, what it accepts, refusals in their order with
 * their zeros, and rules in which any numbers stand. Prints how many checks were made; stops at the first
 * that fails. */
#include "plain_rules.h"

enum { WAYS = 3, TEXT = 4 };

static bellbadger_checked_rule a, e; /* what ends in 0 1, and what has an even number of 0s */

static bellbadger_checked_rule merge(int way, bellbadger_checked_rule one, bellbadger_checked_rule two, int refused) {
    bellbadger_merge_result r = bellbadger_merge((uint8_t)way, one, two);
    CHECK(ANSWERED(r, refused));
    CHECK(r.accepted || zeros(&r.rule));
    return r.rule;
}

/* every number of the result, so that the header's struct is the library's */
static void worked(void) {
    static const uint32_t both[][2] = {{24, 1}, {0, 4}, {0, 0}, {3, 8}, {0, 32}, {0, 0}};
    static const uint32_t woven[][2] = {{11, 1}, {16, 6}, {32, 4}, {25, 8}, {2, 48}, {4, 32}};
    static const uint32_t either[][2] = {{2, 1}, {1, 2}, {12, 4}, {0, 16}, {0, 0}};
    bellbadger_checked_rule pairs = {.n = 6, .k = 2, .initials = 1, .finals = 4}, sum = {.n = 5, .k = 2, .initials = 5, .finals = 17};
    bellbadger_checked_rule r = merge(BELLBADGER_BOTH, e, a, 0);
    for (int q = 0; q < 6; q++) set(&pairs, q, both[q][0], both[q][1]);
    CHECK(equal(&r, &pairs));
    for (int q = 0; q < 6; q++) set(&pairs, q, woven[q][0], woven[q][1]);
    for (int way = 2; way < 256; way++) {
        r = merge(way, e, a, 0);
        CHECK(equal(&r, &pairs));
    }
    r = merge(BELLBADGER_EITHER, e, a, 0);
    for (int q = 0; q < 5; q++) set(&sum, q, either[q][0], either[q][1]);
    CHECK(equal(&r, &sum));
}

/* the first rule's number, the second's, 36, 37 */
static void refusals(void) {
    bellbadger_checked_rule mask = plain(2, 2), target = plain(2, 2), large = plain(32, 2);
    mask.finals = 4;
    target.targets[2] = 1;
    for (int way = 0; way < WAYS; way++) {
        merge(way, plain(33, 17), mask, 3);
        merge(way, plain(32, 17), plain(33, 2), 4);
        merge(way, mask, plain(0, 0), 6);
        merge(way, target, mask, 8);
        merge(way, large, plain(0, 1), 3);
        merge(way, large, plain(32, 0), 4);
        merge(way, plain(32, 1), mask, 6);
        merge(way, plain(32, 1), target, 8);
        merge(way, plain(32, 1), large, 36);
        merge(way, plain(1, 1), plain(1, 2), 36);
        merge(way, large, large, 37);
        merge(way, plain(16, 2), plain(17, 2), 37);
    }
    CHECK(merge(BELLBADGER_BOTH, plain(4, 1), plain(8, 1), 0).n == 32);
    merge(BELLBADGER_BOTH, plain(3, 1), plain(11, 1), 37);
    merge(BELLBADGER_INTERLEAVING, plain(16, 1), plain(16, 1), 37); /* 256 states, 0 in 8 bits */
    CHECK(merge(BELLBADGER_EITHER, plain(16, 16), plain(16, 16), 0).n == 32);
    merge(BELLBADGER_EITHER, plain(32, 1), plain(1, 1), 37);
}

static bellbadger_checked_rule small(void) {
    bellbadger_checked_rule r = plain(1 + (int)(random_number() % 4), 2);
    uint32_t states = (1u << r.n) - 1;
    r.initials = random_number() & states, r.finals = random_number() & states;
    for (int q = 0; q < r.n; q++) set(&r, q, random_number() & random_number() & states, random_number() & random_number() & states);
    return r;
}

/* what the judge says of every text of up to four symbols, with the result installed */
static void languages(int rounds) {
    for (int round = 0; round < rounds; round++) {
        bellbadger_checked_rule one = small(), two = small();
        for (int way = 0; way < WAYS; way++) {
            bellbadger_checked_rule r = merge(way, one, two, 0);
            bellbadger_judge j = bellbadger_new();
            install(&j, r, 0);
            for (unsigned word = 1; word < 2u << TEXT; word++) { /* its highest bit is no symbol */
                uint8_t text[TEXT + 1];
                int length = 0;
                for (unsigned rest = word; rest > 1; rest >>= 1) text[length++] = rest & 1;
                open(&j, 1, 0);
                deliver(&j, 0, 0, text, (size_t)length, 0);
                CHECK((bellbadger_verdict(j).kind == BELLBADGER_YES) == due_by(way, &one, &two, text, length));
            }
        }
    }
}

/* more than 512 sets in the result: that is for its installation to say */
static void many_sets(void) {
    bellbadger_judge j = bellbadger_new();
    install(&j, from_the_end(4, 0), 0);
    install(&j, from_the_end(5, 1), 0);
    install(&j, merge(BELLBADGER_BOTH, from_the_end(4, 0), from_the_end(5, 1), 0), 0);
    install(&j, merge(BELLBADGER_INTERLEAVING, from_the_end(4, 0), from_the_end(5, 1), 0), 9);
}

/* random numbers in every field, made more and more sensible: the number is what installing gives to
 * the first rule that is none */
static void garbage(int rounds) {
    static bellbadger_checked_rule r[2];
    for (int i = 0; i < rounds; i++) {
        int number[2];
        for (int x = 0; x < 2; x++) {
            uint8_t *bytes = (uint8_t *)&r[x];
            int sense = (int)(random_number() % 6);
            for (size_t b = 0; b < sizeof r[x]; b++) bytes[b] = (uint8_t)random_number();
            if (sense > 0) r[x].n = 1 + r[x].n % 8;
            if (sense > 1) r[x].k = 1 + r[x].k % 2;
            uint32_t states = r[x].n < 32 ? (1u << r[x].n) - 1 : 0xFFFFFFFF;
            if (sense > 2) r[x].initials &= states, r[x].finals &= states;
            for (int c = 0; sense > 3 && c < 512; c++) r[x].targets[c] = c / 16 < r[x].n && c % 16 < r[x].k ? r[x].targets[c] & states : 0;
            bellbadger_install_result l = bellbadger_install(bellbadger_new(), r[x]);
            number[x] = l.accepted || l.refused == 9 ? 0 : l.refused;
        }
        int way = i % WAYS, n = way == BELLBADGER_EITHER ? r[0].n + r[1].n : r[0].n * r[1].n;
        int last = r[0].k != r[1].k ? 36 : n > 32 ? 37 : 0;
        bellbadger_checked_rule merged = merge(way, r[0], r[1], number[0] ? number[0] : number[1] ? number[1] : last);
        if (!number[0] && !number[1] && !last) {
            bellbadger_install_result l = bellbadger_install(bellbadger_new(), merged);
            CHECK(merged.n == n && merged.k == r[0].k && (TAKEN(l) || REFUSED_WITH(l, 9)));
        }
    }
}

int main(int argc, char **argv) {
    int rounds = argc > 1 ? atoi(argv[1]) : 300;
    a = plain(3, 2), e = plain(2, 2);
    a.finals = 4;
    set(&a, 0, 3, 1), set(&a, 1, 0, 4);
    set(&e, 0, 2, 1), set(&e, 1, 1, 2);
    worked();
    refusals();
    many_sets();
    languages(rounds / 3);
    garbage(rounds);
    printf("C, two rules made one: %ld checks\n", checks);
    return 0;
}
