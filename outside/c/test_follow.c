/* Following a trace from C: chunks worked by hand, refusals in their order with their zeros, random rules and
 * chunks against single runs searched forward and against a filled board with the same chunks, each chunk by the
 * rule and by its follower, long chunks of rules with up to 32 states, whole and cut, and followers in which any
 * numbers stand.
 * Prints how many checks were made; stops at the first that fails. */
#pragma GCC diagnostic ignored "-Wunused-function" /* not all of checks.h is used */
#include "checks.h"

enum { RULES = 3000, CHUNKS = 4, MOST = 8, LONG_RULES = 150, LONG = 6000 };

static uint64_t state = 88172645463325252u;

static uint32_t any(void) {
    state ^= state << 13, state ^= state >> 7, state ^= state << 17;
    return (uint32_t)(state >> 16);
}

/* a final state can be reached from state q by states that were not seen */
static int reaches(const bellbadger_checked_rule *r, int q, uint32_t seen) {
    if (r->finals >> q & 1) return 1;
    seen |= 1u << q;
    for (int s = 0; s < r->k; s++)
        for (int p = 0; p < r->n; p++)
            if (r->targets[16 * q + s] >> p & 1 && !(seen >> p & 1) && reaches(r, p, seen)) return 1;
    return 0;
}

static int hope(const bellbadger_checked_rule *r, uint32_t set) {
    for (int q = 0; q < r->n; q++)
        if (set >> q & 1 && reaches(r, q, 0)) return 1;
    return 0;
}

static uint32_t step(const bellbadger_checked_rule *r, uint32_t set, int s) {
    uint32_t out = 0;
    for (int q = 0; q < r->n; q++)
        if (set >> q & 1) out |= r->targets[16 * q + s];
    return out;
}

static int same_rule(bellbadger_checked_rule a, bellbadger_checked_rule b) {
    return a.n == b.n && a.k == b.k && a.initials == b.initials && a.finals == b.finals && memcmp(a.targets, b.targets, sizeof a.targets) == 0;
}

/* the states from which a final state can be reached: one arc more in each of 32 rounds */
static uint32_t leading_on(const bellbadger_checked_rule *r) {
    uint32_t live = r->finals;
    for (int round = 0; round < 32; round++)
        for (int c = 0; c < 16 * r->n; c++)
            if (r->targets[c] & live) live |= 1u << c / 16;
    return live;
}

static bellbadger_follow_result both(bellbadger_checked_rule r, uint32_t from, const uint8_t *chunk, size_t length) {
    bellbadger_follow_result f = bellbadger_follow(r, from, chunk, length), g;
    bellbadger_follower_result p = bellbadger_follower_prepare(r);
    if (!p.accepted) {
        static const bellbadger_checked_rule zeros;
        CHECK(TOLD(p) && f.refused == p.refused && same_rule(p.follower.rule, zeros) && p.follower.live == 0);
        return f;
    }
    CHECK(TAKEN(p) && same_rule(p.follower.rule, r) && p.follower.live == leading_on(&r));
    g = bellbadger_follow_by(p.follower, from, chunk, length);
    CHECK(f.accepted == g.accepted && f.refused == g.refused && f.ends == g.ends && f.lost == g.lost && f.at == g.at && f.set == g.set &&
          f.expected == g.expected && f.complete == g.complete);
    return f;
}

static void due(bellbadger_checked_rule r, uint32_t from, const uint8_t *chunk, size_t length, uint8_t ends, uint8_t lost, uint32_t at, uint32_t set, uint16_t expected, uint8_t complete) {
    bellbadger_follow_result f = both(r, from, chunk, length);
    CHECK(TAKEN(f) && f.ends == ends && f.lost == lost && f.at == at && f.set == set && f.expected == expected && f.complete == complete);
    CHECK(bellbadger_is_accepted_so_far(f) == (ends == 1));
}

static void refused(bellbadger_checked_rule r, const uint8_t *chunk, size_t length, uint8_t number) {
    bellbadger_follow_result f = both(r, 1, chunk, length);
    CHECK(REFUSED_WITH(f, number) && f.ends == 0 && f.lost == 0 && f.at == 0 && f.set == 0 && f.expected == 0 && f.complete == 0);
    f.ends = 1; /* as nothing that the library answers has it */
    CHECK(!bellbadger_is_accepted_so_far(f));
}

static void worked(void) {
    static uint8_t most[65537];
    bellbadger_checked_rule a = {.n = 3, .k = 2, .initials = 1, .finals = 4}, once = a, bad;
    CHECK(sizeof(bellbadger_follower) == bellbadger_follower_size());
    a.targets[0] = 3, a.targets[1] = 1, a.targets[17] = 4; /* what ends in 0 1 */
    once.targets[0] = 2, once.targets[17] = 4;             /* 0 1 and no other */
    due(a, 1, (const uint8_t[]){0, 1}, 2, 1, 0, 0, 5, 3, 1);
    due(a, 1, most, 65536, 0, 0, 0, 3, 3, 0);
    due(once, 1, (const uint8_t[]){255, 0, 255, 0, 1}, 5, 0, 1, 4, 0, 2, 0);
    due(once, 1, (const uint8_t[]){0, 1, 1}, 3, 0, 1, 3, 0, 0, 1);
    due(once, 1, NULL, 0, 0, 0, 0, 1, 1, 0);
    due(once, 0, NULL, 0, 0, 1, 0, 0, 0, 0);
    due(once, 0xfffffff8u, (const uint8_t[]){0}, 1, 0, 1, 0, 0, 0, 0); /* bits for no state */
    refused(a, most, 65537, 12);
    refused(a, (const uint8_t[]){2}, 1, 13);
    refused(a, (const uint8_t[]){254}, 1, 13);
    bad = a, bad.n = 0, refused(bad, most, 65537, 3);
    bad = a, bad.k = 17, refused(bad, most, 65537, 4);
    bad = a, bad.finals = 8, refused(bad, most, 65537, 6);
    bad = a, bad.targets[2] = 1, refused(bad, most, 65537, 8);
}

static bellbadger_checked_rule any_rule(void) {
    bellbadger_checked_rule r = {.n = (uint8_t)(1 + any() % 6), .k = (uint8_t)(1 + any() % 4)};
    uint32_t all = (1u << r.n) - 1, thin = any() % 4;
    r.initials = any() & all, r.finals = any() & any() & all;
    for (int q = 0; q < r.n; q++)
        for (int s = 0; s < r.k; s++) {
            r.targets[16 * q + s] = any() & all;
            for (uint32_t i = 0; i < thin; i++) r.targets[16 * q + s] &= any();
        }
    return r;
}

static void followed(bellbadger_checked_rule r) {
    static bellbadger_judge judge;
    uint32_t set = r.initials;
    int gone = 0, yes = 0;
    judge = bellbadger_install(bellbadger_new(), r).judge;
    judge = bellbadger_open(judge, CHUNKS).judge;
    for (int c = 0; c < CHUNKS; c++) {
        uint8_t chunk[MOST];
        size_t length = any() % (MOST + 1);
        for (size_t i = 0; i < length; i++) chunk[i] = (uint8_t)(any() % 4 ? any() % r.k : 255);
        uint32_t now = set, before = set, at = 0;
        int lost = !hope(&r, now);
        for (size_t i = 0; i < length; i++) {
            uint32_t then = now;
            if (chunk[i] != 255) now = step(&r, now, chunk[i]);
            if (!lost && !hope(&r, now)) lost = 1, at = (uint32_t)i + 1, before = then;
        }
        if (!lost) before = now;
        uint16_t expected = 0;
        for (int s = 0; s < r.k; s++)
            if (hope(&r, step(&r, before, s))) expected |= (uint16_t)(1u << s);
        yes = (now & r.finals) != 0;
        uint8_t complete = (before & r.finals) != 0;
        due(r, set, chunk, length, (uint8_t)yes, (uint8_t)lost, at, now, expected, complete);
        CHECK(lost || complete == yes);
        if (lost && at == 0) CHECK(!complete);
        if (gone) CHECK(lost && at == 0 && expected == 0 && !yes);
        gone = lost, set = now;
        judge = bellbadger_deliver(judge, (size_t)c, 0, chunk, length).judge;
    }
    CHECK(bellbadger_verdict(judge).kind == (yes ? BELLBADGER_YES : BELLBADGER_NO));
}

/* many sets and long chunks: what is remembered of one set is not taken for another's */
static void long_chunk(void) {
    static uint8_t chunk[LONG];
    bellbadger_checked_rule r = {.n = (uint8_t)(1 + any() % 32), .k = (uint8_t)(1 + any() % 16)};
    uint32_t all = r.n == 32 ? ~0u : (1u << r.n) - 1, live, now, before, at = 0, arcs = 1 + any() % 3;
    r.initials = any() & all, r.finals = any() & all;
    for (int q = 0; q < r.n; q++)
        for (int s = 0; s < r.k; s++)
            for (uint32_t i = 0; i < arcs; i++)
                if (any() % 8) r.targets[16 * q + s] |= 1u << any() % r.n;
    live = leading_on(&r);
    for (size_t i = 0; i < LONG; i++) chunk[i] = (uint8_t)(any() % 9 ? any() % r.k : 255);
    now = before = r.initials;
    int lost = !(now & live);
    for (size_t i = 0; i < LONG; i++) {
        uint32_t then = now;
        if (chunk[i] != 255) now = step(&r, now, chunk[i]);
        if (!lost && !(now & live)) lost = 1, at = (uint32_t)i + 1, before = then;
    }
    if (!lost) before = now;
    uint16_t expected = 0;
    for (int s = 0; s < r.k; s++)
        if (step(&r, before, s) & live) expected |= (uint16_t)(1u << s);
    due(r, r.initials, chunk, LONG, (now & r.finals) != 0, (uint8_t)lost, at, now, expected, (before & r.finals) != 0);
    uint32_t set = r.initials;
    for (size_t i = 0, size; i < LONG; i += size) {
        size = any() % 700 + 1;
        if (LONG - i < size) size = LONG - i;
        set = bellbadger_follow(r, set, chunk + i, size).set;
    }
    CHECK(set == now);
}

/* the call ends, within its bounds, and refuses as k says, whatever the follower has */
static void any_numbers(void) {
    static uint8_t chunk[4096];
    bellbadger_follower f;
    for (size_t i = 0; i < sizeof f; i++) ((uint8_t *)&f)[i] = (uint8_t)any();
    for (size_t i = 0; i < sizeof chunk; i++) chunk[i] = (uint8_t)(any() % 3 ? any() % 16 : any());
    int stray = 0;
    for (size_t i = 0; i < sizeof chunk; i++) stray |= chunk[i] >= f.rule.k && chunk[i] != 255;
    bellbadger_follow_result r = bellbadger_follow_by(f, any(), chunk, sizeof chunk);
    CHECK(ANSWERED(r, stray ? 13 : 0));
    f.rule.k = 255;
    r = bellbadger_follow_by(f, any(), chunk, sizeof chunk);
    CHECK(TAKEN(r) && r.at <= sizeof chunk);
}

int main(void) {
    worked();
    for (int i = 0; i < LONG_RULES; i++) long_chunk();
    for (int i = 0; i < 300; i++) any_numbers();
    for (int i = 0; i < RULES; i++) followed(any_rule());
    printf("follow: %ld checks\n", checks);
    return 0;
}
