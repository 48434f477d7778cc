/* The mapping machine from C, on a thread with the stack that the header says is enough: a profile field
 * by field, refusals, composition, the verdict beside that of a filled board on random rules and cuts, and
 * profiles that no build returned. Prints how many checks were made; stops at the first that fails. */
#define _POSIX_C_SOURCE 200809L
#include <pthread.h>

#include "checks.h"

enum { STACK = 512 * 1024, MOST = 12 };

static const uint8_t rule_a[] = {
    0x03, 0x02, 0x01, 0x00, 0x00, 0x00, 0x04, 0x00, 0x00, 0x00, 0x16, 0x00, 0x06, 0x00, 0x1C,
    0x00, 0x02, 0x00, 0x1E, 0x00, 0x00, 0x00, 0x00, 0x00, 0x00, 0x01, 0x01, 0x00, 0x01, 0x02,
};

static uint64_t seed = 88172645463325252u;

static uint64_t random_number(void) {
    seed ^= seed << 13;
    seed ^= seed >> 7;
    return seed ^= seed << 17;
}

static int same_mapping(bellbadger_mapping f, bellbadger_mapping g) { return !memcmp(f.masks, g.masks, sizeof f.masks); }

static bellbadger_mapping of(uint8_t first, uint8_t second, uint8_t third) { return (bellbadger_mapping){{first, second, third}}; }

static bellbadger_mapping any_mapping(void) {
    bellbadger_mapping f;
    for (int q = 0; q < 8; q++) f.masks[q] = (uint8_t)(random_number() >> 32);
    return f;
}

static bellbadger_profile build(bellbadger_checked_rule rule, int refused) {
    bellbadger_profile_build_result b = bellbadger_profile_build(rule);
    CHECK(ANSWERED(b, refused));
    if (refused) {
        for (int i = 0; i < 512; i++) CHECK(b.profile.mappings[i] == 0);
        for (int c = 0; c < 8192; c++) CHECK(b.profile.next[c] == 0);
        CHECK(!b.profile.n && !b.profile.k && !b.profile.initials && !b.profile.finals && !b.profile.count);
    }
    return b.profile;
}

static bellbadger_mapping run(const bellbadger_profile *p, const uint8_t *chunk, size_t length, int refused) {
    bellbadger_profile_run_result r = bellbadger_profile_run(*p, chunk, length);
    CHECK(ANSWERED(r, refused));
    CHECK(!refused || same_mapping(r.mapping, of(0, 0, 0)));
    return r.mapping;
}

/* every field of rule A's profile, so that the header's structs are the library's */
static void layout(void) {
    static const uint64_t mappings[] = {0x040201, 0x000003, 0x000401, 0x000005, 0x000001};
    static const uint16_t next[][2] = {{1, 2}, {1, 3}, {1, 4}, {1, 4}, {1, 4}};
    bellbadger_profile p = build(read_file(rule_a, sizeof rule_a, 0), 0);
    CHECK(bellbadger_profile_size() == sizeof p);
    CHECK(p.n == 3 && p.k == 2 && p.initials == 1 && p.finals == 4 && p.count == 5);
    for (int i = 0; i < 512; i++) CHECK(p.mappings[i] == (i < 5 ? mappings[i] : 0));
    for (int c = 0; c < 8192; c++) CHECK(p.next[c] == (c / 16 < 5 && c % 16 < 2 ? next[c / 16][c % 16] : 0));
}

/* rule A: texts that end in 0 1 */
static void chunks(void) {
    static const uint8_t text[] = {0, 255, 1}, two[] = {2}, marks[] = {255, 254};
    static uint8_t big[65537];
    bellbadger_profile p = build(read_file(rule_a, sizeof rule_a, 0), 0);
    bellbadger_mapping zero = run(&p, text, 1, 0), one = run(&p, text + 2, 1, 0), both = run(&p, text, 3, 0);
    CHECK(same_mapping(run(&p, NULL, 0, 0), of(1, 2, 4)) && same_mapping(run(&p, text + 1, 1, 0), of(1, 2, 4)));
    CHECK(same_mapping(zero, of(3, 0, 0)) && same_mapping(one, of(1, 4, 0)) && same_mapping(both, of(5, 0, 0)));
    CHECK(same_mapping(bellbadger_compose(zero, one), both) && same_mapping(bellbadger_compose(one, zero), of(3, 0, 0)));
    CHECK(bellbadger_profile_verdict(p, both) == 1 && bellbadger_profile_verdict(p, zero) == 0);
    CHECK(bellbadger_profile_verdict(p, of(0, 4, 4)) == 0); /* from states that are not initial */
    CHECK(bellbadger_profile_verdict(p, of(0xF8, 0xFF, 0xFF)) == 0);
    run(&p, two, 1, 13);
    run(&p, marks, 2, 13);
    run(&p, big, 65537, 12);
    CHECK(same_mapping(run(&p, big, 65536, 0), of(3, 0, 0)));
    memset(big, 255, sizeof big);
    CHECK(same_mapping(run(&p, big, 65536, 0), of(1, 2, 4)));
    run(&p, big, 65537, 12);
}

/* 3, 4, 6, 8, then 33, then 34 */
static void refusals(void) {
    bellbadger_checked_rule a = read_file(rule_a, sizeof rule_a, 0), r;
    r = a, r.n = 33, r.k = 0, build(r, 3);
    r = a, r.k = 17, r.finals = 8, build(r, 4);
    r = a, r.initials = 8, build(r, 6);
    r = a, r.targets[2] = 1, build(r, 8);
    r = a, r.n = 9, r.targets[0] = 1 << 9, build(r, 8);
    r = a, r.n = 9, build(r, 33);
    r = a, r.n = 8, build(r, 0);
    /* each symbol leads each state to itself, and one of the first three to one of the next three too: nine
     * symbols, 512 mappings; a tenth that leads nowhere, 513; a ninth state, 33 */
    memset(&r, 0, sizeof r);
    r.n = 8, r.k = 9;
    for (int q = 0; q < 8; q++)
        for (int s = 0; s < 9; s++) r.targets[16 * q + s] = 1u << q | (s / 3 == q ? 8u << s % 3 : 0);
    CHECK(build(r, 0).count == 512);
    r.k = 10, build(r, 34);
    r.n = 9, build(r, 33);
    r.targets[0] = 1 << 9, build(r, 8);
}

/* any values: brackets do not matter, and the identity of eight states changes nothing */
static void composition(void) {
    const bellbadger_mapping same = {{1, 2, 4, 8, 16, 32, 64, 128}};
    for (int i = 0; i < 20000; i++) {
        bellbadger_mapping f = any_mapping(), g = any_mapping(), h = any_mapping(), fg = bellbadger_compose(f, g);
        CHECK(same_mapping(bellbadger_compose(fg, h), bellbadger_compose(f, bellbadger_compose(g, h))));
        CHECK(same_mapping(bellbadger_compose(f, same), f) && same_mapping(bellbadger_compose(same, f), f));
        for (int q = 0; q < 8; q++) {
            uint8_t due = 0;
            for (int r = 0; r < 8; r++) due |= f.masks[q] >> r & 1 ? g.masks[r] : 0;
            CHECK(fg.masks[q] == due);
        }
    }
}

static bellbadger_checked_rule any_rule(void) {
    bellbadger_checked_rule r;
    memset(&r, 0, sizeof r);
    r.n = 1 + random_number() % 5, r.k = 1 + random_number() % 2;
    uint32_t states = (1u << r.n) - 1;
    r.initials = (uint32_t)random_number() & states, r.finals = (uint32_t)random_number() & states;
    for (int q = 0; q < r.n; q++)
        for (int s = 0; s < r.k; s++) r.targets[16 * q + s] = (uint32_t)(random_number() & random_number()) & states;
    return r;
}

/* the mappings composed two at a time, anywhere, until one is left */
static bellbadger_mapping in_any_bracketing(bellbadger_mapping *fs, int count) {
    while (count > 1) {
        int at = (int)(random_number() % (uint64_t)(count - 1));
        fs[at] = bellbadger_compose(fs[at], fs[at + 1]);
        memmove(fs + at + 1, fs + at + 2, sizeof *fs * (size_t)(count - at - 2));
        count--;
    }
    return fs[0];
}

/* the same yes or no as a filled board with the same chunks */
static void as_a_board(int rules) {
    int accepted = 0, said[2] = {0, 0};
    for (int i = 0; i < rules; i++) {
        bellbadger_checked_rule r = any_rule();
        bellbadger_profile_build_result b = bellbadger_profile_build(r);
        CHECK(TAKEN(b) || (REFUSED_WITH(b, 34) && b.profile.count == 0));
        if (!b.accepted) continue;
        accepted++;
        int places = 1 + (int)(random_number() % MOST);
        bellbadger_judge j = bellbadger_new();
        bellbadger_mapping fs[MOST];
        install(&j, r, 0);
        open(&j, (size_t)places, 0);
        for (int place = 0; place < places; place++) {
            uint8_t chunk[4];
            size_t length = random_number() % 4;
            for (size_t c = 0; c < length; c++) chunk[c] = random_number() % 6 ? (uint8_t)(random_number() % r.k) : 255;
            deliver(&j, (size_t)place, 0, chunk, length, 0);
            fs[place] = run(&b.profile, chunk, length, 0);
            for (int q = 0; q < 8; q++) CHECK(!(fs[place].masks[q] >> r.n) && (q < r.n || !fs[place].masks[q]));
        }
        int yes = bellbadger_profile_verdict(b.profile, in_any_bracketing(fs, places));
        CHECK(yes == (bellbadger_verdict(j).kind == BELLBADGER_YES) && !yes == (bellbadger_verdict(j).kind == BELLBADGER_NO));
        said[yes]++;
    }
    CHECK(accepted > rules / 2 && said[0] > accepted / 10 && said[1] > accepted / 10);
}

/* random numbers in every field: the functions end, and refuse by length and k alone */
static void garbage(int profiles) {
    static bellbadger_profile p;
    static uint8_t chunk[300];
    for (int i = 0; i < profiles; i++) {
        uint8_t *bytes = (uint8_t *)&p;
        for (size_t b = 0; b < sizeof p; b++) bytes[b] = (uint8_t)(random_number() >> 32);
        int foreign = 0;
        for (size_t b = 0; b < sizeof chunk; b++) {
            chunk[b] = (uint8_t)(random_number() >> 32) % (i % 3 ? 2 : 255);
            foreign |= chunk[b] >= p.k;
        }
        run(&p, chunk, sizeof chunk, foreign ? 13 : 0);
        CHECK(bellbadger_profile_verdict(p, any_mapping()) <= 1);
    }
}

static void *all(void *rules) {
    layout();
    chunks();
    refusals();
    composition();
    as_a_board(*(int *)rules);
    garbage(*(int *)rules);
    return NULL;
}

int main(int argc, char **argv) {
    int rules = argc > 1 ? atoi(argv[1]) : 2000;
    pthread_attr_t small;
    pthread_t thread;
    CHECK(!pthread_attr_init(&small) && !pthread_attr_setstacksize(&small, STACK));
    CHECK(!pthread_create(&thread, &small, all, &rules) && !pthread_join(thread, NULL));
    printf("mappings: %ld checks on a stack of %d KB\n", checks, STACK / 1024);
    return 0;
}
