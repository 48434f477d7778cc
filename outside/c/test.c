/* The library's calls from C, all on a thread with the stack that the header says is enough: the
 * struct field by field, answers and refusals, and states that no list of calls leaves. Prints how
 * many checks were made; stops at the first that fails. */
#define _POSIX_C_SOURCE 200809L
#include <pthread.h>

#include "checks.h"

enum { STACK = 512 * 1024 };

static const uint8_t rule_a[] = {
    0x03, 0x02, 0x01, 0x00, 0x00, 0x00, 0x04, 0x00, 0x00, 0x00, 0x16, 0x00, 0x06, 0x00, 0x1C,
    0x00, 0x02, 0x00, 0x1E, 0x00, 0x00, 0x00, 0x00, 0x00, 0x00, 0x01, 0x01, 0x00, 0x01, 0x02,
};

static uint8_t big[65537];

/* the library is the one that the header describes */
static void built_with(void) {
    CHECK(bellbadger_version() == BELLBADGER_VERSION);
    CHECK(bellbadger_version() >> 16 == BELLBADGER_VERSION_MAJOR && (bellbadger_version() & 65535) == BELLBADGER_VERSION_MINOR);
    CHECK(bellbadger_state_size() == sizeof(bellbadger_judge));
}

/* every field of rule A as it was built, so that the header's struct is the library's */
static void layout(const bellbadger_judge *j) {
    static const uint32_t sets[] = {1, 3, 5, 2, 4};
    static const uint16_t next[][2] = {{1, 0}, {1, 2}, {1, 0}, {512, 4}, {512, 512}}, singles[] = {0, 3, 4};
    const bellbadger_built_rule *r = &j->rule;
    CHECK(r->n == 3 && r->k == 2 && r->starts == 3 && r->count == 5 && r->initials == 1 && r->finals == 4);
    for (int q = 0; q < 32; q++) CHECK(r->delegates[q] == (q < 3 ? q : 0) && (q >= 3 || r->singles[q] == singles[q]));
    for (int s = 0; s < 512; s++) CHECK(r->sets[s] == (s < 5 ? sets[s] : 0));
    for (int s = 0; s < 5; s++) CHECK(r->next[16 * s] == next[s][0] && r->next[16 * s + 1] == next[s][1]);
    CHECK(r->next[8191] == 512 && j->board.places == 0);
}

static void calls(void) {
    static const uint8_t zero[] = {0}, one[] = {1}, two[] = {2};
    bellbadger_judge j = bellbadger_new();
    verdict(&j, BELLBADGER_REFUSED, 21, 0);
    open(&j, 1, 20);
    deliver(&j, 0, 0, zero, 1, 21);
    withdraw(&j, 0, 21);
    load(&j, rule_a, 9, 1);
    load(&j, big, sizeof big, 2);
    load(&j, rule_a, 29, 7);
    load(&j, rule_a, sizeof rule_a, 0);
    layout(&j);
    open(&j, 0, 10);
    open(&j, 65, 10);
    open(&j, SIZE_MAX, 10);
    open(&j, 2, 0);
    verdict(&j, BELLBADGER_WAITING, 2, 0);
    deliver(&j, 2, 0, zero, 1, 11);
    deliver(&j, SIZE_MAX, 0, zero, 1, 11);
    deliver(&j, 0, 0, big, 65537, 12);
    deliver(&j, 0, 0, two, 1, 13);
    looked(&j, 1, 0, one, 1, 1);
    deliver(&j, 1, 0, one, 1, 22);
    withdraw(&j, 0, 23);
    looked(&j, 0, 0, zero, 1, 1);
    verdict(&j, BELLBADGER_YES, 3, 2);
    CHECK(j.board.places == 2 && j.board.filled[0] && j.board.filled[1] && !j.board.filled[2]);
    CHECK(j.board.counts[0] == 1 && j.board.counts[1] == 2 && j.board.counts[2] == 0);
    CHECK(j.board.lengths[0] == 1 && j.board.lengths[1] == 1 && j.board.lengths[2] == 0);
    CHECK(j.board.ends[0] == 3 && j.board.ends[1] == 0 && j.board.ends[32] == 1 && j.board.ends[33] == 4 && j.board.ends[34] == 0);
    withdraw(&j, 0, 0);
    deliver(&j, 0, 0, NULL, 0, 22);
    looked(&j, 0, 1, NULL, 0, 0);
    verdict(&j, BELLBADGER_NO, 2, 1);
    withdraw(&j, 0, 0);
    CHECK(j.board.lengths[0] == 0 && j.board.lengths[1] == 1);
    looked(&j, 0, 2, big, 65536, 65536);
    verdict(&j, BELLBADGER_NO, 65538, 65537);
    load(&j, rule_a, 9, 1);
    verdict(&j, BELLBADGER_NO, 65538, 65537);
    load(&j, rule_a, sizeof rule_a, 0);
    verdict(&j, BELLBADGER_REFUSED, 21, 0);
}

/* the fields of a checked rule: a file read, and the same rule installed */
static void reading(void) {
    bellbadger_checked_rule r = read_file(rule_a, sizeof rule_a, 0);
    CHECK(r.n == 3 && r.k == 2 && r.initials == 1 && r.finals == 4);
    for (int c = 0; c < 512; c++) CHECK(r.targets[c] == (c == 0 ? 3 : c == 1 ? 1 : c == 17 ? 4 : 0));
    for (size_t length = 0; length < sizeof rule_a; length++) read_file(rule_a, length, length < 10 ? 1 : length < 22 ? 5 : 7);
    bellbadger_judge loaded = bellbadger_new(), installed = bellbadger_new();
    load(&loaded, rule_a, sizeof rule_a, 0);
    install(&installed, r, 0);
    layout(&installed);
    CHECK(same(&loaded, &installed));
    bellbadger_install_result told = bellbadger_install(bellbadger_new(), r);
    CHECK(TAKEN(told) && told.sets == 5 && told.starts == 3);
}

/* a value that is refused leaves the rule and the board as they are */
static void installing(void) {
    const uint8_t text[] = {0, 1};
    bellbadger_checked_rule a = read_file(rule_a, sizeof rule_a, 0), r = a;
    bellbadger_judge j = bellbadger_new();
    r.k = 0;
    install(&j, r, 4);
    open(&j, 1, 20);
    install(&j, a, 0);
    open(&j, 1, 0);
    looked(&j, 0, 0, text, sizeof text, 2);
    verdict(&j, BELLBADGER_YES, 2, 2);
    static const uint8_t bad_n[] = {0, 33, 40, 255}, bad_k[] = {0, 17, 255};
    for (size_t i = 0; i < sizeof bad_n; i++) r = a, r.n = bad_n[i], r.k = 0, install(&j, r, 3);
    for (size_t i = 0; i < sizeof bad_k; i++) r = a, r.k = bad_k[i], r.finals = 8, install(&j, r, 4);
    r = a, r.initials = 8, install(&j, r, 6);
    r = a, r.finals = 0x80000000, install(&j, r, 6);
    r = a, r.targets[0] = 8, install(&j, r, 8);          /* a target that does not exist */
    r = a, r.targets[2 * 16 + 1] = 8, install(&j, r, 8);
    r = a, r.targets[2] = 1, install(&j, r, 8);          /* a symbol that does not exist */
    r = a, r.targets[3 * 16] = 1, install(&j, r, 8);     /* a state that does not exist */
    r = a, r.targets[511] = 1, install(&j, r, 8);
    /* the tenth symbol from the end is 1: more than 512 sets */
    memset(&r, 0, sizeof r);
    r.n = 11, r.k = 2, r.initials = 1, r.finals = 1 << 10, r.targets[0] = 1, r.targets[1] = 3;
    for (int q = 1; q < 10; q++) r.targets[16 * q] = r.targets[16 * q + 1] = 1u << (q + 1);
    install(&j, r, 9);
    verdict(&j, BELLBADGER_YES, 2, 2);
    /* 32 states and 16 symbols: nothing is outside */
    memset(r.targets, 255, sizeof r.targets);
    r.n = 32, r.k = 16, r.initials = r.finals = 0xFFFFFFFF;
    install(&j, r, 0);
    CHECK(j.rule.count == 33 && j.rule.starts == 1);
    verdict(&j, BELLBADGER_REFUSED, 21, 0);
    r.k = 15;
    install(&j, r, 8);
    r.n = 31;
    install(&j, r, 6);
}

/* two states that lead nowhere by symbol 1: the runs die at their first 1, which is looked up */
static void dying(void) {
    static const uint8_t rule[] = {2, 2, 1, 0, 0, 0, 1, 0, 0, 0, 18, 0, 2, 0, 20, 0, 2, 0, 0, 1, 0, 0};
    static const uint8_t chunk[] = {0, 0, 1, 0, 0}, bad[] = {1, 0, 2};
    bellbadger_judge j = bellbadger_new();
    load(&j, rule, sizeof rule, 0);
    open(&j, 3, 0);
    looked(&j, 0, 0, chunk, sizeof chunk, 3);
    looked(&j, 1, 0, chunk + 2, 1, 1);
    deliver(&j, 2, 0, bad, sizeof bad, 13);
    looked(&j, 2, 0, big + 1, 65535, 1);
    verdict(&j, BELLBADGER_NO, 2, 65541);
}

/* by 0 from 0 to 1, which is final and has no arcs; by 1 from 0 to 2; 2 and 3 lead only to each other */
static const uint8_t astray[] = {
    4, 2, 1, 0, 0, 0, 2, 0, 0, 0, 26, 0, 4, 0, 30, 0, 0, 0, 30, 0, 4, 0, 34, 0, 2, 0, 0, 1, 1, 2, 0, 3, 1, 2, 0, 2,
};

/* states from which no final state can be reached have no delegate and are no starts; the first place
 * is not run from them, and the join passes over them */
static void leading_nowhere(void) {
    static const uint8_t to_2[] = {1, 1}, chunk[] = {0, 1};
    bellbadger_judge j = bellbadger_new();
    load(&j, astray, sizeof astray, 0);
    CHECK(j.rule.starts == 2 && j.rule.count == 4);
    for (int q = 0; q < 32; q++) CHECK(j.rule.delegates[q] == (q < 2 ? q : q < 4 ? BELLBADGER_NO_DELEGATE : 0));
    for (int q = 0; q < 4; q++) CHECK(j.rule.singles[q] == q);
    open(&j, 2, 0);
    looked(&j, 0, 0, to_2, sizeof to_2, 2);
    looked(&j, 1, 0, chunk, 1, 1);
    CHECK(j.board.ends[0] == 4 && j.board.ends[1] == 0 && j.board.ends[32] == 2);
    for (int q = 1; q < 32; q++) CHECK(j.board.ends[32 + q] == 0);
    verdict(&j, BELLBADGER_NO, 3, 3);
    withdraw(&j, 0, 0);
    deliver(&j, 0, 0, NULL, 0, 22);
    looked(&j, 0, 1, NULL, 0, 0);
    verdict(&j, BELLBADGER_YES, 1, 1);
    /* an initial state among them, alone */
    bellbadger_checked_rule r = read_file(astray, sizeof astray, 0);
    r.initials = 4;
    install(&j, r, 0);
    open(&j, 1, 0);
    looked(&j, 0, 0, chunk, sizeof chunk, 0);
    verdict(&j, BELLBADGER_NO, 0, 2);
}

/* no final state: no start, nothing is run, and the verdict is no; a foreign byte is one all the same */
static void no_final_state(void) {
    static const uint8_t bad[] = {0, 2};
    bellbadger_checked_rule r = read_file(astray, sizeof astray, 0);
    bellbadger_judge j = bellbadger_new();
    r.initials = 15, r.finals = 0;
    bellbadger_install_result told = bellbadger_install(j, r);
    CHECK(TAKEN(told) && told.sets == 4 && told.starts == 0);
    install(&j, r, 0);
    for (int q = 0; q < 32; q++) CHECK(j.rule.delegates[q] == (q < 4 ? BELLBADGER_NO_DELEGATE : 0));
    open(&j, 2, 0);
    deliver(&j, 0, 0, bad, sizeof bad, 13);
    looked(&j, 0, 0, big, 65536, 0);
    looked(&j, 1, 0, NULL, 0, 0);
    for (int q = 0; q < 64; q++) CHECK(j.board.ends[q] == 0);
    verdict(&j, BELLBADGER_NO, 0, 65536);
}

/* the most that can be counted: 64 places with 65,536 bytes, each run from 32 starts that never meet or die */
static void most_transitions(void) {
    bellbadger_checked_rule r = {.n = 32, .k = 2, .initials = UINT32_MAX, .finals = 1};
    for (unsigned q = 0; q < 32; q++) r.targets[16 * q] = 1u << (q + 1) % 32, r.targets[16 * q + 1] = 1u << q;
    bellbadger_judge j = bellbadger_new();
    install(&j, r, 0);
    CHECK(j.rule.starts == 32);
    open(&j, 64, 0);
    for (size_t p = 0; p < 64; p++) {
        verdict(&j, BELLBADGER_WAITING, 64 - p, 0);
        looked(&j, p, 0, big, 65536, 65536);
        CHECK(j.board.counts[p] == 2097152);
    }
    verdict(&j, BELLBADGER_YES, 134217728, 4194304);
}

/* idle marks are skipped wherever they stand; the limit counts them */
static void idle(void) {
    static const uint8_t first[] = {255, 0, 255}, second[] = {1, 255}, bad[] = {255, 255, 254}, no_symbol[] = {255, 2};
    static uint8_t marks[65537];
    memset(marks, 255, sizeof marks);
    bellbadger_judge j = bellbadger_new();
    load(&j, rule_a, sizeof rule_a, 0);
    open(&j, 3, 0);
    deliver(&j, 1, 0, marks, 65537, 12);
    deliver(&j, 1, 0, bad, sizeof bad, 13);
    deliver(&j, 1, 0, no_symbol, sizeof no_symbol, 13);
    looked(&j, 1, 0, marks, 65536, 0);
    CHECK(j.board.filled[1] && j.board.counts[1] == 0 && j.board.ends[32] == 1 && j.board.ends[33] == 2 && j.board.ends[34] == 4);
    deliver(&j, 1, 0, first, sizeof first, 22);
    looked(&j, 0, 0, first, sizeof first, 1);
    looked(&j, 2, 0, second, sizeof second, 1);
    CHECK(j.board.lengths[0] == 1 && j.board.lengths[1] == 0 && j.board.lengths[2] == 1);
    verdict(&j, BELLBADGER_YES, 3, 2);
}

/* a greater revision replaces what stands; another is refused, also after a withdrawal; an opening forgets */
static void revisions(void) {
    static const uint8_t zero[] = {0}, text[] = {0, 1}, two[] = {2};
    bellbadger_judge j = bellbadger_new();
    load(&j, rule_a, sizeof rule_a, 0);
    open(&j, 2, 0);
    CHECK(j.board.revisions[0] == 0 && j.board.revisions[63] == 0);
    looked(&j, 1, UINT32_MAX, NULL, 0, 0);
    CHECK(j.board.revisions[0] == 0 && j.board.revisions[1] == UINT64_C(4294967296) && j.board.revisions[2] == 0);
    deliver(&j, 1, UINT32_MAX, zero, 1, 22);
    looked(&j, 0, 5, zero, 1, 1);
    verdict(&j, BELLBADGER_NO, 1, 1);
    deliver(&j, 0, 5, text, sizeof text, 22);
    deliver(&j, 0, 4, text, sizeof text, 22);
    deliver(&j, 0, 9, two, 1, 13);
    deliver(&j, 0, 0, two, 1, 13);
    looked(&j, 0, 6, text, sizeof text, 2);
    CHECK(j.board.filled[0] && j.board.counts[0] == 2 && j.board.lengths[0] == 2 && j.board.ends[0] == 5);
    verdict(&j, BELLBADGER_YES, 2, 2);
    withdraw(&j, 0, 0);
    CHECK(!j.board.filled[0] && j.board.revisions[0] == 7);
    deliver(&j, 0, 6, text, sizeof text, 22);
    verdict(&j, BELLBADGER_WAITING, 1, 0);
    looked(&j, 0, 7, text, sizeof text, 2);
    verdict(&j, BELLBADGER_YES, 2, 2);
    open(&j, 2, 0);
    CHECK(j.board.revisions[0] == 0 && j.board.revisions[1] == 0);
    looked(&j, 0, 0, text, sizeof text, 2);
    install(&j, read_file(rule_a, sizeof rule_a, 0), 0);
    open(&j, 2, 0);
    looked(&j, 0, 0, text, sizeof text, 2);
}

/* two orders of the same deliveries end in the same board */
static void any_order(void) {
    static const uint8_t text[] = {0, 1, 1, 0, 1};
    static const struct { size_t place; uint32_t revision; size_t length; } given[] = {
        {0, 3, 1}, {1, 0, 2}, {0, 7, 5}, {1, UINT32_MAX, 0}, {0, 0, 4}, {1, 9, 3},
    };
    const int n = sizeof given / sizeof *given;
    static bellbadger_judge ends[36];
    for (int way = 0; way < 36; way++) {
        bellbadger_judge *j = &ends[way];
        *j = bellbadger_new();
        load(j, rule_a, sizeof rule_a, 0);
        open(j, 2, 0);
        /* from any of them on, by a step that has no divisor with their number, then two exchanged */
        for (int i = 0; i < n; i++) {
            int at = (way % 6 + i * (way / 6 % 2 ? 5 : 1)) % n;
            at = way / 12 && at < 2 ? 1 - at : way / 24 && at < 4 && at > 1 ? 5 - at : at;
            *j = bellbadger_deliver(*j, given[at].place, given[at].revision, text, given[at].length).judge;
        }
        CHECK(j->board.lengths[0] == 5 && j->board.lengths[1] == 0 && j->board.revisions[0] == 8);
        CHECK(same(j, &ends[0]));
    }
    verdict(&ends[0], BELLBADGER_YES, 5, 5);
}

static void records(void) {
#define LOAD_A "load 03020100000004000000160006001C0002001E0000000000000101000102\n"
    replay("", BELLBADGER_REFUSED, 21, 0);
    replay(LOAD_A "open 2\n", BELLBADGER_WAITING, 2, 0);
    replay(LOAD_A "open 2\ndeliver 1 0 01\ndeliver 0 0 00\n", BELLBADGER_YES, 3, 2);
    replay(LOAD_A "open 2\ndeliver 1 0 00\ndeliver 0 0 01", BELLBADGER_NO, 2, 2);
    replay(LOAD_A "open 2\ndeliver 1 0 FF01\ndeliver 0 0 00ffFF\n", BELLBADGER_YES, 3, 2);
    replay(LOAD_A "open 1\ndeliver 0 7 00\ndeliver 0 0000000008 0001\ndeliver 0 8 -\n", BELLBADGER_YES, 2, 2);
    replay(LOAD_A "open 1\ndeliver 0 4294967295 0001\nwithdraw 0\ndeliver 0 0 01", BELLBADGER_WAITING, 1, 0);
    replay(LOAD_A "open 1\ndeliver 0 4294967296 0001\n", BELLBADGER_MALFORMED, 3, 0);
    replay(LOAD_A "open 1\ndeliver 0 0001\n", BELLBADGER_MALFORMED, 3, 0);
    replay(LOAD_A "open 2\n\n", BELLBADGER_REFUSED, 21, 0);
    replay(LOAD_A "open  2\nverdict\n", BELLBADGER_MALFORMED, 2, 0);
    replay(LOAD_A "open 2\r\n", BELLBADGER_MALFORMED, 2, 0);
    replay("verdict\nverdict\nx", BELLBADGER_MALFORMED, 3, 0);
    replay("open 1\n" LOAD_A "open 99\nopen 1\nwithdraw 0\ndeliver 00 0 0001\nverdict\n", BELLBADGER_YES, 2, 2);
    replay(LOAD_A "open 00000000000000000001\ndeliver 0 0 -", BELLBADGER_NO, 0, 0);
}

/* rule B, by 0 from 0 to 1 and 2, and back from both: 5 transitions over 3 bytes, in every field of the three
 * results that a verdict has */
static void divided(void) {
    static const uint8_t rule_b[] = {3, 1, 1, 0, 0, 0, 6, 0, 0, 0, 22, 0, 4, 0, 26, 0, 2, 0, 28, 0, 2, 0, 0, 1, 0, 2, 0, 0, 0, 0}, zeros_2[] = {0, 0};
    static const char record[] = "load 0301010000000600000016000400"
                                 "1A0002001C0002000001000200000000\nopen 2\ndeliver 0 0 00\ndeliver 1 0 0000\n";
    bellbadger_judge j = bellbadger_new();
    load(&j, rule_b, sizeof rule_b, 0);
    bellbadger_summary first = bellbadger_summarize(j, 0, zeros_2, 1).summary, second = bellbadger_summarize(j, 1, zeros_2, 2).summary;
    bellbadger_verdict_result by[3];
    by[0] = bellbadger_summary_conclude(j, bellbadger_summary_combine(first, second), 2);
    by[1] = bellbadger_replay((const uint8_t *)record, strlen(record));
    open(&j, 2, 0);
    looked(&j, 1, 0, zeros_2, 2, 2);
    looked(&j, 0, 0, zeros_2, 1, 1);
    by[2] = bellbadger_verdict(j);
    for (int i = 0; i < 3; i++) CHECK(by[i].kind == 2 && by[i].number == 5 && by[i].bytes == 3 && by[i].quotient == 1 && by[i].remainder == 2);
}

/* whatever stands in a verdict, the kind of yes alone is one */
static void only_yes_is_yes(void) {
    for (int kind = 0; kind < 256; kind++) {
        bellbadger_verdict_result r = {.kind = (uint8_t)kind, .number = 3, .bytes = 2, .quotient = 1, .remainder = 1};
        CHECK(bellbadger_is_yes(r) == (kind == BELLBADGER_YES));
    }
}

/* the line that installs bytes, and what follows it */
static const char *installation(const uint8_t *bytes, size_t length, const char *rest) {
    static char text[8192];
    size_t at = (size_t)sprintf(text, "install ");
    for (size_t i = 0; i < length; i++) at += (size_t)sprintf(text + at, "%02x", bytes[i]);
    sprintf(text + at, "\n%s", rest);
    return text;
}

/* rule A in the 2,058 bytes of an installation; a byte less or more is malformed */
static void installations(void) {
    const char *rest = "open 1\ndeliver 0 0 0001\n";
    uint8_t bytes[2059] = {3, 2, 1, 0, 0, 0, 4, 0, 0, 0, 3, 0, 0, 0, 1};
    bytes[10 + 4 * 17] = 4;
    replay(installation(bytes, 2058, rest), BELLBADGER_YES, 2, 2);
    replay(installation(bytes, 2057, rest), BELLBADGER_MALFORMED, 1, 0);
    replay(installation(bytes, 2059, rest), BELLBADGER_MALFORMED, 1, 0);
    replay(installation(rule_a, sizeof rule_a, rest), BELLBADGER_MALFORMED, 1, 0);
    bytes[2057] = 1;
    replay(installation(bytes, 2058, rest), BELLBADGER_REFUSED, 21, 0);
}

/* xorshift */
static uint64_t seed = 88172645463325252u;
static uint64_t random_number(void) {
    seed ^= seed << 13;
    seed ^= seed >> 7;
    seed ^= seed << 17;
    return seed;
}

/* random numbers in every field of a checked rule, made more and more sensible */
static void garbage_rule(const bellbadger_judge *j, int i) {
    static bellbadger_checked_rule r;
    uint8_t *bytes = (uint8_t *)&r;
    for (size_t b = 0; b < sizeof r; b++) bytes[b] = (uint8_t)(random_number() >> 32);
    if (i % 8 > 0) r.n = 1 + r.n % 32;
    if (i % 8 > 1) r.k = 1 + r.k % 16;
    uint32_t states = r.n < 32 ? (1u << r.n % 32) - 1 : 0xFFFFFFFF;
    if (i % 8 > 2) r.initials &= states, r.finals &= states;
    for (int c = 0; i % 8 > 3 && c < 512; c++) r.targets[c] = c / 16 < r.n && c % 16 < r.k ? r.targets[c] & states : 0;
    bellbadger_install_result l = bellbadger_install(*j, r);
    CHECK(TOLD(l) && installed_into(j, &l));
    CHECK(!l.accepted || (r.n >= 1 && r.n <= 32 && r.k >= 1 && r.k <= 16 && !(r.initials & ~states) && !(r.finals & ~states)));
    CHECK(i % 8 < 4 || TAKEN(l) || REFUSED_WITH(l, 9));
}

/* random numbers in every field; some states half sensible, so that deeper code is reached */
static void garbage(int states) {
    static bellbadger_judge j;
    static uint8_t chunk[300], before[300];
    for (int i = 0; i < states; i++) {
        uint8_t *bytes = (uint8_t *)&j;
        for (size_t b = 0; b < sizeof j; b++) bytes[b] = (uint8_t)(random_number() >> 32);
        if (i % 2) j.rule.n = 1 + j.rule.n % 32, j.board.places = 1 + j.board.places % 64;
        if (i % 4 == 1) memset(j.board.filled, 0, sizeof j.board.filled), memset(j.board.counts, 0, sizeof j.board.counts);
        if (i % 8 == 7) memset(j.board.filled, 1, sizeof j.board.filled);
        for (size_t b = 0; b < sizeof chunk; b++) chunk[b] = i % 11 && random_number() % 9 ? (uint8_t)(random_number() >> 32) % (i % 3 ? 2 : 255) : 255;
        memcpy(before, chunk, sizeof chunk);
        size_t place = i % 5 ? random_number() % 64 : (size_t)random_number();
        bellbadger_load_result l = bellbadger_load(j, chunk, sizeof chunk);
        CHECK(TOLD(l) && installed_into(&j, &l));
        garbage_rule(&j, i);
        l = bellbadger_load(j, rule_a, sizeof rule_a);
        CHECK(TAKEN(l) && installed_into(&j, &l));
        bellbadger_open_result o = bellbadger_open(j, place);
        CHECK(TOLD(o) && (o.accepted || same(&o.judge, &j)));
        bellbadger_deliver_result d = bellbadger_deliver(j, place, (uint32_t)random_number(), chunk, i % 7 ? sizeof chunk : 0);
        CHECK(TOLD(d) && (d.accepted || (same(&d.judge, &j) && d.looked == 0)));
        CHECK(d.looked <= sizeof chunk);
        bellbadger_withdraw_result w = bellbadger_withdraw(d.judge, place);
        CHECK(TOLD(w) && (w.accepted || same(&w.judge, &d.judge)));
        CHECK(bellbadger_verdict(j).kind <= BELLBADGER_NO && bellbadger_verdict(w.judge).kind <= BELLBADGER_NO);
        CHECK(divides(bellbadger_verdict(j)) && divides(bellbadger_verdict(w.judge)));
        CHECK(bellbadger_replay(chunk, sizeof chunk).kind <= BELLBADGER_MALFORMED);
        CHECK(!memcmp(before, chunk, sizeof chunk));
    }
}

static void *all(void *states) {
    built_with();
    calls();
    reading();
    installing();
    dying();
    leading_nowhere();
    no_final_state();
    most_transitions();
    idle();
    revisions();
    any_order();
    records();
    divided();
    only_yes_is_yes();
    installations();
    garbage(*(int *)states);
    return NULL;
}

int main(int argc, char **argv) {
    int states = argc > 1 ? atoi(argv[1]) : 2000;
    pthread_attr_t small;
    pthread_t thread;
    for (size_t i = 0; i < sizeof big; i++) big[i] = i % 2;
    CHECK(!pthread_attr_init(&small) && !pthread_attr_setstacksize(&small, STACK));
    CHECK(!pthread_create(&thread, &small, all, &states) && !pthread_join(thread, NULL));
    printf("%ld checks on a stack of %d KB\n", checks, STACK / 1024);
    return 0;
}
