/* What the judge costs, as ratios: each figure is the median of several runs, taken side by side in one process.
 * A chunk is delivered, and beside it the rule's own next-set table is walked over the same text: once, from one
 * set, with no test and no count, which is what a ratio is to; and run by run, as long as each run lives. */
#define _POSIX_C_SOURCE 200809L /* clock_gettime */
#include <stdio.h>
#include <stdlib.h>
#include <string.h>
#include <time.h>

#include "bellbadger.h"

enum { BYTES = 65536, ROUNDS = 31 };
static uint8_t text[BYTES];
static volatile uint64_t sink;

/* the processor's time for this thread, so that what else the machine does counts little */
static double now(void) {
    struct timespec t;
    clock_gettime(CLOCK_THREAD_CPUTIME_ID, &t);
    return (double)t.tv_sec * 1e6 + (double)t.tv_nsec / 1e3;
}

static int rising(const void *a, const void *b) {
    double x = *(const double *)a, y = *(const double *)b;
    return (x > y) - (x < y);
}

/* the median of ROUNDS measurements, in microseconds */
#define MEASURE(result, ...)                               \
    do {                                                   \
        double times[ROUNDS];                              \
        for (int round = 0; round < ROUNDS; round++) {     \
            double from = now();                           \
            __VA_ARGS__;                                   \
            times[round] = now() - from;                   \
        }                                                  \
        qsort(times, ROUNDS, sizeof times[0], rising);     \
        result = times[ROUNDS / 2];                        \
    } while (0)

/* a rule file of n states; to[q][s] is a state or -1 */
static size_t rule(uint8_t *file, int n, int k, uint32_t finals, int to[32][16]) {
    size_t at = 10 + 4 * (size_t)n;
    uint8_t head[10] = {(uint8_t)n, (uint8_t)k, 1, 0, 0, 0, (uint8_t)finals, (uint8_t)(finals >> 8), (uint8_t)(finals >> 16), (uint8_t)(finals >> 24)};
    memcpy(file, head, sizeof head);
    for (int q = 0; q < n; q++) {
        size_t from = at;
        for (int s = 0; s < k; s++)
            if (to[q][s] >= 0) file[at++] = (uint8_t)s, file[at++] = (uint8_t)to[q][s];
        uint8_t pair[4] = {(uint8_t)from, (uint8_t)(from >> 8), (uint8_t)(at - from), (uint8_t)((at - from) >> 8)};
        memcpy(file + 10 + 4 * q, pair, sizeof pair);
    }
    return at;
}

static bellbadger_judge opened(int n, int k, uint32_t finals, int to[32][16], int places) {
    static uint8_t file[32906];
    bellbadger_load_result r = bellbadger_load(bellbadger_new(), file, rule(file, n, k, finals, to));
    if (!r.accepted) exit(1);
    return bellbadger_open(r.judge, (size_t)places).judge;
}

/* round and round: n starts that never meet */
static bellbadger_judge cycle(int n, int places) {
    int to[32][16];
    for (int q = 0; q < n; q++) to[q][0] = (q + 1) % n, to[q][1] = q;
    return opened(n, 2, 1, to, places);
}

/* the same from every state, so that place 0 has all runs; a third symbol leads nowhere */
static bellbadger_judge cycle_from_all(int n) {
    bellbadger_checked_rule r = {.n = (uint8_t)n, .k = 3, .initials = UINT32_MAX >> (32 - n), .finals = 1};
    for (int q = 0; q < n; q++) r.targets[16 * q] = 1u << (q + 1) % n, r.targets[16 * q + 1] = 1u << q;
    bellbadger_install_result installed = bellbadger_install(bellbadger_new(), r);
    if (!installed.accepted) exit(1);
    return bellbadger_open(installed.judge, 2).judge;
}

/* symbols lead anywhere, at random: runs meet soon */
static bellbadger_judge meeting(int n) {
    int to[32][16];
    for (int q = 0; q < n; q++)
        for (int s = 0; s < 4; s++) to[q][s] = (rand() >> 7) % n;
    return opened(n, 4, 0x5a3c96e1, to, 2);
}

/* round and round by three symbols; the fourth kills a run in state 0, and leaves the others where they are */
static bellbadger_judge mortal(int n) {
    int to[32][16];
    for (int q = 0; q < n; q++) to[q][0] = (q + 1) % n, to[q][1] = q, to[q][2] = (q + 3) % n, to[q][3] = q ? q : -1;
    return opened(n, 4, 1, to, 2);
}

/* a path: every run dies after n bytes at most */
static bellbadger_judge path(int n) {
    int to[32][16];
    for (int q = 0; q < n; q++) to[q][0] = to[q][1] = q + 1 < n ? q + 1 : -1;
    return opened(n, 2, 1u << (n - 1), to, 2);
}

/* the eighth event from the end is 1: 264 sets */
static bellbadger_judge one_lives(void) {
    bellbadger_checked_rule r = {.n = 9, .k = 2, .initials = 1, .finals = 1u << 8};
    r.targets[0] = 1, r.targets[1] = 3;
    for (int q = 1; q < 8; q++) r.targets[16 * q] = r.targets[16 * q + 1] = 2u << q;
    bellbadger_install_result installed = bellbadger_install(bellbadger_new(), r);
    if (installed.sets != 264) exit(1);
    return bellbadger_open(installed.judge, 2).judge;
}

/* a made text of symbols below k */
static void made(uint8_t *buffer, int k, uint64_t seed) {
    if (!bellbadger_make_text((size_t)k, seed, buffer, BYTES).accepted) exit(1);
}

static void texts(int k) {
    made(text, k, 1);
}

/* one over which each run dies, at a place of its own */
static void deaths(int n) {
    int place[32], state[32];
    for (int q = 0; q < n; q++) place[q] = (int)((unsigned)rand() % BYTES), state[q] = q;
    made(text, 3, 2);
    for (int i = 0; i < BYTES; i++) {
        for (int q = 0; q < n; q++)
            if (state[q] == 0 && place[q] <= i) text[i] = 3;
        for (int q = 0; q < n; q++)
            if (state[q] >= 0) state[q] = text[i] == 0 ? (state[q] + 1) % n : text[i] == 2 ? (state[q] + 3) % n : text[i] == 3 && state[q] == 0 ? -1 : state[q];
    }
}

/* after how many bytes all runs are in one set */
static size_t met(const bellbadger_built_rule *rule) {
    unsigned s[32];
    size_t i = 0;
    for (unsigned q = 0; q < rule->n; q++) s[q] = rule->singles[q];
    for (;; i++) {
        unsigned q = 1;
        while (q < rule->n && s[q] == s[0]) q++;
        if (q == rule->n || i == BYTES) return i;
        for (q = 0; q < rule->n; q++) s[q] = rule->next[s[q] * 16 + text[i]];
    }
}

static uint64_t walk(const bellbadger_built_rule *rule, unsigned q, const uint8_t *w, size_t length) {
    uint64_t count = 0;
    unsigned s = rule->singles[q];
    for (size_t i = 0; i < length; i++) {
        s = rule->next[s * 16 + w[i]];
        if (s >= 512) break;
        count++;
    }
    return count;
}

/* the next-set table with a row for the empty set, in cells of 16 bits */
static uint16_t cells[513 * 16];

static unsigned serial(unsigned s, size_t length) {
    for (size_t i = 0; i < length; i++) s = cells[s * 16 + text[i]];
    return s;
}

static double delivery(const bellbadger_judge *j, size_t place, size_t length) {
    double t;
    if (!bellbadger_deliver(*j, place, 0, text, length).accepted) exit(1);
    MEASURE(t, sink += bellbadger_deliver(*j, place, 0, text, length).accepted);
    return t;
}

/* the states that a chunk is run from: the rules here have one initial state, which is its own delegate */
static unsigned runs(const bellbadger_judge *j, size_t place, unsigned q) {
    return j->rule.delegates[q] == q && (place > 0 || j->rule.initials >> q & 1);
}

static void beside(const char *name, bellbadger_judge j, size_t place) {
    double delivered[ROUNDS], each[ROUNDS], micros[ROUNDS];
    unsigned m = 0;
    for (unsigned q = 0; q < j.rule.n; q++) m += runs(&j, place, q);
    memcpy(cells, j.rule.next, sizeof j.rule.next);
    for (int i = 8192; i < 513 * 16; i++) cells[i] = 512;
    for (int round = 0; round < ROUNDS; round++) {
        double a = now();
        sink += serial(j.rule.singles[0], BYTES);
        double b = now();
        sink += bellbadger_deliver(j, place, 0, text, BYTES).accepted;
        double c = now();
        for (unsigned q = 0; q < j.rule.n; q++)
            if (runs(&j, place, q)) sink += walk(&j.rule, q, text, BYTES);
        double d = now();
        micros[round] = c - b, delivered[round] = (c - b) / (b - a), each[round] = (d - c) / (b - a);
    }
    qsort(micros, ROUNDS, sizeof micros[0], rising);
    qsort(delivered, ROUNDS, sizeof delivered[0], rising);
    qsort(each, ROUNDS, sizeof each[0], rising);
    printf("  %-34s M %2u: %8.1f us, ratio %5.2f; run by run %5.2f\n", name, m, micros[ROUNDS / 2], delivered[ROUNDS / 2], each[ROUNDS / 2]);
}

/* a chunk followed, by the rule and by its follower, beside a delivery of it that is run from one start */
static void following(const char *name, bellbadger_checked_rule r) {
    double by_rule[ROUNDS], by_follower[ROUNDS];
    bellbadger_judge j = bellbadger_open(bellbadger_install(bellbadger_new(), r).judge, 1).judge;
    bellbadger_follower_result p = bellbadger_follower_prepare(r);
    if (!p.accepted || bellbadger_deliver(j, 0, 0, text, BYTES).looked != BYTES) exit(1);
    for (int round = 0; round < ROUNDS; round++) {
        double a = now();
        sink += bellbadger_deliver(j, 0, 0, text, BYTES).accepted;
        double b = now();
        sink += bellbadger_follow(r, r.initials, text, BYTES).set;
        double c = now();
        sink += bellbadger_follow_by(p.follower, r.initials, text, BYTES).set;
        double d = now();
        by_rule[round] = (c - b) / (b - a), by_follower[round] = (d - c) / (b - a);
    }
    qsort(by_rule, ROUNDS, sizeof by_rule[0], rising);
    qsort(by_follower, ROUNDS, sizeof by_follower[0], rising);
    printf("  %-34s by the rule %.2f, by its follower %.2f\n", name, by_rule[ROUNDS / 2], by_follower[ROUNDS / 2]);
}

static void followings(void) {
    bellbadger_checked_rule a = {.n = 3, .k = 2, .initials = 1, .finals = 4}, one = {.n = 32, .k = 2, .initials = 1, .finals = 1}, all = one;
    a.targets[0] = 3, a.targets[1] = 1, a.targets[17] = 4;
    for (int q = 0; q < 32; q++) {
        one.targets[16 * q] = 1u << (q + 1) % 32, one.targets[16 * q + 1] = 1u << q;
        all.targets[16 * q] = all.targets[16 * q + 1] = 0xffffffffu;
    }
    printf("a chunk of 65,536 bytes followed, beside a delivery of it from one start\n");
    texts(2);
    following("rule A", a);
    following("32 states, in one at a time", one);
    following("32 states, in all at once", all);
}

/* a chunk's summary beside a delivery of it from all starts; and what combining and concluding take */
static void summaries(const char *name, bellbadger_judge j) {
    double ratios[ROUNDS], combining, concluding;
    bellbadger_summary s = bellbadger_summarize(j, 0, text, BYTES).summary, later = bellbadger_summarize(j, 1, text, BYTES).summary;
    if (bellbadger_summary_conclude(j, s, 1).kind == BELLBADGER_REFUSED || later.broken) exit(1);
    for (int round = 0; round < ROUNDS; round++) {
        double a = now();
        sink += bellbadger_deliver(j, 1, 0, text, BYTES).accepted;
        double b = now();
        sink += bellbadger_summarize(j, 1, text, BYTES).accepted;
        ratios[round] = (now() - b) / (b - a);
    }
    qsort(ratios, ROUNDS, sizeof ratios[0], rising);
    MEASURE(combining, for (int i = 0; i < 1000; i++) sink += bellbadger_summary_combine(s, later).broken);
    MEASURE(concluding, for (int i = 0; i < 100; i++) sink += bellbadger_summary_conclude(j, s, 1).number);
    printf("  %-34s %.2f; combined in %.0f ns, concluded in %.0f ns\n", name, ratios[ROUNDS / 2], combining, concluding * 10);
}

/* a chunk with idle marks, beside its text alone */
static void marks(bellbadger_judge j) {
    static uint8_t marked[BYTES];
    double ratios[ROUNDS];
    size_t length = 0;
    made(marked, 16, 3);
    for (size_t i = 0; i < BYTES; i++) marked[i] = marked[i] ? text[length++] : 255;
    for (int round = 0; round < ROUNDS; round++) {
        double a = now();
        sink += bellbadger_deliver(j, 1, 0, text, length).accepted;
        double b = now();
        sink += bellbadger_deliver(j, 1, 0, marked, BYTES).accepted;
        ratios[round] = (now() - b) / (b - a);
    }
    qsort(ratios, ROUNDS, sizeof ratios[0], rising);
    printf("  one byte in 16 an idle mark, beside the same text without: %.2f\n", ratios[ROUNDS / 2]);
}

/* 506 sets of 30 states, from the initial ones: of four parts, in each of which the symbol that came m + 1 before the
 * last tells whether it ends; a third symbol leads nowhere */
static bellbadger_judge many_sets(uint32_t initials) {
    static const int first[] = {0, 9, 17, 24, 30};
    bellbadger_checked_rule r = {.n = 30, .k = 3, .initials = initials};
    for (int part = 0; part < 4; part++) {
        r.finals |= 1u << (first[part + 1] - 1);
        r.targets[16 * first[part]] = 3u << first[part], r.targets[16 * first[part] + 1] = 1u << first[part];
        for (int q = first[part] + 1; q + 1 < first[part + 1]; q++) r.targets[16 * q] = r.targets[16 * q + 1] = 2u << q;
    }
    bellbadger_install_result installed = bellbadger_install(bellbadger_new(), r);
    if (!installed.accepted || installed.sets != 506) exit(1);
    return bellbadger_open(installed.judge, 64).judge;
}

/* looking for a loss in a chunk, beside a delivery of it to the same place */
static void losses_at(const char *name, bellbadger_judge j, size_t place, const uint8_t *chunk, size_t length, int kind) {
    double ratios[ROUNDS];
    int times = length < 4096 ? 50 : 1;
    if (bellbadger_locate(j, place, chunk, length).kind != kind) exit(1);
    for (int round = 0; round < ROUNDS; round++) {
        double a = now();
        for (int i = 0; i < times; i++) sink += bellbadger_deliver(j, place, 0, chunk, length).accepted;
        double b = now();
        for (int i = 0; i < times; i++) sink += bellbadger_locate(j, place, chunk, length).kind;
        ratios[round] = (now() - b) / (b - a);
    }
    qsort(ratios, ROUNDS, sizeof ratios[0], rising);
    printf("  %-48s %.2f\n", name, ratios[ROUNDS / 2]);
}

static void losses(const char *name, bellbadger_judge j, const uint8_t *chunk, int kind) {
    losses_at(name, j, 0, chunk, BYTES, kind);
}

/* the same of short chunks: at place 0, lost by the last byte there, and at place 63 behind 63 others */
static void short_losses(const char *name, uint32_t initials) {
    static const size_t lengths[] = {0, 16, 256, 1024};
    static uint8_t lost[1024];
    char row[64];
    bellbadger_judge j = many_sets(initials), full = j;
    for (size_t p = 0; p < 63; p++) full = bellbadger_deliver(full, p, 0, text, 3).judge;
    for (int i = 0; i < 4; i++) {
        size_t n = lengths[i];
        snprintf(row, sizeof row, "%s, %zu bytes", name, n);
        losses_at(row, j, 0, text, n, BELLBADGER_NOWHERE);
        snprintf(row, sizeof row, "%s, %zu bytes, at place 63", name, n);
        losses_at(row, full, 63, text, n, BELLBADGER_NOWHERE);
        if (n == 0) continue;
        memcpy(lost, text, n), lost[n - 1] = 2;
        snprintf(row, sizeof row, "%s, lost by the last of %zu", name, n);
        losses_at(row, j, 0, lost, n, BELLBADGER_LOST_AFTER);
    }
}

/* looking where a full tray of made events goes wrong, by one rule for rows and columns, beside a verdict on it */
static void tray_fault(const char *name, bellbadger_checked_rule r, int kind) {
    double ratios[ROUNDS], micros[ROUNDS];
    bellbadger_tray t = bellbadger_tray_install_column(bellbadger_tray_install_row(bellbadger_tray_new(), r).tray, r).tray;
    t = bellbadger_tray_open(t, 16, 8).tray;
    for (size_t band = 0; band < 8; band++) t = bellbadger_tray_deliver(t, band, text + 1024 * band, 1024).tray;
    if (bellbadger_tray_fault(t).kind != kind) exit(1);
    for (int round = 0; round < ROUNDS; round++) {
        double a = now();
        for (int i = 0; i < 20; i++) sink += bellbadger_tray_verdict(t).kind;
        double b = now();
        for (int i = 0; i < 20; i++) sink += bellbadger_tray_fault(t).kind;
        double c = now();
        micros[round] = (c - b) / 20, ratios[round] = (c - b) / (b - a);
    }
    qsort(micros, ROUNDS, sizeof micros[0], rising);
    qsort(ratios, ROUNDS, sizeof ratios[0], rising);
    printf("  %-34s %8.1f us, ratio %.2f\n", name, micros[ROUNDS / 2], ratios[ROUNDS / 2]);
}

static void tray_faults(void) {
    bellbadger_checked_rule one = {.n = 1, .k = 2, .initials = 1, .finals = 1, .targets = {1, 1}};
    bellbadger_checked_rule ends = {.n = 2, .k = 2, .initials = 1, .finals = 2, .targets = {3, 1}}; /* in 0: half of the rows do not */
    bellbadger_checked_rule turns = {.n = 32, .k = 2, .initials = 1, .finals = 0xffffffffu}, all = turns;
    for (int q = 0; q < 32; q++) {
        turns.targets[16 * q] = 1u << (q + 1) % 32, turns.targets[16 * q + 1] = 1u << q;
        all.targets[16 * q] = all.targets[16 * q + 1] = 0xffffffffu;
    }
    printf("where a tray of 512 rows of 16 goes wrong, beside a verdict on it\n");
    texts(2);
    tray_fault("nowhere, by rules of one state", one, BELLBADGER_OPEN);
    tray_fault("32 states, in one at a time", turns, BELLBADGER_OPEN);
    tray_fault("32 states, in all at once", all, BELLBADGER_OPEN);
    tray_fault("in one of the first rows", ends, BELLBADGER_FAULT_ROW);
}

/* 32 states by 16 symbols: each set that is reached has one state */
static bellbadger_checked_rule ring(void) {
    bellbadger_checked_rule r = {.n = 32, .k = 16, .initials = 1, .finals = 1};
    for (int c = 0; c < 512; c++) r.targets[c] = 1u << (c / 16 + 1 + c % 16) % 32;
    return r;
}

/* 32 states by one symbol, cycles of 7, 8 and 9 and a row of 8 all at once: 512 sets are reached */
static bellbadger_checked_rule cycles(void) {
    static const int size[] = {7, 8, 9, 8};
    bellbadger_checked_rule r = {.n = 32, .k = 1, .finals = 0xffffffff};
    for (int part = 0, at = 0; part < 4; at += size[part++]) {
        r.initials |= 1u << at;
        for (int i = 0; i < size[part]; i++) r.targets[16 * (at + i)] = i + 1 < size[part] ? 2u << (at + i) : part < 3 ? 1u << at : 0;
    }
    return r;
}

/* the symbol 1 is the eighth from the end: 9 states, 256 sets are reached */
static bellbadger_checked_rule eighth(void) {
    bellbadger_checked_rule r = {.n = 9, .k = 2, .initials = 1, .finals = 1u << 8};
    r.targets[0] = 1, r.targets[1] = 3;
    for (int q = 1; q < 8; q++) r.targets[16 * q] = r.targets[16 * q + 1] = 2u << q;
    return r;
}

/* two rules that are the same, compared, beside an installation of one of them */
static void comparing(const char *name, bellbadger_checked_rule r) {
    double compared, installed;
    bellbadger_judge fresh = bellbadger_new();
    if (bellbadger_compare(r, r).kind != BELLBADGER_SAME || !bellbadger_install(fresh, r).accepted) exit(1);
    MEASURE(compared, sink += bellbadger_compare(r, r).kind);
    MEASURE(installed, sink += bellbadger_install(fresh, r).accepted);
    printf("  %-34s %8.1f us, its installation %8.1f us, ratio %.2f\n", name, compared, installed, compared / installed);
}

/* a rule reduced, beside its installation */
static void reducing(const char *name, bellbadger_checked_rule r) {
    double reduced, installed;
    bellbadger_judge fresh = bellbadger_new();
    if (!bellbadger_reduce(r).installs || !bellbadger_install(fresh, r).accepted) exit(1);
    MEASURE(reduced, sink += bellbadger_reduce(r).rule.n);
    MEASURE(installed, sink += bellbadger_install(fresh, r).accepted);
    printf("  %-34s %8.1f us, its installation %8.1f us, ratio %.2f\n", name, reduced, installed, reduced / installed);
}

/* two rings of 16 states that accept the same: each state of the one is alike to one of the other */
static bellbadger_checked_rule twins(void) {
    bellbadger_checked_rule r = {.n = 32, .k = 16, .initials = 3, .finals = 3};
    for (int c = 0; c < 512; c++) r.targets[c] = 1u << 2 * ((c / 32 + 1 + c % 16) % 16) << c / 16 % 2;
    return r;
}

/* the rule of the pattern (ab)*cd, in which ab is said so often: 3 states and 2 for each */
static bellbadger_checked_rule rinses(int ways) {
    uint8_t pattern[128];
    size_t at = 0;
    pattern[at++] = '(';
    for (int way = 0; way < ways; way++) memcpy(pattern + at, "|ab" + !way, 3), at += 3 - !way;
    memcpy(pattern + at, ")*cd", 4);
    bellbadger_pattern_result file = bellbadger_pattern(pattern, at + 4);
    return bellbadger_read(file.bytes, file.length).rule;
}

/* two rules reduced and made one, of so many states then, beside the reductions of both */
static void merging(const char *name, int way, bellbadger_checked_rule one, bellbadger_checked_rule two, int states) {
    double merged, reduced;
    bellbadger_merge_result r = bellbadger_merge_reduced((uint8_t)way, one, two);
    if (states ? !r.accepted || r.rule.n != states : r.refused != 37) exit(1);
    MEASURE(merged, sink += bellbadger_merge_reduced((uint8_t)way, one, two).accepted);
    MEASURE(reduced, sink += bellbadger_reduce(one).rule.n + bellbadger_reduce(two).rule.n);
    printf("  %-34s %8.1f us, their reductions %8.1f us, ratio %.2f\n", name, merged, reduced, merged / reduced);
}

int main(void) {
    bellbadger_judge j = meeting(32);
    printf("a chunk of 65,536 bytes, beside one plain table walk in C over the same text\n");
    texts(2);
    beside("one run", cycle(32, 2), 0);
    beside("runs never meet", cycle(8, 2), 1);
    beside("runs never meet", cycle(32, 2), 1);
    marks(cycle(8, 2));
    texts(4);
    if (j.rule.starts != 32 || met(&j.rule) > 1024) exit(1);
    beside("runs meet within 1,024 bytes", j, 1);
    deaths(8);
    beside("runs die one after the other", mortal(8), 1);
    texts(2);
    beside("runs die within 32 bytes", path(32), 1);
    followings();
    tray_faults();
    printf("a chunk of 65,536 bytes summarized, beside a delivery of it\n");
    summaries("8 runs never meet, 8 sets", cycle(8, 2));
    summaries("32 runs never meet, 32 sets", cycle(32, 2));
    summaries("one run that lives, 264 sets", one_lives());

    static uint8_t marked[BYTES];
    made(marked, 16, 3);
    for (size_t i = 0; i < BYTES; i++) marked[i] = marked[i] ? text[i] : 255;
    printf("a rule compared with itself, beside its installation\n");
    comparing("32 states, 16 symbols, 32 pairs", ring());
    comparing("9 states, 2 symbols, 256 pairs", eighth());
    comparing("32 states, 1 symbol, 512 pairs", cycles());

    printf("a rule reduced, beside its installation\n");
    reducing("32 states, 16 symbols, none goes", ring());
    reducing("32 states, 16 symbols, 16 go", twins());
    reducing("9 states, 2 symbols, 264 sets", eighth());

    printf("two rules reduced and made one, beside the reductions of both\n");
    merging("both, 5 by 9 states, 4 are left", BELLBADGER_BOTH, rinses(1), rinses(3), 4);
    merging("either, 5 by 9 states, 4 are left", BELLBADGER_EITHER, rinses(1), rinses(3), 4);
    merging("both, 32 by 32, 32 reached", BELLBADGER_BOTH, ring(), ring(), 32);
    merging("interleaving, 32 by 32, refused", BELLBADGER_INTERLEAVING, ring(), ring(), 0);

    printf("looking for a loss in a chunk of 65,536 bytes, beside a delivery of it\n");
    losses("one run", cycle(32, 2), text, BELLBADGER_NOWHERE);
    losses("8 runs never meet", cycle_from_all(8), text, BELLBADGER_NOWHERE);
    losses("32 runs never meet", cycle_from_all(32), text, BELLBADGER_NOWHERE);
    losses("the same, one byte in 16 an idle mark", cycle_from_all(32), marked, BELLBADGER_NOWHERE);
    marked[BYTES - 1] = 2;
    losses("8 runs, idle marks, lost by the last byte", cycle_from_all(8), marked, BELLBADGER_LOST_AFTER);
    printf("the same of short chunks, by a rule of 506 sets\n");
    short_losses("one run", 1);
    short_losses("12 runs", UINT32_MAX >> 2);

    bellbadger_judge *copy = malloc(sizeof j);
    j = cycle(8, 64);
    double base, t;
    MEASURE(base, for (int i = 0; i < 100; i++) memcpy(copy, &j, sizeof j), sink += copy->board.places);
    printf("a call on an empty chunk, beside one copy of the state (%zu bytes, %.2f us)\n", sizeof j, base / 100);
    MEASURE(t, for (int i = 0; i < 100; i++) sink += bellbadger_deliver(j, 1, 0, text, 0).accepted);
    printf("  deliver  %.1f copies\n", t / base);
    MEASURE(t, for (int i = 0; i < 100; i++) sink += bellbadger_withdraw(j, 1).accepted);
    printf("  withdraw %.1f copies (refused)\n", t / base);
    MEASURE(t, for (int i = 0; i < 100; i++) sink += bellbadger_verdict(j).number);
    printf("  verdict  %.1f copies (waiting)\n", t / base);

    printf("how a delivery grows, beside the first of each row\n  bytes 1,024 4,096 16,384 65,536:");
    double first = delivery(&j, 1, 1024);
    for (size_t n = 1024; n <= BYTES; n *= 4) printf(" %.1f", delivery(&j, 1, n) / first);
    printf("\n  starts 1 2 4 8 16 32:           ");
    j = cycle(1, 2), first = delivery(&j, 1, BYTES);
    for (int n = 1; n <= 32; n *= 2) j = cycle(n, 2), printf(" %.1f", delivery(&j, 1, BYTES) / first);
    printf("\n  a verdict, places 1 4 16 64:    ");
    first = 0;
    for (int n = 1; n <= 64; n *= 4) {
        j = cycle(8, n);
        for (int p = 0; p < n; p++) j = bellbadger_deliver(j, (size_t)p, 0, text, 100).judge;
        MEASURE(t, for (int i = 0; i < 100; i++) sink += bellbadger_verdict(j).number);
        if (first == 0) first = t;
        printf(" %.1f", t / first);
    }
    double diagnosed;
    if (bellbadger_diagnose(j).number != 64) exit(1);
    MEASURE(diagnosed, for (int i = 0; i < 100; i++) sink += bellbadger_diagnose(j).number);
    printf("\na diagnosis of a full board of 64 places, beside a verdict on it: %.2f (%.1f us)\n", diagnosed / t, diagnosed / 100);
    free(copy);
    return 0;
}
