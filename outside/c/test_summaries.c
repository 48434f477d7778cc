/* Summaries from C, on a thread with the stack that the header says is enough: every field worked by hand,
 * refusals in their order, any values combined in any bracketing, random rules and cuts beside a filled board,
 * field by field, and beside following where a trace has more chunks than a board takes. Then things go wrong:
 * chunks are lost, doubled, exchanged and refused, and summaries of another rule come in between; each such list
 * has to end in the refusal that is due, never in a yes. And judges and summaries in which any numbers stand.
 * Prints how many checks were made; stops at the first that fails. */
#define _POSIX_C_SOURCE 200809L
#include <pthread.h>

#include "checks.h"

enum { STACK = 512 * 1024, PLACES = 64, BYTES = 12, MANY = 400 };

static uint64_t seed = 88172645463325252u;

static uint64_t random_number(void) {
    seed ^= seed << 13;
    seed ^= seed >> 7;
    return seed ^= seed << 17;
}

static uint32_t below(uint32_t limit) { return (uint32_t)((random_number() >> 20) % limit); }

/* the digest by the header's words */
static uint64_t half_folded(uint64_t h, uint64_t x) {
    uint64_t t = h * 131073 + x;
    return t + t / 8388608;
}

static uint64_t folded(uint64_t h, uint64_t x) { return half_folded(half_folded(h, x % 65536), x / 65536); }

static uint64_t digest(const bellbadger_built_rule *rule) {
    uint64_t h = folded(folded(folded(folded(0, rule->n), rule->k), rule->initials), rule->finals);
    for (int q = 0; q < 32; q++) h = folded(h, rule->delegates[q]);
    for (int q = 0; q < 32; q++) h = folded(h, rule->singles[q]);
    h = folded(h, rule->count);
    for (int i = 0; i < rule->count; i++) h = folded(h, rule->sets[i]);
    for (int c = 0; c < 16 * rule->count; c++) h = folded(h, rule->next[c]);
    return h;
}

static int same_summary(bellbadger_summary a, bellbadger_summary b) {
    return !memcmp(a.leads, b.leads, sizeof a.leads) && a.count == b.count && a.bytes == b.bytes && a.rule == b.rule && a.first == b.first
        && a.end == b.end && a.broken == b.broken;
}

static int same_report(bellbadger_verdict_result a, bellbadger_verdict_result b) {
    return a.kind == b.kind && a.number == b.number && a.bytes == b.bytes && a.quotient == b.quotient && a.remainder == b.remainder;
}

static bellbadger_summary summarize(const bellbadger_judge *j, uint64_t number, const uint8_t *chunk, size_t length, int refused) {
    static const bellbadger_summary none = {.broken = 1};
    bellbadger_summarize_result r = bellbadger_summarize(*j, number, chunk, length);
    CHECK(ANSWERED(r, refused));
    CHECK(!refused || same_summary(r.summary, none));
    return r.summary;
}

static void conclude(const bellbadger_judge *j, bellbadger_summary s, uint64_t chunks, int kind, uint64_t number) {
    bellbadger_verdict_result r = bellbadger_summary_conclude(*j, s, chunks);
    CHECK(r.kind == kind && r.number == number && divides(r));
    CHECK(bellbadger_is_yes(r) == (kind == BELLBADGER_YES));
    CHECK(kind == BELLBADGER_REFUSED || r.bytes == s.bytes);
}

static bellbadger_judge installed(bellbadger_checked_rule rule) {
    bellbadger_judge j = bellbadger_new();
    install(&j, rule, 0);
    return j;
}

/* rule A: texts that end in 0 1 */
static bellbadger_checked_rule rule_a(void) {
    bellbadger_checked_rule a = {.n = 3, .k = 2, .initials = 1, .finals = 4};
    a.targets[0] = 3, a.targets[1] = 1, a.targets[17] = 4;
    return a;
}

/* every field, so that the header's structs are the library's */
static void by_hand(void) {
    static const uint8_t text[] = {0, 255, 1, 255};
    bellbadger_judge j = installed(rule_a()), b = installed((bellbadger_checked_rule){.n = 3, .k = 1, .initials = 1, .finals = 6, .targets = {[0] = 6, [16] = 1, [32] = 1}});
    bellbadger_summary zero, one, s;
    CHECK(bellbadger_summary_size() == sizeof s);
    zero = (bellbadger_summary){.leads = {3}, .count = 1, .bytes = 1, .rule = digest(&j.rule), .first = 0, .end = 1};
    one = (bellbadger_summary){.leads = {1, 4}, .count = 2, .bytes = 1, .rule = digest(&j.rule), .first = 1, .end = 2};
    CHECK(digest(&j.rule) == 0x7e89fe50a4614f1f);
    CHECK(same_summary(summarize(&j, 0, text, 2, 0), zero) && same_summary(summarize(&j, 1, text + 2, 2, 0), one));
    s = bellbadger_summary_combine(zero, one);
    CHECK(same_summary(s, (bellbadger_summary){.leads = {5}, .count = 3, .bytes = 2, .rule = zero.rule, .first = 0, .end = 2}));
    conclude(&j, s, 2, BELLBADGER_YES, 3);
    conclude(&j, zero, 1, BELLBADGER_NO, 1);
    conclude(&j, summarize(&j, 0, text, 4, 0), 1, BELLBADGER_YES, 2);
    conclude(&j, summarize(&j, 0, NULL, 0, 0), 1, BELLBADGER_NO, 0);
    /* chunk 0 is run from the delegates of initial states, every other from all starts */
    CHECK(summarize(&j, 0, NULL, 0, 0).leads[1] == 0 && summarize(&j, 7, NULL, 0, 0).leads[1] == 2 && summarize(&j, 7, NULL, 0, 0).leads[2] == 4);
    s = summarize(&j, UINT64_MAX - 1, text, 1, 0);
    CHECK(s.first == UINT64_MAX - 1 && s.end == UINT64_MAX && !s.broken);
    s = summarize(&j, UINT64_MAX, text, 1, 0); /* no number is left for what follows it */
    CHECK(s.first == UINT64_MAX && s.broken == 1 && s.leads[0] == 3 && s.bytes == 1 && s.rule == zero.rule);
    /* rule B: states 1 and 2 are alike, so {1, 2} is 1's bit alone, and the runs are from 0 and 1 */
    s = summarize(&b, 5, text, 1, 0);
    CHECK(s.leads[0] == 2 && s.leads[1] == 1 && s.leads[2] == 0 && s.count == 2 && s.rule == digest(&b.rule));
}

static void refusals(void) {
    static uint8_t big[65537];
    bellbadger_judge fresh = bellbadger_new(), j = installed(rule_a()), other = j;
    bellbadger_summary whole = summarize(&j, 0, big, 65536, 0), s;
    memset(big, 2, sizeof big);
    summarize(&fresh, 0, big, sizeof big, 20);
    summarize(&j, 0, big, sizeof big, 12);
    summarize(&j, UINT64_MAX, big, sizeof big, 12);
    summarize(&j, 3, big, 65536, 13);
    summarize(&j, 3, (const uint8_t[]){0, 254}, 2, 13);
    memset(big, 255, sizeof big);
    summarize(&j, 3, big, sizeof big, 12);
    CHECK(summarize(&j, 3, big, 65536, 0).bytes == 0);
    /* 20, 42, 43, 44 */
    bellbadger_checked_rule r = rule_a();
    r.finals = 2, other = installed(r);
    s = whole, s.broken = 1, s.rule++, s.end = 9;
    conclude(&fresh, s, 1, BELLBADGER_REFUSED, 20);
    conclude(&j, s, 1, BELLBADGER_REFUSED, 42);
    s.broken = 255, conclude(&j, s, 1, BELLBADGER_REFUSED, 42);
    s.broken = 0, s.first = 1, conclude(&j, s, 1, BELLBADGER_REFUSED, 42);
    s.first = 0, conclude(&j, s, 1, BELLBADGER_REFUSED, 43);
    conclude(&other, whole, 2, BELLBADGER_REFUSED, 43);
    s = whole, s.end = 9, conclude(&j, s, 1, BELLBADGER_REFUSED, 44);
    s.end = 0, conclude(&j, s, 0, BELLBADGER_REFUSED, 44);
    conclude(&j, whole, 0, BELLBADGER_REFUSED, 44);
    conclude(&j, whole, 2, BELLBADGER_REFUSED, 44);
    conclude(&j, whole, UINT64_MAX, BELLBADGER_REFUSED, 44);
    conclude(&j, whole, 1, BELLBADGER_NO, 65536);
    conclude(&fresh, bellbadger_summarize(fresh, 0, NULL, 0).summary, 1, BELLBADGER_REFUSED, 20);
    conclude(&j, bellbadger_summarize(j, 0, big, 65537).summary, 1, BELLBADGER_REFUSED, 42);
}

/* 0 and then 1, which this rule rejects: from state 0 the 0 leads to state 2, and from there no 1 leads on. Where
 * another rule's delegates, 0 1 1, were taken for its own the 0 would lead to state 1, which is final. */
static void no_wrong_yes(void) {
    bellbadger_checked_rule r = {.n = 3, .k = 2, .initials = 1, .finals = 2}, b = {.n = 3, .k = 1, .initials = 1, .finals = 6};
    bellbadger_judge j, other;
    r.targets[0] = 4, r.targets[17] = 2, r.targets[32] = 2;
    b.targets[0] = 6, b.targets[16] = 1, b.targets[32] = 1;
    j = installed(r), other = installed(b);
    CHECK(other.rule.delegates[0] == 0 && other.rule.delegates[1] == 1 && other.rule.delegates[2] == 1);
    bellbadger_summary s = bellbadger_summary_combine(summarize(&j, 0, (const uint8_t[]){0}, 1, 0), summarize(&j, 1, (const uint8_t[]){1}, 1, 0));
    CHECK(s.leads[0] == 0 && !s.broken);
    conclude(&j, s, 2, BELLBADGER_NO, s.count);
    conclude(&other, s, 2, BELLBADGER_REFUSED, 43);
    s = bellbadger_summary_combine(summarize(&j, 0, (const uint8_t[]){0}, 1, 0), summarize(&other, 1, (const uint8_t[]){0}, 1, 0));
    CHECK(s.broken == 1);
    conclude(&j, s, 2, BELLBADGER_REFUSED, 42);
    conclude(&other, s, 2, BELLBADGER_REFUSED, 42);
}

/* a rule and its change have two digests: an exit that moves from one symbol to the other, in sets whose masks
 * differ by 1 and by 131,073; and any arc, initial or final state that is put in or taken out */
static void near_rules(int rounds) {
    static const uint8_t arcs[][3] = {{5, 0, 9}, {7, 1, 9}, {6, 1, 10}, {8, 0, 10}, {9, 0, 11}, {10, 1, 11}, {11, 0, 0}, {2, 0, 1},
                                      {3, 0, 2}, {4, 0, 3}, {12, 1, 4}, {13, 1, 12}, {14, 1, 13}, {15, 1, 14}, {16, 1, 15}};
    bellbadger_checked_rule x = {.n = 18, .k = 2, .initials = 2, .finals = 1u << 17 | 1}, y;
    for (size_t i = 0; i < sizeof arcs / sizeof arcs[0]; i++) x.targets[16 * arcs[i][0] + arcs[i][1]] |= 1u << arcs[i][2];
    y = x;
    x.targets[16] = 1u << 5 | 1u << 7, x.targets[17] = 1 | 1u << 6 | 1u << 8 | 1u << 17;
    y.targets[16] = 1 | 1u << 5 | 1u << 7, y.targets[17] = 1u << 6 | 1u << 8;
    bellbadger_judge jx = installed(x), jy = installed(y);
    CHECK(digest(&jx.rule) != digest(&jy.rule));
    bellbadger_summary s = summarize(&jx, 0, (const uint8_t[]){1}, 1, 0);
    conclude(&jx, s, 1, BELLBADGER_YES, 1);
    conclude(&jy, s, 1, BELLBADGER_REFUSED, 43);
    for (int round = 0; round < rounds; round++) {
        bellbadger_checked_rule r = {.n = 20, .k = 2, .initials = 1u + below(1u << 20) % 0xfffff, .finals = below(1u << 20)}, t;
        for (int q = 0; q < 20; q++) r.targets[16 * q] = 1u << below(20), r.targets[16 * q + 1] = below(4) ? 1u << below(20) : 0;
        t = r;
        for (int change = 0; change < 2; change++) {
            uint32_t bits = below(2) ? 1u << below(20) : 131073;
            switch (below(4)) {
            case 0: t.initials ^= bits; break;
            case 1: t.finals ^= bits; break;
            default: t.targets[16 * below(20) + below(2)] ^= bits; break;
            }
        }
        bellbadger_install_result one = bellbadger_install(bellbadger_new(), r), two = bellbadger_install(bellbadger_new(), t);
        if (!one.accepted || !two.accepted || !memcmp(&one.judge.rule, &two.judge.rule, sizeof one.judge.rule)) continue;
        bellbadger_summary a = bellbadger_summarize(one.judge, 0, NULL, 0).summary, b = bellbadger_summarize(two.judge, 0, NULL, 0).summary;
        CHECK(a.rule != b.rule);
    }
}

static bellbadger_summary any_summary(void) {
    bellbadger_summary s = {.count = random_number(), .bytes = random_number(), .rule = below(2), .first = below(3), .end = below(3)};
    for (int q = 0; q < 32; q++) s.leads[q] = (uint32_t)(random_number() >> 32) & (uint32_t)(random_number() >> 32) & (uint32_t)(random_number() >> 32);
    if (!below(3)) s.count = below(5), s.bytes = below(5);
    s.broken = (uint8_t)(below(4) ? 0 : below(256));
    return s;
}

/* any values: what combining makes of two is by the words, and brackets do not matter */
static void combining(int times) {
    for (int i = 0; i < times; i++) {
        bellbadger_summary a = any_summary(), b = any_summary(), c = any_summary(), ab = bellbadger_summary_combine(a, b);
        CHECK(same_summary(bellbadger_summary_combine(ab, c), bellbadger_summary_combine(a, bellbadger_summary_combine(b, c))));
        for (int q = 0; q < 32; q++) {
            uint32_t due = 0;
            for (int x = 0; x < 32; x++) due |= a.leads[q] >> x & 1 ? b.leads[x] : 0;
            CHECK(ab.leads[q] == due);
        }
        CHECK(ab.count == (a.count > UINT64_MAX - b.count ? UINT64_MAX : a.count + b.count));
        CHECK(ab.bytes == (a.bytes > UINT64_MAX - b.bytes ? UINT64_MAX : a.bytes + b.bytes));
        CHECK(ab.rule == a.rule && ab.first == a.first && ab.end == b.end);
        CHECK(ab.broken == (a.broken || b.broken || a.end != b.first || a.rule != b.rule));
    }
}

/* few arcs from each state, so that most rules have few sets, and copies of states, so that starts are merged */
static bellbadger_checked_rule any_rule(void) {
    bellbadger_checked_rule r = {.n = (uint8_t)(below(3) ? 1 + below(6) : 1 + below(32)), .k = (uint8_t)(1 + below(below(3) ? 3 : 16))};
    uint32_t sure = 3 + below(6), twice = 1 + below(8), states = r.n == 32 ? UINT32_MAX : (1u << r.n) - 1;
    for (int q = 0; q < r.n; q++) {
        int copy = q > 0 && !below(3);
        for (int s = 0; s < r.k; s++) {
            if (below(9) < sure) r.targets[16 * q + s] |= 1u << below(r.n);
            if (!below(2 * twice)) r.targets[16 * q + s] |= 1u << below(r.n);
            if (copy) r.targets[16 * q + s] = r.targets[16 * (q - 1) + s];
        }
        r.finals |= (uint32_t)(copy ? r.finals >> (q - 1) & 1 : !below(3)) << q;
    }
    r.initials = below(20) ? 1u << below(r.n) | (below(3) ? 0 : (uint32_t)random_number() & states) : 0;
    if (!below(20)) r.finals = 0;
    return r;
}

/* a judge with such a rule that has at most 512 sets */
static bellbadger_judge any_judge(bellbadger_checked_rule *rule) {
    for (;;) {
        *rule = any_rule();
        bellbadger_install_result r = bellbadger_install(bellbadger_new(), *rule);
        if (r.accepted) return r.judge;
        CHECK(REFUSED_WITH(r, 9));
    }
}

static uint32_t step(const bellbadger_checked_rule *r, uint32_t set, int symbol) {
    uint32_t next = 0;
    for (int q = 0; q < r->n; q++) next |= set >> q & 1 ? r->targets[16 * q + symbol] : 0;
    return next;
}

/* mostly symbols by which the trace, which has led to the set, can go on; idle marks among them */
static size_t any_chunk(uint8_t *chunk, const bellbadger_checked_rule *r, uint32_t *set) {
    size_t length = below(BYTES + 1);
    for (size_t i = 0; i < length; i++) {
        chunk[i] = 255;
        if (!below(6)) continue;
        chunk[i] = (uint8_t)below(r->k);
        for (int t = 0; t < r->k && below(200) && !step(r, *set, chunk[i]); t++) chunk[i] = (uint8_t)((chunk[i] + 1) % r->k);
        *set = step(r, *set, chunk[i]);
    }
    return length;
}

/* combined two at a time, anywhere, until one is left */
static bellbadger_summary in_any_bracketing(bellbadger_summary *s, int count) {
    while (count > 1) {
        int at = (int)below((uint32_t)count - 1);
        s[at] = bellbadger_summary_combine(s[at], s[at + 1]);
        memmove(s + at + 1, s + at + 2, sizeof *s * (size_t)(count - at - 2));
        count--;
    }
    return s[0];
}

/* the summary of a chunk by plain runs of the automaton, set by set */
static bellbadger_summary by_runs(const bellbadger_checked_rule *r, const bellbadger_judge *j, uint64_t number, const uint8_t *chunk, size_t length) {
    bellbadger_summary s = {.rule = digest(&j->rule), .first = number, .end = number + 1};
    for (size_t i = 0; i < length; i++) s.bytes += chunk[i] != 255;
    for (int d = 0; d < r->n; d++) {
        int runs = 0;
        for (int q = 0; q < r->n; q++) runs |= j->rule.delegates[q] == d && (number > 0 || r->initials >> q & 1);
        uint32_t set = runs ? 1u << d : 0;
        for (size_t i = 0; i < length; i++) {
            if (chunk[i] == 255) continue;
            set = step(r, set, chunk[i]), s.count += set != 0;
        }
        for (int q = 0; q < r->n; q++)
            if (set >> q & 1 && j->rule.delegates[q] != BELLBADGER_NO_DELEGATE) s.leads[d] |= 1u << j->rule.delegates[q];
    }
    return s;
}

static long yes, no, merged;

/* the report of a filled board with the same chunks, whichever chunk was summarized first */
static void as_a_board(void) {
    static uint8_t chunks[PLACES][BYTES];
    static bellbadger_summary s[PLACES];
    static bellbadger_judge j, filled;
    bellbadger_checked_rule r;
    size_t length[PLACES];
    int places = 1 + (int)below(below(2) ? 6 : PLACES);
    j = filled = any_judge(&r);
    uint32_t set = r.initials;
    open(&filled, (size_t)places, 0);
    merged += j.rule.starts < j.rule.n;
    for (int p = 0; p < places; p++) length[p] = any_chunk(chunks[p], &r, &set);
    for (int p = places - 1; p >= 0; p--) {
        s[p] = summarize(&j, (uint64_t)p, chunks[p], length[p], 0);
        CHECK(same_summary(s[p], by_runs(&r, &j, (uint64_t)p, chunks[p], length[p])));
        deliver(&filled, (size_t)p, 0, chunks[p], length[p], 0);
        CHECK(s[p].count == filled.board.counts[p] && s[p].bytes == filled.board.lengths[p]);
    }
    bellbadger_verdict_result due = bellbadger_verdict(filled);
    bellbadger_summary all = in_any_bracketing(s, places);
    CHECK(same_report(bellbadger_summary_conclude(below(2) ? j : filled, all, (uint64_t)places), due));
    due.kind == BELLBADGER_YES ? yes++ : no++;
}

/* more chunks than a board takes: the yes or no of following, and the counts added up */
static void many_chunks(void) {
    static uint8_t chunk[BYTES];
    static bellbadger_summary s[MANY];
    static bellbadger_judge j;
    bellbadger_checked_rule r;
    bellbadger_follow_result followed;
    int chunks = PLACES + 1 + (int)below(MANY - PLACES);
    uint64_t count = 0, bytes = 0;
    j = any_judge(&r);
    followed.set = r.initials;
    for (int c = 0; c < chunks; c++) {
        uint32_t set = followed.set;
        size_t length = any_chunk(chunk, &r, &set);
        s[c] = summarize(&j, (uint64_t)c, chunk, length, 0);
        count += s[c].count, bytes += s[c].bytes;
        followed = bellbadger_follow(r, followed.set, chunk, length);
        CHECK(followed.set == set);
    }
    bellbadger_verdict_result said = bellbadger_summary_conclude(j, in_any_bracketing(s, chunks), (uint64_t)chunks);
    CHECK(said.kind == (followed.ends ? BELLBADGER_YES : BELLBADGER_NO) && said.number == count && said.bytes == bytes && divides(said));
}

enum { FEW = 8 };
static long right, refused_by[45];

/* A list that may be wrong: chunks lost, doubled, exchanged or refused, summaries by another rule, another number of
 * chunks asked for. It is a report only where each chunk came once, in order, by this rule, and all of them. */
static void gone_wrong(void) {
    static const bellbadger_summary none = {.broken = 1};
    static bellbadger_judge j, other, filled;
    static uint8_t chunks[FEW + 1][BYTES];
    size_t length[FEW + 1];
    bellbadger_summary list[2 * FEW + 2];
    bellbadger_checked_rule r, q;
    int n = 1 + (int)below(FEW), count = 0, asked = n, whole = 1, due = 0, elsewhere = !below(9);
    j = any_judge(&r);
    do other = any_judge(&q);
    while (q.k < r.k);
    uint32_t set = r.initials;
    for (int c = 0; c <= n; c++) length[c] = any_chunk(chunks[c], &r, &set);
    uint32_t wrong = below(8), at = below((uint32_t)n);
    for (int c = 0; c < n; c++) {
        int is_there = !(wrong == 1 && c == (int)at), twice = wrong == 2 && c == (int)at;
        for (int i = 0; i < is_there + twice; i++) {
            int by_other = elsewhere || (wrong == 3 && c == (int)at);
            list[count++] = summarize(by_other ? &other : &j, (uint64_t)c, chunks[c], length[c], 0);
        }
    }
    if (wrong == 4 && n > 1) { /* two are exchanged */
        bellbadger_summary s = list[at];
        list[at] = list[(at + 1) % (uint32_t)n], list[(at + 1) % (uint32_t)n] = s;
    }
    if (wrong == 5) list[at] = none;                                   /* refused, and nobody looked */
    if (wrong == 6) asked += below(2) ? 1 : -1;
    if (wrong == 7) list[count++] = summarize(&j, (uint64_t)n, chunks[n], length[n], 0);
    if (count == 0) return;
    for (int i = 0; i < count; i++) whole &= i < asked && list[i].first == (uint64_t)i && list[i].rule == digest(&j.rule) && !list[i].broken;
    whole &= count == asked && asked > 0;
    for (int i = 0; i < count; i++) {
        if (list[i].broken || (i > 0 && (list[i - 1].end != list[i].first || list[i - 1].rule != list[i].rule))) due = 42;
    }
    if (!due) due = list[0].first != 0 ? 42 : list[0].rule != digest(&j.rule) ? 43 : list[count - 1].end != (uint64_t)asked || asked == 0 ? 44 : 0;
    CHECK(whole == (due == 0));
    bellbadger_verdict_result said = bellbadger_summary_conclude(j, in_any_bracketing(list, count), (uint64_t)asked);
    if (due) {
        CHECK(said.kind == BELLBADGER_REFUSED && said.number == (uint64_t)due && said.bytes == 0 && !bellbadger_is_yes(said));
        refused_by[due]++;
        return;
    }
    filled = j;
    open(&filled, (size_t)asked, 0);
    for (int c = 0; c < asked; c++) deliver(&filled, (size_t)c, 0, chunks[c], length[c], 0);
    CHECK(same_report(said, bellbadger_verdict(filled)));
    right++;
}

/* random numbers in every field: the functions end, and refuse in their order */
static void any_numbers(int times) {
    static bellbadger_judge j;
    static uint8_t chunk[600];
    for (int i = 0; i < times; i++) {
        uint8_t *bytes = (uint8_t *)&j;
        for (size_t b = 0; b < sizeof j; b++) bytes[b] = (uint8_t)(random_number() >> 32);
        for (size_t b = 0; b < sizeof chunk; b++) chunk[b] = (uint8_t)(below(3) ? below(16) : 255);
        if (i % 2) j.rule.n %= 34, j.rule.k = 16;
        int foreign = 0;
        for (size_t b = 0; b < sizeof chunk; b++) foreign |= chunk[b] >= j.rule.k && chunk[b] != 255;
        uint64_t number = below(3) ? below(3) : random_number();
        bellbadger_summary s = summarize(&j, number, chunk, sizeof chunk, j.rule.n == 0 ? 20 : foreign ? 13 : 0);
        if (j.rule.n == 0 || foreign) continue;
        bellbadger_verdict_result said = bellbadger_summary_conclude(j, s, 1);
        CHECK(number == 0 ? said.kind == BELLBADGER_YES || said.kind == BELLBADGER_NO : said.kind == BELLBADGER_REFUSED && said.number == 42);
        said = bellbadger_summary_conclude(j, any_summary(), below(3));
        CHECK(said.kind != BELLBADGER_REFUSED || (said.number >= 42 && said.number <= 44));
    }
}

static void *all(void *times) {
    int rules = *(int *)times;
    by_hand();
    refusals();
    no_wrong_yes();
    near_rules(2000);
    combining(5 * rules);
    for (int i = 0; i < rules; i++) as_a_board();
    for (int i = 0; i < rules / 20 + 1; i++) many_chunks();
    for (int i = 0; i < 2 * rules; i++) gone_wrong();
    any_numbers(rules / 4 + 1);
    /* the boards and lists tell something */
    CHECK(rules < 1000 || (yes > rules / 8 && no > rules / 8 && merged > rules / 8 && right > rules / 8));
    CHECK(rules < 1000 || (refused_by[42] > rules / 4 && refused_by[43] > rules / 20 && refused_by[44] > rules / 8));
    return NULL;
}

int main(int argc, char **argv) {
    int rules = argc > 1 ? atoi(argv[1]) : 3000;
    pthread_attr_t small;
    pthread_t thread;
    CHECK(!pthread_attr_init(&small) && !pthread_attr_setstacksize(&small, STACK));
    CHECK(!pthread_create(&thread, &small, all, &rules) && !pthread_join(thread, NULL));
    printf("summaries: %ld checks on a stack of %d KB; boards: %ld yes, %ld no; lists: %ld whole, refused %ld with 42, %ld with 43, %ld with 44\n", checks,
           STACK / 1024, yes, no, right, refused_by[42], refused_by[43], refused_by[44]);
    return 0;
}
