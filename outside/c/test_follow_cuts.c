/* Traces of up to 300 bytes, cut anywhere into up to 64 chunks, by random rules of up to 32 states: each answer
 * against plain runs of the automaton, state by state, over the trace from its beginning; the whole trace in one
 * piece; and a filled board with the same chunks, delivered last one first.
 * This would catch a state that is forgotten between chunks or from 8, 16 or 24 on, a place, an expected symbol or
 * an end that depends on where the trace is cut, and another yes or no than the board's.
 * Prints how many checks were made; stops at the first that fails. */
#include "checks.h"

enum { RULES = 3000, CHUNKS = 64, MOST = 300 };

typedef struct {
    char at[32]; /* whether state q is reached */
} reached;

static uint64_t state = 0x9e3779b97f4a7c15u;

static uint32_t below(uint32_t bound) {
    state ^= state << 13, state ^= state >> 7, state ^= state << 17;
    return (uint32_t)(state >> 20) % bound;
}

static int arc(const bellbadger_checked_rule *r, int q, int s, int p) {
    return r->targets[16 * q + s] >> p & 1;
}

static reached next(const bellbadger_checked_rule *r, reached from, int s) {
    reached to = {{0}};
    for (int q = 0; q < r->n; q++)
        for (int p = 0; from.at[q] && p < r->n; p++) to.at[p] |= arc(r, q, s, p);
    return to;
}

static int ends(const bellbadger_checked_rule *r, reached now) {
    for (int q = 0; q < r->n; q++)
        if (now.at[q] && r->finals >> q & 1) return 1;
    return 0;
}

static char leads[32]; /* whether some text leads from state q to a final state */

/* by every symbol, until nothing new is reached */
static int leads_from(const bellbadger_checked_rule *r, int q) {
    reached now = {{0}}, more;
    now.at[q] = 1;
    for (;;) {
        more = now;
        for (int p = 0; p < r->n * r->k; p++)
            if (now.at[p / r->k])
                for (int t = 0; t < r->n; t++) more.at[t] |= arc(r, p / r->k, p % r->k, t);
        if (memcmp(&now, &more, sizeof now) == 0) return ends(r, now);
        now = more;
    }
}

static int can_end(const bellbadger_checked_rule *r, reached now) {
    for (int q = 0; q < r->n; q++)
        if (now.at[q] && leads[q]) return 1;
    return 0;
}

static uint32_t mask(reached now) {
    uint32_t set = 0;
    for (int q = 0; q < 32; q++) set |= (uint32_t)now.at[q] << q;
    return set;
}

static uint16_t could_come(const bellbadger_checked_rule *r, reached now) {
    uint16_t symbols = 0;
    for (int s = 0; s < r->k; s++)
        if (can_end(r, next(r, now, s))) symbols |= (uint16_t)(1u << s);
    return symbols;
}

/* few arcs from each state, so that most rules have few sets; from `fence` on no arc leads back, and in most rules
 * no state there is final: a run that gets there is lost */
static bellbadger_checked_rule any_rule(void) {
    bellbadger_checked_rule r = {.n = (uint8_t)(below(3) ? 1 + below(32) : 32), .k = (uint8_t)(1 + below(below(4) ? 4 : 16))};
    uint32_t fence = below(4) ? 1 + below(r.n) : r.n, sometimes = 1 + below(6);
    for (uint32_t q = 0; q < r.n; q++)
        for (uint32_t s = 0; s < r.k; s++) {
            uint32_t from = q < fence ? 0 : fence;
            if (below(8)) r.targets[16 * q + s] |= 1u << (from + below(r.n - from));
            if (!below(10 * sometimes)) r.targets[16 * q + s] |= 1u << (from + below(r.n - from));
        }
    r.initials = 1u << below(fence);
    if (!below(3)) r.initials |= 1u << below(r.n);
    for (uint32_t q = 0; q < fence; q++) r.finals |= (uint32_t)!below(3) << q;
    if (!below(8)) r.finals |= 1u << below(r.n);
    if (!below(40)) r.initials = 0;
    return r;
}

static uint8_t trace[MOST];
static reached after[MOST + 1]; /* after so many bytes of the trace */
static int hope[MOST + 1];

/* mostly symbols that can still lead to an end, and now and then any or an idle mark */
static size_t any_trace(const bellbadger_checked_rule *r) {
    size_t length = below(5) ? below(MOST + 1) : below(4);
    uint32_t seldom = 1 + below(200);
    for (int q = 0; q < 32; q++) after[0].at[q] = r->initials >> q & 1, leads[q] = q < r->n && leads_from(r, q);
    hope[0] = can_end(r, after[0]);
    for (size_t i = 0; i < length; i++) {
        uint16_t right = below(seldom) ? could_come(r, after[i]) : 0;
        uint8_t s = (uint8_t)below(r->k);
        for (int tries = 0; right && !(right >> s & 1) && tries < 99; tries++) s = (uint8_t)below(r->k);
        trace[i] = below(6) ? s : 255;
        after[i + 1] = trace[i] == 255 ? after[i] : next(r, after[i], s);
        hope[i + 1] = can_end(r, after[i + 1]);
    }
    return length;
}

/* what is due for the chunk from byte a up to b of the trace; 1 where it is lost in it */
static int piece(bellbadger_checked_rule r, bellbadger_follower by, uint32_t *set, size_t a, size_t b) {
    size_t lost = a, before = b;
    bellbadger_follow_result f = bellbadger_follow_by(by, *set, trace + a, b - a);
    while (lost <= b && hope[lost]) lost++;
    if (lost <= b) before = lost > a ? lost - 1 : a;
    CHECK(TAKEN(f) && f.set == mask(after[b]) && f.ends == ends(&r, after[b]));
    CHECK(f.lost == (lost <= b) && f.at == (lost <= b ? lost - a : 0));
    CHECK(f.expected == could_come(&r, after[before]) && f.complete == ends(&r, after[before]));
    *set = f.set;
    return f.lost && f.at > 0;
}

static long yes, no, lost_later, boards, large;

static void followed(bellbadger_checked_rule r) {
    static bellbadger_judge judge;
    size_t cuts[CHUNKS + 1], length = any_trace(&r), chunks = 1 + below(CHUNKS);
    bellbadger_follower_result p = bellbadger_follower_prepare(r);
    uint32_t set = r.initials, whole = r.initials;
    CHECK(TAKEN(p) && p.follower.rule.n == r.n);
    cuts[0] = 0, cuts[chunks] = length;
    for (size_t c = 1; c < chunks; c++) cuts[c] = below((uint32_t)length + 1);
    for (size_t c = 1; c < chunks; c++)
        for (size_t d = c; d > 1 && cuts[d] < cuts[d - 1]; d--) {
            size_t least = cuts[d];
            cuts[d] = cuts[d - 1], cuts[d - 1] = least;
        }
    for (size_t c = 0; c < chunks; c++) lost_later += piece(r, p.follower, &set, cuts[c], cuts[c + 1]) && c > 0;
    piece(r, p.follower, &whole, 0, length);
    CHECK(whole == set);
    judge = bellbadger_new();
    install(&judge, r, bellbadger_install(judge, r).accepted ? 0 : 9);
    if (judge.rule.n) {
        open(&judge, chunks, 0);
        for (size_t c = chunks; c-- > 0;) deliver(&judge, c, 0, trace + cuts[c], cuts[c + 1] - cuts[c], 0);
        CHECK(bellbadger_is_yes(bellbadger_verdict(judge)) == ends(&r, after[length]));
        boards++, large += r.n > 16;
        ends(&r, after[length]) ? yes++ : no++;
    }
}

int main(int argc, char **argv) {
    int rules = argc > 1 ? atoi(argv[1]) : RULES;
    for (int i = 0; i < rules; i++) followed(any_rule());
    if (rules == RULES) CHECK(yes > 100 && no > 100 && lost_later > 100 && large > 100);
    printf("follow, cut: %ld checks; %ld boards, %ld of over 16 states; %ld yes, %ld no, %ld lost after a first chunk\n", checks, boards, large, yes, no, lost_later);
    return 0;
}
