/* Two rules compared, from C: differences worked by hand, the first of all texts by trying them in their order,
 * the longest there can be, 512 and 513 pairs, refusals in their order with their zeros, larger rules beside a
 * plain search and beside themselves in another order, and rules in which any numbers stand. This would catch a
 * text that is not the first, a rule that is named wrongly, a pair that is taken for another, and a difference
 * that is refused though it shows soon. Prints how many checks were made; stops at the first that fails. */
#pragma GCC diagnostic ignored "-Wunused-function" /* not all of checks.h is used */
#include "checks.h"

/* Two deterministic automata, of the sets of up to two states each, are told apart by a text shorter than their
 * numbers of states together. */
enum { TRIED = 8 };

static bellbadger_checked_rule plain(int n, int k) {
    bellbadger_checked_rule r = {.n = (uint8_t)n, .k = (uint8_t)k, .initials = 1, .finals = 1};
    return r;
}

static void set(bellbadger_checked_rule *r, int state, uint32_t by_0, uint32_t by_1) {
    r->targets[16 * state] = by_0;
    r->targets[16 * state + 1] = by_1;
}

/* every byte behind the text is 0 */
static int zeros_from(const bellbadger_compare_result *r, int from) {
    for (int i = from; i < 511; i++)
        if (r->text[i]) return 0;
    return 1;
}

static void one_way(int kind, bellbadger_checked_rule one, bellbadger_checked_rule two, const uint8_t *due, int length) {
    bellbadger_compare_result r = bellbadger_compare(one, two);
    CHECK(r.kind == kind && r.refused == 0 && r.length == length);
    CHECK(zeros_from(&r, length) && (length == 0 || !memcmp(r.text, due, (size_t)length)));
}

/* the first of the two alone accepts the text; turned round, the second */
static void apart(bellbadger_checked_rule one, bellbadger_checked_rule two, const uint8_t *due, int length) {
    one_way(BELLBADGER_FIRST_ALONE, one, two, due, length);
    one_way(BELLBADGER_SECOND_ALONE, two, one, due, length);
}

static void same_texts(bellbadger_checked_rule one, bellbadger_checked_rule two) {
    one_way(BELLBADGER_SAME, one, two, NULL, 0);
    one_way(BELLBADGER_SAME, two, one, NULL, 0);
}

static void refused(bellbadger_checked_rule one, bellbadger_checked_rule two, int number) {
    bellbadger_compare_result r = bellbadger_compare(one, two);
    CHECK(r.kind == BELLBADGER_REFUSED && r.refused == number && r.length == 0 && zeros_from(&r, 0));
}

/* what ends in 0 1; what ends in 0 1 and has a 0 more; all texts; none */
static bellbadger_checked_rule ends, longer, every, nothing;

static void worked(void) {
    static const uint8_t verdicts_and_diagnoses[] = {BELLBADGER_WAITING, BELLBADGER_YES, BELLBADGER_NO, BELLBADGER_MALFORMED,
                                                     BELLBADGER_LOST, BELLBADGER_OPEN, BELLBADGER_REFUSED};
    bellbadger_checked_rule turned = plain(3, 2), two_ways = plain(3, 2), one_way_less = plain(2, 2);
    for (size_t i = 0; i < sizeof verdicts_and_diagnoses; i++)
        CHECK(verdicts_and_diagnoses[i] != BELLBADGER_FIRST_ALONE && verdicts_and_diagnoses[i] != BELLBADGER_SECOND_ALONE &&
              verdicts_and_diagnoses[i] != BELLBADGER_SAME);
    ends = plain(3, 2), ends.finals = 4;
    set(&ends, 0, 3, 1), set(&ends, 1, 0, 4);
    longer = plain(4, 2), longer.finals = 8;
    set(&longer, 0, 2, 1), set(&longer, 1, 6, 2), set(&longer, 2, 0, 8);
    every = plain(1, 2), set(&every, 0, 1, 1);
    nothing = every, nothing.finals = 0;
    apart(ends, longer, (const uint8_t[]){0, 1}, 2);
    apart(every, nothing, NULL, 0); /* the empty text is a text */
    apart(every, ends, NULL, 0);
    apart(ends, nothing, (const uint8_t[]){0, 1}, 2);
    same_texts(ends, ends);
    same_texts(every, every);
    bellbadger_checked_rule never_begun = every;
    never_begun.initials = 0;
    same_texts(nothing, never_begun);
    turned.initials = 4, turned.finals = 1; /* `ends` with its states in another order */
    set(&turned, 2, 6, 4), set(&turned, 1, 0, 1);
    same_texts(ends, turned);
    /* of texts as short the first by symbols: all of two symbols, 0 1 and 1 1, 1 1 alone */
    two_ways.finals = 4;
    set(&two_ways, 0, 2, 2), set(&two_ways, 1, 4, 4);
    apart(two_ways, nothing, (const uint8_t[]){0, 0}, 2);
    set(&two_ways, 1, 0, 4);
    apart(two_ways, nothing, (const uint8_t[]){0, 1}, 2);
    set(&two_ways, 0, 0, 2);
    apart(two_ways, nothing, (const uint8_t[]){1, 1}, 2);
    /* sets that both have a final state are not the same set: the next 1 tells them apart */
    one_way_less.finals = 2;
    set(&one_way_less, 0, 2, 2), set(&one_way_less, 1, 2, 0);
    bellbadger_checked_rule both_ways = one_way_less;
    set(&both_ways, 1, 2, 2);
    apart(both_ways, one_way_less, (const uint8_t[]){0, 1}, 2);
}

/* by 0 alone, in cycles of 7, 8 and 9 states at once: each text leads to a set of its own, and after 504 to the
 * first again; the states that are reached after so many symbols, and no other, are not final */
static bellbadger_checked_rule cycles(int spared) {
    static const int size[] = {7, 8, 9};
    bellbadger_checked_rule r = plain(24, 1);
    r.initials = r.finals = 0;
    for (int part = 0, at = 0; part < 3; at += size[part++]) {
        r.initials |= 1u << at;
        for (int i = 0; i < size[part]; i++) {
            if (spared < 0 || i != spared % size[part]) r.finals |= 1u << (at + i);
            r.targets[16 * (at + i)] = 1u << (at + (i + 1) % size[part]);
        }
    }
    return r;
}

/* n states in a row, of which the last stays; all are final but the one that is spared */
static bellbadger_checked_rule row(int n, int spared) {
    bellbadger_checked_rule r = plain(n, 1);
    r.finals = ((1u << n) - 1) & ~(spared < 0 ? 0 : 1u << spared);
    for (int q = 0; q < n; q++) r.targets[16 * q] = 1u << (q + 1 < n ? q + 1 : q);
    return r;
}

/* the symbol 1 is the n-th from the end: texts lead to 2 ^ n sets from {0} */
static bellbadger_checked_rule from_the_end(int n, int k) {
    bellbadger_checked_rule r = plain(n + 1, k);
    r.finals = 1u << n;
    set(&r, 0, 1, 3);
    for (int q = 1; q < n; q++) set(&r, q, 2u << q, 2u << q);
    return r;
}

static void up_to_512_pairs(void) {
    static const uint8_t zeros_511[511];
    /* 504 texts lead to sets of their own, so n + 503 to pairs, n states being in a row */
    same_texts(cycles(-1), row(9, -1));
    refused(cycles(-1), row(10, -1), 45);
    refused(row(10, -1), cycles(-1), 45);
    /* after 7 symbols neither accepts; the next text that the cycles do not accept has 511, and is the 512th */
    apart(row(9, 7), cycles(7), zeros_511, 511);
    /* the same one later: the 513th */
    refused(row(10, 8), cycles(8), 45);
    /* of many more pairs the first are enough, where they tell: 1 0 0 .. is the first text of its length that
     * leads to a pair of its own, and behind eight 0 that is the 257th, behind nine the 513th */
    apart(from_the_end(9, 2), from_the_end(20, 2), (const uint8_t[]){1, 0, 0, 0, 0, 0, 0, 0, 0}, 9);
    refused(from_the_end(10, 2), from_the_end(20, 2), 45);
    refused(from_the_end(10, 2), from_the_end(10, 2), 45);
    bellbadger_checked_rule from_the_first = from_the_end(10, 2);
    from_the_first.finals |= 1;
    apart(from_the_first, from_the_end(10, 2), NULL, 0);
    /* 512 pairs; with a symbol more, which no arc has, the pair of empty sets is reached too */
    same_texts(from_the_end(9, 2), from_the_end(9, 2));
    refused(from_the_end(9, 3), from_the_end(9, 3), 45);
}

/* the first rule's number, the second's, 36, 45 */
static void refusals(void) {
    bellbadger_checked_rule mask = plain(2, 2), target = plain(2, 2), many = from_the_end(10, 2);
    mask.finals = 4;
    target.targets[2] = 1;
    refused(plain(33, 17), mask, 3);
    refused(plain(32, 17), plain(33, 2), 4);
    refused(mask, plain(0, 0), 6);
    refused(target, mask, 8);
    refused(many, plain(0, 1), 3);
    refused(many, plain(32, 0), 4);
    refused(plain(32, 1), mask, 6);
    refused(plain(32, 1), target, 8);
    refused(many, from_the_end(10, 3), 36);
    refused(plain(1, 1), plain(1, 2), 36);
    refused(many, many, 45);
}

static uint64_t seed = 88172645463325252u;
static uint32_t random_number(void) {
    seed ^= seed << 13;
    seed ^= seed >> 7;
    seed ^= seed << 17;
    return (uint32_t)(seed >> 32);
}

static uint32_t step(const bellbadger_checked_rule *r, uint32_t set, int symbol) {
    uint32_t next = 0;
    for (int q = 0; q < r->n; q++)
        if (set >> q & 1) next |= r->targets[16 * q + symbol];
    return next;
}

static int accepts(const bellbadger_checked_rule *r, const uint8_t *text, int length) {
    uint32_t set = r->initials;
    for (int i = 0; i < length; i++) set = step(r, set, text[i]);
    return (set & r->finals) != 0;
}

/* the next text as long, by symbols; 0 where it was the last */
static int next_text(uint8_t *text, int length, int k) {
    for (int i = length - 1; i >= 0; i--) {
        if (++text[i] < k) return 1;
        text[i] = 0;
    }
    return 0;
}

static bellbadger_checked_rule any_rule(int n, int k, int thin) {
    bellbadger_checked_rule r = plain(n, k);
    uint32_t states = n < 32 ? (1u << n) - 1 : 0xFFFFFFFF;
    r.initials = random_number() & states, r.finals = random_number() & states;
    for (int q = 0; q < n; q++)
        for (int s = 0; s < k; s++) {
            r.targets[16 * q + s] = random_number() & states;
            for (int i = 0; i < thin; i++) r.targets[16 * q + s] &= random_number();
        }
    return r;
}

/* texts of the rules' symbols in their order, until exactly one of the two accepts */
static void first_of_all(const bellbadger_checked_rule *one, const bellbadger_checked_rule *two) {
    uint8_t tried[TRIED] = {0};
    for (int length = 0; length < TRIED; length++)
        do {
            int first = accepts(one, tried, length), second = accepts(two, tried, length);
            if (first != second) {
                one_way(first ? BELLBADGER_FIRST_ALONE : BELLBADGER_SECOND_ALONE, *one, *two, tried, length);
                return;
            }
        } while (next_text(tried, length, one->k));
    one_way(BELLBADGER_SAME, *one, *two, NULL, 0);
}

static void small(int rounds) {
    for (int round = 0; round < rounds; round++) {
        int k = 1 + (int)(random_number() % 3);
        bellbadger_checked_rule one = any_rule(1 + (int)(random_number() % 2), k, 1), two = any_rule(1 + (int)(random_number() % 2), k, 1);
        first_of_all(&one, &two);
    }
}

/* The answer that is due, by a list of the pairs that texts lead to, each with the pair and the symbol that led
 * there first. */
static void by_a_plain_search(const bellbadger_checked_rule *one, const bellbadger_checked_rule *two) {
    static uint32_t firsts[1024], seconds[1024];
    static int before[1024], by[1024];
    int found = 1;
    firsts[0] = one->initials, seconds[0] = two->initials;
    for (int at = 0; at < found; at++) {
        int first = (firsts[at] & one->finals) != 0, second = (seconds[at] & two->finals) != 0;
        if (at == 512) {
            refused(*one, *two, 45);
            return;
        }
        if (first != second) {
            uint8_t text[511], *front = text + sizeof text;
            for (int pair = at; pair; pair = before[pair]) *--front = (uint8_t)by[pair];
            one_way(first ? BELLBADGER_FIRST_ALONE : BELLBADGER_SECOND_ALONE, *one, *two, front, (int)(text + sizeof text - front));
            return;
        }
        for (int s = 0; s < one->k && found < 1000; s++) {
            uint32_t next_first = step(one, firsts[at], s), next_second = step(two, seconds[at], s);
            int i = 0;
            while (i < found && !(firsts[i] == next_first && seconds[i] == next_second)) i++;
            if (i == found) firsts[found] = next_first, seconds[found] = next_second, before[found] = at, by[found++] = s;
        }
    }
    one_way(BELLBADGER_SAME, *one, *two, NULL, 0);
}

/* a rule with its states in another order */
static bellbadger_checked_rule reordered(const bellbadger_checked_rule *r) {
    int place[32];
    bellbadger_checked_rule out = plain(r->n, r->k);
    for (int q = 0; q < r->n; q++) {
        int other = (int)(random_number() % (uint32_t)(q + 1));
        place[q] = q, place[q] = place[other], place[other] = q;
    }
    out.initials = out.finals = 0;
    for (int q = 0; q < r->n; q++) {
        out.initials |= (r->initials >> q & 1) << place[q];
        out.finals |= (r->finals >> q & 1) << place[q];
        for (int s = 0; s < r->k; s++)
            for (int p = 0; p < r->n; p++) out.targets[16 * place[q] + s] |= (r->targets[16 * q + s] >> p & 1) << place[p];
    }
    return out;
}

/* larger rules: each with itself in another order, with one number changed, and with another rule */
static void large(int rounds) {
    for (int round = 0; round < rounds; round++) {
        int n = 1 + (int)(random_number() % 32), k = 1 + (int)(random_number() % 5), thin = 2 + (int)(random_number() % 4);
        bellbadger_checked_rule one = any_rule(n, k, thin), two = any_rule(1 + (int)(random_number() % 32), k, thin);
        bellbadger_checked_rule other = reordered(&one);
        by_a_plain_search(&one, &two);
        by_a_plain_search(&one, &other);
        if (random_number() % 2)
            other.finals ^= 1u << random_number() % (uint32_t)n;
        else
            other.targets[16 * (random_number() % (uint32_t)n) + random_number() % (uint32_t)k] ^= 1u << random_number() % (uint32_t)n;
        by_a_plain_search(&one, &other);
        by_a_plain_search(&other, &one);
    }
}

/* what the judge says of a text, with the rule installed; nothing where it has too many sets */
static void judged(const bellbadger_checked_rule *r, const bellbadger_compare_result *c, int yes) {
    bellbadger_judge j = bellbadger_new();
    bellbadger_install_result installed = bellbadger_install(j, *r);
    if (!installed.accepted) {
        CHECK(REFUSED_WITH(installed, 9));
        return;
    }
    j = installed.judge;
    open(&j, 1, 0);
    deliver(&j, 0, 0, c->text, c->length, 0);
    CHECK(bellbadger_verdict(j).kind == (yes ? BELLBADGER_YES : BELLBADGER_NO));
}

/* random numbers in every field, made more and more sensible: the number is what installing gives to the first
 * rule that is none, and the judge says of the text what was told */
static void garbage(int rounds) {
    static bellbadger_checked_rule r[2];
    for (int i = 0; i < rounds; i++) {
        int number[2];
        for (int x = 0; x < 2; x++) {
            uint8_t *bytes = (uint8_t *)&r[x];
            int sense = (int)(random_number() % 8);
            for (size_t b = 0; b < sizeof r[x]; b++) bytes[b] = (uint8_t)random_number();
            if (sense > 0) r[x].n = 1 + r[x].n % 8;
            if (sense > 1) r[x].k = 1 + r[x].k % 2;
            uint32_t states = r[x].n < 32 ? (1u << r[x].n) - 1 : 0xFFFFFFFF;
            if (sense > 2) r[x].initials &= states, r[x].finals &= states;
            for (int c = 0; sense > 3 && c < 512; c++)
                r[x].targets[c] = c / 16 < r[x].n && c % 16 < r[x].k ? r[x].targets[c] & random_number() & states : 0;
            bellbadger_install_result l = bellbadger_install(bellbadger_new(), r[x]);
            number[x] = l.accepted || l.refused == 9 ? 0 : l.refused;
        }
        if (number[0] || number[1] || r[0].k != r[1].k) {
            refused(r[0], r[1], number[0] ? number[0] : number[1] ? number[1] : 36);
            continue;
        }
        bellbadger_compare_result c = bellbadger_compare(r[0], r[1]);
        CHECK(c.kind >= BELLBADGER_FIRST_ALONE && c.kind <= BELLBADGER_SAME);
        if (c.kind == BELLBADGER_SAME) continue;
        judged(&r[0], &c, c.kind == BELLBADGER_FIRST_ALONE);
        judged(&r[1], &c, c.kind == BELLBADGER_SECOND_ALONE);
    }
}

/* ---- whatever stands in an answer, the kind of the same alone says so */
static void only_same_is_same(void) {
    for (int kind = 0; kind < 256; kind++) {
        bellbadger_compare_result r = {.kind = (uint8_t)kind, .length = 1};
        CHECK(bellbadger_is_same(r) == (kind == BELLBADGER_SAME));
    }
}

int main(int argc, char **argv) {
    int rounds = argc > 1 ? atoi(argv[1]) : 300;
    worked();
    only_same_is_same();
    up_to_512_pairs();
    refusals();
    small(10 * rounds);
    large(rounds);
    garbage(rounds);
    printf("C, two rules compared: %ld checks\n", checks);
    return 0;
}
