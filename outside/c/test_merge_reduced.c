/* Two rules reduced and made one, from C: results worked by hand, random rules beside the words,
 * number by number (the pairs that are reachable and live are found by plain searches, and so is
 * what a rule is reduced to) and text by text, the limits of 37, steps that are left out since a
 * rule has too many sets, refusals in their order with their zeros, and rules in which any numbers
 * stand. This would catch a pair that stays though it is unreachable or dead, or goes though it is
 * neither, a rule or a result that is not reduced, and a 37 that is told of other pairs. Prints how
 * many checks were made and of how many pairs of rules; stops at the first that fails. */
#include "plain_rules.h"

enum { WAYS = 3, PAIRS = 1024, TEXT = 5, MOST_SETS = 512 };

/* of each way: merged as bellbadger_merge does, with fewer states than that, where that refuses
 * with 37, refused with 37 */
static long as_merge[WAYS], smaller[WAYS], beyond[WAYS], too_many[WAYS], compared;

/* the two rules of which one is to be made: its states have the numbers that bellbadger_merge.h
 * gives them */
static int way_of, n_of;
static bellbadger_checked_rule first, second;

static int in(uint32_t set, int q) {
    return set >> q & 1;
}

/* whether a state is one of the initial or final ones, of which the two rules have these */
static int in_either_or_pair(uint32_t ones, uint32_t twos, int q) {
    if (way_of == BELLBADGER_EITHER) return q < first.n ? in(ones, q) : in(twos, q - first.n);
    return in(ones, q / second.n) && in(twos, q % second.n);
}

static int arc(int q, int symbol, int p) {
    const uint32_t *t1 = first.targets + symbol, *t2 = second.targets + symbol;
    int n1 = first.n, n2 = second.n;
    if (way_of == BELLBADGER_EITHER) return (q < n1) == (p < n1) && (q < n1 ? in(t1[16 * q], p) : in(t2[16 * (q - n1)], p - n1));
    int one_moves = in(t1[16 * (q / n2)], p / n2), two_moves = in(t2[16 * (q % n2)], p % n2);
    if (way_of == BELLBADGER_BOTH) return one_moves && two_moves;
    return (one_moves && q % n2 == p % n2) || (two_moves && q / n2 == p / n2);
}

/* breadth first: the queue then has every state that arcs lead to from those in it; how many these
 * are */
static int search(int *queue, int found) {
    uint8_t seen[PAIRS] = {0};
    for (int i = 0; i < found; i++) seen[queue[i]] = 1;
    for (int at = 0; at < found; at++)
        for (int p = 0; p < n_of; p++)
            for (int s = 0; s < first.k && !seen[p]; s++)
                if (arc(queue[at], s, p)) seen[p] = 1, queue[found++] = p;
    return found;
}

static int is_live(int q) {
    int queue[PAIRS] = {q}, found = search(queue, 1);
    for (int i = 0; i < found; i++)
        if (in_either_or_pair(first.finals, second.finals, queue[i])) return 1;
    return 0;
}

/* The rule of the states that are reached and live, in their order: how many these are. It is made
 * where they are at most 32. */
static int trimmed(bellbadger_checked_rule *out) {
    int queue[PAIRS], old[32], kept = 0, found = 0;
    uint8_t stays[PAIRS] = {0};
    for (int q = 0; q < n_of; q++)
        if (in_either_or_pair(first.initials, second.initials, q)) queue[found++] = q;
    found = search(queue, found);
    for (int i = 0; i < found; i++) stays[queue[i]] = (uint8_t)is_live(queue[i]);
    for (int q = 0; q < n_of; q++)
        if (stays[q]) {
            if (kept < 32) old[kept] = q;
            kept++;
        }
    if (kept > 32) return kept;
    memset(out, 0, sizeof *out);
    out->n = kept ? (uint8_t)kept : 1, out->k = first.k;
    for (int p = 0; p < kept; p++) {
        out->initials |= (uint32_t)in_either_or_pair(first.initials, second.initials, old[p]) << p;
        out->finals |= (uint32_t)in_either_or_pair(first.finals, second.finals, old[p]) << p;
        for (int q = 0; q < kept; q++)
            for (int s = 0; s < first.k; s++) out->targets[16 * q + s] |= (uint32_t)arc(old[q], s, old[p]) << p;
    }
    return kept;
}

/* whether it has more than 512 sets: those of one state each, and what symbols lead to from them */
static int has_many_sets(const bellbadger_checked_rule *r) {
    uint32_t sets[MOST_SETS + 1];
    int found = 0;
    for (; found < r->n; found++) sets[found] = 1u << found;
    for (int at = 0; at < found; at++)
        for (int s = 0; s < r->k; s++) {
            uint32_t next = step(r, sets[at], s);
            int i = 0;
            while (i < found && sets[i] != next) i++;
            if (next == 0 || i < found) continue;
            sets[found++] = next;
            if (found > MOST_SETS) return 1;
        }
    return 0;
}

/* reduces a rule, which has to be one, but leaves it as it is where it has too many sets; 0 where
 * that was too long */
static int reduce_or_leave(bellbadger_checked_rule *r) {
    return has_many_sets(r) || reduction(r, r) >= 0;
}

/* the number with which a rule is refused, or 0 */
static int number_of(const bellbadger_checked_rule *r) {
    uint64_t none;
    if (r->n < 1 || r->n > 32) return 3;
    if (r->k < 1 || r->k > 16) return 4;
    none = ~0ull << r->n;
    if ((r->initials | r->finals) & none) return 6;
    for (int c = 0; c < 512; c++)
        if (c / 16 < r->n && c % 16 < r->k ? r->targets[c] & none : r->targets[c]) return 8;
    return 0;
}

/* the number that is due, or 0 and the rule that is; -1 where it was too long to find */
static int due_of(int way, const bellbadger_checked_rule *one, const bellbadger_checked_rule *two, bellbadger_checked_rule *due) {
    memset(due, 0, sizeof *due);
    if (number_of(one)) return number_of(one);
    if (number_of(two)) return number_of(two);
    if (one->k != two->k) return 36;
    way_of = way, first = *one, second = *two;
    if (!reduce_or_leave(&first) || !reduce_or_leave(&second)) return -1;
    n_of = way == BELLBADGER_EITHER ? first.n + second.n : first.n * second.n;
    if (trimmed(due) > 32) {
        memset(due, 0, sizeof *due);
        return 37;
    }
    return reduce_or_leave(due) ? 0 : -1;
}

/* every number of the answer, and that all others of the same way are its own */
static bellbadger_checked_rule answered(int way, bellbadger_checked_rule one, bellbadger_checked_rule two, int refused, const bellbadger_checked_rule *due) {
    bellbadger_merge_result r = bellbadger_merge_reduced((uint8_t)way, one, two);
    CHECK(r.accepted == (refused == 0) && r.refused == refused);
    CHECK(r.accepted || zeros(&r.rule));
    CHECK(!due || equal(&r.rule, due));
    return r.rule;
}

static void refused(int way, bellbadger_checked_rule one, bellbadger_checked_rule two, int number) {
    answered(way, one, two, number, NULL);
}

/* the answer that is due, the texts of the result, and what bellbadger_merge says of the two */
static void beside_the_words(int way, bellbadger_checked_rule one, bellbadger_checked_rule two) {
    bellbadger_checked_rule due;
    int number = due_of(way, &one, &two, &due);
    if (number < 0) return;
    bellbadger_checked_rule made = answered(way, one, two, number, &due);
    bellbadger_merge_result whole = bellbadger_merge((uint8_t)way, one, two);
    CHECK(whole.accepted ? number == 0 && made.n <= whole.rule.n : whole.refused == (number ? number : 37));
    compared++, too_many[way] += number == 37, beyond[way] += number == 0 && !whole.accepted;
    if (whole.accepted) as_merge[way] += made.n == whole.rule.n, smaller[way] += made.n < whole.rule.n;
    if (number || one.k > 2) return;
    for (unsigned word = 1; word < 2u << TEXT; word++) { /* its highest bit is no symbol */
        uint8_t text[TEXT + 1];
        int length = 0, symbols = 1;
        for (unsigned rest = word; rest > 1; rest >>= 1) symbols &= (rest & 1) < one.k, text[length++] = rest & 1;
        if (symbols) CHECK(accepts(&made, text, length, (1u << length) - 1) == due_by(way, &one, &two, text, length));
    }
}

/* by one symbol round so many states */
static bellbadger_checked_rule cycle(int n) {
    bellbadger_checked_rule r = plain(n, 1);
    for (int q = 0; q < n; q++) r.targets[16 * q] = 1u << (q + 1) % n;
    return r;
}

static bellbadger_checked_rule of_pattern(const char *pattern) {
    bellbadger_pattern_result file = bellbadger_pattern((const uint8_t *)pattern, strlen(pattern));
    CHECK(file.accepted);
    return read_file(file.bytes, file.length, 0);
}

static void worked(void) {
    static const uint32_t both[][2] = {{8, 1}, {0, 4}, {0, 0}, {3, 8}};
    static const uint32_t woven[][2] = {{11, 1}, {16, 6}, {32, 4}, {25, 8}, {2, 48}, {4, 32}};
    bellbadger_checked_rule a = plain(3, 2), e = plain(2, 2), due = {.n = 4, .k = 2, .initials = 1, .finals = 4};
    CHECK(sizeof(bellbadger_merge_result) == 2064);
    a.finals = 4, set(&a, 0, 3, 1), set(&a, 1, 0, 4); /* what ends in 0 1 */
    set(&e, 0, 2, 1), set(&e, 1, 1, 2);               /* what has an even number of 0s */
    /* an odd number of 0s, and 0 1 or 1 or nothing to come: these pairs go */
    for (int q = 0; q < 4; q++) set(&due, q, both[q][0], both[q][1]);
    answered(BELLBADGER_BOTH, e, a, 0, &due);
    /* here none goes */
    due = bellbadger_merge(BELLBADGER_EITHER, e, a).rule;
    answered(BELLBADGER_EITHER, e, a, 0, &due);
    due = (bellbadger_checked_rule){.n = 6, .k = 2, .initials = 1, .finals = 4};
    for (int q = 0; q < 6; q++) set(&due, q, woven[q][0], woven[q][1]);
    for (int way = 2; way < 256; way++) answered(way, e, a, 0, &due);
    /* the texts of no rule: one state, all masks 0 */
    due = (bellbadger_checked_rule){.n = 1, .k = 1};
    for (int way = 0; way < WAYS; way++) answered(way, BY_ONE(1, 0, 1), BY_ONE(1, 2, 1, 0), 0, &due);
    answered(BELLBADGER_BOTH, BY_ONE(1, 2, 2, 0), BY_ONE(1, 4, 2, 4, 0), 0, &due);
}

/* five states by nine are 45 pairs, of which four are needed */
static void five_by_nine(void) {
    bellbadger_checked_rule one = of_pattern("(ab)*cd"), two = of_pattern("(ab|ab|ab)*cd"), due = {.n = 4, .k = 16, .initials = 1, .finals = 8};
    due.targets[0] = 2, due.targets[2] = 4, due.targets[16 + 1] = 1, due.targets[32 + 3] = 8;
    CHECK(one.n == 5 && two.n == 9);
    CHECK(bellbadger_merge(BELLBADGER_BOTH, one, two).refused == 37 && bellbadger_merge(BELLBADGER_INTERLEAVING, one, two).refused == 37);
    answered(BELLBADGER_BOTH, one, two, 0, &due);
    answered(BELLBADGER_EITHER, one, two, 0, &due);
    for (int way = 0; way < WAYS; way++) beside_the_words(way, one, two), beside_the_words(way, two, one);
}

/* 37 is due to pairs that are reachable and live, be they alike or not, and of no others */
static void limits(void) {
    bellbadger_checked_rule due = cycle(32);
    for (int way = 0; way < WAYS; way++) {
        CHECK(bellbadger_merge((uint8_t)way, plain(32, 2), plain(32, 2)).refused == 37);
        CHECK(answered(way, plain(32, 2), plain(32, 2), 0, NULL).n == 1);
        beside_the_words(way, cycle(16), cycle(16));
    }
    answered(BELLBADGER_BOTH, cycle(32), cycle(32), 0, &due); /* in step: 32 pairs of 1,024 */
    answered(BELLBADGER_BOTH, cycle(32), cycle(1), 0, &due);
    CHECK(answered(BELLBADGER_BOTH, cycle(4), cycle(7), 0, NULL).n == 28);
    refused(BELLBADGER_BOTH, cycle(5), cycle(7), 37);
    refused(BELLBADGER_BOTH, cycle(3), cycle(11), 37);
    CHECK(answered(BELLBADGER_EITHER, cycle(15), cycle(17), 0, NULL).n == 32);
    CHECK(answered(BELLBADGER_EITHER, cycle(16), cycle(16), 0, NULL).n == 16);
    refused(BELLBADGER_EITHER, cycle(16), cycle(17), 37);
    refused(BELLBADGER_EITHER, cycle(32), cycle(1), 37);
    CHECK(answered(BELLBADGER_INTERLEAVING, cycle(4), cycle(8), 0, NULL).n < 32);
    refused(BELLBADGER_INTERLEAVING, cycle(3), cycle(11), 37);
    refused(BELLBADGER_INTERLEAVING, cycle(16), cycle(16), 37); /* 256 pairs, 0 in 8 bits */
    for (int n = 3; n < 7; n++) {
        for (int way = 0; way < WAYS; way++) beside_the_words(way, cycle(n), cycle(n + 3));
        beside_the_words(BELLBADGER_EITHER, cycle(20 - n), cycle(17));
    }
}

/* a step that 9 would refuse is left out: of the first rule, of the second, of the result alone */
static void left_out(void) {
    bellbadger_checked_rule every = plain(1, 2), many = from_the_end(10, 1), made;
    set(&every, 0, 1, 1);
    CHECK(has_many_sets(&many) && bellbadger_reduce(many).refused == 9 && !has_many_sets(&every));
    answered(BELLBADGER_BOTH, many, every, 0, &many);
    answered(BELLBADGER_BOTH, every, many, 0, &many);
    for (int way = 0; way < WAYS; way++) {
        beside_the_words(way, many, every), beside_the_words(way, every, many);
        beside_the_words(way, from_the_end(4, 0), from_the_end(5, 1));
        beside_the_words(way, grows(7, 3), every);
    }
    made = answered(BELLBADGER_INTERLEAVING, from_the_end(4, 0), from_the_end(5, 1), 0, NULL);
    CHECK(has_many_sets(&made) && !bellbadger_reduce(made).accepted);
    /* the result has more sets than bellbadger_merge's, which can be installed */
    made = answered(BELLBADGER_BOTH, grows(7, 3), every, 0, NULL);
    CHECK(bellbadger_install(bellbadger_new(), made).refused == 9);
    CHECK(bellbadger_install(bellbadger_new(), bellbadger_merge(BELLBADGER_BOTH, grows(7, 3), every).rule).accepted);
}

/* the first rule's number, the second's, 36, 37 */
static void refusals(void) {
    bellbadger_checked_rule mask = plain(2, 2), target = plain(2, 2), more = cycle(17);
    mask.finals = 4;
    target.targets[2] = 1;
    more.k = 2;
    for (int way = 0; way < WAYS; way++) {
        refused(way, plain(33, 17), mask, 3);
        refused(way, plain(32, 17), plain(33, 2), 4);
        refused(way, mask, plain(0, 0), 6);
        refused(way, target, mask, 8);
        refused(way, more, plain(0, 1), 3);
        refused(way, more, plain(32, 0), 4);
        refused(way, cycle(17), mask, 6);
        refused(way, cycle(17), target, 8);
        refused(way, cycle(16), more, 36);
        refused(way, plain(1, 1), plain(1, 2), 36);
    }
}

/* random rules, some with other symbols than the other, and large ones */
static void random_pairs(int rounds) {
    static const int most[] = {4, 8, 4, 32, 4, 8, 12, 32};
    for (int round = 0; round < rounds; round++) {
        bellbadger_checked_rule one = any_rule(most[round % 8], 2), two = any_rule(most[round % 8], 2);
        if (below(16))
            while (two.k != one.k) two = any_rule(most[round % 8], 2);
        for (int way = 0; way < WAYS; way++) beside_the_words(way, one, two);
    }
    for (int way = 0; way < WAYS; way++) CHECK(as_merge[way] && smaller[way] && beyond[way] && too_many[way]);
}

/* random numbers in every field, made more and more sensible */
static void garbage(int rounds) {
    static bellbadger_checked_rule r[2];
    for (int i = 0; i < rounds; i++) {
        for (int x = 0; x < 2; x++) {
            uint8_t *bytes = (uint8_t *)&r[x];
            int sense = (int)below(6);
            for (size_t b = 0; b < sizeof r[x]; b++) bytes[b] = (uint8_t)random_number();
            if (sense > 0) r[x].n = 1 + r[x].n % 6;
            if (sense > 1) r[x].k = 1 + r[x].k % 2;
            uint32_t states = r[x].n < 32 ? (1u << r[x].n) - 1 : 0xFFFFFFFF;
            if (sense > 2) r[x].initials &= states, r[x].finals &= states;
            for (int c = 0; sense > 3 && c < 512; c++) r[x].targets[c] = c / 16 < r[x].n && c % 16 < r[x].k ? r[x].targets[c] & random_number() & states : 0;
        }
        beside_the_words(i % WAYS, r[0], r[1]);
    }
}

int main(int argc, char **argv) {
    int rounds = argc > 1 ? atoi(argv[1]) : 300;
    worked();
    five_by_nine();
    limits();
    left_out();
    refusals();
    random_pairs(rounds);
    garbage(2 * rounds);
    printf("C, two rules reduced and made one: %ld checks, of %ld pairs, %ld of which merging refuses with 37\n", checks, compared, beyond[0] + beyond[1] + beyond[2]);
    return 0;
}
