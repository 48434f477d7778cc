/* A rule reduced, from C: rules worked by hand, random rules beside the words, state by state (which states are
 * reached, dead and alike is found by plain searches), a reduction that cannot be installed, refusals in their order
 * with their zeros, and rules in which any numbers stand. This would catch a state that stays though it is
 * unreachable, dead or alike to another, one that is merged though it is not, and numbers that are not made anew.
 * Prints how many checks were made and of how many rules; stops at the first that fails. */
#include "plain_rules.h"

/* an accepted reduction, which says of itself whether it installs; reducing it again changes nothing */
static bellbadger_checked_rule reduced(bellbadger_checked_rule rule) {
    bellbadger_reduce_result r = bellbadger_reduce(rule), again;
    bellbadger_install_result l = bellbadger_install(bellbadger_new(), r.rule);
    CHECK(TAKEN(r) && r.installs == l.accepted && (TAKEN(l) || REFUSED_WITH(l, 9)));
    CHECK(r.rule.k == rule.k && r.rule.n >= 1 && r.rule.n <= rule.n);
    again = bellbadger_reduce(r.rule);
    CHECK(ANSWERED(again, r.installs ? 0 : 9) && (!again.accepted || equal(&again.rule, &r.rule)));
    return r.rule;
}

static void refused(bellbadger_checked_rule rule, int number) {
    bellbadger_reduce_result r = bellbadger_reduce(rule);
    CHECK(REFUSED_WITH(r, number) && r.installs == 0 && zeros(&r.rule));
}

static void comes_to(bellbadger_checked_rule rule, bellbadger_checked_rule due) {
    bellbadger_checked_rule r = reduced(rule);
    CHECK(equal(&r, &due));
}

static void worked(void) {
    bellbadger_checked_rule a = plain(3, 2), nothing = BY_ONE(0, 0, 0);
    a.finals = 4, a.targets[0] = 3, a.targets[1] = 1, a.targets[17] = 4; /* what ends in 0 1 */
    comes_to(a, a);
    comes_to(BY_ONE(1, 2, 2, 0, 1), BY_ONE(1, 2, 2, 0)); /* state 2 is not reached */
    comes_to(BY_ONE(1, 2, 6, 0, 4), BY_ONE(1, 2, 2, 0)); /* state 2 leads nowhere */
    /* 1 is alike to 2 and 3 to 4, and neither is reached: they do not stand for the others */
    comes_to(BY_ONE(1, 24, 4, 8, 16, 0, 0), BY_ONE(1, 4, 2, 4, 0));
    comes_to(BY_ONE(2, 4, 2, 4, 0), BY_ONE(1, 2, 2, 0)); /* the initial state 1 becomes state 0 */
    /* 2 is alike to 0, which stands for it, where arcs lead and among the initial states; 1 leads nowhere */
    comes_to(BY_ONE(7, 8, 8, 2, 8, 4), BY_ONE(1, 2, 2, 1));
    comes_to(BY_ONE(1, 4, 3, 1, 4), nothing); /* no final state is reached */
    comes_to(BY_ONE(0, 1, 1), nothing);
    comes_to(BY_ONE(1, 0, 1), nothing);
    comes_to(nothing, nothing);
    comes_to(BY_ONE(1, 0, 2, 1), nothing);
    a = plain(32, 16), a.initials = 0xffffffff, a.finals = 0, nothing.k = 16;
    comes_to(a, nothing);
}

static void more_sets(void) {
    bellbadger_reduce_result few = bellbadger_reduce(grows(6, 6)), many = bellbadger_reduce(grows(7, 3));
    CHECK(bellbadger_install(bellbadger_new(), grows(7, 3)).sets == 142);
    CHECK(TAKEN(many) && many.installs == 0 && many.rule.n == 11 && TAKEN(few) && few.installs == 1 && few.rule.n == 13);
    CHECK(bellbadger_compare(grows(7, 3), many.rule).kind == BELLBADGER_SAME);
    reduced(grows(7, 3));
    refused(many.rule, 9);
}

/* 3, 4, 6, 8, 9 as installing gives them */
static void refusals(void) {
    bellbadger_checked_rule r = from_the_end(10, 1);
    refused(r, 9);
    r.targets[2] = 1;
    refused(r, 8);
    r.finals = 1u << 11;
    refused(r, 6);
    r.k = 17;
    refused(r, 4);
    r.n = 0;
    refused(r, 3);
}

static long rules, fewer, merged;

/* what each number of the reduced rule has to be, in the words of the header */
static void beside_the_words(const bellbadger_checked_rule *r) {
    bellbadger_checked_rule due;
    int stood_for = reduction(r, &due);
    if (stood_for < 0) return;
    rules++, fewer += due.n < r->n, merged += stood_for;
    comes_to(*r, due);
    CHECK(bellbadger_compare(*r, due).kind == BELLBADGER_SAME || bellbadger_compare(*r, due).refused == 45);
}

static void random_rules(int rounds) {
    for (int round = 0; round < rounds; round++) {
        bellbadger_checked_rule r = round % 2 ? any_rule(6, 2) : any_rule(32, 4);
        bellbadger_install_result l = bellbadger_install(bellbadger_new(), r);
        if (l.accepted)
            beside_the_words(&r);
        else
            refused(r, l.refused);
    }
    CHECK(rules > rounds / 2 && fewer > rounds / 5 && merged > rounds / 5);
}

/* random numbers in every field, made more and more sensible: the number is what installing gives */
static void garbage(int rounds) {
    static bellbadger_checked_rule r;
    for (int i = 0; i < rounds; i++) {
        uint8_t *bytes = (uint8_t *)&r;
        int sense = (int)below(6);
        for (size_t b = 0; b < sizeof r; b++) bytes[b] = (uint8_t)random_number();
        if (sense > 0) r.n = 1 + r.n % 8;
        if (sense > 1) r.k = 1 + r.k % 4;
        uint32_t states = r.n < 32 ? (1u << r.n) - 1 : 0xFFFFFFFF;
        if (sense > 2) r.initials &= states, r.finals &= states;
        for (int c = 0; sense > 3 && c < 512; c++) r.targets[c] = c / 16 < r.n && c % 16 < r.k ? r.targets[c] & random_number() & states : 0;
        bellbadger_install_result l = bellbadger_install(bellbadger_new(), r);
        if (l.accepted)
            beside_the_words(&r);
        else
            refused(r, l.refused);
    }
}

int main(int argc, char **argv) {
    int rounds = argc > 1 ? atoi(argv[1]) : 300;
    worked();
    more_sets();
    refusals();
    random_rules(2 * rounds);
    garbage(rounds);
    printf("C, a rule reduced: %ld checks, of %ld rules, %ld with fewer states then\n", checks, rules, fewer);
    return 0;
}
