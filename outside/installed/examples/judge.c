/* Judges a trace of two chunks, the second first, by the rule that accepts what ends in 0 1. */
#include <stdio.h>

#include <bellbadger/bellbadger.h>

static const uint8_t rule[] = {3, 2, 1, 0, 0, 0, 4, 0, 0, 0, 22, 0, 6, 0, 28, 0, 2, 0, 30, 0, 0, 0, 0, 0, 0, 1, 1, 0, 1, 2};

int main(void) {
    static bellbadger_judge judge;
    static const uint8_t first[] = {0}, second[] = {1};
    bellbadger_new_at(&judge);
    int refused = bellbadger_load_at(&judge, rule, sizeof rule, NULL, NULL);
    if (!refused) refused = bellbadger_open_at(&judge, 2);
    if (!refused) refused = bellbadger_deliver_at(&judge, 1, 0, second, sizeof second, NULL);
    if (!refused) refused = bellbadger_deliver_at(&judge, 0, 0, first, sizeof first, NULL);
    if (refused) {
        fprintf(stderr, "refused %d\n", refused);
        return 2;
    }
    bool yes = bellbadger_is_yes(bellbadger_verdict_at(&judge));
    puts(yes ? "yes" : "no");
    return yes ? 0 : 1;
}
