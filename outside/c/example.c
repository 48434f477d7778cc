/* A rule file is read and the rule installed; then two controllers deliver out of order. Rule A accepts
 * the texts that end in 0 1. Every answer is looked at: a refused call hands back the judge that came,
 * and only `accepted` tells. */
#include <inttypes.h>
#include <stdio.h>
#include <stdlib.h>

#include "bellbadger.h"

static const uint8_t rule_a[] = {
    0x03, 0x02, 0x01, 0x00, 0x00, 0x00, 0x04, 0x00, 0x00, 0x00, 0x16, 0x00, 0x06, 0x00, 0x1C,
    0x00, 0x02, 0x00, 0x1E, 0x00, 0x00, 0x00, 0x00, 0x00, 0x00, 0x01, 0x01, 0x00, 0x01, 0x02,
};

/* Ends the program where a call that should be accepted is refused. */
static void expect_accepted(const char *call, uint8_t accepted, uint8_t refused) {
    if (accepted) return;
    printf("%s: refused %d\n", call, refused);
    exit(1);
}

static bellbadger_checked_rule read_rule(const uint8_t *file, size_t length) {
    bellbadger_read_result r = bellbadger_read(file, length);
    expect_accepted("read", r.accepted, r.refused);
    printf("%d states, %d symbols\n", r.rule.n, r.rule.k);
    return r.rule;
}

static bellbadger_judge install(bellbadger_judge judge, bellbadger_checked_rule rule) {
    bellbadger_install_result r = bellbadger_install(judge, rule);
    expect_accepted("install", r.accepted, r.refused);
    printf("%d sets, %d starts\n", r.sets, r.starts);
    return r.judge;
}

static bellbadger_judge open_board(bellbadger_judge judge, size_t places) {
    bellbadger_open_result r = bellbadger_open(judge, places);
    expect_accepted("open", r.accepted, r.refused);
    return r.judge;
}

static bellbadger_judge deliver(bellbadger_judge judge, size_t place, uint32_t revision, uint8_t event) {
    bellbadger_deliver_result r = bellbadger_deliver(judge, place, revision, &event, 1);
    expect_accepted("deliver", r.accepted, r.refused);
    printf("%" PRIu32 " looked up\n", r.looked);
    return r.judge;
}

static bellbadger_judge withdraw(bellbadger_judge judge, size_t place) {
    bellbadger_withdraw_result r = bellbadger_withdraw(judge, place);
    expect_accepted("withdraw", r.accepted, r.refused);
    return r.judge;
}

static void ask(bellbadger_judge judge) {
    static const char *words[] = {"refused", "waiting", "yes", "no"};
    bellbadger_verdict_result v = bellbadger_verdict(judge);
    printf("%s %" PRIu64, words[v.kind], v.number);
    if (v.kind == BELLBADGER_YES || v.kind == BELLBADGER_NO)
        printf(": %" PRIu64 " bytes, %" PRIu64 " for each and %" PRIu64 " over", v.bytes, v.quotient, v.remainder);
    printf("\n");
}

int main(void) {
    if (bellbadger_version() != BELLBADGER_VERSION || bellbadger_state_size() != sizeof(bellbadger_judge)) {
        printf("the library is not the one that bellbadger.h describes\n");
        return 1;
    }
    /* an editor checks files and has no judge: this one was cut off, the next is a rule */
    bellbadger_read_result cut = bellbadger_read(rule_a, sizeof rule_a - 1);
    printf("%s %d\n", cut.accepted ? "accepted" : "refused", cut.refused);
    bellbadger_checked_rule rule = read_rule(rule_a, sizeof rule_a);
    /* bellbadger_load(bellbadger_new(), rule_a, sizeof rule_a) comes to the same */
    bellbadger_judge judge = install(bellbadger_new(), rule);
    judge = open_board(judge, 2);
    ask(judge);
    judge = deliver(judge, 1, 0, 1);
    judge = deliver(judge, 0, 0, 0);
    ask(judge);
    /* the same revision again is refused, even after a withdrawal; a greater one is taken */
    bellbadger_deliver_result again = bellbadger_deliver(judge, 0, 0, (const uint8_t[]){1}, 1);
    printf("%s %d\n", again.accepted ? "accepted" : "refused", again.refused);
    judge = deliver(withdraw(again.judge, 0), 0, 1, 1);
    ask(judge);
    /* a later recording supersedes what stands */
    judge = deliver(judge, 0, 2, 0);
    ask(judge);
    return 0;
}
