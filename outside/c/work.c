/* One delivery, whose work tests/work counts in instructions: work CASE LENGTH. Each case has a rule, a
 * place and a text of LENGTH bytes, at most 65,536.
 *   checked   the last byte is foreign, so that every byte is checked and none is run
 *   dies      every run dies at the first byte
 *   nothing   place 0 of a rule without initial states: nothing is run
 *   alone     place 0, one run
 *   eight, thirty-two   runs that never meet
 *   meeting   32 runs that meet soon
 *   dying     32 runs, each of which dies at a byte of its own
 */
#include <stdio.h>
#include <stdlib.h>
#include <string.h>

#include "bellbadger.h"

enum { BYTES = 65536 };
static uint8_t text[BYTES];

static int is(const char *name, const char *which) { return !strcmp(name, which); }

/* n states round and round by symbol 0, each stays by symbol 1, and symbol 2 leads nowhere; symbol 3 leads
 * from state 0 nowhere and leaves every other where it is */
static bellbadger_checked_rule cycle(unsigned n) {
    bellbadger_checked_rule r = {.n = (uint8_t)n, .k = 4, .initials = 1, .finals = 1};
    for (unsigned q = 0; q < n; q++) {
        r.targets[16 * q] = 1u << (q + 1) % n;
        r.targets[16 * q + 1] = 1u << q;
        r.targets[16 * q + 3] = q ? 1u << q : 0;
    }
    return r;
}

/* symbol s leads from q to some state of a fixed list, so that runs meet */
static bellbadger_checked_rule meeting(void) {
    bellbadger_checked_rule r = {.n = 32, .k = 2, .initials = 1, .finals = 0x5a3c96e1};
    for (unsigned q = 0; q < 32; q++) {
        r.targets[16 * q] = 1u << (q * q + 3 * q + 7) % 32;
        r.targets[16 * q + 1] = 1u << (q * 5 + q / 3) % 32;
    }
    return r;
}

/* the n runs die one after the other, at places that are spread over the text */
static void deaths(unsigned n, size_t length) {
    unsigned dead = 0, turned = 0; /* state q of the start stands at (q + turned) % n */
    for (size_t i = 0; i < length; i++) {
        if (dead < n && i >= length / (n + 1) * (dead + 1)) {
            if ((turned + dead) % n == 0) text[i] = 3, dead++;
            else text[i] = 0;
        }
        if (text[i] == 0) turned++;
    }
}

int main(int arguments, char **argument) {
    if (arguments != 3) return 2;
    const char *name = argument[1];
    size_t length = (size_t)strtoul(argument[2], NULL, 10), place = 1;
    bellbadger_checked_rule rule = cycle(32);
    if (length > BYTES || !bellbadger_make_text(2, 1, text, BYTES).accepted) return 2;
    if (is(name, "checked")) text[length ? length - 1 : 0] = 4;
    else if (is(name, "dies")) text[0] = 2;
    else if (is(name, "nothing")) place = 0, rule.initials = 0;
    else if (is(name, "alone")) place = 0;
    else if (is(name, "eight")) rule = cycle(8);
    else if (is(name, "meeting")) rule = meeting();
    else if (is(name, "dying")) deaths(32, length);
    else if (!is(name, "thirty-two")) return 2;
    bellbadger_install_result installed = bellbadger_install(bellbadger_new(), rule);
    bellbadger_open_result opened = bellbadger_open(installed.judge, 2);
    bellbadger_deliver_result r = bellbadger_deliver(opened.judge, place, 0, text, length);
    printf("%u %u %u\n", r.accepted, r.refused, r.looked);
    return 0;
}
