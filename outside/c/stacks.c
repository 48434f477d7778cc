/* How much stack each function takes: it runs in a thread on a painted stack, and what lost its paint is
 * counted. A line for each function: its name and the most bytes that a call of it took beside what the
 * caller keeps, with the copies that are made of the arguments. tests/stacks holds the pages to it. */
#define _GNU_SOURCE
#include <pthread.h>
#include <stdio.h>
#include <stdlib.h>
#include <string.h>
#include <sys/mman.h>

#include "bellbadger.h"

#define STACK ((size_t)4 << 20)
#define PAINT 0xA5

static const uint8_t rule_a[] = {
    0x03, 0x02, 0x01, 0x00, 0x00, 0x00, 0x04, 0x00, 0x00, 0x00, 0x16, 0x00, 0x06, 0x00, 0x1C,
    0x00, 0x02, 0x00, 0x1E, 0x00, 0x00, 0x00, 0x00, 0x00, 0x00, 0x01, 0x01, 0x00, 0x01, 0x02,
};
static const char *const record = "load 03020100000004000000160006001C0002001E0000000000000101000102\n"
                                  "open 2\ndeliver 1 0 FF01FF\ndeliver 0 0 00\nverdict\nwithdraw 0\ndeliver 0 1 02\ndeliver 0 2 -\n";
static const uint8_t pattern[] = "(a|b)*ab";

static uint8_t plain[65536], idle[65536], made[65536];
static char installation[8 + 2 * 2058 + 64];
static bellbadger_checked_rule a, nearly_a, ring, many, none;
static bellbadger_judge fresh, ruled, ringed, opened, filled;
static bellbadger_profile profile;
static bellbadger_mapping mapping;
static bellbadger_failure_form form;
static bellbadger_follower follower, no_follower;
static bellbadger_tray tray, tray_opened, tray_filled;
static bellbadger_summary summary;
static bellbadger_saved saved;

/* A call, by which its result is kept: how many bytes that has. */
#define CALL(at, type, call)                              \
    static __attribute__((noinline)) size_t at(void) {    \
        type kept = call;                                 \
        __asm__ volatile("" : : "m"(kept) : "memory");    \
        return sizeof kept;                               \
    }
#define TEXT(text) (const uint8_t *)(text), strlen(text)

CALL(version, uint32_t, bellbadger_version())
CALL(state_size, size_t, bellbadger_state_size())
CALL(new, bellbadger_judge, bellbadger_new())
CALL(read_a, bellbadger_read_result, bellbadger_read(rule_a, sizeof rule_a))
CALL(read_cut, bellbadger_read_result, bellbadger_read(rule_a, sizeof rule_a - 1))
CALL(install_a, bellbadger_install_result, bellbadger_install(fresh, a))
CALL(install_ring, bellbadger_install_result, bellbadger_install(filled, ring))
CALL(install_many, bellbadger_install_result, bellbadger_install(filled, many))
CALL(load_a, bellbadger_load_result, bellbadger_load(fresh, rule_a, sizeof rule_a))
CALL(load_cut, bellbadger_load_result, bellbadger_load(filled, rule_a, sizeof rule_a - 1))
CALL(open_2, bellbadger_open_result, bellbadger_open(ruled, 2))
CALL(open_0, bellbadger_open_result, bellbadger_open(ruled, 0))
CALL(deliver_plain, bellbadger_deliver_result, bellbadger_deliver(opened, 1, 0, plain, sizeof plain))
CALL(deliver_idle, bellbadger_deliver_result, bellbadger_deliver(opened, 0, 0, idle, sizeof idle))
CALL(deliver_late, bellbadger_deliver_result, bellbadger_deliver(filled, 0, 0, idle, sizeof idle))
CALL(deliver_no_board, bellbadger_deliver_result, bellbadger_deliver(ruled, 0, 0, idle, sizeof idle))
CALL(withdraw_0, bellbadger_withdraw_result, bellbadger_withdraw(filled, 0))
CALL(withdraw_9, bellbadger_withdraw_result, bellbadger_withdraw(filled, 9))
CALL(verdict_filled, bellbadger_verdict_result, bellbadger_verdict(filled))
CALL(verdict_opened, bellbadger_verdict_result, bellbadger_verdict(opened))
CALL(replay_record, bellbadger_replay_result, bellbadger_replay(TEXT(record)))
CALL(replay_installation, bellbadger_replay_result, bellbadger_replay(TEXT(installation)))
CALL(diagnose_filled, bellbadger_diagnose_result, bellbadger_diagnose(filled))
CALL(diagnose_no_board, bellbadger_diagnose_result, bellbadger_diagnose(ruled))
CALL(save_filled, bellbadger_saved, bellbadger_save(filled))
CALL(restore_saved, bellbadger_restore_result, bellbadger_restore(saved.bytes, sizeof saved.bytes))
CALL(restore_cut, bellbadger_restore_result, bellbadger_restore(saved.bytes, sizeof saved.bytes - 1))
CALL(locate_plain, bellbadger_locate_result, bellbadger_locate(filled, 1, plain, sizeof plain))
CALL(locate_idle, bellbadger_locate_result, bellbadger_locate(filled, 1, idle, sizeof idle))
CALL(locate_gap, bellbadger_locate_result, bellbadger_locate(opened, 1, idle, sizeof idle))
CALL(locate_no_board, bellbadger_locate_result, bellbadger_locate(ruled, 0, idle, sizeof idle))
CALL(profile_size, size_t, bellbadger_profile_size())
CALL(profile_build_a, bellbadger_profile_build_result, bellbadger_profile_build(a))
CALL(profile_build_ring, bellbadger_profile_build_result, bellbadger_profile_build(ring))
CALL(profile_run_plain, bellbadger_profile_run_result, bellbadger_profile_run(profile, plain, sizeof plain))
CALL(profile_run_idle, bellbadger_profile_run_result, bellbadger_profile_run(profile, idle, sizeof idle))
CALL(compose, bellbadger_mapping, bellbadger_compose(mapping, mapping))
CALL(profile_verdict, uint8_t, bellbadger_profile_verdict(profile, mapping))
CALL(sample_accepted, bellbadger_sample_result, bellbadger_sample(BELLBADGER_ACCEPTED_TEXT, a))
CALL(sample_rejected, bellbadger_sample_result, bellbadger_sample(BELLBADGER_REJECTED_TEXT, ring))
CALL(sample_many, bellbadger_sample_result, bellbadger_sample(BELLBADGER_REJECTED_TEXT, many))
CALL(follow_plain, bellbadger_follow_result, bellbadger_follow(a, a.initials, plain, sizeof plain))
CALL(follow_ring, bellbadger_follow_result, bellbadger_follow(ring, ring.initials, idle, sizeof idle))
CALL(follow_none, bellbadger_follow_result, bellbadger_follow(none, 1, idle, sizeof idle))
CALL(follower_size, size_t, bellbadger_follower_size())
CALL(follower_ring, bellbadger_follower_result, bellbadger_follower_prepare(ring))
CALL(follower_none, bellbadger_follower_result, bellbadger_follower_prepare(none))
CALL(follow_by_ring, bellbadger_follow_result, bellbadger_follow_by(follower, ring.initials, idle, sizeof idle))
CALL(follow_by_none, bellbadger_follow_result, bellbadger_follow_by(no_follower, 1, idle, sizeof idle))
CALL(summary_size, size_t, bellbadger_summary_size())
CALL(summarize_first, bellbadger_summarize_result, bellbadger_summarize(ruled, 0, plain, sizeof plain))
CALL(summarize_idle, bellbadger_summarize_result, bellbadger_summarize(ringed, 1, idle, sizeof idle))
CALL(summarize_no_rule, bellbadger_summarize_result, bellbadger_summarize(fresh, 1, idle, sizeof idle))
CALL(summary_combine, bellbadger_summary, bellbadger_summary_combine(summary, summary))
CALL(summary_conclude, bellbadger_verdict_result, bellbadger_summary_conclude(ringed, summary, 1))
CALL(summary_conclude_late, bellbadger_verdict_result, bellbadger_summary_conclude(ruled, summary, 1))
CALL(pattern_right, bellbadger_pattern_result, bellbadger_pattern(pattern, sizeof pattern - 1))
CALL(pattern_wrong, bellbadger_pattern_result, bellbadger_pattern(pattern, 1))
CALL(merge_both, bellbadger_merge_result, bellbadger_merge(BELLBADGER_BOTH, a, a))
CALL(merge_either, bellbadger_merge_result, bellbadger_merge(BELLBADGER_EITHER, a, a))
CALL(merge_interleaving, bellbadger_merge_result, bellbadger_merge(BELLBADGER_INTERLEAVING, a, a))
CALL(merge_none, bellbadger_merge_result, bellbadger_merge(BELLBADGER_BOTH, a, none))
CALL(merge_reduced_both, bellbadger_merge_result, bellbadger_merge_reduced(BELLBADGER_BOTH, ring, ring))
CALL(merge_reduced_either, bellbadger_merge_result, bellbadger_merge_reduced(BELLBADGER_EITHER, a, nearly_a))
CALL(merge_reduced_interleaving, bellbadger_merge_result, bellbadger_merge_reduced(BELLBADGER_INTERLEAVING, a, a))
CALL(merge_reduced_many, bellbadger_merge_result, bellbadger_merge_reduced(BELLBADGER_BOTH, many, many))
CALL(merge_reduced_37, bellbadger_merge_result, bellbadger_merge_reduced(BELLBADGER_INTERLEAVING, many, a))
CALL(merge_reduced_none, bellbadger_merge_result, bellbadger_merge_reduced(BELLBADGER_BOTH, a, none))
CALL(compare_same, bellbadger_compare_result, bellbadger_compare(ring, ring))
CALL(compare_apart, bellbadger_compare_result, bellbadger_compare(a, nearly_a))
CALL(compare_many, bellbadger_compare_result, bellbadger_compare(many, many))
CALL(compare_none, bellbadger_compare_result, bellbadger_compare(a, none))
CALL(reduce_ring, bellbadger_reduce_result, bellbadger_reduce(ring))
CALL(reduce_many, bellbadger_reduce_result, bellbadger_reduce(many))
CALL(reduce_none, bellbadger_reduce_result, bellbadger_reduce(none))
CALL(make_text, bellbadger_made_result, bellbadger_make_text(16, 1, made, sizeof made))
CALL(form_a, bellbadger_form_result, bellbadger_form(ruled))
CALL(form_fresh, bellbadger_form_result, bellbadger_form(fresh))
CALL(form_back, bellbadger_table_result, bellbadger_form_back(form))
CALL(tray_size, size_t, bellbadger_tray_size())
CALL(tray_new, bellbadger_tray, bellbadger_tray_new())
CALL(tray_install_row, bellbadger_tray_install_result, bellbadger_tray_install_row(tray, a))
CALL(tray_install_column, bellbadger_tray_install_result, bellbadger_tray_install_column(tray, many))
CALL(tray_open, bellbadger_tray_open_result, bellbadger_tray_open(tray, 2, 1))
CALL(tray_deliver, bellbadger_tray_deliver_result, bellbadger_tray_deliver(tray_opened, 0, plain, 128))
CALL(tray_deliver_late, bellbadger_tray_deliver_result, bellbadger_tray_deliver(tray_filled, 0, plain, 128))
CALL(tray_withdraw, bellbadger_tray_withdraw_result, bellbadger_tray_withdraw(tray_filled, 0))
CALL(tray_verdict, bellbadger_tray_verdict_result, bellbadger_tray_verdict(tray_filled))
CALL(tray_fault, bellbadger_tray_fault_result, bellbadger_tray_fault(tray_filled))
CALL(tray_fault_opened, bellbadger_tray_fault_result, bellbadger_tray_fault(tray_opened))
CALL(tray_fault_no_board, bellbadger_tray_fault_result, bellbadger_tray_fault(tray))

static const struct {
    const char *function;
    size_t (*call)(void);
} calls[] = {
    {"version", version}, {"state_size", state_size}, {"new", new},
    {"read", read_a}, {"read", read_cut},
    {"install", install_a}, {"install", install_ring}, {"install", install_many},
    {"load", load_a}, {"load", load_cut},
    {"open", open_2}, {"open", open_0},
    {"deliver", deliver_plain}, {"deliver", deliver_idle}, {"deliver", deliver_late}, {"deliver", deliver_no_board},
    {"withdraw", withdraw_0}, {"withdraw", withdraw_9},
    {"verdict", verdict_filled}, {"verdict", verdict_opened},
    {"replay", replay_record}, {"replay", replay_installation},
    {"diagnose", diagnose_filled}, {"diagnose", diagnose_no_board},
    {"save", save_filled}, {"restore", restore_saved}, {"restore", restore_cut},
    {"locate", locate_plain}, {"locate", locate_idle}, {"locate", locate_gap}, {"locate", locate_no_board},
    {"profile_size", profile_size},
    {"profile_build", profile_build_a}, {"profile_build", profile_build_ring},
    {"profile_run", profile_run_plain}, {"profile_run", profile_run_idle},
    {"compose", compose}, {"profile_verdict", profile_verdict},
    {"sample", sample_accepted}, {"sample", sample_rejected}, {"sample", sample_many},
    {"follow", follow_plain}, {"follow", follow_ring}, {"follow", follow_none}, {"follower_size", follower_size},
    {"follower_prepare", follower_ring}, {"follower_prepare", follower_none}, {"follow_by", follow_by_ring}, {"follow_by", follow_by_none},
    {"summary_size", summary_size},
    {"summarize", summarize_first}, {"summarize", summarize_idle}, {"summarize", summarize_no_rule},
    {"summary_combine", summary_combine}, {"summary_conclude", summary_conclude}, {"summary_conclude", summary_conclude_late},
    {"pattern", pattern_right}, {"pattern", pattern_wrong},
    {"merge", merge_both}, {"merge", merge_either}, {"merge", merge_interleaving}, {"merge", merge_none},
    {"merge_reduced", merge_reduced_both}, {"merge_reduced", merge_reduced_either}, {"merge_reduced", merge_reduced_interleaving},
    {"merge_reduced", merge_reduced_many}, {"merge_reduced", merge_reduced_37}, {"merge_reduced", merge_reduced_none},
    {"compare", compare_same}, {"compare", compare_apart}, {"compare", compare_many}, {"compare", compare_none},
    {"reduce", reduce_ring}, {"reduce", reduce_many}, {"reduce", reduce_none},
    {"make_text", make_text},
    {"form", form_a}, {"form", form_fresh}, {"form_back", form_back},
    {"tray_size", tray_size}, {"tray_new", tray_new},
    {"tray_install_row", tray_install_row}, {"tray_install_column", tray_install_column},
    {"tray_open", tray_open},
    {"tray_deliver", tray_deliver}, {"tray_deliver", tray_deliver_late},
    {"tray_withdraw", tray_withdraw}, {"tray_verdict", tray_verdict},
    {"tray_fault", tray_fault}, {"tray_fault", tray_fault_opened}, {"tray_fault", tray_fault_no_board},
};
enum { CALLS = sizeof calls / sizeof calls[0] };

static uint8_t *begins; /* where the stack of the call begins */
static size_t kept;

static void *at_work(void *call) {
    begins = __builtin_frame_address(0);
    kept = calls[*(int *)call].call();
    return NULL;
}

static void expect(int fact, const char *what) {
    if (fact) return;
    fprintf(stderr, "stacks: %s\n", what);
    exit(1);
}

static size_t taken_by(uint8_t *stack, int call) {
    pthread_attr_t on_stack;
    pthread_t thread;
    size_t at = 0;
    memset(stack, PAINT, STACK);
    expect(!pthread_attr_init(&on_stack) && !pthread_attr_setstack(&on_stack, stack, STACK), "no such stack");
    expect(!pthread_create(&thread, &on_stack, at_work, &call) && !pthread_join(thread, NULL), "no thread");
    while (stack[at] == PAINT) at++;
    expect(at > 0, "the stack was too small");
    return (size_t)(begins - (stack + at)) - kept;
}

static void prepare(void) {
    size_t at = (size_t)sprintf(installation, "install 0302%08x%08x", 0x01000000, 0x04000000);
    a = bellbadger_read(rule_a, sizeof rule_a).rule;
    for (int c = 0; c < 512; c++) {
        uint32_t mask = a.targets[c];
        at += (size_t)sprintf(installation + at, "%02x000000", mask);
        ring.targets[c] = 1u << (c / 16 + 1 + c % 16) % 32;
    }
    sprintf(installation + at, "\nopen 1\ndeliver 0 0 00FF01\n");
    ring.n = 32, ring.k = 16, ring.initials = ring.finals = 1;
    many.n = 11, many.k = 2, many.initials = 1, many.finals = 1u << 10; /* the tenth from the end is 1 */
    many.targets[0] = 1, many.targets[1] = 3;
    for (int q = 1; q < 10; q++) many.targets[16 * q] = many.targets[16 * q + 1] = 2u << q;
    nearly_a = a, nearly_a.targets[33] = 4; /* it accepts 0 1 1 too */
    for (size_t i = 0; i < sizeof plain; i++) plain[i] = i % 2, idle[i] = i % 3 ? i % 2 : 255;
    fresh = bellbadger_new();
    ruled = bellbadger_install(fresh, a).judge;
    opened = bellbadger_open(ruled, 2).judge;
    filled = bellbadger_deliver(bellbadger_deliver(opened, 0, 0, idle, 99).judge, 1, 0, plain, 99).judge;
    saved = bellbadger_save(filled);
    profile = bellbadger_profile_build(a).profile;
    mapping = bellbadger_profile_run(profile, plain, 2).mapping;
    form = bellbadger_form(ruled).form;
    follower = bellbadger_follower_prepare(ring).follower;
    ringed = bellbadger_install(fresh, ring).judge;
    summary = bellbadger_summarize(ringed, 0, plain, 99).summary;
    tray = bellbadger_tray_install_column(bellbadger_tray_install_row(bellbadger_tray_new(), a).tray, a).tray;
    tray_opened = bellbadger_tray_open(tray, 2, 1).tray;
    tray_filled = bellbadger_tray_deliver(tray_opened, 0, plain, 128).tray;
    expect(bellbadger_verdict(filled).kind >= BELLBADGER_YES && bellbadger_tray_verdict(tray_filled).kind >= BELLBADGER_YES, "not filled");
    expect(bellbadger_follow_by(follower, 1, idle, sizeof idle).accepted && bellbadger_follower_prepare(none).refused, "no follower");
    expect(bellbadger_summary_conclude(ringed, summary, 1).kind >= BELLBADGER_YES && bellbadger_summarize(fresh, 0, plain, 1).refused, "no summary");
    expect(bellbadger_merge_reduced(BELLBADGER_BOTH, ring, ring).rule.n == 32, "not merged");
    expect(bellbadger_merge_reduced(BELLBADGER_BOTH, many, many).rule.n == 11, "not merged");
    expect(bellbadger_merge_reduced(BELLBADGER_INTERLEAVING, many, a).refused == 37, "merged");
    expect(bellbadger_compare(ring, ring).kind == BELLBADGER_SAME && bellbadger_compare(many, many).refused == 45, "not compared");
    expect(bellbadger_compare(a, nearly_a).kind == BELLBADGER_SECOND_ALONE, "not told apart");
    expect(bellbadger_reduce(ring).installs && bellbadger_reduce(many).refused == 9, "not reduced");
    expect(bellbadger_replay(TEXT(installation)).kind == BELLBADGER_YES, "no installation");
    expect(bellbadger_replay(TEXT(record)).kind >= BELLBADGER_YES, "no record");
    expect(bellbadger_install(fresh, many).refused == 9 && bellbadger_install(fresh, ring).accepted, "other rules");
}

int main(void) {
    uint8_t *stack = mmap(NULL, STACK, PROT_READ | PROT_WRITE, MAP_PRIVATE | MAP_ANONYMOUS | MAP_STACK, -1, 0);
    expect(stack != MAP_FAILED, "no memory");
    prepare();
    for (int call = 0, next; call < CALLS; call = next) {
        size_t most = 0;
        for (next = call; next < CALLS && !strcmp(calls[next].function, calls[call].function); next++) {
            size_t taken = taken_by(stack, next);
            if (taken > most) most = taken;
        }
        printf("bellbadger_%s %zu\n", calls[call].function, most);
    }
    return 0;
}
