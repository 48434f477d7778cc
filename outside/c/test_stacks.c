/* A caller that keeps the results of all its calls in one function, in a thread with the stack that
 * bellbadger.h asks for, less a margin. This would catch a function that takes more stack than is said: the
 * program then ends by a signal. */
#include <pthread.h>

#include "checks.h"

#ifndef STACK_KB
#define STACK_KB 896 /* 1 MB less 128 KB */
#endif

static const uint8_t rule_a[] = {
    0x03, 0x02, 0x01, 0x00, 0x00, 0x00, 0x04, 0x00, 0x00, 0x00, 0x16, 0x00, 0x06, 0x00, 0x1C,
    0x00, 0x02, 0x00, 0x1E, 0x00, 0x00, 0x00, 0x00, 0x00, 0x00, 0x01, 0x01, 0x00, 0x01, 0x02,
};
static const char record[] = "load 03020100000004000000160006001C0002001E0000000000000101000102\n"
                             "open 2\ndeliver 1 0 01FF\ndeliver 0 0 00\nwithdraw 0\ndeliver 0 1 00\nverdict\n";
static const uint8_t pattern[] = "(a|b)*ab";
static uint8_t chunk[65536], made[16];

/* All calls, and all that they answer, in one frame. */
static void *caller(void *unused) {
    bellbadger_judge judge = bellbadger_new();
    bellbadger_read_result read = bellbadger_read(rule_a, sizeof rule_a);
    bellbadger_load_result loaded = bellbadger_load(judge, rule_a, sizeof rule_a);
    bellbadger_install_result installed = bellbadger_install(judge, read.rule);
    bellbadger_open_result opened = bellbadger_open(installed.judge, 1);
    bellbadger_deliver_result delivered = bellbadger_deliver(opened.judge, 0, 0, chunk, sizeof chunk);
    bellbadger_verdict_result verdict = bellbadger_verdict(delivered.judge);
    bellbadger_diagnose_result diagnosed = bellbadger_diagnose(delivered.judge);
    bellbadger_locate_result located = bellbadger_locate(delivered.judge, 0, chunk, sizeof chunk);
    bellbadger_saved saved = bellbadger_save(delivered.judge);
    bellbadger_restore_result restored = bellbadger_restore(saved.bytes, sizeof saved.bytes);
    bellbadger_withdraw_result withdrawn = bellbadger_withdraw(delivered.judge, 0);
    bellbadger_replay_result replayed = bellbadger_replay((const uint8_t *)record, sizeof record - 1);
    bellbadger_profile_build_result built = bellbadger_profile_build(read.rule);
    bellbadger_profile_run_result ran = bellbadger_profile_run(built.profile, chunk, sizeof chunk);
    bellbadger_mapping composed = bellbadger_compose(ran.mapping, ran.mapping);
    bellbadger_sample_result sample = bellbadger_sample(BELLBADGER_ACCEPTED_TEXT, read.rule);
    bellbadger_follower_result follower = bellbadger_follower_prepare(read.rule);
    bellbadger_follow_result followed = bellbadger_follow(read.rule, read.rule.initials, chunk, sizeof chunk);
    bellbadger_follow_result followed_by = bellbadger_follow_by(follower.follower, followed.set, chunk, sizeof chunk);
    bellbadger_summarize_result summarized = bellbadger_summarize(loaded.judge, 0, chunk, sizeof chunk);
    bellbadger_summary combined = bellbadger_summary_combine(summarized.summary, bellbadger_summarize(loaded.judge, 1, chunk, sizeof chunk).summary);
    bellbadger_verdict_result concluded = bellbadger_summary_conclude(loaded.judge, combined, 2);
    bellbadger_pattern_result file = bellbadger_pattern(pattern, sizeof pattern - 1);
    bellbadger_merge_result merged = bellbadger_merge(BELLBADGER_INTERLEAVING, read.rule, read.rule);
    bellbadger_merge_result merged_reduced = bellbadger_merge_reduced(BELLBADGER_INTERLEAVING, read.rule, read.rule);
    bellbadger_compare_result compared = bellbadger_compare(read.rule, merged.rule);
    bellbadger_reduce_result reduced = bellbadger_reduce(merged.rule);
    bellbadger_made_result text = bellbadger_make_text(16, 1, made, sizeof made);
    bellbadger_form_result form = bellbadger_form(loaded.judge);
    bellbadger_table_result table = bellbadger_form_back(form.form);
    bellbadger_tray_install_result row = bellbadger_tray_install_row(bellbadger_tray_new(), read.rule);
    bellbadger_tray_install_result column = bellbadger_tray_install_column(row.tray, read.rule);
    bellbadger_tray_open_result tray = bellbadger_tray_open(column.tray, 2, 1);
    bellbadger_tray_deliver_result band = bellbadger_tray_deliver(tray.tray, 0, chunk, 2);
    bellbadger_tray_withdraw_result no_band = bellbadger_tray_withdraw(band.tray, 0);
    bellbadger_tray_verdict_result of_tray = bellbadger_tray_verdict(band.tray);
    bellbadger_tray_fault_result fault = bellbadger_tray_fault(band.tray);
    CHECK(bellbadger_version() == BELLBADGER_VERSION && bellbadger_state_size() == sizeof judge);
    CHECK(bellbadger_profile_size() == sizeof built.profile && bellbadger_tray_size() == sizeof tray.tray);
    CHECK(TAKEN(read) && TAKEN(loaded) && TAKEN(installed) && TAKEN(opened) && TAKEN(delivered) && TAKEN(withdrawn));
    CHECK(same(&loaded.judge, &installed.judge) && withdrawn.judge.board.lengths[0] == 0 && judge.rule.n == 0);
    CHECK(bellbadger_is_yes(verdict) && bellbadger_is_yes(replayed) && replayed.bytes == 2);
    CHECK(diagnosed.kind == BELLBADGER_OPEN && diagnosed.number == 1 && located.kind == BELLBADGER_NOWHERE);
    CHECK(TAKEN(restored) && same(&restored.judge, &delivered.judge));
    CHECK(TAKEN(built) && TAKEN(ran) && bellbadger_profile_verdict(built.profile, composed) == 1);
    CHECK(bellbadger_follower_size() == sizeof follower.follower && TAKEN(follower) && TAKEN(followed) && followed_by.ends);
    CHECK(bellbadger_summary_size() == sizeof combined && TAKEN(summarized) && bellbadger_is_yes(concluded) && concluded.bytes == 2 * verdict.bytes);
    CHECK(sample.kind == BELLBADGER_SAMPLE && TAKEN(file) && TAKEN(merged) && TAKEN(text) && TAKEN(form) && TAKEN(table));
    CHECK(compared.kind == BELLBADGER_FIRST_ALONE && compared.length == 2);
    CHECK(TAKEN(reduced) && reduced.installs && reduced.rule.n <= merged.rule.n);
    CHECK(TAKEN(merged_reduced) && merged_reduced.rule.n == reduced.rule.n);
    CHECK(TAKEN(row) && TAKEN(column) && TAKEN(tray) && TAKEN(band) && TAKEN(no_band));
    CHECK(of_tray.kind == BELLBADGER_NO && !bellbadger_tray_is_yes(of_tray) && fault.kind == BELLBADGER_FAULT_SHORT);
    return unused;
}

int main(void) {
    pthread_attr_t small;
    pthread_t thread;
    for (size_t i = 0; i < sizeof chunk; i++) chunk[i] = i == 2 ? 255 : i % 2;
    CHECK(!pthread_attr_init(&small) && !pthread_attr_setstacksize(&small, (size_t)STACK_KB * 1024));
    CHECK(!pthread_create(&thread, &small, caller, NULL) && !pthread_join(thread, NULL));
    printf("stacks: a caller of every function on %d KB\n", STACK_KB);
    return 0;
}
