// The header from C++: every function is linked under its C name and answers as it does in C.
#include <cstdio>
#include <cstring>

#include "bellbadger.h"

static const uint8_t rule_a[] = {
    0x03, 0x02, 0x01, 0x00, 0x00, 0x00, 0x04, 0x00, 0x00, 0x00, 0x16, 0x00, 0x06, 0x00, 0x1C,
    0x00, 0x02, 0x00, 0x1E, 0x00, 0x00, 0x00, 0x00, 0x00, 0x00, 0x01, 0x01, 0x00, 0x01, 0x02,
};

static bool right() {
    const uint8_t text[] = {0, 1};
    const char *record = "verdict\nopen\n";
    bellbadger_read_result read = bellbadger_read(rule_a, sizeof rule_a);
    bellbadger_install_result installed = bellbadger_install(bellbadger_new(), read.rule);
    bellbadger_load_result loaded = bellbadger_load(bellbadger_new(), rule_a, sizeof rule_a);
    bellbadger_open_result opened = bellbadger_open(installed.judge, 1);
    bellbadger_deliver_result delivered = bellbadger_deliver(opened.judge, 0, 0, text, sizeof text);
    bellbadger_verdict_result verdict = bellbadger_verdict(delivered.judge);
    bellbadger_diagnose_result diagnosed = bellbadger_diagnose(delivered.judge);
    bellbadger_locate_result located = bellbadger_locate(delivered.judge, 0, text, sizeof text);
    bellbadger_saved saved = bellbadger_save(delivered.judge);
    bellbadger_restore_result restored = bellbadger_restore(saved.bytes, sizeof saved.bytes);
    bellbadger_withdraw_result withdrawn = bellbadger_withdraw(opened.judge, 0);
    bellbadger_sample_result sample = bellbadger_sample(BELLBADGER_ACCEPTED_TEXT, read.rule);
    bellbadger_follower_result follower = bellbadger_follower_prepare(read.rule);
    bellbadger_follow_result followed = bellbadger_follow(read.rule, read.rule.initials, text, 1);
    bellbadger_follow_result followed_by = bellbadger_follow_by(follower.follower, followed.set, text + 1, 1);
    bellbadger_summarize_result earlier = bellbadger_summarize(loaded.judge, 0, text, 1);
    bellbadger_summarize_result later = bellbadger_summarize(loaded.judge, 1, text + 1, 1);
    bellbadger_summary combined = bellbadger_summary_combine(earlier.summary, later.summary);
    bellbadger_verdict_result concluded = bellbadger_summary_conclude(loaded.judge, combined, 2);
    const uint8_t ends_in_0_1[] = {'(', 'a', '|', 'b', ')', '*', 'a', 'b'};
    bellbadger_pattern_result pattern = bellbadger_pattern(ends_in_0_1, sizeof ends_in_0_1);
    bellbadger_merge_result merged = bellbadger_merge(BELLBADGER_EITHER, read.rule, read.rule);
    bellbadger_merge_result merged_reduced = bellbadger_merge_reduced(BELLBADGER_EITHER, read.rule, read.rule);
    bellbadger_compare_result compared = bellbadger_compare(read.rule, merged.rule);
    bellbadger_reduce_result reduced = bellbadger_reduce(merged.rule);
    bellbadger_tray_install_result row = bellbadger_tray_install_row(bellbadger_tray_new(), read.rule);
    bellbadger_tray_install_result column = bellbadger_tray_install_column(row.tray, read.rule);
    bellbadger_tray_open_result tray = bellbadger_tray_open(column.tray, 2, 1);
    bellbadger_tray_deliver_result band = bellbadger_tray_deliver(tray.tray, 0, text, sizeof text);
    bellbadger_tray_withdraw_result no_band = bellbadger_tray_withdraw(tray.tray, 0);
    bellbadger_tray_verdict_result of_tray = bellbadger_tray_verdict(band.tray);
    bellbadger_tray_fault_result fault = bellbadger_tray_fault(band.tray);
    bellbadger_replay_result replayed = bellbadger_replay(reinterpret_cast<const uint8_t *>(record), std::strlen(record));
    bellbadger_profile_build_result built = bellbadger_profile_build(read.rule);
    bellbadger_profile_run_result ran = bellbadger_profile_run(built.profile, text, sizeof text);
    bellbadger_mapping twice = bellbadger_compose(ran.mapping, ran.mapping);
    uint8_t made[4];
    bellbadger_made_result made_result = bellbadger_make_text(16, 1, made, sizeof made);
    bellbadger_form_result formed = bellbadger_form(loaded.judge);
    bellbadger_table_result table = bellbadger_form_back(formed.form);
    return bellbadger_version() == BELLBADGER_VERSION && bellbadger_state_size() == sizeof(bellbadger_judge)
        && read.accepted && read.rule.n == 3 && read.rule.targets[17] == 4 && installed.accepted && installed.sets == 5
        && loaded.accepted && loaded.sets == 5 && opened.accepted && delivered.accepted && delivered.looked == 2
        && verdict.kind == BELLBADGER_YES && verdict.number == 2 && verdict.bytes == 2 && verdict.quotient == 1
        && verdict.remainder == 0 && bellbadger_is_yes(verdict) && !bellbadger_is_yes(replayed) && !withdrawn.accepted && withdrawn.refused == 23
        && diagnosed.kind == BELLBADGER_OPEN && diagnosed.number == 1 && located.kind == BELLBADGER_NOWHERE && located.number == 0
        && saved.bytes[0] == 'B' && saved.bytes[8] == 3 && restored.accepted && restored.refused == 0 && restored.judge.rule.count == 5
        && bellbadger_profile_size() == sizeof(bellbadger_profile) && built.accepted && built.profile.count == 5 && ran.accepted
        && ran.mapping.masks[0] == 5 && twice.masks[0] == 5 && bellbadger_profile_verdict(built.profile, twice) == 1
        && sample.kind == BELLBADGER_SAMPLE && sample.length == 2 && sample.text[0] == 0 && sample.text[1] == 1
        && bellbadger_follower_size() == sizeof(bellbadger_follower) && follower.accepted && followed.accepted && followed.set == 3
        && !followed.ends && followed_by.accepted && followed_by.ends && !followed_by.lost && followed_by.expected == 3
        && bellbadger_summary_size() == sizeof(bellbadger_summary) && earlier.accepted && later.accepted && combined.leads[0] == 5
        && combined.end == 2 && !combined.broken && bellbadger_is_yes(concluded) && concluded.number == 3 && concluded.bytes == 2
        && pattern.accepted && pattern.length == 50 && pattern.bytes[0] == 5
        && merged.accepted && merged.rule.n == 6 && merged.rule.targets[4 * 16 + 1] == 32
        && merged_reduced.accepted && merged_reduced.refused == 0 && merged_reduced.rule.n == 3 && merged_reduced.rule.targets[17] == 4
        && compared.kind == BELLBADGER_SAME && compared.refused == 0 && compared.length == 0
        && reduced.accepted && reduced.installs && reduced.rule.n == 3 && reduced.rule.targets[17] == 4
        && bellbadger_tray_size() == sizeof(bellbadger_tray) && row.accepted && row.sets == 5 && column.accepted && tray.accepted
        && band.accepted && band.tray.board.rows[0] == 1 && !no_band.accepted && no_band.refused == 23
        && of_tray.kind == BELLBADGER_NO && of_tray.number == 0 && !bellbadger_tray_is_yes(of_tray)
        && fault.kind == BELLBADGER_FAULT_SHORT && fault.number == 0 && fault.column == 0 && fault.band == 0 && fault.row == 0
        && replayed.kind == BELLBADGER_MALFORMED && replayed.number == 2 && made_result.accepted && made[0] == 1 && made[2] == 9
        && formed.accepted && formed.form.sets == 5 && formed.form.failure[4] == 3 && formed.form.cells[3] == BELLBADGER_EMPTY_SET
        && table.accepted && table.table.next[16] == 1;
}

int main() {
    bool as_in_c = right();
    std::puts(as_in_c ? "C++: as in C" : "C++: other answers than in C");
    return as_in_c ? 0 : 1;
}
