/* The calls on a judge and on a tray by pointer, for who does not want an argument and a result of 28 KB,
 * of a tray 12 KB, in the frame of every caller. bellbadger.h includes this.
 *
 * Each does what the function without _at does, on the judge or the tray that the pointer leads to. A
 * call that may be refused answers 0 where it was accepted, and the judge is then the next one; else it
 * answers the number, and neither the judge nor anything else that was handed in is changed. A
 * pointer for an answer (sets, starts, looked) may be NULL. They are no part of the library: each
 * is compiled with the file that calls it, apart from its caller, where the compiler can be told so.
 * While it runs it takes 56 KB of stack beside what the function takes.
 */
#ifndef BELLBADGER_AT_H
#define BELLBADGER_AT_H

#include "bellbadger.h"

/* Not within the caller, whose frame would have the results then; gcc would tell of both words. */
#if defined(__GNUC__)
#define BELLBADGER_APART __attribute__((noinline))
#pragma GCC diagnostic push
#pragma GCC diagnostic ignored "-Wattributes"
#else
#define BELLBADGER_APART
#endif

#ifdef __cplusplus
extern "C" {
#endif

/* Makes it a judge with no rule and no board. */
static inline BELLBADGER_APART void bellbadger_new_at(bellbadger_judge *judge) {
    *judge = bellbadger_new();
}

/* 0, or 3, 4, 6, 8, 9. */
BELLBADGER_RESULT static inline BELLBADGER_APART int bellbadger_install_at(bellbadger_judge *judge, const bellbadger_checked_rule *rule,
                                                                         uint16_t *sets, uint8_t *starts) {
    const bellbadger_install_result done = bellbadger_install(*judge, *rule);
    if (!done.accepted) return done.refused;
    *judge = done.judge;
    if (sets) *sets = done.sets;
    if (starts) *starts = done.starts;
    return 0;
}

/* 0, or 1 to 9. */
BELLBADGER_RESULT static inline BELLBADGER_APART int bellbadger_load_at(bellbadger_judge *judge, const uint8_t *file, size_t length,
                                                                      uint16_t *sets, uint8_t *starts) {
    const bellbadger_load_result done = bellbadger_load(*judge, file, length);
    if (!done.accepted) return done.refused;
    *judge = done.judge;
    if (sets) *sets = done.sets;
    if (starts) *starts = done.starts;
    return 0;
}

/* 0, or 20, 10. */
BELLBADGER_RESULT static inline BELLBADGER_APART int bellbadger_open_at(bellbadger_judge *judge, size_t places) {
    const bellbadger_open_result done = bellbadger_open(*judge, places);
    if (!done.accepted) return done.refused;
    *judge = done.judge;
    return 0;
}

/* 0, or 21, 11, 12, 13, 22. */
BELLBADGER_RESULT static inline BELLBADGER_APART int bellbadger_deliver_at(bellbadger_judge *judge, size_t place, uint32_t revision,
                                                                         const uint8_t *chunk, size_t length, uint32_t *looked) {
    const bellbadger_deliver_result done = bellbadger_deliver(*judge, place, revision, chunk, length);
    if (!done.accepted) return done.refused;
    *judge = done.judge;
    if (looked) *looked = done.looked;
    return 0;
}

/* 0, or 21, 11, 23. */
BELLBADGER_RESULT static inline BELLBADGER_APART int bellbadger_withdraw_at(bellbadger_judge *judge, size_t place) {
    const bellbadger_withdraw_result done = bellbadger_withdraw(*judge, place);
    if (!done.accepted) return done.refused;
    *judge = done.judge;
    return 0;
}

/* What bellbadger_verdict answers. Its kind is no truth value: ask bellbadger_is_yes. */
BELLBADGER_RESULT static inline BELLBADGER_APART bellbadger_verdict_result bellbadger_verdict_at(const bellbadger_judge *judge) {
    return bellbadger_verdict(*judge);
}

/* What bellbadger_diagnose and bellbadger_locate answer. The kind is no truth value: compare it. */
BELLBADGER_RESULT static inline BELLBADGER_APART bellbadger_diagnose_result bellbadger_diagnose_at(const bellbadger_judge *judge) {
    return bellbadger_diagnose(*judge);
}

BELLBADGER_RESULT static inline BELLBADGER_APART bellbadger_locate_result bellbadger_locate_at(const bellbadger_judge *judge, size_t place,
                                                                                             const uint8_t *chunk, size_t length) {
    return bellbadger_locate(*judge, place, chunk, length);
}

/* The judge as bytes, BELLBADGER_SAVED_SIZE of them, into out. */
static inline BELLBADGER_APART void bellbadger_save_at(const bellbadger_judge *judge, uint8_t out[BELLBADGER_SAVED_SIZE]) {
    const bellbadger_saved saved = bellbadger_save(*judge);
    size_t i;
    for (i = 0; i < BELLBADGER_SAVED_SIZE; i++) out[i] = saved.bytes[i];
}

/* 0, or 46. */
BELLBADGER_RESULT static inline BELLBADGER_APART int bellbadger_restore_at(bellbadger_judge *judge, const uint8_t *bytes, size_t length) {
    const bellbadger_restore_result done = bellbadger_restore(bytes, length);
    if (!done.accepted) return done.refused;
    *judge = done.judge;
    return 0;
}

/* Makes it a tray with no rules and no board. */
static inline BELLBADGER_APART void bellbadger_tray_new_at(bellbadger_tray *tray) {
    *tray = bellbadger_tray_new();
}

/* 0, or 3, 4, 6, 8, 9. */
BELLBADGER_RESULT static inline BELLBADGER_APART int bellbadger_tray_install_row_at(bellbadger_tray *tray, const bellbadger_checked_rule *rule,
                                                                                  uint16_t *sets, uint8_t *starts) {
    const bellbadger_tray_install_result done = bellbadger_tray_install_row(*tray, *rule);
    if (!done.accepted) return done.refused;
    *tray = done.tray;
    if (sets) *sets = done.sets;
    if (starts) *starts = done.starts;
    return 0;
}

BELLBADGER_RESULT static inline BELLBADGER_APART int bellbadger_tray_install_column_at(bellbadger_tray *tray, const bellbadger_checked_rule *rule,
                                                                                     uint16_t *sets, uint8_t *starts) {
    const bellbadger_tray_install_result done = bellbadger_tray_install_column(*tray, *rule);
    if (!done.accepted) return done.refused;
    *tray = done.tray;
    if (sets) *sets = done.sets;
    if (starts) *starts = done.starts;
    return 0;
}

/* 0, or 20, 38, 10. */
BELLBADGER_RESULT static inline BELLBADGER_APART int bellbadger_tray_open_at(bellbadger_tray *tray, size_t width, size_t bands) {
    const bellbadger_tray_open_result done = bellbadger_tray_open(*tray, width, bands);
    if (!done.accepted) return done.refused;
    *tray = done.tray;
    return 0;
}

/* 0, or 21, 11, 39, 13, 22. */
BELLBADGER_RESULT static inline BELLBADGER_APART int bellbadger_tray_deliver_at(bellbadger_tray *tray, size_t band, const uint8_t *rows, size_t length) {
    const bellbadger_tray_deliver_result done = bellbadger_tray_deliver(*tray, band, rows, length);
    if (!done.accepted) return done.refused;
    *tray = done.tray;
    return 0;
}

/* 0, or 21, 11, 23. */
BELLBADGER_RESULT static inline BELLBADGER_APART int bellbadger_tray_withdraw_at(bellbadger_tray *tray, size_t band) {
    const bellbadger_tray_withdraw_result done = bellbadger_tray_withdraw(*tray, band);
    if (!done.accepted) return done.refused;
    *tray = done.tray;
    return 0;
}

/* What bellbadger_tray_verdict and bellbadger_tray_fault answer. The kind is no truth value: ask
 * bellbadger_tray_is_yes, or compare it. */
BELLBADGER_RESULT static inline BELLBADGER_APART bellbadger_tray_verdict_result bellbadger_tray_verdict_at(const bellbadger_tray *tray) {
    return bellbadger_tray_verdict(*tray);
}

BELLBADGER_RESULT static inline BELLBADGER_APART bellbadger_tray_fault_result bellbadger_tray_fault_at(const bellbadger_tray *tray) {
    return bellbadger_tray_fault(*tray);
}

#ifdef __cplusplus
}
#endif

#if defined(__GNUC__)
#pragma GCC diagnostic pop
#endif

#endif
