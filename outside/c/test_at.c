/* The calls by pointer: each answers as the call by value does, leaves the same judge behind, and
 * where it is refused the judge and every other pointer's value as they were. */
#include "checks.h"

static const uint8_t rule_a[] = {
    0x03, 0x02, 0x01, 0x00, 0x00, 0x00, 0x04, 0x00, 0x00, 0x00, 0x16, 0x00, 0x06, 0x00, 0x1C,
    0x00, 0x02, 0x00, 0x1E, 0x00, 0x00, 0x00, 0x00, 0x00, 0x00, 0x01, 0x01, 0x00, 0x01, 0x02,
};

enum { UNTOUCHED = 99 };

static bellbadger_judge by_value, by_pointer;
static uint64_t seed = 1;

static unsigned any(unsigned below) {
    seed = seed * 6364136223846793005u + 1442695040888963407u;
    return (unsigned)(seed >> 33) % below;
}

/* what is due of the answer: the number, and the judge that the call by value handed back */
static void left(int number, int accepted, int refused, const bellbadger_judge *next) {
    CHECK(number == (accepted ? 0 : refused));
    CHECK(same(&by_pointer, next));
    by_value = *next;
}

static void rules(int by_file) {
    uint8_t file[sizeof rule_a], starts = UNTOUCHED;
    uint16_t sets = UNTOUCHED;
    memcpy(file, rule_a, sizeof file);
    if (any(3) == 0) file[any(sizeof file)] = (uint8_t)any(256);
    if (by_file) {
        bellbadger_load_result r = bellbadger_load(by_value, file, sizeof file);
        left(bellbadger_load_at(&by_pointer, file, sizeof file, &sets, &starts), r.accepted, r.refused, &r.judge);
        CHECK(r.accepted ? sets == r.sets && starts == r.starts : sets == UNTOUCHED && starts == UNTOUCHED);
    } else {
        bellbadger_checked_rule rule = read_file(rule_a, sizeof rule_a, 0);
        if (any(3) == 0) rule.k = (uint8_t)any(20);
        bellbadger_install_result r = bellbadger_install(by_value, rule);
        left(bellbadger_install_at(&by_pointer, &rule, &sets, &starts), r.accepted, r.refused, &r.judge);
        CHECK(r.accepted ? sets == r.sets && starts == r.starts : sets == UNTOUCHED && starts == UNTOUCHED);
    }
}

static void deliveries(void) {
    uint8_t chunk[4];
    uint32_t looked = UNTOUCHED;
    size_t place = any(4), length = any(5);
    for (size_t i = 0; i < sizeof chunk; i++) chunk[i] = (uint8_t)(any(12) ? any(2) : any(256));
    uint32_t revision = any(4);
    bellbadger_deliver_result r = bellbadger_deliver(by_value, place, revision, chunk, length);
    left(bellbadger_deliver_at(&by_pointer, place, revision, chunk, length, &looked), r.accepted, r.refused, &r.judge);
    CHECK(looked == (r.accepted ? r.looked : UNTOUCHED));
}

static void boards(int opened) {
    size_t number = any(5);
    if (opened) {
        bellbadger_open_result r = bellbadger_open(by_value, number);
        left(bellbadger_open_at(&by_pointer, number), r.accepted, r.refused, &r.judge);
    } else {
        bellbadger_withdraw_result r = bellbadger_withdraw(by_value, number);
        left(bellbadger_withdraw_at(&by_pointer, number), r.accepted, r.refused, &r.judge);
    }
}

/* neither changes the judge, whatever is asked */
static void losses(void) {
    uint8_t chunk[4];
    size_t place = any(4), length = any(5);
    for (size_t i = 0; i < sizeof chunk; i++) chunk[i] = (uint8_t)(any(12) ? any(2) : any(256));
    bellbadger_diagnose_result d = bellbadger_diagnose(by_value), d_at = bellbadger_diagnose_at(&by_pointer);
    CHECK(d.kind == d_at.kind && d.number == d_at.number);
    bellbadger_locate_result l = bellbadger_locate(by_value, place, chunk, length);
    bellbadger_locate_result l_at = bellbadger_locate_at(&by_pointer, place, chunk, length);
    CHECK(l.kind == l_at.kind && l.number == l_at.number && same(&by_pointer, &by_value));
}

/* saved from one judge and restored in another; refused, that one stays as it is */
static void saved(void) {
    static uint8_t bytes[BELLBADGER_SAVED_SIZE];
    static bellbadger_judge had, other;
    bellbadger_saved due = bellbadger_save(by_value);
    memset(bytes, 0xA5, sizeof bytes);
    bellbadger_save_at(&by_pointer, bytes);
    CHECK(!memcmp(bytes, due.bytes, sizeof bytes) && same(&by_pointer, &by_value));
    bellbadger_new_at(&had);
    other = had;
    CHECK(bellbadger_restore_at(&had, bytes, sizeof bytes - any(2) - 1) == 46 && same(&had, &other));
    bytes[any(sizeof bytes)] ^= 1;
    CHECK(bellbadger_restore_at(&had, bytes, sizeof bytes) == 46 && same(&had, &other));
    CHECK(bellbadger_restore_at(&had, due.bytes, sizeof due.bytes) == 0 && same(&had, &by_value));
}

static bellbadger_tray tray, tray_at;

static int same_trays(const bellbadger_tray *a, const bellbadger_tray *b) {
    return a->row.n == b->row.n && a->row.k == b->row.k && a->row.initials == b->row.initials && a->row.finals == b->row.finals
        && !memcmp(a->row.targets, b->row.targets, sizeof a->row.targets) && a->column.n == b->column.n && a->column.k == b->column.k
        && a->column.initials == b->column.initials && a->column.finals == b->column.finals
        && !memcmp(a->column.targets, b->column.targets, sizeof a->column.targets) && !memcmp(&a->board, &b->board, sizeof a->board);
}

static void left_tray(int number, int accepted, int refused, const bellbadger_tray *next) {
    CHECK(number == (accepted ? 0 : refused));
    CHECK(same_trays(&tray_at, next));
    tray = *next;
}

static void tray_rules(int row) {
    uint8_t starts = UNTOUCHED;
    uint16_t sets = UNTOUCHED;
    bellbadger_checked_rule rule = read_file(rule_a, sizeof rule_a, 0);
    if (any(3) == 0) rule.k = (uint8_t)any(20);
    bellbadger_tray_install_result r = row ? bellbadger_tray_install_row(tray, rule) : bellbadger_tray_install_column(tray, rule);
    int number = row ? bellbadger_tray_install_row_at(&tray_at, &rule, &sets, &starts) : bellbadger_tray_install_column_at(&tray_at, &rule, &sets, &starts);
    left_tray(number, r.accepted, r.refused, &r.tray);
    CHECK(r.accepted ? sets == r.sets && starts == r.starts : sets == UNTOUCHED && starts == UNTOUCHED);
}

static void tray_calls(unsigned which) {
    uint8_t rows[8];
    size_t band = any(4), length = any(9), width = any(6);
    for (size_t i = 0; i < sizeof rows; i++) rows[i] = (uint8_t)(any(12) ? any(2) : any(256));
    if (which < 4) {
        tray_rules(which < 2);
    } else if (which < 7) {
        bellbadger_tray_open_result r = bellbadger_tray_open(tray, width, band);
        left_tray(bellbadger_tray_open_at(&tray_at, width, band), r.accepted, r.refused, &r.tray);
    } else if (which < 8) {
        bellbadger_tray_withdraw_result r = bellbadger_tray_withdraw(tray, band);
        left_tray(bellbadger_tray_withdraw_at(&tray_at, band), r.accepted, r.refused, &r.tray);
    } else {
        bellbadger_tray_deliver_result r = bellbadger_tray_deliver(tray, band, rows, length);
        left_tray(bellbadger_tray_deliver_at(&tray_at, band, rows, length), r.accepted, r.refused, &r.tray);
    }
    bellbadger_tray_verdict_result v = bellbadger_tray_verdict(tray), v_at = bellbadger_tray_verdict_at(&tray_at);
    CHECK(v.kind == v_at.kind && v.number == v_at.number);
    bellbadger_tray_fault_result f = bellbadger_tray_fault(tray), f_at = bellbadger_tray_fault_at(&tray_at);
    CHECK(f.kind == f_at.kind && f.number == f_at.number && f.column == f_at.column && f.band == f_at.band && f.row == f_at.row);
}

static void trays(void) {
    tray = bellbadger_tray_new();
    memset(&tray_at, 7, sizeof tray_at);
    bellbadger_tray_new_at(&tray_at);
    CHECK(same_trays(&tray, &tray_at));
    for (int call = 0; call < 40; call++) tray_calls(any(24));
}

static int answers(void) {
    bellbadger_verdict_result v = bellbadger_verdict(by_value), v_at = bellbadger_verdict_at(&by_pointer);
    CHECK(v.kind == v_at.kind && v.number == v_at.number && v.bytes == v_at.bytes);
    CHECK(v.quotient == v_at.quotient && v.remainder == v_at.remainder);
    return v.kind;
}

int main(void) {
    int kinds[5] = {0};
    for (int list = 0; list < 300; list++) {
        by_value = bellbadger_new();
        memset(&by_pointer, list, sizeof by_pointer);
        bellbadger_new_at(&by_pointer);
        CHECK(same(&by_value, &by_pointer));
        for (int call = 0; call < 40; call++) {
            unsigned which = any(20);
            if (which < 2) rules(which == 0);
            else if (which < 5) boards(which < 3);
            else deliveries();
            kinds[answers()]++;
            losses();
        }
        saved();
        trays();
    }
    CHECK(kinds[BELLBADGER_REFUSED] && kinds[BELLBADGER_WAITING] && kinds[BELLBADGER_YES] && kinds[BELLBADGER_NO]);
    /* an answer that nobody wants */
    CHECK(bellbadger_load_at(&by_pointer, rule_a, sizeof rule_a, NULL, NULL) == 0 && bellbadger_open_at(&by_pointer, 1) == 0);
    CHECK(bellbadger_deliver_at(&by_pointer, 0, 0, rule_a, 0, NULL) == 0);
    bellbadger_checked_rule rule = read_file(rule_a, sizeof rule_a, 0);
    CHECK(bellbadger_install_at(&by_pointer, &rule, NULL, NULL) == 0);
    printf("by pointer: %ld checks\n", checks);
    return 0;
}
