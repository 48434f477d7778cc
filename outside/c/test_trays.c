/* Trays from C, on a thread with the stack that the header says is enough: a tray field by field, trays
 * worked by hand, each refusal in its order, random trays beside a plain search, and trays in which any
 * numbers stand. Prints how many checks were made; stops at the first that fails. */
#define _POSIX_C_SOURCE 200809L
#include <pthread.h>

#include "checks.h"

enum { STACK = 512 * 1024, WIDTH = 16, BANDS = 8, ROWS = 64, BAND = ROWS * WIDTH };

static bellbadger_checked_rule a, e; /* what ends in 0 1, and what has an even number of 0s */

static uint64_t seed = 88172645463325252u;

static uint64_t random_number(void) {
    seed ^= seed << 13;
    seed ^= seed >> 7;
    return seed ^= seed << 17;
}

static int below(int bound) { return (int)((random_number() >> 16) % (uint64_t)bound); }

static int same_rule(const bellbadger_checked_rule *x, const bellbadger_checked_rule *y) {
    return x->n == y->n && x->k == y->k && x->initials == y->initials && x->finals == y->finals
        && !memcmp(x->targets, y->targets, sizeof x->targets);
}

static int same_board(const bellbadger_tray_board *x, const bellbadger_tray_board *y) {
    return x->width == y->width && x->bands == y->bands && !memcmp(x->filled, y->filled, sizeof x->filled)
        && !memcmp(x->rows, y->rows, sizeof x->rows) && !memcmp(x->cells, y->cells, sizeof x->cells);
}

static int same_tray(const bellbadger_tray *x, const bellbadger_tray *y) {
    return same_rule(&x->row, &y->row) && same_rule(&x->column, &y->column) && same_board(&x->board, &y->board);
}

/* ---- calls: the answer that is due, and the tray that is due after it */
static const bellbadger_tray_board none;

static void after(bellbadger_tray *t, const bellbadger_tray *due, const bellbadger_tray *next, int accepted, int told, int refused) {
    CHECK(accepted == (refused == 0) && told == refused);
    CHECK(same_tray(next, refused ? t : due));
    *t = *next;
}

static void tray_row(bellbadger_tray *t, bellbadger_checked_rule rule, int refused) {
    bellbadger_tray_install_result r = bellbadger_tray_install_row(*t, rule);
    bellbadger_install_result of_judge = bellbadger_install(bellbadger_new(), rule);
    bellbadger_tray due = {rule, t->column, none};
    CHECK(r.sets == of_judge.sets && r.starts == of_judge.starts && r.accepted == of_judge.accepted && r.refused == of_judge.refused);
    after(t, &due, &r.tray, r.accepted, r.refused, refused);
}

static void tray_column(bellbadger_tray *t, bellbadger_checked_rule rule, int refused) {
    bellbadger_tray_install_result r = bellbadger_tray_install_column(*t, rule);
    bellbadger_install_result of_judge = bellbadger_install(bellbadger_new(), rule);
    bellbadger_tray due = {t->row, rule, none};
    CHECK(r.sets == of_judge.sets && r.starts == of_judge.starts && r.accepted == of_judge.accepted && r.refused == of_judge.refused);
    after(t, &due, &r.tray, r.accepted, r.refused, refused);
}

static void tray_open(bellbadger_tray *t, size_t width, size_t bands, int refused) {
    bellbadger_tray_open_result r = bellbadger_tray_open(*t, width, bands);
    bellbadger_tray due = {t->row, t->column, none};
    due.board.width = (uint8_t)width, due.board.bands = (uint8_t)bands;
    after(t, &due, &r.tray, r.accepted, r.refused, refused);
}

static void tray_deliver(bellbadger_tray *t, size_t band, const void *rows, size_t length, int refused) {
    bellbadger_tray_deliver_result r = bellbadger_tray_deliver(*t, band, rows, length);
    bellbadger_tray due = *t;
    if (!refused) {
        due.board.filled[band] = 1, due.board.rows[band] = (uint8_t)(length / t->board.width);
        memset(due.board.cells + BAND * band, 0, BAND);
        if (length) memcpy(due.board.cells + BAND * band, rows, length);
    }
    after(t, &due, &r.tray, r.accepted, r.refused, refused);
}

static void tray_withdraw(bellbadger_tray *t, size_t band, int refused) {
    bellbadger_tray_withdraw_result r = bellbadger_tray_withdraw(*t, band);
    bellbadger_tray due = *t;
    if (!refused) {
        due.board.filled[band] = due.board.rows[band] = 0;
        memset(due.board.cells + BAND * band, 0, BAND);
    }
    after(t, &due, &r.tray, r.accepted, r.refused, refused);
}

static void tray_verdict(const bellbadger_tray *t, int kind, int number) {
    bellbadger_tray_verdict_result r = bellbadger_tray_verdict(*t);
    CHECK(r.kind == kind && r.number == number && bellbadger_tray_is_yes(r) == (kind == BELLBADGER_YES));
}

static bellbadger_tray with(bellbadger_checked_rule row, bellbadger_checked_rule column, size_t width, size_t bands) {
    bellbadger_tray t = bellbadger_tray_new();
    tray_row(&t, row, 0);
    tray_column(&t, column, 0);
    tray_open(&t, width, bands, 0);
    return t;
}

/* ---- by hand */
static void layout(void) {
    static const bellbadger_tray zero;
    bellbadger_tray t = bellbadger_tray_new();
    CHECK(bellbadger_tray_size() == sizeof t);
    CHECK(same_tray(&t, &zero));
    CHECK(bellbadger_tray_install_row(t, a).sets == 5 && bellbadger_tray_install_column(t, a).starts == 3);
}

/* rows that end in 0 1, columns with an even number of 0s */
static void by_hand(void) {
    static const uint8_t good[] = {0, 1, 0, 1}, bad[] = {0, 1, 1, 0};
    bellbadger_tray t = with(a, e, 2, 2);
    tray_verdict(&t, BELLBADGER_WAITING, 2);
    tray_deliver(&t, 1, good, 2, 0); /* bands in any order */
    tray_verdict(&t, BELLBADGER_WAITING, 1);
    tray_deliver(&t, 0, good, 2, 0);
    tray_verdict(&t, BELLBADGER_YES, 0);
    tray_withdraw(&t, 0, 0);
    tray_verdict(&t, BELLBADGER_WAITING, 1);
    tray_deliver(&t, 0, good, 4, 0); /* three rows: one 0 too many in the first column */
    tray_verdict(&t, BELLBADGER_NO, 0);
    tray_withdraw(&t, 1, 0);
    tray_deliver(&t, 1, NULL, 0, 0); /* a band of no rows */
    tray_verdict(&t, BELLBADGER_YES, 0);
    tray_withdraw(&t, 0, 0);
    tray_deliver(&t, 0, NULL, 0, 0); /* no rows at all: two columns, each the empty text */
    tray_verdict(&t, BELLBADGER_YES, 0);
    tray_open(&t, 2, 1, 0); /* the earlier board is dropped */
    tray_verdict(&t, BELLBADGER_WAITING, 1);
    tray_deliver(&t, 0, bad, 4, 0); /* the second row ends in 1 0 */
    tray_verdict(&t, BELLBADGER_NO, 0);
    t = with(e, a, 2, 1); /* the rules exchanged */
    tray_deliver(&t, 0, good, 4, 0);
    tray_verdict(&t, BELLBADGER_NO, 0);
    tray_withdraw(&t, 0, 0);
    tray_deliver(&t, 0, (uint8_t[]){0, 0, 1, 1}, 4, 0);
    tray_verdict(&t, BELLBADGER_YES, 0);
    tray_withdraw(&t, 0, 0);
    tray_deliver(&t, 0, NULL, 0, 0); /* the empty text does not end in 0 1 */
    tray_verdict(&t, BELLBADGER_NO, 0);
    tray_row(&t, a, 0); /* either installation removes the board */
    tray_verdict(&t, BELLBADGER_REFUSED, 21);
    tray_open(&t, 1, 1, 0);
    tray_column(&t, e, 0);
    tray_verdict(&t, BELLBADGER_REFUSED, 21);
}

/* the largest tray: 512 rows of 16, all of symbol 0, with rules that accept anything over it */
static void largest(void) {
    static const uint8_t zeros_in[BAND + WIDTH];
    bellbadger_checked_rule any = {.n = 1, .k = 1, .initials = 1, .finals = 1, .targets = {1}};
    bellbadger_tray t = with(any, any, WIDTH, BANDS);
    for (size_t band = 0; band < BANDS; band++) {
        tray_verdict(&t, BELLBADGER_WAITING, (int)(BANDS - band));
        tray_deliver(&t, band, zeros_in, sizeof zeros_in, 39);
        tray_deliver(&t, band, zeros_in, BAND, 0);
    }
    tray_verdict(&t, BELLBADGER_YES, 0);
    any.targets[0] = 0, any.n = 2; /* the empty text alone */
    tray_column(&t, any, 0);
    tray_open(&t, WIDTH, 1, 0);
    tray_deliver(&t, 0, NULL, 0, 0);
    tray_verdict(&t, BELLBADGER_YES, 0);
    tray_withdraw(&t, 0, 0);
    tray_deliver(&t, 0, zeros_in, WIDTH, 0);
    tray_verdict(&t, BELLBADGER_NO, 0);
}

/* ---- refusals in their order; a rule that is refused is refused to either side */
static void no_rule(bellbadger_tray *t, bellbadger_checked_rule rule, int refused) {
    tray_row(t, rule, refused);
    tray_column(t, rule, refused);
}

static void refused_rules(void) {
    static const uint8_t row[] = {0, 1};
    bellbadger_tray t = with(a, e, 2, 1);
    bellbadger_checked_rule r;
    tray_deliver(&t, 0, row, 2, 0);
    r = a, r.n = 33, r.k = 0, no_rule(&t, r, 3);
    r = a, r.n = 0, no_rule(&t, r, 3);
    r = a, r.k = 17, r.finals = 8, no_rule(&t, r, 4);
    r = a, r.initials = 8, no_rule(&t, r, 6);
    r = a, r.targets[2] = 1, no_rule(&t, r, 8);
    /* the tenth symbol from the end is 1: more than 512 sets */
    memset(&r, 0, sizeof r);
    r.n = 11, r.k = 2, r.initials = 1, r.finals = 1 << 10, r.targets[0] = 1, r.targets[1] = 3;
    for (int q = 1; q < 10; q++) r.targets[16 * q] = r.targets[16 * q + 1] = 1u << (q + 1);
    no_rule(&t, r, 9);
    tray_verdict(&t, BELLBADGER_NO, 0); /* one 0 in the first column */
}

static void refusals(void) {
    static const size_t widths[] = {0, 17, 256 + 1, (size_t)1 << 32 | 1, SIZE_MAX};
    static const size_t bands[] = {0, 9, 256 + 1, (size_t)1 << 32 | 1, SIZE_MAX};
    static uint8_t rows[2 * ROWS + 2];
    bellbadger_tray t = bellbadger_tray_new();
    for (int rules = 0; rules < 2; rules++) { /* no rule, then that of the rows alone */
        tray_open(&t, 0, 0, 20);
        tray_deliver(&t, 9, rows, 3, 21);
        tray_withdraw(&t, 9, 21);
        tray_verdict(&t, BELLBADGER_REFUSED, 21);
        if (!rules) tray_row(&t, a, 0);
    }
    bellbadger_tray columns = bellbadger_tray_new();
    tray_column(&columns, e, 0);
    tray_open(&columns, 0, 0, 20);
    tray_column(&t, e, 0);
    for (int i = 0; i < 5; i++) {
        tray_open(&t, widths[i], 0, 38);
        tray_open(&t, 16, bands[i], 10);
    }
    tray_open(&t, 16, 8, 0);
    tray_open(&t, 17, 1, 38); /* the open board stays */
    tray_verdict(&t, BELLBADGER_WAITING, 8);
    tray_open(&t, 2, 2, 0);
    for (int i = 1; i < 5; i++) {
        tray_deliver(&t, bands[i], rows, 3, 11);
        tray_withdraw(&t, bands[i], 11);
    }
    tray_withdraw(&t, 2, 11);
    tray_withdraw(&t, 1, 23);
    memset(rows, 255, sizeof rows);
    tray_deliver(&t, 0, rows, 1, 39); /* no whole row */
    tray_deliver(&t, 0, rows, 3, 39);
    tray_deliver(&t, 0, rows, sizeof rows, 39); /* 65 rows */
    tray_deliver(&t, 0, rows, 2 * ROWS, 13);
    memset(rows, 1, sizeof rows);
    tray_deliver(&t, 0, rows, 2 * ROWS, 0);
    rows[2 * ROWS - 1] = 2;
    tray_deliver(&t, 0, rows, 3, 39);
    tray_deliver(&t, 0, rows, 2 * ROWS, 13);
    tray_deliver(&t, 0, rows, 2, 22);
    tray_deliver(&t, 0, NULL, 0, 22); /* a band of no rows too */
    tray_deliver(&t, 1, NULL, 0, 0);
    tray_deliver(&t, 1, NULL, 0, 22);
    tray_withdraw(&t, 1, 0);
    tray_withdraw(&t, 1, 23);
}

/* 13: at or above either rule's number of symbols; 255 is no idle mark */
static void foreign_bytes(void) {
    bellbadger_checked_rule one = {.n = 1, .k = 1, .initials = 1, .finals = 1}, sixteen = one;
    sixteen.k = 16;
    for (int columns = 0; columns < 2; columns++)
        for (int byte = 0; byte < 256; byte++) {
            uint8_t row[] = {0, 0, (uint8_t)byte};
            bellbadger_tray t = columns ? with(sixteen, a, 3, 1) : with(a, sixteen, 3, 1);
            tray_deliver(&t, 0, row, 3, byte < 2 ? 0 : 13);
            t = columns ? with(sixteen, one, 3, 1) : with(one, sixteen, 3, 1);
            tray_deliver(&t, 0, row, 3, byte < 1 ? 0 : 13);
            t = with(sixteen, sixteen, 3, 1);
            tray_deliver(&t, 0, row, 3, byte < 16 ? 0 : 13);
        }
}

/* ---- random trays beside a plain search */
static uint32_t moved(const bellbadger_checked_rule *r, uint32_t from, int symbol) {
    uint32_t to = 0;
    for (int q = 0; q < r->n; q++)
        if (from >> q & 1) to |= r->targets[16 * q + symbol];
    return to;
}

/* whether the rule accepts the events at first, first + step, .. */
static int accepts(const bellbadger_checked_rule *r, const uint8_t *first, int step, int count) {
    uint32_t reached = r->initials;
    for (int i = 0; i < count; i++) reached = moved(r, reached, first[i * step]);
    return (reached & r->finals) != 0;
}

static bellbadger_checked_rule any_rule(int k) {
    bellbadger_checked_rule r;
    memset(&r, 0, sizeof r);
    r.n = (uint8_t)(1 + below(4)), r.k = (uint8_t)k;
    uint32_t states = (1u << r.n) - 1;
    r.initials = (uint32_t)random_number() & states, r.finals = (uint32_t)random_number() & states;
    if (below(3)) r.initials |= 1, r.finals = states; /* most say yes to a text unless they die in it */
    for (int q = 0; q < r.n; q++)
        for (int s = 0; s < k; s++) r.targets[16 * q + s] = below(12) ? 1u << below(r.n) | ((uint32_t)random_number() & states) : 0;
    return r;
}

static void as_due(int trays) {
    static uint8_t rows[BANDS * BAND];
    int said[2] = {0, 0};
    for (int i = 0; i < trays; i++) {
        int k = 1 + below(3), width = 1 + below(i % 2 ? 3 : WIDTH), bands = 1 + below(BANDS), from[BANDS + 1] = {0}, order[BANDS];
        bellbadger_checked_rule row = any_rule(k), column = any_rule(k);
        bellbadger_tray t = with(row, column, (size_t)width, (size_t)bands);
        for (int band = 0; band < bands; band++) {
            from[band + 1] = from[band] + (below(4) ? below(4) : below(ROWS + 1)) * (i % 5 > 0);
            int other = below(band + 1); /* a random order */
            order[band] = order[other], order[other] = band;
        }
        int count = from[bands], yes = 1;
        for (int c = 0; c < count * width; c++) rows[c] = (uint8_t)below(k);
        for (int n = 0; n < bands; n++) {
            int band = order[n], twice = !below(3);
            const uint8_t *its = rows + from[band] * width;
            size_t length = (size_t)((from[band + 1] - from[band]) * width);
            tray_verdict(&t, BELLBADGER_WAITING, bands - n);
            if (twice) { /* something else first, which is withdrawn */
                tray_deliver(&t, (size_t)band, rows, (size_t)width * (count > 0), 0);
                tray_deliver(&t, (size_t)band, its, length, 22);
                tray_withdraw(&t, (size_t)band, 0);
            }
            tray_deliver(&t, (size_t)band, its, length, 0);
        }
        for (int n = 0; n < count; n++) yes &= accepts(&row, rows + n * width, 1, width);
        for (int c = 0; c < width; c++) yes &= accepts(&column, rows + c, width, count);
        tray_verdict(&t, yes ? BELLBADGER_YES : BELLBADGER_NO, 0);
        said[yes]++;
    }
    CHECK(said[0] > trays / 10 && said[1] > trays / 10);
}

/* ---- whatever stands in a verdict, the kind of yes alone is one */
static void only_yes_is_yes(void) {
    for (int kind = 0; kind < 256; kind++) {
        bellbadger_tray_verdict_result r = {.kind = (uint8_t)kind, .number = 1};
        CHECK(bellbadger_tray_is_yes(r) == (kind == BELLBADGER_YES));
    }
}

/* ---- random numbers in every field; some trays half sensible, so that deeper code is reached */
static int refused_by(int number, int first, int second, int third) { return number == first || number == second || number == third; }

static void garbage(int trays) {
    static struct { uint8_t before[64]; bellbadger_tray tray; uint8_t behind[64]; } kept;
    static uint8_t rows[300], came[300];
    bellbadger_tray *t = &kept.tray;
    memset(&kept, 0xA5, sizeof kept);
    for (int i = 0; i < trays; i++) {
        uint8_t *bytes = (uint8_t *)t;
        for (size_t b = 0; b < sizeof *t; b++) bytes[b] = (uint8_t)(random_number() >> 32);
        if (i % 2) t->board.bands = (uint8_t)(1 + below(BANDS)), t->row.n = (uint8_t)(1 + below(32));
        if (i % 3 == 1) memset(t->board.filled, 0, sizeof t->board.filled);
        if (i % 3 == 2) memset(t->board.filled, 7, sizeof t->board.filled);
        if (i % 8 == 7) t->board.bands = 0;
        if (i % 16 == 9) t->board.width = 0;
        for (size_t b = 0; b < sizeof rows; b++) rows[b] = (uint8_t)below(i % 5 ? 2 : 256);
        memcpy(came, rows, sizeof rows);
        size_t band = i % 5 ? (size_t)below(BANDS) : (size_t)random_number(), length = i % 7 ? (size_t)below(300) : 0;
        bellbadger_tray_install_result r = bellbadger_tray_install_row(*t, t->column), c = bellbadger_tray_install_column(*t, t->row);
        CHECK(TOLD(r) && (r.accepted || (same_tray(&r.tray, t) && !r.sets && !r.starts)));
        CHECK(TOLD(c) && (c.accepted || (same_tray(&c.tray, t) && !c.sets && !c.starts)));
        r = bellbadger_tray_install_row(*t, a), c = bellbadger_tray_install_column(*t, a);
        CHECK(TAKEN(r) && same_rule(&r.tray.row, &a) && same_rule(&r.tray.column, &t->column) && same_board(&r.tray.board, &none));
        CHECK(TAKEN(c) && same_rule(&c.tray.column, &a) && same_rule(&c.tray.row, &t->row) && same_board(&c.tray.board, &none));
        bellbadger_tray_open_result o = bellbadger_tray_open(*t, (size_t)below(20), band);
        CHECK(TOLD(o) && (o.accepted || (same_tray(&o.tray, t) && refused_by(o.refused, 20, 38, 10))));
        bellbadger_tray_deliver_result d = bellbadger_tray_deliver(*t, band, rows, length);
        CHECK(TOLD(d) && (d.accepted || (same_tray(&d.tray, t) && (refused_by(d.refused, 21, 11, 39) || refused_by(d.refused, 13, 22, 22)))));
        CHECK((d.refused == 21) == (t->board.bands == 0));
        bellbadger_tray_withdraw_result w = bellbadger_tray_withdraw(d.tray, band);
        CHECK(TOLD(w) && (w.accepted || (same_tray(&w.tray, &d.tray) && refused_by(w.refused, 21, 11, 23))));
        CHECK(!d.accepted || w.accepted);
        bellbadger_tray_verdict_result of[] = {bellbadger_tray_verdict(*t), bellbadger_tray_verdict(d.tray), bellbadger_tray_verdict(w.tray)};
        for (int v = 0; v < 3; v++) {
            CHECK(of[v].kind <= BELLBADGER_NO && (of[v].kind == BELLBADGER_REFUSED) == (t->board.bands == 0));
            CHECK(of[v].kind >= BELLBADGER_YES ? of[v].number == 0 : of[v].kind ? of[v].number >= 1 && of[v].number <= BANDS : of[v].number == 21);
        }
        CHECK(!memcmp(rows, came, sizeof rows));
        for (int g = 0; g < 64; g++) CHECK(kept.before[g] == 0xA5 && kept.behind[g] == 0xA5);
    }
}

static void *all(void *trays) {
    layout();
    by_hand();
    largest();
    refused_rules();
    refusals();
    foreign_bytes();
    only_yes_is_yes();
    as_due(*(int *)trays);
    garbage(*(int *)trays);
    return NULL;
}

int main(int argc, char **argv) {
    int trays = argc > 1 ? atoi(argv[1]) : 1000;
    pthread_attr_t small;
    pthread_t thread;
    a = (bellbadger_checked_rule){.n = 3, .k = 2, .initials = 1, .finals = 4, .targets = {3, 1, [17] = 4}};
    e = (bellbadger_checked_rule){.n = 2, .k = 2, .initials = 1, .finals = 1, .targets = {2, 1, [16] = 1, [17] = 2}};
    CHECK(!pthread_attr_init(&small) && !pthread_attr_setstacksize(&small, STACK));
    CHECK(!pthread_create(&thread, &small, all, &trays) && !pthread_join(thread, NULL));
    printf("trays: %ld checks on a stack of %d KB\n", checks, STACK / 1024);
    return 0;
}
