/* Where a tray goes wrong, from C: worked by hand, refusals, trays in which any numbers stand, and many random
 * trays beside single runs that are searched forward, after every call: bands in any order, withdrawn and
 * delivered anew, missing at the end and in the middle. This would catch a row behind an empty band that is passed
 * over, a column that is told a row or a column too early or too late, one that is looked at behind an empty
 * band, a trap that counts as hope, a column that stopped too early and is taken for a lost one, and a fault that
 * a later band mends. Prints how many checks were made and what the trays were; stops at the first that fails. An
 * argument says how many trays. */
#include "checks.h"

enum { WIDTH = 16, BANDS = 8, ROWS = 64, MOST = BANDS * ROWS };

typedef bellbadger_checked_rule rule;
typedef bellbadger_tray_fault_result fault;

/* over 0 and 1: what ends in 0 1; 0, 0 1 0, 0 1 0 1 0 and so on, with a trap for what comes out of order; all texts */
static const rule ends = {.n = 3, .k = 2, .initials = 1, .finals = 4, .targets = {3, 1, [17] = 4}};
static const rule in_turn = {.n = 3, .k = 2, .initials = 1, .finals = 2, .targets = {2, 4, [16] = 4, 1, [32] = 4, 4}};
static const rule all = {.n = 1, .k = 2, .initials = 1, .finals = 1, .targets = {1, 1}};

static int same_fault(fault x, fault y) {
    return x.kind == y.kind && x.number == y.number && x.column == y.column && x.band == y.band && x.row == y.row;
}

static const fault no_board = {.kind = BELLBADGER_REFUSED, .number = 21};
static fault open_with(int bands) { return (fault){.kind = BELLBADGER_OPEN, .number = (uint8_t)bands}; }
static fault in_row(int band, int row) { return (fault){.kind = BELLBADGER_FAULT_ROW, .band = (uint8_t)band, .row = (uint8_t)row}; }
static fault in_column(int column, int band, int row) {
    return (fault){.kind = BELLBADGER_FAULT_COLUMN, .column = (uint8_t)column, .band = (uint8_t)band, .row = (uint8_t)row};
}
static fault too_short(int column) { return (fault){.kind = BELLBADGER_FAULT_SHORT, .column = (uint8_t)column}; }

/* The fault is the one that is due; over a full board it fits the verdict. */
static void found(const bellbadger_tray *t, fault due) {
    fault said = bellbadger_tray_fault(*t);
    bellbadger_tray_verdict_result verdict = bellbadger_tray_verdict(*t);
    CHECK(same_fault(said, due));
    CHECK((said.kind == BELLBADGER_REFUSED) == (verdict.kind == BELLBADGER_REFUSED));
    CHECK(verdict.kind != BELLBADGER_YES || (said.kind == BELLBADGER_OPEN && said.number == t->board.bands));
    CHECK(verdict.kind != BELLBADGER_NO || said.kind >= BELLBADGER_FAULT_ROW);
    CHECK(verdict.kind != BELLBADGER_WAITING || said.kind != BELLBADGER_FAULT_SHORT);
}

static void tray_deliver(bellbadger_tray *t, int band, const uint8_t *rows, size_t length) {
    bellbadger_tray_deliver_result r = bellbadger_tray_deliver(*t, (size_t)band, rows, length);
    CHECK(TAKEN(r));
    *t = r.tray;
}

static void tray_withdraw(bellbadger_tray *t, int band) {
    bellbadger_tray_withdraw_result r = bellbadger_tray_withdraw(*t, (size_t)band);
    CHECK(TAKEN(r));
    *t = r.tray;
}

/* whether both rules are taken: one with over 512 sets is not */
static int with(bellbadger_tray *t, rule row, rule column, int width, int bands) {
    bellbadger_tray_install_result by_row = bellbadger_tray_install_row(bellbadger_tray_new(), row);
    bellbadger_tray_install_result by_column = bellbadger_tray_install_column(by_row.tray, column);
    if (!by_row.accepted || !by_column.accepted) return 0;
    bellbadger_tray_open_result opened = bellbadger_tray_open(by_column.tray, (size_t)width, (size_t)bands);
    CHECK(TAKEN(opened));
    *t = opened.tray;
    return 1;
}

static bellbadger_tray opened(rule row, rule column, int width, int bands) {
    bellbadger_tray t;
    CHECK(with(&t, row, column, width, bands));
    return t;
}

#define BYTES(...) (const uint8_t[]){__VA_ARGS__}, sizeof((const uint8_t[]){__VA_ARGS__})

/* ---- by hand */
static void rows(void) {
    bellbadger_tray t = opened(ends, all, 2, 4);
    found(&t, open_with(0));
    tray_deliver(&t, 2, BYTES(0, 1, 0, 1)); /* behind two empty bands */
    found(&t, open_with(0));
    tray_deliver(&t, 3, BYTES(0, 1, 1, 1, 0, 0));
    found(&t, in_row(3, 1));
    tray_deliver(&t, 0, BYTES(0, 1));
    found(&t, in_row(3, 1));
    tray_withdraw(&t, 3);
    found(&t, open_with(1));
    tray_deliver(&t, 1, BYTES(0, 1, 0, 1, 1, 0));
    found(&t, in_row(1, 2));
    tray_deliver(&t, 3, BYTES(0, 0)); /* a later one, which is not the first */
    found(&t, in_row(1, 2));
    tray_withdraw(&t, 1);
    found(&t, in_row(3, 0));
    tray_withdraw(&t, 3);
    tray_deliver(&t, 1, NULL, 0);
    found(&t, open_with(3));
    tray_deliver(&t, 3, BYTES(1, 1)); /* the board is full, and no */
    found(&t, in_row(3, 0));
    tray_withdraw(&t, 3);
    tray_deliver(&t, 3, NULL, 0);
    found(&t, open_with(4));
}

/* a row comes before a column, and a lost column before one that stopped too early */
static void columns(void) {
    bellbadger_tray t = opened(all, in_turn, 3, 3);
    tray_deliver(&t, 1, BYTES(0, 1, 0)); /* not known yet: band 0 is empty */
    found(&t, open_with(0));
    tray_deliver(&t, 0, BYTES(0, 0, 0, 1, 1, 1)); /* then the second column is 0 1 1 */
    found(&t, in_column(1, 1, 0));
    tray_withdraw(&t, 1);
    found(&t, open_with(1));
    tray_deliver(&t, 1, NULL, 0); /* a band of no rows loses nothing */
    found(&t, open_with(2));
    tray_deliver(&t, 2, BYTES(0, 0, 0, 1, 1, 0, 0, 0, 0));
    found(&t, in_column(2, 2, 1));
    tray_withdraw(&t, 2);
    tray_deliver(&t, 2, BYTES(0, 0, 0, 1, 1, 1)); /* each column is 0 1 0 1, which could go on */
    found(&t, too_short(0));
    tray_withdraw(&t, 2);
    tray_deliver(&t, 2, BYTES(0, 0, 0, 1, 1, 1, 0, 0, 0));
    found(&t, open_with(3));
    tray_withdraw(&t, 0);
    found(&t, open_with(0));
    tray_deliver(&t, 0, BYTES(1, 1, 1));
    found(&t, in_column(0, 0, 0));
    t = opened(ends, in_turn, 2, 1);
    tray_deliver(&t, 0, BYTES(0, 1, 0, 0)); /* the second column is lost by the first row; the second row is wrong */
    found(&t, in_row(0, 1));
    tray_withdraw(&t, 0);
    tray_deliver(&t, 0, BYTES(0, 1, 0, 1));
    found(&t, in_column(0, 0, 1)); /* the first column, though a later one was lost before */
    tray_withdraw(&t, 0);
    tray_deliver(&t, 0, BYTES(0, 1));
    found(&t, in_column(1, 0, 0));
}

/* only columns that are accepted nowhere else than at their end are short, and on a full board alone */
static void stopped(void) {
    bellbadger_tray t = opened(all, ends, 2, 2);
    tray_deliver(&t, 1, NULL, 0);
    found(&t, open_with(0));
    tray_deliver(&t, 0, NULL, 0); /* no rows at all: each column is the empty text */
    found(&t, too_short(0));
    tray_withdraw(&t, 0);
    tray_deliver(&t, 0, BYTES(0, 0, 1, 0));
    found(&t, too_short(1));
    tray_withdraw(&t, 1);
    found(&t, open_with(1));
    tray_deliver(&t, 1, BYTES(0, 0, 1, 1));
    found(&t, open_with(2));
}

/* without a final state, without an initial one, without a way from the one to the other */
static void accepts_nothing(void) {
    static const uint32_t masks[][2] = {{1, 0}, {0, 2}, {1, 2}};
    for (int i = 0; i < 3; i++) {
        rule nothing = {.n = 2, .k = 2, .initials = masks[i][0], .finals = masks[i][1], .targets = {1, 1, [16] = 2, 2}};
        bellbadger_tray t = opened(ends, nothing, 2, 3);
        found(&t, in_column(0, 0, 0)); /* though nothing stands */
        tray_deliver(&t, 2, BYTES(0, 1));
        found(&t, in_column(0, 0, 0));
        tray_deliver(&t, 0, NULL, 0);
        found(&t, in_column(0, 0, 0));
        tray_deliver(&t, 1, BYTES(0, 1, 1, 0));
        found(&t, in_row(1, 1));
        t = opened(nothing, all, 1, 3); /* of the rows: each that stands is wrong, and where none stands there is none */
        found(&t, open_with(0));
        tray_deliver(&t, 0, NULL, 0);
        tray_deliver(&t, 2, BYTES(0));
        found(&t, in_row(2, 0));
        tray_withdraw(&t, 2);
        found(&t, open_with(1));
    }
}

/* 21 is the one refusal: without rules, without a board, and where an installation removed it */
static void refusals(void) {
    bellbadger_tray t = bellbadger_tray_new();
    found(&t, no_board);
    t = bellbadger_tray_install_row(t, ends).tray;
    found(&t, no_board);
    t = bellbadger_tray_install_column(t, in_turn).tray;
    found(&t, no_board);
    t = bellbadger_tray_open(t, 2, 1).tray;
    tray_deliver(&t, 0, BYTES(1, 1));
    found(&t, in_row(0, 0));
    t = bellbadger_tray_install_column(t, all).tray;
    found(&t, no_board);
    t = bellbadger_tray_open(t, 2, 1).tray;
    found(&t, open_with(0));
    t = bellbadger_tray_install_row(t, all).tray;
    found(&t, no_board);
    t = bellbadger_tray_open(t, 2, 8).tray;
    found(&t, open_with(0));
}

/* the greatest numbers that there are */
static void largest(void) {
    static uint8_t zeros_in[ROWS * WIDTH], last[ROWS * WIDTH];
    bellbadger_tray t = opened(all, all, WIDTH, BANDS), u;
    rule no_1 = all, dies;
    no_1.targets[1] = 0, dies = no_1; /* what has no 1 */
    last[sizeof last - 1] = 1;
    for (int band = 0; band < BANDS; band++) {
        found(&t, open_with(band));
        tray_deliver(&t, band, band < BANDS - 1 ? zeros_in : last, sizeof last);
    }
    found(&t, open_with(BANDS));
    for (int columns_too = 0; columns_too < 2; columns_too++) {
        u = opened(columns_too ? all : no_1, columns_too ? dies : all, WIDTH, BANDS);
        for (int band = BANDS; band-- > 0;) tray_deliver(&u, band, band < BANDS - 1 ? zeros_in : last, sizeof last);
        found(&u, columns_too ? in_column(WIDTH - 1, BANDS - 1, ROWS - 1) : in_row(BANDS - 1, ROWS - 1));
    }
}

/* ---- chance */
static uint64_t seed = 88172645463325252u;

static uint32_t chance(void) {
    seed ^= seed << 13, seed ^= seed >> 7, seed ^= seed << 17;
    return (uint32_t)(seed >> 16);
}

static int below(int bound) { return (int)(chance() % (uint32_t)bound); }

/* random numbers in every field: the call ends, and its answer is one of those that there are */
static void any_numbers(int trays) {
    static bellbadger_tray t;
    for (int i = 0; i < trays; i++) {
        uint8_t *bytes = (uint8_t *)&t;
        for (size_t b = 0; b < sizeof t; b++) bytes[b] = (uint8_t)chance();
        if (i % 2) t.board.bands = (uint8_t)(1 + below(BANDS)), t.board.width = (uint8_t)(1 + below(WIDTH));
        if (i % 3 == 1) memset(t.board.filled, 1, sizeof t.board.filled);
        if (i % 4 == 1) t.row = all;
        if (i % 4 == 3) t.row = all, t.column = all;
        if (i % 4 > 1) for (size_t c = 0; c < sizeof t.board.cells; c++) t.board.cells[c] &= 1;
        if (i % 16 == 15) t.board.bands = 0;
        fault f = bellbadger_tray_fault(t);
        CHECK((f.kind == BELLBADGER_REFUSED) == (t.board.bands == 0));
        CHECK(f.column < WIDTH && f.band < BANDS && f.row < ROWS);
        if (f.kind == BELLBADGER_REFUSED) CHECK(same_fault(f, no_board));
        else if (f.kind == BELLBADGER_OPEN) CHECK(same_fault(f, open_with(f.number)) && f.number <= BANDS);
        else if (f.kind == BELLBADGER_FAULT_ROW) CHECK(same_fault(f, in_row(f.band, f.row)));
        else if (f.kind == BELLBADGER_FAULT_COLUMN) CHECK(same_fault(f, in_column(f.column, f.band, f.row)));
        else CHECK(same_fault(f, too_short(f.column)));
    }
}

/* ---- single runs, searched forward */

/* whether arcs, whatever their symbols, lead from the state to a final one by states that were not seen */
static int reaches(const rule *r, int q, uint32_t *seen) {
    if (r->finals >> q & 1) return 1;
    *seen |= 1u << q;
    for (int s = 0; s < r->k; s++)
        for (int p = 0; p < r->n; p++)
            if (r->targets[16 * q + s] >> p & 1 && !(*seen >> p & 1) && reaches(r, p, seen)) return 1;
    return 0;
}

/* whether a run over the events that leads on from the state ends in a final one, or with more events could;
 * failed has the states from which no such run leads on, event by event */
static int run_on(const rule *r, int q, const uint8_t *events, int count, int more, uint32_t *failed) {
    uint32_t seen = 0;
    if (count == 0) return more ? reaches(r, q, &seen) : (int)(r->finals >> q & 1);
    for (int p = 0; p < r->n; p++) {
        if (!(r->targets[16 * q + events[0]] >> p & 1) || failed[1] >> p & 1) continue;
        if (run_on(r, p, events + 1, count - 1, more, failed + 1)) return 1;
        failed[1] |= 1u << p;
    }
    return 0;
}

static int some_run(const rule *r, const uint8_t *events, int count, int more) {
    static uint32_t failed[MOST + 1];
    memset(failed, 0, sizeof failed);
    for (int q = 0; q < r->n; q++)
        if (r->initials >> q & 1 && run_on(r, q, events, count, more, failed)) return 1;
    return 0;
}

/* ---- random trays */
typedef struct {
    rule row, column;
    int width, bands;
    int there[BANDS], count[BANDS]; /* whether a band stands, and its rows */
    uint8_t events[BANDS][ROWS * WIDTH];
} picture;

/* the words, one after the other */
static fault due(const picture *p) {
    static uint8_t text[MOST];
    int before = 0, length;
    for (int b = 0; b < p->bands; b++)
        for (int i = 0; p->there[b] && i < p->count[b]; i++)
            if (!some_run(&p->row, p->events[b] + i * p->width, p->width, 0)) return in_row(b, i);
    if (!some_run(&p->column, NULL, 0, 1)) return in_column(0, 0, 0);
    while (before < p->bands && p->there[before]) before++;
    for (int c = 0; c < p->width; c++) {
        length = 0;
        for (int b = 0; b < before; b++)
            for (int i = 0; i < p->count[b]; i++) {
                text[length++] = p->events[b][i * p->width + c];
                if (!some_run(&p->column, text, length, 1)) return in_column(c, b, i);
            }
    }
    for (int c = 0; c < p->width && before == p->bands; c++) {
        length = 0;
        for (int b = 0; b < before; b++)
            for (int i = 0; i < p->count[b]; i++) text[length++] = p->events[b][i * p->width + c];
        if (!some_run(&p->column, text, length, 0)) return too_short(c);
    }
    return open_with(before);
}

static uint32_t step(const rule *r, uint32_t set, int symbol) {
    uint32_t to = 0;
    for (int q = 0; q < r->n; q++)
        if (set >> q & 1) to |= r->targets[16 * q + symbol];
    return to;
}

/* few arcs or many, states that lead nowhere, now and then nothing that is accepted; of a kind one that says yes
 * to every text unless it dies in it */
static rule any_rule(int k, int kind) {
    rule r = {.n = (uint8_t)(below(12) ? 1 + below(4) : 1 + below(32)), .k = (uint8_t)k};
    uint32_t states = r.n < 32 ? (1u << r.n) - 1 : UINT32_MAX;
    int arcs = 1 + below(2), traps = below(3);
    r.initials = below(20) ? 1u | (below(3) ? 0 : chance() & states) : 0;
    r.finals = !below(20) ? 0 : kind ? states : 1u << below(r.n) | (below(2) ? 0 : chance() & states);
    for (int q = 0; q < r.n; q++)
        for (int s = 0, trap = traps && !below(4); s < k; s++)
            for (int i = 0; i < arcs; i++)
                if (below(kind ? 12 : 5)) r.targets[16 * q + s] |= 1u << (trap ? q : below(r.n));
    return r;
}

/* rows that are mostly accepted, with columns that mostly could go on behind what stands before */
static void fill(picture *p, int careless) {
    uint32_t hope[2] = {p->row.finals, p->column.finals}, sets[WIDTH];
    for (int round = 0; round < 32; round++)
        for (int q = 0; q < p->column.n; q++)
            for (int s = 0; s < p->column.k; s++)
                if (p->column.targets[16 * q + s] & hope[1]) hope[1] |= 1u << q;
    for (int c = 0; c < p->width; c++) sets[c] = p->column.initials;
    for (int b = 0; b < p->bands; b++)
        for (int i = 0; i < p->count[b]; i++) {
            uint8_t *row = p->events[b] + i * p->width;
            for (int tries = 0; tries < 40; tries++) {
                uint32_t across = p->row.initials;
                int lost = 0;
                for (int c = 0; c < p->width; c++) {
                    row[c] = (uint8_t)below(p->row.k);
                    for (int s = 0; s < p->row.k && !(step(&p->column, sets[c], row[c]) & hope[1]); s++) row[c] = (uint8_t)((row[c] + 1) % p->row.k);
                    across = step(&p->row, across, row[c]), lost |= !(step(&p->column, sets[c], row[c]) & hope[1]);
                }
                if ((across & hope[0] && !lost) || !below(careless)) break;
            }
            for (int c = 0; c < p->width; c++) sets[c] = step(&p->column, sets[c], row[c]);
        }
}

static long kinds[10], full[10], behind, nothing, over;

/* what is due, after every call; a row or a lost column stays while bands are only delivered */
static void told(const picture *p, const bellbadger_tray *t, fault *before, int delivered) {
    fault is_due = due(p);
    int empty = 0;
    found(t, is_due);
    CHECK(!delivered || (before->kind != BELLBADGER_FAULT_ROW && before->kind != BELLBADGER_FAULT_COLUMN)
          || is_due.kind == BELLBADGER_FAULT_ROW || is_due.kind == BELLBADGER_FAULT_COLUMN);
    for (int b = 0; b < p->bands; b++) {
        empty += !p->there[b];
        behind += is_due.kind == BELLBADGER_FAULT_ROW && b == is_due.band && empty;
    }
    kinds[is_due.kind]++, full[is_due.kind] += !empty;
    nothing += !some_run(&p->column, NULL, 0, 1);
    *before = is_due;
}

static void deliver_band(picture *p, bellbadger_tray *t, int band) {
    tray_deliver(t, band, p->events[band], (size_t)(p->count[band] * p->width));
    p->there[band] = 1;
}

static void random_tray(void) {
    static picture p;
    bellbadger_tray t;
    int k = 1 + below(3), order[BANDS], careless = below(2) ? 2 : 40;
    memset(&p, 0, sizeof p);
    p.row = any_rule(k, below(4)), p.column = any_rule(k, !below(3));
    p.width = 1 + below(below(4) ? 4 : WIDTH), p.bands = 1 + below(below(4) ? 4 : BANDS);
    if (!with(&t, p.row, p.column, p.width, p.bands)) {
        over++;
        return;
    }
    for (int b = 0; b < p.bands; b++) {
        int other = below(b + 1);
        order[b] = order[other], order[other] = b; /* a random order */
        p.count[b] = below(8) ? below(4) : below(ROWS + 1);
    }
    fill(&p, careless);
    fault before = {.kind = BELLBADGER_OPEN};
    told(&p, &t, &before, 0);
    for (int n = 0; n < p.bands; n++) {
        if (!below(5)) continue; /* it is left out for now */
        deliver_band(&p, &t, order[n]);
        told(&p, &t, &before, 1);
        int other = below(p.bands);
        if (!below(4) && p.there[other]) {
            tray_withdraw(&t, other);
            p.there[other] = 0;
            told(&p, &t, &before, 0);
        }
    }
    for (int b = 0; b < p.bands; b++) /* what is missing still, mostly */
        if (!p.there[b] && below(6)) {
            deliver_band(&p, &t, b);
            told(&p, &t, &before, 1);
        }
}

int main(int argc, char **argv) {
    int trays = argc > 1 ? atoi(argv[1]) : 3000;
    rows();
    columns();
    stopped();
    accepts_nothing();
    refusals();
    largest();
    any_numbers(trays / 2 + 1);
    for (int i = 0; i < trays; i++) random_tray();
    const int each[] = {BELLBADGER_OPEN, BELLBADGER_FAULT_ROW, BELLBADGER_FAULT_COLUMN, BELLBADGER_FAULT_SHORT};
    for (int i = 0; trays >= 1000 && i < 4; i++) CHECK(full[each[i]] > trays / 20 && kinds[each[i]] > trays / 20);
    CHECK(trays < 1000 || (behind > trays / 20 && nothing > trays / 20 && over < trays / 10));
    printf("faults: %ld checks; open %ld, of them full %ld; a row %ld, %ld behind an empty band; a column %ld; too short %ld; %ld with a column rule that accepts nothing\n",
           checks, kinds[BELLBADGER_OPEN], full[BELLBADGER_OPEN], kinds[BELLBADGER_FAULT_ROW], behind, kinds[BELLBADGER_FAULT_COLUMN],
           kinds[BELLBADGER_FAULT_SHORT], nothing);
    return 0;
}
