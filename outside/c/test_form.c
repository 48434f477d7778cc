/* The failure form from C, on a thread with the stack that the header says is enough: a form number by
 * number, the form and the way back on random rules against a second computation, each reason for 40, what
 * is not read, and forms in which any numbers stand. Prints how many checks were made; stops at the first
 * that fails. */
#include <pthread.h>

#include "checks.h"

enum { STACK = 512 * 1024 };
enum { SETS = 512, SYMBOLS = 16, CELLS = 8192, EMPTY = BELLBADGER_EMPTY_SET };

typedef bellbadger_failure_form form;

static uint64_t seed = 88172645463325252u;
static uint32_t random_number(void) {
    seed ^= seed << 13;
    seed ^= seed >> 7;
    seed ^= seed << 17;
    return (uint32_t)(seed >> 32);
}

static int all_zero(const uint16_t *words, int n) {
    for (int i = 0; i < n; i++)
        if (words[i]) return 0;
    return 1;
}

static form made(const bellbadger_judge *j, int refused) {
    static bellbadger_form_result r;
    r = bellbadger_form(*j);
    CHECK(ANSWERED(r, refused));
    CHECK(r.accepted || (!r.form.sets && !r.form.symbols && all_zero(r.form.failure, SETS) && all_zero(r.form.kept, SETS) && all_zero(r.form.cells, CELLS)));
    return r.form;
}

static bellbadger_next_table back(const form *f, int refused) {
    static bellbadger_table_result r;
    r = bellbadger_form_back(*f);
    CHECK(ANSWERED(r, refused));
    CHECK(r.accepted || (!r.table.sets && !r.table.symbols && all_zero(r.table.next, CELLS)));
    return r.table;
}

/* the form of rule A (document 01): every number, so that the header's structs are the library's */
static void worked(void) {
    static const uint8_t rule_a[] = {3, 2, 1, 0, 0, 0, 4, 0, 0, 0, 22, 0, 6, 0, 28, 0, 2, 0, 30, 0, 0, 0, 0, 0, 0, 1, 1, 0, 1, 2};
    static const uint16_t failure[] = {0, 0, 0, 0, 3}, kept[] = {3, 2, 0, 3, 2}, cells[] = {1, 0, 2, EMPTY, 4, EMPTY};
    bellbadger_judge j = bellbadger_new();
    made(&j, 20);
    load(&j, rule_a, sizeof rule_a, 0);
    form f = made(&j, 0);
    CHECK(f.sets == 5 && f.symbols == 2);
    CHECK(!memcmp(f.failure, failure, sizeof failure) && all_zero(f.failure + 5, SETS - 5));
    CHECK(!memcmp(f.kept, kept, sizeof kept) && all_zero(f.kept + 5, SETS - 5));
    CHECK(!memcmp(f.cells, cells, sizeof cells) && all_zero(f.cells + 6, CELLS - 6));
    bellbadger_next_table t = back(&f, 0);
    CHECK(t.sets == 5 && t.symbols == 2 && !memcmp(t.next, j.rule.next, sizeof t.next));
}

/* each reason for 40, at its bounds, and what is not read */
static void reasons(const form *good) {
    int n = good->sets, k = good->symbols, cells = 0;
    for (int t = 0; t < n; t++) cells += __builtin_popcount(good->kept[t]);
    form f = *good;
#define WITH(change, refused) f = *good, change, back(&f, refused)
    WITH(f.sets = 0, 40), WITH(f.sets = 513, 40), WITH(f.sets = 65535, 40);
    WITH(f.symbols = 0, 40), WITH(f.symbols = 17, 40), WITH(f.symbols = 255, 40);
    for (int t = 1; t < n; t++) {
        WITH(f.failure[t] = (uint16_t)(t - 1), 0);
        WITH(f.failure[t] = (uint16_t)t, 40);
        WITH(f.failure[t] = 65535, 40);
    }
    for (int s = 0; s < k; s++) WITH(f.kept[0] &= (uint16_t)~(1u << s), 40);
    for (int t = 0; t < n; t++)
        for (int s = k; s < SYMBOLS; s++) WITH(f.kept[t] |= (uint16_t)(1u << s), 40);
    for (int i = 0; i < cells; i++) {
        WITH(f.cells[i] = (uint16_t)(n - 1), 0);
        WITH(f.cells[i] = EMPTY, 0);
        if (n < EMPTY) WITH(f.cells[i] = (uint16_t)n, 40);
        WITH(f.cells[i] = EMPTY + 1, 40);
        WITH(f.cells[i] = 65535, 40);
    }
    bellbadger_next_table due = back(good, 0);
    f = *good;
    f.failure[0] = 65535;
    for (int t = n; t < SETS; t++) f.failure[t] = (uint16_t)random_number(), f.kept[t] = (uint16_t)random_number();
    for (int i = cells; i < CELLS; i++) f.cells[i] = (uint16_t)random_number();
    bellbadger_next_table t = back(&f, 0);
    CHECK(t.sets == due.sets && t.symbols == due.symbols && !memcmp(t.next, due.next, sizeof t.next));
}

static int equal_cells(const bellbadger_built_rule *r, int t, int u) {
    int n = 0;
    for (int s = 0; s < r->k; s++) n += r->next[16 * t + s] == r->next[16 * u + s];
    return n;
}

/* the form of the judge's table once more */
static void compared(const bellbadger_judge *j) {
    const bellbadger_built_rule *r = &j->rule;
    form f = made(j, 0);
    int cells = 0;
    CHECK(f.sets == r->count && f.symbols == r->k);
    for (int t = 0; t < r->count; t++) {
        int best = 0;
        for (int u = 1; u < t; u++)
            if (equal_cells(r, t, u) > equal_cells(r, t, best)) best = u;
        CHECK(f.failure[t] == best);
        for (int s = 0; s < SYMBOLS; s++) {
            int kept = s < r->k && (t == 0 || r->next[16 * t + s] != r->next[16 * best + s]);
            if ((f.kept[t] >> s & 1) != kept) CHECK(!"the mask has the kept cells");
            if (kept && f.cells[cells++] != r->next[16 * t + s]) CHECK(!"the kept cell stands there");
        }
    }
    CHECK(all_zero(f.failure + r->count, SETS - r->count) && all_zero(f.kept + r->count, SETS - r->count));
    CHECK(all_zero(f.cells + cells, CELLS - cells));
    bellbadger_next_table t = back(&f, 0);
    CHECK(t.sets == r->count && t.symbols == r->k && !memcmp(t.next, r->next, sizeof t.next));
    if (cells < 60) reasons(&f);
}

static void random_rules(int rounds) {
    bellbadger_judge j = bellbadger_new();
    for (int i = 0; i < rounds; i++) {
        bellbadger_checked_rule r = {.n = (uint8_t)(1 + random_number() % 12), .k = (uint8_t)(1 + random_number() % SYMBOLS)};
        uint32_t states = (1u << r.n) - 1;
        r.initials = random_number() & states, r.finals = random_number() & states;
        for (int c = 0; c < 16 * r.n; c++) {
            uint32_t mask = random_number() & states;
            for (unsigned x = 0; x < (unsigned)i % 4; x++) mask &= random_number();
            if (c % 16 < r.k) r.targets[c] = mask;
        }
        bellbadger_install_result l = bellbadger_install(j, r);
        CHECK(TAKEN(l) || REFUSED_WITH(l, 9));
        j = l.judge;
        if (l.accepted) compared(&j);
    }
}

/* by the words of the request, on a form in which any numbers stand */
static int wrong(const form *f) {
    int kept = 0;
    if (f->sets < 1 || f->sets > SETS || f->symbols < 1 || f->symbols > SYMBOLS) return 1;
    for (int t = 1; t < f->sets; t++)
        if (f->failure[t] >= t) return 1;
    for (int t = 0; t < f->sets; t++) {
        if (f->kept[t] >> f->symbols) return 1;
        kept += __builtin_popcount(f->kept[t]);
    }
    for (int i = 0; i < kept; i++)
        if (f->cells[i] != EMPTY && f->cells[i] >= f->sets) return 1;
    return f->kept[0] != (1u << f->symbols) - 1;
}

/* random numbers in every field, made more and more sensible: accepted and refused as they should be, and
 * each cell looked up as the header says */
static void garbage(int rounds) {
    static form f;
    static uint16_t first[SETS + 1];
    for (int i = 0; i < rounds; i++) {
        uint8_t *bytes = (uint8_t *)&f;
        int sense = (int)(random_number() % 7);
        for (size_t b = 0; b < sizeof f; b++) bytes[b] = (uint8_t)random_number();
        if (sense > 0) f.sets = (uint16_t)(1 + f.sets % (i % 2 ? 3 : SETS));
        if (sense > 1) f.symbols = (uint8_t)(1 + f.symbols % SYMBOLS);
        for (int t = 1; sense > 2 && t < SETS; t++) f.failure[t] = (uint16_t)(f.failure[t] % t);
        uint16_t symbols = f.symbols < 16 ? (uint16_t)((1u << f.symbols) - 1) : 65535;
        for (int t = 0; sense > 3 && t < SETS; t++) f.kept[t] = f.kept[t] & symbols;
        if (sense > 4) f.kept[0] = symbols;
        for (int c = 0; sense > 5 && c < CELLS; c++) f.cells[c] = (uint16_t)(f.cells[c] % 8 ? f.cells[c] % f.sets : EMPTY);
        int refused = wrong(&f) ? 40 : 0;
        bellbadger_next_table r = back(&f, refused);
        if (refused) continue;
        for (int t = 0; t < f.sets; t++) first[t + 1] = (uint16_t)(first[t] + __builtin_popcount(f.kept[t]));
        for (int c = 0; c < CELLS; c++) {
            int t = c / 16, s = c % 16, due = EMPTY;
            if (t < f.sets && s < f.symbols) {
                while (!(f.kept[t] >> s & 1)) t = f.failure[t];
                due = f.cells[first[t] + __builtin_popcount(f.kept[t] & ((1u << s) - 1))];
            }
            if (r.next[c] != due) CHECK(!"the cell is the kept one or the failure set's");
        }
        CHECK(r.sets == f.sets && r.symbols == f.symbols);
    }
}

static void *all(void *rounds) {
    worked();
    random_rules(*(int *)rounds);
    garbage(2 * *(int *)rounds);
    return NULL;
}

int main(int argc, char **argv) {
    int rounds = argc > 1 ? atoi(argv[1]) : 300;
    pthread_attr_t small;
    pthread_t thread;
    CHECK(!pthread_attr_init(&small) && !pthread_attr_setstacksize(&small, STACK));
    CHECK(!pthread_create(&thread, &small, all, &rounds) && !pthread_join(thread, NULL));
    printf("C, the failure form: %ld checks on a stack of %d KB\n", checks, STACK / 1024);
    return 0;
}
