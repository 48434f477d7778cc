/* A judge as bytes, and back: the bytes as a plain reading of the format writes them, every number had back,
 * cut, altered and longer bytes refused with 46 at every place, and calls that go on as they would have.
 * test_saved [PLACES] alters so many places of the bytes, all where no number is given. */
#include "checks.h"

static const uint8_t rule_a[] = {
    0x03, 0x02, 0x01, 0x00, 0x00, 0x00, 0x04, 0x00, 0x00, 0x00, 0x16, 0x00, 0x06, 0x00, 0x1C,
    0x00, 0x02, 0x00, 0x1E, 0x00, 0x00, 0x00, 0x00, 0x00, 0x00, 0x01, 0x01, 0x00, 0x01, 0x02,
};

static bellbadger_judge judge, fresh;
static uint8_t due[BELLBADGER_SAVED_SIZE + 1];
static size_t end;
static uint64_t seed = 1;

static unsigned any(unsigned below) {
    seed = seed * 6364136223846793005u + 1442695040888963407u;
    return (unsigned)(seed >> 33) % below;
}

/* ---- the format, from its words */
static void put(uint64_t number, int bytes) {
    for (int i = 0; i < bytes; i++) due[end++] = (uint8_t)(number >> 8 * i);
}

#define PUT_ALL(array, bytes) \
    for (size_t cell = 0; cell < sizeof(array) / sizeof *(array); cell++) put((array)[cell], bytes)

static uint64_t digest(void) {
    uint64_t h = 0;
    for (size_t i = 0; i < end; i++) {
        uint64_t t = h * 131073 + due[i] + 1, upper = t >> 32;
        h = (t + upper * upper) << 32 | upper;
    }
    return h;
}

static void written(const bellbadger_judge *j) {
    end = 0;
    put('B', 1), put('B', 1), put('J', 1), put(1, 1), put(BELLBADGER_SAVED_SIZE, 4);
    put(j->rule.n, 1), put(j->rule.k, 1), put(j->rule.starts, 1), put(j->rule.count, 2);
    put(j->rule.initials, 4), put(j->rule.finals, 4);
    PUT_ALL(j->rule.delegates, 1);
    PUT_ALL(j->rule.singles, 2);
    PUT_ALL(j->rule.sets, 4);
    PUT_ALL(j->rule.next, 2);
    put(j->board.places, 1);
    PUT_ALL(j->board.filled, 1);
    PUT_ALL(j->board.counts, 4);
    PUT_ALL(j->board.lengths, 4);
    PUT_ALL(j->board.revisions, 8);
    PUT_ALL(j->board.ends, 4);
    put(digest(), 8);
    CHECK(end == BELLBADGER_SAVED_SIZE);
}

/* ---- the library */
static void refused(size_t length) {
    bellbadger_restore_result r = bellbadger_restore(due, length);
    CHECK(REFUSED_WITH(r, 46) && same(&r.judge, &fresh));
}

static void there_and_back(void) {
    bellbadger_saved saved = bellbadger_save(judge);
    written(&judge);
    CHECK(!memcmp(saved.bytes, due, sizeof saved.bytes));
    bellbadger_restore_result r = bellbadger_restore(saved.bytes, sizeof saved.bytes);
    CHECK(TAKEN(r) && same(&r.judge, &judge));
    refused(any(BELLBADGER_SAVED_SIZE));
    refused(BELLBADGER_SAVED_SIZE + 1);
    size_t at = any(BELLBADGER_SAVED_SIZE);
    due[at] = (uint8_t)(due[at] + 1 + any(255));
    refused(BELLBADGER_SAVED_SIZE);
}

/* several bytes, so far apart, each greater by a number; and then as before */
static void changed(size_t at, size_t apart, const int *by, size_t count) {
    for (size_t i = 0; i < count; i++) due[at + i * apart] = (uint8_t)(due[at + i * apart] + by[i]);
    refused(BELLBADGER_SAVED_SIZE);
    for (size_t i = 0; i < count; i++) due[at + i * apart] = (uint8_t)(due[at + i * apart] - by[i]);
}

/* calls, one after the other, the judge saved and restored before each; a judge beside it that is not */
static void calls(void) {
    bellbadger_judge plain = bellbadger_new();
    judge = plain;
    for (int call = 0; call < 30; call++) {
        bellbadger_saved saved = bellbadger_save(judge);
        bellbadger_restore_result back = bellbadger_restore(saved.bytes, sizeof saved.bytes);
        CHECK(TAKEN(back));
        uint8_t chunk[4];
        size_t place = any(4), length = any(5);
        for (size_t i = 0; i < sizeof chunk; i++) chunk[i] = (uint8_t)(any(12) ? any(2) : any(256));
        unsigned which = any(20);
        if (which < 2) {
            bellbadger_load_result r = bellbadger_load(back.judge, rule_a, sizeof rule_a);
            judge = r.judge, plain = bellbadger_load(plain, rule_a, sizeof rule_a).judge;
        } else if (which < 4) {
            judge = bellbadger_open(back.judge, place).judge, plain = bellbadger_open(plain, place).judge;
        } else if (which < 5) {
            judge = bellbadger_withdraw(back.judge, place).judge, plain = bellbadger_withdraw(plain, place).judge;
        } else {
            bellbadger_deliver_result r = bellbadger_deliver(back.judge, place, which, chunk, length);
            bellbadger_deliver_result p = bellbadger_deliver(plain, place, which, chunk, length);
            CHECK(r.accepted == p.accepted && r.refused == p.refused && r.looked == p.looked);
            judge = r.judge, plain = p.judge;
        }
        CHECK(same(&judge, &plain));
        bellbadger_verdict_result v = bellbadger_verdict(judge), w = bellbadger_verdict(plain);
        CHECK(v.kind == w.kind && v.number == w.number && v.bytes == w.bytes);
    }
}

int main(int argc, char **argv) {
    size_t places = argc > 1 ? (size_t)atol(argv[1]) : BELLBADGER_SAVED_SIZE;
    fresh = bellbadger_new();
    judge = fresh;
    there_and_back();
    /* the digest of a fresh judge, as another program has it */
    const uint8_t last[8] = {60, 45, 45, 236, 48, 133, 245, 115};
    CHECK(!memcmp(bellbadger_save(fresh).bytes + BELLBADGER_SAVED_SIZE - 8, last, 8));
    for (int list = 0; list < 20; list++) {
        calls();
        there_and_back();
    }
    /* any numbers whatever */
    for (int list = 0; list < 20; list++) {
        for (size_t i = 0; i < sizeof judge; i++) ((uint8_t *)&judge)[i] = (uint8_t)any(256);
        there_and_back();
    }
    /* every byte altered, and bytes of every number */
    written(&judge);
    for (size_t i = 0; i < places; i++) {
        size_t at = i * BELLBADGER_SAVED_SIZE / places;
        uint8_t was = due[at];
        due[at] = (uint8_t)(was + 1 + any(255));
        refused(BELLBADGER_SAVED_SIZE);
        due[at] = was;
        refused(at);
    }
    /* changes of several bytes that sums of bytes times powers of one number would not tell */
    const int four[] = {-1, 3, -3, 1}, five[] = {1, -4, 6, -4, 1}, other[] = {1, -2, -5, -6, 1};
    changed(19638, 128, four, 4);
    for (size_t at = 8; at + 13 <= BELLBADGER_SAVED_SIZE; at += 97) {
        changed(at, 1, five, 5);
        changed(at, 1, other, 5);
    }
    CHECK(TAKEN(bellbadger_restore(due, BELLBADGER_SAVED_SIZE)));
    /* another version, with its digest right */
    due[3] = 2, end = BELLBADGER_SAVED_SIZE - 8;
    put(digest(), 8);
    refused(BELLBADGER_SAVED_SIZE);
    printf("saved: %ld checks\n", checks);
    return 0;
}
