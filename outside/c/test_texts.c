/* Made texts from C: the answers, the bytes, and what is around them in memory. Prints how many checks
 * were made; stops at the first that fails. */
#include "checks.h"

static uint8_t text[65536 + 16];

static void make(size_t k, uint64_t seed, size_t length, int refused) {
    bellbadger_made_result r = bellbadger_make_text(k, seed, text, length);
    CHECK(ANSWERED(r, refused));
}

/* a text of a few symbols, and that nothing past it is written */
static void known(uint8_t k, uint64_t seed, const char *symbols) {
    size_t n = strlen(symbols);
    memset(text, 0xEE, sizeof text);
    make(k, seed, n, 0);
    for (size_t i = 0; i < n; i++) CHECK(text[i] == (symbols[i] <= '9' ? symbols[i] - '0' : symbols[i] - 'A' + 10));
    for (size_t i = n; i < n + 16; i++) CHECK(text[i] == 0xEE);
}

/* a refused call writes nothing, whatever the length */
static void refused(size_t k, uint64_t seed, int number) {
    static uint8_t before[sizeof text];
    memset(before, 0xEE, sizeof text), memset(text, 0xEE, sizeof text);
    for (size_t n = 0; n <= 65536; n = 4 * n + 1) make(k, seed, n, number);
    CHECK(!memcmp(text, before, sizeof text));
}

/* a rule with k symbols and one state, which accepts every text, takes the text as a chunk */
static void delivered(uint8_t k, uint64_t seed) {
    bellbadger_checked_rule rule = {.n = 1, .k = k, .initials = 1, .finals = 1};
    for (int s = 0; s < k; s++) rule.targets[s] = 1;
    bellbadger_judge j = bellbadger_new();
    install(&j, rule, 0);
    open(&j, 1, 0);
    make(k, seed, 65536, 0);
    for (size_t i = 0; i < 65536; i++)
        if (text[i] >= k) CHECK(!"symbols below k");
    looked(&j, 0, 0, text, 65536, 65536);
    verdict(&j, BELLBADGER_YES, 65536, 65536);
}

int main(void) {
    known(16, 1, "1195511D");
    known(10, 2, "296889");
    known(3, 7, "000111");
    known(1, 5, "000");
    known(2, 0x8000000000000000, "000000001010101000000100");
    known(16, 0xFFFFFFFFFFFFFFFF, "0F0B441640F02B56");
    known(16, 88172645463325252, "0B052D17E1543BED");
    known(7, 1, "");
    bellbadger_made_result nowhere = bellbadger_make_text(7, 1, NULL, 0);
    CHECK(TAKEN(nowhere));
    for (size_t k = 0; k < 256; k++)
        if (k < 1 || k > 16) refused(k, 0, 4), refused(k, 1, 4);
    /* 1 and 16 where k is cut to 8, 16 or 32 bits */
    const size_t cut[] = {257, 272, 65537, 0x100000001, 0x100000010, SIZE_MAX};
    for (size_t i = 0; i < sizeof cut / sizeof *cut; i++) refused(cut[i], 0, 4), refused(cut[i], 1, 4);
    for (int k = 1; k <= 16; k++) refused((uint8_t)k, 0, 41), delivered((uint8_t)k, (uint64_t)k * 0x9E3779B97F4A7C15);
    printf("C made texts: %ld checks\n", checks);
    return 0;
}
