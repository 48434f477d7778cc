/* Patterns from C: the file byte by byte, the texts that its rule accepts, refusals with their zeros,
 * and every short line of the grammar's bytes. Prints how many checks were made; stops at the first that
 * fails. */
#include "checks.h"

static bellbadger_pattern_result pattern(const char *text, int refused) {
    bellbadger_pattern_result r = bellbadger_pattern((const uint8_t *)text, strlen(text));
    CHECK(ANSWERED(r, refused));
    CHECK(r.length <= BELLBADGER_PATTERN_FILE && (r.length == 0) == (refused != 0));
    for (size_t i = r.length; i < sizeof r.bytes; i++)
        if (r.bytes[i]) CHECK(!"zeros after the file");
    return r;
}

/* the file is that of the positions */
static void files(void) {
    static const uint8_t bindings[] = {4, 16, 1, 0, 0, 0, 14, 0, 0, 0, 26, 0, 4, 0, 30, 0, 0,
                                       0, 30, 0, 2, 0, 32, 0, 2, 0, 0, 1, 1, 2, 2, 3, 2, 3};
    static const uint8_t nothing[] = {1, 16, 1, 0, 0, 0, 1, 0, 0, 0, 14, 0, 0, 0};
    bellbadger_pattern_result r = pattern("a|bc*", 0);
    CHECK(r.length == sizeof bindings && !memcmp(r.bytes, bindings, sizeof bindings));
    r = pattern("", 0);
    CHECK(r.length == sizeof nothing && !memcmp(r.bytes, nothing, sizeof nothing));
    r = bellbadger_pattern(NULL, 0);
    CHECK(TAKEN(r) && r.length == sizeof nothing);
    r = pattern("(a|b|c|d|e|f|g|h|i|j|k|l|m|n|o|p|a|b|c|d|e|f|g|h|i|j|k|l|m|n|o)*", 0);
    CHECK(r.length == BELLBADGER_PATTERN_FILE && r.bytes[0] == 32);
}

/* whether the judge says yes with the pattern's rule to a text of letters, in two chunks */
static int accepts(const char *written, const char *letters) {
    bellbadger_pattern_result r = pattern(written, 0);
    bellbadger_judge j = bellbadger_new();
    uint8_t text[16];
    size_t n = strlen(letters), cut = n / 2;
    for (size_t i = 0; i < n; i++) text[i] = (uint8_t)(letters[i] - 'a');
    load(&j, r.bytes, r.length, 0);
    open(&j, 2, 0);
    deliver(&j, 1, 0, text + cut, n - cut, 0);
    deliver(&j, 0, 0, text, cut, 0);
    bellbadger_verdict_result v = bellbadger_verdict(j);
    CHECK(v.kind == BELLBADGER_YES || v.kind == BELLBADGER_NO);
    return v.kind == BELLBADGER_YES;
}

static void texts(void) {
    CHECK(accepts("", "") && !accepts("", "a"));
    CHECK(accepts("a|bc*", "a") && accepts("a|bc*", "bcc") && !accepts("a|bc*", "ac") && !accepts("a|bc*", ""));
    CHECK(accepts("ab*", "abb") && !accepts("ab*", "abab") && accepts("(ab)*", "abab"));
    CHECK(accepts("a*b*c*", "ac") && !accepts("a*b*c*", "ca") && accepts("(a|)(b|)", "b"));
    CHECK(accepts("a()*b", "ab") && accepts("()", "") && accepts("|a", "") && accepts("p**", "ppp"));
}

/* the first number that holds */
static void refusals(void) {
    char text[131];
    memset(text, 'a', sizeof text);
    text[129] = 0;
    pattern(text, 30);
    text[128] = 0;
    pattern(text, 32);
    text[40] = '(', text[41] = 0;
    pattern(text, 31);
    text[32] = 0;
    pattern(text, 32);
    text[31] = 0;
    pattern(text, 0);
    static const char *none[] = {"*", "*a", "a|*", "(*)", "(", ")", "a)", "(a", ")(", "q", "A", " ", "a b", "a+", "a\n", "\xff"};
    for (size_t i = 0; i < sizeof none / sizeof *none; i++) pattern(none[i], 31);
    bellbadger_pattern_result r = bellbadger_pattern((const uint8_t *)"a\0b", 3);
    CHECK(REFUSED_WITH(r, 31));
}

/* brackets that match, and no star after nothing, an opening bracket or a bar: said again in C */
static int is_pattern(const char *s) {
    int depth = 0;
    char before = '|';
    for (; *s; before = *s++) {
        depth += *s == '(' ? 1 : *s == ')' ? -1 : 0;
        if (depth < 0 || (*s == '*' && (before == '|' || before == '('))) return 0;
    }
    return depth == 0;
}

static void every_short_line(void) {
    static const char signs[] = "ap|*()";
    for (int length = 0; length <= 6; length++) {
        int lines = 1;
        for (int i = 0; i < length; i++) lines *= 6;
        for (int line = 0; line < lines; line++) {
            char text[8] = {0};
            for (int i = 0, rest = line; i < length; i++, rest /= 6) text[i] = signs[rest % 6];
            bellbadger_pattern_result r = pattern(text, is_pattern(text) ? 0 : 31);
            if (r.accepted) read_file(r.bytes, r.length, 0);
        }
    }
}

int main(void) {
    files();
    texts();
    refusals();
    every_short_line();
    printf("C patterns: %ld checks\n", checks);
    return 0;
}
