/* A sample trace of a rule, for its owner to look at. bellbadger.h includes this. */
#ifndef BELLBADGER_SAMPLES_H
#define BELLBADGER_SAMPLES_H

#include "bellbadger.h"

#ifdef __cplusplus
extern "C" {
#endif

/* What the text is to be. Any other number means BELLBADGER_REJECTED_TEXT too. */
enum {
    BELLBADGER_ACCEPTED_TEXT = 0, /* one that the rule accepts */
    BELLBADGER_REJECTED_TEXT = 1  /* one of the rule's symbols that it does not accept */
};

/* What kind of answer it is; BELLBADGER_REFUSED, 0, is a refusal. It is no truth value: compare it. */
enum {
    BELLBADGER_SAMPLE = 1,   /* a text, of length bytes; the empty text has length 0 */
    BELLBADGER_NO_SAMPLE = 2 /* there is no such text */
};

/* Zeros after the text; where there is none, the length and every byte are 0. */
typedef struct {
    uint8_t kind, refused; /* refused has the number of a refusal, else 0 */
    uint16_t length;       /* at most 511 */
    uint8_t text[511];
} bellbadger_sample_result;

/* The shortest such text, and among the shortest the first by symbols, of a rule in which anything may
 * stand. Refused with 3, 4, 6, 8 as bellbadger_install is; then with
 *   35 texts lead to more than 512 sets from the set of initial states, the empty set counted if reached */
BELLBADGER_RESULT bellbadger_sample_result bellbadger_sample(uint8_t wish, bellbadger_checked_rule rule);

#ifdef __cplusplus
}
#endif

#endif
