/* A tray: rows of 1 to 16 events, one for each tick. Each row is judged by one rule, and each column, from
 * the first tick to the last, by another. bellbadger.h includes this.
 *
 * Rows arrive in up to 8 bands of 0 to 64 whole rows, in any order; a row's events stand one behind the
 * other, and rows likewise. The verdict is yes exactly when every row and every column of the bands, in
 * their order, is accepted. With no rows at all each column is the empty text.
 *
 * The caller keeps the tray and hands it in by value, as a judge: each call that may change it hands the
 * next one back, a refused one the tray that came. Any bytes whatever may stand in a tray: every call still
 * ends and stays within its bounds, but only a tray that began with bellbadger_tray_new and went through
 * the calls below has a meaning.
 */
/* bellbadger.h includes this in its place, before what goes by pointer. */
#ifndef BELLBADGER_H
#include "bellbadger.h"
#elif !defined(BELLBADGER_TRAYS_H)
#define BELLBADGER_TRAYS_H

#define BELLBADGER_TRAY_SIZE 12332 /* the bytes of a bellbadger_tray */

#ifdef __cplusplus
extern "C" {
#endif

/* How many events a row has; how many bands there are, 0 where no board is open; which are filled, and how
 * many rows each has; and 1,024 cells for each band: its bytes as they came, and zeros behind them. */
typedef struct {
    uint8_t width, bands;
    uint8_t filled[8];
    uint8_t rows[8];
    uint8_t cells[8192];
} bellbadger_tray_board;

/* The rule of the rows and that of the columns, each with n 0 where it is not there, and the board. */
typedef struct {
    bellbadger_checked_rule row, column;
    bellbadger_tray_board board;
} bellbadger_tray;

/* Wherever accepted stands: it is 1 or 0; where it is 0, refused has the number. */
typedef struct {
    uint8_t accepted, refused;
    uint16_t sets;  /* the number of sets, and */
    uint8_t starts; /* M, of an accepted rule, as bellbadger_install answers them */
    bellbadger_tray tray;
} bellbadger_tray_install_result;

typedef struct {
    uint8_t accepted, refused;
    bellbadger_tray tray;
} bellbadger_tray_open_result, bellbadger_tray_deliver_result, bellbadger_tray_withdraw_result;

/* BELLBADGER_REFUSED with the number, BELLBADGER_WAITING with how many bands are empty; BELLBADGER_YES and
 * BELLBADGER_NO have no count: the number is 0. */
typedef struct {
    uint8_t kind, number;
} bellbadger_tray_verdict_result;

/* Whether every row and every column is accepted: not where bands are empty or the call was refused. The
 * kind is no truth value. */
BELLBADGER_RESULT static inline bool bellbadger_tray_is_yes(bellbadger_tray_verdict_result verdict) {
    return verdict.kind == BELLBADGER_YES;
}

/* What the library was built with: the bytes of a tray. */
BELLBADGER_RESULT size_t bellbadger_tray_size(void);

/* A tray with no rules and no board: every number in it is 0. */
BELLBADGER_RESULT bellbadger_tray bellbadger_tray_new(void);

/* Checks and builds a rule, whatever stands in it, for the rows or for the columns. Accepted, it replaces
 * the former one of these and removes the board; the other rule stays. Refused with 3, 4, 6, 8, 9 as
 * bellbadger_install is. */
BELLBADGER_RESULT bellbadger_tray_install_result bellbadger_tray_install_row(bellbadger_tray tray, bellbadger_checked_rule rule);
BELLBADGER_RESULT bellbadger_tray_install_result bellbadger_tray_install_column(bellbadger_tray tray, bellbadger_checked_rule rule);

/* A board of that many bands, all empty, for rows of that width; an earlier one is dropped. Refused with
 *   20 either rule is absent      38 the width is not in 1..16      10 the number of bands is not in 1..8 */
BELLBADGER_RESULT bellbadger_tray_open_result bellbadger_tray_open(bellbadger_tray tray, size_t width, size_t bands);

/* Keeps rows, which may be none, as a band; bands are counted from 0. There are no idle marks. Refused with
 *   21 no board is open      11 the board has no such band
 *   39 the length is no multiple of the width, or these are over 64 rows
 *   13 a byte is no symbol of the row rule, or none of the column rule      22 the band is filled */
BELLBADGER_RESULT bellbadger_tray_deliver_result bellbadger_tray_deliver(bellbadger_tray tray, size_t band, const uint8_t *rows,
                                                                        size_t length);

/* Empties a band. Refused with
 *   21 no board is open      11 the board has no such band      23 the band is empty */
BELLBADGER_RESULT bellbadger_tray_withdraw_result bellbadger_tray_withdraw(bellbadger_tray tray, size_t band);

/* Changes nothing. Refused with 21 no board is open. */
BELLBADGER_RESULT bellbadger_tray_verdict_result bellbadger_tray_verdict(bellbadger_tray tray);

/* Where a tray goes wrong, while bands are still missing too. Of these the first that there is:
 *
 *   a row that the row rule does not accept, of any band that stands, the first by band and then by row;
 *   a column that is lost over the bands before the first empty one: its events there cannot be continued by
 *   any others to a text that the column rule accepts; the first such column, and the row by which it is lost;
 *   a column that stopped too early: it is not accepted though it could go on, and all bands stand; the first.
 *
 * No band that is delivered later mends a row or a lost column: no verdict is yes until the band that is named
 * or, of a column, one before it is withdrawn, or a board is opened or a rule installed anew. A column rule that
 * accepts no text at all loses column 0 by row 0 of band 0, whatever stands there, if only no row is wrong.
 *
 * BELLBADGER_REFUSED, 0, is a refusal, and BELLBADGER_OPEN, 6, says that there is none of these so far. The kind
 * is no truth value: compare it. No kind is one of a verdict. Open is no yes while bands are missing; whether to
 * ship is for bellbadger_tray_verdict to say, which over a full board is yes exactly where this is open. */
enum {
    BELLBADGER_FAULT_ROW = 7,    /* band, row */
    BELLBADGER_FAULT_COLUMN = 8, /* column, band, row */
    BELLBADGER_FAULT_SHORT = 9   /* column */
};

/* All are counted from 0, a row from the first of its band on. What the kind does not have is 0. */
typedef struct {
    uint8_t kind, number; /* of a refusal: why; of BELLBADGER_OPEN: how many bands stand before the first empty one */
    uint8_t column, band, row;
} bellbadger_tray_fault_result;

/* Changes nothing. Refused with 21 no board is open. */
BELLBADGER_RESULT bellbadger_tray_fault_result bellbadger_tray_fault(bellbadger_tray tray);

#ifdef __cplusplus
}
#endif

#endif
