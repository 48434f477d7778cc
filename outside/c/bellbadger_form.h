/* The failure form of a rule's next-set table: a smaller table for a nozzle board. bellbadger.h includes
 * this.
 *
 * Where a set's cells are those of a lower-numbered set they are left out and looked up there. To look the
 * cell of set t and symbol s up in the form: while bit s of kept[t] is 0 go to failure[t], which is lower;
 * set 0 keeps all its cells. Then the cell is the kept one: it follows all kept cells of lower sets
 * and of lower symbols of that set.
 */
#ifndef BELLBADGER_FORM_H
#define BELLBADGER_FORM_H

#include "bellbadger.h"

#ifdef __cplusplus
extern "C" {
#endif

/* What stands in a cell for the empty set. It is no set. */
#define BELLBADGER_EMPTY_SET 512

/* The numbers of sets and symbols; for each set its failure set and the mask of its kept cells, bit s for
 * symbol s; then the kept cells, packed by set and symbol, BELLBADGER_EMPTY_SET for an empty one. The
 * failure set of set 0 is 0. The rest is 0: what is there for no set, and the cells behind the last kept
 * one. */
typedef struct {
    uint16_t sets;
    uint8_t symbols;
    uint16_t failure[512];
    uint16_t kept[512];
    uint16_t cells[8192];
} bellbadger_failure_form;

/* A next-set table as a built rule has it: the cell of set t and symbol s stands at t * 16 + s. A cell for
 * no set or no symbol is BELLBADGER_EMPTY_SET. */
typedef struct {
    uint16_t sets;
    uint8_t symbols;
    uint16_t next[8192];
} bellbadger_next_table;

/* accepted is 1 or 0; where it is 0, refused has the number, and every number of the form is 0. */
typedef struct {
    uint8_t accepted, refused;
    bellbadger_failure_form form;
} bellbadger_form_result;

/* The same with a table. */
typedef struct {
    uint8_t accepted, refused;
    bellbadger_next_table table;
} bellbadger_table_result;

/* The failure form of the judge's next-set table. The failure set of a set above 0 is, of the
 * lower-numbered sets, the one with most equal cells, empty ones too, and of several the lowest; exactly
 * the equal cells are left out. Set 0 keeps all. Changes nothing. Refused with
 *   20 no rule is there */
BELLBADGER_RESULT bellbadger_form_result bellbadger_form(bellbadger_judge judge);

/* The table of a form, whatever stands in it; of a form that bellbadger_form made, the judge's own table.
 * The failure set of set 0, the masks and failure sets of what is no set, and the cells behind the last
 * kept one are not read. Refused with
 *   40 there are not 1 to 512 sets and 1 to 16 symbols, a set above 0 has a failure set that is not below
 *      it, a cell of set 0 is left out, a mask has a bit for no symbol, or a kept cell names a set that
 *      does not exist */
BELLBADGER_RESULT bellbadger_table_result bellbadger_form_back(bellbadger_failure_form form);

#ifdef __cplusplus
}
#endif

#endif
