/* Callers with pointers: tests/outside reads from the compiler what their frames take. */
#include "bellbadger.h"

int frame_of_a_list(bellbadger_judge *judge, const uint8_t *file, size_t length, const uint8_t *chunk);
int frame_of_a_list(bellbadger_judge *judge, const uint8_t *file, size_t length, const uint8_t *chunk) {
    uint16_t sets;
    uint8_t starts;
    uint32_t looked;
    bellbadger_new_at(judge);
    int number = bellbadger_load_at(judge, file, length, &sets, &starts);
    if (!number) number = bellbadger_open_at(judge, 1);
    if (!number) number = bellbadger_deliver_at(judge, 0, 0, chunk, 1, &looked);
    if (!number) number = bellbadger_withdraw_at(judge, 0);
    return number || bellbadger_is_yes(bellbadger_verdict_at(judge));
}
