/* bellbadger_deliver by a runner that was compiled from its source without a proof, for tests/work
 * --self-test. Within that code a value goes by its address, and a slice as a pointer and a length. */
#include "bellbadger.h"

void unproved_deliver(bellbadger_deliver_result *, bellbadger_judge *, size_t, uint32_t, const uint8_t *, size_t);

bellbadger_deliver_result bellbadger_deliver(bellbadger_judge judge, size_t place, uint32_t revision, const uint8_t *chunk, size_t length) {
    bellbadger_deliver_result result;
    unproved_deliver(&result, &judge, place, revision, chunk, length);
    return result;
}
