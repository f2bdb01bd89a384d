/* Reconciles the pass from day 100 to day 101 of the worked example; prints the number and the
 * instance in hex, or why the call refuses.
 *
 *   cc -I include examples/link/reconcile.c target/staticlib/libexports.a -o reconcile
 */
#include <inttypes.h>
#include <stdio.h>

#include "neulenta.h"

#if NEULENTA_VERSION_MAJOR != 1
#error "written for version 1 of the calls"
#endif

static const uint8_t schema[] = {'S', 'H', 3, 'S', 'N', 1, 2, 1, 2, 0, 'S', 'N', 1, 0, 1, 0,
                                 0, 0, 0, 1, 0, 0, 0, 10, 'S', 'N', 1, 0, 0};
static const uint8_t policies[] = {'P', 'H', 0, 100, 0, 100, 1, 'P', 'N', 0, 0, 5,
                                   'P', 'H', 0, 101, 0, 200, 2, 'P', 'N', 0, 1, 0,
                                   'P', 'N', 1, 0, 0, 0, 4, 0, 0, 0, 8};

int main(void) {
    uint8_t out[NEULENTA_LONGEST];
    neulenta_answer answer;
    if (!neulenta_compatible()) {
        fprintf(stderr, "the library is not of this header's version\n");
        return 2;
    }
    answer = neulenta_reconcile(schema, sizeof schema, policies, sizeof policies, 100, 101, out,
                                sizeof out);
    if (answer.number != NEULENTA_SUCCESS) {
        fprintf(stderr, "number %" PRIu32 ", file %" PRIu32 ", offset %" PRIu64 ": %s\n",
                answer.number, answer.file, answer.offset, neulenta_text(answer.number));
        return 1;
    }
    printf("%" PRIu32 " ", answer.number);
    for (uint64_t i = 0; i < answer.value; i++) printf("%02x", out[i]);
    puts("");
    return 0;
}
