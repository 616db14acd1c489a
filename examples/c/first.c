#include "ael.h"
#include <inttypes.h>
#include <stdio.h>

int main(void) {
    ael_mutator m = {0};
    if (ael_open(4, 64, &m, 1, NULL, 0) != AEL_DONE) return 1;
    ael_set(&m, 1, 7);      /* r1 becomes 7 */
    ael_new(&m, 0, 2);      /* r0 leads to a new record of two fields */
    ael_store(&m, 0, 1, 1); /* its field 1 becomes what r1 holds */
    ael_load(&m, 2, 0, 1);  /* r2 becomes its field 1 */
    uint64_t value;
    if (ael_reg(&m, 2, &value) == AEL_NUMBER) printf("%" PRIu64 "\n", value);
    ael_leave_now(&m);
    return ael_free(&m);
}
