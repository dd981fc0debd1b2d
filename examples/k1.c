/* Runs the paper's trial question K1 and prints the records of its store (first interval, kind, origins), then the result. */
#include <stdio.h>
#include "boxjoin.h"
enum { KIND = BOXJOIN_MAX_ATTRIBUTES }; /* the place of the kind in a record, behind the intervals */
int main(void) {
    const uint16_t question[] = {1, 2, 2, 1, 0, 2, 1, 3, 1, 0, 2, 1, 2};
    uint16_t listing[1] = {0};
    uint32_t store[7 * BOXJOIN_RECORD_WORDS], counts[3];
    uint8_t number = boxjoin_run(question, 13, listing, 1, store, 7 * BOXJOIN_RECORD_WORDS, counts, 3);
    for (uint32_t i = 0, *r = store; i < counts[1]; i++, r += BOXJOIN_RECORD_WORDS) printf("%u,%u,%u,%u\n", r[0], r[KIND], r[KIND + 1], r[KIND + 2]);
    printf("number %u; counts %u, %u, %u; lists %u\n", number, counts[0], counts[1], counts[2], listing[0]);
}
