/* Prints the lift firm's copy of a text's listing. The arguments are the numbers of the attributes that the
 * firm must not see, and the text is read from standard input:
 *   lift 2 4 <examples/estate.txt */
#include <stdio.h>
#include <stdlib.h>

#include "boxjoin.h"

/* One byte more than a text may have, so that a longer one is seen to be longer. */
static uint8_t text[60001];

int main(int argc, char **argv) {
    size_t length = fread(text, 1, sizeof text, stdin);
    if (ferror(stdin)) return 3;
    uint16_t hidden[64];
    size_t count = 0;
    for (int i = 1; i < argc; i++) {
        char *end;
        unsigned long number = strtoul(argv[i], &end, 10);
        /* A word that is no number would hide nothing, so it must not pass. */
        if (argv[i][0] < '0' || argv[i][0] > '9' || *end != 0 || number > 65535 || count == 64) {
            fprintf(stderr, "lift: give at most 64 numbers from 0 to 65,535\n");
            return 3;
        }
        hidden[count++] = (uint16_t)number;
    }
    /* Without a place nothing is written, and the count says how many bytes the copy takes. */
    uint32_t bytes = 0;
    boxjoin_lift_copy(text, length, hidden, count, NULL, 0, &bytes, 1);
    uint8_t *copy = malloc(bytes);
    if (copy == NULL || boxjoin_lift_copy(text, length, hidden, count, copy, bytes, &bytes, 1) != 0) return 3;
    if (fwrite(copy, 1, bytes, stdout) < bytes || fflush(stdout)) return 3;
    free(copy);
    return 0;
}
