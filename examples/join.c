/* Joins comma-separated files in one call: `join NAMES FILE...`, with a space between two names. Prints the join as such a file, but only if it is
 * complete; else it says the number, the file and the record on standard error. Exit status: 0 complete, 1 stopped, 2 refused, 3 trouble. */
#include <stdio.h>
#include <string.h>
#include "boxjoin.h"
#define MOST_FILES 16
#define MOST_BYTES 60000
#define MOST_BOXES 65536

/* Room for a byte more than a file may have, so that a longer one is refused; a field of out has five digits and a byte behind it, and a line one more. */
static uint8_t files[MOST_FILES * (MOST_BYTES + 1)], out[(MOST_BOXES + 2) * (6 * BOXJOIN_MAX_ATTRIBUTES + 1) + 100];
static uint16_t listing[(MOST_BOXES + 1) * BOXJOIN_MAX_ATTRIBUTES];
static uint32_t ends[MOST_FILES], store[MOST_BOXES * BOXJOIN_RECORD_WORDS], scratch[MOST_BOXES * 12 + 4];

int main(int argc, char **argv) {
    if (argc < 3 || argc > MOST_FILES + 2) return fprintf(stderr, "join: give the names, and 1 to 16 files\n"), 3;
    size_t used = 0, count = 0;
    for (int i = 2; i < argc; i++) {
        FILE *stream = fopen(argv[i], "rb");
        used += stream ? fread(files + used, 1, MOST_BYTES + 1, stream) : 0;
        int failed = !stream || ferror(stream);
        if (stream) fclose(stream);
        if (failed) return fprintf(stderr, "join: %s cannot be read\n", argv[i]), 3;
        ends[count++] = (uint32_t)used;
    }
    uint32_t counts[6]; /* tuples, boxes, resolutions, bytes, file, record */
    uint8_t number = boxjoin_join_csv((const uint8_t *)argv[1], strlen(argv[1]), files, used, ends, count, listing, sizeof listing / sizeof *listing, store,
                                      sizeof store / sizeof *store, scratch, sizeof scratch / sizeof *scratch, out, sizeof out, counts, 6);
    if (number) {
        fprintf(stderr, "join: %s %u, file %u, record %u\n", number == 13 || number == 14 ? "stopped" : "refused", number, counts[4], counts[5]);
        return number == 13 || number == 14 ? 1 : 2;
    }
    if (fwrite(out, 1, counts[3], stdout) < counts[3] || fflush(stdout)) return fprintf(stderr, "join: the listing cannot be written\n"), 3;
    return 0;
}
