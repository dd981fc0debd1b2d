/* Joins comma-separated files: `csv NAMES FILE...`. NAMES are the names of all attributes, in the order in which tuples are listed and sorted,
 * with a space between two; each file is a table. Prints the join as such a file, but only if it is complete; else it says why on standard error.
 * Exit status: 0 complete, 1 stopped, 2 refused, 3 trouble. */
#include <stdio.h>
#include <string.h>
#include "boxjoin.h"
#define MOST_BYTES 60000
#define MOST_WORDS 32000
#define MOST_BOXES 65536
#define LISTING_WORDS 100000

static uint8_t file[MOST_BYTES + 1];
static uint16_t tables[MOST_WORDS], question[MOST_WORDS + 2 + BOXJOIN_MAX_ATTRIBUTES], listing[LISTING_WORDS];
static uint32_t store[MOST_BOXES * BOXJOIN_RECORD_WORDS];
static uint8_t out[7 * LISTING_WORDS + 200];

static int say(const char *what, unsigned number) {
    fprintf(stderr, "csv: %s: %s %u\n", what, number == 13 || number == 14 ? "no room," : "refused", number);
    return number == 13 || number == 14 ? 1 : 2;
}

/* Puts the file's table behind the others. A byte more than a file may have is enough to have it refused. */
static int import(const char *names, const char *name, size_t *used) {
    FILE *stream = fopen(name, "rb");
    size_t len = stream ? fread(file, 1, sizeof file, stream) : 0;
    int failed = !stream || ferror(stream);
    if (stream) fclose(stream);
    if (failed) return fprintf(stderr, "csv: %s cannot be read\n", name), 3;
    uint32_t count = 0;
    uint8_t number = boxjoin_import_csv((const uint8_t *)names, strlen(names), file, len, tables + *used, MOST_WORDS - *used, &count, 1);
    if (number) return say(name, number);
    *used += count;
    return 0;
}

int main(int argc, char **argv) {
    if (argc < 3) return fprintf(stderr, "csv: give the names, and a file for each table\n"), 3;
    const char *names = argv[1];
    uint8_t refused = boxjoin_export_csv((const uint8_t *)names, strlen(names), listing, 0, out, sizeof out, NULL, 0);
    if (refused) return say("the names", refused);
    size_t used = 0;
    for (int i = 2; i < argc; i++) {
        int status = import(names, argv[i], &used);
        if (status) return status;
    }

    /* The question: so many attributes, the least width for the values of each, so many tables, the tables. */
    uint16_t n = 1;
    for (const char *at = names; *at; at++) n += *at == ' ';
    uint16_t *widths = question + 1;
    question[0] = n;
    for (uint16_t a = 0; a < n; a++) widths[a] = 1;
    for (const uint16_t *table = tables; table < tables + used;) {
        uint16_t k = table[0], rows = table[1 + k];
        const uint16_t *attributes = table + 1, *values = table + 2 + k;
        for (uint32_t i = 0; i < (uint32_t)k * rows; i++)
            while (values[i] >> widths[attributes[i % k]]) widths[attributes[i % k]]++;
        table = values + (uint32_t)k * rows;
    }
    question[1 + n] = (uint16_t)(argc - 2);
    memcpy(question + 2 + n, tables, used * sizeof *tables);

    uint32_t counts[3];
    uint8_t number = boxjoin_run(question, 2 + n + used, listing, LISTING_WORDS, store, MOST_BOXES * BOXJOIN_RECORD_WORDS, counts, 3);
    if (number) return say("the join", number);
    uint32_t bytes = 0;
    number = boxjoin_export_csv((const uint8_t *)names, strlen(names), listing, n * counts[0], out, sizeof out, &bytes, 1);
    if (number) return say("the listing", number);
    if (fwrite(out, 1, bytes, stdout) < bytes || fflush(stdout)) return fprintf(stderr, "csv: the listing cannot be written\n"), 3;
    return 0;
}
