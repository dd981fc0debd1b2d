/* Checks a listing and its records, which anybody may have made. Rows say which line the emergency phone of a shaft has, and which lines are connected; the run
 * lists the shafts that can call, and its records show that none is missing. Checks them as they are; with the last record once more, which does no harm; with
 * a tuple taken out, whose record names nothing then; with that record forged, said to be a gap box of the connected lines and narrowed to the shaft, which that
 * table has not; and with a question that is cut short. */
#include <stdio.h>
#include <string.h>
#include "boxjoin.h"
#define COUNT(array) (sizeof(array) / sizeof *(array))
enum { ATTRIBUTES = 2, TUPLES = 8, BOXES = 40, KIND = BOXJOIN_MAX_ATTRIBUTES, GAP = 0, TUPLE = 1, CONNECTED = 1 };

static const uint16_t question[] = {
    ATTRIBUTES, 3, 2,                               /* 0 shaft, 1 line: values of 3 and 2 bits */
    2,                                              /* two tables */
    2, 0, 1, 6, 0, 1, 1, 1, 2, 3, 4, 0, 5, 2, 6, 3, /* shaft and line */
    1, 1, 2, 1, 3,                                  /* lines that are connected */
};

static uint16_t listing[TUPLES * ATTRIBUTES];
static uint32_t store[BOXES * BOXJOIN_RECORD_WORDS], counts[3];

/* Checks the first words of the question, so many tuples and so many records, and prints the number. */
static void check(const char *what, size_t question_len, size_t tuples, size_t records) {
    printf("%s: %u\n", what, boxjoin_check_listing(question, question_len, listing, ATTRIBUTES * tuples, store, BOXJOIN_RECORD_WORDS * records));
}

int main(void) {
    uint8_t number = boxjoin_run(question, COUNT(question), listing, COUNT(listing), store, COUNT(store), counts, 3);
    size_t tuples = counts[0], records = counts[1];
    printf("number %u; counts %u, %u, %u\n", number, counts[0], counts[1], counts[2]);
    for (size_t i = 0; i < tuples; i++) printf("shaft %u, line %u\n", listing[ATTRIBUTES * i], listing[ATTRIBUTES * i + 1]);
    check("as it is", COUNT(question), tuples, records);

    memcpy(store + BOXJOIN_RECORD_WORDS * records, store + BOXJOIN_RECORD_WORDS * (records - 1), BOXJOIN_RECORD_WORDS * sizeof *store);
    check("the last record once more", COUNT(question), tuples, records + 1);

    /* The last tuple; all others keep their places. */
    tuples--;
    check("a tuple taken out", COUNT(question), tuples, records);

    for (uint32_t *record = store; record < store + BOXJOIN_RECORD_WORDS * records; record += BOXJOIN_RECORD_WORDS) {
        if (record[KIND] == TUPLE && record[KIND + 1] == tuples) {
            record[KIND] = GAP;
            record[KIND + 1] = CONNECTED;
        }
    }
    check("its record forged", COUNT(question), tuples, records);
    check("the question cut short", COUNT(question) - 1, tuples, records);
}
