/* Lists the cables that fit a site. Rows say which unit is in which shaft, and which cables there are for a unit; the survey gives the lengths that the
 * site takes only as from and to, and that is a range table. Asks three times: with the survey as it should be; with the ends of a pair exchanged, which is
 * refused; and with a survey that is not filled in yet, which restricts nothing. */
#include <stdio.h>
#include <string.h>
#include "boxjoin.h"
#define COUNT(array) (sizeof(array) / sizeof *(array))
/* Room for tuples, and for boxes, the run's own records, which are only counted here. */
enum { ATTRIBUTES = 3, TUPLES = 8, BOXES = 200, MOST_SURVEY_WORDS = 7, UNTOUCHED = 77 };

/* The question but for its last table, the survey. A table is how many attributes it has, which, how many rows, and the rows. */
static const uint16_t site[] = {
    ATTRIBUTES, 3, 5, 6,                                /* 0 shaft, 1 unit, 2 length: values of 3, 5 and 6 bits */
    3,                                                  /* three tables */
    2, 0, 1, 4, 1, 12, 2, 13, 3, 17, 4, 20,             /* shaft and unit */
    2, 1, 2, 5, 12, 14, 13, 20, 17, 25, 20, 30, 20, 41, /* unit and length, in metres */
};

/* Asks with these words as the survey. Prints the tuples, the number, and the counts of tuples, boxes and resolutions. */
static void ask(const char *what, const uint16_t *survey, size_t survey_len) {
    uint16_t question[COUNT(site) + MOST_SURVEY_WORDS], listing[TUPLES * ATTRIBUTES];
    uint32_t store[BOXES * BOXJOIN_RECORD_WORDS], counts[3];
    size_t len = COUNT(site) + survey_len, changed = 0;
    memcpy(question, site, sizeof site);
    memcpy(question + COUNT(site), survey, survey_len * sizeof *survey);
    for (size_t i = 0; i < COUNT(listing); i++) listing[i] = UNTOUCHED;
    for (size_t i = 0; i < COUNT(store); i++) store[i] = UNTOUCHED;

    printf("%s: check %u\n", what, boxjoin_check_question(question, len));
    uint8_t number = boxjoin_run(question, len, listing, COUNT(listing), store, COUNT(store), counts, 3);
    for (const uint16_t *t = listing; t < listing + ATTRIBUTES * counts[0]; t += ATTRIBUTES) printf("shaft %u, unit %u, %u m\n", t[0], t[1], t[2]);
    /* Only words that the counts name may differ: after a refusal, none. */
    for (size_t i = ATTRIBUTES * counts[0]; i < COUNT(listing); i++) changed += listing[i] != UNTOUCHED;
    for (size_t i = BOXJOIN_RECORD_WORDS * counts[1]; i < COUNT(store); i++) changed += store[i] != UNTOUCHED;
    printf("number %u; counts %u, %u, %u; other words changed: %u\n", number, counts[0], counts[1], counts[2], (unsigned)changed);
}

int main(void) {
    /* A range table over attribute 2 with two pairs; both ends of a pair belong to it. */
    const uint16_t survey[] = {BOXJOIN_RANGE_MARK, 2, 2, 8, 20, 30, 40};
    const uint16_t exchanged[] = {BOXJOIN_RANGE_MARK, 2, 2, 20, 8, 30, 40};
    const uint16_t unfilled[] = {BOXJOIN_RANGE_MARK, 2, BOXJOIN_OPEN_MARK};
    ask("from 8 to 20 m, from 30 to 40 m", survey, COUNT(survey));
    ask("from 20 to 8 m, from 30 to 40 m", exchanged, COUNT(exchanged));
    ask("not surveyed yet", unfilled, COUNT(unfilled));
}
