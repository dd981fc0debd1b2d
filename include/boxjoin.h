/* The box join for C: the natural join of tables of small numbers, listed in order, each tuple once.
 *
 * Link libboxjoin.a, which `tools/library` writes to target/staticlib (for x86-64). It uses
 * memcpy and memset of the C library and nothing else, allocates nothing, and keeps nothing between two
 * calls.
 *
 * Each function answers for every content and every length of its buffers. What it takes from its
 * caller is what C takes of any array: a pointer is to as many elements as its length says, and a
 * buffer that is written shares no element with another one. With the length 0 the pointer may be NULL.
 *
 * A question is n, the number of attributes (1 to 12); n widths in bits (1 to 16); the number of tables
 * (1 to 16); then for each table k (1 to n), its k attribute numbers (0 to n - 1, ascending), m (at most
 * 4,096), and m rows of k values. A value is below 2 to the power of its attribute's width, and each row
 * is above the one before: the first value that differs decides. In place of m and the rows,
 * BOXJOIN_OPEN_MARK alone marks an open table, one that is not filled in yet: it restricts nothing, every
 * tuple counts as its row. (A table with m = 0 has no row, so that the join has none.) Every attribute
 * stands in some table that is not open. A question has at most 32,000 words.
 *
 * With BOXJOIN_RANGE_MARK in place of k a table is a range table: one attribute number, m (at most 4,096),
 * and m pairs of a lowest and a highest value, the lowest not above the highest and above the highest of the
 * pair before: pairs may touch, as (1, 3), (4, 5). Every value from a pair's lowest to its highest counts as
 * a row. With m = 0 it has no row; its m may be the open mark.
 *
 * The numbers: 0 for a question and for a listing that is accepted, for a run that is complete, for a copy that is
 * written and for a file that is imported, exported or joined; 1 to 12 and 28 for a refusal; 13 for a listing and
 * 14 for a store without room for what comes next, and 13 also for a copy without room; 22 where the check of a
 * listing fails; of names and comma-separated files 15 to 19, and also 1, 3, 5, 8 and 12 to 14. docs/NUMBERS.md says
 * which refusal is which.
 */
#ifndef BOXJOIN_H
#define BOXJOIN_H

#include <stddef.h>
#include <stdint.h>

/* How many attributes a question has at most. */
#define BOXJOIN_MAX_ATTRIBUTES 12

/* Stands in place of the number of a table's rows or pairs, and of these, where the table is open. */
#define BOXJOIN_OPEN_MARK 65535

/* Stands in place of the number of a table's attributes where the table is a range table: one attribute
 * number, m, and m pairs of a lowest and a highest value follow. */
#define BOXJOIN_RANGE_MARK 65535

/* How many words a record of the store has: an interval for each attribute, a kind, two origins. */
#define BOXJOIN_RECORD_WORDS (BOXJOIN_MAX_ATTRIBUTES + 3)

#ifdef __cplusplus
extern "C" {
#endif

/* 0 for a question that is accepted, else the number of its refusal. */
uint8_t boxjoin_check_question(const uint16_t *question, size_t question_len);

/* Lists the join of a question's tables, and stores the boxes that show that no tuple is missing.
 * Answers the number of the run. Puts how many tuples are listed, how many boxes are stored, and how
 * many of them are resolvents, into the first three elements of counts, or into as many as it has.
 *
 * The tuples stand at the front of listing, n values each; there is room for listing_len / n of them.
 * The boxes stand at the front of store, a record each; there is room for
 * store_len / BOXJOIN_RECORD_WORDS of them, and never for more than 65,536. All other elements keep what they
 * had. A refused question changes nothing in listing and store, and its counts are 0.
 *
 * Only a run that answers 0 lists the whole join. With 13 and 14 the listing has the join's first tuples.
 *
 * A record is twelve intervals (1 beyond the question's attributes), a kind and two origins. An interval
 * is a number: 1 is an attribute's whole range, 2v and 2v + 1 are the lower and the upper half of v, so
 * that the value a alone is 2^w + a at width w. Kind 0 is a gap box: the number of its table, and 0.
 * Kind 1 is a listed tuple: its place in the listing, and 0. Kind 2 is a resolvent: the numbers of the
 * lower and of the upper half's record. Tables, places and records count from 0.
 *
 * Which boxes are stored, and so the counts and when a store is full, follows from the published steps. There
 * a part of the space is looked for among the stored boxes: of those that hold it the one with the fewest bits
 * is taken, the earliest among equals. An interval has a bit for each halving, 1 has none, and a box has those
 * of its intervals together.
 *
 * With one attribute, resolvents are fewer than gap boxes and listed tuples together: after every run with
 * at least one box, complete or stopped, counts[2] < counts[1] - counts[2]. With two attributes and more
 * they may be as many, or more.
 *
 * It takes up to 193,000 bytes of stack (measured, with the deepest question; all such figures here are of the
 * library as an older kit of Rattle, rattle-kit-5b-plain, built it, and as today's builds it each function took
 * less where that was tried). */
uint8_t boxjoin_run(const uint16_t *question, size_t question_len, uint16_t *listing, size_t listing_len,
                    uint32_t *store, size_t store_len, uint32_t *counts, size_t counts_len);

/* The same with a scratch of the caller's. For every scratch, of any length and with any content, the
 * number, the counts and every element of listing and store are those of boxjoin_run. A refused question
 * changes no element of the scratch; after a run its content is free. The scratch only makes the run
 * quick: the first stored boxes, as many as have room in it, are found without a scan of the store, and
 * those after them are scanned.
 *
 * Most boxes take one or two nodes of four elements each, so that 12 elements for each box of a large store
 * are ample for most questions, and 4 more; boxjoin_run has 8,192 elements of its own.
 *
 * It takes up to 160,000 bytes of stack (measured likewise). */
uint8_t boxjoin_run_with(const uint16_t *question, size_t question_len, uint16_t *listing, size_t listing_len,
                         uint32_t *store, size_t store_len, uint32_t *scratch, size_t scratch_len,
                         uint32_t *counts, size_t counts_len);

/* Checks a listing and records that anybody may have made. Answers 0 if they are accepted: then the listing is
 * the join of the question's tables, the whole of it, in order, each tuple once. Nothing is written, and no
 * scratch is needed.
 *
 * Asked first is the question: the number of its refusal is answered whatever the listing and the records are. Then 22
 * is answered unless all of this holds:
 * - listing has whole tuples, n values each, perhaps none. Each is above the one before, its values are within
 *   their widths, and in every table it has its row: its values at the table's attributes are a row, or in a
 *   pair; of an open table every tuple counts as a row.
 * - records has whole records of BOXJOIN_RECORD_WORDS elements, as boxjoin_run has them, at least one, and the
 *   last is the whole space: 1 at every attribute.
 * - Every interval of a record lies within its attribute's width w: it is at least 1 and below 2 times 2^w.
 *   Beyond the question's attributes it is 1.
 * - A record of kind 0 names a table, and then 0, and holds no row of it. Only the table's attributes are asked:
 *   a row lies in the record if at each of them its value lies in the interval, whatever the record has at the
 *   others. Of a range table no value of a pair may lie in the interval. An open table has a row in every box,
 *   so that a record that names one fails.
 * - A record of kind 1 names a tuple of listing by its place, and then 0, and is the tuple's box.
 * - A record of kind 2 names two earlier records, the lower half's first, and is their resolvent: at just one
 *   attribute they have the two halves of one interval, and it has that interval; at every other attribute the
 *   interval of one holds that of the other, and it has the shorter one.
 * - There is no other kind.
 *
 * There may be records that no later one needs, the same record twice, records that lie in an earlier one, and
 * more than 65,536 in all. After every run that answers 0, listing and store are accepted, cut to
 * its counts: n times counts[0] and BOXJOIN_RECORD_WORDS times counts[1] elements. After 13 and 14 they are not.
 *
 * It takes up to 12,000 bytes of stack (measured likewise). */
uint8_t boxjoin_check_listing(const uint16_t *question, size_t question_len, const uint16_t *listing,
                              size_t listing_len, const uint32_t *records, size_t records_len);

/* What the listing program prints for a text of tables: answers how many bytes that is, and writes them
 * all at the front of out if they fit, and nothing otherwise (so an out_len of 0 asks for the length).
 * Neither text nor print ends with a byte 0. The form of a text stands in README.md; it has at most
 * 60,000 bytes, and its run has room for 1,000 boxes and 30,000 words of listing. The last line says how
 * it ended: `complete`, `stopped` or `refused`. No print has more than 180,220 bytes.
 *
 * It takes up to 451,000 bytes of stack (measured likewise). */
size_t boxjoin_list_text(const uint8_t *text, size_t text_len, uint8_t *out, size_t out_len);

/* The lift firm's copy of what boxjoin_list_text prints for a text: for a firm that must not see the attributes
 * whose numbers stand in hidden (from 0, in the order of the text's first line), in any order, perhaps more than
 * once; a number that is no attribute's hides nothing. The copy has the same line of names; a line for each tuple,
 * with `-` in place of each hidden value; and a last line of `complete` or `stopped` and the number of tuples, with
 * no other count and no number. Of a refused text it has only the line `refused`, whatever the number.
 *
 * Answers 0, and the copy stands at the front of out; or 13 if out is too short for it, and then no byte of out is
 * written. Puts how many bytes it has, also with 13, into the first element of counts, if it has one. No copy is
 * longer than what is printed, so never longer than 180,220 bytes.
 *
 * Proved: two texts with the same names and the same attributes hidden, whose listings are equally long and agree in
 * the visible fields line by line, and which end in the same word, give the same answer and the same bytes; so do
 * two refused texts. The names, also of hidden attributes, the number of tuples, their order and the visible fields
 * are seen, and may tell of what is hidden; how long a call takes, and what it leaves on its stack, is not spoken of.
 *
 * It takes up to 451,000 bytes of stack (measured likewise). */
uint8_t boxjoin_lift_copy(const uint8_t *text, size_t text_len, const uint16_t *hidden, size_t hidden_len,
                          uint8_t *out, size_t out_len, uint32_t *counts, size_t counts_len);

/* Imports one table's comma-separated file (RFC 4180) as the words of a table of a question: k, its k
 * attribute numbers, m, and m rows of k values. Answers 0 or the number of a refusal. Puts how many words
 * the table has into the first element of counts, if it has one: with 0 they stand at the front of words,
 * with 13 words is too short for them; with any other number the count is 0. Only 0 writes words: every
 * refusal leaves all of them, and 0 leaves those behind the table. Other elements of counts are kept.
 *
 * names are the attributes' names in attribute order: 1 to 12 of them, none twice, with one space between
 * two, each of 1 to 12 small letters. The file has a header with the names of the table's attributes and
 * a record for each row, with fields parted by commas, perhaps in double quotes, and ended by CR and LF,
 * the last one perhaps unended. Columns and records come in any order, a record perhaps twice. The columns are put
 * into attribute order and the rows sorted ascending, each once, so that the words are a table of a
 * question over these attributes, wherever the widths hold the values.
 *
 * Asked in this order, by the number of the first answer that is no: names 15, 16; at most 60,000 bytes
 * 17; the header's grammar 18, its names distinct and known 16; record by record its grammar and its
 * number of fields 18, its values (0 to 65,535, without leading zeros) 19; at most 4,096 different rows 8;
 * room in words 13.
 *
 * It takes up to 108,000 bytes of stack (measured likewise). */
uint8_t boxjoin_import_csv(const uint8_t *names, size_t names_len, const uint8_t *file, size_t file_len,
                           uint16_t *words, size_t words_len, uint32_t *counts, size_t counts_len);

/* Exports a listing as a comma-separated file: a header with all names in attribute order, then a record
 * for each tuple, without quotes, each ended by CR and LF. Answers 0 or the number of a refusal: names 15,
 * 16; 3 if listing_len is no multiple of the number of names; 13 if out is too short. Puts how many bytes
 * the file has into the first element of counts, if it has one (4,294,967,295 where they are more): with 0
 * they stand at the front of out, with 13 they have no room; with any other number the count is 0. Only 0
 * writes bytes. With an out_len of 0 it asks for the length.
 *
 * If the tuples ascend, are at most 4,096 and the file has at most 60,000 bytes, boxjoin_import_csv with
 * the same names gives the same tuples back, as a table over all attributes.
 *
 * It takes up to 1,000 bytes of stack (measured likewise). */
uint8_t boxjoin_export_csv(const uint8_t *names, size_t names_len, const uint16_t *listing, size_t listing_len,
                           uint8_t *out, size_t out_len, uint32_t *counts, size_t counts_len);

/* Joins comma-separated files, a table each, and writes their natural join as such a file: files in, file
 * out, with no widths to count and no words to lay out.
 *
 * names are those of boxjoin_import_csv. files has the bytes of all files, one after the other, and ends
 * says for each of the 1 to 16 files where it ends, counted from the first byte; the first begins there,
 * each later one where the one before ends. Bytes behind the last end have no part in it. The widths are
 * found: for each attribute the least from 1 on that holds all its values. listing, store and scratch are
 * those of boxjoin_run_with, and so is what a run leaves in them.
 *
 * Asked in this order, by the number of the first answer that is no: names 15, 16; the number of files 5;
 * file by file, its end 3 (beyond files_len, or below the end before), then what boxjoin_import_csv asks of
 * a file: 17, 18, 16, 18 and 19, 8; at most 32,000 words in all 1, and every attribute in some file 12; the
 * run's 13 and 14; room in out 13.
 *
 * Only with 0 out is written: the join's file stands at its front, as boxjoin_export_csv writes it, and
 * later bytes are kept. With every other number out keeps every byte, since a listing cut short would show
 * no hole. A refusal before the run changes nothing in listing, store and scratch.
 *
 * Puts six counts into the first elements of counts, or into as many as it has: tuples, boxes and
 * resolutions, as boxjoin_run does; bytes, those written or, with 13 after a complete run, those that the
 * file takes, else 0; the file and the record that a refusal is of, from 1, the header being record 1, and
 * 0 where there is none: names, 5, 1 and 12 have neither, an end's 3, 17 and 8 have the file alone. So a 13
 * with bytes asks for a longer out, and a 13 without bytes for a longer listing.
 *
 * It takes up to 225,000 bytes of stack (measured likewise). */
uint8_t boxjoin_join_csv(const uint8_t *names, size_t names_len, const uint8_t *files, size_t files_len,
                         const uint32_t *ends, size_t ends_len, uint16_t *listing, size_t listing_len,
                         uint32_t *store, size_t store_len, uint32_t *scratch, size_t scratch_len,
                         uint8_t *out, size_t out_len, uint32_t *counts, size_t counts_len);

#ifdef __cplusplus
}
#endif

#endif
