/* The look-ahead trainer for C: reading a file, training on it, certifying
 * multipliers of it, classifying a word by them, writing a file of items in
 * memory, importing a text in LIBSVM's line form as a file, and pooling an
 * older file with a newer one.
 *
 * Any bytes and any numbers may be handed over. Every call answers a
 * lookahead_answer, reading with what it reads beside it: the number 0, or that
 * of the first refusal that the call meets. On a refusal nothing lent is
 * changed, neither a list nor a single number.
 *
 * The four calls that take one file test in the order 1, 2, then 3 and 16,
 * where one walk along the chain finds whichever fault comes first on it, then
 * 4, 5 and 6 to 9. Writing tests in the order 2, 1, 4, 5, 10, importing in the
 * order 2, 11, 12, 4, 5, 10. Pooling, which takes two files, tests the older
 * one first, from 1 to 5 as the others do, then the newer one likewise, then
 * 14, and then 5, 15 and 10 of the items left.
 *
 * What the caller sees to, for every call:
 * - a pointer is not null, also where its length is 0, and is aligned for its
 *   type;
 * - a length counts elements, not bytes, and all of them are there to be read,
 *   and written where the pointer is not to const;
 * - what a call may write overlaps nothing else that is handed to the same
 *   call.
 * No call keeps a pointer, allocates or has a state of its own: calls on
 * different lists may run at the same time.
 *
 * n below is the number of items: the records on the file's chain. It is at
 * most LOOKAHEAD_MOST_ITEMS and at most the number of records stored, which
 * bytes 0 and 1 of the file hold, low byte first. lookahead_read answers n.
 * For writing, n is the number of items handed over, for importing the number
 * of lines in the text, for pooling the number of items left of both files. */
#ifndef LOOKAHEAD_H
#define LOOKAHEAD_H

#include <stddef.h>
#include <stdint.h>

/* No file has more items than this, so that lists of this length are always
 * long enough to train into. */
#define LOOKAHEAD_MOST_ITEMS 256

/* No file is longer than this, 5152 bytes, so that an output of this length is
 * always long enough to write, to import or to pool into. */
#define LOOKAHEAD_MOST_FILE (32 + 20 * LOOKAHEAD_MOST_ITEMS)

/* How many features an item has, in use or not. */
#define LOOKAHEAD_FEATURES 16

/* What every call answers, reading as a part of a lookahead_reading.
 *
 * number  0, or the number of the refusal
 * record  after refusals 3 and 16 the record whose next number is at fault, 1
 *         to the number of records stored; otherwise 0, also after number 0
 *
 * That record is the one to open in a damaged log: record r stands at byte
 * 32 + 20 * (r - 1) of the file, and its first two bytes, low byte first, are
 * the next number at fault. Of the two files that pooling takes, it is a record
 * of the one that drew the refusal; lookahead_pool says which that is. */
typedef struct {
    uint8_t number;
    uint16_t record;
} lookahead_answer;

/* Refusals that whoever wrote the file can cause. Every call that takes a file
 * can answer them. Records that are not on the chain are not judged, whatever
 * they hold. Writing answers 1, 2, 4 and 5 for like faults of what it is
 * handed, importing 2, 4 and 5, and pooling 5 also for the items left of both
 * files; lookahead_write, lookahead_import and lookahead_pool say which.
 *
 * LENGTH     under 32 bytes, more than 256 records, or a length that is not
 *            32 + 20 for each record
 * HEADER     a header field beyond its range, or a spare byte, 6 or 7, that is
 *            not 0
 * NEXT_OVER  a next number over the number of records stored
 * NEXT_MET   a next number that leads to a record already met, which may be
 *            the record itself
 * RECORD     on the chain: a label other than 1 and 2, byte 3 not 0, a feature
 *            outside -127 to 127, or a feature past those in use that is not 0
 * LABELS     no item with one of the two labels, or no items at all */
#define LOOKAHEAD_REFUSED_LENGTH 1
#define LOOKAHEAD_REFUSED_HEADER 2
#define LOOKAHEAD_REFUSED_NEXT_OVER 3
#define LOOKAHEAD_REFUSED_NEXT_MET 16
#define LOOKAHEAD_REFUSED_RECORD 4
#define LOOKAHEAD_REFUSED_LABELS 5

/* Refusals that whoever wrote the text can cause, beside 4 and 5. Importing
 * alone answers them.
 *
 * TEXT   a text that is not of the form that lookahead_import describes
 * LINES  a text of more than 256 lines */
#define LOOKAHEAD_REFUSED_TEXT 11
#define LOOKAHEAD_REFUSED_LINES 12

/* Refusals that a caller who pools two files can cause, each of them accepted
 * by itself. Pooling alone answers them.
 *
 * UNLIKE  the two files differ in the number of features in use or in the
 *         kernel
 * POOL    more than 256 items are left of both files */
#define LOOKAHEAD_REFUSED_UNLIKE 14
#define LOOKAHEAD_REFUSED_POOL 15

/* Refusals that the caller can cause. Reading answers none of them, training
 * only the first, certifying the first three, classifying the first four,
 * writing, importing and pooling only the last.
 *
 * COUNT    training: a lent list shorter than n; certifying and classifying:
 *          multipliers not exactly n in number; classifying: a word that has
 *          not exactly as many features as the file has in use
 * CEILING  a multiplier over its item's ceiling
 * BALANCE  the multipliers of items looked up and of items passed over have
 *          different sums
 * FEATURE  a feature of the word outside -127 to 127
 * OUTPUT   writing, importing and pooling: a lent output shorter than the
 *          file to be written */
#define LOOKAHEAD_REFUSED_COUNT 6
#define LOOKAHEAD_REFUSED_CEILING 7
#define LOOKAHEAD_REFUSED_BALANCE 8
#define LOOKAHEAD_REFUSED_FEATURE 9
#define LOOKAHEAD_REFUSED_OUTPUT 10

/* The kernel among a file's parameters. With p the sum of the products of the
 * features in use, of two items or of an item and a word, their kernel value is
 *
 * LINEAR   p
 * SQUARE   (p + 1) * (p + 1)
 * OVERLAP  the sum, over the features in use, of the smaller of the two values,
 *          each first raised by 127: how much the two share */
#define LOOKAHEAD_LINEAR 0
#define LOOKAHEAD_SQUARE 1
#define LOOKAHEAD_OVERLAP 2

/* The parameters of a file: reading answers them, writing and importing take
 * them.
 *
 * used            d, how many features are in use: 1 to 16
 * kernel          LOOKAHEAD_LINEAR, LOOKAHEAD_SQUARE or LOOKAHEAD_OVERLAP
 * grid            S, grid units per 1: 1 to 1,048,576
 * ceiling         c, the ceiling of items looked up, in grid units: 1 to 65,536
 * second_ceiling  the ceiling of items passed over, in grid units: 1 to 65,536,
 *                 or 0, which means the same as c
 * tolerance       t, in grid units: 0 to 1,000,000,000,000
 * budget          how many steps training may take: 0 to 1,000,000 */
typedef struct {
    size_t used;
    uint8_t kernel;
    uint32_t grid;
    uint32_t ceiling;
    uint32_t second_ceiling;
    uint64_t tolerance;
    uint32_t budget;
} lookahead_parameters;

/* What reading answers.
 *
 * answer      the number 0, or the refusal
 * items       n
 * parameters  those of the file, each within its range
 *
 * After a refusal items and all parameters are 0. */
typedef struct {
    lookahead_answer answer;
    size_t items;
    lookahead_parameters parameters;
} lookahead_reading;

/* Two numbers that the calls below speak of. With a[i] the multiplier of item
 * i, y[i] 1 where it was looked up and -1 where it was passed over, K[i][j]
 * the kernel value of two items and S the file's grid units per 1:
 *
 * G of item i is the sum over j of a[j] * y[j] * K[i][j], minus S * y[i]; the
 * lower threshold is the greatest G of the items whose multiplier times y can
 * still fall, the upper one the least G of those where it can still rise.
 *
 * The objective, which training lowers, is the sum over i and j of
 * a[i] * a[j] * y[i] * y[j] * K[i][j], minus 2 * S * the sum of the a[i]. */

/* How a training ended.
 *
 * CONVERGED  lower is at most upper + 2 * the file's tolerance
 * STUCK      that is not so, and no move of two multipliers lowers the
 *            objective
 * SPENT      that is not so, a pair could still move, and the steps taken are
 *            the file's budget */
#define LOOKAHEAD_CONVERGED 1
#define LOOKAHEAD_STUCK 2
#define LOOKAHEAD_SPENT 3

/* The class of a word, by its score: 2 * the sum over i of a[i] * y[i] * the
 * kernel value of item i and the word, minus (lower + upper).
 *
 * LOOKED_UP    above 0
 * PASSED_OVER  below 0
 * UNDECIDED    exactly 0
 *
 * A fetch queue fetches an undecided word as it fetches one to be looked up:
 * that is the queue's choice, and no call here makes it.
 *
 * With multipliers that are all 0, as a training of 0 steps leaves them, every
 * word is undecided.
 *
 * LOOKED_UP and PASSED_OVER are the two labels of an item, too, in a record's
 * byte 2 and in a lookahead_item. */
#define LOOKAHEAD_LOOKED_UP 1
#define LOOKAHEAD_PASSED_OVER 2
#define LOOKAHEAD_UNDECIDED 3

/* An item in memory, as writing takes it: 17 bytes without a gap.
 *
 * features  each -127 to 127, and 0 past those in use
 * label     LOOKAHEAD_LOOKED_UP or LOOKAHEAD_PASSED_OVER */
typedef struct {
    int8_t features[LOOKAHEAD_FEATURES];
    int8_t label;
} lookahead_item;

#ifdef __cplusplus
static_assert(sizeof(lookahead_item) == 17, "an item has no gap");
static_assert(offsetof(lookahead_item, label) == 16, "its label is last");
#elif __STDC_VERSION__ >= 201112L
_Static_assert(sizeof(lookahead_item) == 17, "an item has no gap");
_Static_assert(offsetof(lookahead_item, label) == 16, "its label is last");
#endif

#ifdef __cplusplus
extern "C" {
#endif

/* Reads a file: how many items it has and which records they are, and its
 * parameters.
 *
 * Lent: order, of any length, also shorter than n. What stands in it beforehand
 * does not matter. A table of LOOKAHEAD_MOST_ITEMS places holds the whole order
 * of every file.
 *
 * After number 0: items is n, and parameters are the file's. The first n places
 * of order, or all of them where there are fewer, hold the numbers of the
 * records on the chain, in the chain's order, and later places what they held.
 * Records are numbered from 1.
 *
 * Refusals: 1, 2, 3, 16, 4, 5. The table is then as it was, and items and all
 * parameters are 0. */
lookahead_reading lookahead_read(const uint8_t *file, size_t file_len,
                                 uint16_t *order, size_t order_len);

/* Trains on a file, from multipliers that are all 0.
 *
 * Lent: multipliers and gradient, each at least n long (longer is fine, and
 * the two may differ), and the four single numbers. What stands in them
 * beforehand does not matter.
 *
 * After number 0: the first n places of multipliers and of gradient hold the
 * final multipliers and G, in the chain's order, and later places what they
 * held. *ending is LOOKAHEAD_CONVERGED, LOOKAHEAD_STUCK or LOOKAHEAD_SPENT,
 * *steps the number of moves made, *lower and *upper the thresholds b_low and
 * b_up.
 *
 * lookahead_read answers n, and which record each of those places belongs to.
 *
 * Refusals: 1, 2, 3, 16, 4, 5, 6. All six lent things are then as they were. */
lookahead_answer lookahead_train(const uint8_t *file, size_t file_len,
                                 uint32_t *multipliers, size_t multipliers_len,
                                 int64_t *gradient, size_t gradient_len,
                                 uint8_t *ending, uint32_t *steps,
                                 int64_t *lower, int64_t *upper);

/* Works out both thresholds of multipliers, wherever they come from. From the
 * thresholds follows how far the multipliers can be from the best ones: with g
 * the difference lower - upper, or 0 if that is negative, and k the sum of the
 * n items' ceilings, no multipliers that this call accepts have an objective
 * that is lower by more than g * k. The same holds of the multipliers and
 * thresholds that training leaves, and in both cases also against multipliers
 * of every finer grid, that is with fractions of a grid unit, their objective
 * taken likewise.
 *
 * Both ceilings are among the parameters that lookahead_read answers: ceiling,
 * which is c, is that of an item looked up; second_ceiling, or c where that is
 * 0, that of an item passed over. An item's label is byte 2 of its record: with
 * r the record's number, which lookahead_read puts into order, byte
 * 32 + 20 * (r - 1) + 2 of the file, LOOKAHEAD_LOOKED_UP or
 * LOOKAHEAD_PASSED_OVER. Where both labels' ceilings are equal to c, k may be
 * taken as 2 * c * (n / 2), n / 2 rounded down, which for an odd n is smaller
 * by c.
 *
 * That bound can pass 64 bits, although g and k do not: k is at most 2^24. It
 * is k * (g >> 32) times 2^32, plus k * (g & 0xffffffff), and neither product
 * passes 64 bits.
 *
 * Handed over: exactly n multipliers, in the chain's order; so of a longer
 * list that was trained into, the first n places.
 *
 * After number 0: *lower is b_low and *upper is b_up.
 *
 * Refusals: 1, 2, 3, 16, 4, 5, 6, 7, 8. *lower and *upper are then as they were. */
lookahead_answer lookahead_certify(const uint8_t *file, size_t file_len,
                                   const uint32_t *multipliers,
                                   size_t multipliers_len,
                                   int64_t *lower, int64_t *upper);

/* Classifies a word by a file and multipliers of it.
 *
 * Handed over: exactly n multipliers, as for certifying, and a word of exactly
 * as many features as the file has in use, which lookahead_read answers among
 * the parameters.
 *
 * After number 0: *class_answer is LOOKAHEAD_LOOKED_UP, LOOKAHEAD_PASSED_OVER
 * or LOOKAHEAD_UNDECIDED.
 *
 * Refusals: 1, 2, 3, 16, 4, 5, 6, 7, 8, 9. *class_answer is then as it was. */
lookahead_answer lookahead_classify(const uint8_t *file, size_t file_len,
                                    const uint32_t *multipliers,
                                    size_t multipliers_len,
                                    const int8_t *word, size_t word_len,
                                    uint8_t *class_answer);

/* Writes a file of parameters and items. The items are records 1 to n, chained
 * in the order in which they are handed over, and there are no other records.
 * The second ceiling is written as given, a 0 as 0; byte 3 of a record and the
 * spare bytes of the header are 0.
 *
 * Lent: output, of 32 + 20 * n bytes or more, for which LOOKAHEAD_MOST_FILE is
 * always enough, and the single number. What stands in them beforehand does not
 * matter.
 *
 * After number 0: *length is the file's length, 32 + 20 * n. The first *length
 * bytes of output hold the file, and later bytes what they held. Reading it
 * answers the same parameters, and records 1 to n hold the same items.
 *
 * To change a file, read it, take its parameters and its items, change them,
 * and write. The item of record r, which stands at byte 32 + 20 * (r - 1) of
 * the file, has bytes 4 to 19 of the record for its features and byte 2 for its
 * label. Where nothing is changed, an accepted file whose items are records 1
 * to n in this order, without other records, comes out byte for byte.
 *
 * What each refusal means here:
 *
 * HEADER  a parameter beyond its range
 * LENGTH  more than LOOKAHEAD_MOST_ITEMS items
 * RECORD  an item with a label other than the two, a feature outside -127 to
 *         127, or a feature past those in use that is not 0
 * LABELS  no item with one of the two labels, or no items at all
 * OUTPUT  an output shorter than 32 + 20 * n bytes
 *
 * Refusals: 2, 1, 4, 5, 10. Both lent things are then as they were. */
lookahead_answer lookahead_write(lookahead_parameters parameters,
                                 const lookahead_item *items, size_t items_len,
                                 uint8_t *output, size_t output_len,
                                 size_t *length);

/* Imports a text: writes a file of parameters and of the items in the text, one
 * for each line, in the order of the lines. It is the file that lookahead_write
 * makes of the same parameters and items.
 *
 * The form of a text is LIBSVM's line form with whole numbers alone. A text is
 * any number of lines, also none. A line has these parts, and nothing before,
 * between or after them:
 * - the label, +1 of an item looked up or -1 of one passed over;
 * - any number of groups, also none, each of one space, a feature number, a
 *   colon and a value;
 * - a newline, the byte 10, which the last line has too.
 * Feature numbers rise strictly along a line, and are 1 to the number of
 * features in use; a feature whose number is left out is 0. A value is decimal
 * digits, with a minus sign ahead of them or without. Neither number has a
 * leading zero, and -0 is not allowed. With three features in use, these are
 * three lines:
 *
 *     +1 1:3 3:-4
 *     +1 2:5
 *     -1
 *
 * Handed over: a text of any length, which needs no 0 byte after it.
 *
 * Lent: output, of 32 + 20 * n bytes or more, for which LOOKAHEAD_MOST_FILE is
 * always enough, however long the text, and the single number. What stands in
 * them beforehand does not matter.
 *
 * After number 0: *length is the file's length, 32 + 20 * n. The first *length
 * bytes of output hold the file, and later bytes what they held. Reading it
 * answers the same parameters, and record r holds the item of line r.
 *
 * What each refusal means here:
 *
 * HEADER  a parameter beyond its range
 * TEXT    a text that is not of this form, in whichever of its lines, however
 *         many there are; also a feature number that is 0, that is above the
 *         number of features in use, or that does not rise
 * LINES   more than LOOKAHEAD_MOST_ITEMS lines
 * RECORD  a value outside -127 to 127, of however many digits
 * LABELS  no line with one of the two labels, or no lines at all
 * OUTPUT  an output shorter than 32 + 20 * n bytes
 *
 * Refusals: 2, 11, 12, 4, 5, 10. Both lent things are then as they were. */
lookahead_answer lookahead_import(lookahead_parameters parameters,
                                  const uint8_t *text, size_t text_len,
                                  uint8_t *output, size_t output_len,
                                  size_t *length);

/* Pools two files: writes a file of the older one's items, followed by the
 * newer one's, each in the order of its chain. Among items with the same
 * features in use, whatever their labels, only the last stays; those that stay
 * keep their order. The parameters are the newer file's, the second ceiling as
 * it stands there, a 0 as 0. It is the file that lookahead_write makes of these
 * parameters and of the items left.
 *
 * Handed over: two files of any lengths. Both are only read, and they may be
 * the same memory.
 *
 * Lent: output, of 32 + 20 * n bytes or more, n being the number of items left,
 * for which LOOKAHEAD_MOST_FILE is always enough, and the single number. What
 * stands in them beforehand does not matter.
 *
 * After number 0: *length is the file's length, 32 + 20 * n. The first *length
 * bytes of output hold the file, and later bytes what they held. Reading it
 * answers the newer file's parameters, and records 1 to n hold the items left.
 *
 * All of the older file is tested first: 1, 2, then 3 and 16, 4, 5. Then all of
 * the newer file, likewise; then 14; then, of the items left, 5, 15 and 10.
 *
 * What is refused here beside the faults of a file:
 *
 * UNLIKE  the two files differ in the number of features in use or in the
 *         kernel; all other parameters may differ
 * LABELS  none of the items left has one of the two labels
 * POOL    more than LOOKAHEAD_MOST_ITEMS items are left
 * OUTPUT  an output shorter than 32 + 20 * n bytes
 *
 * A refusal from 1 to 5 or 16 does not tell which of the two files drew it.
 * Reading the older one alone (lookahead_read) does: where that refuses it, the
 * older one drew it, with the same answer. Where it doesn't, the newer one did,
 * or, where that is not refused either, the items left: 5. The record that 3
 * and 16 carry is of the file that drew them.
 *
 * Refusals: 1, 2, 3, 16, 4, 5, 14, 15, 10. Both lent things are then as they
 * were. */
lookahead_answer lookahead_pool(const uint8_t *older, size_t older_len,
                                const uint8_t *newer, size_t newer_len,
                                uint8_t *output, size_t output_len,
                                size_t *length);

#ifdef __cplusplus
}
#endif

#endif
