/* Koralimbu: deck texts, joins of two problems, whole assignments, Continue and its preview on lent buffers. The functions lie in
 * libkoralimbu.a (`tools/archive` builds it), which is proved.
 *
 * Buffers. Each is a pointer and then its count of numbers. A pointer may be null where its count is 0. A buffer that is written
 * overlaps no other.
 *
 * Threads. The calls keep no state of their own: any number of them may run at the same time, in threads and in signal handlers, as long
 * as no buffer that one of them writes is touched by another. Buffers that are only read may be shared.
 *
 * No call allocates, prints or ends the program. KORALIMBU_MOST_STACK bytes of stack are enough for any call.
 */
#ifndef KORALIMBU_H
#define KORALIMBU_H

#include <stddef.h>
#include <stdint.h>

#ifdef __cplusplus
extern "C" {
#endif

/* The version, which rises with each change of a call or of the text; docs/CHANGES.md has the list. A header and an archive of different
 * versions must not be used together: a program compares KORALIMBU_VERSION with koralimbu_version() once, at its start. */
#define KORALIMBU_VERSION_MAJOR 0
#define KORALIMBU_VERSION_MINOR 8
#define KORALIMBU_VERSION_PATCH 0
#define KORALIMBU_VERSION (KORALIMBU_VERSION_MAJOR * 1000000 + KORALIMBU_VERSION_MINOR * 1000 + KORALIMBU_VERSION_PATCH)

/* The archive's version, as KORALIMBU_VERSION is the header's. */
uint32_t koralimbu_version(void);

/* What a call returns. The tables at the calls say what each number means there, and what is then left in the buffers. */
#define KORALIMBU_ACCEPTED 0
#define KORALIMBU_REFUSED_SIZE 1
#define KORALIMBU_REFUSED_LENGTH 2
#define KORALIMBU_REFUSED_COEFFICIENT 3
#define KORALIMBU_REFUSED_BOUND 4
#define KORALIMBU_REFUSED_GOAL 5
#define KORALIMBU_REFUSED_LIMIT 6
#define KORALIMBU_REFUSED_ELIMINATION 7
#define KORALIMBU_REFUSED_NONE 8
#define KORALIMBU_REFUSED_SEATING 9
#define KORALIMBU_REFUSED_STANDING 10
#define KORALIMBU_REFUSED_LAYOUT 11
#define KORALIMBU_REFUSED_TERM 12
#define KORALIMBU_REFUSED_VOLUME 13
#define KORALIMBU_REFUSED_PAIR 14
#define KORALIMBU_REFUSED_PAIR_BOUNDS 15

/* Verdicts. A move adds one vector of the basis to the values or takes it away, once, or does so with each of two.
 *   FITTED   all values are in bounds and no move improves; a better list may still exist
 *   OUTSIDE  some value is out of bounds and no move improves; a list within the bounds may still exist
 *   SPENT    the step limit is reached and some move still improves
 * No list of values stands twice while one call settles; it may still take many steps, and the limit is for that. */
#define KORALIMBU_FITTED 1
#define KORALIMBU_OUTSIDE 2
#define KORALIMBU_SPENT 3

/* The part that a previewed step belongs to.
 *   NONE    there is no step: no move improves, or the call is refused
 *   BOUNDS  some value is out of bounds
 *   GOALS   all values are in bounds */
#define KORALIMBU_PART_NONE 0
#define KORALIMBU_PART_BOUNDS 1
#define KORALIMBU_PART_GOALS 2

/* What a move does with a vector of the basis: it adds it, or takes it away. */
#define KORALIMBU_SIGN_PLUS 1
#define KORALIMBU_SIGN_MINUS 2

/* The most that a problem has: n, m, the counts m * n and n * (m + n), and its step limit. */
#define KORALIMBU_MOST_COLUMNS 48
#define KORALIMBU_MOST_ROWS 48
#define KORALIMBU_MOST_COEFFICIENTS 2304
#define KORALIMBU_MOST_TABLEAU 4608
#define KORALIMBU_MOST_STEPS 65535

/* The most rounds of an elimination for each column of its problem: n columns take at most n times as many. */
#define KORALIMBU_ROUNDS_PER_COLUMN 31

/* The most that a deck has, with the columns and rows that are added counted, and the bytes of its text. Another version may take larger problems
 * than decks, so these are names of their own. */
#define KORALIMBU_DECK_COLUMNS 48
#define KORALIMBU_DECK_ROWS 48
#define KORALIMBU_DECK_COEFFICIENTS 2304
#define KORALIMBU_MOST_TEXT 32768

/* How far a number may lie from 0: a coefficient, a right side and a bound to both sides, a low and a high goal above only. */
#define KORALIMBU_RANGE_COEFFICIENT 1000
#define KORALIMBU_RANGE_RIGHT 1000000
#define KORALIMBU_RANGE_BOUND 1000000
#define KORALIMBU_RANGE_GOAL 1000000000

/* Document 01's M: how far a number of the elimination and a value may lie from 0, to both sides. */
#define KORALIMBU_M 2147483647

/* The counts of a report, of a preview's report, of the reader's sizes and of the join's. */
#define KORALIMBU_REPORT_COUNT 4
#define KORALIMBU_PREVIEW_COUNT 7
#define KORALIMBU_SIZES_COUNT 3
#define KORALIMBU_JOINED_COUNT 2

/* The bytes of stack that are enough for any call. */
#define KORALIMBU_MOST_STACK 65536

/* The buffers of koralimbu_assign and koralimbu_continue, for n columns and m rows. Here and below, names stand without their KORALIMBU_.
 *
 *                 count         holds
 *   coefficients  m * n         the rows, n to a row
 *   rights        m             what each row must add up to
 *   lower, upper  n             the bounds of each column
 *   low, high     n             the low and the high goal of each column, in thousandths; both 0 for none
 *   given         n             for each column 0 where no ideal is handed in for it, any other number where one is
 *   ideals        n             the ideal that is handed in for each column, which may be any int64_t
 *   tableau       n * (m + n)   afterwards the form, m + n to a row
 *   values        n             afterwards the value of each column; Continue starts from what it holds
 *   strides       n             afterwards the strides
 *   report        REPORT_COUNT  afterwards the verdict, the steps of the bounds part, those of the goals part, and the rounds
 *
 * The first eight are only read.
 *
 * Goals. A column has a low and a high goal, the low one at most the high one, or none, and then both are 0. A curve that belongs to one part
 * has the same number twice. One that two parts share comes with two wishes: where one part wants 9 intervals on it and the other 24, its low
 * goal is 9000 and its high goal 24000. Its ratio at a value v is the larger of 1000 * v / low and high / (1000 * v), so that it is pulled to
 * where both wishes are missed by about the same factor. A caller with one goal for each column lends the same list as low and as high.
 *
 * Ideals. Before its first step a whole assignment seats the columns: it adds each vector of the basis as often as brings its lead, the first
 * column that it changes, nearest to that column's ideal. A column that leads no vector follows from the rows, and its ideal changes nothing.
 * A column with a goal has the ideal of its two goals, the number of intervals with the least ratio, of two such the smaller: 15 for 9000 and
 * 24000. It is brought into the bounds, and what is handed in for such a column is not used. Without a goal it has the one that is handed in,
 * brought into its bounds; where none is, the value that it has then, brought into its bounds. No refusal looks at what given and ideals hold.
 * A caller with no ideals lends n zeros for given; what ideals then holds does not matter, only its count, so that one list of n zeros may be
 * lent for both. Continue seats nothing: only the counts of the two lists matter to it.
 *
 * Rounds. The elimination that makes the form takes its columns in rounds: each time it chooses a smallest entry is one. A call with a verdict, and
 * a preview that is not refused, tells how many there were; with a refusal that is 0, also where rounds were made. There are at most
 * ROUNDS_PER_COLUMN * n. Rows that are said otherwise, so that the same lists satisfy them, may take other rounds; where both problems are
 * within the limits and neither is refused with 7, the rest of the report is the same. Steps are no rounds: their most is the step limit.
 *
 * A progress bar over several problems, as the decks or blocks of a hull, has its upper end from this: the rounds of those that are done, and
 * ROUNDS_PER_COLUMN * n for each that is still to come. A call tells its rounds when it is over, and nothing while it runs, so that the bar moves
 * from call to call. Its end never rises, and is reached with the last call; where all are refused, both are 0.
 *
 *   for (k = 0; k < count; k++)
 *     end += KORALIMBU_ROUNDS_PER_COLUMN * problem[k].n;
 *   for (k = 0; k < count; k++) {
 *     number = koralimbu_assign(problem[k].n, .., report, KORALIMBU_REPORT_COUNT);
 *     done += report[3];
 *     end -= KORALIMBU_ROUNDS_PER_COLUMN * problem[k].n - report[3];
 *     draw_bar(done, end);
 *   }
 *
 * What these two return, and what is then left:
 *
 *                                                                               tableau    values, strides
 *    0  ACCEPTED             there is a verdict                                 the form   the values and strides
 *    1  REFUSED_SIZE         n is not 1 to MOST_COLUMNS, or m is not 0 to       as it was  as they were
 *                            MOST_ROWS
 *    2  REFUSED_LENGTH       a count is not exactly what n and m need           as it was  as they were
 *    3  REFUSED_COEFFICIENT  a coefficient is beyond RANGE_COEFFICIENT, or a    as it was  as they were
 *                            right side beyond RANGE_RIGHT, of either sign
 *    4  REFUSED_BOUND        a bound is beyond RANGE_BOUND of either sign, or   as it was  as they were
 *                            a lower bound is above its upper bound
 *    5  REFUSED_GOAL         a low or a high goal is not 0 to RANGE_GOAL, or    as it was  as they were
 *                            just one of the two is 0, or the low one is above
 *                            the high one, or they are set with a lower bound
 *                            below 1
 *    6  REFUSED_LIMIT        the step limit is above MOST_STEPS                 as it was  as they were
 *    7  REFUSED_ELIMINATION  the elimination met a number beyond M              all 0      as they were
 *    8  REFUSED_NONE         no whole numbers satisfy the rows                  the form   as they were
 *    9  REFUSED_SEATING      seating met a value beyond M                       the form   as they were
 *   10  REFUSED_STANDING     Continue: a value of the list is beyond M, or the  as it was  as they were
 *                            list fails a row
 *
 * The first cause that holds is returned, in the order 1 to 6, then 10, then 7 and 8 as met, then 9.
 *
 * The report's verdict is FITTED, OUTSIDE or SPENT; with a refusal the report is 0, 0, 0, 0. A report whose count is not REPORT_COUNT is
 * refused with REFUSED_LENGTH before anything else is looked at, and every buffer is left as it was, the report too.
 */

/* A whole assignment. */
uint32_t koralimbu_assign(size_t n, size_t m, uint32_t limit,
                          const int64_t *coefficients, size_t coefficients_count,
                          const int64_t *rights, size_t rights_count,
                          const int64_t *lower, size_t lower_count,
                          const int64_t *upper, size_t upper_count,
                          const int64_t *low, size_t low_count,
                          const int64_t *high, size_t high_count,
                          const int64_t *given, size_t given_count,
                          const int64_t *ideals, size_t ideals_count,
                          int64_t *tableau, size_t tableau_count,
                          int64_t *values, size_t values_count,
                          uint64_t *strides, size_t strides_count,
                          uint32_t *report, size_t report_count);

/* Continue: settles the list that values holds. */
uint32_t koralimbu_continue(size_t n, size_t m, uint32_t limit,
                            const int64_t *coefficients, size_t coefficients_count,
                            const int64_t *rights, size_t rights_count,
                            const int64_t *lower, size_t lower_count,
                            const int64_t *upper, size_t upper_count,
                            const int64_t *low, size_t low_count,
                            const int64_t *high, size_t high_count,
                            const int64_t *given, size_t given_count,
                            const int64_t *ideals, size_t ideals_count,
                            int64_t *tableau, size_t tableau_count,
                            int64_t *values, size_t values_count,
                            uint64_t *strides, size_t strides_count,
                            uint32_t *report, size_t report_count);

/* The preview: tells the next step of a standing list without taking it. It is what Continue with the limit 1 does on a copy of the list.
 *
 *                 count          holds
 *   coefficients  m * n          the rows, n to a row
 *   rights        m              what each row must add up to
 *   lower, upper  n              the bounds of each column
 *   low, high     n              the low and the high goal of each column, in thousandths; both 0 for none
 *   given         n              as above; the preview seats nothing, so that only the counts of this list and the next matter
 *   ideals        n              as above
 *   standing      n              the value of each column, as it stands
 *   tableau       n * (m + n)    afterwards the form, m + n to a row
 *   after         n              afterwards the value of each column after the step; the standing one where no move improves
 *   strides       n              afterwards the strides
 *   report        PREVIEW_COUNT  afterwards the step, and the rounds
 *
 * The first nine are only read, so after is a list of its own. The columns that the step changes are those where it differs from standing.
 *
 * The report, by the place of each number:
 *
 *   0  the part of the step: PART_BOUNDS or PART_GOALS; PART_NONE where no move improves
 *   1  the column that the step improves, counted from 1 as in the listing
 *   2  the first vector of the move, counted from 1
 *   3  its sign: SIGN_PLUS or SIGN_MINUS
 *   4  the second vector of the move, counted from 1; 0 where the move is a single vector
 *   5  its sign; 0 where there is none
 *   6  the rounds, as above
 *
 * Where no move improves, all but the rounds are 0, and with a refusal the rounds too. A report whose count is not PREVIEW_COUNT is refused with
 * REFUSED_LENGTH before anything else is looked at, and every buffer is left as it was, the report too.
 *
 * Vector s of the basis stands in the tableau that the call leaves: it is the s-th of the rows whose first m numbers are all 0, without
 * these m numbers. So after is standing with the vectors of the move added or taken away.
 *
 * What is returned, and what is then left:
 *
 *                                                                               tableau    after, strides
 *    0  ACCEPTED             there is a step, or no move improves               the form   the list after and the strides
 *    1  REFUSED_SIZE         n is not 1 to MOST_COLUMNS, or m is not 0 to       as it was  as they were
 *                            MOST_ROWS
 *    2  REFUSED_LENGTH       a count is not exactly what n and m need           as it was  as they were
 *    3  REFUSED_COEFFICIENT  a coefficient is beyond RANGE_COEFFICIENT, or a    as it was  as they were
 *                            right side beyond RANGE_RIGHT, of either sign
 *    4  REFUSED_BOUND        a bound is beyond RANGE_BOUND of either sign, or   as it was  as they were
 *                            a lower bound is above its upper bound
 *    5  REFUSED_GOAL         a low or a high goal is not 0 to RANGE_GOAL, or    as it was  as they were
 *                            just one of the two is 0, or the low one is above
 *                            the high one, or they are set with a lower bound
 *                            below 1
 *    7  REFUSED_ELIMINATION  the elimination met a number beyond M              all 0      as they were
 *   10  REFUSED_STANDING     a value of the standing list is beyond M, or the   as it was  as they were
 *                            list fails a row
 *
 * The first cause that holds is returned, in the order 1 to 5, then 10, then 7. There is no step limit, so 6 is never returned.
 *
 * A run step by step, each step shown before it is taken; some take thousands of steps:
 *
 *   while (koralimbu_preview(n, m, coefficients, m * n, rights, m, lower, n, upper, n, low, n, high, n, given, n, ideals, n, values, n,
 *                            tableau, n * (m + n), after, n, strides, n, report, KORALIMBU_PREVIEW_COUNT) == KORALIMBU_ACCEPTED
 *          && report[0] != KORALIMBU_PART_NONE) {
 *     show(report, values, after);
 *     memcpy(values, after, n * sizeof *values);
 *   }
 */
uint32_t koralimbu_preview(size_t n, size_t m,
                           const int64_t *coefficients, size_t coefficients_count,
                           const int64_t *rights, size_t rights_count,
                           const int64_t *lower, size_t lower_count,
                           const int64_t *upper, size_t upper_count,
                           const int64_t *low, size_t low_count,
                           const int64_t *high, size_t high_count,
                           const int64_t *given, size_t given_count,
                           const int64_t *ideals, size_t ideals_count,
                           const int64_t *standing, size_t standing_count,
                           int64_t *tableau, size_t tableau_count,
                           int64_t *after, size_t after_count,
                           uint64_t *strides, size_t strides_count,
                           uint32_t *report, size_t report_count);

/* The reader: makes the problem of a deck text, in buffers of the largest size.
 *
 *                 count              holds
 *   text          any                the bytes of the text; only read
 *   coefficients  DECK_COEFFICIENTS  afterwards the rows, n to a row without gaps
 *   rights        DECK_ROWS          afterwards what each row must add up to
 *   lower, upper  DECK_COLUMNS       afterwards the bounds of each column
 *   low, high     DECK_COLUMNS       afterwards the low and the high goal of each column, in thousandths; both 0 for none
 *   given         DECK_COLUMNS       afterwards 1 for each column that has an ideal of the reader's, else 0
 *   ideals        DECK_COLUMNS       afterwards the ideal of each such column, else 0
 *   sizes         SIZES_COUNT        afterwards n, m, and how many of the n columns are curves
 *
 * The curves, which document 01 calls intervals, are the first columns. Those behind them, sizes[0] - sizes[2] in number, were added by rows of
 * kinds 1 to 3, in row order.
 *
 * The text. Numbers parted by spaces and line ends, in three sections:
 *
 *   the count of curves; for each its lower bound, its upper bound, its low goal and its high goal
 *   the count of rows; for each its kind, its number, its count of terms; for each term the index of its curve, from 1, and its coefficient
 *   the count of swept volumes; for each its count of paths; for each path its count of curves, and their indices in any order
 *
 * Kind 0: the sum equals the number; 1: it is at least the number; 2: it is at most the number; 3: it is even, and its half is at least the
 * number. The indices of a row rise.
 *
 * A curve of one part has its goal twice, one without a goal two zeros, and one that two parts share the goals of both, the smaller first.
 *
 * A deck without swept volumes ends with a 0: "1 1 9 3000 3000 0 0" is one curve, no row and no volume. All paths of a volume get equal sums:
 * for each path after its first a row is added, path 1 less that path equals 0, behind all rows so far and in the order of the text. A curve on
 * both paths cancels: its coefficient is 0. A path like the first makes a row of zeros, and a volume of one path adds none. These are equal rows
 * like any other: m counts them, and curves that have a term in one are neighbours.
 *
 * The reader hands in ideals, so that a curve without a goal starts near its neighbours: the curves with a goal that have a coefficient other
 * than 0 in some row where it has one too. Its ideal is the mean of theirs, rounded down, each counted once however many rows it shares; theirs
 * are those of their goals, brought into their bounds. There is none for a curve without neighbours, for one with a goal, and for the columns
 * behind the curves. A caller who wants none of them lends n zeros for given instead.
 *
 * What is returned, and what is then left:
 *
 *                                                                               coefficients, rights,  sizes
 *                                                                               lower, upper, low,
 *                                                                               high, given, ideals
 *    0  ACCEPTED             the text is read                                   the problem, then 0s   n, m, curves
 *    1  REFUSED_SIZE         the count of curves is not 1 to DECK_COLUMNS, or   as they were           0, 0, 0
 *                            that of rows is not 0 to DECK_ROWS, or a count of
 *                            paths makes a row more than DECK_ROWS
 *    2  REFUSED_LENGTH       a count of coefficients, rights, lower, upper,     as they were           0, 0, 0
 *                            low, high, given or ideals is not the one above
 *    3  REFUSED_COEFFICIENT  a coefficient is beyond RANGE_COEFFICIENT, or a    as they were           0, 0, 0
 *                            row's number beyond RANGE_RIGHT, of either sign,
 *                            or a least half is below 0 or beyond RANGE_RIGHT
 *    4  REFUSED_BOUND        a bound is beyond RANGE_BOUND of either sign, or   as they were           0, 0, 0
 *                            a lower bound is above its upper bound
 *    5  REFUSED_GOAL         a low or a high goal is not 0 to RANGE_GOAL, or    as they were           0, 0, 0
 *                            just one of the two is 0, or the low one is above
 *                            the high one, or they are set with a lower bound
 *                            below 1
 *   11  REFUSED_LAYOUT       a word is no number, a number is missing or one    as they were           0, 0, 0
 *                            too many, or the text is over MOST_TEXT bytes
 *   12  REFUSED_TERM         a kind is not 0 to 3 or makes a column more than   as they were           0, 0, 0
 *                            DECK_COLUMNS, a count of terms is wrong, an index
 *                            does not rise or names no curve, or a coefficient
 *                            is 0
 *   13  REFUSED_VOLUME       the count of volumes is below 0, a count of paths  as they were           0, 0, 0
 *                            or of a path's curves is below 1, or an index of
 *                            a path names no curve or stands in it twice
 *
 * The counts are looked at first (2), then the length of the text (11); after that the first place of the text that breaks its rule decides.
 * A low goal is judged where it stands, by its range and by the lower bound: what stands behind it plays no part. A high goal is judged beside
 * its low one. A count of paths is judged where it stands, by all rows so far and those that it adds, before any of its paths.
 * A sizes whose count is not SIZES_COUNT is refused with REFUSED_LENGTH before anything else is looked at, and every buffer is left as it
 * was, sizes too.
 *
 * A call goes on with the parts that n and m need:
 *
 *   if (koralimbu_read(text, length, coefficients, KORALIMBU_DECK_COEFFICIENTS, rights, KORALIMBU_DECK_ROWS, lower, KORALIMBU_DECK_COLUMNS,
 *                      upper, KORALIMBU_DECK_COLUMNS, low, KORALIMBU_DECK_COLUMNS, high, KORALIMBU_DECK_COLUMNS,
 *                      given, KORALIMBU_DECK_COLUMNS, ideals, KORALIMBU_DECK_COLUMNS,
 *                      sizes, KORALIMBU_SIZES_COUNT) == KORALIMBU_ACCEPTED) {
 *     size_t n = sizes[0], m = sizes[1];
 *     number = koralimbu_assign(n, m, 10000, coefficients, m * n, rights, m, lower, n, upper, n, low, n, high, n, given, n, ideals, n,
 *                               tableau, n * (m + n), values, n, strides, n, report, KORALIMBU_REPORT_COUNT);
 *   }
 *
 * The values of the curves are then the first sizes[2] of values.
 */
uint32_t koralimbu_read(const uint8_t *text, size_t text_count,
                        int64_t *coefficients, size_t coefficients_count,
                        int64_t *rights, size_t rights_count,
                        int64_t *lower, size_t lower_count,
                        int64_t *upper, size_t upper_count,
                        int64_t *low, size_t low_count,
                        int64_t *high, size_t high_count,
                        int64_t *given, size_t given_count,
                        int64_t *ideals, size_t ideals_count,
                        size_t *sizes, size_t sizes_count);

/* The join: makes one problem of two that share columns, as two blocks of a hull share curves. It is made of a first part, a second part, and
 * pairs of a column of the first and the column of the second that is the same curve.
 *
 *                                count              holds
 *   first_coefficients           first_m * first_n  the rows of the first part, first_n to a row
 *   first_rights                 first_m            what each of them must add up to
 *   first_lower, first_upper,    first_n            the bounds, the goals and the ideals of its columns, as above
 *   first_low, first_high,
 *   first_given, first_ideals
 *   second_..                                       the same of the second part, with second_n and second_m
 *   pairs                        two a pair         for each pair its column of the first part, then that of the second, both counted from 1
 *   coefficients                 m * n              afterwards the joined rows, n to a row
 *   rights                       m                  afterwards what each row must add up to
 *   lower, upper, low, high,     n                  afterwards the bounds, the goals and the ideals of each column
 *   given, ideals
 *   sizes                        JOINED_COUNT       afterwards n and m
 *
 * Here n is first_n + second_n less the number of pairs, and m is first_m + second_m. The parts and pairs are only read, and lists of the parts
 * may be shared: the same problem may be both parts.
 *
 * Columns. Those of the first part come first, in their order, and behind them those of the second that stand in no pair, in theirs. A column in
 * a pair is shared, and has the place of the first part's. A part's column stands in one pair at most.
 *
 * Rows. Those of the first part come first, and behind them those of the second. A row has the coefficients of its part at the places of its
 * part's columns, and 0 at the others.
 *
 * Bounds, goals and ideals. A column that is not shared has those of its part. A shared one has the larger lower and the smaller upper bound;
 * the smaller of the two low goals and the larger of the two high goals, but where one part has no goal for it, the other's low and high goal;
 * and the first part's given and ideals where that given is not 0, else the second's, as they are. An ideal comes along where the joined
 * column has a goal too; there it is not used.
 *
 * So a list satisfies the joined rows and bounds exactly when its share of each part satisfies that part's. The first part's share is the first
 * first_n values. A column of the second, j from 0, has its value at place[j]:
 *
 *   size_t j, k, next = first_n, place[KORALIMBU_MOST_COLUMNS];
 *
 *   for (j = 0; j < second_n; j++) {
 *     for (k = 0; k < pairs_count && pairs[k + 1] != j + 1; k += 2)
 *       ;
 *     place[j] = k < pairs_count ? pairs[k] - 1 : next++;
 *   }
 *
 * What is returned, and what is then left:
 *
 *                                                                               coefficients, rights,  sizes
 *                                                                               lower, upper, low,
 *                                                                               high, given, ideals
 *    0  ACCEPTED             the parts are joined                               the joined problem     n, m
 *    1  REFUSED_SIZE         a part's n is not 1 to MOST_COLUMNS or its m not   as they were           0, 0
 *                            0 to MOST_ROWS, or n is above MOST_COLUMNS, or m
 *                            above MOST_ROWS
 *    2  REFUSED_LENGTH       a count is not exactly what first_n and first_m,   as they were           0, 0
 *                            second_n and second_m, or n and m need, or that
 *                            of pairs is odd
 *    3  REFUSED_COEFFICIENT  a coefficient of a part is beyond                  as they were           0, 0
 *                            RANGE_COEFFICIENT, or a right side beyond
 *                            RANGE_RIGHT, of either sign
 *    4  REFUSED_BOUND        a bound of a part is beyond RANGE_BOUND of either  as they were           0, 0
 *                            sign, or a lower bound is above its upper bound
 *    5  REFUSED_GOAL         a low or a high goal of a part is not 0 to         as they were           0, 0
 *                            RANGE_GOAL, or just one of the two is 0, or the
 *                            low one is above the high one, or they are set
 *                            with a lower bound below 1
 *   14  REFUSED_PAIR         a pair has a column that is 0 or beyond those of   as they were           0, 0
 *                            its part, or one that an earlier pair has of the
 *                            same part
 *   15  REFUSED_PAIR_BOUNDS  the bounds of a pair leave nothing: the larger     as they were           0, 0
 *                            lower bound is above the smaller upper bound
 *
 * The first cause that holds is returned, in this order: 1 to 5 of the first part, with 2 for the counts of its lists; 1 to 5 of the second; 2
 * for an odd count of pairs; then pair by pair 14, then 15; 1 for n or m; 2 for the counts of the joined lists. Which pair it was is not told.
 * A sizes whose count is not JOINED_COUNT is refused with REFUSED_LENGTH before anything else is looked at, and every buffer is left as it was,
 * sizes too. There is no step limit, and nothing is solved: parts that no whole numbers satisfy are joined too.
 *
 * Decks. Parts may be decks as koralimbu_read left them, of each list the first numbers as its n and m need. The columns behind the curves, which
 * rows added, are columns like any other: they may be paired, and need not be. The reader's ideals come along. They are made in each deck by
 * itself, so that neighbours in the other deck play no part in them.
 *
 * The joined problem goes on as any other, and may be a part of a further join. Its lists lie in buffers of the largest size; what is too large
 * for them is refused, and needs none. With the eight lists of each part at the dots:
 *
 *   n = first_n + second_n - pairs_count / 2;
 *   m = first_m + second_m;
 *   if (n > KORALIMBU_MOST_COLUMNS || m > KORALIMBU_MOST_ROWS)
 *     n = m = 0;
 *   number = koralimbu_join(first_n, first_m, .., second_n, second_m, .., pairs, pairs_count, coefficients, m * n, rights, m,
 *                           lower, n, upper, n, low, n, high, n, given, n, ideals, n, sizes, KORALIMBU_JOINED_COUNT);
 *   if (number == KORALIMBU_ACCEPTED)
 *     number = koralimbu_assign(n, m, 10000, coefficients, m * n, rights, m, lower, n, upper, n, low, n, high, n, given, n, ideals, n,
 *                               tableau, n * (m + n), values, n, strides, n, report, KORALIMBU_REPORT_COUNT);
 */
uint32_t koralimbu_join(size_t first_n, size_t first_m,
                        const int64_t *first_coefficients, size_t first_coefficients_count,
                        const int64_t *first_rights, size_t first_rights_count,
                        const int64_t *first_lower, size_t first_lower_count,
                        const int64_t *first_upper, size_t first_upper_count,
                        const int64_t *first_low, size_t first_low_count,
                        const int64_t *first_high, size_t first_high_count,
                        const int64_t *first_given, size_t first_given_count,
                        const int64_t *first_ideals, size_t first_ideals_count,
                        size_t second_n, size_t second_m,
                        const int64_t *second_coefficients, size_t second_coefficients_count,
                        const int64_t *second_rights, size_t second_rights_count,
                        const int64_t *second_lower, size_t second_lower_count,
                        const int64_t *second_upper, size_t second_upper_count,
                        const int64_t *second_low, size_t second_low_count,
                        const int64_t *second_high, size_t second_high_count,
                        const int64_t *second_given, size_t second_given_count,
                        const int64_t *second_ideals, size_t second_ideals_count,
                        const size_t *pairs, size_t pairs_count,
                        int64_t *coefficients, size_t coefficients_count,
                        int64_t *rights, size_t rights_count,
                        int64_t *lower, size_t lower_count,
                        int64_t *upper, size_t upper_count,
                        int64_t *low, size_t low_count,
                        int64_t *high, size_t high_count,
                        int64_t *given, size_t given_count,
                        int64_t *ideals, size_t ideals_count,
                        size_t *sizes, size_t sizes_count);

#ifdef __cplusplus
}
#endif

#endif
