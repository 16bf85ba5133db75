/* What the header says, tried over the archive: the version, null pointers, every refusal and limit by its name, rounds, the preview beside
 * Continue, pairs of goals, ideals, the sizes of a deck, swept volumes, joins, calls in several threads at once, and calls on a small stack.
 *
 * Prints a line for each check that fails, and last 'N passed, M failed'.
 */
#define _POSIX_C_SOURCE 200809L

#include <inttypes.h>
#include <limits.h>
#include <pthread.h>
#include <stdio.h>
#include <string.h>

#include "koralimbu.h"

/* The names are numbers for the preprocessor too. */
#if KORALIMBU_VERSION < 8000 || KORALIMBU_MOST_COEFFICIENTS != KORALIMBU_MOST_ROWS * KORALIMBU_MOST_COLUMNS \
    || KORALIMBU_MOST_TABLEAU != KORALIMBU_MOST_COLUMNS * (KORALIMBU_MOST_ROWS + KORALIMBU_MOST_COLUMNS) \
    || KORALIMBU_DECK_COEFFICIENTS != KORALIMBU_DECK_ROWS * KORALIMBU_DECK_COLUMNS
#error "names of koralimbu.h that do not agree"
#endif

/* Room for a column and a row too many. */
#define COLUMNS (KORALIMBU_MOST_COLUMNS + 1)
#define ROWS (KORALIMBU_MOST_ROWS + 1)
#define TEXT (KORALIMBU_MOST_TEXT + 1)
#define LIMIT 10000
#define THREADS 8
#define ROUNDS 20
/* What a buffer holds before a call. */
#define MARK 77
/* Where the rounds stand in a report, behind the counts, and in a preview's, behind the step. */
#define ROUNDS_PLACE (KORALIMBU_REPORT_COUNT - 1)
#define STEP_COUNT (KORALIMBU_PREVIEW_COUNT - 1)
/* The lists of which the calls below lend any count: low, high, given and ideals. All have room for a number too many. */
#define LISTS 4

/* A problem, and the list that Continue and the preview start from. */
struct posed {
    size_t n, m;
    uint32_t limit;
    int64_t coefficients[ROWS * COLUMNS], rights[ROWS], lower[COLUMNS], upper[COLUMNS], start[COLUMNS];
    int64_t low[COLUMNS], high[COLUMNS], given[COLUMNS], ideals[COLUMNS];
};

struct answer {
    uint32_t number, report[KORALIMBU_REPORT_COUNT];
    int64_t tableau[COLUMNS * (ROWS + COLUMNS)], values[COLUMNS];
    uint64_t strides[COLUMNS];
};

/* A preview's. */
struct seen {
    uint32_t number, report[KORALIMBU_PREVIEW_COUNT];
    int64_t tableau[COLUMNS * (ROWS + COLUMNS)], after[COLUMNS];
    uint64_t strides[COLUMNS];
};

/* A deck's text as it was read, with room for a goal and an ideal too many. */
struct deck {
    uint32_t number;
    size_t sizes[KORALIMBU_SIZES_COUNT];
    int64_t coefficients[KORALIMBU_DECK_COEFFICIENTS], rights[KORALIMBU_DECK_ROWS];
    int64_t lower[KORALIMBU_DECK_COLUMNS], upper[KORALIMBU_DECK_COLUMNS];
    int64_t low[KORALIMBU_DECK_COLUMNS + 1], high[KORALIMBU_DECK_COLUMNS + 1];
    int64_t given[KORALIMBU_DECK_COLUMNS + 1], ideals[KORALIMBU_DECK_COLUMNS + 1];
};

typedef uint32_t engine(size_t n, size_t m, uint32_t limit, const int64_t *coefficients, size_t coefficients_count,
                        const int64_t *rights, size_t rights_count, const int64_t *lower, size_t lower_count,
                        const int64_t *upper, size_t upper_count, const int64_t *low, size_t low_count,
                        const int64_t *high, size_t high_count,
                        const int64_t *given, size_t given_count, const int64_t *ideals, size_t ideals_count,
                        int64_t *tableau, size_t tableau_count, int64_t *values, size_t values_count,
                        uint64_t *strides, size_t strides_count, uint32_t *report, size_t report_count);

static const char paving[] = "3\n1 1000000 3000 3000\n1 1000000 3000 3000\n1 1000000 3000 3000\n1\n3 2 3 1 1 2 1 3 1\n0\n";
/* A volume of three paths: curve 1; curves 2 and 3; curve 4. */
static const char swept[] = "4\n1 99 9000 9000\n1 99 4000 4000\n1 99 4000 4000\n1 99 0 0\n0\n1\n3\n1 1\n2 2 3\n1 4\n";

static int passed, failed;

static void check(const char *what, int good)
{
    if (good) {
        passed++;
    } else {
        failed++;
        printf("%s: failed\n", what);
    }
}

static void expect(const char *what, uint32_t returned, uint32_t wanted)
{
    if (returned != wanted)
        printf("returned %" PRIu32 ", not %" PRIu32 ": ", returned, wanted);
    check(what, returned == wanted);
}

/* ---------------------------------------------------------------- calls */

/* n columns with bounds 0 to 10, no goals and no ideals, m rows of zeros. */
static void pose(struct posed *p, size_t n, size_t m)
{
    size_t j;

    memset(p, 0, sizeof *p);
    p->n = n;
    p->m = m;
    p->limit = LIMIT;
    for (j = 0; j < n; j++)
        p->upper[j] = 10;
}

static void fill(int64_t *list, size_t count, int64_t number)
{
    size_t k;

    for (k = 0; k < count; k++)
        list[k] = number;
}

/* The low and the high goal of a column. */
static void want(struct posed *p, size_t j, int64_t low, int64_t high)
{
    p->low[j] = low;
    p->high[j] = high;
}

/* Lends so many numbers of low, high, given and ideals. */
static void settle_with(engine *call, const struct posed *p, struct answer *a, const size_t counts[LISTS])
{
    size_t n = p->n, m = p->m, k;

    memset(a, 0, sizeof *a);
    for (k = 0; k < KORALIMBU_REPORT_COUNT; k++)
        a->report[k] = MARK;
    memcpy(a->values, p->start, sizeof p->start);
    fill(a->tableau, sizeof a->tableau / sizeof *a->tableau, MARK);
    for (k = 0; k < COLUMNS; k++)
        a->strides[k] = MARK;
    a->number = call(n, m, p->limit, p->coefficients, m * n, p->rights, m, p->lower, n, p->upper, n, p->low, counts[0],
                     p->high, counts[1], p->given, counts[2], p->ideals, counts[3],
                     a->tableau, n * (m + n), a->values, n, a->strides, n, a->report, KORALIMBU_REPORT_COUNT);
}

static void settle(engine *call, const struct posed *p, struct answer *a)
{
    size_t counts[LISTS] = {p->n, p->n, p->n, p->n};

    settle_with(call, p, a, counts);
}

static void look_with(const struct posed *p, struct seen *s, const size_t counts[LISTS])
{
    size_t n = p->n, m = p->m, k;

    memset(s, 0, sizeof *s);
    for (k = 0; k < KORALIMBU_PREVIEW_COUNT; k++)
        s->report[k] = MARK;
    fill(s->tableau, sizeof s->tableau / sizeof *s->tableau, MARK);
    fill(s->after, COLUMNS, MARK);
    for (k = 0; k < COLUMNS; k++)
        s->strides[k] = MARK;
    s->number = koralimbu_preview(n, m, p->coefficients, m * n, p->rights, m, p->lower, n, p->upper, n, p->low, counts[0],
                                  p->high, counts[1], p->given, counts[2], p->ideals, counts[3], p->start, n,
                                  s->tableau, n * (m + n), s->after, n, s->strides, n, s->report, KORALIMBU_PREVIEW_COUNT);
}

static void look(const struct posed *p, struct seen *s)
{
    size_t counts[LISTS] = {p->n, p->n, p->n, p->n};

    look_with(p, s, counts);
}

static void read_with(const uint8_t *text, size_t count, struct deck *d, const size_t counts[LISTS])
{
    memset(d, 0, sizeof *d);
    d->sizes[0] = d->sizes[1] = d->sizes[2] = MARK;
    fill(d->coefficients, KORALIMBU_DECK_COEFFICIENTS, MARK);
    fill(d->rights, KORALIMBU_DECK_ROWS, MARK);
    fill(d->lower, KORALIMBU_DECK_COLUMNS, MARK);
    fill(d->upper, KORALIMBU_DECK_COLUMNS, MARK);
    fill(d->low, KORALIMBU_DECK_COLUMNS + 1, MARK);
    fill(d->high, KORALIMBU_DECK_COLUMNS + 1, MARK);
    fill(d->given, KORALIMBU_DECK_COLUMNS + 1, MARK);
    fill(d->ideals, KORALIMBU_DECK_COLUMNS + 1, MARK);
    d->number = koralimbu_read(text, count, d->coefficients, KORALIMBU_DECK_COEFFICIENTS, d->rights, KORALIMBU_DECK_ROWS,
                               d->lower, KORALIMBU_DECK_COLUMNS, d->upper, KORALIMBU_DECK_COLUMNS, d->low, counts[0],
                               d->high, counts[1], d->given, counts[2], d->ideals, counts[3], d->sizes, KORALIMBU_SIZES_COUNT);
}

static void read_text(const uint8_t *text, size_t count, struct deck *d)
{
    static const size_t counts[LISTS] = {KORALIMBU_DECK_COLUMNS, KORALIMBU_DECK_COLUMNS, KORALIMBU_DECK_COLUMNS, KORALIMBU_DECK_COLUMNS};

    read_with(text, count, d, counts);
}

/* Whether count numbers of a list are all the same one. */
static int all_are(const int64_t *list, size_t count, int64_t number)
{
    size_t k;

    for (k = 0; k < count && list[k] == number; k++)
        ;
    return k == count;
}

static int strides_are(const uint64_t *strides, size_t from, uint64_t number)
{
    for (; from < COLUMNS && strides[from] == number; from++)
        ;
    return from == COLUMNS;
}

/* What lies behind n * (m + n) numbers of a tableau and n others is as it was. */
static int behind_is_marked(const struct posed *p, const int64_t *tableau, const uint64_t *strides)
{
    size_t used = p->n * (p->m + p->n);

    return all_are(tableau + used, COLUMNS * (ROWS + COLUMNS) - used, MARK) && strides_are(strides, p->n, MARK);
}

/* What a preview leaves with a refusal: as it was lent, but for the report and the tableau of an elimination beyond M. */
static int left_alone(const struct posed *p, const struct seen *s)
{
    static const uint32_t nothing[KORALIMBU_PREVIEW_COUNT];
    int64_t tableau = s->number == KORALIMBU_REFUSED_ELIMINATION ? 0 : MARK;

    return strides_are(s->strides, 0, MARK) && all_are(s->after, COLUMNS, MARK)
           && all_are(s->tableau, p->n * (p->m + p->n), tableau) && behind_is_marked(p, s->tableau, s->strides)
           && memcmp(s->report, nothing, sizeof nothing) == 0;
}

/* The same of a whole assignment or a Continue whose refusal leaves no form. */
static int kept(const struct posed *p, const struct answer *a)
{
    static const uint32_t nothing[KORALIMBU_REPORT_COUNT];
    int64_t tableau = a->number == KORALIMBU_REFUSED_ELIMINATION ? 0 : MARK;

    return strides_are(a->strides, 0, MARK) && memcmp(a->values, p->start, sizeof p->start) == 0
           && all_are(a->tableau, p->n * (p->m + p->n), tableau) && behind_is_marked(p, a->tableau, a->strides)
           && memcmp(a->report, nothing, sizeof nothing) == 0;
}

/* Whether n columns take so many rounds: a column at least one. */
static int rounds_fit(const struct posed *p, uint32_t rounds)
{
    return p->n <= rounds && rounds <= KORALIMBU_ROUNDS_PER_COLUMN * p->n;
}

/* What a preview leaves besides is what Continue with the limit 1 left, its rounds too, and its part is the one whose count is 1. */
static int as_continued(const struct posed *p, const struct seen *s, const struct answer *a)
{
    size_t n = p->n, m = p->m;
    uint32_t part = s->report[0];

    return memcmp(s->tableau, a->tableau, n * (m + n) * sizeof *s->tableau) == 0 && behind_is_marked(p, s->tableau, s->strides)
           && memcmp(s->after, a->values, n * sizeof *s->after) == 0 && memcmp(s->strides, a->strides, n * sizeof *s->strides) == 0
           && a->report[1] == (part == KORALIMBU_PART_BOUNDS) && a->report[2] == (part == KORALIMBU_PART_GOALS)
           && s->report[STEP_COUNT] == a->report[ROUNDS_PLACE] && rounds_fit(p, s->report[STEP_COUNT]);
}

/* The preview returns a number. It equals Continue with the limit 1 on a copy of the list, and only reads the problem and the list. */
static void previewed(const char *what, const struct posed *p, uint32_t wanted)
{
    static struct posed copy;
    static struct seen s;
    static struct answer a;

    memcpy(&copy, p, sizeof copy);
    look(p, &s);
    expect(what, s.number, wanted);
    check(what, memcmp(&copy, p, sizeof copy) == 0);
    copy.limit = 1;
    settle(koralimbu_continue, &copy, &a);
    expect(what, s.number, a.number);
    check(what, wanted == KORALIMBU_ACCEPTED ? as_continued(p, &s, &a) : left_alone(p, &s));
}

/* Both calls and the preview return a number; with a refusal they leave what they were lent. The preview has no limit. */
static void both(const char *what, const struct posed *p, uint32_t wanted)
{
    static struct posed copy;
    static struct answer a;
    engine *calls[] = {koralimbu_assign, koralimbu_continue};
    size_t k;

    memcpy(&copy, p, sizeof copy);
    for (k = 0; k < 2; k++) {
        settle(calls[k], p, &a);
        expect(what, a.number, wanted);
        check(what, wanted == KORALIMBU_ACCEPTED ? behind_is_marked(p, a.tableau, a.strides) && rounds_fit(p, a.report[ROUNDS_PLACE])
                                                 : kept(p, &a));
        check(what, memcmp(&copy, p, sizeof copy) == 0);
    }
    previewed(what, p, wanted == KORALIMBU_REFUSED_LIMIT ? KORALIMBU_ACCEPTED : wanted);
}

/* With a refusal the report is 0, also after all rounds were made. */
static void assigned(const char *what, const struct posed *p, uint32_t wanted, uint32_t verdict)
{
    static const uint32_t nothing[KORALIMBU_REPORT_COUNT];
    static struct answer a;

    settle(koralimbu_assign, p, &a);
    expect(what, a.number, wanted);
    expect(what, a.report[0], verdict);
    check(what, wanted == KORALIMBU_ACCEPTED ? rounds_fit(p, a.report[ROUNDS_PLACE]) : memcmp(a.report, nothing, sizeof nothing) == 0);
}

static void continued(const char *what, const struct posed *p, uint32_t wanted)
{
    static struct answer a;

    settle(koralimbu_continue, p, &a);
    expect(what, a.number, wanted);
    previewed(what, p, wanted);
}

/* What a reader leaves with a refusal: as it was lent, but for the sizes. */
static int deck_kept(const struct deck *d)
{
    return all_are(d->coefficients, KORALIMBU_DECK_COEFFICIENTS, MARK) && all_are(d->rights, KORALIMBU_DECK_ROWS, MARK)
           && all_are(d->lower, KORALIMBU_DECK_COLUMNS, MARK) && all_are(d->upper, KORALIMBU_DECK_COLUMNS, MARK)
           && all_are(d->low, KORALIMBU_DECK_COLUMNS + 1, MARK) && all_are(d->high, KORALIMBU_DECK_COLUMNS + 1, MARK)
           && all_are(d->given, KORALIMBU_DECK_COLUMNS + 1, MARK) && all_are(d->ideals, KORALIMBU_DECK_COLUMNS + 1, MARK)
           && d->sizes[0] == 0 && d->sizes[1] == 0 && d->sizes[2] == 0;
}

static void reads(const char *what, const char *text, uint32_t wanted)
{
    static struct deck d;

    read_text((const uint8_t *)text, strlen(text), &d);
    expect(what, d.number, wanted);
    check(what, wanted == KORALIMBU_ACCEPTED || deck_kept(&d));
}

/* ---------------------------------------------------------------- null pointers */

enum { LOWER, UPPER, LOW, HIGH, GIVEN, IDEALS, TABLEAU, VALUES, STRIDES, REPORT, STANDING, TAKEN, COEFFICIENTS, RIGHTS, SIZES };

/* Null with a count of 0 at one place, and what is lent otherwise. */
#define LENT(place, pointer, count) none == (place) ? NULL : (pointer), none == (place) ? 0 : (size_t)(count)

/* One column without rows, so that the first two buffers have no numbers. */
static uint32_t without(engine *call, int none)
{
    int64_t lower = 3, upper = 5, low = 0, high = 0, given = 1, ideals = 4, tableau = 0, values = 4;
    uint64_t strides = 0;
    uint32_t report[KORALIMBU_REPORT_COUNT];

    return call(1, 0, LIMIT, NULL, 0, NULL, 0, LENT(LOWER, &lower, 1), LENT(UPPER, &upper, 1), LENT(LOW, &low, 1), LENT(HIGH, &high, 1),
                LENT(GIVEN, &given, 1), LENT(IDEALS, &ideals, 1), LENT(TABLEAU, &tableau, 1), LENT(VALUES, &values, 1), LENT(STRIDES, &strides, 1),
                LENT(REPORT, report, KORALIMBU_REPORT_COUNT));
}

static uint32_t preview_without(int none)
{
    int64_t lower = 3, upper = 5, low = 0, high = 0, given = 1, ideals = 4, standing = 4, tableau = 0, after = 0;
    uint64_t strides = 0;
    uint32_t report[KORALIMBU_PREVIEW_COUNT];

    return koralimbu_preview(1, 0, NULL, 0, NULL, 0, LENT(LOWER, &lower, 1), LENT(UPPER, &upper, 1), LENT(LOW, &low, 1),
                             LENT(HIGH, &high, 1), LENT(GIVEN, &given, 1), LENT(IDEALS, &ideals, 1), LENT(STANDING, &standing, 1),
                             LENT(TABLEAU, &tableau, 1), LENT(VALUES, &after, 1), LENT(STRIDES, &strides, 1),
                             LENT(REPORT, report, KORALIMBU_PREVIEW_COUNT));
}

static uint32_t read_without(int none)
{
    static struct deck d;

    return koralimbu_read((const uint8_t *)paving, sizeof paving - 1, LENT(COEFFICIENTS, d.coefficients, KORALIMBU_DECK_COEFFICIENTS),
                          LENT(RIGHTS, d.rights, KORALIMBU_DECK_ROWS), LENT(LOWER, d.lower, KORALIMBU_DECK_COLUMNS),
                          LENT(UPPER, d.upper, KORALIMBU_DECK_COLUMNS), LENT(LOW, d.low, KORALIMBU_DECK_COLUMNS),
                          LENT(HIGH, d.high, KORALIMBU_DECK_COLUMNS),
                          LENT(GIVEN, d.given, KORALIMBU_DECK_COLUMNS), LENT(IDEALS, d.ideals, KORALIMBU_DECK_COLUMNS),
                          LENT(SIZES, d.sizes, KORALIMBU_SIZES_COUNT));
}

/* Every buffer null but the report, and that too. */
static void all_null(engine *call)
{
    uint32_t report[KORALIMBU_REPORT_COUNT];

    expect("no column and every buffer null",
           call(0, 0, 0, NULL, 0, NULL, 0, NULL, 0, NULL, 0, NULL, 0, NULL, 0, NULL, 0, NULL, 0, NULL, 0, NULL, 0, NULL, 0,
                report, KORALIMBU_REPORT_COUNT),
           KORALIMBU_REFUSED_SIZE);
    expect("a column and every buffer null",
           call(1, 0, 0, NULL, 0, NULL, 0, NULL, 0, NULL, 0, NULL, 0, NULL, 0, NULL, 0, NULL, 0, NULL, 0, NULL, 0, NULL, 0,
                report, KORALIMBU_REPORT_COUNT),
           KORALIMBU_REFUSED_LENGTH);
    expect("every buffer null, the report too",
           call(1, 0, 0, NULL, 0, NULL, 0, NULL, 0, NULL, 0, NULL, 0, NULL, 0, NULL, 0, NULL, 0, NULL, 0, NULL, 0, NULL, 0, NULL, 0),
           KORALIMBU_REFUSED_LENGTH);
}

static void preview_all_null(void)
{
    uint32_t report[KORALIMBU_PREVIEW_COUNT];

    expect("a preview of no column and every buffer null",
           koralimbu_preview(0, 0, NULL, 0, NULL, 0, NULL, 0, NULL, 0, NULL, 0, NULL, 0, NULL, 0, NULL, 0, NULL, 0,
                             NULL, 0, NULL, 0, NULL, 0, report, KORALIMBU_PREVIEW_COUNT), KORALIMBU_REFUSED_SIZE);
    expect("a preview of a column and every buffer null",
           koralimbu_preview(1, 0, NULL, 0, NULL, 0, NULL, 0, NULL, 0, NULL, 0, NULL, 0, NULL, 0, NULL, 0, NULL, 0,
                             NULL, 0, NULL, 0, NULL, 0, report, KORALIMBU_PREVIEW_COUNT), KORALIMBU_REFUSED_LENGTH);
    expect("a preview with every buffer null, the report too",
           koralimbu_preview(0, 0, NULL, 0, NULL, 0, NULL, 0, NULL, 0, NULL, 0, NULL, 0, NULL, 0, NULL, 0, NULL, 0,
                             NULL, 0, NULL, 0, NULL, 0, NULL, 0),
           KORALIMBU_REFUSED_LENGTH);
}

static void try_null_pointers(void)
{
    static const int lent[] = {COEFFICIENTS, RIGHTS, LOWER, UPPER, LOW, HIGH, GIVEN, IDEALS, SIZES};
    static struct deck d;
    engine *calls[] = {koralimbu_assign, koralimbu_continue};
    size_t k;
    int none;

    for (k = 0; k < 2; k++) {
        expect("null rows of no row", without(calls[k], TAKEN), KORALIMBU_ACCEPTED);
        for (none = LOWER; none <= REPORT; none++)
            expect("a null buffer of a column", without(calls[k], none), KORALIMBU_REFUSED_LENGTH);
        all_null(calls[k]);
    }
    expect("null rows of no row in a preview", preview_without(TAKEN), KORALIMBU_ACCEPTED);
    for (none = LOWER; none <= STANDING; none++)
        expect("a null buffer of a preview", preview_without(none), KORALIMBU_REFUSED_LENGTH);
    preview_all_null();
    expect("a deck's buffers", read_without(TAKEN), KORALIMBU_ACCEPTED);
    for (k = 0; k < sizeof lent / sizeof *lent; k++)
        expect("a null buffer of a deck", read_without(lent[k]), KORALIMBU_REFUSED_LENGTH);
    read_text(NULL, 0, &d);
    expect("a null text", d.number, KORALIMBU_REFUSED_LAYOUT);
    expect("a deck's buffers all null",
           koralimbu_read(NULL, 0, NULL, 0, NULL, 0, NULL, 0, NULL, 0, NULL, 0, NULL, 0, NULL, 0, NULL, 0, NULL, 0),
           KORALIMBU_REFUSED_LENGTH);
}

/* ---------------------------------------------------------------- a problem's limits */

static void try_sizes(void)
{
    static struct posed p;

    pose(&p, KORALIMBU_MOST_COLUMNS, KORALIMBU_MOST_ROWS);
    both("the most columns and rows", &p, KORALIMBU_ACCEPTED);
    pose(&p, KORALIMBU_MOST_COLUMNS + 1, 0);
    both("a column too many", &p, KORALIMBU_REFUSED_SIZE);
    pose(&p, 1, KORALIMBU_MOST_ROWS + 1);
    both("a row too many", &p, KORALIMBU_REFUSED_SIZE);
    pose(&p, 1, 0);
    p.limit = KORALIMBU_MOST_STEPS;
    both("the most steps", &p, KORALIMBU_ACCEPTED);
    p.limit++;
    both("a step too many", &p, KORALIMBU_REFUSED_LIMIT);
}

/* A number that is taken up to a range, of either sign. */
static void try_range(const char *what, struct posed *p, int64_t *number, int64_t range, uint32_t refusal)
{
    *number = range;
    both(what, p, KORALIMBU_ACCEPTED);
    *number = -range;
    both(what, p, KORALIMBU_ACCEPTED);
    *number = range + 1;
    both(what, p, refusal);
    *number = -range - 1;
    both(what, p, refusal);
}

static void try_ranges(void)
{
    static struct posed p;
    int sign;

    pose(&p, 1, 1);
    try_range("a coefficient", &p, p.coefficients, KORALIMBU_RANGE_COEFFICIENT, KORALIMBU_REFUSED_COEFFICIENT);
    for (sign = -1; sign <= 1; sign += 2) {
        pose(&p, 1, 1);
        p.coefficients[0] = 1;
        p.rights[0] = p.start[0] = sign * KORALIMBU_RANGE_RIGHT;
        both("a right side", &p, KORALIMBU_ACCEPTED);
        p.rights[0] += sign;
        both("a right side beyond", &p, KORALIMBU_REFUSED_COEFFICIENT);
    }
    pose(&p, 2, 0);
    p.lower[0] = -KORALIMBU_RANGE_BOUND;
    try_range("an upper bound", &p, p.upper, KORALIMBU_RANGE_BOUND, KORALIMBU_REFUSED_BOUND);
    p.upper[0] = KORALIMBU_RANGE_BOUND;
    try_range("a lower bound", &p, p.lower, KORALIMBU_RANGE_BOUND, KORALIMBU_REFUSED_BOUND);
}

/* 1000 v(k) = v(k + 1). */
static void pose_chain(struct posed *p, size_t n)
{
    size_t k;

    pose(p, n, n - 1);
    for (k = 0; k < n - 1; k++) {
        p->coefficients[k * n + k] = KORALIMBU_RANGE_COEFFICIENT;
        p->coefficients[k * n + k + 1] = -1;
    }
}

/* What M bounds: the elimination, seating, and the list that Continue is lent. */
static void try_m(void)
{
    static struct posed p;
    size_t j;

    pose_chain(&p, 4);
    both("an elimination within M", &p, KORALIMBU_ACCEPTED);
    pose_chain(&p, 5);
    both("an elimination beyond M", &p, KORALIMBU_REFUSED_ELIMINATION);
    pose_chain(&p, 3);
    for (j = 0; j < 3; j++) {
        p.lower[j] = 1;
        p.upper[j] = KORALIMBU_RANGE_BOUND;
    }
    want(&p, 0, KORALIMBU_RANGE_GOAL, KORALIMBU_RANGE_GOAL);
    assigned("seating beyond M", &p, KORALIMBU_REFUSED_SEATING, 0);
    pose(&p, 1, 0);
    p.limit = 0;
    p.start[0] = KORALIMBU_M;
    continued("a list at M", &p, KORALIMBU_ACCEPTED);
    p.start[0]++;
    continued("a list beyond M", &p, KORALIMBU_REFUSED_STANDING);
    p.start[0] = -KORALIMBU_M;
    continued("a list at -M", &p, KORALIMBU_ACCEPTED);
    p.start[0]--;
    continued("a list beyond -M", &p, KORALIMBU_REFUSED_STANDING);
}

static void try_verdicts(void)
{
    static struct posed p;

    pose(&p, 2, 1);
    p.coefficients[0] = 1;
    p.coefficients[1] = -1;
    p.lower[1] = 5;
    assigned("v1 = v2", &p, KORALIMBU_ACCEPTED, KORALIMBU_FITTED);
    p.limit = 3;
    assigned("v1 = v2 in three steps", &p, KORALIMBU_ACCEPTED, KORALIMBU_SPENT);
    p.limit = LIMIT;
    p.upper[0] = 1;
    assigned("v1 = v2 without a common value", &p, KORALIMBU_ACCEPTED, KORALIMBU_OUTSIDE);
    pose(&p, 1, 1);
    p.coefficients[0] = 2;
    p.rights[0] = 1;
    assigned("2 v = 1", &p, KORALIMBU_REFUSED_NONE, 0);
}

/* A report of another count is not written. */
static void try_report(void)
{
    int64_t lower = 3, upper = 5, goals = 0, given = 0, ideals = 0, tableau = 0, values = 4;
    uint64_t strides = 0;
    uint32_t report[KORALIMBU_REPORT_COUNT + 1];
    size_t count, k;

    for (k = 0; k <= KORALIMBU_REPORT_COUNT; k++)
        report[k] = MARK;
    for (count = KORALIMBU_REPORT_COUNT - 1; count <= KORALIMBU_REPORT_COUNT + 1; count += 2) {
        expect("a report of another count", koralimbu_assign(1, 0, LIMIT, NULL, 0, NULL, 0, &lower, 1, &upper, 1, &goals, 1,
               &goals, 1, &given, 1, &ideals, 1, &tableau, 1, &values, 1, &strides, 1, report, count), KORALIMBU_REFUSED_LENGTH);
        for (k = 0; k <= KORALIMBU_REPORT_COUNT && report[k] == MARK; k++)
            ;
        check("what such a report is left as", k == KORALIMBU_REPORT_COUNT + 1);
    }
}

/* ---------------------------------------------------------------- rounds */

/* A row of some numbers that adds up to 0. */
static void pose_row(struct posed *p, const int64_t *row, size_t n)
{
    pose(p, n, 1);
    memcpy(p->coefficients, row, n * sizeof *row);
}

/* The rounds of a row alone: those of its own column, and one or two for each of the others. The last two differ by a half that goes up. */
static void try_rounds(void)
{
    static const struct {
        size_t n;
        int64_t row[3];
        uint32_t rounds;
    } rows[] = {{1, {0}, 1}, {1, {2}, 1}, {2, {0, 0}, 2}, {2, {1, -1}, 2}, {2, {3, -2}, 3}, {2, {5, 12}, 4}, {2, {12, 29}, 5},
                {2, {987, 610}, 9}, {3, {1, 1, 1}, 3}, {3, {4, 5, 6}, 5}, {3, {4, 5, -6}, 4}};
    static struct posed p;
    static struct answer a;
    static struct seen s;
    size_t k;

    for (k = 0; k < sizeof rows / sizeof *rows; k++) {
        pose_row(&p, rows[k].row, rows[k].n);
        settle(koralimbu_assign, &p, &a);
        expect("rounds of a whole assignment", a.report[ROUNDS_PLACE], rows[k].rounds);
        settle(koralimbu_continue, &p, &a);
        expect("rounds of Continue", a.report[ROUNDS_PLACE], rows[k].rounds);
        look(&p, &s);
        expect("rounds of a preview", s.report[STEP_COUNT], rows[k].rounds);
        both("a row and its rounds", &p, KORALIMBU_ACCEPTED);
    }
}

/* A progress bar over four problems, of which 2 v = 1 is refused: its end falls from call to call, and what is done reaches it. */
static void try_progress(void)
{
    static const int64_t rows[][2] = {{987, 610}, {1, -1}, {2, 0}, {3, -2}};
    static struct posed problem[4];
    static struct answer a;
    size_t k, done = 0, end = 0, before, count = sizeof rows / sizeof *rows;

    for (k = 0; k < count; k++) {
        pose_row(&problem[k], rows[k], 2);
        end += KORALIMBU_ROUNDS_PER_COLUMN * problem[k].n;
    }
    problem[2].rights[0] = 1;
    for (k = 0; k < count; k++) {
        settle(koralimbu_assign, &problem[k], &a);
        expect("a problem of the bar", a.number, k == 2 ? KORALIMBU_REFUSED_NONE : KORALIMBU_ACCEPTED);
        before = end;
        done += a.report[ROUNDS_PLACE];
        end -= KORALIMBU_ROUNDS_PER_COLUMN * problem[k].n - a.report[ROUNDS_PLACE];
        check("a bar", done <= end && end <= before);
    }
    check("a bar at its end", done == 9 + 2 + 3 && end == done);
}

/* ---------------------------------------------------------------- the preview */

/* The step of a list, by the numbers of its report; the list after it is p's own next time. */
static void steps(const char *what, struct posed *p, uint32_t part, uint32_t column, uint32_t s, uint32_t s_sign, uint32_t t, uint32_t t_sign)
{
    static struct seen seen;
    uint32_t wanted[STEP_COUNT];

    wanted[0] = part;
    wanted[1] = column;
    wanted[2] = s;
    wanted[3] = s_sign;
    wanted[4] = t;
    wanted[5] = t_sign;
    previewed(what, p, KORALIMBU_ACCEPTED);
    look(p, &seen);
    check(what, memcmp(seen.report, wanted, sizeof wanted) == 0);
    memcpy(p->start, seen.after, p->n * sizeof *p->start);
}

/* v1 = v2, bounds 1..10 and 3..10, goals of 4 intervals: towards the bounds, then towards the goals, then at rest. */
static void try_a_run(void)
{
    static struct posed p;
    size_t j;

    pose(&p, 2, 1);
    p.coefficients[0] = 1;
    p.coefficients[1] = -1;
    for (j = 0; j < 2; j++) {
        p.lower[j] = 1 + 2 * (int64_t)j;
        want(&p, j, 4000, 4000);
        p.start[j] = 1;
    }
    steps("a step towards the bounds", &p, KORALIMBU_PART_BOUNDS, 2, 1, KORALIMBU_SIGN_PLUS, 0, 0);
    check("the list after it", p.start[0] == 2 && p.start[1] == 2);
    steps("the last step towards the bounds", &p, KORALIMBU_PART_BOUNDS, 2, 1, KORALIMBU_SIGN_PLUS, 0, 0);
    steps("a step towards the goals", &p, KORALIMBU_PART_GOALS, 1, 1, KORALIMBU_SIGN_PLUS, 0, 0);
    check("the list after it", p.start[0] == 4 && p.start[1] == 4);
    steps("no step", &p, KORALIMBU_PART_NONE, 0, 0, 0, 0, 0);
    check("the list where no move improves", p.start[0] == 4 && p.start[1] == 4);
    p.start[1] = 5;
    previewed("a list that fails a row", &p, KORALIMBU_REFUSED_STANDING);
}

/* v1 + v2 = v3 with v3 held at 5: a vector alone moves v3, so that a pair lifts v1 to its lower bound. */
static void try_a_pair(void)
{
    static struct posed p;
    static struct seen s;

    pose(&p, 3, 1);
    p.coefficients[0] = p.coefficients[1] = 1;
    p.coefficients[2] = -1;
    p.lower[0] = 1;
    p.lower[2] = p.upper[2] = p.start[1] = p.start[2] = 5;
    look(&p, &s);
    /* The rows of the form whose first number is 0 are the vectors (1, 0, 1) and (0, 1, 1). */
    check("a row of the form that is no vector", s.tableau[0] != 0);
    check("the first vector", s.tableau[4] == 0 && s.tableau[5] == 1 && s.tableau[6] == 0 && s.tableau[7] == 1);
    check("the second vector", s.tableau[8] == 0 && s.tableau[9] == 0 && s.tableau[10] == 1 && s.tableau[11] == 1);
    steps("a step by a pair", &p, KORALIMBU_PART_BOUNDS, 1, 1, KORALIMBU_SIGN_PLUS, 2, KORALIMBU_SIGN_MINUS);
    check("the list after a pair", p.start[0] == 1 && p.start[1] == 4 && p.start[2] == 5);
    steps("no step after a pair", &p, KORALIMBU_PART_NONE, 0, 0, 0, 0, 0);
}

/* Counts that are not a preview's. A report of another count is not written. */
static void try_preview_counts(void)
{
    int64_t lower = 3, upper = 5, goals = 0, given = 0, ideals = 0, standing[2] = {1, 1}, tableau = MARK, after[2] = {MARK, MARK};
    uint64_t strides = MARK;
    uint32_t report[KORALIMBU_PREVIEW_COUNT + 1];
    size_t counts[][3] = {{2, 1, KORALIMBU_PREVIEW_COUNT}, {0, 1, KORALIMBU_PREVIEW_COUNT}, {1, 2, KORALIMBU_PREVIEW_COUNT},
                          {1, 0, KORALIMBU_PREVIEW_COUNT}, {1, 1, KORALIMBU_PREVIEW_COUNT - 1}, {1, 1, KORALIMBU_PREVIEW_COUNT + 1},
                          {1, 1, KORALIMBU_REPORT_COUNT}, {1, 1, 0}};
    size_t k, j;

    for (k = 0; k < sizeof counts / sizeof *counts; k++) {
        uint32_t left = counts[k][2] == KORALIMBU_PREVIEW_COUNT ? 0 : MARK;

        for (j = 0; j <= KORALIMBU_PREVIEW_COUNT; j++)
            report[j] = MARK;
        expect("a preview's other count", koralimbu_preview(1, 0, NULL, 0, NULL, 0, &lower, 1, &upper, 1, &goals, 1,
               &goals, 1, &given, 1, &ideals, 1, standing, counts[k][0], &tableau, 1, after, counts[k][1], &strides, 1, report, counts[k][2]),
               KORALIMBU_REFUSED_LENGTH);
        check("the lists at such a count", tableau == MARK && all_are(after, 2, MARK) && strides == MARK && all_are(standing, 2, 1));
        for (j = 0; j < KORALIMBU_PREVIEW_COUNT && report[j] == left; j++)
            ;
        check("the report at such a count", j == KORALIMBU_PREVIEW_COUNT && report[j] == MARK);
    }
    /* The report comes first: there is no column either. */
    expect("a report of another count and no column", koralimbu_preview(0, 0, NULL, 0, NULL, 0, NULL, 0, NULL, 0, NULL, 0, NULL, 0, NULL, 0,
           NULL, 0, NULL, 0, NULL, 0, NULL, 0, NULL, 0, report, 1), KORALIMBU_REFUSED_LENGTH);
}

/* A whole assignment seats the columns at these values, where no step improves them. It only reads the problem. */
static void seats(const char *what, const struct posed *p, const int64_t *values)
{
    static const uint32_t at_rest[ROUNDS_PLACE] = {KORALIMBU_FITTED};
    static struct posed copy;
    static struct answer a;

    memcpy(&copy, p, sizeof copy);
    settle(koralimbu_assign, p, &a);
    expect(what, a.number, KORALIMBU_ACCEPTED);
    check(what, memcmp(a.report, at_rest, sizeof at_rest) == 0 && rounds_fit(p, a.report[ROUNDS_PLACE])
                    && behind_is_marked(p, a.tableau, a.strides));
    check(what, memcmp(a.values, values, p->n * sizeof *values) == 0);
    check(what, memcmp(&copy, p, sizeof copy) == 0);
}

/* ---------------------------------------------------------------- goals */

/* A column in wide bounds is seated at the ideal of its goals: by the root of their product, and at k(k + 1) from k to k + 1. */
static void try_goal_ideals(void)
{
    static const int64_t pairs[][3] = {{4000, 9000, 6}, {9000, 24000, 15}, {1000, 2000, 1}, {1000, 2001, 2}, {2000, 3000, 2}, {2000, 3001, 3},
                                       {1, 1, 1}, {1, 999999, 1}, {1, KORALIMBU_RANGE_GOAL, 32}, {400, 400, 1}, {1414, 1414, 1}, {1415, 1415, 2},
                                       {KORALIMBU_RANGE_GOAL, KORALIMBU_RANGE_GOAL, KORALIMBU_RANGE_BOUND}};
    static struct posed p;
    size_t k;

    pose(&p, 1, 0);
    p.lower[0] = 1;
    p.upper[0] = KORALIMBU_RANGE_BOUND;
    for (k = 0; k < sizeof pairs / sizeof *pairs; k++) {
        want(&p, 0, pairs[k][0], pairs[k][1]);
        seats("the ideal of two goals", &p, &pairs[k][2]);
    }
}

/* A column that wants 4 to 9 comes to 6, by a step for each interval; tied to another one it comes between what both want. */
static void try_goal_ratios(void)
{
    static const int64_t lone[][2] = {{4, 2}, {9, 3}, {6, 0}, {1, 5}}, tied[][3] = {{8000, 6, 0}, {12000, 7, 1}, {3000, 5, 1}, {30000, 11, 5}};
    static struct posed p;
    static struct answer a;
    size_t k;

    pose(&p, 1, 0);
    p.lower[0] = 1;
    want(&p, 0, 4000, 9000);
    for (k = 0; k < 4; k++) {
        p.start[0] = lone[k][0];
        settle(koralimbu_continue, &p, &a);
        check("a column between its goals", a.values[0] == 6 && a.report[0] == KORALIMBU_FITTED && a.report[2] == (uint32_t)lone[k][1]);
        previewed("a column between its goals", &p, KORALIMBU_ACCEPTED);
    }
    pose(&p, 2, 1);
    p.coefficients[0] = 1;
    p.coefficients[1] = -1;
    fill(p.lower, 2, 1);
    fill(p.upper, 2, 99);
    want(&p, 0, 4000, 9000);
    for (k = 0; k < 4; k++) {
        want(&p, 1, tied[k][0], tied[k][0]);
        settle(koralimbu_assign, &p, &a);
        check("two columns between their goals", all_are(a.values, 2, tied[k][1]) && a.report[2] == (uint32_t)tied[k][2]);
    }
}

/* Pairs of goals at a lower bound, and whether they are taken. */
static void try_goal_pairs(void)
{
    enum { MOST = KORALIMBU_RANGE_GOAL };
    static const int64_t taken[][3] = {{1, 0, 0}, {0, 0, 0}, {-3, 0, 0}, {1, 1, 1}, {1, 1, MOST}, {1, MOST, MOST}, {10, 4000, 9000}};
    static const int64_t refused[][3] = {{1, -1, -1}, {1, -1, 0}, {1, 0, -1}, {1, 1, -1}, {1, 1, MOST + 1}, {1, MOST + 1, MOST + 1},
                                         {1, INT64_MIN, INT64_MAX}, {1, 0, 1}, {1, 1, 0}, {1, 0, MOST}, {1, MOST, 0}, {0, 0, 1},
                                         {1, 2, 1}, {1, MOST, MOST - 1}, {1, INT64_MAX, 1}, {0, 1, 1}, {0, 1, 2}, {-3, 4000, 9000}};
    static struct posed p;
    size_t k, j;

    pose(&p, 2, 0);
    for (j = 0; j < 2; j++) {
        for (k = 0; k < sizeof taken / sizeof *taken; k++) {
            p.lower[j] = taken[k][0];
            want(&p, j, taken[k][1], taken[k][2]);
            both("a pair of goals", &p, KORALIMBU_ACCEPTED);
        }
        for (k = 0; k < sizeof refused / sizeof *refused; k++) {
            p.lower[j] = refused[k][0];
            want(&p, j, refused[k][1], refused[k][2]);
            both("a pair of goals that breaks the rule", &p, KORALIMBU_REFUSED_GOAL);
        }
        want(&p, j, 0, 0);
    }
}

/* ---------------------------------------------------------------- ideals */

/* Three columns with bounds 3 and 7: one without an ideal, whatever its number, one with this mark and number, and one whose goal is 5. */
static void try_ideal(int64_t given, int64_t ideal, int64_t wanted)
{
    static struct posed p;
    int64_t values[3] = {3, wanted, 5};

    pose(&p, 3, 0);
    fill(p.lower, 3, 3);
    fill(p.upper, 3, 7);
    want(&p, 2, 5000, 5000);
    p.given[1] = p.given[2] = given;
    fill(p.ideals, 3, ideal);
    seats("an ideal", &p, values);
}

static void try_ideals(void)
{
    static const int64_t marks[] = {1, -1, 2, MARK, INT64_MIN, INT64_MAX};
    static const int64_t ideals[][2] = {{INT64_MIN, 3}, {INT64_MIN + 1, 3}, {-1, 3}, {0, 3}, {2, 3}, {3, 3}, {4, 4}, {6, 6}, {7, 7},
                                        {8, 7}, {KORALIMBU_M, 7}, {INT64_MAX - 1, 7}, {INT64_MAX, 7}};
    size_t k, j;

    for (k = 0; k < sizeof ideals / sizeof *ideals; k++) {
        for (j = 0; j < sizeof marks / sizeof *marks; j++)
            try_ideal(marks[j], ideals[k][0], ideals[k][1]);
        try_ideal(0, ideals[k][0], 3);
    }
}

/* v1 + v2 = 2 v3, where v1 wants 5 and so leaves 5 for v2: without an ideal it stays there, and is not pulled to 0. */
static void try_no_ideal(void)
{
    static struct posed p;
    static const int64_t stays[] = {5, 5, 5}, pulled[] = {5, 1, 3};

    pose(&p, 3, 1);
    p.coefficients[0] = p.coefficients[1] = 1;
    p.coefficients[2] = -2;
    p.lower[0] = 1;
    want(&p, 0, 5000, 5000);
    seats("no ideal", &p, stays);
    p.ideals[1] = INT64_MIN;
    seats("no ideal, whatever its number", &p, stays);
    p.given[1] = 1;
    p.ideals[1] = 0;
    seats("the ideal 0", &p, pulled);
}

/* An ideal within its bounds can pull another column beyond M. */
static void try_far_ideal(void)
{
    static struct posed p;

    pose_chain(&p, 3);
    fill(p.upper, 3, KORALIMBU_RANGE_BOUND);
    assigned("no ideal", &p, KORALIMBU_ACCEPTED, KORALIMBU_FITTED);
    p.given[0] = 1;
    p.ideals[0] = INT64_MAX;
    assigned("an ideal that pulls beyond M", &p, KORALIMBU_REFUSED_SEATING, 0);
    continued("Continue with such an ideal", &p, KORALIMBU_ACCEPTED);
}

/* Continue and the preview leave what they leave without ideals. */
static void try_unused_ideals(void)
{
    static const int64_t numbers[] = {0, 1, MARK, INT64_MIN, INT64_MAX};
    static struct posed p;
    static struct answer plain, with;
    static struct seen plain_seen, with_seen;
    size_t k;

    pose(&p, 2, 1);
    p.coefficients[0] = 1;
    p.coefficients[1] = -1;
    p.lower[0] = 1;
    want(&p, 0, 8000, 8000);
    p.lower[1] = 5;
    p.start[0] = p.start[1] = 2;
    settle(koralimbu_continue, &p, &plain);
    look(&p, &plain_seen);
    check("steps without ideals", plain.report[1] == 3 && plain.report[2] == 3 && plain_seen.report[0] == KORALIMBU_PART_BOUNDS);
    for (k = 0; k < 25; k++) {
        fill(p.given, 2, numbers[k / 5]);
        fill(p.ideals, 2, numbers[k % 5]);
        settle(koralimbu_continue, &p, &with);
        check("Continue with ideals", memcmp(&with, &plain, sizeof with) == 0);
        look(&p, &with_seen);
        check("a preview with ideals", memcmp(&with_seen, &plain_seen, sizeof with_seen) == 0);
        previewed("a preview with ideals", &p, KORALIMBU_ACCEPTED);
    }
}

/* All three calls refuse so many numbers of low, high, given and ideals, and leave what they were lent. */
static void counted(const char *what, const struct posed *p, const size_t counts[LISTS], uint32_t wanted)
{
    static struct posed copy;
    static struct answer a;
    static struct seen s;
    engine *calls[] = {koralimbu_assign, koralimbu_continue};
    size_t k;

    memcpy(&copy, p, sizeof copy);
    for (k = 0; k < 2; k++) {
        settle_with(calls[k], p, &a, counts);
        expect(what, a.number, wanted);
        check(what, kept(p, &a));
    }
    look_with(p, &s, counts);
    expect(what, s.number, wanted);
    check(what, left_alone(p, &s));
    check(what, memcmp(&copy, p, sizeof copy) == 0);
}

/* Of each list none, one less, one more and the most, where n are needed: alone, and beside a wrong count of another, as one less beside one more. */
static void miscounted(const char *what, const struct posed *p, uint32_t wanted)
{
    size_t wrong[] = {0, p->n == 0 ? 1 : p->n - 1, p->n < COLUMNS ? p->n + 1 : 1, COLUMNS}, one, other, k;

    for (one = 0; one < LISTS; one++)
        for (other = 0; other < LISTS; other++)
            for (k = 0; k < 4; k++) {
                size_t counts[LISTS] = {p->n, p->n, p->n, p->n};

                counts[other] = wrong[(k + 1) % 4];
                counts[one] = wrong[k];
                if (wrong[k] != p->n)
                    counted(what, p, counts, wanted);
            }
}

/* A wrong count of goals or ideals beside what else can be wrong: sizes are told before it, everything else after it. */
static void try_list_counts(void)
{
    static struct posed p;

    pose(&p, 2, 1);
    p.coefficients[0] = 1;
    p.coefficients[1] = -1;
    fill(p.given, COLUMNS, INT64_MIN);
    fill(p.ideals, COLUMNS, INT64_MAX);
    both("counts of goals and ideals", &p, KORALIMBU_ACCEPTED);
    miscounted("a wrong count of goals or ideals", &p, KORALIMBU_REFUSED_LENGTH);
    p.start[1] = 1;
    miscounted("a wrong count before a list that fails a row", &p, KORALIMBU_REFUSED_LENGTH);
    p.limit = KORALIMBU_MOST_STEPS + 1;
    miscounted("a wrong count before a limit", &p, KORALIMBU_REFUSED_LENGTH);
    want(&p, 1, -1, -1);
    miscounted("a wrong count before a goal", &p, KORALIMBU_REFUSED_LENGTH);
    p.lower[0] = 11;
    miscounted("a wrong count before a bound", &p, KORALIMBU_REFUSED_LENGTH);
    p.coefficients[0] = KORALIMBU_RANGE_COEFFICIENT + 1;
    miscounted("a wrong count before a coefficient", &p, KORALIMBU_REFUSED_LENGTH);
    p.n = 0;
    miscounted("no column before a wrong count", &p, KORALIMBU_REFUSED_SIZE);
    p.n = KORALIMBU_MOST_COLUMNS + 1;
    miscounted("a column too many before a wrong count", &p, KORALIMBU_REFUSED_SIZE);
    p.n = 2;
    p.m = KORALIMBU_MOST_ROWS + 1;
    miscounted("a row too many before a wrong count", &p, KORALIMBU_REFUSED_SIZE);
    pose_chain(&p, 5);
    miscounted("a wrong count before an elimination beyond M", &p, KORALIMBU_REFUSED_LENGTH);
    pose(&p, KORALIMBU_MOST_COLUMNS, 0);
    miscounted("a wrong count of the most columns", &p, KORALIMBU_REFUSED_LENGTH);
}

/* ---------------------------------------------------------------- the reader's goals */

/* The number that is refused stands behind these words. What follows it is not looked at, and what stands in its place is. */
static void refuses_at(const char *what, const char *before, const char *number, uint32_t wanted)
{
    static char text[TEXT + 1];

    sprintf(text, "%s %s", before, number);
    reads(what, text, wanted);
    sprintf(text, "%s\n%s x", before, number);
    reads(what, text, wanted);
    sprintf(text, "%s x %s", before, number);
    reads(what, text, KORALIMBU_REFUSED_LAYOUT);
    reads(what, before, KORALIMBU_REFUSED_LAYOUT);
}

static void try_deck_goal_places(void)
{
    static const char *const outside[] = {"-1", "1000000001", "9999999999", "-9999999999"};
    static const char *const set[] = {"1", "4000", "1000000000"}, *const less[] = {"0", "1", "3999"};
    size_t k;

    for (k = 0; k < 4; k++) {
        refuses_at("a low goal outside", "1 1 9", outside[k], KORALIMBU_REFUSED_GOAL);
        refuses_at("a later low goal outside", "2 1 9 4000 9000 0 9", outside[k], KORALIMBU_REFUSED_GOAL);
        refuses_at("a high goal outside", "1 1 9 4000", outside[k], KORALIMBU_REFUSED_GOAL);
        refuses_at("a high goal outside, alone", "1 1 9 0", outside[k], KORALIMBU_REFUSED_GOAL);
    }
    for (k = 0; k < 3; k++) {
        refuses_at("a low goal with the lower bound 0", "1 0 9", set[k], KORALIMBU_REFUSED_GOAL);
        refuses_at("a low goal with a lower bound below 0", "1 -3 9", set[k], KORALIMBU_REFUSED_GOAL);
        refuses_at("a high goal alone", "1 1 9 0", set[k], KORALIMBU_REFUSED_GOAL);
        refuses_at("a high goal alone, with the lower bound 0", "1 0 9 0", set[k], KORALIMBU_REFUSED_GOAL);
        refuses_at("a high goal below the low one", "1 1 9 4000", less[k], KORALIMBU_REFUSED_GOAL);
        refuses_at("a later high goal below the low one", "2 1 9 0 0 1 9 4000", less[k], KORALIMBU_REFUSED_GOAL);
    }
    reads("an older line with a goal", "2 1 9 3000 1 9 3000 0 0", KORALIMBU_REFUSED_GOAL);
    reads("an older line without one", "1 1 9 0 0 0", KORALIMBU_REFUSED_LAYOUT);
}

/* The goals of a deck of four curves and a column that a row added. */
static void try_deck_goals(void)
{
    static const char text[] = "4 1 9 4000 9000 0 9 0 0 1 9 1 1000000000 2 9 7000 7000 1 1 0 1 1 1 0";
    static const int64_t low[] = {4000, 0, 1, 7000}, high[] = {9000, 0, 1000000000, 7000};
    static struct deck d;

    read_text((const uint8_t *)text, sizeof text - 1, &d);
    expect("a deck with two goals", d.number, KORALIMBU_ACCEPTED);
    check("its low goals", memcmp(d.low, low, sizeof low) == 0 && all_are(d.low + 4, KORALIMBU_DECK_COLUMNS - 4, 0));
    check("its high goals", memcmp(d.high, high, sizeof high) == 0 && all_are(d.high + 4, KORALIMBU_DECK_COLUMNS - 4, 0));
    check("what lies behind them", d.low[KORALIMBU_DECK_COLUMNS] == MARK && d.high[KORALIMBU_DECK_COLUMNS] == MARK);
}

/* ---------------------------------------------------------------- the reader's ideals */

/* The first ideals of a deck, unset where they are 0; behind them there are none, and what lies behind the lists is as it was. */
static void reads_ideals(const char *what, const char *text, size_t n, const int64_t *ideals)
{
    static struct deck d;
    size_t j, rest = KORALIMBU_DECK_COLUMNS - n;

    read_text((const uint8_t *)text, strlen(text), &d);
    expect(what, d.number, KORALIMBU_ACCEPTED);
    check(what, d.sizes[0] == n);
    for (j = 0; j < n && d.given[j] == (ideals[j] != 0) && d.ideals[j] == ideals[j]; j++)
        ;
    check(what, j == n && all_are(d.given + n, rest, 0) && all_are(d.ideals + n, rest, 0));
    check(what, d.given[KORALIMBU_DECK_COLUMNS] == MARK && d.ideals[KORALIMBU_DECK_COLUMNS] == MARK);
}

/* Curve 1 is plain. It shares two rows with curve 2 and one with curve 3; with curve 4 it shares none. */
static void try_deck_ideals(void)
{
    static const int64_t beside[] = {6, 0, 0, 0}, added[] = {6, 0, 0, 0, 0, 0}, none[6];

    reads_ideals("the mean of 4 and 9, each counted once",
                 "4 1 99 0 0 1 99 4000 4000 1 99 9000 9000 1 99 80000 80000 2 0 0 2 1 1 2 -1 0 0 3 1 1 2 1 3 -1 0", 4, beside);
    reads_ideals("no ideal of an added column",
                 "4 1 99 0 0 1 99 4000 4000 1 99 9000 9000 1 99 80000 80000 2 1 0 2 1 5 2 -1 3 0 3 1 1 2 1 3 -1 0", 6, added);
    reads_ideals("the bounds of neighbours",
                 "4 -3 -2 0 0 1 3 4000 4000 9 9 1000 1000 1 99 80000 80000 1 0 0 3 1 1 2 1 3 -1 0", 4, beside);
    reads_ideals("the ideal of two goals, and the mean of 4 and 8",
                 "4 1 99 0 0 1 99 4000 4000 1 99 4000 16000 1 99 80000 80000 1 0 0 3 1 1 2 1 3 -1 0", 4, beside);
    reads_ideals("no row", "2 1 99 0 0 1 99 4000 4000 0 0", 2, none);
    reads_ideals("a row alone", "2 1 99 0 0 1 99 4000 4000 1 3 0 1 1 1 0", 3, none);
    reads_ideals("no plain curve", "2 1 99 3000 3000 1 99 4000 4000 1 3 0 2 1 1 2 1 0", 3, none);
    reads_ideals("none but plain curves", "2 1 99 0 0 1 99 0 0 1 3 0 2 1 1 2 1 0", 3, none);
}

/* A plain curve beside all others of the largest deck, each of which wants the most. */
static void try_most_neighbours(void)
{
    static char text[TEXT + 1];
    static int64_t most[KORALIMBU_DECK_COLUMNS] = {KORALIMBU_RANGE_BOUND};
    size_t k, end;

    end = (size_t)sprintf(text, "%d -5 5 0 0 ", KORALIMBU_DECK_COLUMNS);
    for (k = 1; k < KORALIMBU_DECK_COLUMNS; k++)
        end += (size_t)sprintf(text + end, "1 %d %d %d ", KORALIMBU_RANGE_BOUND, KORALIMBU_RANGE_GOAL, KORALIMBU_RANGE_GOAL);
    end += (size_t)sprintf(text + end, "1 0 0 %d", KORALIMBU_DECK_COLUMNS);
    for (k = 1; k <= KORALIMBU_DECK_COLUMNS; k++)
        end += (size_t)sprintf(text + end, " %zu -1000", k);
    sprintf(text + end, " 0");
    reads_ideals("the most neighbours with the largest goals", text, KORALIMBU_DECK_COLUMNS, most);
}

/* The reader refuses so many numbers of low, high, given and ideals before it looks at a text. */
static void read_counted(const size_t counts[LISTS])
{
    static const char *const texts[] = {paving, swept, "", "no deck", "0 0 0", "1 5 3 0 0 0 0", "1 1 9 2 1 0 0"};
    static struct deck d;
    size_t t;

    for (t = 0; t < sizeof texts / sizeof *texts; t++) {
        read_with((const uint8_t *)texts[t], strlen(texts[t]), &d, counts);
        expect("a wrong count of the reader's goals or ideals", d.number, KORALIMBU_REFUSED_LENGTH);
        check("what such a count leaves", deck_kept(&d));
    }
}

static void try_deck_list_counts(void)
{
    static const size_t wrong[] = {0, 1, KORALIMBU_DECK_COLUMNS - 1, KORALIMBU_DECK_COLUMNS + 1};
    size_t one, other, k;

    for (one = 0; one < LISTS; one++)
        for (other = 0; other < LISTS; other++)
            for (k = 0; k < 4; k++) {
                size_t counts[LISTS] = {KORALIMBU_DECK_COLUMNS, KORALIMBU_DECK_COLUMNS, KORALIMBU_DECK_COLUMNS, KORALIMBU_DECK_COLUMNS};

                counts[other] = wrong[(k + 1) % 4];
                counts[one] = wrong[k];
                read_counted(counts);
            }
}

/* ---------------------------------------------------------------- a deck's limits */

/* A deck of equal curves and of rows that say nothing but their kind, and then spaces up to a count of bytes. */
static void read_made(const char *what, size_t curves, size_t rows, int kind, size_t count, uint32_t wanted)
{
    static char text[TEXT + 1];
    static struct deck d;
    size_t k, end;

    end = (size_t)sprintf(text, "%zu\n", curves);
    for (k = 0; k < curves; k++)
        end += (size_t)sprintf(text + end, "0 5 0 0\n");
    end += (size_t)sprintf(text + end, "%zu\n", rows);
    for (k = 0; k < rows; k++)
        end += (size_t)sprintf(text + end, "%d 0 0\n", kind);
    end += (size_t)sprintf(text + end, "0\n");
    if (end < count)
        memset(text + end, ' ', count - end);
    read_text((const uint8_t *)text, end < count ? count : end, &d);
    expect(what, d.number, wanted);
    check(what, wanted == KORALIMBU_ACCEPTED || deck_kept(&d));
}

static void try_deck_limits(void)
{
    read_made("the longest text", 1, 0, 0, KORALIMBU_MOST_TEXT, KORALIMBU_ACCEPTED);
    read_made("a text a byte too long", 1, 0, 0, KORALIMBU_MOST_TEXT + 1, KORALIMBU_REFUSED_LAYOUT);
    read_made("the most curves", KORALIMBU_DECK_COLUMNS, 0, 0, 0, KORALIMBU_ACCEPTED);
    read_made("a curve too many", KORALIMBU_DECK_COLUMNS + 1, 0, 0, 0, KORALIMBU_REFUSED_SIZE);
    read_made("the most rows", 1, KORALIMBU_DECK_ROWS, 0, 0, KORALIMBU_ACCEPTED);
    read_made("a row too many", 1, KORALIMBU_DECK_ROWS + 1, 0, 0, KORALIMBU_REFUSED_SIZE);
    read_made("the most columns added", 1, KORALIMBU_DECK_COLUMNS - 1, 3, 0, KORALIMBU_ACCEPTED);
    read_made("a column added too many", 1, KORALIMBU_DECK_COLUMNS, 3, 0, KORALIMBU_REFUSED_TERM);
    reads("a deck's coefficient", "1\n3 5 0 0\n1\n0 0 1 1 1001\n0\n", KORALIMBU_REFUSED_COEFFICIENT);
    reads("a deck's bound", "1\n5 3 0 0\n0\n0\n", KORALIMBU_REFUSED_BOUND);
    reads("a deck's goal", "1\n0 5 1000 1000\n0\n0\n", KORALIMBU_REFUSED_GOAL);
    reads("a deck's word", "1\n3 5 0 O\n0\n0\n", KORALIMBU_REFUSED_LAYOUT);
    reads("a deck's term", "1\n3 5 0 0\n1\n0 0 1 1 0\n0\n", KORALIMBU_REFUSED_TERM);
}

static int are(const size_t *sizes, size_t n, size_t m, size_t curves)
{
    return sizes[0] == n && sizes[1] == m && sizes[2] == curves;
}

static void try_deck_sizes(void)
{
    static const char even[] = "3\n1 9 0 0\n1 9 0 0\n1 9 0 0\n3\n3 0 2 1 1 2 1\n0 0 2 1 1 3 -1\n3 0 1 3 1\n0\n";
    static struct deck d;
    size_t sizes[KORALIMBU_SIZES_COUNT + 1] = {MARK, MARK, MARK, MARK}, count;

    read_text((const uint8_t *)even, sizeof even - 1, &d);
    expect("a deck with two even rows", d.number, KORALIMBU_ACCEPTED);
    check("its three curves and two columns behind them", are(d.sizes, 5, 3, 3));
    check("the columns that its even rows added", d.coefficients[3] == -2 && d.coefficients[2 * 5 + 4] == -2);
    read_text((const uint8_t *)paving, sizeof paving - 1, &d);
    check("the sizes of the paving deck", are(d.sizes, 4, 1, 3));
    read_text((const uint8_t *)"x", 1, &d);
    check("the sizes of a text that is refused", are(d.sizes, 0, 0, 0));
    for (count = KORALIMBU_SIZES_COUNT - 1; count <= KORALIMBU_SIZES_COUNT + 1; count += 2) {
        expect("sizes of another count", koralimbu_read((const uint8_t *)paving, sizeof paving - 1, d.coefficients,
               KORALIMBU_DECK_COEFFICIENTS, d.rights, KORALIMBU_DECK_ROWS, d.lower, KORALIMBU_DECK_COLUMNS, d.upper,
               KORALIMBU_DECK_COLUMNS, d.low, KORALIMBU_DECK_COLUMNS, d.high, KORALIMBU_DECK_COLUMNS, d.given, KORALIMBU_DECK_COLUMNS,
               d.ideals, KORALIMBU_DECK_COLUMNS, sizes, count), KORALIMBU_REFUSED_LENGTH);
        check("what such sizes are left as", are(sizes, MARK, MARK, MARK));
    }
}

/* ---------------------------------------------------------------- swept volumes */

/* The third section adds these rows behind those of the deck, each equal to 0, and changes no bound and no goal. */
static void adds_rows(const char *what, const char *deck, const char *section, size_t added, const int64_t *rows)
{
    static char text[TEXT + 1];
    static struct deck plain, with;
    size_t n, m;

    sprintf(text, "%s 0", deck);
    read_text((const uint8_t *)text, strlen(text), &plain);
    sprintf(text, "%s %s", deck, section);
    read_text((const uint8_t *)text, strlen(text), &with);
    expect(what, plain.number, KORALIMBU_ACCEPTED);
    expect(what, with.number, KORALIMBU_ACCEPTED);
    n = plain.sizes[0];
    m = plain.sizes[1];
    check(what, are(with.sizes, n, m + added, plain.sizes[2]));
    if (added > 0)
        memcpy(plain.coefficients + m * n, rows, added * n * sizeof *rows);
    check(what, memcmp(with.coefficients, plain.coefficients, sizeof with.coefficients) == 0);
    check(what, memcmp(with.rights, plain.rights, sizeof with.rights) == 0);
    check(what, memcmp(with.lower, plain.lower, sizeof with.lower) == 0 && memcmp(with.upper, plain.upper, sizeof with.upper) == 0
                && memcmp(with.low, plain.low, sizeof with.low) == 0 && memcmp(with.high, plain.high, sizeof with.high) == 0);
    check(what, with.given[KORALIMBU_DECK_COLUMNS] == MARK && with.ideals[KORALIMBU_DECK_COLUMNS] == MARK);
}

/* Four curves and a row that equals 7; two curves and two rows that add a column each. */
static const char four[] = "4 1 9 0 0 1 9 2000 2000 1 9 3000 3000 1 9 4000 4000 1 0 7 2 1 5 4 -1";
static const char halves[] = "2 1 9 0 0 1 9 2000 2000 2 3 4 2 1 1 2 1 1 5 1 2 1";

static void try_path_rows(void)
{
    static const int64_t tied[] = {1, -1, 0, 0}, any_order[] = {1, -1, -1, 1}, shared[] = {1, 0, -1, 0}, apart[] = {-1, 0, 0, 1}, zeros[4];
    static const int64_t three[] = {1, -1, 0, 0, 1, 0, -1, -1}, two[] = {1, -1, 0, 0, 0, 0, 1, -1}, mixed[] = {1, 0, -1, 0, 0, 0, 0, 0, 1, 1, -1, -1};

    adds_rows("two paths of a curve each", four, "1 2 1 1 1 2", 1, tied);
    adds_rows("path 1 less path 2", four, "1 2 1 4 1 1", 1, apart);
    adds_rows("indices in any order", four, "1 2 2 4 1 2 3 2", 1, any_order);
    adds_rows("a curve on both paths", four, "1 2 2 1 2 2 2 3", 1, shared);
    adds_rows("a path within the other", four, "1 2 4 3 1 4 2 3 3 4 2", 1, (const int64_t[]){1, 0, 0, 0});
    adds_rows("two equal paths", four, "1 2 2 3 1 2 1 3", 1, zeros);
    adds_rows("a volume of one path", four, "1 1 4 1 2 3 4", 0, NULL);
    adds_rows("each later path with path 1", four, "1 3 1 1 1 2 2 3 4", 2, three);
    adds_rows("two volumes", four, "2 2 1 1 1 2 2 1 3 1 4", 2, two);
    adds_rows("volumes of one, three and two paths", four, "3 1 1 2 3 2 1 2 2 2 3 2 2 1 2 2 2 1 2 4 3", 3, mixed);
    adds_rows("no term of an added column", halves, "1 2 1 1 1 2", 1, tied);
    adds_rows("equal paths beside added columns", halves, "1 2 2 2 1 2 1 2", 1, zeros);
}

/* The reader's ideals see the rows of paths, and no curve that cancels in them. */
static void try_path_ideals(void)
{
    static const int64_t mean[] = {6, 0, 0}, none[3], fourth[] = {0, 0, 0, 9};

    reads_ideals("neighbours along paths", "3 1 99 0 0 1 99 4000 4000 1 99 9000 9000 0 1 2 2 1 2 1 3", 3, mean);
    reads_ideals("neighbours in two path rows", "3 1 99 0 0 1 99 4000 4000 1 99 9000 9000 0 1 3 1 1 1 2 1 3", 3, mean);
    reads_ideals("a plain curve that cancels", "3 1 99 0 0 1 99 4000 4000 1 99 9000 9000 0 1 2 2 1 2 2 3 1", 3, none);
    reads_ideals("a neighbour that cancels", "3 1 99 0 0 1 99 4000 4000 1 99 9000 9000 0 1 2 2 1 2 1 2", 3, none);
    reads_ideals("paths after the first share no row", swept, 4, fourth);
}

static void try_volume_refusals(void)
{
    static const char *const below_1[] = {"0", "-1", "-9999999999"}, *const outside[] = {"0", "-1", "5", "48", "9999999999"};
    size_t k;

    refuses_at("a count of volumes", "1 1 9 0 0 0", "-1", KORALIMBU_REFUSED_VOLUME);
    refuses_at("a count of volumes behind rows", four, "-9999999999", KORALIMBU_REFUSED_VOLUME);
    for (k = 0; k < 3; k++) {
        refuses_at("a count of paths", "1 1 9 0 0 0 1", below_1[k], KORALIMBU_REFUSED_VOLUME);
        refuses_at("a second volume's count of paths", "2 1 9 0 0 1 9 0 0 0 2 2 1 1 1 2", below_1[k], KORALIMBU_REFUSED_VOLUME);
        refuses_at("a path's count of curves", "1 1 9 0 0 0 1 1", below_1[k], KORALIMBU_REFUSED_VOLUME);
        refuses_at("a later path's count of curves", "1 1 9 0 0 0 1 3 1 1 1 1", below_1[k], KORALIMBU_REFUSED_VOLUME);
    }
    for (k = 0; k < 5; k++) {
        refuses_at("an index outside", "4 1 9 0 0 1 9 0 0 1 9 0 0 1 9 0 0 0 1 1 1", outside[k], KORALIMBU_REFUSED_VOLUME);
        refuses_at("a later index outside", "4 1 9 0 0 1 9 0 0 1 9 0 0 1 9 0 0 0 1 2 1 1 4 4 2", outside[k], KORALIMBU_REFUSED_VOLUME);
    }
    refuses_at("an index of an added column", "2 1 9 0 0 1 9 2000 2000 2 3 4 2 1 1 2 1 1 5 1 2 1 1 1 1", "3", KORALIMBU_REFUSED_VOLUME);
    refuses_at("an index twice", "2 1 9 0 0 1 9 0 0 0 1 1 2 2", "2", KORALIMBU_REFUSED_VOLUME);
    refuses_at("an index twice in a later path", "3 1 9 0 0 1 9 0 0 1 9 0 0 0 1 2 1 1 3 1 3", "1", KORALIMBU_REFUSED_VOLUME);
}

/* A text that ends too early or too late, and counts that are too large: they are not refused where they stand. */
static void try_volume_layouts(void)
{
    reads("a text without its third section", "1 1 9 0 0 0", KORALIMBU_REFUSED_LAYOUT);
    reads("a number behind no volumes", "1 1 9 0 0 0 0 0", KORALIMBU_REFUSED_LAYOUT);
    reads("a number behind a volume", "1 1 9 0 0 0 1 1 1 1 0", KORALIMBU_REFUSED_LAYOUT);
    reads("too many volumes", "1 1 9 0 0 0 9999999999 1 1 1", KORALIMBU_REFUSED_LAYOUT);
    reads("too many curves of a path", "2 1 9 0 0 1 9 0 0 0 1 1 9999999999 1 2", KORALIMBU_REFUSED_LAYOUT);
    reads("too many curves of a path, of which one repeats", "2 1 9 0 0 1 9 0 0 0 1 1 9999999999 1 2 1", KORALIMBU_REFUSED_VOLUME);
    reads("a path too few", "2 1 9 0 0 1 9 0 0 0 1 2 1 1", KORALIMBU_REFUSED_LAYOUT);
    reads("a curve of a path too few", "2 1 9 0 0 1 9 0 0 0 1 2 1 1 2 1", KORALIMBU_REFUSED_LAYOUT);
}

/* Writes some words so many times; returns their end. */
static char *put(char *end, const char *words, size_t times)
{
    for (; times > 0; times--)
        end += sprintf(end, "%s", words);
    return end;
}

/* A text with so many rows, all of zeros as its paths are equal. */
static void reads_zeros(const char *what, const char *text, size_t n, size_t m)
{
    static struct deck d;

    read_text((const uint8_t *)text, strlen(text), &d);
    expect(what, d.number, KORALIMBU_ACCEPTED);
    check(what, are(d.sizes, n, m, n));
    check(what, all_are(d.coefficients, KORALIMBU_DECK_COEFFICIENTS, 0) && all_are(d.rights, KORALIMBU_DECK_ROWS, 0));
}

/* A deck of one curve whose rows, first volume and second volume make the most rows. A path more in the second is refused at its count. */
static void fills_rows(const char *what, size_t rows, size_t first, size_t second)
{
    static char text[TEXT + 1];
    char beyond[32], *end = text;

    end += sprintf(end, "1 1 9 0 0 %zu", rows);
    end = put(end, " 0 0 0", rows);
    end += sprintf(end, " 2 %zu", first);
    end = put(end, " 1 1", first);
    sprintf(beyond, "%zu", second + 1);
    refuses_at(what, text, beyond, KORALIMBU_REFUSED_SIZE);
    refuses_at(what, text, "9999999999", KORALIMBU_REFUSED_SIZE);
    refuses_at(what, text, "0", KORALIMBU_REFUSED_VOLUME);
    end += sprintf(end, " %zu", second);
    put(end, " 1 1", second);
    reads_zeros(what, text, 1, KORALIMBU_DECK_ROWS);
}

static void try_path_limits(void)
{
    static char text[TEXT + 1];
    char *end = text;
    size_t k;

    fills_rows("rows of one volume", 0, 1, KORALIMBU_DECK_ROWS + 1);
    fills_rows("rows of two volumes", 0, 25, KORALIMBU_DECK_ROWS - 23);
    fills_rows("rows, and those of two volumes", KORALIMBU_DECK_ROWS - 8, 5, 5);
    fills_rows("rows, and one of the first volume", KORALIMBU_DECK_ROWS - 1, 2, 1);
    fills_rows("rows, and those of the second volume", KORALIMBU_DECK_ROWS - 2, 1, 3);
    fills_rows("rows alone", KORALIMBU_DECK_ROWS, 1, 1);
    end += sprintf(end, "1 1 9 0 0 0 4000");
    put(end, " 1 1 1", 4000);
    reads_zeros("many volumes of one path", text, 1, 0);
    end = text + sprintf(text, "%d", KORALIMBU_DECK_COLUMNS);
    end = put(end, " 1 9 0 0", KORALIMBU_DECK_COLUMNS);
    end += sprintf(end, " 0 1 2 %d", KORALIMBU_DECK_COLUMNS);
    for (k = KORALIMBU_DECK_COLUMNS; k > 0; k--)
        end += sprintf(end, " %zu", k);
    end += sprintf(end, " %d", KORALIMBU_DECK_COLUMNS);
    for (k = 1; k <= KORALIMBU_DECK_COLUMNS; k++)
        end += sprintf(end, " %zu", k);
    reads_zeros("two paths of all curves", text, KORALIMBU_DECK_COLUMNS, 1);
}

/* ---------------------------------------------------------------- the join */

/* The lists of a problem, and the numbers of the most pairs and of one more. */
enum { EIGHT = 8, NUMBERS = 2 * KORALIMBU_MOST_COLUMNS + 2 };

/* How many numbers a join is lent of each list. */
struct lent {
    size_t first[EIGHT], second[EIGHT], pairs, joined[EIGHT], sizes;
};

/* A join's. */
struct joined {
    uint32_t number;
    size_t sizes[KORALIMBU_JOINED_COUNT + 1];
    struct posed made;
};

#define LISTS_OF(p, counts) \
    (p)->coefficients, (counts)[0], (p)->rights, (counts)[1], (p)->lower, (counts)[2], (p)->upper, (counts)[3], \
    (p)->low, (counts)[4], (p)->high, (counts)[5], (p)->given, (counts)[6], (p)->ideals, (counts)[7]

/* What n columns and m rows need; nothing where that is more than there is room for. */
static void need(size_t counts[EIGHT], size_t n, size_t m)
{
    size_t k;

    if (n > COLUMNS || m > ROWS)
        n = m = 0;
    counts[0] = m * n;
    counts[1] = m;
    for (k = 2; k < EIGHT; k++)
        counts[k] = n;
}

static void need_all(struct lent *l, const struct posed *p, const struct posed *q, size_t pairs_count)
{
    need(l->first, p->n, p->m);
    need(l->second, q->n, q->m);
    need(l->joined, p->n + q->n - pairs_count / 2, p->m + q->m);
    l->pairs = pairs_count;
    l->sizes = KORALIMBU_JOINED_COUNT;
}

static void mark_lists(struct posed *p)
{
    memset(p, 0, sizeof *p);
    fill(p->coefficients, ROWS * COLUMNS, MARK);
    fill(p->rights, ROWS, MARK);
    fill(p->lower, COLUMNS, MARK);
    fill(p->upper, COLUMNS, MARK);
    fill(p->low, COLUMNS, MARK);
    fill(p->high, COLUMNS, MARK);
    fill(p->given, COLUMNS, MARK);
    fill(p->ideals, COLUMNS, MARK);
}

static void join_with(const struct posed *p, const struct posed *q, const size_t *pairs, const struct lent *l, struct joined *j)
{
    memset(j, 0, sizeof *j);
    j->sizes[0] = j->sizes[1] = j->sizes[2] = MARK;
    mark_lists(&j->made);
    j->number = koralimbu_join(p->n, p->m, LISTS_OF(p, l->first), q->n, q->m, LISTS_OF(q, l->second), pairs, l->pairs,
                               LISTS_OF(&j->made, l->joined), j->sizes, l->sizes);
}

/* The eight joined lists are as they were lent. */
static int unjoined(const struct joined *j)
{
    static struct posed marked;

    mark_lists(&marked);
    return memcmp(&j->made, &marked, sizeof marked) == 0;
}

/* Where the columns of the second part stand, by the header's lines. */
static void find_places(size_t first_n, size_t second_n, const size_t *pairs, size_t pairs_count, size_t *place)
{
    size_t j, k, next = first_n;

    for (j = 0; j < second_n; j++) {
        for (k = 0; k < pairs_count && pairs[k + 1] != j + 1; k += 2)
            ;
        place[j] = k < pairs_count ? pairs[k] - 1 : next++;
    }
}

static void copy_column(struct posed *to, size_t at, const struct posed *from, size_t j)
{
    to->lower[at] = from->lower[j];
    to->upper[at] = from->upper[j];
    want(to, at, from->low[j], from->high[j]);
    to->given[at] = from->given[j];
    to->ideals[at] = from->ideals[j];
}

/* A column of the first part that stands there already is shared with one of the second. */
static void share_column(struct posed *to, size_t at, const struct posed *q, size_t j)
{
    if (q->lower[j] > to->lower[at])
        to->lower[at] = q->lower[j];
    if (q->upper[j] < to->upper[at])
        to->upper[at] = q->upper[j];
    if (to->low[at] == 0 || (q->low[j] != 0 && q->low[j] < to->low[at]))
        to->low[at] = q->low[j];
    if (to->high[at] == 0 || q->high[j] > to->high[at])
        to->high[at] = q->high[j];
    if (to->given[at] == 0) {
        to->given[at] = q->given[j];
        to->ideals[at] = q->ideals[j];
    }
}

/* The joined problem by the header's rule. Behind its numbers the lists are marked. */
static void join_plainly(const struct posed *p, const struct posed *q, const size_t *pairs, size_t pairs_count, struct posed *d)
{
    size_t n = p->n + q->n - pairs_count / 2, m = p->m + q->m, place[COLUMNS], i, j;

    find_places(p->n, q->n, pairs, pairs_count, place);
    mark_lists(d);
    fill(d->coefficients, m * n, 0);
    for (j = 0; j < p->n; j++) {
        copy_column(d, j, p, j);
        for (i = 0; i < p->m; i++)
            d->coefficients[i * n + j] = p->coefficients[i * p->n + j];
    }
    for (j = 0; j < q->n; j++) {
        if (place[j] < p->n)
            share_column(d, place[j], q, j);
        else
            copy_column(d, place[j], q, j);
        for (i = 0; i < q->m; i++)
            d->coefficients[(p->m + i) * n + place[j]] = q->coefficients[i * q->n + j];
    }
    for (i = 0; i < m; i++)
        d->rights[i] = i < p->m ? p->rights[i] : q->rights[i - p->m];
}

/* A join with such counts returns a number. It only reads the parts and the pairs, and leaves the joined problem or what it was lent. */
static void joins_with(const char *what, const struct posed *p, const struct posed *q, const size_t *pairs, const struct lent *l, uint32_t wanted)
{
    static struct posed copies[2], plain;
    static struct joined j;
    size_t numbers[NUMBERS];

    memcpy(&copies[0], p, sizeof *p);
    memcpy(&copies[1], q, sizeof *q);
    if (l->pairs > 0)
        memcpy(numbers, pairs, l->pairs * sizeof *numbers);
    join_with(p, q, pairs, l, &j);
    expect(what, j.number, wanted);
    check(what, memcmp(&copies[0], p, sizeof *p) == 0 && memcmp(&copies[1], q, sizeof *q) == 0);
    check(what, l->pairs == 0 || memcmp(numbers, pairs, l->pairs * sizeof *numbers) == 0);
    if (wanted == KORALIMBU_ACCEPTED) {
        join_plainly(p, q, pairs, l->pairs, &plain);
        check(what, memcmp(&j.made, &plain, sizeof plain) == 0);
        check(what, j.sizes[0] == p->n + q->n - l->pairs / 2 && j.sizes[1] == p->m + q->m);
    } else {
        check(what, unjoined(&j));
        check(what, j.sizes[0] == 0 && j.sizes[1] == 0);
    }
    check(what, j.sizes[2] == MARK);
}

/* With the counts that the parts and pairs need. */
static void joins(const char *what, const struct posed *p, const struct posed *q, const size_t *pairs, size_t pairs_count, uint32_t wanted)
{
    struct lent l;

    need_all(&l, p, q, pairs_count);
    joins_with(what, p, q, pairs, &l, wanted);
}

/* A part by whose numbers the places in it are told apart, and the part itself from another that begins elsewhere. */
static void pose_part(struct posed *p, size_t n, size_t m, int64_t from)
{
    size_t k;

    pose(p, n, m);
    for (k = 0; k < m * n; k++)
        p->coefficients[k] = from + (int64_t)k % 400;
    for (k = 0; k < m; k++)
        p->rights[k] = 1000 * from + (int64_t)k;
    for (k = 0; k < n; k++) {
        p->lower[k] = from + (int64_t)k;
        p->upper[k] = 1000 + from + (int64_t)k;
        want(p, k, 3000 + from + (int64_t)k, 5000 + from + (int64_t)k);
        p->given[k] = k % 3 == 0 ? 0 : -from - (int64_t)k;
        p->ideals[k] = 7000 + from + (int64_t)k;
    }
}

/* Parts of two and of three columns, with two rows and one: each list by its numbers, with the second's columns 3 and 1 shared. */
static void try_join_lists(void)
{
    static const size_t pairs[] = {2, 3, 1, 1};
    static const int64_t coefficients[] = {100, 101, 0, 102, 103, 0, 500, 502, 501}, rights[] = {100000, 100001, 500000};
    static const int64_t lower[] = {500, 502, 501}, upper[] = {1100, 1101, 1501};
    static const int64_t low[] = {3100, 3101, 3501}, high[] = {5500, 5502, 5501}, given[] = {0, -101, -501}, ideals[] = {7500, 7101, 7501};
    static struct posed p, q;
    static struct joined j;
    struct lent l;

    pose_part(&p, 2, 2, 100);
    pose_part(&q, 3, 1, 500);
    need_all(&l, &p, &q, 4);
    join_with(&p, &q, pairs, &l, &j);
    expect("two shared columns", j.number, KORALIMBU_ACCEPTED);
    check("their sizes", j.sizes[0] == 3 && j.sizes[1] == 3 && j.sizes[2] == MARK);
    check("their rows", memcmp(j.made.coefficients, coefficients, sizeof coefficients) == 0 && j.made.coefficients[9] == MARK);
    check("their right sides", memcmp(j.made.rights, rights, sizeof rights) == 0 && j.made.rights[3] == MARK);
    check("their bounds", memcmp(j.made.lower, lower, sizeof lower) == 0 && memcmp(j.made.upper, upper, sizeof upper) == 0);
    check("their goals", memcmp(j.made.low, low, sizeof low) == 0 && memcmp(j.made.high, high, sizeof high) == 0);
    check("their ideals", memcmp(j.made.given, given, sizeof given) == 0 && memcmp(j.made.ideals, ideals, sizeof ideals) == 0);
}

/* By the header's rule, from no pair to a pair for each column, of parts up to the most columns and rows. */
static void try_join_places(void)
{
    static const size_t sizes[][4] = {{1, 0, 1, 0}, {2, 2, 3, 1}, {3, 0, 5, 2}, {7, 4, 4, 0}, {24, 24, 24, 24}, {47, 1, 1, 47}, {48, 48, 7, 0}};
    static struct posed p, q;
    size_t pairs[NUMBERS], k, c, count;

    for (k = 0; k < sizeof sizes / sizeof *sizes; k++) {
        pose_part(&p, sizes[k][0], sizes[k][1], 100);
        pose_part(&q, sizes[k][2], sizes[k][3], 500);
        for (count = 0; count <= p.n && count <= q.n; count++) {
            uint32_t wanted = p.n + q.n - count <= KORALIMBU_MOST_COLUMNS ? KORALIMBU_ACCEPTED : KORALIMBU_REFUSED_SIZE;

            /* The first's columns from the first on and the second's from the last; then the other way round. */
            for (c = 0; c < count; c++) {
                pairs[2 * c] = c + 1;
                pairs[2 * c + 1] = q.n - c;
            }
            joins("pairs from both ends", &p, &q, pairs, 2 * count, wanted);
            for (c = 0; c < count; c++) {
                pairs[2 * c] = p.n - c;
                pairs[2 * c + 1] = c + 1;
            }
            joins("pairs from the other ends", &p, &q, pairs, 2 * count, wanted);
        }
    }
    joins("a null list of no pair", &p, &p, NULL, 0, KORALIMBU_REFUSED_SIZE);
    pose_part(&p, 3, 1, 100);
    joins("a problem with itself, and a null list of no pair", &p, &p, NULL, 0, KORALIMBU_ACCEPTED);
    joins("a problem with itself", &p, &p, (const size_t[]){3, 1}, 2, KORALIMBU_ACCEPTED);
}

/* One column of each part, the same: its bounds, goals, mark and ideal in the first, in the second and then. */
static void try_shared_column(const int64_t first[6], const int64_t second[6], const int64_t wanted[6])
{
    static const size_t pairs[] = {1, 1};
    static struct posed parts[2], made;
    static struct joined j;
    const int64_t *numbers[] = {first, second, wanted};
    struct posed *columns[] = {&parts[0], &parts[1], &made};
    struct lent l;
    size_t k;

    for (k = 0; k < 3; k++) {
        pose(columns[k], 1, 0);
        columns[k]->lower[0] = numbers[k][0];
        columns[k]->upper[0] = numbers[k][1];
        want(columns[k], 0, numbers[k][2], numbers[k][3]);
        columns[k]->given[0] = numbers[k][4];
        columns[k]->ideals[0] = numbers[k][5];
    }
    need_all(&l, &parts[0], &parts[1], 2);
    join_with(&parts[0], &parts[1], pairs, &l, &j);
    expect("a shared column", j.number, KORALIMBU_ACCEPTED);
    check("a shared column's bounds", j.made.lower[0] == made.lower[0] && j.made.upper[0] == made.upper[0]);
    check("a shared column's goals", j.made.low[0] == made.low[0] && j.made.high[0] == made.high[0]);
    check("a shared column's ideal", j.made.given[0] == made.given[0] && j.made.ideals[0] == made.ideals[0]);
    joins("a shared column", &parts[0], &parts[1], pairs, 2, KORALIMBU_ACCEPTED);
}

static void try_shared_columns(void)
{
    enum { FAR = KORALIMBU_RANGE_BOUND, MOST = KORALIMBU_RANGE_GOAL };
    static const int64_t columns[][3][6] = {
        {{1, 9, 0, 0, 0, 0}, {3, 12, 0, 0, 0, 0}, {3, 9, 0, 0, 0, 0}},
        {{3, 7, 0, 0, 0, 0}, {1, 9, 0, 0, 0, 0}, {3, 7, 0, 0, 0, 0}},
        {{2, 5, 0, 0, 0, 0}, {5, 8, 0, 0, 0, 0}, {5, 5, 0, 0, 0, 0}},
        {{-FAR, FAR, 0, 0, 0, 0}, {-FAR, -FAR, 0, 0, 0, 0}, {-FAR, -FAR, 0, 0, 0, 0}},
        {{1, 9, 4000, 4000, 0, 0}, {1, 9, 9000, 9000, 0, 0}, {1, 9, 4000, 9000, 0, 0}},
        {{1, 9, 4000, 9000, 0, 0}, {1, 9, 5000, 6000, 0, 0}, {1, 9, 4000, 9000, 0, 0}},
        {{1, 9, 5000, 9000, 0, 0}, {1, 9, 4000, 6000, 0, 0}, {1, 9, 4000, 9000, 0, 0}},
        {{1, 9, MOST, MOST, 0, 0}, {1, 9, 1, 1, 0, 0}, {1, 9, 1, MOST, 0, 0}},
        {{1, 9, 0, 0, 0, 0}, {1, 9, 4000, 9000, 0, 0}, {1, 9, 4000, 9000, 0, 0}},
        {{1, 9, 4000, 9000, 0, 0}, {-5, 9, 0, 0, 0, 0}, {1, 9, 4000, 9000, 0, 0}},
        /* A mark other than 0 is copied as it is, and the number of an unset one is the second's. */
        {{1, 9, 0, 0, 1, 7}, {1, 9, 0, 0, 1, 5}, {1, 9, 0, 0, 1, 7}},
        {{1, 9, 0, 0, INT64_MIN, INT64_MAX}, {1, 9, 0, 0, 2, 5}, {1, 9, 0, 0, INT64_MIN, INT64_MAX}},
        {{1, 9, 0, 0, -1, 0}, {1, 9, 0, 0, 0, 5}, {1, 9, 0, 0, -1, 0}},
        {{1, 9, 0, 0, 0, 7}, {1, 9, 0, 0, MARK, INT64_MIN}, {1, 9, 0, 0, MARK, INT64_MIN}},
        {{1, 9, 0, 0, 0, 7}, {1, 9, 0, 0, 0, 5}, {1, 9, 0, 0, 0, 5}},
        {{1, 9, 4000, 4000, 0, 7}, {1, 9, 0, 0, 3, 5}, {1, 9, 4000, 4000, 3, 5}}};
    size_t k;

    for (k = 0; k < sizeof columns / sizeof *columns; k++)
        try_shared_column(columns[k][0], columns[k][1], columns[k][2]);
}

/* Makes a part one that is refused with a number, whatever else is wrong with it that is told later. */
static void worsen(struct posed *p, size_t counts[EIGHT], uint32_t number)
{
    if (number == KORALIMBU_REFUSED_GOAL)
        p->high[1] = p->low[1] - 1;
    else if (number == KORALIMBU_REFUSED_BOUND)
        p->upper[1] = p->lower[1] - 1;
    else if (number == KORALIMBU_REFUSED_COEFFICIENT)
        p->rights[0] = KORALIMBU_RANGE_RIGHT + 1;
    else if (number == KORALIMBU_REFUSED_LENGTH)
        counts[EIGHT - 1]++;
    else
        p->n = 0;
}

/* The first part's causes, then the second's, each before what comes behind it, before an odd count of pairs, pairs outside and all joined lists. */
static void try_join_order(void)
{
    static const size_t pairs[] = {0, 9, 9};
    static struct posed p, q;
    struct lent l;
    uint32_t number;

    pose_part(&p, 2, 1, 100);
    pose_part(&q, 3, 2, 500);
    need_all(&l, &p, &q, 3);
    memset(l.joined, 0, sizeof l.joined);
    joins_with("an odd count before a pair and the joined lists", &p, &q, pairs, &l, KORALIMBU_REFUSED_LENGTH);
    for (number = KORALIMBU_REFUSED_GOAL; number >= KORALIMBU_REFUSED_SIZE; number--) {
        worsen(&q, l.second, number);
        joins_with("a cause of the second part", &p, &q, pairs, &l, number);
    }
    for (number = KORALIMBU_REFUSED_GOAL; number >= KORALIMBU_REFUSED_SIZE; number--) {
        worsen(&p, l.first, number);
        joins_with("a cause of the first part before the second's", &p, &q, pairs, &l, number);
    }
}

/* Each cause of a part by itself, in one part and in the other. */
static void refuses_part(const char *what, const struct posed *part, uint32_t wanted)
{
    static struct posed good;

    pose_part(&good, 2, 1, 100);
    joins(what, part, &good, (const size_t[]){1, 1}, 2, wanted);
    joins(what, &good, part, (const size_t[]){1, 1}, 2, wanted);
    joins(what, part, &good, (const size_t[]){9, 9}, 2, wanted);
    joins(what, part, part, NULL, 0, wanted);
}

static void try_join_parts(void)
{
    static struct posed p;
    int sign;

    pose(&p, 0, 0);
    refuses_part("a part of no column", &p, KORALIMBU_REFUSED_SIZE);
    pose(&p, KORALIMBU_MOST_COLUMNS + 1, 0);
    refuses_part("a part with a column too many", &p, KORALIMBU_REFUSED_SIZE);
    pose(&p, 2, KORALIMBU_MOST_ROWS + 1);
    refuses_part("a part with a row too many", &p, KORALIMBU_REFUSED_SIZE);
    for (sign = -1; sign <= 1; sign += 2) {
        pose(&p, 2, 2);
        p.coefficients[3] = sign * (KORALIMBU_RANGE_COEFFICIENT + 1);
        refuses_part("a part's coefficient", &p, KORALIMBU_REFUSED_COEFFICIENT);
        pose(&p, 2, 2);
        p.rights[1] = sign * (KORALIMBU_RANGE_RIGHT + 1);
        refuses_part("a part's right side", &p, KORALIMBU_REFUSED_COEFFICIENT);
    }
    pose(&p, 2, 0);
    p.upper[1] = KORALIMBU_RANGE_BOUND + 1;
    refuses_part("a part's upper bound", &p, KORALIMBU_REFUSED_BOUND);
    pose(&p, 2, 0);
    p.lower[1] = -KORALIMBU_RANGE_BOUND - 1;
    refuses_part("a part's lower bound", &p, KORALIMBU_REFUSED_BOUND);
    p.lower[1] = 11;
    refuses_part("a part's lower bound above its upper one", &p, KORALIMBU_REFUSED_BOUND);
    pose(&p, 2, 0);
    want(&p, 1, 1, 1);
    refuses_part("a part's goals with a lower bound of 0", &p, KORALIMBU_REFUSED_GOAL);
}

/* Every list of both parts and of the joined problem, with no number, one less and one more; and one less beside one more. */
static void try_join_counts(void)
{
    static const size_t pairs[] = {2, 1};
    static struct posed p, q;
    struct lent l;
    size_t *counts[] = {l.first, l.second, l.joined}, list, k, right;

    pose_part(&p, 2, 2, 100);
    pose_part(&q, 3, 1, 500);
    for (list = 0; list < 3 * EIGHT; list++) {
        size_t *count = &counts[list / EIGHT][list % EIGHT], *other = &counts[list / EIGHT][(list + 1) % EIGHT];

        need_all(&l, &p, &q, 2);
        right = *count;
        for (k = 0; k < 3; k++) {
            *count = k == 0 ? 0 : k == 1 ? right - 1 : right + 1;
            joins_with("a wrong count of a list", &p, &q, pairs, &l, KORALIMBU_REFUSED_LENGTH);
        }
        *other -= 1;
        joins_with("two wrong counts", &p, &q, pairs, &l, KORALIMBU_REFUSED_LENGTH);
    }
    need_all(&l, &p, &q, 2);
    joins_with("the right counts", &p, &q, pairs, &l, KORALIMBU_ACCEPTED);
    joins("an odd count of pairs", &p, &q, (const size_t[]){2, 1, 1}, 3, KORALIMBU_REFUSED_LENGTH);
    joins("half a pair", &p, &q, (const size_t[]){2}, 1, KORALIMBU_REFUSED_LENGTH);
}

/* Sizes of another count are not written, and are told before anything else. */
static void try_join_sizes(void)
{
    static const size_t others[] = {0, 1, KORALIMBU_JOINED_COUNT + 1};
    static struct posed parts[2];
    static struct joined j;
    struct lent l;
    size_t k, wrong;

    for (wrong = 0; wrong < 2; wrong++) {
        pose_part(&parts[0], 2, 1, 100);
        pose_part(&parts[1], 2, 1, 500);
        need_all(&l, &parts[0], &parts[1], 0);
        /* With the first part's size wrong too, which would be 1. */
        if (wrong)
            parts[0].n = 0;
        for (k = 0; k < sizeof others / sizeof *others; k++) {
            l.sizes = others[k];
            join_with(&parts[0], &parts[1], NULL, &l, &j);
            expect("a join's sizes of another count", j.number, KORALIMBU_REFUSED_LENGTH);
            check("what such sizes are left as", j.sizes[0] == MARK && j.sizes[1] == MARK && j.sizes[2] == MARK);
            check("what such sizes leave", unjoined(&j));
        }
    }
}

/* Pairs of columns that a part has not, alone and behind a pair that is none of these; and columns that an earlier pair has. */
static void try_pairs(void)
{
    static const size_t outside[][2] = {{0, 1}, {1, 0}, {0, 0}, {4, 1}, {1, 6}, {4, 6}, {49, 1}, {SIZE_MAX, 1}, {1, SIZE_MAX}};
    static const size_t again[][6] = {{1, 1, 1, 2, 3, 3}, {1, 1, 2, 1, 3, 3}, {1, 1, 1, 1, 3, 3}, {1, 1, 2, 2, 1, 3}, {1, 1, 2, 2, 3, 1}};
    static struct posed p, q;
    size_t pairs[NUMBERS] = {2, 3}, k;

    pose_part(&p, 3, 2, 100);
    pose_part(&q, 5, 1, 500);
    for (k = 0; k < sizeof outside / sizeof *outside; k++) {
        joins("a column outside", &p, &q, outside[k], 2, KORALIMBU_REFUSED_PAIR);
        memcpy(pairs + 2, outside[k], sizeof outside[k]);
        joins("a later column outside", &p, &q, pairs, 4, KORALIMBU_REFUSED_PAIR);
    }
    for (k = 0; k < sizeof again / sizeof *again; k++)
        joins("a column used before", &p, &q, again[k], 6, KORALIMBU_REFUSED_PAIR);
    joins("the same number on both sides", &p, &q, (const size_t[]){1, 2, 2, 1}, 4, KORALIMBU_ACCEPTED);
    pose_part(&p, KORALIMBU_MOST_COLUMNS, 0, 100);
    for (k = 0; k < NUMBERS; k++)
        pairs[k] = k / 2 + 1;
    joins("a pair for each of the most columns", &p, &p, pairs, NUMBERS - 2, KORALIMBU_ACCEPTED);
    joins("a pair more than columns", &p, &p, pairs, NUMBERS, KORALIMBU_REFUSED_PAIR);
}

/* Columns with the bounds 0 to 4 and 5 to 10 are no pair; the others have the bounds 0 to 10. */
static void try_pair_bounds(void)
{
    static const struct {
        size_t pairs[6], count;
        uint32_t wanted;
    } tries[] = {{{1, 1}, 2, KORALIMBU_REFUSED_PAIR_BOUNDS},
                 {{2, 2, 1, 1}, 4, KORALIMBU_REFUSED_PAIR_BOUNDS},
                 {{1, 1, 0, 0}, 4, KORALIMBU_REFUSED_PAIR_BOUNDS},
                 {{0, 0, 1, 1}, 4, KORALIMBU_REFUSED_PAIR},
                 {{1, 1, 2, 2, 2, 3}, 6, KORALIMBU_REFUSED_PAIR_BOUNDS},
                 /* The last pair would be refused for its bounds as well. */
                 {{1, 2, 1, 1}, 4, KORALIMBU_REFUSED_PAIR},
                 {{2, 1, 1, 1}, 4, KORALIMBU_REFUSED_PAIR},
                 {{1, 2, 2, 1}, 4, KORALIMBU_ACCEPTED}};
    static struct posed p, q;
    size_t k;

    pose(&p, 3, 0);
    pose(&q, 3, 0);
    p.upper[0] = 4;
    q.lower[0] = 5;
    for (k = 0; k < sizeof tries / sizeof *tries; k++)
        joins("bounds of pairs", &p, &q, tries[k].pairs, tries[k].count, tries[k].wanted);
    joins("bounds of a pair, the other way round", &q, &p, (const size_t[]){1, 1}, 2, KORALIMBU_REFUSED_PAIR_BOUNDS);
    q.lower[0] = 4;
    joins("bounds of a pair that leave one number", &p, &q, (const size_t[]){1, 1}, 2, KORALIMBU_ACCEPTED);
}

/* A joined size beyond the limit: after the pairs, before the joined lists. */
static void try_joined_size(void)
{
    static const size_t shared[] = {1, 1}, outside[] = {1, 2};
    static struct posed p, q;
    struct lent l;
    int rows;

    for (rows = 0; rows < 2; rows++) {
        pose(&p, rows ? 1 : KORALIMBU_MOST_COLUMNS, rows ? KORALIMBU_MOST_ROWS : 0);
        pose(&q, 1, rows ? 1 : 0);
        joins("a joined size beyond", &p, &q, NULL, 0, KORALIMBU_REFUSED_SIZE);
        joins("a joined size beyond", &q, &p, NULL, 0, KORALIMBU_REFUSED_SIZE);
        joins("a pair before a joined size", &p, &q, outside, 2, KORALIMBU_REFUSED_PAIR);
        joins("a shared column and a joined size", &p, &q, shared, 2, rows ? KORALIMBU_REFUSED_SIZE : KORALIMBU_ACCEPTED);
        need_all(&l, &p, &q, 0);
        memset(l.joined, 0, sizeof l.joined);
        joins_with("a joined size before the joined lists", &p, &q, NULL, &l, KORALIMBU_REFUSED_SIZE);
        p.upper[0] = 4;
        q.lower[0] = 5;
        joins("bounds of a pair before a joined size", &p, &q, shared, 2, KORALIMBU_REFUSED_PAIR_BOUNDS);
    }
}

/* A panel that wants 4 and one that wants 9, v1 = v2 each, meet: the shares of the assigned list. */
static void try_joined_assigned(void)
{
    static const size_t pairs[] = {2, 1};
    static struct posed parts[2];
    static struct joined j;
    static struct answer a;
    struct lent l;
    size_t k;

    for (k = 0; k < 2; k++) {
        pose(&parts[k], 2, 1);
        parts[k].coefficients[0] = 1;
        parts[k].coefficients[1] = -1;
        fill(parts[k].lower, 2, 1);
        fill(parts[k].low, 2, k ? 9000 : 4000);
        fill(parts[k].high, 2, k ? 9000 : 4000);
        settle(koralimbu_assign, &parts[k], &a);
        check("a panel by itself", all_are(a.values, 2, k ? 9 : 4));
    }
    need_all(&l, &parts[0], &parts[1], 2);
    join_with(&parts[0], &parts[1], pairs, &l, &j);
    j.made.n = j.sizes[0];
    j.made.m = j.sizes[1];
    j.made.limit = LIMIT;
    settle(koralimbu_assign, &j.made, &a);
    expect("two panels joined", a.number, KORALIMBU_ACCEPTED);
    check("two panels joined", a.report[0] == KORALIMBU_FITTED && all_are(a.values, 3, 6));
}

/* ---------------------------------------------------------------- the join's null pointers */

/* The six lists of a column, from a place on, without one of them. */
#define COLUMN(p, place) \
    LENT(place, (p).lower, 1), LENT((place) + 1, (p).upper, 1), LENT((place) + 2, (p).low, 1), LENT((place) + 3, (p).high, 1), \
    LENT((place) + 4, (p).given, 1), LENT((place) + 5, (p).ideals, 1)

/* One column each without rows, joined by a pair, without one of the twenty lists. */
static uint32_t join_without(int none)
{
    static struct posed p, made;
    size_t pairs[] = {1, 1}, sizes[KORALIMBU_JOINED_COUNT];

    pose(&p, 1, 0);
    return koralimbu_join(1, 0, NULL, 0, NULL, 0, COLUMN(p, 0), 1, 0, NULL, 0, NULL, 0, COLUMN(p, 6), LENT(12, pairs, 2),
                          NULL, 0, NULL, 0, COLUMN(made, 13), LENT(19, sizes, KORALIMBU_JOINED_COUNT));
}

#define NO_LISTS NULL, 0, NULL, 0, NULL, 0, NULL, 0, NULL, 0, NULL, 0, NULL, 0, NULL, 0

static void try_join_null_pointers(void)
{
    size_t sizes[KORALIMBU_JOINED_COUNT];
    int none;

    expect("null rows of no row in a join", join_without(-1), KORALIMBU_ACCEPTED);
    for (none = 0; none < 20; none++)
        expect("a null list of a join", join_without(none), KORALIMBU_REFUSED_LENGTH);
    expect("a join of no columns and every list null",
           koralimbu_join(0, 0, NO_LISTS, 0, 0, NO_LISTS, NULL, 0, NO_LISTS, sizes, KORALIMBU_JOINED_COUNT), KORALIMBU_REFUSED_SIZE);
    expect("a join of a column each and every list null",
           koralimbu_join(1, 0, NO_LISTS, 1, 0, NO_LISTS, NULL, 0, NO_LISTS, sizes, KORALIMBU_JOINED_COUNT), KORALIMBU_REFUSED_LENGTH);
    expect("a join with every list null, the sizes too",
           koralimbu_join(0, 0, NO_LISTS, 0, 0, NO_LISTS, NULL, 0, NO_LISTS, NULL, 0), KORALIMBU_REFUSED_LENGTH);
}

static void try_joins(void)
{
    try_join_lists();
    try_join_places();
    try_shared_columns();
    try_join_order();
    try_join_parts();
    try_join_counts();
    try_join_sizes();
    try_pairs();
    try_pair_bounds();
    try_joined_size();
    try_joined_assigned();
    try_join_null_pointers();
}

/* ---------------------------------------------------------------- threads */

/* What one thread does: all five calls, on texts, a problem and a part that all threads read. The part is joined with itself. */
struct work {
    const struct posed *posed, *part;
    size_t rounds;
    struct answer assigned, continued;
    struct seen seen;
    struct deck deck, swept;
    struct joined joined;
};

static void *work(void *given)
{
    static const size_t pairs[] = {1, 2};
    struct work *w = given;
    struct lent lent;
    size_t k;

    need_all(&lent, w->part, w->part, 2);
    for (k = 0; k < w->rounds; k++) {
        read_text((const uint8_t *)paving, sizeof paving - 1, &w->deck);
        read_text((const uint8_t *)swept, sizeof swept - 1, &w->swept);
        settle(koralimbu_assign, w->posed, &w->assigned);
        settle(koralimbu_continue, w->posed, &w->continued);
        look(w->posed, &w->seen);
        join_with(w->part, w->part, pairs, &lent, &w->joined);
    }
    return NULL;
}

static int same(const struct work *a, const struct work *b)
{
    return memcmp(&a->assigned, &b->assigned, sizeof a->assigned) == 0
           && memcmp(&a->continued, &b->continued, sizeof a->continued) == 0
           && memcmp(&a->seen, &b->seen, sizeof a->seen) == 0 && memcmp(&a->deck, &b->deck, sizeof a->deck) == 0
           && memcmp(&a->swept, &b->swept, sizeof a->swept) == 0 && memcmp(&a->joined, &b->joined, sizeof a->joined) == 0;
}

/* The largest problem, of pairs v(2k) = v(2k + 1) whose bounds begin far from each other, so that it takes many steps. */
static void pose_pairs(struct posed *p)
{
    size_t k, n = KORALIMBU_MOST_COLUMNS;

    pose(p, n, KORALIMBU_MOST_ROWS);
    for (k = 0; k + 1 < n; k += 2) {
        p->coefficients[k / 2 * n + k] = 1;
        p->coefficients[k / 2 * n + k + 1] = -1;
        p->upper[k] = p->upper[k + 1] = 1000;
        p->lower[k + 1] = 20 + (int64_t)k;
    }
}

static void try_threads(const struct posed *p, const struct work *alone)
{
    static struct work works[THREADS];
    pthread_t threads[THREADS];
    size_t k, started;

    for (started = 0; started < THREADS; started++) {
        works[started].posed = p;
        works[started].part = alone->part;
        works[started].rounds = ROUNDS;
        if (pthread_create(&threads[started], NULL, work, &works[started]) != 0)
            break;
    }
    check("starting the threads", started == THREADS);
    for (k = 0; k < started; k++) {
        pthread_join(threads[k], NULL);
        check("a thread's answers", same(&works[k], alone));
    }
}

/* The calls on a stack of KORALIMBU_MOST_STACK bytes and of what a thread itself needs. */
static void try_small_stack(const struct posed *p, const struct work *alone)
{
    static struct work small;
    pthread_attr_t attributes;
    pthread_t thread;
    int started;

    small.posed = p;
    small.part = alone->part;
    small.rounds = 1;
    pthread_attr_init(&attributes);
    started = pthread_attr_setstacksize(&attributes, KORALIMBU_MOST_STACK + (size_t)PTHREAD_STACK_MIN) == 0
              && pthread_create(&thread, &attributes, work, &small) == 0;
    check("starting a thread with a small stack", started);
    if (started)
        pthread_join(thread, NULL);
    pthread_attr_destroy(&attributes);
    check("the answers on a small stack", started && same(&small, alone));
}

static void try_many_steps(void)
{
    static struct posed pairs, part;
    static struct work alone;

    pose_pairs(&pairs);
    /* Joined with itself it has the most rows, and by the one pair a column less than the most. */
    pose_part(&part, KORALIMBU_MOST_COLUMNS / 2, KORALIMBU_MOST_ROWS / 2, 100);
    alone.posed = &pairs;
    alone.part = &part;
    alone.rounds = 1;
    work(&alone);
    expect("many steps", alone.assigned.number, KORALIMBU_ACCEPTED);
    check("both decks", alone.deck.number == KORALIMBU_ACCEPTED && alone.swept.number == KORALIMBU_ACCEPTED);
    check("many steps towards the bounds", alone.assigned.report[1] > 1000 && alone.continued.report[1] > 1000);
    check("the largest join", alone.joined.number == KORALIMBU_ACCEPTED && alone.joined.sizes[1] == KORALIMBU_MOST_ROWS);
    check("the first of them", alone.seen.number == KORALIMBU_ACCEPTED && alone.seen.report[0] == KORALIMBU_PART_BOUNDS);
    previewed("the first of many steps", &pairs, KORALIMBU_ACCEPTED);
    try_threads(&pairs, &alone);
    try_small_stack(&pairs, &alone);
}

int main(void)
{
    /* Whole lines, so that a call that crashes leaves what was found before it. */
    setvbuf(stdout, NULL, _IOLBF, BUFSIZ);
    expect("the version", koralimbu_version(), KORALIMBU_VERSION);
    try_null_pointers();
    try_sizes();
    try_ranges();
    try_m();
    try_verdicts();
    try_report();
    try_rounds();
    try_progress();
    try_a_run();
    try_a_pair();
    try_preview_counts();
    try_goal_ideals();
    try_goal_ratios();
    try_goal_pairs();
    try_ideals();
    try_no_ideal();
    try_far_ideal();
    try_unused_ideals();
    try_list_counts();
    try_deck_goal_places();
    try_deck_goals();
    try_deck_ideals();
    try_most_neighbours();
    try_deck_list_counts();
    try_deck_limits();
    try_deck_sizes();
    try_path_rows();
    try_path_ideals();
    try_volume_refusals();
    try_volume_layouts();
    try_path_limits();
    try_joins();
    try_many_steps();
    printf("%d passed, %d failed\n", passed, failed);
    return failed != 0;
}
