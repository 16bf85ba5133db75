/* The listing of a deck, byte for byte as the program `listing` prints it.
 *
 *     paving [DECK]
 *
 * Without a name it is that of the paving deck below.
 */
#include <inttypes.h>
#include <stdio.h>
#include <string.h>

#include "koralimbu.h"

/* The step limit of the listing program. */
#define LIMIT 10000
/* One byte more than a text may have, so that a longer one is refused and not cut. */
#define ROOM (KORALIMBU_MOST_TEXT + 1)

static const char paving[] = "3\n"
                             "1 1000000 3000 3000\n"
                             "1 1000000 3000 3000\n"
                             "1 1000000 3000 3000\n"
                             "1\n"
                             "3 2 3 1 1 2 1 3 1\n"
                             "0\n";

static uint8_t text[ROOM];
static int64_t coefficients[KORALIMBU_DECK_COEFFICIENTS], rights[KORALIMBU_DECK_ROWS];
static int64_t lower[KORALIMBU_DECK_COLUMNS], upper[KORALIMBU_DECK_COLUMNS];
static int64_t low[KORALIMBU_DECK_COLUMNS], high[KORALIMBU_DECK_COLUMNS];
static int64_t given[KORALIMBU_DECK_COLUMNS], ideals[KORALIMBU_DECK_COLUMNS];
static int64_t tableau[KORALIMBU_MOST_TABLEAU], values[KORALIMBU_MOST_COLUMNS];
static uint64_t strides[KORALIMBU_MOST_COLUMNS];

/* Fills text from a file; returns 0 where that cannot be read. */
static int load(const char *name, size_t *count)
{
    FILE *file = fopen(name, "rb");
    int loaded;

    if (file == NULL)
        return 0;
    *count = fread(text, 1, ROOM, file);
    loaded = !ferror(file);
    fclose(file);
    return loaded;
}

/* Reads and solves the text. Returns the last call's number; where that is KORALIMBU_ACCEPTED, n is the count of columns. */
static uint32_t solve(size_t text_count, size_t *n, uint32_t report[KORALIMBU_REPORT_COUNT])
{
    size_t sizes[KORALIMBU_SIZES_COUNT], m;
    uint32_t number = koralimbu_read(text, text_count, coefficients, KORALIMBU_DECK_COEFFICIENTS,
                                     rights, KORALIMBU_DECK_ROWS, lower, KORALIMBU_DECK_COLUMNS,
                                     upper, KORALIMBU_DECK_COLUMNS, low, KORALIMBU_DECK_COLUMNS, high, KORALIMBU_DECK_COLUMNS,
                                     given, KORALIMBU_DECK_COLUMNS, ideals, KORALIMBU_DECK_COLUMNS,
                                     sizes, KORALIMBU_SIZES_COUNT);

    if (number != KORALIMBU_ACCEPTED)
        return number;
    *n = sizes[0];
    m = sizes[1];
    /* The counts are exactly what n and m need; what lies behind them is not lent. The ideals are the reader's. */
    return koralimbu_assign(*n, m, LIMIT, coefficients, m * *n, rights, m, lower, *n, upper, *n, low, *n, high, *n, given, *n, ideals, *n,
                            tableau, *n * (m + *n), values, *n, strides, *n, report, KORALIMBU_REPORT_COUNT);
}

/* Prints the n columns below the verdict. */
static void list(size_t n, const uint32_t report[KORALIMBU_REPORT_COUNT])
{
    static const char *const verdicts[] = {
        [KORALIMBU_FITTED] = "FITTED", [KORALIMBU_OUTSIDE] = "OUTSIDE", [KORALIMBU_SPENT] = "SPENT"};
    size_t j;

    printf("%s %" PRIu32 " %" PRIu32 "\n", verdicts[report[0]], report[1], report[2]);
    for (j = 0; j < n; j++)
        printf("%zu %" PRId64 " %" PRIu64 "\n", j + 1, values[j], strides[j]);
}

int main(int argc, char **argv)
{
    size_t text_count = sizeof paving - 1, n;
    uint32_t report[KORALIMBU_REPORT_COUNT], number;

    if (koralimbu_version() != KORALIMBU_VERSION) {
        fprintf(stderr, "koralimbu.h and libkoralimbu.a are of different versions\n");
        return 1;
    }
    if (argc < 2) {
        memcpy(text, paving, text_count);
    } else if (!load(argv[1], &text_count)) {
        perror(argv[1]);
        return 1;
    }
    number = solve(text_count, &n, report);
    if (number == KORALIMBU_REFUSED_NONE)
        printf("NONE\n");
    else if (number != KORALIMBU_ACCEPTED)
        printf("REFUSED %" PRIu32 "\n", number);
    else
        list(n, report);
    return 0;
}
