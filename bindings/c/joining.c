/* Two blocks, read from their decks and joined where they share curves, assigned as one problem; then the share of each block.
 *
 *     joining FIRST SECOND [COLUMN COLUMN]..
 *
 * Each two columns are a pair, one of the first deck and the one of the second that is the same curve, with their numbers of the listing. Below
 * the verdict each block has a line for each of its columns, as in the listing; those in a pair are marked.
 */
#include <inttypes.h>
#include <stdio.h>
#include <stdlib.h>

#include "koralimbu.h"

/* The step limit of the listing program. */
#define LIMIT 10000
/* One byte more than a text may have, so that a longer one is refused and not cut. */
#define ROOM (KORALIMBU_MOST_TEXT + 1)
/* Room for a pair too many, which is refused. */
#define NUMBERS (2 * KORALIMBU_MOST_COLUMNS + 2)

/* A problem in lists of the largest size. A deck has no more columns and rows than a problem may have. */
struct problem {
    size_t n, m;
    int64_t coefficients[KORALIMBU_MOST_COEFFICIENTS], rights[KORALIMBU_MOST_ROWS];
    int64_t lower[KORALIMBU_MOST_COLUMNS], upper[KORALIMBU_MOST_COLUMNS];
    int64_t low[KORALIMBU_MOST_COLUMNS], high[KORALIMBU_MOST_COLUMNS];
    int64_t given[KORALIMBU_MOST_COLUMNS], ideals[KORALIMBU_MOST_COLUMNS];
};

/* The eight lists of a problem with the counts that its n and m need, in the order of the calls. */
#define LISTS(p) \
    (p).coefficients, (p).m * (p).n, (p).rights, (p).m, (p).lower, (p).n, (p).upper, (p).n, \
    (p).low, (p).n, (p).high, (p).n, (p).given, (p).n, (p).ideals, (p).n

static struct problem first, second, joined;
static size_t pairs[NUMBERS], pairs_count;
static int64_t tableau[KORALIMBU_MOST_TABLEAU], values[KORALIMBU_MOST_COLUMNS];
static uint64_t strides[KORALIMBU_MOST_COLUMNS];

/* Fills text from a file; returns 0 where that cannot be read. */
static int load(const char *name, uint8_t text[ROOM], size_t *count)
{
    FILE *file = fopen(name, "rb");
    int loaded;

    if (file == NULL)
        return 0;
    *count = fread(text, 1, ROOM, file);
    loaded = !ferror(file);
    fclose(file);
    return loaded;
}

/* Reads the deck of a file, and ends the program where there is none. */
static void read_block(const char *name, struct problem *block)
{
    static uint8_t text[ROOM];
    size_t sizes[KORALIMBU_SIZES_COUNT], count;
    uint32_t number;

    if (!load(name, text, &count)) {
        perror(name);
        exit(1);
    }
    number = koralimbu_read(text, count, block->coefficients, KORALIMBU_DECK_COEFFICIENTS, block->rights, KORALIMBU_DECK_ROWS,
                            block->lower, KORALIMBU_DECK_COLUMNS, block->upper, KORALIMBU_DECK_COLUMNS,
                            block->low, KORALIMBU_DECK_COLUMNS, block->high, KORALIMBU_DECK_COLUMNS,
                            block->given, KORALIMBU_DECK_COLUMNS, block->ideals, KORALIMBU_DECK_COLUMNS,
                            sizes, KORALIMBU_SIZES_COUNT);
    if (number != KORALIMBU_ACCEPTED) {
        fprintf(stderr, "%s: refused with %" PRIu32 "\n", name, number);
        exit(1);
    }
    block->n = sizes[0];
    block->m = sizes[1];
}

/* Takes the pairs from the command line; returns 0 where a word is no number, or there are more than ever fit. */
static int take_pairs(int count, char **words)
{
    char *end;

    for (; count > 0; count--, words++) {
        if (pairs_count == NUMBERS || **words < '0' || **words > '9')
            return 0;
        pairs[pairs_count++] = strtoul(*words, &end, 10);
        if (*end != '\0')
            return 0;
    }
    return 1;
}

/* Joins the blocks and assigns what they make. Returns the last call's number. */
static uint32_t solve(uint32_t report[KORALIMBU_REPORT_COUNT])
{
    size_t sizes[KORALIMBU_JOINED_COUNT];
    uint32_t number;

    joined.n = first.n + second.n - pairs_count / 2;
    joined.m = first.m + second.m;
    /* What is too large is refused, and lent no room. */
    if (joined.n > KORALIMBU_MOST_COLUMNS || joined.m > KORALIMBU_MOST_ROWS)
        joined.n = joined.m = 0;
    number = koralimbu_join(first.n, first.m, LISTS(first), second.n, second.m, LISTS(second), pairs, pairs_count, LISTS(joined),
                            sizes, KORALIMBU_JOINED_COUNT);
    if (number != KORALIMBU_ACCEPTED)
        return number;
    return koralimbu_assign(joined.n, joined.m, LIMIT, LISTS(joined), tableau, joined.n * (joined.m + joined.n), values, joined.n,
                            strides, joined.n, report, KORALIMBU_REPORT_COUNT);
}

/* The pair that has a column of a block, counted from 1: of the first, side 0, or of the second, side 1. Without one it is pairs_count. */
static size_t pair_of(size_t side, size_t column)
{
    size_t k;

    for (k = 0; k < pairs_count && pairs[k + side] != column; k += 2)
        ;
    return k;
}

/* Prints a block's columns below its name. Those of the second that are not shared follow the first's. */
static void list(const char *name, size_t side, size_t n)
{
    size_t j, k, place, next = first.n;

    printf("%s\n", name);
    for (j = 0; j < n; j++) {
        k = pair_of(side, j + 1);
        place = side == 0 ? j : k < pairs_count ? pairs[k] - 1 : next++;
        printf("%zu %" PRId64 " %" PRIu64 "%s\n", j + 1, values[place], strides[place], k < pairs_count ? " shared" : "");
    }
}

int main(int argc, char **argv)
{
    static const char *const verdicts[] = {
        [KORALIMBU_FITTED] = "FITTED", [KORALIMBU_OUTSIDE] = "OUTSIDE", [KORALIMBU_SPENT] = "SPENT"};
    uint32_t report[KORALIMBU_REPORT_COUNT], number;

    if (koralimbu_version() != KORALIMBU_VERSION) {
        fprintf(stderr, "koralimbu.h and libkoralimbu.a are of different versions\n");
        return 1;
    }
    if (argc < 3 || !take_pairs(argc - 3, argv + 3)) {
        fprintf(stderr, "usage: joining FIRST SECOND [COLUMN COLUMN]..\n");
        return 1;
    }
    read_block(argv[1], &first);
    read_block(argv[2], &second);
    number = solve(report);
    if (number == KORALIMBU_REFUSED_NONE) {
        printf("NONE\n");
    } else if (number != KORALIMBU_ACCEPTED) {
        printf("REFUSED %" PRIu32 "\n", number);
    } else {
        printf("%s %" PRIu32 " %" PRIu32 "\n", verdicts[report[0]], report[1], report[2]);
        list("first block", 0, first.n);
        list("second block", 1, second.n);
    }
    return 0;
}
