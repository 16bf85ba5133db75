// The calls from C++, linked, so that a declaration without C's linkage is found. An empty std::vector is lent as it is, null or not.
// Prints a line for each check that fails, and last 'N passed, M failed'.
#include <cstdio>
#include <vector>

#include "koralimbu.h"

static int passed, failed;

static void expect(const char *what, uint32_t returned, uint32_t wanted) {
    if (returned == wanted) {
        passed++;
    } else {
        failed++;
        std::printf("%s: returned %lu, not %lu\n", what, static_cast<unsigned long>(returned), static_cast<unsigned long>(wanted));
    }
}

using Engine = decltype(koralimbu_assign);

// A column with bounds 3 and 5 and a stride of 1, without rows: the lists of rows are empty. An assignment seats it by its ideal.
static uint32_t without_rows(Engine *call, const std::vector<int64_t> &given, int64_t wanted) {
    std::vector<int64_t> coefficients, rights, lower{3}, upper{5}, low{0}, high{0}, tableau(1), values{4};
    const std::vector<int64_t> ideals{INT64_MAX};
    std::vector<uint64_t> strides(1);
    std::vector<uint32_t> report(KORALIMBU_REPORT_COUNT);
    uint32_t number = call(lower.size(), rights.size(), 0, coefficients.data(), coefficients.size(), rights.data(), rights.size(),
                           lower.data(), lower.size(), upper.data(), upper.size(), low.data(), low.size(),
                           high.data(), high.size(), given.data(), given.size(), ideals.data(), ideals.size(),
                           tableau.data(), tableau.size(), values.data(), values.size(), strides.data(), strides.size(),
                           report.data(), report.size());
    expect("the verdict without rows", report[0], number == KORALIMBU_ACCEPTED ? KORALIMBU_FITTED : 0);
    expect("the rounds without rows", report[3], number == KORALIMBU_ACCEPTED ? 1 : 0);
    expect("the value without rows", values[0] == wanted, true);
    return number;
}

// The preview of the same column below its bounds.
static uint32_t preview_without_rows() {
    std::vector<int64_t> coefficients, rights, lower{3}, upper{5}, low{0}, high{0}, tableau(1), after(1);
    const std::vector<int64_t> given{1}, ideals{5}, standing{2};
    std::vector<uint64_t> strides(1);
    std::vector<uint32_t> report(KORALIMBU_PREVIEW_COUNT);
    uint32_t number = koralimbu_preview(lower.size(), rights.size(), coefficients.data(), coefficients.size(), rights.data(), rights.size(),
                                        lower.data(), lower.size(), upper.data(), upper.size(), low.data(), low.size(),
                                        high.data(), high.size(), given.data(), given.size(), ideals.data(), ideals.size(),
                                        standing.data(), standing.size(), tableau.data(), tableau.size(), after.data(), after.size(),
                                        strides.data(), strides.size(), report.data(), report.size());
    const std::vector<uint32_t> step_and_rounds{KORALIMBU_PART_BOUNDS, 1, 1, KORALIMBU_SIGN_PLUS, 0, 0, 1};
    expect("the step of a preview, and its rounds", report == step_and_rounds, true);
    expect("the list after it", after == lower, true);
    return number;
}

static uint32_t all_empty(Engine *call) {
    std::vector<int64_t> none;
    std::vector<uint64_t> strides;
    std::vector<uint32_t> report;
    return call(1, 0, 0, none.data(), 0, none.data(), 0, none.data(), 0, none.data(), 0, none.data(), 0, none.data(), 0,
                none.data(), 0, none.data(), 0, none.data(), 0, none.data(), 0, strides.data(), 0, report.data(), 0);
}

static uint32_t preview_all_empty() {
    std::vector<int64_t> none;
    std::vector<uint64_t> strides;
    std::vector<uint32_t> report;
    return koralimbu_preview(1, 0, none.data(), 0, none.data(), 0, none.data(), 0, none.data(), 0, none.data(), 0, none.data(), 0,
                             none.data(), 0, none.data(), 0, none.data(), 0, none.data(), 0, none.data(), 0, strides.data(), 0,
                             report.data(), 0);
}

// A text read into vectors of the largest size, and the ideals that are then handed in for its columns.
static uint32_t read_text(const std::vector<uint8_t> &text, std::vector<int64_t> &given, std::vector<int64_t> &ideals) {
    std::vector<int64_t> coefficients(KORALIMBU_DECK_COEFFICIENTS), rights(KORALIMBU_DECK_ROWS);
    std::vector<int64_t> lower(KORALIMBU_DECK_COLUMNS), upper(KORALIMBU_DECK_COLUMNS);
    std::vector<int64_t> low(KORALIMBU_DECK_COLUMNS), high(KORALIMBU_DECK_COLUMNS);
    std::vector<size_t> sizes(KORALIMBU_SIZES_COUNT);
    return koralimbu_read(text.data(), text.size(), coefficients.data(), coefficients.size(), rights.data(), rights.size(),
                          lower.data(), lower.size(), upper.data(), upper.size(), low.data(), low.size(), high.data(), high.size(),
                          given.data(), given.size(), ideals.data(), ideals.size(), sizes.data(), sizes.size());
}

static void read_texts() {
    static const char deck[] = "2 1 9 0 0 1 9 7000 7000 1 0 0 2 1 1 2 -1 0";
    std::vector<int64_t> given(KORALIMBU_DECK_COLUMNS), ideals(KORALIMBU_DECK_COLUMNS), none;
    expect("an empty text", read_text({}, given, ideals), KORALIMBU_REFUSED_LAYOUT);
    expect("a text and no room for ideals", read_text({}, none, none), KORALIMBU_REFUSED_LENGTH);
    expect("a text", read_text(std::vector<uint8_t>(deck, deck + sizeof deck - 1), given, ideals), KORALIMBU_ACCEPTED);
    expect("a plain curve's ideal", given[0] == 1 && ideals[0] == 7, true);
    expect("no other ideal", given[1] == 0 && ideals[1] == 0, true);
    static const char shared[] = "2 1 9 0 0 1 9 4000 9000 1 0 0 2 1 1 2 -1 0", above[] = "2 1 9 0 0 1 9 9000 4000 1 0 0 2 1 1 2 -1 0";
    expect("a curve of two parts", read_text(std::vector<uint8_t>(shared, shared + sizeof shared - 1), given, ideals), KORALIMBU_ACCEPTED);
    expect("the ideal beside it", given[0] == 1 && ideals[0] == 6, true);
    expect("a low goal above the high one", read_text(std::vector<uint8_t>(above, above + sizeof above - 1), given, ideals), KORALIMBU_REFUSED_GOAL);
    static const char swept[] = "2 1 9 5000 5000 1 9 0 0 0 1 2 1 1 1 2", twice[] = "2 1 9 5000 5000 1 9 0 0 0 1 2 1 1 2 2 2";
    expect("a swept volume", read_text(std::vector<uint8_t>(swept, swept + sizeof swept - 1), given, ideals), KORALIMBU_ACCEPTED);
    expect("an ideal along a path", given[1] == 1 && ideals[1] == 5, true);
    expect("a curve twice in a path", read_text(std::vector<uint8_t>(twice, twice + sizeof twice - 1), given, ideals), KORALIMBU_REFUSED_VOLUME);
}

// A problem in vectors: v1 = v2 with these bounds and goals, or one column without rows.
struct Part {
    std::vector<int64_t> coefficients, rights, lower, upper, low, high, given, ideals;
};

static Part panel(int64_t least, int64_t most, int64_t goal) {
    return {{1, -1}, {0}, {least, least}, {most, most}, {goal, goal}, {goal, goal}, {0, 0}, {0, 0}};
}

static Part column(int64_t least, int64_t most) {
    return {{}, {}, {least}, {most}, {0}, {0}, {1}, {7}};
}

static uint32_t join(const Part &first, const Part &second, const std::vector<size_t> &pairs, Part &made, std::vector<size_t> &sizes) {
    return koralimbu_join(first.lower.size(), first.rights.size(), first.coefficients.data(), first.coefficients.size(),
                          first.rights.data(), first.rights.size(), first.lower.data(), first.lower.size(), first.upper.data(), first.upper.size(),
                          first.low.data(), first.low.size(), first.high.data(), first.high.size(), first.given.data(), first.given.size(),
                          first.ideals.data(), first.ideals.size(), second.lower.size(), second.rights.size(),
                          second.coefficients.data(), second.coefficients.size(), second.rights.data(), second.rights.size(),
                          second.lower.data(), second.lower.size(), second.upper.data(), second.upper.size(),
                          second.low.data(), second.low.size(), second.high.data(), second.high.size(),
                          second.given.data(), second.given.size(), second.ideals.data(), second.ideals.size(), pairs.data(), pairs.size(),
                          made.coefficients.data(), made.coefficients.size(), made.rights.data(), made.rights.size(),
                          made.lower.data(), made.lower.size(), made.upper.data(), made.upper.size(), made.low.data(), made.low.size(),
                          made.high.data(), made.high.size(), made.given.data(), made.given.size(), made.ideals.data(), made.ideals.size(),
                          sizes.data(), sizes.size());
}

// Lists for n columns and m rows, as they are before a join.
static Part lent(size_t n, size_t m) {
    const std::vector<int64_t> marks(n, -7);
    return {std::vector<int64_t>(m * n, -7), std::vector<int64_t>(m, -7), marks, marks, marks, marks, marks, marks};
}

static bool same(const Part &a, const Part &b) {
    return a.coefficients == b.coefficients && a.rights == b.rights && a.lower == b.lower && a.upper == b.upper && a.low == b.low
           && a.high == b.high && a.given == b.given && a.ideals == b.ideals;
}

// The join is refused, the lists are as they were, and the sizes are 0.
static void refuses(const char *what, const Part &first, const Part &second, const std::vector<size_t> &pairs, uint32_t wanted) {
    std::vector<size_t> sizes{9, 9};
    Part made = lent(3, 2);
    expect(what, join(first, second, pairs, made, sizes), wanted);
    expect(what, same(made, lent(3, 2)) && sizes == std::vector<size_t>{0, 0}, true);
}

static void join_parts() {
    std::vector<size_t> sizes{9, 9}, none;
    Part made = lent(3, 2);
    const Part joined{{1, -1, 0, 0, 1, -1}, {0, 0}, {1, 3, 3}, {8, 8, 9}, {4000, 4000, 9000}, {4000, 9000, 9000}, {0, 0, 0}, {0, 0, 0}};
    expect("two panels", join(panel(1, 8, 4000), panel(3, 9, 9000), {2, 1}, made, sizes), KORALIMBU_ACCEPTED);
    expect("the joined panels", same(made, joined) && sizes == std::vector<size_t>{3, 2}, true);
    made = lent(2, 0);
    expect("columns without rows and an empty list of pairs", join(column(1, 8), column(3, 9), {}, made, sizes), KORALIMBU_ACCEPTED);
    expect("both columns", same(made, {{}, {}, {1, 3}, {8, 9}, {0, 0}, {0, 0}, {1, 1}, {7, 7}}) && sizes == std::vector<size_t>{2, 0}, true);
    refuses("no columns", {}, {}, {}, KORALIMBU_REFUSED_SIZE);
    refuses("half a pair", panel(1, 8, 4000), panel(3, 9, 9000), {2}, KORALIMBU_REFUSED_LENGTH);
    refuses("a column outside", panel(1, 8, 4000), panel(3, 9, 9000), {2, 0}, KORALIMBU_REFUSED_PAIR);
    refuses("a column used before", panel(1, 8, 4000), panel(3, 9, 9000), {1, 1, 1, 2}, KORALIMBU_REFUSED_PAIR);
    refuses("bounds that leave nothing", panel(1, 2, 4000), panel(3, 9, 9000), {2, 1}, KORALIMBU_REFUSED_PAIR_BOUNDS);
    refuses("a goal with a lower bound of 0", panel(1, 8, 4000), panel(0, 9, 9000), {2, 1}, KORALIMBU_REFUSED_GOAL);
    refuses("lists for a pair and no pair", panel(1, 8, 4000), panel(3, 9, 9000), {}, KORALIMBU_REFUSED_LENGTH);
    expect("no sizes", join(panel(1, 8, 4000), panel(3, 9, 9000), {2, 1}, made, none), KORALIMBU_REFUSED_LENGTH);
}

int main() {
    expect("the version", koralimbu_version(), KORALIMBU_VERSION);
    for (Engine *call : {koralimbu_assign, koralimbu_continue}) {
        const bool seats = call == koralimbu_assign;
        expect("no rows and no ideal", without_rows(call, {0}, seats ? 3 : 4), KORALIMBU_ACCEPTED);
        expect("no rows and an ideal", without_rows(call, {INT64_MIN}, seats ? 5 : 4), KORALIMBU_ACCEPTED);
        expect("no marks of ideals", without_rows(call, {}, 4), KORALIMBU_REFUSED_LENGTH);
        expect("a mark too many", without_rows(call, {0, 0}, 4), KORALIMBU_REFUSED_LENGTH);
        expect("empty vectors", all_empty(call), KORALIMBU_REFUSED_LENGTH);
    }
    expect("a preview without rows", preview_without_rows(), KORALIMBU_ACCEPTED);
    expect("a preview of empty vectors", preview_all_empty(), KORALIMBU_REFUSED_LENGTH);
    read_texts();
    join_parts();
    std::printf("%d passed, %d failed\n", passed, failed);
    return failed != 0;
}
