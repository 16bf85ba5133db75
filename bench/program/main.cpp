// The timing program.
//
//   timing versions                the libraries that it was built with
//   timing times ROUNDS DECK...    every engine and library on every deck, in turn, ROUNDS times; medians
//   timing counts DECK...          one whole assignment per deck and engine, with a dump for callgrind after each
//   timing forms DECK...           the same with the form alone
//   timing stack DECK...           how much stack one whole assignment takes
//
// A DECK is a file of numbers: n, m, the limit, then coefficients, right sides, lower bounds, upper bounds, low goals, high goals, and of the
// ideals whether they are set and what they are. What is printed is lines of fields parted by tabs; run.py makes the table of them.
#include <cstdio>
#include <cstdlib>
#include <cstring>
#include <fstream>

#include "modes.h"

void stop(const std::string &what) {
    fprintf(stderr, "timing: %s\n", what.c_str());
    exit(1);
}

static std::vector<int64_t> numbers(std::ifstream &file, size_t count) {
    std::vector<int64_t> list(count);
    for (int64_t &number : list) {
        file >> number;
    }
    return list;
}

static std::string name_of(const std::string &path) {
    std::string name = path.substr(path.rfind('/') + 1);
    return name.substr(0, name.rfind('.'));
}

static Deck read_deck(const std::string &path) {
    std::ifstream file(path);
    Deck deck;
    deck.name = name_of(path);
    file >> deck.n >> deck.m >> deck.limit;
    deck.coefficients = numbers(file, deck.n * deck.m);
    deck.rights = numbers(file, deck.m);
    deck.lower = numbers(file, deck.n);
    deck.upper = numbers(file, deck.n);
    deck.low = numbers(file, deck.n);
    deck.high = numbers(file, deck.n);
    deck.given = numbers(file, deck.n);
    deck.ideals = numbers(file, deck.n);
    // The engines in Rust make slices of these, whose pointers are never null.
    deck.coefficients.reserve(1);
    deck.rights.reserve(1);
    if (!file) {
        stop(path + ": not a deck's numbers");
    }
    return deck;
}

int main(int count, char **words) {
    std::string mode = count > 1 ? words[1] : "";
    int first = mode == "times" ? 3 : 2;
    if (count < first) {
        stop("see the head of main.cpp");
    }
    if (mode == "versions") {
        print_versions();
        return 0;
    }
    for (int i = first; i < count; i++) {
        Deck deck = read_deck(words[i]);
        if (mode == "times") {
            time_deck(deck, atoi(words[2]));
        } else if (mode == "counts") {
            count_whole(deck);
        } else if (mode == "forms") {
            count_form(deck);
        } else if (mode == "stack") {
            measure_stack(deck);
        } else {
            stop("no such mode: " + mode);
        }
    }
}
