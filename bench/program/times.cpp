// Times: every engine and library in turn, several rounds.
#include <algorithm>
#include <chrono>
#include <cstdio>

#include "engines.h"
#include "koralimbu.h"
#include "modes.h"

// How long the calls of one round take together, at least; and from where on a single call is enough.
static const double ROUND_MICROSECONDS = 1000;
static const double LONG_MICROSECONDS = 200000;

static double now() {
    auto since = std::chrono::steady_clock::now().time_since_epoch();
    return std::chrono::duration<double, std::micro>(since).count();
}

namespace {

struct Entry {
    std::string name, note;
    std::unique_ptr<Work> work;
    size_t calls;
    std::vector<double> times;

    Entry(const std::string &name, std::unique_ptr<Work> work) : name(name), work(std::move(work)), calls(1) {}

    // The time of one call, of as many as a round has.
    double measure() {
        double start = now();
        for (size_t i = 0; i < calls; i++) {
            work->run();
        }
        return (now() - start) / calls;
    }

    // The first call, which is checked; then as many calls to a round as make it long enough. The first call is too slow to tell.
    void first(const Answer &ours) {
        double time = measure();
        note = work->note(ours);
        if (time > LONG_MICROSECONDS) {
            times.push_back(time);
            calls = 0;
            return;
        }
        while (measure() * calls < ROUND_MICROSECONDS) {
            calls *= 2;
        }
    }

    // The time of each round.
    std::string told() {
        std::string words;
        for (double time : times) {
            char word[32];
            snprintf(word, sizeof word, "%s%.4f", words.empty() ? "" : " ", time);
            words += word;
        }
        return words;
    }
};

}  // namespace

static std::vector<Entry> entries_for(const Deck &deck) {
    std::vector<Entry> list;
    // The engines' whole calls right after each other, since they are compared round by round.
    for (const Engine &engine : engines()) {
        list.emplace_back(engine.name, whole(engine, deck));
    }
    for (const Engine &engine : engines()) {
        list.emplace_back(std::string(engine.name) + " form", form(engine, deck));
    }
#ifdef WITH_FLINT
    list.emplace_back("flint form", flint_form(deck));
#endif
#ifdef WITH_PARI
    list.emplace_back("pari form", pari_form(deck));
#endif
#ifdef WITH_GLPK
    list.emplace_back("glpk sum", glpk_solve(deck, Aim::Sum));
    list.emplace_back("glpk largest", glpk_solve(deck, Aim::Largest));
#endif
#ifdef WITH_LPSOLVE
    list.emplace_back("lpsolve sum", lpsolve_solve(deck, Aim::Sum));
    list.emplace_back("lpsolve largest", lpsolve_solve(deck, Aim::Largest));
#endif
    return list;
}

// The basis has the rows of the form whose first m numbers are 0.
static size_t basis_size(const Deck &deck, const Answer &answer) {
    size_t count = 0;
    for (size_t j = 0; j < deck.n; j++) {
        auto row = answer.tableau.begin() + j * (deck.m + deck.n);
        count += std::all_of(row, row + deck.m, [](int64_t number) { return number == 0; });
    }
    return count;
}

void print_versions() {
#ifdef WITH_FLINT
    printf("version\t%s\n", which_flint().c_str());
#endif
#ifdef WITH_PARI
    printf("version\t%s\n", which_pari().c_str());
#endif
#ifdef WITH_GLPK
    printf("version\t%s\n", which_glpk().c_str());
#endif
#ifdef WITH_LPSOLVE
    printf("version\t%s\n", which_lpsolve().c_str());
#endif
}

static void print_answer(const Deck &deck, const Answer &a) {
    printf("answer\t%s\t%zu\t%zu\t%zu\t%u\t%u\t%u\t%u\n", deck.name.c_str(), deck.n, deck.m, basis_size(deck, a), a.number, a.report[0],
           a.report[1], a.report[2]);
}

void time_deck(const Deck &deck, int rounds) {
    Answer ours = room_for(deck);
    assign(koralimbu_assign, deck, ours);
    print_answer(deck, ours);
    std::vector<Entry> entries = entries_for(deck);
    for (Entry &entry : entries) {
        entry.first(ours);
    }
    for (int round = 0; round < rounds; round++) {
        for (Entry &entry : entries) {
            if (entry.calls > 0) {
                entry.times.push_back(entry.measure());
            }
        }
    }
    for (Entry &entry : entries) {
        printf("time\t%s\t%s\t%s\t%s\n", deck.name.c_str(), entry.name.c_str(), entry.told().c_str(), entry.note.c_str());
    }
    fflush(stdout);
}
