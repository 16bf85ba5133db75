// Counts: one call of each engine, with a dump for callgrind after it. Which function is counted is told to callgrind.
#include "engines.h"
#include "modes.h"

#ifdef WITH_CALLGRIND
#include <valgrind/callgrind.h>
#define DUMP(name) CALLGRIND_DUMP_STATS_AT(name)
#else
#define DUMP(name) (void)(name)
#endif

static void dump(const Deck &deck, const std::string &engine) {
    std::string name = deck.name + " " + engine;
    DUMP(name.c_str());
}

void count_whole(const Deck &deck) {
    for (const Engine &engine : engines()) {
        whole(engine, deck)->run();
        dump(deck, engine.name);
    }
}

void count_form(const Deck &deck) {
    for (const Engine &engine : engines()) {
        form(engine, deck)->run();
        dump(deck, std::string(engine.name) + " form");
    }
}
