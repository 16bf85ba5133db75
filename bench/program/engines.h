// The three engines, called alike.
#pragma once

#include "work.h"

using Assign = uint32_t (*)(size_t, size_t, uint32_t, const int64_t *, size_t, const int64_t *, size_t, const int64_t *, size_t,
                            const int64_t *, size_t, const int64_t *, size_t, const int64_t *, size_t, const int64_t *, size_t,
                            const int64_t *, size_t, int64_t *, size_t, int64_t *, size_t, uint64_t *, size_t, uint32_t *, size_t);
using Form = uint32_t (*)(size_t, size_t, const int64_t *, int64_t *);

// The proved engine has no form of its own over C's boundary.
struct Engine {
    const char *name;
    Assign assign;
    Form form;
};

// The proved engine first, then the unverified ones, where they were built.
const std::vector<Engine> &engines();

// Empty buffers for a deck's answer.
Answer room_for(const Deck &deck);

// One whole assignment.
void assign(Assign engine, const Deck &deck, Answer &answer);

// The same rows with right sides 0, far bounds, no goals, no ideals and no steps: nothing is seated and nothing settled.
Deck rows_alone(const Deck &deck);

std::unique_ptr<Work> whole(const Engine &engine, const Deck &deck);

// The form alone; by the proved engine as a whole assignment of the rows alone.
std::unique_ptr<Work> form(const Engine &engine, const Deck &deck);
