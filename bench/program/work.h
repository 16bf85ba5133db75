// What the timing program times: a deck's numbers, and one engine's or library's work on them.
#pragma once

#include <cstddef>
#include <cstdint>
#include <memory>
#include <string>
#include <vector>

struct Deck {
    std::string name;
    size_t n, m;
    uint32_t limit;
    std::vector<int64_t> coefficients, rights, lower, upper, low, high, given, ideals;
};

// What a whole assignment leaves.
struct Answer {
    uint32_t number;
    std::vector<uint32_t> report;
    std::vector<int64_t> tableau, values;
    std::vector<uint64_t> strides;
};

class Work {
public:
    virtual ~Work() {}

    // One call; this alone is timed.
    virtual void run() = 0;

    // After a call: a word to print beside the time, or none. Stops the program where the result must be ours and is not.
    virtual std::string note(const Answer &ours) = 0;
};

// Says what is wrong with a deck and ends the program.
void stop(const std::string &what);

// What an integer program brings down: the sum of the columns' deviations from their goals, or the largest of them.
enum class Aim { Sum, Largest };

std::unique_ptr<Work> flint_form(const Deck &deck);
std::unique_ptr<Work> pari_form(const Deck &deck);
std::unique_ptr<Work> glpk_solve(const Deck &deck, Aim aim);
std::unique_ptr<Work> lpsolve_solve(const Deck &deck, Aim aim);

// The libraries' names with their versions.
std::string which_flint();
std::string which_pari();
std::string which_glpk();
std::string which_lpsolve();
