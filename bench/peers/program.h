// A deck as an integer program: whole v within bounds that satisfy the rows, and as near to the goals as one of two measures says: the sum of
// the larger of (v − low) / low and (high − v) / high, or the largest of them. Where both goals are g, that is |v − g| / g. Further columns d
// carry it: v − a d ≤ low and v + b d ≥ high, where for the sum each column with a goal has a d of its own that costs 1 / high, a is low / high
// and b is 1; and for the largest all share one d that costs 1, a is low and b is high.
#pragma once

#include <cmath>

#include "../program/work.h"

// How long a solver may take for one deck.
static const int LIMIT_SECONDS = 2;

enum class Outcome { Solved, CutOff, Infeasible, NoAnswer };

// A solve by one of the solvers, which fills the outcome and the values.
class Solve : public Work {
public:
    Solve(const Deck &deck, Aim aim) : deck(deck), aim(aim), outcome(Outcome::NoAnswer), values(deck.n) {
        for (size_t j = 0; j < deck.n; j++) {
            if (deck.low[j] > 0) {
                wanted.push_back(j);
            }
        }
    }

    std::string note(const Answer &ours) override {
        bool fitted = ours.number == 0 && ours.report[0] == 1;
        if (outcome == Outcome::NoAnswer) {
            return "no answer";
        }
        if (outcome == Outcome::Infeasible) {
            return fitted ? "wrong" : "infeasible";
        }
        if (!is_answer()) {
            return "wrong";
        }
        return outcome == Outcome::CutOff ? "cut off" : "";
    }

protected:
    size_t further_count() const { return aim == Aim::Sum ? wanted.size() : wanted.empty() ? 0 : 1; }

    // The column d of the k-th column with a goal, its weights a and b, its cost, and those goals.
    size_t further(size_t k) const { return deck.n + (aim == Aim::Sum ? k : 0); }
    double weight_low(size_t k) const { return aim == Aim::Sum ? low(k) / high(k) : low(k); }
    double weight_high(size_t k) const { return aim == Aim::Sum ? 1 : high(k); }
    double cost(size_t k) const { return aim == Aim::Sum ? 1 / high(k) : 1; }
    double low(size_t k) const { return deck.low[wanted[k]] / 1000.0; }
    double high(size_t k) const { return deck.high[wanted[k]] / 1000.0; }

    const Deck &deck;
    Aim aim;
    std::vector<size_t> wanted;
    Outcome outcome;
    std::vector<double> values;

private:
    // Whether the values are whole, lie in bounds and satisfy the rows.
    bool is_answer() const {
        for (size_t j = 0; j < deck.n; j++) {
            double whole = std::round(values[j]);
            if (std::fabs(values[j] - whole) > 1e-5 || whole < deck.lower[j] || whole > deck.upper[j]) {
                return false;
            }
        }
        for (size_t i = 0; i < deck.m; i++) {
            int64_t sum = 0;
            for (size_t j = 0; j < deck.n; j++) {
                sum += deck.coefficients[i * deck.n + j] * std::llround(values[j]);
            }
            if (sum != deck.rights[i]) {
                return false;
            }
        }
        return true;
    }
};
