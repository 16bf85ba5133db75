// FLINT's Hermite form of the table [A^T | I]. The table is filled outside the timed call.
#include <flint/flint.h>
#include <flint/fmpz_mat.h>

#include "../program/work.h"

namespace {

class FlintForm : public Work {
public:
    explicit FlintForm(const Deck &deck) : deck(deck) {
        fmpz_mat_init(table, deck.n, deck.m + deck.n);
        fmpz_mat_init(result, deck.n, deck.m + deck.n);
        for (size_t j = 0; j < deck.n; j++) {
            for (size_t i = 0; i < deck.m; i++) {
                fmpz_set_si(fmpz_mat_entry(table, j, i), deck.coefficients[i * deck.n + j]);
            }
            fmpz_one(fmpz_mat_entry(table, j, deck.m + j));
        }
    }

    ~FlintForm() override {
        fmpz_mat_clear(table);
        fmpz_mat_clear(result);
    }

    void run() override { fmpz_mat_hnf(result, table); }

    std::string note(const Answer &ours) override {
        if (ours.number == 7) {
            return "beyond M";
        }
        for (size_t at = 0; at < ours.tableau.size(); at++) {
            if (!fmpz_equal_si(fmpz_mat_entry(result, at / (deck.m + deck.n), at % (deck.m + deck.n)), ours.tableau[at])) {
                stop(deck.name + ": FLINT has another form");
            }
        }
        return "";
    }

private:
    const Deck &deck;
    fmpz_mat_t table, result;
};

}  // namespace

std::unique_ptr<Work> flint_form(const Deck &deck) { return std::make_unique<FlintForm>(deck); }

std::string which_flint() { return std::string("FLINT ") + FLINT_VERSION; }
