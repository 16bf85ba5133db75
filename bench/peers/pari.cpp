// PARI's Hermite form of the table [A^T | I]. PARI has columns where we have rows and gathers from the other end, so the table is given
// transposed with both orders turned round. It is filled outside the timed call.
#include <pari/pari.h>

#include "../program/work.h"

static const size_t STACK = 64000000;

namespace {

class PariForm : public Work {
public:
    explicit PariForm(const Deck &deck) : deck(deck), width(deck.m + deck.n), result(nullptr) {
        static bool started = false;
        if (!started) {
            pari_init(STACK, 2);
            started = true;
        }
        before = avma;
        table = cgetg(deck.n + 1, t_MAT);
        for (size_t j = 0; j < deck.n; j++) {
            gel(table, deck.n - j) = column(j);
        }
        filled = avma;
    }

    ~PariForm() override { set_avma(before); }

    void run() override {
        set_avma(filled);
        result = mathnf0(table, 0);
    }

    std::string note(const Answer &ours) override {
        if (ours.number == 7) {
            return "beyond M";
        }
        for (size_t at = 0; at < ours.tableau.size(); at++) {
            GEN entry = gcoeff(result, width - at % width, deck.n - at / width);
            if (cmpis(entry, ours.tableau[at]) != 0) {
                stop(deck.name + ": PARI has another form");
            }
        }
        return "";
    }

private:
    // Table row j, from its last number to its first.
    GEN column(size_t j) {
        GEN list = cgetg(width + 1, t_COL);
        for (size_t i = 0; i < width; i++) {
            long number = i < deck.m ? deck.coefficients[i * deck.n + j] : i - deck.m == j;
            gel(list, width - i) = stoi(number);
        }
        return list;
    }

    const Deck &deck;
    size_t width;
    GEN table, result;
    pari_sp before, filled;
};

}  // namespace

std::unique_ptr<Work> pari_form(const Deck &deck) { return std::make_unique<PariForm>(deck); }

std::string which_pari() {
    long code = PARI_VERSION_CODE;
    return "PARI " + std::to_string(code >> 16) + "." + std::to_string(code >> 8 & 255) + "." + std::to_string(code & 255);
}
