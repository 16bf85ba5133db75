#include "engines.h"

#include "koralimbu.h"

#ifdef WITH_ENGINES
extern "C" {
uint32_t plain_assign(size_t, size_t, uint32_t, const int64_t *, size_t, const int64_t *, size_t, const int64_t *, size_t,
                      const int64_t *, size_t, const int64_t *, size_t, const int64_t *, size_t, const int64_t *, size_t,
                      const int64_t *, size_t, int64_t *, size_t, int64_t *, size_t, uint64_t *, size_t, uint32_t *, size_t);
uint32_t tuned_assign(size_t, size_t, uint32_t, const int64_t *, size_t, const int64_t *, size_t, const int64_t *, size_t,
                      const int64_t *, size_t, const int64_t *, size_t, const int64_t *, size_t, const int64_t *, size_t,
                      const int64_t *, size_t, int64_t *, size_t, int64_t *, size_t, uint64_t *, size_t, uint32_t *, size_t);
uint32_t plain_form(size_t, size_t, const int64_t *, int64_t *);
uint32_t tuned_form(size_t, size_t, const int64_t *, int64_t *);
}
#endif

static const int64_t FAR = 1000000;
static const uint32_t BEYOND = 7;

const std::vector<Engine> &engines() {
    static const std::vector<Engine> list = {
        {"ours", koralimbu_assign, nullptr},
#ifdef WITH_ENGINES
        {"tuned", tuned_assign, tuned_form},
        {"plain", plain_assign, plain_form},
#endif
    };
    return list;
}

Answer room_for(const Deck &deck) {
    Answer answer;
    answer.number = 0;
    answer.report.resize(KORALIMBU_REPORT_COUNT);
    answer.tableau.resize(deck.n * (deck.m + deck.n));
    answer.values.resize(deck.n);
    answer.strides.resize(deck.n);
    return answer;
}

void assign(Assign engine, const Deck &d, Answer &a) {
    a.number = engine(d.n, d.m, d.limit, d.coefficients.data(), d.n * d.m, d.rights.data(), d.m, d.lower.data(), d.n, d.upper.data(),
                      d.n, d.low.data(), d.n, d.high.data(), d.n, d.given.data(), d.n, d.ideals.data(), d.n, a.tableau.data(),
                      a.tableau.size(), a.values.data(), d.n, a.strides.data(), d.n, a.report.data(), a.report.size());
}

Deck rows_alone(const Deck &deck) {
    Deck rows = deck;
    rows.limit = 0;
    rows.rights.assign(rows.rights.size(), 0);
    rows.lower.assign(rows.lower.size(), -FAR);
    rows.upper.assign(rows.upper.size(), FAR);
    rows.low.assign(rows.low.size(), 0);
    rows.high.assign(rows.high.size(), 0);
    rows.given.assign(rows.given.size(), 0);
    return rows;
}

namespace {

bool same(const Answer &a, const Answer &b) {
    return a.number == b.number && a.report == b.report && a.tableau == b.tableau && a.values == b.values && a.strides == b.strides;
}

// A whole assignment by one of the engines; its answer must be ours.
class Whole : public Work {
public:
    Whole(Assign engine, const Deck &deck) : engine(engine), deck(deck), answer(room_for(deck)) {}

    void run() override { assign(engine, deck, answer); }

    std::string note(const Answer &ours) override {
        if (!same(answer, ours)) {
            stop(deck.name + ": an engine gives another answer");
        }
        return "";
    }

private:
    Assign engine;
    const Deck &deck;
    Answer answer;
};

// A whole assignment of the rows alone.
class RowsAlone : public Work {
public:
    RowsAlone(Assign engine, const Deck &deck) : engine(engine), rows(rows_alone(deck)), answer(room_for(deck)) {}

    void run() override { assign(engine, rows, answer); }

    std::string note(const Answer &ours) override {
        // Where the right side went beyond M, our tableau is wiped and the rows alone may still have a form.
        if (ours.number != BEYOND && answer.tableau != ours.tableau) {
            stop(rows.name + ": the rows alone have another form");
        }
        return "";
    }

private:
    Assign engine;
    Deck rows;
    Answer answer;
};

// The tableau alone by one of the unverified engines.
class FormAlone : public Work {
public:
    FormAlone(Form engine, const Deck &deck) : engine(engine), deck(deck), tableau(deck.n * (deck.m + deck.n)) {}

    void run() override { engine(deck.n, deck.m, deck.coefficients.data(), tableau.data()); }

    std::string note(const Answer &ours) override {
        if (ours.number != BEYOND && tableau != ours.tableau) {
            stop(deck.name + ": an engine has another form");
        }
        return "";
    }

private:
    Form engine;
    const Deck &deck;
    std::vector<int64_t> tableau;
};

}  // namespace

std::unique_ptr<Work> whole(const Engine &engine, const Deck &deck) { return std::make_unique<Whole>(engine.assign, deck); }

std::unique_ptr<Work> form(const Engine &engine, const Deck &deck) {
    if (engine.form) {
        return std::make_unique<FormAlone>(engine.form, deck);
    }
    return std::make_unique<RowsAlone>(engine.assign, deck);
}
