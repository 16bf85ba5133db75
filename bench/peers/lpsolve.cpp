// lp_solve on the whole problem. Stating the program is part of a solve.
#include <lpsolve/lp_lib.h>

#include "program.h"

namespace {

class LpSolve : public Solve {
public:
    using Solve::Solve;

    void run() override {
        program = make_lp(0, deck.n + further_count());
        set_verbose(program, 0);
        set_minim(program);
        state_columns();
        set_add_rowmode(program, TRUE);
        state_costs();
        state_rows();
        state_goals();
        set_add_rowmode(program, FALSE);
        set_timeout(program, LIMIT_SECONDS);
        outcome = outcome_of(solve(program));
        std::vector<REAL> all(deck.n + further_count());
        get_variables(program, all.data());
        values.assign(all.begin(), all.begin() + deck.n);
        delete_lp(program);
    }

private:
    void state_columns() {
        for (size_t j = 0; j < deck.n; j++) {
            set_bounds(program, j + 1, deck.lower[j], deck.upper[j]);
            set_int(program, j + 1, TRUE);
        }
    }

    void state_costs() {
        std::vector<int> columns;
        std::vector<REAL> costs;
        for (size_t k = 0; k < further_count(); k++) {
            columns.push_back(further(k) + 1);
            costs.push_back(cost(k));
        }
        set_obj_fnex(program, columns.size(), costs.data(), columns.data());
    }

    void state_rows() {
        for (size_t i = 0; i < deck.m; i++) {
            std::vector<int> columns;
            std::vector<REAL> coefficients;
            for (size_t j = 0; j < deck.n; j++) {
                if (deck.coefficients[i * deck.n + j] != 0) {
                    columns.push_back(j + 1);
                    coefficients.push_back(deck.coefficients[i * deck.n + j]);
                }
            }
            add_constraintex(program, columns.size(), coefficients.data(), columns.data(), EQ, deck.rights[i]);
        }
    }

    void state_goals() {
        for (size_t k = 0; k < wanted.size(); k++) {
            int columns[] = {int(wanted[k] + 1), int(further(k) + 1)};
            REAL below[] = {1, -weight_low(k)}, above[] = {1, weight_high(k)};
            add_constraintex(program, 2, below, columns, LE, low(k));
            add_constraintex(program, 2, above, columns, GE, high(k));
        }
    }

    static Outcome outcome_of(int code) {
        if (code == OPTIMAL || code == PRESOLVED) {
            return Outcome::Solved;
        }
        return code == SUBOPTIMAL ? Outcome::CutOff : code == INFEASIBLE ? Outcome::Infeasible : Outcome::NoAnswer;
    }

    lprec *program;
};

}  // namespace

std::unique_ptr<Work> lpsolve_solve(const Deck &deck, Aim aim) { return std::make_unique<LpSolve>(deck, aim); }

std::string which_lpsolve() {
    int major, minor, release, build;
    lp_solve_version(&major, &minor, &release, &build);
    return "lp_solve " + std::to_string(major) + "." + std::to_string(minor) + "." + std::to_string(release) + "." + std::to_string(build);
}
