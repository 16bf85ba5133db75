// GLPK on the whole problem. Stating the program is part of a solve.
#include <glpk.h>

#include "program.h"

namespace {

// A row's terms as GLPK takes them, from place 1 on.
struct Terms {
    std::vector<int> columns{0};
    std::vector<double> coefficients{0};

    void add(size_t column, double coefficient) {
        columns.push_back(column + 1);
        coefficients.push_back(coefficient);
    }
};

class Glpk : public Solve {
public:
    using Solve::Solve;

    void run() override {
        glp_term_out(GLP_OFF);
        program = glp_create_prob();
        state_columns();
        state_rows();
        state_goals();
        glp_iocp options;
        glp_init_iocp(&options);
        options.msg_lev = GLP_MSG_OFF;
        options.presolve = GLP_ON;
        options.tm_lim = 1000 * LIMIT_SECONDS;
        int code = glp_intopt(program, &options);
        outcome = outcome_of(code, glp_mip_status(program));
        for (size_t j = 0; j < deck.n; j++) {
            values[j] = glp_mip_col_val(program, j + 1);
        }
        glp_delete_prob(program);
    }

private:
    void state_columns() {
        glp_add_cols(program, deck.n + further_count());
        for (size_t j = 0; j < deck.n; j++) {
            int kind = deck.lower[j] == deck.upper[j] ? GLP_FX : GLP_DB;
            glp_set_col_bnds(program, j + 1, kind, deck.lower[j], deck.upper[j]);
            glp_set_col_kind(program, j + 1, GLP_IV);
        }
        for (size_t k = 0; k < further_count(); k++) {
            glp_set_col_bnds(program, further(k) + 1, GLP_LO, 0, 0);
            glp_set_obj_coef(program, further(k) + 1, cost(k));
        }
    }

    void state_row(const Terms &terms, int kind, double number) {
        int row = glp_add_rows(program, 1);
        glp_set_row_bnds(program, row, kind, number, number);
        glp_set_mat_row(program, row, terms.columns.size() - 1, terms.columns.data(), terms.coefficients.data());
    }

    void state_rows() {
        for (size_t i = 0; i < deck.m; i++) {
            Terms terms;
            for (size_t j = 0; j < deck.n; j++) {
                if (deck.coefficients[i * deck.n + j] != 0) {
                    terms.add(j, deck.coefficients[i * deck.n + j]);
                }
            }
            state_row(terms, GLP_FX, deck.rights[i]);
        }
    }

    void state_goals() {
        for (size_t k = 0; k < wanted.size(); k++) {
            Terms below, above;
            below.add(wanted[k], 1);
            below.add(further(k), -weight_low(k));
            state_row(below, GLP_UP, low(k));
            above.add(wanted[k], 1);
            above.add(further(k), weight_high(k));
            state_row(above, GLP_LO, high(k));
        }
    }

    static Outcome outcome_of(int code, int status) {
        if (code == GLP_ENOPFS || code == GLP_ENODFS || status == GLP_NOFEAS) {
            return Outcome::Infeasible;
        }
        return status == GLP_OPT ? Outcome::Solved : status == GLP_FEAS ? Outcome::CutOff : Outcome::NoAnswer;
    }

    glp_prob *program;
};

}  // namespace

std::unique_ptr<Work> glpk_solve(const Deck &deck, Aim aim) { return std::make_unique<Glpk>(deck, aim); }

std::string which_glpk() { return std::string("GLPK ") + glp_version(); }
