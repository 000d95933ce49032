// One solver for an order. Option by option: is there a build with 0 here, beside what is settled already? Then 0 is settled, else 1.
#include "reference.hpp"

#include <cstdio>
#include <vector>

#include "cnf.hpp"

static const int satisfiable = 10;

static void settle(CaDiCaL::Solver &solver, int variable, bool taken) {
    solver.add(taken ? variable : -variable);
    solver.add(0);
}

// Asks for a build with 0 at the option; where there is one, `build` becomes it.
static bool can_be_left_out(CaDiCaL::Solver &solver, int option, std::vector<bool> &build) {
    solver.assume(-variable_of(option));
    if (solver.solve() != satisfiable) {
        return false;
    }
    for (size_t o = 0; o < build.size(); o++) {
        build[o] = solver.val(variable_of(o)) > 0;
    }
    return true;
}

static bool first_build(CaDiCaL::Solver &solver, Asking asking, std::vector<bool> &build) {
    int width = build.size();
    for (int option = 0; option < width; option++) {
        solver.phase(-variable_of(option));
    }
    if (solver.solve() != satisfiable) {
        return false;
    }
    for (int option = 0; option < width; option++) {
        build[option] = solver.val(variable_of(option)) > 0;
    }
    for (int option = 0; option < width; option++) {
        bool known = asking == Asking::where_taken && !build[option];
        bool taken = !known && !can_be_left_out(solver, option, build);
        settle(solver, variable_of(option), taken);
        build[option] = taken;
    }
    return true;
}

static std::string listing_of(const std::vector<bool> &build) {
    std::string listing;
    for (size_t option = 0; option < build.size(); option++) {
        char line[32];
        snprintf(line, sizeof line, "O%6zu%6d\n", option, (int)build[option]);
        listing += line;
    }
    return listing;
}

std::string reference_listing(const std::string &rules, const std::string &picks, Asking asking) {
    Order order = read_order(rules, picks);
    CaDiCaL::Solver solver;
    solver.set("quiet", 1);
    add_rules(solver, order);
    add_picks(solver, order);
    std::vector<bool> build(order.width);
    return first_build(solver, asking, build) ? listing_of(build) : "Z\n";
}
