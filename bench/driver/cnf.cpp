// Clauses as they are; groups by a sequential counter; diagrams by Tseitin, one variable for each node.
#include "cnf.hpp"

#include <initializer_list>

int variable_of(int option) { return option + 1; }

// Literals with two that are no variables: always true and always false. They are left out as clauses are added.
static const int always = 1 << 24;
static const int never = -always;

namespace {

class Encoder {
  public:
    Encoder(CaDiCaL::Solver &solver, const Order &order)
        : solver(solver), order(order), last(order.width) {}

    void add_clauses() {
        for (const std::vector<int> &clause : order.clauses) {
            for (int literal : clause) {
                int variable = variable_of(literal / 2);
                solver.add(literal % 2 == 1 ? variable : -variable);
            }
            solver.add(0);
        }
    }

    void add_groups() {
        for (const Group &group : order.groups) {
            add_group(group);
        }
    }

    void add_diagrams() {
        std::vector<int> nodes = {never, always};
        for (const Row &row : order.rows) {
            int node = ++last;
            int option = variable_of(order.first + row.option);
            add_choice(node, option, nodes[row.high], nodes[row.low]);
            nodes.push_back(node);
        }
        for (int root : order.roots) {
            add({nodes[root]});
        }
    }

  private:
    CaDiCaL::Solver &solver;
    const Order &order;
    int last; // the last variable that is taken

    void add(std::initializer_list<int> literals) {
        for (int literal : literals) {
            if (literal == always) {
                return;
            }
        }
        for (int literal : literals) {
            if (literal != never) {
                solver.add(literal);
            }
        }
        solver.add(0);
    }

    // node = option ? high : low. Clauses that follow from these were tried and made CaDiCaL slower.
    void add_choice(int node, int option, int high, int low) {
        add({-node, -option, high});
        add({-node, option, low});
        add({node, -option, -high});
        add({node, option, -low});
    }

    // sum = at least j of the options so far are taken: so it was before, or this one is taken and j - 1 were before.
    void add_sum(int sum, int before, int option, int fewer) {
        add({-sum, before, option});
        add({-sum, before, fewer});
        add({sum, -before});
        add({sum, -option, -fewer});
    }

    // Counts up to hi + 1, option by option.
    void add_group(const Group &group) {
        int most = group.hi + 1;
        std::vector<int> sums(most + 1, never);
        sums[0] = always;
        for (int option : group.options) {
            std::vector<int> next = sums;
            for (int j = 1; j <= most; j++) {
                if (sums[j - 1] == never) {
                    break;
                }
                next[j] = ++last;
                add_sum(next[j], sums[j], variable_of(option), sums[j - 1]);
            }
            sums = next;
        }
        add({sums[group.lo]});
        add({-sums[most]});
    }
};

} // namespace

void add_rules(CaDiCaL::Solver &solver, const Order &order) {
    Encoder encoder(solver, order);
    encoder.add_clauses();
    encoder.add_groups();
    encoder.add_diagrams();
}

void add_picks(CaDiCaL::Solver &solver, const Order &order) {
    for (const Pick &pick : order.picks) {
        solver.add(pick.value == 1 ? variable_of(pick.option) : -variable_of(pick.option));
        solver.add(0);
    }
}
