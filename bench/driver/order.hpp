// An order as its two texts say it (docs/FORMAT.md), for the solver that the library is compared with.
// The texts are the generator's own, so nothing is checked.
#pragma once

#include <string>
#include <vector>

struct Row {
    int option, low, high;
};

struct Group {
    int lo, hi;
    std::vector<int> options;
};

struct Pick {
    int option, value;
};

struct Order {
    int width = 0;
    int first = 0; // the option at which the block of the diagrams begins
    std::vector<Row> rows;
    std::vector<int> roots;
    std::vector<std::vector<int>> clauses; // literals: 2 * option + wanted value
    std::vector<Group> groups;
    std::vector<Pick> picks;
};

Order read_order(const std::string &rules, const std::string &picks);
