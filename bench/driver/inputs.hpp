// The inputs that the generator wrote: a file NAME.rules and a file NAME.picks each.
#pragma once

#include <string>
#include <vector>

struct Input {
    std::string name, rules, picks;

    // The part of the name before the first '-'.
    std::string family() const;
};

// Those whose names begin with a word, in the order of their names.
std::vector<Input> read_inputs(const std::string &folder, const std::string &word);
