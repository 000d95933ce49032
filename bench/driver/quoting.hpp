// The library's `quote` over the texts of an input.
#pragma once

#include <cstdint>
#include <string>

#include "inputs.hpp"

// The listing of a quote with at most so many steps. `picks` stand in place of the input's own where they are given.
std::string quoted(const Input &input, uint64_t budget);
std::string quoted(const std::string &rules, const std::string &picks, uint64_t budget);

// What the listing says when the budget ran out.
extern const std::string spent;
