#include "quoting.hpp"

#include "muzbelari.h"

const std::string spent = "B\n";

static const uint8_t *bytes(const std::string &text) { return reinterpret_cast<const uint8_t *>(text.data()); }

std::string quoted(const std::string &rules, const std::string &picks, uint64_t budget) {
    uint8_t listing[MUZBELARI_LISTING];
    size_t written = quote(bytes(rules), rules.size(), bytes(picks), picks.size(), budget, listing, sizeof listing);
    return std::string(reinterpret_cast<char *>(listing), written);
}

std::string quoted(const Input &input, uint64_t budget) { return quoted(input.rules, input.picks, budget); }
