// Writes how many steps each quote takes: a line for each input, its name and the number.
// The listing does not tell, so the least budget that is not spent is searched for: exactly up to `exact_up_to` steps, above to
// within one part in `parts` ("about"). Where it is above the number that is given, "more than" that.
#include <cstdio>
#include <cstdlib>

#include "inputs.hpp"
#include "quoting.hpp"

static const uint64_t exact_up_to = 4096, parts = 64;

static bool suffices(const Input &input, uint64_t budget) { return quoted(input, budget) != spent; }

// The least budget that suffices lies above `low` and is at most `high`, where the two are close enough.
struct Bracket {
    uint64_t low, high;

    bool close() const { return high - low <= (high > exact_up_to ? high / parts : 1); }
};

static Bracket narrowed(const Input &input, Bracket bracket) {
    while (!bracket.close()) {
        uint64_t middle = bracket.low + (bracket.high - bracket.low) / 2;
        (suffices(input, middle) ? bracket.high : bracket.low) = middle;
    }
    return bracket;
}

static void count_steps(const Input &input, uint64_t most) {
    const char *name = input.name.c_str();
    if (suffices(input, 0)) {
        printf("%s\t0\n", name);
        return;
    }
    uint64_t budget = 64;
    while (budget < most && !suffices(input, budget)) {
        budget *= 4;
    }
    if (budget >= most && !suffices(input, budget)) {
        printf("%s\tmore than %lu\n", name, (unsigned long)budget);
        return;
    }
    Bracket bracket = narrowed(input, {budget > 64 ? budget / 4 : 0, budget});
    printf(bracket.high > exact_up_to ? "%s\tabout %lu\n" : "%s\t%lu\n", name, (unsigned long)bracket.high);
}

int main(int count, char **words) {
    if (count < 3) {
        fprintf(stderr, "usage: %s FOLDER MOST [WORD: only inputs whose names begin with it]\n", words[0]);
        return 1;
    }
    uint64_t most = strtoull(words[2], nullptr, 10);
    for (const Input &input : read_inputs(words[1], count > 3 ? words[3] : "")) {
        if (input.family() != "ladder") {
            count_steps(input, most);
            fflush(stdout);
        }
    }
    return 0;
}
