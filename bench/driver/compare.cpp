// Times a whole quote beside CaDiCaL, input by input, and fails where their answers differ.
// Writes a line for each input: name, family, verdict, the times in seconds (quote, CaDiCaL asked at each option, CaDiCaL asked
// where taken). The three are timed in turn, and the least time of each counts, so that other work on the machine weighs on no
// side alone.
#include <cstdio>
#include <cstdlib>

#include "inputs.hpp"
#include "quoting.hpp"
#include "reference.hpp"
#include "seconds.hpp"

// The budget of the quotation program. A quote that needs more is listed as spent, and its time is what the budget took.
static const uint64_t budget = 1000000;
// An input is timed until one of these is reached: five rounds that took so long in all, 25 rounds, or a round that is long itself.
static const double enough_seconds = 0.4, long_seconds = 5;
static const int fewest_rounds = 5, most_rounds = 25;

static void compare_answers(const Input &input, const std::string &ours, const std::string &theirs) {
    if (ours != theirs && ours != spent) {
        fprintf(stderr, "%s: the answers differ\nquote:\n%sCaDiCaL:\n%s", input.name.c_str(), ours.c_str(), theirs.c_str());
        exit(1);
    }
}

static bool timed(int rounds, double total) {
    return rounds >= most_rounds || total >= long_seconds || (rounds >= fewest_rounds && total >= enough_seconds);
}

static const char *verdict_of(const std::string &listing) {
    return listing[0] == 'O' ? "build" : listing[0] == 'Z' ? "none" : "spent";
}

static void compare(const Input &input) {
    std::string ours, each, taken;
    Least quote_time, each_time, taken_time;
    double total = 0;
    for (int rounds = 0; !timed(rounds, total); rounds++) {
        if (ours != spent) {
            total += quote_time.measure([&] { ours = quoted(input, budget); });
        }
        total += each_time.measure([&] { each = reference_listing(input.rules, input.picks, Asking::each_option); });
        total += taken_time.measure([&] { taken = reference_listing(input.rules, input.picks, Asking::where_taken); });
        compare_answers(input, ours, each);
        compare_answers(input, ours, taken);
    }
    printf("%s\t%s\t%s\t%.9f\t%.9f\t%.9f\n", input.name.c_str(), input.family().c_str(), verdict_of(ours),
           quote_time.seconds, each_time.seconds, taken_time.seconds);
    fflush(stdout);
}

int main(int count, char **words) {
    if (count < 2) {
        fprintf(stderr, "usage: %s FOLDER [WORD: only inputs whose names begin with it]\n", words[0]);
        return 1;
    }
    for (const Input &input : read_inputs(words[1], count > 2 ? words[2] : "")) {
        if (input.family() != "ladder") {
            compare(input);
        }
    }
    return 0;
}
