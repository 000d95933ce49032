// Times one mark of a 2,048-row diagram through the library beside plain unchecked Rust.
//
// The C library has no call for a mark, so it is taken out of a quote. In a ladder input the same root stands 128 times, and under
// its picks it marks nothing: a quote with a budget of 0 reads the texts, asks each of the 128 rules once, and is spent. The same
// quote with a faulty last pick only reads. The difference is 128 marks as the search asks for them.
// That nothing is marked is checked by the unchecked version, and that one by the first build, which must be the quote's.
// Writes a line for each ladder: name, the library's time of a mark in seconds, the unchecked version's.
#include <cstdio>
#include <cstdlib>
#include <vector>

#include "inputs.hpp"
#include "order.hpp"
#include "quoting.hpp"
#include "seconds.hpp"
#include "unchecked.hpp"

static const int rounds = 40;
static const std::string faulty_pick = "P     0     2\n";

namespace {

struct Table {
    std::vector<UncheckedRow> rows;
    uint32_t root = 0;
    size_t rules = 0;
    std::vector<uint8_t> values, marks;

    explicit Table(const Input &input) {
        Order order = read_order(input.rules, input.picks);
        for (const Row &row : order.rows) {
            rows.push_back({(uint32_t)row.option, (uint32_t)row.low, (uint32_t)row.high});
        }
        root = order.roots[0];
        rules = order.roots.size();
        values.assign(order.width, 2);
        marks.assign(order.width, 2);
        for (const Pick &pick : order.picks) {
            values[pick.option] = pick.value;
        }
    }

    bool mark() { return unchecked_mark(rows.data(), rows.size(), root, values.data(), marks.data(), values.size()); }

    // The listing of the first build: the lowest open option gets 0 if the marks let it. With one rule that is exact.
    std::string first_build() {
        std::string listing;
        for (size_t option = 0; option < values.size(); option++) {
            mark();
            values[option] = marks[option] == 2 ? 0 : marks[option];
            char line[32];
            snprintf(line, sizeof line, "O%6zu%6d\n", option, (int)values[option]);
            listing += line;
        }
        return listing;
    }
};

void fail(const Input &input, const char *why) {
    fprintf(stderr, "%s: %s\n", input.name.c_str(), why);
    exit(1);
}

void time_mark(const Input &input) {
    Table table(input);
    if (!table.mark() || table.marks != table.values) {
        fail(input, "the rule is dead or marks something");
    }
    Least reading, asking, unchecked;
    for (int round = 0; round < rounds; round++) {
        reading.measure([&] { quoted(input.rules, input.picks + faulty_pick, 0); });
        asking.measure([&] { quoted(input, 0); });
        unchecked.measure([&] {
            for (size_t rule = 0; rule < table.rules; rule++) {
                table.mark();
            }
        });
    }
    printf("%s\t%.9f\t%.9f\n", input.name.c_str(), (asking.seconds - reading.seconds) / table.rules,
           unchecked.seconds / table.rules);
    if (table.first_build() != quoted(input, 1000000)) {
        fail(input, "the first builds differ");
    }
}

} // namespace

int main(int count, char **words) {
    if (count != 2) {
        fprintf(stderr, "usage: %s FOLDER\n", words[0]);
        return 1;
    }
    for (const Input &input : read_inputs(words[1], "ladder")) {
        time_mark(input);
    }
    return 0;
}
