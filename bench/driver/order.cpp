// Reads the texts: a letter and fields of six columns on each line.
#include "order.hpp"

static const int columns = 6;

static int field(const char *line, int place) {
    int number = 0;
    for (const char *c = line + 1 + place * columns, *end = c + columns; c < end; c++) {
        if (*c != ' ') {
            number = 10 * number + (*c - '0');
        }
    }
    return number;
}

static std::vector<int> fields(const char *line, int from, int count) {
    std::vector<int> numbers(count);
    for (int i = 0; i < count; i++) {
        numbers[i] = field(line, from + i);
    }
    return numbers;
}

static void read_line(Order &order, const char *line) {
    switch (*line) {
    case 'W': order.width = field(line, 0); break;
    case 'S': order.first = field(line, 0); break;
    case 'N': order.rows.push_back({field(line, 0), field(line, 1), field(line, 2)}); break;
    case 'D': order.roots.push_back(field(line, 0)); break;
    case 'C': order.clauses.push_back(fields(line, 1, field(line, 0))); break;
    case 'K': order.groups.push_back({field(line, 0), field(line, 1), fields(line, 3, field(line, 2))}); break;
    case 'P': order.picks.push_back({field(line, 0), field(line, 1)}); break;
    }
}

static void read_text(Order &order, const std::string &text) {
    for (size_t start = 0; start < text.size(); start = text.find('\n', start) + 1) {
        read_line(order, text.data() + start);
    }
}

Order read_order(const std::string &rules, const std::string &picks) {
    Order order;
    read_text(order, rules);
    read_text(order, picks);
    return order;
}
