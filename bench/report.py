"""Puts what the programs of the benchmark wrote into tables: ratios, no seconds. usage: report.py FOLDER SIMPLEST-STEPS"""

import os
import sys

# Steps under the simplest analysis from which on an input counts as one with many conflicts. C does not tell the conflicts.
MANY_STEPS = 1000


def read_columns(path):
    if not os.path.exists(path):
        return []
    with open(path, encoding="ascii") as file:
        return [line.rstrip("\n").split("\t") for line in file if not line.startswith("#")]


def median(numbers):
    ordered = sorted(numbers)
    middle = len(ordered) // 2
    if len(ordered) % 2:
        return ordered[middle]
    return (ordered[middle - 1] + ordered[middle]) / 2


def shown(number):
    return "%.2f" % number if number < 100 else "%.0f" % number


def spread(ratios):
    return " | ".join(shown(number) for number in (median(ratios), max(ratios), min(ratios)))


def quote_table(rows):
    print("| family | inputs | built | none | spent | quote / CaDiCaL: median | worst | best | / CaDiCaL asked where taken: median | worst | best |")
    print("|---|---|---|---|---|---|---|---|---|---|---|")
    for family in sorted({row[1] for row in rows}):
        own = [row for row in rows if row[1] == family]
        verdicts = " | ".join(str(sum(row[2] == verdict for row in own)) for verdict in ("build", "none", "spent"))
        each = [float(row[3]) / float(row[4]) for row in own]
        taken = [float(row[3]) / float(row[5]) for row in own]
        print("| %s | %d | %s | %s | %s |" % (family, len(own), verdicts, spread(each), spread(taken)))


def input_table(rows, steps):
    print("| input | verdict | steps | quote / CaDiCaL | / CaDiCaL asked where taken |")
    print("|---|---|---|---|---|")
    for name, _, verdict, quote, each, taken in rows:
        ratios = shown(float(quote) / float(each)), shown(float(quote) / float(taken))
        print("| %s | %s | %s | %s | %s |" % (name, verdict, steps.get(name, ""), *ratios))


def mark_table(rows):
    print("| diagram of 2,048 rows | mark / unchecked Rust |")
    print("|---|---|")
    for name, ours, unchecked in rows:
        _, leap, picks = name.split("-")
        words = "arrows to the next option" if leap == "1" else "arrows that jump up to %d options" % (int(leap) - 1)
        print("| %s, %s picks | %s |" % (words, picks, shown(float(ours) / float(unchecked))))


def number_of(words):
    """The number of a line of steps, and whether it is only a lower bound."""
    return int(words.split()[-1]), words.startswith("more")


def steps_table(steps, simplest):
    print("| family | inputs of many steps | of them halved | not halved | not known | steps / simplest: median | worst | best |")
    print("|---|---|---|---|---|---|---|---|")
    names = [name for name in simplest if name in steps and number_of(simplest[name])[0] >= MANY_STEPS]
    for family in sorted({name.split("-")[0] for name in names}):
        halved, not_halved, unknown, ratios = 0, 0, 0, []
        for name in (name for name in names if name.split("-")[0] == family):
            (now, now_more), (before, before_more) = number_of(steps[name]), number_of(simplest[name])
            if now_more and 2 * now <= before or before_more and not 2 * now <= before:
                unknown += 1
                continue
            if not now_more and not before_more:
                ratios.append(now / before)
            if 2 * now <= before and not now_more:
                halved += 1
            else:
                not_halved += 1
        total = halved + not_halved + unknown
        tail = spread(ratios) if ratios else " | | "
        print("| %s | %d | %d | %d | %d | %s |" % (family, total, halved, not_halved, unknown, tail))


def main():
    folder, simplest_path = sys.argv[1:3]
    quotes = read_columns(os.path.join(folder, "quotes.txt"))
    steps = dict(read_columns(os.path.join(folder, "steps.txt")))
    print("## A whole quote\n")
    quote_table(quotes)
    print("\n## One mark\n")
    mark_table(read_columns(os.path.join(folder, "marks.txt")))
    if steps:
        print("\n## Steps against the simplest analysis\n")
        steps_table(steps, dict(read_columns(simplest_path)))
    print("\n## Memory\n")
    for what, number in read_columns(os.path.join(folder, "footprint.txt")):
        print("- %s: %s%s" % (what, number, " bytes" if what == "stack" else ""))
    print("\n## Each input\n")
    input_table(quotes, steps)


main()
