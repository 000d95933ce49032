"""Writes the benchmark's inputs into a folder: for each a file NAME.rules and a file NAME.picks."""

import os
import sys

from catalogue import catalogue
from chance import Chance
from ladders import ladder
from pigeons import pigeons
from three_clauses import three_clauses


def write(folder, name, order):
    for ending, text in ((".rules", order.rule_text()), (".picks", order.pick_text())):
        with open(os.path.join(folder, name + ending), "w", encoding="ascii") as file:
            file.write(text)


def main():
    folder = sys.argv[1]
    os.makedirs(folder, exist_ok=True)
    for number in range(60):
        write(folder, "catalogue-%02d" % number, catalogue(Chance(1000 + number), number))
    for number in range(15):
        width = 50 + 10 * (number // 3)
        write(folder, "clauses-%d-%d" % (width, number % 3), three_clauses(Chance(2000 + number), width))
    for count in (6, 7, 8):
        write(folder, "pigeons-%d" % count, pigeons(count))
    for leap in (1, 4):
        for picks in (0, 32):
            write(folder, "ladder-%d-%d" % (leap, picks), ladder(Chance(3000 + leap), leap, picks, 128))


main()
