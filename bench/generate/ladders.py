"""A diagram of 2,048 rows over 128 options, for measuring one mark: levels of rows, one level an option.

Nearly every row is reached and live and nothing is marked, so that a mark has all of its work to do. An arrow leads `leap` options
further at most: with 1 each arrow leads to the next option's rows, with more it may jump over options, which are free then.
"""

from order import Order, ROWS

WIDTH = 128
ENDS = [0, 1]


def level_sizes():
    """How many rows each option has: twice as many from option to option up to 16 or 17, few at the end; 2,048 in all."""
    sizes = [min(1 << option, 16) for option in range(WIDTH - 2)] + [10, 2]
    missing = ROWS - sum(sizes)
    for option in range(WIDTH - 2 - missing, WIDTH - 2):
        sizes[option] += 1
    return sizes


def ladder(chance, leap, picks, rules):
    """The same root so many times, so that a quote marks it as often, and picks of random values."""
    order = Order(WIDTH)
    sizes = level_sizes()
    levels = [[] for _ in range(WIDTH)] + [ENDS]
    for option in range(WIDTH - 1, -1, -1):
        below = chance.some(levels[option + 1], len(levels[option + 1]))
        while len(levels[option]) < sizes[option]:
            # the first arrows lead to each row of the next option in turn, so that all of them are reached
            place = 2 * len(levels[option])
            arrows = (below[place % len(below)], below[(place + 1) % len(below)])
            if leap > 1 or (option, *arrows) in order.nodes:
                far = levels[min(WIDTH, option + chance.between(1, leap))]
                ends = ENDS if option >= WIDTH - 4 else []
                arrows = (chance.one(below + ends), chance.one(far + ends))
            if arrows[0] != arrows[1] and (option, *arrows) not in order.nodes:
                levels[option].append(order.node(option, *arrows))
    for _ in range(rules):
        order.root(levels[0][0])
    for option in chance.some(range(WIDTH), picks):
        order.pick(option, chance.below(2))
    return order

