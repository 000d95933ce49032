"""Random tables of clauses of three options each, at the number of clauses an option where they are hardest."""

from order import Order


def three_clauses(chance, width):
    order = Order(width)
    for _ in range(min(512, 42 * width // 10)):
        order.clause(*[(option, chance.below(2)) for option in chance.some(range(width), 3)])
    return order
