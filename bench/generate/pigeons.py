"""Pigeon holes: so many pigeons into one hole fewer, which cannot be done, as clauses."""

from order import Order


def pigeons(count):
    holes = count - 1
    order = Order(count * holes)
    for pigeon in range(count):
        order.clause(*[(pigeon * holes + hole, 1) for hole in range(holes)])
    for hole in range(holes):
        for first in range(count):
            for second in range(first + 1, count):
                order.clause((first * holes + hole, 0), (second * holes + hole, 0))
    return order
