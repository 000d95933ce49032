"""A compatibility table as a diagram: the allowed combinations of a few options, as a reduced ordered diagram."""


def add_table(order, options, allowed):
    """One rule more: the options, in rising order, have one of the allowed combinations (a set of tuples of 0 and 1)."""

    def node(depth, tuples):
        if not tuples:
            return 0
        if depth == len(options):
            return 1
        low = node(depth + 1, [t for t in tuples if t[depth] == 0])
        high = node(depth + 1, [t for t in tuples if t[depth] == 1])
        return order.node(options[depth], low, high)

    order.root(node(0, sorted(allowed)))


def random_tuples(chance, length, per_cent):
    """Each of the 2^length combinations is allowed in so many of a hundred cases."""
    return {
        tuple(number >> place & 1 for place in range(length))
        for number in range(1 << length)
        if chance.often(per_cent)
    }
