"""An order while it is made: its rules and picks, and the two texts of docs/FORMAT.md that say them."""

ROWS, ROOTS, CLAUSES, GROUPS, LONGEST = 2048, 128, 512, 64, 32
RULE_BYTES, PICK_BYTES = 49152, 4096


def line(letter, *fields):
    return letter + "".join("%6d" % field for field in fields) + "\n"


class Order:
    def __init__(self, width):
        self.width = width
        self.rows, self.roots, self.clauses, self.groups, self.picks = [], [], [], [], []
        self.nodes = {}

    def node(self, option, low, high):
        """The node that asks for the option: one node for equal rows, and none where both arrows lead to the same node."""
        if low == high:
            return low
        row = (option, low, high)
        if row not in self.nodes:
            self.rows.append(row)
            self.nodes[row] = len(self.rows) + 1
        return self.nodes[row]

    def root(self, node):
        self.roots.append(node)

    def clause(self, *literals):
        """A literal is an option and the value that is wanted of it."""
        self.clauses.append([2 * option + wanted for option, wanted in literals])

    def group(self, lo, hi, options):
        self.groups.append((lo, hi, list(options)))

    def pick(self, option, value):
        self.picks.append((option, value))

    def rule_text(self):
        assert len(self.rows) <= ROWS and len(self.roots) <= ROOTS
        assert len(self.clauses) <= CLAUSES and len(self.groups) <= GROUPS
        assert all(len(clause) <= LONGEST for clause in self.clauses)
        assert all(len(options) <= LONGEST for _, _, options in self.groups)
        text = line("W", self.width)
        text += "".join(line("N", *row) for row in self.rows)
        text += "".join(line("D", node) for node in self.roots)
        text += "".join(line("C", len(clause), *clause) for clause in self.clauses)
        text += "".join(line("K", lo, hi, len(options), *options) for lo, hi, options in self.groups)
        assert len(text) <= RULE_BYTES
        return text

    def pick_text(self):
        text = "".join(line("P", option, value) for option, value in self.picks)
        assert len(text) <= PICK_BYTES
        return text
