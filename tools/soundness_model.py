"""A model of which rows of the six tables can be relied on, written apart from the specs, from the page on databases.

Tables may be of any lengths and hold any numbers. The rows in use are all up to the last that is not zero. They are sound if some module
could say them, as far as numbers and codes go: the rows are walked as a text would have made them.
"""

from rules_model import CLASSES, DECLARED_BITS, DRIVEN, LOADED, NODE_SIGNS, READABLE, SIZES, STEP_KINDS, WIDEST

CLASS_CODES = dict(enumerate(CLASSES, 1))
STEP_CODES = {code: kind for code, kind in enumerate(STEP_KINDS) if kind}
SIGN_CODES = {code: sign for code, sign in enumerate(NODE_SIGNS) if sign}
CONNECTION, TRANSFER = 1, 2
JOINS, REDUCTIONS = {"&", "+", "@"}, {"&/", "+/", "@/"}


class Unsound(Exception):
    """Something is wrong with the rows."""


def ask(holds):
    if not holds:
        raise Unsound


def in_use(rows):
    rows = list(rows)
    while rows and not any(rows[-1]):
        rows.pop()
    return rows


class Database:
    """The rows in use, and what is asked of them."""

    def __init__(self, text_length, tables):
        self.text_length = text_length
        self.tables = {name: in_use(rows) for name, rows in tables.items()}
        for name, rows in self.tables.items():
            setattr(self, name, rows)

    def row(self, table, number):
        """A row that has to be there."""
        rows = self.tables[table]
        ask(1 <= number <= len(rows))
        return rows[number - 1]

    def class_of(self, symbol):
        return CLASS_CODES[self.row("symbols", symbol)[0]]

    def test_sizes(self):
        for name, rows in self.tables.items():
            ask(len(rows) <= SIZES[name])
        ask(self.steps)
        ask(sum(width for _, width, _, _ in self.symbols) <= DECLARED_BITS)

    def test_symbols(self):
        free = 0
        for kind, width, place, length in self.symbols:
            ask(kind in CLASS_CODES and 1 <= width <= WIDEST)
            ask(length >= 1 and free <= place and place + length <= self.text_length)
            free = place + length

    def test_bits(self, classes, symbol, first, last):
        """A name stands for some bits of a symbol of one of these classes."""
        _, width, _, _ = self.row("symbols", symbol)
        ask(self.class_of(symbol) in classes and first <= last < width)

    def width(self, node):
        return self.row("nodes", node)[6]

    def take_expression(self, root):
        """Walks an expression from its root backwards, and answers the number of the row before its first node."""
        sign, symbol, first, last, left, right, width, value = self.row("nodes", root)
        ask(sign in SIGN_CODES and 1 <= width <= WIDEST)
        kind = SIGN_CODES[sign]
        if kind == "name":
            self.test_bits(READABLE, symbol, first, last)
            ask(width == last - first + 1 and value == 0)
        else:
            ask((symbol, first, last) == (0, 0, 0))
        if kind == "constant":
            ask(value < 2**width)
        if kind in ("name", "constant"):
            ask((left, right) == (0, 0))
            return root - 1
        ask(value == 0)
        if kind not in JOINS | {","}:
            ask((left, right) == (root - 1, 0))
            before = self.take_expression(left)
            ask(width == (1 if kind in REDUCTIONS else self.width(left)))
            return before
        ask(right == root - 1)
        ask(left == self.take_expression(right))
        before = self.take_expression(left)
        widths = self.width(left), self.width(right)
        ask(width == (sum(widths) if kind == "," else max(widths)))
        ask(kind == "," or widths[0] == widths[1] or 1 in widths)
        return before

    def next_expression(self, root):
        """The next expression in the order of the text has this root."""
        ask(self.take_expression(root) == self.taken)
        self.taken = root

    def reads(self, node):
        """The symbols that are named in an expression."""
        sign, symbol, _, _, left, right, _, _ = self.nodes[node - 1]
        if SIGN_CODES[sign] == "name":
            return {symbol}
        return set().union(*(self.reads(operand) for operand in (left, right) if operand))

    def test_statement(self, number):
        step, kind, condition, value = self.statements[number - 1]
        ask(kind in (CONNECTION, TRANSFER))
        if kind == CONNECTION:
            ask(condition == 0)
        else:
            ask(step >= 1)
        if condition:
            self.next_expression(condition)
            ask(self.width(condition) == 1)
        self.next_expression(value)
        total, buses = 0, []
        for statement, symbol, first, last in self.targets:
            if statement == number:
                self.test_bits(LOADED if kind == TRANSFER else DRIVEN, symbol, first, last)
                total += last - first + 1
                buses += [symbol] if self.class_of(symbol) == "BUSES" else []
        ask(total == self.width(value))
        for bus in buses:
            ask(all(read < bus for read in self.reads(value) if self.class_of(read) == "BUSES"))

    def test_step(self, number):
        kind, condition, mark = self.steps[number - 1]
        ask(kind in STEP_CODES and mark in (0, 1))
        way = STEP_CODES[kind]
        ask((condition != 0) == (way == "conditions"))
        ask(way in ("plain", "dead") or number < len(self.steps))
        exits = [entered for left, entered in self.exits if left == number]
        for entered in exits:
            self.row("steps", entered)
        if way == "conditions":
            self.next_expression(condition)
            ask(len(exits) == self.width(condition))
        elif way == "plain":
            ask(exits)
        else:
            ask(not exits)

    def test_order(self):
        """Statements stand by step, those of none last; targets by statement; exits by step."""
        steps, none = len(self.steps), len(self.steps) + 1
        places = [step or none for step, _, _, _ in self.statements]
        ask(places == sorted(places) and all(place <= none for place in places))
        ask(all(step <= steps for step, _, _, _ in self.statements))
        for rows, limit in (self.targets, len(self.statements)), (self.exits, steps):
            firsts = [row[0] for row in rows]
            ask(firsts == sorted(firsts) and all(1 <= first <= limit for first in firsts))

    def test(self):
        self.test_sizes()
        self.test_symbols()
        self.test_order()
        self.taken = 0
        for number in [*range(1, len(self.steps) + 1), 0]:
            for place, statement in enumerate(self.statements, 1):
                if statement[0] == number:
                    self.test_statement(place)
            if number:
                self.test_step(number)
        ask(self.taken == len(self.nodes))


def is_sound(text_length, tables):
    try:
        Database(text_length, tables).test()
    except Unsound:
        return False
    return True
