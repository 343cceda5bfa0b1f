"""A model of reading a module text whole, written apart from the program: its words and grammar by text_model.py, then its rules.

A text is answered by the number and the place of its refusal, or by the six tables of rows. Words and grammar come first; a text that
is right by them is made into a tree, and the tree is walked once: the walk notes every fault of the rules and makes every row. Of the
faults the earliest counts, then the lower number. Usage: rules_model.py FILE prints the rows, or the refusal, of the text in that file.
"""

import re
import sys
from collections import namedtuple

from text_model import PREFIXES, refusal, words

SIZES = {"symbols": 64, "steps": 64, "statements": 256, "targets": 512, "exits": 512, "nodes": 512}
DECLARED_BITS = 1024
WIDEST = 32
CLASSES = ["INPUTS", "OUTPUTS", "MEMORY", "BUSES"]
STEP_KINDS = [None, "next", "plain", "conditions", "dead"]
NODE_SIGNS = [None, "name", "constant", ",", "&", "+", "@", "^", "&/", "+/", "@/"]
READABLE = {"INPUTS", "MEMORY", "BUSES"}
LOADED, DRIVEN = {"MEMORY"}, {"BUSES", "OUTPUTS"}

# Names are in upper case, integers are numbers; a sign or word has a field for its place where a rule speaks of it.
Item = namedtuple("Item", "kind name place length width width_place")
Ref = namedtuple("Ref", "name place bracket first last")
Name = namedtuple("Name", "ref")
String = namedtuple("String", "place digits")  # a digit is (comma, place, value)
Sized = namedtuple("Sized", "place bits value")
Joined = namedtuple("Joined", "sign place operands")
Statement = namedtuple("Statement", "targets star condition sign place value")  # a target is (comma, ref)
Step = namedtuple("Step", "integer place kind statements condition slash exits")  # an exit is (comma, place, value)
Module = namedtuple("Module", "items clock clock_place steps resets connections")


class Parser:
    """Makes the tree of a text that is right by words and grammar."""

    def __init__(self, text):
        self.text, self.words, self.at = text, words(text), 0

    def sees(self, *kinds):
        return self.words[self.at][0] in kinds

    def take(self, *kinds):
        """The place of the next word, which is one of these."""
        kind, place = self.words[self.at]
        assert kind in kinds, (kind, place, kinds)
        self.at += 1
        return place

    def skip(self, kind):
        """The place of the next word if it is this one, or None."""
        return self.take(kind) if self.sees(kind) else None

    def name(self):
        place = self.take("name")
        return re.match(rb"\w+", self.text[place:]).group().decode().upper(), place

    def integer(self):
        place = self.take("integer")
        return int(re.match(rb"[0-9]+", self.text[place:]).group()), place

    def list(self):
        found, comma = [], None
        while True:
            value, place = self.integer()
            found.append((comma, place, value))
            if (comma := self.skip(",")) is None:
                return found

    def ref(self):
        name, place = self.name()
        if (bracket := self.skip("[")) is None:
            return Ref(name, place, None, None, None)
        first, _ = self.integer()
        last = self.integer()[0] if self.skip(":") is not None else first
        self.take("]")
        return Ref(name, place, bracket, first, last)

    def primary(self):
        if self.sees("name"):
            return Name(self.ref())
        if self.sees("integer"):
            bits, place = self.integer()
            self.take("$")
            return Sized(place, bits, self.integer()[0])
        if self.sees("\\"):
            place, digits = self.take("\\"), self.list()
            self.take("\\")
            return String(place, digits)
        return self.parenthesis()

    def prefix(self):
        if not self.sees(*PREFIXES):
            return self.primary()
        sign = self.words[self.at][0]
        return Joined(sign, self.take(sign), [self.prefix()])

    def expr(self, signs=",+@&"):
        if not signs:
            return self.prefix()
        left = self.expr(signs[1:])
        while (place := self.skip(signs[0])) is not None:
            left = Joined(signs[0], place, [left, self.expr(signs[1:])])
        return left

    def parenthesis(self):
        self.take("(")
        inside = self.expr()
        self.take(")")
        return inside

    def statement(self):
        targets, star, condition = [(None, self.ref())], None, None
        while (comma := self.skip(",")) is not None:
            targets.append((comma, self.ref()))
        if (star := self.skip("*")) is not None:
            condition = self.parenthesis()
        sign = self.words[self.at][0]
        return Statement(targets, star, condition, sign, self.take("<=", "="), self.expr())

    def exits(self):
        self.take("(")
        exits = self.list()
        self.take(")")
        return exits

    def branch(self):
        """The kind, the condition, the place of / and the exits of a branch."""
        self.take("=>")
        _, second, third = (kind for kind, _ in self.words[self.at : self.at + 3])
        if second == "integer" and third != "$":
            return "plain", None, None, self.exits()
        condition = self.parenthesis()
        return "conditions", condition, self.take("/"), self.exits()

    def step(self):
        integer, place = self.integer()
        statements, left = [], ("next", None, None, [])
        if self.skip("DEADEND") is not None:
            left = ("dead", None, None, [])
        elif self.skip("NULL") is None:
            while self.sees("name"):
                statements.append(self.statement())
                self.skip(";")
            if self.sees("=>"):
                left = self.branch()
        self.take(".")
        return Step(integer, place, left[0], statements, *left[1:])

    def items(self):
        items = []
        while self.sees(*CLASSES):
            kind = self.words[self.at][0]
            self.take(kind)
            self.take(":")
            while self.sees("name"):
                name, place = self.name()
                width, width_place = 1, None
                if self.skip("[") is not None:
                    width, width_place = self.integer()
                    self.take("]")
                items.append(Item(kind, name, place, len(name), width, width_place))
                self.skip(";")
            self.take(".")
        return items

    def module(self):
        steps, connections = [], []
        for kind in ["MODULE", ":", "name", "."]:
            self.take(kind)
        items = self.items()
        for kind in ["BODY", "SEQUENCE", ":"]:
            self.take(kind)
        clock, clock_place = self.name()
        self.take(".")
        while self.sees("integer"):
            steps.append(self.step())
        self.take("ENDSEQUENCE")
        self.take("CONTROLRESET")
        resets = self.exits()
        while self.skip(";") is not None:
            connections.append(self.statement())
        return Module(items, clock, clock_place, steps, resets, connections)


class Rules:
    """Walks a module: notes the faults, as (place, number), and makes the rows."""

    def __init__(self, module):
        self.faults, self.rows = [], {table: [] for table in SIZES}
        self.declared = {}  # row and item of each name
        self.written = {step.integer for step in module.steps}
        self.declarations(module)
        resets = {value for _, _, value in module.resets}
        for number, step in enumerate(module.steps, 1):
            self.step(number, step, number in resets)
        if module.steps[-1].kind not in ("plain", "dead"):
            self.fault(15, module.steps[-1].place)
        self.named_steps(module.resets)
        for connection in module.connections:
            self.statement(0, connection)

    def fault(self, number, place):
        self.faults.append((place, number))

    def row(self, table, place, *columns):
        """Makes a row, whose first word, operator or comma is at the place, and answers its number."""
        self.rows[table].append(columns)
        if len(self.rows[table]) == SIZES[table] + 1:
            self.fault(16, place)
        return len(self.rows[table])

    def sound(self, since, width):
        """The width of a side that is walked since there were so many faults, or None if it has a fault inside."""
        return width if len(self.faults) == since else None

    def declarations(self, module):
        bits = 0
        for item in module.items:
            if item.name in self.declared:
                self.fault(8, item.place)
            row = self.row("symbols", item.place, CLASSES.index(item.kind) + 1, item.width, item.place, item.length)
            self.declared.setdefault(item.name, (row, item))
            if not 1 <= item.width <= WIDEST:
                self.fault(9, item.width_place)
                continue
            if bits <= DECLARED_BITS < bits + item.width:
                self.fault(16, item.place)
            bits += item.width
        if module.clock in self.declared:
            self.fault(8, module.clock_place)

    def step(self, number, step, reset):
        if step.integer != number:
            self.fault(13, step.place)
        for statement in step.statements:
            self.statement(number, statement)
        condition = 0
        if step.kind == "conditions":
            condition, width = self.expr(step.condition)
            count = self.exits(number, step.exits)
            if None not in (width, count) and width != count:
                self.fault(12, step.slash)
        else:
            self.exits(number, step.exits)
        self.row("steps", step.place, STEP_KINDS.index(step.kind), condition, int(reset))

    def named_steps(self, integers):
        for _, place, value in integers:
            if value == 0 or value not in self.written:
                self.fault(13, place)

    def exits(self, left, exits):
        """How many there are, or None if one is faulty."""
        since = len(self.faults)
        self.named_steps(exits)
        for _, place, value in exits:
            self.row("exits", place, left, value)
        return self.sound(since, len(exits))

    def statement(self, step, statement):
        number, transfer = len(self.rows["statements"]) + 1, statement.sign == "<="
        targets, buses = self.targets(number, statement.targets, LOADED if transfer else DRIVEN)
        condition = 0
        if statement.condition is not None:
            condition, width = self.expr(statement.condition)
            if width not in (None, 1):
                self.fault(12, statement.star)
        value, width = self.expr(statement.value, min(buses, default=None))
        if None not in (targets, width) and targets != width:
            self.fault(12, statement.place)
        first = statement.targets[0][1]
        self.row("statements", first.place, step, 2 if transfer else 1, condition, value)

    def targets(self, statement, targets, classes):
        """How wide the targets are, or None, and the rows of the buses among them."""
        since, width, buses = len(self.faults), 0, []
        for comma, ref in targets:
            symbol, kind, first, last = self.reference(ref, classes)
            self.row("targets", ref.place, statement, symbol, first, last)
            width += last - first + 1
            if comma is not None and len(self.faults) == since and width > WIDEST:
                self.fault(12, comma)
            if kind == "BUSES":
                buses.append(symbol)
        return self.sound(since, width), buses

    def reference(self, ref, classes):
        """Row, class, first and last bit of what a reference names."""
        row, item = self.declared.get(ref.name, (0, None))
        if item is None or item.kind not in classes:
            self.fault(10, ref.place)
            return 0, None, 0, 0
        if ref.bracket is None:
            return row, item.kind, 0, item.width - 1
        if not ref.first <= ref.last < item.width:
            self.fault(11, ref.bracket)
        return row, item.kind, ref.first, ref.last

    def expr(self, tree, driven=None):
        """Row and width of an expression; the width is None if it has a fault inside. It may drive a bus, the earliest in that row."""
        since = len(self.faults)
        make = {Name: self.name, String: self.string, Sized: self.sized, Joined: self.joined}[type(tree)]
        row, width = make(tree, driven)
        return row, self.sound(since, width)

    def node(self, place, sign, width, symbol=0, first=0, last=0, operands=(), value=0):
        left, right = (*operands, 0, 0)[:2]
        return self.row("nodes", place, NODE_SIGNS.index(sign), symbol, first, last, left, right, width, value), width

    def name(self, tree, driven):
        symbol, kind, first, last = self.reference(tree.ref, READABLE)
        if kind == "BUSES" and driven is not None and symbol >= driven:
            self.fault(14, tree.ref.place)
        return self.node(tree.ref.place, "name", last - first + 1, symbol, first, last)

    def string(self, tree, _):
        since = len(self.faults)
        for width, (comma, place, value) in enumerate(tree.digits, 1):
            if value > 1:
                self.fault(9, place)
            elif len(self.faults) == since and width > WIDEST:
                self.fault(12, comma)
        value = int("".join(str(value) for _, _, value in tree.digits), 2) if len(self.faults) == since else 0
        return self.node(tree.place, "constant", len(tree.digits), value=value)

    def sized(self, tree, _):
        if not 1 <= tree.bits <= WIDEST:
            self.fault(9, tree.place)
        return self.node(tree.place, "constant", tree.bits, value=tree.value % 2**tree.bits)

    def joined(self, tree, driven):
        rows, widths = zip(*(self.expr(operand, driven) for operand in tree.operands))
        width = self.joined_width(tree, widths) if None not in widths else None
        return self.node(tree.place, tree.sign, width, operands=rows)

    def joined_width(self, tree, widths):
        if tree.sign in PREFIXES:
            return widths[0] if tree.sign == "^" else 1
        if tree.sign == ",":
            right, width = sum(widths) <= WIDEST, sum(widths)
        else:
            right, width = widths[0] == widths[1] or 1 in widths, max(widths)
        if not right:
            self.fault(12, tree.place)
        return width


def read(text):
    """Number and place of the refusal, and the tables; one of both is None."""
    refused = refusal(text)
    if refused is not None:
        return refused, None
    rules = Rules(Parser(text).module())
    if rules.faults:
        place, number = min(rules.faults)
        return (number, place), None
    return None, rules.rows


def listing(text):
    """The lines that the program `tables` prints."""
    refused, tables = read(text)
    if refused is not None:
        return ["REFUSED {} {} TEXT".format(*refused)]
    lines = []
    for table, rows in tables.items():
        lines.append(f"{table.upper()} {len(rows)}")
        lines += [f"{number}: {' '.join(map(str, row))}" for number, row in enumerate(rows, 1)]
    return lines


if __name__ == "__main__":
    with open(sys.argv[1], "rb") as file:
        print(*listing(file.read()), sep="\n")
