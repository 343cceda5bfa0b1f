#!/usr/bin/env python3
"""A model of the control steps, written apart from the specs: the letters of a module's points, clock by clock.

    steps_model.py FOLDER    prints what the program `trellick` prints of the two files there
"""

import functools
import sys
from pathlib import Path

import rules_model

ORDER = ("INPUTS", "MEMORY", "BUSES", "OUTPUTS")
CODES = {code + 1: name for code, name in enumerate(rules_model.CLASSES)}


def negation(a):
    return {"0": "1", "1": "0", "X": "X"}[a]


def conjunction(*letters):
    return "0" if "0" in letters else "X" if "X" in letters else "1"


def disjunction(*letters):
    return negation(conjunction(*map(negation, letters)))


def difference(*letters):
    return "X" if "X" in letters else str(letters.count("1") % 2)


JOIN = {"&": conjunction, "+": disjunction, "@": difference}


class Module:
    """The rows of an accepted text, by the names of their columns."""

    def __init__(self, text, tables):
        self.symbols = []
        for kind, width, place, length in tables["symbols"]:
            name = text[place : place + length].decode("ascii").upper()
            self.symbols.append((CODES[kind], width, name))
        self.steps = tables["steps"]
        self.statements = tables["statements"]
        self.targets = tables["targets"]
        self.exits = tables["exits"]
        self.nodes = tables["nodes"]
        self.driving = {}  # of each bit of a symbol, the statements that name it with the bit of their value
        taken = {}
        for statement, symbol, first, last in self.targets:
            for bit in range(first, last + 1):
                place = taken.get(statement, 0)
                taken[statement] = place + 1
                self.driving.setdefault((symbol, bit), []).append((statement, place))

    def of(self, kind):
        return [row for row, symbol in enumerate(self.symbols, 1) if symbol[0] == kind]

    def width(self, row):
        return self.symbols[row - 1][1]

    def bits(self, kind):
        return [(row, bit) for row in self.of(kind) for bit in range(self.width(row))]

    def points(self):
        return [point for kind in ORDER for point in self.bits(kind)] + [("step", row) for row in range(1, len(self.steps) + 1)]


class Bench:
    """The held letters, by input bit, register bit and step."""

    def __init__(self, module):
        self.module = module
        self.held = {}

    def open(self, registers):
        self.held = {point: "0" for point in self.module.bits("INPUTS")}
        self.held.update(zip(self.module.bits("MEMORY"), registers, strict=True))
        self.reset()

    def reset(self):
        for row, (_, _, mark) in enumerate(self.module.steps, 1):
            self.held["step", row] = str(mark)

    def drive(self, number, letter):
        self.held[self.module.bits("INPUTS")[number]] = letter

    def letters(self):
        """A function from points to letters, in the state that there is."""
        held, module = dict(self.held), self.module

        @functools.cache
        def node(row):
            sign, symbol, first, last, left, right, width, value = module.nodes[row - 1]
            kind = rules_model.NODE_SIGNS[sign]
            if kind == "name":
                return [point((symbol, bit)) for bit in range(first, last + 1)]
            if kind == "constant":
                return list(format(value, f"0{width}b"))
            if kind == ",":
                return node(left) + node(right)
            if kind in JOIN:
                sides = [node(left), node(right)]
                sides = [side * width if len(side) == 1 else side for side in sides]
                return [JOIN[kind](a, b) for a, b in zip(*sides, strict=True)]
            if kind == "^":
                return [negation(letter) for letter in node(left)]
            return [JOIN[kind[0]](*node(left))]

        @functools.cache
        def guard(row):
            step, _, condition, _ = module.statements[row - 1]
            if step == 0:
                return "1"
            return conjunction(held["step", step], *(node(condition) if condition else "1"))

        @functools.cache
        def point(name):
            if name in held:
                return held[name]
            return given(name)

        @functools.cache
        def given(name):
            statements = module.driving.get(name, [])
            return disjunction("0", *(conjunction(guard(row), node(module.statements[row - 1][3])[bit]) for row, bit in statements))

        return point, node, guard, given

    def clock(self):
        point, node, guard, given = self.letters()
        module, after = self.module, dict(self.held)
        for name in module.bits("MEMORY"):
            guards = [guard(row) for row, _ in module.driving.get(name, [])]
            after[name] = disjunction(given(name), conjunction(point(name), negation(disjunction("0", *guards))))
        passed = {row: ["0"] for row in range(1, len(module.steps) + 1)}
        for row, (kind, condition, _) in enumerate(module.steps, 1):
            entered = [exit for left, exit in module.exits if left == row]
            letter, way = self.held["step", row], rules_model.STEP_KINDS[kind]
            if way == "next":
                passed[row + 1].append(letter)
            elif way == "plain":
                for step in entered:
                    passed[step].append(letter)
            elif way == "conditions":
                bits = node(condition)
                for step, bit in zip(entered, bits, strict=True):
                    passed[step].append(conjunction(letter, bit))
                passed[row + 1].append(conjunction(letter, negation(disjunction(*bits))))
        for row, letters in passed.items():
            after["step", row] = disjunction(*letters)
        self.held = after

    def look(self, number):
        return self.letters()[0](self.module.points()[number])

    def printed(self):
        point = self.letters()[0]
        words = ["".join(point((row, bit)) for bit in range(self.module.width(row))) for kind in ORDER[1:] for row in self.module.of(kind)]
        words.append("".join(self.held["step", row] for row in range(1, len(self.module.steps) + 1)))
        return " ".join(words)


def split_lines(text):
    """The lines, each with its ending byte; the last may lack it."""
    parts = text.split(b"\n")
    return [part + b"\n" for part in parts[:-1]] + ([parts[-1]] if parts[-1] else [])


def upper(text):
    return bytes(byte - 32 if 97 <= byte <= 122 else byte for byte in text)


def play_lines(module, lines):
    """The lines that are printed of a module's rows."""
    bench = Bench(module)
    bench.open("X" * len(module.bits("MEMORY")))
    names = lambda kind: [module.symbols[row - 1][2] for row in module.of(kind)]
    lines = split_lines(lines)
    right = (" ".join(names("INPUTS")) + "\n").encode()
    if not lines or upper(lines[0]) != right:
        return ["REFUSED 27 0 BENCH"]
    printed = [" ".join([*names("MEMORY"), *names("BUSES"), *names("OUTPUTS"), "STEPS"])]
    widths = [module.width(row) for row in module.of("INPUTS")]
    for line in lines[1:]:
        words = line[:-1].split(b" ") if widths else []
        fits = line.endswith(b"\n") and (widths or line == b"\n") and [len(word) for word in words] == widths
        if not fits or set(b"".join(words)) - set(b"01X"):
            return [*printed, "REFUSED 28 0 BENCH"]
        for number, letter in enumerate(b"".join(words).decode()):
            bench.drive(number, letter)
        printed.append(bench.printed())
        bench.clock()
    return printed


def play(text, lines):
    """The lines that the program `trellick` prints."""
    refused, tables = rules_model.read(text)
    if refused is not None:
        return ["REFUSED {} {} TEXT".format(*refused)]
    return play_lines(Module(text, tables), lines)


if __name__ == "__main__":
    folder = Path(sys.argv[1])
    print(*play((folder / "module.ahpl").read_bytes(), (folder / "lines.txt").read_bytes()), sep="\n")
