"""Prints what the program `benches` must print, by the models of steps_model.py and soundness_model.py. The modules, the lines and the
calls are those of its source. With a file's name, writes into that file."""

import contextlib
import os
import sys

from rules_model import SIZES, read
from rust_constants import Constants
from soundness_model import in_use, is_sound
from steps_model import Bench, Module, play, play_lines, split_lines, upper

TOP = os.path.join(os.path.dirname(os.path.abspath(__file__)), "..")
COLUMNS = {"symbols": 4, "steps": 3, "statements": 4, "targets": 4, "exits": 2, "nodes": 8}
HELD_ROWS, POINTS, NODE_BITS = 1088, 1088, 32
WORKING_ROWS = POINTS + NODE_BITS * SIZES["nodes"]
OUTPUT, BEFORE, SPACES = 4096, b"#", 6000
FACTOR, MODULUS, NOISE = 1000003, 1000000007, 0x9E3779B97F4A7C15
LARGEST = 2**64
CLOCKS, PAIRED = 3, 4
with open(os.path.join(TOP, "crates/benches/src/cases.rt")) as file:
    CASES = Constants(file.read()).values
SHORT, MISSING, UNSOUND, NARROW = ("REFUSED {} 0 BENCH".format(number) for number in (23, 25, 18, 26))
WRONG_NAMES, WRONG_VALUES = ("REFUSED {} 0 BENCH".format(number) for number in (27, 28))


def checksum(numbers, before=0):
    for number in numbers:
        before = (before * FACTOR + number % MODULUS) % MODULUS
    return before


class Kind:
    """A kind of level: levels are numbers, and these have letters in lanes."""

    def __init__(self, lanes, letters):
        self.lanes, self.letters = lanes, letters

    def of(self, number):
        return number % len(self.letters) ** self.lanes

    def letter(self, level, lane):
        base = len(self.letters)
        return self.letters[level // base**lane % base]

    def level(self, letters):
        return sum(self.letters.index(letter) * len(self.letters) ** lane for lane, letter in enumerate(letters))

    def shown(self, level):
        return "".join(self.letter(level, lane) for lane in range(self.lanes))

    def noise(self, rows):
        return [self.of((number * NOISE % LARGEST) >> 7) for number in range(1, rows + 1)]


BIT, WORD, TERNARY = Kind(1, "01"), Kind(64, "01"), Kind(1, "01X")


class Engine:
    """Plays a module on a held and a working table of levels, each lane by the model."""

    def __init__(self, module, kind, held=HELD_ROWS, work=WORKING_ROWS):
        self.module, self.kind = module, kind
        self.held, self.work = kind.noise(held), kind.noise(work)
        self.inputs, self.registers = module.bits("INPUTS"), module.bits("MEMORY")
        self.points = module.points()
        self.steps = self.points[-len(module.steps) :]
        self.held_points = self.inputs + self.registers + self.steps

    def sums(self):
        return checksum(self.held), checksum(self.work)

    def benches(self):
        """The held letters, lane by lane."""
        for lane in range(self.kind.lanes):
            bench = Bench(self.module)
            bench.held = {point: self.kind.letter(level, lane) for point, level in zip(self.held_points, self.held)}
            yield bench

    def put(self, table, row, letters):
        table[row] = self.kind.level(letters)

    def keep(self, benches):
        for row, point in enumerate(self.held_points):
            self.put(self.held, row, [bench.held[point] for bench in benches])

    def settle(self):
        lanes = [bench.letters()[:2] for bench in self.benches()]
        for row, name in enumerate(self.points):
            self.put(self.work, row, [point(name) for point, _ in lanes])
        for number, columns in enumerate(self.module.nodes):
            # Bits of names count from 0 at the left, and so do those of nodes.
            bits = [node(number + 1) for _, node in lanes]
            for bit in range(columns[6]):
                self.put(self.work, POINTS + NODE_BITS * number + bit, [lane[bit] for lane in bits])

    def make(self, call):
        """Makes a call, and answers what is printed of it."""
        name, *values = call if isinstance(call, tuple) else (call,)
        if len(self.held) < HELD_ROWS or len(self.work) < WORKING_ROWS:
            return SHORT
        if name == "Deed::Look":
            if values[0] >= len(self.points):
                return MISSING
            self.settle()
            return self.kind.shown(self.work[values[0]])
        benches = list(self.benches())
        if name == "Deed::Open":
            if len(values[0]) != len(self.registers):
                return MISSING
            levels = [self.kind.of(number) for number in values[0]]
            for lane, bench in enumerate(benches):
                bench.open([self.kind.letter(level, lane) for level in levels])
        elif name == "Deed::Drive":
            if values[0] >= len(self.inputs):
                return MISSING
            level = self.kind.of(values[1])
            for lane, bench in enumerate(benches):
                bench.drive(values[0], self.kind.letter(level, lane))
        elif name == "Deed::Clock":
            self.settle()
            for bench in benches:
                bench.clock()
        elif name == "Deed::Reset":
            for bench in benches:
                bench.reset()
        self.keep(benches)
        return "done"


def module_of(text):
    return Module(text.encode(), read(text.encode())[1])


def built(parts):
    numbered = ((part, number) for count, part in parts for number in range(1, count + 1))
    return "".join(part.replace("#", str(number)).replace("!", str(number - 1)) for part, number in numbered)


def show_played(label, text, lines):
    print(f"{label}:", *play(text.encode(), lines.encode()), sep="\n")


def show_names(module, line, output):
    """What comes of a names line with an output of so many bytes."""
    wide = len(output) >= OUTPUT
    right, printed = play_lines(module, names_of(module))[0], play_lines(module, line)
    if not wide or len(output) < len(right) + 1:
        return NARROW, output
    if printed != [right]:
        return WRONG_NAMES, output
    return None, (right + "\n").encode() + output[len(right) + 1 :]


def names_of(module):
    return (" ".join(module.symbols[row - 1][2] for row in module.of("INPUTS")) + "\n").encode()


def show_sums(label, refused, output, before, held, work):
    if refused:
        assert output == before
        print(f"{label}: {refused}, all kept")
    else:
        count = next(place for place in range(len(output) + 1) if output[place:] == before[place:])
        print(f"{label}: {count} bytes, held {checksum(held)}, work {checksum(work)}, output {checksum(output)}")


def show_line_lengths():
    module = module_of(CASES["PACE"])
    for held, work, bytes_ in CASES["LINE_LENGTHS"]:
        print(f"{held} held rows, {work} working rows, {bytes_} bytes of output:")
        before = BEFORE * bytes_
        for label, line in CASES["LENGTH_NAMES"]:
            engine = Engine(module, TERNARY, held, work)
            refused, output = show_names(module, line.encode(), before)
            show_sums(label, refused, output, before, engine.held, engine.work)
        for label, line in CASES["LENGTH_VALUES"]:
            engine = Engine(module, TERNARY, held, work)
            refused, output = play_value_line(engine, line, before)
            show_sums(label, refused, output, before, engine.held, engine.work)


def play_value_line(engine, line, before):
    """What comes of a value line on the levels that the tables have."""
    if len(engine.held) < HELD_ROWS or len(engine.work) < WORKING_ROWS:
        return SHORT, before
    if len(before) < OUTPUT:
        return NARROW, before
    if play_lines(engine.module, names_of(engine.module) + line.encode())[-1] == WRONG_VALUES:
        return WRONG_VALUES, before
    for number, letter in enumerate(line.replace(" ", "").strip("\n")):
        engine.make(("Deed::Drive", number, TERNARY.letters.index(letter)))
    (bench,) = engine.benches()
    printed = (bench.printed() + "\n").encode()
    engine.make("Deed::Clock")
    return None, printed + before[len(printed) :]


def show_long_names():
    text = CASES["PACE"] + " " * SPACES
    tables = read(text.encode())[1]
    for name, bytes_ in CASES["LONG_OUTPUTS"]:
        module = Module(text.encode(), changed(tables, [("Table::Symbols", 5, 3, name)]))
        before = BEFORE * bytes_
        refused, output = show_names(module, b"GO D\n", before)
        show_sums(f"a name of {name} bytes, {bytes_} bytes of output", refused, output, before, [], [])


def show_lanes(kind, number):
    print(f"{kind.lanes} lanes of {number}: {kind.shown(kind.of(number))}")
    print(f"lane {kind.lanes}: {MISSING}")


def show_run(kind, label, text, deeds):
    print(f"{label}:")
    engine = Engine(module_of(text), kind)
    looks = [("Deed::Look", point) for point in range(len(engine.points) + 1)]
    for calls in deeds, looks:
        for call in calls:
            print(engine.make(call))
        print("held {}, work {}".format(*engine.sums()))


def show_call_lengths(kind):
    module = module_of(CASES["PACE"])
    for held, work in CASES["LENGTHS"]:
        print(f"{held} held rows, {work} working rows:")
        for label, call in CASES["LENGTH_CALLS"]:
            engine = Engine(module, kind, held, work)
            before = engine.sums()
            answer = engine.make(call)
            if answer.startswith("REFUSED"):
                assert engine.sums() == before
                print(f"{label}: {answer}, all kept")
            else:
                print("{}: {}, held {}, work {}".format(label, answer, *engine.sums()))


def changed(tables, changes):
    """The rows with some numbers changed: a table, a row from 1, a column from 0 and the number. Rows and columns have to be there."""
    tables = {name: [list(row) for row in rows] for name, rows in tables.items()}
    for table, row, column, number in changes:
        name = table.removeprefix("Table::").lower()
        if row <= SIZES[name]:
            tables[name] += [[0] * COLUMNS[name] for _ in range(row - len(tables[name]))]
            tables[name][row - 1][column] = number
    return {name: [tuple(row) for row in rows] for name, rows in tables.items()}


def taken(text, tables):
    """The module, if its rows are sound."""
    if not is_sound(len(text), tables):
        return None
    return Module(text, {name: in_use(rows) for name, rows in tables.items()})


def play_changed():
    for label, text, changes, lines in CASES["CHANGED"]:
        module = taken(text.encode(), changed(read(text.encode())[1], changes))
        print(f"{label}:", *(play_lines(module, lines.encode()) if module else [UNSOUND]), sep="\n")


class Tests:
    """Tests databases on one text, and counts those that are taken."""

    def __init__(self, text):
        self.text, self.count, self.sum = text, 0, 0

    def test(self, tables):
        module = taken(self.text, tables)
        if module is None:
            return "-"
        self.count += 1
        self.sum = checksum([self.run(module)], self.sum)
        return "+"

    def run(self, module):
        bench, inputs, result = Bench(module), module.bits("INPUTS"), 0
        numbers = range(len(inputs), len(inputs) + len(module.bits("MEMORY")))
        bench.open([TERNARY.letters[number % 3] for number in numbers])
        held = inputs + module.bits("MEMORY") + module.points()[-len(module.steps) :]
        for clock in range(CLOCKS):
            for number in range(len(inputs)):
                bench.drive(number, TERNARY.letters[(clock + number) % 3])
            point = bench.letters()[0]
            result = checksum((TERNARY.letters.index(point(name)) for name in module.points()), result)
            bench.clock()
            result = checksum((TERNARY.letters.index(bench.held[name]) for name in held), result)
        return result

    def shown(self):
        line = f" {self.count} taken, checksum {self.sum}"
        self.count, self.sum = 0, 0
        return line

    def show(self, label, databases):
        signs = "".join(self.test(tables) for tables in databases)
        print(label + signs + self.shown())


def number_at(tables, table, row, column):
    return tables[table][row - 1][column] if row <= len(tables[table]) else 0


def show_damages():
    for label, text in CASES["DAMAGED"]:
        print(f"{label}, damaged:")
        tables = read(text.encode())[1]
        tests = Tests(text.encode())
        for table, columns in COLUMNS.items():
            count = len(tables[table])
            for row in range(1, count + 3):
                show_damaged_row(tests, tables, table, row, columns)
            tests.show(f"{table}, neighbours changed: ", (swapped(tables, table, row) for row in range(count)))
            firsts = ({**tables, table: tables[table][:rows]} for rows in range(count + 2))
            tests.show(f"{table}, the first rows alone: ", firsts)


def show_damaged_row(tests, tables, table, row, columns):
    line = f"{table} {row}:"
    for column in range(columns):
        before = number_at(tables, table, row, column)
        numbers = 0, 1, before + 1, LARGEST - 1
        line += " " + "".join(tests.test(changed(tables, [(table, row, column, number)])) for number in numbers)
    print(line + tests.shown())
    for column in range(columns):
        for other in range(column):
            for one in range(PAIRED):
                for two in range(PAIRED):
                    tests.test(changed(tables, [(table, row, column, one), (table, row, other, two)]))
    print("by pairs:" + tests.shown())


def swapped(tables, table, row):
    """The tables with a row, counted from 0, and the next one changed; the one behind the last in use is zero."""
    rows = [*tables[table], (0,) * COLUMNS[table]]
    if row + 1 < SIZES[table]:
        rows[row], rows[row + 1] = rows[row + 1], rows[row]
    return {**tables, table: rows}


def show_short_text():
    text = CASES["PACE"].encode()
    tables = read(text)[1]
    print("the first bytes of a text: " + "".join(Tests(text[:count]).test(tables) for count in range(len(text))))
    tests = Tests(text)
    longer = {name: rows + [(0,) * COLUMNS[name]] * (2 * SIZES[name] - len(rows)) for name, rows in tables.items()}
    tests.show("longer tables: ", [longer])
    for name, columns in COLUMNS.items():
        rows = list(longer[name])
        rows[99] = (1,) + (0,) * (columns - 1)
        tests.show(f"a hundredth row of {name}: ", [{**longer, name: rows}])


def show():
    for case in CASES["PLAYED"]:
        show_played(*case)
    for label, module, lines in CASES["BUILT"]:
        show_played(label, built(module), built(lines))
    for label, lines in CASES["NAMES_LINES"]:
        show_played(label, CASES["PACE"], lines)
    for label, values in CASES["VALUE_LINES"]:
        show_played(label, CASES["PACE"], "GO D\n" + values)
    for label, lines in CASES["EMPTY_LINES"]:
        show_played(label, CASES["NO_INPUTS"], lines)
    show_line_lengths()
    show_long_names()
    for kind, number in (BIT, 1), (WORD, 6), (TERNARY, 2):
        show_lanes(kind, number)
    for kind, name in (BIT, "BIT_RUNS"), (WORD, "WORD_RUNS"), (TERNARY, "LETTER_RUNS"):
        for run in CASES[name]:
            show_run(kind, *run)
    for kind in BIT, WORD, TERNARY:
        show_call_lengths(kind)
    play_changed()
    show_short_text()
    show_damages()


if __name__ == "__main__":
    if len(sys.argv) > 1:
        with open(sys.argv[1], "w") as file, contextlib.redirect_stdout(file):
            show()
    else:
        show()
