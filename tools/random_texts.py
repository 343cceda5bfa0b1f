"""Puts random module texts, right and damaged, to a program and to the model of rules_model.py, and prints where they differ.

Every other text is written by the grammar alone; the rest keep the rules too, until they are damaged. All that the program prints is
compared, and its status. Usage: random_texts.py PROGRAM SEED COUNT, where PROGRAM is the built `tables`.
"""

import collections
import os
import random
import subprocess
import sys
import tempfile

from rules_model import CLASSES, DRIVEN, READABLE, listing
from text_model import KEYWORDS, PREFIXES

NAMES = "a b r s go q2 x_1 Clk endo NULLs abcdefghijklmnopqrst".split()
INTEGERS = "0 1 2 3 7 16 31 00001 65535".split()
ODD_WORDS = ["<", ">", "?", "_", "\xe9", "#", "!", "12345678", "abcdefghijklmnopqrstu", "65536", "000001"]


class Writer:
    """Writes random texts."""

    def __init__(self, seed):
        self.random = random.Random(seed)
        self.pick = self.random.choice

    def chance(self, of):
        return self.random.random() < of

    def series(self, part, sign, counts=(1, 1, 1, 2)):
        return f" {sign} ".join(part() for _ in range(self.pick(counts)))

    def integer(self):
        return self.pick(INTEGERS)

    def list(self):
        return self.series(self.integer, ",", (1, 1, 2, 3))

    def item(self):
        return self.pick(NAMES) + self.pick(["", f" [ {self.integer()} ]"])

    def ref(self):
        return self.pick([self.item(), f"{self.pick(NAMES)} [ {self.integer()} : {self.integer()} ]"])

    def primary(self, left):
        choices = [self.ref(), f"\\ {self.list()} \\", f"{self.integer()} $ {self.integer()}"]
        if left and self.chance(0.3):
            return f"( {self.expr(left - 1)} )"
        return self.pick(choices)

    def prefix(self, left):
        if left and self.chance(0.3):
            return f"{self.pick(PREFIXES)} {self.prefix(left - 1)}"
        return self.primary(left)

    def level(self, left, signs):
        if not signs:
            return self.prefix(left)
        return self.series(lambda: self.level(left, signs[1:]), signs[0])

    def expr(self, left):
        return self.level(left, ",+@&")

    def deep(self):
        opened, closed = "", ""
        for _ in range(self.pick([14, 15, 16, 17, 18])):
            if self.chance(0.5):
                opened, closed = opened + "( ", " )" + closed
            else:
                opened += self.pick(PREFIXES) + " "
        return opened + self.ref() + closed

    def value(self):
        return self.deep() if self.chance(0.06) else self.expr(self.pick([0, 1, 2, 3]))

    def targets(self):
        return self.series(self.ref, ",", (1, 1, 2))

    def conn(self):
        return f"{self.targets()} = {self.value()}"

    def stmt(self):
        transfer = f"<= {self.value()}"
        return self.pick([self.conn(), f"{self.targets()} {transfer}", f"{self.targets()} * ( {self.value()} ) {transfer}"])

    def branch(self):
        return self.pick([f"=> ( {self.list()} )", f"=> ( {self.value()} ) / ( {self.list()} )"])

    def action(self):
        parts = [self.stmt() for _ in range(self.pick([0, 1, 1, 2]))]
        if not parts or self.chance(0.5):
            parts.append(self.branch())
        return self.pick(["NULL", "DEADEND"] + [" ; ".join(parts)] * 8)

    def decl(self):
        return f"{self.pick(['INPUTS', 'OUTPUTS', 'MEMORY', 'BUSES'])} : {self.series(self.item, ';', (1, 2, 3))} ."

    def step(self):
        return f"{self.integer()} {self.action()} ."

    def module(self):
        conns = "".join(f"; {self.conn()} " for _ in range(self.pick([0, 0, 1])))
        return (
            f"MODULE : {self.pick(NAMES)} . {self.series(self.decl, '', (1, 2))} BODY SEQUENCE : {self.pick(NAMES)} . "
            f"{self.series(self.step, '', (1, 2, 3))} ENDSEQUENCE CONTROLRESET ( {self.list()} ) {conns}. END ."
        ).split()

    def damage(self, words):
        at, kind = self.random.randrange(len(words)), self.random.random()
        if kind < 0.3:
            del words[at]
        elif kind < 0.6:
            words.insert(at, self.pick(words))
        elif kind < 0.8:
            words[at] = self.pick(words)
        elif kind < 0.85:
            words[at] = self.pick(ODD_WORDS)
        elif kind < 0.95:
            del words[at:]
        else:
            words.append(self.pick(words))
        return words or ["MODULE"]

    def words(self):
        """The words of a module, which may be damaged."""
        words = self.module()
        for _ in range(self.pick([0, 0, 0, 1, 1, 1, 2])):
            words = self.damage(words)
        return words

    def text(self):
        text = ""
        for word in self.words():
            if self.chance(0.2):
                word = "".join(self.pick([letter.lower(), letter.upper()]) for letter in word)
            gap = self.pick([" ", " ", " ", "\n", "  ", "\t", "\r\n", ""])
            if not gap and text and (text[-1].isalnum() or text[-1] == "_") and (word[0].isalnum() or word[0] == "_"):
                gap = " "
            text += gap + word
        written = bytearray(text.encode("latin1"))
        if self.chance(0.1):
            written[self.random.randrange(len(written))] = self.random.randrange(256)
        if self.chance(0.1):
            written += b" \n"
        return bytes(written)


class RuleWriter(Writer):
    """Writes random texts that keep the rules, but for the sizes of tables, until they are damaged. A few are at the limits."""

    step_counts = [1, 1, 2, 3, 4]

    def words(self):
        words = self.module()
        for _ in range(self.pick([0, 1, 1, 1, 2, 3])):
            words = self.damage(words)
        return words

    def module(self):
        self.symbols = []  # class, name and width of each
        many = self.chance(0.04)
        names = self.random.sample(NAMES[:4] + [f"n{i}" for i in range(70)], self.pick([64, 65] if many else [3, 5, 8, 12]))
        for kind in CLASSES * 2:
            for _ in range(self.pick([8, 9] if many else [0, 1, 2, 3])):
                if names:
                    self.symbols.append((kind, names.pop(), self.pick([1, 1, 2, 3, 4, 4, 8, 16, 31, 32])))
        if not self.symbols:
            self.symbols.append((self.pick(CLASSES), names.pop(), 1))
        count = self.pick([64, 65] if self.chance(0.02) else self.step_counts)
        self.steps = range(1, count + 1)
        steps = " ".join(f"{step} {self.step_action(step == count)} ." for step in self.steps)
        resets = self.some_steps(self.pick([1, 1, 2]))
        conns = "".join(f"; {conn}" for conn in (self.connection() for _ in range(self.pick([0, 0, 1, 2]))) if conn)
        return (
            f"MODULE : {self.pick(NAMES)} . {self.declarations()} BODY SEQUENCE : Clk . {steps} "
            f"ENDSEQUENCE CONTROLRESET ( {resets} ) {conns} . END ."
        ).split()

    def declarations(self):
        text, before = "", None
        for kind, name, width in self.symbols:
            text += " ; " if kind == before and self.chance(0.7) else f"{' .' if before else ''} {kind} : "
            text += f"{name} [ {width} ]" if width > 1 or self.chance(0.2) else name
            before = kind
        return text + " ."

    def some_steps(self, count):
        return " , ".join(str(self.pick(self.steps)) for _ in range(count))

    def step_action(self, last):
        statements = [self.pick([self.transfer, self.connection])() for _ in range(self.pick([0, 1, 1, 2, 3]))]
        statements = [statement for statement in statements if statement]
        if len(self.steps) < 5 and self.chance(0.03):
            statements *= self.pick([40, 64, 86, 128, 171])
        plain = f"=> ( {self.some_steps(self.pick([1, 1, 2, 3]))} )"
        if last and not self.chance(0.03):
            return " ; ".join([*statements, plain]) if statements or self.chance(0.5) else "DEADEND"
        width = self.pick([1, 1, 2, 3])
        conditions = f"=> ( {self.sized_value(width)} ) / ( {self.some_steps(width)} )"
        branch = self.pick([[], [plain], [conditions]])
        return " ; ".join(statements + branch) or self.pick(["NULL", "DEADEND"])

    def part(self, symbol, width):
        """So many bits of a symbol."""
        _, name, whole = symbol
        if width == whole and self.chance(0.7):
            return name
        first = self.random.randrange(whole - width + 1)
        return f"{name} [ {first} ]" if width == 1 and self.chance(0.7) else f"{name} [ {first} : {first + width - 1} ]"

    def sided(self, classes):
        """Some targets, how wide they are, and the places of their symbols."""
        choices = [symbol for symbol in self.symbols if symbol[0] in classes]
        parts, total, places = [], 0, []
        for _ in range(self.pick([1, 1, 1, 2, 3]) if choices else 0):
            symbol = self.pick(choices)
            width = symbol[2] if self.chance(0.6) else self.random.randint(1, symbol[2])
            if total + width <= 32:
                parts.append(self.part(symbol, width))
                total += width
                places.append(self.symbols.index(symbol))
        return " , ".join(parts), total, places

    def transfer(self):
        targets, width, _ = self.sided({"MEMORY"})
        condition = f"* ( {self.sized_value(1)} ) " if self.chance(0.4) else ""
        return targets and f"{targets} {condition}<= {self.sized_value(width)}"

    def connection(self):
        targets, width, places = self.sided(DRIVEN)
        buses = [place for place in places if self.symbols[place][0] == "BUSES" and not self.chance(0.1)]
        return targets and f"{targets} = {self.sized_value(width, min(buses, default=None))}"

    def sized_value(self, width, before=None, left=3, level=0):
        """An expression so wide, which reads no bus from that place on, and binds at least as closely as the level says."""
        kinds = ["leaf", "leaf"]
        if left:
            kinds += [",", "+", "@", "&", "^", "(", *(["&/", "+/", "@/"] if width == 1 else [])]
        kind = self.pick(kinds)
        if kind == "leaf" or kind == "," and width == 1:
            return self.leaf(width, before)
        if kind == "(" or kind in ",+@&" and ",+@&".index(kind) < level:
            return f"( {self.sized_value(width, before, left - 1)} )"
        if kind in PREFIXES:
            inner = width if kind == "^" else self.pick([1, 2, 4, 32])
            return f"{kind} {self.sized_value(inner, before, left - 1, 4)}"
        here = ",+@&".index(kind)
        first = self.random.randint(1, width - 1) if kind == "," else self.pick([width, width, 1])
        second = width - first if kind == "," else width if first == 1 else self.pick([width, 1])
        sides = (self.sized_value(side, before, left - 1, here + at) for at, side in enumerate((first, second)))
        return f" {kind} ".join(sides)

    def leaf(self, width, before):
        choices = [
            symbol
            for place, symbol in enumerate(self.symbols)
            if symbol[0] in READABLE and symbol[2] >= width and (symbol[0] != "BUSES" or before is None or place < before)
        ]
        if choices and self.chance(0.7):
            return self.part(self.pick(choices), width)
        if self.chance(0.5):
            return f"{width} $ {self.pick([0, 1, 5, 255, 65535])}"
        bits = " , ".join(self.pick(["0", "1", "01"]) for _ in range(width))
        return f"\\ {bits} \\"

    def damage(self, words):
        """Most damage here keeps the grammar: a word of the same kind comes in place of another."""
        if self.chance(0.2):
            return super().damage(words)
        at = self.random.randrange(len(words))
        word = words[at]
        if word.isdigit():
            words[at] = self.pick(["0", "1", "2", "4", "5", "9", "31", "32", "33", "65535", str(int(word) + 1)])
        elif word in CLASSES:
            words[at] = self.pick(CLASSES)
        elif word in PREFIXES + ["+", "@", "&", ","]:
            words[at] = self.pick(PREFIXES if word in PREFIXES else ["+", "@", "&", ","])
        elif word in ("=", "<="):
            words[at] = "<=" if word == "=" else "="
        elif word.isalnum() and word.upper() not in KEYWORDS:
            words[at] = self.pick([word.swapcase(), "x_1", "Clk", *(name for _, name, _ in self.symbols)])
        elif word == ";" and self.chance(0.3):
            words[at : at + 1] = words[max(0, at - self.pick([3, 5, 7])) : at + 1]
        return words


def program_answer(program, folder):
    """What the program prints of the module in the folder, and its status."""
    run = subprocess.run([program], cwd=folder, capture_output=True, check=False)
    return run.stdout.decode().splitlines(), run.returncode


def main():
    program, seed, count = os.path.abspath(sys.argv[1]), int(sys.argv[2]), int(sys.argv[3])
    writers, answers = [Writer(seed), RuleWriter(seed)], collections.Counter()
    with tempfile.TemporaryDirectory() as folder:
        for number in range(count):
            text = writers[number % 2].text()
            with open(os.path.join(folder, "module.ahpl"), "wb") as file:
                file.write(text)
            wanted, (said, status) = listing(text), program_answer(program, folder)
            refused = wanted[0].startswith("REFUSED")
            answers[" ".join(wanted[0].split()[:2]) if refused else "read"] += 1
            if said != wanted or status != int(refused):
                print(f"text {number}: {said}, status {status}, and by the model {wanted}: {text!r}")
    print(dict(sorted(answers.items())))


if __name__ == "__main__":
    main()
