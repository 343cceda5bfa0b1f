"""Puts random modules with random bench lines to the program `trellick` and to the model of steps_model.py, and prints where they differ.

Most modules are accepted and do much in each step; most lines are right. All that the program prints is compared, and its status. Usage:
random_benches.py PROGRAM SEED COUNT, where PROGRAM is the built `trellick`.
"""

import collections
import os
import subprocess
import sys
import tempfile

import rules_model
from random_texts import RuleWriter
from rules_model import DRIVEN
from steps_model import Module, play

TRIES = 200


class BenchWriter(RuleWriter):
    """Writes modules that keep the rules, and lines for them."""

    step_counts = [1, 2, 2, 3, 3, 4, 4, 5, 6, 8]

    def words(self):
        words = self.module()
        return self.damage(words) if self.chance(0.05) else words

    def step_action(self, last):
        statements = [self.pick([self.transfer, self.transfer, self.connection])() for _ in range(self.pick([0, 1, 1, 2, 2, 3, 4]))]
        statements = [statement for statement in statements if statement]
        plain = f"=> ( {self.some_steps(self.pick([1, 1, 1, 2, 3]))} )"
        if last:
            return " ; ".join([*statements, plain]) if statements or self.chance(0.7) else "DEADEND"
        width = self.pick([1, 1, 2, 3])
        conditions = f"=> ( {self.sized_value(width)} ) / ( {self.some_steps(width)} )"
        branch = self.pick([[], [plain], [conditions], [conditions]])
        return " ; ".join(statements + branch) or self.pick(["NULL", "NULL", "NULL", "DEADEND"])

    def every_bus(self):
        """A connection for each bus and each output, as far as they have room."""
        for place, (kind, name, width) in enumerate(self.symbols):
            if kind in DRIVEN and self.chance(0.7):
                yield f"{name} = {self.sized_value(width, place if kind == 'BUSES' else None, 2)}"

    def module(self):
        words = super().module()
        more = " ".join(f"; {connection}" for connection in self.every_bus()).split()
        return words[:-3] + more + words[-3:]

    def accepted(self):
        """A text, accepted where one is found soon, and its module if so."""
        for _ in range(TRIES):
            text = self.text()
            refused, tables = rules_model.read(text)
            if refused is None:
                return text, Module(text, tables)
            if self.chance(0.1):
                break
        return text, None

    def letters(self, width):
        kinds = self.pick(["01", "01", "0111", "0001", "01X", "0101X", "X"])
        return "".join(self.pick(kinds) for _ in range(width))

    def lines(self, module):
        names = [module.symbols[row - 1][2] for row in module.of("INPUTS")]
        widths = [module.width(row) for row in module.of("INPUTS")]
        lines = [" ".join(self.pick([name, name.lower(), name.capitalize()]) for name in names) + "\n"]
        line = None
        for _ in range(self.pick([0, 1, 3, 6, 12, 24, 48])):
            if line is None or self.chance(0.7):
                line = " ".join(self.letters(width) for width in widths) + "\n"
            lines.append(line)
        if self.chance(0.15):
            at = self.random.randrange(len(lines))
            lines[at] = self.damaged(lines[at])
        return "".join(lines).encode("latin1")

    def damaged(self, line):
        at = self.random.randrange(len(line))
        return self.pick(
            [
                line[:at] + line[at + 1 :],
                line[:at] + self.pick("01Xx2 \t\r\n_A\xff") + line[at:],
                line[:at] + self.pick("01Xx2 \t\r\n_a") + line[at + 1 :],
                line[::-1],
                line[:at],
                line + line,
                "",
            ]
        )


def program_answer(program, folder, text, lines):
    """What the program prints of both files, and its status."""
    for name, content in ("module.ahpl", text), ("lines.txt", lines):
        with open(os.path.join(folder, name), "wb") as file:
            file.write(content)
    run = subprocess.run([program, folder], capture_output=True, check=False)
    return run.stdout.decode("latin1").splitlines(), run.returncode


def main():
    program, seed, count = os.path.abspath(sys.argv[1]), int(sys.argv[2]), int(sys.argv[3])
    writer, answers, letters = BenchWriter(seed), collections.Counter(), collections.Counter()
    with tempfile.TemporaryDirectory() as folder:
        for number in range(count):
            text, module = writer.accepted()
            lines = writer.lines(module) if module else b"A\n0\n"
            wanted, (said, status) = play(text, lines), program_answer(program, folder, text, lines)
            refused = wanted[-1].startswith("REFUSED ") and wanted[-1].endswith((" TEXT", " BENCH"))
            answers[" ".join(wanted[-1].split()[:2]) if refused else f"{len(module.steps)} steps"] += 1
            letters.update("".join(wanted[1:] if not refused else wanted[1:-1]).replace(" ", ""))
            if said != wanted or status != int(refused):
                print(f"text {number}: {said}, status {status}, and by the model {wanted}: {text!r} {lines!r}")
    print(dict(sorted(answers.items())), "letters", dict(letters))


if __name__ == "__main__":
    main()
