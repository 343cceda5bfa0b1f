"""Prints what the program `rulings` must print, by the model of rules_model.py. The texts are those of its source."""

import os
import re

from rules_model import SIZES, listing, read

TOP = os.path.join(os.path.dirname(os.path.abspath(__file__)), "..")
COLUMNS = {"symbols": 4, "steps": 3, "statements": 4, "targets": 4, "exits": 2, "nodes": 8}
FACTOR, MODULUS = 1000003, 1000000007
with open(os.path.join(TOP, "crates/rulings/src/texts.rt")) as file:
    SOURCE = file.read()


def constant(name):
    return re.search(rf'const {name}: &str =\s*r?"(.*?)";', SOURCE, re.S).group(1)


def table(name):
    """The rows of a table: texts, which have no escapes, and numbers."""
    rows, row = [], None
    body = re.search(rf"const {name}: .*? = &\[(.*?)\n\];", SOURCE, re.S).group(1)
    for text, number, bracket in re.findall(r'r?"([^"]*)"|(\d+)|([()])', body):
        if bracket == "(":
            row = []
        elif bracket == ")":
            rows.append(row)
        else:
            row.append(int(number) if number else text)
    return rows


def checksum(tables, lengths):
    """Goes over all columns of all rows, those that are not in use too, where each table has its size so many times."""
    result = 0
    for name, size in SIZES.items():
        unused = [(0,) * COLUMNS[name]] * (lengths * size - len(tables[name]))
        for row in tables[name] + unused:
            for column in row:
                result = (result * FACTOR + column) % MODULUS
    return result


def play(label, text, lengths=1):
    refused, tables = read(text.encode("latin1"))
    if refused is None:
        counts = " ".join(str(len(rows)) for rows in tables.values())
        print(f"{label}: read {counts}, checksum {checksum(tables, lengths)}")
    else:
        number, place = refused
        print(f"{label}: REFUSED {number} {place} TEXT, all rows {'zero' if number >= 8 else 'kept'}")


def play_part(frame, label, part):
    before, behind = (constant(f"{side}_{frame}") for side in ("BEFORE", "BEHIND")) if frame else ("", "")
    play(label, before + part + behind)


def show_rows(label, text):
    print(f"{label}:", *listing(text.encode("latin1")), sep="\n")


show_rows("PACE", constant("PACE"))
show_rows("constants", constant("FOUR_CONSTANTS"))
show_rows("everything", constant("EVERYTHING"))
for frame, tables in {
    "": ["TEXTS"],
    "ITEMS": ["ITEMS"],
    "ACTION": ["CONSTANTS", "NAMES", "SUBSCRIPTS", "OPERANDS", "SIDES", "BUS_ORDER"],
    "CONNECTIONS": ["CONNECTIONS"],
    "STEPS": ["STEPS"],
}.items():
    for name in tables:
        for label, part in table(name):
            play_part(frame, label, part)
for label, count, subscript, behind in table("MANY_ITEMS"):
    play_part("ITEMS", label, "BUSES:" + ";".join(f"x{i}{subscript}" for i in range(count)) + behind + ".")
for label, count, behind in table("MANY_STEPS"):
    play_part("STEPS", label, "".join(f"{number} NULL. " for number in range(1, count + 1)) + behind)
for label, before, repeated, count, behind in table("LIMITS"):
    play_part("STEPS", label, before + repeated * count + behind)
for size in 16384, 16385:
    play(f"{size} bytes", constant("PACE").ljust(size))
for name in SIZES:
    for _ in "PACE", "NO_WORD":
        print(f"a short table of {name}: REFUSED 1 0 TEXT, all rows kept")
play("long tables", constant("PACE"), lengths=2)
play("long tables, no word", constant("NO_WORD"))
play("long tables, a rule broken", constant("BROKEN_RULE"))
