"""Prints what the program `texts` must print, by the model of text_model.py. The texts are those of its source."""

import os
import re

from text_model import answer

TOP = os.path.join(os.path.dirname(os.path.abspath(__file__)), "..")
with open(os.path.join(TOP, "crates/texts/src/main.rt")) as file:
    SOURCE = file.read()


def constant(name):
    return re.search(rf'const {name}: &str = r?"(.*?)";', SOURCE, re.S).group(1)


def table(name):
    rows = re.search(rf"const {name}: .*? = \[(.*?)\n\];", SOURCE, re.S).group(1)
    entries = re.findall(r'\(\s*"(.*?)",\s*(b|r|)"(.*?)",?\s*\)', rows, re.S)
    # a byte string has escapes, a raw string none
    return [(label, text.encode().decode("unicode_escape") if kind == "b" else text) for label, kind, text in entries]


def play(label, text):
    print(f"{label}: {answer(text.encode('latin1'))}")


def play_value(label, value):
    play(label, constant("BEFORE_VALUE") + value + constant("BEHIND_VALUE"))


def play_step(label, action, end):
    play(label, constant("BEFORE_ACTION") + action + constant("BEHIND_ACTION") + end)


def play_nested(opened, closed, count):
    play_value(f"{count} times {opened}", opened * count + "s" + closed * count)


def spaced(words):
    return "".join(word + " " for word in words)


for label, text in table("TEXTS"):
    play(label, text)
for label, value in table("VALUES"):
    play_value(label, value)
for size in 16384, 16385:
    play(f"{size} bytes", (constant("BEFORE_VALUE") + "s" + constant("BEHIND_VALUE")).ljust(size))
for label, action in table("ACTIONS"):
    play_step(label, action, constant("CLOSING"))
for label, end in table("ENDS"):
    play_step(label, "NULL", end)
for opened, closed in ("(", ")"), ("^", ""), ("&/", ""), ("+/", ""), ("@/", ""):
    play_nested(opened, closed, 16)
    play_nested(opened, closed, 17)
play_nested("^(", ")", 8)
play_nested("^(", ")", 9)
play_value("a wrong word before the 17th nesting", "s s((((((((((((((((((s")
play_value("a wrong word behind it", "(((((((((((((((((s s")
small = constant("SMALL").split()
for at in range(len(small)):
    stranger = constant("STRANGER") if at else constant("FIRST_STRANGER")
    play(f"wrong word {at}", spaced(small[:at] + [stranger] + small[at + 1 :]))
for count in range(len(small)):
    play(f"early end {count}", spaced(small[:count]))
play("the small module", spaced(small))
play("a word behind it", spaced(small) + "x")
