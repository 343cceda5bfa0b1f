"""Reads the constants of a Rust source: texts, numbers, tuples, arrays and names, which may be those of other constants."""

import re

TOKEN = re.compile(
    r"""\s*(?:
      (?P<comment>//[^\n]*)
    | r"(?P<raw>[^"]*)"
    | "(?P<text>(?:[^"\\]|\\.)*)"
    | (?P<number>0x[0-9A-Fa-f_]+|[0-9][0-9_]*)
    | (?P<name>[A-Za-z_][A-Za-z_0-9]*(?:::[A-Za-z_][A-Za-z_0-9]*)*)
    | (?P<sign>[&()\[\],;])
    )""",
    re.X | re.S,
)
ESCAPES = {"n": "\n", "r": "\r", "t": "\t", "\\": "\\", '"': '"', "0": "\0"}
LARGEST = {"usize::MAX": 2**64 - 1, "u64::MAX": 2**64 - 1}


def unescaped(text):
    return re.sub(r"\\(\s+|.)", lambda found: ESCAPES.get(found[1], ""), text, flags=re.S)


class Constants:
    """The constants of a source by their names."""

    def __init__(self, source):
        self.source, self.values = source, dict(LARGEST)
        for found in re.finditer(r"^(?:pub |pub\(crate\) )?const (\w+): [^=]*? =\s", source, re.M):
            self.at = found.end()
            self.values[found[1]] = self.value()

    def token(self):
        """The next token, as its sort and text."""
        found = TOKEN.match(self.source, self.at)
        self.at = found.end()
        return self.token() if found.lastgroup == "comment" else (found.lastgroup, found[found.lastgroup])

    def sees(self, sign):
        before = self.at
        if self.token() == ("sign", sign):
            return True
        self.at = before
        return False

    def series(self, end):
        values = []
        while not self.sees(end):
            values.append(self.value())
            self.sees(",")
        return values

    def value(self):
        sort, text = self.token()
        if sort == "raw":
            return text
        if sort == "text":
            return unescaped(text)
        if sort == "number":
            return int(text.replace("_", ""), 0)
        if sort == "name":
            return self.named(text)
        if text == "&":
            return self.value()
        return tuple(self.series(")")) if text == "(" else self.series("]")

    def named(self, name):
        """A constant's value; of a variant, its name with what it holds."""
        if name in self.values:
            return self.values[name]
        return (name, *self.series(")")) if self.sees("(") else name
