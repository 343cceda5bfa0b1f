"""A model of the first two rounds of reading a module text, written apart from the program.

Words are found by longest match with regular expressions. The grammar is the one of docs/language.md, rule by rule, put to a general
recogniser (Earley's), which knows nothing of how the next word tells what comes. How deep expressions nest is told by copies of
the expression rules, one for each nesting that is left. Usage: text_model.py FILE prints the answer to the text in that file.
"""

import re
import sys

KEYWORDS = (
    "MODULE INPUTS OUTPUTS MEMORY BUSES BODY SEQUENCE ENDSEQUENCE CONTROLRESET NULL DEADEND END".split()
)
SIGNS = "<= => &/ +/ @/ . : ; , ( ) [ ] / \\ $ & + @ ^ * =".split()
SEPARATORS = b"\t\n\r "
PREFIXES = ["^", "&/", "+/", "@/"]
DEEPEST = 16
LONGEST_TEXT = 16384


class Refused(Exception):
    """A text is refused by a number, at a place."""


def words(text):
    """The words of a text with their places. A word is a keyword, a sign, 'name' or 'integer'."""
    found, place = [], 0
    while place < len(text):
        if text[place] in SEPARATORS:
            place += 1
            continue
        rest = text[place:]
        if run := re.match(rb"[A-Za-z][A-Za-z0-9_]*", rest):
            spelled = run.group().decode().upper()
            if spelled in KEYWORDS:
                word = spelled
            elif len(spelled) > 20:
                raise Refused(4, place)
            else:
                word = "name"
            length = len(spelled)
        elif run := re.match(rb"[0-9]+", rest):
            if len(run.group()) > 5 or int(run.group()) > 65535:
                raise Refused(5, place)
            word, length = "integer", len(run.group())
        else:
            word = next((sign for sign in SIGNS if rest.startswith(sign.encode())), None)
            if word is None:
                raise Refused(3, place)
            length = len(word)
        found.append((word, place))
        place += length
    return found


def grammar(deepest):
    """The rules, each a list of alternatives; expressions nest at most so deep, or as they like where it is None."""
    rules = {}

    def rule(name, *alternatives):
        rules.setdefault(name, []).extend(tuple(a.split()) for a in alternatives)

    expr = "<expr>" if deepest is None else f"<expr{deepest}>"
    rule(
        "<module>",
        "MODULE : name . <decls> BODY SEQUENCE : name . <steps> ENDSEQUENCE CONTROLRESET ( <list> ) <conns> . END .",
    )
    rule("<decls>", "<decl>", "<decl> <decls>")
    rule("<decl>", "<class> : <items> .")
    rule("<class>", "INPUTS", "OUTPUTS", "MEMORY", "BUSES")
    rule("<items>", "<item>", "<item> ; <items>")
    rule("<item>", "name", "name [ integer ]")
    rule("<steps>", "<step>", "<step> <steps>")
    rule("<step>", "integer <action> .")
    rule("<action>", "NULL", "DEADEND", "<stmts>", "<branch>", "<stmts> ; <branch>")
    rule("<stmts>", "<stmt>", "<stmt> ; <stmts>")
    rule("<stmt>", "<conn>", f"<targets> <= {expr}", f"<targets> * ( {expr} ) <= {expr}")
    rule("<conn>", f"<targets> = {expr}")
    rule("<conns>", "", "; <conn> <conns>")
    rule("<targets>", "<ref>", "<ref> , <targets>")
    rule("<branch>", "=> ( <list> )", f"=> ( {expr} ) / ( <list> )")
    rule("<list>", "integer", "integer , <list>")
    rule("<ref>", "<item>", "name [ integer : integer ]")
    for left in [None] if deepest is None else range(deepest + 1):
        here = "" if left is None else left
        inner = "" if left is None else left - 1
        rule(f"<expr{here}>", f"<or{here}>", f"<or{here}> , <expr{here}>")
        rule(f"<or{here}>", f"<xor{here}>", f"<xor{here}> + <or{here}>")
        rule(f"<xor{here}>", f"<and{here}>", f"<and{here}> @ <xor{here}>")
        rule(f"<and{here}>", f"<prefix{here}>", f"<prefix{here}> & <and{here}>")
        rule(f"<prefix{here}>", f"<primary{here}>")
        rule(f"<primary{here}>", "<ref>", "\\ <list> \\", "integer $ integer")
        if left != 0:
            rule(f"<prefix{here}>", *(f"{sign} <prefix{inner}>" for sign in PREFIXES))
            rule(f"<primary{here}>", f"( <expr{inner}> )")
    return rules


def first_wrong(rules, tokens):
    """The index of the first word with which nothing goes on, or of the end where it comes too early; None if all is right."""
    nullable = {name for name, alternatives in rules.items() if () in alternatives}
    start = ("<start>", ("<module>",), 0, 0)
    states = [{start}]
    for at in range(len(tokens) + 1):
        here, after = states[at], set()
        work = list(here)

        def add(state):
            if state not in here:
                here.add(state)
                work.append(state)

        while work:
            name, parts, dot, origin = work.pop()
            if dot == len(parts):
                for other, wanted, seen, begun in list(states[origin]):
                    if seen < len(wanted) and wanted[seen] == name:
                        add((other, wanted, seen + 1, begun))
            elif parts[dot] in rules:
                for alternative in rules[parts[dot]]:
                    add((parts[dot], alternative, 0, at))
                if parts[dot] in nullable:
                    add((name, parts, dot + 1, origin))
            elif at < len(tokens) and tokens[at][0] == parts[dot]:
                after.add((name, parts, dot + 1, origin))
        if at < len(tokens):
            if not after:
                return at
            states.append(after)
    return None if ("<start>", ("<module>",), 1, 0) in states[-1] else len(tokens)


UNLIMITED, LIMITED = grammar(None), grammar(DEEPEST)


def refusal(text):
    """Number and place by which a text is refused, or None if it is right."""
    if len(text) > LONGEST_TEXT:
        return 2, 0
    try:
        tokens = words(text)
    except Refused as refused:
        return refused.args
    wrong = first_wrong(LIMITED, tokens)
    if wrong is None:
        return None
    place = len(text) if wrong == len(tokens) else tokens[wrong][1]
    return (6 if first_wrong(UNLIMITED, tokens) == wrong else 7), place


def answer(text):
    """The answer as the programs print it."""
    refused = refusal(text)
    return "read" if refused is None else "REFUSED {} {} TEXT".format(*refused)


if __name__ == "__main__":
    with open(sys.argv[1], "rb") as file:
        print(answer(file.read()))
