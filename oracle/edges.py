#!/usr/bin/env python3
"""Compares the proved list of the scope's examples (docs/SCOPE.md) with the frozen requests that the program `ask` answers.

    python3 oracle/edges.py

Each row of crates/edges/specs/Edges.antt is turned into a request. The request must be in oracle/frozen with the
row's answer, and each letter from (a) to (l) must have a row. So the definitions are proved on the same examples
that the library is asked.
"""
import os
import re
import string
import sys

import freeze
import lines as p
import rust

EDGES = os.path.join(rust.HERE, "..", "crates", "edges", "specs", "Edges.antt")
LETTERS = string.ascii_lowercase[:12]
TOKEN = re.compile(r'"[^"]*"|[()∷]|\[\]|\w+')


# ---- Terms: numbers, texts, lists, and a word with its arguments as a tuple ----------------------


def atom(tokens):
    token = tokens.pop(0)
    if token == "(":
        found = term(tokens)
        tokens.pop(0)
        return found
    if token == "[]":
        return []
    if token.startswith('"'):
        return token[1:-1].encode()
    return int(token) if token.isdigit() else (token,)


def term(tokens):
    """A word with its arguments; before a `∷`, a list that begins with it."""
    head = atom(tokens)
    while tokens and tokens[0] not in (")", "∷"):
        head += (atom(tokens),)
    if tokens and tokens[0] == "∷":
        tokens.pop(0)
        return [head, *term(tokens)]
    return head


def definition(text, name):
    """The term that a name of the file is defined as: the text after `name =`, up to an empty line."""
    return term(TOKEN.findall(re.search(rf"(?ms)^{name} =(.*?)(?:\n\n|\Z)", text).group(1)))


# ---- Requests and answers as lines ---------------------------------------------------------------


def optional(found):
    """The argument of `Some`, None for `None`."""
    return found[1] if found[0] == "Some" else None


def ml_of(found):
    values = optional(found)
    return None if values is None else bytes(values)


# By the request's word: the function that writes its line.
LINE = {
    "calls": lambda seq, mm, ml: p.calls(mm, ml_of(ml), seq),
    "drop": lambda seq, places, mm, ml: p.drop(mm, ml_of(ml), seq, places),
    "mask": lambda before, after, mm, ml: p.mask(mm, ml_of(ml), before, after),
    "cut": lambda before, after, start, mm, ml: p.cut(mm, ml_of(ml), before, after, optional(start)),
    "build": lambda unconverted, converted: p.build("C", "E", b"C", b"\1", [unconverted], [converted]),
    "place": lambda reverse, words, start: p.q(words, start, reverse == ("true",)),
}


def listed(groups):
    """The call list: of each call the group, the place, and the start and the number of its values in ML."""
    rows, start = [], 0
    for group, calls in enumerate(groups, 1):
        for _, place, values in calls:
            rows.append(f"{group}:{place}:{start}:{len(values)}")
            start += len(values)
    return p.done(len(groups), p.listed(rows))


def answer_of(asked, answer):
    word, found = answer
    if word == "refuse":
        return str(found)
    kind, *parts = found
    if kind == "listed":
        return listed(*parts)
    if kind == "tag":
        text, ml = parts
        return p.edited(text[1], bytes(ml) if asked == "build" else None)
    return p.done(p.listed([None if place == ("missing",) else place[1] for place in parts[0]]))


def rows_of(text):
    """Letter, request line and answer line of each row."""
    for _, letter, (word, *arguments), answer in definition(text, "edges"):
        if word == "place":
            arguments[1] = definition(text, arguments[1][0])
        yield letter.decode(), LINE[word](*arguments), answer_of(word, answer)


def faults_of(rows, asked):
    letters = {letter for letter, _, _ in rows}
    yield from (f"({letter}) has no row" for letter in LETTERS if letter not in letters)
    for letter, line, answer in rows:
        if line not in asked:
            yield f"({letter}) is not among the frozen requests: {line}"
        elif asked[line] != answer:
            yield f"({letter}) is answered {asked[line]!r} and not {answer!r}: {line}"


def main():
    with open(EDGES, encoding="utf-8") as file:
        rows = list(rows_of(file.read()))
    found = list(faults_of(rows, dict(freeze.frozen_pairs())))
    for fault in found:
        print(fault)
    print(f"the scope's examples: {len(rows)} rows, {len(found)} faults")
    sys.exit(bool(found))


if __name__ == "__main__":
    main()
