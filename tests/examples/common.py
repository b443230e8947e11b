"""The common definitions and the rows of their table, examples/common.rows, which says what a row is."""
import collections
import json
import os
import re
import sys

sys.path.insert(0, os.path.join(os.path.dirname(os.path.abspath(__file__)), ".."))
from harness import ROOT, Wrong

DEFINITIONS = os.path.join(ROOT, "examples", "common.definitions")
TABLE = os.path.join(ROOT, "examples", "common.rows")
PLACEHOLDER = re.compile(r"%\{(\w+)(?::([^:}]+)(?::(\w+))?)?\}")


# The characters that a row with a class tries: those of ASCII from the blank on, the tab, and two others.
CHARACTERS = [*map(chr, range(32, 128)), "\t", "é", "٣"]
# What stands in the text of such a row for each of them in turn, and in its class for a blank, a tab and a DEL.
MARK, SYMBOLS = "·", {"␠": " ", "␉": "\t", "␡": "\x7f"}

# A row: its kind, the text, and what is expected for it: for `yes` and `no` nothing more, for `finds` the value that is found, for
# `fields` the keys with their values, some of which are numbers, and for `none` nothing. A row with a class is as many of the kinds
# `yes` and `no` as there are characters to try.
Row = collections.namedtuple("Row", "kind text expected")


def definitions():
    """The common definitions by their names."""
    with open(DEFINITIONS, encoding="utf-8") as file:
        return dict(line.rstrip("\n").split("=", 1) for line in file)


def rows():
    """The rows of each definition."""
    found = {}
    with open(TABLE, encoding="utf-8") as file:
        lines = [line.rstrip("\n") for line in file]
    for line in lines:
        if line and not line.startswith("#"):
            name, kind, rest = (line.split(" ", 2) + [""])[:3]
            found.setdefault(name, []).extend(rows_of(kind, rest, line))
    return found


def rows_of(kind, rest, line):
    """The rows that a line of the table stands for."""
    if kind in ("yes", "no", "none"):
        return [Row(kind, rest, None)]
    if kind == "finds":
        value, _, text = rest.partition(" in ")
        return [Row(kind, text, value)]
    if kind == "fields":
        expected, _, text = rest.partition("} in ")
        return [Row(kind, text, json.loads(expected + "}"))]
    if kind in ("only", "not"):
        members, _, text = rest.partition(" in ")
        taken = {each for each in CHARACTERS if each in characters_of(members)} ^ (set(CHARACTERS) if kind == "not" else set())
        if text.count(MARK) == 1 and taken and len(taken) < len(CHARACTERS):
            return [Row("yes" if each in taken else "no", text.replace(MARK, each), None) for each in CHARACTERS]
    raise Wrong(f"no row: {line}")


def characters_of(members):
    """The characters of a class as the table writes it: `a-z` are those from a to z, and any other character is itself."""
    found, at = set(), 0
    while at < len(members):
        if members[at + 1:at + 2] == "-" and members[at].isalnum() and members[at + 2:at + 3].isalnum():
            found.update(map(chr, range(ord(members[at]), ord(members[at + 2]) + 1)))
            at += 3
        else:
            found.add(SYMBOLS.get(members[at], members[at]))
            at += 1
    return found


def placeholders(text):
    """The placeholders of a definition: of each the name, and the alias and the extract, or nothing."""
    return PLACEHOLDER.findall(text)


def used_by(name, library):
    """The common definitions that a definition uses, at any depth, and itself."""
    found, left = [], [name]
    while left:
        each = left.pop()
        if each in library and each not in found:
            found.append(each)
            left += [used for used, _, _ in placeholders(library[each])]
    return found
