"""Patterns in alias-only mode, and what is wrong with each, as `described` shows it. The rows were worked out by hand, so a definition
that means another place than people do would fail them. They also show what the contract of `diagnose` leaves open, since that of
`regex` does: which regexes are too big, which kind of error a text gets and where, and how far the search for the part with the
fault goes. `run` beside this file compares `grok_calls shown` with them.

Definitions are words `NAME=DEF`.
"""
import re

from model import LEVELS
from worked import chain, doublings

# Six definitions, of which each of the first five uses the next one. Each of these ends in a placeholder without a definition, which
# is reached only if the definition that it uses has no fault.
FIVE = ["A=a%{B}%{nope}", "B=%{C:c:int}%{nope}", "C=%{U}%{D}%{nope}", "D=é%{E}%{nope}", "E=e%{U}%{missing}%{nope}", "U=u"]

# Placeholders without a definition, or that are malformed.
STRUCTURAL = [
    ("a missing definition", [], "a%{nope:key}b", "no nope at 1..12 of a%{nope:key}b"),
    ("the first of two faults", ["A=%{gone}"], "%{nope}%{A}", "no nope at 0..7 of %{nope}%{A}"),
    ("the first of two faults, in a definition", ["A=x%{gone}%{b c}"], "%{A:key}%{nope}",
     "no gone at A 0..8 > 1..8 of x%{gone}%{b c}"),
    ("a missing definition five levels deep", FIVE, "%{U}%{A}",
     "no missing at A 4..8 > B 1..5 > C 0..10 > D 4..8 > E 2..6 > 5..15 of e%{U}%{missing}%{nope}"),
    ("an inline definition of the text around", ["A=%{W}"], "%{W=w}%{A}", "no W at A 6..10 > 0..4 of %{W}"),
    ("a fault of a definition that an inline one hides", ["A=%{gone}"], "%{A=a}%{A}%{nope}",
     "no nope at 10..17 of %{A=a}%{A}%{nope}"),
    ("a space in a name, with placeholders around it", ["U=u"], "a%{U}%{b c}%{U}",
     "InvalidCharacter(' ') from 8 at 5..15 of a%{U}%{b c}%{U}"),
    ("a character that isn't ASCII, in an extract", [], "é%{a:b:cé}", "InvalidCharacter('é') from 9 at 2..12 of é%{a:b:cé}"),
    ("a placeholder that isn't closed", [], "é%{a:b", "Unclosed from 7 at 2..7 of é%{a:b"),
    ("a definition that isn't closed", [], "%{a=b", "UnclosedDefinition from 5 at 0..5 of %{a=b"),
    ("a placeholder without a name", [], "%{}", "NoName from 2 at 0..3 of %{}"),
    ("an empty alias", [], "%{a:}b", "NoAlias from 4 at 0..6 of %{a:}b"),
    ("an empty extract", ["U=u"], "%{U:key:}", "NoExtract from 8 at 0..9 of %{U:key:}"),
    ("a fourth word", [], "%{a:b:c:d}", "FourthWord from 8 at 0..10 of %{a:b:c:d}"),
    ("an inline definition without a text", [], "%{a=}", "NoDefinition from 4 at 0..5 of %{a=}"),
    ("a brace in an inline definition, in a definition", ["A=x%{V=a{2}}"], "%{A}",
     "BraceInDefinition from 6 at A 0..4 > 1..10 of x%{V=a{2}}"),
]

# Placeholders that would get the same key.
CLASHES = [
    ("the last placeholder gets a number", ["A=a"], "%{A:x[1]}%{A:x}%{A:x}%{nope}",
     "x[1] is x and 1, the first has it as its alias, at 0..9 of %{A:x[1]}%{A:x}%{A:x}%{nope} and at 15..21 of %{A:x[1]}%{A:x}%{A:x}%{nope}"),
    ("an earlier placeholder got the number", ["A=a"], "%{A:x}-%{A:x}-%{A:x}-%{A:x[1]}",
     "x[1] is x and 1, the second has it as its alias, at 7..13 of %{A:x}-%{A:x}-%{A:x}-%{A:x[1]} and at 21..30 of %{A:x}-%{A:x}-%{A:x}-%{A:x[1]}"),
    ("both in one definition that is used twice", ["A=a", "C=%{A:x[1]}-%{A:x}"], "%{C}%{C}",
     "x[1] is x and 1, the first has it as its alias, at C 0..4 > 0..9 of %{A:x[1]}-%{A:x} and at C 4..8 > 10..16 of %{A:x[1]}-%{A:x}"),
    ("five levels deep, before a missing name",
     ["A=a", "E=e%{F}", "F=%{A}%{G}%{nope}", "G=g%{H:h}", "H=%{I}", "I=é%{A:x}%{A:x:int}%{A:x}", "J=%{K}", "K=k%{A:x[2]}"], "%{A}%{J}%{E}%{nope}",
     "x[2] is x and 2, the first has it as its alias, at J 4..8 > K 0..4 > 1..10 of k%{A:x[2]} and at E 8..12 > F 1..5 > G 4..8 > H 1..7 > I 0..4 > 18..24 of é%{A:x}%{A:x:int}%{A:x}"),
    ("a missing name before the clash", ["A=a"], "%{A:x[1]}%{A:x}%{nope}%{A:x}",
     "no nope at 15..22 of %{A:x[1]}%{A:x}%{nope}%{A:x}"),
]

# Texts that `regex` refuses.
REFUSED = [
    ("a group that isn't closed, in the pattern", [], "é(a", "é(a has GroupUnclosed, at 2..3 of é(a"),
    ("a group that isn't opened", ["U=u"], "%{U:key}a)b", "(?<_n_0>u)a)b has GroupUnopened, at 9..10 of %{U:key}a)b"),
    ("a group of a definition that the closing bracket closes", ["A=a(b"], "x%{A:key}",
     "a(b has GroupUnclosed, at A 1..9 > 1..2 of a(b"),
    ("a group that isn't closed, in a definition of a definition", ["A=x%{C}%{B}", "B=y%{C}(", "C=c"], "%{C}%{A}",
     "y(?:c)( has GroupUnclosed, at A 4..8 > B 5..9 > 5..6 of y%{C}("),
    ("a bracket too many, three levels deep, after definitions that are right",
     ["A=%{U}a%{B}", "B=%{U}b%{C}", "C=%{U}c)", "U=u"], "%{U}%{A}",
     "(?:u)c) has GroupUnopened, at A 4..8 > B 5..9 > C 5..9 > 5..6 of %{U}c)"),
    ("a group that isn't closed, in the pattern, whose definitions are right", ["A=a"], "(%{A:key}",
     "((?<_n_0>a) has GroupUnclosed, at 0..1 of (%{A:key}"),
    ("a repetition of nothing, in a definition", ["A=*a"], "%{A}", "(?:*a) has RepetitionMissing, at A 0..4 > 0..0 of *a"),
    ("an atomic group, in a definition", ["A=(?>a)"], "%{A}", "(?:(?>a)) has FlagUnrecognized, at A 0..4 > 2..3 of (?>a)"),
    ("a backreference", [], r"(a)\1", r"(a)\1 has UnsupportedBackreference, at 3..5 of (a)\1"),
    ("an escape that is unknown", [r"A=\h+"], "%{A}%{A}", r"(?:\h+)(?:\h+) has EscapeUnrecognized, at A 0..4 > 0..2 of \h+"),
    ("a class that isn't closed takes the closing bracket", ["A=[a"], "%{A}]b", "[a has ClassUnclosed, at A 0..4 > 0..1 of [a"),
    ("a backslash at the end of a definition takes the closing bracket", ["A=a\\"], "%{A}",
     "a\\ has EscapeUnexpectedEof, at A 0..4 > 1..2 of a\\"),
    ("a range of a class in the wrong order", [], "[b-a]", "[b-a] has ClassRangeInvalid, at 1..4 of [b-a]"),
    ("a generated name that the pattern uses itself", ["A=a"], "%{A:key}(?<_n_0>b)",
     "(?<_n_0>a)(?<_n_0>b) has GroupNameDuplicate, at 11..15 of %{A:key}(?<_n_0>b)"),
    ("a look-ahead five levels deep", ["A=a%{B}z", "B=%{C:c}", "C=%{U}%{D}", "D=é%{E}", "E=e%{U:u}(?=f)", "U=u"], "%{A}",
     "(?:a(?:(?<_n_0>(?:u)(?:é(?:e(?<_n_1>u)(?=f)))))z) has UnsupportedLookAround, at A 0..4 > B 1..5 > C 0..6 > D 4..8 > E 2..6 > 7..10 of e%{U:u}(?=f)"),
    ("an error at the end of the expanded text", [], "a\\", "a\\ has EscapeUnexpectedEof, at 1..2 of a\\"),
]

# Regexes of a million states. These take 12 MB, which is more than the limit of 10 MiB, and less than twice that.
TOO_BIG = [
    ("a regex that twice the limit would allow", ["A=a{1000}"], "%{A}{1000}", "(?:a{1000}){1000} is too big"),
    ("a group that isn't closed, after a definition that is too big", ["A=(a{1000}){1000}"], "%{A}(",
     "(?:(a{1000}){1000})( has GroupUnclosed, at 4..5 of %{A}("),
]

# Patterns without a fault.
RIGHT = [
    ("a pattern that compiles", ["A=a"], "%{A:x[1]}%{A:x}", "nothing"),
    ("a pattern that compiles, whose definition is used twice", ["A=(a|b)"], "%{A}%{A}", "nothing"),
    ("a large pattern that compiles", ["A=a{1000}"], "%{A}{100}", "nothing"),
]

TABLES = {
    "missing and malformed placeholders": STRUCTURAL,
    "clashes": CLASHES,
    "refused texts": REFUSED,
    "regexes that are too big": TOO_BIG,
    "right patterns": RIGHT,
    "the empty pattern": [("the empty pattern", [], "", "Empty")],
    "a text that is doubled seventy times": [("too long", doublings("a"), "%{D70}", "TooLong")],
}

# If all placeholders capture, names are base keys too.
CLASH_OF_A_NAME = ("%{A:A[1]}%{A}%{A}", "A[1] is A and 1, the first has it as its alias, at 0..9 of %{A:A[1]}%{A}%{A} and at 13..17 of "
                   "%{A:A[1]}%{A}%{A}")

# Chains, circles and doublings, a pattern, and the place of what is wrong with it: how many placeholders lead there, the name of the
# last one, and where it is in which text.
DEEP = [
    ("a placeholder too many in a chain", chain("C", LEVELS + 1, "x"), "%{C1}", (1023, "C1023", "0..8 of %{C1024}")),
    ("an inline definition too many in a chain", chain("C", LEVELS, "x%{W=x}"), "%{C1}", (1023, "C1023", "1..7 of x%{W=x}")),
    ("a missing definition on the last level", chain("C", LEVELS, "xy%{nope}"), "%{C1}", (1023, "C1023", "2..9 of xy%{nope}")),
    ("a circle, with a placeholder before it", ["C1=%{W=x}%{C1}"], "%{C1}", (1023, "C1", "0..6 of %{W=x}%{C1}")),
    ("a circle of 1,000 definitions", chain("C", 1000, "%{C1}"), "%{C1}", (1023, "C23", "0..6 of %{C24}")),
    ("a text that is doubled seventy times", ["C1=%{D70}%{nope}", *doublings("a")], "%{D70}%{C1}", (1, "C1", "6..13 of %{D70}%{nope}")),
]

# The uses of a base key are 2^62. The last of them clashes, or the first. Without the fault after the clash, the text would be too long.
DOUBLED_KEY = ["A=a", *doublings("%{A:x}")]
DOUBLED = [
    ("the last of 2^62 uses", "second", "%{A:x[4611686018427387903]}%{D62}%{nope}"),
    ("the last of 2^62 uses, first", "first", "%{D62}%{D3}%{A:x[4611686018427387903]}%{nope}"),
    ("the second of 2^62 uses, first", "first", "%{D62}%{A:x[1]}%{nope}"),
]
IN_DOUBLED = (63, "D0", "0..6 of %{A:x}")

# A part of a text that `Debug` writes: a string, a range, a number, a name, or a sign.
PART = re.compile(r'"((?:[^"\\]|\\.)*)"|(\d+\.\.\d+)|(\d+)|(\w+(?:\(\'(?:[^\'\\]|\\.)+\'\))?)|([{}()\[\],:])')


def read_debug(text):
    """What `Debug` wrote: a list, a string, a range as a text, a number, or a pair of a name and of its fields or its one value."""
    parts = [each for each in PART.finditer(text)]
    at = 0

    def taken(sign=None):
        nonlocal at
        if at < len(parts) and sign in (None, parts[at][5]):
            at += 1
            return parts[at - 1]
        return None

    def members(end, read):
        found = []
        while not taken(end):
            found.append(read())
            taken(",")
        return found

    def field():
        name = taken()[4]
        taken(":")
        return name, value()

    def value():
        part = taken()
        if part[5] == "[":
            return members("]", value)
        if part[4] is None:
            return next(each for each in (part[2], part[3]) if each) if part[1] is None else re.sub(r"\\(.)", r"\1", part[1])
        if taken("{"):
            return part[4], dict(members("}", field))
        return (part[4], members(")", value)[0]) if taken("(") else (part[4], None)

    return value()


def path(steps):
    return "".join(f"{step['name']} {step['range']} > " for _, step in steps)


def place(location):
    """The placeholders that lead to a location, its byte range and its text."""
    _, fields = location
    return f"{path(fields['path'])}{fields['range']} of {fields['text']}"


def described_refusal(fields):
    _, location = fields["location"]
    if fields["reason"][0] == "TooBig":
        return f"{fields['text']} is too big" + (" somewhere" if location else "")
    kind = fields["reason"][1][1]["kind"][0]
    return f"{fields['text']} has {kind}" + (f", at {path(fields['path'])}{place(location)}" if location else " at its end")


def described(diagnosis):
    """What is wrong with a pattern, in a line."""
    if diagnosis == ("None", None):
        return "nothing"
    kind, fields = diagnosis[1]
    if kind == "Missing":
        return f"no {fields['name']} at {place(fields['location'])}"
    if kind == "Malformed":
        return f"{fields['reason'][0]} from {fields['byte']} at {place(fields['location'])}"
    if kind == "Clash":
        clash = fields[1]
        which = "first" if clash["is_alias_first"][0] == "true" else "second"
        places = f"at {place(clash['first'])} and at {place(clash['second'])}"
        return f"{clash['key']} is {clash['base']} and {clash['number']}, the {which} has it as its alias, {places}"
    return described_refusal(fields[1]) if kind == "Refused" else kind


def refused_part(diagnosis):
    """The definition that `regex` refuses, or `None` if it is the pattern, or another fault."""
    fields = diagnosis[1][1][1] if diagnosis[1] and diagnosis[1][0] == "Refused" else {}
    return fields["part"] if fields.get("path") else None


def deep_place(location):
    _, fields = location
    return len(fields["path"]), fields["path"][-1][1]["name"], f"{fields['range']} of {fields['text']}"
