"""The rules of docs/DEFINITIONS.md, written as plainly as possible, as a second opinion on what the programs do.

The model reads a pattern as a person would: placeholder by placeholder, and each definition again wherever it is used. It
gives each placeholder its key and looks whether that key is taken. It remembers nothing that would make it faster, so it gives
up after `bound` events (`TooMuch`), and a test then leaves the case out.

Texts are `str`. All positions and lengths are those of bytes, in UTF-8.
"""
import collections
import functools
import re

LEVELS = 1023  # this many placeholders may be open at once, and no more

# The definitions that are always there.
DEFAULTS = {
    "USERNAME": "[a-zA-Z0-9._-]+",
    "USER": "%{USERNAME}",
    "YEAR": r"(\d\d){1,2}",
    "MONTH": r"\b(?:Jan(?:uary)?|Feb(?:ruary)?|Mar(?:ch)?|Apr(?:il)?|May|Jun(?:e)?|Jul(?:y)?|Aug(?:ust)?|Sep(?:tember)?"
             r"|Oct(?:ober)?|Nov(?:ember)?|Dec(?:ember)?)\b",
    "DAY": "(?:Mon(?:day)?|Tue(?:sday)?|Wed(?:nesday)?|Thu(?:rsday)?|Fri(?:day)?|Sat(?:urday)?|Sun(?:day)?)",
    "SPACE": r"\s*",
    "MAC": "(?:%{CISCOMAC}|%{WINDOWSMAC}|%{COMMONMAC})",
    "CISCOMAC": r"(?:(?:[A-Fa-f0-9]{4}\.){2}[A-Fa-f0-9]{4})",
    "WINDOWSMAC": "(?:(?:[A-Fa-f0-9]{2}-){5}[A-Fa-f0-9]{2})",
    "COMMONMAC": "(?:(?:[A-Fa-f0-9]{2}:){5}[A-Fa-f0-9]{2})",
}


def size(text):
    """How many bytes a text has."""
    return len(text.encode())


# Pieces

# Regular text, and where it begins in its text.
Regular = collections.namedtuple("Regular", "begin text")
# A placeholder. A part that is missing is empty.
Placeholder = collections.namedtuple("Placeholder", "begin text name alias extract definition")
# A malformed placeholder, with all that follows it: the fault as the crate calls it, the reason as groklog puts it, and from
# where on in the piece it is malformed. If it has no end, that is the end of the piece.
Malformed = collections.namedtuple("Malformed", "begin text fault reason at")

NAME = re.compile(r"[A-Za-z0-9_]*")
WORD = re.compile(r"[A-Za-z0-9_.\[\]-]*")
NO_BRACE = re.compile(r"[^{}]*")

NO_END = "this placeholder isn't closed by }"
BAD_CHARACTER = "a placeholder can't have {} here"  # which has the character
NO_NAME = "this placeholder has no name"
FOUR_PARTS = "this placeholder has more than a name, an alias and an extract"
EMPTY_EXTRACT = "the extract of this placeholder is empty"
EMPTY_ALIAS = "the alias of this placeholder is empty"
BRACE = "a definition inside a placeholder can't have a {"
EMPTY_DEFINITION = "the definition in this placeholder is empty"

INVALID = "InvalidPattern"
INVALID_DEFINITION = "InvalidPatternDefinition"


def quoted(c):
    """A character as the crate shows it in a fault."""
    return {"\t": r"'\t'", "\n": r"'\n'", "\r": r"'\r'", "\0": r"'\0'", "'": r"'\''", "\\": r"'\\'"}.get(c, f"'{c}'")


@functools.cache
def pieces(text):
    """The pieces of a text, up to its end or to a malformed placeholder."""
    found, at = [], 0
    while at < len(text):
        begin = size(text[:at])
        if text.startswith("%{", at):
            found.append(placeholder(begin, text[at:]))
        else:
            # A `%` takes the next character with it.
            end = text.find("%", at + (2 if text[at] == "%" else 1))
            found.append(Regular(begin, text[at:] if end < 0 else text[at:end]))
        at += len(found[-1].text)
    return found


def placeholder(begin, text):
    """The piece at the beginning of this text, which begins with `%{`."""
    def malformed(fault, reason, at):
        return Malformed(begin, text, fault, reason, size(text[:at]))

    words, at = [], 2
    while not words or text[at] == ":":
        at += len(words) > 0  # past the `:`
        word_begin = at
        word = (WORD if words else NAME).match(text, at).group()
        words.append(word)
        at += len(word)
        if at == len(text):
            return malformed(INVALID, NO_END, at)
        if text[at] not in "}=:":
            return malformed(f"InvalidCharacter({quoted(text[at])})", BAD_CHARACTER, at)
        if words[0] == "":
            return malformed(INVALID, NO_NAME, word_begin)
        if len(words) == 4:
            return malformed(INVALID, FOUR_PARTS, word_begin)
        if len(words) == 3 and word == "":
            return malformed(INVALID_DEFINITION, EMPTY_EXTRACT, word_begin)
        if len(words) == 2 and word == "" and text[at] != ":":
            return malformed(INVALID_DEFINITION, EMPTY_ALIAS, word_begin)
    definition = ""
    if text[at] == "=":
        definition = NO_BRACE.match(text, at + 1).group()
        at += 1 + len(definition)
        if at == len(text):
            return malformed(INVALID_DEFINITION, NO_END, at)
        if text[at] == "{":
            return malformed(INVALID_DEFINITION, BRACE, at)
        if definition == "":
            return malformed(INVALID_DEFINITION, EMPTY_DEFINITION, at)
    name, alias, extract = (words + ["", ""])[:3]
    return Placeholder(begin, text[:at + 1], name, alias, extract, definition)


# The tree

# A text that is being read: the names of the placeholders that lead to it, and the text.
Text = collections.namedtuple("Text", "path text")
# The events. Each has the text that is being read and the piece. An open has its inline definition, if it stands for one.
Copied = collections.namedtuple("Copied", "where piece text")
Open = collections.namedtuple("Open", "where piece inline")
Close = collections.namedtuple("Close", "where piece")
Fault = collections.namedtuple("Fault", "where piece kind")

MALFORMED, MISSING, TOO_DEEP = "malformed", "missing", "too deep"


class TooMuch(Exception):
    """The tree has more events than the model may read."""


def tree(pattern, library, bound=100_000):
    """Yields the events of a pattern with these definitions in reading order, up to the first structural fault."""
    # The texts that are open, each with its pieces that are still to be read, its inline definitions so far, and the piece that
    # opened it.
    reading = [(Text((), pattern), iter(pieces(pattern)), {}, None)]
    while reading:
        where, left, inline, opened_by = reading[-1]
        piece = next(left, None)
        bound -= 1
        if bound < 0:
            raise TooMuch
        if piece is None:
            reading.pop()
            if reading:
                yield Close(reading[-1][0], opened_by)
        elif isinstance(piece, Regular):
            yield Copied(where, piece, piece.text)
        elif isinstance(piece, Malformed):
            yield Fault(where, piece, MALFORMED)
            return
        else:
            if piece.definition:
                inline[piece.name] = piece.definition
            if piece.name not in inline and piece.name not in library:
                yield Fault(where, piece, MISSING)
                return
            if len(reading) > LEVELS:
                yield Fault(where, piece, TOO_DEEP)
                return
            yield Open(where, piece, inline.get(piece.name))
            if piece.name in inline:
                yield Copied(where, piece, inline[piece.name])
                yield Close(where, piece)
            else:
                path = (*where.path, piece.name)
                definition = library[piece.name]
                reading.append((Text(path, definition), iter(pieces(definition)), {}, piece))


# What a pattern is

# A placeholder with its key: where it is, the base key, how many placeholders before it have the same base key, and the key.
Capturing = collections.namedtuple("Capturing", "where piece base before key")
# Two placeholders that get the same key, in reading order.
Clash = collections.namedtuple("Clash", "first second")
# The whole of a pattern without a fault: the text that it expands to, how deeply its placeholders are nested, and the key and the
# extract of each of them that captures, in reading order.
Expansion = collections.namedtuple("Expansion", "text nesting keys")


class Keys:
    """Gives placeholders their keys, one after another."""

    def __init__(self, alias_only):
        self.alias_only, self.used = alias_only, collections.Counter()

    def give(self, event):
        """The placeholder of an event with its key, or `None` if it doesn't capture."""
        base = event.piece.alias or ("" if self.alias_only else event.piece.name)
        if not base:
            return None
        before = self.used[base]
        self.used[base] += 1
        return Capturing(event.where, event.piece, base, before, f"{base}[{before}]" if before else base)


def first_fault(pattern, library, alias_only, bound=100_000):
    """The first fault of a pattern in reading order: a `Fault`, a `Clash`, or `None`."""
    keys, owners = Keys(alias_only), {}
    for event in tree(pattern, library, bound):
        if isinstance(event, Open) or (isinstance(event, Fault) and event.kind == TOO_DEEP):
            this = keys.give(event)
            if this and this.key in owners:
                return Clash(owners[this.key], this)
            if this:
                owners[this.key] = this
        if isinstance(event, Fault):
            return event
    return None


def structural_fault(pattern, library, bound=100_000):
    """The first fault of a pattern that isn't a clash, or `None`."""
    return next((event for event in tree(pattern, library, bound) if isinstance(event, Fault)), None)


def expansion(pattern, library, alias_only, bound=100_000):
    """What a pattern without a structural fault expands to. If keys clash, they are as they would be without that fault."""
    keys, parts, given, level, nesting = Keys(alias_only), [], [], 0, 0
    for event in tree(pattern, library, bound):
        if isinstance(event, Copied):
            parts.append(event.text)
        elif isinstance(event, Close):
            parts.append(")")
            level -= 1
        else:
            this = keys.give(event)
            parts.append(f"(?<_n_{len(given)}>" if this else "(?:")
            given += [(this.key, event.piece.extract)] if this else []
            level += 1
            nesting = max(nesting, level)
    return Expansion("".join(parts), nesting, given)


# A capturing group of an expanded text, with its name if it has one. In a class, a `(` would be a character.
GROUP = re.compile(r"\\.|\((?!\?)|\(\?<(\w+)>", re.S)


def named_groups(whole):
    """The named groups of an expansion in order: the number of each, its key, and its extract. A group that was written by hand
    has its name as its key."""
    keys = {f"_n_{number}": each for number, each in enumerate(whole.keys)}
    found = [group.group(1) for group in GROUP.finditer(whole.text) if not group.group().startswith("\\")]
    return [(number, *keys.get(name, (name, ""))) for number, name in enumerate(found, 1) if name]


# What the programs write

EMPTY_PATTERN = 'The given pattern "" ended up compiling into an empty regex'
DEPTH_TEXT = f"Recursion while compiling reached the limit of {LEVELS + 1}"


def compile_error(what):
    return f'Something unexpected happened during the compilation phase: "{what}"'


def clash_text(key):
    return compile_error(f"Alias {key} already exists")


def missing_text(name):
    return f'The given pattern definition name "{name}" could not be found in the definition map'


def size_text(length, groups, nesting):
    return f"length {length} groups {groups} nesting {nesting}"


def error_text(fault):
    """The text of the error for a fault."""
    if isinstance(fault, Clash):
        return clash_text(fault.second.key)
    if fault.kind == MALFORMED:
        return compile_error(fault.piece.fault)
    if fault.kind == MISSING:
        return missing_text(fault.piece.name)
    return DEPTH_TEXT


def split_text(pattern):
    """What `grok_tool split` writes."""
    return "".join(f"<error {piece.fault}>\n" if isinstance(piece, Malformed) else f"{piece.text}\n" for piece in pieces(pattern))


def measure_text(pattern, library, alias_only, bound=100_000):
    """What `grok_tool measure` writes, or the text of its error."""
    fault = structural_fault(pattern, library, bound)
    if fault:
        return error_text(fault)
    whole = expansion(pattern, library, alias_only, bound)
    return size_text(size(whole.text), len(whole.keys), whole.nesting)


def check_text(library, alias_only):
    """What `grok_tool check` writes for these definitions."""
    names = sorted(library, key=str.encode)
    return "".join(f"{name}: {measure_text(f'%{{{name}}}', library, alias_only)}\n" for name in names)


# Examples that were worked out by hand, by which the model is checked before a test asks it anything

# How texts are cut: where each piece begins and what it is, or its fault.
SPLITS = {
    "": [],
    "%%{name}": [(0, "%%{name}")],
    "%%%{name}": [(0, "%%"), (2, "%{name}")],
    "%": [(0, "%")],
    "100%": [(0, "100"), (3, "%")],
    "(%){2}": [(0, "("), (1, "%){2}")],
    "%{N=a=b:%}": [(0, "%{N=a=b:%}")],
    "é%{A}": [(0, "é"), (2, "%{A}")],
    "%{name::": [(0, INVALID)],
    "%{name::}": [(0, INVALID_DEFINITION)],
    "%{name:a:b:c}": [(0, INVALID)],
    "%{name:a:b:c!": [(0, "InvalidCharacter('!')")],
    "%{}": [(0, INVALID)],
    "%{:a}": [(0, INVALID)],
    "%{name:}": [(0, INVALID_DEFINITION)],
    "%{name:=a}": [(0, INVALID_DEFINITION)],
    "%{name:a:=b}": [(0, INVALID_DEFINITION)],
    "%{N=a{2}}": [(0, INVALID_DEFINITION)],
    "%{N=a": [(0, INVALID_DEFINITION)],
    "%{N=}": [(0, INVALID_DEFINITION)],
    "%{né}": [(0, "InvalidCharacter('é')")],
}


def chain(name, length, last):
    """`length` definitions, each of which is a placeholder for the next one. The last one is another text."""
    links = {f"{name}{number}": f"%{{{name}{number + 1}}}" for number in range(1, length)}
    return {**links, f"{name}{length}": last}


def doubled(height, first="a"):
    """Definitions `D0`, `D1`, .., each of which uses the one before it twice."""
    return {"D0": first, **{f"D{level}": f"%{{D{level - 1}}}" * 2 for level in range(1, height + 1)}}


A = {"A": "a"}
# Patterns with their definitions and the mode, and what they expand to: the text or its length, the number of groups, the nesting,
# and the keys with their extracts.
EXPANSIONS = [
    ("", {}, False, "", 0, 0, ""),
    ("%{B}", {**A, "B": "%{A}%{A}"}, False, "(?<_n_0>(?<_n_1>a)(?<_n_2>a))", 3, 2, "B A A[1]"),
    ("%{W=a}%{W=b}%{W}", {}, False, "(?<_n_0>a)(?<_n_1>b)(?<_n_2>b)", 3, 1, "W W[1] W[2]"),
    ("%{C1}", chain("C", LEVELS, "x"), True, "(?:" * LEVELS + "x" + ")" * LEVELS, 0, LEVELS, ""),
    ("%{C1}", chain("C", LEVELS, "x"), False, None, LEVELS, LEVELS, None),
    ("%{H1}", chain("H", 500, "x"), False, None, 500, 500, None),
    ("%{D10}", doubled(10), False, 24478, 2047, 11, None),
    ("%{A}" * 11, A, False, 111, 11, 1, None),
    ("[%{A}]", A, False, "[(?<_n_0>a)]", 1, 1, "A"),
    ("%{USER:usr:text}", {**DEFAULTS, "USER": "%{USERNAME::text}"}, True, "(?<_n_0>(?:[a-zA-Z0-9._-]+))", 1, 2, "usr=text"),
    ("%{USER:usr:text}", {**DEFAULTS, "USER": "%{USERNAME::text}"}, False, 33, 2, 2, "usr=text USERNAME=text"),
    ("%{MAC}", DEFAULTS, False, 163, 4, 2, "MAC CISCOMAC WINDOWSMAC COMMONMAC"),
    ("%{E}", {"E": ""}, False, "(?<_n_0>)", 1, 1, "E"),
    ("%{E}", {"E": ""}, True, "(?:)", 0, 1, ""),
    ("x", {"BAD": "%{"}, False, "x", 0, 0, ""),
    ("%{A}%{A}", A, False, 20, 2, 1, "A A[1]"),
]
# Patterns that have a fault, and the text of its error.
FAULTS = [
    ("%{W=a}%{P}", {"P": "%{W}"}, missing_text("W")),
    ("%{A:x[1]}%{A:x}%{A:x}", A, clash_text("x[1]")),
    ("%{P:x=a}%{P:x:int=b}%{P:x[1]=c}", {}, clash_text("x[1]")),
    ("%{A:x[1]}%{A:x}%{A:x}%{missing}", A, clash_text("x[1]")),
    ("%{A}", {"A": "%{A}%{missing}"}, DEPTH_TEXT),
    ("%{A}", {"A": "%{missing}%{A}"}, missing_text("missing")),
    ("%{C1}", chain("C", LEVELS + 1, "x"), DEPTH_TEXT),
    (f"%{{A:x[{LEVELS - 1}]}}%{{C:c}}", {**A, "C": "%{A:x}%{C:c}"}, clash_text(f"x[{LEVELS - 1}]")),
    (f"%{{A:x[{LEVELS}]}}%{{C:c}}", {**A, "C": "%{A:x}%{C:c}"}, DEPTH_TEXT),
    ("%{H1}%{C1}", {**chain("C", LEVELS - 400, "%{H1}"), **chain("H", 500, "x")}, DEPTH_TEXT),
    ("%{BAD}", {"BAD": "%{"}, compile_error(INVALID)),
]


def check_itself():
    """Compares the model with the examples that were worked out by hand. A model that is wrong ends the script."""
    for text, right in SPLITS.items():
        found = [(each.begin, each.fault if isinstance(each, Malformed) else each.text) for each in pieces(text)]
        assert found == right, (text, found)
    for pattern, library, alias_only, text, groups, nesting, keys in EXPANSIONS:
        assert first_fault(pattern, library, alias_only) is None, pattern
        found = expansion(pattern, library, alias_only)
        assert text in (None, found.text, size(found.text)), (pattern, found.text)
        assert (len(found.keys), found.nesting) == (groups, nesting), (pattern, found)
        shown = " ".join(key + (f"={extract}" if extract else "") for key, extract in found.keys)
        assert keys in (None, shown), (pattern, shown)
    for pattern, library, text in FAULTS:
        fault = first_fault(pattern, library, False)
        assert fault and error_text(fault) == text, (pattern, fault)


check_itself()
