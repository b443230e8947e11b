"""Patterns, and what was worked out by hand for them from the rules of docs/DEFINITIONS.md: the text that a pattern expands to,
its keys, their extracts, or the error, and what it finds in lines. `run` beside this file compares the programs with them.

Definitions are words `NAME=DEF`, which come after the default ones.
"""
import collections
import sys

sys.path.insert(0, sys.path[0] + "/..")
import model
from model import LEVELS

# The modes that a row holds in: all placeholders capture, or only those with an alias.
EVERY, ALIASED, BOTH = (False,), (True,), (False, True)


def library_of(definitions):
    """The default definitions and these by name. The later one of a name counts."""
    return {**model.DEFAULTS, **dict(each.split("=", 1) for each in definitions)}


class Row:
    """A pattern with its definitions, and what is expected of it. `lines` has lines with their pairs, in the byte order of their
    keys, or `no match`."""

    def __init__(self, name, pattern, compiled, definitions=(), modes=BOTH, extracts=None, lines=None):
        self.name, self.pattern, self.compiled, self.definitions, self.modes = name, pattern, compiled, definitions, modes
        self.extracts, self.lines = extracts or {}, lines or {}

    def __str__(self):
        return self.name

    def library(self):
        return library_of(self.definitions)


class Pattern:
    """A pattern with this expanded text, and with these keys, in byte order."""

    def __init__(self, text, keys):
        self.text, self.keys = text, keys.split()


class Keys(Pattern):
    """A pattern with these keys. Its text isn't stated, because default definitions make it long."""

    def __init__(self, keys):
        super().__init__(None, keys)


class Refused:
    """The error that `regex` refuses this expanded text."""

    def __init__(self, text):
        self.text = text


class Error:
    """The error with this debug text."""

    def __init__(self, debug):
        self.debug = debug


def generic(words):
    return Error(f'GenericCompilationFailure("{words}")')


def clash(key):
    return generic(f"Alias {key} already exists")


def malformed(fault):
    return generic(fault)


def missing(name):
    return Error(f'DefinitionNotFound("{name}")')


TOO_DEEP, MEMORY = Error("RecursionTooDeep"), Error("Memory")

# A pattern over an engine that takes each text. What `regex` makes of the text isn't stated.
ACCEPTED = None


def words_of(library):
    return [f"{name}={text}" for name, text in library.items()]


def chain(name, length, last):
    return words_of(model.chain(name, length, last))


def doublings(first):
    """`D0` with this text, and `D1` to `D70`, each of which uses the one before twice."""
    return words_of(model.doubled(70, first))


# What `Debug` writes in its alternate form for a pattern with this text and no extracts.
NO_EXTRACTS = 'Pattern {\n    text: "%s",\n    extracts: {},\n}'


def matched(**pairs):
    """What `Debug` writes in its alternate form for a match with these pairs."""
    inside = "".join(f'        "{key}": "{value}",\n' for key, value in pairs.items())
    return "Some(\n    {\n" + inside + "    },\n)" if pairs else "Some(\n    {},\n)"


A = ["A=a"]
AB = ["A=a", "B=%{A}%{A}"]
CIRCLE_OF_THREE = ["A=%{B}", "B=%{C}", "C=%{A}"]
USER_WITH_EXTRACT = ["USERNAME=[a-zA-Z0-9._-]+", "USER=%{USERNAME::text}"]

ELEVEN_GROUPS = "(?<_n_0>a)(?<_n_1>a)(?<_n_2>a)(?<_n_3>a)(?<_n_4>a)(?<_n_5>a)(?<_n_6>a)(?<_n_7>a)(?<_n_8>a)(?<_n_9>a)(?<_n_10>a)"

# Definitions that together use a key 2^64 - 1 times, followed by a missing one.
MOST_USES = "%{A:x[18446744073709551616]}" + "".join(f"%{{D{level}}}" for level in range(63, -1, -1)) + "%{missing}"

# Patterns without a placeholder.
PLAIN = [
    Row("the empty pattern", "", Error('CompiledPatternIsEmpty("")')),
    Row("a letter, beside a malformed definition", "x", Pattern("x", ""), ["BAD=%{"]),
    Row("a few letters", "abc", Pattern("abc", ""), lines={"xabc": "", "ab": "no match"}),
    Row("a group that is never closed", "(", Refused("(")),
    Row("no placeholder after two percent signs", "é%%{A}", Refused("é%%{A}")),
    Row("percent signs between letters", "a%b%", Pattern("a%b%", ""), lines={"a%b%": "", "ab": "no match"}),
    Row("a percent sign at the end", "100%", Pattern("100%", ""), lines={"100%": "", "100": "no match"}),
    Row("a percent sign in a group", "(?<p>(%){2})", Pattern("(?<p>(%){2})", "p"), lines={"100%%": "p=%%", "100%": "no match"}),
    Row("a percent sign in a group without a number", "(?<p>(?:%){2})", Pattern("(?<p>(?:%){2})", "p"),
        lines={"100%%": "p=%%", "100%": "no match"}),
    Row("a percent sign by its number", r"(?<p>\x25{2})", Pattern(r"(?<p>\x25{2})", "p"),
        lines={"100%%": "p=%%", "100%": "no match"}),
    Row("a group that may match nothing", "(?<k>x*)", Pattern("(?<k>x*)", "k"), lines={"": "k=", "xxy": "k=xx", "y": "k="}),
    Row("a carriage return is part of the line", r"(?<k>[a-z]\s?)", Pattern(r"(?<k>[a-z]\s?)", "k"),
        lines={"p\r": "k=p\r", "é": "no match"}),
    Row("a quotation mark in a value", "(?<q>.*)", Pattern("(?<q>.*)", "q"), lines={'a"b': 'q=a"b'}),
    Row("a group written by hand", r"\[(?<threadname>[^\]]+)\]", Pattern(r"\[(?<threadname>[^\]]+)\]", "threadname"),
        lines={"[thread1]": "threadname=thread1"}),
]

# Named groups that the pattern itself writes, beside placeholders. If several groups have one key, its value is that of the
# last one.
GROUPS = [
    Row("a generated name without a placeholder", "(?<_n_0>b)", Pattern("(?<_n_0>b)", "_n_0"), lines={"b": "_n_0=b"}),
    Row("a generated name past the last one", "(?<_n_1>b)%{A}", Pattern("(?<_n_1>b)(?<_n_0>a)", "A _n_1"), A, modes=EVERY,
        lines={"ba": "A=a, _n_1=b"}),
    Row("a generated name with a leading zero", "(?<_n_01>b)%{A}", Pattern("(?<_n_01>b)(?<_n_0>a)", "A _n_01"), A, modes=EVERY,
        lines={"ba": "A=a, _n_01=b"}),
    Row("a generated name that is taken", "(?<_n_0>b)%{A}", Refused("(?<_n_0>b)(?<_n_0>a)"), A, modes=EVERY),
    Row("in brackets a placeholder has no group", "[%{A}]", Pattern("[(?<_n_0>a)]", ""), A, modes=EVERY,
        lines={"a": "", "z": "no match"}),
    Row("a group takes the key of a placeholder in brackets", "[%{A}](?<_n_0>b)", Pattern("[(?<_n_0>a)](?<_n_0>b)", "A"), A,
        modes=EVERY, lines={"ab": "A=b"}),
    Row("the last group of a key counts, taking part or not", "(?:%{A:x}|b(?<x>c))", Pattern("(?:(?<_n_0>a)|b(?<x>c))", "x"), A,
        lines={"a": "", "bc": "x=c"}),
    Row("a group written by hand has the alias as its name", "%{A:x}(?<x>b)", Pattern("(?<_n_0>a)(?<x>b)", "x"), A,
        lines={"ab": "x=b"}),
    Row("a group written by hand counts after the placeholder", r"(?<capture>\w+) %{GREEDYDATA:capture}",
        Pattern(r"(?<capture>\w+) (?<_n_0>.*)", "capture"), ["GREEDYDATA=.*"], lines={"word1 word2": "capture=word2"}),
]

# Placeholders of definitions.
PLACEHOLDERS = [
    Row("a placeholder", "%{A}", Pattern("(?<_n_0>a)", "A"), A, modes=EVERY, lines={"ba": "A=a", "b": "no match"}),
    Row("a placeholder without an alias", "%{A}", Pattern("(?:a)", ""), A, modes=ALIASED, lines={"ba": "", "b": "no match"}),
    Row("the later definition of a name counts", "%{A}", Pattern("(?<_n_0>b)", "A"), ["A=a%{B}", "A=b"], modes=EVERY,
        lines={"ab": "A=b"}),
    Row("a placeholder, beside a malformed definition", "%{A}", Pattern("(?<_n_0>a)", "A"), ["BAD=x%{", "A=a"], modes=EVERY),
    Row("a definition that regex refuses", "%{A}", Refused("(?:()"), ["A=("], modes=ALIASED),
    Row("a name twice", "%{A}%{A}", Pattern("(?<_n_0>a)(?<_n_1>a)", "A A[1]"), A, modes=EVERY,
        lines={"aa": "A=a, A[1]=a", "a": "no match"}),
    Row("a name twice without an alias", "%{A}%{A}", Pattern("(?:a)(?:a)", ""), A, modes=ALIASED,
        lines={"aa": "", "a": "no match"}),
    Row("placeholders in a placeholder", "%{B}", Pattern("(?<_n_0>(?<_n_1>a)(?<_n_2>a))", "A A[1] B"), AB, modes=EVERY,
        lines={"aa": "A=a, A[1]=a, B=aa", "baaa": "A=a, A[1]=a, B=aa", "a": "no match", "": "no match"}),
    Row("placeholders in a placeholder without an alias", "%{B}", Pattern("(?:(?:a)(?:a))", ""), AB, modes=ALIASED,
        lines={"aa": "", "a": "no match"}),
    Row("definitions of names that are used again are not read again", "%{B}%{B}-%{A}",
        Pattern("(?<_n_0>(?<_n_1>a)(?<_n_2>a))(?<_n_3>(?<_n_4>a)(?<_n_5>a))-(?<_n_6>a)", "A A[1] A[2] A[3] A[4] B B[1]"), AB,
        modes=EVERY),
    Row("names used again without an alias", "%{B}%{B}-%{A}", Pattern("(?:(?:a)(?:a))(?:(?:a)(?:a))-(?:a)", ""), AB,
        modes=ALIASED),
    Row("the eleventh group has a number of two digits", "%{A}" * 11,
        Pattern(ELEVEN_GROUPS, "A A[10] A[1] A[2] A[3] A[4] A[5] A[6] A[7] A[8] A[9]"),
        A, modes=EVERY),
    Row("eleven placeholders without an alias", "%{A}" * 11,
        Pattern("(?:a)(?:a)(?:a)(?:a)(?:a)(?:a)(?:a)(?:a)(?:a)(?:a)(?:a)", ""), A, modes=ALIASED),
    Row("the eleventh placeholder has an alias", "%{A}%{A}%{A}%{A}%{A}%{A}%{A}%{A}%{A}%{A}%{A:B}",
        Pattern(ELEVEN_GROUPS, "A A[1] A[2] A[3] A[4] A[5] A[6] A[7] A[8] A[9] B"),
        A, modes=EVERY),
    Row("a letter of two bytes before a placeholder", "é%{A}", Pattern("é(?<_n_0>a)", "A"), A, modes=EVERY,
        lines={"éa": "A=a", "a": "no match"}),
    Row("a letter of two bytes in a definition", "%{N}", Pattern("(?<_n_0>é(?<_n_1>a))", "A N"), ["N=é%{A}", "A=a"], modes=EVERY),
    Row("an empty definition", "%{E}", Pattern("(?<_n_0>)", "E"), ["E="], modes=EVERY, lines={"": "E=", "q": "E="}),
    Row("an empty definition without an alias", "%{E}", Pattern("(?:)", ""), ["E="], modes=ALIASED, lines={"": "", "q": ""}),
    Row("the last round of a repeated group counts", "%{INT}{1,3}", Pattern("(?<_n_0>(?:[+-]?(?:[0-9]+))){1,3}", "INT"),
        ["INT=(?:[+-]?(?:[0-9]+))"], modes=EVERY, lines={"+1+2+3": "INT=+3"}),
]

# Inline definitions.
INLINE = [
    Row("a definition in the text", "%{W=ab}", Pattern("(?<_n_0>ab)", "W"), modes=EVERY),
    Row("a definition in the text is part of its placeholder", "%{W=a%b}", Pattern("(?<_n_0>a%b)", "W"), modes=EVERY),
    Row("a definition in the text of a placeholder without an alias", "%{W=a%b}", Pattern("(?:a%b)", ""), modes=ALIASED),
    Row("the last definition in the text counts", "%{W=a}%{W=b}%{W}", Pattern("(?<_n_0>a)(?<_n_1>b)(?<_n_2>b)", "W W[1] W[2]"),
        modes=EVERY, lines={"abb": "W=a, W[1]=b, W[2]=b"}),
    Row("a definition in the text counts from there on", "%{W}%{W=a}%{W}",
        Pattern("(?<_n_0>w)(?<_n_1>a)(?<_n_2>a)", "W W[1] W[2]"), ["W=w"], modes=EVERY, lines={"waa": "W=w, W[1]=a, W[2]=a"}),
    Row("a percent sign in a definition in the text", "%{W}%{W=a%b}%{W}",
        Pattern("(?<_n_0>w)(?<_n_1>a%b)(?<_n_2>a%b)", "W W[1] W[2]"), ["W=w"], modes=EVERY),
    Row("a percent sign in a definition in the text without an alias", "%{W}%{W=a%b}%{W}", Pattern("(?:w)(?:a%b)(?:a%b)", ""),
        ["W=w"], modes=ALIASED),
    Row("a definition and an alias in the text", "%{W:k=a}%{W}", Pattern("(?<_n_0>a)(?:a)", "k"), modes=ALIASED,
        lines={"aa": "k=a"}),
    Row("a new name with a definition in the text", r"%{NEW_PATTERN:first=\w+} %{NEW_PATTERN:second}",
        Pattern(r"(?<_n_0>\w+) (?<_n_1>\w+)", "first second"), lines={"word1 word2": "first=word1, second=word2"}),
    Row("a definition in the text does not hold in another one", "%{W=a}%{P}", missing("W"), ["P=%{W}"]),
    Row("a definition in another text does not hold in the pattern", "%{P}%{W}", missing("W"), ["P=%{W=a}"]),
    Row("a definition in the text does not hold before it", "%{W}%{W=a}", missing("W")),
]

# Keys that several placeholders ask for.
KEYS = [
    Row("an alias twice, and another between", "%{A:x}%{A:y}%{A:x}", Pattern("(?<_n_0>a)(?<_n_1>a)(?<_n_2>a)", "x x[1] y"), A,
        lines={"aaa": "x=a, x[1]=a, y=a"}),
    Row("an alias with a number twice", "%{A:x[1]}%{A:x[1]}", Pattern("(?<_n_0>a)(?<_n_1>a)", "x[1] x[1][1]"), A,
        lines={"aa": "x[1]=a, x[1][1]=a"}),
    Row("a numbered key is an earlier alias", "%{A:x[1]}%{A:x}%{A:x}", clash("x[1]"), A),
    Row("an alias is an earlier numbered key", "%{A:x}%{A:x}%{A:x[1]}", clash("x[1]"), A),
    Row("an alias is an earlier numbered key with an extract", "%{P:x=a}%{P:x:int=b}%{P:x[1]=c}", clash("x[1]")),
    Row("an alias with an extract is an earlier numbered key", "%{P:x=a}%{P:x:int=b}%{P:x[1]:text=c}", clash("x[1]")),
    Row("a numbered key inside a definition is an earlier alias", "%{A:x[1]}%{B}", clash("x[1]"), ["A=a", "B=%{A:x}%{A:x}"],
        modes=ALIASED),
    Row("a clash before a missing definition", "%{A:x[1]}%{A:x}%{A:x}%{missing}", clash("x[1]"), A),
    Row("a clash of an alias before a missing definition", "%{A:x}%{A:x}%{A:x[1]}%{missing}", clash("x[1]"), A),
    Row("a missing definition where its key would clash", "%{A:x[1]}%{A:x}%{nope:x}", missing("nope"), A),
    Row("a missing definition where its alias would clash", "%{A:x}%{A:x}%{nope:x[1]}", missing("nope"), A),
]

# Missing definitions, and circles (definitions that use themselves).
FAULTS = [
    Row("a missing definition", "%{nope}", missing("nope")),
    Row("a missing definition before a malformed placeholder", "%{nope}%{", missing("nope")),
    Row("a missing definition between letters", "a%{nope}b%{", missing("nope")),
    Row("a missing definition after a placeholder", "%{A}%{nope}", missing("nope"), A),
    Row("a missing definition after two placeholders", "%{A}%{A}%{nope}", missing("nope"), A),
    Row("a missing definition in a definition", "%{A}%{A}", missing("nope"), ["A=%{nope}"]),
    Row("a missing definition between the letters of a definition", "%{A}%{A}", missing("nope"), ["A=a%{nope}b"]),
    Row("a circle of one name", "%{A}", TOO_DEEP, ["A=%{A}"]),
    Row("a circle of one name that stands twice", "%{A}", TOO_DEEP, ["A=%{A}%{A}"]),
    Row("a circle before a missing definition", "%{A}", TOO_DEEP, ["A=%{A}%{missing}"]),
    Row("a missing definition before a circle", "%{A}", missing("missing"), ["A=%{missing}%{A}"]),
    Row("a circle after another name", "%{A}", TOO_DEEP, ["A=%{B}%{A}%{nope}", "B=b"]),
    Row("a circle of three names", "%{A}", TOO_DEEP, CIRCLE_OF_THREE),
    Row("a circle of three names after a letter", "x%{C}", TOO_DEEP, CIRCLE_OF_THREE),
    Row("a circle whose key does not clash", "%{A:x}%{A:x}", TOO_DEEP, ["A=%{A:x[1]}%{missing}"]),
]

# Malformed placeholders, in the pattern and in a definition.
MALFORMED = [
    Row("a placeholder that is not closed, after another one", "%{A}%{", malformed("InvalidPattern"), A),
    Row("a space in a name", "%{a b}", malformed("InvalidCharacter(' ')")),
    Row("a space in a name after a letter", "x%{a b}", malformed("InvalidCharacter(' ')")),
    Row("a letter of two bytes in a name", "%{né}", malformed("InvalidCharacter('é')")),
    Row("a brace in a definition in the text", "%{N=a{2}}", malformed("InvalidPatternDefinition")),
    Row("a malformed definition", "%{BAD}", malformed("InvalidPattern"), ["BAD=%{"]),
    Row("a malformed definition that begins with a letter", "%{BAD}", malformed("InvalidPattern"), ["BAD=x%{", "A=a"]),
    Row("a malformed definition before a missing one", "%{A}%{BAD}%{nope}", malformed("InvalidPattern"), ["BAD=x%{", "A=a"]),
]

# Extracts, whether or not their key has a group.
EXTRACTS = [
    Row("extracts by key", "%{A:x}%{A:x:int}%{A:y:text}%{A:z}[%{A::t}]",
        Pattern("(?<_n_0>a)(?<_n_1>a)(?<_n_2>a)(?<_n_3>a)[(?<_n_4>a)]", "x x[1] y z"), A, modes=EVERY,
        extracts={"x": None, "x[1]": "int", "y": "text", "z": None, "A": "t", "nope": None}),
    Row("an extract of a key without a group", "[%{A::t}]", Pattern("[(?<_n_0>a)]", ""), A, modes=EVERY, extracts={"A": "t"}),
    Row("an extract of an alias", "%{A:x:t}", Pattern("(?<_n_0>a)", "x"), A, extracts={"x": "t"}),
    Row("an extract of the second placeholder of an alias", "%{P:x=a}%{P:x:int=b}", Pattern("(?<_n_0>a)(?<_n_1>b)", "x x[1]"),
        extracts={"x": None, "x[1]": "int"}),
    Row("an extract of other characters", "%{P:x:[-.]=a}", Pattern("(?<_n_0>a)", "x"), extracts={"x": "[-.]"}),
    Row("an extract of a name", "%{P::int=a}", Pattern("(?<_n_0>a)", "P"), modes=EVERY, extracts={"P": "int"}),
    Row("an extract of a placeholder without an alias", "%{P::int=a}", Pattern("(?:a)", ""), modes=ALIASED, extracts={"P": None}),
    Row("a group written by hand has no extract", "%{A:x:int}(?<y>b)", Pattern("(?<_n_0>a)(?<y>b)", "x y"), A,
        extracts={"x": "int", "y": None}),
    Row("extracts in a definition", "%{USER:usr:text}", Pattern("(?<_n_0>(?<_n_1>[a-zA-Z0-9._-]+))", "USERNAME usr"),
        USER_WITH_EXTRACT, modes=EVERY, extracts={"usr": "text", "USERNAME": "text", "USER": None}),
    Row("extracts in a definition without an alias", "%{USER:usr:text}", Pattern("(?<_n_0>(?:[a-zA-Z0-9._-]+))", "usr"),
        USER_WITH_EXTRACT, modes=ALIASED, extracts={"usr": "text", "USERNAME": None, "USER": None, "doesn't exist": None},
        lines={"root": "usr=root"}),
]

# The default definitions.
DEFAULTS = [
    Row("a default definition", "%{USERNAME}", Pattern("(?<_n_0>[a-zA-Z0-9._-]+)", "USERNAME"), modes=EVERY,
        lines={"root": "USERNAME=root", "john doe": "USERNAME=john", "###": "no match"}),
    Row("a default definition with an alias", "%{USERNAME:usr}", Pattern("(?<_n_0>[a-zA-Z0-9._-]+)", "usr"),
        lines={"root": "usr=root", "john doe": "usr=john"}),
    Row("a default definition in another one", "%{USER}", Pattern("(?<_n_0>(?<_n_1>[a-zA-Z0-9._-]+))", "USER USERNAME"),
        modes=EVERY, lines={"root": "USER=root, USERNAME=root", "john doe": "USER=john, USERNAME=john"}),
    Row("an alias over a default definition in another one", "%{USER:usr}",
        Pattern("(?<_n_0>(?<_n_1>[a-zA-Z0-9._-]+))", "USERNAME usr"), modes=EVERY,
        lines={"root": "USERNAME=root, usr=root", "john doe": "USERNAME=john, usr=john"}),
    Row("one of three default definitions", "%{MAC}", Keys("CISCOMAC COMMONMAC MAC WINDOWSMAC"), modes=EVERY,
        lines={
            "5E:FF:56:A2:AF:15": "COMMONMAC=5E:FF:56:A2:AF:15, MAC=5E:FF:56:A2:AF:15",
            "5EFF.56A2.AF15": "CISCOMAC=5EFF.56A2.AF15, MAC=5EFF.56A2.AF15",
            "5E-FF-56-A2-AF-15": "MAC=5E-FF-56-A2-AF-15, WINDOWSMAC=5E-FF-56-A2-AF-15",
            "hello! 5E:FF:56:A2:AF:15 what?": "COMMONMAC=5E:FF:56:A2:AF:15, MAC=5E:FF:56:A2:AF:15",
            "5E:FF": "no match",
        }),
    Row("an alias over one of three default definitions", "%{MAC:macaddr}", Keys("macaddr"), modes=ALIASED,
        lines={
            "5E:FF:56:A2:AF:15": "macaddr=5E:FF:56:A2:AF:15",
            "hello! 5E:FF:56:A2:AF:15 what?": "macaddr=5E:FF:56:A2:AF:15",
            "5E:FF": "no match",
        }),
    Row("default definitions with spaces between", "%{DAY} %{MONTH} %{YEAR}", Keys("DAY MONTH YEAR"), modes=EVERY,
        lines={"Monday March 2012": "DAY=Monday, MONTH=March, YEAR=2012", "Monday": "no match"}),
    Row("a default definition repeated at most once", "%{YEAR}%{SPACE}%{USERNAME:user}?",
        Pattern(r"(?<_n_0>(\d\d){1,2})(?<_n_1>\s*)(?<_n_2>[a-zA-Z0-9._-]+)?", "SPACE YEAR user"), modes=EVERY),
    Row("default definitions with aliases, and one without", "%{DAY:day} %{MONTH:month} %{YEAR:year}%{SPACE}%{USERNAME:user}?",
        Keys("day month user year"), modes=ALIASED,
        lines={
            "Monday March 2012 user": "day=Monday, month=March, user=user, year=2012",
            "Monday March 2012 username": "day=Monday, month=March, user=username, year=2012",
        }),
]

# A chain of 500 definitions, and a chain that leads to it and has 100 links too many for that.
TWO_CHAINS = chain("H", 500, "x") + chain("C", LEVELS - 400, "%{H1}")

# Long chains, doublings, and keys that are used very often.
LIMITS = [
    Row("as many placeholders in one another as are allowed", "%{C1}", ACCEPTED, chain("C", LEVELS, "x")),
    Row("one placeholder too many in one another", "%{C1}", TOO_DEEP, chain("C", LEVELS + 1, "x")),
    Row("all links but the first of a chain that is too long", "%{C2}", ACCEPTED, chain("C", LEVELS + 1, "x")),
    Row("a definition in the text takes the last level", "%{C1}", ACCEPTED, chain("C", LEVELS - 1, "%{W=x}")),
    Row("a definition in the text takes a level too many", "%{C1}", TOO_DEEP, chain("C", LEVELS, "%{W=x}")),
    Row("a missing definition comes before the depth", "%{C1}", missing("nope"), chain("C", LEVELS, "%{nope}")),
    Row("a malformed placeholder comes before the depth", "%{C1}", malformed("InvalidPattern"), chain("C", LEVELS, "%{")),
    Row("a clash comes before the depth", "%{A:x[1]}%{A:x}%{C1}", clash("x[1]"), A + chain("C", LEVELS, "%{A:x}")),
    Row("an alias with a number that is not reached is no clash", "%{A:x[2]}%{A:x}%{C1}", TOO_DEEP,
        A + chain("C", LEVELS, "%{A:x}")),
    Row("a chain alone and then below another one", "%{H1}%{C1}", TOO_DEEP, TWO_CHAINS),
    Row("a chain below another one", "%{C1}", TOO_DEEP, TWO_CHAINS),
    Row("a chain alone", "%{H1}", ACCEPTED, TWO_CHAINS),
    Row("a chain below as many links as are allowed", "%{H1}%{C101}", ACCEPTED, TWO_CHAINS),
    Row("a chain below one link too many", "%{H1}%{C100}", TOO_DEEP, TWO_CHAINS),
    Row("a circle after a long chain", "%{A}", TOO_DEEP, ["A=%{B1}%{A}%{missing}"] + chain("B", 500, "x")),
    Row("a text that doubles ten times", "%{D10}", ACCEPTED, doublings("a")),
    Row("a text that is too long with its groups, and larger than the memory without", "%{D60}", MEMORY, doublings("a")),
    Row("a text that is too long without its groups", "%{D61}", MEMORY, doublings("a")),
    Row("a text that is far too long", "%{D70}", MEMORY, doublings("a")),
    Row("a clash before a text that is far too long", "%{A:x[1]}%{A:x}%{A:x}%{D70}", MEMORY, A + doublings("a")),
    Row("a missing definition after a text that is far too long", "%{D70}%{missing}", missing("missing"), doublings("a")),
    Row("a space in a name after a text that is far too long", "%{D70}%{a b}", malformed("InvalidCharacter(' ')"),
        doublings("a")),
    Row("a placeholder that is not closed after a text that is far too long", "%{D70}%{", malformed("InvalidPattern"),
        doublings("a")),
    Row("a clash, a text that is far too long, and a missing definition", "%{A:x[1]}%{A:x}%{A:x}%{D70}%{missing}", clash("x[1]"),
        A + doublings("a")),
    Row("a text that is far too long, and again below as many links as are allowed", "%{D70}%{K1}", MEMORY,
        chain("K", LEVELS - 71, "%{D70}") + doublings("a")),
    Row("a text that is far too long, and again below one link too many", "%{D70}%{K1}", TOO_DEEP,
        chain("K", LEVELS - 70, "%{D70}") + doublings("a")),
    Row("a key that is used 2^44 times", "%{A:x[17592186044416]}%{D44}%{missing}", missing("missing"), A + doublings("%{A:x}")),
    Row("a key that the second of 2^44 placeholders is to get", "%{A:x[1]}%{D44}%{missing}", clash("x[1]"),
        A + doublings("%{A:x}")),
    Row("a key that the second of 2^44 placeholders has", "%{D44}%{A:x[1]}%{missing}", clash("x[1]"), A + doublings("%{A:x}")),
    Row("the key of the last of 2^22 placeholders, before them", "%{A:x[4194303]}%{D22}%{missing}", clash("x[4194303]"),
        A + doublings("%{A:x}")),
    Row("the key of the last of 2^22 placeholders, after them", "%{D22}%{A:x[4194303]}%{missing}", clash("x[4194303]"),
        A + doublings("%{A:x}")),
    Row("the key that one placeholder more than 2^22 would get", "%{A:x[4194304]}%{D22}%{missing}", missing("missing"),
        A + doublings("%{A:x}")),
    Row("the key that one placeholder more than 2^22 gets", "%{A:x[4194304]}%{D22}%{A:x}%{missing}", clash("x[4194304]"),
        A + doublings("%{A:x}")),
    Row("a key with a number that is used 2^44 times", "%{A:x}%{D44}%{A:x}%{missing}", clash("x[1]"), A + doublings("%{A:x[1]}")),
    Row("a key that is used 2^70 times, and a number that is used before", "%{A:x[1]}%{D70}%{missing}", clash("x[1]"),
        A + doublings("%{A:x}")),
    Row("a clash in a definition whose keys are used too often in all", "%{D62}%{D62}%{D62}%{D61}%{T}%{missing}", clash("y[1]"),
        ["A=a", "T=%{A:y}%{A:y}%{A:y[1]}%{D61}"] + doublings("%{A:x}")),
    Row("a key that one of 2^64 placeholders is to get", "%{A:x[18446744073709551000]}%{D62}%{D62}%{D62}%{D62}%{missing}",
        clash("x[18446744073709551000]"), A + doublings("%{A:x}")),
    Row("the greatest number that is compared with the uses of a key",
        "%{A:x[18446744073709551614]}%{D62}%{D62}%{D62}%{D62}%{missing}", clash("x[18446744073709551614]"),
        A + doublings("%{A:x}")),
    Row("a key that is used 2^64 - 1 times", MOST_USES, missing("missing"), A + doublings("%{A:x}")),
    Row("a key that is used 2^64 times", "%{A:x[18446744073709551616]}%{D62}%{D62}%{D62}%{D62}%{missing}", MEMORY,
        A + doublings("%{A:x}")),
    Row("a key that is used 2^70 times", "%{A:x[18446744073709551616]}%{D70}%{missing}", MEMORY, A + doublings("%{A:x}")),
    Row("a key that is used 2^70 times and can't clash", "%{A:y[1]}%{D70}%{missing}", missing("missing"),
        A + doublings("%{A:x}")),
]

# Clashes in patterns without a structural fault. They are found before memory for the expanded text is reserved.
CLASHES = [
    Row("a clash in a text that is far too long", "%{A:x[1]}%{A:x}%{A:x}%{D70}", MEMORY, A + doublings("a")),
    Row("an alias with a number, no clash, and a text that is far too long", "%{A:x[1]}%{A:x}%{D70}", MEMORY, A + doublings("a")),
    Row("a clash before a text of 238 GB", "%{A:x[1]}%{A:x}%{A:x}%{D32}", clash("x[1]"), A + doublings("%{A}")),
    Row("a clash after a text of 238 GB", "%{D32}%{A:x[1]}", clash("x[1]"), A + doublings("%{A:x}")),
    Row("an alias with a number, no clash, and a text that fits no memory", "%{A:x[1]}%{A:x}%{D50}", MEMORY,
        A + doublings("%{A}")),
]

TABLES = {
    "without placeholders": PLAIN,
    "with groups written by hand": GROUPS,
    "with placeholders": PLACEHOLDERS,
    "with inline definitions": INLINE,
    "with keys that are used again": KEYS,
    "with missing definitions and circles": FAULTS,
    "with malformed placeholders": MALFORMED,
    "with extracts": EXTRACTS,
    "with default definitions": DEFAULTS,
    "with chains, doublings and many keys": LIMITS,
    "with clashes before long texts": CLASHES,
}

# What a pattern, all of whose placeholders capture, has over an engine: its keys in byte order, and what `Debug` writes in its
# alternate form for the pattern and for its match of a line. The engine `heads` reads the names of the groups, and captures the whole
# line in each odd group. The engine `bare` has only group 0. `values` has keys, or texts that aren't keys, with their values.
Found = collections.namedtuple("Found", "name engine pattern line keys shown match values extracts", defaults=[{}])
FOUND = [
    Found("of three groups the second takes no part", "heads", "%{A:x}%{A:y}%{A:x}", "q", ["x", "x[1]", "y"],
          NO_EXTRACTS % "(?<_n_0>a)(?<_n_1>a)(?<_n_2>a)", matched(x="q", **{"x[1]": "q"}),
          {"x": "q", "x[1]": "q", "y": None, "A": None, "_n_0": None}),
    Found("a group written by hand takes the key of an alias, and takes no part", "heads", "%{A:x}(?<x>b)", "q", ["x"],
          NO_EXTRACTS % "(?<_n_0>a)(?<x>b)", matched(), {"x": None, "A": None}),
    Found("a group written by hand has the generated name of a placeholder after it, which takes no part", "heads", "(?<_n_0>b)%{A}",
          "q", ["A"], NO_EXTRACTS % "(?<_n_0>b)(?<_n_0>a)", matched(), {"A": None, "_n_0": None}),
    Found("an extract of a key without a group", "bare", "%{A:x:t}", "q", [],
          'Pattern {\n    text: "(?<_n_0>a)",\n    extracts: {\n        "x": "t",\n    },\n}', matched(), {"x": None, "A": None},
          {"x": "t", "A": None}),
    Found("texts that begin as a key does, or continue it", "regex", "%{B}", "aa", ["A", "A[1]", "B"],
          NO_EXTRACTS % "(?<_n_0>(?<_n_1>a)(?<_n_2>a))", matched(A="a", **{"A[1]": "a"}, B="aa"),
          {"A": "a", "A[1]": "a", "B": "aa", "": None, "A[": None, "A[1]x": None, "C": None}),
    Found("a placeholder in brackets has no group", "regex", "[%{A}]", "a", [], NO_EXTRACTS % "[(?<_n_0>a)]", matched(),
          {"": None, "A": None, "A[1]": None, "_n_0": None}),
    Found("two extracts", "regex", "%{A:x:t}%{A:y:u-1}%{A}", "aaa", ["A", "x", "y"],
          'Pattern {\n    text: "(?<_n_0>a)(?<_n_1>a)(?<_n_2>a)",\n    extracts: {\n        "x": "t",\n        "y": "u-1",\n    },\n}',
          matched(A="a", x="a", y="a"), {}, {"x": "t", "y": "u-1", "A": None}),
    Found("a line that doesn't match", "regex", "%{A}%{A}", "ab", ["A", "A[1]"], NO_EXTRACTS % "(?<_n_0>a)(?<_n_1>a)", "None", {}),
]

NUM_AND_WORD = ["NUM=[0-9]+", "WORD=[a-z]+"]

# Lines that are matched over and over, in this order and in the reverse order. What is found in one would be wrong if something of
# an earlier line were left behind.
REPEATED = [
    Row("a group that takes no part in each line", "^%{NUM:number}%{WORD:word}?;", None, NUM_AND_WORD, ALIASED, lines={
        "12ab;": "number=12, word=ab",
        "3;": "number=3",
        "ab;": "no match",
        "456c; d": "number=456, word=c",
        "": "no match",
    }),
    Row("one of two groups", "(?:%{NUM:number}|%{WORD:word})$", None, NUM_AND_WORD, ALIASED, lines={
        "-- 7": "number=7",
        "-- seven": "word=seven",
        "--": "no match",
    }),
    Row("characters of many bytes", "%{ONE:left}é%{ONE:right}", None, ["ONE=[^ ]"], ALIASED, lines={
        "aéb": "left=a, right=b",
        "日é本": "left=日, right=本",
        "é": "no match",
        " ééé": "left=é, right=é",
        "日本": "no match",
    }),
    Row("a match that starts at the first word or later", r"%{WORD:word} is %{NUM:number} \(ok\)", None,
        NUM_AND_WORD, ALIASED, lines={
        "tea is 12 (ok)": "number=12, word=tea",
        "water is 3 (ok)": "number=3, word=water",
        "the tea is 3 (ok)": "number=3, word=tea",
        "tea was 3 (ok)": "no match",
        "tea is 3 (no)": "no match",
        "tea is 3 (no), tea is 4 (ok)": "number=4, word=tea",
        "(ok) tea is 5": "no match",
        "": "no match",
    }),
    Row("a match that ends where the line ends", "%{NUM:number} %{WORD:word}$", None, NUM_AND_WORD, ALIASED, lines={
        "12 tea": "number=12, word=tea",
        "3 water": "number=3, word=water",
        "2 3 tea": "number=3, word=tea",
        "12 tea;": "no match",
        "tea": "no match",
    }),
    Row("empty matches", "(?<all>x*)", None, [], ALIASED, lines={
        "xxy": "all=xx",
        "": "all=",
        "y": "all=",
        "éx": "all=",
    }),
    Row("the first of many matches, and the longest or the shortest of it", "(?<long>a+)(?<short>b+?)(?<rest>b*)", None, [], ALIASED,
        lines={
        "baab ab": "long=aa, rest=, short=b",
        "aabbb": "long=aa, rest=bb, short=b",
        "ba": "no match",
    }),
    Row("words and their ends", r"^(?<word>\w+)\b(?<rest>.?)$", None, [], ALIASED, lines={
        "ab": "rest=, word=ab",
        "é-": "rest=-, word=é",
        "ab--": "no match",
        "aé": "rest=, word=aé",
        "-ab": "no match",
    }),
    Row("words on lines that aren't ASCII, of over 100 bytes and shorter", r"\b%{WORD:word}\b!", None,
        ["WORD=[a-z]+"], ALIASED, lines={
        "日本語 日本語 日本語 日本語 日本語 日本語 日本語 日本語 日本語 日本語 日本語 ab!": "word=ab",
        "日本語 ab!": "word=ab",
        "日本語 日本語 日本語 日本語 日本語 日本語 日本語 日本語 日本語 日本語 日本語ab!": "no match",
        "日本語ab!": "no match",
        "ab!": "word=ab",
    }),
]

# Malformed placeholders, and the character of the fault as Rust's `Debug` writes it. No word of a command line has U+0000.
ODD_CHARACTERS = {
    "%{'}": r"'\''",
    '%{"}': "'\"'",
    "%{\\}": r"'\\'",
    "%{\n}": r"'\n'",
    "%{\x7f}": r"'\u{7f}'",
    "%{ñ}": "'ñ'",
    "%{\u0301}": r"'\u{301}'",
    "%{\u200b}": r"'\u{200b}'",
    "%{😀}": "'😀'",
}

# Malformed placeholders, with their faults.
FAULTY = {
    "%{name": "InvalidPattern",
    "%{name=": "InvalidPatternDefinition",
    "%{name=}": "InvalidPatternDefinition",
    "%{name=a": "InvalidPatternDefinition",
    "%{name:": "InvalidPattern",
    "%{name:}": "InvalidPatternDefinition",
    "%{name:a": "InvalidPattern",
    "%{name:a:b": "InvalidPattern",
    "%{name::": "InvalidPattern",
    "%{name::b": "InvalidPattern",
    "%{name:a:}": "InvalidPatternDefinition",
    "%{name::}": "InvalidPatternDefinition",
    "%{na.me:a:b}": "InvalidCharacter('.')",
    "%{name:a:b:c}": "InvalidPattern",
    "%{name:a:b:c:d}": "InvalidPattern",
    "%{name:=x}": "InvalidPatternDefinition",
    "%{name:a:=x}": "InvalidPatternDefinition",
    "%{!}": "InvalidCharacter('!')",
    "%{name:a:b:c!": "InvalidCharacter('!')",
    "%{}": "InvalidPattern",
}

def placeholder(name, alias="", extract="", definition=""):
    """A placeholder of these parts, as `Debug` writes it."""
    return f'%{{ name="{name}" alias="{alias}" capture="{extract}" definition="{definition}" }}'


WITH_QUOTE = r'a\"'

# Texts with their pieces: the byte range of each, or the fault, and the piece, both as `Debug` writes them. The alternate form is the same.
PIECES = {
    "": [],
    "%%{name}": ['0..8 "%%{name}"'],
    "%%%{name}": ['0..2 "%%"', f'2..9 {placeholder("name")}'],
    "%": ['0..1 "%"'],
    "100%": ['0..3 "100"', '3..4 "%"'],
    "(%){2}": ['0..1 "("', '1..6 "%){2}"'],
    "%{N=a=b:%}": [f'0..10 {placeholder("N", definition="a=b:%")}'],
    "%{N=a{2}}": ["InvalidPatternDefinition <error InvalidPatternDefinition>"],
    "é%{A}": ['0..2 "é"', f'2..6 {placeholder("A")}'],
    "é%{name}": ['0..2 "é"', f'2..9 {placeholder("name")}'],
    "Hello, %{name}!": ['0..7 "Hello, "', f'7..14 {placeholder("name")}', '14..15 "!"'],
    "a%{A}%{b c}%{A}": ['0..1 "a"', f'1..5 {placeholder("A")}', "InvalidCharacter(' ') <error InvalidCharacter(' ')>"],
    "%{name:a:e-1}": [f'0..13 {placeholder("name", "a", "e-1")}'],
    "%{name:a.b:e=d}": [f'0..15 {placeholder("name", "a.b", "e", "d")}'],
    "%{name}": [f'0..7 {placeholder("name")}'],
    "%{name:name}": [f'0..12 {placeholder("name", "name")}'],
    "%{name:name:name}": [f'0..17 {placeholder("name", "name", "name")}'],
    "%{name::name}": [f'0..13 {placeholder("name", "", "name")}'],
    "%{name=defn}": [f'0..12 {placeholder("name", definition="defn")}'],
    "%{name:name=defn}": [f'0..17 {placeholder("name", "name", "", "defn")}'],
    "%{name:name:name=defn}": [f'0..22 {placeholder("name", "name", "name", "defn")}'],
    "%{name:name[x]}": [f'0..15 {placeholder("name", "name[x]")}'],
    "%{name:name[x]:name[y]}": [f'0..23 {placeholder("name", "name[x]", "name[y]")}'],
    'a"\n': [r'0..3 "a\"\n"'],
    '%{A:x:t=a"}': [f'0..11 {placeholder("A", "x", "t", WITH_QUOTE)}'],
    "%{A!": ["InvalidCharacter('!') <error InvalidCharacter('!')>"],
    "%{'": [r"InvalidCharacter('\'') <error InvalidCharacter('\'')>"],
    "%{A": ["InvalidPattern <error InvalidPattern>"],
    "%{A:}": ["InvalidPatternDefinition <error InvalidPatternDefinition>"],
}

# Texts with their placeholders that have no definition of their own: the byte range, the name and the alias of each.
USES = {
    "": [],
    "100%%{A}": [],
    "é%{A:a.b}": ['2..10 "A" "a.b"'],
    "%{A:x=a}%{A}%{B:y:int}%{A} %%{C}%{D!%{E}": ['8..12 "A" ""', '12..22 "B" "y"', '22..26 "A" ""'],
}

# Patterns without a fault, cut into their pieces.
CUT = [
    ["Hello, ", "%{name}", "!"],
    ["%{n:a[1]:x=it's \"\\\"}"],
    ["é\t"],
    [r"(?:\(Views: ", "%{NUMBER:viewms}", r"ms \| ActiveRecord: ", "%{NUMBER:activerecordms}", r"ms|\(ActiveRecord: ",
     "%{NUMBER:activerecordms}", "ms)?"],
    ["%{NUMBER:ts}", r"\t", "%{NOTSPACE:uid}", r"\t", "%{IP:orig_h}", r"\t", "%{INT:orig_p}", r"\t", "%{IP:resp_h}", r"\t",
     "%{INT:resp_p}", r"\t", "%{WORD:proto}", r"\t", "%{INT:trans_id}", r"\t", "%{GREEDYDATA:query}", r"\t", "%{GREEDYDATA:qclass}", r"\t",
     "%{GREEDYDATA:qclass_name}", r"\t", "%{GREEDYDATA:qtype}", r"\t", "%{GREEDYDATA:qtype_name}", r"\t", "%{GREEDYDATA:rcode}", r"\t",
     "%{GREEDYDATA:rcode_name}", r"\t", "%{GREEDYDATA:AA}", r"\t", "%{GREEDYDATA:TC}", r"\t", "%{GREEDYDATA:RD}", r"\t",
     "%{GREEDYDATA:RA}", r"\t", "%{GREEDYDATA:Z}", r"\t", "%{GREEDYDATA:answers}", r"\t", "%{GREEDYDATA:TTLs}", r"\t",
     "%{GREEDYDATA:rejected}"],
]

# For 60, 54, and so on down to 6 the doubling with that number and the two below it, without groups. With 135 letters more the
# length is 2^64 - 1, the greatest that is a number.
TURNS = "".join(f"%{{D{top - down}}}" for top in range(60, 0, -6) for down in range(3))
GREATEST = {
    134: model.size_text(2**64 - 2, 0, 61),
    135: model.size_text(2**64 - 1, 0, 61),
    136: "too long",
    137: "too long",
}


def measured(*words):
    """Words of `measure`, and what it writes: the size that the model finds."""
    alias_only = words[0] == "-a"
    pattern, *definitions = words[1:] if alias_only else words
    return ["measure", *words], model.measure_text(pattern, library_of(definitions), alias_only) + "\n"


def checked(*words):
    """The same of `check`."""
    alias_only = words[:1] == ("-a",)
    return ["check", *words], model.check_text(library_of(words[alias_only:]), alias_only)


# A pattern that matches each line with a lowercase letter, and that could take a line feed.
KEYED = r"(?<k>[a-z]\s?)"

# Words of grok_tool with what they write, and the input if they read one.
RUNS = [
    (["split", "Hello, %{name}!"], "Hello, \n%{name}\n!\n"),
    (["split", "a%{b c}d"], "a\n<error InvalidCharacter(' ')>\n"),
    (["split", "-a"], "-a\n"),
    (["split", "a%{b}%{c!}"], "a\n%{b}\n<error InvalidCharacter('!')>\n"),
    measured("%{A}%{A}", "A=a"),
    measured("-a", "%{A}%{A}", "A=a"),
    measured("-a", "%{A:k}%{A}", "A=a"),
    measured("%{MAC}"),
    measured("%{W=ab}"),
    measured("é%{A}", "A=a"),
    measured(""),
    measured("-a", "-a"),
    measured("%{A}", "A=a", "A=bcd"),
    measured("%{A}", "A=b=c"),
    measured("%{A}", "A="),
    measured("%{DAY}", "DAY=x"),
    *(measured("%{A}" * count, "A=a") for count in (101, 1001)),  # the numbers of the groups have up to four digits
    checked(),
    checked("-a"),
    (["match", "%{USERNAME}"], "USERNAME=john\n\nno match\n\n", b"john doe\n###"),
    (["match", "[%{A}]", "A=a"], "\n", b"a\n"),
    (["match", "(?<k>x*)"], "k=\n\n", b"\n"),
    (["match", KEYED], "", b""),
    (["match", KEYED], "not UTF-8\n\nk=p\n\n", b"\xff\np"),
    (["match", KEYED], "k=p\r\n\n", b"p\r\n"),
    (["match", KEYED], "k=p\n\nnot UTF-8\n\n", b"p\n\xc3"),
    (["match", "-a", "%{A:k}%{A}", "A=a"], "k=a\n\n", b"aa\n"),
    (["match", "(?<k>.)"], "k=p\n\nk=q\n\n", b"p\nq"),
    (["match", KEYED], "k=p\n\nk=q\n\n", b"p\nq"),
    (["json", "%{DAY} %{MONTH} %{YEAR}"],
     '{"DAY":"Monday","MONTH":"March","YEAR":"2012"}\nnull\nfalse\n', b"Monday March 2012\nMonday\n\xff\n"),
    (["json", "(?<q>.*)"], '{"q":"a\\"b"}\n', b"a\"b"),
    (["json", "[%{A}]", "A=a"], "{}\n", b"a"),
    (["json", "(?<q>.*)"], "", b""),
    (["json", "(?<q>.*)"], '{"q":"a\\\\b\\tc\\u0001"}\n', b"a\\b\tc\x01\n"),
    (["json", "(?<q>.*)"], '{"q":"\x7f\u2028"}\n', b"\x7f\xe2\x80\xa8\n"),
    (["json", "(?<q>.*)"], '{"q":"😀"}\n', b"\xf0\x9f\x98\x80\n"),
    (["json", "-a", "%{A:k}%{A}", "A=a"], '{"k":"a"}\n', b"aa"),
    (["json", "%{A}%{A}", "A=a"], '{"A":"a","A[1]":"a"}\nnull\n', b"aa\n\n"),
    (["json", "(?<k>.)"], '{"k":"p"}\n{"k":"q"}\n', b"p\nq"),
    (["json", KEYED], '{"k":"p"}\n{"k":"q"}\n', b"p\nq"),
    checked("B=%{nope}", "A=%{A}", "=x", "a-b=x"),
    checked("A=a", "B=x", "A=bcd"),
    checked("DAY=x"),
]

# Words of grok_tool whose pattern has a fault, and the text of the fault.
FAULTY_RUNS = [
    (["measure", "%{nope}"], model.missing_text("nope")),
    (["measure", "%{A}", "A=%{A}"], model.DEPTH_TEXT),
    (["measure", "-a", "x%{a b}"], model.compile_error("InvalidCharacter(' ')")),
    (["measure", "%{BAD}", "BAD=%{"], model.compile_error("InvalidPattern")),
    (["measure", "%{nope}%{A}", "A=%{A}"], model.missing_text("nope")),
    (["match", "%{A}", "A=%{A}"], model.DEPTH_TEXT),
    (["match", "%{P:x=a}%{P:x=b}%{P:x[1]=c}"], model.clash_text("x[1]")),
    (["json", "%{A:x}%{A:x}%{A:x[1]}", "A=a"], model.clash_text("x[1]")),
    (["match", "%{nope}", "A=a"], model.missing_text("nope")),
]

# Words that are no command.
MISUSES = [
    [],
    [""],
    ["-a"],
    ["split"],
    ["split", "a", "b"],
    ["spli", "x"],
    ["measure"],
    ["match", "-a"],
    ["match", "x", "A"],
    ["json", "-a"],
    ["json", "-a", "x", "A=a", "B"],
    ["check", "x"],
]
