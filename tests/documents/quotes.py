#!/usr/bin/env python3
"""Quotes the public calls of the library in crates/grok/CALLING.md, with their contracts as they stand in the code.

    tests/documents/quotes.py       writes the quotes of that document again

In a block of text, each line that isn't indented names a function (`fn Grok::compile`, `private fn write::write`), a trait, or an
implementation of one, and the lines below it are its contract. To quote a new call, write such a line where it belongs, and run
this. A block of Rust is the file that the line before it links to. `tests/documents/run` compares the document with what this
would write.
"""
import os
import re
import sys

sys.path.insert(0, os.path.dirname(os.path.abspath(__file__)) + "/..")
from harness import ROOT, Wrong

DOCUMENT = "crates/grok/CALLING.md"

# The library, and the crate that its module `parser` is.
CRATES = ["grok", "grok_parser"]

# Public calls of that crate that the library doesn't export.
INSIDE = ["fn malformation_at"]

# What has braces that open and close nothing: comments, texts and characters.
OPAQUE = re.compile(r"""//[^\n]*|r"[^"]*"|"(?:\\.|[^"\\])*"|'(?:\\u\{\w+\}|\\.|[^\\'\n])'""", re.S)

CLAUSE = re.compile(r"\s*((?:requires|ensures)\*?(?: \w+)?) \{")
MEMBER = re.compile(r"^    (?:(?P<call>pub(?:\(crate\))? fn|fn) (?P<name>\w+)|ghost (?!use )(?P<ghost>\w+)(?::| =) \{|(?P<type>type [^;]*);)", re.M)


def read(path):
    with open(f"{ROOT}/{path}", encoding="utf-8") as text:
        return text.read()


def sources(crate):
    """The paths of the code of a crate."""
    found = []
    for folder, _, names in os.walk(f"{ROOT}/crates/{crate}/src"):
        found += [os.path.relpath(f"{folder}/{name}", ROOT) for name in names if name.endswith(".rt")]
    return sorted(found)


def without_generics(text):
    shorter = re.sub(r"<[^<>]*>", "", text)
    return text if shorter == text else without_generics(shorter)


def in_one_line(text):
    """The text with single blanks, and without those that only a line break makes."""
    joined = " ".join(re.sub(r"//[^\n]*", "", text).split())
    return re.sub(r",? ([)\]])", r"\1", re.sub(r"([(\[]) ", r"\1", joined)).rstrip(",")


class Source:
    """The text of a file, and the same text in which every brace is one of the code."""

    def __init__(self, path):
        self.text = read(path)
        self.code = OPAQUE.sub(lambda found: re.sub(r"[^\n]", " ", found.group()), self.text)

    def end_of_block(self, start):
        """Where the block ends that opens at `start`: the position of its closing brace."""
        depth = 0
        for brace in re.finditer(r"[{}]", self.code[start:]):
            depth += 1 if brace.group() == "{" else -1
            if depth == 0:
                return start + brace.start()
        raise Wrong("a brace isn't closed")

    def block(self, start):
        """What stands in the block that opens at `start`, in one line."""
        return in_one_line(self.text[start + 1:self.end_of_block(start)])

    def contract(self, start):
        """The signature of the function whose `fn` ends at `start`, and its clauses."""
        end = re.compile(r"\n\s*(?:requires|ensures)\b|[{;]").search(self.code, start).start()
        signature = in_one_line(self.text[start:end])
        clauses = []
        while clause := CLAUSE.match(self.code, end):
            clauses.append(f"{clause.group(1)}: {self.block(clause.end() - 1)}")
            end = self.end_of_block(clause.end() - 1) + 1
        return signature, clauses

    def members(self, start):
        """The members of the `impl` or `trait` whose block opens at `start`."""
        return MEMBER.finditer(self.code, start, self.end_of_block(start))


class Call:
    """A function, or a trait or an implementation with its own members: its first line, its clauses, and whether users can name
    it."""

    def __init__(self, head, clauses, is_public):
        self.head, self.clauses, self.is_public = head, clauses, is_public

    def quote(self):
        return "".join(f"{line}\n" for line in [self.head, *("  " + clause for clause in self.clauses)])


def function(path, contract, is_public):
    signature, clauses = contract
    return Call(f"{'' if is_public else 'private '}fn {'::'.join([*path, signature])}", clauses, is_public)


def key_of(head):
    """What names a call in the document: of a function its path, and of anything else the whole line."""
    return re.match(r"(?:private )?fn [\w:]+|.*", head).group()


def functions(path, source, public_modules):
    """The functions of a file that belong to no type."""
    for item in re.finditer(r"^(pub(?:\(crate\))? )?fn\b", source.code, re.M):
        is_public = item.group(1) == "pub "
        modules = path.split("/src/")[1].removesuffix(".rt").split("/")
        # Users name it without the private modules: each exports what is public in it to the module above.
        shown = [name for name in modules if name in public_modules or not is_public]
        yield function(shown, source.contract(item.end()), is_public)


def blocks(source, public_types):
    """The traits and implementations of a file, and the functions of types in them."""
    for item in re.finditer(r"^(?:pub(?:\(crate\))? )?(trait|impl)\b", source.code, re.M):
        opens = source.code.index("{", item.start())
        head = in_one_line(source.text[item.start(1):opens])
        owner = re.search(r"^trait \w+|\w+$", without_generics(head)).group().removeprefix("trait ")
        is_trait, is_of_trait = item.group(1) == "trait", " for " in without_generics(head)
        own = []
        for member in source.members(opens):
            if member["type"]:
                own.append(in_one_line(member["type"]))
            elif member["ghost"]:
                own.append(f"{member['ghost']}: {source.block(member.end() - 1)}")
            elif is_of_trait:
                own += [f"{member['name']} {clause}" for clause in source.contract(member.end("call"))[1]]
            else:
                yield function([owner], source.contract(member.end("call")), owner in public_types and (is_trait or member["call"] == "pub fn"))
        if own:
            yield Call(head, own, owner in public_types)


def calls(crate):
    """The calls of a crate by what names them in the document."""
    files = {path: Source(path) for path in sources(crate)}
    everything = "\n".join(source.code for source in files.values())
    public_types = set(re.findall(r"^pub (?:struct|enum|trait) (\w+)", everything, re.M))
    public_modules = set(re.findall(r"^pub mod (\w+);", everything, re.M))
    found = {}
    for path, source in files.items():
        for call in [*functions(path, source, public_modules), *blocks(source, public_types)]:
            found[key_of(call.head)] = call
    return found


def calls_of_library():
    """The calls of the library, those of its module `parser` among them."""
    return {key: call for crate in CRATES for key, call in calls(crate).items() if key not in INSIDE}


def quoted_file(block):
    """A block of Rust with the line that links to its file: the file without its first comment."""
    text = read(os.path.normpath(f"{os.path.dirname(DOCUMENT)}/{block.group(2)}"))
    return block.group(1) + "```rust\n" + re.sub(r"^//!.*\n", "", text, flags=re.M) + "```"


def written(document):
    """This text with its quotes as they have to be."""
    known = calls_of_library()
    named = []

    def quotes(block):
        keys = [key_of(line) for line in block.group(1).splitlines() if not line.startswith(" ")]
        named.extend(keys)
        if unknown := [key for key in keys if key not in known]:
            raise Wrong(f"{DOCUMENT} quotes what the code doesn't have: {', '.join(unknown)}")
        return "```text\n" + "".join(known[key].quote() for key in keys) + "```"

    document = re.sub(r"^```text\n(.*?)^```$", quotes, document, flags=re.M | re.S)
    if missing := [key for key, call in known.items() if call.is_public and key not in named]:
        raise Wrong(f"{DOCUMENT} doesn't quote {', '.join(missing)}")
    if twice := sorted({key for key in named if named.count(key) > 1}):
        raise Wrong(f"{DOCUMENT} quotes {', '.join(twice)} twice")
    document, callers = re.subn(r"(^[^\n]*\]\(([\w./]+\.rt)\)[^\n]*\n\n)^```rust\n.*?^```$", quoted_file, document, flags=re.M | re.S)
    if callers == 0:
        raise Wrong(f"{DOCUMENT} quotes no caller")
    return document


if __name__ == "__main__":
    try:
        quoted = written(read(DOCUMENT))
    except Wrong as wrong:
        sys.exit(str(wrong))
    with open(f"{ROOT}/{DOCUMENT}", "w", encoding="utf-8") as document:
        document.write(quoted)
