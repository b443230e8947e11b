"""What `--suggest` needs to find in a line before it counts the line as one of a format, and the lines of needs.rows that are tried."""
import os
import re
import sys

sys.path.insert(0, os.path.join(os.path.dirname(os.path.abspath(__file__)), ".."))
from harness import ROOT, Wrong

FORMATS = os.path.join(ROOT, "crates", "common_definitions", "src", "formats.rt")
TABLE = os.path.join(ROOT, "tests", "suggest", "needs.rows")
FORMAT = re.compile(r'"(\w+)" => (?:\{\s*)?Some\(\s*r?"(.*?)",?\s*\)[,\s]')


def patterns():
    """The pattern of each format that needs something."""
    with open(FORMATS, encoding="utf-8") as file:
        text = file.read()
    found = dict(FORMAT.findall(text))
    if len(found) != text.count("=> Some(") + text.count("=> {"):
        raise Wrong(f"{FORMATS} has another form than this script reads")
    return found


def rows():
    """For each format its lines, each with whether it has what the format needs."""
    found = {}
    with open(TABLE, encoding="utf-8") as file:
        lines = [line.rstrip("\n") for line in file]
    for kind, name, line in (line.split(" ", 2) for line in lines if line and not line.startswith("#")):
        if kind not in ("yes", "no"):
            raise Wrong(f"no row: {kind} {name} {line}")
        found.setdefault(name, []).append((line, kind == "yes"))
    return found
