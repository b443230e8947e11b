#!/usr/bin/env python3
"""Measures what groklog costs on definitions, patterns and lines of 25, 50, 100 and 200 kB that make it do the most work, in each
task, and on definitions that double one another. Prints a table of CPU seconds, of which each is the least of three runs, and of
the most memory of these.

    bench/costs.py [WORD]        only those with this word in their name
"""
import os
import sys
import tempfile

HERE = os.path.dirname(os.path.abspath(__file__))
sys.path[:0] = [f"{HERE}/../tests", f"{HERE}/../tests/groklog"]
from harness import cost
from shapes import MODES, SHAPES, doubling

SIZES, RUNS = (25_000, 50_000, 100_000, 200_000), 3
LONGEST_WORD = 131_071
LEVELS = (10, 11, 15, 16, 17, 24, 40, 70)


def least(words, given, folder):
    """The seconds of the quickest run, and the most MB of all. `None` if the system takes no word as long as one of these."""
    if any(len(word) > LONGEST_WORD for word in words):
        return None
    runs = [cost("groklog", words, given, cwd=folder) for _ in range(RUNS)]
    return min(run.seconds for run in runs), max(run.megabytes for run in runs)


def row(name, costs):
    seconds = " | ".join(f"{each[0]:.2f}" if each else "-" for each in costs)
    print(f"| {name} | {seconds} | {max(each[1] for each in costs if each):.0f} |", flush=True)


def cost_of_shape(shape, size, folder):
    made = shape(size)
    with open(f"{folder}/definitions", "w", encoding="utf-8") as file:
        file.write(made.definitions)
    return least(made.words, made.lines.encode(), folder)


def head(what, columns):
    print(f"| {what} | " + " | ".join(columns) + " | MB |")
    print("|---|" + "---|" * (len(columns) + 1))


word = sys.argv[1] if sys.argv[1:] else ""
with tempfile.TemporaryDirectory() as room:
    head("What", [f"{size // 1000} kB" for size in SIZES])
    for title, made in SHAPES.items():
        if word in title:
            row(title, [cost_of_shape(made, size, room) for size in SIZES])
    print()
    head("Doubled definitions", [f"`D{level}`" for level in LEVELS])
    for title, options in MODES.items():
        if word in title:
            row(title, [least([*doubling(level), *options, "--", f"%{{D{level}:k}}"], b"x\n", room) for level in LEVELS])
