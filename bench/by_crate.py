#!/usr/bin/env python3
"""Runs a command that proves crates, and prints the processor seconds of each crate: its proof, that of its tests, and its edits. Then
it prints those of each edit, the dearest first.

    bench/by_crate.py COMMAND [WORD]..

For instance `bench/by_crate.py rt ci`, or `bench/by_crate.py bin/groklog --version`. It looks at the provers once a second, so the
last second of each is missing. `rt ci` tries the edits of a crate over a second proof of it, which has a column of its own, and then
proves the crate once more, to see that what the edits left is sound. The last row has the seconds of the whole command, the programs
and scripts that it runs among them.
"""
import collections
import os
import re
import resource
import subprocess
import sys
import time

TICKS = os.sysconf("SC_CLK_TCK")
PROVERS = ("rattle", "antt-kernel", "clang", "ld.lld")
KINDS = ("proof", "tests", "second", "edits")
ROOT = os.path.dirname(os.path.dirname(os.path.realpath(__file__)))


def work_of(process):
    """The crate that a prover is at, the kind of its work, and the number of the edit, or None if this process is none."""
    with open(f"/proc/{process}/comm", encoding="utf-8") as file:
        if not file.read().startswith(PROVERS):
            return None
    folder = os.readlink(f"/proc/{process}/cwd")
    with open(f"/proc/{process}/cmdline", encoding="utf-8", errors="replace") as file:
        words = file.read().split("\0")
    inside = re.search(r"/crates/(\w+)", folder)
    name = words[words.index("--crate-name") + 1] if "--crate-name" in words else inside and inside[1]
    if "/rt-edit-" in folder:
        kept = os.path.basename(words[words.index("--incremental") + 1]) if "--incremental" in words else ""
        return (name, "second", "") if kept == "seed" else (name, "edits", kept)
    return name, "tests" if "--test" in words else "proof", ""


def look(session, works, seconds):
    """Notes what each prover of this session is at, and how many seconds it has taken so far."""
    for process in filter(str.isdigit, os.listdir("/proc")):
        try:
            with open(f"/proc/{process}/stat", encoding="utf-8") as file:
                fields = file.read().rpartition(")")[2].split()
            if fields[3] != session:
                continue
            each = process, fields[19]  # The time at which it began, since numbers come again.
            works[each] = works.get(each) or work_of(process)
            seconds[each] = (int(fields[11]) + int(fields[12])) / TICKS
        except (FileNotFoundError, ProcessLookupError):
            continue


def table(works, seconds):
    """The rows, the crates in the order of their first proofs."""
    sums = collections.defaultdict(collections.Counter)
    for each, work in works.items():
        if work and work[0]:
            sums[work[0]][work[1]] += seconds[each]
    print("| Crate | Its proof | That of its tests | The second proof | Its edits |\n|---|---|---|---|---|")
    for name, row in sums.items():
        print(f"| `{name}` |", " | ".join(f"{row[kind]:.0f}" if row[kind] >= 0.5 else "" for kind in KINDS), "|")


def dearest_edits(works, seconds):
    """A row for each edit, the dearest first."""
    sums = collections.Counter()
    for each, work in works.items():
        if work and work[1] == "edits" and work[2].isdigit():
            sums[work] += seconds[each]
    print("\n| Edit | Seconds |\n|---|---|")
    for (name, _, number), time_taken in sums.most_common():
        edits = sorted(it for it in os.listdir(f"{ROOT}/crates/{name}/must-fail") if it.endswith(".edit"))
        print(f"| `{name}/{edits[int(number)]}` | {time_taken:.0f} |")


def main(*command):
    works, seconds, start = {}, {}, time.monotonic()
    running = subprocess.Popen(command, stdout=sys.stderr, start_new_session=True)
    while running.poll() is None:
        look(str(running.pid), works, seconds)
        time.sleep(1)
    table(works, seconds)
    dearest_edits(works, seconds)
    used = resource.getrusage(resource.RUSAGE_CHILDREN)
    print(f"\nall: {used.ru_utime + used.ru_stime:.0f} processor seconds in {(time.monotonic() - start) / 60:.1f} minutes, status {running.returncode}")


if len(sys.argv) < 2:
    sys.exit(__doc__)
main(*sys.argv[1:])
