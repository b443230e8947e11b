#!/usr/bin/env python3
"""Prints the seconds that the proof of each function of a crate took, the dearest first, and those of each part of a proof.

    (cd crates/NAME && rm -rf out/incremental && rt check --jobs 1)
    bench/by_function.py NAME [COUNT]

With one job the prover saves one module after the other, so the time of a module is that since the one before. `Lts` is what is
owned at each exit, `Tie` where values lie in memory, and `Proof` the goals.
"""
import collections
import os
import re
import sys

ROOT = os.path.dirname(os.path.dirname(os.path.realpath(__file__)))


def saved(crate):
    """The modules that the last check saved, each with its time, in their order."""
    found = []
    for folder, _, names in os.walk(f"{ROOT}/crates/{crate}/out/incremental"):
        if os.path.basename(folder) != "records":
            found += [(os.stat(f"{folder}/{name}").st_mtime, name.removesuffix(".oantt")) for name in names if name.endswith(".oantt")]
    return sorted(found)


def main(crate, count="30"):
    modules = saved(crate)
    functions, parts = collections.Counter(), collections.Counter()
    for (before, _), (now, name) in zip(modules, modules[1:]):
        path, _, part = re.sub(r"^Rattle-?\w+[-.](specs|proofs)\.", "", name).rpartition(".")
        functions[path] += now - before
        parts[part if "-proofs." in name else "specs"] += now - before
    print(f"{sum(functions.values()):.0f} s in all:", ", ".join(f"{part} {time:.0f}" for part, time in parts.most_common(6)))
    for path, time in functions.most_common(int(count)):
        print(f"{time:7.1f}  {path}")


if len(sys.argv) < 2:
    sys.exit(__doc__)
main(*sys.argv[1:])
