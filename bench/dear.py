#!/usr/bin/env python3
"""Which functions of a crate take the prover longest.

    rm -rf crates/NAME/out && (cd crates/NAME && rt check --jobs 1) && python3 bench/dear.py NAME [COUNT]

A check from nothing with one job leaves a file for each part of each function as it is done, so the times between these
files are what each took (wall time: the machine should do nothing else). `Lts` is the machine of a body, `Proof` the
searches for what no answer file proves.
"""
import collections
import glob
import os
import re
import sys

PARTS = "Lts Proof Tie Reads Answers Invariants Goals Given Layout Named Kinds Statement Met View Code Mir Key Symbol TheLink"
MODULE = re.compile(rf"Rattle-\w+-(?:proofs|specs)\.(.*)\.((?:{PARTS.replace(' ', '|')})\S*)$")
# A longer time between two files lies between two checks.
PAUSE = 600


def files(crate):
    """The files of a check with their times, the first that was written first."""
    found = glob.glob(f"crates/{crate}/out/incremental/*/*.oantt")
    return sorted((os.stat(it).st_mtime, os.path.basename(it)[: -len(".oantt")]) for it in found)


def seconds(crate):
    """The seconds of each part of each function."""
    took = collections.defaultdict(collections.Counter)
    done = files(crate)
    for (before, _), (after, name) in zip(done, done[1:]):
        match = MODULE.match(name)
        function, part = match.groups() if match else (name, "rest")
        if after - before < PAUSE:
            took[function.removesuffix(".Lts")][part] += after - before
    return took


def main(crate, count=25):
    took = seconds(crate)
    print(f"{sum(sum(it.values()) for it in took.values()):.0f} s")
    for function, parts in sorted(took.items(), key=lambda it: -sum(it[1].values()))[: int(count)]:
        most = " ".join(f"{part} {time:.1f}" for part, time in parts.most_common(3))
        print(f"{sum(parts.values()):8.1f}  {function}  ({most})")


main(*sys.argv[1:])
