#!/usr/bin/env python3
"""The processor minutes of a gate, by crate, with proofs, tests and edits apart.

    python3 bench/gate.py & rt ci --anew; kill %1

It looks at each run of the prover on this machine twice a second, and prints its table when it is ended. What a run takes
after the last look is not counted, which is below one part in a hundred.
"""
import collections
import os
import signal
import sys
import time

TICKS = os.sysconf("SC_CLK_TCK")


def runs():
    """The runs of the prover: process and start, crate, kind, and processor seconds so far."""
    for process in filter(str.isdigit, os.listdir("/proc")):
        try:
            with open(f"/proc/{process}/stat") as it:
                fields = it.read().rsplit(")", 1)[1].split()
            with open(f"/proc/{process}/cmdline") as it:
                words = it.read().split("\0")
            folder = os.readlink(f"/proc/{process}/cwd")
        except OSError:
            continue
        if os.path.basename(words[0]) == "rattle" and "--crate-name" in words:
            kind = "edits" if "/rt-edit" in folder else "tests" if "--test" in words else "proofs"
            crate = words[words.index("--crate-name") + 1]
            yield (process, fields[19]), crate, kind, (int(fields[11]) + int(fields[12])) / TICKS


def table(took):
    crates = sorted({crate for crate, _ in took})
    for crate in [*crates, "all"]:
        sums = [sum(it for (of, is_kind), it in took.items() if is_kind == kind and crate in (of, "all")) for kind in ("proofs", "tests", "edits")]
        print(f"| {crate} | " + " | ".join(f"{it / 60:.1f}" for it in sums) + " |")


def main():
    last, took = {}, collections.Counter()
    signal.signal(signal.SIGTERM, lambda *_: sys.exit())
    try:
        while True:
            for run, crate, kind, seconds in runs():
                took[crate, kind] += seconds - last.get(run, 0)
                last[run] = seconds
            time.sleep(0.5)
    finally:
        table(took)


main()
