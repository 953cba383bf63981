#!/usr/bin/env python3
"""Measures what each crate costs the gate: processor seconds of its proofs, its tests and its must-fail edits.

    bench/gate.py [--json FILE] [COMMAND ..]      runs the command, `rt ci` where none is named, and writes a table
    bench/gate.py --watch PID [--json FILE]       the same for a run that is under way, until it ends

Each second it reads, in /proc, the user and system time of the prover's processes below that run. A process that lives
less than a second is lost, so that small crates are counted a little low. The clock's time says nothing where other work
runs beside, and processor seconds say more there than on an idle machine, since two threads of one core share it.
"""

import argparse
import json
import os
import re
import subprocess
import sys
import time

TICKS = os.sysconf("SC_CLK_TCK")


def processes():
    """Returns the parent, the words and the processor seconds of each process that can be read."""
    found = {}
    for name in filter(str.isdigit, os.listdir("/proc")):
        try:
            with open(f"/proc/{name}/stat", encoding="utf-8", errors="replace") as it:
                fields = it.read().rpartition(")")[2].split()
            with open(f"/proc/{name}/cmdline", encoding="utf-8", errors="replace") as it:
                words = it.read().split("\0")
        except OSError:
            continue
        # (a process is another one where its number came again: its start tells)
        found[int(name)] = (int(fields[1]), words, (int(fields[11]) + int(fields[12])) / TICKS, fields[19])
    return found


def is_below(pid, top, found):
    while pid in found and pid != top:
        pid = found[pid][0]
    return pid == top


def kind_of(words):
    """Returns the crate that a process of the prover works on and for what, or None."""
    if not words or os.path.basename(words[0]) != "rattle" or "--crate-name" not in words:
        return None
    text = " ".join(words)
    name = words[words.index("--crate-name") + 1]
    if "--cfg test" in text or "--test" in words:
        return name, "tests"
    # (an edit is tried in a folder of its own, and over what a check of the crate kept)
    if re.search(r"rt-(edits|must-fail|edit)-", text) or "--overlay" in words:
        return name, "edits"
    return name, "proofs"


def sample(top, seen):
    found = processes()
    for pid, (_, words, seconds, start) in found.items():
        of = kind_of(words)
        if of and is_below(pid, top, found):
            seen[pid, start] = (of, seconds)
    return top in found


def table(seen):
    """Returns the sums by crate and kind."""
    sums = {}
    for (name, kind), seconds in seen.values():
        by_kind = sums.setdefault(name, {"proofs": 0.0, "tests": 0.0, "edits": 0.0})
        by_kind[kind] += seconds
    return sums


def show(sums):
    print(f"{'crate':18} {'proofs':>8} {'tests':>8} {'edits':>8}")
    for name, by_kind in sorted(sums.items(), key=lambda it: -sum(it[1].values())):
        print(f"{name:18} {by_kind['proofs']:8.0f} {by_kind['tests']:8.0f} {by_kind['edits']:8.0f}")
    whole = [sum(it[kind] for it in sums.values()) for kind in ("proofs", "tests", "edits")]
    print(f"{'all':18} {whole[0]:8.0f} {whole[1]:8.0f} {whole[2]:8.0f}")


def main():
    words = argparse.ArgumentParser(description=__doc__, formatter_class=argparse.RawDescriptionHelpFormatter)
    words.add_argument("--watch", type=int, metavar="PID")
    words.add_argument("--json", metavar="FILE")
    words.add_argument("command", nargs=argparse.REMAINDER)
    given = words.parse_args()
    run = None if given.watch else subprocess.Popen(given.command or ["rt", "ci"])
    seen, top = {}, given.watch or run.pid
    began = time.monotonic()
    while sample(top, seen) and (run is None or run.poll() is None):
        time.sleep(1)
        if given.json:
            with open(given.json + ".new", "w", encoding="utf-8") as it:
                json.dump(table(seen), it, indent=1, sort_keys=True)
            os.replace(given.json + ".new", given.json)
    show(table(seen))
    print(f"{time.monotonic() - began:.0f} seconds by the clock")
    return run.wait() if run else 0


if __name__ == "__main__":
    sys.exit(main())
