#!/usr/bin/env python3
"""Times `gillian test`, and prints the most memory that it takes.

    bench/testing.py [REPEATS]

A time is that of the whole process, the least of the repeats; the memory is the largest of them. The growth is that of the time
where the work doubles. The program has to be built: `./gillian --prove` does it.
"""
import os
import subprocess
import sys
import tempfile
import time
from pathlib import Path

TOP = Path(__file__).resolve().parent.parent
PROGRAM = TOP / "crates" / "gillian_cli" / "out" / "gillian_cli"


def guards(count):
    """Independent guards on as many draws: twice as many paths with each."""
    draws = "".join(f"x{i} := isym int; " for i in range(count))
    jumps = "".join(f"ifgoto (x{i} < 1) {count + i + 1}; " for i in range(count))
    return f"proc main() {{ {draws}{jumps}return 0; }}"


def stored(size, count):
    """A block of this size, so many cells of which are stored into by a loop, which is freed then."""
    return (
        f"proc main() {{ x := do alloc({size}); i := 0; ifgoto ({count} <= i) 6; y := do store([nth(x, 0), i], i); "
        "i := (i + 1); ifgoto true 2; y := do free(x); return i; }"
    )


def cells(count):
    """A block of so many cells, each stored into by a loop, which is freed then."""
    return stored(count, count)


def stores(count):
    """A block of 10,000 cells, so many of which are stored into by a loop, which is freed then."""
    return stored(10_000, count)


def choices(count):
    """A cell at a drawn offset of a block of so many cells is loaded: a path for each cell."""
    return (
        f"proc main() {{ x := do alloc({count}); i := isym int; ifgoto (i < 0) 5; ifgoto ({count} <= i) 5; "
        "y := do load([nth(x, 0), i]); return 0; }"
    )


def block(count):
    """A block of so many cells: one is stored into and loaded, and the block is freed."""
    return (
        f"proc main() {{ x := do alloc({count}); y := do store([nth(x, 0), {count - 1}], 7); "
        f"z := do load([nth(x, 0), {count - 1}]); y := do free(x); return z; }}"
    )


def records(count):
    """So many records of three fields, made by a loop, and a field of the first is read."""
    return (
        'proc main() { first := do new(["a", "b", "c"]); i := 1; '
        f"ifgoto ({count} <= i) 6; "
        'r := do new(["a", "b", "c"]); i := (i + 1); ifgoto true 2; x := do lookup(first, "b"); return x; }'
    )


# Each workload: its name, its bound, its memory, its GIL text and what must be answered.
WORKLOADS = [
    (
        "a loop of 10,000 steps",
        10_000,
        "gil-record",
        "proc main() { i := 0; i := (i + 1); ifgoto (i <= 4997) 1; ifgoto (i = 4998) 5; return 0; x := i; fail x; }",
        "bug main:6 4998 inputs []",
    ),
    ("recursion to the bound", 10_000, "gil-record", "proc main() { r := call @main(); return r; }", "clean"),
    ("twelve guards on twelve draws", 1000, "gil-record", guards(12), "clean"),
    (
        "a loop with a drawn limit",
        1000,
        "gil-record",
        "proc main() { n := isym int; i := 0; ifgoto (n <= i) 5; i := (i + 1); ifgoto true 2; return i; }",
        "clean",
    ),
]

# Workloads that grow with a number: the time and the memory are printed for it and for twice as much.
GROWING = [
    ("a block of cells, freed", 5_000, 100, "gil-block", block),
    ("cells stored by a loop, freed", 500, 10_000, "gil-block", cells),
    ("stores into 10,000 cells, freed", 1_200, 10_000, "gil-block", stores),
    ("a load at a drawn offset", 200, 100, "gil-block", choices),
    ("records made by a loop", 500, 10_000, "gil-record", records),
]


def call(bound, language, text):
    """The seconds that a call takes, the most bytes of memory, and the line of its answer."""
    with tempfile.TemporaryFile() as source, tempfile.TemporaryFile() as sink:
        source.write(text.encode())
        source.seek(0)
        start = time.perf_counter()
        process = subprocess.Popen(
            [PROGRAM, "test", language, "--bound", str(bound)], stdin=source, stdout=sink
        )
        _, status, usage = os.wait4(process.pid, 0)
        seconds = time.perf_counter() - start
        process.returncode = os.waitstatus_to_exitcode(status)
        sink.seek(0)
        return seconds, usage.ru_maxrss * 1024, sink.read().decode().split("\n")[1]


def measure(repeats, name, bound, language, text, wanted):
    """The least seconds of so many calls, and the most bytes of memory."""
    calls = [call(bound, language, text) for _ in range(repeats)]
    wrong = [answer for _, _, answer in calls if answer != wanted]
    if wrong:
        sys.exit(f"{name}: {wrong[0]}")
    return min(it for it, _, _ in calls), max(it for _, it, _ in calls)


def main():
    repeats = int(sys.argv[1]) if len(sys.argv) > 1 else 5
    if not PROGRAM.exists():
        sys.exit(f"{PROGRAM} isn't built: ./gillian builds it")
    print(f"{'workload':36} {'time':>12} {'memory':>10}")
    for name, bound, language, text, wanted in WORKLOADS:
        seconds, memory = measure(repeats, name, bound, language, text, wanted)
        print(f"{name:36} {seconds * 1e3:9.1f} ms {memory / 1e6:7.1f} MB")
    print(f"{'workload':36} {'time':>12} {'memory':>10} {'growth':>8}")
    for name, count, bound, language, text in GROWING:
        before = None
        for number in (count, 2 * count):
            title = f"{name}: {number:,}"
            seconds, memory = measure(repeats, title, bound, language, text(number), "clean")
            growth = "" if before is None else f"{seconds / before:7.1f}x"
            print(f"{title:36} {seconds * 1e3:9.1f} ms {memory / 1e6:7.1f} MB {growth}")
            before = seconds


main()
