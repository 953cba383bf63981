#!/usr/bin/env python3
"""Times `gillian sweep N`, prints the most memory that it takes, and compares it with `gillian test` of the same text.

    bench/sweep.py [REPEATS [SIZE ..]]

The text is made here once more, by the rules of docs/REPORTS.md: its length and the verdict on it, within 10,000 steps, must be those
that the sweep answers. A time is that of the whole process, the least of the repeats; the memory is the largest of them. The growth is
that of the time from one size to the next. The program has to be built: `./gillian --prove` does it, or GILLIAN_PROGRAM names one.
"""
import os
import subprocess
import sys
import tempfile
import time
from pathlib import Path

TOP = Path(__file__).resolve().parent.parent
PROGRAM = Path(os.environ.get("GILLIAN_PROGRAM", TOP / "crates" / "gillian_cli" / "out" / "gillian_cli"))
SIZES = [100, 200, 400, 800, 1000]
MOST = 50


def made(size):
    """The text: the number of a function is that of the assertions before it, in fifties."""
    starts = range(0, size, MOST)
    lines = ["func main() {", "a = new {v: 0};"]
    lines += [f"r = w{start // MOST}(a);" for start in starts]
    lines += ["return 0;", "}"]
    for start in starts:
        lines.append(f"func w{start // MOST}(a) {{")
        for number in range(start + 1, min(start + MOST, size) + 1):
            lines += ["x = input int;", f"assume(({number} <= x));", f"assume((x <= {number}));"]
            lines += ["a.v = x;", "y = a.v;", f"assert((y = {number}));"]
        lines += ["return 0;", "}"]
    return "".join(f"{line}\n" for line in lines).encode()


def call(words, text):
    """The seconds that a call takes, the most bytes of memory, and the lines that it writes."""
    with tempfile.TemporaryFile() as source, tempfile.TemporaryFile() as sink:
        source.write(text)
        source.seek(0)
        start = time.perf_counter()
        process = subprocess.Popen([PROGRAM, *words], stdin=source, stdout=sink)
        _, status, usage = os.wait4(process.pid, 0)
        seconds = time.perf_counter() - start
        process.returncode = os.waitstatus_to_exitcode(status)
        sink.seek(0)
        return seconds, usage.ru_maxrss * 1024, sink.read().decode().splitlines()


def measure(repeats, size):
    """The least seconds of so many sweeps, and the most bytes of memory, where each answers as the test of the text does."""
    text = made(size)
    verdict = call(["test", "while", "--bound", "10000"], text)[2][1]
    wanted = [f"gillian sweep {size}", f"bytes {len(text)}", verdict]
    calls = [call(["sweep", str(size)], b"") for _ in range(repeats)]
    wrong = [lines for _, _, lines in calls if lines != wanted]
    if wrong:
        sys.exit(f"sweep {size}: {wrong[0]} in place of {wanted}")
    return min(it for it, _, _ in calls), max(it for _, it, _ in calls)


def main():
    repeats = int(sys.argv[1]) if len(sys.argv) > 1 else 3
    sizes = [int(it) for it in sys.argv[2:]] or SIZES
    if not PROGRAM.exists():
        sys.exit(f"{PROGRAM} isn't built: ./gillian --prove builds it")
    print(f"{'sweep':>6} {'time':>12} {'memory':>10} {'growth':>8}")
    before = None
    for size in sizes:
        seconds, memory = measure(repeats, size)
        growth = "" if before is None else f"{seconds / before:7.1f}x"
        print(f"{size:6} {seconds * 1e3:9.1f} ms {memory / 1e6:7.1f} MB {growth}", flush=True)
        before = seconds


main()
