#!/usr/bin/env python3
"""Times the reader of reports, `tests_read_back`, and prints the most memory that it takes.

    bench/reading.py [--repeats N] [--answers N] [--reader FILE]

The reports are those of `check`, with so many answers and twice as many, as lines and in JSON: verified specifications, and specifications
with each cause in turn. A time is that of the processor in the process itself, the least of the repeats; the memory is the largest of
them. The growth is that of the time where the answers double. Beside them stand the aims, and `missed` where one is. The reader has to be
built: `rt run` in crates/tests_read_back does it.
"""
import argparse
import json
import os
import subprocess
import sys
import tempfile
from pathlib import Path

TOP = Path(__file__).resolve().parent.parent
READER = TOP / "crates" / "tests_read_back" / "out" / "tests_read_back"
ANSWERS = 100_000
# The most seconds of so many answers, and the most that the time may grow where they double.
SECONDS = 1.0
GROWTH = 2.3


def bracketed(texts):
    return f"[{', '.join(map(str, texts))}]"


def verified(number):
    """The answer as a line and as data."""
    name = f"f{number}"
    return f"{name} verified", {"kind": "verified", "name": name}


def lacking(number, why):
    name, path, values = f"f{number}", [0, 2, 1], [f"n = {number}", '#k = "a"', "x = [1, $0]"]
    line = f"{name} unproved {why} {name}:4 path {bracketed(path)} with {bracketed(values)}"
    return line, {"at": 4, "kind": "unproved", "name": name, "path": path, "proc": name, "why": why, "with": values}


def failing(number):
    line, data = lacking(number, "fails")
    return line.replace(" fails ", ' fails "zero" '), {**data, "value": '"zero"'}


def undecided(number):
    name, given, query = f"f{number}", ["(v0 <= 9)"], ["((v0 * v1) = 6)", "open(v1)"]
    line = f"{name} unproved unknown {name}:2 path [1] vars [int, any] given {bracketed(given)} query {bracketed(query)} outside 1"
    data = {"at": 2, "given": given, "kind": "unproved", "name": name, "outside": 1, "path": [1], "proc": name, "query": query}
    return line, {**data, "vars": ["int", "any"], "why": "unknown"}


def depending(number):
    name = f"f{number}"
    return f"{name} unproved depends {name}_on", {"kind": "unproved", "name": name, "on": f"{name}_on", "why": "depends"}


LACKS = ["missing", "post", "invariant", "callpre", "foldbody", "cut"]
CAUSES = [failing, undecided, depending] + [lambda number, why=why: lacking(number, why) for why in LACKS]


def unproved(number):
    """An answer with each cause in turn."""
    return CAUSES[number % len(CAUSES)](number)


def report(answer, count, as_json):
    """The text of a report with so many answers."""
    answers = [answer(number) for number in range(1, count + 1)]
    if not as_json:
        return "gillian check while bound 1000\n" + "".join(line + "\n" for line, _ in answers)
    data = {"answers": [it for _, it in answers], "bound": 1000, "lang": "while", "mode": "check"}
    return json.dumps(data, sort_keys=True, separators=(",", ":")) + "\n"


def call(reader, text):
    """The seconds of the processor that reading takes, the most bytes of memory, and what is said of the report."""
    piece = text.encode()
    with tempfile.TemporaryFile() as source, tempfile.TemporaryFile() as sink:
        source.write(b"%d\n%b" % (len(piece), piece))
        source.seek(0)
        process = subprocess.Popen([reader], stdin=source, stdout=sink)
        _, status, usage = os.wait4(process.pid, 0)
        process.returncode = os.waitstatus_to_exitcode(status)
        sink.seek(0)
        return usage.ru_utime, usage.ru_maxrss * 1024, sink.read().decode()


def measure(given, name, text):
    """The least seconds of the repeats, and the most bytes of memory."""
    calls = [call(given.reader, text) for _ in range(given.repeats)]
    wrong = [said for _, _, said in calls if said != "1 of 1 reports are read back\n"]
    if wrong:
        sys.exit(f"{name}: {wrong[0][:200]!r}")
    return min(it for it, _, _ in calls), max(it for _, it, _ in calls)


def aim(value, most, unit):
    return f"under {most:g}{unit}" + (" missed" if value > most else "")


def show(name, size, seconds, memory, beside):
    print(f"{name:42} {size / 1e6:7.1f} MB {seconds:8.3f} s {memory / 1e6:8.1f} MB  {beside}", flush=True)


def main():
    words = argparse.ArgumentParser(description=__doc__, formatter_class=argparse.RawDescriptionHelpFormatter)
    words.add_argument("--repeats", type=int, default=3)
    words.add_argument("--answers", type=int, default=ANSWERS)
    words.add_argument("--reader", default=str(READER))
    given = words.parse_args()
    if not os.access(given.reader, os.X_OK):
        sys.exit(f"{given.reader} isn't built: rt run in crates/tests_read_back builds it")
    print(f"{'report':42} {'size':>10} {'user time':>10} {'memory':>11}  aim")
    for kind, answer in (("verified", verified), ("unproved", unproved)):
        for form in ("lines", "JSON"):
            before = None
            for count in (given.answers, 2 * given.answers):
                name = f"{kind}, {form}: {count:,}"
                text = report(answer, count, form == "JSON")
                seconds, memory = measure(given, name, text)
                seen = aim(seconds, SECONDS * given.answers / ANSWERS, " s") if before is None else f"{seconds / before:.1f}x " + aim(seconds / before, GROWTH, "x")
                show(name, len(text), seconds, memory, seen)
                before = seconds


if __name__ == "__main__":
    main()
