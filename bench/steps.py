#!/usr/bin/env python3
"""Times `gillian run` beside the same programs in Python, and prints what a step costs.

    bench/steps.py [REPEATS]

A time of `gillian` is that of the whole process less that of the same call with the bound 0, which reads the text and does no
step; the least of the repeats counts. A time of Python is that of the loop alone. The program has to be built: `./gillian` does
it.
"""
import subprocess
import sys
import time
from pathlib import Path

TOP = Path(__file__).resolve().parent.parent
PROGRAM = TOP / "crates" / "gillian_cli" / "out" / "gillian_cli"
BOUND = 10_000


def counting():
    n = 0
    while True:
        n = n + 1
        if not n < 4999:
            return n


def deep(n):
    if n == 0:
        return 0
    m = n - 1
    r = deep(m)
    return r + 1


def records():
    r = {"n": 0}
    while True:
        n = r["n"]
        r["n"] = n + 1
        if not n < 3331:
            return n


def beside_variables():
    kept = {f"v{i}": i for i in range(900)}
    n = 0
    while True:
        n = n + 1
        if not n < 4500:
            return n + kept["v0"]


def joined():
    text = ""
    while True:
        text = text + "0123456789"
        if not len(text) < 10_000:
            return text


# Each workload: its name, its GIL text, and the same in Python. The text of the procedure `main` gives the number of steps.
WORKLOADS = [
    (
        "a counting loop",
        "proc main() { n := 0; n := (n + 1); ifgoto (n < 4999) 1; return n; }",
        counting,
    ),
    (
        "calls 2,490 deep",
        "proc main() { r := call @f(2490); return r; }\n"
        "proc f(n) { ifgoto (n = 0) 4; m := (n - 1); r := call @f(m); return (r + 1); return 0; }",
        lambda: deep(2490),
    ),
    (
        "a record's number",
        'proc main() { r := do new(["n"]); w := do mutate(r, "n", 0); n := do lookup(r, "n"); '
        'w := do mutate(r, "n", (n + 1)); ifgoto (n < 3300) 2; return n; }',
        records,
    ),
    (
        "a counting loop beside 900 variables",
        "proc main() { "
        + "".join(f"v{i} := {i}; " for i in range(900))
        + "n := 0; n := (n + 1); ifgoto (n < 4500) 901; return (n + v0); }",
        beside_variables,
    ),
    (
        "a text that grows to 10,000 characters",
        'proc main() { t := ""; t := (t ++ "0123456789"); ifgoto (len(t) < 10000) 1; return t; }',
        joined,
    ),
]


def call(text, bound):
    """The seconds that a call takes, and the line of its answer."""
    start = time.perf_counter()
    done = subprocess.run(
        [PROGRAM, "run", "gil-record", "--bound", str(bound)],
        input=text.encode(),
        capture_output=True,
    )
    seconds = time.perf_counter() - start
    return seconds, done.stdout.decode().split("\n")[1]


def least_steps(text, answer):
    """The number of steps of a run: the least bound with which it isn't cut."""
    low, high = 0, BOUND
    while low < high:
        middle = (low + high) // 2
        if call(text, middle)[1] == answer:
            high = middle
        else:
            low = middle + 1
    return low


def of_python(work, repeats):
    seconds = []
    for _ in range(repeats):
        start = time.perf_counter()
        work()
        seconds.append(time.perf_counter() - start)
    return min(seconds)


def main():
    repeats = int(sys.argv[1]) if len(sys.argv) > 1 else 15
    sys.setrecursionlimit(20_000)
    if not PROGRAM.exists():
        sys.exit(f"{PROGRAM} isn't built: ./gillian builds it")
    print(f"{'workload':40} {'steps':>6} {'gillian':>10} {'a step':>9} {'Python':>10} {'ratio':>6}")
    for name, text, work in WORKLOADS:
        answer = call(text, BOUND)[1]
        if not answer.startswith("returned "):
            sys.exit(f"{name}: {answer}")
        steps = least_steps(text, answer)
        whole = min(call(text, BOUND)[0] for _ in range(repeats))
        reading = min(call(text, 0)[0] for _ in range(repeats))
        gillian = max(whole - reading, 0.0)
        python = of_python(work, repeats)
        print(
            f"{name:40} {steps:6} {gillian * 1e3:7.3f} ms {gillian / steps * 1e9:6.0f} ns"
            f" {python * 1e3:7.3f} ms {gillian / python:6.2f}"
        )


main()
