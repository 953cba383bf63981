#!/usr/bin/env python3
"""Times `gillian check`, and prints the most memory that it takes.

    bench/checking.py [--repeats N] [--program FILE]

A time is that of the processor in the process itself, the least of the repeats; the memory is the largest of them. The growth is that of the
time where the work doubles. Beside them stand the aims, and `missed` where one is. The program has to be built: `./gillian --prove` does
it.
"""
import argparse
import os
import subprocess
import sys
import tempfile
from pathlib import Path

TOP = Path(__file__).resolve().parent.parent
PROGRAM = TOP / "crates" / "gillian_cli" / "out" / "gillian_cli"
CELLS = 20
# The most commands of a procedure.
MOST_COMMANDS = 1000
# The most that the time may grow where the work doubles.
GROWTH = 2.3


def turn(number):
    """A cell becomes one greater: three commands."""
    cell = number % CELLS
    return [f"x := do load([a, {cell}])", "x := (x + 1)", f"y := do store([a, {cell}], x)"]


def filled(commands, size, last):
    """So many commands, the last ones of which are these."""
    return commands + ["x := 0"] * (size - len(commands) - len(last)) + last


def straight(count):
    """A specification of so many commands in a row, which go over 20 cells. Past 1,000 commands the procedure calls another one, which has
    no specification of its own, so that the path goes through it."""
    sizes = [MOST_COMMANDS] * (count // MOST_COMMANDS) + ([count % MOST_COMMANDS] if count % MOST_COMMANDS else [])
    procedures, turns = [], 0
    for place, size in enumerate(sizes):
        last = ["return 0"] if place + 1 == len(sizes) else [f"z := call @f{place + 1}(a)", "return 0"]
        commands = []
        while len(commands) + 3 + len(last) <= size:
            commands += turn(turns)
            turns += 1
        procedures.append(f"proc f{place}(a) {{ {'; '.join(filled(commands, size, last))}; }}\n")
    added = [turns // CELLS + (cell < turns % CELLS) for cell in range(CELLS)]
    declared = ", ".join(f"#v{cell}: int" for cell in range(CELLS))
    before = " * ".join(f"cell(a, {cell}; #v{cell})" for cell in range(CELLS))
    after = " * ".join(f"cell(a, {cell}; (#v{cell} + {added[cell]}))" for cell in range(CELLS))
    return "".join(procedures) + f"spec f0(a: sym) [{declared}] {{ {before} }} {{ {after} * (ret = 0) }}\n", ["f0 verified"]


def procedure(number, body):
    return (
        f"proc f{number}(a) {{ {body} }}\n"
        f'spec f{number}(a: sym) [#v: int] {{ prop(a, "v"; #v) }} {{ prop(a, "v"; (#v + 1)) * (ret = #v) }}\n'
    )


COUNTS = 'x := do lookup(a, "v"); y := do mutate(a, "v", (x + 1)); return x;'


def verified(count):
    return [f"f{it} verified" for it in range(count)]


def apart(count):
    """So many specifications, none of which uses another."""
    return "".join(procedure(it, COUNTS) for it in range(count)), verified(count)


def chained(count):
    """So many specifications, each of which uses the next one."""
    calls = [procedure(it, f"x := call @f{it + 1}(a); return x;") for it in range(count - 1)]
    return "".join(calls) + procedure(count - 1, COUNTS), verified(count)


def reversal():
    return (TOP / "examples" / "reverse.while").read_text(), ["rev verified"]


# Workloads that grow with a number: the name, the numbers, the language, what makes the text, and for some numbers the most seconds.
GROWING = [
    ("commands in a row over 20 cells", (500, 1000, 2000), "gil-block", straight, {1000: 2.0}),
    ("specifications apart", (125, 250, 500), "gil-record", apart, {}),
    ("specifications, each by the next", (125, 250, 500), "gil-record", chained, {}),
]


def call(program, language, bound, text):
    """The seconds of the processor that a call takes, the most bytes of memory, and the lines of its answers."""
    with tempfile.TemporaryFile() as source, tempfile.TemporaryFile() as sink:
        source.write(text.encode())
        source.seek(0)
        process = subprocess.Popen([program, "check", language, "--bound", str(bound)], stdin=source, stdout=sink)
        _, status, usage = os.wait4(process.pid, 0)
        process.returncode = os.waitstatus_to_exitcode(status)
        sink.seek(0)
        return usage.ru_utime, usage.ru_maxrss * 1024, sink.read().decode().split("\n")[1:-1]


def measure(given, name, language, bound, text, wanted):
    """The least seconds of the repeats, and the most bytes of memory."""
    calls = [call(given.program, language, bound, text) for _ in range(given.repeats)]
    wrong = [answers for _, _, answers in calls if answers != wanted]
    if wrong:
        other = next((it for it in wrong[0] if it not in wanted), wrong[0])
        sys.exit(f"{name}: {other}")
    return min(it for it, _, _ in calls), max(it for _, it, _ in calls)


def aim(value, most, unit):
    """The aim, and whether it was missed."""
    if most is None:
        return ""
    return f"under {most:g}{unit}" + (" missed" if value > most else "")


def show(name, seconds, memory, most, before=None):
    growth = "" if before is None else f"{seconds / before:5.1f}x"
    beside = "" if before is None else aim(seconds / before, GROWTH, "x")
    print(f"{name:40} {seconds:8.3f} s {memory / 1e6:8.1f} MB  {aim(seconds, most, ' s'):18} {growth:8} {beside}".rstrip(), flush=True)


def main():
    words = argparse.ArgumentParser(description=__doc__, formatter_class=argparse.RawDescriptionHelpFormatter)
    words.add_argument("--repeats", type=int, default=5)
    words.add_argument("--program", default=str(PROGRAM))
    given = words.parse_args()
    if not os.access(given.program, os.X_OK):
        sys.exit(f"{given.program} isn't built: ./gillian --prove builds it")
    print(f"{'workload':40} {'user time':>10} {'memory':>11}  {'aim':18} {'growth':8} aim")
    text, wanted = reversal()
    show("a list is reversed by a loop", *measure(given, "reversal", "while", 1000, text, wanted), 0.2)
    for name, counts, language, made, most in GROWING:
        before = None
        for count in counts:
            title = f"{name}: {count:,}"
            text, wanted = made(count)
            seconds, memory = measure(given, title, language, max(1000, count + 1), text, wanted)
            show(title, seconds, memory, most.get(count), before)
            before = seconds


if __name__ == "__main__":
    main()
