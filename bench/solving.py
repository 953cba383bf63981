#!/usr/bin/env python3
"""Times `gillian solve atoms` on families of lists, beside z3 where it is installed.

    bench/solving.py [--only WORD] [--limit SECONDS] [REPEATS [SIZE ..]]

A time is that of the whole process less that of the same program on a list without atoms; the least of the repeats counts. A list that
takes longer than the limit is shown as such, and `none` is the answer of one that ends without. --only leaves out the families
without that word. The program has to be built: `./gillian` does it.

The families: chains of differences; cycles of differences; random differences that have a solution, and such that have none; equality
chains whose ends differ; equalities with one variable, on either side, of which two others differ, alone and beside a small list that
needs splits; variables that differ pairwise; kinds of variables of any sort, in classes; and variables of any sort that differ one from
the next, of which no kind is told. Each has as many atoms as the size says, or the next smaller number that it can have.

Of the families that need splits the size is the number of disequalities: colourings of a ring and of random graphs with 2, 3 and 4
colours; variables of which N differ from each of N values; list terms of two variables that differ, over few numbers and over any;
and random clauses of three literals, each written as a disequality of lists, in two densities.
"""
import argparse
import os
import random
import shutil
import subprocess
import sys
import time
from pathlib import Path

TOP = Path(__file__).resolve().parent.parent
PROGRAM = Path(os.environ.get("GILLIAN_PROGRAM") or TOP / "crates" / "gillian_cli" / "out" / "gillian_cli")
SIZES = [50, 100, 200, 400, 800]

# What z3 is told of values of any kind.
VALUES = """(declare-datatypes ((Value 0)) (((int (number Int)) (bool (truth Bool)) (str (text Int)) (sym (symbol Int)))))
"""


class Listing:
    """A list of atoms, as the text that `gillian` reads and as the one that z3 reads."""

    def __init__(self):
        self.variables = []
        self.atoms = []
        self.asserts = []

    def variable(self, name, sort):
        self.variables.append((name, sort))
        return name

    def add(self, atom, formula):
        self.atoms.append(atom)
        self.asserts.append(formula)

    def less(self, s, t):
        self.add(f"({s} < {t})", f"(< {s} {t})")

    def at_most(self, s, offset, t):
        """s + offset <= t"""
        if offset < 0:
            self.add(f"(({s} - {-offset}) <= {t})", f"(<= (- {s} {-offset}) {t})")
        else:
            self.add(f"(({s} + {offset}) <= {t})", f"(<= (+ {s} {offset}) {t})")

    def equal(self, s, t):
        self.add(f"({s} = {t})", f"(= {s} {t})")

    def differ(self, s, t):
        self.add(f"not(({s} = {t}))", f"(not (= {s} {t}))")

    def within(self, s, low, high):
        """s is one of the numbers from low to high"""
        self.add(f"({low} <= {s})", f"(<= {low} {s})")
        self.add(f"({s} <= {high})", f"(<= {s} {high})")

    def lists_differ(self, ss, ts):
        """the list of the terms ss isn't that of the terms ts"""
        ours = f"not(([{', '.join(ss)}] = [{', '.join(ts)}]))"
        self.add(ours, f"(or {' '.join(f'(not (= {s} {t}))' for s, t in zip(ss, ts))})")

    def kind(self, s, kind):
        self.add(f"(kind({s}) = {kind.capitalize()})", f"((_ is {kind}) {s})")

    def text(self):
        declared = ", ".join(f"{name}: {sort}" for name, sort in self.variables)
        return f"vars {declared};\n" + "".join(atom + ";\n" for atom in self.atoms)

    def formula(self):
        sorts = {"int": "Int", "any": "Value", "bool": "Bool"}
        declared = "".join(f"(declare-const {name} {sorts[sort]})\n" for name, sort in self.variables)
        return VALUES + declared + "".join(f"(assert {a})\n" for a in self.asserts) + "(check-sat)\n"


def numbers(listing, count):
    return [listing.variable(f"x{i}", "int") for i in range(count)]


def chain(size):
    listing = Listing()
    xs = numbers(listing, size + 1)
    for x, y in zip(xs, xs[1:]):
        listing.less(x, y)
    return listing, "sat"


def cycle(size):
    listing, _ = chain(size - 1)
    listing.less(listing.variables[-1][0], listing.variables[0][0])
    return listing, "unsat"


def random_differences(size):
    draw = random.Random(size)
    listing = Listing()
    xs = numbers(listing, size // 3)
    values = [draw.randrange(-1000, 1000) for _ in xs]
    for _ in range(size):
        i, j = draw.randrange(len(xs)), draw.randrange(len(xs))
        listing.at_most(xs[i], values[j] - values[i] - draw.randrange(0, 50), xs[j])
    return listing, "sat"


def tight_differences(size):
    draw = random.Random(size)
    listing = Listing()
    xs = numbers(listing, size // 3)
    for _ in range(size):
        i, j = draw.sample(range(len(xs)), 2)
        listing.at_most(xs[i], draw.randrange(-40, 60), xs[j])
    return listing, None


def equality_chain(size):
    listing = Listing()
    xs = numbers(listing, size)
    pairs = list(zip(xs, xs[1:]))
    random.Random(size).shuffle(pairs)
    for x, y in pairs:
        listing.equal(x, y)
    listing.differ(xs[0], xs[-1])
    return listing, "unsat"


def star_of(listing, size, sort):
    """Equalities of all variables with the first one."""
    xs = [listing.variable(f"x{i}", sort) for i in range(size + 1)]
    for i, x in enumerate(xs[1:]):
        if i % 2 == 0:
            listing.equal(x, xs[0])
        else:
            listing.equal(xs[0], x)
    return xs


def equality_star(size):
    listing = Listing()
    xs = star_of(listing, size - 1, "any")
    listing.differ(xs[1], xs[-1])
    return listing, "unsat"


def star_and_splits(size):
    listing = Listing()
    star_of(listing, size - 9, "any")
    ys = [listing.variable(f"y{i}", "int") for i in range(3)]
    zero = listing.variable("zero", "int")
    for y in ys:
        listing.at_most(zero, 0, y)
        listing.at_most(y, -1, zero)
    for y, z in [(ys[0], ys[1]), (ys[1], ys[2]), (ys[0], ys[2])]:
        listing.differ(y, z)
    return listing, "unsat"


def distinct(size):
    listing = Listing()
    count = 2
    while (count + 1) * count // 2 <= size:
        count += 1
    xs = numbers(listing, count)
    for i, x in enumerate(xs):
        for y in xs[i + 1 :]:
            listing.differ(x, y)
    return listing, "sat"


def kinds(size):
    draw = random.Random(size)
    listing = Listing()
    count = size // 2
    xs = [listing.variable(f"x{i}", "any") for i in range(count)]
    classes = [draw.choice(["int", "str", "sym"]) for _ in range(4)]
    of = [draw.randrange(len(classes)) for _ in xs]
    for x, c in zip(xs, of):
        listing.kind(x, classes[c])
    first = {}
    while len(listing.atoms) < size:
        i = draw.randrange(count)
        j = first.setdefault(of[i], i)
        listing.equal(xs[i], xs[j])
    return listing, "sat"


def free_kinds(size):
    listing = Listing()
    xs = [listing.variable(f"x{i}", "any") for i in range(size + 1)]
    for x, y in zip(xs, xs[1:]):
        listing.differ(x, y)
    return listing, "sat"


def coloured(listing, edges, count, colours):
    """Each edge of a graph joins numbers that differ, all of them colours."""
    xs = numbers(listing, count)
    for x in xs:
        listing.within(x, 0, colours - 1)
    for i, j in edges:
        listing.differ(xs[i], xs[j])


def ring(colours):
    def family(size):
        listing = Listing()
        coloured(listing, [(i, (i + 1) % size) for i in range(size)], size, colours)
        return listing, "unsat" if colours == 2 and size % 2 == 1 else "sat"

    return family


def odd_ring(size):
    return ring(2)(size + 1 - size % 2)


def graph(colours, degree):
    """A random graph whose nodes have this many neighbours on average."""

    def family(size):
        draw = random.Random(size)
        count = max(2 * size // degree, 3)
        pairs = [(i, j) for i in range(count) for j in range(i)]
        listing = Listing()
        coloured(listing, draw.sample(pairs, min(size, len(pairs))), count, colours)
        return listing, None

    return family


def excluded(size):
    listing = Listing()
    x = numbers(listing, 1)[0]
    listing.within(x, 0, size - 1)
    for value in range(size):
        listing.differ(x, str(value))
    return listing, "unsat"


def pairs_of_few(size):
    """List terms of numbers of which there are three."""
    draw = random.Random(size)
    listing = Listing()
    xs = numbers(listing, max(size // 4, 4))
    for x in xs:
        listing.within(x, 0, 2)
    for _ in range(size):
        w, x, y, z = draw.sample(xs, 4)
        listing.lists_differ([w, x], [y, z])
    return listing, None


def pairs_of_any(size):
    draw = random.Random(size)
    listing = Listing()
    xs = [listing.variable(f"x{i}", "any") for i in range(max(size // 4, 4))]
    for _ in range(size):
        w, x, y, z = draw.sample(xs, 4)
        listing.lists_differ([w, x], [y, z])
    return listing, "sat"


def clauses(tenths):
    """Random clauses of three literals, so many for ten variables."""

    def family(size):
        draw = random.Random(size)
        listing = Listing()
        bs = [listing.variable(f"b{i}", "bool") for i in range(max(10 * size // tenths, 3))]
        for _ in range(size):
            three = draw.sample(bs, 3)
            listing.lists_differ(three, [draw.choice(["true", "false"]) for _ in three])
        return listing, None

    return family


FAMILIES = [
    ("chain of differences", chain),
    ("cycle of differences", cycle),
    ("random differences", random_differences),
    ("tight random differences", tight_differences),
    ("equality chain", equality_chain),
    ("equality star", equality_star),
    ("equality star and splits", star_and_splits),
    ("distinct values", distinct),
    ("kinds", kinds),
    ("free kinds", free_kinds),
    ("ring, 2 colours", ring(2)),
    ("odd ring, 2 colours", odd_ring),
    ("ring, 3 colours", ring(3)),
    ("ring, 4 colours", ring(4)),
    ("random graph, 2 colours", graph(2, 2)),
    ("random graph, 3 colours", graph(3, 4)),
    ("dense graph, 3 colours", graph(3, 6)),
    ("random graph, 4 colours", graph(4, 6)),
    ("dense graph, 4 colours", graph(4, 10)),
    ("all values excluded", excluded),
    ("lists of few numbers", pairs_of_few),
    ("lists of any values", pairs_of_any),
    ("clauses, 3 a variable", clauses(30)),
    ("clauses, 6 a variable", clauses(60)),
]


def timed(command, text, repeats, limit):
    """The least time of the repeats with the first output, or None where one takes longer than the limit."""
    best, said = None, ""
    for _ in range(repeats):
        begun = time.perf_counter()
        try:
            done = subprocess.run(command, input=text, capture_output=True, text=True, timeout=limit)
        except subprocess.TimeoutExpired:
            return None, ""
        spent = time.perf_counter() - begun
        best = spent if best is None else min(best, spent)
        said = done.stdout
    return best, said


def verdict(said):
    """sat or unsat, from the last line of what a program wrote."""
    lines = said.strip().splitlines()
    return lines[-1].split()[0] if lines else "none"


def shown(spent, start):
    return "   limit" if spent is None else f"{max(spent - start, 0) * 1000:8.1f}"


def words():
    parser = argparse.ArgumentParser(description="Times `gillian solve atoms` on families of lists.")
    parser.add_argument("--only", default="", help="the families with this word in their name")
    parser.add_argument("--limit", type=float, default=60, help="the seconds that an answer may take")
    parser.add_argument("repeats", nargs="?", type=int, default=3)
    parser.add_argument("sizes", nargs="*", type=int)
    return parser.parse_args()


def main():
    given = words()
    if not PROGRAM.exists():
        sys.exit(f"{PROGRAM} isn't built: run ./gillian first")
    ours = [str(PROGRAM), "solve", "atoms"]
    theirs = ["z3", "-in"] if shutil.which("z3") else None
    our_start = timed(ours, "vars x: int;\n", given.repeats, given.limit)[0]
    their_start = timed(theirs, "(check-sat)\n", given.repeats, given.limit)[0] if theirs else 0
    print(f"{'family':26}{'size':>5}{'atoms':>6}{'answer':>8}{'ms':>9}{'z3 ms':>9}")
    differences = 0
    for name, family in FAMILIES:
        for size in given.sizes or SIZES:
            if given.only not in name:
                continue
            listing, expected = family(size)
            spent, said = timed(ours, listing.text(), given.repeats, given.limit)
            answer = verdict(said)
            other, their_said = timed(theirs, listing.formula(), given.repeats, given.limit) if theirs else (0, "")
            if theirs and other is not None:
                expected = verdict(their_said)
            note = ""
            if answer != "none" and expected is not None and answer != expected:
                note = f"  expected {expected}"
                differences += 1
            beside = shown(other, their_start) if theirs else "       -"
            counts = f"{size:5}{len(listing.atoms):6}"
            print(f"{name:26}{counts}{answer:>8} {shown(spent, our_start)} {beside}{note}", flush=True)
    sys.exit(1 if differences else 0)


if __name__ == "__main__":
    main()
