#!/usr/bin/env python3
"""Hostile use of the program `gillian`: allocations that are refused, values and searches that grow, and words and texts that are cut,
doubled, swapped and flipped.

    bench/hostile.sh [--texts N] [--first N] [--seed N] [--faults N] [--jobs N] [--refusals N] [--no-growing]
                     [--program FILE] [--reader FILE]

Outside the gate. The texts are made from the cases in crates/tests_rows/data, with a fixed seed, and each run has an address space of
1 GiB, 8 MiB of stack and ten seconds of a processor. It looks for: an end by a signal, or for want of time in a mode in which a run takes
as many steps as it is allowed at most (paths and splits have no limit, so that in the others such runs are only counted, as those with too
many paths), an exit code that the table of README doesn't have, output that fits no exit code, output beside an exit code that has none, more
than one line on standard error, a report in lines or in JSON that isn't read back by the reader, which is the program `tests_read_back`,
reports in JSON that are none by docs/report.schema.json, a reader that ends otherwise than with 0 or 1 on reports that were changed in the
same ways, a refused allocation that is answered otherwise than by 6 with nothing written or by what the same run answers without a
refusal, and values, terms, calls and searches that grow and end otherwise than they are to. It stops at the first fault, or at number N, and
writes the words and the text of each to a file. The programs fork for each text, by bench/serve.c, so that a text costs a millisecond.
"""

import argparse
import collections
import concurrent.futures
import functools
import importlib
import itertools
import os
import random
import re
import signal
import struct
import subprocess
import sys
import tempfile
import time
import tomllib
from pathlib import Path

TOP = Path(__file__).resolve().parent.parent
ROWS = TOP / "crates" / "tests_rows" / "data"
SPACE = 1 << 30
SECONDS = 10
# The longest that the reader may take for a handful of reports, by the clock.
PATIENCE = 600
# How many texts a worker is handed at once. Their reports are read back together.
HANDFUL = 250
# Modes in which the time that a text takes has no limit.
ENDLESS = (b"test", b"check", b"infer", b"solve")
# The most steps of a run, where the words say so.
MOST_STEPS = 200

REFUSAL = re.compile(
    rb"refused (?:(?:lex|nesting|syntax|duplicate|label|noend|unknown-name|arity|too-many|limit|entry|modes|form) at \d+|size)\n"
)
HEAD = re.compile(rb"gillian (?:(?:run|test|infer) [a-z-]+ entry [\w$]+ bound \d+|check [a-z-]+ bound \d+|solve atoms|sweep \d+)\n")
# Whether the answers of such a line are good, by the line's beginning.
GOOD = re.compile(rb"returned |vanished$|clean$|sat \[|unsat |.* verified$|.* vacuous |spec .*\}$|bytes ")
BAD = re.compile(rb"failed |cut$|no input |bad input |number |bug |unknown |.* unproved |spec .* cut$")
JSON = re.compile(rb'\{"answers":\[.*\],.*"mode":"\w+".*\}\n')


class Fault(Exception):
    """What a run did that no run may do."""


class Late(Fault):
    """A run didn't end in its time."""


Ended = collections.namedtuple("Ended", "code output said seconds kilobytes")


class Server:
    """Forks of one fresh process of a program, each of which runs it once within the limits: bench/serve.c."""

    def __init__(self, program, libraries):
        self.process = subprocess.Popen(
            [program],
            stdin=subprocess.PIPE,
            stdout=subprocess.PIPE,
            env={"LD_PRELOAD": libraries, "SERVE_SPACE": str(SPACE)},
        )

    def run(self, words, text, environment=()):
        """Returns how a run ended, what it wrote and said, and what it took. Raises a fault where it didn't end in its time."""
        spelled = [b"".join(os.fsencode(it) + b"\0" for it in part) for part in (words, environment)]
        numbers = struct.pack("6I", len(words), len(environment), len(spelled[0]), len(spelled[1]), len(text), SECONDS)
        self.process.stdin.write(numbers + b"".join(spelled) + text)
        self.process.stdin.flush()
        answer = self.process.stdout.read(20)
        if len(answer) < 20:
            raise Fault("the server of runs has ended")
        status, output, said, microseconds, kilobytes = struct.unpack("5I", answer)
        output, said = self.process.stdout.read(output), self.process.stdout.read(said)
        code = os.waitstatus_to_exitcode(status)
        if code == -signal.SIGXCPU:
            raise Late(f"no answer in {SECONDS} seconds of a processor")
        if code == -signal.SIGALRM:
            raise Fault("no answer in an hour by the clock")
        return Ended(code, output, said, microseconds / 1_000_000, kilobytes)


@functools.cache
def server_of(program, libraries, process):
    """The server of a program that this process has. One of another process is never used: their requests would be mixed."""
    return Server(program, libraries)


def server(program, libraries):
    """The server of a program, one for each worker."""
    return server_of(program, libraries, os.getpid())


def fits(words, code, output, said):
    """Raises a fault where the output isn't one that the exit code has."""
    mode = words[0] if words else ""
    if code < 0:
        raise Fault(f"an end by signal {-code}")
    if code not in (0, 1, 2, 3, 6, 7):
        raise Fault(f"the exit code {code}")
    if not re.fullmatch(rb"gillian: .+\n" if code == 6 else b"", said):
        raise Fault(f"on standard error {said[:200]!r}")
    if code == 2 and not re.fullmatch(rb"usage: gillian .*\n", output):
        raise Fault("code 2 without the usage line")
    if code == 3 and not (REFUSAL.fullmatch(output) and output != b"refused size\n"):
        raise Fault("code 3 without a refusal")
    if code == 7 and output != b"refused size\n":
        raise Fault("code 7 without its refusal")
    if code == 6 and output:
        raise Fault("output beside want of memory")
    if code in (0, 1) and mode != "compile":
        if JSON.fullmatch(output):
            fits_schema(output)
            return
        head = HEAD.match(output)
        if not head or not output.endswith(b"\n"):
            raise Fault("no report")
        answers = output[head.end() : -1].split(b"\n") if output[head.end() :] else []
        if not all((GOOD if code == 0 else BAD).match(it) or (code == 1 and GOOD.match(it)) for it in answers):
            raise Fault(f"an answer that the exit code {code} doesn't have")


def fits_schema(output):
    """Raises a fault where a report in JSON isn't one by the schema."""
    fault = SCHEMA.fault_of(output.decode()) if SCHEMA else None
    if fault:
        raise Fault(f"no report in JSON: {fault}")


def schema():
    """The module that looks at JSON, or None where it can't be loaded."""
    sys.path.insert(0, str(TOP / "tools"))
    try:
        return importlib.import_module("report_schema")
    except ImportError:
        return None


SCHEMA = schema()


def is_report(output):
    """Whether this is a report, as lines or in JSON."""
    return HEAD.match(output) is not None or JSON.fullmatch(output) is not None


def read_back(reader, reports):
    """Returns the number of the first of these reports that isn't read back, or None. Raises a fault where the reader fails."""
    asked = b"".join(b"%d\n%b" % (len(it), it) for it in reports)
    read = subprocess.run([reader], input=asked, capture_output=True, timeout=PATIENCE)
    code, output, said = read.returncode, read.stdout, read.stderr
    if code not in (0, 1) or said or not re.search(rb"^\d+ of %d reports are read back\n\Z" % len(reports), output, re.M):
        raise Fault(f"the reader ends with {code} and {output[-200:]!r}, {said[:200]!r}")
    unread = re.search(rb"^report (\d+) isn't read ", output, re.M)
    return int(unread[1]) if unread else None


@functools.cache
def cases():
    """Returns the words and the text of each case whose source is one text."""
    found = []
    for file in sorted(ROWS.glob("*.toml")):
        for case in tomllib.loads(file.read_text()).get("case", []):
            source = case.get("source")
            if isinstance(source, str) and len(case.get("words", [])) > 1:
                found.append((case["words"][1:], source.encode()))
    return found


NUMBERS = (b"-1", b"0", b"99999", b"170141183460469231731687303715884105727", b"-170141183460469231731687303715884105729", b"1000001")
STRANGE = (0, 9, 10, 13, 34, 40, 41, 91, 93, 123, 125, 127, 128, 255)


SORTS = (rb"[0-9]+", rb"[a-zA-Z_$#@][\w$]*", rb'"[^"\n]*"', rb"<=|>=|==|!=|&&|\|\||\+\+|[-+*/%<>=]", rb"[;,]")
TOKENS = re.compile(b"|".join(rb"(%b)" % it for it in SORTS))


def exchanged(random, text):
    """Returns the text with a token in the place of another one of its sort, so that it often stays one of the grammar."""
    tokens = list(TOKENS.finditer(text))
    if not tokens:
        return text
    old = random.choice(tokens)
    new = random.choice([it for it in tokens if it.lastindex == old.lastindex])
    return text[: old.start()] + new[0] + text[old.end() :]


def changed(random, text, texts):
    """Returns the text with one change."""
    size = len(text)
    one, other = sorted((random.randint(0, size), random.randint(0, size)))
    way = random.randrange(12)
    if way > 7:
        return exchanged(random, text)
    if way == 0:
        return text[:one]
    if way == 1:
        return text[:one] + text[other:]
    if way == 2:
        return text[:other] + text[one:other] + text[other:]
    if way == 3 and size:
        at = min(one, size - 1)
        return text[:at] + bytes((text[at] ^ 1 << random.randrange(8),)) + text[at + 1 :]
    if way == 4:
        piece = random.choice(texts)
        start = random.randint(0, len(piece))
        return text[:one] + piece[start : start + random.randint(0, 40)] + text[one:]
    if way == 5:
        tokens = re.findall(rb"\w+|\s+|.", text, re.S)
        if len(tokens) > 1:
            a, b = random.randrange(len(tokens)), random.randrange(len(tokens))
            tokens[a], tokens[b] = tokens[b], tokens[a]
        return b"".join(tokens)
    if way == 6:
        number = random.choice(NUMBERS)
        return re.sub(rb"\d+", number, text, count=random.randint(1, 3))
    return text[:one] + bytes((random.choice(STRANGE),)) * random.choice((1, 1, 2, 600)) + text[one:]


def hostile(random, text, texts):
    """Returns the text with one change or several."""
    for _ in range(random.choice((1, 1, 1, 2, 3, 5))):
        text = changed(random, text, texts)
    return text


def hostile_words(random, words):
    """Returns the words with few steps, and sometimes with a changed word, a word twice or a word less."""
    words = [os.fsencode(it if not it.isdigit() else str(min(int(it), MOST_STEPS))) for it in words]
    if random.randrange(8) == 0:
        at = random.randrange(len(words))
        way = random.randrange(3)
        if way == 0:
            words[at] = hostile(random, words[at], words).replace(b"\0", b"")
        elif way == 1:
            words.insert(at, words[at])
        else:
            del words[at]
    return words


def keep(words, text):
    with tempfile.NamedTemporaryFile(prefix="hostile-", delete=False) as it:
        it.write(text)
    return f"words {' '.join(map(repr, words))}, text in {it.name}"


def made(every, texts, seed, index):
    """Returns the words and the text with this number."""
    mine = random.Random(f"{seed} {index}")
    words, text = mine.choice(every)
    # A text of another case, at times.
    text = text if mine.randrange(4) else mine.choice(texts)
    return in_some_form(seed, index, hostile_words(mine, words)), hostile(mine, text, texts)


def in_some_form(seed, index, words):
    """Returns the words, and at times with the one that asks for JSON. It has draws of its own, so that the texts stay the same."""
    form = random.Random(f"{seed} {index} form")
    return words if b"--json" in words or form.randrange(3) else [*words, b"--json"]


class Handful:
    """What became of some texts: how many ended with which exit code, how many reports were read back, the seconds of a processor in all,
    the most that one run took of them and of memory, each with its number, the numbers of those that didn't end in their time, and the
    faults."""

    def __init__(self):
        self.codes, self.read, self.seconds, self.late, self.faults = collections.Counter(), 0, 0.0, [], []
        self.slowest, self.largest = (0.0, 0), (0, 0)

    def add(self, other):
        self.codes += other.codes
        self.read += other.read
        self.seconds += other.seconds
        self.slowest = max(self.slowest, other.slowest)
        self.largest = max(self.largest, other.largest)
        self.late += other.late
        self.faults += other.faults

    def told(self):
        return ", ".join(f"{count} with {code}" for code, count in sorted(self.codes.items(), key=lambda it: str(it[0])))


def try_handful(program, libraries, reader, seed, start, end):
    """Tries the texts with these numbers."""
    every = cases()
    texts = [text for _, text in every]
    found, reports = Handful(), []
    for index in range(start, end):
        words, text = made(every, texts, seed, index)
        try:
            ended = server(program, libraries).run([program, *words], text)
            fits([os.fsdecode(it) for it in words], ended.code, ended.output, ended.said)
        except Fault as fault:
            if isinstance(fault, Late) and words and words[0] in ENDLESS:
                found.codes["too many paths"] += 1
                found.late.append(index)
            else:
                found.faults.append(f"text {index} of seed {seed}: {fault}: {keep(words, text)}")
            continue
        found.seconds += ended.seconds
        found.slowest = max(found.slowest, (ended.seconds, index))
        found.largest = max(found.largest, (ended.kilobytes, index))
        found.codes[ended.code] += 1
        if is_report(ended.output):
            reports.append((ended.output, words, text, index))
    if reader and reports:
        try_reports(reader, seed, reports, found)
    return found


def try_reports(reader, seed, reports, found):
    """Reads the reports back, and hands the reader the same reports with changes."""
    lines = [output for output, *_ in reports]
    first = reports[0][3]
    try:
        unread = read_back(reader, lines)
        mine = random.Random(f"{seed} reports {first}")
        read_back(reader, [hostile(mine, it, lines) for it in lines])
    except Fault as fault:
        found.faults.append(f"reports from text {first} of seed {seed} on: {fault}")
        return
    if unread is not None:
        output, words, text, index = reports[unread]
        found.faults.append(f"text {index} of seed {seed}: a report that isn't read back: {output[:300]!r}: {keep(words, text)}")
    found.read += len(reports)


def try_texts(program, libraries, reader, number, first, seed, jobs, most_faults):
    all_of_them, told_at, begun = Handful(), 0, time.monotonic()
    with concurrent.futures.ProcessPoolExecutor(jobs) as pool:
        starts = iter(range(first, first + number, HANDFUL))
        waiting = collections.deque()
        while True:
            # Many, so that nobody waits for a handful with a text that takes its whole time.
            for start in itertools.islice(starts, 40 * jobs - len(waiting)):
                waiting.append(pool.submit(try_handful, program, libraries, reader, seed, start, min(first + number, start + HANDFUL)))
            if not waiting:
                break
            found = waiting.popleft().result()
            for fault in found.faults:
                print(f"hostile: {fault}", file=sys.stderr, flush=True)
            all_of_them.add(found)
            if len(all_of_them.faults) >= most_faults:
                pool.shutdown(wait=False, cancel_futures=True)
                break
            done = all_of_them.codes.total()
            if done // 10_000 > told_at // 10_000:
                told_at = done
                print(f"  {done} after {time.monotonic() - begun:.0f} s: {all_of_them.told()}", file=sys.stderr, flush=True)
    done = all_of_them.codes.total()
    print(f"{done} hostile texts in {time.monotonic() - begun:.0f} s: {all_of_them.told()}")
    print(f"{all_of_them.read} reports read back, and as many with changes handed to the reader" if reader else "no reader: no report is read back")
    (seconds, slowest), (kilobytes, largest) = all_of_them.slowest, all_of_them.largest
    print(f"{all_of_them.seconds:.0f} s of a processor in all; the longest run that ended, that of text {slowest}, took {seconds:.2f} s")
    print(f"the most memory, {kilobytes / 1024:.0f} MiB, was taken for text {largest}")
    if all_of_them.late:
        print(f"without an answer in {SECONDS} s of a processor: the texts {', '.join(map(str, all_of_them.late))}")
    if all_of_them.faults:
        sys.exit(f"hostile: {len(all_of_them.faults)} faults")
    print("no fault")


# Runs whose allocations are refused one after another: the words, and the text or its file in examples/.
REFUSED = [
    (["test", "gil-record"], "ten.gil"),
    (["run", "gil-record", "--inputs", "4"], "sum.gil"),
    (["test", "while"], "alias.while"),
    (["compile", "while"], "alias.while"),
    (["check", "while"], "swap.while"),
    (["infer", "while", "--entry", "f"], "func f(a, b) { u = a.v; w = b.v; return 0; }\n"),
    (["check", "gil-block"], "filled.gil"),
    (["test", "clike"], "greatest.clike"),
    (["test", "gil-object"], "thrown.gil"),
    (["test", "object"], "swallowed.object"),
    (["solve", "atoms"], "order.atoms"),
    (["test", "gil-record", "--json"], "ten.gil"),
]


def try_refusals(program, libraries, most, jobs):
    for words, text in REFUSED:
        name = f"{' '.join(words)}, {text.strip()}"
        file = TOP / "examples" / text
        text = text.encode() if "\n" in text else file.read_bytes()
        whole = server(program, libraries).run([program, *words], text)
        fits(words, whole.code, whole.output, whole.said)
        with tempfile.NamedTemporaryFile(prefix="hostile-count-") as count:
            server(program, libraries).run([program, *words], text, [f"REFUSE_COUNT={count.name}"])
            asked = int(Path(count.name).read_text() or 0)
        if not asked:
            sys.exit("hostile: no allocation is counted: the program doesn't ask the C library for memory")
        numbers = range(1, asked + 1, max(1, asked // most))
        parts = [numbers[part::jobs] for part in range(jobs)]
        with concurrent.futures.ProcessPoolExecutor(jobs) as pool:
            ends = list(pool.map(functools.partial(refuse, program, libraries, words, text, whole), parts))
        for fault in (fault for _, fault in ends if fault):
            sys.exit(f"hostile: {name}: {fault}")
        short = sum(codes[6] for codes, _ in ends)
        print(f"{name}: {2 * len(numbers)} runs with refused allocations, of {asked} that it asks for: {short} end with 6, the others as without")


def refuse(program, libraries, words, text, whole, numbers):
    """Refuses the allocations with these numbers, one in each run and then with all later ones. Returns how many runs ended with which
    exit code, and what is wrong with one of them, if it is."""
    codes = collections.Counter()
    for number, later in itertools.product(numbers, "01"):
        ended = server(program, libraries).run([program, *words], text, [f"REFUSE_FROM={number}", f"REFUSE_LATER={later}"])
        codes[ended.code] += 1
        if ended[:3] not in (whole[:3], (6, b"", f"gillian: {WANT}\n".encode()), (6, b"", b"")):
            rest = "too" if later == "1" else "given"
            return codes, f"allocation {number} refused, later ones {rest}: exit code {ended.code}, output {ended.output[:200]!r}"
    return codes, None


BOUND = ["--bound", "10000"]
WALK = 'proc main(x) {\nifgoto (x = Null) 3;\nx := do lookup(x, "next");\nifgoto true 0;\nreturn 0;\n}\n'
DEEPER = "proc main() {\nx := call @f([1]);\nreturn x;\n}\nproc f(a) {\nx := call @f([a]);\nreturn x;\n}\n"
CALLS = "proc main() {\nx := call @main();\nreturn x;\n}\n"
# What is said on standard error where nothing is written for want of memory.
WANT = "out of memory, or past a limit of depth or size"


def turns(number, before, commands, after=("return 0;",)):
    """A program that does the commands so many times, behind some and before others."""
    lines = [*before, "n := 0;", *commands, "n := (n + 1);", f"ifgoto (n < {number}) {len(before) + 1};", *after]
    return "proc main() {\n" + "".join(it + "\n" for it in lines) + "}\n"


def none_of(number):
    """A list of atoms that says that x is one of so many numbers and none of them, so that each of them is a split."""
    return f"vars x: int;\n(0 <= x); (x < {number});\n" + "".join(f"not((x = {it}));\n" for it in range(number))


def growing():
    """What grows with each turn, each call or each split: what it is, the words, the text, and the exit code, or several
    of these."""
    record = ['r := do new(["v"]);', 'w := do mutate(r, "v", 1);']
    for mode in ("run", "test", "infer"):
        words = [mode, "gil-record", *BOUND]
        yield "a list within a list", words, turns(2000, ["x := [1];"], ["x := [x];"]), 6
        yield "a list that is doubled", words, turns(2000, ["x := [1];"], ["x := (x ++ x);"]), 6
        yield "a list of itself twice", words, turns(2000, ["x := [1];"], ["x := [x, x];"]), 6
        yield "a list within a list in the heap", words, turns(1900, record, ['x := do lookup(r, "v");', 'w := do mutate(r, "v", [x]);']), 6
        yield "a list within a list of each call", words, DEEPER, 6
        yield "a list of 990 that fails", words, turns(990, ["x := [1];"], ["x := [x];"], ["fail x;"]), 0 if mode == "infer" else 1
        yield "a call within a call", words, CALLS, 0 if mode == "test" else 1
    yield "a list of 990 as JSON", ["run", "gil-record", "--json", *BOUND], turns(990, ["x := [1];"], ["x := [x];"], ["return x;"]), 0
    yield "a list of 990 that is returned", ["infer", "gil-record", *BOUND], turns(990, ["x := [1];"], ["x := [x];"], ["return x;"]), 0
    guard = ["ifgoto (x < 5) 8;", "return 0;", "return 1;"]
    for sign in "+*":
        term = turns(990, ["y := isym int;", "x := y;"], [f"x := (x {sign} y);"], guard)
        yield f"a term with 990 times {sign}", ["test", "gil-record", *BOUND], term, 1
        yield f"a term with 990 times {sign} as JSON", ["test", "gil-record", "--json", *BOUND], term, 1
    yield "a list of drawn texts", ["infer", "gil-record", *BOUND], turns(500, ["l := [];"], ["y := usym;", "l := (l ++ [y]);"], ["return l;"]), 0
    yield "a walk along a list", ["infer", "gil-record", "--bound", "60"], WALK, 1
    calls = CALLS.replace("@main", "@f") + CALLS.replace("main", "f") + "spec main() [] { emp } { emp }\n"
    yield "a call within a call", ["check", "gil-record", *BOUND], calls, 1
    yield "lists within lists in the words", ["run", "gil-record", "--inputs", "[" * 100_000], "proc main() { return 0; }", 2
    yield "a long text in the words", ["run", "gil-record", "--inputs", '"' + "a" * 100_000 + '"'], "proc main() { x := isym str; return x; }", 0
    for number, wanted in ((400, 0), (599, 0), (1000, (0, 6))):
        for form in ([], ["--json"]):
            yield f"{number} splits within splits", ["solve", "atoms", *form], none_of(number), wanted


def try_growing(program, reader, libraries):
    for name, words, text, wanted in growing():
        told = f"{name}, {' '.join(words)[:60]}"
        ended = server(program, libraries).run([program, *words], text.encode())
        fits(words, ended.code, ended.output, ended.said)
        said = ended.said.decode().removeprefix("gillian: ").strip()
        ends = wanted if isinstance(wanted, tuple) else (wanted,)
        if ended.code not in ends:
            sys.exit(f"hostile: {told}: exit code {ended.code}, not {wanted}, {said}")
        if reader and is_report(ended.output) and read_back(reader, [ended.output]) is not None:
            sys.exit(f"hostile: {told}: a report that isn't read back")
        print(f"{told}: exit code {ended.code}, {said + ', ' * bool(said)}{ended.seconds:.2f} s of a processor, {ended.kilobytes // 1024} MiB")


def built(name):
    return str(TOP / "crates" / name / "out" / name)


def main():
    words = argparse.ArgumentParser(description=__doc__, formatter_class=argparse.RawDescriptionHelpFormatter)
    words.add_argument("--texts", type=int, default=1_000_000)
    words.add_argument("--first", type=int, default=0, help="the number of the first text")
    words.add_argument("--seed", type=int, default=1)
    words.add_argument("--faults", type=int, default=1, help="how many faults there may be before it stops")
    words.add_argument("--jobs", type=int, default=os.cpu_count())
    words.add_argument("--refusals", type=int, default=1_000_000, help="the most numbers of allocations that are refused for each run")
    words.add_argument("--no-growing", dest="growing", action="store_false", help="leaves out what grows")
    words.add_argument("--program", default=os.environ.get("GILLIAN_PROGRAM", built("gillian_cli")))
    words.add_argument("--reader", default=built("tests_read_back"), help="the program that reads reports back; none where this is empty")
    words.add_argument("--libraries", required=True, help="the folder of serve.so and refuse.so")
    given = words.parse_args()
    for program, maker in ((given.program, "./gillian --prove"), (given.reader, "rt run in crates/tests_read_back")):
        if program and not os.access(program, os.X_OK):
            sys.exit(f"hostile: {program} isn't built: {maker} makes it")
    serve, both = f"{given.libraries}/serve.so", f"{given.libraries}/serve.so {given.libraries}/refuse.so"
    if given.refusals:
        try_refusals(given.program, both, given.refusals, given.jobs)
    if given.growing:
        try_growing(given.program, given.reader, serve)
    if given.texts:
        try_texts(given.program, serve, given.reader, given.texts, given.first, given.seed, given.jobs, given.faults)


if __name__ == "__main__":
    main()
