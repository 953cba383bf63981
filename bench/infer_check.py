#!/usr/bin/env python3
"""Infers specifications and checks them: each that isn't cut is pasted under its text, and `check` has to answer `verified`.

    bench/infer_check.py [--verbose]

The texts are those of examples/ and of the rows in crates/tests_rows/data/infer.toml. The program has to be built: `./gillian --prove` does
it; GILLIAN_PROGRAM names another one. Statements and specifications for `check` alone are left out of a text first, since `infer` doesn't
use them, and `check` would. A specification of a procedure that calls itself isn't checked: it would be used for its own inner calls.
"""
import json
import os
import re
import subprocess
import sys
import tomllib
from pathlib import Path

TOP = Path(__file__).resolve().parent.parent
PROGRAM = os.environ.get("GILLIAN_PROGRAM", str(TOP / "crates" / "gillian_cli" / "out" / "gillian_cli"))
LANGUAGES = {".while": "while", ".clike": "clike", ".object": "object", ".gil": "gil-record"}
BLOCK_ACTION = re.compile(r"\bdo (alloc|load|store|free)\(")
PROCEDURE = re.compile(r"^(?:proc|func|function|int\s*\**)\s*([A-Za-z_]\w*)\(", re.M)
# A bound that the loops of the examples reach soon: each turn gives specifications, and each record that it visits many.
BOUND = "24"
SECONDS = 600

# What `check` needn't verify: what its answer has, and why.
KNOWN = {
    "refused modes": "a new symbol is read before the result or the heap has told it",
    " unproved unknown ": "a condition isn't decided: that a term which isn't simple equals itself, or one on the length of a list",
}


def call(words, text):
    """What the program writes."""
    done = subprocess.run([PROGRAM, *words], input=text.encode(), stdout=subprocess.PIPE, timeout=SECONDS, check=False)
    return done.stdout.decode()


def plain(text):
    """The text without specifications, predicates, invariants and statements of assertions, each of which ends its line in the examples."""
    lines = [line for line in text.split("\n") if not re.match(r"\s*(spec|pred|fold|unfold) |\s*assert \{", line)]
    return re.sub(r" invariant \([^)]*\) \[[^\]]*\] \{[^}]*\}(?= \{)", "", "\n".join(lines))


def examples():
    """Each procedure of the examples: where it stands, the language, the words besides, the text and the name."""
    for file in sorted((TOP / "examples").iterdir()):
        if file.suffix in LANGUAGES:
            text = file.read_text()
            language = "gil-block" if file.suffix == ".gil" and BLOCK_ACTION.search(text) else LANGUAGES[file.suffix]
            for name in PROCEDURE.findall(text):
                yield f"examples/{file.name} {name}", language, ["--bound", BOUND], plain(text), name


def rows():
    """The same of the rows."""
    data = tomllib.loads((TOP / "crates/tests_rows/data/infer.toml").read_text())
    for case in data["case"]:
        words = [word for word in case["words"][3:] if word != "--json"]
        name = words[words.index("--entry") + 1] if "--entry" in words else "main"
        bound = words[words.index("--bound") :][:2] if "--bound" in words else []
        yield f"infer.toml: {case['name']}", case["words"][2], bound, plain(case["source"]), name


def calls_itself(text, name):
    """Whether a procedure of the text that calls others stands in its own calls. It is told by the names alone."""
    heads = [*PROCEDURE.finditer(text)]
    bodies = {}
    for head, after in zip(heads, [*heads[1:], None]):
        bodies[head[1]] = text[head.end() : after.start() if after else None]
    reached, left = set(), [name]
    while left:
        body = bodies.get(left.pop(), "")
        for other in bodies:
            if other not in reached and re.search(rf"\b{other}\(", body):
                reached.add(other)
                left.append(other)
    return name in reached


def inferred(language, bound, text, name):
    """The specifications that aren't cut."""
    report = call(["infer", language, "--entry", name, "--json", *bound], text)
    if not report.startswith("{"):
        return []
    return [answer["spec"] for answer in json.loads(report)["answers"] if answer["kind"] == "spec" and not answer["cut"]]


def main():
    verbose = "--verbose" in sys.argv[1:]
    if not os.access(PROGRAM, os.X_OK):
        sys.exit(f"{PROGRAM} isn't built: ./gillian --prove builds it")
    counts = {"verified": 0, "known": 0, "own calls": 0, "other": 0}
    for place, language, bound, text, name in [*examples(), *rows()]:
        specs = inferred(language, bound, text, name)
        if calls_itself(text, name):
            counts["own calls"] += len(specs)
            continue
        for spec in specs:
            report = call(["check", language, *bound], f"{text.rstrip()}\n{spec}\n")
            answer = report.split("\n")[1] if report.startswith("gillian") else report.strip()
            known = [why for part, why in KNOWN.items() if part in answer]
            kind = "verified" if answer == f"{name} verified" else "known" if known else "other"
            counts[kind] += 1
            if kind == "other" or verbose:
                print(f"{place}: {spec}\n    {answer}{': ' + known[0] if known else ''}")
    print(
        f"{counts['verified']} verified, {counts['known']} not for a known reason, {counts['other']} not; "
        f"{counts['own calls']} of procedures that call themselves are left out"
    )
    return 1 if counts["other"] else 0


if __name__ == "__main__":
    sys.exit(main())
