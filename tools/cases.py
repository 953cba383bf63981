#!/usr/bin/env python3
"""Tries the script `gillian` on cases: what it hands to the program, and what it says of the program's answer.

    tools/cases.py

The program is a stub that writes the case's report and ends with the case's exit code, so that nothing has to be built.
"""
import os
import subprocess
import sys
import tempfile
from pathlib import Path

TOP = Path(__file__).resolve().parent.parent

STUB = """#!/usr/bin/env bash
printf '%s\\n' "$*" >words
cat >input
cat report
exit "$(cat status)"
"""

WHILE = "func main() {\na = new {v: 1};\n\tdispose a;\n\tdispose a;\nreturn 0;\n}\n"
GIL = 'proc main() { // fails\n  x := isym int;\n  invariant (x) [#n] { (x = #n) };\n  ifgoto (x = 10) 4;\n  return ";";\n  fail "ten"; }\nproc g() { y := do lookup(x, "p"); return y; }\n'
GONE = "the record or block was disposed of before"

# Each case: its name, the words with FILE for the file, the file's text, the report, the exit code, the words that the program is to
# get, and the lines of standard error.
CASES = [
    ("a bug in a source text", "test while FILE", WHILE, 'gillian test while entry main bound 1000\nbug main:43 "gone" inputs []\n', 1,
     "test while", [f'FILE:4:2: fails with "gone": {GONE}', "    \tdispose a;", "    \t^"]),
    ("options before and behind the file", "test --bound 5 while FILE --entry main", WHILE, "gillian test while entry main bound 5\nclean\n", 0,
     "test --bound 5 while --entry main", []),
    ("a value of the program's own", "test gil-record FILE", GIL, 'gillian test gil-record entry main bound 1000\nbug main:4 "ten" inputs [10]\n', 1,
     "test gil-record", ['FILE:6:3: fails with "ten", a value of the program\'s own', '      fail "ten"; }', "      ^"]),
    ("a run that fails in another procedure", "run gil-record FILE --inputs=10", GIL, 'gillian run gil-record entry main bound 1000\nfailed "absent" g:0\n', 1,
     "run gil-record --inputs=10", ['FILE:7:12: fails with "absent": the record has no such name', '    proc g() { y := do lookup(x, "p"); return y; }', "               ^"]),
    ("a failure value that is a list", "run gil-record FILE", GIL, 'gillian run gil-record entry main bound 1000\nfailed ["a:1", 2] main:3\n', 1,
     "run gil-record", ['FILE:5:3: fails with ["a:1",2]', '      return ";";', "      ^"]),
    ("a refusal", "compile while FILE", "func main() {\nreturn 0\n}\n", "refused syntax at 23\n", 3,
     "compile while", ["FILE:3:1: refused: the text doesn't follow the grammar here", "    }", "    ^"]),
    ("a refusal at the end of a text without a line feed", "compile while FILE", "func main() {", "refused syntax at 13\n", 3,
     "compile while", ["FILE:1:14: refused: the text doesn't follow the grammar here", "    func main() {", "                 ^"]),
    ("an undecided test", "test gil-record FILE", GIL, 'gillian test gil-record entry main bound 1000\nunknown main:2 path [1] vars [int] given [] query [(v0 = 2)] outside 0\n', 1,
     "test gil-record", ["FILE:4:3: this isn't decided", "      ifgoto (x = 10) 4;", "      ^"]),
    ("a result that leaves 128 bits", "run gil-record FILE", GIL, "gillian run gil-record entry main bound 1000\nnumber main:0\n", 1,
     "run gil-record", ["FILE:2:3: a result leaves 128 bits", "      x := isym int;", "      ^"]),
    ("a report in JSON", "test while FILE --json", WHILE, '{"answers":[{"at":31,"inputs":[],"kind":"bug","proc":"main","value":"\\"gone\\""}],"bound":1000,"entry":"main","lang":"while","mode":"test"}\n', 1,
     "test while --json", [f'FILE:3:2: fails with "gone": {GONE}', "    \tdispose a;", "    \t^"]),
    ("an unproved specification", "check while FILE", WHILE, 'gillian check while bound 1000\nmain unproved fails "gone" main:43 path [0] with [x = 1]\nf verified\n', 1,
     "check while", [f'FILE:4:2: fails with "gone": {GONE}', "    \tdispose a;", "    \t^"]),
    ("a cause without a value", "check while FILE", WHILE, "gillian check while bound 1000\nmain unproved post main:45 path [] with []\n", 1,
     "check while", ["FILE:4:4: the end matches no postcondition, or leaves a part of the heap over", "    \tdispose a;", "    \t  ^"]),
    ("a place in the library", "test object FILE", "function main() { return 1; }\n", 'gillian test object entry main bound 1000\nbug get$:0 "missing" inputs []\n', 1,
     "test object", ['FILE: get$:0 is a procedure that the compiler adds: fails with "missing": the heap lacks what the action needs']),
    ("words that don't fit", "test nothing FILE", WHILE, "usage: gillian MODE LANG [--bound N]\n", 2, "test nothing", []),
    ("standard input", "run while -", WHILE, "gillian run while entry main bound 1000\ncut\n", 1, "run while", []),
    ("no file", "run while", WHILE, "gillian run while entry main bound 1000\nfailed 1 main:0\n", 1, "run while", []),
]


def tried(folder, case):
    """What differs in a case, or None."""
    name, words, text, report, status, handed, said = case
    file = f"{folder}/a text.gil"
    for path, content in ((file, text), (f"{folder}/report", report), (f"{folder}/status", str(status))):
        Path(path).write_text(content)
    ran = subprocess.run(
        [TOP / "gillian", *[file if word == "FILE" else word for word in words.split()]],
        input=text, capture_output=True, text=True, cwd=folder, env={**os.environ, "GILLIAN_PROGRAM": f"{folder}/stub"}, timeout=60,
    )
    wanted = [
        ("exit code", ran.returncode, status),
        ("standard output", ran.stdout, report),
        ("words", Path(f"{folder}/words").read_text(), handed + "\n"),
        ("input", Path(f"{folder}/input").read_text(), text),
        ("standard error", ran.stderr.replace(file, "FILE"), "".join(line + "\n" for line in said)),
    ]
    return next((f"{name}: {what} is {got!r}, not {want!r}" for what, got, want in wanted if got != want), None)


def unreadable(folder):
    """What differs where the file isn't there, or None."""
    ran = subprocess.run([TOP / "gillian", "run", "while", f"{folder}/nothing"], capture_output=True, text=True,
                         env={**os.environ, "GILLIAN_PROGRAM": f"{folder}/stub"}, timeout=60)
    wanted = (66, "", f"gillian: {folder}/nothing can't be read\n")
    got = (ran.returncode, ran.stdout, ran.stderr)
    return None if got == wanted else f"a file that isn't there: {got!r}, not {wanted!r}"


def main():
    with tempfile.TemporaryDirectory() as folder:
        stub = Path(f"{folder}/stub")
        stub.write_text(STUB)
        stub.chmod(0o755)
        differences = [tried(folder, case) for case in CASES] + [unreadable(folder)]
    failed = [it for it in differences if it is not None]
    for it in failed:
        print(it)
    print(f"{len(differences) - len(failed)} passed, {len(failed)} failed")
    return 1 if failed else 0


if __name__ == "__main__":
    sys.exit(main())
