#!/usr/bin/env python3
"""Validates reports in JSON against docs/report.schema.json (JSON Schema, draft 2020-12).

    tools/report_schema.py [FILE ..]

Without files: every JSON output of the rows (crates/tests_rows/data) and every object that docs/REPORTS.md shows must be a report, and
near misses of them none. With files: each must hold one report, as the program writes it. Needs Debian's python3-jsonschema.
"""
import json
import re
import sys
import tomllib
from pathlib import Path

import jsonschema

TOP = Path(__file__).resolve().parent.parent
SCHEMA = json.loads((TOP / "docs/report.schema.json").read_text())


def pairs_once(pairs):
    keys = [key for key, _ in pairs]
    if len(set(keys)) < len(keys):
        raise ValueError(f"a key stands twice among {keys}")
    return dict(pairs)


def compact(report):
    """The text of a report: without blanks, keys in the order of their bytes, and LF."""
    return json.dumps(report, sort_keys=True, separators=(",", ":"), ensure_ascii=False) + "\n"


def fault_of(text):
    """Why a text is no report, and None where it is one. The schema sees the value; the form of the text is looked at here."""
    try:
        report = json.loads(text, object_pairs_hook=pairs_once)
    except ValueError as fault:
        return f"no JSON: {fault}"
    found = jsonschema.Draft202012Validator(SCHEMA).iter_errors(report)
    fault = next(iter(found), None)
    if fault is not None:
        return jsonschema.exceptions.best_match([fault]).message[:200]
    if text != compact(report):
        return "another form of this report is written"
    return None


def outputs_of_rows():
    for file in sorted((TOP / "crates/tests_rows/data").glob("*.toml")):
        for case in tomllib.loads(file.read_text()).get("case", []):
            output = case["output"]
            if isinstance(output, str) and output.startswith("{"):
                yield f"{file.stem}: {case['name']}", output


def objects_of_page():
    """The answers that docs/REPORTS.md shows, each in a report of a mode that gives it."""
    page = (TOP / "docs/REPORTS.md").read_text()
    for line in re.findall(r"^    (\{.*\})$", page, re.M):
        shown = json.loads(line, object_pairs_hook=pairs_once)
        if "mode" in shown:
            yield line[:60], compact(shown)
            continue
        yield line[:60], compact(wrapped(shown))


ENTRY = {"bound": 1000, "entry": "main", "lang": "while"}


def wrapped(answer):
    kind = answer["kind"]
    if kind in ("returned", "failed", "vanished", "cut", "no-input", "bad-input", "number"):
        return {"mode": "run", "answers": [answer], **ENTRY}
    if kind in ("clean", "bug", "unknown"):
        return {"mode": "test", "answers": [answer], **ENTRY}
    if kind in ("verified", "vacuous", "unproved"):
        return {"mode": "check", "answers": [answer], "bound": 1000, "lang": "while"}
    if kind == "spec":
        return {"mode": "infer", "answers": [answer], **ENTRY}
    if kind == "bytes":
        return {"mode": "sweep", "n": 1, "answers": [answer, {"kind": "clean"}]}
    return {"mode": "solve", "lang": "atoms", "answers": [answer]}


def near_misses(text):
    """Texts that are almost this report."""
    report = json.loads(text)
    yield "no LF", text[:-1]
    yield "a byte more", text + " "
    yield "two lines", text + text
    yield "another order of keys", json.dumps(dict(reversed(sorted(report.items()))), separators=(",", ":")) + "\n"
    yield "blanks", json.dumps(report, sort_keys=True) + "\n"
    yield "a key twice", text.replace('{"answers":', '{"answers":[],"answers":', 1)
    yield "no answers", compact({key: value for key, value in report.items() if key != "answers"})
    yield "another case", text.replace('"mode"', '"Mode"', 1)
    yield "a mode that there isn't", compact({**report, "mode": "prove"})
    yield "a language that there isn't", compact({**report, "lang": "java"})
    if "bound" in report:
        yield "a number with a fraction", text.replace(f'"bound":{report["bound"]}', f'"bound":{report["bound"]}.5', 1)
        yield "a negative number", text.replace(f'"bound":{report["bound"]}', '"bound":-1', 1)
        yield "a number as a text", text.replace(f'"bound":{report["bound"]}', f'"bound":"{report["bound"]}"', 1)
        yield "too great a bound", compact({**report, "bound": 10001})
    for index, answer in enumerate(report["answers"]):
        others = report["answers"][:index], report["answers"][index + 1:]
        for key in answer:
            without = {k: v for k, v in answer.items() if k != key}
            yield f"an answer without {key}", compact({**report, "answers": [*others[0], without, *others[1]]})
        yield "a key more", compact({**report, "answers": [*others[0], {**answer, "more": 1}, *others[1]]})
        if answer["kind"] == "spec":
            yield "another mark", compact({**report, "answers": [*others[0], {**answer, "cut": not answer["cut"]}, *others[1]]})
        for key, value in answer.items():
            if isinstance(value, list) and value:
                yield f"{key} as a text", compact({**report, "answers": [*others[0], {**answer, key: str(value)}, *others[1]]})
            if isinstance(value, int) and not isinstance(value, bool):
                yield f"{key} below 0", compact({**report, "answers": [*others[0], {**answer, key: -1}, *others[1]]})


def main(files):
    if files:
        faults = [(file, fault_of(Path(file).read_text())) for file in files]
        for file, fault in faults:
            print(f"{file}: {fault or 'a report'}")
        return 1 if any(fault for _, fault in faults) else 0
    bad = accepted = missed = 0
    for source in (outputs_of_rows(), objects_of_page()):
        for name, text in source:
            fault = fault_of(text)
            if fault:
                bad += 1
                print(f"REFUSED {name}: {fault}")
            accepted += 1
            for miss, other in near_misses(text):
                missed += 1
                if other != text and fault_of(other) is None:
                    bad += 1
                    print(f"TAKEN {name}, with {miss}")
    print(f"{accepted} reports, {missed} near misses, {bad} wrong")
    return 1 if bad or not accepted else 0


if __name__ == "__main__":
    sys.exit(main(sys.argv[1:]))
