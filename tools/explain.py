#!/usr/bin/env python3
"""Tells for each place of a report of `gillian` its line and column, shows the line, and says in words what the answer means.

    tools/explain.py FILE LANG < REPORT

FILE is the text that the report is about. A place `NAME:N` is the byte N of a source text; in GIL it is the command number N of
the procedure NAME. A refusal names a byte. The report may have either form, text or JSON. Colours are for terminals alone, and
not where NO_COLOR is set.
"""
import json
import os
import re
import sys

FAILURES = {
    "unset": "a variable is read that has no value",
    "type": "a value is of the wrong kind",
    "zero": "a division by 0",
    "range": "there is no element at this place of the list",
    "proc": "the called value is no procedure of the program",
    "arity": "a wrong number of arguments",
    "action": "the memory has no such action",
    "gone": "the record or block was disposed of before",
    "absent": "the record has no such name",
    "bound": "the offset is outside of the block",
    "free": "the freed address isn't the first of its block",
    "size": "a block has 0 to 10,000 cells",
    "missing": "the heap lacks what the action needs",
    "assert": "the assertion is false",
    "overflow": "the result is outside of int",
    "null": "an access through NULL",
}

REFUSALS = {
    "lex": "no token begins with this byte",
    "nesting": "too many brackets are open here, or too many operators stand in one statement",
    "syntax": "the text doesn't follow the grammar here",
    "duplicate": "a name stands twice in one list, or a predicate has the name of a core predicate",
    "label": "a jump or a handler leads to no command",
    "noend": "the last command of the procedure doesn't end it",
    "unknown-name": "there is nothing of this name",
    "arity": "other parameters, or another number of arguments, than where it is declared",
    "too-many": "the text has more of these than are taken",
    "limit": "the function gives more than 1,000 commands",
    "entry": "the entry isn't there, or it has parameters",
    "modes": "an argument of an assertion isn't known here",
}

CAUSES = {
    "missing": "the heap lacks what the action needs, whatever else it holds",
    "post": "the end matches no postcondition, or leaves a part of the heap over",
    "invariant": "the invariant doesn't hold, or something else has changed",
    "callpre": "the precondition of the called specification isn't there",
    "foldbody": "no body or fact matches",
    "cut": "a run isn't over within the bound",
}

TOKEN = re.compile(rb'//[^\n]*|"(?:[^"\\\n]|\\.)*"|[A-Za-z_#@][A-Za-z0-9_$]*|\S')
WORD = re.compile(r'"(?:[^"\\]|\\.)*"|[^\s"\[\](),]+|[\[\](),]')
PLACE = re.compile(r"^([A-Za-z_][A-Za-z0-9_$]*):([0-9]+)$")


def tokens(text):
    """The tokens of a text, without comments, each with its first byte."""
    for found in TOKEN.finditer(text):
        if not found.group().startswith(b"//"):
            yield found.group(), found.start()


def commands(text):
    """For each procedure of a GIL text by its name the bytes at which its commands begin."""
    found, name, body, depth, begins, before = {}, None, None, 0, False, b""
    for token, at in tokens(text):
        if depth == 0 and before == b"proc":
            name = token.decode()
        if begins and token != b"}":
            body.append(at)
        begins = False
        if token in (b"(", b"[", b"{"):
            depth += 1
            if token == b"{" and depth == 1 and name is not None:
                body, begins = found.setdefault(name, []), True
        elif token in (b")", b"]", b"}"):
            depth -= 1
            if token == b"}" and depth == 0:
                body, name = None, None
        elif token == b";" and depth == 1 and body is not None:
            begins = True
        before = token
    return found


class Text:
    """A text whose places are told as `FILE:LINE:COLUMN`."""

    def __init__(self, name, data, lang):
        self.name, self.data, self.is_gil = name, data, lang.startswith("gil-")
        self.commands = commands(data) if self.is_gil else {}

    def byte_of(self, procedure, number):
        """The byte of a place, or None where the text has none, as in a procedure that the compiler adds."""
        if not self.is_gil:
            return number if not procedure.endswith("$") else None
        begun = self.commands.get(procedure, [])
        return begun[number] if number < len(begun) else None

    def fails_by_itself(self, byte):
        """Whether the statement at this byte is one that fails or throws with a value of the program's own."""
        return re.match(rb"(fail|throw)\b", self.data[byte:]) is not None

    def located(self, byte):
        """The line's number, the column's number and the line of a byte. Columns count characters."""
        byte = min(byte, len(self.data))
        start = self.data.rfind(b"\n", 0, byte) + 1
        end = self.data.find(b"\n", byte)
        line = self.data[start : end if end >= 0 else len(self.data)]
        shown = lambda piece: piece.decode(errors="replace").rstrip("\r")
        return self.data.count(b"\n", 0, start) + 1, len(shown(self.data[start:byte])) + 1, shown(line)


def meaning_of_value(value):
    """What a failure value means, where it is one of the tables' own."""
    text = value[1:-1] if len(value) > 1 and value[0] == value[-1] == '"' else None
    return FAILURES.get(text)


def answers_of_text(report):
    """The answers of a report in text: a cause, a value or None, and a place or None, each in the report's words."""
    for line in report.split("\n"):
        words = WORD.findall(line)
        if not words or words[0] == "gillian":
            continue
        at = next((k for k, word in enumerate(words) if PLACE.match(word)), None)
        place = None if at is None else (PLACE.match(words[at]).group(1), int(PLACE.match(words[at]).group(2)))
        kind = words[2] if len(words) > 2 and words[1] == "unproved" else words[0]
        value = None
        if kind == "bug" and at is not None:
            value = value_from(line, words, at + 1, "inputs")
        elif kind in ("failed", "fails") and at is not None:
            first = words.index(kind) + 1
            value = "".join(words[first:at]) if at - first != 1 else words[first]
        yield kind, value, place


def value_from(line, words, first, stop):
    """The words from a number on up to a word, put together."""
    last = next((k for k in range(first, len(words)) if words[k] == stop), len(words))
    return words[first] if last - first == 1 else "".join(words[first:last])


def answers_of_json(report):
    """The answers of a report in JSON, as those of a report in text."""
    for answer in json.loads(report)["answers"]:
        place = (answer["proc"], answer["at"]) if "proc" in answer and "at" in answer else None
        yield answer.get("why", answer["kind"]), answer.get("value"), place


def words_for(kind, value, text, byte):
    """What an answer means."""
    if kind in ("bug", "failed", "fails"):
        means = meaning_of_value(value or "")
        own = byte is not None and text.fails_by_itself(byte)
        said = f"fails with {value}"
        return f"{said}, a value of the program's own" if own else f"{said}: {means}" if means else said
    if kind == "unknown":
        return "this isn't decided"
    if kind == "number":
        return "a result leaves 128 bits"
    return CAUSES.get(kind)


def main():
    file, lang = sys.argv[1], sys.argv[2]
    with open(file, "rb") as it:
        text = Text(file, it.read(), lang)
    report = sys.stdin.read()
    refused = re.match(r"refused ([a-z-]+) at ([0-9]+)\n", report)
    if refused:
        show(text, int(refused.group(2)), f"refused: {REFUSALS.get(refused.group(1), refused.group(1))}")
        return
    for kind, value, place in answers_of_json(report) if report.startswith("{") else answers_of_text(report):
        if place is None:
            continue
        byte = text.byte_of(*place)
        said = words_for(kind, value, text, byte)
        if byte is None:
            where = "a procedure that the compiler adds" if not text.is_gil else "no command of this text"
            print(f"{text.name}: {place[0]}:{place[1]} is {where}: {said}")
        elif said:
            show(text, byte, said)


def show(text, byte, said):
    """Shows a place with its line and a caret."""
    colours = sys.stdout.isatty() and not os.environ.get("NO_COLOR")
    strong, red, plain = ("\033[1m", "\033[31m", "\033[0m") if colours else ("", "", "")
    line, column, shown = text.located(byte)
    blank = re.sub(r"[^\t]", " ", shown[: column - 1])
    print(f"{strong}{text.name}:{line}:{column}:{plain} {said}\n    {shown}\n    {blank}{red}^{plain}")


if __name__ == "__main__":
    main()
