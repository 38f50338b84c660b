"""The vectors of the second implementation: the cases of crates/vectors/stdin, and what each call has to give by stdout beside it.

A case is its call's number and then what the call takes, in the header's order: a list with its length in front of it, of a lent list the length alone, all
elements being 7 (a record is lent as it stands), and a sheet as the rest. Of each call stdout has number and detail, and each lent list whole.
"""

import re
from array import array
from pathlib import Path

from tankcurve import MAX_OUTPUT
from tankcurve._header import CALLS

ROOT = Path(__file__).resolve().parents[3]
VECTORS = ROOT / "crates" / "vectors"


def calls():
    """The calls by their numbers, from the table of the second implementation. A second word is a form of a call that is told apart below."""
    lines = (ROOT / "reference" / "calls.txt").read_text().splitlines()
    numbered = [line.split(" ", 1) for line in lines if not line.startswith("#")]
    return {int(number): form for number, form in numbered}


CODES = {"uint8_t": "B", "uint16_t": "H", "uint32_t": "I", "uint64_t": "Q", "size_t": "Q", "double": "d"}


def code_of(kind):
    return CODES[kind.replace("const ", "").replace(" *", "")]


class Case:
    """One case: its form, its arguments by name, and what is expected: number, detail, and the lent lists at exit."""

    def __init__(self, form):
        self.form = form
        self.call = form.split()[0]
        self.arguments = {}
        self.lent = {}
        self.number = self.detail = None
        self.after = {}
        self.parts = []
        self.written = b""


class Input:
    """The numbers of a case."""

    def __init__(self, contents):
        self.contents, self.at = contents, 0

    def number(self):
        found = re.compile(rb"(\d+)[ \n]?").match(self.contents, self.at)
        self.at = found.end()
        return int(found.group(1))

    def list(self, code):
        width = 8 * array(code).itemsize
        return [self.number() % 2**width for _ in range(self.number())]

    def rest(self):
        return self.contents[self.at :]


class Output:
    """What the program writes."""

    def __init__(self, contents):
        self.contents, self.at = contents, 0

    def bytes(self, count):
        self.at += count
        return self.contents[self.at - count : self.at]

    def line(self):
        end = self.contents.index(b"\n", self.at)
        return self.bytes(end + 1 - self.at)[:-1].decode()

    def answer(self):
        return tuple(int(part) for part in self.line().split())

    def list(self):
        elements = []
        for run in self.line().split():
            element, _, count = run.partition("*")
            elements += [int(element)] * int(count or 1)
        return elements


def take(form, given):
    """The case that the input has."""
    case = Case(form)
    if form == "row cells":
        case.arguments = {name: given.number() for name in ("left", "right", "weight", "sum", "value")}
        return case
    for name, kind in CALLS[case.call]:
        code = code_of(kind)
        if name == "sheet":
            continue
        if not kind.endswith("*"):
            case.arguments[name] = given.number() % 2 ** (8 * array(code).itemsize)
        elif kind.startswith("const "):
            case.arguments[name] = given.list(code)
        elif name == "record":
            case.lent[name] = array(code, given.list(code))
        elif form == "window run":
            continue
        elif form in ("text", "refusal_text"):
            case.lent[name] = array(code, [7]) * MAX_OUTPUT
        else:
            case.lent[name] = array(code, [7]) * given.number()
    if any(name == "sheet" for name, _ in CALLS[case.call]):
        case.arguments["sheet"] = given.rest()
    return case


def expect(case, shown):
    """What stdout has of the case."""
    if case.form == "window run":
        case.parts = [part(shown)]
        return
    case.number, case.detail = shown.answer()
    if case.form == "row cells":
        case.parts = [shown.list(), shown.list()]
        return
    if case.call in ("text", "refusal_text"):
        case.written = shown.bytes(case.detail if case.number == 0 else 0)
        case.after["out"] = list(case.written) + shown.list()
    else:
        for name in case.lent:
            case.after[name] = shown.list()
    if case.call == "compare":
        case.parts = [part(shown)]


def part(shown):
    """A part of a list: its length, as an answer, and its elements."""
    low, high = shown.answer()
    elements = shown.list()
    assert len(elements) == low + 256 * high
    return elements


def cases():
    """Every case."""
    numbered = calls()
    given, shown = (VECTORS / "stdin").read_bytes(), Output((VECTORS / "stdout").read_bytes())
    at = 0
    while at < len(given):
        size = int(given[at : at + 5])
        one = Input(given[at + 6 : at + 6 + size])
        at += 6 + size
        case = take(numbered[one.number()], one)
        expect(case, shown)
        yield case
    assert shown.at == len(shown.contents)
