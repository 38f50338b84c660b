"""Each call against the vectors of the second implementation."""

import struct
import unittest
from array import array

import tankcurve
from tankcurve import MISSING, NO_POSITION, Refused, Report, Tank
from tankcurve._header import CALLS

from vectors import VECTORS, calls, cases, code_of


def numbers_of(row):
    """A row as the numbers that the call writes."""
    return [MISSING if number is None else number for number in row]


def flat(rows):
    return [number for row in rows for number in numbers_of(row)]


def positions(position):
    return [NO_POSITION if position is None else position]


# What an answer says of the detail and of the lists at exit. A list of which a front part is filled is given by that part.
SAYS = {
    "evaluate": lambda a: (0, [numbers_of(a)]),
    "biweight": lambda a: (0, [numbers_of(a)]),
    "row": lambda a: (0, [numbers_of(a)]),
    "window": lambda a: (0, [[a.left, a.right]]),
    "advance": lambda a: (0, [list(a)]),
    "turn": lambda a: (0, [list(a)]),
    "smooth": lambda a: (a.passes, [flat(a.rows)]),
    "preview": lambda a: (a.passes, [flat(a.rows)]),
    "fill": lambda a: (0, [list(a.points), list(a.bandwidths)]),
    "read": lambda a: (0, [*map(list, a), list(a.counts)]),
    "text": lambda a: (len(a), [list(a)]),
    "refusal_text": lambda a: (len(a), [list(a)]),
    "first_at_most": lambda a: (a.passes, [positions(a.position)]),
    "decisive": lambda a: (0, [positions(a)]),
    "compare": lambda a: (a.tank, [[] if a.tank == Tank.ALIKE else [a.point, a.left, a.right]]),
    "neighbours": lambda a: (0, [list(a.bandwidths), flat(a.rows)]),
    "doubles": lambda a: (2 - [*a].count(None), [[bits(x) for x in a if x is not None]]),
    "smooth_ranges": lambda a: (a.passes, [flat(a.rows)]),
    "read_ranges": lambda a: (0, [*map(list, a[:5]), list(a.counts)]),
    "boxes": lambda a: (0, [flat(a.boxes), list(a.counts), list(a.sums)]),
}

# The forms in which a list that is read may be passed, one after the other.
FORMS = [
    lambda code, items: items,
    lambda code, items: tuple(items),
    lambda code, items: array(code, items),
    lambda code, items: memoryview(array(code, items)),
    lambda code, items: memoryview(array(code, items)).toreadonly(),
    lambda code, items: array("q" if code != "Q" else "Q", items),
    lambda code, items: memoryview(array(code, [x for item in items for x in (item, 0)]))[::2],
]

# The arguments that are not passed by their names in the module.
POSITIONAL = {"sheet", "record"}


def bits(double):
    return struct.unpack("<Q", struct.pack("<d", double))[0]


def elements(code, numbers):
    """A lent list's elements, doubles by their bits."""
    return [bits(double) for double in numbers] if code == "d" else list(numbers)


class Vectors(unittest.TestCase):
    def same(self, found, expected, what):
        """As assertEqual, without the differences, which take long for long lists."""
        if found != expected:
            self.fail(f"{what}: {str(found)[:200]} is not {str(expected)[:200]}")

    def made(self, case, k, lent):
        """The call's answer and its report, with lists passed in the k-th form."""
        kinds = dict(CALLS[case.call])
        given = {}
        for name, argument in case.arguments.items():
            form = FORMS[k % len(FORMS)]
            given[name] = form(code_of(kinds[name]), argument) if isinstance(argument, list) else argument
        before = {name: list(argument) for name, argument in given.items() if isinstance(case.arguments[name], list)}
        front = [given.pop("sheet")] if "sheet" in given else []
        if "record" in case.lent:
            front, lent = [lent["record"]], {name: one for name, one in lent.items() if name != "record"}
        try:
            answer, refused = getattr(tankcurve, case.call)(*front, **given, **lent), None
        except Refused as report:
            answer, refused = None, report
        for name, items in before.items():
            self.same(list(given[name]), items, name)
        return answer, refused, given

    def holds(self, case, k):
        kinds = dict(CALLS[case.call])
        lent = {name: one[:] for name, one in case.lent.items()}
        answer, refused, given = self.made(case, k, lent)
        for name, one in lent.items():
            self.same(elements(code_of(kinds[name]), one), case.after[name], name)
        if case.number != 0:
            self.assertIsNotNone(refused, answer)
            self.assertEqual((refused.number, refused.place), (case.number, case.detail))
            self.reports.add(refused.number)
        else:
            self.assertIsNone(refused)
            detail, lists = SAYS[case.call](answer)
            self.assertEqual(detail, case.detail)
            for said, name in zip(lists, lent):
                self.same(said, case.after[name][: len(said)], name)
        if case.call == "compare" and refused is None:
            whole = given["values2" if answer.tank == Tank.SECOND else "values1"]
            self.same(list(answer.run), case.parts[0], "run")
            self.assertIs(type(answer.run), type(whole))
        if case.call == "fill":
            return
        # a call that makes its lists itself answers alike; only of a lent list's length it cannot complain
        if "record" not in lent and not (refused is not None and refused.number == Report.LENGTH_MISMATCH):
            other, also, _ = self.made(case, k + 1, {})
            self.assertEqual(str(also), str(refused))
            self.same(other and SAYS[case.call](other), answer and SAYS[case.call](answer), "without lent lists")

    def window_run(self, case):
        try:
            found = tankcurve.window(**case.arguments)
        except Refused:
            self.assertEqual(case.parts, [[]])
            return
        self.assertEqual(found.run, case.parts[0])
        self.assertEqual(found.run, case.arguments["values"][found.left : found.right])

    def row_cells(self, case):
        weight, total = case.arguments["weight"], case.arguments["sum"]
        for number, cell in zip((weight, total), case.parts):
            self.assertEqual(SAYS["doubles"](tankcurve.doubles(weight, number))[1][0], cell)

    def test_every_case(self):
        self.reports = set()
        forms = set()
        for k, case in enumerate(cases()):
            forms.add(case.form)
            with self.subTest(case=k, call=case.form):
                if case.form == "window run":
                    self.window_run(case)
                elif case.form == "row cells":
                    self.row_cells(case)
                else:
                    self.holds(case, k)
        self.assertEqual(forms, set(calls().values()), "calls of the table without a vector")
        self.assertLessEqual(set(CALLS) - {"version"}, forms, "calls without a vector")
        self.assertEqual(self.reports, set(Report) - {Report.ACCEPTED}, "reports that no vector earns")

    def test_every_program_of_vectors(self):
        found = {path.parent.name for path in VECTORS.parent.glob("vectors*/stdin")}
        self.assertEqual(found, {VECTORS.name}, "programs of vectors that are not run")


if __name__ == "__main__":
    unittest.main()
