"""What a refusal says, and what it leaves."""

import pickle
import tempfile
import unittest
from array import array
from pathlib import Path
from unittest import mock

import tankcurve
from tankcurve import Refused, Report
from tankcurve import _call
from tankcurve._header import CALLS

from samples import SHEET, arguments, every, made

FRONT = b"mark,half\n20,10\n\nminute,inj,vdk\n"
READINGS = b"10,3,40\n" * 1025

# Each report by its name: a call that earns it, what is changed of arguments that it accepts, the place, and the line if there is one.
EARNED = {
    "TOO_LONG": ("read", {"sheet": FRONT + b"1,1,1\n" * 6000}, 32768, 4 + 5456 + 1),
    "BAD_HEADER": ("text", {"sheet": b"mark,half\n20,10\n\nminute,inj\n"}, 17, 4),
    "MALFORMED_LINE": ("read", {"sheet": FRONT + b"10,3,40\r\n11,3\n"}, 41, 6),
    "SAMPLE_OUT_OF_ORDER": ("evaluate", {"minutes": [10, 20, 19, 35]}, 2, None),
    "POINT_OUT_OF_ORDER": ("smooth", {"points": [20, 25, 24]}, 2, None),
    "TOO_MANY": ("read", {"sheet": FRONT + READINGS}, len(FRONT + READINGS) - 8, 4 + 1025),
    "NO_POINTS": ("text", {"sheet": b"mark,half\n\nminute,inj,vdk\n"}, 10, 2),
    "LENGTH_MISMATCH": ("neighbours", {"values": [1, 2, 3]}, 0, None),
    "BANDWIDTH_OUT_OF_RANGE": ("decisive", {"bandwidth": 65537}, 0, None),
    "EDGE_DECREASES": ("first_at_most", {"bandwidths": [10, 15, 51]}, 2, None),
    "INVALID_RECORD": ("turn", {"record": array("Q", [2, 1, 0, 0, 0, 0, 0, 0, 0])}, 0, None),
    "UNKNOWN_PRESET": ("fill", {"preset": 12}, 0, None),
    "GRID_OVERFLOW": ("fill", {"first": 65530}, 0, None),
    "TOO_FEW_SAMPLES": ("neighbours", {"k": 5}, 0, None),
    "CROSSED_RANGE": ("smooth_ranges", {"lows": [40, 61, 80, 0]}, 1, None),
    "SECOND_SERIES": ("compare", {"minutes2": [10, 20, 20, 19]}, 3, None),
    "TEMPERATURE_OUT_OF_ORDER": ("boxes", {"temperature_points": [55, 54]}, 1, None),
}


class Refusals(unittest.TestCase):
    def refused(self, call, given):
        with self.assertRaises(Refused) as raised:
            made(call, given)
        return raised.exception

    def test_each_report_by_name(self):
        for report in Report:
            if report == Report.ACCEPTED:
                continue
            call, changed, place, line = EARNED[report.name]
            given = {**arguments(call), **changed}
            lent = {name: one[:] for name, one in given.items() if isinstance(one, array)}
            with self.subTest(report=report.name):
                refused = self.refused(call, given)
                self.assertIsInstance(refused, ValueError)
                self.assertIs(refused.number, report)
                self.assertEqual((refused.place, refused.word, refused.line), (place, report.word, line))
                where = f" (line {line})" if line else ""
                self.assertEqual(str(refused), f"report {int(report)}, {report.word}, at {place}{where}")
                for name, before in lent.items():
                    self.assertTrue(given[name] == before, name)

    def test_lent_lists_of_another_length(self):
        for call, name, kind in every(lambda name, kind: kind.endswith("*") and not kind.startswith("const ")):
            for more in (-1, 1):
                given = arguments(call)
                for one in given.values():
                    if isinstance(one, array):
                        one[:] = array(one.typecode, [7] * len(one))
                given["record"] = array("Q", [0] * 9) if "record" in given else None
                given = {key: one for key, one in given.items() if one is not None}
                one = given[name]
                given[name] = one[:-1] if more < 0 else one + array(one.typecode, [7])
                before = {key: one[:] for key, one in given.items() if isinstance(one, array)}
                with self.subTest(call=call, name=name, more=more):
                    refused = self.refused(call, given)
                    self.assertEqual((refused.number, refused.place, refused.line), (Report.LENGTH_MISMATCH, 0, None))
                    for key, one in before.items():
                        self.assertTrue(given[key] == one, key)

    def test_a_list_keeps_its_items(self):
        minutes, values = [20, 10], [1, 2]
        with self.assertRaises(Refused):
            tankcurve.evaluate(minutes, values, 20, 10)
        self.assertEqual((minutes, values), ([20, 10], [1, 2]))

    def test_a_refusal_travels(self):
        for refused in (Refused(4, 2), Refused(3, 41, 6)):
            again = pickle.loads(pickle.dumps(refused))
            self.assertEqual((again.number, again.place, again.line, str(again)), (refused.number, refused.place, refused.line, str(refused)))

    def test_an_answer_that_is_not_known(self):
        with mock.patch.dict(_call._FUNCTIONS, {"evaluate": lambda *passed: 99 + 256}):
            with self.assertRaisesRegex(RuntimeError, "355"):
                tankcurve.evaluate([1], [2], 1, 1)


class Sheets(unittest.TestCase):
    def test_a_path_is_as_its_bytes(self):
        for call, _, _ in every(lambda name, kind: name == "sheet"):
            with self.subTest(call=call), tempfile.TemporaryDirectory() as folder:
                path = Path(folder) / "one.sheet"
                path.write_bytes(SHEET)
                function = getattr(tankcurve, call)
                strided = memoryview(bytes(byte for one in SHEET for byte in (one, 0)))[::2]
                for sheet in (path, str(path), bytearray(SHEET), memoryview(SHEET), array("B", SHEET), strided):
                    self.assertEqual(function(sheet), function(SHEET))
                path.write_bytes(FRONT + b"1,1,1\n" * 100_000)
                with self.assertRaises(Refused) as raised:
                    function(path)
                self.assertEqual((raised.exception.number, raised.exception.place), (Report.TOO_LONG, 32768))

    def test_the_line_where_a_sheet_ends(self):
        for sheet, line in ((b"", 1), (b"mark,half\n20,10\n", 3), (b"mark,half\r\n20,10\r\n\r\n", 4)):
            with self.assertRaises(Refused) as raised:
                tankcurve.read(sheet)
            self.assertEqual((raised.exception.place, raised.exception.line), (len(sheet), line))

    def program(self, path):
        """What the program writes of a sheet."""
        try:
            return tankcurve.text(path)
        except Refused as refused:
            return tankcurve.refusal_text(refused.number, refused.place)

    def swept(self, path):
        """What a sheet's lists and their sweep say: marks, half widths, rows, and the last line."""
        ranged = b"minute,inj,low,high" in path.read_bytes()
        sheet = tankcurve.read_ranges(path) if ranged else tankcurve.read(path)
        curve = tankcurve.smooth_ranges(*sheet[:5]) if ranged else tankcurve.smooth(*sheet)
        return sheet.points, sheet.bandwidths, curve.rows, f"{sheet.counts.samples},{curve.passes}"

    def test_what_is_read_is_swept(self):
        for path in sorted((Path(__file__).resolve().parents[3] / "examples").glob("*.sheet")):
            curve = path.with_suffix(".curve").read_bytes()
            with self.subTest(sheet=path.name):
                self.assertEqual(self.program(path), curve)
                lines = curve.decode().splitlines()
                if lines[0] == "refused,place":
                    continue
                marks, halves, rows, last = self.swept(path)
                shown = [
                    ",".join("-" if number is None else str(number) for number in (mark, half, *row))
                    for mark, half, row in zip(marks, halves, rows)
                ]
                self.assertEqual((lines[1:-3], lines[-1]), (shown, last))

    def test_a_plain_value_stands_as_low_and_high(self):
        plain, both = tankcurve.read(SHEET), tankcurve.read_ranges(SHEET)
        self.assertEqual(both, (plain.minutes, plain.values, plain.values, plain.points, plain.bandwidths, tankcurve.Kind.PLAIN))
        rows = tankcurve.smooth_ranges(*both[:5]).rows
        self.assertEqual([(row.low_value, row.high_value) for row in rows], [(70, 70), (58, 58), (None, None)])
        with self.assertRaises(Refused) as raised:
            tankcurve.read_ranges(b"mark,half\n20,10\n\nminute,inj,low,high\n10,3,0,40\n12,1,901,900\n")
        self.assertEqual((raised.exception.number, raised.exception.place, raised.exception.line), (Report.CROSSED_RANGE, 47, 6))


class Words(unittest.TestCase):
    def test_every_report_is_earned(self):
        self.assertLessEqual({report.name for report in Report} - {"ACCEPTED"}, set(EARNED))
        self.assertLessEqual({call for call, *_ in EARNED.values()} & set(CALLS), set(dir(tankcurve)))


if __name__ == "__main__":
    unittest.main()
