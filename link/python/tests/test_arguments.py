"""What may be passed: every argument of every call, with items that do not fit and with buffers that do."""

import ctypes
import unittest
from array import array
from collections import deque
from decimal import Decimal
from fractions import Fraction
from unittest import mock

import tankcurve
from tankcurve import Refused, Report
from tankcurve import _call

from samples import arguments, every, is_list, is_written, made
from vectors import code_of

try:
    import numpy
except ImportError:
    numpy = None

LISTS_READ = every(lambda name, kind: is_list(kind) and not is_written(kind) and name != "sheet")
LISTS_WRITTEN = every(lambda name, kind: is_written(kind))
NUMBERS = every(lambda name, kind: not is_list(kind))


def most(kind):
    return 2 ** (8 * array(code_of(kind)).itemsize) - 1


class bool_:
    """As numpy's of some versions, which has an index."""

    def __index__(self):
        return 1


def unfit(kind):
    """What is no number of the type."""
    return [-1, most(kind) + 1, 10**5000, 2.5, 2.0, float("nan"), float("inf"), True, False, "1", b"1", None, [1], 1j, Decimal(1), Fraction(1), bool_()]


class NotCalled(unittest.TestCase):
    """Arguments that are refused before any call."""

    def refused(self, call, error, beginning, **changed):
        given = {**arguments(call), **changed}
        with mock.patch.dict(_call._FUNCTIONS, {call: mock.Mock(side_effect=AssertionError("called"))}):
            with self.assertRaises(error) as raised:
                made(call, given)
        self.assertNotIsInstance(raised.exception, Refused)
        self.assertTrue(str(raised.exception).startswith(beginning), f"{call}: {raised.exception}")

    def test_the_samples_are_accepted(self):
        for call in tankcurve._header.CALLS:
            with self.subTest(call=call):
                made(call, arguments(call))

    def test_numbers(self):
        for call, name, kind in NUMBERS:
            for value in unfit(kind):
                with self.subTest(call=call, name=name, value=type(value)):
                    self.refused(call, ValueError, f"{name}: ", **{name: value})

    def test_items(self):
        for call, name, kind in LISTS_READ:
            good = list(arguments(call)[name])
            for item in unfit(kind):
                for at in (0, len(good) - 1):
                    with self.subTest(call=call, name=name, item=type(item), at=at):
                        self.refused(call, ValueError, f"{name}[{at}]: ", **{name: good[:at] + [item] + good[at + 1 :]})

    def test_buffers_of_items_that_do_not_fit(self):
        for call, name, kind in LISTS_READ:
            wrong = [array("d", [1.0]), array("q", [-1]), memoryview(b"\1").cast("?"), (ctypes.c_int * 1)(-1)]
            for items in wrong + ([array("Q", [most(kind) + 1])] if most(kind) < 2**64 - 1 else []):
                with self.subTest(call=call, name=name, items=items):
                    self.refused(call, ValueError, f"{name}[0]: ", **{name: items})
            with self.subTest(call=call, name=name):
                self.refused(call, ValueError, f"{name}: ", **{name: memoryview(bytes(4)).cast("B", (2, 2))})

    def test_what_is_no_list(self):
        for call, name, kind in LISTS_READ:
            for value in (5, None, 2.5, object(), {1, 2}, frozenset([1]), {1: 2}, iter([1]), (x for x in [1])):
                with self.subTest(call=call, name=name, value=type(value)):
                    self.refused(call, TypeError, f"{name}: ", **{name: value})

    def test_a_run_needs_slices(self):
        for call, name in (("window", "values"), ("compare", "values1"), ("compare", "values2")):
            self.refused(call, TypeError, f"{name}: ", **{name: deque([1, 2, 3, 4])})
        self.assertEqual(tankcurve.evaluate(deque([5]), deque([9]), 5, 1).value, 9)

    def test_sheets(self):
        for call, name, _ in every(lambda name, kind: name == "sheet"):
            for value in (5, None, 2.5, True, [109], object()):
                with self.subTest(call=call, value=value):
                    self.refused(call, TypeError, "sheet: ", sheet=value)
            self.refused(call, ValueError, "sheet: ", sheet=array("H", [1]))
            self.refused(call, OSError, "", sheet="/no/such/sheet")

    def test_lent_lists(self):
        for call, name, kind in LISTS_WRITTEN:
            good = arguments(call)[name]
            size = good.itemsize
            signed = {"B": "b", "H": "h", "I": "i", "Q": "q", "d": "Q"}[good.typecode]
            room = bytearray((len(good) + 2) * size + 1)
            start = (-ctypes.addressof(ctypes.c_char.from_buffer(room))) % size
            values = [
                (TypeError, list(good)),
                (TypeError, tuple(good)),
                (TypeError, 5),
                (TypeError, object()),
                (ValueError, memoryview(good).toreadonly()),
                (ValueError, bytes(memoryview(good)) if size > 1 else bytes(len(good))),
                (ValueError, array(signed, bytes(len(good) * size))),
                (ValueError, array("I" if size != 4 else "H", [0]) * len(good)),
                (ValueError, memoryview(array(good.typecode, bytes(2 * len(good) * size)))[::2]),
            ]
            if size > 1:
                values.append((ValueError, memoryview(room)[start + 1 : start + 1 + len(good) * size].cast(good.typecode)))
            if len(good) == 1:
                values.pop(8)  # every view of one item is contiguous
            for error, value in values:
                with self.subTest(call=call, name=name, value=type(value)):
                    self.refused(call, error, f"{name}: ", **{name: value})

    def test_lists_over_each_other(self):
        room = bytearray(2048)
        rows, minutes = memoryview(room)[:120].cast("Q"), memoryview(room)[112:120].cast("H")
        self.refused("smooth", ValueError, "rows lies over minutes", rows=rows, minutes=minutes)
        self.refused("fill", ValueError, "bandwidths lies over points", points=memoryview(room)[:6].cast("H"), bandwidths=memoryview(room)[4:16].cast("I"))
        record = array("Q", [0] * 9)
        self.refused("row", ValueError, "row lies over record", record=record, row=memoryview(record)[4:])
        # beside each other is not over each other, and lists that are only read may share their elements
        both = array("H", [10, 20, 20, 35])
        rows, minutes = memoryview(room)[:120].cast("Q"), memoryview(room)[120:128].cast("H")
        made("smooth", {**arguments("smooth"), "rows": rows, "minutes": minutes})
        made("evaluate", {**arguments("evaluate"), "minutes": both, "values": both})

    def test_a_record_without_a_step(self):
        with self.assertRaises(ValueError):
            tankcurve.Record().row()
        self.assertIsNone(tankcurve.Record().row(20, 10).value)

    def test_the_fillers_count(self):
        for count in (-1, 2.5, True, "3", 2**64):
            with self.assertRaisesRegex(ValueError, "^count: "):
                tankcurve.fill(0, 1, 0, count)
        with self.assertRaises(TypeError):
            tankcurve.fill(0, 1, 0)


class Passed(unittest.TestCase):
    """What a call gets."""

    def got(self, call, name, given):
        """The address and the length that the call gets for a list."""
        seen = []
        function = _call._FUNCTIONS[call]

        def spy(*passed):
            seen.append(passed)
            return function(*passed)

        with mock.patch.dict(_call._FUNCTIONS, {call: spy}):
            try:
                made(call, given)
            except Refused:
                pass
        at = 0
        for parameter in _call._PARAMETERS[call]:
            if parameter.name == name:
                return seen[0][at : at + 2]
            at += 2 if parameter.listed else 1

    def test_fitting_buffers_are_not_copied(self):
        for call, name, kind in LISTS_READ + LISTS_WRITTEN:
            given = arguments(call)
            own = array(code_of(kind), given[name])
            address, count = own.buffer_info()
            c_type = {"B": ctypes.c_uint8, "H": ctypes.c_uint16, "I": ctypes.c_uint32, "Q": ctypes.c_uint64, "d": ctypes.c_double}
            views = [own, memoryview(own), (c_type[own.typecode] * count).from_buffer(own)]
            if not is_written(kind):
                views.append(memoryview(own).toreadonly())
            for view in views:
                with self.subTest(call=call, name=name, view=type(view)):
                    self.assertEqual(self.got(call, name, {**given, name: view}), (address, count))

    def test_bytes_are_not_copied(self):
        sheet = arguments("read")["sheet"]
        address = ctypes.cast(ctypes.c_char_p(sheet), ctypes.c_void_p).value
        self.assertEqual(self.got("read", "sheet", arguments("read")), (address, len(sheet)))

    def test_empty_lists_have_a_pointer(self):
        for call, name, kind in LISTS_READ + LISTS_WRITTEN:
            for nothing in ([], array(code_of(kind)), memoryview(array(code_of(kind), [1]))[1:]):
                if is_written(kind) and isinstance(nothing, list):
                    continue
                with self.subTest(call=call, name=name):
                    address, count = self.got(call, name, {**arguments(call), name: nothing})
                    self.assertEqual((count, address % 8), (0, 0))
                    self.assertTrue(address)

    def test_items_that_do_not_lie_right_are_copied(self):
        room = bytearray(16)
        start = 1 - ctypes.addressof(ctypes.c_char.from_buffer(room)) % 2
        misaligned = memoryview(room)[start : start + 8].cast("H")
        misaligned[0], misaligned[3] = 5, 700
        given = {"minutes": misaligned, "values": [1, 2, 3, 4], "point": 5, "bandwidth": 1}
        with self.assertRaises(Refused):
            tankcurve.evaluate(**given)
        self.assertEqual(self.got("evaluate", "minutes", given)[0] % 2, 0)
        self.assertEqual(tankcurve.evaluate(array("H", [30, 20, 10])[::-1], memoryview(array("H", [3, 2, 1]))[::-1], 10, 5).value, 1)

    def test_lists_are_free_again_behind_a_call(self):
        minutes, values, row = array("H", [20, 10]), array("H", [1, 2]), array("Q", [7] * 5)
        try:
            tankcurve.evaluate(minutes, values, 20, 10, row=row)
        except Refused:
            minutes.append(1), values.append(1), row.append(1)
        self.assertEqual((minutes, values, row), (array("H", [20, 10, 1]), array("H", [1, 2, 1]), array("Q", [7] * 5 + [1])))
        rows = array("Q", [0] * 5)
        curve = tankcurve.smooth([5], [9], [5], [1], rows=rows)
        rows.append(1)
        rows[4] = 0
        self.assertEqual(curve.rows[0].value, 9)

    def test_lists_that_are_too_long_are_the_calls_refusal(self):
        for count in (1025, 70_000):
            with self.assertRaises(Refused) as raised:
                tankcurve.evaluate([0] * count, [0] * count, 0, 1)
            self.assertEqual(raised.exception.number, Report.TOO_MANY)
        for count, report in ((0, Report.NO_POINTS), (513, Report.TOO_MANY), (10**12, Report.TOO_MANY)):
            with self.assertRaises(Refused) as raised:
                tankcurve.fill(0, 1, 0, count)
            self.assertEqual(raised.exception.number, report)
        self.assertEqual(len(tankcurve.fill(0, 1, 0, 512).points), 512)

    def test_rows_of_two_dimensions(self):
        rows = memoryview(bytearray(120)).cast("Q", (3, 5))
        curve = made("smooth", {**arguments("smooth"), "rows": rows})
        self.assertEqual(rows[1, 4], curve.rows[1].value)

    def test_items_that_were_signed(self):
        signed = array("q", [0] * 5)
        row = tankcurve.row([0, 3, 3, 50, 900, 180, 3200, 60000, 3], 0, 0, row=memoryview(signed).cast("B").cast("Q"))
        self.assertEqual(row.weight, 2**64 - 900)
        self.assertEqual(signed[2], -900)

    def test_runs_are_slices_of_the_callers_list(self):
        for values in ([1, 2, 3], (1, 2, 3), array("H", [1, 2, 3]), range(1, 4)):
            run = tankcurve.window([10, 20, 30], values, 20, 10).run
            self.assertEqual((type(run), list(run)), (type(values), [1, 2, 3]))
        values = memoryview(array("H", [1, 2, 3]))
        run = tankcurve.window([10, 20, 30], values, 30, 10).run
        values[2] = 9
        self.assertEqual(run[1], 9)


class Records(unittest.TestCase):
    def test_a_record_is_as_its_numbers(self):
        minutes, values = [10, 20, 20, 35], [40, 60, 80, 20]
        record, numbers = tankcurve.Record(), array("Q", [0] * 9)
        for name, point, bandwidth in (("advance", 20, 10), ("turn", 10, 4), ("turn", 60, 40), ("advance", 65535, 1)):
            self.assertEqual(
                getattr(record, name)(minutes, values, point, bandwidth),
                getattr(tankcurve, name)(numbers, minutes, values, point, bandwidth),
            )
            self.assertEqual(record.sums, tuple(numbers))
            self.assertEqual(record.row(), tankcurve.row(numbers, point, bandwidth))
            self.assertEqual(record.row(), tankcurve.evaluate(minutes, values, point, bandwidth))

    def test_a_refused_step_leaves_the_record(self):
        record = tankcurve.Record()
        record.advance([10, 20], [1, 2], 20, 10)
        before, row = record.sums, record.row()
        for move in (record.advance, record.turn):
            for minutes, point, bandwidth in (([10], 20, 10), ([10, 20], 20, 0)):
                with self.assertRaises(Refused):
                    move(minutes, [1, 2][: len(minutes)], point, bandwidth)
                self.assertEqual((record.sums, record.row()), (before, row))


@unittest.skipIf(numpy is None, "numpy is not installed")
class Numpy(unittest.TestCase):
    def test_arrays(self):
        minutes, values = numpy.array([10, 20, 20, 35], "u2"), numpy.array([40, 60, 80, 20])
        points, bandwidths = numpy.array([20, 25, 60], ">u2"), numpy.array([10, 15, 20], "u4")
        expected = tankcurve.smooth(minutes.tolist(), values.tolist(), points.tolist(), bandwidths.tolist())
        rows = numpy.zeros((3, 5), numpy.uint64)
        curve = tankcurve.smooth(minutes, values, points, bandwidths, rows=rows)
        self.assertEqual(curve, expected)
        self.assertTrue((curve.rows.as_array() == rows).all())
        self.assertEqual((curve.rows.as_array().dtype, curve.rows.as_array().shape), (numpy.uint64, (3, 5)))
        self.assertTrue(numpy.shares_memory(tankcurve.window(minutes, values, 20, 10).run, values))

    def test_nothing_is_copied(self):
        minutes = numpy.array([10, 20, 20, 35], "u2")
        minutes.setflags(write=False)
        given = {**arguments("evaluate"), "minutes": minutes}
        self.assertEqual(Passed.got(self, "evaluate", "minutes", given), (minutes.ctypes.data, 4))

    def test_what_does_not_fit(self):
        for wrong in ([True, False], [1.0, 2.0], [-1, 2], [1, 65536], [numpy.nan, 1]):
            with self.assertRaisesRegex(ValueError, r"^minutes\[[01]\]: "):
                tankcurve.evaluate(numpy.array(wrong), [1, 2], 1, 1)
        for wrong in (numpy.float64(2), numpy.bool_(True), numpy.int64(-1)):
            with self.assertRaisesRegex(ValueError, "^point: "):
                tankcurve.evaluate([1], [2], wrong, 1)
        self.assertEqual(tankcurve.evaluate([1], [2], numpy.int64(1), numpy.uint8(1)).value, 2)


if __name__ == "__main__":
    unittest.main()
