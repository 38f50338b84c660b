"""Lists that are too long, however long they are: the call's own refusal, with nothing made as long as they are."""

import itertools
import mmap
import random
import tracemalloc
import unittest
from array import array
from unittest import mock

import tankcurve
from tankcurve import Refused, Report
from tankcurve import _call
from tankcurve._header import CALLS

from samples import arguments, is_list, is_written, made
from vectors import code_of

# So many that no memory holds five numbers of 64 bits for each of them.
HUGE = 10**10

# The calls whose lists for the answer are as long as the marks' lists are.
BY_MARKS = ("smooth", "smooth_ranges", "preview", "neighbours", "boxes")


def untouched(code, count):
    """A list of so many zeros for which there is no memory: pages that nobody has touched."""
    size = count * array(code).itemsize
    if size == 0:
        return array(code)
    return memoryview(mmap.mmap(-1, size, flags=mmap.MAP_PRIVATE | mmap.MAP_ANONYMOUS, prot=mmap.PROT_READ)).cast(code)


def answer(call, given):
    """Number and place of what the call answers."""
    try:
        made(call, given)
    except Refused as refused:
        return int(refused.number), refused.place
    return 0, 0


def of_lengths(call, lengths, zeros):
    """Arguments of a call whose lists that are read have these lengths. Lists for the answer are lent where a length is named, else made."""
    given = {}
    for name, kind in CALLS[call]:
        if not is_list(kind):
            given[name] = arguments(call)[name]
        elif name in lengths:
            given[name] = zeros(code_of(kind), lengths[name])
        elif not is_written(kind) or name == "record":
            given[name] = arguments(call)[name]
    return given


def read_by(call):
    return [name for name, kind in CALLS[call] if is_list(kind) and not is_written(kind) and name != "sheet"]


def marks_of(call):
    return [name for name in read_by(call) if name.endswith("points") or name.endswith("bandwidths")]


class TooLong(unittest.TestCase):
    def refused(self, call, lengths, report, zeros=untouched):
        with self.subTest(call=call, lengths=lengths):
            self.assertEqual(answer(call, of_lengths(call, lengths, zeros)), (report, 0))

    def test_marks_in_both_directions(self):
        for count in (33, 60_000, 10**6):
            for beside in (0, 1, 33, 60_000, 10**6):
                lengths = {"points": count, "bandwidths": count, "temperature_points": beside, "temperature_bandwidths": beside}
                self.refused("boxes", lengths, Report.TOO_MANY)
                turned = {"points": beside, "bandwidths": beside, "temperature_points": count, "temperature_bandwidths": count}
                self.refused("boxes", turned, Report.TOO_MANY)
        lists = [[0] * 60_000, [1] * 60_000]
        with self.assertRaises(Refused) as raised:
            tankcurve.boxes([1], [1], [1], *lists, *lists)
        self.assertEqual((raised.exception.number, raised.exception.place), (Report.TOO_MANY, 0))

    def test_every_list_of_every_call(self):
        for call in CALLS:
            read = read_by(call)
            if not read or call == "row":
                continue
            one_by_one = [{name: HUGE} for name in read if name != "points" or call != "neighbours"]
            for lengths in one_by_one:
                second = set(lengths) <= {"minutes2", "values2"}
                self.refused(call, lengths, Report.SECOND_SERIES if second else Report.LENGTH_MISMATCH)
            self.refused(call, dict.fromkeys(read, HUGE), Report.TOO_MANY)
            marks = marks_of(call)
            if marks:
                self.refused(call, dict.fromkeys(marks, HUGE), Report.TOO_MANY)
                self.refused(call, dict.fromkeys(set(read) - set(marks), HUGE), Report.TOO_MANY)
        self.refused("row", {"record": HUGE}, Report.LENGTH_MISMATCH)
        self.refused("compare", {"minutes2": HUGE, "values2": HUGE}, Report.SECOND_SERIES)
        self.refused("neighbours", {"points": HUGE}, Report.TOO_MANY)

    def test_unequal_lists_are_told_first(self):
        for call in BY_MARKS:
            for name in read_by(call):
                if call == "neighbours" and name == "points":
                    continue
                for count in (HUGE - 1, HUGE + 1, 1025, 33, 1, 0):
                    self.refused(call, {**dict.fromkeys(read_by(call), HUGE), name: count}, Report.LENGTH_MISMATCH)

    def test_lent_lists_of_the_right_length(self):
        """They hold what they held, and so do others whose length is wrong by one or is that of fewer marks."""
        for call, width in (("smooth", 5), ("smooth_ranges", 7), ("preview", 5), ("neighbours", 5)):
            for count in (513, 1025, 1026, 3000):
                for more in (0, -1, 1, 5 * (1025 - count), 7 * (1025 - count)):
                    rows = array("Q", [7]) * (width * count + more)
                    before = rows[:]
                    given = {**of_lengths(call, dict.fromkeys(marks_of(call), count), untouched), "rows": rows}
                    expected = Report.LENGTH_MISMATCH if more else Report.TOO_MANY
                    with self.subTest(call=call, count=count, more=more):
                        self.assertEqual(answer(call, given), (expected, 0))
                        self.assertTrue(rows == before)
        for count in (600, 1025, 1030):
            for other in (count, count - 1, count + 1, 1025, 513):
                half, rows = array("I", [7]) * other, array("Q", [7]) * (5 * count)
                given = of_lengths("neighbours", {"points": count}, untouched)
                expected = Report.TOO_MANY if other == count else Report.LENGTH_MISMATCH
                for lent in ({"bandwidths": half}, {"bandwidths": half, "rows": rows}):
                    self.assertEqual(answer("neighbours", {**given, **lent}), (expected, 0))
                self.assertTrue(half == array("I", [7]) * other and rows == array("Q", [7]) * (5 * count))

    def test_lent_boxes(self):
        lengths = dict.fromkeys(["points", "bandwidths"], 2000)
        for more in (0, -1, 1, 2 * 2 * (1025 - 2000)):
            boxes = array("Q", [7]) * (2 * 2000 * 2 + more)
            lent = {"boxes": boxes, "counts": array("I", [7]) * 4225, "sums": array("I", [7]) * 4225}
            given = {**of_lengths("boxes", lengths, untouched), **lent}
            self.assertEqual(answer("boxes", given), (Report.LENGTH_MISMATCH if more else Report.TOO_MANY, 0))
            self.assertTrue(all(set(one) == {7} for one in lent.values()))
        for name in ("counts", "sums"):
            for count in (4224, 4226):
                lent = {name: array("I", [7]) * count}
                self.assertEqual(answer("boxes", {**of_lengths("boxes", lengths, untouched), **lent}), (Report.LENGTH_MISMATCH, 0))
                self.assertEqual(lent[name], array("I", [7]) * count)

    def test_the_filler(self):
        for count in (513, 600, 1025, 10**12, 2**64 - 1):
            for size in (0, 3, 512, 513, 514, 600, 1024, 1025, 1026, 5000):
                expected = Report.TOO_MANY if size == count else Report.LENGTH_MISMATCH
                for lent in ({"points": array("H", [7]) * size}, {"bandwidths": array("I", [7]) * size}):
                    with self.subTest(count=count, size=size, lent=list(lent)):
                        self.assertEqual(answer("fill", {"first": 0, "spacing": 1, "preset": 0, "count": count, **lent}), (expected, 0))
                        self.assertEqual([set(one) <= {7} and len(one) == size for one in lent.values()], [True])
            self.assertEqual(answer("fill", {"first": 0, "spacing": 1, "preset": 0, "count": count}), (Report.TOO_MANY, 0))
        lent = {"points": array("H", [7]) * 3}
        self.assertEqual(tankcurve.fill(5, 2, 0, 3, **lent).points, array("H", [5, 7, 9]))
        self.assertEqual(lent["points"], array("H", [5, 7, 9]))

    def test_sheets(self):
        for call in ("read", "read_ranges", "text"):
            self.assertEqual(answer(call, {"sheet": untouched("B", HUGE)}), (Report.TOO_LONG, 32768))
            for count, found in ((32768, (Report.BAD_HEADER, 0)), (32769, (Report.TOO_LONG, 32768)), (90_000, (Report.TOO_LONG, 32768))):
                self.assertEqual(answer(call, {"sheet": memoryview(bytes(2 * count))[::2]}), found)


class Cut(unittest.TestCase):
    """What is passed of lists that are too long for every call."""

    LENGTHS = (0, 1, 31, 32, 33, 64, 65, 256, 257, 512, 513, 1024, 1025, 1026, 1027, 1030, 1100)

    def zeros(self, code, count):
        return array(code, bytes(count * array(code).itemsize))

    def lengths(self, draw, call):
        """Lengths that agree, but for few."""
        drawn = {}
        samples, marks, others = (draw.choice(self.LENGTHS) for _ in range(3))
        if draw.random() < 0.95:
            others = min(others, 33)  # so that the lists of boxes are seldom long
        for name in read_by(call):
            drawn[name] = others if name.startswith("temperature_") else marks if name in marks_of(call) else samples
        belong = {"rows": marks * (7 if call == "smooth_ranges" else 5), "boxes": 2 * marks * others, "bandwidths": marks}
        for name, kind in CALLS[call]:
            if is_written(kind) and name in belong and draw.random() < 0.5:
                drawn[name] = belong[name]
        for name in [name for name in drawn if draw.random() < 0.06]:
            near = [drawn[name] - 1, drawn[name] + 1, draw.choice(self.LENGTHS)]
            if name in ("rows", "boxes"):
                near += [5 * 1025, 7 * 1025, 2 * 1025 * others, 2 * 33 * 33]
            drawn[name] = max(0, draw.choice(near))
        return drawn

    def test_the_report_is_that_of_the_whole_lists(self):
        draw = random.Random(20)
        seen = set()
        for call, _ in itertools.product([*BY_MARKS, "first_at_most", "compare", "evaluate"], range(250)):
            given = of_lengths(call, self.lengths(draw, call), self.zeros)
            with mock.patch.object(_call, "_cut", lambda lengths, most: dict(lengths)):
                whole = answer(call, given)
            seen.add((call, whole[0]))
            with self.subTest(call=call, lengths={name: len(one) for name, one in given.items() if hasattr(one, "__len__")}):
                self.assertEqual(answer(call, given), whole)
        for call in BY_MARKS:
            for report in (Report.LENGTH_MISMATCH, Report.TOO_MANY, Report.NO_POINTS):
                self.assertIn((call, report), seen)

    def test_lengths(self):
        given = {"a": 9, "b": 10**30, "c": 7, "d": 11, "e": 10**30, "f": 0, "g": 8}
        self.assertEqual(_call._cut(given, 8), {"a": 9, "b": 11, "c": 7, "d": 10, "e": 11, "f": 0, "g": 8})
        for length, belong, cut in itertools.product(range(40), range(30), range(1, 10)):
            if cut <= belong:
                alike = _call._cut_alike(length, belong, cut)
                self.assertTrue(0 <= alike <= length and (alike == cut) == (length == belong))


class Many:
    """A sequence that says its items one by one, and has no room for them."""

    def __init__(self, count, item=0):
        self.count, self.item = count, item

    def __len__(self):
        return self.count

    def __getitem__(self, index):
        return [] if isinstance(index, slice) else self.item

    def __iter__(self):
        return itertools.repeat(self.item, self.count)


class Copied(unittest.TestCase):
    def test_no_copy_is_as_long_as_the_list(self):
        count = 1_000_000
        lists = [Many(count), (0,) * count, memoryview(array("H", bytes(4 * count)))[::2], memoryview(array("Q", bytes(8 * count)))]
        for one in lists:
            with self.subTest(type=type(one)):
                tracemalloc.start()
                try:
                    found = answer("evaluate", {"minutes": one, "values": one, "point": 1, "bandwidth": 1})
                    _, most = tracemalloc.get_traced_memory()
                finally:
                    tracemalloc.stop()
                self.assertEqual(found, (Report.TOO_MANY, 0))
                self.assertLess(most, count // 2)

    def test_each_item_is_looked_at(self):
        for at in (0, 4095, 4096, 9000, 1_000_000 - 1):
            items = [0] * 1_000_000
            for item in (-1, 65536, 2.5, True):
                items[at] = item
                with self.assertRaisesRegex(ValueError, rf"^points\[{at}\]: "):
                    tankcurve.smooth([1], [1], items, items)

    def test_items_without_an_end(self):
        for name in ("minutes", "values"):
            with self.assertRaisesRegex(ValueError, rf"^{name}\[65536\]: 65536 is not"):
                made("evaluate", {**arguments("evaluate"), name: range(2**70)})

    def test_copies_of_unequal_lists(self):
        """The lengths are those of the lists, and no more is passed of a copy than it has."""
        copies, passed = [], []
        copied, function = _call._copied, _call._FUNCTIONS["boxes"]

        def copying(*given):
            copies.append(copied(*given)[0])
            return copied(*given)

        def spy(*given):
            passed.extend(zip(given[1:14:2], copies))
            return function(*given)

        for counts in ([5000] * 7, [5000 + k for k in range(7)], [9000, 8000, 7000, 6000, 5000, 4000, 3000], [5000, 5000, 5000, 9, 9, 4000, 6000]):
            expected = Report.TOO_MANY if len(set(counts)) == 1 else Report.LENGTH_MISMATCH
            given = dict(zip(read_by("boxes"), ([0] * count for count in counts)))
            del copies[:]
            with mock.patch.object(_call, "_copied", copying), mock.patch.dict(_call._FUNCTIONS, {"boxes": spy}):
                self.assertEqual(answer("boxes", given), (expected, 0))
        self.assertEqual(len(passed), 28)
        for length, copy in passed:
            self.assertLessEqual(length, len(copy))
        for one, other in ((5000, 6000), (1025, 5000), (5000, 1025), (1024, 5000)):
            self.assertEqual(answer("evaluate", {"minutes": [0] * one, "values": [0] * other, "point": 1, "bandwidth": 1}), (Report.LENGTH_MISMATCH, 0))

    def test_copies_are_whole_where_they_count(self):
        values = [7] * 1023 + [8]
        self.assertEqual(tankcurve.evaluate(range(1024), values, 1023, 1).value, 8)


if __name__ == "__main__":
    unittest.main()
