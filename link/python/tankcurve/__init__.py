"""The tank curve for Python: kernel regression in exact whole numbers, by the proved calls of libtankcurve_abi.a.

>>> sheet = read(b"mark,half\\n20,10\\n60,20\\n\\nminute,inj,vdk\\n10,3,40\\n20,3,60\\n20,4,80\\n35,5,20\\n")
>>> [row.value for row in smooth(*sheet).rows]
[70, None]

A list is any sequence of whole numbers, or a buffer such as an array or a numpy array, which is not copied where its items fit. A number that
does not fit its width is a ValueError before any call. A refusal of a call is Refused, and a list that is too long is such a refusal, however long it is.
A missing value is None.

A list for the answer may be lent by its name (row, bounds, rows, points, ...): an array or another buffer that can be written and has exactly the length
that the call states. It receives what the call writes; on a refusal it holds what it held before.

What the calls mean stands in docs/SPECIFICATION.md, and beside each call in link/include/tankcurve.h; words in quotes are the trade's. A minute counts from
pitching; a value is in tenths of a microgram per litre.
"""

from array import array
from typing import Any, NamedTuple, Optional, Union

from . import _boxes, _header, _ranges
from ._boxes import *
from ._call import Refused, call, library_version, number, version_text
from ._header import *
from ._lists import Lent, Numbers, Rows, Source, call_with_sheet, lent, part
from ._ranges import *

__all__ = [
    "Counts",
    "Crossing",
    "Doubles",
    "Grid",
    "Neighbours",
    "Numbers",
    "Parting",
    "Record",
    "Refused",
    "Row",
    "Rows",
    "RunningSums",
    "Sheet",
    "Smoothed",
    "Window",
    "advance",
    "biweight",
    "compare",
    "decisive",
    "doubles",
    "evaluate",
    "fill",
    "first_at_most",
    "neighbours",
    "preview",
    "read",
    "refusal_text",
    "row",
    "smooth",
    "text",
    "turn",
    "version",
    "window",
]
__all__ += _header.__all__
__all__ += _boxes.__all__
__all__ += _ranges.__all__

Refused.__module__ = Numbers.__module__ = Rows.__module__ = __name__

class Row(NamedTuple):
    """The estimate at a point: how many samples lie before the window and up to its right edge, weight, weighted sum, and value, None where there is no
    weight."""

    left: int
    right: int
    weight: int
    sum: int
    value: Optional[int]

    @property
    def of_readings(self) -> bool:
        """Whether the numbers are within what a row of readings has. False for many rows of a record that are not of its last accepted step or
        turn, not for all. Not for rows of biweight, whose numbers are greater.

        >>> record = Record()
        >>> record.advance([10, 20, 20, 35], [40, 60, 80, 20], 20, 10).s00
        3
        >>> record.row().of_readings, record.row(40, 10).of_readings
        (True, False)
        """
        return self.weight <= MAX_WEIGHT and self.sum <= MAX_SUM and (self.value is None or self.value < MISSING)


def _row(numbers: "array[int]") -> Row:
    left, right, weight, total, value = numbers
    return Row(left, right, weight, total, value if weight else None)


class Window(NamedTuple):
    """The samples inside a window: from position left up to but without right, and their values, a slice of the caller's own."""

    left: int
    right: int
    run: Numbers


class RunningSums(NamedTuple):
    """The numbers of a running record: edges, sums of minute to the power p times value to the power q, and passes, modulo 2^64."""

    left: int
    right: int
    s00: int
    s10: int
    s20: int
    s01: int
    s11: int
    s21: int
    passes: int


class Smoothed(NamedTuple):
    """The rows of a curve, one a point, and the passes of the sweep."""

    rows: Rows[Row]
    passes: int


class Grid(NamedTuple):
    """Points and bandwidths."""

    points: "array[int]"
    bandwidths: "array[int]"


class Counts(NamedTuple):
    """How many samples and points a sheet has."""

    samples: int
    points: int


class Sheet(NamedTuple):
    """What a sheet has: kept samples, and points with bandwidths, in the order in which smooth takes them."""

    minutes: "array[int]"
    values: "array[int]"
    points: "array[int]"
    bandwidths: "array[int]"

    @property
    def counts(self) -> Counts:
        """How many samples are kept, and how many points there are.

        >>> read(b"mark,half\\n20,10\\n\\nminute,inj,vdk\\n10,3,40\\n11,3,41\\n").counts
        Counts(samples=2, points=1)
        """
        return Counts(len(self.minutes), len(self.points))


class Crossing(NamedTuple):
    """Where a curve is first at or below a limit: the point's position, or None, and the passes."""

    position: Optional[int]
    passes: int


class Parting(NamedTuple):
    """Where two tanks part: the higher tank, the point's position, and the run of the higher tank there, from left up to but without right, a slice of its
    own values. Alike tanks have no position, and an empty slice of the first tank's values."""

    tank: Tank
    point: Optional[int]
    left: Optional[int]
    right: Optional[int]
    run: Numbers


class Neighbours(NamedTuple):
    """Bandwidths by neighbours, and the rows with them."""

    bandwidths: "array[int]"
    rows: Rows[Row]


class Doubles(NamedTuple):
    """A number as doubles: high has all of it, or its high part and low the rest. None is an empty cell."""

    high: Optional[float]
    low: Optional[float]


def version() -> int:
    """The version of the archive: major * 65536 + minor * 256 + patch.

    >>> version() == VERSION
    True
    """
    return library_version()


__version__ = version_text(version())


def evaluate(minutes: Numbers, values: Numbers, point: int, bandwidth: int, *, row: Optional[Lent] = None) -> Row:
    """The estimate at one point ("the question at one mark": the row). Reports 8, 6, 4, 9.

    >>> evaluate([10, 20, 20, 35], [40, 60, 80, 20], 20, 10)
    Row(left=0, right=3, weight=200, sum=14000, value=70)
    >>> evaluate([10], [40], 20, 10).value is None
    True
    """
    _, (numbers,) = call("evaluate", minutes, values, point, bandwidth, lent(row, ROW_LEN))
    return _row(numbers)


def window(minutes: Numbers, values: Numbers, point: int, bandwidth: int, *, bounds: Optional[Lent] = None) -> Window:
    """The samples inside the window of one point ("the question at one mark": the run). Reports 8, 6, 4, 9.

    >>> window([10, 20, 20, 35], [40, 60, 80, 20], 25, 10)
    Window(left=1, right=4, run=[60, 80, 20])
    """
    part("values", values, 0, 0)
    _, (numbers,) = call("window", minutes, values, point, bandwidth, lent(bounds, BOUNDS_LEN))
    left, right = numbers
    return Window(left, right, part("values", values, left, right))


def biweight(minutes: Numbers, values: Numbers, point: int, *, row: Optional[Lent] = None) -> Row:
    """The softer estimate at one point ("the biweight row"), over 720 minutes on each side. Reports 8, 6, 4.

    >>> biweight([0, 300], [100, 200], 360).value, evaluate([0, 300], [100, 200], 360, 720).value
    (164, 157)
    """
    _, (numbers,) = call("biweight", minutes, values, point, lent(row, ROW_LEN))
    return _row(numbers)


class Record:
    """A running record: it moves from point to point over the same samples, and gives the row there.

    >>> minutes, values = [10, 20, 20, 35], [40, 60, 80, 20]
    >>> record = Record()
    >>> record.advance(minutes, values, 20, 10)
    RunningSums(left=0, right=3, s00=3, s10=50, s20=900, s01=180, s11=3200, s21=60000, passes=3)
    >>> record.row().value
    70
    >>> record.turn(minutes, values, 20, 5).left
    1
    >>> record.row() == evaluate(minutes, values, 20, 5)
    True
    """

    __slots__ = ("_numbers", "_step")

    def __init__(self) -> None:
        self._numbers = array("Q", bytes(8 * RECORD_LEN))
        self._step: "Optional[tuple[int, int]]" = None

    def __repr__(self) -> str:
        return f"<Record {self.sums}>"

    @property
    def sums(self) -> RunningSums:
        """Its numbers.

        >>> Record().sums.right
        0
        """
        return RunningSums(*self._numbers)

    def advance(self, minutes: Numbers, values: Numbers, point: int, bandwidth: int) -> RunningSums:
        """Moves it to the next point, as advance does.

        >>> Record().advance([5, 9], [2, 3], 9, 1).passes
        3
        """
        return advance(self, minutes, values, point, bandwidth)

    def turn(self, minutes: Numbers, values: Numbers, point: int, bandwidth: int) -> RunningSums:
        """Turns it to any point and bandwidth, forth or back, as turn does.

        >>> Record().turn([5, 9], [2, 3], 9, 1).s01
        3
        """
        return turn(self, minutes, values, point, bandwidth)

    def row(self, point: Optional[int] = None, bandwidth: Optional[int] = None) -> Row:
        """Its row at the point and bandwidth of the last accepted step or turn; at others the row may look like a good one with value 0 or 1.

        >>> record = Record()
        >>> _ = record.advance([5, 9], [2, 3], 9, 1)
        >>> record.row()
        Row(left=1, right=2, weight=1, sum=3, value=3)
        """
        if (point is None or bandwidth is None) and self._step is None:
            raise ValueError("a record without a step has no point and bandwidth of its own: name both")
        at = self._step or (0, 0)
        return row(self, at[0] if point is None else point, at[1] if bandwidth is None else bandwidth)


def _numbers_of(record: Union[Record, Lent]) -> Any:
    return record._numbers if isinstance(record, Record) else record


def _moved(name: str, record: Union[Record, Lent], minutes: Numbers, values: Numbers, point: int, bandwidth: int) -> RunningSums:
    _, (numbers,) = call(name, _numbers_of(record), minutes, values, point, bandwidth)
    if isinstance(record, Record):
        record._step = (point, bandwidth)
    return RunningSums(*numbers)


def advance(record: Union[Record, Lent], minutes: Numbers, values: Numbers, point: int, bandwidth: int) -> RunningSums:
    """Moves a running record, or nine numbers that are lent, to the next point ("a step"). Reports 8, 6, 11, 9.

    The order of the minutes and of the edges is not looked at.

    >>> numbers = array("Q", [0] * RECORD_LEN)
    >>> advance(numbers, [10, 20, 20, 35], [40, 60, 80, 20], 20, 10).s01, numbers[5]
    (180, 180)
    """
    return _moved("advance", record, minutes, values, point, bandwidth)


def turn(record: Union[Record, Lent], minutes: Numbers, values: Numbers, point: int, bandwidth: int) -> RunningSums:
    """Turns a running record, or nine numbers that are lent, to any point and bandwidth ("the turn"). Reports 8, 6, 4, 11, 9.

    >>> record = Record()
    >>> _ = advance(record, [10, 20, 20, 35], [40, 60, 80, 20], 20, 5)
    >>> turn(record, [10, 20, 20, 35], [40, 60, 80, 20], 20, 15)[:2]
    (0, 4)
    """
    return _moved("turn", record, minutes, values, point, bandwidth)


def row(record: Union[Record, Numbers], point: int, bandwidth: int, *, row: Optional[Lent] = None) -> Row:
    """The row of a running record, or of any nine numbers ("the row of a record"). Report 8.

    Pass the point and bandwidth of the last accepted step or turn: at others the row may look like a good one with value 0 or 1. Every point and every
    bandwidth is taken, and a value may have all 64 bits; of_readings of the row finds many of these.

    >>> row([0, 3, 3, 50, 900, 180, 3200, 60000, 3], 20, 10)
    Row(left=0, right=3, weight=200, sum=14000, value=70)
    """
    _, (numbers,) = call("row", _numbers_of(record), point, bandwidth, lent(row, ROW_LEN))
    return _row(numbers)


def smooth(
    minutes: Numbers, values: Numbers, points: Numbers, bandwidths: Numbers, *, rows: Optional[Lent] = None
) -> Smoothed:
    """The estimates at all points ("the sweep"), and the passes. Reports 8, 6, 7, 4, 5, 9, 10.

    >>> curve = smooth([10, 20, 20, 35], [40, 60, 80, 20], [20, 25, 60], [10, 15, 20])
    >>> curve.rows[1], curve.passes
    (Row(left=0, right=4, weight=525, sum=30500, value=58), 8)
    """
    return _smoothed("smooth", minutes, values, points, bandwidths, rows)


def preview(
    minutes: Numbers, values: Numbers, points: Numbers, bandwidths: Numbers, *, rows: Optional[Lent] = None
) -> Smoothed:
    """The preview ("the preview on the panel"): smooth, for at most 256 samples and 64 points. Reports 8, 6, 7, 4, 5, 9, 10.

    >>> preview([10, 20, 20, 35], [40, 60, 80, 20], [20, 25], [10, 15]).passes
    4
    """
    return _smoothed("preview", minutes, values, points, bandwidths, rows)


def _smoothed(
    name: str, minutes: Numbers, values: Numbers, points: Numbers, bandwidths: Numbers, rows: Optional[Lent]
) -> Smoothed:
    passes, (numbers,) = call(name, minutes, values, points, bandwidths, lent(rows, ROW_LEN, "points"))
    return Smoothed(Rows(numbers, _row, ROW_LEN), passes)


def fill(
    first: int,
    spacing: int,
    preset: int,
    count: Optional[int] = None,
    *,
    points: Optional[Lent] = None,
    bandwidths: Optional[Lent] = None,
) -> Grid:
    """So many points from first on, spacing apart, each with the bandwidth of the preset ("the mark filler"). Reports 8, 7, 6, 12, 13.

    Where both lists are lent, their length is the count.

    >>> fill(100, 7, 4, 3)
    Grid(points=array('H', [100, 107, 114]), bandwidths=array('I', [120, 120, 120]))
    """
    size = 0 if count is None else number("count", count)
    if points is not None and bandwidths is not None:
        _, lists = call("fill", first, spacing, preset, points, bandwidths)
    elif count is None:
        raise TypeError("fill: the count is needed where a list is not lent")
    else:
        of = lent(points, 1, "count"), lent(bandwidths, 1, "count")
        _, lists = call("fill", first, spacing, preset, *of, count=size)
    return Grid(*lists)


def read(
    sheet: Source,
    *,
    minutes: Optional[Lent] = None,
    values: Optional[Lent] = None,
    points: Optional[Lent] = None,
    bandwidths: Optional[Lent] = None,
    counts: Optional[Lent] = None,
) -> Sheet:
    """Reads a sheet, its bytes or the path of its file ("the reader of the tank sheet"). Reports 1, then line by line 2, 7, or 3, 4 or 5, 9, 10, 6.

    >>> read(b"mark,half\\n20,10\\n\\nminute,inj,vdk\\n10,3,40\\n12,1,900\\n")
    Sheet(minutes=array('H', [10]), values=array('H', [40]), points=array('H', [20]), bandwidths=array('I', [10]))
    """
    _, (kept, of, at, half, (samples, marks)) = call_with_sheet(
        "read",
        sheet,
        lent(minutes, MAX_SAMPLES),
        lent(values, MAX_SAMPLES),
        lent(points, MAX_POINTS),
        lent(bandwidths, MAX_POINTS),
        lent(counts, COUNTS_LEN),
    )
    return Sheet(kept[:samples], of[:samples], at[:marks], half[:marks])


def text(sheet: Source, *, out: Optional[Lent] = None) -> bytes:
    """The curve of a sheet, its bytes or the path of its file, as the program writes it. Reports as for the reader.

    >>> text(b"mark,half\\n20,10\\n\\nminute,inj,vdk\\n15,3,40\\n")
    b'mark,half,left,right,weight,sum,vdk\\n20,10,0,1,75,3000,40\\n\\nkept,passes\\n1,1\\n'
    """
    size, (written,) = call_with_sheet("text", sheet, lent(out, MAX_OUTPUT))
    return written[:size].tobytes()


def refusal_text(number: int, place: int, *, out: Optional[Lent] = None) -> bytes:
    """The text of a refusal, as the program writes it. Number and place may be any.

    >>> refusal_text(7, 10)
    b'refused,place\\n7,10\\n'
    """
    size, (written,) = call("refusal_text", number, place, lent(out, MAX_OUTPUT))
    return written[:size].tobytes()


def _position(numbers: "array[int]") -> Optional[int]:
    return None if numbers[0] == NO_POSITION else numbers[0]


def first_at_most(
    minutes: Numbers,
    values: Numbers,
    points: Numbers,
    bandwidths: Numbers,
    limit: int,
    *,
    position: Optional[Lent] = None,
) -> Crossing:
    """The first point whose value is present and at or below limit ("when may the tank move"). Reports 8, 6, 7, 4, 5, 9, 10.

    >>> first_at_most([10, 20, 20, 35], [40, 60, 80, 20], [20, 25, 60], [10, 15, 20], 58)
    Crossing(position=1, passes=4)
    >>> first_at_most([10, 20, 20, 35], [40, 60, 80, 20], [20, 25, 60], [10, 15, 20], 57)
    Crossing(position=None, passes=8)
    """
    passes, (numbers,) = call(
        "first_at_most", minutes, values, points, bandwidths, limit, lent(position, POSITION_LEN)
    )
    return Crossing(_position(numbers), passes)


def decisive(
    minutes: Numbers, values: Numbers, point: int, bandwidth: int, limit: int, *, position: Optional[Lent] = None
) -> Optional[int]:
    """The position of the sample on which the answer at one point hangs ("which reading decides"), or None. Reports 8, 6, 4, 9.

    >>> decisive([10, 20, 20, 35], [40, 60, 80, 20], 20, 10, 60)
    2
    """
    _, (numbers,) = call("decisive", minutes, values, point, bandwidth, limit, lent(position, POSITION_LEN))
    return _position(numbers)


def compare(
    minutes1: Numbers,
    values1: Numbers,
    minutes2: Numbers,
    values2: Numbers,
    points: Numbers,
    bandwidths: Numbers,
    *,
    out: Optional[Lent] = None,
) -> Parting:
    """Two tanks set against each other over the same points. Reports 8, 6, 7, 4, 5, 9, 10, 16.

    >>> compare([10, 30], [5, 7], [10, 30], [5, 6], [10, 30], [5, 5])
    Parting(tank=<Tank.FIRST: 1>, point=1, left=1, right=2, run=[7])
    >>> compare([10, 30], [5, 7], [10, 30], [5, 7], [10, 30], [5, 5])
    Parting(tank=<Tank.ALIKE: 0>, point=None, left=None, right=None, run=[])
    """
    none, _ = part("values1", values1, 0, 0), part("values2", values2, 0, 0)
    detail, (numbers,) = call(
        "compare", minutes1, values1, minutes2, values2, points, bandwidths, lent(out, PARTING_LEN)
    )
    tank = Tank(detail)
    if tank == Tank.ALIKE:
        return Parting(tank, None, None, None, none)
    point, left, right = numbers
    name, values = ("values1", values1) if tank == Tank.FIRST else ("values2", values2)
    return Parting(tank, point, left, right, part(name, values, left, right))


def neighbours(
    minutes: Numbers,
    values: Numbers,
    points: Numbers,
    k: int,
    *,
    bandwidths: Optional[Lent] = None,
    rows: Optional[Lent] = None,
) -> Neighbours:
    """Bandwidths by the k nearest samples of each point, and the estimates with them. Reports 8, 6, 7, 4, 5, 14.

    >>> by = neighbours([10, 20, 20, 35], [40, 60, 80, 20], [20, 25, 60], 2)
    >>> by.bandwidths, [row.value for row in by.rows]
    (array('I', [1, 6, 41]), [70, 70, 27])
    """
    _, (half, numbers) = call(
        "neighbours", minutes, values, points, k, lent(bandwidths, 1, "points"), lent(rows, ROW_LEN, "points")
    )
    return Neighbours(half, Rows(numbers, _row, ROW_LEN))


def doubles(weight: int, number: int, *, doubles: Optional[Lent] = None) -> Doubles:
    """A weight or a sum of a row with this weight as doubles, for a spreadsheet: empty where the weight is 0, one below 2^53, else two.

    The number is had back as whole numbers: int(high) + int(low). Added as doubles the two are not exact.

    >>> doubles(200, 14000), doubles(0, 0)
    (Doubles(high=14000.0, low=None), Doubles(high=None, low=None))
    >>> high, low = doubles(5, 9007199254740993)
    >>> int(high) + int(low)
    9007199254740993
    """
    used, (pair,) = call("doubles", weight, number, lent(doubles, DOUBLES_LEN))
    high, low = pair
    return Doubles(high if used > 0 else None, low if used > 1 else None)
