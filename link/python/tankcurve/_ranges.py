"""The calls over readings known as ranges, each a low and a high."""

from array import array
from typing import NamedTuple, Optional

from ._call import call
from ._header import MAX_POINTS, MAX_SAMPLES, RANGE_COUNTS_LEN, RANGE_ROW_LEN, Kind
from ._lists import Lent, Numbers, Rows, Source, call_with_sheet, lent

__all__ = ["RangeCounts", "RangeRow", "RangeSheet", "RangeSmoothed", "read_ranges", "smooth_ranges"]


class RangeRow(NamedTuple):
    """The estimates at a point over all lows and over all highs; both values are None where there is no weight."""

    left: int
    right: int
    weight: int
    low_sum: int
    high_sum: int
    low_value: Optional[int]
    high_value: Optional[int]


def _range_row(numbers: "array[int]") -> RangeRow:
    left, right, weight, low_sum, high_sum, low, high = numbers
    return RangeRow(left, right, weight, low_sum, high_sum, low if weight else None, high if weight else None)


class RangeSmoothed(NamedTuple):
    """The rows of a curve over ranges, one a point, and the passes of the sweep."""

    rows: Rows[RangeRow]
    passes: int


class RangeCounts(NamedTuple):
    """How many samples and points a sheet has, and its kind."""

    samples: int
    points: int
    kind: Kind


class RangeSheet(NamedTuple):
    """What a sheet of either kind has: kept samples, points with bandwidths, and the kind. The first five are what smooth_ranges takes."""

    minutes: "array[int]"
    lows: "array[int]"
    highs: "array[int]"
    points: "array[int]"
    bandwidths: "array[int]"
    kind: Kind

    @property
    def counts(self) -> RangeCounts:
        """How many samples are kept, how many points there are, and the kind.

        >>> read_ranges(b"mark,half\\n20,10\\n\\nminute,inj,low,high\\n10,3,0,40\\n").counts
        RangeCounts(samples=1, points=1, kind=<Kind.RANGES: 1>)
        """
        return RangeCounts(len(self.minutes), len(self.points), self.kind)


def smooth_ranges(
    minutes: Numbers,
    lows: Numbers,
    highs: Numbers,
    points: Numbers,
    bandwidths: Numbers,
    *,
    rows: Optional[Lent] = None,
) -> RangeSmoothed:
    """The sweep over readings known as ranges, and the passes. Reports 8, 6, 7, 4, 15, 5, 9, 10.

    >>> curve = smooth_ranges([10, 20, 20, 35], [40, 0, 80, 0], [40, 60, 80, 20], [20, 60], [10, 20])
    >>> curve.rows[0]
    RangeRow(left=0, right=3, weight=200, low_sum=8000, high_sum=14000, low_value=40, high_value=70)
    >>> curve.rows[1].high_value is None
    True
    """
    passes, (numbers,) = call(
        "smooth_ranges", minutes, lows, highs, points, bandwidths, lent(rows, RANGE_ROW_LEN, "points")
    )
    return RangeSmoothed(Rows(numbers, _range_row, RANGE_ROW_LEN), passes)


def read_ranges(
    sheet: Source,
    *,
    minutes: Optional[Lent] = None,
    lows: Optional[Lent] = None,
    highs: Optional[Lent] = None,
    points: Optional[Lent] = None,
    bandwidths: Optional[Lent] = None,
    counts: Optional[Lent] = None,
) -> RangeSheet:
    """Reads a sheet of either kind, its bytes or the path of its file; a plain value stands as low and high. Reports 1, then line by line 2, 7, or 3, 4 or
    5, 15, 9, 10, 6.

    >>> sheet = read_ranges(b"mark,half\\n20,10\\n\\nminute,inj,low,high\\n10,3,0,40\\n15,3,50,50\\n")
    >>> smooth_ranges(*sheet[:5]).rows[0][3:]
    (3750, 3750, 50, 50)
    >>> read_ranges(b"mark,half\\n20,10\\n\\nminute,inj,vdk\\n10,3,40\\n").kind
    <Kind.PLAIN: 0>
    """
    _, (kept, low, high, at, half, (samples, marks, kind)) = call_with_sheet(
        "read_ranges",
        sheet,
        lent(minutes, MAX_SAMPLES),
        lent(lows, MAX_SAMPLES),
        lent(highs, MAX_SAMPLES),
        lent(points, MAX_POINTS),
        lent(bandwidths, MAX_POINTS),
        lent(counts, RANGE_COUNTS_LEN),
    )
    return RangeSheet(kept[:samples], low[:samples], high[:samples], at[:marks], half[:marks], Kind(kind))
