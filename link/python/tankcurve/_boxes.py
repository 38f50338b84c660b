"""Minute and temperature together: the samples in the boxes of pairs of points."""

from array import array
from typing import NamedTuple, Optional

from ._call import call
from ._header import BOX_LEN, CELLS_LEN
from ._lists import Lent, Numbers, Rows, lent

__all__ = ["Box", "Boxes", "boxes"]


class Box(NamedTuple):
    """How many samples lie in the box of a pair of points, and the sum of their values."""

    count: int  # type: ignore[assignment]
    sum: int


class Boxes(NamedTuple):
    """The boxes, that of points j and k at j * len(temperature_points) + k; and the cells, STRIPS for each minute strip: how many samples are in each, and the
    sums of their values."""

    boxes: Rows[Box]
    counts: "array[int]"
    sums: "array[int]"


def _box(numbers: "array[int]") -> Box:
    return Box(*numbers)


def boxes(
    minutes: Numbers,
    temperatures: Numbers,
    values: Numbers,
    points: Numbers,
    bandwidths: Numbers,
    temperature_points: Numbers,
    temperature_bandwidths: Numbers,
    *,
    boxes: Optional[Lent] = None,
    counts: Optional[Lent] = None,
    sums: Optional[Lent] = None,
) -> Boxes:
    """How many samples lie in the box of each pair of points, one of the minutes and one of the temperatures, and the sums of their values. Reports 8, 6, 7, 5,
    17, 9.

    Temperatures are in tenths of a degree, 0 to 255. Samples stand in any order.

    >>> found = boxes([10, 20, 20, 35], [50, 60, 200, 50], [40, 60, 80, 20], [10, 35], [10, 5], [55, 200], [5, 1])
    >>> found.boxes[0], found.boxes[1]
    (Box(count=2, sum=100), Box(count=1, sum=80))
    >>> found.counts[66], found.sums[66]
    (2, 100)
    """
    _, (numbers, cells, of) = call(
        "boxes",
        minutes,
        temperatures,
        values,
        points,
        bandwidths,
        temperature_points,
        temperature_bandwidths,
        lent(boxes, BOX_LEN, "points", "temperature_points"),
        lent(counts, CELLS_LEN),
        lent(sums, CELLS_LEN),
    )
    return Boxes(Rows(numbers, _box, BOX_LEN), cells, of)
