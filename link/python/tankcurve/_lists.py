"""The lists of a call: what may be passed for one, what a sheet may be passed as, and the rows of a curve."""

import os
from array import array
from importlib import import_module
from typing import (
    Any,
    Callable,
    Generic,
    Iterator,
    List,
    Optional,
    Protocol,
    Sequence,
    Tuple,
    TypeVar,
    Union,
    overload,
)

from ._call import Answer, Refused, call
from ._header import MAX_SHEET, Report

__all__ = ["Lent", "Numbers", "Rows", "Source", "call_with_sheet", "lent", "part"]


class Numbers(Protocol):
    """A list of whole numbers: any sequence, or a buffer such as an array, which is not copied where its items fit."""

    def __len__(self) -> int: ...

    def __iter__(self) -> Iterator[Any]: ...

    def __getitem__(self, index: slice, /) -> Any: ...


# A lent list: an array or another buffer that can be written.
Lent = Any


def lent(numbers: Optional[Lent], each: int, *of: str) -> Answer:
    """The lent list, or a new one, of so many elements for each of a list, or for each pair of two."""
    return Answer(numbers, each, of)


def part(name: str, numbers: Numbers, left: int, right: int) -> Numbers:
    """A slice of the caller's own list. What has none is refused: ask for an empty one before the call."""
    try:
        run: Numbers = numbers[left:right]
    except (TypeError, KeyError):
        raise TypeError(f"{name}: a sequence that has slices is needed, not {type(numbers).__name__}") from None
    return run


Row = TypeVar("Row")


class Rows(Sequence[Row], Generic[Row]):
    """The rows of a curve, one a point: a sequence of named tuples over one array of numbers.

    >>> import tankcurve
    >>> rows = tankcurve.smooth([10, 20, 20, 35], [40, 60, 80, 20], [20, 25, 60], [10, 15, 20]).rows
    >>> rows[0]
    Row(left=0, right=3, weight=200, sum=14000, value=70)
    >>> [row.value for row in rows]
    [70, 58, None]
    >>> rows.numbers[:5]
    array('Q', [0, 3, 200, 14000, 70])
    """

    __slots__ = ("numbers", "_row", "_width")

    def __init__(self, numbers: "array[int]", row: Callable[["array[int]"], Row], width: int) -> None:
        self.numbers = numbers
        self._row = row
        self._width = width

    def __len__(self) -> int:
        return len(self.numbers) // self._width

    @overload
    def __getitem__(self, index: int) -> Row: ...

    @overload
    def __getitem__(self, index: slice) -> Tuple[Row, ...]: ...

    def __getitem__(self, index: Union[int, slice]) -> Union[Row, Tuple[Row, ...]]:
        at = range(len(self))[index]
        if isinstance(at, range):
            return tuple(self[k] for k in at)
        return self._row(self.numbers[at * self._width : (at + 1) * self._width])

    def __eq__(self, other: object) -> bool:
        return isinstance(other, (Rows, tuple, list)) and tuple(self) == tuple(other)

    def __repr__(self) -> str:
        return f"Rows{tuple(self)!r}"

    def as_array(self) -> Any:
        """The numbers as one numpy array of unsigned 64-bit numbers, a row for each point, without a copy. A missing value is 65,536 there:
        the weight tells whether a value is present. Needs numpy."""
        numpy: Any = import_module("numpy")
        return numpy.frombuffer(self.numbers, numpy.uint64).reshape(-1, self._width)


# A sheet's bytes, or the path of its file.
Source = Union[bytes, bytearray, memoryview, str, "os.PathLike[str]"]


def _contents(sheet: Any) -> Any:
    """The bytes of a sheet; of a file that is too long only so many that it is."""
    if isinstance(sheet, (str, os.PathLike)):
        with open(sheet, "rb") as file:
            return file.read(MAX_SHEET + 1)
    try:
        view = memoryview(sheet)
    except TypeError:
        raise TypeError(f"sheet: bytes or a path is needed, not {type(sheet).__name__}") from None
    with view:
        if view.ndim != 1 or view.format != "B":
            raise ValueError(f"sheet: bytes are needed, not items of format {view.format!r}")
    return sheet


def call_with_sheet(name: str, sheet: Source, *lists: Any) -> "Tuple[int, List[array[Any]]]":
    """The call with a sheet; of a report about the sheet the line is told."""
    contents = _contents(sheet)
    try:
        return call(name, contents, *lists)
    except Refused as refused:
        if refused.number == Report.LENGTH_MISMATCH:
            raise
        number, place = refused.number, refused.place
    with memoryview(contents) as view:
        line = bytes(view[:place]).count(b"\n") + 1
    raise Refused(number, place, line)
