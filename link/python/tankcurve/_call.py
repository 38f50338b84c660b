"""How a call is made: its arguments are checked against the header's types, lists are handed over where they lie, and
the answer is read."""

import ctypes
import operator
import reprlib
import struct
from array import array
from itertools import islice
from pathlib import Path
from typing import Any, Dict, Iterable, List, NamedTuple, NoReturn, Optional, Tuple

from ._header import CALLS, DETAIL_UNIT, MAX_SAMPLES, MAX_SHEET, VERSION, Report

__all__ = ["Answer", "Refused", "call", "library_version", "number", "version_text"]


class Refused(ValueError):
    """A call has refused: its report's number, the place, the trade's word, and of a sheet the line, counted from 1.

    Every list that was lent holds what it held before. A place is a position in a list, from 0, or a byte of the sheet,
    from 0; report 8 has place 0 and is about the lists' lengths.

    >>> import tankcurve
    >>> try:
    ...     tankcurve.evaluate([20, 10], [60, 40], 20, 10)
    ... except tankcurve.Refused as refused:
    ...     print(refused.number == tankcurve.Report.SAMPLE_OUT_OF_ORDER, refused.place, refused.word)
    True 1 early reading
    >>> tankcurve.text(b"mark,half\\n20,10\\n21,0\\n")
    Traceback (most recent call last):
    ...
    tankcurve.Refused: report 9, half width, at 16 (line 3)
    """

    def __init__(self, number: int, place: int, line: Optional[int] = None) -> None:
        super().__init__(number, place, line)
        self.number = Report(number)
        self.place = place
        self.line = line

    @property
    def word(self) -> str:
        """The trade's word for the report."""
        return self.number.word

    def __str__(self) -> str:
        where = "" if self.line is None else f" (line {self.line})"
        return f"report {int(self.number)}, {self.word}, at {self.place}{where}"


class Answer(NamedTuple):
    """A list for the answer: the lent one, or None where one is to be made. So many numbers belong into it, or so many for each element of a
    list, or for each pair of elements of two."""

    lent: Any
    each: int
    of: Tuple[str, ...] = ()

    def belong(self, lengths: Dict[str, int]) -> int:
        """How many numbers belong into it beside lists of these lengths."""
        count = self.each
        for name in self.of:
            count *= lengths[name]
        return count


class _Parameter(NamedTuple):
    """A parameter of a call."""

    name: str
    code: str  # of array
    size: int  # of an element or of the number, in bytes
    listed: bool
    written: bool

    @property
    def most(self) -> int:
        """The greatest number that fits."""
        return int((1 << 8 * self.size) - 1)


_CODES = {"uint8_t": "B", "uint16_t": "H", "uint32_t": "I", "uint64_t": "Q", "size_t": "Q", "double": "d"}
_C_TYPES = {
    "B": ctypes.c_uint8,
    "H": ctypes.c_uint16,
    "I": ctypes.c_uint32,
    "Q": ctypes.c_uint64,
}


def _parameter(name: str, kind: str) -> _Parameter:
    code = _CODES[kind.replace("const ", "").replace(" *", "")]
    listed = kind.endswith("*")
    return _Parameter(name, code, struct.calcsize(code), listed, listed and not kind.startswith("const "))


_PARAMETERS: Dict[str, Tuple[_Parameter, ...]] = {
    call: tuple(_parameter(name, kind) for name, kind in parameters) for call, parameters in CALLS.items()
}


def version_text(version: int) -> str:
    """A version as major.minor.patch."""
    return f"{version >> 16}.{version >> 8 & 255}.{version & 255}"


def _load(path: Path) -> Dict[str, Any]:
    """The calls of the shared object. They keep the interpreter's lock: no other thread of Python changes a list meanwhile."""
    if not path.exists():
        raise ImportError(
            f"{path} is not there: link/python/build makes it from libtankcurve_abi.a, which link/archive makes"
        )
    library = ctypes.PyDLL(str(path))
    functions: Dict[str, Any] = {}
    for call, parameters in _PARAMETERS.items():
        try:
            function = library[f"tankcurve_{call}"]
        except AttributeError:
            raise ImportError(f"{path} has no tankcurve_{call}: link/python/build makes it anew") from None
        function.restype = ctypes.c_uint64 if parameters else ctypes.c_uint32
        types: List[Any] = []
        for parameter in parameters:
            types += [ctypes.c_void_p, ctypes.c_size_t] if parameter.listed else [_C_TYPES[parameter.code]]
        function.argtypes = types
        functions[call] = function
    found = functions["version"]()
    if found != VERSION:
        raise ImportError(
            f"{path} has version {version_text(found)}, the module {version_text(VERSION)}: "
            "link/archive and link/python/build make it anew"
        )
    return functions


_FUNCTIONS = _load(Path(__file__).with_name("libtankcurve.so"))


def library_version() -> int:
    """The version of the archive."""
    return int(_FUNCTIONS["version"]())


def _shown(value: object) -> str:
    if isinstance(value, int) and value.bit_length() > 128:
        return f"a number of {value.bit_length()} bits"
    return reprlib.repr(value)


def _unfit(where: str, value: object, most: int) -> NoReturn:
    raise ValueError(f"{where}: {_shown(value)} is not a whole number from 0 to {most}")


def number(where: str, value: Any, most: int = 2**64 - 1) -> int:
    """A whole number that fits. A bool is none, Python's or numpy's, nor is a float."""
    if type(value).__name__ in ("bool", "bool_"):
        _unfit(where, value, most)
    try:
        whole = operator.index(value)
    except TypeError:
        _unfit(where, value, most)
    if not 0 <= whole <= most:
        _unfit(where, value, most)
    return whole


def _numbers(parameter: _Parameter, items: List[Any], first: int) -> "array[Any]":
    """The items from position first on as elements of a list; each is looked at."""
    if set(map(type, items)) <= {int}:
        try:
            return array(parameter.code, items)
        except OverflowError:
            pass
    fitting = [number(f"{parameter.name}[{k}]", item, parameter.most) for k, item in enumerate(items, first)]
    return array(parameter.code, fitting)


# So many items are looked at at once.
_SOME = 4096


def _copied(parameter: _Parameter, items: Iterable[Any], room: int) -> "Tuple[array[Any], int]":
    """The items as elements of a list, as far as there is room, and how many there are; each is looked at."""
    own: "array[Any]" = array(parameter.code)
    count, rest = 0, iter(items)
    while True:
        some = list(islice(rest, _SOME))
        own.extend(_numbers(parameter, some, count)[: room - len(own)])
        count += len(some)
        if len(some) < _SOME:
            return own, count


class _PyBuffer(ctypes.Structure):
    """Py_buffer of CPython, by which a buffer tells its address."""

    _fields_ = [
        ("buf", ctypes.c_void_p),
        ("obj", ctypes.c_void_p),
        ("len", ctypes.c_ssize_t),
        ("itemsize", ctypes.c_ssize_t),
        ("readonly", ctypes.c_int),
        ("ndim", ctypes.c_int),
        ("format", ctypes.c_char_p),
        ("shape", ctypes.c_void_p),
        ("strides", ctypes.c_void_p),
        ("suboffsets", ctypes.c_void_p),
        ("internal", ctypes.c_void_p),
    ]


_get_buffer = ctypes.pythonapi.PyObject_GetBuffer
_get_buffer.argtypes = [ctypes.py_object, ctypes.POINTER(_PyBuffer), ctypes.c_int]
_get_buffer.restype = ctypes.c_int
_release_buffer = ctypes.pythonapi.PyBuffer_Release
_release_buffer.argtypes = [ctypes.POINTER(_PyBuffer)]
_release_buffer.restype = None

# What the pointer of an empty list points to.
_NOTHING = ctypes.c_uint64()


def _address(view: memoryview) -> int:
    """Where a view's elements lie; it holds them there."""
    if view.nbytes == 0:
        return ctypes.addressof(_NOTHING)
    buffer = _PyBuffer()
    _get_buffer(view, ctypes.byref(buffer), 0)
    address = buffer.buf
    _release_buffer(ctypes.byref(buffer))
    return int(address)


def _misfit(parameter: _Parameter, view: memoryview) -> str:
    """Why a buffer's elements are not those of the list as they lie; nothing where they are."""
    kinds = "d" if parameter.code == "d" else "BHILQN"
    kind = view.format.lstrip("@=<")
    if len(kind) != 1 or kind not in kinds or view.itemsize != parameter.size:
        return f"its items are of format {view.format!r}, not {parameter.code!r}"
    if not view.c_contiguous:
        return "its items do not lie one behind the other"
    if _address(view) % parameter.size:
        return "its items are not aligned"
    return ""


def _view(argument: Any) -> Optional[memoryview]:
    """A view of a buffer, if the argument is one."""
    try:
        return memoryview(argument)
    except (TypeError, ValueError, BufferError):
        return None


class _Lent(NamedTuple):
    """A list in a call."""

    parameter: _Parameter
    view: memoryview
    start: int
    length: int  # in elements; a copy may have the first ones alone

    def elements(self) -> "array[Any]":
        """Its elements, as an array of their own."""
        own: "array[Any]" = array(self.parameter.code)
        own.frombytes(self.view.tobytes())
        return own

    def over(self, other: "_Lent") -> bool:
        """Whether both have a byte in common."""
        return self.start < other.start + other.view.nbytes and other.start < self.start + self.view.nbytes


def _items(view: memoryview, argument: Any) -> Iterable[Any]:
    """The items of a buffer, by the view where it can tell them."""
    try:
        view[:1].tolist()
    except NotImplementedError:
        items: Iterable[Any] = argument
        return items
    return view


def _lend(parameter: _Parameter, argument: Any, room: int) -> _Lent:
    """A list that is read: the caller's buffer where its elements fit, else a copy, each number looked at, as far as there is room."""
    view = _view(argument)
    if view is None:
        if isinstance(argument, (set, frozenset, dict)) or not hasattr(argument, "__len__"):
            raise TypeError(
                f"{parameter.name}: a sequence or a buffer of whole numbers is needed, not {type(argument).__name__}"
            )
        own, count = _copied(parameter, argument, room)
    else:
        if view.ndim == 1 and not _misfit(parameter, view):
            return _Lent(parameter, view, _address(view), len(view))
        with view:
            if view.ndim != 1:
                raise ValueError(f"{parameter.name}: a list has one dimension, and this has {view.ndim}")
            own, count = _copied(parameter, _items(view, argument), room)
    view = memoryview(own)
    return _Lent(parameter, view, _address(view), count)


def _lend_written(parameter: _Parameter, argument: Any) -> _Lent:
    """A list that is written: the caller's buffer."""
    view = _view(argument)
    if view is None:
        raise TypeError(
            f"{parameter.name}: an array or another buffer to write to is needed, not {type(argument).__name__}"
        )
    wrong = "it cannot be written" if view.readonly else _misfit(parameter, view)
    if wrong:
        view.release()
        raise ValueError(f"{parameter.name}: {wrong}")
    return _Lent(parameter, view, _address(view), view.nbytes // parameter.size)


def _made(parameter: _Parameter, count: int) -> _Lent:
    """A list that is written: a new one."""
    view = memoryview(array(parameter.code, bytes(count * parameter.size)))
    return _Lent(parameter, view, _address(view), count)


def _apart(lists: List[_Lent]) -> None:
    """No list that is written lies over another."""
    for k, one in enumerate(lists):
        for other in lists[:k]:
            if (one.parameter.written or other.parameter.written) and one.over(other):
                raise ValueError(f"{one.parameter.name} lies over {other.parameter.name}, and one of them is written")


# The length of a list for the answer may follow from the marks' lists, and of a million marks in each of two directions it is more than any memory
# holds. The call refuses them. Of lists that are read it asks whether they are equally long, whether they are empty and whether they are longer than it
# takes. So those that are too long for every call are passed cut: equally long ones alike, and others not; and lists for the answer so that they
# have the length that belongs, or another one, as before. The report is then the same.


def _cut(lengths: Dict[str, int], most: int) -> Dict[str, int]:
    """These lengths, but the least one above most is most + 1, the next one most + 2, and so on."""
    over = sorted({length for length in lengths.values() if length > most})
    return {name: most + 1 + over.index(length) if length > most else length for name, length in lengths.items()}


def _cut_alike(length: int, belong: int, cut: int) -> int:
    """The length of a lent list where the one that belongs is cut: the right one stays right, and another one wrong."""
    if length == belong:
        return cut
    return length - 1 if length == cut else length


def call(name: str, *arguments: Any, **counts: int) -> "Tuple[int, List[array[Any]]]":
    """Makes the call and gives its detail, with the elements of every list that it has written. Refused is raised where it refuses;
    nothing is called where an argument is unfit. Counts are lengths of lists that the call does not have."""
    given = list(zip(_PARAMETERS[name], arguments))
    most = MAX_SHEET if given and given[0][0].name == "sheet" else MAX_SAMPLES
    lists: Dict[str, _Lent] = {}
    numbers: Dict[str, int] = {}
    passed: List[int] = []
    written: "List[array[Any]]" = []
    try:
        for parameter, argument in given:
            if not parameter.listed:
                numbers[parameter.name] = number(parameter.name, argument, parameter.most)
            elif not parameter.written:
                lists[parameter.name] = _lend(parameter, argument, most + len(given))
            elif not isinstance(argument, Answer):
                lists[parameter.name] = _lend_written(parameter, argument)
            elif argument.lent is not None:
                lists[parameter.name] = _lend_written(parameter, argument.lent)
        _apart(list(lists.values()))
        lengths = {**counts, **{one.parameter.name: one.length for one in lists.values() if not one.parameter.written}}
        cut = _cut(lengths, most)
        for parameter, argument in given:
            if not isinstance(argument, Answer):
                continue
            belong = argument.belong(cut)
            if argument.lent is None:
                lists[parameter.name] = _made(parameter, belong)
            else:
                cut[parameter.name] = _cut_alike(lists[parameter.name].length, argument.belong(lengths), belong)
        for parameter, _ in given:
            if parameter.listed:
                one = lists[parameter.name]
                passed += [one.start, cut.get(parameter.name, one.length)]
            else:
                passed.append(numbers[parameter.name])
        answer = int(_FUNCTIONS[name](*passed))
        detail, report = divmod(answer, DETAIL_UNIT)
        if report == 0:
            written = [lists[parameter.name].elements() for parameter, _ in given if parameter.written]
    finally:
        for one in lists.values():
            one.view.release()
    if report == 0:
        return detail, written
    try:
        refused = Refused(report, detail)
    except ValueError:
        raise RuntimeError(f"tankcurve_{name} has answered {answer}, which this module does not know") from None
    raise refused
