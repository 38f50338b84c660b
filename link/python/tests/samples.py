"""Arguments that each call accepts, by the header's names."""

from array import array

import tankcurve
from tankcurve._header import CALLS

from vectors import code_of

SHEET = b"mark,half\n20,10\n25,15\n60,20\n\nminute,inj,vdk\n10,3,40\n20,3,60\n20,4,80\n35,5,20\n"

# The numbers and the lists that are read.
READ = {
    "minutes": [10, 20, 20, 35],
    "minutes1": [10, 20, 20, 35],
    "minutes2": [10, 20, 20, 35],
    "values": [40, 60, 80, 20],
    "values1": [40, 60, 80, 20],
    "values2": [40, 60, 70, 20],
    "lows": [40, 0, 80, 0],
    "highs": [40, 60, 80, 20],
    "temperatures": [50, 60, 200, 50],
    "points": [20, 25, 60],
    "bandwidths": [10, 15, 20],
    "temperature_points": [55, 200],
    "temperature_bandwidths": [5, 1],
    "record": [0] * 9,
    "sheet": SHEET,
    "point": 20,
    "bandwidth": 10,
    "limit": 58,
    "k": 2,
    "first": 100,
    "spacing": 7,
    "preset": 4,
    "number": 7,
    "place": 10,
    "weight": 5,
}

# How long the lists are that are written: of these calls, else of all.
WRITTEN = {
    ("read", "minutes"): 1024,
    ("read", "values"): 1024,
    ("read", "points"): 512,
    ("read", "bandwidths"): 512,
    ("read", "counts"): 2,
    ("read_ranges", "minutes"): 1024,
    ("read_ranges", "lows"): 1024,
    ("read_ranges", "highs"): 1024,
    ("read_ranges", "points"): 512,
    ("read_ranges", "bandwidths"): 512,
    ("read_ranges", "counts"): 3,
    ("smooth_ranges", "rows"): 21,
    ("boxes", "boxes"): 12,
    ("boxes", "counts"): 4225,
    ("boxes", "sums"): 4225,
    ("text", "out"): tankcurve.MAX_OUTPUT,
    ("refusal_text", "out"): tankcurve.MAX_OUTPUT,
    "row": 5,
    "bounds": 2,
    "record": 9,
    "rows": 15,
    "points": 3,
    "bandwidths": 3,
    "position": 1,
    "out": 3,
    "doubles": 2,
}


def is_list(kind):
    return kind.endswith("*")


def is_written(kind):
    return is_list(kind) and not kind.startswith("const ")


def arguments(call):
    """Arguments that the call accepts, every list lent."""
    found = {}
    for name, kind in CALLS[call]:
        if is_written(kind):
            count = WRITTEN.get((call, name)) or WRITTEN[name]
            found[name] = array(code_of(kind), bytes(count * array(code_of(kind)).itemsize))
        else:
            found[name] = READ[name]
    return found


def made(call, given):
    """The call with these arguments."""
    return getattr(tankcurve, call)(**given)


def every(which):
    """Each call's parameters of which something holds: call, name, type."""
    return [(call, name, kind) for call, parameters in CALLS.items() for name, kind in parameters if which(name, kind)]
