"""What link/include/tankcurve.h has. from_header.py writes this file."""

from enum import IntEnum
from typing import Dict, Tuple

__all__ = [
    "BIWEIGHT_BANDWIDTH",
    "BIWEIGHT_MAX_SUM",
    "BIWEIGHT_MAX_WEIGHT",
    "BOUNDS_LEN",
    "BOX_LEN",
    "BOX_MAX_POINTS",
    "CELLS_LEN",
    "COUNTS_LEN",
    "DETAIL_UNIT",
    "DOUBLES_LEN",
    "Kind",
    "MAX_BANDWIDTH",
    "MAX_CELL_SUM",
    "MAX_OUTPUT",
    "MAX_POINTS",
    "MAX_SAMPLES",
    "MAX_SHEET",
    "MAX_SUM",
    "MAX_TEMPERATURE_BANDWIDTH",
    "MAX_WEIGHT",
    "MIN_BANDWIDTH",
    "MISSING",
    "NO_POSITION",
    "PARTING_LEN",
    "POSITION_LEN",
    "PREVIEW_MAX_POINTS",
    "PREVIEW_MAX_SAMPLES",
    "RANGE_COUNTS_LEN",
    "RANGE_ROW_LEN",
    "RECORD_LEN",
    "ROW_LEN",
    "Report",
    "STRIPS",
    "Tank",
    "VERSION",
]

VERSION = 0x030100
MAX_SAMPLES = 1024
MAX_POINTS = 512
PREVIEW_MAX_SAMPLES = 256
PREVIEW_MAX_POINTS = 64
MAX_SHEET = 32768
MAX_OUTPUT = 44113
ROW_LEN = 5
RANGE_ROW_LEN = 7
BOUNDS_LEN = 2
RECORD_LEN = 9
COUNTS_LEN = 2
RANGE_COUNTS_LEN = 3
POSITION_LEN = 1
PARTING_LEN = 3
DOUBLES_LEN = 2
BOX_MAX_POINTS = 32
BOX_LEN = 2
STRIPS = 65
CELLS_LEN = 4225
NO_POSITION = 18446744073709551615
DETAIL_UNIT = 256
MISSING = 65536
MAX_WEIGHT = 4398046511104
MAX_SUM = 288225978105200640
MIN_BANDWIDTH = 1
MAX_BANDWIDTH = 65536
MAX_TEMPERATURE_BANDWIDTH = 256
MAX_CELL_SUM = 67107840
BIWEIGHT_BANDWIDTH = 720
BIWEIGHT_MAX_WEIGHT = 275188285440000
BIWEIGHT_MAX_SUM = 18034464286310400000

ROW_FIELDS = ("left", "right", "weight", "sum", "value")

RANGE_ROW_FIELDS = ("left", "right", "weight", "low_sum", "high_sum", "low_value", "high_value")

RECORD_FIELDS = ("left", "right", "s00", "s10", "s20", "s01", "s11", "s21", "passes")

COUNTS_FIELDS = ("samples", "points")

RANGE_COUNTS_FIELDS = ("samples", "points", "kind")

PARTING_FIELDS = ("point", "left", "right")

DOUBLES_FIELDS = ("high", "low")

BOX_FIELDS = ("count", "sum")


class Tank(IntEnum):
    """The numbers of enum tankcurve_tank."""

    ALIKE = 0
    FIRST = 1
    SECOND = 2


class Kind(IntEnum):
    """The numbers of enum tankcurve_kind."""

    PLAIN = 0
    RANGES = 1


class Report(IntEnum):
    """The numbers of enum tankcurve_report."""

    ACCEPTED = 0
    TOO_LONG = 1
    BAD_HEADER = 2
    MALFORMED_LINE = 3
    SAMPLE_OUT_OF_ORDER = 4
    POINT_OUT_OF_ORDER = 5
    TOO_MANY = 6
    NO_POINTS = 7
    LENGTH_MISMATCH = 8
    BANDWIDTH_OUT_OF_RANGE = 9
    EDGE_DECREASES = 10
    INVALID_RECORD = 11
    UNKNOWN_PRESET = 12
    GRID_OVERFLOW = 13
    TOO_FEW_SAMPLES = 14
    CROSSED_RANGE = 15
    SECOND_SERIES = 16
    TEMPERATURE_OUT_OF_ORDER = 17

    @property
    def word(self) -> str:
        """The trade's word for it."""
        return _WORDS[self]


_WORDS: Dict[int, str] = {
    Report.ACCEPTED: "accepted",
    Report.TOO_LONG: "overlong",
    Report.BAD_HEADER: "heading",
    Report.MALFORMED_LINE: "torn line",
    Report.SAMPLE_OUT_OF_ORDER: "early reading",
    Report.POINT_OUT_OF_ORDER: "early mark",
    Report.TOO_MANY: "crowded",
    Report.NO_POINTS: "no marks",
    Report.LENGTH_MISMATCH: "uneven",
    Report.BANDWIDTH_OUT_OF_RANGE: "half width",
    Report.EDGE_DECREASES: "edge back",
    Report.INVALID_RECORD: "foreign record",
    Report.UNKNOWN_PRESET: "knob",
    Report.GRID_OVERFLOW: "past the clock",
    Report.TOO_FEW_SAMPLES: "too few",
    Report.CROSSED_RANGE: "crossed range",
    Report.SECOND_SERIES: "second tank",
    Report.TEMPERATURE_OUT_OF_ORDER: "early temperature mark",
}

# The parameters of each call: name and type. A list's length goes with the list.
CALLS: Dict[str, Tuple[Tuple[str, str], ...]] = {
    "version": (
    ),
    "evaluate": (
        ("minutes", "const uint16_t *"),
        ("values", "const uint16_t *"),
        ("point", "uint16_t"),
        ("bandwidth", "uint32_t"),
        ("row", "uint64_t *"),
    ),
    "window": (
        ("minutes", "const uint16_t *"),
        ("values", "const uint16_t *"),
        ("point", "uint16_t"),
        ("bandwidth", "uint32_t"),
        ("bounds", "uint64_t *"),
    ),
    "biweight": (
        ("minutes", "const uint16_t *"),
        ("values", "const uint16_t *"),
        ("point", "uint16_t"),
        ("row", "uint64_t *"),
    ),
    "advance": (
        ("record", "uint64_t *"),
        ("minutes", "const uint16_t *"),
        ("values", "const uint16_t *"),
        ("point", "uint16_t"),
        ("bandwidth", "uint32_t"),
    ),
    "turn": (
        ("record", "uint64_t *"),
        ("minutes", "const uint16_t *"),
        ("values", "const uint16_t *"),
        ("point", "uint16_t"),
        ("bandwidth", "uint32_t"),
    ),
    "row": (
        ("record", "const uint64_t *"),
        ("point", "uint16_t"),
        ("bandwidth", "uint32_t"),
        ("row", "uint64_t *"),
    ),
    "smooth": (
        ("minutes", "const uint16_t *"),
        ("values", "const uint16_t *"),
        ("points", "const uint16_t *"),
        ("bandwidths", "const uint32_t *"),
        ("rows", "uint64_t *"),
    ),
    "smooth_ranges": (
        ("minutes", "const uint16_t *"),
        ("lows", "const uint16_t *"),
        ("highs", "const uint16_t *"),
        ("points", "const uint16_t *"),
        ("bandwidths", "const uint32_t *"),
        ("rows", "uint64_t *"),
    ),
    "preview": (
        ("minutes", "const uint16_t *"),
        ("values", "const uint16_t *"),
        ("points", "const uint16_t *"),
        ("bandwidths", "const uint32_t *"),
        ("rows", "uint64_t *"),
    ),
    "fill": (
        ("first", "uint16_t"),
        ("spacing", "uint16_t"),
        ("preset", "uint32_t"),
        ("points", "uint16_t *"),
        ("bandwidths", "uint32_t *"),
    ),
    "read": (
        ("sheet", "const uint8_t *"),
        ("minutes", "uint16_t *"),
        ("values", "uint16_t *"),
        ("points", "uint16_t *"),
        ("bandwidths", "uint32_t *"),
        ("counts", "uint64_t *"),
    ),
    "read_ranges": (
        ("sheet", "const uint8_t *"),
        ("minutes", "uint16_t *"),
        ("lows", "uint16_t *"),
        ("highs", "uint16_t *"),
        ("points", "uint16_t *"),
        ("bandwidths", "uint32_t *"),
        ("counts", "uint64_t *"),
    ),
    "text": (
        ("sheet", "const uint8_t *"),
        ("out", "uint8_t *"),
    ),
    "refusal_text": (
        ("number", "uint64_t"),
        ("place", "uint64_t"),
        ("out", "uint8_t *"),
    ),
    "first_at_most": (
        ("minutes", "const uint16_t *"),
        ("values", "const uint16_t *"),
        ("points", "const uint16_t *"),
        ("bandwidths", "const uint32_t *"),
        ("limit", "uint16_t"),
        ("position", "uint64_t *"),
    ),
    "decisive": (
        ("minutes", "const uint16_t *"),
        ("values", "const uint16_t *"),
        ("point", "uint16_t"),
        ("bandwidth", "uint32_t"),
        ("limit", "uint16_t"),
        ("position", "uint64_t *"),
    ),
    "compare": (
        ("minutes1", "const uint16_t *"),
        ("values1", "const uint16_t *"),
        ("minutes2", "const uint16_t *"),
        ("values2", "const uint16_t *"),
        ("points", "const uint16_t *"),
        ("bandwidths", "const uint32_t *"),
        ("out", "uint64_t *"),
    ),
    "neighbours": (
        ("minutes", "const uint16_t *"),
        ("values", "const uint16_t *"),
        ("points", "const uint16_t *"),
        ("k", "size_t"),
        ("bandwidths", "uint32_t *"),
        ("rows", "uint64_t *"),
    ),
    "doubles": (
        ("weight", "uint64_t"),
        ("number", "uint64_t"),
        ("doubles", "double *"),
    ),
    "boxes": (
        ("minutes", "const uint16_t *"),
        ("temperatures", "const uint8_t *"),
        ("values", "const uint16_t *"),
        ("points", "const uint16_t *"),
        ("bandwidths", "const uint32_t *"),
        ("temperature_points", "const uint8_t *"),
        ("temperature_bandwidths", "const uint32_t *"),
        ("boxes", "uint64_t *"),
        ("counts", "uint32_t *"),
        ("sums", "uint32_t *"),
    ),
}
