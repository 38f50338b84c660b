"""The module against link/include/tankcurve.h: every call, report, constant and field, and the version."""

import inspect
import re
import unittest
from pathlib import Path

import from_header
import tankcurve
from tankcurve import _header
from tankcurve._header import CALLS

LINK = Path(__file__).resolve().parents[2]
HEADER = (LINK / "include" / "tankcurve.h").read_text()

# Where the fields of the header's lists stand in the module.
FIELDS = {
    "ROW": "Row",
    "RECORD": "RunningSums",
    "COUNTS": "Counts",
    "PARTING": "Parting",
    "DOUBLES": "Doubles",
    "RANGE_ROW": "RangeRow",
    "RANGE_COUNTS": "RangeCounts",
    "BOX": "Box",
}


class Header(unittest.TestCase):
    def test_the_file_is_made_of_the_header(self):
        same = Path(_header.__file__).read_text() == from_header.module(HEADER)
        self.assertTrue(same, "link/python/from_header.py makes tankcurve/_header.py anew")

    def test_every_call_has_a_function(self):
        public = {name for name in tankcurve.__all__ if inspect.isfunction(getattr(tankcurve, name))}
        self.assertEqual(public, set(CALLS))
        declared = re.findall(r"^uint\d+_t tankcurve_(\w+)\(", HEADER, re.M)
        self.assertEqual(sorted(declared), sorted(CALLS))

    def test_the_functions_have_the_headers_parameters(self):
        for call, parameters in CALLS.items():
            found = inspect.signature(getattr(tankcurve, call)).parameters.values()
            read = [one.name for one in found if one.kind == one.POSITIONAL_OR_KEYWORD and one.name != "count"]
            lent = [one.name for one in found if one.kind == one.KEYWORD_ONLY]
            written = [name for name, kind in parameters if kind.endswith("*") and not kind.startswith("const ")]
            with self.subTest(call=call):
                self.assertEqual(read, [name for name, _ in parameters if name == "record" or name not in written])
                self.assertEqual(lent, [name for name in written if name != "record"])

    def test_fields(self):
        for name in re.findall(r"^enum tankcurve_(\w+)_field", HEADER, re.M):
            fields = getattr(_header, f"{name.upper()}_FIELDS")
            found = getattr(tankcurve, FIELDS[name.upper()])._fields
            with self.subTest(name=name):
                self.assertEqual(tuple(field for field in found if field in fields), fields)
                if name != "parting":
                    self.assertEqual(found, fields)

    def test_names_numbers_and_parameters_are_those_of_the_version(self):
        """The file of the version has the numbers as a C compiler sees them."""
        lines = (LINK / f"abi-{tankcurve.__version__}").read_text().splitlines()
        numbers = dict(line.split() for line in lines if line.startswith("TANKCURVE_"))
        enums = from_header.enums(HEADER)
        of_enums = sum(map(len, enums.values()))
        for name, value in from_header.constants(HEADER).items():
            self.assertEqual((getattr(tankcurve, name), int(numbers[f"TANKCURVE_{name}"])), (value, value), name)
        self.assertEqual(len(numbers), len(from_header.constants(HEADER)) + of_enums)
        for report in tankcurve.Report:
            self.assertEqual(int(numbers[f"TANKCURVE_{report.name}"]), report)
            self.assertIn(f'"{report.word}"', HEADER)
        self.assertEqual({line[len("export tankcurve_") :] for line in lines if line.startswith("export ")}, set(CALLS))
        for line in lines:
            if not re.match(r"uint\d+_t ", line):
                continue
            call, inside = re.fullmatch(r"uint\d+_t tankcurve_(\w+)\((.*)\);", line).groups()
            parameters = []
            for name, kind in CALLS[call]:
                parameters.append(f"{kind}{name}" if kind.endswith("*") else f"{kind} {name}")
                parameters += [f"size_t {name}_len"] if kind.endswith("*") else []
            self.assertEqual(", ".join(parameters) or "void", inside)

    def test_the_version(self):
        number = tankcurve.VERSION
        self.assertEqual(tankcurve.version(), number)
        self.assertEqual(tankcurve.__version__, f"{number >> 16}.{number >> 8 & 255}.{number & 255}")


if __name__ == "__main__":
    unittest.main()
