#!/usr/bin/env python3
"""from_header.py: writes tankcurve/_header.py, what the module takes over from link/include/tankcurve.h.

These are the version, the constants, the fields of the lists, the reports with their words, and each call's
parameters. tests/python compares the file with the header.
"""

import ast
import re
import sys
from pathlib import Path

HERE = Path(__file__).resolve().parent
HEADER = HERE.parent / "include" / "tankcurve.h"
WRITTEN = HERE / "tankcurve" / "_header.py"

# What is no number of the header.
NO_CONSTANTS = {"H", "ANSWER", "REPORT_TYPE"}


def number(text):
    """The value of a constant's C expression."""
    text = text.replace("(uint64_t)", "").replace("UINT64_MAX", str(2**64 - 1))
    text = re.sub(r"UINT64_C\((\d+)\)", r"\1", text)
    if not re.fullmatch(r"[0-9a-fA-Fx()<\- ]+", text):
        raise ValueError(f"no constant: {text}")
    return eval(compile(ast.parse(text, mode="eval"), "tankcurve.h", "eval"))


def constants(header):
    """Every name of a number and its value, without the prefix."""
    found = re.findall(r"^ *#define TANKCURVE_([A-Z0-9_]+)(?: +([^/\n]+?))? *(?:/\*.*)?$", header, re.M)
    return {name: number(value) for name, value in found if name not in NO_CONSTANTS}


def enums(header):
    """Each enumeration's members, without the prefixes."""
    found = {}
    for name, body in re.findall(r"^enum tankcurve_(\w+)[^{;]*\{(.*?)^\};", header, re.M | re.S):
        body = re.sub(r"/\*.*?\*/", "", body, flags=re.S)
        members = {member: int(value) for member, value in re.findall(r"TANKCURVE_(\w+) = (\d+)", body)}
        prefix = name.replace("_field", "").upper() + "_"
        if all(member.startswith(prefix) for member in members):
            members = {member[len(prefix) :]: value for member, value in members.items()}
        found[name] = members
    return found


def words(header):
    """The trade's word for each report."""
    return dict(re.findall(r'case TANKCURVE_(\w+): return "([^"]*)";', header))


def calls(header):
    """Each call's parameters, (name, C type); a list's length goes with the list."""
    header = re.sub(r"/\*.*?\*/", "", header, flags=re.S)
    found = {}
    for name, inside in re.findall(r"^uint\d+_t tankcurve_(\w+)\(([^)]*)\);", header, re.M):
        parameters, length = [], None
        for parameter in [] if inside == "void" else inside.split(","):
            kind, called = re.fullmatch(r"\s*(.*?)(\w+)\s*", parameter, re.S).groups()
            if length is not None:
                if (kind.strip(), called) != ("size_t", length):
                    raise ValueError(f"{name}: {called} stands where {length} belongs")
                length = None
                continue
            parameters.append((called, " ".join(kind.split())))
            length = f"{called}_len" if kind.rstrip().endswith("*") else None
        found[name] = tuple(parameters)
    return found


def module(header):
    """The text of _header.py."""
    numbers, lists, spoken = constants(header), enums(header), words(header)
    classes = {name: members for name, members in lists.items() if not name.endswith("_field")}
    fields = {name[: -len("_field")]: members for name, members in lists.items() if name.endswith("_field")}
    names = [*numbers, *(name.title().replace("_", "") for name in classes)]
    out = [
        '"""What link/include/tankcurve.h has. from_header.py writes this file."""',
        "",
        "from enum import IntEnum",
        "from typing import Dict, Tuple",
        "",
        "__all__ = [",
        *(f'    "{name}",' for name in sorted(names)),
        "]",
        "",
        *(f"{name} = {value:#08x}" if name == "VERSION" else f"{name} = {value}" for name, value in numbers.items()),
    ]
    for name, members in fields.items():
        if list(members.values()) != list(range(len(members))):
            raise ValueError(f"the fields of {name} do not stand one behind the other")
        listed = "".join(f'"{member.lower()}", ' for member in members).rstrip(" ")
        out += ["", f"{name.upper()}_FIELDS = ({listed.rstrip(',') if len(members) > 1 else listed})"]
    for name, members in classes.items():
        out += ["", "", f"class {name.title().replace('_', '')}(IntEnum):"]
        out += [f'    """The numbers of enum tankcurve_{name}."""', ""]
        out += [f"    {member} = {value}" for member, value in members.items()]
        if name == "report":
            out += ["", "    @property", "    def word(self) -> str:", '        """The trade\'s word for it."""']
            out += ["        return _WORDS[self]"]
    out += ["", "", "_WORDS: Dict[int, str] = {"]
    out += [f'    Report.{name}: "{word}",' for name, word in spoken.items()]
    out += ["}", "", "# The parameters of each call: name and type. A list's length goes with the list."]
    out += ["CALLS: Dict[str, Tuple[Tuple[str, str], ...]] = {"]
    for name, parameters in calls(header).items():
        out += [f'    "{name}": (', *(f'        ("{called}", "{kind}"),' for called, kind in parameters), "    ),"]
    return "\n".join([*out, "}", ""])


if __name__ == "__main__":
    if len(sys.argv) > 1:
        sys.exit("usage: from_header.py")
    WRITTEN.write_text(module(HEADER.read_text()))
    print(f"from_header.py: {WRITTEN} has what {HEADER} has")
