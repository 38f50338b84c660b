#!/usr/bin/env python3
"""Writes the repository's own hyphenated definitions, laws and fields with underscores: sum-of becomes sum_of.

usage: tools/snake_names.py [--list]     at the top of the repository, after the kit's port.py

A name is the repository's own if a file of specs/ or proofs/ declares it, but for what a function's own proof folder declares: those names are
goals. A name that a file imports from elsewhere keeps its spelling there. It turns .antt files, the clauses and comments of .rt files, edits, and
code spans of pages. --list prints the table and writes nothing.
"""
import glob
import os
import re
import sys

NAME = r"[^\W\d][\w']*(?:-[\w']+)+"
WORD = re.compile(rf"(?<![\w'-])({NAME})(?![\w'-])")
USE = re.compile(r"^\s*(?:pub )?(?:ghost )?use ([^{};\n]+?)(?:\.\{([^}]*)\})?;?\s*$", re.M)
DECLARED = re.compile(r"^(?:  )*(?:(?:abbrev|unfoldable|opaque|data|record|pub|instance|private) )*((?:[\w'-]+ )+):(?= |$)", re.M)
RECORD = re.compile(rf"^(?:pub )?(?:record|data) ({NAME})", re.M)
CRATES = {os.path.basename(it) for it in glob.glob("crates/*")}


def own_path(path):
    parts = path.split(".")
    return len(parts) > 1 and parts[0] == "Rattle" and parts[1] in CRATES


def read(path):
    with open(path, encoding="utf-8", newline="") as file:
        return file.read()


def imported(text):
    """The hyphenated names that a file imports: from elsewhere, and from this repository."""
    theirs, ours = set(), set()
    for use in USE.finditer(text):
        names = set(WORD.findall(use[2] or ""))
        (ours if own_path(use[1]) else theirs).update(names)
    return theirs, ours


def files(kind):
    return sorted(it for it in glob.glob(f"crates/**/*.{kind}", recursive=True) if "/out/" not in it)


def in_function(path):
    return re.search(r"/proofs/.+/", path) is not None


def table():
    names = set()
    for path in files("antt"):
        if in_function(path):
            continue
        text = read(path)
        for declared in DECLARED.findall(text):
            names.update(WORD.findall(declared))
        names.update(RECORD.findall(text))
        names.update(re.findall(rf"^use .* as ({NAME})$", text, re.M))
        for use in USE.finditer(text):
            names.update(re.findall(rf" as ({NAME})", use[2] or ""))
    for path in files("rt"):
        names.update(re.findall(rf"ghost ({NAME})", read(path)))
        for use in USE.finditer(read(path)):
            names.update(re.findall(rf"as ({NAME})", use[2] or ""))
    return names


def spelled(name):
    """A word in snake case, a type in camel case."""
    if name[0].isupper():
        return "".join(it[0].upper() + it[1:] for it in name.split("-"))
    return name.replace("-", "_")


def turned(text, names, stay):
    return WORD.sub(lambda it: spelled(it[1]) if it[1] in names and it[1] not in stay else it[1], text)


def main(arguments):
    names = table()
    if arguments == ["--list"]:
        print("\n".join(sorted(names)))
        return 0
    words = {}
    for path in files("antt") + files("rt"):
        text = read(path)
        theirs, _ = imported(text)
        new = turned(text, names, theirs)
        for use in USE.finditer(new):
            if use[2] and re.search(r"([\w']+) as \1(?![\w'-])", use[2]):
                new = new.replace(use[0], re.sub(r"([\w']+) as \1(?![\w'-])", r"\1", use[0]))
        for it in WORD.findall(text):
            if it in names and it not in theirs and re.search(rf"(?<![\w'-]){re.escape(spelled(it))}(?![\w'-])", text):
                words.setdefault(it, []).append(path)
        if new != text:
            with open(path, "w", encoding="utf-8", newline="") as file:
                file.write(new)
    for it, where in sorted(words.items()):
        print(f"look: {it} and {spelled(it)} both stood in {', '.join(where)}")
    for path in glob.glob("crates/*/must-fail/*.edit"):
        text = read(path)
        new = turned(text, names, set())
        if new != text:
            with open(path, "w", encoding="utf-8", newline="") as file:
                file.write(new)
    for path in ["README.md", *glob.glob("docs/*.md")]:
        if os.path.basename(path) in ("CHANGES.md", "PORT.md"):
            continue
        text = read(path)
        new = re.sub(r"`[^`\n]+`", lambda it: turned(it[0], names, set()), text)
        if new != text:
            with open(path, "w", encoding="utf-8", newline="") as file:
                file.write(new)
    return 0


if __name__ == "__main__":
    sys.exit(main(sys.argv[1:]))
