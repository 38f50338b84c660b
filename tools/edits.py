"""Edits of the tree, as they stand in must-fail/ and right/, and their tries on copies of the repository. Needs rt where something is tried."""
import concurrent.futures, os, pathlib, queue, re, shutil, subprocess, sys, tempfile

TOP = pathlib.Path(__file__).resolve().parent.parent
TABLE = TOP / "docs/wrong-programs.tsv"
HEAD = ["name", "before", "meaning", "refused by", "twin", "first error at"]


def pairs(text):
    """[(file, old, new)] of an edit's text."""
    found, file, old = [], "", ""
    for line in text.splitlines():
        word, _, rest = line.partition(": ")
        if word == "file":
            file = rest
        elif word == "old":
            old = rest
        elif line.startswith("new:"):
            found.append((file, old, rest))
    return found


def applied(crate, text):
    """The files of the crate in this folder as the edit leaves them, path -> text, and what kept it from being applied, one pair after the other."""
    now, found = {}, []
    for file, old, new in pairs(text):
        if file not in now:
            now[file] = (crate / file).read_text(encoding="utf-8") if (crate / file).is_file() else ""
        if now[file].count(old) != 1:
            found.append(f"{file} has its old text {now[file].count(old)} times")
        now[file] = now[file].replace(old, new)
    return now, found


def faults(crate, text):
    return applied(crate, text)[1]


def place(line):
    """Where an error of a check lies, without its line and column: the file, and the goal or declaration that it names, first or in brackets."""
    found = re.match(r"(?:rt: )?(?:note: )?(?:\./)?(\S+?):\d+:\d+: (?:error: )?(.*)", line)
    if not found:
        return ""
    name = re.match(r"`([^`]*)", found[2]) or re.search(r"\(`([^`]*)", found[2])
    return f"{found[1]} {name[1] if name else ''}".strip()


def places(said):
    """Where the errors of a check lie, in its order; what only lacks a name that the edit took from a proof file comes last."""
    told = [it for it in said.splitlines() if re.match(r"(note: )?\S+:\d+:\d+:", it) and (": error" in it or it.startswith("note: "))]
    lacks = re.compile(r"(note: )?(\./)?proofs/.*(has no field|is not in scope|has no `|was not admitted)")
    return [place(it) for it in sorted(told, key=lambda it: bool(lacks.match(it)))]


def rows():
    """The table of wrong programs: [{column: text}]."""
    lines = [line.split("\t") for line in TABLE.read_text(encoding="utf-8").splitlines()]
    if lines[0] != HEAD or any(len(line) != len(HEAD) for line in lines):
        sys.exit(f"{TABLE.name}: a row for each wrong program, of the columns {', '.join(HEAD)}")
    return [dict(zip(HEAD, line)) for line in lines[1:]]


class Tries:
    """Copies of the repository, one a processor, on which edits are tried: each check begins with what that copy's last one kept."""

    def __init__(self):
        self.number = os.cpu_count() or 1
        self.work = tempfile.TemporaryDirectory()
        self.lanes = concurrent.futures.ThreadPoolExecutor(self.number)
        self.copies = queue.Queue()
        for number in range(self.number):
            copy = pathlib.Path(self.work.name) / str(number)
            shutil.copytree(TOP, copy, ignore=shutil.ignore_patterns("out", "target", ".git"))
            # (the top of a repository, as rt wants it)
            (copy / ".git").mkdir()
            self.copies.put(copy)

    def __enter__(self):
        return self

    def __exit__(self, *_):
        self.lanes.shutdown()
        self.work.cleanup()

    def check(self, copy, crate):
        run = subprocess.run(["rt", "check", "--jobs", "1"], cwd=copy / "crates" / crate, stdout=subprocess.PIPE, stderr=subprocess.STDOUT, text=True)
        return run.returncode == 0, run.stdout

    def begin(self, crate):
        """Checks the crate as it stands in each copy, first in one, whose libraries the others take."""
        every = [self.copies.get() for _ in range(self.number)]
        for good, said in [self.check(every[0], crate), *self.lanes.map(lambda it: self.check(it, crate), every[1:])]:
            if not good:
                sys.exit(f"{said}{crate} is not proved as it stands")
        for copy in every:
            self.copies.put(copy)

    def one(self, crate, text):
        copy = self.copies.get()
        folder = copy / "crates" / crate
        now, _ = applied(folder, text)
        before = {file: (folder / file).read_text(encoding="utf-8") for file in now}
        try:
            for file, edited in now.items():
                (folder / file).write_text(edited, encoding="utf-8")
            return self.check(copy, crate)
        finally:
            for file, was in before.items():
                (folder / file).write_text(was, encoding="utf-8")
            self.copies.put(copy)

    def all(self, crate, texts):
        """Tries the edits' texts, each alone: (whether the crate is proved with it, what the check said), in their order."""
        self.begin(crate)
        return self.lanes.map(lambda it: self.one(crate, it), texts)
