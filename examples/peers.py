#!/usr/bin/env python3
"""peers.py [SHEET]: a sheet's curve, else that of season.sheet, by the proved calls and by what a laboratory would take otherwise: the same sums in
floating point, scikit-learn's KernelDensity, and R's locfit (local constant, Epanechnikov). Of each peer that is there: the largest difference from
the exact quotient of sum and weight, and the time of a run as a ratio to that of the proved call.

    PYTHONPATH=link/python python3 examples/peers.py
"""

import math
import shutil
import subprocess
import sys
import tempfile
import time
from fractions import Fraction
from pathlib import Path

import tankcurve


class NotThere(Exception):
    """A peer that is not installed."""


def by_hand(sheet, marks):
    """Sums over all readings in floating point."""
    found = []
    for mark, half in marks:
        kernel = [max(0.0, 1 - ((minute - mark) / half) ** 2) for minute in sheet.minutes]
        found.append(sum(k * value for k, value in zip(kernel, sheet.values)) / sum(kernel))
    return found


def by_half_width(marks):
    """The positions of the marks of each half width: the peers take one half width for all marks."""
    groups = {}
    for at, (_, half) in enumerate(marks):
        groups.setdefault(half, []).append(at)
    return groups.items()


def by_scikit_learn(sheet, marks):
    """The density weighted by the values over the density: KernelDensity has no regression of its own."""
    try:
        from sklearn.neighbors import KernelDensity
    except ImportError:
        raise NotThere from None
    minutes = [[minute] for minute in sheet.minutes]
    found = [math.nan] * len(marks)
    for half, positions in by_half_width(marks):
        asked = [[marks[at][0]] for at in positions]
        plain = KernelDensity(kernel="epanechnikov", bandwidth=half).fit(minutes).score_samples(asked)
        weighted = KernelDensity(kernel="epanechnikov", bandwidth=half).fit(minutes, sample_weight=list(sheet.values)).score_samples(asked)
        mean = sum(sheet.values) / len(sheet.values)
        for at, one, other in zip(positions, plain, weighted):
            found[at] = math.exp(other - one) * mean
    return found


LOCFIT = """
suppressMessages(library(locfit))
readings <- read.csv("readings.csv"); marks <- read.csv("marks.csv"); found <- rep(NA, nrow(marks))
took <- system.time(for (half in unique(marks$half)) {
    at <- which(marks$half == half)
    fit <- locfit(value ~ lp(minute, nn = 0, h = half, deg = 0), data = readings, kern = "epan", ev = marks$mark[at])
    found[at] <- predict(fit, where = "fitp")
})["elapsed"]
writeLines(c(format(took, digits = 17), format(found, digits = 17)), "found")
"""


def by_locfit(sheet, marks):
    """R's locfit, each mark fitted by itself. The time is R's own, without its start."""
    if shutil.which("Rscript") is None or subprocess.run(["Rscript", "-e", "library(locfit)"], capture_output=True).returncode != 0:
        raise NotThere
    with tempfile.TemporaryDirectory() as folder:
        lines = [f"{minute},{value}" for minute, value in zip(sheet.minutes, sheet.values)]
        (Path(folder) / "readings.csv").write_text("\n".join(["minute,value", *lines, ""]))
        (Path(folder) / "marks.csv").write_text("\n".join(["mark,half", *(f"{mark},{half}" for mark, half in marks), ""]))
        subprocess.run(["Rscript", "-e", LOCFIT], cwd=folder, check=True, capture_output=True)
        took, *found = (Path(folder) / "found").read_text().split()
    return [math.nan if one == "NA" else float(one) for one in found], float(took)


def timed(function, *given):
    """What the function gives, and the shortest time of three runs."""
    times = []
    for _ in range(3):
        start = time.perf_counter()
        found = function(*given)
        times.append(time.perf_counter() - start)
    return found, min(times)


PEERS = {
    "floating point by hand": lambda sheet, marks: timed(by_hand, sheet, marks),
    "scikit-learn": lambda sheet, marks: timed(by_scikit_learn, sheet, marks),
    "R with locfit": by_locfit,
}


def main(path):
    sheet = tankcurve.read(path)
    rows, proved = timed(lambda: list(tankcurve.smooth(*sheet).rows))
    # the peers get the marks that have a value: without a reading in the window their quotient is 0 / 0
    marks, exact = [], []
    for mark, half, row in zip(sheet.points, sheet.bandwidths, rows):
        if row.value is not None:
            marks.append((mark, half))
            exact.append(Fraction(row.sum, row.weight))
    print(f"tankcurve: {len(rows)} marks, {len(rows) - len(marks)} without a value")
    for name, peer in PEERS.items():
        try:
            found, took = peer(sheet, marks)
        except NotThere:
            print(f"{name} is not there")
            continue
        away = [math.inf if math.isnan(one) else abs(Fraction(one) - quotient) for one, quotient in zip(found, exact)]
        worst = max(range(len(away)), key=away.__getitem__)
        print(f"{name}: at most {float(away[worst]):.2g} from the curve, at mark {marks[worst][0]}; {took / proved:.3g} times the time")


if __name__ == "__main__":
    main(sys.argv[1] if len(sys.argv) > 1 else Path(__file__).with_name("season.sheet"))
