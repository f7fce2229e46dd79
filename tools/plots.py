"""The plots of docs/PERFORMANCE.md: what each shows, taken from bench/results. tools/pictures draws them by matplotlib.

A plot says in its first lines what it shows, and the hash of the rest. So tools/check-figures can compare it with bench/results without matplotlib.
"""
import hashlib
import re
from pathlib import Path

RESULTS = Path(__file__).resolve().parent.parent / "bench" / "results"
FIGURE = re.compile(r"\d[\d,]*(?:\.\d+)?")
SIDES = ("dconfdb", "dconf")
WORKS = ("`read`", "`dump`", "`compile`")


def cells(line):
    return [cell.strip() for cell in line.strip().strip("|").split("|")]


def table(name):
    """The rows of a kept output's first table, its head too: what each begins with, and the figures of its other cells."""
    lines = [cells(line) for line in (RESULTS / f"{name}.md").read_text(encoding="utf-8").splitlines() if line.startswith("|")]
    return [(first, [FIGURE.findall(cell) for cell in others]) for first, *others in lines[:1] + lines[2:]]


def growth():
    """The least wall time of a run, in ms, by the number of keys: for each work and side its points."""
    (_, sizes), *rows = table("settings-time")
    by_work = dict(rows)
    return {f"{work.strip('`')} {side}": [(size[0], it[2 * i]) for size, it in zip(sizes, by_work[work])] for work in WORKS for i, side in enumerate(SIDES)}


def gsettings():
    """For each row of the table its six figures. A row that begins 'the same' goes on with the name of the row before."""
    found, before = {}, ""
    for first, figures in table("gsettings")[1:]:
        name = first.replace("`", "")
        if name.startswith("the same, "):
            name = f"{before}, {name.removeprefix('the same, ')}"
        else:
            before = name
        found[name] = [(it[0],) for it in figures]
    return found


PLOTTED = {"growth": growth, "gsettings": gsettings}


def said(name):
    """The data of a plot, as its head says them."""
    return "".join(f"{row}: {' '.join('/'.join(point) for point in points)}\n" for row, points in PLOTTED[name]().items())


def with_head(name, svg):
    """A plot that says what it shows."""
    return f"<!--\n{said(name)}rest: {hashlib.sha256(svg.encode()).hexdigest()}\n-->\n{svg}"


def is_of_data(name, picture):
    """Whether a plot shows what bench/results has, and nobody has changed it since it was made."""
    _, found, rest = picture.partition("-->\n")
    return bool(found) and with_head(name, rest) == picture
