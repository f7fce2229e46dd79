"""The pictures that need no plotting: the layers of README's store, and the crates of docs/ARCHITECTURE.md by subject and level.

Only the files that a picture shows decide its text, so tools/check-figures draws it again and compares.
"""
import re
from pathlib import Path
from xml.sax.saxutils import escape

TOP = Path(__file__).resolve().parent.parent
SANS = "-apple-system, 'Segoe UI', 'DejaVu Sans', Helvetica, Arial, sans-serif"
MONO = "ui-monospace, SFMono-Regular, Menlo, Consolas, 'DejaVu Sans Mono', monospace"
# GitHub's two backgrounds and inks, and colours of Okabe and Ito, which colour-blind readers tell apart.
THEMES = {
    "light": {"ground": "#ffffff", "ink": "#1f2328", "faint": "#59636e", "line": "#c3cad2", "block": "#f6f8fa", "ours": "#0072b2", "other": "#c04f00", "seen": "#e3f1fa"},
    "dark": {"ground": "#0d1117", "ink": "#f0f6fc", "faint": "#a3abb5", "line": "#454c56", "block": "#161b22", "ours": "#56b4e9", "other": "#e69f00", "seen": "#12304a"},
}
# Of the columns of the crates.
COLUMNS = {"light": ["#0072b2", "#007a5a", "#9a6a00", "#c04f00", "#a8457c"], "dark": ["#56b4e9", "#2bc49a", "#e6b800", "#f08a3c", "#e08fc0"]}


class Drawing:
    """An SVG of this size, in a theme."""

    def __init__(self, width, height, theme, title, about):
        self.width, self.height, self.colours = width, height, THEMES[theme]
        self.parts = [f"<title>{escape(title)}</title>", f"<desc>{escape(about)}</desc>", f'<rect width="{width}" height="{height}" rx="8" fill="{self.colours["ground"]}"/>']

    def text(self, x, y, words, colour="ink", size=14, anchor="start", mono=False, bold=False):
        """A line of text; its colour is one of the theme's, or a code."""
        weight = ' font-weight="600"' if bold else ""
        family = f' font-family="{MONO}"' if mono else ""
        self.parts.append(f'<text x="{x:g}" y="{y:g}" font-size="{size:g}" text-anchor="{anchor}" fill="{self.colours.get(colour, colour)}"{family}{weight}>{escape(words)}</text>')

    def box(self, x, y, width, height, fill="none", line="none", rx=6, more=""):
        fill, line = self.colours.get(fill, fill), self.colours.get(line, line)
        self.parts.append(f'<rect x="{x:g}" y="{y:g}" width="{width:g}" height="{height:g}" rx="{rx:g}" fill="{fill}" stroke="{line}"{more}/>')

    def path(self, steps, line="line", width=1, fill="none", more=""):
        fill, line = self.colours.get(fill, fill), self.colours.get(line, line)
        self.parts.append(f'<path d="{steps}" fill="{fill}" stroke="{line}" stroke-width="{width:g}"{more}/>')

    def arrow(self, x, y, dx, dy, line="faint", width=2):
        """From a point, along one axis, with its head at the end."""
        end_x, end_y = x + dx, y + dy
        along, across = ((1 if dx > 0 else -1) * 6, 0) if dx else (0, (1 if dy > 0 else -1) * 6)
        self.path(f"M{x:g} {y:g}L{end_x - along:g} {end_y - across:g}", line, width)
        side_x, side_y = (0, 4.5) if dx else (4.5, 0)
        self.path(f"M{end_x:g} {end_y:g}L{end_x - along * 1.4 - side_x:g} {end_y - across * 1.4 - side_y:g}L{end_x - along * 1.4 + side_x:g} {end_y - across * 1.4 + side_y:g}Z", "none", 0, line)

    def svg(self):
        head = f'<svg xmlns="http://www.w3.org/2000/svg" viewBox="0 0 {self.width} {self.height}" width="{self.width}" height="{self.height}" font-family="{SANS}" role="img">'
        return "\n".join([head, *self.parts, "</svg>", ""])


# ---- a store's layers: examples/desk, and what README writes into it


def readme_store():
    """The lines of the profile, and for each database, in that order, its file, its values and what it locks. The user's values are those that README's transcript writes."""
    desk = TOP / "examples" / "desk"
    lines = (desk / "profile").read_text(encoding="utf-8").split()
    readme = (TOP / "README.md").read_text(encoding="utf-8").splitlines()
    mine = {}
    for line, below in zip(readme, readme[1:]):
        written = re.fullmatch(r'\$ dconfdb write (/\S+) "(.*)"', line)
        if written and not below.startswith("error:"):
            mine[written[1]] = written[2]
    found = []
    for line in lines:
        kind, name = line.split(":")
        if kind == "user-db":
            found.append((f"{name}.user", mine, []))
        else:
            found.append((f"{name}.db", keys_of(desk / f"{name}.keys"), [it for it in (desk / f"{name}.locks").read_text(encoding="utf-8").split("\n") if it.startswith("/")]))
    return lines, found


def keys_of(keyfile):
    """The values of a keyfile, by path."""
    found, group = {}, ""
    for line in keyfile.read_text(encoding="utf-8").splitlines():
        if line.startswith("["):
            group = line.strip("[]/")
        elif "=" in line:
            name, _, value = line.partition("=")
            found[f"/{group}/{name}" if group else f"/{name}"] = value
    return found


def chosen(key, layers):
    """Which layer's value of a key is seen, or None; and which one locks the key, or None. A lock of the first layer doesn't count."""
    locking = max((i for i, (_, _, locks) in enumerate(layers) if i and key in locks), default=None)
    return next((i for i, (_, values, _) in enumerate(layers) if key in values and i >= (locking or 0)), None), locking


def captions(key, layers):
    """Why it is this value, in two lines."""
    winner, locking = chosen(key, layers)
    if locking is not None:
        return "locked by the site:", "the user can't set it"
    if sum(key in values for _, values, _ in layers) > 1:
        return "the first database", "with a value counts"
    return ("only the user", "has a value") if winner == 0 else ("only the site", "has a value")


def lock_sign(drawing, x, y):
    drawing.path(f"M{x + 2.5:g} {y:g}v-3.5a3.5 3.5 0 0 1 7 0v3.5", "other", 2)
    drawing.box(x, y, 12, 9, "other", rx=1.5)


def layers_svg(theme):
    """The profile, its databases as layers, and above them what is seen through them."""
    lines, layers = readme_store()
    keys = list(dict.fromkeys(key for _, values, _ in reversed(layers) for key in values))
    left, first, row, step = 228, 344, 54, 74
    column = 150
    width, height = first + column * len(keys) + 16, 136 + step * len(layers) + 40
    picture = Drawing(width, height, theme, "A store's layers", "A profile lists databases. A program sees, of each key, the value of the first database that has one; a lock in a later database hides those before it.")
    hatch = f'<pattern id="hatch" width="7" height="7" patternUnits="userSpaceOnUse" patternTransform="rotate(45)"><rect width="2.5" height="7" fill="{picture.colours["line"]}"/></pattern>'
    picture.parts.append(f"<defs>{hatch}</defs>")
    tops = [136 + step * i for i in range(len(layers))]
    picture.text(24, 72, "what programs see", bold=True)
    picture.text(24, 91, "the effective value", "faint", 13)
    picture.box(left, 52, width - left - 16, row, "seen", "ours")
    card = tops[-1] + row - tops[0]
    picture.box(16, tops[0], 176, card, "block", "line")
    picture.text(28, tops[0] - 10, "the file profile", "faint", 13)
    for line, top, (name, _, _) in zip(lines, tops, layers):
        picture.text(28, top + row / 2 + 5, line, mono=True, size=14)
        picture.arrow(192, top + row / 2, left - 192 - 3, 0)
        picture.box(left, top, width - left - 16, row, "block", "line")
        picture.text(left + 12, top + row / 2 - 3, name, mono=True, size=14, bold=True)
        picture.text(left + 12, top + row / 2 + 15, "the user's" if name.endswith(".user") else "the site's", "faint", 13)
    for i, key in enumerate(keys):
        layer_column(picture, key, layers, first + column * i, column, tops)
    return picture.svg()


def layer_column(picture, key, layers, x, column, tops):
    """A key: its values from layer to layer, and the arrow from the one that is seen."""
    row, middle = 54, x + column / 2
    winner, locking = chosen(key, layers)
    directory, _, name = key.rpartition("/")
    picture.text(middle, 18, f"{directory}/", "faint", 12, "middle", True)
    picture.text(middle, 38, name, "ink", 15, "middle", True, True)
    for i, (top, (_, values, locks)) in enumerate(zip(tops, layers)):
        inner = (x + 6, top + 8, column - 12, row - 16)
        if locking is not None and i < locking:
            picture.box(*inner, "url(#hatch)", "line")
        elif key not in values:
            picture.box(*inner, "none", "line", more=' stroke-dasharray="4 4"')
        else:
            picture.box(*inner, "ground", "ours" if i == winner else "line", more=' stroke-width="2"' if i == winner else "")
            picture.text(middle, top + row / 2 + 5, values[key], "ink" if i == winner else "faint", 15, "middle", True)
        if i and key in locks:
            lock_sign(picture, x + column - 30, top + row / 2 - 2)
    if winner is not None:
        picture.arrow(middle, tops[winner] + 7, 0, 52 + row + 2 - tops[winner] - 7, "ours", 2.5)
        picture.text(middle, 52 + row / 2 + 6, layers[winner][1][key], "ink", 17, "middle", True, True)
    for i, words in enumerate(captions(key, layers)):
        picture.text(middle, tops[-1] + row + 22 + 17 * i, words, "faint", 13, "middle")


# ---- the crates, by subject and level

SUBJECTS = [("Values", "GVariant: types,", "bytes, text"), ("Databases", "GVDB: checked,", "searched, written"), ("Settings", "paths, keyfiles,", "layers, locks"), ("Changes", "who writes when,", "and who is told"), ("Programs", "the command,", "the calls for C")]
# The subject of each heading of crates.txt; None for crates that the picture only names.
HEADINGS = {
    "A fault, or an allocation that failed": 0,
    "GVariant: types, bytes, values, texts": 0,
    "Databases": 1,
    "Settings: paths, keyfiles, compiling, layers": 2,
    "What comes next: machines without input or output": 3,
    "What becomes of a change that is asked for, or that fails, around a turn, and while it waits; and of its file": 3,
    "What is watched, and what is heard of it": 3,
    "What a store shows while edits wait": 3,
    "What dconf's client does with changes": 3,
    "The calls of the library for C": 4,
    "What is made of a change, and whether that is anything new": 3,
    "As what the files of a site are read": 2,
    "What a bad file counts as: a database, or a profile": 2,
    "The program": 4,
    "Values as C reads them, and the exports of the calls": 4,
    "Tests and tools": None,
}
DEFINITIONS = "What a reader must believe: the public standards, as definitions, and their laws"


def crates():
    """Of each crate of crates.txt its heading and the crates that it uses."""
    found, heading = {}, None
    for line in (TOP / "crates.txt").read_text(encoding="utf-8").splitlines():
        if line.startswith("# "):
            heading = line[2:]
        elif line.strip():
            name, _, uses = line.partition(":")
            found[name.split()[0]] = heading, uses.split()
    return found


def crate_faults():
    """Headings of crates.txt that have no place in the picture."""
    unknown = {heading for heading, _ in crates().values()} - HEADINGS.keys() - {DEFINITIONS}
    return [f"crates.txt: tools/drawings.py gives no subject to '{it}'" for it in sorted(unknown)]


def levels(uses):
    """One more than the highest level of the crates that a crate uses."""
    found = {}

    def level(name):
        if name not in found:
            found[name] = 1 + max((level(it) for it in uses[name] if it in uses), default=0)
        return found[name]

    for name in uses:
        level(name)
    return found


def placed():
    """The crates of each cell, by level and subject; and those that are only named."""
    all_of = crates()
    level = levels({name: uses for name, (_, uses) in all_of.items()})
    cells, named = {}, []
    for name, (heading, _) in all_of.items():
        subject = (0 if name.startswith("gv_") else 2) if heading == DEFINITIONS else HEADINGS.get(heading)
        if subject is None:
            named.append(name)
        else:
            cells.setdefault((level[name], subject), []).append((name, heading == DEFINITIONS))
    return cells, named


def crates_svg(theme):
    cells, named = placed()
    top_level = max(level for level, _ in cells)
    heights = {level: 16 + 18 * max(len(cells.get((level, it), [])) for it in range(len(SUBJECTS))) for level in range(1, top_level + 1)}
    left, column, head = 46, 178, 92
    width, height = left + column * len(SUBJECTS) + 12, head + sum(heights.values()) + 62
    picture = Drawing(width, height, theme, "The crates", f"Five columns, {', '.join(it[0].lower() for it in SUBJECTS)}, and {top_level} levels. A crate uses only crates of lower levels.")
    for i, (subject, *about) in enumerate(SUBJECTS):
        x, colour = left + column * i, COLUMNS[theme][i]
        picture.box(x + 4, 10, column - 8, height - 62, colour, rx=8, more=' fill-opacity="0.09"')
        picture.box(x + 4, 10, column - 8, 5, colour, rx=2.5)
        picture.text(x + column / 2, 40, subject, colour, 19, "middle", bold=True)
        for j, words in enumerate(about):
            picture.text(x + column / 2, 60 + 17 * j, words, "faint", 13.5, "middle")
    picture.text(left - 12, head - 9, "level", "faint", 13, "end")
    y = head
    for level in range(top_level, 0, -1):
        picture.path(f"M{left - 8} {y:g}H{width - 12}", "line", 1)
        picture.text(left - 12, y + 22, str(level), "faint", 14, "end")
        for i in range(len(SUBJECTS)):
            for j, (name, definition) in enumerate(cells.get((level, i), [])):
                crate_name(picture, left + column * i + 14, y + 21 + 18 * j, name, definition)
        y += heights[level]
    legend(picture, height, left, named)
    return picture.svg()


def crate_name(picture, x, y, name, definition):
    if definition:
        picture.box(x - 6, y - 14, 150, 19, "none", "ink", rx=4)
    picture.text(x, y, name, "ink", 13.5, "start", True, definition or name in ("dconfdb", "dconfdb_c"))


def legend(picture, height, left, named):
    picture.text(left + 4, height - 30, "A crate uses only crates of lower levels. Framed: the definitions that a reader must believe. Bold: the program,", "faint", 13)
    picture.text(left + 4, height - 12, f"and the calls that all C here stands on. Not shown, since they only test: {', '.join(named)}.", "faint", 13)


DRAWN = {"layers": layers_svg, "crates": crates_svg}
