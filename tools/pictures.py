#!/usr/bin/env python3
"""Draws the pictures of the documents.

    tools/pictures.py            writes docs/pictures/*.svg
    tools/pictures.py --check    fails if a file there is not what this script makes

crates.svg: the groups of crates, and which group uses which, from crates.txt. dead_import.svg and live_import.svg: the module
graph of these two examples from examples/NAME.txt, and what a run keeps of it from examples/NAME.listing.

The tables below say where things stand. The script fails if a table does not fit what it reads: a crate without a group, groups
that use each other, an arrow without a route, a statement without a label. It also fails if boxes overlap, if a text is wider
than its box, or if an arrow goes through a box.
"""
import re
import sys
from html import escape
from pathlib import Path

sys.dont_write_bytecode = True
from graph_file import parsed  # noqa: E402

ROOT = Path(__file__).resolve().parent.parent
PICTURES = ROOT / "docs" / "pictures"

# ---- crates.svg

# Groups of crates, from those at the top to those that all others use: title, row from the top, left edge, width, kind, crates.
GROUPS = [
    ("Answers and the Rust", 0, 20, 680, "theorems", "rust_returns rust_listing host_answers"),
    ("The Rust as definitions", 1, 20, 220, "theorems", "rust_values rust_effects rust_engine rust_order rust_run"),
    ("Judged records", 1, 260, 200, "theorems", "rule_relation judged_records judged_starts"),
    ("C boundary", 1, 500, 160, "outside", "answers host host_c"),
    ("Smallest choice", 2, 20, 200, "theorems", "closed_choices other_options run_choices settled_runs"),
    ("A run's own starts", 2, 260, 300, "code", "own_starts run_starts"),
    ("Program", 2, 600, 160, "outside", "listing answer_text keep"),
    ("Run", 3, 260, 500, "code", "passes next_stage tree_shaking run_rows run_parts run_sizes run"),
    ("Drain", 4, 20, 200, "code", "drain_parts drain_sizes drain"),
    (
        "Dynamic entries", 4, 240, 320, "code",
        "entry_order entry_starts entry_graph cycles dynamic_entries entry_sizes entry_liveness dead_records",
    ),
    ("Worked cases", 4, 580, 120, "tests", "worked_facts vectors"),
    ("Judge", 4, 720, 160, "code", "record_form justification completeness line_judgement judge_parts judge"),
    ("Record and worklist", 5, 20, 860, "code", "keep_record include_statements marked fact_marks starts worklist answer_rows rule_tables"),
    (
        "Keep rules", 6, 20, 860, "code",
        "keep_rules include_module include_statement include_symbol consequences include_context",
    ),
    ("Facts and side effects", 7, 20, 860, "code", "facts determine_side_effects on_demand linking_metadata"),
    ("Graph file", 8, 20, 860, "code", "graph_format tables graph_tables graph_entries graph graph_access"),
    ("Numbers and bits", 9, 20, 860, "code", "refusal frames leb128 bit_row index rows"),
]

# How each arrow goes: down at a place from the left, then along a lane, (row above it, number of the lane), and down again.
ROUTES = {
    ("Answers and the Rust", "The Rust as definitions"): [100],
    ("Answers and the Rust", "Judged records"): [360],
    ("Answers and the Rust", "C boundary"): [580],
    ("Answers and the Rust", "Program"): [680],
    ("The Rust as definitions", "Smallest choice"): [100],
    ("Judged records", "Smallest choice"): [280, (1, 0), 180],
    ("Judged records", "A run's own starts"): [330],
    ("Judged records", "Judge"): [440, (1, 2), 800],
    ("C boundary", "A run's own starts"): [530],
    ("C boundary", "Drain"): [510, (1, 1), 240, (3, 0), 160],
    ("C boundary", "Judge"): [640, (1, 0), 850],
    ("Smallest choice", "Drain"): [80],
    ("Smallest choice", "Run"): [200, (2, 0), 290],
    ("A run's own starts", "Run"): [410],
    ("Program", "Run"): [680],
    ("Run", "Dynamic entries"): [400],
    ("Drain", "Record and worklist"): [120],
    ("Dynamic entries", "Record and worklist"): [400],
    ("Worked cases", "Record and worklist"): [640],
    ("Judge", "Record and worklist"): [800],
    ("Record and worklist", "Keep rules"): [450],
    ("Keep rules", "Facts and side effects"): [450],
    ("Facts and side effects", "Graph file"): [450],
    ("Graph file", "Numbers and bits"): [450],
}

# Of each kind of group: fill, edge, and what the legend says.
KINDS = {
    "outside": ("#d9ecd9", "#3f6f3f", "called from outside"),
    "code": ("#e6eef7", "#41607f", "code with contracts"),
    "theorems": ("#faf0d2", "#80691f", "definitions and theorems only"),
    "tests": ("#ececec", "#6b6b6b", "worked cases"),
}
OUTSIDE_CRATES = {"io", "libc", "os"}  # of the toolchain

# ---- dead_import.svg and live_import.svg

EXAMPLES = {
    "dead_import": "A dynamic import that is dead",
    "live_import": "The same import, live",
}
MODULES = {1: "main.js", 2: "exporter.js", 3: "line_breaker.js", 0: "runtime"}  # from the top
STATEMENTS = {
    (1, 1): "import './exporter.js';",
    (2, 1): "import('./line_breaker.js');",
    (2, 2): "console.log('WEBVTT');",
    (3, 1): "export function breakLines(text) { .. }",
}
SYMBOLS = {4: "breakLines"}
ENTRY_KINDS = {0: "user-defined entry", 1: "user-defined entry", 2: "dynamic entry"}
DYNAMIC = 2  # the kind of an import record, and of an entry

INK, GREY, RED = "#1a1a1a", "#737373", "#b00020"
SANS, MONO = "Helvetica, Arial, sans-serif", "Menlo, Consolas, 'DejaVu Sans Mono', monospace"
CHARACTER = 0.61  # the width of a character, at most on average, where the size of the font is 1


class Fault(Exception):
    """What does not fit."""


class Picture:
    """Shapes, and what is wrong with where they stand."""

    def __init__(self, title, width):
        self.title, self.width, self.height = title, width, 0
        self.shapes, self.boxes, self.paths = [], {}, []

    def box(self, name, x, y, width, height, fill, edge, inside=None, dashed=False):
        for other, (ox, oy, ow, oh, _) in self.boxes.items():
            if other != inside and x < ox + ow and ox < x + width and y < oy + oh and oy < y + height:
                raise Fault(f"{self.title}: {name} overlaps {other}")
        if x < 0 or x + width > self.width:
            raise Fault(f"{self.title}: {name} is outside")
        self.boxes[name] = x, y, width, height, inside
        self.height = max(self.height, y + height)
        dash = ' stroke-dasharray="4 3"' if dashed else ""
        self.shapes.append(
            f'<rect x="{x}" y="{y}" width="{width}" height="{height}" rx="4" fill="{fill}" stroke="{edge}"{dash}/>'
        )

    def text(self, words, x, y, room, size=12, colour=INK, font=SANS, bold=False, anchor="start"):
        wide = len(words) * size * CHARACTER
        if wide > room:
            raise Fault(f"{self.title}: {words!r} is wider than {room}")
        if anchor == "start" and x + wide > self.width:
            raise Fault(f"{self.title}: {words!r} is outside")
        self.height = max(self.height, y + 4)
        weight = ' font-weight="bold"' if bold else ""
        side = "" if anchor == "start" else f' text-anchor="{anchor}"'
        self.shapes.append(
            f'<text x="{x}" y="{y}" font-family="{font}" font-size="{size}" fill="{colour}"{weight}{side}>{escape(words)}</text>'
        )

    def path(self, points, colour=INK, dashed=False, ends=()):
        """An arrow along horizontal and vertical lines; `ends` are the boxes where it may begin and end."""
        self.paths.append((points, ends))
        dash = ' stroke-dasharray="6 4"' if dashed else ""
        line = " ".join(f"{x},{y}" for x, y in points)
        (px, py), (x, y) = points[-2:]
        dx, dy = (x > px) - (x < px), (y > py) - (y < py)
        head = [(x, y), (x - 8 * dx + 4 * dy, y - 8 * dy + 4 * dx), (x - 8 * dx - 4 * dy, y - 8 * dy - 4 * dx)]
        corners = " ".join(f"{a},{b}" for a, b in head)
        self.shapes.append(f'<polyline points="{line}" fill="none" stroke="{colour}" stroke-width="1.3"{dash}/>')
        self.shapes.append(f'<polygon points="{corners}" fill="{colour}"/>')

    def cross(self, x, y, size, colour):
        for sign in (1, -1):
            self.shapes.append(
                f'<line x1="{x - size}" y1="{y - sign * size}" x2="{x + size}" y2="{y + sign * size}" stroke="{colour}" '
                f'stroke-width="2.5"/>'
            )

    def check_paths(self):
        for points, ends in self.paths:
            for (ax, ay), (bx, by) in zip(points, points[1:]):
                for name, (x, y, width, height, _) in self.boxes.items():
                    inside = min(ax, bx) < x + width and x < max(ax, bx) or x < ax == bx < x + width
                    level = min(ay, by) < y + height and y < max(ay, by) or y < ay == by < y + height
                    if inside and level and name not in ends:
                        raise Fault(f"{self.title}: an arrow goes through {name}")

    def svg(self):
        self.check_paths()
        height = self.height + 16
        size = f'width="{self.width}" height="{height}" viewBox="0 0 {self.width} {height}"'
        head = f'<svg xmlns="http://www.w3.org/2000/svg" {size}>'
        ground = f'<rect width="{self.width}" height="{height}" fill="#ffffff"/>'
        return "\n".join([head, f"<title>{escape(self.title)}</title>", ground, *self.shapes, "</svg>", ""])


def uses_of_groups(text):
    """Which groups each group uses, by the crates in crates.txt."""
    group_of = {}
    for title, *_, crates in GROUPS:
        for crate in crates.split():
            if group_of.setdefault(crate, title) != title:
                raise Fault(f"crate {crate} is in two groups")
    listed = dict(re.findall(r"^(\w+)(?: staticlib)?:(.*)$", text, re.M))
    if listed.keys() != group_of.keys():
        lost, unknown = sorted(listed.keys() - group_of.keys()), sorted(group_of.keys() - listed.keys())
        raise Fault(f"crates in no group: {lost}; crates that crates.txt does not have: {unknown}")
    uses = {title: set() for title, *_ in GROUPS}
    for crate, used in listed.items():
        for other in set(used.split()) - OUTSIDE_CRATES:
            uses[group_of[crate]].add(group_of[other])
    return {group: used - {group} for group, used in uses.items()}


def reach(uses):
    """Which groups each group uses, at first hand or through others."""
    reached = {group: set(used) for group, used in uses.items()}
    for middle in uses:
        for group in uses:
            if middle in reached[group]:
                reached[group] |= reached[middle]
    for group in uses:
        if group in reached[group]:
            round_trip = sorted(g for g in reached[group] if group in reached[g])
            raise Fault(f"groups use each other: {', '.join(round_trip)}")
    return reached


def arrows_of(uses):
    """The uses that do not follow from others."""
    reached = reach(uses)
    return {(a, b) for a in uses for b in uses[a] if not any(b in reached[c] for c in uses[a] - {b})}


def in_lines(words, most):
    """Words in lines of at most so many characters."""
    lines = [words[0]]
    for word in words[1:]:
        if len(lines[-1]) + 2 + len(word) <= most:
            lines[-1] += ", " + word
        else:
            lines[-1] += ","
            lines.append(word)
    return lines


def draw_crates():
    arrows = arrows_of(uses_of_groups((ROOT / "crates.txt").read_text()))
    if arrows != set(ROUTES):
        lost, unknown = sorted(arrows - set(ROUTES)), sorted(set(ROUTES) - arrows)
        raise Fault(f"arrows without a route: {lost}; routes without an arrow: {unknown}")
    picture = Picture("The crates of Lizdakk in groups, and which group uses which", 900)
    texts = {title: in_lines(crates.split(), int((width - 20) / 12 / CHARACTER) - 1) for title, _, _, width, _, crates in GROUPS}
    rows = [[g for g in GROUPS if g[1] == row] for row in range(GROUPS[-1][1] + 1)]
    top, bottoms = 16, []
    for number, row in enumerate(rows):
        height = 28 + 16 * max(len(texts[title]) for title, *_ in row)
        for title, _, x, width, kind, _ in row:
            fill, edge, _ = KINDS[kind]
            picture.box(title, x, top, width, height, fill, edge)
            picture.text(title, x + 10, top + 18, width - 20, size=13, bold=True)
            for k, line in enumerate(texts[title]):
                picture.text(line, x + 10, top + 36 + 16 * k, width - 20)
        bottoms.append(top + height)
        lanes = {part[1] for route in ROUTES.values() for part in route if isinstance(part, tuple) and part[0] == number}
        top += height + 26 + 12 * len(lanes)
    for (user, used), route in ROUTES.items():
        x, y, _, height, _ = picture.boxes[user]
        points = [(route[0], y + height)]
        for lane, to in zip(route[1::2], route[2::2]):
            level = bottoms[lane[0]] + 12 + 12 * lane[1]
            points += [(points[-1][0], level), (to, level)]
        points.append((points[-1][0], picture.boxes[used][1]))
        for at, name in ((points[0][0], user), (points[-1][0], used)):
            left, _, width, _, _ = picture.boxes[name]
            if not left < at < left + width:
                raise Fault(f"the arrow from {user} to {used} misses {name}")
        if any(by < ay for (_, ay), (_, by) in zip(points, points[1:])):
            raise Fault(f"the arrow from {user} to {used} goes up")
        picture.path(points, colour=KINDS[dict((g[0], g[4]) for g in GROUPS)[user]][1], ends=(user, used))
    legend, x = bottoms[-1] + 24, 20
    for fill, edge, said in KINDS.values():
        picture.box(f"legend: {said}", x, legend, 16, 14, fill, edge)
        picture.text(said, x + 24, legend + 11, 230)
        x += 24 + int(len(said) * 12 * CHARACTER) + 30
    said = "An arrow leads from a group to a group that it uses. An arrow that follows from two others is left out."
    picture.text(said, 20, legend + 36, 860)
    return picture.svg()


class Graph:
    """What the pictures show of a graph: import records by module, records by statement, and entries."""

    def __init__(self, numbers):
        self.numbers, self.at = numbers, 0
        _, _, modules, symbols, _, entries, helpers = (self.take() for _ in range(7))
        self.at += helpers
        heads = []
        self.records = []
        for _ in range(modules):
            heads.append([self.take() for _ in range(12)])
            lists = [self.rows(width) for width in (3, 1, 1, 1, 1, 1, 3, 2, 2, 2)]
            self.records.append(lists[0])
        for _ in range(symbols):
            self.at += 6
            for _ in range(3):
                self.rows(1)
        self.statements = [[self.statement() for _ in range(head[9])] for head in heads]
        self.entries = []
        for _ in range(entries):
            self.entries.append((self.take(), self.take()))
            self.rows(4)
        if self.at != len(numbers):
            raise Fault("numbers are left over")

    def take(self):
        if self.at >= len(self.numbers):
            raise Fault("a number is missing")
        self.at += 1
        return self.numbers[self.at - 1]

    def rows(self, width):
        return [[self.take() for _ in range(width)] for _ in range(self.take())]

    def statement(self):
        """The import records of a statement."""
        self.take()
        records = [row[0] for row in self.rows(1)]
        for _ in range(self.take()):
            kind = self.take()
            if kind == 2:
                self.at += 2
                self.rows(1)
            else:
                self.at += (1, 0, None, 4)[kind]
        return records


def draw_example(name, title):
    graph = Graph(parsed((ROOT / "examples" / f"{name}.txt").read_bytes()))
    listing = [line.split() for line in (ROOT / "examples" / f"{name}.listing").read_text().splitlines()]
    lines = {(line[0], *map(int, line[1:])) for line in listing if line}
    kept_modules = {line[1] for line in lines if line[0] == "module" and line[2] == 1}
    used = [SYMBOLS.get(line[1]) for line in sorted(lines) if line[0] == "used"]
    if set(MODULES) != set(range(len(graph.records))):
        raise Fault(f"{name}: other modules than {MODULES}")
    shown = {(m, i) for m, statements in enumerate(graph.statements) for i in range(1, len(statements))}
    kept_statements = {line[1:] for line in lines if line[0] == "statement"}
    if shown != set(STATEMENTS) or not kept_statements <= shown or None in used:
        raise Fault(f"{name}: other statements than {STATEMENTS}, or used symbols than {SYMBOLS}")

    picture = Picture(title, 500)
    picture.text(title, 20, 26, 460, size=15, bold=True)
    filled, edge, _ = KINDS["outside"]
    top = 44
    for m, label in MODULES.items():
        kept = m in kept_modules
        own = sorted(s for s in shown if s[0] == m)
        note = used if m == 3 else []
        height = 30 + 32 * len(own) + 18 * len(note)
        picture.box(label, 20, top, 350, height, "#f1f8f1" if kept else "#ffffff", edge if kept else GREY)
        picture.text(label, 32, top + 20, 130, size=13, bold=True, colour=INK if kept else GREY)
        said = "kept" if kept else "not kept"
        for module, kind in graph.entries:
            if module == m:
                final = ("entry", module, kind) in lines
                state = "" if kind != DYNAMIC else "live " if final else "dead "
                said = f"{state}{ENTRY_KINDS[kind]}; {said}"
        picture.text(said, 358, top + 20, 205, size=11, colour=INK if kept else GREY, anchor="end")
        for k, s in enumerate(own):
            y, stays = top + 30 + 32 * k, s in kept_statements
            picture.box(f"{s}", 32, y, 326, 24, filled if stays else "#ffffff", edge if stays else GREY, inside=label)
            picture.text(STATEMENTS[s], 40, y + 16, 312, font=MONO, colour=INK if stays else GREY)
        for symbol in note:
            picture.text(f"used symbol: {symbol}", 40, top + height - 8, 310, size=11)
        top += height + 24
    for m, i in sorted(shown):
        for record in graph.statements[m][i]:
            target, kind, _ = graph.records[m][record]
            _, y, _, _, _ = picture.boxes[f"{(m, i)}"]
            _, to, _, _, _ = picture.boxes[MODULES[target - 1]]
            dead = ("dead", m, record) in lines
            points = [(358, y + 12), (392, y + 12), (392, to + 15), (370, to + 15)]
            colour = RED if dead else INK
            picture.path(points, colour, dashed=kind == DYNAMIC, ends=(MODULES[m], MODULES[target - 1]))
            middle = (y + 12 + to + 15) // 2
            if dead:
                picture.cross(392, middle, 6, RED)
            said = "dead" if dead else "import()" if kind == DYNAMIC else "import"
            picture.text(said, 404, middle + 4, 90, colour=colour, bold=dead)
    x = 20
    for said, fill, line in (("kept", filled, edge), ("not kept", "#ffffff", GREY)):
        picture.box(f"legend: {said}", x, top, 16, 14, fill, line)
        picture.text(said, x + 24, top + 11, 80)
        x += 50 + len(said) * 7
    picture.path([(x, top + 7), (x + 34, top + 7)], dashed=True)
    picture.text("dynamic import", x + 42, top + 11, 120)
    picture.cross(28, top + 31, 6, RED)
    picture.text("dead import: a bundler may drop it", 44, top + 35, 300)
    return picture.svg()


def drawn():
    return {"crates.svg": draw_crates(), **{f"{name}.svg": draw_example(name, title) for name, title in EXAMPLES.items()}}


def main(arguments):
    try:
        pictures = drawn()
    except Fault as fault:
        sys.exit(f"{fault}")
    if arguments == ["--check"]:
        there = {p.name: p.read_text() for p in PICTURES.glob("*.svg")}
        wrong = sorted(name for name in there.keys() | pictures.keys() if there.get(name) != pictures.get(name))
        if wrong:
            sys.exit(f"docs/pictures: not what tools/pictures.py makes: {', '.join(wrong)}")
    elif arguments:
        sys.exit(__doc__)
    else:
        PICTURES.mkdir(exist_ok=True)
        for name, svg in pictures.items():
            (PICTURES / name).write_text(svg)


if __name__ == "__main__":
    main(sys.argv[1:])
