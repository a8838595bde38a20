#!/usr/bin/env python3
"""Draws the two pictures of the documents from results that are kept.

    bench/pictures.py [--runs FOLDER] [--out FOLDER]

work.svg shows what a run maps and merges by the size of the change before it, as changes.txt has it, and time.svg what
processor time a later run takes by the number of buckets, as step.txt has it. bench/README.md says how both are kept.
"""

import argparse
import math
import os
import sys
from html import escape
from typing import NamedTuple

TOP = os.path.dirname(os.path.dirname(os.path.abspath(__file__)))

# The picture, and the field of the curves in it.
WIDTH, HEIGHT = 840, 420
LEFT, RIGHT, ABOVE, BELOW = 96, 560, 50, 350


class Curve(NamedTuple):
    """Points in the order of their first number. A dashed curve is one from nothing."""

    name: str
    colour: str
    is_dashed: bool
    points: list


class Scale:
    """A logarithmic axis: the place of a number between two places."""

    def __init__(self, least, most, first, last):
        self.least, self.step = math.log(least), (last - first) / (math.log(most) - math.log(least))
        self.first = first

    def at(self, number):
        return self.first + (math.log(number) - self.least) * self.step


def powers_of_ten(least, most):
    return [10**n for n in range(math.floor(math.log10(least)), math.ceil(math.log10(most)) + 1)]


def text(x, y, words, anchor="start", more=""):
    return f'<text x="{x:.0f}" y="{y:.0f}" text-anchor="{anchor}"{more}>{escape(words)}</text>'


def line(x1, y1, x2, y2, colour, more=""):
    return f'<line x1="{x1:.1f}" y1="{y1:.1f}" x2="{x2:.1f}" y2="{y2:.1f}" stroke="{colour}"{more}/>'


def drawn(curve, xs, ys):
    """A curve: a line through its points, and a dot at each that is measured."""
    places = [(xs.at(x), ys.at(y)) for x, y in curve.points]
    path = " ".join(f"{x:.1f},{y:.1f}" for x, y in places)
    dashes = ' stroke-dasharray="7 5"' if curve.is_dashed else ""
    yield f'<polyline points="{path}" fill="none" stroke="{curve.colour}" stroke-width="2"{dashes}/>'
    for x, y in [] if curve.is_dashed else places:
        yield f'<circle cx="{x:.1f}" cy="{y:.1f}" r="3" fill="{curve.colour}"/>'


def picture(title, x_title, y_title, curves, x_ticks=None):
    """The text of a picture, whose axes are logarithmic. Without given ticks they are the powers of ten."""
    all_x, all_y = ([point[i] for curve in curves for point in curve.points] for i in (0, 1))
    xs = Scale(min(all_x) / 1.2, max(all_x) * 1.2, LEFT, RIGHT)
    ys = Scale(min(all_y) / 1.3, max(all_y) * 1.3, BELOW, ABOVE)
    yield f'<svg xmlns="http://www.w3.org/2000/svg" viewBox="0 0 {WIDTH} {HEIGHT}" width="{WIDTH}" height="{HEIGHT}"'
    yield '  font-family="sans-serif" font-size="14" fill="#222222" role="img">'
    yield f"<title>{escape(title)}</title>"
    yield f'<rect width="{WIDTH}" height="{HEIGHT}" fill="#ffffff"/>'
    yield text(LEFT, 28, title, more=' font-size="16" font-weight="bold"')
    for tick in x_ticks or powers_of_ten(min(all_x), max(all_x)):
        if LEFT <= xs.at(tick) <= RIGHT:
            yield line(xs.at(tick), ABOVE, xs.at(tick), BELOW, "#dddddd")
            yield text(xs.at(tick), BELOW + 20, f"{tick:,}", "middle")
    for tick in powers_of_ten(min(all_y), max(all_y)):
        if ABOVE <= ys.at(tick) <= BELOW:
            yield line(LEFT, ys.at(tick), RIGHT, ys.at(tick), "#dddddd")
            yield text(LEFT - 8, ys.at(tick) + 5, f"{tick:,}", "end")
    yield f'<rect x="{LEFT}" y="{ABOVE}" width="{RIGHT - LEFT}" height="{BELOW - ABOVE}" fill="none" stroke="#888888"/>'
    yield text((LEFT + RIGHT) / 2, BELOW + 48, x_title, "middle")
    middle = (ABOVE + BELOW) / 2
    yield text(20, middle, y_title, "middle", f' transform="rotate(-90 20 {middle:.0f})"')
    for curve in curves:
        yield from drawn(curve, xs, ys)
    # The curves are named from the top down, in the order of their last points.
    for place, curve in enumerate(sorted(curves, key=lambda curve: ys.at(curve.points[-1][1]))):
        y = ABOVE + 15 + 26 * place
        dashes = ' stroke-dasharray="7 5"' if curve.is_dashed else ""
        yield line(RIGHT + 20, y, RIGHT + 50, y, curve.colour, f' stroke-width="2"{dashes}')
        yield text(RIGHT + 58, y + 5, curve.name)
    yield "</svg>"


def work_picture(rows):
    """The work of a run by the records that changed, for each change, and that of all windows from nothing."""
    names = [
        ("edits", "edits at scattered places", "#0072b2"),
        ("late", "late records, scattered", "#d55e00"),
        ("slides", "new buckets of 20 records", "#009e73"),
    ]
    curves, from_nothing = [], {}
    for change, name, colour in names:
        points = []
        for row in rows:
            if row["change"] == change:
                size = int(row["records"])
                points.append((size, int(row["maps"]) + int(row["merges"])))
                from_nothing[size] = max(from_nothing.get(size, 0), int(row["all_maps"]) + int(row["all_merges"]))
        curves.append(Curve(name, colour, False, points))
    curves.append(Curve("all from nothing", "#666666", True, sorted(from_nothing.items())))
    return picture(
        "What a run maps and merges, in a window of 20,480 records",
        "records that changed since the run before",
        "records mapped and tables merged",
        curves,
    )


def time_picture(rows):
    """The processor time of each program by the buckets of its circle, over that of slider in the smallest one."""
    names = [
        ("recompute", "all from nothing, in C", "#666666", True),
        ("slider", "slider", "#0072b2", False),
        ("segments", "a segment tree in C", "#d55e00", False),
        ("counting", "counts in C, subtracted", "#009e73", False),
    ]
    taken = {program: [] for program, *_ in names}
    for row in rows:
        if row["script"].startswith("circle-") and row["program"] in taken:
            taken[row["program"]].append((int(row["script"].split("-")[1]), float(row["processor_ms"])))
    fewest, first = taken["slider"][0]
    curves = [
        Curve(name, colour, is_dashed, [(buckets, each / first) for buckets, each in taken[program]])
        for program, name, colour, is_dashed in names
        if taken[program]
    ]
    return picture(
        "Processor time of a run for which one bucket came",
        "buckets of 2,000 records in the window",
        f"times that of slider with {fewest} buckets",
        curves,
        [buckets for buckets, _ in taken["slider"]],
    )


def rows_of(path, first_title):
    """The rows of the table in a result, each by the titles of its columns, of which this is the first."""
    try:
        with open(path, encoding="utf-8") as file:
            rows = [row.split() for row in file]
    except FileNotFoundError:
        sys.exit(f"pictures.py: there is no {path}; bench/README.md says how it is kept")
    titles = next(row for row in rows if row[0] == first_title)
    return [dict(zip(titles, row)) for row in rows if len(row) == len(titles) and row != titles]


# Of each picture its name, the result that it shows, the first title of its table, and what draws it.
PICTURES = [("work.svg", "changes.txt", "change", work_picture), ("time.svg", "step.txt", "script", time_picture)]


def main():
    asked = argparse.ArgumentParser(description=__doc__.split("\n", maxsplit=1)[0])
    asked.add_argument("--runs", default=os.path.join(TOP, "bench", "runs"))
    asked.add_argument("--out", default=os.path.join(TOP, "docs", "pictures"))
    given = asked.parse_args()
    os.makedirs(given.out, exist_ok=True)
    for name, kept, first_title, drawing in PICTURES:
        lines = drawing(rows_of(os.path.join(given.runs, kept), first_title))
        with open(os.path.join(given.out, name), "w", encoding="utf-8") as file:
            file.write("\n".join(lines) + "\n")


if __name__ == "__main__":
    main()
