#!/usr/bin/env python3
"""Draws tables that bench/run printed: plot.py [--title WORDS] FIGURES [OTHERS..] > plot.svg.

Above, each row's ratio, ours to the Rust's, by time and by instructions: by time that of the fastest of each over all tables, with the
range of the tables' own ratios; below, how the fastest times grow with slots, files crossed, open readers and open tapes. All axes but those
of these four are logarithmic.
"""
import argparse
import csv
import html
import math
import sys

WIDTH = 1000
OURS, THEIRS, COUNTED, FRAME, TEXT = "#0072b2", "#d55e00", "#777777", "#cccccc", "#222222"
MAIN = ("read", "append", "reader", "length", "store", "hash")
GROWTH = (("slots", "slots"), ("files", "files crossed"), ("readers", "open readers"), ("tapes", "open tapes"))


class Drawing:
    def __init__(self):
        self.parts = []

    def line(self, x1, y1, x2, y2, colour=FRAME, dashes=""):
        dashed = f' stroke-dasharray="{dashes}"' if dashes else ""
        self.parts.append(f'<line x1="{x1:.1f}" y1="{y1:.1f}" x2="{x2:.1f}" y2="{y2:.1f}" stroke="{colour}"{dashed}/>')

    def dot(self, x, y, colour, filled=True):
        fill = colour if filled else "white"
        self.parts.append(f'<circle cx="{x:.1f}" cy="{y:.1f}" r="3.5" fill="{fill}" stroke="{colour}"/>')

    def text(self, x, y, words, anchor="start", size=11, colour=TEXT):
        words = html.escape(words)
        self.parts.append(f'<text x="{x:.1f}" y="{y:.1f}" font-size="{size}" text-anchor="{anchor}" fill="{colour}">{words}</text>')

    def path(self, points, colour, dashes):
        joined = " ".join(f"{x:.1f},{y:.1f}" for x, y in points)
        dashed = f' stroke-dasharray="{dashes}"' if dashes else ""
        self.parts.append(f'<polyline points="{joined}" fill="none" stroke="{colour}" stroke-width="1.5"{dashed}/>')

    def svg(self, height):
        head = f'<svg xmlns="http://www.w3.org/2000/svg" viewBox="0 0 {WIDTH} {height:.0f}" font-family="sans-serif">'
        return "\n".join([head, '<rect width="100%" height="100%" fill="white"/>', *self.parts, "</svg>"]) + "\n"


def label(row):
    if row["group"] == "read":
        which = row["what"].replace("bytes", row["at"])
        return f'read {which}: files of {row["file_size"]}, cache {row["cache"]}'
    cache = f', cache {row["cache"]}' if row["group"] == "append" else ""
    beside = "" if row["beside"] == "rust" else f', beside {"the stand-in" if row["beside"] == "stand-in" else row["beside"]}'
    return row["what"] + cache + beside


def place_of(row):
    """What a row has in common with the same row of another table."""
    return tuple(row[column] for column in ("group", "what", "file_size", "cache", "at", "beside"))


def ratio_of(row):
    return float(row["ours_ns"]) / float(row["theirs_ns"])


def fastest(row, tables):
    """The row with the fastest times that it has in any of the tables."""
    same = [other for table in tables for other in table if place_of(other) == place_of(row)]
    times = {side: [float(other[side]) for other in same if other[side]] for side in ("ours_ns", "theirs_ns")}
    ratios_of = [ratio_of(other) for other in same if other["theirs_ns"]]
    return {**row, **{side: min(found) if found else "" for side, found in times.items()}, "ratios": ratios_of}


def ratios(drawing, rows, top):
    left, right, step = 330, WIDTH - 40, 16
    # doublings left and right of 1
    least, most = -4, 4

    def place(ratio):
        return left + (min(max(math.log2(ratio), least), most) - least) / (most - least) * (right - left)

    bottom = top + step * len(rows)
    for power in range(least, most + 1):
        drawing.line(place(2**power), top - 6, place(2**power), bottom, TEXT if power == 0 else FRAME)
        drawing.text(place(2**power), top - 10, f"{2**power:g}" if power >= 0 else f"1/{2**-power}", "middle")
    for number, row in enumerate(rows):
        y = top + step * number + step / 2
        drawing.text(left - 8, y + 4, label(row), "end")
        if row["ours_instructions"] and row["theirs_instructions"]:
            drawing.dot(place(int(row["ours_instructions"]) / int(row["theirs_instructions"])), y, COUNTED, False)
        drawing.line(place(min(row["ratios"])), y, place(max(row["ratios"])), y, OURS)
        drawing.dot(place(ratio_of(row)), y, OURS)
    drawing.dot(left + 10, bottom + 16, OURS)
    drawing.text(left + 18, bottom + 20, "time, ours / theirs, fastest of each; range over builds")
    drawing.dot(left + 365, bottom + 16, COUNTED, False)
    drawing.text(left + 373, bottom + 20, "instructions, ours / theirs (none of the system's)")
    return bottom + 34


def growth(drawing, rows, words, left, top, width, height):
    """One panel: times against where a row stands in its group, a line for each side of each call."""
    most_at = max(int(row["at"]) for row in rows)
    times = [float(row[side]) for row in rows for side in ("ours_ns", "theirs_ns") if row[side]]
    low, high = math.floor(math.log10(min(times))), math.ceil(math.log10(max(times)))

    def x(at):
        return left + at / most_at * width

    def y(time):
        return top + height - (math.log10(time) - low) / (high - low) * height

    for power in range(low, high + 1):
        drawing.line(left, y(10**power), left + width, y(10**power))
        drawing.text(left - 5, y(10**power) + 4, f"{10**power:,}", "end", 10)
    drawing.line(left, top, left, top + height)
    for at in sorted({int(row["at"]) for row in rows if int(row["at"]) % 8 == 0 or int(row["at"]) == most_at or most_at <= 8}):
        drawing.text(x(at), top + height + 14, str(at), "middle", 10)
    drawing.text(left + width / 2, top + height + 30, words, "middle")
    for number, what in enumerate(dict.fromkeys(row["what"] for row in rows)):
        same = [row for row in rows if row["what"] == what]
        letter = chr(ord("a") + number)
        for side, colour, dashes in (("ours_ns", OURS, ""), ("theirs_ns", THEIRS, "5 3")):
            points = [(x(int(row["at"])), y(float(row[side]))) for row in same if row[side]]
            if points:
                drawing.path(points, colour, dashes)
                for point in points:
                    drawing.dot(*point, colour)
                drawing.text(left + width + 6, points[-1][1] + 4, letter, "start", 10, colour)
        drawing.text(left, top + height + 48 + 14 * number, f"{letter}: {what}", size=10)


def main():
    parser = argparse.ArgumentParser(description=__doc__)
    parser.add_argument("--title", default="The store beside the Rust")
    parser.add_argument("figures", nargs="+")
    words = parser.parse_args()
    tables = [list(csv.DictReader(open(path, newline=""))) for path in words.figures]
    rows = [fastest(row, tables) for row in tables[0]]
    drawing = Drawing()
    drawing.text(20, 26, words.title, size=15)
    top = ratios(drawing, [row for row in rows if row["group"] in MAIN and row["theirs_ns"]], 64)
    drawing.text(20, top + 22, "Nanoseconds: ours", size=12, colour=OURS)
    drawing.text(140, top + 22, "the Rust, dashed", size=12, colour=THEIRS)
    for number, (group, axis) in enumerate(GROWTH):
        of_group = [row for row in rows if row["group"] == group]
        if of_group:
            growth(drawing, of_group, axis, 60 + number * 245, top + 46, 165, 260)
    sys.stdout.write(drawing.svg(top + 450))


main()
