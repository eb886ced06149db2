#!/usr/bin/env python3
"""Draws times.svg from the tables of README.md, of runs and audits and of plain scans: draw.py [--check]

With --check it draws nothing, and the status is 1 where the picture is not that of the tables."""
import math
import os
import re
import sys

HERE = os.path.dirname(os.path.abspath(__file__))
ROW = re.compile(r"^\| (run|audit)[^|]*\| ([\d,]+) \| ([\d.]+) \| [\d.]+ \| ([\d.]+) \|")
SCANS = re.compile(r"^\| `works` \| [\d,]+ \| ([\d,]+) \| ([\d,]+) \| ([\d,]+) \|$")
WIDTH, HEIGHT, LEFT, TOP, GAP = 300, 220, 60, 40, 90
COLOURS = {"run": "#1f5fa8", "audit": "#b8501c"}


def figures():
    """The rows of the table: what, entries, seconds, MB."""
    rows = []
    for line in open(os.path.join(HERE, "README.md"), encoding="utf-8"):
        row = ROW.match(line)
        if row:
            rows.append((row[1], int(row[2].replace(",", "")), float(row[3]), float(row[4])))
    return rows


def scans():
    """The microseconds of the row of ordinary files: a loop over the bytes, memchr, parse_file."""
    for line in open(os.path.join(HERE, "README.md"), encoding="utf-8"):
        row = SCANS.match(line)
        if row:
            return [int(number.replace(",", "")) for number in row.groups()]
    sys.exit("README.md has no table of plain scans")


def bars(left, title, values):
    """One picture: a bar for each value, with its number."""
    lines = [f'<text x="{left}" y="{TOP - 14}" font-weight="bold">{title}</text>']
    for place, (name, colour, value) in enumerate(values):
        top = TOP + HEIGHT * (1 - value / max(value for _, _, value in values) * 0.9)
        lines.append(f'<rect x="{left + 80 * place}" y="{top:.1f}" width="50" height="{TOP + HEIGHT - top:.1f}" fill="{colour}"/>')
        lines.append(f'<text x="{left + 80 * place + 25}" y="{top - 6:.1f}" text-anchor="middle">{value / 1000:.1f}</text>')
        lines.append(f'<text x="{left + 80 * place + 25}" y="{TOP + HEIGHT + 18}" text-anchor="middle">{name}</text>')
    return lines


def decades(values):
    return math.floor(math.log10(min(values))), math.ceil(math.log10(max(values)))


def number(exponent):
    return f"{10 ** exponent:,}" if exponent >= 0 else f"{10.0 ** exponent:.{-exponent}f}"


def panel(left, title, rows, column):
    """One picture: a value against entries, both by powers of ten."""
    (low_x, high_x), (low_y, high_y) = decades([row[1] for row in rows]), decades([row[column] for row in rows])

    def x(value):
        return left + WIDTH * (math.log10(value) - low_x) / (high_x - low_x)

    def y(value):
        return TOP + HEIGHT * (1 - (math.log10(value) - low_y) / (high_y - low_y))

    lines = [f'<text x="{left}" y="{TOP - 14}" font-weight="bold">{title}</text>']
    for power in range(low_x, high_x + 1):
        lines.append(f'<line x1="{x(10 ** power):.1f}" y1="{TOP}" x2="{x(10 ** power):.1f}" y2="{TOP + HEIGHT}" stroke="#ddd"/>')
        lines.append(f'<text x="{x(10 ** power):.1f}" y="{TOP + HEIGHT + 18}" text-anchor="middle">{number(power)}</text>')
    for power in range(low_y, high_y + 1):
        lines.append(f'<line x1="{left}" y1="{y(10.0 ** power):.1f}" x2="{left + WIDTH}" y2="{y(10.0 ** power):.1f}" stroke="#ddd"/>')
        lines.append(f'<text x="{left - 8}" y="{y(10.0 ** power) + 4:.1f}" text-anchor="end">{number(power)}</text>')
    lines.append(f'<text x="{left + WIDTH / 2}" y="{TOP + HEIGHT + 36}" text-anchor="middle">entries</text>')
    for name, colour in COLOURS.items():
        points = sorted((row[1], row[column]) for row in rows if row[0] == name)
        path = " ".join(f"{x(entries):.1f},{y(value):.1f}" for entries, value in points)
        lines.append(f'<polyline points="{path}" fill="none" stroke="{colour}" stroke-width="1.5"/>')
        lines += [f'<circle cx="{x(entries):.1f}" cy="{y(value):.1f}" r="3" fill="{colour}"/>' for entries, value in points]
    for place, (name, colour) in enumerate(COLOURS.items()):
        lines.append(f'<text x="{left + 14}" y="{TOP + 18 + 16 * place}" fill="{colour}">{name}</text>')
    return lines


def picture(rows, plain):
    width, height = LEFT + 2 * (WIDTH + GAP) + 230, TOP + HEIGHT + 50
    lines = [f'<svg xmlns="http://www.w3.org/2000/svg" width="{width}" height="{height}" viewBox="0 0 {width} {height}" font-family="sans-serif" font-size="12">',
             f'<rect width="{width}" height="{height}" fill="white"/>']
    lines += panel(LEFT, "Seconds", rows, 2) + panel(LEFT + WIDTH + GAP, "MB", rows, 3)
    colours = ("#999", "#999", "#1f5fa8")
    lines += bars(LEFT + 2 * (WIDTH + GAP) - 20, "Milliseconds for 16 MiB", list(zip(("byte loop", "memchr", "parse_file"), colours, plain)))
    return "\n".join([*lines, "</svg>", ""])


def main(words):
    rows = figures()
    if not {"run", "audit"} <= {row[0] for row in rows}:
        sys.exit("README.md has no table of runs and audits")
    drawing = picture(rows, scans())
    file = os.path.join(HERE, "times.svg")
    if words == ["--check"]:
        drawn = open(file, encoding="utf-8").read() if os.path.exists(file) else ""
        sys.exit(0 if drawn == drawing else "times.svg is not drawn from the tables of README.md: bench/draw.py")
    with open(file, "w", encoding="utf-8") as out:
        out.write(drawing)


main(sys.argv[1:])
