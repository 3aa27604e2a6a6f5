#!/usr/bin/env python3
"""Draws a transmission super frame's grid: symbols down, carriers across, a colour for each kind.

grid.py MODE < KINDS     the picture (SVG) of mode A, B, C or D from lines as the program `gridkinds` writes them
"""
import sys

NAMES = ["empty", "frequency reference", "time reference", "gain reference", "FAC", "SDC", "MSC"]
COLOURS = ["#ffffff", "#d62728", "#ff9e1b", "#4d4d4d", "#2ca02c", "#3f7fd0", "#d7e3f2"]
MSC = 6
# k_min of occupancy 3, 001 table 82
FIRST = {"A": -114, "B": -103, "C": -69, "D": -44}
CELL, LEFT, TOP = 8, 46, 92


def lines_of(mode, lines):
    """The rows of digits that follow the mode's letter."""
    rows, wanted = [], False
    for line in lines:
        line = line.strip()
        if line.isalpha():
            wanted = line == mode
        elif wanted:
            rows.append([int(digit) for digit in line])
    return rows


def runs(row):
    """Neighbouring places of one kind: kind, first place, number of places."""
    start = 0
    for i in range(1, len(row) + 1):
        if i == len(row) or row[i] != row[start]:
            yield row[start], start, i - start
            start = i


def key():
    for kind, name in enumerate(NAMES):
        x = LEFT + kind * 150
        yield f'<rect x="{x}" y="40" width="14" height="14" fill="{COLOURS[kind]}" stroke="#999"/>'
        yield f'<text x="{x + 20}" y="52">{kind} {name}</text>'


def scale(rows, first):
    frame = len(rows) // 3
    for i in range(len(rows[0])):
        if (first + i) % 10 == 0:
            yield f'<text class="scale" x="{LEFT + CELL * i + CELL // 2}" y="{TOP - 6}">{first + i}</text>'
    for n in range(0, len(rows), 5 if frame % 5 == 0 else 4):
        yield f'<text class="scale" x="{LEFT - 20}" y="{TOP + CELL * n + CELL}">{n}</text>'
    for f in (1, 2):
        y = TOP + CELL * frame * f
        yield f'<line x1="{LEFT - 34}" y1="{y}" x2="{LEFT + CELL * len(rows[0])}" y2="{y}"/>'


def draw(mode, rows):
    width, height = max(LEFT + CELL * len(rows[0]), LEFT + 150 * len(NAMES)) + 20, TOP + CELL * len(rows) + 20
    print(f'<svg xmlns="http://www.w3.org/2000/svg" viewBox="0 0 {width} {height}" font-family="sans-serif">')
    print("<style>text{font-size:13px}.scale{font-size:9px;text-anchor:middle;fill:#555}line{stroke:#000;stroke-width:1.5}</style>")
    print('<rect width="100%" height="100%" fill="#fff"/>')
    print(f'<text x="{LEFT}" y="26" style="font-size:18px">Mode {mode}, occupancy 3: a transmission super frame, symbols down, carriers across; lines between its three frames</text>')
    for part in key():
        print(part)
    right, bottom = CELL * len(rows[0]), CELL * len(rows)
    print(f'<rect x="{LEFT}" y="{TOP}" width="{right}" height="{bottom}" fill="{COLOURS[MSC]}"/>')
    for n, row in enumerate(rows):
        for kind, start, count in runs(row):
            if kind == MSC:
                continue
            print(f'<rect x="{LEFT + CELL * start}" y="{TOP + CELL * n}" width="{CELL * count}" height="{CELL}" fill="{COLOURS[kind]}"/>')
    for part in scale(rows, FIRST[mode]):
        print(part)
    print(f'<rect x="{LEFT}" y="{TOP}" width="{right}" height="{bottom}" fill="none" stroke="#999"/>')
    print("</svg>")


if __name__ == "__main__" and sys.argv[1:] in (["A"], ["B"], ["C"], ["D"]):
    draw(sys.argv[1], lines_of(sys.argv[1], sys.stdin))
elif __name__ == "__main__":
    sys.exit(__doc__)
