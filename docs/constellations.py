#!/usr/bin/env python3
"""Draws the five constellations with their labels.

constellations.py points            every point by the formulas of the paper's section "Mapping", a line each:
                                    constellation, numbers i0 + 2 i1 + 4 i2 of the real and imaginary axis, coordinates
constellations.py draw < POINTS     the picture (SVG) of such lines, as the program `constellations` writes them
"""
import sys

NAMES = ["4-QAM", "16-QAM", "64-QAM SM", "64-QAM HMsym", "64-QAM HMmix"]
LEVELS = [1, 2, 3, 3, 3]
STEP, MARGIN, TOP = 52, 34, 96


def standard(levels, number):
    return 2**levels - 1 - 2 * number


def symmetric(number):
    i0, i1, i2 = number & 1, number >> 1 & 1, number >> 2 & 1
    return 7 - 2 * (4 * i0 + i1 + 2 * i2)


def coordinates(c, n, m):
    real = symmetric(n) if c >= 3 else standard(LEVELS[c], n)
    imaginary = symmetric(m) if c == 3 else standard(LEVELS[c], m)
    return real, imaginary


def points():
    for c in range(5):
        count = 2 ** LEVELS[c]
        for n in range(count):
            for m in range(count):
                print(c, n, m, *coordinates(c, n, m))


def label(levels, number):
    """Level bits in their order: i0, i1, i2."""
    return "".join(str(number >> k & 1) for k in range(levels))


def panel(c, cells, left):
    """One constellation: axes, points, and under each point the bits of the real and of the imaginary axis."""
    half = MARGIN + STEP * 4
    x0, y0 = left + half, TOP + half
    yield f'<text class="name" x="{x0}" y="{TOP - 14}">{NAMES[c]}</text>'
    yield f'<line x1="{x0 - half + 8}" y1="{y0}" x2="{x0 + half - 8}" y2="{y0}"/>'
    yield f'<line x1="{x0}" y1="{y0 - half + 8}" x2="{x0}" y2="{y0 + half - 8}"/>'
    for n, m, re, im in cells:
        x, y = x0 + re * STEP // 2, y0 - im * STEP // 2
        bits = label(LEVELS[c], n) + " " + label(LEVELS[c], m)
        yield f'<circle cx="{x}" cy="{y}" r="4"/><text x="{x}" y="{y + 16}">{bits}</text>'
    for v in range(-(2 ** LEVELS[c]) + 1, 2 ** LEVELS[c], 2):
        yield f'<text class="scale" x="{x0 + v * STEP // 2}" y="{y0 + half + 2}">{v}</text>'
        yield f'<text class="scale" x="{x0 - half + 14}" y="{y0 - v * STEP // 2 + 4}">{v}</text>'


def draw(lines):
    cells = {c: [] for c in range(5)}
    for line in lines:
        c, *numbers = map(int, line.split())
        cells[c].append(numbers)
    width = 2 * MARGIN + STEP * 8
    print(f'<svg xmlns="http://www.w3.org/2000/svg" viewBox="0 0 {5 * width} {TOP + width + 20}" font-family="sans-serif">')
    print("<style>text{font-size:11px;text-anchor:middle}.name{font-size:22px}.scale{fill:#777}line{stroke:#bbb}circle{fill:#1f5fa8}</style>")
    print('<rect width="100%" height="100%" fill="#fff"/>')
    print('<text x="20" y="34" style="text-anchor:start;font-size:18px">Under each point: level bits i0 i1 i2 of the real axis, then of the imaginary axis</text>')
    for c in range(5):
        for part in panel(c, cells[c], c * width):
            print(part)
    print("</svg>")


if __name__ == "__main__" and sys.argv[1:] == ["points"]:
    points()
elif __name__ == "__main__" and sys.argv[1:] == ["draw"]:
    draw(sys.stdin)
elif __name__ == "__main__":
    sys.exit(__doc__)
