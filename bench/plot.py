#!/usr/bin/env python3
"""Draws how an evaluation's time grows with the table and with the record: figures.tsv of run.py on standard input, an SVG on standard output."""
import math
import sys

WIDTH, HEIGHT, LEFT, RIGHT, TOP, BOTTOM = 360, 300, 60, 20, 40, 50
FONT = 'font-family="sans-serif" font-size="12" fill="#222"'


def ticks(low, high):
    """1, 2 and 5 times powers of ten, from low to high."""
    marks = [m * 10.0**e for e in range(-3, 8) for m in (1, 2, 5)]
    return [m for m in marks if low <= m <= high]


class Panel:
    """Both axes logarithmic, so that what grows with its input is a line of slope 1, and with its square of slope 2."""

    def __init__(self, x0, title, unit, points):
        self.x0, self.title, self.unit, self.points = x0, title, unit, points
        xs, ys = [p[0] for p in points], [p[1] for p in points]
        self.xlow, self.xhigh = min(xs) / 1.3, max(xs) * 1.3
        spread = math.sqrt(self.xhigh / self.xlow)
        middle = math.sqrt(min(ys) * max(ys))
        self.ylow, self.yhigh = min(min(ys) / 1.3, middle / spread), max(max(ys) * 1.3, middle * spread)

    def x(self, v):
        return self.x0 + LEFT + (WIDTH - LEFT - RIGHT) * math.log(v / self.xlow) / math.log(self.xhigh / self.xlow)

    def y(self, v):
        return HEIGHT - BOTTOM - (HEIGHT - TOP - BOTTOM) * math.log(v / self.ylow) / math.log(self.yhigh / self.ylow)

    def text(self, x, y, anchor, s):
        return f'<text x="{x:.1f}" y="{y:.1f}" text-anchor="{anchor}" {FONT}>{s}</text>'

    def draw(self):
        left, right, top, bottom = self.x0 + LEFT, self.x0 + WIDTH - RIGHT, TOP, HEIGHT - BOTTOM
        out = [f'<rect x="{left}" y="{top}" width="{right - left}" height="{bottom - top}" fill="none" stroke="#888"/>']
        for v in ticks(self.ylow, self.yhigh):
            y = self.y(v)
            out += [f'<line x1="{left}" y1="{y:.1f}" x2="{right}" y2="{y:.1f}" stroke="#ddd"/>', self.text(left - 6, y + 4, "end", f"{v:g}")]
        for v, _ in self.points:
            out.append(self.text(self.x(v), bottom + 18, "middle", f"{v:,}"))
        path = " ".join(f"{self.x(v):.1f},{self.y(t):.1f}" for v, t in self.points)
        out.append(f'<polyline points="{path}" fill="none" stroke="#1a5fb4" stroke-width="2"/>')
        out += [f'<circle cx="{self.x(v):.1f}" cy="{self.y(t):.1f}" r="3.5" fill="#1a5fb4"/>' for v, t in self.points]
        first, last = self.points[0], self.points[-1]
        slope = [(first[0], first[1]), (last[0], first[1] * last[0] / first[0])]
        path = " ".join(f"{self.x(v):.1f},{self.y(t):.1f}" for v, t in slope)
        out.append(f'<polyline points="{path}" fill="none" stroke="#999" stroke-dasharray="4 3"/>')
        out += [self.text((left + right) / 2, top - 14, "middle", self.title), self.text((left + right) / 2, bottom + 38, "middle", self.unit)]
        return out


def main():
    micros = {line.split("\t")[0]: float(line.split("\t")[1]) for line in sys.stdin}

    def series(prefix, sizes):
        return [(n, micros[f"{prefix}-{n}"]) for n in sizes]

    panels = [
        Panel(0, "microseconds by the table", "entries", series("entries", (64, 128, 256, 512))),
        Panel(WIDTH, "microseconds by the record", "bytes of ip4 terms", series("terms", (1024, 2048, 4096))),
    ]
    print(f'<svg xmlns="http://www.w3.org/2000/svg" viewBox="0 0 {2 * WIDTH} {HEIGHT}" width="{2 * WIDTH}" height="{HEIGHT}">')
    print(f'<rect width="{2 * WIDTH}" height="{HEIGHT}" fill="#fff"/>')
    for panel in panels:
        print("\n".join(panel.draw()))
    print("</svg>")


main()
