#!/usr/bin/env python3
"""Draws what `device_cli loop` prints: reads its lines from standard input, and writes a picture in SVG."""

import sys

WIDTH, HEIGHT = 760, 380
LEFT, RIGHT, TOP, BOTTOM = 56, 20, 34, 46
CURVES = [
    ("set point", "#888888", "6 4", 1.5),
    ("drive", "#c77000", "", 1.2),
    ("measured value", "#0060b0", "", 2.2),
]


def scaled(value: float, low: float, high: float, begin: float, end: float) -> float:
    return begin + (value - low) / (high - low) * (end - begin)


def ticks(high: float, step: float) -> list[float]:
    return [step * count for count in range(int(high / step) + 1)]


def draw(rows: list[list[float]]) -> str:
    last = rows[-1][0]
    most = 5 * (1 + max(max(row[1:]) for row in rows) // 5)
    least = min(0.0, 5 * (min(min(row[1:]) for row in rows) // 5))

    def x(ns: float) -> float:
        return scaled(ns, 0, last, LEFT, WIDTH - RIGHT)

    def y(value: float) -> float:
        return scaled(value, least, most, HEIGHT - BOTTOM, TOP)

    parts = [
        f'<svg xmlns="http://www.w3.org/2000/svg" viewBox="0 0 {WIDTH} {HEIGHT}" font-family="sans-serif" font-size="12">',
        f'<rect width="{WIDTH}" height="{HEIGHT}" fill="white"/>',
    ]
    for value in (tick + least for tick in ticks(most - least, 5)):
        parts.append(f'<path d="M{LEFT} {y(value):.1f}H{WIDTH - RIGHT}" stroke="#dddddd"/>')
        parts.append(
            f'<text x="{LEFT - 8}" y="{y(value) + 4:.1f}" text-anchor="end">{value:g}</text>'
        )
    for us in ticks(last / 1000, 200):
        parts.append(f'<path d="M{x(us * 1000):.1f} {HEIGHT - BOTTOM}v5" stroke="black"/>')
        parts.append(
            f'<text x="{x(us * 1000):.1f}" y="{HEIGHT - BOTTOM + 19}" text-anchor="middle">{us:g}</text>'
        )
    parts.append(
        f'<path d="M{LEFT} {TOP}V{HEIGHT - BOTTOM}H{WIDTH - RIGHT}" fill="none" stroke="black"/>'
    )
    parts.append(
        f'<text x="{(LEFT + WIDTH - RIGHT) / 2:.0f}" y="{HEIGHT - 8}" text-anchor="middle">microseconds</text>'
    )
    for column, (name, colour, dashes, width) in enumerate(CURVES, 1):
        points = " ".join(f"{x(row[0]):.1f},{y(row[column]):.1f}" for row in rows)
        style = f'fill="none" stroke="{colour}" stroke-width="{width}" stroke-dasharray="{dashes}"'
        parts.append(f'<polyline points="{points}" {style}/>')
        at = LEFT + 10 + 150 * (column - 1)
        parts.append(f'<path d="M{at} {TOP - 16}h28" {style}/>')
        parts.append(f'<text x="{at + 34}" y="{TOP - 12}">{name}</text>')
    return "\n".join(parts + ["</svg>", ""])


if __name__ == "__main__":
    lines = [line.split() for line in sys.stdin if not line.startswith("#")]
    rows = [[float(number) for number in line] for line in lines]
    if not rows or rows[-1][0] <= 0:
        sys.exit("plot.py: no line of `device_cli loop` behind 0 nanoseconds came in")
    sys.stdout.write(draw(rows))
