#!/usr/bin/env python3
"""Draws the library's time over the number of samples and the limit: bench/curve.py <TABLE >PICTURE

Reads the table that `main curve` prints. Two panels with the same logarithmic axes: a flow of 15 levels, mean of its draws, and the
signal that takes longest of all. A line for each limit.
"""
import math
import sys

WIDTH, HEIGHT = 720, 420
PANEL_WIDTH, TOP, BOTTOM = 250, 50, 370
LEFTS = (70, 410)
TITLES = ("a flow of 15 levels", "the signal that takes longest")
COLOURS = {4: "#9a6700", 8: "#1a7f37", 16: "#0969da", 32: "#8250df"}


def read_table(lines):
    """{limit: [(samples, time on the flow, greatest time)]}"""
    curves = {}
    for line in lines:
        cells = [cell.strip() for cell in line.strip().strip("|").split("|")]
        if len(cells) == 6 and cells[0].isdigit():
            curves.setdefault(int(cells[1]), []).append((int(cells[0]), float(cells[2]), float(cells[4])))
    return curves


def main():
    curves = read_table(sys.stdin)
    samples = [n for n, _, _ in curves[min(curves)]]
    times = [t for curve in curves.values() for _, *both in curve for t in both]
    steps = [digit * 10**power for power in range(6) for digit in (1, 2, 5)]
    low = max(step for step in steps if step <= min(times))
    high = min(step for step in steps if step >= max(times))

    def x_of(left, n):
        return left + PANEL_WIDTH * math.log(n / samples[0]) / math.log(samples[-1] / samples[0])

    def y_of(time):
        return BOTTOM - (BOTTOM - TOP) * math.log(time / low) / math.log(high / low)

    print(f'<svg xmlns="http://www.w3.org/2000/svg" viewBox="0 0 {WIDTH} {HEIGHT}" font-family="sans-serif" font-size="12">')
    print(f'<rect width="{WIDTH}" height="{HEIGHT}" fill="#ffffff"/>')
    for panel, left in enumerate(LEFTS):
        right, middle = left + PANEL_WIDTH, left + PANEL_WIDTH / 2
        print(f'<text x="{middle}" y="{TOP - 20}" text-anchor="middle" font-size="14">{TITLES[panel]}</text>')
        for step in steps:
            if low <= step <= high:
                y = y_of(step)
                print(f'<path d="M{left} {y:.1f}H{right}" stroke="#d0d7de"/>')
                print(f'<text x="{left - 6}" y="{y + 4:.1f}" text-anchor="end">{step}</text>')
        for n in samples:
            x = x_of(left, n)
            print(f'<path d="M{x:.1f} {TOP}V{BOTTOM}" stroke="#d0d7de"/>')
            print(f'<text x="{x:.1f}" y="{BOTTOM + 16}" text-anchor="middle">{n}</text>')
        print(f'<text x="{middle}" y="{BOTTOM + 36}" text-anchor="middle">samples</text>')
        for limit, curve in sorted(curves.items()):
            points = [(x_of(left, n), y_of(both[panel])) for n, *both in curve]
            path = " ".join(f"{x:.1f},{y:.1f}" for x, y in points)
            print(f'<polyline points="{path}" fill="none" stroke="{COLOURS[limit]}" stroke-width="2"/>')
            for x, y in points:
                print(f'<circle cx="{x:.1f}" cy="{y:.1f}" r="3" fill="{COLOURS[limit]}"/>')
            x, y = points[-1]
            print(f'<text x="{x + 7:.1f}" y="{y + 4:.1f}" fill="{COLOURS[limit]}">limit {limit}</text>')
    print(f'<text transform="translate(22 {(TOP + BOTTOM) / 2}) rotate(-90)" text-anchor="middle">microseconds a call</text>')
    print("</svg>")


main()
