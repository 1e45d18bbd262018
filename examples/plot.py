#!/usr/bin/env python3
"""Draws a table of 'tas ram --names' as a picture (SVG): the first column goes to the right, and each other one is a line.

    ./tas ram maze.bin 0 159 --names examples/maze.names < way.movie | examples/plot.py > way.svg"""
import csv
import sys

WIDE, HIGH, LEFT, TOP, STEPS = 560, 260, 40, 30, 8
COLOURS = "#1f77b4", "#d62728", "#2ca02c", "#9467bd", "#ff7f0e", "#8c564b"


def ticks(least, most):
    """Round numbers from the least to the most, some eight of them."""
    step = next(unit * 10 ** power for power in range(9) for unit in (1, 2, 5) if unit * 10 ** power * STEPS >= most - least)
    return range(-(-least // step) * step, most + 1, step)


def main():
    head, *rows = csv.reader(sys.stdin)
    if not rows or len(head) < 2:
        sys.exit("plot.py: the table has nothing to draw")
    frames, *columns = [[int(value) for value in column] for column in zip(*rows)]
    first, last, most = frames[0], frames[-1], max(1, *map(max, columns))

    def x(frame):
        return round(LEFT + WIDE * (frame - first) / max(1, last - first), 1)

    def y(value):
        return round(TOP + HIGH - HIGH * value / most, 1)

    print(f'<svg xmlns="http://www.w3.org/2000/svg" width="{LEFT + WIDE + 20}" height="{TOP + HIGH + 40}" font-family="sans-serif" font-size="12">')
    print(f'<rect width="100%" height="100%" fill="white"/><rect x="{LEFT}" y="{TOP}" width="{WIDE}" height="{HIGH}" fill="none" stroke="black"/>')
    for frame in ticks(first, last):
        print(f'<path d="M{x(frame)} {TOP + HIGH}v5" stroke="black"/><text x="{x(frame)}" y="{TOP + HIGH + 18}" text-anchor="middle">{frame}</text>')
    for value in ticks(0, most):
        print(f'<path d="M{LEFT} {y(value)}h-5" stroke="black"/><text x="{LEFT - 8}" y="{y(value) + 4}" text-anchor="end">{value}</text>')
    print(f'<text x="{LEFT + WIDE / 2}" y="{TOP + HIGH + 34}" text-anchor="middle">{head[0]}</text>')
    for number, (name, values) in enumerate(zip(head[1:], columns)):
        colour = COLOURS[number % len(COLOURS)]
        steps = [f"M{x(first)} {y(values[0])}"]
        for frame, before, value in zip(frames[1:], values, values[1:]):
            steps += [f"H{x(frame)}V{y(value)}"] if value != before else []
        print(f'<path d="{"".join(steps)}H{x(last)}" fill="none" stroke="{colour}" stroke-width="1.5"/>')
        print(f'<text x="{LEFT + 100 * number}" y="{TOP - 10}" fill="{colour}">{name}</text>')
    print("</svg>")


if __name__ == "__main__":
    main()
