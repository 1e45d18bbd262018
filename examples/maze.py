#!/usr/bin/env python3
"""Finds the shortest way out of the cartridge maze without a machine, by a search over the drawing in maze.hex:

  examples/maze.py FRAMES [CHOICES]

It prints what 'tas search maze.bin 0 FRAMES "reach column == 39" --names examples/maze.names [--choices CHOICES]' prints for a movie of no frames:
the script on standard output, and on standard error the lines of layers, up to the frames that are played, and the verdict. It knows of the machine
that frame 0 ends before the stick is read, and that frame 1 and each fourth one after it read it."""
import pathlib
import re
import sys

START, GOAL = (1, 3), 39  # column and row at first, and the column outside
STICK = [direction + fire + " ..... ....." for fire in ".F" for direction in ("....", "R...", ".L..", "..D.", "...U", "R.D.", "R..U", ".LD.", ".L.U")]


def walls():
    """The rows of the drawing, each with its mirror image behind it."""
    source = (pathlib.Path(__file__).parent / "maze.hex").read_text()
    return [half + half[::-1] for half in re.findall(r"^; +([#.]{20})$", source, re.M)]


def step(maze, cell, frame):
    """Where a step leads: the cell itself if there is a wall."""
    column = cell[0] + (frame[0] == "R") - (frame[1] == "L")
    row = cell[1] + (frame[2] == "D") - (frame[3] == "U")
    return (column, row) if 0 <= column < 40 and maze[row][column] == "." else cell


def next_layer(maze, layer, choices, reads):
    """The cells that a frame after these leads to, each with the first choices that do."""
    found = {}
    for cell, way in layer.items():
        for choice in choices:
            found.setdefault(step(maze, cell, choice) if reads else cell, way + [choice])
    return found


def search(choices, frames):
    """The first shortest way and what is said of each frame; no way if there is none."""
    maze, layer, lines = walls(), {START: []}, []
    for frame in range(frames):
        reads = frame % 4 == 1
        after = next_layer(maze, layer, choices, reads)
        tried = len(layer) * len(choices)
        numbers = frame + 1, frame + 1, len(after), tried - len(after), tried if reads else len(layer)
        lines.append("layer %d: %d frames, %d states, %d merged, %d played" % numbers)
        layer = after
        for (column, _), way in layer.items():
            if column == GOAL:
                return way, lines
    return None, lines


def main(frames, choices=None):
    frames, choices = int(frames), pathlib.Path(choices).read_text().splitlines() if choices else STICK
    way, lines = search(choices, frames)
    number = len(choices) ** frames
    lines.append("best of all %d sequences" % number if way is not None else "none: not one of all %d sequences reaches it" % number)
    if way:
        print("insert 0 %d ..... ..... ....." % len(way))
        print("\n".join("replace %d 1 %s" % it for it in enumerate(way)))
    print("\n".join(lines), file=sys.stderr)


if not 2 <= len(sys.argv) <= 3:
    sys.exit(__doc__)
main(*sys.argv[1:])
