#!/usr/bin/env python3
"""Writes subtitles of a movie's inputs, one for each run of equal frames, for a film at 60 frames a second:

    examples/subtitles.py < examples/joystick.movie > joystick.srt
    examples/subtitles.py 30 90 < examples/joystick.movie > part.srt     for a film of the frames 30 to 89

The movie is a text of runs (`a26movie 2`). A frame of nothing pressed has no subtitle."""
import sys

NAMES = "RIGHT LEFT DOWN UP FIRE".split()
CONSOLE = {"r": "RESET", "s": "SELECT", "b": "B/W", "A": "LEFT A", "B": "RIGHT A"}


def pressed(frame):
    """What a frame presses, in words."""
    left, right, console = frame.split(" ")
    sticks = [(stick, [name for letter, name in zip(part, NAMES) if letter != "."]) for stick, part in (("1", left), ("2", right))]
    words = [f"{stick}: {' '.join(names)}" for stick, names in sticks if names]
    return "   ".join(words + [CONSOLE[letter] for letter in console if letter != "."])


def stamp(frame):
    """The time at which a frame begins."""
    hours, rest = divmod(frame * 1000 // 60, 3600000)
    minutes, rest = divmod(rest, 60000)
    return f"{hours:02}:{minutes:02}:{rest // 1000:02},{rest % 1000:03}"


if len(sys.argv) not in (1, 3):
    sys.exit("usage: examples/subtitles.py [FROM TO] < MOVIE")
head, *lines = sys.stdin.read().splitlines() or [""]
if head != "a26movie 2":
    sys.exit("no text of runs: write one with tas migrate")
first, last = map(int, sys.argv[1:] or (0, 262144))
at = number = 0
for line in lines[1:]:
    frame, _, count = line.partition(" x")
    begin, at = at, at + int(count or 1)
    text = pressed(frame)
    shown_from, shown_to = max(begin, first), min(at, last)
    if text and shown_from < shown_to:
        number += 1
        print(number, f"{stamp(shown_from - first)} --> {stamp(shown_to - first)}", text, "", sep="\n")
