#!/usr/bin/env python3
"""Searches inputs that bring the face of examples/joystick to a place, by `ram` and `picture`:
    examples/desk/bot.py FOLDER SEAT FROM COLUMN ROW
From frame FROM on it holds the stick for stretches of eight frames. It tries the nine directions in a draft, which nobody else sees, and commits
the one after which the face is nearest to COLUMN (of 160, by the picture) and ROW (1 to 174, by the byte at address 80), until none brings it
nearer. Where others have edited the movie meanwhile the commit is refused as `moved`, and the bot tries again. In the history a stretch is one entry."""
import sys

sys.dont_write_bytecode = True
from seat import Seat

STRETCH = 8
WAYS = ["R....", ".L...", "..D..", "...U.", "R.D..", "R..U.", ".LD..", ".L.U.", "....."]
WHITE = bytes((252, 252, 252))

folder, number, first, column, row = sys.argv[1], sys.argv[2], *map(int, sys.argv[3:])
seat = Seat(folder, number)


def face(picture):
    """The leftmost column with a white pixel."""
    pixels = [picture[place:place + 3] for place in range(15, len(picture), 3)]
    return min((place % 160 for place, pixel in enumerate(pixels) if pixel == WHITE), default=0)


def hold(place, way):
    """Puts a direction into a stretch of the draft, where the movie has its frames."""
    words, _ = seat.ask(f"replace {place} {STRETCH} {way} ..... .....")
    return words[0] == "edit"


def distance(place):
    """How far the face is from its goal after a stretch."""
    ram, _ = seat.ask(f"ram {place + STRETCH}")
    _, picture = seat.ask(f"picture {place + STRETCH - 1}")
    return abs(int(ram[3][:2], 16) - row) + abs(face(picture) - column)


def say(*words):
    print("bot:", *words, flush=True)


def improve(place, best):
    """Commits the best direction for a stretch, and returns it with its distance; None, and says why, where it commits nothing."""
    while True:
        words, _ = seat.ask("begin")
        if words[0] != "begin":
            return say("refused:", *words)
        found = min(((distance(place), way) for way in WAYS if hold(place, way)), default=None)
        if found is None or best is not None and found[0] >= best:
            seat.ask("drop")
            return say("no direction brings it nearer")
        hold(place, found[1])
        words, _ = seat.ask("commit")
        if words[0] == "commit":
            return found
        seat.ask("drop")
        if words[0] != "moved":
            return say("refused:", *words)
        say("somebody else has edited; I look again")


place, best = first, None
while best != 0 and (found := improve(place, best)):
    best, way = found
    say(f"frames {place} to {place + STRETCH - 1}: {way}, {best} from the goal")
    place += STRETCH
if best is not None:
    say("the goal is reached" if best == 0 else f"{best} from the goal", f"at frame {place - 1}")
seat.quit()
