"""What two kinds of cartridges show without being played: one that halts in its first frame whatever is pressed, and one that does nothing forever. And which states are kept.

Written from docs/FORMATS.md, "Kept states", "Conversation" and "Drafts", and from docs/MACHINE.md. Where a machine would have to play, or to play too long, Open is raised.
"""

from collections import namedtuple
from functools import lru_cache

import answers
import drafts
import machine

MOST_PLAYED = 2000  # frames of one run
UNPLAYED = "4C00F0"  # JMP to itself, at F000
HEAD_OF_PIXMAP = b"P6\n160 210\n255\n"
BLACK = HEAD_OF_PIXMAP + bytes(3 * 160 * 210)


class Open(Exception):
    """The page leaves it open, or a machine would have to play."""


# ---- cartridges that needn't be played

class Rest(namedtuple("Rest", "halt ram")):
    """What each frame comes to: an address and a byte, or nothing where it is black; the RAM. Its methods are those of a movie that was played (looks.py)."""

    def halt_in(self, _frame):
        return self.halt

    def ram_after(self, count):
        return self.ram if count else bytes(128)

    def pixmap(self, _frame):
        return BLACK

    def lag_lines(self, first, last):
        return b"%d %d\n" % (first, last) if first < last else b""


IDLE = answers.image_of("load", ["000=" + UNPLAYED, "FFC=00F0"]).frame


@lru_cache(1000)
def rest_of(cart):
    """What each frame of a cartridge comes to, where no input changes it."""
    if len(cart) not in answers.SIZES.values():
        raise Open("a cartridge of another size")
    start = int.from_bytes(cart[-4:-2], "little")
    code = bytes.fromhex(UNPLAYED)
    if start == 0xF000 and cart[:3] == code:
        return Rest(None, bytes(128))
    if any(cart) and (start < 0xF000 or cart[start % len(cart)] in machine.OPCODES):
        raise Open("a cartridge that has to be played")
    model = machine.Machine(cart)
    model.play_frame(machine.NOTHING)
    if model.halt is None or not model.is_lag:
        raise Open("a cartridge that has to be played")
    return Rest("%04X %02X" % (model.halt.address, model.halt.opcode), bytes(model.ram))


# ---- kept states

class Kept:
    """After how many frames states are kept, those for shots and those of the list of `work`. A halted machine's are kept, too."""

    def __init__(self):
        self.shots, self.listed, self.movie = set(), set(), answers.BLANK

    def edited(self, *edit):
        """An edit cuts the list at once. Its kind, place and count, and the movie's length after it, are those of `left`."""
        self.listed = left(self.listed, *edit)

    def cut(self, movie):
        """Step 1 of a shot."""
        step = answers.stride(len(movie.frames))
        if self.movie == movie:
            common = len(movie.frames)
        else:
            common = drafts.common(self.movie.frames, movie.frames) if self.movie.cart == movie.cart else 0
        self.shots = {f for f in self.shots if f <= common and f % step == 0}
        self.movie = movie

    def play(self, movie, last, keeps_to):
        """The frame from which frames up to `last` are played; states up to `keeps_to` are kept on the way."""
        check_reach(last)
        self.cut(movie)
        start = max((f for f in self.shots if f <= last), default=0)
        self.shots |= set(grid(movie, start, keeps_to))
        return start

    def share(self, movie):
        """The states for shots gain those of the list; how many they gain."""
        self.cut(movie)
        gained = self.listed - self.shots
        self.shots |= gained
        return len(gained)

    def work(self, movie, last):
        """How many states the list gains."""
        new = added(self.listed, movie, last)
        self.listed |= new
        self.share(movie)
        return len(new)


class KeptOfDraft(Kept):
    """A draft's states: a copy of those for shots, which each change cuts at once."""

    def __init__(self, kept):
        super().__init__()
        self.shots = set(kept.shots)

    def edited(self, *edit):
        self.shots = left(self.shots, *edit)

    def cut(self, movie):
        """Nothing is left to be cut before a look."""

    def work(self, movie, last):
        new = added(self.shots, movie, last)
        self.shots |= new
        return len(new)


def check_reach(last):
    if last > MOST_PLAYED:
        raise Open("too many frames for this comparison")


def left(states, kind, place, count, length):
    """The states that an edit leaves of a list, where the movie has that length then."""
    if kind == "load":
        return set()
    last, step = place + count if kind == "repeat" else place, answers.stride(length)
    return {f for f in states if f <= last and f % step == 0}


def added(states, movie, last):
    """The states that `work` adds to these."""
    last = min(last, len(movie.frames))
    check_reach(last)
    return set(grid(movie, max((f for f in states if f <= last), default=0), last))


def grid(movie, after, last):
    """The multiples of the stride after one number of frames, up to another."""
    step = answers.stride(len(movie.frames))
    return range(after // step * step + step, last + 1, step)
