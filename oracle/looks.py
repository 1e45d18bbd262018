"""Looks at a played movie by the model of machine.py: RAM, digests, where two movies begin to differ, and lag frames.

docs/FORMATS.md, "RAM", "Digest", "Comparison" and "Lag frames", says what the lines are.
"""

from collections import namedtuple
from hashlib import sha256
from itertools import groupby, zip_longest

import cartridges
import machine

# What a frame left: the 128 bytes of RAM; its pixmap, no bytes where the machine is halted; whether it is a lag frame.
Frame = namedtuple("Frame", "ram pixmap is_lag")


def read_inputs(text):
    """The inputs of a movie text of either kind, which is taken to be one."""
    inputs = []
    for line in text.split("\n")[2:-1]:
        frame, _, count = line.partition(" x")
        inputs += [frame] * int(count or 1)
    return inputs


class Played:
    """A movie that a new machine has played to its end."""

    def __init__(self, model, inputs):
        self.cartridge = model.cartridge
        self.inputs = inputs
        self.start = bytes(model.ram)
        self.pictures = []
        self.frames = [self.play(model, text) for text in inputs]
        self.halt = model.halt

    def play(self, model, text):
        picture = model.play_frame(text)
        self.pictures.append(picture)
        return Frame(bytes(model.ram), b"" if picture is None else machine.ppm_bytes(picture), model.is_lag)

    # -- what readings.Holder asks of a movie

    def halt_in(self, frame):
        return None if self.frames[frame].pixmap else "%04X %02X" % (self.halt.address, self.halt.opcode)

    def ram_after(self, count):
        return self.frames[count - 1].ram if count else self.start

    def pixmap(self, frame):
        return self.frames[frame].pixmap

    def lag_lines(self, first, last):
        """A line for each stretch of lag frames, as long as it goes from one frame to the one before another."""
        lines = []
        for is_lag, stretch in groupby(range(first, last), key=lambda number: self.frames[number].is_lag):
            numbers = list(stretch)
            if is_lag:
                lines.append("%d %d\n" % (numbers[0], numbers[-1] + 1))
        return "".join(lines).encode()


# ---- the lines, as bytes ---------------------------------------------------------------------------------------------

def ram_lines(played, first, last):
    return "".join("%d %s\n" % (k, played.ram_after(k).hex().upper()) for k in range(first, last)).encode()


def table_lines(played, names, first, last):
    """The bytes of RAM with these names, in columns."""
    rows = [["frames played", *names]] + [[k, *(played.ram_after(k)[address - 0x80] for address in names.values())] for k in range(first, last)]
    return "".join(",".join(map(str, row)) + "\n" for row in rows).encode()


def digest_lines(played, every):
    """Where no frame is halted."""
    text = cartridges.movie_text(played.cartridge, played.inputs).encode()
    lines = ["a26digest 1", f"profile {machine.PROFILE}", "cart " + hex_digest(played.cartridge), "movie " + hex_digest(text)]
    for begin in range(0, len(played.frames), every):
        stretch = played.frames[begin:begin + every]
        lines.append("frames %d to %d ram %s picture %s" % (
            begin, begin + len(stretch), hex_digest(b"".join(frame.ram for frame in stretch)), hex_digest(stretch[-1].pixmap)))
    lines.append("end %d frames" % len(played.frames))
    return "".join(line + "\n" for line in lines).encode()


def hex_digest(data):
    return sha256(data).hexdigest()


def difference_lines(old, new):
    rams, pixmaps = ([[frame[part] for frame in played.frames] for played in (old, new)] for part in (0, 1))
    places = zip(("input", "ram", "picture"), ((old.inputs, new.inputs), rams, pixmaps))
    return "".join("%s %s\n" % (name, first_difference(one, other)) for name, (one, other) in places).encode()


def first_difference(one, other):
    for place, (a, b) in enumerate(zip_longest(one, other)):
        if a != b:
            return place
    return "none"
