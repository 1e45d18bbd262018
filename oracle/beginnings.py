"""What beginnings of movies show, by the machine of quick.py. The state after each frame is kept, so that a look plays only the frames after the longest
beginning that was played before. Nor is a frame played that was played from an equal state with an equal input: it comes to an equal state."""

from functools import lru_cache
from hashlib import sha256

import machine
import quick
import tia
from tia import WIDTH

MOST_KEPT = 2000000  # beginnings; then all are forgotten
MOST_PLAYED = 400000  # frames, with the state after each; then all are forgotten
UNLIT = [colour for colour in range(256) if machine.palette_colour(colour) == bytes(3)]


def state_of(model):
    """All that the next frame depends on; none of it can change."""
    chip, timer = model.tia, model.timer
    return (
        bytes(model.ram), model.a, model.x, model.y, model.s, frozenset(model.flags), model.pc, model.halt,
        (timer.interval, timer.count, timer.left, timer.underflowed, timer.flag),
        (model.port_a.latch, model.port_a.direction, model.port_b.latch, model.port_b.direction),
        (bytes(chip.registers), tuple(chip.new_graphics), tuple(chip.old_graphics), chip.new_ball, chip.old_ball, tuple(chip.places.values()),
         frozenset(chip.collisions), frozenset(chip.latched), chip.line, chip.h, chip.has_black_edge))


def machine_in(cartridge, state):
    model = quick.QuickMachine(cartridge)
    chip, timer = model.tia, model.timer
    ram, model.a, model.x, model.y, model.s, flags, model.pc, model.halt, of_timer, of_ports, of_chip = state
    timer.interval, timer.count, timer.left, timer.underflowed, timer.flag = of_timer
    model.port_a.latch, model.port_a.direction, model.port_b.latch, model.port_b.direction = of_ports
    registers, new, old, chip.new_ball, chip.old_ball, places, collisions, latched, chip.line, chip.h, chip.has_black_edge = of_chip
    model.ram, model.flags = list(ram), set(flags)
    chip.registers, chip.new_graphics, chip.old_graphics = list(registers), list(new), list(old)
    chip.places, chip.collisions, chip.latched = dict(zip(tia.MOVEABLE, places)), set(collisions), set(latched)
    return model


class Beginning:
    """A state, whether the frame before it was a lag frame, and the beginnings that are a frame longer."""

    __slots__ = ("state", "is_lag", "longer")

    def __init__(self, state, is_lag):
        self.state, self.is_lag, self.longer = state, is_lag, {}


class Beginnings:
    def __init__(self):
        self.empty, self.kept, self.played = {}, 0, 0
        self.after = {}  # cartridge, state and input: the state after the frame, and whether it was a lag frame

    def empty_one(self, cartridge):
        if self.kept > MOST_KEPT:
            self.empty, self.kept = {}, 0
        if cartridge not in self.empty:
            model = quick.QuickMachine(cartridge)
            self.empty[cartridge] = Beginning(state_of(model), model.is_lag)
        return self.empty[cartridge]

    def play(self, cartridge, state, frame):
        """The state after a frame, and whether it was a lag frame."""
        move = (cartridge, state, frame)
        if move not in self.after:
            if len(self.after) >= MOST_PLAYED:
                self.after.clear()
            model = machine_in(cartridge, state)
            model.draws = False
            model.play_frame(frame)
            self.after[move] = (state_of(model), model.is_lag)
            self.played += 1
        return self.after[move]

    def path(self, cartridge, frames):
        """The beginnings of a movie, from the empty one to the one with all frames."""
        path = [self.empty_one(cartridge)]
        for frame in frames:
            last = path[-1]
            if frame not in last.longer:
                last.longer[frame] = Beginning(*self.play(cartridge, last.state, frame))
                self.kept += 1
            path.append(last.longer[frame])
        return path

    def facts(self, cartridge, frames, names):
        """What these names are after the frames. The last frame is played again where its picture is asked for."""
        path = self.path(cartridge, frames)
        model = machine_in(cartridge, path[-1].state)
        picture = None
        if frames and ("lit" in names or "picture" in names):
            last = machine_in(cartridge, path[-2].state)
            picture = last.play_frame(frames[-1])
            self.played += 1
        return [fact(name, model, [one.is_lag for one in path[1:]], picture) for name in names]


def plain_facts(cartridge, frames, names):
    """The same by the plain machine, from its start."""
    model, lagging, picture = machine.Machine(cartridge), [], None
    for frame in frames:
        picture = model.play_frame(frame)
        lagging.append(model.is_lag)
    return [fact(name, model, lagging, picture) for name in names]


def fact(name, model, lagging, picture):
    if name == "ram":
        return sha256(bytes(model.ram)).hexdigest()
    if name == "halt":
        return "" if model.halt is None else "%04X %02X" % (model.halt.address, model.halt.opcode)
    if name.startswith("lag"):
        return lag_text(lagging, int(name.split(" ")[2]))
    if picture is None:
        return "no picture"
    if name == "lit":
        return str(sum(WIDTH - sum(map(row.count, UNLIT)) for row in picture))
    return sha256(b"P6\n160 210\n255\n" + b"".join(map(row_bytes, map(bytes, picture)))).hexdigest()


@lru_cache(10000)
def row_bytes(row):
    return b"".join(machine.PALETTE[colour] for colour in row)


def lag_text(lagging, first):
    """The stretches of lag frames from one on."""
    text, begin = "", None
    for place, is_lag in enumerate(lagging + [False]):
        if is_lag and place >= first and begin is None:
            begin = place
        elif not is_lag and begin is not None:
            text, begin = text + "%d %d\n" % (begin, place), None
    return text
