"""The machine of machine.py with many colour clocks at once, for runs of very many frames.

Between two writes of the TIA a line is cut out of a row of colours that was found once. What a pixel shows, what an instruction does and when, are those
of machine.py and tia.py: only the passing of time is new here. `selftest` compares both after each frame of random cartridges.
"""

import machine
import tia
from tia import BLACK, CLOCKS_OF_A_LINE, CTRLPF, ENABL, ENAM0, FIRST_LINE, FIRST_VISIBLE_CLOCK, NUSIZ0, RESMP1, ROWS, VBLANK, VDELP0, WIDTH

BLACK_EDGE = 8
MOST_ROWS = 20000  # then the rows that were found are forgotten


class QuickTimer(machine.Timer):
    def ticks(self, count):
        while count and not self.underflowed:
            step = min(count, self.left)
            self.left -= step
            count -= step
            if self.left == 0:
                self.end_interval()
        self.count = (self.count - count) % 256


class QuickTia(tia.Tia):
    found = {}  # rows by what they depend on

    def __init__(self):
        super().__init__()
        self.row = None  # what all pixels of a line show, until something is written

    def write(self, register, value):
        super().write(register, value)
        self.row = None

    def clocks(self, count):
        while count:
            end = min(self.h + count, CLOCKS_OF_A_LINE)
            count -= end - self.h
            if end > FIRST_VISIBLE_CLOCK:
                self.draw_pixels(max(self.h - FIRST_VISIBLE_CLOCK, 0), end - FIRST_VISIBLE_CLOCK)
            self.h = end
            if end == CLOCKS_OF_A_LINE:
                self.h = 0
                self.line += 1
                self.has_black_edge = False

    def draw_pixels(self, first, last):
        """The pixels from one to the one before another."""
        if self.has_black_edge:
            first = max(first, BLACK_EDGE)  # the row is black already
        if first >= last:
            return
        if self.row is None:
            self.row = self.find_row()
        colours, meetings = self.row
        for begin, end, pairs in meetings:
            if begin < last and first < end:
                self.collisions.update(pairs)
        row = self.line - FIRST_LINE
        if self.picture is not None and 0 <= row < ROWS:
            self.picture[row][first:last] = colours[first:last]

    def find_row(self):
        """All colours of a line, and where objects meet: first and last pixel, and the pairs."""
        registers = self.registers
        key = (bytes(registers[NUSIZ0:CTRLPF + 6]), bytes(registers[ENAM0:ENABL]), bytes(registers[VDELP0:RESMP1 + 1]), self.has(VBLANK, 1),
               *self.new_graphics, *self.old_graphics, self.new_ball, self.old_ball, *self.places.values())
        if key not in self.found:
            if len(self.found) >= MOST_ROWS:
                self.found.clear()
            self.found[key] = self.make_row()
        return self.found[key]

    def make_row(self):
        pixels = self.find_lit_pixels()
        lit = [[name for name in tia.OBJECTS if x in pixels[name]] for x in range(WIDTH)]
        is_black = self.has(VBLANK, 1)
        colours = bytes(BLACK if is_black else self.colour(lit[x], x) for x in range(WIDTH))
        meetings, begin = [], 0
        for x in range(1, WIDTH + 1):
            if x == WIDTH or lit[x] != lit[begin]:
                if len(lit[begin]) > 1:
                    meetings.append((begin, x, frozenset(map(frozenset, tia.combinations(lit[begin], 2)))))
                begin = x
        return colours, meetings


class QuickMachine(machine.Machine):
    """Where `draws` is unset a frame has no picture."""

    def __init__(self, cartridge):
        super().__init__(cartridge)
        self.timer = QuickTimer()
        self.tia = QuickTia()
        self.draws = True

    def pass_cycles(self, count):
        self.timer.ticks(count)
        self.tia.clocks(3 * count)

    def wait_for_line(self):
        if self.tia.h != 0:
            self.pass_cycles((CLOCKS_OF_A_LINE - self.tia.h) // 3)

    def blank_picture(self):
        return [bytearray(WIDTH) for _ in range(ROWS)] if self.draws else None
