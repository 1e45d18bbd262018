"""The TIA of docs/MACHINE.md, sections 4 and 5: registers, the beam, pixels and collisions. See machine.py."""

from itertools import combinations


def bit(value, number):
    """Bit `number` of a value: D7 is the highest of a byte, D0 the lowest."""
    return value >> number & 1


# ---- Section 4, "TIA: writes" ----------------------------------------------------------------------------------------

VSYNC, VBLANK, WSYNC, RSYNC = 0x00, 0x01, 0x02, 0x03
NUSIZ0, NUSIZ1, COLUP0, COLUP1, COLUPF, COLUBK = 0x04, 0x05, 0x06, 0x07, 0x08, 0x09
CTRLPF, REFP0, REFP1, PF0, PF1, PF2 = 0x0A, 0x0B, 0x0C, 0x0D, 0x0E, 0x0F
RESP0, RESP1, RESM0, RESM1, RESBL = 0x10, 0x11, 0x12, 0x13, 0x14
GRP0, GRP1, ENAM0, ENAM1, ENABL = 0x1B, 0x1C, 0x1D, 0x1E, 0x1F
HMP0, HMP1, HMM0, HMM1, HMBL = 0x20, 0x21, 0x22, 0x23, 0x24
VDELP0, VDELP1, VDELBL, RESMP0, RESMP1 = 0x25, 0x26, 0x27, 0x28, 0x29
HMOVE, HMCLR, CXCLR = 0x2A, 0x2B, 0x2C

# The objects by the names of the page's table of reads. The first five have a place.
MOVEABLE = ("P0", "P1", "M0", "M1", "BL")
OBJECTS = MOVEABLE + ("PF",)

PLACE_STROBES = {RESP0: "P0", RESP1: "P1", RESM0: "M0", RESM1: "M1", RESBL: "BL"}
MOTION_REGISTERS = {"P0": HMP0, "P1": HMP1, "M0": HMM0, "M1": HMM1, "BL": HMBL}

# "Copies": by D2 to D0 of NUSIZ, how far from its place each copy of a player or a missile starts.
COPY_DISTANCES = ((0,), (0, 16), (0, 32), (0, 16, 32), (0, 64), (0,), (0, 32, 64), (0,))
WIDE_PLAYERS = {5: 2, 7: 4}

# Section 5, "Collisions" and "Reads": the pairs that D7 and D6 of an address tell.
COLLISION_READS = {
    0: ("M0 P1", "M0 P0"), 1: ("M1 P0", "M1 P1"), 2: ("P0 PF", "P0 BL"), 3: ("P1 PF", "P1 BL"),
    4: ("M0 PF", "M0 BL"), 5: ("M1 PF", "M1 BL"), 6: ("BL PF", None), 7: ("P0 P1", "M0 M1"),
}

# Section 5, "TIA: beam, colours, collisions, reads"
CLOCKS_OF_A_LINE = 228
FIRST_VISIBLE_CLOCK = 68
WIDTH = 160
BLACK = 0

# Section 6, "Frames and power-on"
FIRST_LINE, ROWS = 34, 210
LAST_LINE = 320  # a frame ends where the line number is this or more


def pair(names):
    """A pair of objects, in whichever order they are named."""
    return frozenset(names.split()) if names else None


COLLISION_PAIRS = {address: tuple(map(pair, names)) for address, names in COLLISION_READS.items()}


def signed_nibble(value):
    """D7 to D4 as a number from -8 to 7. (Section 4, table of writes: HMP0 to HMBL)"""
    nibble = value // 16
    return nibble - 16 if nibble >= 8 else nibble


def place_of_strobe(name, h):
    """Section 4, "Strobes of places"."""
    is_player = name in ("P0", "P1")
    if h < FIRST_VISIBLE_CLOCK:
        return 3 if is_player else 2
    return (h - FIRST_VISIBLE_CLOCK + (5 if is_player else 4)) % WIDTH


def playfield_bits(pf0, pf1, pf2):
    """Section 4, "Playfield": the twenty bits of the left half, from left to right."""
    return ([bit(pf0, n) for n in (4, 5, 6, 7)] + [bit(pf1, n) for n in (7, 6, 5, 4, 3, 2, 1, 0)]
            + [bit(pf2, n) for n in (0, 1, 2, 3, 4, 5, 6, 7)])


class Tia:
    def __init__(self):
        # Section 6: at power-on all registers, copies, places and latches are 0, and the beam is at line 0, clock 0.
        self.registers = [0] * 64  # as they were written last; each use takes the bits that count
        self.new_graphics = [0, 0]
        self.old_graphics = [0, 0]
        self.new_ball = 0
        self.old_ball = 0
        self.places = dict.fromkeys(MOVEABLE, 0)
        self.collisions = set()
        self.pressed = set()  # the fire buttons, "left" and "right", of the frame's input
        self.latched = set()
        self.line = 0
        self.h = 0
        self.has_black_edge = False  # HMOVE made pixels 0 to 7 of this line black
        self.waits = False  # a write of WSYNC in this instruction
        self.sync_began = False  # VSYNC's D1 went from 0 to 1 in this instruction
        self.picture = None  # the rows of the frame that is drawn, or none in a trace
        self.lit_pixels = None  # what each object covers, found anew after each write

    def has(self, register, number):
        return bit(self.registers[register], number)

    # -- writes

    def write(self, register, value):
        before = self.registers[register]
        self.registers[register] = value
        self.lit_pixels = None
        if register == VSYNC:
            self.sync_began = self.sync_began or bit(value, 1) > bit(before, 1)
        elif register == VBLANK:
            self.latch_buttons()
        elif register == WSYNC:
            self.waits = True
        elif register in PLACE_STROBES:
            name = PLACE_STROBES[register]
            self.places[name] = place_of_strobe(name, self.h)
        elif register in (GRP0, GRP1):
            self.write_graphics(register - GRP0, value)
        elif register == ENABL:
            self.new_ball = bit(value, 1)
        elif register in (RESMP0, RESMP1):
            if bit(before, 1) > bit(value, 1):
                self.put_missile_to_player(register - RESMP0)
        elif register == HMOVE:
            self.move()
        elif register == HMCLR:
            for motion in MOTION_REGISTERS.values():
                self.registers[motion] = 0
        elif register == CXCLR:
            self.collisions = set()

    def latch_buttons(self):
        """Section 5, "Fire buttons": after a write of VBLANK, and at a frame's start."""
        if self.has(VBLANK, 6):
            self.latched |= self.pressed
        else:
            self.latched = set()

    def write_graphics(self, player, value):
        """Section 4, "Delayed copies"."""
        other = 1 - player
        self.new_graphics[player] = value
        self.old_graphics[other] = self.new_graphics[other]
        if player == 1:
            self.old_ball = self.new_ball

    def put_missile_to_player(self, number):
        """Section 4, "Missile to player"."""
        offset = 4 * self.player_width(number)
        self.places["M%d" % number] = (self.places["P%d" % number] + offset) % WIDTH

    def move(self):
        """Section 4, "Horizontal motion"."""
        for name, register in MOTION_REGISTERS.items():
            self.places[name] = (self.places[name] - signed_nibble(self.registers[register])) % WIDTH
        if self.h < FIRST_VISIBLE_CLOCK:
            self.has_black_edge = True

    # -- what the objects cover

    def copy_starts(self, name, number):
        """Section 4, "Copies": where the copies of a player or a missile start."""
        distances = COPY_DISTANCES[self.registers[NUSIZ0 + number] % 8]
        return [self.places[name] + distance for distance in distances]

    def player_width(self, number):
        """How many clocks each bit of a player takes."""
        return WIDE_PLAYERS.get(self.registers[NUSIZ0 + number] % 8, 1)

    def player_pixels(self, number):
        is_delayed = self.has(VDELP0 + number, 0)
        graphics = (self.old_graphics if is_delayed else self.new_graphics)[number]
        bits = [bit(graphics, n) for n in (7, 6, 5, 4, 3, 2, 1, 0)]
        if self.has(REFP0 + number, 3):
            bits.reverse()
        width = self.player_width(number)
        return {(start + width * n + clock) % WIDTH
                for start in self.copy_starts("P%d" % number, number)
                for n in range(8) if bits[n]
                for clock in range(width)}

    def missile_pixels(self, number):
        if not self.has(ENAM0 + number, 1) or self.has(RESMP0 + number, 1):
            return set()
        width = 2 ** (self.registers[NUSIZ0 + number] // 16 % 4)
        starts = self.copy_starts("M%d" % number, number)
        return {(start + clock) % WIDTH for start in starts for clock in range(width)}

    def ball_pixels(self):
        if not (self.old_ball if self.has(VDELBL, 0) else self.new_ball):
            return set()
        width = 2 ** (self.registers[CTRLPF] // 16 % 4)
        return {(self.places["BL"] + clock) % WIDTH for clock in range(width)}

    def playfield_pixels(self):
        left = playfield_bits(self.registers[PF0], self.registers[PF1], self.registers[PF2])
        right = left[::-1] if self.has(CTRLPF, 0) else left
        return {4 * n + clock for n, is_lit in enumerate(left + right) if is_lit for clock in range(4)}

    def find_lit_pixels(self):
        """For each object the set of its pixels; the same until a register is written, so it is kept until then."""
        return {
            "P0": self.player_pixels(0), "P1": self.player_pixels(1),
            "M0": self.missile_pixels(0), "M1": self.missile_pixels(1),
            "BL": self.ball_pixels(), "PF": self.playfield_pixels(),
        }

    # -- the beam

    def clock(self):
        """One colour clock. (Section 5, "TIA: beam, colours, collisions, reads")"""
        if self.h >= FIRST_VISIBLE_CLOCK:
            self.draw(self.h - FIRST_VISIBLE_CLOCK)
        self.h += 1
        if self.h == CLOCKS_OF_A_LINE:
            self.h = 0
            self.line += 1
            self.has_black_edge = False

    def draw(self, x):
        if self.has_black_edge and x < 8:
            colour = BLACK
        else:
            if self.lit_pixels is None:
                self.lit_pixels = self.find_lit_pixels()
            lit = [name for name in OBJECTS if x in self.lit_pixels[name]]
            if len(lit) > 1:
                # Section 5, "Collisions": also under VBLANK.
                self.collisions.update(map(frozenset, combinations(lit, 2)))
            colour = BLACK if self.has(VBLANK, 1) else self.colour(lit, x)
        row = self.line - FIRST_LINE
        if self.picture is not None and 0 <= row < ROWS:
            self.picture[row][x] = colour

    def colour(self, lit, x):
        """Section 5, "Colour"."""
        registers = self.registers
        if not lit:
            front = COLUBK
        elif self.has(CTRLPF, 2) and ("PF" in lit or "BL" in lit):
            front = COLUPF
        elif "P0" in lit or "M0" in lit:
            front = COLUP0
        elif "P1" in lit or "M1" in lit:
            front = COLUP1
        elif "PF" in lit and self.has(CTRLPF, 1) and not self.has(CTRLPF, 2):
            front = COLUP0 if x < WIDTH // 2 else COLUP1
        else:
            front = COLUPF
        return registers[front] - registers[front] % 2  # D0 is kept clear

    # -- reads

    def read(self, address):
        """Section 5, "Reads"."""
        if address in COLLISION_PAIRS:
            high, low = COLLISION_PAIRS[address]
            return 128 * (high in self.collisions) + 64 * (low in self.collisions)
        if address in (0xC, 0xD):
            button = "left" if address == 0xC else "right"
            return 0 if button in self.pressed or button in self.latched else 128
        return 128 if 8 <= address <= 0xB else 0
