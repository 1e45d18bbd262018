"""What a run of oracle/compare used of the machine: a machine that counts, and what must be counted for a full run."""

import machine
import tia

TIMER_WRITES = ("TIM1T", "TIM8T", "TIM64T", "T1024T")
PORTS = ("SWCHA", "SWACNT", "SWCHB", "SWBCNT")
STROBES_WITH_CLOCKS = tuple(tia.PLACE_STROBES) + (tia.HMOVE,)
COLLISIONS = [names for both in tia.COLLISION_READS.values() for names in both if names]

# What is counted and how many different ones there are. The clock of a write is always a multiple of three.
WANTED = {
    "documented opcodes": len(machine.OPCODES),
    "undocumented opcodes": 256 - len(machine.OPCODES),
    "TIA writes": 64,
    "TIA reads": 16,
    "RIOT writes": len(TIMER_WRITES) + len(PORTS) + 1,
    "RIOT reads": 2 + len(PORTS),
    "collisions read": len(COLLISIONS),
    "clocks of strobes": len(STROBES_WITH_CLOCKS) * tia.CLOCKS_OF_A_LINE // 3,
    "clocks of WSYNC": tia.CLOCKS_OF_A_LINE // 3,
    "page crossings": 4,
    "decimal sums": 2,
    "places of code": 5,
    "places of stacks": 2,
    "ends of frames": 3,
    "NUSIZ values": 2 * 32,
    "CTRLPF values": 32,
}

# Of these a full run may miss some, so this share is enough.
ENOUGH = {"clocks of strobes": 0.8}

# So many pictures must have a colour beside black, and so many three colours or more.
LIT_PICTURES, COLOURFUL_PICTURES = 150, 100


class WatchedMachine(machine.Machine):
    """The machine, and beside it a set of what was used, for each name of WANTED."""

    def __init__(self, cartridge, seen):
        self.seen = seen
        super().__init__(cartridge)

    def note(self, what, item):
        self.seen[what].add(item)

    def step(self):
        place = machine.area(self.pc)
        step = super().step()
        if step.cycles is None:
            self.note("undocumented opcodes", step.opcode)
        else:
            self.note("documented opcodes", step.opcode)
            self.note("places of code", place)
        return step

    def execute(self, name, mode, operand):
        if operand.crossed and (mode != "rel" or self.is_taken(name)):
            self.note("page crossings", mode)
        if name in ("ADC", "SBC") and "D" in self.flags:
            self.note("decimal sums", name)
        super().execute(name, mode, operand)

    def push(self, value):
        self.note("places of stacks", machine.area(0x0100 + self.s))
        super().push(value)

    def read(self, address):
        where = machine.area(address)
        if where == "tia":
            self.note("TIA reads", address % 16)
            self.note_collisions(address % 16)
        elif where == "timer":
            self.note("RIOT reads", "INSTAT" if address % 2 else "INTIM")
        elif where == "ports":
            self.note("RIOT reads", PORTS[address % 4])
        return super().read(address)

    def note_collisions(self, address):
        for names in tia.COLLISION_READS.get(address, ()):
            if tia.pair(names) in self.tia.collisions:
                self.note("collisions read", names)

    def write(self, address, value):
        where = machine.area(address)
        if where == "tia":
            self.note_register(address % 64, value)
        elif where == "timer":
            self.note("RIOT writes", TIMER_WRITES[address % 4] if tia.bit(address, 4) else "A4 low")
        elif where == "ports":
            self.note("RIOT writes", PORTS[address % 4])
        super().write(address, value)

    def note_register(self, register, value):
        self.note("TIA writes", register)
        if register in STROBES_WITH_CLOCKS:
            self.note("clocks of strobes", (register, self.tia.h))
        elif register == tia.WSYNC:
            self.note("clocks of WSYNC", self.tia.h)
        elif register in (tia.NUSIZ0, tia.NUSIZ1):
            self.note("NUSIZ values", (register, value % 8, value // 16 % 4))
        elif register == tia.CTRLPF:
            self.note("CTRLPF values", (value % 8, value // 16 % 4))

    def play_frame(self, text):
        picture = super().play_frame(text)
        ends_by_sync = self.tia.sync_began
        self.note("ends of frames", "halt" if self.halt else "VSYNC" if ends_by_sync else "320 lines")
        return picture


def is_enough(what, seen):
    return len(seen[what]) >= ENOUGH.get(what, 1) * WANTED[what]


def missing(seen, lit, colourful):
    """What a run used too little of, as words."""
    words = ["%s %d of %d" % (what, len(seen[what]), WANTED[what]) for what in WANTED if not is_enough(what, seen)]
    if lit < LIT_PICTURES:
        words.append("pictures that aren't all black %d of %d" % (lit, LIT_PICTURES))
    if colourful < COLOURFUL_PICTURES:
        words.append("pictures of three colours %d of %d" % (colourful, COLOURFUL_PICTURES))
    return words


def report(seen, pictures, lit, colourful):
    counts = ", ".join("%s %d of %d" % (what, len(seen[what]), WANTED[what]) for what in WANTED)
    return "used: %s\npictures: %d, %d not all black, %d of three colours or more" % (counts, pictures, lit, colourful)
