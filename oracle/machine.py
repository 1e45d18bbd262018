"""A second machine: the Atari 2600 of docs/MACHINE.md, in Python, as plainly as that page says it.

It was written from docs/MACHINE.md and docs/FORMATS.md alone, by somebody who hadn't read the program. Each part names
the section and the heading that it follows. Nothing is made fast at the cost of being plain: one colour clock passes
at a time, one tick of the timer at a time, and a pixel asks each object whether it is lit there.

Here are the processor, the map, the timer, the ports, frames, traces and picture files; tia.py has the TIA.
"""

from collections import namedtuple

from tia import BLACK, LAST_LINE, ROWS, VBLANK, WIDTH, Tia, bit

# The page's number of this machine.
PROFILE = 2


# ---- Section 1, "Opcodes" --------------------------------------------------------------------------------------------

# The tables of the page: a line `modes` names the columns of the lines after it, and .. is a gap.
# A branch's operand is `rel`, JMP's and JSR's target is `target`, JMP's pointer is `pointer`.
OPCODE_TABLES = """
modes imm zp zpx abs absx absy indx indy
ADC   69  65 75  6D  7D   79   61   71
AND   29  25 35  2D  3D   39   21   31
CMP   C9  C5 D5  CD  DD   D9   C1   D1
EOR   49  45 55  4D  5D   59   41   51
LDA   A9  A5 B5  AD  BD   B9   A1   B1
ORA   09  05 15  0D  1D   19   01   11
SBC   E9  E5 F5  ED  FD   F9   E1   F1
STA   ..  85 95  8D  9D   99   81   91
modes acc zp zpx abs absx
ASL   0A  06 16  0E  1E
LSR   4A  46 56  4E  5E
ROL   2A  26 36  2E  3E
ROR   6A  66 76  6E  7E
DEC   ..  C6 D6  CE  DE
INC   ..  E6 F6  EE  FE
modes imm zp zpy abs absy
LDX   A2  A6 B6  AE  BE
STX   ..  86 96  8E  ..
modes imm zp zpx abs absx
LDY   A0  A4 B4  AC  BC
STY   ..  84 94  8C  ..
CPX   E0  E4 ..  EC  ..
CPY   C0  C4 ..  CC  ..
BIT   ..  24 ..  2C  ..
modes rel
BPL 10
BMI 30
BVC 50
BVS 70
BCC 90
BCS B0
BNE D0
BEQ F0
modes target pointer
JMP 4C 6C
JSR 20 ..
modes imp
RTS 60
RTI 40
BRK 00
PHA 48
PHP 08
PLA 68
PLP 28
CLC 18
SEC 38
CLI 58
SEI 78
CLV B8
CLD D8
SED F8
TAX AA
TAY A8
TSX BA
TXA 8A
TXS 9A
TYA 98
DEX CA
DEY 88
INX E8
INY C8
NOP EA
"""


def read_opcode_tables(text):
    """The documented opcodes: byte -> (name, mode)."""
    opcodes = {}
    modes = []
    for line in text.split("\n"):
        words = line.split()
        if words and words[0] == "modes":
            modes = words[1:]
        elif words:
            for mode, byte in zip(modes, words[1:]):
                if byte != "..":
                    opcodes[int(byte, 16)] = (words[0], mode)
    return opcodes


OPCODES = read_opcode_tables(OPCODE_TABLES)

STORES = {"STA": "a", "STX": "x", "STY": "y"}
READ_MODIFY_WRITES = ("ASL", "LSR", "ROL", "ROR", "DEC", "INC")

# Each branch's flag, and whether it is taken where the flag is set. (Section 2, "Branches and jumps")
BRANCHES = {
    "BPL": ("N", False), "BMI": ("N", True), "BVC": ("V", False), "BVS": ("V", True),
    "BCC": ("C", False), "BCS": ("C", True), "BNE": ("Z", False), "BEQ": ("Z", True),
}
FLAG_CHANGES = {
    "CLC": ("C", False), "SEC": ("C", True), "CLI": ("I", False), "SEI": ("I", True),
    "CLV": ("V", False), "CLD": ("D", False), "SED": ("D", True),
}

# Section 1, "Cycles". All that isn't here takes two: immediate, implied and accumulator.
READ_CYCLES = {"zp": 3, "zpx": 4, "zpy": 4, "abs": 4, "absx": 4, "absy": 4, "indx": 6, "indy": 5}
STORE_CYCLES = dict(READ_CYCLES, absx=5, absy=5, indy=6)
READ_MODIFY_WRITE_CYCLES = {"zp": 5, "zpx": 6, "abs": 6, "absx": 7}
CYCLES_BY_NAME = {"JSR": 6, "RTS": 6, "RTI": 6, "BRK": 7, "PHA": 3, "PHP": 3, "PLA": 4, "PLP": 4}
JUMP_CYCLES = {"target": 3, "pointer": 5}

# Section 2, "Stack": the status byte is N V 1 1 D I Z C from D7 down.
STATUS_BITS = {"N": 128, "V": 64, "D": 8, "I": 4, "Z": 2, "C": 1}
ALWAYS_SET = 32 + 16


# ---- Section 3, "Interval timer" -------------------------------------------------------------------------------------

INTERVALS = (1, 8, 64, 1024)


class Timer:
    def __init__(self):
        # Section 6, "Frames and power-on"
        self.interval = 1024
        self.count = 0
        self.left = 1024
        self.underflowed = False
        self.flag = False

    def set(self, interval, count):
        self.interval = interval
        self.count = count
        self.left = 1
        self.underflowed = False
        self.flag = False

    def tick(self):
        if self.underflowed:
            self.count = (self.count - 1) % 256
            return
        self.left -= 1
        if self.left == 0:
            self.end_interval()

    def end_interval(self):
        if self.count == 0:
            self.count = 255
            self.underflowed = True
            self.flag = True
        else:
            self.count -= 1
            self.left = self.interval


# ---- Section 3, "Ports" ----------------------------------------------------------------------------------------------

class Port:
    """SWCHA with SWACNT, or SWCHB with SWBCNT."""

    def __init__(self):
        self.latch = 0
        self.direction = 0

    def read(self, pins):
        """The latch where the direction bit is 1, the pin where it is 0."""
        return sum(2 ** n * bit(self.latch if bit(self.direction, n) else pins, n) for n in range(8))


# ---- docs/FORMATS.md, "Movie text": the input of a frame -------------------------------------------------------------

Input = namedtuple("Input", "swcha swchb fire")

NOTHING = "..... ..... ....."


def read_input(text):
    """The pins and the fire buttons of a frame's 17 characters. (Section 3, "Ports", has the table of pins)"""
    left, right, switches = text.split(" ")
    swcha = 0xFF
    for weights, stick in (((128, 64, 32, 16), left), ((8, 4, 2, 1), right)):
        swcha -= sum(weight for weight, letter in zip(weights, stick) if letter != ".")
    swchb = 0x3F
    for change, letter in zip((-1, -2, -8, 64, 128), switches):
        swchb += change if letter != "." else 0
    fire = {name for name, stick in (("left", left), ("right", right)) if stick[4] != "."}
    return Input(swcha, swchb, fire)


# ---- The machine -----------------------------------------------------------------------------------------------------

# What an instruction works on: an immediate byte, or an address and whether its index crossed a page.
Operand = namedtuple("Operand", "byte address crossed")

# What a step was: the address of the opcode, the opcode, and its cycles; none where it halts.
Step = namedtuple("Step", "address opcode cycles")


# Section 5, "Reads": INPT4 and INPT5, by A3 to A0.
FIRE_BUTTONS = (0xC, 0xD)


def area(address):
    """Section 3, "Address map": what answers at an address."""
    if bit(address, 12):
        return "cartridge"
    if not bit(address, 7):
        return "tia"
    if not bit(address, 9):
        return "ram"
    return "timer" if bit(address, 2) else "ports"


class Machine:
    def __init__(self, cartridge):
        # Section 6, "Frames and power-on"
        self.cartridge = cartridge
        self.ram = [0] * 128
        self.timer = Timer()
        self.port_a = Port()
        self.port_b = Port()
        self.tia = Tia()
        self.input = read_input(NOTHING)
        self.is_lag = True
        self.a = self.x = self.y = 0
        self.s = 0xFD
        self.flags = {"I"}
        self.pc = self.word(0xFFFC, 0xFFFD)  # Section 2, "Start"
        self.halt = None

    # -- Section 3, "Address map"

    def look(self, address):
        """A byte, with nothing changed: so are opcodes, operand bytes and pointer bytes read."""
        where = area(address)
        if where == "cartridge":
            return self.cartridge[address % len(self.cartridge)]
        if where == "ram":
            return self.ram[address % 128]
        if where == "tia":
            self.note_input(address % 16 in FIRE_BUTTONS)
            return self.tia.read(address % 16)
        if where == "timer":
            return self.read_timer(address)
        return self.read_port(address % 4)

    # -- docs/FORMATS.md, "Lag frames"

    def note_input(self, is_shown):
        """Notes whether a read shows the frame's input, or a latch may be kept at the frame's end."""
        if is_shown:
            self.is_lag = False

    def note_latches(self):
        self.note_input(self.tia.has(VBLANK, 6))

    def read_timer(self, address):
        if bit(address, 0):
            return 128 if self.timer.flag else 0
        return self.timer.count

    def read_port(self, number):
        port = self.port_a if number < 2 else self.port_b
        if number % 2 == 1:
            return port.direction
        self.note_input(port.direction != 255)
        return port.read(self.input.swcha if number == 0 else self.input.swchb)

    def read(self, address):
        """An operand or a pulled byte; INTIM then clears the timer's flag. (Section 3, "Interval timer")"""
        value = self.look(address)
        if area(address) == "timer" and not bit(address, 0):
            self.timer.flag = False
        return value

    def write(self, address, value):
        where = area(address)
        if where == "ram":
            self.ram[address % 128] = value
        elif where == "tia":
            self.tia.write(address % 64, value)
        elif where == "timer" and bit(address, 4):
            self.timer.set(INTERVALS[address % 4], value)
        elif where == "ports":
            self.write_port(address % 4, value)

    def write_port(self, number, value):
        port = self.port_a if number < 2 else self.port_b
        if number % 2 == 0:
            port.latch = value
        else:
            port.direction = value

    # -- Section 2, "Addresses"

    def word(self, low, high):
        return self.look(low) + 256 * self.look(high)

    def fetch(self):
        """The next byte of the instruction."""
        byte = self.look(self.pc)
        self.pc = (self.pc + 1) % 65536
        return byte

    def fetch_word(self):
        low = self.fetch()
        return low + 256 * self.fetch()

    def zero_page_pointer(self, at):
        return self.word(at % 256, (at + 1) % 256)

    def jump_pointer(self, at):
        """The high byte of JMP (xxFF) comes from xx00."""
        page = at - at % 256
        return self.word(at, page + (at + 1) % 256)

    def find_operand(self, mode):
        """Reads the operand bytes and the pointer bytes; the program counter is then after the instruction."""
        if mode in ("imp", "acc"):
            return Operand(None, None, False)
        if mode == "imm":
            return Operand(self.fetch(), None, False)
        if mode == "rel":
            return self.branch_target(self.fetch())
        if mode in ("absx", "absy"):
            return indexed(self.fetch_word(), self.x if mode == "absx" else self.y)
        if mode == "indy":
            return indexed(self.zero_page_pointer(self.fetch()), self.y)
        return Operand(None, self.find_plain_address(mode), False)

    def find_plain_address(self, mode):
        if mode == "zp":
            return self.fetch()
        if mode == "zpx":
            return (self.fetch() + self.x) % 256
        if mode == "zpy":
            return (self.fetch() + self.y) % 256
        if mode == "indx":
            return self.zero_page_pointer(self.fetch() + self.x)
        if mode == "pointer":
            return self.jump_pointer(self.fetch_word())
        return self.fetch_word()  # abs and target

    def branch_target(self, byte):
        """The next instruction's address plus a signed byte; `crossed` says that the target is on another page."""
        target = (self.pc + (byte - 256 if byte >= 128 else byte)) % 65536
        return Operand(None, target, target // 256 != self.pc // 256)

    # -- Section 1, "Cycles"

    def count_cycles(self, name, mode, operand):
        if name in BRANCHES:
            return 2 if not self.is_taken(name) else 4 if operand.crossed else 3
        if name == "JMP":
            return JUMP_CYCLES[mode]
        if name in CYCLES_BY_NAME:
            return CYCLES_BY_NAME[name]
        if name in STORES:
            return STORE_CYCLES[mode]
        if name in READ_MODIFY_WRITES:
            return READ_MODIFY_WRITE_CYCLES.get(mode, 2)
        return READ_CYCLES.get(mode, 2) + operand.crossed

    def is_taken(self, name):
        flag, is_taken_where_set = BRANCHES[name]
        return (flag in self.flags) == is_taken_where_set

    # -- Section 2, "Order within an instruction"

    def step(self):
        """One instruction and its wait. At an undocumented opcode nothing changes."""
        address = self.pc
        opcode = self.look(address)
        if opcode not in OPCODES:
            return Step(address, opcode, None)
        name, mode = OPCODES[opcode]
        self.tia.waits = False
        self.tia.sync_began = False
        self.pc = (address + 1) % 65536
        operand = self.find_operand(mode)
        cycles = self.count_cycles(name, mode, operand)
        self.pass_cycles(cycles)
        self.execute(name, mode, operand)
        if self.tia.waits:
            self.wait_for_line()
        return Step(address, opcode, cycles)

    def pass_cycles(self, count):
        for _ in range(count):
            self.pass_cycle()

    def wait_for_line(self):
        """Section 5, "WSYNC"."""
        while self.tia.h != 0:
            self.pass_cycle()

    def pass_cycle(self):
        """A CPU cycle is a tick of the timer and three colour clocks."""
        self.timer.tick()
        for _ in range(3):
            self.tia.clock()

    def execute(self, name, mode, operand):
        if name in BRANCHES:
            if self.is_taken(name):
                self.pc = operand.address
        elif name in FLAG_CHANGES:
            self.set_flag(*FLAG_CHANGES[name])
        elif name in STORES:
            self.write(operand.address, getattr(self, STORES[name]))
        elif name in READ_MODIFY_WRITES:
            self.read_modify_write(name, mode, operand.address)
        elif mode == "imp":
            IMPLIED[name](self)
        elif mode in ("target", "pointer"):
            self.jump(name, operand.address)
        else:
            READS[name](self, operand.byte if mode == "imm" else self.read(operand.address))

    def read_modify_write(self, name, mode, address):
        if mode == "acc":
            self.a = self.modify(name, self.a)
        else:
            self.write(address, self.modify(name, self.read(address)))

    def jump(self, name, target):
        if name == "JSR":
            self.push_word((self.pc - 1) % 65536)  # the address of its own third byte
        self.pc = target

    # -- Section 2: flags, "N and Z", "Shifts"

    def set_flag(self, flag, is_set):
        if is_set:
            self.flags.add(flag)
        else:
            self.flags.discard(flag)

    def set_n_and_z(self, value):
        self.set_flag("N", value >= 128)
        self.set_flag("Z", value == 0)
        return value

    def carry(self):
        return 1 if "C" in self.flags else 0

    def modify(self, name, value):
        old_carry = self.carry()
        if name in ("INC", "DEC"):
            return self.set_n_and_z((value + (1 if name == "INC" else -1)) % 256)
        if name in ("ASL", "ROL"):
            self.set_flag("C", bit(value, 7))
            return self.set_n_and_z(value * 2 % 256 + (old_carry if name == "ROL" else 0))
        self.set_flag("C", bit(value, 0))
        return self.set_n_and_z(value // 2 + (128 * old_carry if name == "ROR" else 0))

    # -- Section 2, "Comparisons"

    def compare(self, register, operand):
        self.set_flag("C", register >= operand)
        self.set_n_and_z((register - operand) % 256)

    def test_bits(self, operand):
        self.set_flag("Z", self.a & operand == 0)
        self.set_flag("N", bit(operand, 7))
        self.set_flag("V", bit(operand, 6))

    # -- Section 2, "ADC and SBC, binary" and "ADC and SBC, decimal"

    def add_binary(self, operand):
        """Sets the flags of the binary sum, and gives it."""
        total = self.a + operand + self.carry()
        result = total % 256
        self.set_flag("C", total > 255)
        self.set_flag("V", bit(self.a, 7) == bit(operand, 7) != bit(result, 7))
        return self.set_n_and_z(result)

    def add(self, b):
        a, c = self.a, self.carry()
        self.a = self.add_binary(b)
        if "D" in self.flags:
            self.a = self.add_decimal(a, b, c)

    def add_decimal(self, a, b, c):
        """Z stays that of the binary sum."""
        low = (a & 15) + (b & 15) + c
        if low >= 10:
            low = ((low + 6) & 15) + 16
        s = (a & 240) + (b & 240) + low
        self.set_flag("N", bit(s, 7))
        self.set_flag("V", not -128 <= signed_byte(a & 240) + signed_byte(b & 240) + low <= 127)
        if s >= 160:
            s += 96
        self.set_flag("C", s >= 256)
        return s % 256

    def subtract(self, b):
        """N, V, Z and C are as in binary, with D set too."""
        a, c = self.a, self.carry()
        self.a = self.add_binary(255 - b)
        if "D" in self.flags:
            self.a = subtract_decimal(a, b, c)

    # -- Section 2, "Stack"

    def status(self):
        return ALWAYS_SET + sum(STATUS_BITS[flag] for flag in self.flags)

    def set_status(self, value):
        self.flags = {flag for flag, weight in STATUS_BITS.items() if value & weight}

    def push(self, value):
        self.write(0x0100 + self.s, value)
        self.s = (self.s - 1) % 256

    def pull(self):
        self.s = (self.s + 1) % 256
        return self.read(0x0100 + self.s)

    def push_word(self, word):
        self.push(word // 256)
        self.push(word % 256)

    def pull_word(self):
        low = self.pull()
        return low + 256 * self.pull()

    def return_from_subroutine(self):
        self.pc = (self.pull_word() + 1) % 65536

    def return_from_interrupt(self):
        self.set_status(self.pull())
        self.pc = self.pull_word()

    def break_to_vector(self):
        vector = self.word(0xFFFE, 0xFFFF)  # in the cartridge, so it doesn't matter that it is read first
        self.push_word((self.pc + 1) % 65536)  # two past the opcode
        self.push(self.status())
        self.set_flag("I", True)
        self.pc = vector

    # -- Section 6, "Frames and power-on"

    def play_frame(self, text):
        """Plays a frame with an input of 17 characters, and gives its picture; none where the machine is halted."""
        self.is_lag = True
        if self.halt is not None:
            return None
        self.begin_frame(read_input(text))
        while not self.is_frame_over():
            step = self.step()
            if step.cycles is None:
                self.halt = step
                break
        self.note_latches()
        self.tia.line = 0
        return self.tia.picture if self.halt is None else None

    def begin_frame(self, frame_input):
        self.input = frame_input
        tia = self.tia
        tia.pressed = frame_input.fire
        if tia.has(VBLANK, 6):
            tia.latch_buttons()
        tia.sync_began = False
        tia.picture = self.blank_picture()

    def blank_picture(self):
        return [[BLACK] * WIDTH for _ in range(ROWS)]

    def is_frame_over(self):
        return self.tia.sync_began or self.tia.line >= LAST_LINE


def indexed(base, index):
    """A page is crossed where the low byte of the base and the index make 256 or more. (Section 2, "Addresses")"""
    return Operand(None, (base + index) % 65536, base % 256 + index >= 256)


def signed_byte(value):
    return value - 256 if value >= 128 else value


def subtract_decimal(a, b, c):
    low = (a & 15) - (b & 15) + c - 1
    if low < 0:
        low = ((low - 6) & 15) - 16
    s = (a & 240) - (b & 240) + low
    if s < 0:
        s -= 96
    return s % 256


# ---- Section 2, "Loads, stores, transfers, logic, counting and flags" ------------------------------------------------

def load(register):
    return lambda machine, value: setattr(machine, register, machine.set_n_and_z(value))


def combine(operation):
    def run(machine, operand):
        machine.a = machine.set_n_and_z(operation(machine.a, operand))
    return run


def transfer(source, target):
    return lambda machine: setattr(machine, target, machine.set_n_and_z(getattr(machine, source)))


def count(register, change):
    def run(machine):
        setattr(machine, register, machine.set_n_and_z((getattr(machine, register) + change) % 256))
    return run


def transfer_x_to_s(machine):
    machine.s = machine.x  # changes no flag


def pull_a(machine):
    machine.a = machine.set_n_and_z(machine.pull())


READS = {
    "LDA": load("a"), "LDX": load("x"), "LDY": load("y"),
    "AND": combine(lambda a, b: a & b), "ORA": combine(lambda a, b: a | b), "EOR": combine(lambda a, b: a ^ b),
    "ADC": Machine.add, "SBC": Machine.subtract, "BIT": Machine.test_bits,
    "CMP": lambda machine, operand: machine.compare(machine.a, operand),
    "CPX": lambda machine, operand: machine.compare(machine.x, operand),
    "CPY": lambda machine, operand: machine.compare(machine.y, operand),
}
IMPLIED = {
    "TAX": transfer("a", "x"), "TAY": transfer("a", "y"), "TSX": transfer("s", "x"), "TXA": transfer("x", "a"),
    "TYA": transfer("y", "a"), "TXS": transfer_x_to_s,
    "INX": count("x", 1), "INY": count("y", 1), "DEX": count("x", -1), "DEY": count("y", -1),
    "PHA": lambda machine: machine.push(machine.a), "PHP": lambda machine: machine.push(machine.status()),
    "PLA": pull_a, "PLP": lambda machine: machine.set_status(machine.pull()),
    "RTS": Machine.return_from_subroutine, "RTI": Machine.return_from_interrupt, "BRK": Machine.break_to_vector,
    "NOP": lambda machine: None,
}


# ---- docs/FORMATS.md, "Trace" ----------------------------------------------------------------------------------------

def trace_line(machine, step):
    if step.cycles is None:
        return "%04X %02X halt\n" % (step.address, step.opcode)
    registers = (machine.a, machine.x, machine.y, machine.s, machine.status())
    return "%04X %02X %02X %02X %02X %02X %02X %d\n" % ((step.address, step.opcode) + registers + (step.cycles,))


def trace_text(machine, lines):
    """The trace of a new machine: n lines, or fewer where it halts."""
    text = []
    for _ in range(lines):
        step = machine.step()
        text.append(trace_line(machine, step))
        if step.cycles is None:
            break
    return "".join(text)


# ---- docs/FORMATS.md, "Picture" --------------------------------------------------------------------------------------

HUES = (
    (0, 0, 0), (70, 60, 0), (100, 45, 0), (110, 30, 10), (115, 15, 30), (105, 10, 70), (85, 10, 105), (50, 15, 115),
    (20, 25, 115), (0, 40, 110), (0, 55, 85), (0, 65, 45), (5, 70, 5), (30, 65, 0), (55, 55, 0), (85, 45, 0),
)


def palette_colour(colour):
    hue, luminance = colour // 16, colour // 2 % 8
    step = 36 if hue == 0 else 20
    return bytes(part + step * luminance for part in HUES[hue])


PALETTE = [palette_colour(colour) for colour in range(256)]


def ppm_bytes(picture):
    """The file of a picture, that is of its rows of colour bytes."""
    return b"P6\n160 210\n255\n" + b"".join(PALETTE[colour] for row in picture for colour in row)


def play(machine, inputs):
    """The pictures of the frames that a new machine plays with these inputs; none for a frame in which it is halted."""
    return [machine.play_frame(text) for text in inputs]
