"""A cartridge that is written instruction by instruction, at random: what the kinds of soup.py and kernels.py share."""

import machine
import tia

OPCODE_OF = {instruction: byte for byte, instruction in machine.OPCODES.items()}
DOCUMENTED = sorted(machine.OPCODES)
UNDOCUMENTED = [byte for byte in range(256) if byte not in machine.OPCODES]
BRANCHES = sorted(machine.BRANCHES)

ONE_BYTE = ("imp", "acc")
THREE_BYTES = ("abs", "absx", "absy", "target", "pointer")
INDEXED = ("zpx", "zpy", "absx", "absy")

# What may stand anywhere in a run of instructions without changing its course or the stack.
CONTROL = set(machine.BRANCHES) | {"JMP", "JSR", "RTS", "RTI", "BRK", "PHA", "PHP", "PLA", "PLP", "TXS"}
PLAIN = sorted(pair for pair in machine.OPCODES.values() if pair[0] not in CONTROL)
PLAIN_WITHOUT_X = [pair for pair in PLAIN if pair[0] not in ("LDX", "TAX", "TSX", "INX", "DEX")]

EDGES = (0x00, 0x01, 0x02, 0x09, 0x0F, 0x10, 0x7F, 0x80, 0x81, 0x90, 0x99, 0x9A, 0xA0, 0xF0, 0xFE, 0xFF)

# Parts of the image, by how far from its end they start: a page of data, the handler of BRK, a subroutine, two jumps
# by CONTINUE, and the vectors. A branch at FFFF, whose operand is what 0000 reads, leads to one of these two jumps
# where that is 80 or C0.
DATA, HANDLER, SUBROUTINE, GO_ON, GO_ON_TOO, VECTORS = 512, 256, 192, 127, 63, 6

# How each branch is made to be taken: an instruction before it.
TO_BE_TAKEN = {"BPL": ("LDA", 1), "BMI": ("LDA", 128), "BVC": ("CLV", None), "BVS": ("BIT", None),
               "BCC": ("CLC", None), "BCS": ("SEC", None), "BNE": ("LDA", 1), "BEQ": ("LDA", 0)}

# The ports and the timer by A4 to A0.
SWCHA, SWBCNT, INTIM, INSTAT, TIM1T, T1024T = 0x00, 0x03, 0x04, 0x05, 0x14, 0x17

# Bytes of RAM: a counter of frames, what was read from the controllers, and where a handler goes on.
COUNTER, INPUTS, CONTINUE = 0x80, 0x82, 0x90

# A run of NOPs in RAM, with a jump behind it: code that goes on wherever it is entered.
SLED, SLED_END = 0x94, 0xC8


class Writer:
    """A cartridge that is being written."""

    def __init__(self, rng, size):
        self.rng = rng
        self.size = size
        filler = rng.choice((0x00, 0xEA, None))
        self.image = bytearray(rng.randrange(256) if filler is None else filler for _ in range(size))
        self.at = 0
        # Any address with A12 high; a small cartridge is seen twice there.
        self.base = 4096 * rng.randrange(1, 16, 2) + (rng.choice((0, 2048)) if size == 2048 else 0)
        self.free = "AXY"  # the registers that a store of a value may use
        self.rare = (tia.VSYNC, tia.WSYNC)  # they end a frame or cost a line
        self.early_handler = None  # the address of a jump to the handler, where BRK's vector is to be on the first page

    def address(self, offset=None):
        return self.base + (self.at if offset is None else offset)

    def part(self, from_end):
        return self.address(self.size - from_end)

    def room(self):
        return self.size - DATA - self.at

    def put(self, *values):
        for value in values:
            self.image[self.at] = value % 256
            self.at += 1

    def put_word(self, word):
        self.put(word, word // 256)

    def op(self, name, mode="imp", operand=0):
        self.put(OPCODE_OF[name, mode])
        if mode in THREE_BYTES:
            self.put_word(operand)
        elif mode not in ONE_BYTE:
            self.put(operand)

    def load(self, name, value):
        self.op(name, "imm", value)

    def branch_back(self, name, offset):
        self.op(name, "rel", offset - (self.at + 2))

    def branch_ahead(self, name):
        """A branch to where `land` is called with what this gives."""
        self.op(name, "rel")
        return self.at - 1

    def land(self, operand_at):
        self.image[operand_at] = (self.at - (operand_at + 1)) % 256

    def loop_back(self, name, start):
        """A branch to `start`, by way of a jump where it is too far."""
        if self.at + 2 - start <= 128:
            self.branch_back(name, start)
        else:
            ahead = self.branch_ahead({"BNE": "BEQ", "BPL": "BMI"}[name])
            self.op("JMP", "target", self.address(start))
            self.land(ahead)

    def finish(self, write_handler):
        """The fixed parts of the image."""
        self.at = self.size - DATA
        self.put(*(self.value() for _ in range(DATA - HANDLER)))
        # JMP (xxFF) with the data page: the address of GO_ON, its high byte at xx00.
        self.image[self.size - DATA] = self.part(GO_ON) // 256
        self.image[self.size - HANDLER - 1] = self.part(GO_ON) % 256
        write_handler()
        self.at = self.size - SUBROUTINE
        self.some_plain(4)
        self.op("RTS")
        for go_on in (GO_ON, GO_ON_TOO):
            self.at = self.size - go_on
            self.op("JMP", "pointer", CONTINUE)
        self.at = self.size - VECTORS
        self.put_word(self.rng.randrange(65536))
        self.put_word(self.base)
        self.put_word(self.part(HANDLER) if self.early_handler is None else self.early_handler)
        return bytes(self.image)

    # -- random values and addresses

    def value(self):
        return self.rng.choice(EDGES) if self.rng.random() < 0.3 else self.rng.randrange(256)

    def digits(self):
        return 16 * self.rng.randrange(10) + self.rng.randrange(10)

    def scatter(self, fixed, free):
        """The fixed bits and a random choice of the free ones."""
        return fixed + sum(self.rng.choice((0, weight)) for weight in free)

    def tia_address(self, register):
        """An address that writes this register: A12 and A7 are low."""
        return self.scatter(register, (64, 256, 512, 1024, 2048, 8192, 16384, 32768))

    def ram_address(self, byte):
        return self.scatter(0x80 + byte % 128, (256, 1024, 2048, 8192, 16384, 32768))

    def riot_address(self, low_bits):
        return self.scatter(0x280 + low_bits, (32, 64, 256, 1024, 2048, 8192, 16384, 32768))

    def timer_address(self, low_bits):
        """The same; of a read A4 and A3 are free, of a write A3 is."""
        return self.riot_address(low_bits) + self.rng.choice((0, 8))

    def cartridge_address(self):
        return self.scatter(4096 + self.rng.randrange(4096), (8192, 16384, 32768))

    def any_address(self):
        where = self.rng.random()
        if where < 0.4:
            return self.tia_address(self.any_register())
        if where < 0.6:
            return self.ram_address(self.rng.randrange(128))
        if where < 0.85:
            return self.riot_address(self.rng.randrange(32))
        return self.cartridge_address()

    def any_zero_page(self):
        if self.rng.random() < 0.5:
            return self.any_register() + self.rng.choice((0, 64))
        return self.rng.randrange(0x80, 0x100)

    def any_register(self):
        """Any of 00 to 3F, but not always the rare ones."""
        register = self.rng.randrange(64)
        return self.rng.randrange(0x04, 0x40) if register in self.rare and self.rng.random() < 0.7 else register

    def operand_for(self, mode):
        if mode == "imm":
            return self.value()
        return self.any_address() if mode in THREE_BYTES else self.any_zero_page()

    def value_for(self, register):
        """A value with which the register is likely to show something."""
        value = self.value()
        if register in (tia.ENAM0, tia.ENAM1, tia.ENABL):
            return value | 2 if self.rng.random() < 0.8 else value
        if register in (tia.GRP0, tia.GRP1, tia.PF0, tia.PF1, tia.PF2):
            return self.rng.randrange(1, 256)
        if register in (tia.VDELP0, tia.VDELP1, tia.VDELBL, tia.RESMP0, tia.RESMP1):
            return value & 0xFC if self.rng.random() < 0.6 else value
        if register == tia.VBLANK:
            return value & 0x7D
        return value

    # -- short pieces

    def some_plain(self, most, choices=PLAIN):
        for _ in range(self.rng.randrange(most + 1)):
            name, mode = self.rng.choice(choices)
            self.op(name, mode, self.operand_for(mode))

    def delay(self):
        """Passes from 2 to some 50 cycles; A and Y stay."""
        if self.rng.random() < 0.6:
            for _ in range(self.rng.randrange(1, 10)):
                self.rng.choice((lambda: self.op("NOP"), lambda: self.op("BIT", "zp", 0xFF)))()
        else:
            self.load("LDX", self.rng.randrange(1, 10))
            self.op("DEX")
            self.branch_back("BNE", self.at - 1)

    def wait_for_lines(self, number):
        self.load("LDX", number)
        start = self.at
        self.op("STA", "zp", tia.WSYNC)
        self.op("DEX")
        self.branch_back("BNE", start)

    def store_value(self, address, value):
        """Stores a value by A, X or Y, sometimes indexed so that the index leads to the address."""
        way = self.rng.randrange(6)
        if way < 2 and "A" in self.free:
            index, name = self.rng.randrange(256), self.rng.choice([name for name in self.free if name != "A"])
            self.load("LD" + name, index)
            self.load("LDA", value)
            if way == 0:
                self.op("STA", "abs" + name.lower(), (address - index) % 65536)
            elif name == "X" and address < 256:
                self.op("STA", "zpx", address - index)
            else:
                self.store_by_pointer(address, index, name)
        else:
            name = self.rng.choice(self.free)
            self.load("LD" + name, value)
            self.op("ST" + name, "zp" if address < 256 and self.rng.random() < 0.8 else "abs", address)

    def store_by_pointer(self, address, index, name):
        """The same by a pointer in RAM; A is stored."""
        start = address if name == "X" else (address - index) % 65536
        self.op("PHA")
        for at, byte in ((0xF0, start % 256), (0xF1, start // 256)):
            self.load("LDA", byte)
            self.op("STA", "zp", at)
        self.op("PLA")
        self.op("STA", "indx" if name == "X" else "indy", 0xF0 - index if name == "X" else 0xF0)

    def write_register(self, register, value):
        address = self.tia_address(register) if self.rng.random() < 0.3 else register + self.rng.choice((0, 64))
        self.store_value(address, value)

    def strobe(self, register):
        """Stores whatever there is."""
        address = self.tia_address(register) if self.rng.random() < 0.3 else register + self.rng.choice((0, 64))
        name = self.rng.choice(("STA", "STX", "STY"))
        self.op(name, "zp" if address < 256 else "abs", address)

    def set_stack(self, s):
        self.load("LDX", s)
        self.op("TXS")

    def set_continue(self, bytes_ahead):
        """Writes the address that lies so many bytes behind this piece to CONTINUE."""
        target = self.address(self.at + 8 + bytes_ahead)
        for at, byte in ((CONTINUE, target % 256), (CONTINUE + 1, target // 256)):
            self.load("LDA", byte)
            self.op("STA", "zp", at)

    def store_code(self, at, code):
        """Bytes to RAM, one by one."""
        for offset, byte in enumerate(code):
            self.load("LDA", byte)
            self.op("STA", "zp", at + offset)
