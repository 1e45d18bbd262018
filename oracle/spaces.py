"""Random small spaces for oracle/search, with the files, goals and numbers of a search of each.

Most of their cartridges are written here: a frame loop of a few short pieces, each of which turns what is pressed into bytes of RAM or into something that only shows later. Such
a frame takes the second machine some tenth of a millisecond.
"""

from collections import namedtuple

import callers
import cartridges
import resting
import searches
import spoiling
import tia
from answers import hands
from searches import GREATEST
from writer import INTIM, SWCHA, TIM1T, UNDOCUMENTED, Writer

# ---- cartridges

FORM = hands.FORM
# By its place in a frame's text, what each switch shows: an address of the ports, or of the TIA, and its bit.
PORTS = {0: (SWCHA, 0x80), 1: (SWCHA, 0x40), 2: (SWCHA, 0x20), 3: (SWCHA, 0x10), 6: (SWCHA, 0x08), 7: (SWCHA, 0x04), 8: (SWCHA, 0x02), 9: (SWCHA, 0x01),
         12: (SWCHA + 2, 0x01), 13: (SWCHA + 2, 0x02), 14: (SWCHA + 2, 0x08), 15: (SWCHA + 2, 0x40), 16: (SWCHA + 2, 0x80)}
BUTTONS = {4: 0x0C, 10: 0x0D}
SET_WHERE_ONE = (15, 16)  # all others are 0 where they are pressed
LIKELY = [0, 1, 2, 3, 4] * 4 + [6, 7, 8, 9, 10] * 2 + [12, 13, 14, 15, 16]


class Walker(Writer):
    """A frame loop that looks at a few switches. `even` makes frames that come to one state by ways of different lengths."""

    def __init__(self, rng, size):
        super().__init__(rng, size)
        self.switches = sorted({rng.choice(LIKELY) for _ in range(rng.choice((1, 2, 2, 3, 4)))})
        self.bytes = rng.sample(range(0x80, 0x100), 4) + rng.choice(([0xFF, 0x80], []))
        self.counter = rng.choice([byte for byte in range(0x80, 0x100) if byte not in self.bytes])
        self.even = rng.random() < 0.8
        self.latches = rng.random() < 0.15
        self.carries = rng.random() < 0.25  # X goes from one frame to the next

    def write(self):
        for byte in self.bytes:
            if self.rng.random() < 0.5:
                self.store(byte, self.small())
        if self.latches:
            self.store(tia.VBLANK, 0x40)
        start = self.at
        pieces = [self.press] * self.rng.choice((1, 2, 3, 4)) + self.rng.sample((self.fold, self.count_frames, self.every_frame, self.where, self.press, self.read_timer), self.rng.choice((0, 1, 1, 2)))
        self.rng.shuffle(pieces)
        if self.carries:
            pieces.append(self.use_x)
        if self.rng.random() < 0.25:
            self.in_some_frames(pieces)
        else:
            for piece in pieces:
                piece()
        self.end_frame(start)
        return self.finish(lambda: self.op("RTI"))

    def small(self):
        return self.rng.choice((0, 0, 1, 2, 3, 5, 9, self.digits(), self.value()))

    def store(self, address, value):
        self.load("LDA", value)
        self.op("STA", "zp", address)

    def end_frame(self, start):
        if self.latches and self.rng.random() < 0.5:
            self.op("LDA", "zp", self.counter)
            self.load("AND", self.rng.choice((1, 3)))
            ahead = self.branch_ahead("BNE")
            self.store(tia.VBLANK, 0x00)
            self.store(tia.VBLANK, 0x40)
            self.land(ahead)
        if self.even:
            self.op("STA", "zp", tia.WSYNC)
            self.op("CLC")
            self.op("CLV")
            self.load("LDA", self.rng.randrange(256))
            self.op("STA", "abs", self.timer_address(TIM1T + self.rng.randrange(4)))
        self.store(tia.VSYNC, 2)
        self.store(tia.VSYNC, 0)
        self.op("JMP", "target", self.address(start))

    # -- pieces

    def skip_unless_pressed(self):
        """A branch that is taken where one of the switches isn't pressed."""
        switch = self.rng.choice(self.switches)
        if switch in BUTTONS:
            self.op("LDA", "abs", self.tia_address(BUTTONS[switch]))
            return self.branch_ahead("BMI")
        port, bit = PORTS[switch]
        self.op("LDA", "abs", self.riot_address(port))
        self.load("AND", bit)
        return self.branch_ahead("BEQ" if switch in SET_WHERE_ONE else "BNE")

    def press(self):
        """A switch has an effect."""
        ahead = self.skip_unless_pressed()
        self.effect()
        self.land(ahead)

    def every_frame(self):
        self.effect()

    def where(self):
        """An effect where a byte has a value, or at least that."""
        self.op("LDA", "zp", self.rng.choice(self.bytes + [self.counter]))
        self.load("CMP", self.rng.randrange(1, 9))
        ahead = self.branch_ahead(self.rng.choice(("BNE", "BNE", "BCC")))
        self.effect(halts=0.3)
        self.land(ahead)

    def fold(self):
        """What a port shows goes into a byte."""
        byte = self.rng.choice(self.bytes)
        self.op("LDA", "abs", self.rng.choice((self.riot_address(SWCHA), self.riot_address(SWCHA + 2), self.tia_address(0x0C))))
        if self.rng.random() < 0.4:
            self.load("AND", self.rng.choice((0x80, 0xC0, 0xF0)))
        if self.rng.random() < 0.7:
            self.op(self.rng.choice(("EOR", "ADC", "ORA", "AND")), "zp", byte)
        self.op("STA", "zp", byte)
        if self.rng.random() < 0.5:
            self.op(self.rng.choice(("ASL", "ROL", "LSR", "INC")), "zp", byte)

    def count_frames(self):
        self.op("INC", "zp", self.counter)

    def read_timer(self):
        """The timer's count, which depends on how long a frame took."""
        self.op("LDA", "abs", self.timer_address(INTIM))
        self.op("STA", "zp", self.rng.choice(self.bytes))

    def use_x(self):
        """What X has from the frame before is added to a byte, and X becomes what a switch says: a state that isn't in RAM."""
        byte = self.rng.choice(self.bytes)
        self.op("TXA")
        self.op("CLC")
        self.op("ADC", "zp", byte)
        self.op("STA", "zp", byte)
        self.load("LDX", 0)
        ahead = self.skip_unless_pressed()
        self.load("LDX", self.small())
        self.land(ahead)

    def in_some_frames(self, pieces):
        """The pieces alone where a counter has none of a mask's bits: the others are lag frames, unless latches keep a button."""
        self.op("INC", "zp", self.counter)
        self.op("LDA", "zp", self.counter)
        self.load("AND", self.rng.choice((1, 2, 3)))
        ahead = self.branch_ahead("BEQ")
        jump = self.at
        self.op("JMP", "target")
        self.land(ahead)
        for piece in pieces:
            piece()
        end = self.address()
        self.image[jump + 1], self.image[jump + 2] = end % 256, end // 256

    # -- what they do

    def effect(self, halts=0.06):
        if self.rng.random() < halts:
            self.put(self.rng.choice(UNDOCUMENTED))
            return
        effects = (
            (8, self.step), (4, self.step_to_wall), (3, self.add_digits), (3, self.add_pair), (2, self.set_byte), (1, self.flip), (1, self.shift), (1, self.copy_byte),
            (1, self.set_colour))
        self.rng.choices(effects, [weight for weight, _ in effects])[0][1]()

    def step(self):
        self.op(self.rng.choice(("INC", "INC", "DEC")), "zp", self.rng.choice(self.bytes))

    def step_to_wall(self):
        """One more or less, but not past a wall."""
        byte, name = self.rng.choice(self.bytes), self.rng.choice(("INC", "DEC"))
        self.op("LDA", "zp", byte)
        self.load("CMP", self.rng.randrange(1, 6) if name == "INC" else self.rng.choice((0, 0, 254)))
        ahead = self.branch_ahead("BEQ")
        self.op(name, "zp", byte)
        self.land(ahead)

    def add_digits(self):
        byte = self.rng.choice(self.bytes)
        for name in ("SED", self.rng.choice(("CLC", "SEC"))):
            self.op(name)
        self.op("LDA", "zp", byte)
        self.op(self.rng.choice(("ADC", "SBC")), "imm", self.digits())
        self.op("STA", "zp", byte)
        self.op("CLD")

    def add_pair(self):
        low = self.rng.choice(self.bytes)
        self.op("CLC")
        for byte, more in ((low, self.value()), (0x80 + (low + 1) % 128, self.rng.choice((0, 0, 1, 255)))):
            self.op("LDA", "zp", byte)
            self.op("ADC", "imm", more)
            self.op("STA", "zp", byte)

    def set_byte(self):
        self.store(self.rng.choice(self.bytes), self.small())

    def flip(self):
        byte = self.rng.choice(self.bytes)
        self.op("LDA", "zp", byte)
        self.op("EOR", "imm", self.value())
        self.op("STA", "zp", byte)

    def shift(self):
        self.op(self.rng.choice(("ASL", "LSR", "ROL", "ROR")), "zp", self.rng.choice(self.bytes))

    def copy_byte(self):
        self.op("LDA", "zp", self.rng.choice(self.bytes))
        self.op("STA", "zp", self.rng.choice(self.bytes))

    def set_colour(self):
        """Something that no frame looks at."""
        self.store(self.rng.choice((tia.COLUBK, tia.PF1, tia.COLUP0)), 2 * self.rng.randrange(1, 4))


# ---- spaces

# A cartridge with the bytes that its frames change, the places of the switches that it looks at, and how many sequences of frames may be played.
Cartridge = namedtuple("Cartridge", "image bytes switches sequences")
KINDS = {"walker": 85, "brief": 7, "quick": 3, "soup": 2, "tiny": 1, "idle": 2}
MOST_SEQUENCES = 20000
LONGEST = 24  # choices of a sequence
FEW_SEQUENCES = {"quick": 80, "soup": 40, "tiny": 200, "idle": 12}


def some_cartridge(rng, kind):
    size = rng.choice((4096, 4096, 2048))
    if kind == "walker":
        writer = Walker(rng, size)
        return Cartridge(writer.write(), writer.bytes + [writer.counter], writer.switches, MOST_SEQUENCES)
    switches = sorted(set(rng.sample(LIKELY, 3)))
    if kind == "brief":
        return Cartridge(callers.brief(rng.randrange(256), size), [0x80, 0x81], switches + [12, 13], 3000)
    if kind == "idle":
        return Cartridge(resting.IDLE, [0x80], switches, FEW_SEQUENCES[kind])
    image = cartridges.tiny_cartridge(rng, rng.choice(UNDOCUMENTED)) if kind == "tiny" else cartridges.random_cartridge(rng, kind)
    return Cartridge(image, list(range(0x80, 0x88)), switches, FEW_SEQUENCES[kind])


def some_input(rng, switches):
    """Some of these switches, seldom also others."""
    share, other = rng.choice((0.0, 0.3, 0.5, 1.0)), rng.choice((0.0, 0.0, 0.0, 0.2))
    return "".join(letter if letter == " " or rng.random() < (share if place in switches else other) else "." for place, letter in enumerate(FORM))


def some_choices(rng, switches):
    """Inputs, mostly different ones; nothing where there is to be no choices file."""
    if rng.random() < 0.15:
        return None
    wanted, choices = rng.choice((1, 2, 2, 2, 3, 3, 4, 5, 7)), []
    while len(choices) < wanted:
        choice = some_input(rng, switches) if rng.random() < 0.9 else cartridges.random_input(rng)
        if choice not in choices or rng.random() < 0.15:
            choices.append(choice)
    return choices


def some_count(rng, choices, most):
    """How many choices a sequence has, so that there are at most so many sequences: as likely a few of them as many."""
    if rng.random() < 0.04:
        return 0
    if choices == 1:
        return rng.randint(1, max(1, min(LONGEST, int(most))))
    size, count = choices * (max(most, choices) / choices) ** rng.random(), 1
    while choices ** (count + 1) <= size:
        count += 1
    return count


def some_part(rng, choices):
    """A part of a space with so many choices: one of a few, or one of about as many as there are choices, or of more."""
    parts = rng.choice((1, 2, 3, 4, max(1, choices - 1), choices, choices + 1, 2 * choices, 1000000))
    return rng.choice((1, parts, rng.randint(1, parts))), parts


# What isn't a part.
NO_PARTS = ("0/1", "1/0", "0/0", "2/1", "9/3", "1/1000001", "1000001/1000001", "1", "/", "1/", "/1", "", "1/2/3", "+1/2", "1/+2", "-1/2", "01/2", "1/02", "1 /2", "1/ 2", " 1/2", "1/2 ", "1:2", "1//2", "a/2", "1/0x2",
            "1.0/2", "99999999999999999999/2", "1/18446744073709551617", "1\\2")


class Plan:
    """A cartridge, a movie, and what is searched: choices, how many of them are in a sequence, and how long each is held."""

    def __init__(self, rng, most):
        self.kind = rng.choices(list(KINDS), list(KINDS.values()))[0]
        self.cartridge = some_cartridge(rng, self.kind)
        self.most = min(most, self.cartridge.sequences)
        self.choices = some_choices(rng, self.cartridge.switches)
        self.hold = rng.choice((1, 1, 1, 1, 2, 3, 5))
        self.inputs = [some_input(rng, self.cartridge.switches) for _ in range(rng.randrange(12))]
        self.start = rng.randrange(len(self.inputs) + 1)
        self.count = some_count(rng, len(self.choices or searches.STICK), self.most / self.hold)
        if self.cartridge.sequences < 100:
            self.inputs, self.start = self.inputs[:4], min(self.start, 4)
        self.part = searches.WHOLE

    def space(self):
        return searches.space_of(self.cartridge.image, tuple(self.inputs[:self.start]), tuple(self.choices or searches.STICK), self.count, self.hold, self.part)


# ---- names

WORDS = ("x", "y", "score", "lives", "level_2", "_", "Ab", "ABC", "A", "F", "byte", "bcd", "pair", "reach", "most", "NOT", "e80", "x85")
NO_NAMES = ("not", "and", "or", "AB", "80", "FF", "9x", "1", "x-y", "x:", "", "x.", "\xe4", "(", "==", "byte:80")
NO_ADDRESSES = ("7F", "8a", "aF", "80 ", " 80", "080", "8", "", "100", "0x80", "$80", "G0", "8G", "x", "-80", "80\r", "\xb28")


def some_names(rng, addresses):
    """Names, some of them of bytes that frames change."""
    words = rng.sample(WORDS, rng.randrange(7))
    return {word: rng.choice(addresses) if rng.random() < 0.7 else rng.randrange(0x80, 0x100) for word in words}


def names_text(names):
    return "".join("%s %02X\n" % item for item in names.items())


def names_spoilt(rng, names):
    """A names file with a mistake, mostly."""
    lines = names_text(names).split("\n")
    way, place = rng.random(), rng.randrange(len(lines))
    if way < 0.2:
        return spoiling.spoilt(rng, names_text(names).encode())
    word, address = rng.choice(WORDS), "%02X" % rng.randrange(0x80, 0x100)
    if way < 0.3:
        return ("\n".join(lines) + word + rng.choice(("", " ", " " + address, " 7F"))).encode()
    lines.insert(place, rng.choice((
        rng.choice(NO_NAMES) + " " + address, rng.choice(NO_NAMES) + " " + address, word + " " + rng.choice(NO_ADDRESSES), rng.choice(NO_NAMES) + " " + rng.choice(NO_ADDRESSES), word, word + address, word + "\t" + address,
        word + "  " + address, word + " " + address + " # " + word, "", "# " + word, rng.choice(lines), word.upper() + " " + address)))
    return "\n".join(lines).encode("latin-1")


def choices_text(choices):
    return "".join(choice + "\n" for choice in choices).encode()


def choices_spoilt(rng, choices):
    text = choices_text(choices)
    lines = text.split(b"\n")
    place, frame = rng.randrange(len(lines)), hands.some_frame(rng).encode()
    way = rng.random()
    if way < 0.4:
        return spoiling.spoilt(rng, text)
    if way < 0.6:
        return rng.choice((b"", b"\n", text[:-1], text + frame, text + b"\n", text + b"....."))
    lines.insert(place, rng.choice((frame + b" x2", frame.lower(), frame[:-1], frame + b" ", b" " + frame, b"", b"# " + frame, frame.replace(b" ", b""), frame.replace(b".", b"-", 1), b"R", frame + b"\r")))
    return b"\n".join(lines)


# ---- expressions: a word, or a list of `not` and an operand, or of an operand, an operator and another operand

def words_of(expression, is_outer=True):
    if isinstance(expression, str):
        return [expression]
    if expression[0] == "not":
        return ["not"] + words_of(expression[1], False)
    one, operator, other = expression
    inner = words_of(one, False) + [operator] + words_of(other, False)
    return inner if is_outer else ["("] + inner + [")"]


class Expressions:
    """Random expressions over bytes of RAM, by their addresses and by names."""

    def __init__(self, rng, names, addresses, space=None):
        self.rng, self.names, self.addresses, self.space = rng, names, addresses, space

    def place(self, address):
        """The address, or a name that it has."""
        words = [name for name, named in self.names.items() if named == address]
        return self.rng.choice(words) if words and self.rng.random() < 0.7 else "%02X" % address

    def byte(self, address):
        place = self.place(address)
        return place if place in self.names and self.rng.random() < 0.6 else "byte:" + place

    def look(self, address):
        """A word for a byte, its digits or its pair."""
        way = self.rng.random()
        return self.byte(address) if way < 0.5 else ("bcd:" if way < 0.75 else "pair:") + self.place(address)

    def some_address(self):
        return self.rng.choice(self.addresses) if self.rng.random() < 0.85 else self.rng.randrange(0x80, 0x100)

    def number(self):
        rng = self.rng
        return str(rng.choice((0, 1, 2, 3, 10, 99, 255, 256, 65535, GREATEST, rng.randrange(10), rng.randrange(256), rng.randrange(65536))))

    def some(self, depth):
        """An expression in which at most so many operators are within one another."""
        rng = self.rng
        if depth == 0 or rng.random() < 0.15:
            return self.look(self.some_address()) if rng.random() < 0.7 else self.number()
        if rng.random() < 0.25:
            return self.compared(self.look(self.some_address()))
        if rng.random() < 0.15:
            return ["not", self.some(depth - 1)]
        return [self.some(depth - 1), rng.choice(list(searches.OPERATORS)), self.some(depth - 1)]

    def compared(self, word):
        """A comparison with what the word is after one of the sequences."""
        ram = self.rng.choice(self.rng.choice([layer for layer in self.space.layers if layer])).ram if self.space else bytes(128)
        value = str(self.value_of(word, ram))
        operator = self.rng.choice(("==", "!=", "<", "<=", ">", ">="))
        return [word, operator, value] if self.rng.random() < 0.6 else [value, operator, word]

    def value_of(self, word, ram):
        return searches.read_goal("most " + word, self.names).value(ram)

    def true_of(self, ram, address):
        """A comparison that holds of this RAM."""
        word = self.look(address)
        value = self.value_of(word, ram)
        more = self.rng.choice((0, 0, 1, 3))
        return self.rng.choice((
            [word, "==", str(value)], [word, "==", str(value)], [str(value), "==", word], [word, ">=", str(max(value - more, 0))], [word, "<=", str(value + more)], [str(value + more + 1), ">", word],
            [word, "<", str(value + more + 1)], ["not", [word, "!=", str(value)]], [[word, "-", str(value)], "==", "0"], ["not", [word, "-", str(value)]],
            [[word, "*", "2"], "==", str(2 * value)], [[word, "+", self.byte(address)], "==", str(value + ram[address - 0x80])]))


def true_of_one(rng, expressions, space):
    """An expression that holds of what one of the sequences leaves, mostly not before its first choice."""
    layer = rng.choice([layer for layer in space.layers[1:] if layer] or space.layers[:1])
    ram, before = rng.choice(layer).ram, space.layers[0][0].ram
    changed = [address for address in range(0x80, 0x100) if ram[address - 0x80] != before[address - 0x80]] or expressions.addresses
    found = expressions.true_of(ram, rng.choice(changed))
    for _ in range(rng.choice((0, 0, 1, 1, 2, 3))):
        way = rng.random()
        if way < 0.7:
            found = [found, "and", expressions.true_of(ram, rng.choice(changed + expressions.addresses))]
        elif way < 0.8:
            found = [[found, "and", found], "or", "0"]
        else:
            found = ["not", ["not", found]]
    return found


def reaching(rng, expressions):
    """Of a few such expressions the one that takes most choices."""
    found = [true_of_one(rng, expressions, expressions.space) for _ in range(rng.choice((1, 3, 5)))]
    return max(found, key=lambda expression: first_layer(goal_of("reach", expression, expressions.names), expressions.space))


def first_layer(goal, space):
    return next(number for number, layer in enumerate(space.layers) if any(goal.value(one.ram) for one in layer))


def varying(rng, expressions):
    """Of a few expressions the one that has most values after the last choice."""
    found = [expressions.some(rng.choice((0, 1, 1, 2, 2, 3))) for _ in range(rng.choice((1, 3, 5)))]
    rams = [one.ram for one in expressions.space.layers[-1][:500]]
    return max(found, key=lambda expression: len(set(map(goal_of("most", expression, expressions.names).value, rams))))


def goal_of(kind, expression, names):
    try:
        return searches.read_goal(" ".join([kind] + words_of(expression)), names)
    except searches.TextFault:
        return searches.Goal(kind, lambda _: 0)  # too large


def goal_text(rng, expressions):
    """A goal. Of a space that was played, it is mostly one that some sequences reach, or whose values differ."""
    kind = rng.choice(("reach", "reach", "reach", "most", "least"))
    if kind == "reach" and expressions.space and rng.random() < 0.8:
        expression = reaching(rng, expressions)
    elif kind != "reach" and expressions.space:
        expression = varying(rng, expressions)
    else:
        expression = expressions.some(rng.choice((0, 1, 2, 2, 3)))
    return " ".join([kind] + words_of(expression))


# ---- goals at fault

NO_WORDS = (str(GREATEST + 1), str(GREATEST + 1), str(GREATEST + 1), str(GREATEST + 1), "$85", "0x85", "byte:8a", "085", "-1", "byte:7F", "byte:", "bcd:", "pair:x1", "byte:100", "99999999999999999999", "=", "=>", "&&", "!", "(x", "x)", "AB", "80:byte", "word:80", "Not",
            "AND", "()", "", "+1", "1.0", "byte:80:80", "BYTE:80", "byte: 80", ":80", "\xb2", "<>")
REAL_WORDS = ("(", ")", "not", "and", "or", "==", "<", "+", "-", "*", "byte:80", "pair:FF", "bcd:9C", "0", "7", str(GREATEST), "x", "score")


def goal_spoilt(rng, text):
    """The goal with a mistake, mostly."""
    words = text.split(" ")
    place = rng.randrange(1, len(words) + 1)
    way = rng.random()
    if way < 0.08:
        return rng.choice(("", "reach", "reach ", "most", "Reach 1", "reached 1", "max byte:80", " " + text, "byte:80 == 1", text.replace(" ", "\t", 1), text.replace(" ", "", 1), "reach\n1", "least "))
    if way < 0.2:
        return rng.choice((text + " ", text.replace(" ", "  ", 1), text[:-1], text + "\t", text.upper(), text.replace("(", "", 1), text.replace(")", "", 1), text + "\n", " ".join(words[:place]),
                           text.replace("( ", "").replace(" )", ""), text + " and byte:80"))
    if way < 0.35:
        words[place:place] = [rng.choice(REAL_WORDS)]
    elif way < 0.5:
        words[place - 1:place] = [rng.choice(REAL_WORDS)] if place > 1 else words[:1]
    elif way < 0.65:
        del words[max(place - 1, 1):place]
    elif way < 0.75:
        words[place:place] = words[place - 1:place] if place > 1 else ["not"]
    else:
        words[max(place - 1, 1):place] = [rng.choice(NO_WORDS)]
    return " ".join(words)


def deep_goal(rng):
    """Parentheses and `not` within one another, about as many as may be."""
    count = rng.choice((62, 63, 64, 64, 65, 65, 66, 200))
    openings = [rng.choice(("not", "(")) for _ in range(count)] if rng.random() < 0.6 else [rng.choice(("not", "("))] * count
    words = openings + ["byte:80" if rng.random() < 0.8 else rng.choice((")", "+", "byte:7F", ""))]
    for opening in reversed(openings):
        words += [rng.choice(("+", "or", "-")), "1", ")"] if opening == "(" else []
    words += rng.choice(([], [], ["==", "not", "1"], ["+", "(", "2", "-", "1", ")"]))
    return " ".join([rng.choice(("reach", "most", "least"))] + words)


def great_goal(rng):
    """An expression whose weight is about as great as may be."""
    pairs = [["pair:80", "*", "pair:82"], "*", "pair:84"]
    sums = [[str(GREATEST), "*", str(2 ** 31 - 2)], "+", str(GREATEST - rng.randrange(3))]
    powers = "byte:80"
    for _ in range(rng.choice((5, 6, 7))):
        powers = rng.choice(([powers, "*", "bcd:81"], ["byte:82", "*", powers]))
    expression = rng.choice((
        [pairs, "*", str(32766 + rng.randrange(3))], [pairs, "*", "bcd:FF"], [[pairs, "*", "127"], rng.choice(("+", "and", "<")), "byte:90"], [str(GREATEST), "*", str(2 ** 31 - rng.choice((1, 2)))], sums,
        ["not", sums], [pairs, rng.choice(("*", "+", "-", "==")), pairs], ["not", [pairs, "*", str(32767 - rng.randrange(2))]], powers, [powers, "*", "127"], [powers, "*", "126"]))
    return " ".join([rng.choice(("reach", "most", "least"))] + words_of(expression))
