"""What a search answers: what goals, names files and choices files say, all sequences of a space, and the best of them.

Written from docs/FORMATS.md, "Search" and "Goals of a search", and docs/MACHINE.md, section 6, alone. Each sequence is played by quick.py from the state that the sequence before its last choice
leaves, and no two are taken for one, whatever their states: states are compared only where the page asks how many different ones there are.
"""

import re
from collections import namedtuple
from functools import lru_cache

import beginnings
import quick
import tia
from answers import hands

DEEPEST = 64  # parentheses and `not` within one another
MOST_CHOICES = 1000  # of one sequence, in this comparison
GREATEST = 2 ** 32 - 1
TOO_GREAT = 2 ** 63
ADDRESS = re.compile(r"[89A-F][0-9A-F]")
NAME = re.compile(r"[A-Za-z_][A-Za-z0-9_]*")
NUMBER = re.compile(r"0|[1-9][0-9]{0,9}")
KINDS = {"reach": None, "most": max, "least": min}

OPERATORS = {
    "+": lambda a, b: a + b, "-": lambda a, b: a - b, "*": lambda a, b: a * b,
    "==": lambda a, b: int(a == b), "!=": lambda a, b: int(a != b), "<": lambda a, b: int(a < b),
    "<=": lambda a, b: int(a <= b), ">": lambda a, b: int(a > b), ">=": lambda a, b: int(a >= b),
    "and": lambda a, b: int(a != 0 and b != 0), "or": lambda a, b: int(a != 0 or b != 0)}

# What could stand in a word's place.
OPERAND, PLAIN_OPERAND, OPERATOR, CLOSING, END = "operand expected", "too deep", "operator expected", ") expected", "end expected"
NO_KIND, GREAT = "goal word 1: reach, most or least expected", "goal: too large"
FAULTS_OF_GOALS = ("kind", OPERAND, PLAIN_OPERAND, OPERATOR, CLOSING, END, "great")

# Without a choices file: the left stick's directions, and then the same with fire.
STICK = [direction + fire + " ..... ....." for fire in ".F" for direction in ("....", "R...", ".L..", "..D.", "...U", "R.D.", "R..U", ".LD.", ".L.U")]

Goal = namedtuple("Goal", "kind value")
Part = namedtuple("Part", "value weight")  # what an expression comes to, as a function of the bytes of RAM; and its weight


class TextFault(hands.Fault):
    """A fault of a goal, a names file or a choices file, and the kind that it is of."""

    def __init__(self, line, detail):
        super().__init__(line)
        self.detail = detail


# ---- goals

def byte_at(address):
    return lambda ram: ram[address - 0x80]


def digits_at(address):
    return lambda ram: 10 * (ram[address - 0x80] // 16) + ram[address - 0x80] % 16


def pair_at(address):
    return lambda ram: ram[address - 0x80] + 256 * ram[(address + 1) % 128]


LOOKS = {"byte": (byte_at, 256), "bcd": (digits_at, 256), "pair": (pair_at, 65536)}


class Expression:
    """The words of a goal, read one after the other up to the first one that can't stand in its place."""

    def __init__(self, words, names):
        self.words, self.names, self.place = words, names, 1

    def word(self):
        return self.words[self.place] if self.place < len(self.words) else None

    def refuse(self, expected):
        raise TextFault("goal word %d: %s" % (self.place + 1, expected), "goal: " + expected)

    def read(self):
        found = self.operand(0)
        if self.word() is not None:
            found = self.joined(found, 0)
        if self.word() is not None:
            self.refuse(END)
        if found.weight >= TOO_GREAT:
            raise TextFault(GREAT, "goal: great")
        return found.value

    def operand(self, depth):
        word = self.word() or ""
        if word in ("not", "("):
            if depth == DEEPEST:
                self.refuse(PLAIN_OPERAND)
            self.place += 1
            return self.negated(depth + 1) if word == "not" else self.enclosed(depth + 1)
        found = self.plain(word)
        if found is None:
            self.refuse(OPERAND)
        self.place += 1
        return found

    def negated(self, depth):
        value, weight = self.operand(depth)
        return Part(lambda ram: int(value(ram) == 0), weight + 1)

    def enclosed(self, depth):
        found = self.joined(self.operand(depth), depth)
        if self.word() != ")":
            self.refuse(CLOSING)
        self.place += 1
        return found

    def joined(self, left, depth):
        """Two operands with an operator between them, the first of which was read."""
        if self.word() not in OPERATORS:
            self.refuse(OPERATOR)
        word = self.word()
        self.place += 1
        right = self.operand(depth)
        join, one, other = OPERATORS[word], left.value, right.value
        weight = left.weight * right.weight if word == "*" else left.weight + right.weight
        return Part(lambda ram: join(one(ram), other(ram)), weight)

    def plain(self, word):
        """A number, a byte or a pair."""
        if NUMBER.fullmatch(word):
            number = int(word)
            return Part(lambda _: number, number + 1) if number <= GREATEST else None
        prefix, colon, place = word.partition(":")
        if not colon:
            prefix, place = "byte", word if word in self.names else ""
        address = int(place, 16) if ADDRESS.fullmatch(place) else self.names.get(place)
        if prefix not in LOOKS or address is None:
            return None
        look, weight = LOOKS[prefix]
        return Part(look(address), weight)


def read_goal(text, names):
    """A goal, with addresses by their names. Raises its fault."""
    kind, space, _ = text.partition(" ")
    if kind not in KINDS or not space:
        raise TextFault(NO_KIND, "goal: kind")
    return Goal(kind, Expression(text.split(" "), names).read())


# ---- names files and choices files

def is_name(word, names):
    return NAME.fullmatch(word) is not None and word not in ("not", "and", "or") and word not in names and not ADDRESS.fullmatch(word)


def read_names(text):
    """The addresses by their names. Raises the fault of the first line at fault."""
    names, lines = {}, text.decode("latin-1").split("\n")
    for number, line in enumerate(lines, 1):
        if number == len(lines) and not line:
            break
        name, space, address = line.partition(" ")
        for is_at_fault, kind in ((number == len(lines), "end"), (not space, "space"), (not ADDRESS.fullmatch(address), "address"), (not is_name(name, names), "name")):
            if is_at_fault:
                raise TextFault("names line %d: %s" % (number, kind), "names: " + kind)
        names[name] = int(address, 16)
    return names


def read_choices(text):
    """The inputs of the choices. Raises the fault of the first line at fault."""
    choices, lines = [], text.decode("latin-1").split("\n")
    for number, line in enumerate(lines, 1):
        if number == len(lines) and not line and choices:
            break
        for is_at_fault, kind in ((number == len(lines), "end"), (not hands.is_frame(line), "frame")):
            if is_at_fault:
                raise TextFault("choices line %d: %s" % (number, kind), "choices: " + kind)
        choices.append(line)
    return choices


# ---- all sequences of a space

WHOLE = (1, 1)  # the only part of one


def firsts_of(part, choices):
    """The numbers of the choices with which the sequences of a part begin, of so many."""
    number, parts = part
    return range((number - 1) * choices // parts, number * choices // parts)


def number_of(firsts, choices, length):
    """How many sequences of a length there are, with so many first choices."""
    return firsts * choices ** (length - 1) if length else 1


# What some choices leave: the machine's state, and its RAM. `sequence` has the choices' numbers, from 0 on; `is_lag` is whether all frames of the last one were lag frames.
Reached = namedtuple("Reached", "sequence state ram is_halted is_lag")


class Space:
    """The sequences of a search: after the movie's first frames, each of so many choices, each of which is held for so many frames. A sequence ends where the machine halts."""

    def __init__(self, cartridge, inputs, choices, count, hold, part=WHOLE):
        self.cartridge, self.choices, self.count, self.hold, self.part = cartridge, choices, count, hold, part
        self.firsts = firsts_of(part, len(choices))
        self.played = self.lagging = 0
        model = quick.QuickMachine(cartridge)
        model.draws = False
        self.layers = [[self.played_on(model, inputs, ())]]
        for _ in range(count):
            self.layers.append([self.play(before, choice) for before in self.layers[-1] if not before.is_halted for choice in self.choices_after(before)])
        self.sizes = [len(different(layer)) for layer in self.layers]

    def choices_after(self, before):
        """The numbers of the choices that may come after others."""
        return range(len(self.choices)) if before.sequence else self.firsts

    def play(self, before, choice):
        model = beginnings.machine_in(self.cartridge, before.state)
        model.draws = False
        return self.played_on(model, [self.choices[choice]] * self.hold, before.sequence + (choice,))

    def played_on(self, model, inputs, sequence):
        is_lag = True
        for text in inputs:
            model.play_frame(text)
            self.lagging += model.is_lag and model.halt is None
            is_lag = is_lag and model.is_lag
        self.played += len(inputs)
        return Reached(sequence, beginnings.state_of(model), bytes(model.ram), model.halt is not None, is_lag)

    def number(self):
        """How many sequences of all choices there are."""
        return number_of(len(self.firsts), len(self.choices), self.count)

    def begin(self):
        """What a verdict begins with."""
        return "" if self.part == WHOLE else "part %d of %d: " % self.part

    def is_over(self, layer, most):
        """Whether more than so many different states are reached by sequences of a number of choices."""
        return most < self.sizes[layer]


@lru_cache(2)
def space_of(cartridge, inputs, choices, count, hold, part=WHOLE):
    return Space(cartridge, inputs, choices, count, hold, part)


# ---- the lines of layers

LAYER = re.compile(rb"layer (\d+): (\d+) frames, (\d+) states, (\d+) merged, (\d+) played, (\d+) bytes, \d+ frames a second\n")
STATE_BYTES, LINK_BYTES = 240, 16


def last_layer(space, wanted):
    """The number of the last layer that has a line in the report."""
    verdict = wanted.errors.decode().removeprefix(space.begin())
    if verdict.startswith("best"):
        return wanted.output.count(b"replace")
    if verdict.startswith("stopped"):
        return int(verdict.split("layer ")[1].split(":")[0]) - 1
    return next((number for number, layer in enumerate(space.layers) if not layer), space.count)


def line_of(space, number):
    """The numbers of a layer: its frames and states, how many choices led to a state that was there, and how many frames are played for it."""
    going = [one for one in different(space.layers[number - 1]).values() if not one.is_halted]
    choices = len(space.choices_after(space.layers[number - 1][0])) if space.layers[number - 1] else 0
    firsts = {one.sequence[:-1]: one for one in reversed(space.layers[number])}  # what the first choice after each sequence leads to
    tried = sum(1 if firsts[one.sequence].is_lag else choices for one in going) if choices else 0
    return number * space.hold, space.sizes[number], len(going) * choices - space.sizes[number], tried * space.hold


def after_layers(errors, space, wanted):
    """What standard error has after the lines of layers, where there was a search; these lines too, where they aren't the page's."""
    if space is None:
        return errors
    left, number, last, before, links = errors, 0, last_layer(space, wanted), 1, 1
    while line := LAYER.match(left):
        number += 1
        layer, *numbers, held = map(int, line.groups())
        states = numbers[1]
        links += states
        if layer != number or number > last or tuple(numbers) != line_of(space, number) or held != STATE_BYTES * (before + states) + LINK_BYTES * links:
            return errors
        before = states
        left = left[line.end():]
    return left if number == last else errors


def frames_of(start, choices, count, hold, part=WHOLE):
    """How many frames are played at most."""
    firsts = len(firsts_of(part, choices))
    return start + hold * sum(number_of(firsts, choices, length) for length in range(1, count + 1))


def different(layer):
    """The different states of a layer, each with the first sequence that leaves it."""
    return {identity(one.state): one for one in reversed(layer)}


# docs/MACHINE.md, section 4: the bits of each register that a state has, those that are used and all of PF0. What isn't here has its effect when it is written.
USED = bytearray(64)
for _register, _bits in {
        tia.VSYNC: 0x02, tia.VBLANK: 0x42, tia.NUSIZ0: 0x37, tia.NUSIZ1: 0x37, tia.COLUP0: 0xFE, tia.COLUP1: 0xFE, tia.COLUPF: 0xFE, tia.COLUBK: 0xFE,
        tia.CTRLPF: 0x37, tia.REFP0: 0x08, tia.REFP1: 0x08, tia.PF0: 0xFF, tia.PF1: 0xFF, tia.PF2: 0xFF, tia.ENAM0: 0x02, tia.ENAM1: 0x02,
        tia.HMP0: 0xF0, tia.HMP1: 0xF0, tia.HMM0: 0xF0, tia.HMM1: 0xF0, tia.HMBL: 0xF0, tia.VDELP0: 0x01, tia.VDELP1: 0x01, tia.VDELBL: 0x01,
        tia.RESMP0: 0x02, tia.RESMP1: 0x02}.items():
    USED[_register] = _bits


def identity(state):
    """What two equal states have in common: docs/MACHINE.md, section 6, "Equal states"."""
    *rest, (registers, *chip) = state
    return (*rest, bytes(value & bits for value, bits in zip(registers, USED)), *chip)


# ---- the answer

Answer = namedtuple("Answer", "verdict sequence")  # no sequence where there is no best one


def best_of(space, sequence):
    return Answer(space.begin() + "best of all %d sequences" % space.number(), sequence)


def stopped(space, most, layer, has_goal):
    what = space.begin() + "stopped: more than %d states in layer %d" % (most, layer)
    return Answer(what + ": none of up to %d frames reaches it" % ((layer - 1) * space.hold) if has_goal else what, None)


def answer(space, goal, most):
    """The verdict of a search that keeps at most so many states of one number of choices, and the best sequence."""
    looks_at_all = goal.kind == "reach"
    for number, layer in enumerate(space.layers):
        if space.is_over(number, most):
            return stopped(space, most, number, looks_at_all)
        if looks_at_all:
            for one in layer:
                if goal.value(one.ram) != 0:
                    return best_of(space, one.sequence)
    if looks_at_all:
        return Answer(space.begin() + "none: not one of all %d sequences reaches it" % space.number(), None)
    return extreme(space, goal)


def extreme(space, goal):
    values = [goal.value(one.ram) for one in space.layers[-1]]
    if not values:
        return Answer(space.begin() + "none: each of all %d sequences halts before its end" % space.number(), None)
    return best_of(space, space.layers[-1][values.index(KINDS[goal.kind](values))].sequence)


def script_of(sequence, space, start, length):
    """The changes that write a sequence into a movie of that length, from a frame on."""
    end = start + space.hold * len(sequence)
    lines = ["insert %d %d %s" % (length, end - length, hands.REST)] if end > length else []
    lines += ["replace %d %d %s" % (start + space.hold * place, space.hold, space.choices[choice]) for place, choice in enumerate(sequence)]
    return "".join(line + "\n" for line in lines).encode()
