"""Random cartridges and movies for oracle/compare, made so that they use much of the machine.

Everything comes from one random.Random, so a seed makes the same cases again. A cartridge is written instruction by
instruction. `soup` is a circle of short exercises, `kernel` draws pictures by a frame loop, `quick` and `long` are
kernels most of whose frames end after a few instructions, `wild` is nearly noise, and `tiny` ends soon.
"""

from hashlib import sha256
from itertools import groupby

from kernels import Kernel
from soup import Soup
from writer import DOCUMENTED, OPCODE_OF, Writer


# ---- noise -----------------------------------------------------------------------------------------------------------

def wild_cartridge(rng, size):
    """Documented opcodes and random bytes. The vectors lead into the cartridge, but seldom one of them leads elsewhere."""
    share = rng.choice((0.7, 0.97, 1.0))
    image = bytearray(rng.choice(DOCUMENTED) if rng.random() < share else rng.randrange(256) for _ in range(size))
    elsewhere = rng.choice((size - 4, size - 2)) if rng.random() < 0.1 else None
    for at in (size - 4, size - 2):
        target = 4096 * rng.randrange(int(at != elsewhere), 16, 2) + rng.randrange(4096)
        image[at], image[at + 1] = target % 256, target // 256
    return bytes(image)


def tiny_cartridge(rng, undocumented):
    """A few instructions and an undocumented byte."""
    writer = Writer(rng, 2048)
    writer.rare = range(0x04)
    writer.some_plain(4)
    writer.put(undocumented)
    return writer.finish(lambda: writer.op("RTI"))


def cartridge_of_all_pairs(first, instructions):
    """For each X and each byte at 80: instructions that work on both, one after the other, for ever."""
    image = bytearray(4096)
    code = [OPCODE_OF[first, "imp"]]
    start = len(code)
    for name, mode in instructions:
        code += [OPCODE_OF[name, mode]] + ([] if mode == "imp" else [0x80])
    code += [OPCODE_OF["INX", "imp"], OPCODE_OF["BNE", "rel"], (start - len(code) - 3) % 256]
    code += [OPCODE_OF["INC", "zp"], 0x80, OPCODE_OF["JMP", "target"], start, 0xF0]
    image[:len(code)] = code
    image[-4:-2] = b"\x00\xF0"
    return bytes(image)


def cartridges_of_all_sums():
    """All sums and differences with and without a carry, in decimal mode and in binary."""
    sums = [(name, mode) for operation in ("ADC", "SBC") for carry in ("CLC", "SEC")
            for name, mode in ((carry, "imp"), ("TXA", "imp"), (operation, "zp"))]
    return [cartridge_of_all_pairs(first, sums) for first in ("SED", "CLD")]


def random_cartridge(rng, kind):
    size = rng.choice((4096, 4096, 2048))
    if kind == "wild":
        return wild_cartridge(rng, size)
    if kind == "soup":
        return Soup(rng, size).write()
    return Kernel(rng, size, {"kernel": (), "quick": (1, 3, 7, 15), "long": (15, 31)}[kind]).write()


# ---- movies (docs/FORMATS.md, "Movie text") --------------------------------------------------------------------------

def random_input(rng):
    density = rng.choice((0.0, 0.15, 0.5))
    return "".join(letter if letter == " " or rng.random() < density else "." for letter in "RLDUF RLDUF rsbAB")


def random_inputs(rng, frames):
    """So many inputs, many of them like the one before."""
    inputs = []
    while len(inputs) < frames:
        inputs += [random_input(rng)] * rng.choice((1, 1, 2, 3))
    return inputs[:frames]


def changed_inputs(rng, inputs):
    """Inputs that begin as these do: some are left out, replaced or put in at any place, or all are the same."""
    at = rng.randrange(len(inputs) + 1)
    gone = rng.choice((0, 0, 1, 2))
    come = rng.choice((0, 1, gone))
    return inputs[:at] + random_inputs(rng, come) + inputs[at + gone:]


def movie_text(cartridge, inputs, is_old=False):
    head = "a26movie %d\ncart %s\n" % (1 if is_old else 2, sha256(cartridge).hexdigest())
    if is_old:
        return head + "".join(text + "\n" for text in inputs)
    runs = ((text, len(list(run))) for text, run in groupby(inputs))
    return head + "".join(text + (" x%d\n" % length if length > 1 else "\n") for text, length in runs)
