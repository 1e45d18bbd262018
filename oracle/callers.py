"""Random lines of a conversation, and clients that send them through a pair of pipes and keep what is answered.

docs/FORMATS.md, "Conversation", says what the lines are. A client is a process of its own, so that several are at work at once.
"""

import os
import random
import re
import select
import signal
import threading
import time
from hashlib import sha256

import cartridges
import machine

# ---- a cartridge whose frames are short, for the sake of the second machine

BRIEF = bytes.fromhex(
    "A901 8580"                                   # start: the number, at 80, is 1
    "E681 A581 2907 F03B"                         # frame: each eighth one reads no input
    "A580 0A 6900 4D8002 4D8202 450C 8580"        # the number is turned left, and flipped where something is pressed
    "A50D 4A 4580 8580"
    "AD8202 2903 D001 02"                         # reset and select together halt the machine
    "A50C 3019"                                   # go: with fire pressed some lines are drawn
    "A221 8502 CA D0FB"                           # above: 33 lines
    "A580 8509 2907 AA F005 8502 CA D0FB"         # bright: as many lines as the low bits of the number say, in its colour
    "A900 8509"                                   # dark
    "A902 8500 A900 8500 4C04F0".replace(" ", ""))  # short: the sync


def brief(start, size=4096):
    """It folds each input into a number that is `start` at first."""
    image = bytearray(size)
    image[:len(BRIEF)] = BRIEF
    image[1] = start
    image[-4:] = b"\x00\xF0\x00\xF0" if size == 4096 else b"\x00\xF8\x00\xF8"
    if size == 2048:
        image[len(BRIEF) - 1] = 0xF8
    return bytes(image)


# ---- lines

FORM = "RLDUF RLDUF rsbAB"
NOTHING = machine.NOTHING
KINDS = {
    "insert": 17, "replace": 12, "delete": 9, "press": 6, "release": 4, "repeat": 3, "copy": 4, "load": 0.1,
    "len": 9, "input": 11, "shot": 3, "picture": 1.2, "pictures": 0.15, "ram": 5, "digest": 2, "lag": 2, "inputs": 2,
    "work": 1.5, "share": 2, "states": 1, "movie": 0.4, "history": 4, "version": 0.5, "spoilt": 1.5,
    "begin": 2, "commit": 0.3, "drop": 0.3,
}
LONGEST_DRAFT = 12
LEAST, USUAL = 40, 160  # how long the movie is, about
LONGEST_LINE = 16384
MOST = 262144


def some_frame(rng):
    chance = rng.random()
    if chance < 0.3:
        return NOTHING
    if chance < 0.302:
        return "..... ..... rs..."
    share = rng.choice((0.06, 0.2))
    frame = "".join(c if c == " " or rng.random() < share else "." for c in FORM)
    return frame.replace("rs", "r.")


def hex_parts(data, offset=0):
    return "%03X=%s" % (offset, data.hex().upper())


class Lines:
    """Random lines for a movie of about `length` frames at about `at` edits. A draft is open, and so many lines follow in the one that was begun."""

    def __init__(self, rng, images):
        self.rng, self.images = rng, images
        self.length = self.at = self.drafting = 0
        self.open, self.has_drafts = False, True
        self.kinds, total = list(KINDS), 0
        self.weights = []
        for kind in self.kinds:
            total += KINDS[kind]
            self.weights.append(total)

    def line(self):
        if self.drafting > 0:
            self.drafting -= 1
            if self.drafting == 0:
                return self.end_of_draft()
        elif self.open and self.rng.random() < 0.3:
            return self.end_of_draft()
        kind = self.rng.choices(self.kinds, cum_weights=self.weights)[0]
        if kind == "insert" and self.length > USUAL:
            kind = "delete"
        elif kind == "delete" and self.length < LEAST:
            kind = "insert"
        make = getattr(self, kind, None)
        return make() if make else self.look(kind)

    def place(self):
        """A frame that is there, mostly; often an early one."""
        top = max(self.length, 1) if self.rng.random() < 0.5 else 16
        return self.rng.randrange(top + (1 if self.rng.random() < 0.05 else 0))

    def some(self):
        return self.rng.randrange(9) if self.rng.random() < 0.97 else self.rng.randrange(2 * USUAL)

    def insert(self):
        chance = self.rng.random()
        count = self.some()
        if chance < 0.00003:
            count = MOST - self.length + self.rng.randint(-1, 1)
        elif chance < 0.002:
            count = self.rng.choice((MOST, 9999999))
        return "insert %d %d %s" % (self.place(), count, some_frame(self.rng))

    def replace(self):
        return "replace %d %d %s" % (self.place(), self.some(), some_frame(self.rng))

    def press(self):
        return "press %d %d %s" % (self.place(), self.some(), some_frame(self.rng))

    def release(self):
        return "release %d %d %s" % (self.place(), self.some(), some_frame(self.rng))

    def delete(self):
        if self.length > 3 * USUAL:
            return "delete %d %d" % (LEAST, self.length - 2 * LEAST)
        return "delete %d %d" % (self.place(), self.some() + (20 if self.length > USUAL else 0))

    def repeat(self):
        times = self.rng.choice((0, 1, 2, 3)) if self.rng.random() < 0.99 else self.rng.choice((MOST, 9999999))
        return "repeat %d %d %d" % (self.place(), self.rng.randrange(4), times)

    def copy(self):
        return "copy %d %d %d" % (self.place(), self.some(), self.place())

    def load(self):
        rng = self.rng
        if rng.random() < 0.2:
            word, size = rng.choice((("load", 4096), ("load2", 2048)))
            offset = rng.randrange(size)
            parts = [hex_parts(BRIEF)] + [hex_parts(rng.randbytes(rng.randint(1, 3)), offset)]  # seldom past the end
            return " ".join([word] + parts[:rng.randint(1, 2)])
        image = rng.choice(self.images)
        return "%s %s" % ("load" if len(image) == 4096 else "load2", hex_parts(image))

    def begin(self):
        if self.drafting == 0 and self.has_drafts:
            self.drafting = self.rng.randint(1, LONGEST_DRAFT)
        return "begin" if self.has_drafts else "len"

    def end_of_draft(self):
        return self.rng.choice(("commit", "commit", "commit", "drop")) if self.has_drafts else "len"

    commit = drop = end_of_draft

    def look(self, kind):
        return kind if kind in ("len", "share", "states", "movie", "version") else "%s %d" % (kind, self.place())

    def pictures(self):
        first = self.place()
        return "pictures %d %d" % (first, first + self.rng.randint(0, 4))

    def inputs(self):
        first = self.place()
        return "inputs %d %d" % (first, first + self.rng.choice((1, 2, self.rng.randint(1, 200), 1024)))

    def lag(self):
        first = self.place()
        return "lag %d %d" % (first, max(first + self.rng.randint(0, 12) - (self.rng.random() < 0.02), 0))

    def history(self):
        rng = self.rng
        first = self.at - rng.randrange(12) if rng.random() < 0.95 else rng.randrange(self.at + 9)
        return "history %d" % max(first, 0)

    def spoilt(self):
        """A line with a mistake, mostly; it may be one that is understood all the same."""
        rng = self.rng
        line = self.look(rng.choice(("len", "input", "ram", "history"))) if rng.random() < 0.3 else self.insert()
        place = rng.randrange(len(line))
        return rng.choice((
            line[:place] + line[place + 1:], line[:place] + rng.choice(" 0x.R\xff") + line[place:], line + " ", " " + line, line + "\r",
            line.replace(" ", "  ", 1), line.upper(), "", "quit ", "begin ", "commit 0", "drops", re.sub(r"\d+", "10000000", line, count=1), "copy other 0 1 0",
            re.sub(r"(\d+)", r"0\1", line, count=1), re.sub(r"\d+", "-1", line, count=1), line.split(" ")[0], "pictures 9 9", "pictures 0 1025",
            "len" + " " * (LONGEST_LINE - 3 + rng.randrange(2)), "load 000=" + "00" * rng.choice((4097, 8187, 8188)), "load2 7FF=0000"))


# ---- answers

BODIES = ("picture", "lag", "inputs", "movie", "history")


def heads_of(line):
    """How many answers a line has: that of `pictures` one for each frame."""
    words = line.split(" ")
    if words[0] != "pictures" or not re.fullmatch(r"pictures (0|[1-9]\d{0,6}) (0|[1-9]\d{0,6})", line):
        return 1
    count = int(words[2]) - int(words[1])
    return count if 1 <= count <= 1024 else 1


class Gone(Exception):
    """The pipe ended before the answer was whole."""


class Client:
    """One end of a pair: what it sent, and what came."""

    def __init__(self, number, lines, pair, seed):
        self.number, self.pair = number, pair
        self.rng = random.Random("%s client %d" % (seed, number))
        self.lines = lines
        self.log, self.unanswered, self.heard = [], [], 0
        self.rest = None

    def open(self):
        # The program opens IN first, so the client must, too.
        self.ask = open(self.pair[0], "wb", buffering=0)
        self.hear = open(self.pair[1], "rb", buffering=1 << 17)

    def send(self, lines):
        data = "".join(line + "\n" for line in lines).encode("latin-1")
        cut = self.rng.randrange(len(data)) if self.rng.random() < 0.02 else 0
        for part in (data[:cut], data[cut:]):
            if part:
                self.ask.write(part)

    def answer(self):
        """The first line of an answer, and what follows: of a picture its digest, else the text."""
        head = self.hear.readline()
        if not head.endswith(b"\n"):
            raise Gone(head)
        self.heard += len(head)
        head = head[:-1].decode("latin-1")
        kind, _, last = head.partition(" ")
        if kind not in BODIES:
            return head, None
        size = int(head.rpartition(" ")[2])
        body = self.hear.read(size)
        self.heard += len(body)
        if len(body) != size:
            raise Gone(head)
        return head, sha256(body).hexdigest() if kind == "picture" else body.decode("latin-1")

    def answers(self, lines):
        for place, line in enumerate(lines):
            try:
                found = [self.answer() for _ in range(heads_of(line))]
            except Gone:
                self.unanswered = lines[place:]
                raise
            self.log.append((line, found if line.startswith("pictures") else found[0]))
            self.note(found[0][0].split(" "))
            self.answered[self.number] += 1

    def note(self, words):
        """What the next lines are made for."""
        if words[0] in ("edit", "len", "place", "long", "begin", "commit"):
            self.lines.at, self.lines.length = int(words[1]), int(words[-1])
        if words[0] in ("begin", "commit", "dropped"):
            self.lines.open = words[0] == "begin"

    def converse(self, count):
        """Sends so many lines, some of them several at once, and hears the answer to each."""
        done = 0
        while done < count:
            batch = [self.lines.line()]
            at_once = self.rng.random()
            while len(batch) < min(20, count - done) and sum(map(len, batch)) < 20000 and (at_once < 0.15 or at_once < 0.6 and self.lines.drafting > 0):
                batch.append(self.lines.line())
            self.send(batch)
            self.answers(batch)
            done += len(batch)

    def leave(self):
        """Goes away without hearing the answers to some last lines, none of which is about a draft; one of them comes when nobody can hear it."""
        self.lines.has_drafts = False
        self.unanswered = [self.lines.line() for _ in range(self.rng.randrange(12))]
        self.send(self.unanswered)
        time.sleep(self.rng.choice((0, 0, 0.001, 0.02)))
        self.hear.close()
        last = [self.lines.insert()] + [self.lines.line() for _ in range(self.rng.randrange(3))]
        self.unanswered = self.unanswered + last
        try:
            self.send(last)
        except BrokenPipeError:
            pass
        self.ask.close()

    def end(self):
        """Ends the conversation in one of three ways; nothing may come then but the answer to what has no newline."""
        way = self.rng.randrange(3)
        if way == 0:
            self.ask.write(b"quit\nlen\n")
        elif way == 1:
            self.ask.write(b"len")
        self.ask.close()
        self.rest = (way == 1, self.hear.read().decode("latin-1"))
        self.hear.close()

    def whole_history(self):
        """All entries, by as many lines as it takes."""
        start = 0
        while True:
            line = "history %d" % start
            self.send([line])
            self.answers([line])
            words = self.log[-1][1][0].split(" ")
            if words[0] != "history" or words[3] == "0":
                return
            start += int(words[3])


def wait_for_seat(name):
    """Waits until the program has closed this end of a pair: nobody reads it any more."""
    while True:
        try:
            os.close(os.open(name, os.O_WRONLY | os.O_NONBLOCK))
        except OSError:
            return
        time.sleep(0.01)


class Waiting(Exception):
    """The client was stopped while it waited for an answer."""


def stop(_signal, _frame):
    raise Waiting


def run_client(client, count, leaves, gate, held, others, answered, report):
    """The process of a client. The first one stays until the others' conversations have ended, and then asks for the whole history.
    `held` are files of the process that started it, and `answered` counts each client's answers."""
    signal.signal(signal.SIGTERM, stop)
    trouble, client.answered = None, answered
    try:
        client.open()
        for stream in held:
            os.close(stream)
        gate.wait()
        client.converse(client.rng.randrange(count) if leaves else count)
        if others is not None:
            for name in others:
                wait_for_seat(name)
            client.whole_history()
        if leaves:
            client.leave()
        else:
            client.end()
    except threading.BrokenBarrierError:
        trouble = "not all pairs were opened in 20 seconds"
    except Waiting:
        trouble = "no answer in time; the last line that was answered is %r" % (client.log[-1:],)
    except Gone as gone:
        trouble = "the answers ended in the middle: %r, not answered are %r" % (gone.args[0], client.unanswered[:3])
    except Exception as error:  # whatever it is, the others' logs are compared all the same
        trouble = "%s: %s; the last line that was answered is %r" % (type(error).__name__, error, client.log[-1:])
    report({"number": client.number, "log": client.log, "unanswered": client.unanswered, "leaves": leaves, "rest": client.rest,
            "heard": client.heard, "trouble": trouble})


def ready(stream):
    """Whether something can be read at once."""
    return bool(select.select([stream], [], [], 0)[0])


def images_for(rng):
    """Cartridges for `load` lines, the first of which is the start. A frame of the last two takes the second machine up to 60 times as long, so they are
    loaded seldom: what the machine does is for `compare` to see."""
    quick = [cartridges.random_cartridge(rng, "quick") for _ in range(2)]
    return [brief(1), brief(2), brief(3), brief(1, 2048)] * 12 + quick
