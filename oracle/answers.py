"""What lines of a conversation say, and what they are answered where the movie is this: a movie by a plain model of lists, and what its beginnings show.

Written from docs/FORMATS.md, "Script" and "Conversation". The model of edits is that of `hands`.
"""

import importlib.machinery
import importlib.util
import itertools
import pathlib
import re
from collections import namedtuple
from hashlib import sha256

import machine

HERE = pathlib.Path(__file__).resolve().parent


def load_script(name):
    """A script of this folder as a module."""
    loader = importlib.machinery.SourceFileLoader(name, str(HERE / name))
    module = importlib.util.module_from_spec(importlib.util.spec_from_loader(name, loader))
    loader.exec_module(module)
    return module


hands = load_script("hands")
TOLD_AT_ONCE = 256
LONGEST_LINE = 16384
PART = re.compile(r"([0-9A-F]{3})=((?:[0-9A-F]{2})+)")
EDITS = ("insert", "replace", "delete", "press", "release", "repeat", "copy")
SIZES = {"load": 4096, "load2": 2048}
NUMBERS = {"input": 1, "shot": 1, "work": 1, "picture": 1, "ram": 1, "digest": 1, "history": 1, "lag": 2, "pictures": 2, "inputs": 2,
           "len": 0, "movie": 0, "states": 0, "share": 0, "version": 0, "begin": 0, "commit": 0, "drop": 0}
WITHOUT_AT = ("work", "version", "unknown", "out", "dropped", "in")
VERSION = "version 0.3.0 profile %d format 1 bytes picture lag inputs movie history" % machine.PROFILE

Movie = namedtuple("Movie", "cart frames")
Said = namedtuple("Said", "kind numbers frame")
BLANK = Movie(bytes(4096), [])


# ---- answers to `history`

def frames_in(lines):
    """How many frames an entry's lines put in."""
    return sum(int(line.split(" ")[2]) for line in lines if line.startswith(("insert ", "replace ")))


def may_be_one(entry, following):
    """Whether two entries, each a seat and its lines, may be the two edits of one commit."""
    (seat, lines), (other, others) = entry, following
    gone, come = lines[0].split(" "), others[0].split(" ")
    return seat == other and [gone[0], come[0]] == ["delete", "insert"] and gone[1] == come[1]


def told_at_once(entries):
    """How many of some entries, each a seat and its lines, one answer has."""
    count, frames = 0, 0
    for _, lines in entries[:TOLD_AT_ONCE]:
        frames += frames_in(lines)
        if frames > hands.MOST:
            break
        count += 1
    return count - (0 < count < len(entries) and may_be_one(entries[count - 1], entries[count]))


# ---- lines

def understood(line):
    """What a line says; nothing where it isn't understood."""
    if len(line) > LONGEST_LINE:
        return None
    kind, _, rest = line.partition(" ")
    if kind in EDITS:
        said = hands.understood(line, False)
        return Said(*said) if said else None
    if kind in SIZES:
        return image_of(kind, line.split(" ")[1:])
    if kind not in NUMBERS:
        return None
    found = hands.numbers(line.split(" ")[1:], NUMBERS[kind])
    if found is None or kind in ("pictures", "inputs") and not 1 <= found[1] - found[0] <= 1024:
        return None
    return Said(kind, found, None)


def why_unknown(line):
    """Why a line that a newline ends isn't understood, where it isn't."""
    if len(line) > LONGEST_LINE:
        return "long"
    if line.endswith("\r"):
        return "return"
    word = line.split(" ")[0]
    return "rest" if word == "quit" or word in NUMBERS or word in EDITS or word in SIZES else "word"


def image_of(kind, parts):
    image = bytearray(SIZES[kind])
    for part in parts:
        match = PART.fullmatch(part)
        if not match:
            return None
        place, data = int(match.group(1), 16), bytes.fromhex(match.group(2))
        if place + len(data) > len(image):
            return None
        image[place:place + len(data)] = data
    return Said("load", [], bytes(image)) if parts else None


def made(movie, said):
    """The movie that an edit makes of this one. Raises its refusal."""
    if said.kind == "load":
        return Movie(said.frame, movie.frames)
    return Movie(movie.cart, hands.made(movie.frames, [], *said))


def stride(length):
    step = 64
    while length // step > 512:
        step *= 2
    return step


def runs_text(place, frames):
    """The runs of equal frames, a line each with its place, its count and its frame."""
    lines = []
    for frame, run in itertools.groupby(frames):
        count = len(list(run))
        lines.append("%d %d %s\n" % (place, count, frame))
        place += count
    return "".join(lines)


def at_of(words):
    """The number of edits that an answer names; nothing where it names none."""
    if words[0] in WITHOUT_AT or words == ["no", "draft"]:
        return None
    return int(words[2] if words[0] == "no" else words[1])


# ---- what a movie's beginning shows

Look = namedtuple("Look", "cart frames facts")  # a beginning of a movie, and each fact with who was shown it by which line


class Facts:
    """What clients were shown of beginnings of movies, in the order in which they were shown: equal beginnings must show the same."""

    def __init__(self):
        self.looks, self.places = [], {}

    def add(self, movie, count, name, value, shown_to):
        """After `count` frames of the movie, `name` is the value. Returns what it was at such a beginning before, or nothing."""
        frames = tuple(movie.frames[:count])
        key = (hash(movie.cart), count, hash(frames))
        if key not in self.places:
            self.places[key] = len(self.looks)
            self.looks.append(Look(movie.cart, frames, {}))
        facts = self.looks[self.places[key]].facts
        if name in facts:
            return facts[name][0]
        facts[name] = (value, shown_to)
        return None


# The line that shows a fact again, of a beginning of so many frames.
LOOK_AGAIN = {
    "ram": lambda count, _: "ram %d" % count, "picture": lambda count, _: "picture %d" % (count - 1), "lit": lambda count, _: "shot %d" % (count - 1),
    "halt": lambda count, _: "shot %d" % (count - 1), "lag": lambda count, name: "lag %s %d" % (name.split(" ")[2], count),
}


def value_of(name, head, body):
    """What an answer to such a line says of the fact."""
    words = head.split(" ")
    if name == "halt":
        return " ".join(words[2:]) if words[0] == "halted" else ""
    if name == "ram":
        return sha256(bytes.fromhex(words[3])).hexdigest() if words[0] == "ram" and len(words) == 4 else head
    return words[-1] if name == "lit" else head if body is None else body


# ---- the answers

class Answers:
    """Compares answers with what the lines are answered where the movie is `now`."""

    def __init__(self, facts, counts, replay, report):
        self.facts, self.counts, self.replay, self.report = facts, counts, replay, report
        self.now, self.text = BLANK, None

    def make(self, movie):
        self.now, self.text = movie, None

    def look(self, number, line, head, body, at):
        said = understood(line)
        if said is None:
            self.counts["not understood"] += 1
            self.expect(number, line, head, "unknown " + why_unknown(line))
            return
        kind = said.kind
        self.counts[kind] += 1
        if head.split(" ")[0] == "unknown" or head == "out of memory":
            self.differ(number, line, head, "an answer, since it is understood")
            return
        if kind in EDITS or kind == "load":
            self.expect(number, line, head, self.refused(said, at))
            return
        getattr(self, "of_" + kind)(number, line, head, body, at, *said.numbers)

    def refused(self, said, at):
        length = len(self.now.frames)
        try:
            made(self.now, said)
        except hands.Fault as fault:
            self.counts[str(fault)] += 1
            return "%s %d len %d" % (fault, at, length)
        return "edit .. len .."

    def is_there(self, number, line, head, at, frame):
        """Whether the movie has the frame; else the answer must say so."""
        if frame < len(self.now.frames):
            return True
        self.expect(number, line, head, "no frame %d len %d" % (at, len(self.now.frames)))
        self.counts["no frame"] += 1
        return False

    def of_len(self, number, line, head, _body, at):
        self.expect(number, line, head, "len %d %d" % (at, len(self.now.frames)))

    def of_input(self, number, line, head, _body, at, frame):
        if self.is_there(number, line, head, at, frame):
            self.expect(number, line, head, "input %d %s" % (at, self.now.frames[frame]))

    def of_inputs(self, number, line, head, body, at, first, last):
        if last > len(self.now.frames):
            self.expect(number, line, head, "no frame %d len %d" % (at, len(self.now.frames)))
            self.counts["no frame"] += 1
            return
        text = runs_text(first, self.now.frames[first:last])
        self.expect(number, line, head, "inputs %d %d %d %d" % (at, first, last, len(text)))
        if body != text:
            self.differ(number, line, head + "\n" + str(body), "the runs of these inputs:\n%s" % text)

    def movie_text(self):
        if self.text is None:
            self.text = hands.movie_text(self.now.cart, self.now.frames).decode()
        return self.text

    def of_movie(self, number, line, head, body, at):
        text = self.movie_text()
        self.expect(number, line, head, "movie %d %d" % (at, len(text)))
        if body != text:
            self.differ(number, line, head + "\n" + str(body), "the movie at %d edits:\n%s" % (at, text))

    def of_states(self, number, line, head, _body, at):
        words = head.split(" ")
        frames, step = [int(word) for word in words[3:]], stride(len(self.now.frames))
        fits = frames == sorted(set(frames)) and all(f % step == 0 and 0 < f <= len(self.now.frames) for f in frames)
        if not fits or words[:3] != ["states", str(at), str(len(frames))]:
            self.differ(number, line, head, "frames of the grid of %d, up to %d" % (step, len(self.now.frames)))

    def of_share(self, number, line, head, _body, at):
        most = len(self.now.frames) // stride(len(self.now.frames))
        match = re.fullmatch(r"share (\d+) (\d+)", head)
        if not match or int(match.group(2)) > most:
            self.differ(number, line, head, "share %d and at most %d" % (at, most))

    def of_version(self, number, line, head, _body, _at):
        self.expect(number, line, head, VERSION)

    def of_work(self, number, line, head, _body, _at, _frame):
        match = re.fullmatch(r"work jobs 1 kept (\d+) stale ([01])", head)
        if not match or int(match.group(1)) > 512:
            self.differ(number, line, head, "one job, at most 512 states")

    def of_shot(self, number, line, head, _body, at, frame):
        if not self.is_there(number, line, head, at, frame) or self.is_halted(number, line, head, at, frame):
            return
        match = re.fullmatch(r"shot %d %d ran (\d+) lit (\d+)" % (at, frame), head)
        ran = int(match.group(1)) if match else 0
        if not 1 <= ran <= frame + 1 or (frame + 1 - ran) % stride(len(self.now.frames)):
            self.differ(number, line, head, "shot %d %d, played from a state of the grid" % (at, frame))
        else:
            self.fact(number, line, head, frame + 1, "lit", match.group(2))

    def of_picture(self, number, line, head, body, at, frame):
        if not self.is_there(number, line, head, at, frame) or self.is_halted(number, line, head, at, frame):
            return
        if self.expect(number, line, head, "picture %d %d 100815" % (at, frame)):
            self.fact(number, line, head, frame + 1, "picture", body)

    def of_digest(self, number, line, head, _body, at, frame):
        if not self.is_there(number, line, head, at, frame) or self.is_halted(number, line, head, at, frame):
            return
        match = re.fullmatch(r"digest %d %d ram ([0-9a-f]{64}) picture ([0-9a-f]{64})" % (at, frame), head)
        if not match:
            self.differ(number, line, head, "digest %d %d" % (at, frame))
            return
        self.fact(number, line, head, frame + 1, "ram", match.group(1))
        self.fact(number, line, head, frame + 1, "picture", match.group(2))

    def of_ram(self, number, line, head, _body, at, count):
        if count > len(self.now.frames):
            self.is_there(number, line, head, at, count)
            return
        match = re.fullmatch(r"ram %d %d ([0-9A-F]{256})" % (at, count), head)
        if not match:
            self.differ(number, line, head, "ram %d %d and 256 digits" % (at, count))
            return
        self.fact(number, line, head, count, "ram", sha256(bytes.fromhex(match.group(1))).hexdigest())

    def of_lag(self, number, line, head, body, at, first, last):
        if first > last or last > len(self.now.frames):
            self.expect(number, line, head, "no frame %d len %d" % (at, len(self.now.frames)))
            self.counts["no frame"] += 1
            return
        if self.expect(number, line, head, "lag %d %d %d %d" % (at, first, last, len(body or ""))):
            self.fact(number, line, head, last, "lag from %d" % first, body)

    def is_halted(self, number, line, head, at, frame):
        """Whether the answer says that the machine has halted by then. A halted frame shows no picture: both are one fact."""
        match = re.fullmatch(r"halted %d ([0-9A-F]{4} [0-9A-F]{2})" % at, head)
        self.fact(number, line, head, frame + 1, "halt", match.group(1) if match else "")
        self.counts["halted"] += bool(match)
        return bool(match)

    def fact(self, number, line, head, count, name, value):
        known = self.facts.add(self.now, count, name, value, (number, line))
        if known is None:
            self.replay.append((LOOK_AGAIN[name.split(" ")[0]](count, name), name, value))
        elif known != value:
            self.differ(number, line, head, "the same as where these %d frames were looked at before, %s %s" % (count, name, known))

    # -- differences

    def expect(self, number, line, head, wanted):
        if head != wanted:
            self.differ(number, line, head, wanted)
        return head == wanted

    def differ(self, number, line, head, wanted):
        self.report(number, line, head, wanted)
