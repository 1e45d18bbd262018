"""Journals: the movie that one makes, the one that a conversation writes, and random ones.

Written from docs/FORMATS.md alone (Journals). Movie texts are read by readings.py.
"""

import re
from hashlib import sha256

import machine
import readings
import spoiling
from answers import hands

FORMAT = b"a26journal 1\n"
PROFILE = b"profile %d\n" % machine.PROFILE
THIRD = re.compile(rb"movie (0|[1-9][0-9]*) ([0-9a-f]{64})\n")
NUMBER = "(0|[1-9][0-9]{0,6})"
DELETION = re.compile("delete %s %s" % (NUMBER, NUMBER))
FRAMES = re.compile("(insert|replace) %s((?: %s .{17})+)" % (NUMBER, NUMBER))
RUN = re.compile(" %s (.{17})" % NUMBER)
CART = re.compile("(load|load2) 000=((?:[0-9A-F]{2})*)")
SIZES = {"load": 4096, "load2": 2048}
MOST_SEAT = 2**32 - 1


# ---- reading

def fault(line, kind):
    return hands.Fault("journal line %d: %s" % (line, kind))


def opened(journal, cart):
    """The frames of the movie that a journal begins with, what follows the head, and the number of the line there."""
    if not journal.startswith(FORMAT):
        raise fault(1, "head")
    if not journal.startswith(FORMAT + PROFILE):
        raise fault(2, "profile")
    after = journal[len(FORMAT + PROFILE):]
    third = THIRD.match(after)
    text = after[third.end():][:int(third.group(1))] if third else b""
    if not third or len(text) != int(third.group(1)) or sha256(text).hexdigest().encode() != third.group(2):
        raise fault(3, "movie")
    if not text.startswith(b"a26movie 2\n"):
        raise fault(4, "head")
    try:
        frames = readings.read_movie(text, cart)
    except readings.MovieFault as found:
        line, kind = re.fullmatch("movie line ([0-9]+): (.*)", str(found)).groups()
        raise fault(3 + int(line), kind) from None
    return frames, after[third.end() + len(text):], 4 + text.count(b"\n")


def runs_said(words):
    """The frames of some runs; nothing where they aren't written as they must be."""
    runs = [(int(count), frame) for count, frame in RUN.findall(words)]
    if runs == [(0, hands.REST)]:
        return []
    if any(count == 0 or not hands.is_frame(frame) for count, frame in runs) or any(one[1] == two[1] for one, two in zip(runs, runs[1:])):
        return None
    if sum(count for count, _ in runs) > hands.MOST:
        return None
    return [frame for count, frame in runs for _ in range(count)]


def edit_said(words):
    """What an edit's words say, as a kind and what it needs; nothing where they are none's."""
    deletion, frames, cart = DELETION.fullmatch(words), FRAMES.fullmatch(words), CART.fullmatch(words)
    if deletion:
        return "delete", int(deletion.group(1)), int(deletion.group(2))
    if cart and len(cart.group(2)) == 2 * SIZES[cart.group(1)]:
        return "load", bytes.fromhex(cart.group(2)), None
    new = runs_said(frames.group(3)) if frames else None
    return None if new is None else (frames.group(1), int(frames.group(2)), new)


def made(frames, kind, place, what):
    """The frames after an edit. Raises why it is refused."""
    count = what if kind == "delete" else len(what)
    if place + (0 if kind == "insert" else count) > len(frames):
        raise hands.Fault("place %d of %d" % (place, len(frames)))
    if kind == "insert" and len(frames) + count > hands.MOST:
        raise hands.Fault("too long at %d" % len(frames))
    if kind == "delete":
        return frames[:place] + frames[place + count:]
    return frames[:place] + what + frames[place + (count if kind == "replace" else 0):]


def recovered(journal, cart, until=None):
    """The cartridge and the frames that a journal's lines before this one make, and the report."""
    frames, rest, line = opened(journal, cart)
    *lines, cut = rest.decode("latin-1").split("\n")
    wanted = lines if until is None else lines[:max(until - line, 0)]
    for number, words in enumerate(wanted):
        start, seat, words = (words.split(" ", 2) + [None] * 2)[:3] if " " in words else (None, None, None)
        if start != str(number):
            raise fault(line + number, "number")
        said = None if words is None or not re.fullmatch("0|[1-9][0-9]{0,9}", seat) or int(seat) > MOST_SEAT else edit_said(words)
        if said is None:
            raise fault(line + number, "edit")
        if said[0] == "load":
            cart = said[1]
            continue
        try:
            frames = made(frames, *said)
        except hands.Fault as refused:
            raise fault(line + number, refused) from None
    has_cut = cut and (until is None or line + len(lines) < until)
    return cart, frames, "recovered: %d edits%s\n" % (len(wanted), "; a last line was cut" if has_cut else "")


# ---- of a conversation

def head(text):
    return FORMAT + PROFILE + b"movie %d %s\n" % (len(text), sha256(text).hexdigest().encode()) + text


def line_of(number, told):
    """The line of an edit that a history has in these lines: the first one, and of each further one the count and the frame."""
    return "%d 0 %s\n" % (number, " ".join(told[:1] + [line.split(" ", 2)[2] for line in told[1:]]))


def written(text, edits):
    """The journal of a conversation that began with this movie and made these edits."""
    return head(text) + "".join(line_of(number, told) for number, told in enumerate(edits)).encode()


# ---- random ones


def some_edit(rng, length):
    """The words of an edit of a movie of this many frames, and how many it leaves; seldom one that is refused."""
    place = rng.randint(0, length) if rng.random() < 0.96 else length + rng.randint(1, 9)
    kind = rng.choice(("insert", "insert", "replace", "delete", "delete", "load"))
    if kind == "load":
        size = rng.choice((2048, 4096))
        return "%s 000=%s" % ("load" if size == 4096 else "load2", bytes(rng.choice((0, 2, 0xF0)) for _ in range(8)).hex().upper() * (size // 8)), length
    most = max(length - place, 0) if kind != "insert" else 9
    count = rng.randint(0, min(most, 9)) + (rng.random() < 0.03)
    if kind == "delete":
        return "delete %d %d" % (place, count), max(length - count, 0)
    if kind == "insert" and rng.random() < 0.03:
        return "insert %d %d %s" % (place, hands.MOST - rng.randint(0, 9), hands.REST), hands.MOST
    new = [hands.some_frame(rng) for _ in range(count)]
    words = "".join(" %d %s" % (n, frame) for frame, n in hands.runs(new)) or " 0 " + hands.REST
    return "%s %d%s" % (kind, place, words), length + (count if kind == "insert" else 0)


def some_journal(rng, cart, frames):
    """A journal of this movie, mostly; it may be spoilt, cut at any byte, or of another profile."""
    length, lines = len(frames), []
    for number in range(rng.choice((0, 1, 2, 3, 5, 9))):
        words, length = some_edit(rng, length)
        seat = rng.choice((0, 1, 7, 10, MOST_SEAT, MOST_SEAT + (rng.random() < 0.1)))
        lines.append("%d %d %s\n" % (number, seat, words))
    text = hands.movie_text(cart, frames) if rng.random() < 0.85 else spoiling.movie_text(rng, cart, frames, 0.3)
    journal, first, way = head(text) + "".join(lines).encode(), len(head(text)), rng.random()
    if way < 0.1:
        return journal[:rng.randint(0, len(journal))]
    if way < 0.45:
        return journal[:rng.randint(first, len(journal))]
    if way < 0.6:
        return journal[:first] + spoiling.spoilt(rng, journal[first:])
    if way < 0.7:
        return spoiling.spoilt(rng, journal)
    if way < 0.75:
        return journal.replace(PROFILE, b"profile 1\n", 1)
    return journal
