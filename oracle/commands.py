"""What the program answers to words, files and standard input: its standard output, the line on standard error, and its status.

Written from docs/FORMATS.md alone. Texts are read by readings.py. What only another machine could tell, and what the page leaves open, raises Open.
"""

import re
from collections import Counter, namedtuple
from hashlib import sha256

import drafts
import journals
import looks
import machine
import manifests
import readings
import searches
from answers import hands
from readings import MOST
from resting import BLACK, MOST_PLAYED, Open, check_reach, rest_of

MOST_BYTES = 16777216
MOST_DRAWN = 200
MOST_STATES = 100000  # of a layer of a search, without --most
# The words after each command: a cartridge, a file, a movie's file, a goal, a number; those after the bar may be missing. And the most that each number may be.
FORMS = {
    "check": "c", "migrate": "c", "edit": "cf", "cut": "cnn", "diff": "cm", "script": "", "talk": "|cm", "shot": "cn", "film": "c|nn", "export": "cnnw", "ram": "cnn",
    "digest": "c|e", "compare": "cm", "lag": "c", "trace": "t", "new": "cl", "recover": "c", "search": "cnlg", "verify": "", "desk": "cmff|ffffffffffffff"}
NUMBERS = {"n": (0, 9999999), "w": (1, 16), "e": (1, MOST), "l": (0, MOST), "s": (1, 9999999), "t": (0, 1000000), "j": (1, 4294967295)}
FLAGS = {"edit": ("--with",), "ram": ("--names",), "talk": ("--journal",), "desk": ("--journal",), "recover": ("--until", "--cart"), "search": ("--choices", "--names", "--hold", "--first", "--most", "--workers"), "verify": ("--carts", "--workers"), "script": ("--cart", "--movie")}
KEPT = "day"  # the file of a conversation's journal, or of a recovery's cartridge
FLAG_NUMBERS = {"--hold": "e", "--most": "s", "--workers": "w", "--until": "j"}
NUMBER = re.compile(r"\+?0*([0-9]{1,10})")
# What the files of a command are to it, where its faults name them; the stream is its movie.
ROLES = {"ram": ["cartridge", "names"], "digest": ["cartridge"], "lag": ["cartridge"], "cut": ["cartridge"], "compare": ["cartridge", "old movie"], "diff": ["cartridge", "old movie"],
         "edit": ["cartridge", "script", "other movie"]}
PART, MOST_PARTS = re.compile(r"([1-9][0-9]{0,6})/([1-9][0-9]{0,6})"), 1000000

Wanted = namedtuple("Wanted", "output errors status")  # nothing stands for a text for people
NOT_TEXT = Wanted(b"", b"error: the words aren't all text\n", 2)
WRONG = Wanted(b"", None, 2)
FOR_PEOPLE = Wanted(None, b"", 0)


class Wrong(Exception):
    """The words are wrong."""


class PowerOn:
    """A movie of which nothing is played."""

    @staticmethod
    def ram_after(_count):
        return bytes(128)


# ---- words

def number_of(word, kind):
    match = NUMBER.fullmatch(word)
    if not match or not NUMBERS[kind][0] <= int(match.group(1)) <= NUMBERS[kind][1]:
        raise Wrong
    return int(match.group(1))


def part_of(word):
    """The number of a part, and how many parts there are."""
    match = PART.fullmatch(word)
    number, parts = (int(digits) for digits in match.groups()) if match else (1, 0)
    if not number <= parts <= MOST_PARTS:
        raise Wrong
    return number, parts


def value_of(flag, word):
    """What a word after a flag gives."""
    if flag == "--first":
        return part_of(word)
    return number_of(word, FLAG_NUMBERS[flag]) if flag in FLAG_NUMBERS else word


def is_flag(word):
    return word.startswith("-") and word != "-"


def apart(command, words):
    """The words without flags, and those with a flag."""
    plain, flagged, words = [], {}, list(words)
    while words:
        word = words.pop(0)
        if word == "--":
            return plain + words, flagged
        if not is_flag(word):
            plain.append(word)
            continue
        flag, is_joined, value = word.partition("=")
        if flag not in FLAGS.get(command, ()) or not is_joined and not words:
            raise Wrong
        if flag in flagged or not is_joined and is_flag(words[0]):
            raise Open("a flag that is given twice, or is followed by one")
        flagged[flag] = value if is_joined else words.pop(0)
    return plain, flagged


def given(command, words):
    """What the words of a command give: letters of FORMS with words or numbers."""
    plain, flagged = apart(command, words)
    least, _, more = FORMS[command].partition("|")
    form = least + more
    if not len(least) <= len(plain) <= len(form) or command == "desk" and len(plain) % 2:
        raise Wrong
    if command == "script" and len(flagged) == 1:
        raise Open("`tas script` with one of its flags alone")
    flagged = {flag: value_of(flag, word) for flag, word in flagged.items()}
    return [(kind, number_of(word, kind) if kind in NUMBERS else word) for kind, word in zip(form, plain)], flagged


# ---- files

class Inputs:
    """The files of a run and its standard input."""

    def __init__(self, files, stream):
        self.files, self.stream = files, stream
        self.roles = None  # of the files; none of a command whose faults name no input

    def fault(self, place, count, why):
        """The fault of the input at this place, which is the stream after so many files."""
        role = "" if self.roles is None else (self.roles[place] if place < count else "movie") + ": "
        return hands.Fault(role + why)

    def read(self, names, has_stream=True):
        """The bytes of these files, and of the stream last."""
        for name in names:
            if "/" in name and name not in self.files:
                raise Open("a path")
        for place, name in enumerate(names):
            if name not in self.files:
                raise self.fault(place, len(names), "read failed")
        found = [self.files[name] for name in names] + ([self.stream] if has_stream else [])
        for place, data in enumerate(found):
            if len(data) > MOST_BYTES:
                raise self.fault(place, len(names), "input is too long")
        return found


def sized(cart):
    if len(cart) not in (2048, 4096):
        raise hands.Fault("cartridge has %d bytes" % len(cart))
    return cart


def read_second(text, cart, which, detail):
    """The movie of a file beside the one on the stream; its fault says which movie it is of."""
    try:
        return readings.read_movie(text, cart)
    except hands.Fault as fault:
        named = hands.Fault("%s %s" % (which, fault))
        named.detail = detail
        raise named from None


def within(first, last, most, length):
    """Raises the fault of a range that doesn't end at `most` or before it, in a movie of that length."""
    if not first <= last <= most:
        raise hands.Fault("range %d to %d of %d" % (first, last, length))


# ---- commands: each gives its output, or raises its fault

class Run:
    """A run of the program. A search may play so many frames here."""

    def __init__(self, files, stream, seen, most_searched=20):
        self.inputs, self.seen, self.most_searched = Inputs(files, stream), seen, most_searched
        self.space = None  # of a search
        self.kept = None  # the journal of a conversation, or the cartridge of a recovery

    def wanted(self, words):
        """What must come of these words."""
        try:
            words = [word.decode() for word in words]
        except UnicodeDecodeError:
            return NOT_TEXT
        if not words or words[0] == "--" or {"-h", "-V"} & set(words):
            raise Open("no words, or a flag that the page doesn't name")
        if words[1:] == ["--help"] and words[0] in FORMS or words in (["--help"], ["--version"]):
            return FOR_PEOPLE
        if "--help" in words or "--version" in words:
            raise Open("a request for help among other words")
        if words[0] not in FORMS:
            return WRONG
        try:
            found, flagged = given(words[0], words[1:])
        except Wrong:
            return WRONG
        return self.ran(words[0], found, flagged)

    def ran(self, command, found, flagged):
        self.output = self.errors = b""
        self.inputs.roles = ROLES.get(command)
        try:
            named = {"image" if command == "recover" and flag == "--cart" else flag[2:]: word for flag, word in flagged.items()}
            self.output = getattr(self, command)(*[value for _, value in found], **named)
        except hands.Fault as fault:
            self.seen["%s: %s" % (command, getattr(fault, "detail", re.sub(r"halted.*", "halted", re.sub(r"\d+", "N", str(fault)))))] += 1
            return Wanted(self.output, ("fault: %s\n" % fault).encode(), 1)
        self.seen[command + ": done"] += 1
        return Wanted(self.output, self.errors, 0)

    def movie(self, cart):
        """The cartridge, and the movie on the stream."""
        cart, text = self.inputs.read([cart])
        return sized(cart), readings.read_movie(text, cart)

    def two_movies(self, cart, old):
        """The cartridge, the movie of a file, and the one on the stream."""
        cart, old, text = self.inputs.read([cart, old])
        found = [sized(cart), read_second(old, cart, "old", "first text")]
        try:
            found.append(readings.read_movie(text, cart))
        except hands.Fault as fault:
            fault.detail = "second text"
            raise
        return tuple(found)

    def check(self, cart):
        return b"ok %d frames\n" % len(self.movie(cart)[1])

    def migrate(self, cart):
        return hands.movie_text(*self.movie(cart))

    def new(self, cart, frames):
        cart, = self.inputs.read([cart], False)
        return hands.movie_text(sized(cart), [hands.REST] * frames)

    def recover(self, cart, until=None, image=None):
        """The movie of a journal of any length; the report goes to standard error, and the cartridge to a file."""
        if image not in (None, KEPT):
            raise Open("a cartridge's file that may be there")
        began, = self.inputs.read([cart], False)
        cart, frames, report = journals.recovered(self.inputs.stream, sized(began), until)
        self.errors = report.encode()
        self.kept = cart if image is not None else None
        self.seen["recover: a cut line"] += "cut" in report
        self.seen["recover: a loaded cartridge is kept"] += image is not None and cart != began
        return hands.movie_text(cart, frames)

    def search(self, cart, start, frames, goal, choices=None, names=None, hold=1, first=searches.WHOLE, most=MOST_STATES, **_workers):
        """The script; the verdict goes to standard error, after the lines of the layers."""
        cart, *texts, movie = self.inputs.read([cart] + [name for name in (choices, names) if name is not None])
        movie = readings.read_movie(movie, sized(cart))
        choices = searches.STICK if choices is None else searches.read_choices(texts[0])
        goal = searches.read_goal(goal, {} if names is None else searches.read_names(texts[-1]))
        if frames % hold:
            raise hands.Fault("frames are no multiple of hold")
        if start > len(movie):
            raise hands.Fault("movie has %d frames" % len(movie))
        if start + frames > MOST:
            raise hands.Fault("movie gets too long")
        count = frames // hold
        if count > searches.MOST_CHOICES or searches.frames_of(start, len(choices), count, hold, first) > self.most_searched:
            raise Open("too many frames for this comparison")
        space = searches.space_of(cart, tuple(movie[:start]), tuple(choices), count, hold, first)
        verdict, sequence = searches.answer(space, goal, most)
        self.space = space
        self.errors = (verdict + "\n").encode()
        return b"" if sequence is None else searches.script_of(sequence, space, start, len(movie))

    def verify(self, carts=None, **_workers):
        """A line for each movie of a manifest, and one that counts."""
        if carts is not None and carts != "." and "/" in carts:
            raise Open("a path")
        if carts not in (None, "."):
            raise hands.Fault("carts: read failed")
        if len(self.inputs.stream) > MOST_BYTES:
            raise hands.Fault("manifest: input is too long")
        rows = manifests.rows_of(self.inputs.stream)
        said = [self.verified(carts is not None, *row) for row in rows]
        good = said.count("ok")
        self.output = b"".join(row[0] + b": " + one.encode() + b"\n" for row, one in zip(rows, said)) + b"%d of %d ok\n" % (good, len(rows))
        for one in said:
            self.seen["verify: " + re.sub(r"halted.*", "halted", re.sub(r"\d+", "N", one))] += 1
        if good < len(rows):
            raise hands.Fault("not all movies are ok")
        return self.output

    def opened(self, word, role):
        """The bytes of a manifest's file."""
        name = word.decode("utf-8", "replace")
        if "/" in name:
            raise Open("a path")
        if name not in self.inputs.files:
            raise hands.Fault(role + " not found")
        if len(self.inputs.files[name]) > MOST_BYTES:
            raise hands.Fault(role + ": input is too long")
        return self.inputs.files[name]

    def found_cart(self, word, has_carts):
        """The bytes of the cartridge that is named by its file or by its SHA-256."""
        if not manifests.SHA256.fullmatch(word):
            return self.opened(word, "cartridge")
        for image in self.inputs.files.values() if has_carts else ():
            if len(image) in (2048, 4096) and sha256(image).hexdigest().encode() == word:
                return image
        raise hands.Fault("cartridge not found")

    def verified(self, has_carts, movie, cart, digest):
        """What a movie's line says."""
        try:
            text, image, stored = self.opened(movie, "movie"), self.found_cart(cart, has_carts), self.opened(digest, "digest")
            every = manifests.every_of(stored)
            now = Run({"cart": image}, text, Counter()).digest("cart", every)
        except hands.Fault as fault:
            return str(fault)
        return manifests.compared(now, stored, every)

    def edit(self, cart, script, **flagged):
        others = [flagged["with"]] if flagged else []
        cart, script, *others, text = self.inputs.read([cart, script] + others)
        sized(cart)
        others = [read_second(other, cart, "other", "other text") for other in others]
        frames = readings.read_movie(text, cart)
        return hands.movie_text(cart, hands.edited(frames, others[0] if others else None, script.decode("latin-1"), self.seen))

    def cut(self, cart, first, last):
        cart, frames = self.movie(cart)
        within(first, last, len(frames), len(frames))
        return hands.movie_text(cart, frames[first:last])

    def diff(self, cart, old):
        """What must be said of the script: it is compared by what it makes."""
        return self.two_movies(cart, old)

    def script(self, cart=None, movie=None):
        if cart is None:
            holder, text = readings.Holder(is_script=True), self.inputs.read([])[0]
        else:
            cart, old, text = self.inputs.read([cart, movie])
            holder = readings.Holder(sized(cart), readings.read_movie(old, cart), True)
        self.output, fault = readings.scripted(holder, text, self.seen)
        if fault:
            raise hands.Fault(fault)
        return self.output

    def talk(self, cart=None, movie=None, journal=None):
        if journal is not None and ("/" in journal or journal in self.inputs.files):
            raise Open("a journal that may be there")
        holder = readings.Holder()
        if cart is not None:
            cart, *old = self.inputs.read([cart] if movie is None else [cart, movie], False)
            holder = readings.Holder(cart, readings.read_movie(old[0], sized(cart)) if old else sized(cart) and [])
        first, text = len(holder.edits), hands.movie_text(*holder.main.movie)
        answers = readings.conversed(holder, self.inputs.stream, self.seen)
        if journal is not None:
            self.kept = journals.written(text, holder.edits[first:])
            self.seen["talk: an edit in a journal"] += len(holder.edits) > first
        return answers

    def desk(self, cart, movie, *pairs, journal=None):
        """Where no pair is there."""
        if journal is not None:
            raise Open("a desk with a journal")
        cart, old = self.inputs.read([cart, movie], False)
        frames = readings.read_movie(old, sized(cart))
        if any(name in self.inputs.files for name in pairs):
            raise Open("a pair of a desk")
        self.output = hands.movie_text(cart, frames)
        raise hands.Fault("seat 0: not opened")

    # -- what plays the movie, for cartridges that needn't be played

    def played(self, cart, count):
        """What each frame comes to, where so many are to be played."""
        check_reach(count)
        return rest_of(cart)

    def check_halt(self, cart, count, fault):
        """Raises the fault of a machine that halts in one of this number of frames."""
        halt = self.played(cart, count).halt
        if halt is not None:
            raise hands.Fault(fault + " by ".join(halt.split(" ")))

    def drawn(self, cart, first, last, fault):
        """The pictures of these frames."""
        if first >= last:
            return b""
        self.check_halt(cart, last, fault)
        if last - first > MOST_DRAWN:
            raise Open("too many pictures for this comparison")
        return BLACK * (last - first)

    def shot(self, cart, frame):
        cart, frames = self.movie(cart)
        if frame >= len(frames):
            raise hands.Fault("no frame %d of %d" % (frame, len(frames)))
        return self.drawn(cart, frame, frame + 1, "halted at ")

    def film(self, cart, first=0, last=None):
        cart, frames = self.movie(cart)
        last = len(frames) if last is None else last
        within(first, last, len(frames), len(frames))
        return self.drawn(cart, first, last, "frame %d halted at " % first)

    def export(self, cart, first, last, _workers):
        cart, frames = self.movie(cart)
        within(first, last, min(len(frames), first + 1024), len(frames))
        return self.drawn(cart, first, last, "halted at ")

    def ram(self, cart, first, last, names=None):
        cart, *texts, movie = self.inputs.read([cart] + ([] if names is None else [names]))
        frames = readings.read_movie(movie, sized(cart))
        names = None if names is None else searches.read_names(texts[0])
        within(first, last, len(frames) + 1, len(frames))
        played = self.played(cart, last) if last > max(first, 1) else PowerOn
        self.seen["ram: a table of several names"] += names is not None and len(names) > 1 and last > first
        return looks.ram_lines(played, first, last) if names is None else looks.table_lines(played, names, first, last)

    def digest(self, cart, every=None):
        cart, frames = self.movie(cart)
        if frames:
            self.check_halt(cart, len(frames), "halted at ")
        self.seen["digest: more than 600 frames without EVERY"] += every is None and len(frames) > 600
        every = every or 600
        text = hands.movie_text(cart, frames)
        lines = ["a26digest 1", f"profile {machine.PROFILE}", "cart " + sha256(cart).hexdigest(), "movie " + sha256(text).hexdigest()]
        for first in range(0, len(frames), every):
            last = min(first + every, len(frames))
            lines.append("frames %d to %d ram %s picture %s" % (
                first, last, sha256(bytes(128 * (last - first))).hexdigest(), sha256(BLACK).hexdigest()))
        return "".join(line + "\n" for line in lines + ["end %d frames" % len(frames)]).encode()

    def compare(self, cart, old):
        cart, old, new = self.two_movies(cart, old)
        if old or new:
            self.played(cart, len(old) + len(new))
        common = drafts.common(old, new)
        first = str(common) if old != new else "none"
        later = str(min(len(old), len(new))) if len(old) != len(new) else "none"
        return ("input %s\nram %s\npicture %s\n" % (first, later, later)).encode()

    def lag(self, cart):
        cart, frames = self.movie(cart)
        return self.played(cart, len(frames)).lag_lines(0, len(frames)) if frames else b""

    def trace(self, count):
        cart, = self.inputs.read([])
        sized(cart)
        if count > MOST_PLAYED and rest_of(cart).halt is None:
            raise Open("too many instructions for this comparison")
        return machine.trace_text(machine.Machine(cart), count).encode() if count else b""


# ---- scripts of changes

def broken_promises(old, new, script):
    """What the page promises of the script that makes the new movie of the old one, and this one doesn't keep; nothing if it keeps all."""
    front = drafts.common(old, new)
    back = drafts.common(old[front:][::-1], new[front:][::-1])
    now, rest, last = [], 0, None  # the movie so far is `now` and then the old one from frame `rest` on: lines go from front to back
    for text in script.split("\n")[:-1]:
        said = hands.understood(text, False)
        if said is None or said[0] not in ("insert", "replace", "delete"):
            return "a line of another kind: " + text
        kind, (place, count), frame = said
        gone = 0 if kind == "insert" else count
        end, length = len(now), len(now) + len(old) - rest
        if count == 0 or place < max(front, end) or place + gone > length - back:
            return "a line that is out of its order, does nothing, or touches what both movies have in common: " + text
        now += old[rest:rest + place - end]
        rest += place - end
        if kind == "replace" and not is_one_change(old[rest:rest + count], frame):
            return "a replacement that doesn't begin and end with a change, or has sixteen frames in a row that stay: " + text
        if last and place == end and not may_touch(last, said):
            return "two lines that could be one: " + text
        if kind == "insert" and length + count > MOST:
            return "a line that is refused as long: " + text
        now += [] if kind == "delete" else [frame] * count
        rest += gone
        last = said
    now += old[rest:]
    return None if now == new and script[-1:] in ("", "\n") else "another movie"


def longest_hunk(script):
    """How many frames the longest hunk of a script removes and adds, where each frame is a run of its own. Four runs stay between two hunks."""
    longest = frames = end = 0
    for text in script.split("\n")[:-1]:
        kind, (place, count), _ = hands.understood(text, False)
        frames = (frames if place - end < 4 else 0) + count
        end = place if kind == "delete" else place + count
        longest = max(longest, frames)
    return longest


def is_one_change(old, frame):
    stays = "".join("=" if one == frame else "x" for one in old)
    return stays[0] == stays[-1] == "x" and "=" * 16 not in stays


def may_touch(one, other):
    return one[0] == other[0] and one[0] != "delete" and one[2] != other[2] or {one[0], other[0]} == {"insert", "delete"}
