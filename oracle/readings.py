"""What texts mean: movie texts of both kinds, scripts, and the lines of a conversation with their answers.

Written from docs/FORMATS.md alone. The model of edits is that of `hands`, understood lines are those of answers.py. Which states are kept is that of resting.py, and so is what is shown.
"""

import re
from functools import lru_cache
from hashlib import sha256

import answers
import drafts
from answers import Movie, Said, hands
from resting import BLACK, HEAD_OF_PIXMAP, Kept, KeptOfDraft, Open, check_reach, rest_of

MOST = hands.MOST
HEADS = {"a26movie 1": 65536, "a26movie 2": MOST}
RUN = re.compile(r"(.{17}) x([1-9][0-9]{0,6})")
MOST_EDITS = 1000000
OF_SCRIPTS = ("load", "insert", "replace", "delete", "len", "input", "shot", "work")


class MovieFault(hands.Fault):
    def __init__(self, line, kind, detail):
        super().__init__("movie line %d: %s" % (line, kind))
        self.detail = detail


# ---- movie texts

is_frame = lru_cache(100000)(hands.is_frame)


class MovieText:
    """A movie text, read line by line up to its first line at fault."""

    def __init__(self, text, cart):
        self.lines = text.decode("latin-1").split("\n")
        self.digest = "cart " + sha256(cart).hexdigest()
        self.frames, self.last = [], None

    def read(self):
        count = len(self.lines) - (self.lines[-1] == "")
        for number in range(1, max(2, count) + 1):
            kind = self.fault_of(number)
            if kind:
                raise MovieFault(number, kind.split(",")[0], "movie %s %s" % (self.lines[0][-1:] if self.lines[0] in HEADS else "?", kind))
        return self.frames

    def fault_of(self, number):
        if number >= len(self.lines):
            return "end"
        line = self.lines[number - 1]
        if number == 1:
            return None if line in HEADS else "head"
        if number == 2:
            return None if line == self.digest else "digest"
        return self.fault_of_frames(line)

    def fault_of_frames(self, line):
        if len(self.frames) >= HEADS[self.lines[0]]:
            return "too many, before the line"
        has_runs = self.lines[0] == "a26movie 2"
        frame, count = run_of(line) if has_runs else (line, 1)
        if not is_frame(frame):
            return "frame"
        if has_runs and frame == self.last:
            return "run"
        if has_runs and len(self.frames) + count > MOST:
            return "too many, with the line"
        self.frames += [frame] * count
        self.last = frame
        return None


def run_of(line):
    match = RUN.fullmatch(line)
    return (match.group(1), int(match.group(2))) if match and 2 <= int(match.group(2)) <= MOST else (line, 1)


def read_movie(text, cart):
    """The frames of a movie text. Raises the fault of its first line at fault."""
    return MovieText(text, cart).read()


# ---- lines and their answers

@lru_cache(100000)
def understood(line, is_script):
    """What a line of a script or of a conversation says; nothing where it isn't understood."""
    if is_script and line.split(" ")[0] not in OF_SCRIPTS + ("load2",):
        return None
    if is_script and len(line) > answers.LONGEST_LINE and line.startswith("load"):
        kind, *parts = line.split(" ")
        return answers.image_of(kind, parts) if kind in answers.SIZES else None
    return answers.understood(line)


def entry(frames, said):
    """The lines that a history has for an edit of these frames."""
    kind, found = said.kind, said.numbers
    if kind == "load":
        return ["%s 000=%s" % ("load" if len(said.frame) == 4096 else "load2", said.frame.hex().upper())]
    if kind == "delete":
        return ["delete %d %d" % tuple(found)]
    if kind in ("insert", "replace"):
        return ["%s %d %d %s" % (kind, *found, said.frame if found[1] else hands.REST)]
    word, place, new = "insert", found[0], said.frame
    if kind in ("press", "release"):
        word, new = "replace", [hands.letters(f, said.frame, kind == "press") for f in frames[place:place + found[1]]]
    elif kind == "repeat":
        place, new = place + found[1], frames[place:place + found[1]] * found[2]
    elif kind == "copy":
        place, new = found[2], frames[found[0]:found[0] + found[1]]
    return drafts.run_lines(word, place, new) or ["%s %d 0 %s" % (word, place, hands.REST)]


class Side:
    """A movie with its number of edits and its states: the one that is held, or that of a draft."""

    def __init__(self, movie, at, kept):
        self.movie, self.at, self.kept = movie, at, kept

    def make(self, said):
        place, count = (said.numbers + [0, 0])[:2]
        if said.kind == "copy":
            place = said.numbers[2]
        self.movie = answers.made(self.movie, said)
        self.kept.edited(said.kind, place, count, self.length())
        self.at += 1

    def length(self):
        return len(self.movie.frames)


class Holder:
    """What a script or a conversation holds. Its methods' answers have no newline at the end of their first line, but all that follows it."""

    def __init__(self, cart=None, frames=(), is_script=False):
        self.is_script, self.draft, self.edits = is_script, None, []
        self.main = Side(answers.BLANK, 0, Kept())
        if cart is not None:
            self.main.movie, self.main.at = Movie(cart, list(frames)), 2
            self.edits = [entry([], Said("load", [], cart)), entry([], Said("frames", [0], frames))]

    def answer(self, line):
        """The answer to a line; nothing where it isn't understood."""
        said = understood(line, self.is_script)
        if said is None:
            return None
        side = self.draft or self.main
        if said.kind in answers.EDITS or said.kind == "load":
            return self.edit(side, said)
        return getattr(self, "of_" + said.kind)(side, *said.numbers)

    def edit(self, side, said):
        is_full = side.at >= MOST_EDITS
        if said.kind == "load" and self.draft:
            if is_full:
                raise Open("a `load` in a draft that is full")
            return "in draft"
        if is_full:
            return "full %d" % side.at
        frames = side.movie.frames
        try:
            side.make(said)
        except hands.Fault as fault:
            return "%s %d len %d" % (fault, side.at, side.length())
        if side is self.main:
            self.edits.append(entry(frames, said))
        return "edit %d len %d" % (side.at, side.length())

    def no_frame(self, side):
        return "no frame %d len %d" % (side.at, side.length())

    # -- what needs no machine

    def of_len(self, side):
        return "len %d %d" % (side.at, side.length())

    def of_input(self, side, frame):
        return "input %d %s" % (side.at, side.movie.frames[frame]) if frame < side.length() else self.no_frame(side)

    def of_inputs(self, side, first, last):
        side.kept.share(side.movie)
        if last > side.length():
            return self.no_frame(side)
        text = answers.runs_text(first, side.movie.frames[first:last])
        return "inputs %d %d %d %d\n%s" % (side.at, first, last, len(text), text)

    def of_movie(self, side):
        text = hands.movie_text(*side.movie).decode()
        side.kept.share(side.movie)
        return "movie %d %d\n%s" % (side.at, len(text), text)

    def of_states(self, side):
        side.kept.share(side.movie)
        return " ".join(map(str, ["states", side.at, len(side.kept.shots)] + sorted(side.kept.shots)))

    def of_share(self, _side):
        return "share %d %d" % (self.main.at, self.main.kept.share(self.main.movie))

    def of_history(self, _side, first):
        entries = [(0, lines) for lines in self.edits[first:first + answers.TOLD_AT_ONCE + 1]]
        told = self.edits[first:first + answers.told_at_once(entries)]
        text = "".join("%d 0 %s\n" % (number, line) for number, lines in enumerate(told, first) for line in lines)
        return "history %d %d %d %d\n%s" % (self.main.at, first, len(told), len(text), text)

    def of_version(self, _side):
        return answers.VERSION

    def of_begin(self, side):
        if self.draft:
            return "in draft"
        side.kept.share(side.movie)
        self.draft = Side(side.movie, side.at, KeptOfDraft(side.kept))
        return "begin %d %d" % (side.at, side.length())

    def of_commit(self, _side):
        if not self.draft:
            return "no draft"
        edits = drafts.stroke(self.main.movie.frames, self.draft.movie.frames)
        at = self.main.at + len(edits)
        if at > MOST_EDITS:
            return "full %d" % self.main.at
        for lines in edits:
            for line in lines:
                self.main.make(answers.understood(line))
        self.edits += edits
        self.draft, self.main.at = None, at
        return "commit %d %d" % (self.main.at, self.main.length())

    def of_drop(self, _side):
        dropped, self.draft = self.draft, None
        return "dropped" if dropped else "no draft"

    # -- what the movie shows

    def shows(self, side):
        """What its frames come to, where the cartridge needn't be played."""
        return rest_of(side.movie.cart)

    def shown(self, side, frame, keeps_to, tell):
        """What `tell` makes of the movie and of the first frame that is played for a look at this one, or the refusal."""
        if frame >= side.length():
            return self.no_frame(side)
        movie = self.shows(side)
        first = side.kept.play(side.movie, frame, keeps_to)
        halt = movie.halt_in(frame)
        return "halted %d %s" % (side.at, halt) if halt else tell(movie, first)

    def of_shot(self, side, frame):
        return self.shown(side, frame, frame + 1, lambda movie, first: "shot %d %d ran %d lit %d" % (
            side.at, frame, frame + 1 - first, lit_pixels(movie.pixmap(frame))))

    def of_picture(self, side, frame):
        return self.shown(side, frame, frame + 1, lambda movie, _: "picture %d %d %d\n%s" % (side.at, frame, len(BLACK), movie.pixmap(frame).decode("latin-1")))

    def of_pictures(self, side, first, last):
        check_reach(min(last, side.length()))
        heads = [self.of_picture(side, frame) for frame in range(first, last)]
        return "".join(head if head.startswith("picture ") else head + "\n" for head in heads)

    def of_digest(self, side, frame):
        return self.shown(side, frame, frame + 1, lambda movie, _: "digest %d %d ram %s picture %s" % (
            side.at, frame, sha256(movie.ram_after(frame + 1)).hexdigest(), sha256(movie.pixmap(frame)).hexdigest()))

    def of_ram(self, side, count):
        if count > side.length():
            return self.no_frame(side)
        ram = self.shows(side).ram_after(count) if count else bytes(128)
        side.kept.play(side.movie, count, count)
        return "ram %d %d %s" % (side.at, count, ram.hex().upper())

    def of_lag(self, side, first, last):
        if not first <= last <= side.length():
            return self.no_frame(side)
        check_reach(last)
        lines = self.shows(side).lag_lines(first, last).decode()
        side.kept.play(side.movie, first, first)
        return "lag %d %d %d %d\n%s" % (side.at, first, last, len(lines), lines)

    def of_work(self, side, frame):
        return "work jobs 1 kept %d stale 0" % side.kept.work(side.movie, frame)


@lru_cache(1000)
def lit_pixels(pixmap):
    """How many pixels aren't black."""
    pixels = pixmap[len(HEAD_OF_PIXMAP):]
    return sum(pixels[at:at + 3] != bytes(3) for at in range(0, len(pixels), 3))


def whole(answer):
    return answer if "\n" in answer else answer + "\n"


def conversed(holder, text, seen):
    """The answers of a conversation with these lines."""
    lines, out = text.decode("latin-1").split("\n"), []
    for place, line in enumerate(lines):
        if place == len(lines) - 1:
            out += ["unknown end\n"] if line else []
        elif line == "quit":
            seen["quit"] += 1
            break
        else:
            answer = holder.answer(line) or "unknown " + answers.why_unknown(line)
            seen["talk " + kind_of(answer)] += 1
            out.append(whole(answer))
    return "".join(out).encode("latin-1")


def scripted(holder, text, seen):
    """The replies to a script, and the fault that ends it or nothing."""
    lines, out, fault = text.decode("latin-1").split("\n"), [], None
    for number, line in enumerate(lines, 1):
        if number == len(lines) and line == "":
            break
        answer = holder.answer(line) if number < len(lines) else None
        if answer is None:
            fault = "script line %d" % number
            break
        seen["script " + kind_of(answer)] += 1
        out.append(answer + "\n")
    return "".join(out).encode("latin-1"), fault


def kind_of(answer):
    """What an answer's first word says, and its second one where it needs that."""
    words = answer.split(None, 2)
    return " ".join(words[:2]) if words[0] in ("no", "in", "work") else words[0]
