"""Drafts of a conversation: which of a client's lines are in one, what they are answered there, and the edits that a draft comes to.

Written from docs/FORMATS.md, "Drafts".
"""

from collections import namedtuple

from answers import EDITS, Answers, hands, made, understood

LINES = ("begin", "commit", "drop")
OF_DESK = LINES + ("share", "history")

# A line and its answer, the draft that was open before, and the one that it opened; nothing where there is none.
Turn = namedtuple("Turn", "line head body draft opened")


class Draft(Answers):
    """The lines of a seat in a draft that began at `at` edits. Its edits are known once its lines were compared."""

    def __init__(self, number, at, shared):
        super().__init__(*shared)
        self.number, self.at = number, at
        self.lines, self.edits = [], None

    def compare(self, base):
        """Compares its answers. Each change is counted on from where it began, and is made in the draft alone."""
        self.make(base)
        at = self.at
        self.replay.append(("begin", None, "begin "))
        for line, (head, body) in self.lines:
            self.counts["lines in drafts"] += 1
            at += self.compare_line(line, head, body, at)
        self.replay.append(("drop", None, "dropped"))
        self.edits = stroke(base.frames, self.now.frames)

    def compare_line(self, line, head, body, at):
        """Returns how many changes the line made."""
        said = understood(line)
        if said and said.kind == "load":
            self.counts["load in drafts"] += 1
            self.expect(self.number, line, head, "in draft")
            return 0
        movie = self.changed(said) if said and said.kind in EDITS else None
        if movie is None:
            self.look(self.number, line, head, body, at)
            return 0
        self.expect(self.number, line, head, "edit %d len %d" % (at + 1, len(movie.frames)))
        self.make(movie)
        self.replay.append((line, None, None))
        return 1

    def changed(self, said):
        try:
            return made(self.now, said)
        except hands.Fault:
            return None


def apart(number, log, shared):
    """A client's lines that are about the desk, as turns; those in a draft are given to it. Last, the draft that is open at the end."""
    turns, draft = [], None
    for line, (head, body) in log:
        said = understood(line)
        if draft is not None and (said is None or said.kind not in OF_DESK):
            draft.lines.append((line, (head, body)))
            continue
        begins = draft is None and said is not None and said.kind == "begin" and head.startswith("begin ")
        opened = Draft(number, int(head.split(" ")[1]), shared) if begins else None
        turns.append(Turn(line, head, body, draft, opened))
        if opened is not None:
            draft = opened
        elif head == "dropped" or head.startswith("commit "):
            draft = None
    return turns, draft


def stroke(old, new):
    """The edits that make the second list of frames of the first, each as lines of a script: what both begin with stays, then what both end with."""
    front = common(old, new)
    back = common(old[front:][::-1], new[front:][::-1])
    gone, come = old[front:len(old) - back], new[front:len(new) - back]
    if len(gone) == len(come):
        return [run_lines("replace", front, come)] if come else []
    return ([["delete %d %d" % (front, len(gone))]] if gone else []) + ([run_lines("insert", front, come)] if come else [])


def common(one, other):
    """How many frames both begin with."""
    for count, (frame, another) in enumerate(zip(one, other)):
        if frame != another:
            return count
    return min(len(one), len(other))


def run_lines(word, at, frames):
    """A line for each run of equal frames."""
    lines = []
    for frame, count in hands.runs(frames):
        lines.append("%s %d %d %s" % (word, at, count, frame))
        at += count
    return lines
