#!/usr/bin/env python3
"""Undo, redo and branches in a client of `tas talk`: the program's history only grows, and the client keeps what it needs to go back.

    examples/undo.py joystick.bin examples/joystick.movie < LINES

A line is an edit (`insert`, `replace`, `delete`, `press`, `release`, `repeat`, `copy`), or one of these:

    undo        takes back the last edit that isn't taken back
    redo        makes the edit again that was taken back last
    branch NAME gives the present movie a name, with all that can be undone and redone
    go NAME     makes the movie of that name the present one
    movie       prints the movie's text

Each is answered by the program's own line, or by `nothing to undo`, `nothing to redo`, `no branch` or `no such line`. An undo is an
edit, too, so AT counts on: nothing is ever taken out of the history that others see.
"""
import sys

sys.dont_write_bytecode = True
from talk import Editor

EDITS = "insert replace delete press release repeat copy".split()


class Client:
    """The movie as this client knows it, and the edits that it can take back or make again. Nobody else may edit it meanwhile."""

    def __init__(self, editor):
        self.editor = editor
        words, text = editor.ask("movie")
        self.at = int(words[1])
        self.frames = [frame for line in text.decode().splitlines()[2:] for frame in run(line)]
        self.done, self.undone, self.branches = [], [], {}

    def follow(self):
        """Makes the history's new entries in this client's copy. Each is returned as a change: its place, what went and what came."""
        changes = []
        while True:
            words, lines = self.editor.ask(f"history {self.at}")
            for text in lines.decode().splitlines():
                word, place, count, *frame = text.split(" ", 2)[2].split(" ", 3)
                place, count = int(place), int(count)
                gone = self.frames[place:place + count] if word != "insert" else []
                come = frame * count if word != "delete" else []
                self.frames[place:place + len(gone)] = come
                changes.append((place, gone, come))
            self.at += int(words[3])
            if words[3] == "0":
                return changes

    def put(self, changes):
        """Makes changes in one step, by a draft: of each, frames go and others come at its place. Returns the answer of `commit`, or that
        of the first line that is refused, and then the movie is as it was."""
        lines = ["begin"]
        for place, gone, come in changes:
            lines += [f"delete {place} {len(gone)}"] if gone else []
            lines += [f"insert {place} {count} {frame}" for frame, count in reversed(runs(come))]
        for line in [*lines, "commit"]:
            answer = " ".join(self.editor.ask(line)[0])
            if not answer.startswith(("begin ", "edit ", "commit ")):
                self.editor.ask("drop")
                return answer
        self.follow()
        return answer

    def edit(self, line):
        """An edit of the program. From here on nothing that was taken back can be made again."""
        answer = " ".join(self.editor.ask(line)[0])
        if answer.startswith("edit "):
            self.done.append(self.follow())
            self.undone.clear()
        return answer

    def back(self):
        if not self.done:
            return "nothing to undo"
        answer = self.put([(place, come, gone) for place, gone, come in reversed(self.done[-1])])
        if answer.startswith("commit "):
            self.undone.append(self.done.pop())
        return answer

    def again(self):
        if not self.undone:
            return "nothing to redo"
        answer = self.put(self.undone[-1])
        if answer.startswith("commit "):
            self.done.append(self.undone.pop())
        return answer

    def name(self, name):
        self.branches[name] = list(self.frames), list(self.done), list(self.undone)
        return f"branch {name} of {len(self.frames)} frames"

    def go(self, name):
        if name not in self.branches:
            return "no branch"
        frames, done, undone = self.branches[name]
        answer = self.put([(0, list(self.frames), frames)])
        if answer.startswith("commit "):
            self.done, self.undone = list(done), list(undone)
        return answer

    def answer(self, line):
        word, _, rest = line.partition(" ")
        if word == "movie":
            return self.editor.ask(line)[1].decode().rstrip("\n")
        known = {"undo": self.back, "redo": self.again, "branch": lambda: self.name(rest), "go": lambda: self.go(rest)}
        known |= dict.fromkeys(EDITS, lambda: self.edit(line))
        return known[word]() if word in known else "no such line"


def run(line):
    """The frames of a line of a movie's text."""
    frame, _, count = line.partition(" x")
    return [frame] * int(count or 1)


def runs(frames):
    """The runs of equal frames."""
    found = []
    for frame in frames:
        if found and found[-1][0] == frame:
            found[-1][1] += 1
        else:
            found.append([frame, 1])
    return found


if __name__ == "__main__":
    if len(sys.argv) != 3:
        sys.exit("usage: examples/undo.py CART MOVIE < LINES")
    editor = Editor(*sys.argv[1:])
    client = Client(editor)
    for line in sys.stdin:
        print(line.rstrip("\n"), "->", client.answer(line.rstrip("\n")), flush=True)
    sys.exit(editor.quit())
