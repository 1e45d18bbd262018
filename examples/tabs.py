#!/usr/bin/env python3
"""Several views on one conversation, as the tabs of a browser are behind one server:

    examples/tabs.py joystick.bin examples/joystick.movie

Three views, each a thread, look and edit at once. Each makes 20 drafts: a frame is put in at the beginning, and one taken out at the end.
So a view that looked into another's draft would find one frame more. In the end it prints the number of edits and the lengths that the
views have seen."""
import sys
import threading

sys.dont_write_bytecode = True
from talk import Editor

FRAMES = ("R.... ..... .....", ".L... ..... .....", "..D.. ..... .....")


class Shared:
    """A conversation that several views use."""

    def __init__(self, editor):
        self.editor, self.lock = editor, threading.Lock()

    def ask(self, line):
        """The answer to a line about the movie as all see it."""
        with self.lock:
            return self.editor.ask(line)

    def change(self, at, lines):
        """Makes some changes in one step, if the movie still has the `at` edits at which they were thought out; else none of them. Returns
        the words of `commit`'s answer, or of the one that was in the way."""
        with self.lock:
            words, _ = self.editor.ask("begin")
            if words[0] != "begin":
                return words
            if int(words[1]) == at:
                for line in [*lines, "commit"]:
                    words, _ = self.editor.ask(line)
                    if words[0] == "commit":
                        return words
                    if words[0] != "edit":
                        break
            self.editor.ask("drop")
            return words


def view(shared, frame, lengths):
    """Makes its drafts; one that comes too late is thought out again."""
    done = 0
    while done < 20:
        _, at, length = shared.ask("len")[0]
        lengths.add(length)
        done += shared.change(int(at), [f"insert 0 1 {frame}", f"delete {length} 1"])[0] == "commit"


if __name__ == "__main__":
    if len(sys.argv) != 3:
        sys.exit("usage: examples/tabs.py CART MOVIE")
    shared, lengths = Shared(Editor(*sys.argv[1:])), set()
    views = [threading.Thread(target=view, args=(shared, frame, lengths)) for frame in FRAMES]
    for thread in views:
        thread.start()
    for thread in views:
        thread.join()
    print(shared.ask("len")[0][1], "edits, lengths", *sorted(lengths))
    sys.exit(shared.editor.quit())
