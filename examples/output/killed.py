#!/usr/bin/env python3
"""Kills `tas edit -o FILE` at random moments, and finds FILE old or new, each time whole:

  examples/output/killed.py PROGRAM [KILLS]

PROGRAM is a program tas (not the script), which edits a movie of 262,144 frames in place; KILLS is 100 if left out. Half of the kills
come at any moment of a call, the others after it has made a new file. The status is 1 where FILE is something else once. What a crash
of the system leaves isn't tried."""
import hashlib
import os
import pathlib
import random
import signal
import subprocess
import sys
import tempfile
import time

FRAMES = 262144


def movie_text(cart, first, last):
    """A movie whose frame differs from the one before it, frame after frame; its first one and its last one are given."""
    frames = [("R.... ..... .....\n", ".L... ..... .....\n")[k % 2] for k in range(FRAMES - 2)]
    return f"a26movie 2\ncart {hashlib.sha256(cart).hexdigest()}\n{first}{''.join(frames)}{last}".encode()


class Calls:
    """Calls over the files of one folder."""

    def __init__(self, program, folder):
        self.program, self.folder, self.file = program, folder, folder / "movie"
        cart = subprocess.run([pathlib.Path(__file__).parent.parent / "cart", "joystick"], stdout=subprocess.PIPE, check=True).stdout
        up, fire = "...U. ..... .....\n", "....F ..... .....\n"
        self.old, self.new = movie_text(cart, up, up), movie_text(cart, fire, fire)
        (folder / "cart").write_bytes(cart)
        (folder / "script").write_text(f"replace 0 1 {fire}replace {FRAMES - 1} 1 {fire}")

    def start(self):
        """Starts a call over the old movie."""
        if not self.file.exists() or self.file.read_bytes() != self.old:
            self.file.write_bytes(self.old)
        words = [self.program, "edit", self.folder / "cart", self.folder / "script", "-o", self.file]
        with open(self.file, "rb") as movie:
            return subprocess.Popen(words, stdin=movie)

    def parts(self):
        """The new files that stand beside FILE."""
        return list(self.folder.glob("movie.part*"))

    def changed(self):
        """When a name was last made, changed or removed in the folder."""
        return os.stat(self.folder).st_mtime_ns

    def wait_for_change(self, call, before):
        """Waits until names of the folder have changed, as by a new file, or the call has ended."""
        while self.changed() == before and call.poll() is None:
            pass

    def measure(self):
        """How long a whole call takes, and how long it goes on after it has made a new file."""
        call, before, begun = self.start(), self.changed(), time.monotonic()
        self.wait_for_change(call, before)
        made = time.monotonic()
        if call.wait() != 0 or self.file.read_bytes() != self.new or self.parts():
            sys.exit("a whole call ended otherwise")
        ended = time.monotonic()
        return ended - begun, ended - made

    def kill(self, seconds, is_written):
        """Kills a call after this time, or this time after it has made the new file. Returns what FILE is then, and whether a new file is left."""
        call, before = self.start(), self.changed()
        if is_written:
            self.wait_for_change(call, before)
        until = time.monotonic() + seconds
        while time.monotonic() < until and call.poll() is None:
            pass
        call.kill()
        ended = call.wait()
        parts = self.parts()
        for part in parts:
            part.unlink()
        found = self.file.read_bytes() if self.file.exists() else b""
        if ended not in (0, -signal.SIGKILL) or ended == 0 and (found != self.new or parts):
            sys.exit(f"a call that wasn't killed ended otherwise, with status {ended}")
        return {self.old: "old", self.new: "new"}.get(found, f"neither: it has {len(found)} bytes"), len(parts)


def main():
    if len(sys.argv) not in (2, 3):
        sys.exit(__doc__)
    kills, counts, left = int("".join(sys.argv[2:]) or 100), {"old": 0, "new": 0}, 0
    with tempfile.TemporaryDirectory() as folder:
        calls = Calls(sys.argv[1], pathlib.Path(folder))
        whole, written = map(max, zip(calls.measure(), calls.measure()))
        for number in range(kills):
            seconds = random.uniform(0, written if number % 2 else whole)
            found, parts = calls.kill(seconds, number % 2)
            if found not in counts:
                sys.exit(f"kill {number} after {seconds:.6f} s: FILE is {found}")
            counts[found] += 1
            left += parts
    print(f"{kills} kills: FILE was old {counts['old']} times and new {counts['new']} times, and a new file was left {left} times")


main()
