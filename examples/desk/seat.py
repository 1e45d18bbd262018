"""A client's end of a pair of `tas desk`, and a copy of its movie that is kept in step by `history`."""
import os
import re
import socket

FOLLOWED = ("picture", "lag", "inputs", "movie", "history")  # bytes follow these answers; the last word is their number


class Seat:
    """Seat NUMBER of the desk whose pairs in0 and out0, in1 and out1 .. are in a folder, or whose sockets seat0, seat1 .. are there."""

    def __init__(self, folder, number):
        name = os.path.join(folder, f"seat{number}")
        if os.path.exists(name):
            line = socket.socket(socket.AF_UNIX)
            line.connect(name)
            self.lines, self.answers = line.makefile("wb", buffering=0), line.makefile("rb")
        else:
            # IN before OUT: tas opens them in this order, too, and each of the two waits for its other end.
            self.lines = open(os.path.join(folder, f"in{number}"), "wb", buffering=0)
            self.answers = open(os.path.join(folder, f"out{number}"), "rb")

    def ask(self, line):
        """The words of the answer to a line, and the bytes that follow it. `pictures` has several answers, and `quit` none."""
        self.lines.write(line.encode() + b"\n")
        words = self.answers.readline().decode().split()
        if not words:
            raise EOFError(f"no answer to {line}")
        return words, self.answers.read(int(words[-1]) if words[0] in FOLLOWED else 0)

    def length(self):
        """How many edits the desk has, and how many frames its movie."""
        words, _ = self.ask("len")
        return int(words[1]), int(words[2])

    def come_back(self):
        """Goes on at a pair that was kept open (docs/FORMATS.md): spoils the half line of the client before, drops its draft, and skips the answers that it didn't read."""
        mark = 900_000 + os.getpid() % 100_000  # where this history has no entry
        self.lines.write(b"?\ndrop\nhistory %d\n" % mark)  # a newline alone could make `delete 0 1` of `delete 0 10`
        for line in self.answers:
            if re.search(rb"history \d+ %d 0 0\n$" % mark, line):
                return
        raise EOFError("the conversation has ended")

    def quit(self):
        self.lines.write(b"quit\n")
        self.lines.close()
        self.answers.read()


class Copy:
    """The inputs of the movie as far as this client knows them: as many as `at` edits have made."""

    def __init__(self, seat):
        self.seat = seat
        words, text = seat.ask("movie")
        self.at = int(words[1])
        self.frames = [frame for line in text.decode().splitlines()[2:] for frame in run(line)]

    def follow(self):
        """Catches up with the desk, and yields each new entry: its number, its seat and its line. An entry may have several lines."""
        while True:
            words, lines = self.seat.ask(f"history {self.at}")
            for text in lines.decode().splitlines():
                number, seat, line = text.split(" ", 2)
                self.make(line)
                yield int(number), int(seat), line
            self.at += int(words[3])
            if self.at == int(words[1]):
                return

    def make(self, line):
        """Makes a line of a script, which is never refused here: the desk has made it."""
        words = line.split(" ", 3)
        if words[0].startswith("load"):
            return
        place, count = int(words[1]), int(words[2])
        end = place if words[0] == "insert" else place + count
        self.frames[place:end] = [] if words[0] == "delete" else [words[3]] * count


def run(line):
    """The frames of a line of a movie's text."""
    frame, _, count = line.partition(" x")
    return [frame] * int(count or 1)
