#!/usr/bin/env python3
"""Talks to the editor as a child process: edits a movie, steps through frames, and writes a picture or a film.

    examples/talk.py joystick.bin examples/joystick.movie 0 60 frame60.png     the last frame as a PNG
    examples/talk.py joystick.bin examples/joystick.movie 0 60 - |             all of them as a film
        ffmpeg -y -f ppm_pipe -frame_size 100815 -framerate 60 -i - -pix_fmt yuv420p film.mp4
"""
import struct, subprocess, sys, zlib
from pathlib import Path


class Editor:
    """`tas talk` as a child process."""

    def __init__(self, *files):
        tas = Path(__file__).resolve().parent.parent / "tas"
        pipe = subprocess.PIPE
        self.child = subprocess.Popen([tas, "talk", *files], stdin=pipe, stdout=pipe)

    def ask(self, line):
        """The words of the answer to a line, and the bytes that follow it. `pictures` has several answers, and `quit` none."""
        try:
            self.child.stdin.write(line.encode() + b"\n")
            self.child.stdin.flush()
        except BrokenPipeError:
            pass
        words = self.child.stdout.readline().decode().split()
        if not words:
            sys.exit(self.child.wait())  # the child has ended, and its fault line says why
        count = int(words[-1]) if words[:1] in (["picture"], ["lag"], ["inputs"], ["movie"], ["history"]) else 0
        return words, self.child.stdout.read(count)

    def quit(self):
        """Ends the conversation, and returns the child's status."""
        self.child.communicate(b"quit\n")
        return self.child.returncode


def png(pixmap):
    """A pixmap of 160 by 210 pixels as a PNG."""
    rows = b"".join(b"\0" + pixmap[at:at + 480] for at in range(15, len(pixmap), 480))
    chunks = (b"IHDR", struct.pack(">IIBBBBB", 160, 210, 8, 2, 0, 0, 0)), (b"IDAT", zlib.compress(rows)), (b"IEND", b"")
    return b"\x89PNG\r\n\x1a\n" + b"".join(
        struct.pack(">I", len(data)) + kind + data + struct.pack(">I", zlib.crc32(kind + data)) for kind, data in chunks)


if __name__ == "__main__":
    if len(sys.argv) != 6 or not int(sys.argv[3]) <= int(sys.argv[4]):
        sys.exit("usage: examples/talk.py CART MOVIE FIRST LAST PNG, with - for a film")
    cart, movie, first, last, name = sys.argv[1:]
    editor = Editor(cart, movie)
    words, _ = editor.ask("replace 30 5 ....F ..... .....")
    if words[0] != "edit":
        sys.exit(" ".join(words))
    for frame in range(int(first), int(last) + 1):
        words, pixmap = editor.ask(f"picture {frame}")
        if words[0] != "picture":
            sys.exit(" ".join(words))
        if name == "-":
            sys.stdout.buffer.write(pixmap)
    if name != "-":
        Path(name).write_bytes(png(pixmap))
    print("kept states:", *(editor.ask("states")[0][3:] or ["none"]), file=sys.stderr)
    sys.exit(editor.quit())
