#!/usr/bin/env python3
"""Shows the pictures on standard input in a terminal of 160 columns, 53 lines and 24-bit colour:

    ./tas shot joystick.bin 60 < examples/joystick.movie | examples/half_blocks.py
    ./tas film joystick.bin < examples/joystick.movie | examples/half_blocks.py 60

The number is that of pictures a second; they are then drawn over one another. A pixel is twice as wide as it is high, and half a
character is about as wide as it is high: so each second row is shown, by the upper and the lower half of a block."""
import sys
import time

second = float(sys.argv[1]) if len(sys.argv) > 1 else 0
while len(picture := sys.stdin.buffer.read(100815)) == 100815:
    began = time.monotonic()
    pixels = [b"%d;%d;%d" % tuple(picture[at:at + 3]) for at in range(15, 100815, 3)] + [b"0;0;0"] * 320
    lines = [b"\033[H"] if second else []
    for at in range(0, 160 * 210, 160 * 4):
        pairs = zip(pixels[at:at + 160], pixels[at + 320:at + 480])
        lines.append(b"".join(b"\033[38;2;%bm\033[48;2;%bm\xe2\x96\x80" % pair for pair in pairs) + b"\033[0m\n")
    sys.stdout.buffer.write(b"".join(lines))
    sys.stdout.buffer.flush()
    if second:
        time.sleep(max(0, began + 1 / second - time.monotonic()))
