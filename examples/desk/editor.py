#!/usr/bin/env python3
"""Types the lines of standard input at a seat, up to `quit`, one each PAUSE seconds, and prints each with the first line of its answer:
    examples/desk/editor.py FOLDER SEAT [PAUSE] < LINES"""
import sys
import time

sys.dont_write_bytecode = True
from seat import Seat

seat = Seat(sys.argv[1], sys.argv[2])
pause = float(sys.argv[3]) if len(sys.argv) > 3 else 0
for line in sys.stdin:
    if line.strip() == "quit":
        break
    words, _ = seat.ask(line.rstrip("\n"))
    print(f"editor: {line.strip()} -> {' '.join(words)}", flush=True)
    time.sleep(pause)
seat.quit()
