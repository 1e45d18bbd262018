#!/usr/bin/env python3
"""Plays the movie ahead, so that the others' pictures start from states that are kept:
    examples/desk/filler.py FOLDER SEAT [STEP]
It asks `work` for each STEP frames, 1,024 if not given, and then for the end. `work` keeps the states on the desk, and the others have them by `share`.
It begins anew when somebody has edited, and ends once nothing was edited for two seconds."""
import sys
import time

sys.dont_write_bytecode = True
from seat import Seat

seat = Seat(sys.argv[1], sys.argv[2])
step = int(sys.argv[3]) if len(sys.argv) > 3 else 1024
filled, quiet, jobs, kept = None, 0, 0, 0
while quiet < 20:
    at, length = seat.length()
    quiet = quiet + 1 if at == filled else 0
    if at != filled:
        for end in [*range(step, length, step), length]:
            words, _ = seat.ask(f"work {end}")
            jobs, kept = jobs + 1, kept + int(words[4])
        filled = at
    time.sleep(0.1)
words, _ = seat.ask("states")
print(f"filler: {jobs} jobs kept {kept} states; {words[2]} are kept at the end", flush=True)
seat.quit()
