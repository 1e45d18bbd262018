#!/usr/bin/env python3
"""Follows the movie by `history`, and writes the picture of a frame whenever others' edits have changed it:
    examples/desk/viewer.py FOLDER SEAT FRAME PICTURES
It prints each edit with the seat that has made it, and writes PICTURES/AT.ppm, where AT counts the edits that the picture shows. It ends once
nothing was edited for two seconds. Its own copy of the movie must then be the desk's."""
import os
import sys
import time

sys.dont_write_bytecode = True
from seat import Copy, Seat

folder, number, frame, pictures = sys.argv[1:]
seat = Seat(folder, number)
copy = Copy(seat)
shown, drawn, quiet = None, 0, 0


def catch_up():
    for entry, maker, line in copy.follow():
        print(f"viewer: edit {entry + 1} by seat {maker}: {line}", flush=True)


while quiet < 20:
    before = copy.at
    catch_up()
    quiet = quiet + 1 if copy.at == before else 0
    if copy.at != before or shown is None:
        seat.ask("share")  # the states that others have played: the picture is played from the nearest one
        words, picture = seat.ask(f"picture {frame}")
        if words[0] == "picture" and picture != shown:
            with open(os.path.join(pictures, words[1] + ".ppm"), "wb") as file:
                file.write(picture)
            shown, drawn = picture, drawn + 1
    time.sleep(0.1)
while (fetched := Copy(seat)).at != copy.at:
    catch_up()
in_step = fetched.frames == copy.frames
print(f"viewer: {drawn} pictures of frame {frame}; my copy of {len(copy.frames)} frames is {'the' if in_step else 'NOT the'} desk's", flush=True)
seat.quit()
sys.exit(not in_step)
