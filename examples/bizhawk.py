#!/usr/bin/env python3
"""Makes a movie of the inputs of a BizHawk movie of an Atari 2600 game, and warns where the cartridge is another one:

    examples/bizhawk.py game.bin run.bk2 > game.movie
    examples/bizhawk.py game.bin 'Input Log.txt' > game.movie

A .bk2 is a ZIP file, and its 'Input Log.txt' has a line of characters for each frame, in groups between `|`. The line `LogKey:` before
them names the column of each character, in groups between `#`; `.` is a column that isn't pressed. Remarks go to standard error. Where
something has no place in a movie here, such as a column that is pressed and that this machine hasn't, that is said, the status is 1,
and no movie is written."""
import hashlib
import itertools
import json
import pathlib
import sys
import zipfile

STICK = ("Right", "Left", "Down", "Up", "Button")
PLACES = {f"P{player} {name}": place + 6 * player - 6 for player in (1, 2) for place, name in enumerate(STICK)}
PLACES |= {"Reset": 12, "Select": 13}
# Pressed, these turn a switch over, as BizHawk has it: at the first frame of a press.
TOGGLES = {"Toggle Left Difficulty": ("LeftDifficulty", 15), "Toggle Right Difficulty": ("RightDifficulty", 16)}
LETTERS = "RLDUF RLDUF rsbAB"


def remark(text):
    print(text, file=sys.stderr)


def parts_of(name):
    """The texts of a .bk2 by their names, or of an input log alone."""
    if not zipfile.is_zipfile(name):
        return {"Input Log.txt": pathlib.Path(name).read_text()}
    with zipfile.ZipFile(name) as archive:
        return {pathlib.PurePath(part).name: archive.read(part).decode("utf-8-sig", "replace") for part in archive.namelist()}


def check_header(text, image):
    """What the header says that concerns a movie here."""
    header = dict(line.split(" ", 1) for line in text.splitlines() if " " in line)
    if header.get("Platform", "A26") != "A26":
        sys.exit(f"a movie for the platform {header['Platform']}")
    if header.get("StartsFromSavestate", "False") == "True" or header.get("StartsFromSaveRam", "False") == "True":
        sys.exit("it starts from a savestate: a movie here starts from power-on")
    if header.get("SHA1", "").lower() not in ("", hashlib.sha1(image).hexdigest()):
        remark(f"another cartridge: the movie was made on the one with SHA-1 {header['SHA1'].lower()}")


def frames_of(log):
    """The columns that are pressed in each frame."""
    groups = None
    for number, line in enumerate(log.splitlines(), 1):
        if line.startswith("LogKey:"):
            groups = [[name for name in group.split("|") if name] for group in line[len("LogKey:"):].split("#")[1:]]
        if not line.startswith("|"):
            continue
        texts = line[1:].rstrip("|").split("|")
        if groups is None or [len(text) for text in texts] != [len(group) for group in groups]:
            sys.exit(f"line {number} of the log isn't a frame of these columns: {line}")
        yield number, {name for group, text in zip(groups, texts) for name, sign in zip(group, text) if sign != "."}


def frame_texts(log, settings):
    """Each frame as its 17 characters."""
    switches = {place: not settings.get(name, True) for name, place in TOGGLES.values()}
    for name, place in TOGGLES.values():
        remark(f"{name} is {'A' if switches[place] else 'B'} at the beginning")
    before = set()
    for number, pressed in frames_of(log):
        strange = sorted(pressed - PLACES.keys() - TOGGLES.keys())
        if strange:
            sys.exit(f"line {number} of the log presses {strange[0]}, which has no place in a movie here")
        for name in pressed & TOGGLES.keys() - before:
            switches[TOGGLES[name][1]] ^= True
        before = pressed
        on = {PLACES[name] for name in pressed & PLACES.keys()} | {place for place in switches if switches[place]}
        on |= {14} if settings.get("BW") else set()
        yield "".join(letter if place in on or letter == " " else "." for place, letter in enumerate(LETTERS))


if len(sys.argv) != 3:
    sys.exit("usage: examples/bizhawk.py CART BK2 > MOVIE")
image = pathlib.Path(sys.argv[1]).read_bytes()
parts = parts_of(sys.argv[2])
check_header(parts.get("Header.txt", ""), image)
settings = json.loads(parts.get("SyncSettings.json", "{}"))
texts = list(frame_texts(parts.get("Input Log.txt", ""), settings.get("o", settings)))
if not 0 < len(texts) <= 262144:
    sys.exit(f"the log has {len(texts)} frames; a movie has at most 262144")
remark("the inputs are BizHawk's, the machine isn't: look at the film before you trust it")
print("a26movie 2", f"cart {hashlib.sha256(image).hexdigest()}", sep="\n")
for text, run in itertools.groupby(texts):
    count = len(list(run))
    print(text if count == 1 else f"{text} x{count}")
