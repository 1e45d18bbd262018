"""Random movie texts, scripts, conversations and words, and the mistakes that spoil them."""

import re

import answers
import readings
import resting
from answers import hands
from readings import MOST

LENGTHS = (32831, 32832, 65663, 65664, 131327, 131328)  # the last one of each stride, and the first one of the next
ODD_BYTES = b" \0\t\r\n0129x+-.RF=A\x7f\x80\xc3\xff"
NUMBER = re.compile(rb"[0-9]+")


# ---- mistakes

def any_byte(rng):
    return bytes([rng.choice(ODD_BYTES) if rng.random() < 0.8 else rng.randrange(256)])


def bytes_spoilt(rng, text):
    """A byte changed, put in, taken out or doubled."""
    place = rng.randrange(len(text) + 1)
    return rng.choice((text[:place] + any_byte(rng) + text[place + 1:], text[:place] + any_byte(rng) + text[place:],
                       text[:place] + text[place + 1:], text[:place] + text[place:place + 1] + text[place:]))


def number_spoilt(rng, line):
    """One of a line's numbers is written in another way, or is another one."""
    found = list(NUMBER.finditer(line))
    if not found:
        return line + b" 0"
    old = rng.choice(found)
    digits = old.group()
    new = rng.choice((b"0" + digits, b"+" + digits, b"-" + digits, digits + b"0", digits + b".", b"0", b"1", b"2", b"00", b"01", b"", b"262143", b"262144",
                      b"262145", b"65536", b"9999999", b"10000000", b"0000001", b"00000001", b"99999999999999999999", b"\xd9\xa3", b"16", b"17", b"1000001", str(int(digits[:18]) + 1).encode()))
    return line[:old.start()] + new + line[old.end():]


def line_spoilt(rng, line):
    place = rng.randrange(len(line) + 1)
    return rng.choice((
        line[:place], line[place:], b"", line + b"\r", line + b" ", b" " + line, line + b"\t", line.replace(b" ", b"  ", 1), line.replace(b" ", b"\t", 1),
        line.replace(b" ", b"", 1), line.upper(), line.lower(), line + b" x1", line + b" x0", line + b" 0", line + b"." * rng.choice((1, 5000, 20000)),
        number_spoilt(rng, line), number_spoilt(rng, line), number_spoilt(rng, line)))


def lines_spoilt(rng, text):
    """A line is spoilt, doubled, taken out, or changes places with another one."""
    lines = text.split(b"\n")
    some, other = rng.randrange(len(lines)), rng.randrange(len(lines))
    way = rng.randrange(8)
    if way == 0:
        lines.insert(some, lines[some])
    elif way == 1:
        lines[some], lines[other] = lines[other], lines[some]
    elif way == 2:
        del lines[some]
    elif way == 3:
        lines.insert(some, b"")
    else:
        lines[some] = line_spoilt(rng, lines[some])
    return b"\n".join(lines)


def text_spoilt(rng, text):
    """The text as a whole."""
    return rng.choice((text[:-1], text + b"\n", text + b"\0", text[:rng.randrange(len(text) + 1)], b"", text.replace(b"\n", b"\r\n"), b"\xef\xbb\xbf" + text,
                       b"\n" + text, text + text, text.replace(b"\n", b"\r"), text[:-1] + b"\r\n", text.replace(b"\n", b"\n\n", 1), text.rstrip(b"\n")))


def spoilt(rng, text):
    way = rng.random()
    return bytes_spoilt(rng, text) if way < 0.3 else lines_spoilt(rng, text) if way < 0.8 else text_spoilt(rng, text)


# ---- movie texts

def some_frames(rng, most=40):
    """Frames of a movie, often few; two in a row may be equal."""
    frames = hands.some_frames(rng, rng.choice((3, 12, most)))
    if rng.random() < 0.1:
        frames = frames + [hands.some_frame(rng)] * rng.choice((60, 64, 100, 130)) + frames
    return frames


def unlike_frames(rng, count):
    """So many frames, each unlike the one before."""
    frames = [hands.some_frame(rng)]
    while len(frames) < count:
        frame = hands.some_frame(rng)
        frames += [frame] if frame != frames[-1] else []
    return frames


def blocks_moved(rng, frames):
    """The frames in blocks, some of which are gone, doubled or in another place."""
    longest, share = rng.choice((2, 3, 5, 40)), rng.choice((0.1, 0.5, 1, 1))
    blocks, place = [], 0
    while place < len(frames):
        end = place + rng.randint(1, longest)
        blocks.append(frames[place:end])
        place = end
    for place in rng.sample(range(len(blocks)), int(share * len(blocks))):
        other = rng.randrange(len(blocks))
        way = rng.randrange(4)
        if way == 0:
            blocks[place] = []
        elif way == 1:
            blocks[place] = blocks[place] * 2
        else:
            blocks[place], blocks[other] = blocks[other], blocks[place]
    if rng.random() < 0.3:
        rng.shuffle(blocks)
    return [frame for block in blocks for frame in block]


def older_text(cart, frames):
    head = b"a26movie 1\n" + hands.movie_text(cart, []).split(b"\n")[1] + b"\n"
    return head + "".join(frame + "\n" for frame in frames).encode()


def written(rng, cart, frames):
    return older_text(cart, frames) if rng.random() < 0.35 and len(frames) <= 65536 else hands.movie_text(cart, frames)


def head_spoilt(rng, cart, text):
    """A mistake in one of the first two lines."""
    first, second, rest = text.split(b"\n", 2)
    foreign = hands.movie_text(bytes(reversed(cart)) + b"!", []).split(b"\n")[1]
    return b"\n".join(rng.choice((
        (line_spoilt(rng, first), second, rest), (b"a26movie " + rng.choice((b"0", b"3", b"11", b"01", b"+2", b"")), second, rest), (b"A26movie 2", second, rest),
        (first, foreign, rest), (first, second.upper(), rest), (first, b"cart " + second[5:].upper(), rest), (first, second[:-1], rest),
        (first, second + b"0", rest), (first, line_spoilt(rng, second), rest), (first, rest), (second, first, rest), (first,), (first, second), (b"",))))


def runs_spoilt(rng, text):
    """A text of runs with a count at a limit or past it, with sums that pass the limit in the middle, or with a run in two pieces."""
    lines = text.split(b"\n")
    place = rng.randrange(2, len(lines))
    before = sum(int(line.partition(b" x")[2] or 1) for line in lines[2:place])
    frames = [hands.some_frame(rng).encode() for _ in range(2)]
    counts = rng.choice(((MOST - before,), (MOST - before + 1,), (MOST - before - 1,), (MOST - before - 3, 3), (MOST - before - 3, 4), (MOST,), (MOST + 1,),
                         (0,), (1,), (2,), (9999999,), (10000000,), (MOST // 2, MOST // 2, MOST // 2)))
    lines[place:place] = [frames[n % 2] + b" x%d" % count for n, count in enumerate(counts)]
    if rng.random() < 0.3:
        lines.insert(place, frames[0])
    return b"\n".join(lines)


def count_spoilt(rng, text):
    """A line of frames gets another count, or one that is written in another way."""
    lines = text.split(b"\n")
    place = rng.randrange(2, max(len(lines) - 1, 3))
    count = rng.choice((b" x2", b" x3", b" x1", b" x0", b" x02", b" x002", b" x+2", b" x-2", b" x", b" X2", b" x2 ", b"  x2", b" x 2", b"x2", b" x2x2", b" x2 x2", b" x2.",
                        b" x0000002", b" x262144", b" x262145", b" x0262144", b" x9999999", b" x10000000", b" x\xd9\xa3", b" x" + b"9" * 5000))
    lines[place] = lines[place][:17] + count
    return b"\n".join(lines)


def wide_text(rng, cart):
    """A text with about as many lines as a movie may have frames."""
    frames = [hands.some_frame(rng), hands.some_frame(rng)]
    older = rng.random() < 0.6
    count = (65536 if older else MOST) + rng.choice((-1, 0, 0, 1, 2))
    lines = (frames[n % 2] + "\n" for n in range(count))
    head = older_text(cart, []) if older else hands.movie_text(cart, [])
    return head + "".join(lines).encode() + rng.choice((b"", b"", b"bad\n", b"....."))


def movie_text(rng, cart, frames, share):
    """A text of these frames, spoilt in that share of cases."""
    text = written(rng, cart, frames)
    if rng.random() >= share:
        return text
    way = rng.random()
    if way < 0.2:
        return head_spoilt(rng, cart, text)
    if way < 0.35 and text.startswith(b"a26movie 2"):
        return runs_spoilt(rng, text)
    if way < 0.5:
        return count_spoilt(rng, text)
    return spoilt(rng, text)


# ---- scripts and conversations

def hex_of(rng, count):
    return bytes(rng.randrange(256) for _ in range(count)).hex().upper()


def load_of_length(rng, length):
    """A line of so many bytes which is understood where it isn't too long."""
    word, size = rng.choice((("load", 4096), ("load2", 2048)))
    parts = next(n for n in range(1, 9) if (length - len(word) - n) % 2 == 0 and length - len(word) <= (5 + 2 * size) * n)
    left = (length - len(word) - 5 * parts) // 2 - parts
    counts = []
    for _ in range(parts):
        counts.append(1 + min(left, size - 1))
        left -= counts[-1] - 1
    return " ".join([word] + ["000=" + "%02X" % rng.randrange(256) * count for count in counts])


def some_load(rng):
    way = rng.random()
    word, last = rng.choice((("load", 0xFFF), ("load2", 0x7FF)))
    start = " %03X=00F0" % (last - 3)
    if way < 0.5:
        return word + " 000=" + resting.UNPLAYED + start
    if way < 0.75:
        return word + " 000=%02X" % rng.choice((0x02, 0x12, 0xFF, 0x80)) + start
    if way < 0.82:
        return word + rng.choice((" 000=0a", " 000=0", " 000=", " =00", " 00=00", " 0000=00", " 000:00", " 00a=00", " 000=00 ", "  000=00", " 000=00,001=00", " 000=00 001", " -01=00", " 000=0G"))
    parts = ["%03X=%s" % (rng.choice((0, 5, last - 1, last, last, min(last + 1, 0xFFF), rng.randrange(last + 1))), hex_of(rng, rng.choice((1, 1, 2, 3, 20))))
             for _ in range(rng.randint(0, 4))]
    return " ".join([word] + parts)


def some_look(rng, length, is_script):
    frame = rng.randrange(max(length, 1)) if rng.random() < 0.8 else rng.choice((0, max(length - 1, 0), length, length + 1, 63, 64, rng.randrange(200)))
    other = rng.choice((frame, frame, frame + 1, frame + 2, max(frame - 1, 0), length, length + 1))
    wide = frame + rng.choice((0, 1, 2, 2, 3, 1024, 1025)) if frame >= length else frame + rng.randint(0, 2)
    if is_script or rng.random() < 0.3:
        return rng.choice(("shot %d", "work %d")) % frame
    return rng.choice(("picture %d" % frame, "ram %d" % frame, "digest %d" % frame, "lag %d %d" % (frame, other),
                       "pictures %d %d" % (frame, wide), "inputs %d %d" % (frame, max(wide, frame + rng.randint(0, 70)))))


def keeping_line(rng, length, is_script):
    """A line that keeps states of a movie of three strides or more, cuts them, or asks for them."""
    way = rng.random()
    if way < 0.04:
        return line_to_length(rng, length)
    places = (63, 64, 65, 127, 128, 129, 191, 192, 193, length) if length < LENGTHS[0] - 9 else (64, 127, 128, 255, 256, 257, 511, 512, 513, 640)
    place = max(0, min(rng.choice(places), length - rng.randrange(2)))
    if way < 0.25:
        return "work %d" % place
    if way < 0.45:
        return edit_at(rng, place, is_script)
    if is_script:
        return "shot %d" % place
    if way < 0.65:
        return rng.choice(("shot %d", "picture %d", "ram %d", "digest %d", "lag %d " + str(place + 1))) % place
    return rng.choice(("states", "share", "movie", "states", "share", "version", "begin", "begin", "commit", "drop"))


def edit_at(rng, place, is_script):
    """An edit at this place. What is repeated ends there."""
    frame, count = hands.some_frame(rng), rng.choice((0, 1, 1, 2))
    lines = ["replace %d %d %s" % (place, count, frame), "insert %d %d %s" % (place, count, frame), "delete %d %d" % (place, count)]
    if not is_script:
        back = min(place, rng.choice((0, 1, 64)))
        lines += ["press %d %d %s" % (place, count, frame), "copy 0 %d %d" % (count, place), "repeat %d %d 1" % (place - back, back), "repeat %d %d 1" % (place - back, back)]
    return rng.choice(lines)


def line_to_length(rng, length):
    """A line after which the movie has one of the lengths at which the stride changes, or is short again."""
    new = rng.choice(LENGTHS + (200,))
    place = rng.choice((64, 128, 192, 256, 512, 1024, min(length, new)))
    return "insert %d %d %s" % (min(place, length), new - length, hands.some_frame(rng)) if new > length else "delete %d %d" % (min(place, new), length - new)


def some_line(rng, length, at, is_script):
    way = rng.random()
    if way < 0.02:
        return "insert %d %d %s" % (length, MOST - length + rng.choice((-1, 0, 1, 1, 1)), hands.some_frame(rng))
    if way < 0.4:
        line = hands.some_line(rng, length, 0)
        return line if not is_script or line.split(" ")[0] in readings.OF_SCRIPTS else "delete %d %d" % hands.part(rng, length)
    if way < 0.46:
        return some_load(rng)
    if way < 0.57:
        return rng.choice(("len", "input %d" % rng.choice((0, rng.randint(0, length), length, max(length - 1, 0)))))
    if way < 0.82:
        return some_look(rng, length, is_script)
    if is_script:
        return "insert %d %d %s" % (rng.randint(0, length), rng.randint(0, 9), hands.some_frame(rng))
    if way < 0.93:
        return rng.choice(("movie", "states", "states", "share", "history 0", "history %d" % max(at - rng.randrange(6), 0), "history %d" % (at + rng.randrange(2))))
    return rng.choice(("begin", "commit", "drop")) if way < 0.99 else rng.choice(("quit", "Quit", "quit ", "mvie"))


def broken_line(rng):
    """A line that isn't understood, but for a little."""
    return rng.choice((
        "%s %s" % (rng.choice(("input", "shot", "work", "ram", "history")), rng.choice(("10000000", "01", "+1", "-1", "", "0 0", "0.", "9999999"))), "pictures 9 9", "pictures 5 4", "inputs 9 9", "inputs 0 1025",
        "load 000=0a", "load 000=", "load 000=0", "load 000=00a", "load2 7FF=0000", "load2 800=00", "load2 FFF=00", "load", "load2", "len 0", "len ", "movie 0", "begin 0",
        "delete 0", "delete 00 0", "delete 0 0 0", "insert 0 1 ..... ..... ....", "insert 0 1 ..... ..... ..... ", "insert 0 1 .....  .... .....", "insert 0 1 L.... ..... .....",
        "replace 0 01 ..... ..... .....", "copy other 0 0 0", "copy 0 0", "repeat 0 0", "press 0 0", "lag 0", "pictures 0", "quit 0", "check", "insert 0 1 r.... ..... ....."))


def some_lines(rng, holder, most):
    """Lines that a holder can answer, as text; those that the page leaves open are left out."""
    lines, tries, keeps = [], 0, rng.random() < 0.4
    if keeps:
        lines = ["load 000=%s FFC=00F0" % rng.choice((resting.UNPLAYED, resting.UNPLAYED, "02")), "insert 0 %d %s" % (rng.choice(LENGTHS) if rng.random() < 0.3 else rng.randint(130, 210), hands.some_frame(rng))]
    elif rng.random() < 0.7:
        lines = [some_load(rng), "insert 0 %d %s" % (rng.choice((1, 9, 63, 64, 65, 130, 200)), hands.some_frame(rng))]
    lines = [line for line in lines if holder.answer(line)]
    while len(lines) < most and tries < 3 * most:
        tries += 1
        side = holder.draft or holder.main
        line = keeping_line(rng, side.length(), holder.is_script) if keeps else some_line(rng, side.length(), side.at, holder.is_script)
        if not holder.is_script and rng.random() < 0.05:
            line = broken_line(rng)
        elif not holder.is_script and rng.random() < 0.03:
            line = load_of_length(rng, answers.LONGEST_LINE + rng.choice((-1, 0, 0, 1))) if rng.random() < 0.8 else "len" + "." * rng.choice((16381, 16382, 50000))
        try:
            answer = holder.answer(line)
        except resting.Open:
            continue
        if answer is not None or not holder.is_script:
            lines.append(line)
    return spelled(lines)


def numbers_spoilt(rng, text):
    """A number of one of the lines."""
    lines = text.split(b"\n")
    place = rng.randrange(len(lines))
    lines[place] = number_spoilt(rng, lines[place]) if lines[place] else b""
    return b"\n".join(lines)


def number_word(rng):
    """A number on the command line: at one of the limits, in another way, or none."""
    return rng.choice((b"0", b"1", b"16", b"17", b"262144", b"262145", b"1000000", b"1000001", b"9999999", b"10000000", b"+7", b"007", b"+007", b"+0", b"0" * 40 + b"2",
                       b"", b"+", b"++1", b"+-1", b"-1", b"0x1", b"1.0", b"1e1", b" 1", b"1 ", b"1\n", b"1_0", b"\xd9\xa3", b"4294967296", b"18446744073709551617", b"9" * 400))


def end_of_talk(rng):
    """What may come last in a conversation."""
    return rng.choice((b"quit", b"len", b"quit\nlen\n", b"quit\r\nlen\n", b"\0", b"." * answers.LONGEST_LINE, b"len\n" * 9 + b"." * 40000, b"\nquit\nx"))


def full_lines(rng, holder):
    """So many edits that no more are made after them, and some lines; of a conversation also drafts."""
    many = b"delete 0 0\n" * (readings.MOST_EDITS - holder.main.at - rng.randrange(3))
    edits = ["insert 0 1 ..... ..... .....", "replace 9 9 ..... ..... .....", "delete 0 0"]
    some = edits + ["len", "load 000=00", "input 0"]
    if holder.is_script:
        return many + spelled(rng.choices(some, k=9))
    edits += ["press 0 1 R.... ..... .....", "copy 0 0 0", "repeat 0 0 0"]
    some += edits + ["history 0", "history 999998", "history 1000000"]
    lines = []
    for _ in range(3):
        lines += ["begin"] + rng.choices(edits, k=rng.randrange(5)) + rng.choice((["commit"], ["commit", "drop"], ["drop"])) + rng.choices(some, k=rng.randrange(4))
    return many + spelled(lines)


def spelled(lines):
    return "".join(line + "\n" for line in lines).encode("latin-1")
