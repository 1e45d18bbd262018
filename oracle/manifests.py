"""Manifests of `tas verify`: what their lines say, and where two digests differ; and random ones.

Written from docs/FORMATS.md alone (Many movies).
"""

import re
from hashlib import sha256

import spoiling
from answers import hands
from readings import MOST

STRETCH = re.compile(rb"(?:[^\n]*\n){4}frames 0 to ([1-9][0-9]{0,6}) ")
SHA256 = re.compile(rb"[0-9a-f]{64}")
HEAD = 4  # lines before the first stretch
REMARKS = ("",) * 12 + ("#", "  # as ever", "  # a\ttab", " #\t") * 2 + ("\t# a fault",)


# ---- reading

def words_of(line):
    """The words of a line without its newline, none where it has none; nothing where it is at fault."""
    words, remark, _ = line.partition(b"#")
    words = words.rstrip(b" ") if remark else line
    if not words:
        return []
    words = words.split(b"\t" if b"\t" in words else b" ")
    return words if len(words) == 3 and all(words) else None


def rows_of(manifest):
    """The words of each movie's line."""
    *lines, cut = manifest.split(b"\n")
    rows = [words_of(line) for line in lines] + ([None] if cut else [])
    if None in rows:
        raise hands.Fault("manifest line %d" % (rows.index(None) + 1))
    return [row for row in rows if row]


def every_of(digest):
    """How many frames the first stretch of a digest has."""
    said = STRETCH.match(digest)
    return int(said.group(1)) if said and int(said.group(1)) <= MOST else 600


def compared(now, stored, every):
    """What a line says of a movie's digest and the stored one."""
    if now == stored:
        return "ok"
    same = next((place for place, (one, other) in enumerate(zip(now, stored)) if one != other), min(len(now), len(stored)))
    line = now[:same].count(b"\n")
    return "differs in line %d" % (line + 1) if line < HEAD else "differs at %d" % ((line - HEAD) * every)


# ---- random ones

def some_manifest(rng, cart, movies, digests):
    """A manifest of movies with these names; it may be spoilt."""
    carts = ["cart", "cart", sha256(cart).hexdigest(), sha256(cart).hexdigest(), "0" * 64, "gone", rng.choice(movies)]
    lines = [rng.choice(("", "# a remark", "  # another one", "  ", "# a\ttab", "\t# a fault") if rng.random() < 0.2 else ("", "# a remark", "  # another one"))] * rng.randrange(2)
    for _ in range(rng.choice((0, 1, 1, 2, 5, 40))):
        words = [rng.choice(movies * 4 + ["gone", "cart"]), rng.choice(carts), rng.choice(digests * 4 + ["gone", "cart"])]
        lines.append(rng.choice(" \t").join(words) + rng.choice(REMARKS))
    text = "".join(line + "\n" for line in lines).encode()
    return spoiling.spoilt(rng, text) if rng.random() < 0.35 else text
