#!/usr/bin/env python3
"""Makes the corpus of scripts that the program script_cases runs, and the lines that the reference model gives.

    python3 reference/make_scripts.py            writes crates/script_cases/stdin and stdout
    python3 reference/make_scripts.py --check    says whether they are what it makes

A line of the input is one script: hexadecimal parts split by spaces, each of which may have a count in front of it, as
3*1500. The output has the lines of each script, and a line `end` after it.
"""
import random
import sys
from pathlib import Path

from rpo_reference import EXAMPLE, P, script_lines

FOLDER = Path(__file__).resolve().parent.parent / "crates" / "script_cases"
SEED = 65536
MOST = 65536


def number(x, size):
    return x.to_bytes(size, "little")


def start(kind, depth):
    return bytes([0x01, kind, depth])


def begin(station, place, length):
    return bytes([0x10, station]) + number(place, 2) + number(length, 2)


def feed(station, word):
    return bytes([0x11, station]) + number(word, 8)


def feed_eight(station, words):
    return bytes([0x18, station]) + b"".join(number(x, 8) for x in words)


def seal(station):
    return bytes([0x12, station])


def abandon(station):
    return bytes([0x13, station])


def clear(place):
    return bytes([0x14]) + number(place, 2)


def open_place(place):
    return bytes([0x16]) + number(place, 2)


ROOT, CLOSE = b"\x15", b"\x17"


def word(rng):
    return rng.choice([0, 1, P - 1, P, 2**64 - 1, rng.randrange(P), rng.randrange(P), rng.randrange(P)])


def call(rng, depth):
    station = rng.choice([0, 0, 1, 1, 2, 7, 8, 255])
    place = rng.choice([0, 0, 1, 2**depth - 1, 2**depth, 65535])
    pick = rng.randrange(12)
    if pick < 3:
        return begin(station, place, rng.choice([0, 1, 1, 2, 3, 8, 9, 4096, 4097, 65535]))
    if pick < 6:
        return feed(station, word(rng))
    if pick < 8:
        return feed_eight(station, [word(rng) if rng.randrange(4) == 0 else rng.randrange(P) for _ in range(8)])
    return [seal(station), seal(station), abandon(station), rng.choice([clear(place), ROOT])][pick - 8]


def filled(rng, depth, records):
    """Begins, feeds and seals that are granted, mixed with other calls."""
    out = b""
    for _ in range(records):
        station, place, length = rng.randrange(8), rng.randrange(2**depth), rng.randrange(1, 12)
        out += begin(station, place, length)
        out += b"".join(feed(station, rng.randrange(P)) for _ in range(length)) + seal(station)
        if rng.randrange(3) == 0:
            out += call(rng, depth)
    return out


def day(rng, kind, depth):
    script = start(kind, depth) + filled(rng, depth, 3)
    script += b"".join(call(rng, depth) for _ in range(rng.randrange(20))) + ROOT + CLOSE + ROOT
    return script + b"".join(open_place(p) for p in range(min(2**depth, 4))) + open_place(2**depth) + ROOT


def hexed(script):
    return script.hex() or "-"


def scripts():
    rng = random.Random(SEED)
    yield hexed(EXAMPLE)
    yield "-"
    for depth in range(9):
        for kind in range(3):
            if kind == 0 or depth < 4 or depth == 8:
                yield hexed(day(rng, kind, depth))
    for i in range(60):
        yield hexed(day(rng, i % 3, rng.randrange(4)))
    example = bytes(EXAMPLE)
    for cut in range(len(example)):
        yield hexed(example[:cut])
    for byte in range(256):
        yield hexed(bytes([byte]))
        yield hexed(start(0, 1) + bytes([byte, 0, 0, 0, 0, 0]))
    for byte in (0x00, 0x01, 0x10, 0x11, 0x12, 0x13, 0x14, 0x15, 0x16, 0x17, 0x18, 0x19):
        yield hexed(start(0, 1) + CLOSE + bytes([byte]) + bytes(66))
    for kind, depth in ((2, 8), (2, 9), (3, 8), (3, 9), (255, 255), (0, 9), (1, 0)):
        yield hexed(start(kind, depth) + ROOT)
    for _ in range(40):
        yield hexed(start(rng.randrange(3), rng.randrange(3)) + rng.randbytes(rng.randrange(80)))
    eights = "010001 992*1800" + "00" * 64
    yield eights + " 61*15"
    yield eights + " 62*15"
    yield "%d*15" % (MOST + 1)
    yield "010200 100000000010 512*1800" + "00" * 64 + " 1200 15 17 160000"


def expand(text):
    out = b""
    for part in text.split():
        count, _, digits = part.rpartition("*")
        out += bytes.fromhex("" if digits == "-" else digits) * (int(count) if count else 1)
    return out


def main():
    lines = list(scripts())
    answers = [line for text in lines for line in list(script_lines(expand(text))) + ["end"]]
    made = {"stdin": lines, "stdout": answers}
    stale = [name for name, text in made.items()
             if not (FOLDER / name).is_file() or (FOLDER / name).read_text() != "\n".join(text) + "\n"]
    if sys.argv[1:] == ["--check"]:
        print("script_cases: %d scripts, %s" % (len(lines), "stale: " + ", ".join(stale) if stale else "as the reference model makes them"))
        return 1 if stale else 0
    for name, text in made.items():
        (FOLDER / name).write_text("\n".join(text) + "\n")
    return 0


sys.exit(main())
