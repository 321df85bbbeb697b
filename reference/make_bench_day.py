#!/usr/bin/env python3
"""Makes the day that the program bench_day runs, and what the reference model answers to it.

    python3 reference/make_bench_day.py            writes crates/bench_day/stdin and stdout
    python3 reference/make_bench_day.py --check    says whether they are what it makes
"""
import sys
from pathlib import Path

from rpo_reference import DRILL, LAYER, P, RPO128, RPO160, Denied, Lot, call_check, call_find

FOLDER = Path(__file__).resolve().parent.parent / "crates" / "bench_day"
KINDS = {"drill": DRILL, "rpo-128": RPO128, "rpo-160": RPO160}


def story(kind):
    """A small day: repeats, abandons, two stations for one place, and every refusal of a filling lot."""
    yield "lot " + kind
    yield "root"
    yield from ["make 9", "make 1"]
    yield from ["begin 2 1 2", "begin 2 0 1", "feed 2 4", "seal 2", "feed 2 5", "feed 2 6", "seal 2", "root"]
    yield from ["begin 0 0 3", "feed 0 1", "begin 1 0 1", "feed 1 7", "feed 0 2", "feed 0 3", "seal 1", "root", "seal 0", "root"]
    yield from ["begin 3 0 2", "feed 3 9", "abandon 3", "abandon 3", "seal 3", "feed 3 1", "root"]
    yield from ["clear 0", "clear 0", "root", "clear 2", "begin 0 2 1", "begin 8 9 0", "begin 0 2 0", "begin 0 1 0"]
    yield from ["feed 8 %d" % P, "feed 4 %d" % P, "begin 4 0 9", "feed 4 %d" % P, "feed 4 %d" % (P - 1)]
    yield from ["feed-eight 4 1 2 3 %d 5 6 7 %d" % (P, P), "feed-eight 4 1 2 3 4 5 6 7 8", "feed-eight 4 %d 0 0 0 0 0 0 0" % P]
    yield from ["feed 4 0", "seal 4", "root"]
    yield from ["begin 5 1 15", "feed-eight 5 1 2 3 4 5 6 7 8", "feed-eight 5 9 9 9 9 9 9 9 9", "seal 5", "feed 5 9", "root"]
    yield from ["make 2", "root", "seal 5", "begin 5 3 1", "feed 5 11", "seal 5", "begin 6 1 2", "feed 6 4", "feed 6 5", "seal 6"]
    yield from ["begin 0 2 2", "feed 0 1", "open 1", "root", "close", "root", "open 0", "open 1", "open 2", "open 3", "open 4"]
    yield from ["check-empty 0", "check 1 4 5", "check-empty 2", "check 3 11", "check 3 12", "check-empty 1", "check 4 1", "check 1 %d" % P]
    yield from ["feed 0 2", "make 1", "close"]


def edges():
    """The largest that is granted, and the smallest that is not."""
    yield from ["lot drill", "make 8", "begin 7 255 4096", "begin 8 255 4096", "begin 6 256 4096", "begin 6 255 4097"]
    yield "feed-eight 7 " + " ".join([str(P - 1)] * 8)
    for i in range(1, 512):
        yield "feed-eight 7 " + " ".join(str(8 * i + j) for j in range(8))
    yield from ["feed 7 0", "seal 7", "root"]


def too_large():
    """Operands too large for their width. Cut down to it, most would be of a depth, station, place or length that there is."""
    yield from ["lot drill", "make 256", "make %d" % (2**64 - 1), "make 1"]
    yield from ["begin 256 0 1", "begin 0 65536 1", "begin 0 0 65537", "begin 0 %d 1" % (2**64 - 1), "begin 0 0 1"]
    yield from ["feed 256 4", "feed-eight 256 1 2 3 4 5 6 7 8", "feed 0 4", "seal 256", "abandon 256", "seal 0"]
    yield from ["clear 65536", "root", "close", "open 65536", "check-empty 65537", "check 65536 4", "root"]
    yield from ["clash 257 1 28 4 5 0 13 0 2", "clash 1 65537 28 4 5 0 13 0 2"]


def clashes():
    """Two openings at the drill kind that clash, and two that do not."""
    yield "clash 1 1 28 4 5 0 13 0 2"
    yield "clash 1 1 28 4 5 0 14 0 0"
    yield "clash 1 1 28 4 5 0 4 5 0"
    yield "clash 1 0 28 4 5 0 14 0 0"
    yield "clash 1 1 28 4 5 0 14 0 1"
    yield "clash 9 1 28 4 5 0 14 0 0"
    yield "clash 1 2 28 4 5 0 14 0 0"
    yield "clash 2 1 28 4 5 0 14 0 0"
    yield "clash 1 1 28 4 %d 0 14 0 %d" % (P, P)


def perform(lot, name, numbers):
    if name == "make":
        lot.make(*numbers)
    elif name == "begin":
        lot.begin(*numbers)
    elif name in ("feed", "feed-eight"):
        lot.feed(numbers[0], numbers[1:])
    elif name == "seal":
        lot.seal(*numbers)
    elif name == "abandon":
        lot.abandon(*numbers)
    elif name == "clear":
        lot.clear(*numbers)
    elif name == "root":
        return " ".join(map(str, ["root"] + lot.root()))
    return "ok"


def clash_words(n):
    found = call_find(DRILL, n[2:3], n[0], n[1], (n[3:5], n[5:6]), (n[6:8], n[8:9]))
    if found[0] == "pairs":
        return "level %d, pairs %s" % (found[1], " ".join(map(str, found[2])))
    return {"records": "the two records", "zero": "a record whose digest is all zeros"}[found[0]]


def ask_closed(lot, name, numbers):
    if name == "root":
        return " ".join(map(str, ["root"] + lot.root()))
    if name == "open":
        return " ".join(map(str, ["path"] + lot.open(*numbers)))
    if name in ("check", "check-empty"):
        claim = numbers[1:] if name == "check" else None
        path = lot.open(numbers[0])
        return "accepted" if call_check(lot.kind, lot.root(), lot.depth, numbers[0], claim, path) else "not accepted"
    return "not once the lot is closed"


def answers(lines):
    lot, closed = Lot(DRILL), False
    for line in lines:
        name, *rest = line.split()
        if name == "lot":
            lot, closed, said = Lot(KINDS[rest[0]]), False, "ok"
        elif name == "close":
            closed, said = True, "ok"
        else:
            try:
                numbers = [int(x) for x in rest]
                if name == "clash":
                    said = clash_words(numbers)
                elif closed:
                    said = ask_closed(lot, name, numbers)
                elif name in ("open", "check", "check-empty"):
                    said = "not while the lot is filled"
                else:
                    said = perform(lot, name, numbers)
            except Denied as why:
                said = " ".join(map(str, ["no", why.number, LAYER[why.number]] + [why.detail] * (why.detail is not None)))
        yield "%s: %s" % (line, said)


def main():
    lines = [line for kind in KINDS for line in story(kind)] + list(edges()) + list(clashes()) + list(too_large())
    made = {"stdin": lines, "stdout": list(answers(lines))}
    stale = [name for name, text in made.items()
             if not (FOLDER / name).is_file() or (FOLDER / name).read_text() != "\n".join(text) + "\n"]
    if sys.argv[1:] == ["--check"]:
        print("bench_day: %d calls, %s" % (len(lines), "stale: " + ", ".join(stale) if stale else "as the reference model makes them"))
        return 1 if stale else 0
    for name, text in made.items():
        (FOLDER / name).write_text("\n".join(text) + "\n")
    return 0


sys.exit(main())
