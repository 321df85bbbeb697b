#!/usr/bin/env python3
"""Tables and pictures of how cost grows, from the lines of one or more runs of bench/src/growth.rs, of which the least time counts:
picture.py FOLDER, which gets growth-words.svg and growth-depth.svg."""
import math
import sys
from pathlib import Path

WIDTH, HEIGHT, LEFT, BOTTOM, TOP, RIGHT = 640, 400, 80, 60, 40, 130
COLOURS = {"RPO-128": "#1f5fa8", "RPO-160": "#b4521e"}


def read(lines):
    """What is measured, by its name and kind: the least time by the number it belongs to."""
    series = {}
    for line in lines:
        name, number, time = line.split("\t")
        what, kind = name.split(" ")
        times = series.setdefault(what, {}).setdefault(kind, {})
        times[int(number)] = min(float(time), times.get(int(number), math.inf))
    return series


def less(one, other, share=1):
    """By kind and number what one takes more than the other, where a series of one number stands for all."""
    return {kind: {n: max(0.0, t - other[kind].get(n, other[kind][8])) / share for n, t in times.items()} for kind, times in one.items()}


def table(title, kinds):
    print("| %s | %s |" % (title, " | ".join("%s, µs" % kind for kind in kinds)))
    print("|---|%s" % ("---|" * len(kinds)))
    for number in sorted(next(iter(kinds.values()))):
        print("| %d | %s |" % (number, " | ".join("{:,.1f}".format(times[number]) for times in kinds.values())))
    print()


class Scale:
    """From a value to a place on an axis, by its logarithm where that is wanted."""

    def __init__(self, least, most, start, end, by_log):
        self.by_log = by_log
        self.low, self.high = self.of(least), self.of(most)
        self.start, self.end = start, end

    def of(self, value):
        return math.log10(value) if self.by_log else value

    def at(self, value):
        return self.start + (self.of(value) - self.low) / (self.high - self.low) * (self.end - self.start)


def text(x, y, words, anchor="middle", turn=""):
    return '<text x="%.1f" y="%.1f" text-anchor="%s"%s>%s</text>' % (x, y, anchor, turn, words)


def line_of(kind, times, across, up):
    points = [(across.at(n), up.at(t)) for n, t in sorted(times.items()) if t > 0]
    colour = COLOURS[kind]
    parts = ['<polyline fill="none" stroke="%s" stroke-width="2" points="%s"/>' % (colour, " ".join("%.1f,%.1f" % p for p in points))]
    parts += ['<circle cx="%.1f" cy="%.1f" r="3" fill="%s"/>' % (x, y, colour) for x, y in points]
    parts.append(text(points[-1][0] + 10, points[-1][1] + (14 if kind == "RPO-128" else -4), kind, "start"))
    return parts


def picture(path, title, label, kinds, across_log, marks):
    numbers = sorted(next(iter(kinds.values())))
    times = [t for by_number in kinds.values() for t in by_number.values() if t > 0]
    low, high = 10 ** math.floor(math.log10(min(times))), 10 ** math.ceil(math.log10(max(times)))
    across = Scale(numbers[0], numbers[-1], LEFT, WIDTH - RIGHT, across_log)
    up = Scale(low, high, HEIGHT - BOTTOM, TOP, True)
    parts = ['<svg xmlns="http://www.w3.org/2000/svg" viewBox="0 0 %d %d" font-family="sans-serif" font-size="13">' % (WIDTH, HEIGHT),
             '<rect width="100%" height="100%" fill="white"/>', text((LEFT + WIDTH - RIGHT) / 2, 22, title)]
    decade = low
    while decade <= high:
        y = up.at(decade)
        parts.append('<line x1="%d" x2="%d" y1="%.1f" y2="%.1f" stroke="#ddd"/>' % (LEFT, WIDTH - RIGHT, y, y))
        parts.append(text(LEFT - 8, y + 4, "{:,g} µs".format(decade), "end"))
        decade *= 10
    for mark in marks:
        x = across.at(mark)
        parts.append('<line x1="%.1f" x2="%.1f" y1="%d" y2="%d" stroke="#eee"/>' % (x, x, TOP, HEIGHT - BOTTOM))
        parts.append(text(x, HEIGHT - BOTTOM + 18, "{:,}".format(mark)))
    parts.append(text((LEFT + WIDTH - RIGHT) / 2, HEIGHT - 16, label))
    for kind, by_number in kinds.items():
        parts += line_of(kind, by_number, across, up)
    path.write_text("\n".join(parts + ["</svg>", ""]))


def main():
    series = read(sys.stdin)
    folder = Path(sys.argv[1])
    depth_8 = {kind: {8: times[8]} for kind, times in series["start"].items()}
    closing = less(series["close"], series["start"])
    table("digest of a record, constants derived, words", series["digest"])
    table("closing a lot, depth", closing)
    table("a record in a lot, begun, fed and sealed, words", less(series["record"], depth_8, 100))
    table("its seal alone, words", less(series["record"], series["dropped"], 100))
    picture(folder / "growth-words.svg", "Digest of a record", "words", series["digest"], True, [1, 8, 64, 512, 4096])
    picture(folder / "growth-depth.svg", "Closing a lot", "depth", {k: {n: t for n, t in v.items() if n} for k, v in closing.items()}, False, range(1, 9))


main()
