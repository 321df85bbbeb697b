#!/usr/bin/env python3
"""Turns a script from text for people into bytes for the seal program, and back.

    script_text.py to-bytes < day.txt > script      one command to a line, numbers decimal; '#' begins a comment
    script_text.py to-text < script > day.txt
    script_text.py --selftest                       there and back, for every command

The commands: start KIND DEPTH, begin STATION PLACE LENGTH, feed STATION WORD, feed-eight STATION and eight words, seal STATION,
abandon STATION, clear PLACE, root, close, open PLACE. What cannot be read is said on standard error, with status 1. A number that
its operand has no room for cannot be written; whether a lot grants it is for the seal program to say.
"""
import sys

# name: (byte, sizes of the operands in bytes)
COMMANDS = {
    "start": (0x01, [1, 1]),
    "begin": (0x10, [1, 2, 2]),
    "feed": (0x11, [1, 8]),
    "feed-eight": (0x18, [1] + [8] * 8),
    "seal": (0x12, [1]),
    "abandon": (0x13, [1]),
    "clear": (0x14, [2]),
    "open": (0x16, [2]),
    "root": (0x15, []),
    "close": (0x17, []),
}
NAMES = {code: name for name, (code, _) in COMMANDS.items()}


class Unreadable(Exception):
    pass


def line_to_bytes(line, number):
    name, *operands = line.split()
    if name not in COMMANDS:
        raise Unreadable("line %d: no command is called %s" % (number, name))
    code, sizes = COMMANDS[name]
    if len(operands) != len(sizes):
        raise Unreadable("line %d: %s takes %d numbers" % (number, name, len(sizes)))
    try:
        return bytes([code]) + b"".join(int(x).to_bytes(size, "little") for x, size in zip(operands, sizes))
    except (ValueError, OverflowError):
        raise Unreadable("line %d: a number has no room or is none" % number) from None


def to_bytes(text):
    lines = ((n, line.split("#")[0]) for n, line in enumerate(text.splitlines(), 1))
    return b"".join(line_to_bytes(line, n) for n, line in lines if line.strip())


def to_text(script):
    lines, at = [], 0
    while at < len(script):
        name = NAMES.get(script[at])
        if name is None:
            raise Unreadable("offset %d: no command has the byte 0x%02X" % (at, script[at]))
        words, place = [name], at + 1
        for size in COMMANDS[name][1]:
            if place + size > len(script):
                raise Unreadable("offset %d: the operands of %s are cut short" % (at, name))
            words.append(str(int.from_bytes(script[place:place + size], "little")))
            place += size
        lines.append(" ".join(words))
        at = place
    return "".join(line + "\n" for line in lines)


def selftest():
    text = "".join("%s%s\n" % (name, "".join(" %d" % (256**size - 1 - i) for i, size in enumerate(sizes)))
                   for name, (_, sizes) in COMMANDS.items())
    script = to_bytes(text)
    assert to_text(script) == text
    assert to_bytes("start 0 1 # drill\n\nbegin 2 1 2\n") == bytes.fromhex("010001100201000200")
    for bad in ("stat 0 1", "start 0", "seal 256", "seal x", "open -1"):
        try:
            to_bytes(bad)
        except Unreadable:
            continue
        raise AssertionError(bad)
    for cut in range(len(script)):
        try:
            assert to_bytes(to_text(script[:cut])) == script[:cut]
        except Unreadable:
            pass
    print("script text: %d commands, there and back" % len(COMMANDS))


def main(words):
    try:
        if words == ["--selftest"]:
            selftest()
        elif words == ["to-bytes"]:
            sys.stdout.buffer.write(to_bytes(sys.stdin.read()))
        elif words == ["to-text"]:
            sys.stdout.write(to_text(sys.stdin.buffer.read()))
        else:
            print(__doc__)
            return 2
    except (Unreadable, UnicodeDecodeError) as why:
        print("cannot read: %s" % why, file=sys.stderr)
        return 1
    return 0


if __name__ == "__main__":
    sys.exit(main(sys.argv[1:]))
