#!/usr/bin/env python3
"""Brings the names that this repository declares in specs/ and proofs/ to one spelling: words in snake case, types in camel case.

    python3 tools/respell.py [--list]

Run once, at the top, after the toolchain's own port.py. A name with a dash that a file of specs/ or proofs/ declares is written
with underscores, or in camel case where it begins with a capital; the names that the checker makes (goals, steps) keep theirs.
It turns specs/, proofs/, the clauses of src/ and must-fail/ (no string, and in comments only what stands between backticks), and
what README.md and docs/ name between backticks.
"""
import re
import sys
from collections import defaultdict
from pathlib import Path

ROOT = Path(__file__).resolve().parent.parent
MARKS = r"(?:(?:abbrev|unfoldable|pub|record|data|ruleset)\s+)*"
DECLARED = re.compile(r"^\s*(" + MARKS + r")([^\s:(){};,.]+)\s*([({:].*)$")
EDGE = r"[\w\-'′]"
# made by the checker: the step of `let answer = lot.open(..)`, which a definition happens to be called like
STEP = "c.open-answer"


def declared_names():
    """The names that lines of specs/ and proofs/ declare, less those of goals."""
    names = set()
    for path in sorted(ROOT.glob("crates/*/*/**/*.antt")):
        if path.relative_to(ROOT).parts[2] not in ("specs", "proofs"):
            continue
        for line in path.read_text().splitlines():
            found = DECLARED.match(line)
            if not found or line.lstrip().startswith(("--", "use ")):
                continue
            marks, name, rest = found.groups()
            if ":" not in rest and not marks:
                continue
            if re.search(r":\s*goal\.", rest):
                continue
            names.add(name)
    return names


def spelled(name):
    parts = name.split("-")
    if name[0].isupper():
        return "".join(part[:1].upper() + part[1:] for part in parts)
    return "_".join(parts)


def turned(text, names):
    """The text with each of the names in its new spelling."""
    def new(found):
        word = found.group(0)
        made = text[max(0, found.start() - 2):found.end()] == STEP
        return spelled(word) if word in names and not made else word
    return re.sub(r"(?<!%s)[A-Za-z][\w']*(?:-[\w']+)+(?!%s)" % (EDGE, EDGE), new, text)


def in_backticks(text, names):
    return re.sub(r"`[^`\n]*`", lambda found: turned(found.group(0), names), text)


def turn_code(text, names, comment):
    """Code lines: strings stay, and a comment is turned between backticks alone."""
    lines = []
    for line in text.split("\n"):
        strings = r'b?"(?:\\.|[^"\\])*"'
        pieces = re.split("(%s|%s.*)" % (strings, comment), line)
        for i, piece in enumerate(pieces):
            if i % 2 == 0:
                pieces[i] = turned(piece, names)
            elif not re.match(strings, piece):
                pieces[i] = in_backticks(piece, names)
        lines.append("".join(pieces))
    return "\n".join(lines)


def main():
    names = {name for name in declared_names() if "-" in name}
    together = defaultdict(set)
    for name in names:
        together[spelled(name)].add(name)
    clashes = {new: old for new, old in together.items() if len(old) > 1 or new in declared_names()}
    if clashes:
        sys.exit("these names would fall together: %s" % clashes)
    if "--list" in sys.argv:
        for name in sorted(names):
            print(name, spelled(name))
        return
    code = [(path, "//") for path in ROOT.glob("crates/*/src/**/*.rt")]
    code += [(path, r"(?:^|(?<=\s))--(?=\s)") for kind in ("specs", "proofs") for path in ROOT.glob("crates/*/%s/**/*.antt" % kind)]
    code += [(path, "//") for path in ROOT.glob("crates/*/must-fail/*.edit")]
    changed = 0
    for path, comment in sorted(code):
        text = path.read_text()
        new = turn_code(text, names, comment)
        if new != text:
            path.write_text(new)
            changed += 1
    for path in [ROOT / "README.md"] + sorted(ROOT.glob("docs/*.md")):
        text = path.read_text()
        # a code fence has three backticks, so only lines with pairs of single ones are read
        new = "\n".join(in_backticks(line, names) for line in text.split("\n"))
        if new != text:
            path.write_text(new)
            changed += 1
    print("%d names, %d files" % (len(names), changed))


main()
