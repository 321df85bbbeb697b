"""Makes the input and the stored output of the program `vectors`, from the independent model.

    python3 make_vectors.py            writes crates/vectors/stdin and crates/vectors/stdout
    python3 make_vectors.py --check    says whether the stored files are what it makes (status 1 if not)

A line of the input is one of

    digest KIND ROOM : WORDS           the digest of a record into a buffer of ROOM words
    pair KIND ROOM : WORDS : WORDS     the two-to-one hash of two digests into such a buffer
    permute KIND : WORDS               the mixing of a state
    reverse KIND : WORDS               the mixing of a state taken back
    check KIND DEPTH PLACE : ROOT : CLAIM : PATH
                                       the check of an opening; a CLAIM of `-` is nothing
    find KIND DEPTH PLACE ROOM : ROOT : CLAIM : PATH : CLAIM : PATH
                                       the clash of two openings, into a buffer of ROOM words
    # TEXT                             a heading, which is written as it is

where KIND is 0 for drill, 1 for RPO-128, 2 for RPO-160, and WORDS are decimal words, or COUNT@START+STEP for COUNT
words from START on, each STEP more than the one before modulo 2^64. The answer is the words that the call leaves in its
buffer, or `no NUMBER LAYER [INDEX]`, and `changed` behind it if a denied call changed its buffer. A line that cannot be
read is answered by `cannot read line N`, a check by `accepted` or `not accepted`, a find by `pairs LEVEL WORDS`, `records`
or `zero BOOL` (whether the record is the second opening's), and a reverse of drill, which has none, by `this kind has no reverse`.
"""
import pathlib
import random
import sys

import rpo_reference as model
from published_vectors import VECTORS

FOLDER = pathlib.Path(__file__).resolve().parent.parent / "crates" / "vectors"
SEED = 20221101
P = model.P
TOP = 2**64 - 1
KINDS = [model.DRILL, model.RPO128, model.RPO160]
NAMES = ["drill", "RPO-128", "RPO-160"]
REVERSIBLE = KINDS[1:]
LONGEST = 4096

# Words where a carry, a half of 32 bits or the prime is near.
EDGES = [0, 1, 2, 7, 2**31, 2**32 - 2, 2**32 - 1, 2**32, 2**32 + 1, 2**33 - 1, 2**48, 2**63 - 1, 2**63, 2**63 + 1,
         P >> 1, (P >> 1) + 1, P - 2**32 - 1, P - 2**32, P - 2**32 + 1, P - 2**31, P - 7, P - 2, P - 1]


def spread(count, start, step):
    return [(start + i * step) % 2**64 for i in range(count)]


class Words:
    """Words with the text that stands for them."""

    def __init__(self, words, text=None):
        self.words = list(words)
        self.text = " ".join(map(str, self.words)) if text is None else text

    def __add__(self, other):
        return Words(self.words + other.words, " ".join(t for t in (self.text, other.text) if t))

    @staticmethod
    def run(count, start, step):
        return Words(spread(count, start, step), "%d@%d+%d" % (count, start, step))


class Cases:
    def __init__(self):
        self.lines, self.answers = [], []
        self.number = 0
        self.dice = random.Random(SEED)

    def put(self, line, answer):
        self.number += not line.startswith("#")
        self.lines.append(line.rstrip())
        self.answers.append(answer)

    def heading(self, text):
        self.put("# " + text, "# " + text)

    def case(self, line, call, *given):
        try:
            answer = " ".join(map(str, call(*given)))
        except model.Denied as why:
            parts = ["no", why.number, model.LAYER[why.number]] + ([] if why.detail is None else [why.detail])
            answer = " ".join(map(str, parts))
        self.put(line, answer)
        return answer

    def digest(self, kind, record, room=None):
        room = kind.w if room is None else room
        return self.case("digest %d %d : %s" % (kind.number, room, record.text),
                         model.call_digest, kind, record.words, room)

    def pair(self, kind, a, b, room=None):
        room = kind.w if room is None else room
        return self.case("pair %d %d : %s : %s" % (kind.number, room, a.text, b.text),
                         model.call_merge, kind, a.words, b.words, room)

    def permute(self, kind, state):
        return self.case("permute %d : %s" % (kind.number, state.text), model.call_permute, kind, state.words)

    def reverse(self, kind, state):
        return self.case("reverse %d : %s" % (kind.number, state.text), model.call_permute, kind, state.words, True)

    def unreadable(self, line):
        self.put(line, "cannot read line %d" % (len(self.lines) + 1))

    def elements(self, count):
        return Words(self.dice.randrange(P) for _ in range(count))

    def edges(self, count):
        return Words(self.dice.choice(EDGES) for _ in range(count))

    def long(self, count):
        """A long record of elements that has a short text."""
        while True:
            start, step = self.dice.randrange(2**64), self.dice.randrange(2**64)
            if all(x < P for x in spread(count, start, step)):
                return Words.run(count, start, step)

    def spoiled(self, count, bad):
        """Elements, but for the words of `bad`, which maps indices to words."""
        return Words(bad.get(i, x) for i, x in enumerate(self.elements(count).words))


def published(cases):
    cases.heading("the published digests")
    for number, record, digest in VECTORS:
        answer = cases.digest(model.KINDS[number], Words(record))
        assert answer == " ".join(map(str, digest)), "the model has not the published digest of %s" % record
    cases.heading("the two-to-one hash of two digests is the digest of the words of both, here a published one")
    pair = cases.pair(model.RPO128, Words(range(4)), Words(range(4, 8)))
    assert pair == cases.digest(model.RPO128, Words(range(8)))


def states(cases, kind):
    """States at the edges, and others."""
    m = model.state_size(kind)
    yield from (Words.run(m, x, 0) for x in (0, 1, 2**32 - 1, 2**32, P - 1))
    yield Words(range(m))
    for i in range(m):
        yield Words(int(i == j) for j in range(m))
    for i in range(m):
        yield Words((P - 1) * int(i == j) for j in range(m))
    yield from (cases.edges(m) for _ in range(12))
    yield from (cases.elements(m) for _ in range(12))


def permutations(cases):
    for kind in KINDS:
        cases.heading("permute, %s" % NAMES[kind.number])
        for state in states(cases, kind):
            cases.permute(kind, state)
    for kind in REVERSIBLE:
        cases.heading("reverse, %s" % NAMES[kind.number])
        for state in states(cases, kind):
            cases.reverse(kind, state)
    for kind in REVERSIBLE:
        cases.heading("permute what reverse gave, and reverse what permute gave, %s" % NAMES[kind.number])
        m = kind.m
        for state in (cases.elements(m), cases.edges(m), Words.run(m, 0, 0), Words.run(m, P - 1, 0)):
            back = cases.reverse(kind, state)
            assert cases.permute(kind, Words(map(int, back.split()))) == " ".join(map(str, state.words))
            there = cases.permute(kind, state)
            assert cases.reverse(kind, Words(map(int, there.split()))) == " ".join(map(str, state.words))


def digests(cases):
    for kind in KINDS:
        r = 2 * kind.w
        cases.heading("digests around the edges of blocks, %s" % NAMES[kind.number])
        for n in sorted({1, 2, r - 1, r, r + 1, 2 * r - 1, 2 * r, 2 * r + 1, 3 * r - 1, 3 * r, 3 * r + 1}):
            for record in (cases.elements(n), cases.edges(n), Words.run(n, 0, 0), Words.run(n, P - 1, 0)):
                cases.digest(kind, record)
        cases.heading("records that end as a filling does, %s" % NAMES[kind.number])
        for tail in ([], [1], [1, 0], [0], [1] + [0] * (r - 2), [1] + [0] * (r - 1)):
            cases.digest(kind, Words([5] + tail))
        cases.heading("long records, %s" % NAMES[kind.number])
        for n in (100, 1000, LONGEST - 1, LONGEST):
            cases.digest(kind, cases.long(n))
        cases.digest(kind, Words.run(LONGEST, P - 1, 0))


def pairs(cases):
    for kind in KINDS:
        w = kind.w
        cases.heading("two-to-one, %s" % NAMES[kind.number])
        cases.pair(kind, Words.run(w, 0, 0), Words.run(w, 0, 0))
        cases.pair(kind, Words.run(w, P - 1, 0), Words.run(w, P - 1, 0))
        for _ in range(8):
            a, b = cases.elements(w), cases.elements(w)
            cases.pair(kind, a, b)
            cases.pair(kind, b, a)
            cases.pair(kind, cases.edges(w), cases.edges(w))


def denied_digests(cases, kind):
    w, r = kind.w, 2 * kind.w
    wrong = sorted({0, w - 1, w + 1, r, 16})
    bad_end = Words([P])
    cases.heading("digests denied for the length of the record, %s" % NAMES[kind.number])
    for room in [w] + wrong:
        cases.digest(kind, Words([]), room)
        cases.digest(kind, cases.long(LONGEST + 1), room)
        cases.digest(kind, Words.run(LONGEST + 1, TOP, 0), room)
    cases.digest(kind, cases.long(LONGEST) + bad_end)
    cases.digest(kind, Words.run(65536, 0, 0))
    cases.heading("digests denied for the buffer, %s" % NAMES[kind.number])
    for room in wrong:
        for n in (1, r, r + 1):
            cases.digest(kind, cases.elements(n), room)
            cases.digest(kind, cases.spoiled(n, {0: P}), room)
            cases.digest(kind, cases.spoiled(n, {n - 1: TOP}), room)
        cases.digest(kind, cases.long(LONGEST), room)
    cases.heading("digests denied for a word, %s" % NAMES[kind.number])
    for n in sorted({1, r - 1, r, r + 1, 3 * r}):
        for i in sorted({0, n // 2, n - 1}):
            for word in (P, TOP, P + 1 + cases.dice.randrange(2**32 - 2)):
                cases.digest(kind, cases.spoiled(n, {i: word}))
        cases.digest(kind, cases.spoiled(n, {n // 2: TOP, n - 1: P}))
    cases.digest(kind, cases.long(LONGEST - 1) + bad_end)
    cases.digest(kind, cases.long(2000) + Words([TOP]) + Words.run(LONGEST - 2001, P, 0))


def denied_pairs(cases, kind):
    w = kind.w
    good, bad = cases.elements(w), cases.spoiled(w, {0: P})
    wrong = sorted({0, w - 1, w + 1, 2 * w})
    cases.heading("two-to-one denied for a buffer, %s" % NAMES[kind.number])
    for n in wrong:
        cases.pair(kind, good, good, n)
        cases.pair(kind, cases.elements(n), good)
        cases.pair(kind, good, cases.elements(n))
        cases.pair(kind, bad, bad, n)
        cases.pair(kind, cases.elements(n), bad)
        cases.pair(kind, bad, cases.elements(n))
        cases.pair(kind, Words.run(n, TOP, 0), good, n)
    cases.pair(kind, cases.elements(w - 1), cases.elements(w + 1))
    cases.pair(kind, cases.elements(w + 1), cases.elements(w - 1))
    cases.heading("two-to-one denied for a word, %s" % NAMES[kind.number])
    for i in range(w):
        for word in (P, TOP):
            cases.pair(kind, cases.spoiled(w, {i: word}), good)
            cases.pair(kind, good, cases.spoiled(w, {i: word}))
    cases.pair(kind, cases.spoiled(w, {w - 1: P}), Words.run(w, TOP, 0))
    cases.pair(kind, Words.run(w, P, 0), cases.spoiled(w, {0: TOP}))


def denied_states(cases, kind, call):
    m = model.state_size(kind)
    for n in (0, m - 1, m + 1, 2 * m):
        call(kind, cases.elements(n))
        call(kind, Words.run(n, P, 0))
        call(kind, cases.spoiled(n, {n - 1: TOP}))
    for i in sorted({0, 1, kind.c - 1, kind.c, kind.c + kind.w, m - 1}):
        for word in (P, TOP):
            call(kind, cases.spoiled(m, {i: word}))
    call(kind, cases.spoiled(m, {1: TOP, m - 1: P}))
    call(kind, Words.run(m, TOP, 0))


def denials(cases):
    for kind in KINDS:
        denied_digests(cases, kind)
        denied_pairs(cases, kind)
        cases.heading("permute denied, %s" % NAMES[kind.number])
        denied_states(cases, kind, cases.permute)
    for kind in REVERSIBLE:
        cases.heading("reverse denied, %s" % NAMES[kind.number])
        denied_states(cases, kind, cases.reverse)


def unreadables(cases):
    cases.heading("lines that cannot be read, a kind that has no reverse, and a call that is granted after them")
    for line in ("", "digest", "digest 1 4 1 2 3", "digest 3 4 : 1", "digest 1 : 1", "digest 1 4 4 : 1",
                 "digest 1 65537 : 1", "digest 1 4 : 1 x", "digest 1 4 : 18446744073709551616", "digest 1 4 : -1",
                 "digest 1 4 : 65537@0+0", "digest 1 4 : 3@0", "pair 1 4 : 0 1 2 3", "permute 1 12 : 0", "seal 1 4 : 1",
                 "Digest 1 4 : 1", ": 1"):
        cases.unreadable(line)
    cases.put("reverse 0 : 1 2 3", "this kind has no reverse")
    cases.digest(model.RPO128, Words([0]))


def section(words):
    if words is None:
        return "-"
    if len(words) > LONGEST and len(set(words)) == 1:
        return "%d@%d+0" % (len(words), words[0])
    return " ".join(map(str, words))


def check(cases, kind, root, depth, place, claim, path):
    line = "check %d %d %d : %s : %s : %s" % (kind.number, depth, place, section(root), section(claim), section(path))
    cases.case(line, lambda: ["accepted" if model.call_check(kind, root, depth, place, claim, path) else "not accepted"])


def find(cases, kind, root, depth, place, first, second, room=None):
    room = 4 * kind.w if room is None else room
    parts = [section(x) for x in (root,) + first + second]
    line = "find %d %d %d %d : %s" % (kind.number, depth, place, room, " : ".join(parts))

    def call():
        found = model.call_find(kind, root, depth, place, first, second, room)
        if found[0] == "pairs":
            return ["pairs", found[1]] + found[2]
        return ["zero", "true" if found[1] == 1 else "false"] if found[0] == "zero" else ["records"]

    cases.case(line, call)


def small_lot(cases, kind, depth):
    """A lot with some places filled, and the record of each place."""
    lot = model.Lot(kind)
    lot.make(depth)
    records = [None if place % 3 == 2 else cases.elements(1 + place % 5).words for place in range(2**depth)]
    lot.places = [None if r is None else model.record_digest(kind, r) for r in records]
    return lot, records


def accepted_openings(cases, kind):
    for depth in (0, 1, 3):
        lot, records = small_lot(cases, kind, depth)
        root = lot.root()
        for place, record in enumerate(records):
            path = lot.open(place)
            check(cases, kind, root, depth, place, record, path)
            check(cases, kind, root, depth, place, None if record else [0], path)
            check(cases, kind, root, depth, place ^ (depth > 0), record, path)
            find(cases, kind, root, depth, place, (record, path), (record, path))
            if depth:
                spoiled = [(path[0] + 1) % P] + path[1:]
                check(cases, kind, root, depth, place, record, spoiled)
                find(cases, kind, root, depth, place, (record, path), (record, spoiled))
                find(cases, kind, root, depth, place, (record, spoiled), (record, path))


def other_opening(kind, depth, place, record, path, level, start):
    """At the drill kind, where the hash of a and b is a + 2 b: an opening with the record start, 0, alike above the level."""
    pairs, _ = model.climb(kind, depth, place, record, path)
    top = model.merge(kind, *pairs[level])[0]
    own, other = start, list(path)
    for j in range(level):
        own = (own + 2 * path[j]) % P if place >> j & 1 == 0 else (path[j] + 2 * own) % P
    other[level] = (top - own) * ((P + 1) // 2) % P if place >> level & 1 == 0 else (top - 2 * own) % P
    return [start, 0], other


def clashes(cases):
    """Pairs that clash at each level, records with one digest, and records whose digest is zero."""
    kind = model.DRILL
    lot, records = small_lot(cases, kind, 3)
    root = lot.root()
    for place, record in enumerate(records):
        path = lot.open(place)
        for level in range(3):
            second = other_opening(kind, 3, place, record, path, level, cases.elements(1).words[0])
            find(cases, kind, root, 3, place, (record, path), second)
            find(cases, kind, root, 3, place, second, (record, path))
        twin = [model.leaf(kind, record)[0], 0]
        find(cases, kind, root, 3, place, (record, path), (twin, path))
        find(cases, kind, root, 3, place, (twin, path), (record, path))
    find(cases, kind, [0], 0, 0, (None, []), ([P - 2, 1], []))
    find(cases, kind, [0], 0, 0, ([P - 2, 1], []), (None, []))


def denied_openings(cases, kind):
    lot, records = small_lot(cases, kind, 1)
    root, path, record, w = lot.root(), lot.open(0), records[0], kind.w
    good = (record, path)
    bad_word = [P] + path[1:]
    for depth, place, claim, top, way in (
            (9, 9, [], root + [0], path), (255, 0, record, root, path), (1, 2, [], root, path), (8, 256, record, root, path),
            (1, 0, [], root[1:], bad_word), (1, 0, [1] * 4097, root, path), (1, 0, record, root + [0], bad_word),
            (1, 0, record, root[1:], path), (1, 0, record, root, path + [0]), (1, 0, record, root, path[1:]), (2, 0, record, root, path),
            (1, 0, record, [P] + root[1:], bad_word), (1, 0, [TOP] + record, root, bad_word), (1, 0, record, root, bad_word),
            (1, 0, None, root, path[:-1] + [TOP])):
        check(cases, kind, top, depth, place, claim, way)
        find(cases, kind, top, depth, place, (claim, way), good)
        if depth == 1 and len(top) == w:
            find(cases, kind, top, depth, place, good, (claim, way))
    for room in (0, 4 * w - 1, 4 * w + 1):
        find(cases, kind, root, 1, 0, good, good, room)
        find(cases, kind, root, 1, 0, (record, bad_word), good, room)
    find(cases, kind, [(root[0] + 1) % P] + root[1:], 1, 0, good, good)


def openings(cases):
    for kind, name in zip(KINDS, NAMES):
        cases.heading("openings under " + name)
        accepted_openings(cases, kind)
        denied_openings(cases, kind)
    cases.heading("clashes of the drill kind")
    clashes(cases)


def make():
    cases = Cases()
    for part in (published, permutations, digests, pairs, denials, openings, unreadables):
        part(cases)
    files = {"stdin": cases.lines, "stdout": cases.answers}
    return cases.number, {name: "".join(line + "\n" for line in lines) for name, lines in files.items()}


def main(arguments):
    if arguments not in ([], ["--check"]):
        print(__doc__)
        return 2
    number, files = make()
    print("%d cases, %d and %d bytes" % (number, len(files["stdin"]), len(files["stdout"])))
    if not arguments:
        for name, text in files.items():
            (FOLDER / name).write_text(text)
        return 0
    stale = [name for name, text in files.items() if (FOLDER / name).read_text() != text]
    print("not what the model gives: " + ", ".join(stale) if stale else "the stored files are what the model gives")
    return 1 if stale else 0


if __name__ == "__main__":
    sys.exit(main(sys.argv[1:]))
