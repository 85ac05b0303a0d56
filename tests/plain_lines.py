#!/usr/bin/env python3
"""Lines for `drive` about the plain lookup. Each query is made by a drain from the fresh cursor to
its end, and then by the plain lookup, into outputs of every size that matters. Every refusal and
each pair of refusals is tried. In crates/drive/stdin the lines of tests/find_lines.py come after
these. tests/find_lines.py makes the same queries by the
fast lookup: `name` is the request and `look` makes one query."""
import random

import model
from lookups import EVERY, TOP, U, overlap, start
from stores import A, B, built, show

QUERIES = [overlap(a, 20 * (a < 2), b, 25 * (b < 2)) for a in range(3) for b in range(3)]
QUERIES += [overlap(0, 60, 1, 70), overlap(1, 60, 2, 0), overlap(0, 10, 0, 10), overlap(2, 0, 1, 10), overlap(2, 0, 0, 10), overlap(0, 0, 0, TOP)]
QUERIES += [("e", 10, 30), ("e", 25, 40), ("e", 5, 9), ("e", 10, 31), ("e", 0, TOP)]


def looked_up(s, q, *rooms):
    """The drain and the plain lookup find the same."""
    found = model.lookup(s, q, start(s, q), s.count + 1)
    assert found[3] == (U, 0, 0)
    print("drain", *q, *start(s, q), s.count + 1, s.count + 1)
    for room in rooms or (s.count,):
        print("plain", *q, room)
        assert room < s.count or model.plain(s, q, room).split(" ")[4:][:len(found[1])] == [str(slot) for slot in found[1]]


def stores(name, look):
    print(f"# {name}: stores A and B, and the empty map")
    for s in built(A), built(B), built([], 8, 1), built([]):
        show(s)
        for q in QUERIES:
            look(s, q)
    print("# entries at the ends of the numbers")
    s = built([0, 1, 1, 0, TOP, 2, 7, 8, 3, TOP - 1, TOP, 4])
    show(s)
    for q in overlap(0, 0, 0, 0), overlap(1, 0, 0, 1), overlap(0, TOP, 0, TOP), overlap(1, TOP, 2, 0), overlap(0, TOP - 1, 1, TOP), ("e", 0, TOP), ("e", TOP - 1, TOP):
        look(s, q)
    print("# more entries than 64, with equal ones")
    s = built([x for k in range(70) for x in (k // 2, 40 + k // 3, k)])
    show(s)
    for q in EVERY, overlap(0, 20, 1, 25), overlap(0, 62, 2, 0), ("e", 3, 42), ("e", 3, 43):
        look(s, q)


def rooms(name, look):
    print("# outputs: one place less than the entries, as many, and more; the empty map takes one of none")
    for s in built(A), built(B), built([], 8, 1):
        show(s)
        for q in EVERY, overlap(0, 20, 1, 25), ("e", 5, 9), ("e", 10, 20):
            look(s, q, *sorted({0, max(s.count, 1) - 1, s.count, s.count + 3}))
    print(name, *EVERY, 4096)


def shapes(name, look):
    print("# stores after insertions and removals")
    rng = random.Random(5)
    for size in 1, 2, 3, 4, 5, 6, 7, 8, 9, 13, 17:
        s = model.Store(0, U, [0] * (8 * size + 16), [0] * (size // 8 + 1))
        while s.count < size:
            a = rng.randrange(12)
            model.insert(s, a, a + 1 + rng.randrange(6), rng.randrange(100))
            if rng.random() < 0.3:
                model.remove(s, rng.randrange(s.count))
        show(s)
        for q in EVERY, overlap(0, 4, 1, 7), overlap(1, 6, 0, 6 + size), ("e",) + s.key(0), ("e", 3, 4):
            look(s, q)


def refused(name):
    print(f"# {name}: a store that does not pass, a bad range or interval, and a short output: the first counts")
    broken, above, good = built(A), built(A), built(A)
    broken.root, above.count = 1, 6
    for s in broken, above, good:
        show(s)
        for q in EVERY, overlap(0, 9, 1, 5), overlap(1, 5, 0, 5), ("e", 10, 30), ("e", 30, 10), ("e", 9, 9):
            for room in 0, 4, 5, 6:
                print(name, *q, room)
    print("# it leaves the store as it was")
    for line in "remove 0", f"{name} o 2 0 2 0 5", "commit", "check", "remove 0":
        print(line)


def malformed(name):
    print(f"# {name}: lines that do not fit")
    for rest in ("", " o", " e", " 5", " o 2 0 2 0", " o 2 0 2 0 5 5", " o 2 0 2 0 4097", " o 2 0 2 0 18446744073709551615", " o 2 1 2 0 5", " o 3 0 2 0 5", " e 1 2",
                 " e 1 2 5 5", " e 1 2 4097", " x 1 2 5", " e 1 2 ", "e 1 2 5"):
        print(name + rest)


def lines(name, look):
    stores(name, look)
    rooms(name, look)
    shapes(name, look)
    refused(name)
    malformed(name)


if __name__ == "__main__":
    lines("plain", looked_up)
