#!/usr/bin/env python3
"""Lines for `drive` about removal, looking up and the stack: document 01's examples, every kind of
range, valid and invalid cursors, outputs of every size that matters. crates/drive/stdin has these
lines after those of tests/stores.py."""
import model
from stores import A, B, built, show

U = model.U
TOP = 2**64 - 1
EVERY = "o", 2, 0, 2, 0
STACK_CALLS = "spush spop sleft smatch sright scanleft scanmatch scanright sempty".split()


def start(s, q):
    return model.first(s, q), 1, 0


def steps(s, q):
    """A whole lookup, from fresh to the end and once more."""
    print("fresh", *q)
    cursor = start(s, q)
    while not model.refuse_query(q):
        print("step", *q, *cursor)
        if cursor == (U, 0, 0):
            return
        cursor = model.lookup(s, q, cursor, 1)[3]
    print("step", *q, *cursor)


def drains(s, q, limit, room):
    """Drains one after the other to the end."""
    cursor = start(s, q)
    while True:
        print("drain", *q, *cursor, limit, room)
        if cursor == (U, 0, 0) or model.refuse_query(q):
            return
        cursor = model.lookup(s, q, cursor, limit or room)[3]


def overlap(a, x, b, y):
    return "o", a, x, b, y


def examples():
    a, b = built(A), built(B)
    print("# store A: the examples")
    show(a)
    for q in overlap(0, 20, 1, 25), overlap(0, 60, 1, 70), overlap(1, 20, 0, 25), EVERY, overlap(1, 7, 0, 7), overlap(0, 7, 0, 7):
        steps(a, q)
        print("drain", *q, *start(a, q), 5, 5)
    print("# each equal interval of it, and others")
    for x, y in (10, 20), (10, 30), (25, 40), (40, 50), (45, 60), (10, 25), (45, 61), (20, 20), (21, 20):
        steps(a, ("e", x, y))
        drains(a, ("e", x, y), 2, 3)
    print("# store B")
    show(b)
    for q in ("e", 5, 9), ("e", 5, 8), EVERY:
        steps(b, q)
        print("drain", *q, *start(b, q), 3, 3)


def removals():
    print("# removals from store A, each from the whole of it")
    a = built(A)
    show(a)
    for slot in 0, 1, 2, 3, 4, 5, U, TOP:
        print("remove", slot)
    print("# store B, until it is empty")
    show(built(B))
    for slot in 0, 1, 0, 0:
        print("remove", slot)
        print("commit")
        print("check")
    print("remove")
    print("remove 1 2")


def ranges():
    print("# every pair of kinds, with lo below, at and above hi")
    a = built(A)
    show(a)
    for low in 0, 1, 2:
        for high in 0, 1, 2:
            for x, y in (20, 25), (30, 30), (40, 25), (0, TOP), (TOP, TOP), (0, 0), (TOP, 0):
                q = overlap(low, x if low < 2 else 0, high, y if high < 2 else 0)
                print("drain", *q, *start(a, q), 5, 5)
    print("# entries at the ends of the numbers")
    s = built([0, 1, 1, 0, TOP, 2, 7, 8, 3, TOP - 1, TOP, 4])
    show(s)
    for q in overlap(0, 0, 0, 0), overlap(0, 0, 1, 1), overlap(1, 0, 0, 1), overlap(0, TOP, 0, TOP), overlap(1, TOP, 2, 0), \
            overlap(0, TOP - 1, 1, TOP), overlap(2, 0, 1, 0), overlap(2, 0, 0, 0), ("e", 0, TOP), ("e", 0, 1), ("e", TOP - 1, TOP), \
            ("e", TOP, 0), ("e", TOP, TOP):
        steps(s, q)
        print("drain", *q, *start(s, q), 4, 4)


def cursors():
    print("# the empty map")
    empty = built([], 8, 1)
    show(empty)
    for q in EVERY, overlap(0, 5, 1, 9), overlap(0, 9, 1, 5), ("e", 5, 9), ("e", 9, 5):
        steps(empty, q)
        print("drain", *q, U, 1, 0, 0, 64)
    print("step", *EVERY, 0, 1, 0)
    a = built(A)
    print("# bad cursors: store A has the ways 2; 2 1; 2 1 0; 2 4; 2 4 3")
    show(a)
    bad = [(0, 3, 26), (0, 3, 30), (0, 3, 22), (1, 2, 7), (0, 4, 90), (0, 2, 6), (2, 1, 5), (2, 1, 1 + 2**63), (0, 3, 26 + 64),
           (0, 3, 58), (2, 1, 3), (2, 1, 2), (2, 1, 0), (5, 1, 1), (5, 3, 26), (U, 1, 0), (U, 1, 1), (U, 0, 1), (2, 0, 0), (1, 1, 0),
           (0, 1, 0), (1, 1, 1), (TOP, 1, 0), (2, TOP, 1), (2**32 + 2, 1, 0), (0, 32, TOP), (0, 33, 26)]
    for cursor in bad:
        print("step", *EVERY, *cursor)
    for cursor in bad[:6]:
        print("drain", *EVERY, *cursor, 5, 5)
    print("# the same slots, held as they should be")
    for slot, (levels, bits) in sorted(model.paths(a, a.root).items()):
        for q in EVERY, overlap(0, 20, 1, 25), ("e", 10, 30), ("e", 25, 40):
            print("step", *q, slot, levels, bits)
            print("drain", *q, slot, levels, bits, 5, 6)
    print("# a cursor held while the store changes")
    for slot in range(5):
        show(a)
        print("step", *EVERY, 1, *model.paths(a, a.root)[1])
        print("remove", slot)
        print("commit")
        for held in 1, 3, 0:
            print("step", *EVERY, held, *model.paths(a, a.root)[held])
        print("drain", *EVERY, 2, 1, 0, 5, 5)


def refused():
    print("# a store that does not pass, then a bad range, a bad cursor and a short output with it: the first counts")
    a = built(A)
    a.root = 1
    show(a)
    for q in EVERY, overlap(0, 9, 1, 5), ("e", 10, 30), ("e", 30, 10):
        print("fresh", *q)
        print("step", *q, 2, 1, 0)
        print("drain", *q, 9, 9, 9, 5, 4)
    a = built(A)
    a.count = 6
    show(a)
    for q in EVERY, ("e", 30, 10):
        print("fresh", *q)
        print("step", *q, 2, 1, 0)
        print("drain", *q, 2, 1, 0, 5, 4)
    show(built(A))
    for q in overlap(0, 9, 1, 5), ("e", 30, 10), EVERY:
        print("step", *q, 9, 9, 9)
        print("drain", *q, 9, 9, 9, 5, 4)


def outputs():
    print("# limits and outputs")
    a = built(A)
    show(a)
    for limit, room in (1, 0), (1, 1), (5, 4), (6, 5), (6, 6), (2, 5), (64, 63), (64, 64), (64, 70), (TOP, 5), (TOP, 4096):
        print("drain", *EVERY, 2, 1, 0, limit, room)
    print("# a limit of 0: as many as fit")
    for room in 0, 1, 4, 5, 6, 63, 64, 65:
        print("drain", *EVERY, 2, 1, 0, 0, room)
    for cursor in (2, 1, 0), (1, 2, 6), (U, 0, 0), (1, 2, 7):
        for room in 0, 2:
            print("drain", *EVERY, *cursor, 0, room)
    print("drain", *overlap(0, 9, 1, 5), 2, 1, 0, 0, 0)
    print("drain", "e", 30, 10, 2, 1, 0, 0, 0)
    drains(a, EVERY, 0, 2)
    for limit in 1, 2, 4, 5:
        drains(a, EVERY, limit, limit)
    drains(a, overlap(0, 20, 1, 25), 1, 1)
    s = built([x for k in range(70) for x in (k // 2, 40 + k // 3, k)])
    print("# more hits than 64")
    show(s)
    for limit, room in (0, 64), (0, 70), (0, 71), (64, 64), (64, 70), (70, 70):
        print("drain", *EVERY, s.root, 1, 0, limit, room)
    drains(s, EVERY, 0, 7)
    drains(s, overlap(0, 20, 1, 25), 0, 66)
    drains(s, ("e", 3, 42), 1, 2)


def stacks():
    print("# the stack")
    for name in STACK_CALLS:
        for levels in 0, 1, 2, 31, 32, 33, TOP:
            for bits in 0, 1, 2, 3, 6, 9, 2**60, 3 * 2**60, 2**62, 2**63, 3 * 2**62, TOP, 2**63 - 1:
                print(name, levels, bits)


def commits():
    print("# `fresh` and the stack leave nothing: commit takes the removal before them")
    show(built(A))
    for line in "remove 1", "fresh o 2 0 2 0", "fresh e 10 20", "spush 0 0", "commit", "check", "remove 0":
        print(line)
    print("# a step and a drain leave the store as it was")
    for line in "remove 0", "step o 2 0 2 0 2 1 0", "commit", "remove 0", "drain o 2 0 2 0 2 1 0 4 4", "commit", "remove 0":
        print(line)


def malformed():
    print("# lines that fit nothing")
    for line in ("fresh", "fresh o", "fresh e", "fresh o 0 1 0", "fresh o 0 1 0 2 3", "fresh o 3 1 0 2", "fresh o 0 1 3 0", "fresh o 2 1 0 2",
                 "fresh o 0 1 2 2", "fresh e 1", "fresh e 1 2 3", "fresh x 1 2", "fresh 1 2", "fresh  e 1 2", "fresh e  1 2", "fresh e 1 2 ",
                 "step", "step o 2 0 2 0 2 1", "step o 2 0 2 0 2 1 0 0", "step o 2 1 2 0 2 1 0", "step o 4 0 2 0 2 1 0", "step e 1 2 2 1",
                 "step e 1 2 2 1 0 0", "step 1 2 2 1 0", "step e 1 2 2 1 x", "drain", "drain o 2 0 2 0 2 1 0 5", "drain o 2 0 2 0 2 1 0 5 5 5",
                 "drain o 2 0 2 0 2 1 0 5 4097", "drain o 2 0 2 0 2 1 0 5 18446744073709551615", "drain o 2 0 2 3 2 1 0 5 5", "drain e 1 2 2 1 0 5",
                 "drain e 1 2 2 1 0 5 5 5", "drain e 1 2 2 1 0 5 4097", "drain e 1 2 2 1 0 18446744073709551616 5", "spush", "spush 1", "spush 1 2 3",
                 "spush 1 18446744073709551616", "spush1 2", "sempty", "sempty 0", "sempty 0 0 0", "scan 1 2", "scanleft 1", "SPUSH 1 2"):
        print(line)


if __name__ == "__main__":
    examples()
    removals()
    ranges()
    cursors()
    refused()
    outputs()
    stacks()
    commits()
    malformed()
