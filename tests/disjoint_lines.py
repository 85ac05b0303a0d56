#!/usr/bin/env python3
"""Lines for `drive` about maps in which no two ranges overlap: the check on stores that touch, that
overlap and that are damaged, points at every edge, insertions that touch, cover and fit, each pair
of refusals, and removals until nothing is left. crates/drive/stdin has these lines between those of
tests/host_lines.py and those of tests/ruled_lines.py."""
import random

import model
from image_lines import lines
from insert_lines import roomy
from reach_lines import told
from stores import A, B, WORDS, built, show

U = model.U
TOP = 2**64 - 1
TOUCHING = [0, 5, 1, 5, 9, 2, 9, 12, 3]
# [10,20), [20,30), [40,50), [60,61): two that touch, a gap, one alone, another gap, one of one
# address
GAPS = [10, 20, 1, 20, 30, 2, 40, 50, 3, 60, 61, 4]


def apart(n, step=10, width=7):
    return [x for k in range(n) for x in (step * k, step * k + width, k)]


def damaged(numbers, *changes, root=None, count=None, colours=None):
    s = roomy(numbers, 1)
    for slot, word, to in changes:
        s.set(slot, WORDS.index(word), to)
    s.root = s.root if root is None else root
    s.count = s.count if count is None else count
    s.colours = colours or s.colours
    return s


def every(s, address=10, entry=(12, 13, 6), slot=0):
    """The four requests."""
    show(s)
    lines("checkd", f"point {address}", "insertd %d %d %d" % entry, f"removed {slot}")


def checks():
    print("# maps without overlaps: ranges that touch, one range, none")
    for s in built(TOUCHING), built(GAPS), built([0, TOP, 1]), built([]), built([], 8, 1), built(apart(60, 7)):
        show(s)
        print("checkd")
    print("# ranges that overlap: store A, equal ones, by one address, by all but one, one inside another, the first and the last alone")
    every(roomy(A, 1))
    for numbers in B, [0, 6, 1, 5, 9, 2, 9, 12, 3], [0, 5, 1, 5, 10, 2, 9, 12, 3], [0, 5, 1, 1, 2, 2], [0, 5, 1, 1, 6, 2], [0, TOP, 1] + apart(7)[3:]:
        show(built(numbers))
        print("checkd")
    print("# two neighbours in tree order that are far from each other in the tree")
    numbers = apart(31)
    for k in 15, 16:
        s = built(numbers[:3 * k] + [numbers[3 * k], numbers[3 * k] + 11, 0] + numbers[3 * k + 3:])
        show(s)
        print("checkd")
    print("# each damage of the check")
    for s in (damaged(GAPS, (0, "left", 3)), damaged(GAPS, (3, "parent", 1)), damaged(GAPS, (2, "parent", 3)), damaged(GAPS, (3, "hull end", 62)),
              damaged(GAPS, (2, "hull start", 9)), damaged(GAPS, (1, "end", 20), (1, "hull end", 20)), damaged(GAPS, root=U), damaged(GAPS, count=3),
              damaged(GAPS, colours=[255]), damaged([], root=0)):
        show(s)
        print("checkd")
    every(damaged(GAPS, root=1))
    every(damaged(A, root=1))
    print("# a count above the capacity")
    for s in damaged(GAPS, count=6), damaged(A, count=TOP, root=1):
        every(s)


def points():
    print("# points: each start, each end, each end less one, the gaps, and the ends of the numbers")
    for numbers in TOUCHING, GAPS:
        show(built(numbers))
        near = {x for a, b in zip(numbers[::3], numbers[1::3]) for x in (max(a, 1) - 1, a, b - 1, b)}
        for address in sorted(near | {TOP}):
            print("point", address)
    for numbers in [], [0, TOP, 1], [0, 1, 1, TOP - 1, TOP, 2]:
        show(built(numbers))
        lines("point 0", "point 1", f"point {TOP - 1}", f"point {TOP}")


def insertions():
    print("# insertions: touching on both sides, into a gap exactly, at both ends of the numbers")
    show(roomy(GAPS, 1))
    told("insertd 30 40 5", "insertd 32 38 5", "insertd 30 31 5", "insertd 39 40 5", "insertd 0 10 5", f"insertd 61 {TOP} 5", f"insertd {TOP - 1} {TOP} 5")
    print("# equal to an entry, inside one, around one, over an edge, over two and over all: the first in tree order is named")
    for start, end in (10, 20), (20, 30), (40, 50), (60, 61), (12, 13), (41, 49), (39, 51), (59, 62), (19, 21), (29, 41), (30, 41), (39, 40), (9, 11), (9, 61), \
            (50, 70), (0, TOP), (20, 21), (29, 30):
        print("insertd", start, end, 5)
    told("insertd 12 13 5", "insertd 50 60 5")
    print("# no address, before and after the overlap")
    for start, end in (15, 15), (15, 12), (30, 30), (0, 0), (TOP, TOP), (TOP, 0):
        print("insertd", start, end, 5)
    print("# a full store: an overlap comes before the lack of room, no address before both")
    show(built(GAPS))
    told("insertd 12 13 5", "insertd 30 40 5", "insertd 31 31 5", "insertd 12 12 5")
    print("# not disjoint, and full; not disjoint, with no address; broken, and full; above the capacity")
    show(built(A))
    lines("insertd 0 1 5", "insertd 12 12 5")
    show(roomy(A, 1))
    lines("insertd 0 1 5", "insertd 12 12 5", "insertd 12 13 5")
    s = built(GAPS)
    s.root = 1
    show(s)
    lines("insertd 0 1 5", "insertd 12 12 5", "insertd 12 13 5")
    s.count = 5
    show(s)
    lines("insertd 0 1 5", "insertd 12 12 5", "insertd 12 13 5")
    print("# into the empty map, and one after the other; one that is refused leaves what it was given")
    show(roomy([], 6))
    for start, end in (50, 60), (40, 50), (60, 70), (10, 20), (55, 56), (0, 10), (20, 40), (70, 71):
        told("insertd %d %d %d" % (start, end, start))
        print("commit")
    lines("checkd", "point 39", "point 70", "ticket 5")
    for s in built([]), model.Store(0, U, [1] * 8, []):
        show(s)
        lines("insertd 1 2 3", "insertd 2 1 3")


def removals():
    print("# each slot, of stores of several sizes")
    for n in 1, 2, 3, 7, 16:
        show(built(apart(n)))
        lines(*("removed %d" % slot for slot in range(n)))
    print("# one after the other, until nothing is left")
    s = built(apart(16))
    show(s)
    rng = random.Random(10)
    while s.count:
        slot = rng.randrange(s.count)
        lines("removed %d" % slot, "commit", "checkd")
        model.remove_disjoint(s, slot)
    lines("removed 0", "point 5")
    print("# no such slot, and what comes before that")
    show(built(GAPS))
    told(*("removed %d" % slot for slot in (4, U, 2**32, TOP)))
    show(built(A))
    told("removed 5", "removed 0")
    s = built(A)
    s.root = 1
    show(s)
    told("removed 5", "removed 0")
    print("# an entry that overlaps is taken out by the general call, and the map is disjoint")
    show(built([0, 5, 1, 1, 2, 2, 5, 9, 3]))
    lines("checkd", "removed 1", "remove 1", "commit", "checkd", "insertd 0 1 1", "point 4")


def by_chance():
    print("# stores by chance: a point beside a drain of its address, an insertion beside the first hit of its range")
    rng = random.Random(11)
    for n in 1, 2, 5, 17, 60:
        s = roomy([], n + 1)
        while s.count < n:
            start = rng.randrange(8 * n)
            model.insert_disjoint(s, start, start + 1 + rng.randrange(9), rng.randrange(99))
        show(s)
        for _ in range(3):
            address = rng.randrange(8 * n + 9)
            lines(f"point {address}", f"drain o 0 {address} 0 {address} {s.root} 1 0 1 1")
            hits = model.lookup(s, ("o", 0, address, 0, address), (s.root, 1, 0), n + 1)[1]
            assert model.point(s, address).split(" ")[1] == str((hits + [U])[0]) and len(hits) < 2
            start = rng.randrange(8 * n)
            end = start + 1 + rng.randrange(9)
            lines(f"insertd {start} {end} 5", f"drain o 0 {start} 1 {end} {s.root} 1 0 1 1")
            hits = model.lookup(s, ("o", 0, start, 1, end), (s.root, 1, 0), 1)[1]
            answer = model.insert_disjoint(s.copy(), start, end, 5).split(" ")
            assert (answer[0], answer[3]) == (("13", str(hits[0])) if hits else ("0", str(n)))


def malformed():
    print("# lines that fit nothing")
    show(roomy(GAPS, 1))
    lines("checkd ", "checkd 1", "checkds", "point", "point ", "point x", "point 1 2", f"point {2**64}", "points 1", "insertd", "insertd 1 2", "insertd 1 2 3 4",
          "insertd 1 2 x", "insertd  1 2 3", "insertds 1 2 3", "removed", "removed ", "removed 1 2", "removed x", "removeds 1", "Point 1")
    lines("point 0012", "insertd 01 02 03", "removed 00")


if __name__ == "__main__":
    checks()
    points()
    insertions()
    removals()
    by_chance()
    malformed()
