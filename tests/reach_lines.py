#!/usr/bin/env python3
"""Lines for `drive` about how many hulls a removal or an insertion changed, each with `last` after
it. A slot's hull is the least range that holds all entries of its subtree. crates/drive/stdin has
these lines between those of tests/insert_lines.py and those of tests/plain_lines.py."""
import random

import model
from insert_lines import LEFT_CHILD, RIGHT_CHILD, roomy
from stores import A, B, built, show

U = model.U
TOP = 2**64 - 1


def told(*lines):
    for line in lines:
        print(line)
        print("last")


def removals(s):
    show(s)
    told(*("remove %d" % slot for slot in range(s.count)))


def tree(shape, mirrored=False):
    """A store of nested triples (left, colour, right), colour r or b: entry k in tree order is [10
    k, 10 k + 15), slots from the root down."""
    nodes, order = [], []

    def number(t, parent):
        if t is None:
            return U
        slot = len(nodes)
        nodes.append([parent, t[1] == "r", U, U])
        left, right = (t[2], t[0]) if mirrored else (t[0], t[2])
        nodes[slot][2] = number(left, slot)
        order.append(slot)
        nodes[slot][3] = number(right, slot)
        return slot

    root = number(shape, U)
    s = model.Store(len(nodes), root, [0] * 8 * len(nodes), [0] * ((len(nodes) + 7) // 8))
    for k, slot in enumerate(order):
        parent, red, left, right = nodes[slot]
        s.words[8 * slot:8 * slot + 8] = [10 * k, 10 * k + 15, k, 0, 0, left, right, parent]
        s.paint(slot, red)
    for slot in reversed(range(len(nodes))):
        s.rehull(slot)
    assert s.passes()
    return s


RED, BLACK = (None, "r", None), (None, "b", None)
# the sibling's near child is red; the sibling is red, and the near child of the next one is
NEPHEW = BLACK, "b", (RED, "b", None)
SIBLING = BLACK, "b", ((RED, "b", None), "r", BLACK)


def small():
    print("# how far removals reach: store A, then three equal entries")
    removals(built(A))
    removals(built(B))
    print("# the entry of slot 1 goes to slot 0, whose hull stays where it is until it is worked out")
    show(model.Store(2, 0, [0, 5, 1, 0, 15, U, 1, U, 10, 15, 2, 10, 15, U, U, 0], [2]))
    told("remove 0", "remove 1")
    print("# the hulls of the close nephew's case, and those after a red sibling, on both sides")
    for shape in NEPHEW, SIBLING:
        for mirrored in False, True:
            removals(tree(shape, mirrored))
    print("# all the way up: the least start and the greatest end; none: an entry inside another one")
    s = built([x for k in range(31) for x in (k, k + 2, k)])
    show(s)
    told("remove 0", "remove 30")
    s = built([0, 1000, 1] + [x for k in range(1, 30) for x in (k, k + 2, k)])
    show(s)
    told("remove 29", "remove 15", "remove 0")


def inserted():
    print("# how far insertions reach: no rotation, one and two on each side; the empty map; a red uncle; beside an equal")
    for s, starts in (LEFT_CHILD, (25, 5, 12)), (RIGHT_CHILD, (15, 40, 25)):
        show(s)
        told(*("insert %d %d 3" % (start, start + 2) for start in starts))
    show(roomy([], 1))
    told("insert 3 4 5")
    show(roomy([10, 11, 1, 20, 21, 2, 30, 31, 3, 40, 41, 4], 1))
    told(*("insert %d %d 5" % (start, start + 9) for start in (5, 15, 25, 35, 45)))
    show(roomy(A, 1))
    told(*("insert %d %d 6" % pair for pair in zip(A[::3], A[1::3])))
    told("insert 0 1 6", "insert 0 %d 6" % TOP, "insert 26 27 6")


def refused():
    print("# a refusal has none; nor has a request that works out no hull")
    show(roomy(A, 1))
    told("insert 9 70 6", "remove 5", "remove %d" % U, "insert 5 5 6", "insert 6 5 6")
    told("remove 2", "check", "step o 2 0 2 0 2 1 0", "drain o 2 0 2 0 2 1 0 4 4", "drain o 2 0 2 0 2 9 0 4 4")
    told("build 3 5 9 1", "build 2 5 9", "build 3 9 5 1")
    show(built(A))
    told("remove 2", "insert 12 13 6")
    s = built(A)
    s.root = 1
    show(s)
    told("remove 2", "insert 12 13 6")
    print("# it is of the last request, also after a setting and after `fresh`; a bit call leaves no map")
    show(built(A))
    for line in "remove 0", "fresh o 2 0 2 0", "last", "last", "commit", "last", "last 0", "last ", "bytes 1 1", "last", "bpop 8", "last", "check", "last":
        print(line)


def long_run():
    print("# one change after the other")
    rng = random.Random(9)
    s = roomy([], 40)
    show(s)
    for k in range(160):
        if s.count == 0 or rng.random() < (0.75 if k < 80 else 0.4) and s.count < 40:
            start = rng.randrange(60)
            entry = start, start + rng.randrange(1, 30), k
            line = "insert %d %d %d" % entry
            model.insert(s, *entry)
        else:
            slot = rng.randrange(s.count)
            line = "remove %d" % slot
            model.remove(s, slot)
        told(line)
        print("commit")
    print("check")


if __name__ == "__main__":
    small()
    inserted()
    refused()
    long_run()
