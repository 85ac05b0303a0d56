#!/usr/bin/env python3
"""Lines for `drive` about insertion: into the empty map, at every place of small stores, each case
of the repair on each side, every refusal and each pair of refusals, and into room that removals
gave up. crates/drive/stdin has these lines before those of tests/reach_lines.py."""
import model
from stores import A, B, built, show

U = model.U
TOP = 2**64 - 1
RUBBISH = 777


def roomy(numbers, slots):
    """A built store with so many slots more, whose words hold rubbish and whose colour bits are all
    1."""
    s = built(numbers)
    n = s.count
    s.words += [RUBBISH] * (8 * slots)
    s.colours += [0] * ((n + slots + 7) // 8 - len(s.colours))
    for slot in range(n, 8 * len(s.colours)):
        s.paint(slot, 1)
    return s


def insert(*entry):
    print("insert", *entry)


def lasting(*entry):
    insert(*entry)
    print("commit")
    print("check")


def everything(s):
    print("drain o 2 0 2 0", s.root, 1, 0, 0, 64)


def empty():
    print("# the first entry, then a second one, and the map emptied and begun again")
    show(roomy([], 2))
    insert(0, 1, 5)
    insert(0, TOP, TOP)
    lasting(10, 20, 1)
    lasting(5, 9, 2)
    insert(1, 2, 3)
    for line in "remove 0", "commit", "remove 0", "commit":
        print(line)
    lasting(30, 40, 4)
    print("# no room at all, by words and by bytes")
    for words, colours in ([], []), ([1] * 7, [0]), ([1] * 8, []):
        show(model.Store(0, U, words, colours))
        insert(10, 20, 1)


def places():
    print("# store A with room for one more: equal to each entry, then before, between and after them")
    show(roomy(A, 1))
    for start, end in zip(A[::3], A[1::3]):
        insert(start, end, 6)
    for start, end in (10, 19), (10, 25), (11, 12), (25, 39), (25, 41), (40, 51), (45, 59), (45, 61):
        insert(start, end, 6)
    for start, end in (0, 1), (0, TOP), (TOP - 1, TOP), (9, 70), (24, 70), (44, 46):
        insert(start, end, 6)
    print("# a fourth equal entry comes after the three of store B")
    s = roomy(B, 1)
    show(s)
    lasting(5, 9, 4)
    everything(s)
    print("fresh e 5 9")
    print("drain e 5 9", s.root, 1, 0, 4, 4)


# Two entries, the lesser below the greater and the greater below the lesser.
LEFT_CHILD = model.Store(2, 0, [20, 30, 1, 10, 30, 1, U, U, 10, 15, 2, 10, 15, U, U, 0] + [RUBBISH] * 8, [2])
RIGHT_CHILD = model.Store(2, 0, [20, 30, 1, 20, 35, U, 1, U, 30, 35, 2, 30, 35, U, U, 0] + [RUBBISH] * 8, [254])


def cases():
    print("# no repair; an outer and an inner child on the left, then on the right")
    for s, starts in (LEFT_CHILD, (25, 5, 12)), (RIGHT_CHILD, (15, 40, 25)):
        show(s)
        for start in starts:
            insert(start, start + 2, 3)
    print("# a red uncle, on each side, and the root black again")
    show(roomy([10, 11, 1, 20, 21, 2, 30, 31, 3, 40, 41, 4], 4))
    for start in 5, 15, 25, 35, 45:
        lasting(start, start + 9, start)
    for name, starts in (("rising", range(12)), ("falling", range(12, 0, -1)), ("from both ends", [n for k in range(6) for n in (k, 12 - k)]),
                         ("mixed, with equals", [k * 7 % 13 for k in range(20)])):
        print("# one after the other,", name)
        show(roomy([], len(starts)))
        for k, start in enumerate(starts):
            insert(start, start + 3, k)
            print("commit")
        print("check")
        insert(3, 4, 5)
    print("# the ninth entry's colour bit is the second byte's first")
    show(roomy([x for k in range(8) for x in (k, k + 1, k)], 1))
    insert(0, 9, 9)
    insert(9, 10, 9)


def changes():
    print("# slots that removals gave up are used again")
    show(built(A))
    insert(1, 2, 3)
    for slot, start in (1, 12), (0, 50), (2, 10), (4, 25):
        for line in "remove %d" % slot, "commit", "insert %d 60 %d" % (start, start), "commit", "check", "insert 1 2 3":
            print(line)
    print("# a cursor held while an entry comes")
    a = roomy(A, 1)
    held = model.paths(a, a.root)[1]
    for start in 5, 12, 30, 70:
        show(a)
        print("step o 2 0 2 0", 1, *held)
        print("insert", start, start + 4, 6)
        print("commit")
        print("step o 2 0 2 0", 1, *held)
        everything(a)


def refused():
    full, good = built(A), roomy(A, 1)
    broken = roomy(A, 1)
    broken.root = 1
    full_and_broken = built(A)
    full_and_broken.root = 1
    print("# full, full and broken, broken, sound: each with a good and with bad intervals")
    for s in full, full_and_broken, broken, good:
        show(s)
        for start, end in (12, 13), (12, 12), (13, 12), (0, 0), (TOP, TOP), (TOP, 0):
            insert(start, end, 6)
    print("# a refused one leaves what it was given")
    print("commit")
    print("check")
    print("# a count above the capacity")
    for count in 6, 7, 2**32, TOP:
        s = built(A)
        s.count = count
        show(s)
        insert(12, 13, 6)
        insert(13, 12, 6)
    print("# capacity by words and by bytes: one word too few, just enough, no byte for the ninth")
    for spare in 7, 8:
        s = built(A)
        s.words += [RUBBISH] * spare
        show(s)
        insert(12, 13, 6)
    eight = [x for k in range(8) for x in (k, k + 1, k)]
    for colours in 1, 2:
        s = roomy(eight, 1)
        s.colours = s.colours[:colours]
        show(s)
        insert(12, 13, 6)
    print("# each clause of the check, broken in a store with room")
    for slot, word, to in ((3, model.PARENT, 2), (4, model.LEFT, U), (2, model.PARENT, 4), (0, model.END, 31), (4, model.LO, 39), (2, model.HI, 61),
                           (0, model.RIGHT, 5)):
        s = roomy(A, 1)
        s.set(slot, word, to)
        show(s)
        insert(12, 13, 6)
    for slot in 1, 2:
        s = roomy(A, 1)
        s.paint(slot, 1)
        show(s)
        insert(12, 13, 6)


def malformed():
    print("# lines that fit nothing")
    show(roomy(A, 1))
    for line in ("insert", "insert ", "insert 1", "insert 1 2", "insert 1 2 ", "insert 1 2 3 4", "insert  1 2 3", "insert 1  2 3", "insert 1 2 3 ",
                 "insert 1 2 x", "insert -1 2 3", "insert 1 2 18446744073709551616", "Insert 1 2 3", "inserts 1 2 3", "insert1 2 3"):
        print(line)
    print("insert 0001 00000000000000000000000002 03")


if __name__ == "__main__":
    empty()
    places()
    cases()
    changes()
    refused()
    malformed()
