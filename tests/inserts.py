#!/usr/bin/env python3
"""Chains of builds, insertions and removals through tests/model.py. After each change the store
passes the check. An insertion moves no old slot. The new entry is in slot count and comes after
every entry that is not greater, and the slots above it are unchanged."""
import random

from model import U, START, END, VALUE, Store, build, in_order, insert, remove


def order(s):
    return in_order(s, s.root)


def entry(s, slot):
    return tuple(s.get(slot, word) for word in (START, END, VALUE))


def inserted(s, start, end, value):
    old, before = s.copy(), order(s)
    answer = insert(s, start, end, value)
    n = old.count
    assert answer == "0 %d %d %d" % (n + 1, s.root, n), answer
    assert s.passes()
    place = sum(old.key(slot) <= (start, end) for slot in before)
    assert order(s) == before[:place] + [n] + before[place:]
    assert [entry(s, slot) for slot in range(n + 1)] == [entry(old, slot) for slot in range(n)] + [(start, end, value)]
    assert s.words[8 * n + 8:] == old.words[8 * n + 8:] and len(s.words) == len(old.words)
    assert all(s.red(slot) == old.red(slot) for slot in range(n + 1, 8 * len(s.colours)))


def chain(rng):
    room = rng.randrange(1, 90)
    s = Store(0, U, [rng.getrandbits(64) for _ in range(8 * room + rng.randrange(8))], [rng.randrange(256) for _ in range((room + 7) // 8)])
    wide = rng.choice((2, 5, 30, 1000))

    def interval():
        start = rng.randrange(wide)
        return start, start + rng.randrange(1, wide)

    entries = sorted((interval() for _ in range(rng.randrange(room + 1))))
    assert build(s, [number for a, b in entries for number in (a, b, rng.randrange(99))]).startswith("0 ")
    lean = rng.random()
    for _ in range(rng.randrange(150)):
        if rng.random() < lean:
            if s.count < s.capacity():
                inserted(s, *interval(), rng.randrange(99))
            else:
                assert insert(s, 1, 2, 3) == "1 %d %d %d" % (s.count, s.root, U)
        elif s.count:
            assert remove(s, rng.randrange(s.count)).startswith("0 ")
            assert s.passes()


if __name__ == "__main__":
    rng = random.Random(2)
    for _ in range(400):
        chain(rng)
    print("inserts: ok")
