#!/usr/bin/env python3
"""Lines for `drive` about unloading a range: document 01's ranges, ranges with every entry, with no
hit and with one, equal entries, entries that touch the range, both rules, versions near their top,
every refusal, two ranges in both orders, and each unloading beside the removals that it is made of.
crates/drive/stdin has these lines before those of tests/tidy_lines.py."""
import random

import model
from asking import DRIVE, ask, comment, show
from disjoint_lines import apart
from insert_lines import roomy
from lookups import EVERY, TOP, U, overlap
from ruled_lines import EDGES, NO_RULES, ruled
from stores import A, B, built

EXAMPLES = overlap(0, 20, 1, 25), overlap(0, 60, 1, 70), overlap(1, 20, 0, 25), EVERY, overlap(1, 7, 0, 7), overlap(0, 7, 0, 7)


def said(name, *numbers):
    return ask(" ".join(map(str, (name,) + numbers)))


def unload(q):
    """The numbers of its answer, and the version that it left."""
    answer = said("unload", *q).split(" @ ")
    version, reach = map(int, ask("last").split(" "))
    no, count, root, gone = map(int, answer[0].split(" "))
    assert version == (DRIVE.store.version + gone) % 2**32 and reach == 0 and count + gone == DRIVE.store.count
    assert gone > 0 or answer[1] == "0 0" and root == DRIVE.store.root
    return no, gone


def lasting(q):
    assert unload(q)[0] == 0
    ask("commit")
    assert ask("check") == "0 @ 0 0"


def entries(s):
    """The entries in tree order."""
    return [s.key(slot) + (s.get(slot, model.VALUE),) for slot in model.in_order(s, s.root)]


def stayed(before, *queries):
    """After the ranges are unloaded: the entries left are those before that intersect none of them,
    in their order."""
    left = entries(DRIVE.store)
    assert left == [e for e in before if not any(model.intersects(q, e[:2]) for q in queries)]
    return left


def in_store(s, *queries):
    show(s)
    return [unload(q)[1] for q in queries]


def examples():
    comment("unload: the ranges of the examples, of store A; then of store B")
    assert in_store(built(A), *EXAMPLES) == [1, 0, 2, 5, 0, 0]
    in_store(built(B), *EXAMPLES, overlap(0, 5, 0, 5))
    comment("every entry goes: root U, and the links of every slot are U; the room is used again")
    for s in built(A), roomy(A, 1), built(B), built([10, 20, 1]), built(apart(16)), built([0, TOP, 1]), built([], 8, 1), built([]):
        show(s)
        count = s.count
        lasting(EVERY)
        s = DRIVE.store
        assert s.count == 0 and s.root == U and s.words[:8 * count] == ([0] * 5 + [U] * 3) * count
        unload(EVERY)
        ask("insert 1 2 3", "commit", "check", "insert 0 9 4")


def windows():
    comment("no hit: before, between and after the entries, and entries that end at the range or start at its end")
    s = built([10, 20, 1, 20, 30, 2, 40, 50, 3])
    assert set(in_store(s, *(overlap(*q) for q in ((0, 0, 1, 10), (0, 30, 1, 40), (1, 30, 1, 40), (0, 50, 2, 0), (1, 50, 2, 0), (2, 0, 1, 10), (0, 0, 0, 9))))) == {0}
    comment("one hit at the front, in the middle, at the end; then some more of them")
    s = built([x for k in range(9) for x in (10 * k, 10 * k + 10, k)])
    assert in_store(s, *(overlap(0, 10 * k + 3, 1, 10 * k + 4) for k in range(9))) == [1] * 9
    assert in_store(s, *(overlap(0, 10 * k, 1, 10 * k + 10 * n) for n in (2, 5, 8) for k in (0, 9 - n))) == [2, 2, 5, 5, 8, 8]
    comment("the front and the end again and again, until nothing is left")
    for q in overlap(0, 0, 0, 15), overlap(0, 79, 2, 0), overlap(2, 0, 1, 70), overlap(1, 69, 0, 70):
        lasting(q)
    assert DRIVE.store.count == 0
    comment("equal entries with others before, between and after them in the slots")
    s = roomy([1, 4, 0, 5, 9, 1, 9, 12, 2], 6)
    for start, end in (5, 9), (2, 5), (5, 9), (5, 9), (9, 11), (5, 9):
        model.insert(s, start, end, s.count)
    assert in_store(s, overlap(0, 5, 1, 9), overlap(0, 8, 0, 8), overlap(0, 9, 0, 9), overlap(0, 0, 1, 5), overlap(1, 4, 1, 9)) == [5, 5, 2, 2, 6]
    comment("many entries end at the lower bound and are not hits; as many are")
    s = built([x for k in range(16) for x in (k, 20, k)] + [x for k in range(16) for x in (20 + k, 41, k)])
    assert in_store(s, overlap(0, 20, 2, 0), overlap(1, 20, 2, 0), ("r", 2, 1, 20, 2, 0), ("r", 2, 1, 19, 0, 20), overlap(1, 19, 0, 20)) == [16, 16, 16, 1, 17]


def versions():
    comment("the version rises by as many as went, past its top too; nothing gone leaves it")
    for version in 0, 7, 2**32 - 6, 2**32 - 1:
        show(built(apart(9)))
        said("version", version)
        for q in EVERY, overlap(0, 1, 0, 1), overlap(0, TOP, 2, 0), overlap(1, 9, 0, 9):
            unload(q)
    comment("a ticket from before is stale after an unloading, and passes after one of nothing")
    show(built(A))
    ask("ticket 2", "read 2 0")
    for q in overlap(0, 60, 1, 70), overlap(0, 20, 1, 25):
        lasting(q)
        ask("read 2 0", "ticket 2")


def rules():
    comment("by rule 1 and by rule 2, on an Excluded lower bound")
    assert in_store(built([3, 6, 1]), *(("r", rule, 1, 5, 2, 0) for rule in (1, 2))) == [1, 0]
    show(built(EDGES))
    for q in overlap(1, 5, 2, 0), overlap(1, 5, 0, 6), overlap(1, 4, 1, 6), overlap(1, TOP - 1, 2, 0), overlap(0, 6, 1, 7), overlap(2, 0, 0, 1):
        assert unload(q) == unload(ruled(1, q))
        unload(ruled(2, q))


def refused():
    comment("no rule, or a range that is none by its rule; a store that does not pass before that; one above its capacity")
    broken, above, good = built(A), built(A), built(A)
    broken.root, above.count = 1, 6
    bad = [("r", rule) + EVERY[1:] for rule in NO_RULES] + [("r", 2, 1, 5, 1, 6), ("r", 2, 1, TOP, 2, 0), ("r", 1, 1, 5, 0, 5), overlap(0, 6, 0, 5), overlap(1, 7, 1, 7)]
    for s, no in (good, 4), (broken, 2), (above, 1):
        show(s)
        ask("version 9")
        for q in bad:
            assert unload(q) == (no, 0)
        assert unload(EVERY)[0] == (0 if s is good else no)
    comment("a refused one leaves what it was given; `unload` after another request works on the store")
    show(good)
    ask("remove 0", "unload r 3 2 0 2 0", "last", "commit", "check", "remove 0", "unload o 0 20 1 25", "find o 2 0 2 0 5", "commit", "check")
    assert DRIVE.store.count == 5
    comment("each clause of the check, broken")
    for slot, word, to in (3, model.PARENT, 2), (4, model.LEFT, U), (0, model.END, 31), (4, model.LO, 39), (0, model.RIGHT, 5):
        s = built(A)
        s.set(slot, word, to)
        in_store(s, EVERY, overlap(0, 1, 0, 1))


def by_chance(rng, most):
    """A store of some entries after insertions and removals, with anything in its room past the
    count."""
    size = rng.randrange(1, most + 1)
    s = model.Store(0, U, [rng.randrange(100) for _ in range(8 * size + 8)], [rng.randrange(256) for _ in range(size // 8 + 1)])
    wide = rng.choice((6, 20, 80))
    while s.count < size:
        start = rng.randrange(wide)
        model.insert(s, start, start + 1 + rng.randrange(wide // 3), rng.randrange(100))
        if rng.random() < 0.3:
            model.remove(s, rng.randrange(s.count))
    return s, wide


def two_ranges(rng, wide):
    """Two ranges that overlap, are nested, are apart or are equal, each with a rule or without one."""
    a, b, c, d = sorted(rng.randrange(wide + wide // 3) for _ in range(4))
    ranges = rng.choice((((a, c), (b, d)), ((a, d), (b, c)), ((a, b), (c, d)), ((a, d), (a, d))))
    queries = [overlap(rng.choice((0, 0, 1)), lo, rng.choice((0, 1)), hi + 1) for lo, hi in ranges]
    return [rng.choice((q, q, ruled(1, q), ruled(2, q) if model.whole(q) else q)) for q in queries]


def in_order(s, queries):
    """Unloads one range after the other, and drains all that is left. Returns how many went in all,
    and the entries left."""
    show(s)
    before = entries(s)
    for q in queries:
        lasting(q)
    left = DRIVE.store
    said("drain", *EVERY, left.root, 1, 0, 0, left.count)
    return s.count - left.count, stayed(before, *queries)


def both_orders(s, queries):
    assert in_order(s, queries) == in_order(s, queries[::-1])


def by_removals(s, q):
    """The first hit by a drain with limit 1 is removed, until there is none; then the unloading,
    which leaves the same store."""
    show(s)
    while True:
        left = DRIVE.store
        answer = said("drain", *q, left.root, 1, 0, 1, 1).split(" ")
        if answer[1] == "0":
            break
        said("remove", answer[7])
        ask("commit")
    show(s)
    lasting(q)
    now = DRIVE.store
    assert (now.count, now.root, now.words, now.colours) == (left.count, left.root, left.words, left.colours)


def chances():
    rng = random.Random(13)
    comment("two ranges in both orders: the same entries are left in the same tree order")
    for most in 1, 3, 6, 9, 20:
        s, wide = by_chance(rng, most)
        both_orders(s, two_ranges(rng, wide))
    comment("removals of the first hit, one after the other, and the unloading that leaves the same words, colours and root")
    by_removals(built(A), EVERY)
    for most in 5, 12, 25:
        s, wide = by_chance(rng, most)
        by_removals(s, two_ranges(rng, wide)[0])


def malformed():
    comment("lines that fit nothing")
    show(built(A))
    for rest in ("", " ", " o", " r", " e", " e 10 20", " e 10 20 0 0", " 0 20 1 25", " o 0 20 1", " o 0 20 1 25 5", " o 2 1 2 0", " o 3 0 2 0", " o 2 0 2 1", " r 2 0 2 0",
                 " r 1 2 0 2 0 0", " r 1 2 1 2 0", " r x 2 0 2 0", " O 2 0 2 0", "  o 2 0 2 0", "o 2 0 2 0", "s o 2 0 2 0", " o 2 0 2 18446744073709551616"):
        assert ask("unload" + rest) == "what"
    ask("unload o 00 020 01 0025", "unload r 01 0 20 1 25")


if __name__ == "__main__":
    examples()
    windows()
    versions()
    rules()
    refused()
    chances()
    malformed()
