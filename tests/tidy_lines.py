#!/usr/bin/env python3
"""Lines for `drive` about tidy numbering: proposals into outputs of every size that matters, plans
of every kind that is accepted and of every kind that is not, versions and tickets, and stores after
many changes that are renumbered and then tidied. crates/drive/stdin has these lines before those of
tests/narrow_lines.py."""
import random

import model
from asking import DRIVE, ask, comment, show
from insert_lines import roomy
from lookups import EVERY, U, overlap, start
from reach_lines import tree
from stores import A, B, built
from unload_lines import by_chance, entries, said

TOP = 2**64 - 1


def propose(room):
    return list(map(int, said("propose", room).split(" @ ")[0].split(" ")))


def renumber(plan):
    """The number of its refusal. The version that it left is that of the map, raised by one if it
    is accepted."""
    no, count, root = map(int, said("renumber", len(plan), *plan).split(" @ ")[0].split(" "))
    version, reach = map(int, ask("last").split(" "))
    assert version == (DRIVE.store.version + (no == 0)) % 2**32 and reach == 0 and count == DRIVE.store.count
    return no


def drained(s):
    """What drains find, by several queries."""
    found = []
    for q in EVERY, overlap(0, 12, 1, 25), overlap(1, 30, 2, 0), ("e",) + s.key(s.root):
        said("drain", *q, *start(s, q), 0, s.count)
        found.append(model.lookup(s, q, start(s, q), s.count + 1)[1])
    return found


def moved(plan):
    """An accepted plan: the same entries in the same tree order, and drains find the slots that the
    plan gives them."""
    before = DRIVE.store
    old = drained(before) if before.count else []
    assert renumber(plan) == 0
    assert ask("commit", "check") == "0 @ 0 0"
    now = DRIVE.store
    assert entries(now) == entries(before) and now.root == (plan + [U])[min(before.root, len(plan))]
    assert (drained(now) if now.count else []) == [[plan[slot] for slot in hits] for hits in old]
    for slot, new in enumerate(plan):
        assert now.red(new) == before.red(slot) and now.words[8 * new:8 * new + 5] == before.words[8 * slot:8 * slot + 5]


def tidy():
    """By the planner's proposal; then it proposes no move."""
    count = DRIVE.store.count
    no, room, *plan = propose(count)
    assert (no, room) == (0, count)
    moved(plan)
    assert propose(count) == [0, count, *range(count)] and model.in_order(DRIVE.store, DRIVE.store.root) == list(range(count))


def kinds(n):
    """The plans that move nothing, everything by reversal, everything along one cycle, and some by
    exchanges."""
    same = list(range(n))
    plans = [same, same[::-1], same[1:] + same[:1], same[-1:] + same[:-1]]
    plans += [same[:i] + [j] + same[i + 1:j] + [i] + same[j + 1:] for i, j in ((0, n - 1), (0, n // 2), (n // 2, n - 1)) if i < j]
    return [plan for k, plan in enumerate(plans) if plan not in plans[:k]]


def stores():
    """With what is said of each."""
    return [("store A", built(A)), ("store A with room", roomy(A, 2)), ("store B", built(B)), ("an entry alone", built([0, TOP, 1])), ("the empty map", built([], 8, 1)),
            ("no memory", built([])), ("nine entries", built([x for k in range(9) for x in (k, k + 20, k)])),
            ("a tree that leans", tree((((None, "r", None), "b", None), "b", ((None, "b", None), "r", ((None, "r", None), "b", None)))))]


def plans():
    for name, s in stores():
        comment("tidy numbering: %s; outputs of every size, and every kind of plan" % name)
        show(s)
        for room in sorted({0, max(s.count, 1) - 1, s.count, s.count + 3}):
            assert propose(room)[0] == (9 if room < s.count else 0)
        for plan in kinds(s.count):
            show(s)
            moved(plan)
        tidy()
        tidy()
    said("propose", 4096)


def refused():
    comment("no plan: a number twice, one at the count, at U, at 2^32 and beyond, one number short, one too many, none")
    good = list(range(5))
    bad = [[0, 1, 2, 3, 3], [0, 0, 2, 3, 4], [0, 1, 2, 3, 5], [0, 1, 2, 3, U], [0, 1, 2, 3, 2**32 + 4], [2**32, 1, 2, 3, 4], [0, 1, 2, 3, TOP], [2**63, 1, 2, 3, 4],
           good[:4], good[1:], good + [5], good + [4], good + [777777], [], [0] * 5, [4] * 5, [777777] * 5, [1, 2, 3, 4, 5]]
    show(built(A))
    for plan in bad:
        assert renumber(plan) == 15
    comment("a refused one leaves what it was given; an output that is longer than the count is no plan")
    ask("version 7", "remove 0", "renumber 1 0", "last", "commit", "check", "ticket 0", "propose 6", "renumber 6 0 1 2 3 4 777777")
    broken, above = built(A), built(A)
    broken.root, above.count = 1, 6
    comment("a store that does not pass, and one above its capacity, before a bad plan and a short output")
    for s, no in (broken, 2), (above, 1):
        show(s)
        for plan in good, bad[0], []:
            assert renumber(plan) == no
        for room in 0, 4, 5, 6:
            assert propose(room)[0] == no
    for count, root in (0, 0), (1, U):
        show(model.Store(count, root, [3, 6, 1, 3, 6, U, U, U], [0]))
        ask("renumber 0", "renumber 1 0", "propose 0", "propose 1")
    comment("the empty map takes the plan of no numbers, and no other")
    show(built([], 8, 1))
    assert [renumber(plan) for plan in ([], [0], [U])] == [0, 15, 15]


def versions():
    comment("the version rises by one, from its top to 0, also if nothing moves; a ticket is stale then, and not after a proposal")
    for version in 0, 2**32 - 2, 2**32 - 1:
        for s in built(A), built([], 8, 1):
            show(s)
            said("version", version)
            for plan in kinds(s.count)[:2]:
                renumber(plan)
            said("ticket", 2)
            for text in "propose 5", "renumber 1 9", "renumber %d %s" % (s.count, " ".join(map(str, range(s.count)))):
                ask(text.strip(), "commit", "read 2 %d" % version)
            ask("ticket 2", "read 2 %d" % DRIVE.store.version)
    comment("a proposal leaves the store as it was")
    show(built(A))
    ask("remove 0", "propose 5", "last", "commit", "check", "remove 0")
    comment("changes after a renumbering: removals, insertions and an unloading")
    show(roomy(A, 1))
    moved([3, 0, 4, 1, 2])
    ask("remove 3", "remove 0", "insert 12 13 6", "unload o 0 20 1 25", "insert 12 13 6", "commit", "check", "propose 6")
    moved([5, 4, 3, 2, 1, 0])
    tidy()


def scattered(rng, most):
    """A store of up to `most` entries after 100 removals and insertions, and a plan by chance."""
    s, wide = by_chance(rng, most)
    for _ in range(50):
        model.remove(s, rng.randrange(s.count))
        first = rng.randrange(wide)
        model.insert(s, first, first + 1 + rng.randrange(wide // 3), rng.randrange(100))
    plan = list(range(s.count))
    rng.shuffle(plan)
    return s, plan


def rearranged(s, plan):
    show(s)
    moved(plan)
    tidy()


def chances():
    comment("stores after many changes, renumbered by chance and then to tree order")
    rng = random.Random(14)
    for most in 2, 4, 8, 16, 30:
        rearranged(*scattered(rng, most))


def malformed():
    comment("lines that fit nothing")
    show(built(A))
    for text in ("propose", "propose ", "propose x", "propose 5 5", "propose 4097", "propose 18446744073709551615", "propose 18446744073709551616", "propose  5", "proposes 5",
                 "Propose 5", "propose o 2 0 2 0 5", "propose5", "renumber", "renumber ", "renumber 5", "renumber 5 0 1 2 3", "renumber 5 0 1 2 3 4 5", "renumber 0 0",
                 "renumber 12289", "renumber 5 0 1 2 3 x", "renumber 5 0 1 2 3 18446744073709551616", "renumber 0 1 2 3 4", "renumbers 0", "renumber5 0 1 2 3 4", "Renumber 0"):
        assert ask(text) == "what"
    ask("propose 005", "renumber 05 04 03 02 01 00")


if __name__ == "__main__":
    plans()
    refused()
    versions()
    chances()
    malformed()
