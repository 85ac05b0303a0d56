#!/usr/bin/env python3
"""Lines for `drive` about lookups by the rule of a number: every pair of bounds at numbers that
entries end at and beside, by rule 2, and by rule 1 beside a query without a rule; numbers that are
no rule, and each pair of refusals; a cursor of one rule that the other carries on.
crates/drive/stdin has these lines before those of tests/unload_lines.py."""
import model
from image_lines import lines
from lookups import TOP, U, drains, overlap, start, steps
from stores import A, built, show

NUMBERS = 0, 1, 5, 6, TOP - 1, TOP
# entries that end at the numbers and beside them
EDGES = [0, 1, 1, 0, 2, 2, 1, 5, 3, 3, 5, 4, 3, 6, 5, 4, TOP - 1, 6, 4, TOP, 7, 5, 6, 8, 5, 7, 9, 6, 7, 10, TOP - 2, TOP - 1, 11, TOP - 1, TOP, 12]
EVERY = "r", 2, 2, 0, 2, 0
NO_RULES = 0, 3, 2**32 + 1, TOP


def ruled(rule, q):
    return ("r", rule) + q[1:]


def at_once(s, q):
    """A drain from the fresh cursor, and the two lookups that find all hits at once: the hits are
    the same."""
    print("drain", *q, *start(s, q), s.count + 1, s.count + 1)
    print("plain", *q, s.count)
    print("find", *q, s.count)
    no, hits, entered, _ = model.lookup(s, q, start(s, q), s.count + 1)
    plain, fast = (list(map(int, call(s, q, s.count).split(" "))) for call in (model.plain, model.find_all))
    assert plain[0] == fast[0] == no and plain[4:4 + len(hits)] == fast[4:4 + len(hits)] == hits and plain[1] == fast[1] == len(hits) and fast[2] <= entered


def bounds():
    print("# every pair of bounds by rule 2, at numbers that entries end at and beside")
    s = built(EDGES)
    show(s)
    kinds = [(kind, x) for kind in (0, 1) for x in NUMBERS] + [(2, 0)]
    for lo in kinds:
        for hi in kinds:
            print("drain", *("r", 2) + lo + hi, s.root, 1, 0, 0, s.count)


def rules():
    print("# rule 1 beside a query without a rule: they answer the same; then rule 2")
    s = built(EDGES)
    show(s)
    for q in overlap(1, 5, 2, 0), overlap(1, 5, 1, 6), overlap(1, 5, 0, 6), overlap(0, 5, 1, 6), overlap(1, 0, 1, 1), overlap(2, 0, 1, 0), overlap(1, TOP, 2, 0), \
            overlap(1, TOP - 1, 2, 0), overlap(0, 9, 1, 5), overlap(2, 0, 2, 0):
        for of_rule in q, ruled(1, q), ruled(2, q):
            print("drain", *of_rule, s.root, 1, 0, 0, s.count)
        assert model.lookup(s, q, start(s, q), 99) == model.lookup(s, ruled(1, q), start(s, q), 99)
    print("# the lookups that find all hits at once, and steps")
    for q in overlap(1, 5, 2, 0), overlap(1, 4, 1, 6), overlap(1, 5, 1, 6):
        for rule in 1, 2:
            at_once(s, ruled(rule, q))
    a = built(A)
    show(a)
    for q in overlap(1, 29, 0, 40), overlap(1, 59, 2, 0):
        for rule in 1, 2:
            steps(a, ruled(rule, q))
            at_once(a, ruled(rule, q))
    print("# a hull that ends at the first address: the fast lookup does not enter it by rule 2, the walk does")
    s = built([1, 2, 1, 1, 6, 2, 3, 6, 3, 8, 9, 4, 10, 12, 5, 11, 12, 6, 13, 14, 7])
    show(s)
    for rule in 1, 2:
        at_once(s, ("r", rule, 1, 5, 2, 0))
        drains(s, ("r", rule, 1, 5, 1, 12), 1, 2)
    for name, numbers, words in ("empty map", [], 8), ("entry alone", [3, 6, 1], 0):
        print("# the", name)
        s = built(numbers, words, 1)
        show(s)
        for q in ("r", 1, 1, 5, 2, 0), ("r", 2, 1, 5, 2, 0), ("r", 2, 1, 4, 2, 0), ("r", 2, 1, TOP, 2, 0), ("r", 3, 2, 0, 2, 0):
            print("fresh", *q)
            print("step", *q, s.root, 1, 0)


def cursors():
    print("# a cursor of rule 1 carried on by rule 2, and the other way round")
    s = built(EDGES)
    show(s)
    q = overlap(1, 5, 2, 0)
    for rule in 1, 2:
        held = model.lookup(s, ruled(rule, q), start(s, q), 2)[3]
        print("drain", *ruled(rule, q), *start(s, q), 2, 2)
        for other in ruled(3 - rule, q), q, ("e", 5, 7):
            print("step", *other, *held)
            print("drain", *other, *held, 0, 4)
    print("# a hit of rule 1 alone, held by rule 2")
    slot = next(slot for slot in range(s.count) if s.key(slot) == (3, 6))
    print("step", *ruled(2, q), slot, *model.paths(s, s.root)[slot])


def refused():
    print("# numbers that are no rule, in every lookup; `fresh` tests nothing")
    broken, above, good = built(A), built(A), built(A)
    broken.root, above.count = 1, 6
    show(good)
    for rule in NO_RULES:
        q = "r", rule, 0, 10, 1, 30
        lines(*(" ".join(map(str, line)) for line in (("fresh", *q), ("step", *q, 2, 1, 0), ("drain", *q, 2, 1, 0, 5, 5), ("plain", *q, 5), ("find", *q, 5))))
    print("# a store that does not pass, a bad rule or range, a bad cursor, a short output: the first counts")
    for s in broken, above, good:
        show(s)
        for q in EVERY, ("r", 3, 2, 0, 2, 0), ("r", 2, 1, 5, 1, 6), ("r", 1, 0, 6, 0, 5):
            print("step", *q, 9, 9, 9)
            print("drain", *q, 2, 1, 0, 5, 4)
            print("plain", *q, 4)
    print("# it leaves the store as it was")
    lines("remove 0", "find r 2 2 0 2 0 5", "last", "commit", "check", "remove 0")


def malformed():
    print("# lines that fit nothing")
    for q in "r", "r 2", "r 2 0 1 0", "r 2 2 1 2 0", "r 2 3 0 2 0", "r 2 2 0 2 1", "r 18446744073709551616 2 0 2 0", "r x 2 0 2 0", "R 2 2 0 2 0", "r  2 2 0 2 0":
        print("drain", q, "2 1 0 5 5")
    for name, rest in ("fresh", ""), ("step", " 2 1 0"), ("plain", " 5"), ("find", " 5"):
        for q in "r", "r 2 2 1 2 0", "r2 2 0 2 0":
            print(name, q + rest)
    lines("fresh r 2 2 0 2 0 5", "step r 2 2 0 2 0 2 1", "drain r 2 2 0 2 0 2 1 0 5", "drain r 2 2 0 2 0 2 1 0 5 4097", "plain r 2 2 0 2 0 4097", "find r 2 2 0 2 0")
    lines("fresh r 02 2 00 2 0", "find r 0002 2 0 2 0 05")


if __name__ == "__main__":
    bounds()
    rules()
    cursors()
    refused()
    malformed()
