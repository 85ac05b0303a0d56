#!/usr/bin/env python3
"""Lines for `drive` about the check and the build: the stores of document 01, copies of them that
break one clause each, and lists. They are one part of crates/drive/stdin. After it come the lines
of tests/lookups.py, tests/insert_lines.py, tests/reach_lines.py, tests/plain_lines.py,
tests/find_lines.py, tests/ticket_lines.py, tests/image_lines.py, tests/host_lines.py,
tests/disjoint_lines.py, tests/ruled_lines.py, tests/unload_lines.py, tests/tidy_lines.py and
tests/narrow_lines.py."""
import model

U = model.U
A = [10, 20, 1, 10, 30, 2, 25, 40, 3, 40, 50, 4, 45, 60, 5]
B = [5, 9, 1, 5, 9, 2, 5, 9, 3]
WORDS = ["start", "end", "value", "hull start", "hull end", "left", "right", "parent"]


def built(numbers, spare_words=0, spare_bytes=0):
    n = len(numbers) // 3
    s = model.Store(0, U, [0] * (8 * n + spare_words), [0] * ((n + 7) // 8 + spare_bytes))
    model.build(s, numbers)
    return s


def show(s):
    print("store", s.count, s.root, len(s.words), *s.words, len(s.colours), *s.colours)


def check(why, s):
    print("#", why)
    show(s)
    print("check")


def broken(why, numbers, *changes, root=None, count=None, colours=None):
    s = built(numbers)
    for slot, word, to in changes:
        s.set(slot, WORDS.index(word), to)
    s.root = s.root if root is None else root
    s.count = s.count if count is None else count
    s.colours = colours or s.colours
    check(why, s)


def checks():
    check("store A", built(A))
    check("store B", built(B))
    check("store A with rubbish from the count up", fill(built(A, 19, 3)))
    broken("a child link and a parent link disagree: the child's", A, (4, "left", U))
    broken("the parent's", A, (3, "parent", 2))
    broken("the root's parent is a slot", A, (2, "parent", 4))
    broken("a cycle", A, (0, "left", 1))
    broken("a cycle through the root", A, (0, "left", 2), (2, "parent", 0))
    broken("a slot reached twice, by both links of one node", B, (1, "right", 0))
    broken("a slot reached twice, by two nodes", A, (4, "right", 0))
    broken("a slot that is not reached", A, (4, "left", U), (4, "hull start", 45), (2, "hull start", 10))
    broken("the root is red", A, colours=[13])
    broken("red under red", A, colours=[27])
    broken("ways down with unequal blacks", A, colours=[8])
    broken("all black, and a way longer", A, colours=[0])
    broken("a fall in the order of starts", A, (0, "start", 11), (0, "hull start", 11))
    broken("a fall in the order of ends alone", A, (0, "end", 31), (0, "hull end", 31), (1, "hull end", 31))
    broken("start = end", A, (3, "end", 40), (3, "hull end", 40))
    broken("start > end", A, (3, "end", 39), (3, "hull end", 39))
    broken("a hull that begins too early", A, (4, "hull start", 39))
    broken("a hull that begins too late", A, (4, "hull start", 41))
    broken("a hull that ends too late", A, (1, "hull end", 31))
    broken("a hull that ends too early", A, (2, "hull end", 59))
    broken("a link of 2^32 + 1", A, (2, "left", 2**32 + 1))
    broken("a link at the count", A, (0, "right", 5))
    broken("a root of 2^32 + 2", A, root=2**32 + 2)
    broken("another root", A, root=1)
    broken("root U with count 5", A, root=U)
    broken("root U with count 1", [1, 2, 3], root=U)
    broken("root 0 with count 0", [], root=0)
    broken("a count one less", A, count=4)
    check("no entries", built([]))
    check("no entries in some memory", built([], 16, 2))


def fill(s):
    n = s.count
    s.words[8 * n:] = [3] * (len(s.words) - 8 * n)
    s.colours = [s.colours[0] | 224] + [255] * (len(s.colours) - 1)
    return s


def capacity():
    s = built(A)
    s.words.pop()
    check("count above capacity by words", s)
    s = built(A)
    s.colours = []
    check("count above capacity by bytes", s)
    s = built(A)
    s.count = 6
    check("one entry more than the words hold", s)
    s.count = 2**64 - 1
    check("the greatest count", s)


def builds():
    room = 9
    for n in range(room + 1):
        print("# build", n, "entries into room for", room)
        show(model.Store(7, 7, [8] * (8 * room), [170] * 2))
        entries = [x for k in range(n) for x in (10 * k, 10 * k + 15, 100 + k)]
        print("build", 3 * n, *entries)
        print("commit")
        print("check")
    for name, numbers in ("A", A), ("B", B):
        print("# store", name)
        show(model.Store(0, U, [0] * len(numbers) * 3, [0]))
        print("build", len(numbers), *numbers)


LISTS = {
    8: [1, 2, 3, 4],
    1: [k for n in range(10) for k in (n, n + 1, 0)],
    5: [5, 5, 1, 6, 7, 2],
    6: [5, 9, 1, 5, 8, 2],
}


def refusals():
    show(model.Store(0, U, [1] * 72, [2] * 2))
    print("# each refusal alone")
    for numbers in [[1], [1, 2], [1, 2, 3, 4], [1, 2, 3, 4, 5]] + list(LISTS.values()) + [[9, 1, 1], [3, 4, 1, 1, 2, 2], [4, 9, 1, 3, 9, 1]]:
        print("build", len(numbers), *numbers)
    print("# each pair of refusals, in both orders in the input")
    for a in LISTS:
        for b in LISTS:
            if a != b:
                print("#", a, "then", b)
                print("build", len(LISTS[a] + LISTS[b]), *LISTS[a], *LISTS[b])
    print("# equal neighbours are accepted, a fall at the very end is not")
    for numbers in [[5, 9, 1, 5, 9, 1], [5, 9, 1, 5, 9, 2, 5, 9, 0], [0, 1, 0, 0, 2**64 - 1, 1, 2**64 - 2, 2**64 - 1, 2],
                    [5, 9, 1, 6, 9, 1, 5, 9, 1], [1, 2, 1, 2, 3, 1, 3, 3, 1], [3, 3, 1, 2, 3, 1, 1, 2, 1]]:
        print("build", len(numbers), *numbers)
    print("# lists that do not fit the line")
    for line in "build", "build 3 1 2", "build 1 1 2", "build 12289", "build x", "build 3 1 2 18446744073709551616":
        print(line)


if __name__ == "__main__":
    checks()
    capacity()
    builds()
    refusals()
