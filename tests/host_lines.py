#!/usr/bin/env python3
"""Lines for `drive` about an address that is looked up in an image: every address of store A, equal
ranges, addresses and places at their ends, and images of each refusal. crates/drive/stdin has these
lines between those of tests/image_lines.py and those of tests/disjoint_lines.py."""
import random

import model
from image_lines import ONE, changed, image, lines, links_at
from stores import A, B, built, show

U = model.U
TOP = 2**64 - 1


def given(data):
    print("bytes", len(data), *data)


def asked(address, *places):
    for k in places:
        print("chost", address, k)


def addresses():
    print("# store A as an image, each address with the first three places")
    show(built(A))
    lines("write 225", "commit")
    for address in range(62):
        asked(address, 0, 1, 2)
    print("# addresses and places at their ends")
    for address in 0, 10, U, 2**63, TOP:
        asked(address, 0, TOP)
    asked(10, 2**32, 2**32 + 1)
    print("# three equal entries, then one of them between others")
    given(image(B))
    for address in 4, 5, 8, 9:
        asked(address, 0, 1, 2, 3)
    given(image([3, 6, 9, 5, 9, 1, 5, 9, 0, 5, 9, TOP, 5, 10, 4]))
    asked(5, 0, 1, 2, 3, 4, 5)
    asked(9, 0, 1)
    print("# entries at the ends of the numbers, with values there")
    given(image([0, 1, TOP, 0, TOP, 0, 7, 8, 3, TOP - 1, TOP, 4]))
    for address in 0, 1, 7, TOP - 1, TOP:
        asked(address, 0, 1, 2)


def many():
    print("# images by chance, at both ends of an entry and beside them: the counts and values are those of the entries")
    rng = random.Random(7)
    for n in 1, 9, 40, 452:
        numbers = sorted((start, start + 1 + rng.randrange(9), rng.randrange(99)) for start in (rng.randrange(3 * n) for _ in range(n)))
        data = image([x for entry in numbers for x in entry])
        given(data)
        start, end, _ = numbers[rng.randrange(n)]
        for address in start, end - 1, end:
            values = [value for a, b, value in numbers if a <= address < b]
            assert model.image_count(data, address) == len(values)
            for k in 0, max(len(values), 1) - 1, len(values):
                asked(address, k)
                assert model.image_refusal(data, address, k) == (0 if k < len(values) else 3)
                assert model.image_value(data, address, k) == (values[k] if k < len(values) else 0)


def refused():
    print("# no entries, then no bytes, a cut header, a byte less and a byte more")
    for data in image([]), b"", image([])[:43], image(A)[:-1], image(A) + b"\0":
        given(data)
        asked(10, 0, 5)
    print("# a row that is not the count's, a spare bit; another root, a link that leads elsewhere, a red root; the hulls do not count")
    spare = image(A)
    spare[-1] |= 128
    red = image(A)
    red[-1] |= 4
    for data in changed(image(A), 12, 45), spare, changed(image(A), 4, 1), changed(image(A), links_at(5, 0, model.RIGHT), 5), red:
        given(data)
        asked(10, 0, 2)
    print("# entries out of order, an entry without an address")
    for at, to in (44, 11), (44 + 72 + 8, 40):
        given(changed(image(A), at, to, 8))
        asked(10, 0, 2)
    print("# a row and the tree, both wrong: the row counts; a count without its rows")
    given(changed(changed(image(A), 12, 45), 4, 1))
    asked(10, 0, 9)
    for count in 0, 6, 65535, 65536, U:
        given(changed(image(A), 0, count))
        asked(10, 0)


def around():
    print("# it reads the bytes alone, and leaves the store as it was")
    s = built(A)
    s.root = 1
    show(s)
    given(image(ONE))
    lines("version 5", "check", "chost 10 0", "last", "chost 20 0", "commit", "check", "ticket 0", "chost 15 0", "load 3", "bget 8 0")
    show(built(A))
    lines("remove 0", "chost 10 0", "last", "commit", "check", "bpop 648", "chost 10 0", "commit", "chost 10 0")
    print("# lines that fit nothing")
    lines("chost", "chost ", "chost 10", "chost 10 ", "chost 10 0 0", "chost x 0", "chost 10 x", "chost  10 0", "chost 10 0 ", "chosts 10 0", "chost10 0")
    lines("chost %d 0" % 2**64, "chost 0 %d" % 2**64, "chost 0003 00")


if __name__ == "__main__":
    addresses()
    many()
    refused()
    around()
