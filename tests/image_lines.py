#!/usr/bin/env python3
"""Lines for `drive` about images: maps that are written and loaded back, outputs and targets of
every size that matters, and images that are damaged in one place, each with the refusal that comes
first. crates/drive/stdin has these lines before those of tests/host_lines.py."""
import struct

import model
from stores import A, B, built, show

U = model.U
TOP = 2**32 - 1
RUBBISH = 777
ONE = [10, 20, 1]


def lines(*all):
    for line in all:
        print(line)


def entries(n):
    return [x for k in range(n) for x in (3 * k, 3 * k + 7, 2**63 + k)]


def image(numbers):
    return bytearray(model.image_of(built(numbers)))


def load(data, version=6):
    print("bytes", len(data), *data)
    print("load", version)


def target(slots, spare=0):
    """Memory for so many slots, and some words more, all of it set."""
    show(model.Store(7, 7, [RUBBISH] * (8 * slots + spare), [255] * ((slots + 7) // 8)))


def round_trips():
    for name, numbers in ("A", A), ("B", B), ("of no entries", []), ("of 7 entries", entries(7)), ("of 8", entries(8)), ("of 9", entries(9)):
        s = built(numbers)
        length = model.image_length(s.count)
        print(f"# store {name}: an output one byte short, one of the image's length and one byte longer; then loaded where it was")
        show(s)
        lines(*(f"write {room}" for room in (length - 1, length + 1, length)), "commit", "load 6", "last", "commit", "check", "ticket 0")
        print("# loaded into memory with room for one entry more, whose words and bits stay; then with one slot too few")
        target(s.count + 1)
        lines("load %d" % TOP, "last", "commit", "check", "ticket 0", f"write {length}")
        if s.count:
            target(s.count, -1)
            lines("load 0", "commit", "check")
    print("# the ninth entry's colour bit has no byte")
    s = model.Store(0, U, [RUBBISH] * 72, [255])
    show(s)
    load(image(entries(9)))
    print("# as many entries as an image at its limit holds, and the last bits of its bytes")
    show(built(entries(452)))
    length = model.image_length(452)
    lines("write 16384", "commit", "load 0", "write 44", f"bget {8 * length} {8 * length - 1}", f"bpush {8 * length} 1")
    load([0] * 16384)
    lines("bset 131072 131071 1", "commit", "bget 131072 131071", "bpop 131073", "check")


def writes_refused():
    print("# a count above the capacity, a store that does not pass, a short output: the first counts")
    good, broken, above = built(A), built(A), built(A)
    broken.root = above.root = 1
    above.count = 6
    for s in good, broken, above:
        show(s)
        lines("write 225", "write 224", "write 0")
    print("# a refused one leaves the store, an accepted one the bytes of the image and no store")
    show(good)
    lines("bytes 1 5", "version 3", "remove 0", "write 0", "last", "commit", "check", "ticket 0", "bget 8 0", "bget 9 0")
    lines("remove 0", "write 226", "last", "commit", "check", "bget 1800 0", "bget 1801 0")
    print("# the empty map into the shortest outputs")
    show(built([]))
    lines("write 0", "write 43", "commit", "write 44")


def changed(data, at, to, width=4):
    data[at:at + width] = to.to_bytes(width, "little")
    return data


def layouts():
    print("# one entry: each number of the table one less and one more, and every two kinds exchanged")
    target(1)
    numbers = struct.unpack("<11I", image(ONE)[:44])
    for k in range(2, 11):
        for to in numbers[k] - 1, numbers[k] + 1:
            load(changed(image(ONE), 4 * k, to))
    for a, b in (8, 20), (8, 32), (20, 32):
        load(changed(changed(image(ONE), a, (b - 8) // 12 + 1), b, (a - 8) // 12 + 1))
    print("# a byte less and more, no byte, half a header, the header alone")
    for data in image(ONE)[:-1], image(ONE) + b"\0", b"", image(ONE)[:22], image(ONE)[:43], image(ONE)[:44], image([])[:43], image([]) + b"\0":
        load(data)
    print("# counts whose table is another one, up to the greatest; a length that fits such a count modulo 2^32")
    for count in 0, 2, 8, 2**31, TOP:
        load(changed(image(ONE), 0, count))
    n = 2**32 // 36 + 1
    rows = 1, 44, 24 * n, 2, 44 + 24 * n, 12 * n, 3, 44 + 36 * n, (n + 7) // 8
    load(struct.pack("<11I", n, U, *(x % 2**32 for x in rows)))
    print("# a spare bit: each of the last byte's, from the count up")
    for bit in range(8):
        data = image(ONE)
        data[-1] |= 1 << bit
        load(data)
    print("# no spare bits in the eighth entry's byte, seven in the ninth's")
    target(9)
    for n, bit in (8, 7), (9, 1), (9, 7):
        data = image(entries(n))
        data[-1] |= 1 << bit
        load(data)


def links_at(n, slot, side):
    return 44 + 24 * n + 12 * slot + 4 * (side - model.LEFT)


def stores():
    print("# the store in an image does not pass: its root")
    target(6)
    for root in 5, 1, 65535, U - 1, U:
        load(changed(image(A), 4, root))
    print("# a link: beyond the count, left twice, a cycle of two, a parent that is another one")
    link = lambda slot, side, to, data=None: changed(data or image(A), links_at(5, slot, side), to)
    for to in 5, 65535, U - 1:
        load(link(0, model.RIGHT, to))
    load(link(2, model.RIGHT, 1))
    load(link(0, model.LEFT, 1))
    load(link(1, model.PARENT, 0, link(0, model.LEFT, 1)))
    load(link(3, model.PARENT, 2))
    load(link(2, model.PARENT, 4))
    load(link(4, model.LEFT, U))
    print("# colours: a red root, red under red, unequal blacks")
    for colours in 13, 27, 8, 0:
        data = image(A)
        data[-1] = colours
        load(data)
    print("# entries: start = end, start > end, a fall of the starts and of the ends alone; a value can be any")
    for at, to in (44 + 72 + 8, 40), (44 + 72 + 8, 39), (44, 11), (44 + 8, 31), (44 + 16, 2**64 - 1), (44 + 8, 30):
        load(changed(image(A), at, to, 8))
    print("# no entries and a root; three equal entries, two of them exchanged")
    load(changed(image([]), 4, 0))
    load(changed(changed(image(B), 44 + 16, 3, 8), 44 + 48 + 16, 1, 8))


def orders():
    print("# a bad layout, too little room and a store that does not pass, in each pair: the first counts")
    broken = changed(image(A), 4, 1)
    for slots in 6, 4:
        target(slots)
        for data in broken, broken + b"\0", image(A) + b"\0", image(A):
            load(data)
    print("# what a refused one returned becomes the store, in the memory that it left")
    show(built(A))
    load(broken, 9)
    lines("last", "commit", "check", "ticket 0", "build 0", "last")


def damaged():
    print("# lines that fit nothing")
    show(built(A))
    lines("write", "write ", "write 16385", "write %d" % 2**64, "write 225 1", "write x", "write  225", "write 225 ", "Write 225", "writes 225")
    lines("load", "load ", "load %d" % 2**32, "load %d" % (2**64 - 1), "load 1 2", "load x", "loads 1", "bytes 16385", "bytes 16385 1")
    load(image(A), "0006")
    print("write 00225")


if __name__ == "__main__":
    round_trips()
    writes_refused()
    layouts()
    stores()
    orders()
    damaged()
