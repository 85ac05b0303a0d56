#!/usr/bin/env python3
"""Lines for `drive` about versions and tickets: every change at versions below, at and past the
top, each refusal with the version after it, and reading through tickets of every distance.
crates/drive/stdin has these lines before those of tests/image_lines.py."""
import model
from insert_lines import roomy
from reach_lines import told
from stores import A, B, built, show

U = model.U
TOP = 2**32 - 1
VERSIONS = 0, 1, TOP - 1, TOP


def lines(*all):
    for line in all:
        print(line)


def at(s, version):
    show(s)
    print("version", version)


def changes():
    print("# each change, from versions at both ends: the version goes up by one, and from its top to 0")
    for version in VERSIONS:
        at(roomy(A, 1), version)
        told("remove 0", "remove 4", "insert 12 13 6", "build 3 5 9 1", "build 0", "check")
        at(roomy([], 1), version)
        told("insert 12 13 6", "build 3 5 9 1", "build 0", "check")
        at(built([1, 2, 3]), version)
        told("remove 0")
    print("# a store begins at version 0")
    at(built(A), 7)
    show(built(A))
    told("check", "remove 0")
    print("# a setting changes nothing else; it holds for the store that is there, also after a request")
    at(built(A), 7)
    lines("remove 0", "version 9", "last", "ticket 1", "commit", "ticket 1")
    told("check", "remove 3")


def refusals():
    print("# every refusal of every change leaves the version")
    for version in VERSIONS:
        at(roomy(A, 1), version)
        told("remove 5", "remove %d" % U, "remove %d" % 2**32, "insert 5 5 6", "insert 6 5 6")
        told("build 2 5 9", "build 3 9 5 1", "build 6 5 9 1 4 9 1", "build 21" + " 1 2 3" * 7)
        at(built(A), version)
        told("insert 12 13 6")
        s = built(A)
        s.root = 1
        at(s, version)
        told("check", "remove 2", "insert 12 13 6")
        s.count, s.root = 6, 2
        at(s, version)
        told("check", "remove 2", "insert 12 13 6")
    print("# and `commit` takes it with the map that a refused build returns")
    at(built(A), 5)
    told("build 1 1")
    lines("commit", "ticket 0", "check", "build 3 5 9 1", "commit", "ticket 0", "read 0 6", "read 0 5")


def readings():
    print("# each slot of store A at the distances 0, 1 and 2^32 - 1, and the other way round")
    for version in VERSIONS:
        at(built(A), version)
        for slot in range(5):
            print("ticket", slot)
            for taken in version, (version + 1) % 2**32, (version - 1) % 2**32:
                print("read", slot, taken)
    for version, taken in (0, TOP), (TOP, 0), (0, 2**31), (2**31, 0), (2**31, 2**31 - 1), (2**31 - 1, 2**31), (3, 10), (10, 3):
        at(built(A), version)
        print("read 2", taken)
    print("# a slot that is not there: at the count, U, 2^32 and more, alone and with a stale ticket")
    at(built(A), 3)
    for slot in 5, 6, U, 2**32, 2**32 + 2, 2**64 - 1:
        print("ticket", slot)
        for taken in 3, 2, 4:
            print("read", slot, taken)
    print("# three equal entries; numbers at their ends; the empty map, in no memory and in some")
    at(built(B), 1)
    lines(*("read %d 1" % slot for slot in range(4)))
    at(built([0, 2**64 - 1, 2**64 - 1]), 1)
    lines("read 0 1", "read 0 0")
    for s in built([]), built([], 16, 2):
        at(s, 1)
        lines("ticket 0", "read 0 1", "read 0 0", "read %d 1" % U)
    print("# a store that does not pass, and one with too many entries, before a stale ticket and a missing slot")
    s = built(A)
    s.root = 1
    at(s, 3)
    lines(*("read %d %d" % ticket for ticket in ((2, 3), (2, 2), (5, 3), (5, 2))))
    s.count, s.root = 6, 2
    at(s, 3)
    lines(*("read %d %d" % ticket for ticket in ((2, 3), (2, 2), (6, 3), (6, 2))))


def over_changes():
    print("# tickets over a build, a removal and an insertion; refused changes between them do not count")
    at(roomy(A, 1), 0)
    lines("ticket 2", "read 2 0", "remove 9", "commit", "read 2 0", "insert 12 13 6", "commit", "read 2 0", "ticket 2", "read 2 1", "read 5 1")
    lines("insert 12 13 6", "commit", "read 5 1", "remove 5", "commit", "read 2 1", "ticket 5", "read 5 2", "read 5 1", "read 2 2")
    lines("build 3 5 9 1", "commit", "read 0 2", "ticket 0", "read 0 3", "read 1 3", "read 1 2", "build 0", "commit", "read 0 3", "read 0 4", "ticket 0")
    print("# the version runs round, and a ticket of the version before it is stale")
    at(built(A), TOP)
    lines("ticket 2", "remove 4", "last", "read 2 %d" % TOP, "commit", "ticket 2", "read 2 0", "read 2 %d" % TOP, "remove 3", "last")
    print("# two copies: slot 0 of the one is another entry than slot 0 of the other, and the ticket passes")
    at(built(A), 1)
    lines("remove 1", "commit", "ticket 0", "read 0 2")
    at(built(A), 1)
    lines("remove 2", "commit", "read 0 2")
    print("# a build for every load on the map of no entries: the old ticket passes; on the map that is there it does not")
    show(model.Store(0, U, [0] * 40, [0]))
    lines("build 15 " + " ".join(map(str, A)), "commit", "ticket 2", "read 2 1")
    show(model.Store(0, U, [0] * 40, [0]))
    lines("build 9 " + " ".join(map(str, B)), "commit", "read 2 1")
    lines("build 15 " + " ".join(map(str, A)), "commit", "read 2 1", "ticket 2", "read 2 2")


def damaged():
    print("# lines that fit nothing; `ticket` leaves nothing for `commit`, and `read` leaves the store as it was")
    at(built(A), 3)
    lines("version", "version ", "version %d" % 2**32, "version 1 2", "version x", "ticket", "ticket ", "ticket 1 2", "ticket x")
    lines("read", "read 1", "read 1 ", "read 1 %d" % 2**32, "read 1 %d" % (2**64 - 1), "read 1 3 0", "read x 3", "read 1 %d" % TOP, "read 1 03")
    lines("remove 0", "ticket 3", "last", "read 3 3", "last", "commit", "ticket 3", "read 3 3", "read 4 3", "read 2 9", "last")
    lines("bytes 1 1", "bpop 8", "last", "read 3 3", "last")


if __name__ == "__main__":
    changes()
    refusals()
    readings()
    over_changes()
    damaged()
