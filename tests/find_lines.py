#!/usr/bin/env python3
"""Lines for `drive` about the fast lookup: the queries of tests/plain_lines.py, into outputs that
hold no hit, one hit less than there are, all of them, and more. crates/drive/stdin has these lines
before those of tests/ticket_lines.py."""
import model
from lookups import U, start
from plain_lines import lines


def looked_up(s, q, *rooms):
    """It finds what a drain to the end finds, and enters no more nodes."""
    no, hits, entered, after = model.lookup(s, q, start(s, q), s.count + 1)
    assert no == 0 and after == (U, 0, 0)
    for room in sorted({0, max(len(hits), 1) - 1, len(hits), s.count + 3} if rooms else {len(hits)}):
        print("find", *q, room)
        answer = list(map(int, model.find_all(s, q, room).split(" ")))
        assert answer[:2] == [0, len(hits)] and answer[2] <= entered and answer[4:] == (hits + [777777] * room)[:room]


if __name__ == "__main__":
    lines("find", looked_up)
