#!/usr/bin/env python3
"""What the calls return and leave, from the words of document 01, of document 02 for insertion,
tickets, images, the plain lookup, disjoint maps, the second rule of ranges, nodes of six words,
unloading and tidy numbering, and of docs/RULES.md for the fast lookup, in plain lists and
recursion. It takes nothing from the code of the crate iset or of this project. tests/drive.py
prints what it returns."""
import struct

U = 4294967295
START, END, VALUE, LO, HI, LEFT, RIGHT, PARENT = range(8)


class Store:
    """Nodes of eight words. `tops` is what a store of six-word nodes has besides (`unpack`)."""

    def __init__(self, count, root, words, colours, version=0):
        self.count, self.root, self.words, self.colours, self.version = count, root, words, colours, version
        self.reach = 0
        self.tops = []

    def copy(self):
        return Store(self.count, self.root, list(self.words), list(self.colours), self.version)

    def raise_version(self):
        """One accepted build, removal, insertion, reading of an image or renumbering. Every node
        below the count has top bits 0 then."""
        self.version = (self.version + 1) % 2**32
        self.tops[:self.count] = [0] * len(self.tops[:self.count])

    def get(self, slot, word):
        return self.words[8 * slot + word]

    def set(self, slot, word, to):
        self.words[8 * slot + word] = to

    def key(self, slot):
        return self.get(slot, START), self.get(slot, END)

    def red(self, slot):
        return slot != U and self.colours[slot // 8] >> slot % 8 & 1 == 1

    def paint(self, slot, red):
        self.colours[slot // 8] = self.colours[slot // 8] & ~(1 << slot % 8) | red << slot % 8

    def capacity(self):
        return min(len(self.words) // 8, 8 * len(self.colours), 65535)

    def hull(self, slot):
        return self.get(slot, LO), self.get(slot, HI)

    def rehull(self, slot):
        """`reach` counts the hulls that changed as a removal or an insertion worked them out; a
        build counts none."""
        old = self.hull(slot)
        below = [c for c in (self.get(slot, LEFT), self.get(slot, RIGHT)) if c != U]
        self.set(slot, LO, min([self.get(slot, START)] + [self.get(c, LO) for c in below]))
        self.set(slot, HI, max([self.get(slot, END)] + [self.get(c, HI) for c in below]))
        self.reach += self.hull(slot) != old

    def passes(self):
        """The check, but for the room."""
        if any(self.tops[:self.count]):
            return False
        if self.count == 0 or self.root == U:
            return self.count == 0 and self.root == U
        seen, order = set(), []

        def down(slot, parent, parent_red):
            if slot == U:
                return 0, None
            if slot >= self.count or slot in seen or self.get(slot, PARENT) != parent or self.red(slot) and parent_red:
                raise ValueError
            seen.add(slot)
            left = down(self.get(slot, LEFT), slot, self.red(slot))
            order.append(self.key(slot))
            right = down(self.get(slot, RIGHT), slot, self.red(slot))
            hulls = [h for h in (self.key(slot), left[1], right[1]) if h]
            hull = min(h[0] for h in hulls), max(h[1] for h in hulls)
            if left[0] != right[0] or hull != (self.get(slot, LO), self.get(slot, HI)):
                raise ValueError
            return left[0] + (not self.red(slot)), hull

        try:
            down(self.root, U, True)
        except ValueError:
            return False
        return len(seen) == self.count and all(a < b for a, b in order) and order == sorted(order)


def refuse_store(s):
    return 1 if s.count > s.capacity() else 0 if s.passes() else 2


# Nodes of six words, by document 02, item 12: start, end, value, hull start, hull end, links. The
# word of links has the left one in its lowest 16 bits, then the right one, then the parent, then 16
# bits 0. The undefined link is 65535 there.

def unpack(words):
    """Each six words as eight, and the top bits of each word of links. What is left after the last
    whole node stays."""
    wide, tops = [], []
    for at in range(0, len(words) - 5, 6):
        *links, top = (words[at + 5] // 65536**k % 65536 for k in range(4))
        wide += words[at:at + 5] + [U if link == 65535 else link for link in links]
        tops.append(top)
    return wide + words[6 * len(tops):], tops


def pack(wide, tops):
    """The words whose `unpack` this is."""
    words = []
    for slot, top in enumerate(tops):
        links = [65535 if link == U else link for link in wide[8 * slot + LEFT:8 * slot + 8]]
        assert max(links) <= 65535
        words += wide[8 * slot:8 * slot + LEFT] + [sum(x * 65536**k for k, x in enumerate(links + [top]))]
    return words + wide[8 * len(tops):]


def unpacked(s):
    """A store of six-word nodes as one of eight-word nodes."""
    wide = s.copy()
    wide.words, wide.tops = unpack(s.words)
    return wide


def in_six(call, s, *args):
    """A call on a store of six-word nodes: unpack, the call on eight words, pack."""
    wide = unpacked(s)
    answer = call(wide, *args)
    wide.words = pack(wide.words, wide.tops)
    vars(s).update(vars(wide))
    return answer


# Building

def build(s, numbers):
    entries = [tuple(numbers[i:i + 3]) for i in range(0, len(numbers) - 2, 3)]
    n = len(entries)
    s.count, s.root = 0, U
    if len(numbers) % 3:
        return "8 0 %d" % U
    if n > s.capacity():
        return "1 0 %d" % U
    if any(a >= b for a, b, _ in entries):
        return "5 0 %d" % U
    if any(x[:2] > y[:2] for x, y in zip(entries, entries[1:])):
        return "6 0 %d" % U
    deepest_black = (n + 1).bit_length() - 1

    def span(a, b, parent, depth):
        if a == b:
            return U
        slot = a + (b - a) // 2
        s.words[8 * slot:8 * slot + 3] = entries[slot]
        s.set(slot, PARENT, parent)
        s.set(slot, LEFT, span(a, slot, slot, depth + 1))
        s.set(slot, RIGHT, span(slot + 1, b, slot, depth + 1))
        s.rehull(slot)
        s.paint(slot, depth > deepest_black)
        return slot

    s.count, s.root = n, span(0, n, U, 1)
    s.reach = 0
    s.raise_version()
    return "0 %d %d" % (s.count, s.root)


# Removal

def join(s, parent, left, child):
    s.set(parent, LEFT if left else RIGHT, child)
    if child != U:
        s.set(child, PARENT, parent)


def lift(s, low, high):
    """`high` stands where `low` stood."""
    parent = s.get(low, PARENT)
    s.set(high, PARENT, parent)
    if parent == U:
        s.root = high
    else:
        join(s, parent, s.get(parent, LEFT) == low, high)


def repair(s, at):
    while s.get(at, PARENT) != U:
        parent = s.get(at, PARENT)
        left = s.get(parent, LEFT) == at
        near, far = (LEFT, RIGHT) if left else (RIGHT, LEFT)
        sibling = s.get(parent, far)
        close, distant = s.get(sibling, near), s.get(sibling, far)
        if not (s.red(parent) or s.red(sibling) or s.red(close) or s.red(distant)):
            s.paint(sibling, 1)
            at = parent
        elif not (s.red(parent) or s.red(close) or s.red(distant)):
            s.paint(parent, 1)
            s.paint(sibling, 0)
            lift(s, parent, sibling)
            join(s, sibling, left, parent)
            join(s, parent, not left, close)
        elif not (s.red(sibling) or s.red(close) or s.red(distant)):
            s.paint(parent, 0)
            s.paint(sibling, 1)
            return
        elif not (s.red(sibling) or s.red(distant)):
            s.paint(close, 0)
            s.paint(sibling, 1)
            join(s, sibling, left, s.get(close, far))
            join(s, close, not left, sibling)
            join(s, parent, not left, close)
            s.rehull(sibling)
            s.rehull(close)
        else:
            s.paint(sibling, s.red(parent))
            s.paint(parent, 0)
            s.paint(distant, 0)
            lift(s, parent, sibling)
            join(s, parent, not left, close)
            join(s, sibling, left, parent)
            return


def exchange(s, where, i, j):
    for word in START, END, VALUE:
        a, b = s.get(i, word), s.get(j, word)
        s.set(i, word, b)
        s.set(j, word, a)
    where[i], where[j] = where[j], where[i]


def remove(s, slot):
    no = refuse_store(s) or (3 if slot >= s.count else 0)
    if no:
        return "%d 0 %d %d" % (no, s.count, s.root) + " %d" % U * 6
    value = s.get(slot, VALUE)
    # where[i] is the old slot of the entry that now lies in slot i
    where = list(range(s.count))
    gone = slot
    if s.get(slot, RIGHT) != U:
        gone = s.get(slot, RIGHT)
        while s.get(gone, LEFT) != U:
            gone = s.get(gone, LEFT)
        exchange(s, where, slot, gone)
    child = min(s.get(gone, LEFT), s.get(gone, RIGHT))
    if not s.red(gone) and not s.red(child):
        repair(s, gone)
    elif child != U:
        s.paint(child, 1)
    if child != U:
        exchange(s, where, gone, child)
        gone = child
    up = s.get(gone, PARENT)
    if up == U:
        s.root = U
    else:
        s.set(up, LEFT if s.get(up, LEFT) == gone else RIGHT, U)
    while up != U:
        s.rehull(up)
        up = s.get(up, PARENT)
    last = s.count - 1
    if gone != last:
        s.words[8 * gone:8 * gone + 8] = s.words[8 * last:8 * last + 8]
        where[gone] = where[last]
        s.paint(gone, s.red(last))
        for side in LEFT, RIGHT:
            if s.get(gone, side) != U:
                s.set(s.get(gone, side), PARENT, gone)
        lift(s, last, gone)
    s.words[8 * last:8 * last + 8] = [0] * 5 + [U] * 3
    s.count = last
    s.raise_version()
    assert s.passes()
    pairs = sorted((old, new) for new, old in enumerate(where[:last]) if old != new)
    return " ".join(map(str, [0, value, s.count, s.root] + sum(([a, b] for a, b in (pairs + [(U, U)] * 3)[:3]), [])))


# Insertion

def rotate(s, low, high):
    """`high`, a child of `low`, comes up over it."""
    left = s.get(low, LEFT) == high
    lift(s, low, high)
    join(s, low, left, s.get(high, RIGHT if left else LEFT))
    join(s, high, not left, low)
    s.rehull(low)
    s.rehull(high)


def redden(s, at):
    """Upward from the red slot `at`, whose parent may be red too."""
    while s.red(s.get(at, PARENT)):
        parent = s.get(at, PARENT)
        top = s.get(parent, PARENT)
        left = s.get(top, LEFT) == parent
        uncle = s.get(top, RIGHT if left else LEFT)
        s.paint(top, 1)
        if s.red(uncle):
            s.paint(parent, 0)
            s.paint(uncle, 0)
            at = top
            continue
        if (s.get(parent, LEFT) == at) != left:
            rotate(s, parent, at)
            parent = at
        rotate(s, top, parent)
        s.paint(parent, 0)
        break
    s.paint(s.root, 0)


def insert(s, start, end, value):
    no = 1 if s.count >= s.capacity() else refuse_store(s) or (5 if start >= end else 0)
    if no:
        return "%d %d %d %d" % (no, s.count, s.root, U)
    slot, up, at, left = s.count, U, s.root, True
    while at != U:
        up, left = at, (start, end) < s.key(at)
        at = s.get(at, LEFT if left else RIGHT)
    s.words[8 * slot:8 * slot + 8] = [start, end, value, start, end, U, U, up]
    s.paint(slot, 1)
    s.count += 1
    if up == U:
        s.root = slot
    else:
        join(s, up, left, slot)
    redden(s, slot)
    at = slot
    while at != U:
        s.rehull(at)
        at = s.get(at, PARENT)
    s.raise_version()
    return "%d %d %d %d" % (0, s.count, s.root, slot)


# Tickets: a slot with the version at which it was taken

def read(s, slot, taken):
    no = refuse_store(s) or (11 if taken != s.version else 3 if slot >= s.count else 0)
    return "%d 0 0 0" % no if no else "0 %d %d %d" % (s.key(slot) + (s.get(slot, VALUE),))


# Images: a map as bytes, docs/IMAGE.md

def table(n):
    """The table of contents that follows from the count, or nothing if a number of it does not fit
    4 bytes."""
    rows = 1, 44, 24 * n, 2, 44 + 24 * n, 12 * n, 3, 44 + 36 * n, (n + 7) // 8
    return struct.pack("<9I", *rows) if max(rows) <= U else b""


def image_length(n):
    return 44 + 36 * n + (n + 7) // 8


def image_of(s):
    """The bytes of a store that passes."""
    slots = range(s.count)
    colours = bytearray((s.count + 7) // 8)
    for slot in slots:
        colours[slot // 8] |= s.red(slot) << slot % 8
    entries = b"".join(struct.pack("<3Q", *s.words[8 * slot:8 * slot + 3]) for slot in slots)
    links = b"".join(struct.pack("<3I", *s.words[8 * slot + 5:8 * slot + 8]) for slot in slots)
    return struct.pack("<2I", s.count, s.root) + table(s.count) + entries + links + bytes(colours)


def write_image(s, out):
    """To the front of the list `out`."""
    no = refuse_store(s) or (9 if len(out) < image_length(s.count) else 0)
    image = b"" if no else image_of(s)
    out[:len(image)] = image
    return "%d %d" % (no, len(image))


def is_laid_out(image):
    if len(image) < 44:
        return False
    n = struct.unpack_from("<I", image)[0]
    return image[8:44] == table(n) and len(image) == image_length(n) and (n % 8 == 0 or image[-1] >> n % 8 == 0)


def work_out(s, slot, seen):
    """The hulls of a subtree, children first. A link that leads to no slot, or to one that was
    visited, ends the way."""
    if slot >= s.count or slot in seen:
        return
    seen.add(slot)
    below = [c for c in (s.get(slot, LEFT), s.get(slot, RIGHT)) if c != U]
    for child in below:
        work_out(s, child, seen)
    if all(child < s.count for child in below):
        s.rehull(slot)


def store_in(image):
    """The store in an image that is laid out, with room for its entries alone; each hull is the
    entry's own interval."""
    n, root = struct.unpack_from("<2I", image)
    words = []
    for slot in range(n):
        start, end, value = struct.unpack_from("<3Q", image, 44 + 24 * slot)
        words += start, end, value, start, end, *struct.unpack_from("<3I", image, 44 + 24 * n + 12 * slot)
    return Store(n, root, words, list(image[44 + 36 * n:]))


def judge(image, capacity):
    """The refusal's number, 0 if there is none, and the store in the image then, with the hulls
    worked out."""
    if not is_laid_out(image):
        return 12, None
    found = store_in(image)
    if found.count > capacity:
        return 1, None
    work_out(found, found.root, set())
    return (0, found) if found.passes() else (2, None)


def read_image(s, version, image):
    """In the place of a map of that version, into the memory of `s`."""
    s.count, s.root, s.version = 0, U, version
    no, found = judge(bytes(image), s.capacity())
    if no == 0:
        s.count, s.root = found.count, found.root
        s.words[:8 * s.count] = found.words
        for slot in range(s.count):
            s.paint(slot, found.red(slot))
        s.raise_version()
    return "%d %d %d %d" % (no, s.count, s.root, s.version)


# Looking up. A query is ("o", bounds), ("r", rule, bounds) or ("e", start, end); the bounds are the
# last four.

def allowed_left(q, hull_end):
    return q[-4] == 2 or hull_end >= q[-3]


def allowed_right(q, hull_start):
    return q[-2] == 2 or (hull_start <= q[-1] if q[-2] == 0 else hull_start < q[-1])


def holds_address(q, a):
    low, x, high, y = q[-4:]
    return (low == 2 or a > x or a == x and low == 0) and (high == 2 or a < y or a == y and high == 0)


def whole(q, *intervals):
    """Whether some address from 0 to 2^64 - 1 lies in the range and in the intervals. If one does,
    so does one of these few: the bounds, their neighbours, and the ends of the intervals."""
    few = [x + d for x in (q[-3], q[-1]) for d in (-1, 0, 1)] + [a for start, end in intervals for a in (start, end - 1)]
    return any(0 <= a < 2**64 and holds_address(q, a) and all(start <= a < end for start, end in intervals) for a in few)


def intersects(q, interval):
    if q[:2] == ("r", 2):
        return whole(q, interval)
    return (q[-4] == 2 or interval[1] > q[-3]) and allowed_right(q, interval[0])


def hit(s, q, slot):
    return s.key(slot) == q[1:] if q[0] == "e" else intersects(q, s.key(slot))


def goes(s, q, slot, side):
    child = s.get(slot, side)
    if child == U:
        return False
    if q[0] != "e":
        return allowed_left(q, s.get(child, HI)) if side == LEFT else allowed_right(q, s.get(child, LO))
    inside = s.get(child, LO) <= q[1] and q[2] <= s.get(child, HI)
    return inside and (q[1:] <= s.key(slot) if side == LEFT else q[1:] >= s.key(slot))


def first(s, q):
    """The start: the root, or the highest equal node by a search through all of the tree, level by
    level."""
    if q[0] != "e":
        return s.root
    level = [s.root] if s.root != U else []
    while level:
        for slot in level:
            if s.key(slot) == q[1:]:
                return slot
        level = [c for slot in level for c in (s.get(slot, LEFT), s.get(slot, RIGHT)) if c != U]
    return U


def paths(s, top):
    """Every slot under `top` with its held levels and bits."""
    found = {}

    def down(slot, levels, above):
        if slot != U:
            found[slot] = levels + 1, above | 1 << 2 * levels
            down(s.get(slot, LEFT), levels + 1, above | 2 << 2 * levels)
            down(s.get(slot, RIGHT), levels + 1, above | 3 << 2 * levels)

    down(top, 0, 0)
    return found


def events(s, q, top):
    """The whole lookup in order, by the entered rule: (slot entered, -) and (slot, passed in tree
    order)."""
    out = []

    def down(slot):
        out.append(("enter", slot))
        if goes(s, q, slot, LEFT):
            down(s.get(slot, LEFT))
        out.append(("pass", slot))
        if goes(s, q, slot, RIGHT):
            down(s.get(slot, RIGHT))

    if top != U:
        down(top)
    return out


def after(s, q, top, slot):
    """What comes after a held slot: its right subtree, then each ancestor of which it lies on the
    left, with that one's right subtree."""
    out = []
    if goes(s, q, slot, RIGHT):
        out += events(s, q, s.get(slot, RIGHT))
    while slot != top:
        up = s.get(slot, PARENT)
        if s.get(up, LEFT) == slot:
            out.append(("pass", up))
            if goes(s, q, up, RIGHT):
                out += events(s, q, s.get(up, RIGHT))
        slot = up
    return out


def refuse_query(q):
    if q[0] == "e":
        return 5 if q[1] >= q[2] else 0
    if q[0] == "r" and q[1] != 1:
        return 0 if q[1] == 2 and whole(q) else 4
    low, x, high, y = q[-4:]
    if low == 2 or high == 2:
        return 0
    return 4 if x > y or x == y and (low, high) != (0, 0) else 0


def lookup(s, q, cursor, limit):
    """no, hits, entered, next cursor; all hits up to the limit."""
    no = refuse_store(s) or refuse_query(q)
    if no:
        return no, [], 0, cursor
    top = first(s, q)
    held = paths(s, top)
    slot, levels, bits = cursor
    if cursor == (top, 1, 0):
        rest = events(s, q, top)
    elif cursor == (U, 0, 0):
        rest = []
    elif slot in held and held[slot] == (levels, bits):
        rest = after(s, q, top, slot)
    else:
        return 7, [], 0, cursor
    hits, entered = [], 0
    for what, slot in rest:
        if what == "enter":
            entered += 1
        elif hit(s, q, slot):
            hits.append(slot)
            if len(hits) == limit:
                return 0, hits, entered, (slot,) + held[slot]
    return 0, hits, entered, (U, 0, 0)


def step(s, q, cursor):
    no, hits, entered, after_it = lookup(s, q, cursor, 1)
    return "%d %d %d %d %d %d" % ((no, hits[0] if hits else U) + after_it + (entered,))


def drain(s, q, cursor, limit, room):
    limit = limit or room
    no, hits, entered, after_it = lookup(s, q, cursor, limit)
    if not no and limit > room:
        no, hits, entered, after_it = 9, [], 0, cursor
    elif not no and limit == 0:
        hits, entered, after_it = [], 0, cursor
    output = hits + [777777] * (room - len(hits))
    return " ".join(map(str, (no, len(hits), entered) + after_it + (room,) + tuple(output)))


def in_order(s, slot):
    """Every slot in tree order."""
    return [] if slot == U else in_order(s, s.get(slot, LEFT)) + [slot] + in_order(s, s.get(slot, RIGHT))


def plain(s, q, room):
    """Every entry in tree order, tested."""
    no = refuse_store(s) or refuse_query(q) or (9 if room < s.count else 0)
    hits = [] if no else [slot for slot in in_order(s, s.root) if hit(s, q, slot)]
    output = hits + [777777] * (room - len(hits))
    return " ".join(map(str, (no, len(hits), 0 if no else s.count, room) + tuple(output)))


def enters(s, q, slot, side):
    """Whether the fast lookup enters a child: it exists, and its hull intersects the range as an
    entry does. For an interval the pruned lookup's rule tests both ends already."""
    child = s.get(slot, side)
    if q[0] == "e" or child == U:
        return goes(s, q, slot, side)
    return intersects(q, s.hull(child))


def entered_fast(s, q, slot):
    """The nodes that the fast lookup enters from a slot down, in tree order."""
    left, right = (entered_fast(s, q, s.get(slot, side)) if enters(s, q, slot, side) else [] for side in (LEFT, RIGHT))
    return left + [slot] + right


def find_all(s, q, room):
    """All hits counted, and as many written as there is room for."""
    no = refuse_store(s) or refuse_query(q)
    nodes = [] if no or first(s, q) == U else entered_fast(s, q, first(s, q))
    hits = [slot for slot in nodes if hit(s, q, slot)]
    output = (hits + [777777] * room)[:room]
    return " ".join(map(str, (no, len(hits), len(nodes), room) + tuple(output)))


# Unloading a range, by document 02, item 13

def unload(s, q):
    """All entries are gone through in tree order, and the first that intersects is removed, until
    none does."""
    no = refuse_store(s) or refuse_query(q)
    gone = 0
    while no == 0:
        hits = [slot for slot in in_order(s, s.root) if hit(s, q, slot)]
        if not hits:
            break
        remove(s, hits[0])
        gone += 1
    s.reach = 0
    return "%d %d %d %d" % (no, s.count, s.root, gone)


# Tidy numbering, by document 02, item 14. A plan has, at the place of each old slot, its new one.

def propose(s, room):
    """The place of each slot in tree order."""
    no = refuse_store(s) or (9 if room < s.count else 0)
    out = [777777] * room
    for place, slot in enumerate([] if no else in_order(s, s.root)):
        out[slot] = place
    return " ".join(map(str, [no, room] + out))


def renumber(s, plan):
    """Each node is written to its new slot from a copy of the store."""
    no = refuse_store(s) or (0 if sorted(plan) == list(range(s.count)) else 15)
    if no == 0:
        old, new = s.copy(), dict(enumerate(plan)) | {U: U}
        for slot in range(s.count):
            node = old.words[8 * slot:8 * slot + 8]
            s.words[8 * new[slot]:8 * new[slot] + 8] = node[:LEFT] + [new[link] for link in node[LEFT:]]
            s.paint(new[slot], old.red(slot))
        s.root = new[s.root]
        s.raise_version()
    return "%d %d %d" % (no, s.count, s.root)


# An address asked of an image, by document 02, item 7.

def held_in(image, address):
    """The image's refusal, 0 for none, and the values of the entries that hold the address, in tree
    order."""
    no, s = judge(bytes(image), 65535)

    def below(link):
        if link == U:
            return []
        start, end = s.key(link)
        return below(s.get(link, LEFT)) + [s.get(link, VALUE)] * (start <= address < end) + below(s.get(link, RIGHT))
    return no, [] if no else below(s.root)


def image_count(image, address):
    return len(held_in(image, address)[1])


def image_refusal(image, address, k):
    no, values = held_in(image, address)
    return no or 3 * (k >= len(values))


def image_value(image, address, k):
    return 0 if image_refusal(image, address, k) else held_in(image, address)[1][k]


# Bits and stacks

def bits(name, data, length, i, v):
    places = 8 * len(data)
    if name == "bfrom":
        if length > places:
            return "10 0 0"
        need = (length + 7) // 8
        data[:need] = [255 * v] * need
        return "0 0 %d" % length
    at = {"bpush": length, "bpop": length - 1}.get(name, i)
    if length > places or at < 0 or at >= places or name != "bpush" and at >= length:
        return "10 0 %d" % length
    old = data[at // 8] >> at % 8 & 1
    new = data[(length - 1) // 8] >> (length - 1) % 8 & 1 if name == "bswap" else v
    if name in ("bset", "bpush", "bswap"):
        data[at // 8] = data[at // 8] & ~(1 << at % 8) | new << at % 8
    length += {"bpush": 1, "bpop": -1, "bswap": -1}.get(name, 0)
    return "0 %d %d" % (old if name in ("bget", "bpop", "bswap") else 0, length)


def stack(name, levels, word):
    no_level = levels == 0 and name not in ("spush", "sempty")
    if levels > 32 or no_level or levels == 32 and name == "spush":
        return "10 0 %d %d" % (levels, word)
    low = 2 * (levels - 1)
    state = word >> low & 3 if levels else 0
    answer = {"scanleft": state == 0, "scanmatch": state in (0, 2), "scanright": state in (0, 1), "sempty": levels == 0}.get(name, 0)
    if name == "spush":
        word, levels = word & ~(3 << 2 * levels), levels + 1
    elif name == "spop":
        word, levels = word & ~(3 << low), levels - 1
    elif name in ("sleft", "smatch", "sright"):
        new = {"sleft": state | 2, "smatch": 1, "sright": 3}[name]
        word = word & ~(3 << low) | new << low
    return "0 %d %d %d" % (answer, levels, word)


# Maps in which no two ranges overlap

def met(x, y):
    """Two intervals hold an address in common."""
    return x[0] < y[1] and y[0] < x[1]


def check_disjoint(s):
    """The number of that map's check: after the store's own, all pairs of entries are compared."""
    return refuse_store(s) or (14 if any(met(s.key(a), s.key(b)) for a in range(s.count) for b in range(a)) else 0)


def point(s, address):
    """The one entry that holds an address, of all entries; and how many nodes the way down to it
    compares."""
    no = check_disjoint(s)
    if no:
        return "%d %d 0" % (no, U)
    held = [slot for slot in range(s.count) if s.get(slot, START) <= address < s.get(slot, END)]
    at, entered = s.root, 0
    while at != U:
        entered += 1
        if at in held:
            break
        at = s.get(at, LEFT if address < s.get(at, START) else RIGHT)
    assert [at] == (held or [U])
    return "0 %d %d" % (at, entered)


def insert_disjoint(s, start, end, value):
    no = check_disjoint(s) or (5 if start >= end else 0)
    meeting = [] if no else [slot for slot in in_order(s, s.root) if met(s.key(slot), (start, end))]
    if meeting:
        return "13 %d %d %d" % (s.count, s.root, meeting[0])
    return "%d %d %d %d" % (no, s.count, s.root, U) if no else insert(s, start, end, value)


def remove_disjoint(s, slot):
    no = check_disjoint(s)
    return "%d 0 %d %d" % (no, s.count, s.root) + " %d" % U * 6 if no else remove(s, slot)
