#!/usr/bin/env python3
"""Lines for `drive` about nodes of six words: the setting `layout`, top bits of links below the
count and from it up, emptied slots, room, images from one layout to the other, changes one after
the other, and then every request before these lines once more, with its store packed
(tests/packed.py). crates/drive/stdin ends with these lines."""
import random

import model
import packed
from asking import DRIVE, ask, comment, show
from image_lines import entries
from stores import A, B, built

U = model.U
BEGIN = "# nodes of six words: what is no such setting, and one that changes nothing"
# too long to be there twice: a section of tests/image_lines.py
LONG = "# as many entries as an image at its limit holds, and the last bits of its bytes"
TOP = 2**64 - 1
EMPTY = 2**48 - 1


def six(s, spare=(), slots=0, link=EMPTY):
    """A store in six words: then so many slots more, with this word of links in each, and some
    words more."""
    s = s.copy()
    s.words = packed.packed(s.words) + [3, 3, 3, 3, 3, link] * slots + list(spare)
    s.colours += [255] * ((s.count + slots + 7) // 8 - len(s.colours))
    return s


def linked(s, slot, word):
    """The store with another word of links in a slot."""
    s = s.copy()
    s.words[6 * slot + 5] = word
    return s


def link(s, slot):
    return s.words[6 * slot + 5]


def settings():
    comment(BEGIN)
    ask("layout 8")
    show(built(A))
    ask("remove 4", "layout 8", "commit")
    for text in "layout 7", "layout", "layout ", "layout 0", "layout 68", "layout 6 8", "layout 6 ", "layout  6", "layout x", "layouts 6", "layout %d" % (2**64 + 6), "Layout 6":
        assert ask(text) == "what"
    assert ask("check") == "0 @ 0 0" and DRIVE.store.count == 4
    comment("the layout changes: the store is dropped, its version with it, and so is the store that a request left")
    assert ask("version 5", "remove 0", "layout 06", "last") == "what"
    assert ask("commit", "check") == "0 @ 0 0" and DRIVE.store.count == 0
    assert ask("ticket 0") == "0 0 0"
    ask("fresh o 2 0 2 0", "insert 1 2 3", "build 0", "build 3 1 2 3", "find o 2 0 2 0 1")
    comment("and so it is on the way back; a setting of the layout that is there changes nothing")
    show(six(built(A)))
    assert ask("version 7", "layout 6", "remove 0", "layout 6", "last") == "8 0"
    ask("commit", "check", "ticket 0", "layout 7", "check", "remove 0")
    assert ask("layout 8", "last") == "what"
    ask("commit", "check", "ticket 0", "layout 6", "commit", "check")
    comment("bytes have no layout: those that were given stay, and those that a request left are taken")
    ask("bytes 2 165 90", "bset 16 1 1", "layout 8", "bget 16 1", "bset 16 1 1", "layout 6", "commit", "bget 16 1", "bset 16 3 1", "layout 8", "layout 6", "commit", "bget 16 3")


def examples():
    comment("store A in six words; the words of an emptied slot")
    a = six(built(A))
    show(a)
    assert ask("check") == "0 @ 0 0"
    for slot in range(5):
        assert ask("remove %d" % slot).split(" @ ")[1].count("28 0 29 %d" % EMPTY) == 1
    ask("remove 5", "remove %d" % U)
    while DRIVE.store.count:
        assert ask("remove %d" % (DRIVE.store.count - 1), "commit") is None and link(DRIVE.store, DRIVE.store.count) == EMPTY
        ask("check")
    comment("its words read as eight words a node, and those of eight as six")
    ask("layout 8")
    show(a)
    ask("check", "layout 6")
    show(built(A))
    ask("check", "remove 0")


def tops_below():
    a = six(built(A))
    comment("each top bit of each slot below the count")
    for slot in range(5):
        for bit in range(48, 64):
            show(linked(a, slot, link(a, slot) + 2**bit))
            assert ask("check") == "2 @ 0 0"
    comment("all 64 bits of a root's links, all 32 from its parent up, and the 48 that it may have")
    for s in six(built([10, 20, 1])), a:
        for word in TOP, link(s, s.root) // 2**16 % 2**16 * 2**16 + 2**64 - 2**32, link(s, s.root) % 2**48:
            show(linked(s, s.root, word))
            ask("check", "drain o 2 0 2 0 %d 1 0 5 5" % s.root)
    comment("one top bit, in every request: a build and a load look at no store, and clear it below the new count")
    show(linked(six(built(A), slots=1), 3, link(a, 3) + 2**63))
    data = model.image_of(built(A))
    ask(*("remove 0", "remove 9", "insert 1 2 3", "insert 2 1 3", "fresh o 2 0 2 0", "fresh e 10 20", "fresh e 20 10", "step o 2 0 2 0 2 1 0", "step r 2 1 5 2 0 2 1 0",
          "step e 10 20 0 1 0", "drain o 0 20 1 25 2 1 0 5 5", "drain r 3 2 0 2 0 2 1 0 5 5", "plain o 2 0 2 0 5", "find o 2 0 2 0 5", "find r 2 2 0 2 0 5", "ticket 3",
          "read 3 0", "read 3 1", "write 225", "checkd", "point 10", "insertd 70 80 3", "removed 0", "unload o 0 20 1 25", "unload r 3 2 0 2 0",
          "propose 5", "propose 4", "renumber 5 0 1 2 3 4", "renumber 0"))
    assert ask("build 15 " + " ".join(map(str, A))).split(" @ ")[1].count("23 ") == 1
    ask("build 6 1 2 3 2 3 4", "commit", "check", "insert 5 6 7", "commit", "insert 7 8 9", "commit", "check")
    show(linked(six(built(A), slots=1), 3, link(a, 3) + 2**63))
    ask("bytes %d " % len(data) + " ".join(map(str, data)), "load 3", "commit", "check")
    comment("a count above the capacity comes first")
    s = linked(six(built(A)), 3, TOP)
    s.count = 6
    show(s)
    ask("check", "insert 1 2 3", "remove 0")
    comment("a link of 65534, and one at the count, in each of the three places")
    for slot in range(5):
        for k in range(3):
            for to in 65534, 5:
                links = link(a, slot)
                show(linked(a, slot, links + (to - links // 65536**k % 65536) * 65536**k))
                assert ask("check") == "2 @ 0 0"


def tops_above():
    comment("each top bit of a slot at the count; the slot after it has another one")
    for bit in range(48, 64):
        s = linked(six(built(A), slots=2), 5, EMPTY + 2**bit)
        show(linked(s, 6, 2**(bit ^ 7)))
        assert ask("check") == "0 @ 0 0"
        assert " 35 " not in ask("remove 1").split(" @ ")[1]
        answer = ask("insert 30 35 6")
        assert " 41 " not in answer.split(" @ ")[1] and answer.startswith("0 ")
        ask("commit", "check")
        assert link(DRIVE.store, 5) < 2**48 and link(DRIVE.store, 6) == 2**(bit ^ 7)
    comment("all bits of all words from the count up: every request leaves them but for the slots that it fills")
    s = six(built(A), [TOP] * 5, 3, TOP)
    show(s)
    ask("check", "remove 0", "remove 4", "drain o 2 0 2 0 2 1 0 5 5", "plain r 1 2 0 2 0 5", "find r 2 1 20 2 0 5", "read 4 0", "write 225", "unload o 2 0 2 0",
        "propose 5", "renumber 5 4 3 2 1 0", "build 6 1 2 3 2 3 4", "commit", "check")
    show(s)
    for text in "insert 50 55 6", "remove 2", "insert 0 1 7", "insert 90 91 8", "insert 10 20 9", "insert 11 12 10", "remove 0", "renumber 7 6 3 1 0 2 4 5", \
            "unload o 0 0 1 12", "unload r 2 1 40 2 0":
        ask(text, "last", "commit", "check")
        assert all(link(DRIVE.store, slot) in (TOP, EMPTY) for slot in range(DRIVE.store.count, 8)) and DRIVE.store.words[48:] == [TOP] * 5


def rooms():
    comment("room: six words a slot, up to five more of no use, and one word too few")
    for words in 17, 18, 19, 23, 24:
        show(model.Store(0, U, [TOP] * words, [255]))
        ask("build 9 1 2 3 2 3 4 3 4 5", "commit", "check", "insert 1 2 3")
    for words in 29, 30, 31, 35, 36:
        s = six(built(A), [TOP] * 6)
        s.words = s.words[:words]
        show(s)
        ask("check", "insert 1 2 3", "remove 4")
    comment("five words hold no slot; the ninth entry's colour bit has no byte")
    show(model.Store(0, U, [1] * 5, [0]))
    ask("insert 1 2 3", "build 3 1 2 3", "build 0")
    show(model.Store(0, U, [1] * 54, [0]))
    ask("build 27 " + " ".join(map(str, entries(9))), "build 24 " + " ".join(map(str, entries(8))), "commit", "check", "insert 1 2 3")


def images():
    comment("images written from six words and loaded into eight, and back: the same bytes")
    for numbers in A, B, [], entries(9):
        wide, n = built(numbers), len(numbers) // 3
        length = model.image_length(n)
        show(six(wide, slots=1, link=TOP))
        ask("write %d" % (length - 1))
        first = ask("write %d" % length)
        ask("layout 8", "commit")
        show(model.Store(7, 7, [777] * (8 * n + 8), [255] * (n // 8 + 1)))
        assert ask("load 6").startswith("0 %d %d 7 @" % (n, wide.root))
        assert ask("commit", "check") == "0 @ 0 0" and DRIVE.store.words[:8 * n] == wide.words
        assert ask("write %d" % length) == first
        ask("layout 6", "commit")
        show(model.Store(7, 7, [TOP] * (6 * n + 11), [255] * (n // 8 + 1)))
        assert ask("load %d" % U).startswith("0 %d %d 0 @" % (n, wide.root))
        assert ask("commit", "check") == "0 @ 0 0" and DRIVE.store.words == packed.packed(wide.words) + [TOP] * 11
        assert ask("write %d" % length) == first
        ask("ticket 0", "read 0 0", "remove 0", "insert 1 2 3")
        if n:
            show(model.Store(7, 7, [TOP] * (6 * n - 1), [255] * (n // 8 + 1)))
            assert ask("load 0").startswith("1 0 %d 0 @" % U)
    comment("an image whose links 16 bits cannot hold")
    data = bytearray(model.image_of(built([10, 20, 1])))
    for at in 68, 72, 76:
        for to in 65534, 65535, 65536, 2**32 - 2:
            worse = data[:at] + to.to_bytes(4, "little") + data[at + 4:]
            show(model.Store(0, U, [TOP] * 6, [0]))
            assert ask("bytes %d " % len(worse) + " ".join(map(str, worse)), "load 0").startswith("2 ")


def by_chance():
    rng = random.Random(12)
    for disjoint in False, True:
        comment("changes one after the other" + ", of a map in which no two ranges overlap" * disjoint + "; what is past the count is any number")
        insert, remove, check = ("insertd", "removed", "checkd") if disjoint else ("insert", "remove", "check")
        show(model.Store(0, U, [rng.randrange(2**64) for _ in range(6 * 12 + 4)], [rng.randrange(256) for _ in range(2)]))
        for n in [12] * 26 + [0] * 22:
            count = DRIVE.store.count
            if rng.random() < (0.8 if n else 0.2):
                start = rng.randrange(70)
                text = "%s %d %d %d" % (insert, start, start + 1 + rng.randrange(9), rng.randrange(2**64))
            else:
                text = "%s %d" % (remove, rng.randrange(count + (count == 0)))
            ask(text, "commit")
        assert ask(check) == "0 @ 0 0"
        s = DRIVE.store
        root = s.root
        ask("insert 3 4 5", "insert 30 44 5", "commit", "check")
        for q in "o 0 20 1 41", "r 1 1 20 2 0", "r 2 1 20 2 0", "r 2 1 20 1 21", "r 3 2 0 2 0":
            ask("fresh " + q, f"step {q} {DRIVE.store.root} 1 0", f"drain {q} {DRIVE.store.root} 1 0 12 12", f"plain {q} 12", f"find {q} 12", f"step {q} {root} 1 1")
        ask("ticket 1", "read 1 %d" % DRIVE.store.version, "read 1 0", "read 12 %d" % DRIVE.store.version, "checkd", "point 20", "point 33", "fresh e 30 44", "plain e 30 44 12", "find e 30 44 12")


def again():
    """The requests before these lines. The model's answers, by unpacking and packing, are those
    that were recorded, packed."""
    comment("all requests before these, with each store in six words")
    folder = packed.TOP / "crates/drive"
    requests, answers = packed.read(folder / "stdin"), packed.read(folder / "stdout")
    requests = requests[:requests.index(BEGIN)] if BEGIN in requests else requests
    run, wanted = packed.Run(), True
    for text, answer in packed.paired(requests, iter(answers), more=True):
        if text.startswith("#"):
            wanted = text != LONG
        if wanted and not text.startswith("#"):
            run.line(text, answer)
    answers = iter(run.answers)
    for text in run.requests:
        answer = ask(text)
        assert answer is None or answer == next(answers)
    assert next(answers, None) is None


if __name__ == "__main__":
    settings()
    examples()
    tops_below()
    tops_above()
    rooms()
    images()
    by_chance()
    again()
    comment("and eight words again")
    ask("layout 8", "check")
