#!/usr/bin/env python3
"""What the program `drive` should answer to the lines on standard input, by tests/model.py and
docs/DRIVE.md and not by its code. crates/drive/stdout is its output for crates/drive/stdin."""
import re
import sys

import model

U = model.U
MOST_WORDS, MOST_COLOURS, MOST_BYTES, MOST_LIST, MOST_ROOM = 32768, 512, 16384, 12288, 4096


class What(Exception):
    """The line fits nothing."""


def fits(condition):
    if not condition:
        raise What


class Numbers:
    """The tokens after a name, taken from the front; `end` is where none may be left."""

    def __init__(self, tokens):
        self.tokens = tokens

    def one(self, below=2**64):
        fits(self.tokens and re.fullmatch("[0-9]+", self.tokens[0]))
        n = int(self.tokens.pop(0))
        fits(n < below)
        return n

    def list(self, most, below=2**64):
        n = self.one()
        fits(n <= most)
        return [self.one(below) for _ in range(n)]

    def query(self):
        fits(self.tokens and self.tokens[0] in ("o", "e", "r"))
        kind = self.tokens.pop(0)
        if kind == "e":
            return kind, self.one(), self.one()
        query = (kind, self.one()) if kind == "r" else (kind,)
        for _ in range(2):
            bound, x = self.one(3), self.one()
            fits(bound < 2 or x == 0)
            query += bound, x
        return query

    def cursor(self):
        return self.one(), self.one(), self.one()

    def end(self):
        fits(not self.tokens)


def changes(old, new):
    places = [i for i in range(len(old)) if old[i] != new[i]]
    return " ".join(map(str, [len(places)] + [x for i in places for x in (i, new[i])]))


BIT_CALLS = {"bget": "i", "bset": "iv", "bpush": "v", "bpop": "", "bswap": "i", "bfrom": "v"}
STACK_CALLS = "spush spop sleft smatch sright scanleft scanmatch scanright sempty".split()


class Drive:
    def __init__(self):
        self.store = model.Store(0, U, [], [])
        self.bytes = []
        self.left = {}
        self.narrow = False

    def do_store(self, numbers):
        store = model.Store(numbers.one(), numbers.one(), numbers.list(MOST_WORDS), numbers.list(MOST_COLOURS, 256))
        numbers.end()
        self.store = store

    def do_bytes(self, numbers):
        data = numbers.list(MOST_BYTES, 256)
        numbers.end()
        self.bytes = data

    def do_commit(self, numbers):
        numbers.end()
        vars(self).update(self.left)

    def do_layout(self, numbers):
        words = numbers.one()
        numbers.end()
        fits(words in (6, 8))
        if self.narrow != (words == 6):
            self.narrow = words == 6
            self.store = model.Store(0, U, [], [])
            self.left.pop("store", None)

    def on_store(self, call, *args):
        copy = self.store.copy()
        answer = model.in_six(call, copy, *args) if self.narrow else call(copy, *args)
        self.left = {"store": copy}
        return f"{answer} @ {changes(self.store.words, copy.words)} {changes(self.store.colours, copy.colours)}"

    def do_check(self, numbers):
        numbers.end()
        return self.on_store(model.refuse_store)

    def do_build(self, numbers):
        entries = numbers.list(MOST_LIST)
        numbers.end()
        return self.on_store(model.build, entries)

    def do_remove(self, numbers):
        slot = numbers.one()
        numbers.end()
        return self.on_store(model.remove, slot)

    def do_insert(self, numbers):
        entry = numbers.one(), numbers.one(), numbers.one()
        numbers.end()
        return self.on_store(model.insert, *entry)

    def do_unload(self, numbers):
        query = numbers.query()
        numbers.end()
        fits(query[0] != "e")
        return self.on_store(model.unload, query)

    def do_propose(self, numbers):
        room = numbers.one(MOST_ROOM + 1)
        numbers.end()
        return self.on_store(model.propose, room)

    def do_renumber(self, numbers):
        plan = numbers.list(MOST_LIST)
        numbers.end()
        return self.on_store(model.renumber, plan)

    def do_checkd(self, numbers):
        numbers.end()
        return self.on_store(model.check_disjoint)

    def do_point(self, numbers):
        address = numbers.one()
        numbers.end()
        return self.on_store(model.point, address)

    def do_insertd(self, numbers):
        entry = numbers.one(), numbers.one(), numbers.one()
        numbers.end()
        return self.on_store(model.insert_disjoint, *entry)

    def do_removed(self, numbers):
        slot = numbers.one()
        numbers.end()
        return self.on_store(model.remove_disjoint, slot)

    def do_version(self, numbers):
        version = numbers.one(2**32)
        numbers.end()
        self.store = self.store.copy()
        self.store.version = version

    def do_ticket(self, numbers):
        slot = numbers.one()
        numbers.end()
        return f"0 {slot} {self.store.version}"

    def do_read(self, numbers):
        ticket = numbers.one(), numbers.one(2**32)
        numbers.end()
        return self.on_store(model.read, *ticket)

    def do_last(self, numbers):
        numbers.end()
        fits("store" in self.left)
        return f"{self.left['store'].version} {self.left['store'].reach}"

    def do_fresh(self, numbers):
        query = numbers.query()
        numbers.end()
        if query[0] != "e":
            return f"0 {self.store.root} 1 0"
        store = model.unpacked(self.store) if self.narrow else self.store
        no = model.refuse_store(store) or model.refuse_query(query)
        return f"{no} {U} 0 0" if no else f"0 {model.first(store, query)} 1 0"

    def do_step(self, numbers):
        query, cursor = numbers.query(), numbers.cursor()
        numbers.end()
        return self.on_store(model.step, query, cursor)

    def do_drain(self, numbers):
        query, cursor, limit, room = numbers.query(), numbers.cursor(), numbers.one(), numbers.one(MOST_ROOM + 1)
        numbers.end()
        return self.on_store(model.drain, query, cursor, limit, room)

    def at_once(self, call, numbers):
        query, room = numbers.query(), numbers.one(MOST_ROOM + 1)
        numbers.end()
        return self.on_store(call, query, room)

    def do_plain(self, numbers):
        return self.at_once(model.plain, numbers)

    def do_find(self, numbers):
        return self.at_once(model.find_all, numbers)

    def do_write(self, numbers):
        room = numbers.one(MOST_BYTES + 1)
        numbers.end()
        out = [238] * room
        answer = self.on_store(lambda s: " ".join(map(str, [model.write_image(s, out), room, *out])))
        no, length = map(int, answer.split(" ")[:2])
        if no == 0:
            self.left = {"bytes": out[:length]}
        return answer

    def do_load(self, numbers):
        version = numbers.one(2**32)
        numbers.end()
        return self.on_store(model.read_image, version, self.bytes)

    def do_chost(self, numbers):
        address, k = numbers.one(), numbers.one()
        numbers.end()
        image = self.bytes
        answer = model.image_count(image, address), model.image_value(image, address, k), model.image_refusal(image, address, k)
        return self.on_store(lambda s: "%d %d %d" % answer)

    def bit_call(self, name, numbers):
        length = numbers.one()
        i = numbers.one() if "i" in BIT_CALLS[name] else 0
        v = numbers.one(2) if "v" in BIT_CALLS[name] else 0
        numbers.end()
        data = list(self.bytes)
        answer = model.bits(name, data, length, i, v)
        self.left = {"bytes": data}
        return f"{answer} @ {changes(self.bytes, data)}"

    def stack_call(self, name, numbers):
        levels, bits = numbers.one(), numbers.one()
        numbers.end()
        return model.stack(name, levels, bits)

    def line(self, text):
        name, *tokens = text.split(" ")
        numbers = Numbers(tokens)
        if name in BIT_CALLS:
            return self.bit_call(name, numbers)
        if name in STACK_CALLS:
            return self.stack_call(name, numbers)
        fits(hasattr(self, "do_" + name))
        return getattr(self, "do_" + name)(numbers)


def main():
    sys.setrecursionlimit(100000)
    drive = Drive()
    for text in sys.stdin.read().split("\n"):
        if text == "" or text.startswith("#"):
            continue
        try:
            answer = drive.line(text)
        except What:
            answer = "what"
        if answer is not None:
            print(answer)


if __name__ == "__main__":
    main()
