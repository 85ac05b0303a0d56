#!/usr/bin/env python3
"""What the program `test_bits` should print, by tests/model.py and not by its code. The output is
crates/test_bits/stdout."""
import model

PATTERN = [165, 90, 15]
NAMES = {"get": "bget", "set": "bset", "push": "bpush", "pop": "bpop", "swap_remove": "bswap", "from_elem": "bfrom"}


def run(name, n, length, *args):
    data = PATTERN[:n]
    i, v = (list(args) + [0, 0])[:2] if name in ("get", "set", "swap_remove") else (0, args[0] if args else 0)
    answer = model.bits(NAMES[name], data, length, i, v)
    print(n, name, length, *args, ":", answer, "@", *data, *PATTERN[n:])


def places(n, length):
    for i in range(length + 1):
        run("get", n, length, i)


def edges(n, length):
    run("push", n, length, 0)
    run("push", n, length, 1)
    run("pop", n, length)
    if length:
        run("set", n, length, length - 1, 0)
        run("set", n, length, length - 1, 1)
        run("swap_remove", n, length, 0)
        run("swap_remove", n, length, length - 1)
    run("set", n, length, length, 1)
    run("swap_remove", n, length, length)
    run("from_elem", n, length, 0)
    run("from_elem", n, length, 1)


for n, length in (0, 0), (1, 1), (1, 7), (1, 8), (2, 9), (3, 24):
    places(n, length)
for n, length in ((0, 0), (3, 0), (1, 1), (1, 7), (1, 8), (2, 9), (2, 16), (3, 24), (0, 1), (1, 9), (2, 17), (3, 25),
                  (3, 2**64 - 1)):
    edges(n, length)
run("get", 1, 9, 0)
run("get", 3, 2**64 - 1, 0)
run("from_elem", 3, 10, 1)
