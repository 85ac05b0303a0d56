#!/usr/bin/env python3
"""trials.py [SEED]: gives the program `drive` more lines than are recorded, made by chance from the
seed, 1 if none is given, and compares its answers with the model's (tests/model.py). The same lines
go to it once more with nodes of six words. DRIVE names another command than ./run drive. It exits
with 1 if an answer differs.

- 200 stores of up to 60 entries: two ranges are unloaded in both orders, and the same entries are
  left in the same tree order.
- 40 such stores: a range is unloaded, and is held against removals of its first hit, one after the
  other.
- Every red-black tree of up to 5 nodes, of up to 6 if the variable ALL is set: it is renumbered in
  every way.
- 40 stores of up to 60 entries after 100 removals and insertions: each is renumbered by chance and
  then to tree order, and drains before and after find the same entries."""
import contextlib
import io
import itertools
import os
import random
import shlex
import subprocess
import sys

import asking
import packed
import tidy_lines
import unload_lines
from reach_lines import tree


def unloads(rng):
    for _ in range(200):
        s, wide = unload_lines.by_chance(rng, 60)
        unload_lines.both_orders(s, unload_lines.two_ranges(rng, wide))
    for _ in range(40):
        s, wide = unload_lines.by_chance(rng, 60)
        unload_lines.by_removals(s, unload_lines.two_ranges(rng, wide)[0])


def shapes(nodes, blacks, red):
    """The trees of so many nodes with so many black ones on each way down, as reach_lines.tree
    takes them. A root may be red."""
    if nodes == 0:
        return [None] if blacks == 0 else []
    found = []
    for colour in "br" if red else "b":
        for left in range(nodes):
            sides = [shapes(n, blacks - (colour == "b"), colour == "b") for n in (left, nodes - 1 - left)]
            found += [(a, colour, b) for a, b in itertools.product(*sides)]
    return found


def permutations(most):
    for nodes in range(1, most + 1):
        for blacks in range(1, nodes + 1):
            for shape in shapes(nodes, blacks, False):
                asking.show(tree(shape))
                for plan in itertools.permutations(range(nodes)):
                    asking.ask("renumber %d %s" % (nodes, " ".join(map(str, plan))))


def renumberings(rng):
    permutations(6 if os.environ.get("ALL") else 5)
    for _ in range(40):
        tidy_lines.rearranged(*tidy_lines.scattered(rng, 60))


def answered(requests):
    """What the program answers."""
    command = shlex.split(os.environ.get("DRIVE", "")) or [str(packed.TOP / "run"), "drive"]
    text = "".join(line + "\n" for line in requests)
    return subprocess.run(command, input=text, stdout=subprocess.PIPE, text=True, check=True).stdout.split("\n")[:-1]


def compare(settings, requests, expected):
    """After the settings. Shows the first difference, as the store line, the request and both
    answers."""
    answers, store = answered(settings + requests), ""
    if len(expected) != len(answers):
        sys.exit(f"trials: {len(answers)} answers to {len(expected)} requests")
    for text, both in packed.paired(requests, zip(expected, answers)):
        store = text if text.startswith("store ") else store
        if both and both[0] != both[1]:
            sys.exit("trials: an answer differs\n%s\n%s\nmodel: %s\ndrive: %s" % (store, text, *both))


def main():
    rng = random.Random(int(sys.argv[1]) if sys.argv[1:] else 1)
    lines = io.StringIO()
    with contextlib.redirect_stdout(lines):
        unloads(rng)
        renumberings(rng)
    requests, expected = lines.getvalue().split("\n")[:-1], asking.ANSWERS
    six = packed.run_of(requests, expected)
    compare([], requests, expected)
    compare([packed.BEGIN], six.requests, six.answers)
    print(f"trials: {len(expected)} answers, and {len(six.answers)} in six words, are the model's")


if __name__ == "__main__":
    main()
