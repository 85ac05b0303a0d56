#!/usr/bin/env python3
"""The rules of ranges in tests/model.py, held to their words. By rule 2 the model looks at a few
addresses; here every address is tried. The numbers of the bounds and of the intervals are the
first eight and the last eight, in every combination."""
import model

LEAST, GREATEST = 0, 2**64 - 1


def lies_in(a, low, x, high, y):
    above = {0: x <= a, 1: x < a, 2: True}[low]
    below = {0: a <= y, 1: a < y, 2: True}[high]
    return above and below


def ranges(numbers):
    bounds = [(kind, x) for kind in (0, 1) for x in numbers] + [(2, 0)]
    return [lo + hi for lo in bounds for hi in bounds]


def compared(numbers, addresses):
    """How many queries are accepted by rule 2, and how many hits they have."""
    accepted = hits = 0
    intervals = [(start, end) for start in numbers for end in numbers if start < end]
    for bounds in ranges(numbers):
        held = [a for a in addresses if lies_in(a, *bounds)]
        assert model.refuse_query(("r", 2) + bounds) == (0 if held else 4), bounds
        assert model.refuse_query(("r", 1) + bounds) == model.refuse_query(("o",) + bounds), bounds
        assert all(model.refuse_query(("r", rule) + bounds) == 4 for rule in (0, 3, 2**32 + 1, GREATEST)), bounds
        # a range that rule 2 accepts is accepted by rule 1
        assert not held or model.refuse_query(("o",) + bounds) == 0, bounds
        accepted += bool(held)
        for start, end in intervals if held else []:
            shared = any(start <= a < end for a in held)
            by_1, by_2 = (model.intersects(("r", rule) + bounds, (start, end)) for rule in (1, 2))
            assert by_2 == shared and by_1 == model.intersects(("o",) + bounds, (start, end)), (bounds, start, end)
            # rule 2 finds nothing that rule 1 does not find, and they differ only past an Excluded
            # lower bound
            assert by_1 >= by_2 and (by_1 == by_2 or bounds[0] == 1), (bounds, start, end)
            hits += shared
    return accepted, hits


if __name__ == "__main__":
    low = list(range(LEAST, LEAST + 8))
    high = list(range(GREATEST - 7, GREATEST + 1))
    # past the greatest of the numbers there is one address more that counts, and before the least
    # one of them
    found = [compared(low, low + [8]), compared(high, [high[0] - 1] + high)]
    print("ranges:", ", ".join("%d ranges with %d hits" % pair for pair in found))
