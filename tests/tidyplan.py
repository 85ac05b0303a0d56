#!/usr/bin/env python3
"""The programs `tidyplan` and `tidyapply` by docs/MANUAL.md, 'Tidy at night', and not by their
code.

    tidyplan.py           runs the two programs on images and plans, damaged ones too, and compares
                          what they write and say with this model; the programs must be built (rt
                          ci)
    tidyplan.py files     writes the files that `rt ci` runs the two programs on

The last line of a run is 'tidyplan: N passed, M failed'.
"""
import pathlib
import random
import re
import subprocess
import sys
import tempfile

import images
import imagetext
import model
from stores import A, B, built

TOP = pathlib.Path(__file__).resolve().parent.parent
U = model.U
MOST = 65535
LINE = re.compile(rb'([0-9]+) ([0-9]+)')
WHY = {1: b'it is longer than the image of 65,535 entries', 2: b'its store does not pass the check', 12: b'it has not the layout of an image'}


# ---- the model

def proposal(s):
    plan = [None] * s.count
    for place, slot in enumerate(model.in_order(s, s.root)):
        plan[slot] = place
    return plan


def text(plan):
    return b''.join(b'%d %d\n' % move for move in enumerate(plan))


def renumbered(s, plan):
    """A new store, with each node in the slot that the plan gives it."""
    t = model.Store(s.count, U if s.root == U else plan[s.root], [0] * len(s.words), [0] * len(s.colours))
    for slot in range(s.count):
        for word in range(8):
            x = s.get(slot, word)
            t.set(plan[slot], word, plan[x] if word in (model.LEFT, model.RIGHT, model.PARENT) and x != U else x)
        t.paint(plan[slot], s.red(slot))
    return t


def flaw(said, n):
    """The plan of a text, or what is wrong with it, first in line order."""
    lines = said.split(b'\n')
    if lines[-1] == b'':
        lines.pop()
    plan, by_old, by_new = [None] * n, {}, {}
    for number, line in enumerate(lines, 1):
        numbers = LINE.fullmatch(line)
        if numbers is None or max(map(int, numbers.groups())) >= 2 ** 64:
            return None, b'line %d: not two numbers with one space between them' % number
        old, new = map(int, numbers.groups())
        for slot in old, new:
            if slot >= n:
                return None, b'line %d: slot %d is not below the count, %d' % (number, slot, n)
        if old in by_old:
            return None, b'line %d: old slot %d is on line %d already' % (number, old, by_old[old])
        if new in by_new:
            return None, b'line %d: new slot %d is on line %d already' % (number, new, by_new[new])
        plan[old], by_old[old], by_new[new] = new, number, number
    if None in plan:
        return None, b'no line for old slot %d' % plan.index(None)
    return plan, None


def refused(name, image):
    """What a program says of an image that it cannot take; nothing if it can."""
    no = 1 if len(image) > model.image_length(MOST) else model.judge(image, MOST)[0]
    return b'%s: cannot take the image: refused %d, %s\n' % (name.encode(), no, WHY[no]) if no else b''


def planned(image):
    """What tidyplan writes, and what it says besides."""
    said = refused('tidyplan', image)
    return (b'', said) if said else (text(proposal(model.store_in(image))), b'')


def applied(image, said):
    """What tidyapply writes, and what it says besides."""
    wrong = refused('tidyapply', image)
    if wrong:
        return b'', wrong
    s = model.store_in(image)
    plan, why = flaw(said, s.count)
    if why:
        return b'', b'tidyapply: cannot take the plan: %s\n' % why
    return model.image_of(renumbered(s, plan)), b''


# ---- the programs

def runs(name, read, plan=None):
    """What a program writes for these bytes, and what it says besides; with a plan, if it takes
    one."""
    with tempfile.NamedTemporaryFile() as file:
        args = []
        if plan is not None:
            file.write(plan)
            file.flush()
            args = [file.name]
        run = subprocess.run(imagetext.command(name) + args, input=read, capture_output=True)
        return run.stdout, run.stderr


# ---- the cases

def grown(n, seed):
    """A map of n entries after insertions and removals, so that its slots are out of order."""
    chance = random.Random(seed)
    s = model.Store(0, U, [0] * 8 * (n + 30), [0] * ((n + 30 + 7) // 8))
    for k in range(n + 20):
        start = chance.randrange(200)
        model.insert(s, start, start + 1 + chance.randrange(40), k)
    while s.count > n:
        model.remove(s, chance.randrange(s.count))
    return s


def stores():
    return [built([]), built(B), built(A), images.balanced(9)] + [grown(n, n) for n in (1, 2, 3, 7, 8, 9, 40, 100)]


def plans(n):
    """Plans that are accepted: none moves, a reversal, a shift by one, exchanges, any."""
    chance = random.Random(n)
    yield list(range(n))
    yield list(range(n))[::-1]
    yield [(k + 1) % n for k in range(n)]
    yield [k ^ 1 if k ^ 1 < n else k for k in range(n)]
    yield chance.sample(range(n), n)


def retold(said):
    """The same plan in other words: lines in another order, zeros in front, no last LF."""
    lines = said.split(b'\n')[:-1]
    yield b''.join(line + b'\n' for line in lines[::-1])
    yield b''.join(line + b'\n' for line in random.Random(5).sample(lines, len(lines)))
    yield b''.join(b'000' + line.replace(b' ', b' 0') + b'\n' for line in lines)
    yield said[:-1]
    yield b''.join(b'0' * 70000 + line + b'\n' for line in lines[:2]) + b''.join(line + b'\n' for line in lines[2:])


def spoiled(said):
    """A line left out, doubled, emptied, with another word; rubbish before, after and inside."""
    lines = said.split(b'\n')[:-1]
    n = len(lines)
    words = [b'', b'x', b'-', b'-1', b'+1', b'1.0', b'0x1', b'%d' % n, b'%d' % (n + 1), b'4294967295', b'18446744073709551615',
             b'18446744073709551616', b'1' + b'0' * 60, b'\0', b'\xff', b'1 ', b' 1', b'1 1']
    for i in {0, n // 2, n - 1}:
        old, new = lines[i].split(b' ')
        puts = [[], [lines[i]] * 2, [b''], [lines[i] + b' '], [b' ' + lines[i]], [lines[i] + b'\r'], [lines[i] + b' 0'], [b'# ' + lines[i]],
                [old + b'\t' + new], [old + b'  ' + new], [old], [b'%s %d' % (old, (int(new) + 1) % n)], [b'%d %s' % ((int(old) + 1) % n, new)]]
        puts += [[b'%s %s' % (old, word)] for word in words] + [[b'%s %s' % (word, new)] for word in words]
        for put in puts:
            yield b''.join(line + b'\n' for line in lines[:i] + put + lines[i + 1:])
    for more in b'\n', b'\n\n', b'0', b'0 ', b'0 0', b'%d %d\n' % (n, n), b'\0', b'\xff\xfe\n', bytes(range(256)):
        yield said + more
        yield more + said
    yield b''
    yield said.replace(b'\n', b'\r\n')
    yield random.Random(9).randbytes(3000)


def cases():
    """Program, image, plan, what is expected."""
    for s in stores():
        image = model.image_of(s)
        yield 'tidyplan', image, None, planned(image)
        tidy, _ = applied(image, planned(image)[0])
        yield 'tidyapply', image, planned(image)[0], (tidy, b'')
        # tidied: nothing moves, and the entries in tree order are the same
        yield 'tidyplan', tidy, None, (text(range(s.count)), b'')
        for plan in plans(s.count) if s.count else []:
            yield 'tidyapply', image, text(plan), (model.image_of(renumbered(s, plan)), b'')
    s = grown(9, 3)
    image, said = model.image_of(s), text(proposal(s))
    for other in retold(said):
        yield 'tidyapply', image, other, applied(image, said)
    for other in spoiled(said):
        yield 'tidyapply', image, other, applied(image, other)
    for bad in imagetext.damaged(image):
        yield 'tidyplan', bad, None, planned(bad)
        yield 'tidyapply', bad, said, applied(bad, said)
    empty = model.image_of(built([]))
    for other in b'', b'\n', b'0 0\n', b'x':
        yield 'tidyapply', empty, other, applied(empty, other)


def large_cases():
    """65,535 entries, the most that a map has, and one more."""
    s = images.balanced(MOST)
    shift = [(k + 1) % MOST for k in range(MOST)]
    image = model.image_of(s)
    moved = model.image_of(renumbered(s, shift))
    yield 'tidyplan', image, None, (text(range(MOST)), b'')
    yield 'tidyapply', image, text(shift), (moved, b'')
    yield 'tidyplan', moved, None, (text([(k - 1) % MOST for k in range(MOST)]), b'')
    yield 'tidyapply', moved, text([(k - 1) % MOST for k in range(MOST)]), (image, b'')
    yield 'tidyapply', image, text(shift)[:-12], applied(image, text(shift)[:-12])
    yield 'tidyapply', image, text(shift) + b'0 0\n', applied(image, text(shift) + b'0 0\n')
    for more in image + b'\0', bytes(3000000):
        yield 'tidyplan', more, None, (b'', refused('tidyplan', more))
        yield 'tidyapply', more, b'', (b'', refused('tidyapply', more))


def same_entries():
    """That a renumbered image has the same entries in tree order, which the model here does not
    use."""
    wrong = 0
    for s in stores():
        told = [[t.key(slot) + (t.get(slot, model.VALUE),) for slot in model.in_order(t, t.root)]
                for t in [s] + [model.store_in(model.image_of(renumbered(s, plan))) for plan in plans(s.count) if s.count]]
        wrong += any(x != told[0] for x in told)
    return wrong


def example():
    """The map of the files, and its plan."""
    s = built(A, 16, 1)
    model.insert(s, 12, 18, 6)
    model.insert(s, 27, 33, 7)
    model.remove(s, 1)
    return s


def files():
    s = example()
    image, said = model.image_of(s), text(proposal(s))
    return {'tidyplan/stdin': image, 'tidyplan/stdout': said, 'tidyapply/stdin': image, 'tidyapply/data/plan': said,
            'tidyapply/args': b'plan\n', 'tidyapply/stdout': applied(image, said)[0]}


def main(args):
    if args == ['files']:
        for name, content in files().items():
            (TOP / 'crates' / name).parent.mkdir(exist_ok=True)
            (TOP / 'crates' / name).write_bytes(content)
        return 0
    if args:
        sys.exit(__doc__)
    passed = failed = 0
    for name, content in files().items():
        if (TOP / 'crates' / name).read_bytes() != content:
            failed += 1
            print('tidyplan: crates/%s is not what tests/tidyplan.py files writes' % name)
    for make in cases, large_cases:
        for name, read, plan, expected in make():
            got = runs(name, read, plan)
            if got == expected:
                passed += 1
            else:
                failed += 1
                print('tidyplan: %s of %r with %r writes %r and says %r, and not %r' % (
                    name, read[:60], plan and plan[:200], got[0][:200], got[1][:200], tuple(x[:200] for x in expected)))
    wrong = same_entries()
    failed += wrong
    print('tidyplan: %d passed, %d failed' % (passed, failed))
    return 1 if failed or not passed else 0


if __name__ == '__main__':
    sys.exit(main(sys.argv[1:]))
