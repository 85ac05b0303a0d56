#!/usr/bin/env python3
"""The programs `imagetext` and `textimage` by docs/IMAGE.md, 'As text', and not by their code.

    imagetext.py          runs the two programs on images and texts, damaged ones too, and compares
                          what they write with this model; the programs must be built (rt ci)
    imagetext.py print    what imagetext prints for the image on standard input
    imagetext.py image    what textimage writes for the text on standard input

The last line of a run is 'imagetext: N passed, M failed'.
"""
import pathlib
import re
import subprocess
import sys

import images
import model
from stores import A, built

TOP = pathlib.Path(__file__).resolve().parent.parent
U = model.U
MOST = 14000
NUMBER, LINK = rb'[0-9]+', rb'(-|[0-9]+)'
HEAD = re.compile(rb'count (%s) root %s' % (NUMBER, LINK))
ROW = re.compile(rb'(%s) (%s) (%s) (%s) %s %s %s (red|black)' % (NUMBER, NUMBER, NUMBER, NUMBER, LINK, LINK, LINK))


def refused(no):
    return b'refused %d\n' % no


def number(image):
    """The refusal of an image, 0 if it is accepted."""
    return model.judge(image, MOST)[0]


def link(k):
    return b'-' if k == U else b'%d' % k


def text(s):
    """A map as text."""
    lines = [b'count %d root %s' % (s.count, link(s.root))]
    for slot in range(s.count):
        words = [slot] + [s.get(slot, k) for k in (model.START, model.END, model.VALUE)]
        links = [s.get(slot, k) for k in (model.LEFT, model.RIGHT, model.PARENT)]
        lines.append(b' '.join([b'%d' % x for x in words] + [link(k) for k in links] + [b'red' if s.red(slot) else b'black']))
    return b''.join(line + b'\n' for line in lines)


def shown(image):
    """What imagetext prints."""
    if len(image) > model.image_length(MOST):
        return refused(1)
    no = number(image)
    return refused(no) if no else text(model.store_in(image))


def given(said):
    """What textimage writes."""
    lines = said.split(b'\n')
    if lines[-1] == b'':
        lines.pop()
    head = HEAD.fullmatch(lines[0]) if lines else None
    if head is None:
        return refused(8)
    n, root = small(head[1]), small(head[2])
    if n is None or root is None:
        return refused(8)
    if n > MOST:
        return refused(1)
    rows = lines[1:]
    if len(rows) != n:
        return refused(8)
    s = model.Store(n, root, [], [0] * ((n + 7) // 8))
    for slot, line in enumerate(rows):
        row = ROW.fullmatch(line)
        if row is None:
            return refused(8)
        numbers = [int(x) for x in row.group(2, 3, 4)]
        links = [small(x) for x in row.group(5, 6, 7)]
        if small(row[1]) != slot or None in links or max(numbers) >= 2 ** 64:
            return refused(8)
        s.words += numbers + [0, 0] + links
        s.paint(slot, row[8] == b'red')
    image = model.image_of(s)
    no = number(image)
    return refused(no) if no else image


def small(word):
    """A slot, a count or a link, or None if the number is too great to be one."""
    if word == b'-':
        return U
    return int(word) if int(word) < U else None


# ---- the cases

def damaged(image):
    """Some bits flipped, all over the image; some lengths."""
    for k in sorted(set(range(0, 8 * len(image), max(1, 8 * len(image) // 11))) | {0, 8 * len(image) - 1}):
        yield images.flipped(image, k)
    for n in sorted({0, 1, 43, 44, len(image) - 1}):
        if n < len(image):
            yield image[:n]
    yield image + b'\0'


def spaced(said):
    """Each space left out, and each doubled."""
    for i, b in enumerate(said):
        if b == 32:
            yield said[:i] + said[i + 1:]
            yield said[:i] + b' ' + said[i:]


def reworded(said):
    """Each word in the place of another: numbers at their limits, names, nothing."""
    others = [b'', b'x', b'-', b'red', b'black', b'root', b'0', b'1', b'3', b'0007', b'+1', b'1x', b'4294967294',
              b'4294967295', b'4294967296', b'18446744073709551615', b'18446744073709551616', b'1' + b'0' * 60]
    lines = said.split(b'\n')
    for i in range(min(3, len(lines) - 1)):
        words = lines[i].split(b' ')
        for j in range(len(words)):
            for other in others:
                row = b' '.join(words[:j] + [other] + words[j + 1:])
                yield b'\n'.join(lines[:i] + [row] + lines[i + 1:])


def relined(said):
    """Lines left out, doubled, exchanged, emptied; other ends."""
    lines = said.split(b'\n')[:-1]
    for i in range(len(lines)):
        for put in [], [lines[i]] * 2, [b''], [lines[i] + b' '], [b' ' + lines[i]], [lines[i] + b'\r'], [lines[i] + b' 1'], [lines[i], b'']:
            yield b'\n'.join(lines[:i] + put + lines[i + 1:]) + b'\n'
    for i in range(1, len(lines) - 1):
        yield b'\n'.join(lines[:i] + [lines[i + 1], lines[i]] + lines[i + 2:]) + b'\n'
    yield said[:-1]
    yield said[:-2]
    for more in b'\n', b' ', b'x', b'0', b'\0', b'5 60 70 6 - - 4 red\n':
        yield said + more


ODD = [
    b'', b'\n', b' ', b'count', b'count 0', b'count 0 root', b'count 0 root ', b'count 0 root -', b'count 0 root -\n', b'count 0 root 0\n',
    b'count 00 root -\n', b'count 0 root - -\n', b'count - root -\n', b'Count 0 root -\n', b'count\t0 root -\n', b'count 0\nroot -\n',
    b'\0count 0 root -\n', b'c\0ount 0 root -\n', b'countcountcount 0 root -\n', b'count 14001 root 7\n', b'count 14001 root x\n',
    b'count 14001\n', b'count 4294967294 root 0\n', b'count 4294967295 root 0\n', b'count 65535 root 0\nx\n',
    b'count 1 root 0\n0 1 2 3 - - - \0red\n', b'count 1 root 0\n0 1 2 3 - - - redd\n', b'count 1 root 0\n0 1 2 3 - - - Red\n',
    b'count 1 root 0\n0 1 2 3 - - - blackblack\n', b'count 1 root 0\n0 1 2 3 \0- - - black\n', b'count 1 root 0\n0 1 2 3 -- - - black\n',
    b'count 1 root 0\n0 1 2 3 - - - \xf2ed\n', b'count 01 root 000\n00 01 02 03 - - - black', b'count 1 root 0\n0 2 2 3 - - - black\n',
    b'count 1 root 0\n0 1 2 3 - - - red\n', b'count 1 root -\n0 1 2 3 - - - black\n', b'count 1 root 0\n0 1 2 3 0 - - black\n',
]


def command(name):
    """How a proved program is started."""
    return [str(TOP / 'crates' / name / 'out' / name)]


def runs(name, text, pieces=0):
    """What a program writes for these bytes, given whole or in pieces; and what it says besides."""
    if not pieces:
        run = subprocess.run(command(name), input=text, capture_output=True)
        return run.stdout, run.stderr
    with subprocess.Popen(command(name), stdin=subprocess.PIPE, stdout=subprocess.PIPE, stderr=subprocess.PIPE, bufsize=0) as run:
        for i in range(0, len(text), pieces):
            run.stdin.write(text[i:i + pieces])
        return run.communicate()


def cases():
    """Program, input, what is expected, how many bytes at a time."""
    whole = images.images()
    for image in whole:
        yield 'imagetext', image, shown(image), 0
        yield 'textimage', shown(image), image, 0
        for bad in damaged(image):
            yield 'imagetext', bad, shown(bad), 0
            if number(bad) == 0:
                yield 'textimage', shown(bad), bad, 0
    a = model.image_of(built(A))
    yield 'imagetext', a, shown(a), 7
    yield 'textimage', shown(a), a, 7
    for make in spaced, reworded, relined:
        for said in make(shown(a)):
            yield 'textimage', said, given(said), 0
    for said in ODD:
        yield 'textimage', said, given(said), 0
    most, more = (images.balanced(n) for n in (MOST, MOST + 1))
    image, said = model.image_of(most), text(most)
    yield 'imagetext', image, said, 0
    yield 'textimage', said, image, 4093
    yield 'imagetext', image + b'\0', refused(1), 0
    yield 'imagetext', model.image_of(more), refused(1), 0
    yield 'textimage', text(more), refused(1), 0


def main(args):
    out = sys.stdout.buffer
    if args == ['print']:
        out.write(shown(sys.stdin.buffer.read()))
    elif args == ['image']:
        out.write(given(sys.stdin.buffer.read()))
    elif args:
        sys.exit(__doc__)
    else:
        passed = failed = 0
        numbers = {}
        for name, read, expected, pieces in cases():
            wrote, said = runs(name, read, pieces)
            first = expected.split(b'\n')[0].decode('latin-1') if expected.startswith(b'refused ') else 'accepted'
            numbers[name, first] = numbers.get((name, first), 0) + 1
            if (wrote, said) == (expected, b''):
                passed += 1
            else:
                failed += 1
                print('imagetext: %s of %r writes %r and says %r, and not %r' % (name, read[:300], wrote[:300], said[:100], expected[:300]))
        for (name, what), count in sorted(numbers.items()):
            print('imagetext: %s %s: %d' % (name, what, count))
        print('imagetext: %d passed, %d failed' % (passed, failed))
        sys.exit(1 if failed or not passed else 0)


if __name__ == '__main__':
    main(sys.argv[1:])
