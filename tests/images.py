#!/usr/bin/env python3
"""Images by the words of document 02, item 6, and not by the code: docs/IMAGE.md has the format.

    images.py stdin     the input of the program `test_images`: crates/test_images/stdin is this
    images.py stdout    what it should print: crates/test_images/stdout is this
    images.py           says whether the two files are so, and exits 1 if not
"""
import pathlib
import sys

import model
from stores import A, B, built

CRATE = pathlib.Path(__file__).resolve().parent.parent / 'crates/test_images'
ROOM = 64


def balanced(n):
    return built([x for s in range(n) for x in (3 * s, 3 * s + 7, 2 ** 63 + s)])


def outcome(image):
    """The refusal's number, or 0 if it is accepted and written back to the same bytes, or 99."""
    target = model.Store(0, model.U, [7] * 8 * ROOM, [255] * (ROOM // 8))
    no = int(model.read_image(target, 0, image).split()[0])
    return no or (0 if model.image_of(target) == image else 99)


def tally(images):
    outcomes = [outcome(image) for image in images]
    return [outcomes.count(x) for x in (12, 1, 2, 0, 99)]


def flipped(image, k):
    out = bytearray(image)
    out[k // 8] ^= 1 << k % 8
    return bytes(out)


def line(image):
    flips = tally(flipped(image, k) for k in range(8 * len(image)))
    cuts = tally((image + b'\0')[:k] for k in range(len(image) + 2))
    return ' '.join(map(str, [len(image), *flips, *cuts])) + '\n'


def images():
    stores = [built([]), balanced(1), built(B), built(A), balanced(8), balanced(9), balanced(64), balanced(65)]
    return [model.image_of(s) for s in stores]


def main():
    stdin = ''.join(image.hex() + '\n' for image in images())
    if sys.argv[1:] == ['stdin']:
        sys.stdout.write(stdin)
        return 0
    stdout = ''.join(map(line, images()))
    if sys.argv[1:] == ['stdout']:
        sys.stdout.write(stdout)
        return 0
    wrong = [name for name, text in (('stdin', stdin), ('stdout', stdout)) if (CRATE / name).read_text() != text]
    print('images: %d images, %d files wrong' % (len(images()), len(wrong)))
    return 1 if wrong else 0


if __name__ == '__main__':
    sys.exit(main())
