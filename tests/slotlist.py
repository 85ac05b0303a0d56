#!/usr/bin/env python3
"""The program `slotlist` by document 01's words and tests/model.py, and not by its code.

    slotlist.py print            what slotlist prints for standard input
    slotlist.py cases stdin      the input of the program `test_slotcases`: crates/test_slotcases/stdin is this
    slotlist.py cases stdout     what it should print: crates/test_slotcases/stdout is this
    slotlist.py files FOLDER     each case as NAME.in and NAME.out, with the large ones, for tests/slotlist.sh
"""
import os
import re
import sys

import model

MOST = 256


def answer(text):
    """What slotlist prints for these bytes."""
    lines = text.split(b"\n")
    if lines[-1] == b"":
        lines.pop()
    entries, store = [], None

    def built():
        s = model.Store(0, model.U, [0] * (8 * MOST), [0] * (MOST // 8))
        no = int(model.build(s, [x for e in entries for x in e]).split()[0])
        return no, s

    for line in lines:
        # 21 digits are enough to see that a number is above 64 bits
        numbers = [int(x.lstrip(b"0")[:21] or b"0") for x in re.findall(rb"[0-9]+", line)]
        small = all(x < 2**64 for x in numbers)
        if re.fullmatch(rb"[0-9]+ [0-9]+ [0-9]+", line) and small and store is None:
            if len(entries) == MOST:
                return refused(1)
            entries.append(numbers)
        elif re.fullmatch(rb"remove [0-9]+", line) and small:
            no = 0
            if store is None:
                no, store = built()
            no = no or int(model.remove(store, numbers[0]).split()[0])
            if no:
                return refused(no)
        else:
            return refused(8)
    if store is None:
        no, store = built()
        if no:
            return refused(no)
    root = "-" if store.root == model.U else store.root
    rows = [[slot] + store.words[8 * slot:8 * slot + 3] for slot in range(store.count)]
    return ("count %d root %s\n" % (store.count, root) + "".join("%d %d %d %d\n" % tuple(r) for r in rows)).encode()


def refused(no):
    return b"refused %d\n" % no


A = b"10 20 1\n10 30 2\n25 40 3\n40 50 4\n45 60 5\n"
TOP = 2**64 - 1


def entries(n):
    return b"".join(b"%d %d %d\n" % (5 * k, 5 * k + 12, k) for k in range(n))


def small_cases():
    """Name, input."""
    yield "example", A + b"remove 2\n"
    yield "nothing", b""
    yield "a", A
    yield "a_no_last_end", A[:-1]
    yield "remove_no_last_end", A + b"remove 0"
    for k in 0, 1, 3, 4:
        yield "a_remove_%d" % k, A + b"remove %d\n" % k
    yield "all_removed", A + b"remove 0\n" * 5
    yield "all_removed_from_above", A + b"".join(b"remove %d\n" % k for k in (4, 3, 2, 1, 0))
    yield "one_too_many_removed", A + b"remove 0\n" * 6
    yield "equal_ranges", b"5 9 1\n5 9 2\n5 9 3\nremove 0\nremove 1\n"
    # each refusal alone
    yield "no_such", A + b"remove 5\n"
    yield "no_such_undefined", A + b"remove 4294967295\n"
    yield "no_such_wide", A + b"remove 4294967296\n"
    yield "bad_interval", b"5 5 1\n"
    yield "bad_interval_at_remove", b"9 5 1\nremove 0\n"
    yield "not_sorted", b"5 9 1\n5 8 2\n"
    yield "not_sorted_at_remove", b"6 9 1\n5 90 2\nremove 0\n"
    yield "bad_list", b"5 9\n"
    yield "remove_first", b"remove 0\n"
    # two refusals in one input, in both orders; a build's refusal counts where it builds
    yield "bad_interval_then_no_such", b"5 5 1\nremove 9\n"
    yield "no_such_then_bad_list", A + b"remove 9\nremove\n"
    yield "bad_list_then_no_such", A + b"remove\nremove 9\n"
    yield "bad_interval_then_bad_list", b"5 5 1\nremove 0\nremove x\n"
    yield "bad_list_before_the_build", b"5 5 1\nremove x\n"
    yield "bad_list_before_the_end", b"5 5 1\nx\n"
    yield "not_sorted_and_bad_interval", b"6 9 1\n5 5 2\n"
    yield "bad_interval_and_not_sorted", b"9 6 1\n5 6 2\n"
    yield "not_sorted_then_entry_after", b"6 9 1\n5 9 2\nremove 0\n7 9 3\n"
    yield "entry_after_then_no_such", A + b"remove 0\n50 60 6\nremove 9\n"
    yield "no_such_then_entry_after", A + b"remove 9\n50 60 6\n"
    # other lines
    yield "entry_after_remove", A + b"remove 0\n50 60 6\n"
    yield "carriage_return", b"5 9 1\r\n"
    yield "tab", b"5\t9 1\n"
    yield "double_space", b"5  9 1\n"
    yield "leading_space", b" 5 9 1\n"
    yield "trailing_space", b"5 9 1 \n"
    yield "plus", b"+5 9 1\n"
    yield "minus", b"5 9 -1\n"
    yield "empty_line", b"5 9 1\n\n6 9 2\n"
    yield "empty_first_line", b"\n5 9 1\n"
    yield "only_a_line_end", b"\n"
    yield "empty_line_at_the_end", b"5 9 1\n\n"
    yield "four_numbers", b"5 9 1 2\n"
    yield "one_number", b"5\n"
    yield "letters", b"a b c\n"
    yield "a_letter_behind", b"5 9 1x\n"
    yield "zero_byte", b"5 9 1\0\n"
    yield "high_byte", b"5 9 \xb1\n"
    yield "remove_alone", A + b"remove\n"
    yield "remove_space", A + b"remove \n"
    yield "remove_double_space", A + b"remove  1\n"
    yield "remove_two", A + b"remove 1 2\n"
    yield "remove_trailing_space", A + b"remove 1 \n"
    yield "remove_sign", A + b"remove +1\n"
    yield "remove_glued", A + b"remove1\n"
    yield "remove_upper", A + b"Remove 1\n"
    yield "remove_short", A + b"remov 1\n"
    yield "removed", A + b"removed 1\n"
    yield "number_then_remove", A + b"1 remove 1\n"
    yield "unfinished_remove", A + b"remo"
    yield "unfinished_entry", A + b"50 60"
    # numbers
    yield "leading_zeros", b"00000000000000000000005 0009 01\n"
    yield "remove_leading_zeros", A + b"remove 0000000000000000000000000002\n"
    yield "zeros", b"0 1 0\n"
    yield "greatest", b"0 %d %d\n%d %d %d\n" % (TOP, TOP, TOP - 1, TOP, TOP)
    yield "greatest_start", b"%d %d 1\n" % (TOP, TOP)
    yield "one_above", b"0 %d 1\n" % (TOP + 1)
    yield "value_above", b"0 1 %d\n" % (TOP + 1)
    yield "ten_above", b"0 1 %d0\n" % TOP
    yield "remove_greatest", A + b"remove %d\n" % TOP
    yield "remove_above", A + b"remove %d\n" % (TOP + 1)
    yield "many_digits", b"0 1 1%s\n" % (b"0" * 60)
    # the greatest number of entries
    yield "entries_256", entries(256)
    yield "entries_256_removed", entries(256) + b"remove 0\nremove 100\n"
    yield "entries_257", entries(257)
    yield "entries_257_improper", entries(256) + b"9 5 0\n"
    yield "entries_256_bad_line", entries(256) + b"9 5\n"
    yield "entries_256_remove_entry", entries(256) + b"remove 0\n9999 10000 0\n"
    yield "entries_257_then_bad_line", entries(257) + b"x\n"
    yield "bad_interval_and_257", b"5 5 0\n" + entries(256)


def large_cases():
    yield "zeros_10000", b"%s5 9 1\n" % (b"0" * 10000)
    yield "zeros_10000_remove", A + b"remove %s2\n" % (b"0" * 10000)
    # 300 kilobytes: 256 entries of leading zeros
    wide = b"".join(b"%0400d %0400d %0400d\n" % (k, k + 9, k) for k in range(256))
    yield "kilobytes_300", wide
    yield "kilobytes_300_removed", wide + b"".join(b"remove %d\n" % (k // 2) for k in range(255, -1, -1))
    yield "kilobytes_300_refused_first", b"x\n" + wide
    yield "line_of_300_kilobytes", b"5" * 300000


def cases():
    """The input of `test_slotcases`: each small case whole, byte by byte and in pieces of seven."""
    for name, text in small_cases():
        for piece in (1, 7, 65536) if len(text) < 200 else (7, 65536):
            yield piece, text


def main(args):
    out = sys.stdout.buffer
    if args == ["print"]:
        out.write(answer(sys.stdin.buffer.read()))
    elif args == ["cases", "stdin"]:
        for piece, text in cases():
            out.write(b"%d %d\n" % (len(text), piece) + text)
    elif args == ["cases", "stdout"]:
        for _, text in cases():
            out.write(answer(text))
    elif len(args) == 2 and args[0] == "files":
        for make in small_cases, large_cases:
            for name, text in make():
                for end, content in (".in", text), (".out", answer(text)):
                    with open(os.path.join(args[1], name + end), "wb") as f:
                        f.write(content)
    else:
        sys.exit(__doc__)


main(sys.argv[1:])
