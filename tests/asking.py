#!/usr/bin/env python3
"""For programs that make lines for `drive` and go on from the model's answers to them."""
import drive

DRIVE = drive.Drive()
ANSWERS = []


def ask(*texts):
    """Prints the lines. Returns the model's answer to the last one."""
    for text in texts:
        print(text)
        try:
            answer = DRIVE.line(text)
        except drive.What:
            answer = "what"
        if answer is not None:
            ANSWERS.append(answer)
    return answer


def show(s):
    ask(" ".join(map(str, ["store", s.count, s.root, len(s.words), *s.words, len(s.colours), *s.colours])))


def comment(text):
    print(text if text.startswith("#") else "# " + text)
