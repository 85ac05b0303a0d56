#!/usr/bin/env python3
"""sentences.py: the papers keep to CONTRIBUTING.md's rule of words, as far as a program can tell.

No line of prose is over 100 columns. Tables and code blocks may be. A few words that are always
wrong in these papers are not used outside code. Each of them has a better one beside it below.
"""
import pathlib
import re
import sys

TOP = pathlib.Path(__file__).resolve().parent.parent
WIDTH = 100

# What is not to be written, and what to write. Only what is wrong wherever it stands.
WRONG = [
    (r'\bso many (?=numbers|bytes|places|levels|slots|words|bits|entries|links)', 'that many, or the number of'),
    (r'\b(?:for )?whoever\b', 'name the reader: contributors, a caller'),
    (r'\bat hand\b', 'installed, available'),
    (r'\bthat (?:is|are) there\b(?! (?:a|an|no|any)\b)', 'that exists'),
    (r'(?<!there )(?<!it )\bis none\b(?! of)', 'is not one, is not valid'),
    (r'\bgood until\b', 'valid until'),
    (r'\bsees? to\b', 'must ensure'),
    (r'\banswers (?=the |a |an |no |how |whether |its )', 'returns'),
]


def prose(text):
    """The lines of prose with their numbers: no fenced block, no indented block, no table."""
    fenced, code, blank = False, False, True
    for number, line in enumerate(text.split('\n'), 1):
        if line.startswith('```'):
            fenced = not fenced
            continue
        code = line.startswith('    ') and (blank or code)
        blank = not line.strip()
        if not (fenced or code or line.lstrip().startswith('|')):
            yield number, line


def paragraphs(lines):
    """Paragraphs and items of lists, each as one line, with the number of its first line."""
    first, text, last = 0, '', -1
    for number, line in lines:
        if number != last + 1 or not line.strip() or re.match(r' *(?:[-*]|\d+\.) ', line):
            if text:
                yield first, text
            first, text = number, ''
        if line.strip():
            first = first if text else number
            text = (text + ' ' + line.strip()).strip()
        last = number
    if text:
        yield first, text


def main():
    wrong, papers = [], 0
    for path in sorted(TOP.rglob('*.md')):
        name = path.relative_to(TOP)
        if name.parts[0] in ('target', '.git'):
            continue
        papers += 1
        lines = list(prose(path.read_text(encoding='utf-8')))
        for number, line in lines:
            if len(line) > WIDTH:
                wrong.append(f'{name}:{number}: {len(line)} columns')
        for number, text in paragraphs(lines):
            text = re.sub(r'`[^`]*`|"[^"]*"', '``', text)
            for pattern, better in WRONG:
                for found in re.finditer(pattern, text, re.I):
                    around = text[max(0, found.start() - 30):found.end() + 20]
                    wrong.append(f'{name}:{number}: "{around}"; better: {better}')
    for line in wrong:
        print('sentences: ' + line)
    print(f'sentences: {papers} papers, {len(wrong)} wrong')
    sys.exit(1 if wrong or not papers else 0)


main()
