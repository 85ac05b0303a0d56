#!/usr/bin/env python3
"""theorems.py: docs/THEOREMS.md and docs/READING.md say what the sources say.

A statement in a fenced block is verbatim in the file that the line before the block names. Every
theorem that a table names is declared in a file that the same row names. Every file that the two
papers name exists. A number of lines is that of its file, without blank lines and imports.

With --mend it first writes into the papers what the sources say now: the numbers of lines, and each
shown statement whose first and last declaration still have their names.
"""
import pathlib
import re
import sys

TOP = pathlib.Path(__file__).resolve().parent.parent
DECLARED = r'^\s*(?:(?:abbrev |unfoldable )?(?:pub )?(?:record |data )?|(?:pub )?(?:extern "C" )?(?:fn|struct|impl) ){}(?: |$|\()'


def source(path):
    """The text of a file named with or without its ending, or of all files of a folder; None if
    there is none."""
    for name in (path, path + '.antt', path + '.rt'):
        if (TOP / name).is_file():
            return (TOP / name).read_text()
    if (TOP / path).is_dir():
        return '\n'.join(f.read_text() for f in sorted((TOP / path).rglob('*')) if f.suffix in ('.antt', '.rt'))
    return None


def blocks(paper):
    """The fenced blocks of a paper, each with the file that is named in the line before it."""
    lines = paper.splitlines()
    for i, line in enumerate(lines):
        if line.startswith('```antt'):
            end = lines.index('```', i)
            named = re.findall(r'`(crates/[^`]*)`', ' '.join(lines[max(0, i - 3):i]))
            yield i + 1, named[-1] if named else '', '\n'.join(lines[i + 1:end])


def rows(paper):
    """The rows of the tables whose head begins `| theorem | file |`, each with its line."""
    inside = False
    for i, line in enumerate(paper.splitlines()):
        if line.startswith('| theorem | file |'):
            inside = True
        elif not line.startswith('|'):
            inside = False
        elif inside and not line.startswith('|---'):
            cells = [cell.strip() for cell in line.strip('|').split(' | ')]
            yield i + 1, re.findall(r'`([^`]+)`', cells[0]), re.findall(r'crates/[\w/+.]+', cells[1])


def sizes(paper):
    """The rows of the tables whose head begins `| file | lines |`: line, file, number."""
    for i, line in enumerate(paper.splitlines()):
        row = re.match(r'\| (crates/\S+) \| (\d+) \|', line)
        if row:
            yield i + 1, row[1], int(row[2])


def size(path):
    """The number of lines of a file, without blank lines and imports."""
    return sum(1 for text in (source(path) or '').splitlines() if text.strip() and not text.startswith('use '))


def check(name, count, wrong):
    paper = (TOP / 'docs' / name).read_text()
    for path in set(re.findall(r'crates/[\w]+/[\w/+.-]+', paper)):
        if not path.startswith('crates/NAME/') and source(path.rstrip('.')) is None:
            wrong.append(f'{name}: there is no {path}')
    for line, path, text in blocks(paper):
        count['statements'] += 1
        if text not in (source(path) or '' if path else ''):
            wrong.append(f'{name}:{line}: the statement does not stand in {path or "any named file"}')
    for line, path, number in sizes(paper):
        if size(path) != number:
            wrong.append(f'{name}:{line}: {path} has {size(path)} lines')
    for line, names, files in rows(paper):
        texts = [t for t in map(source, files) if t]
        for theorem in names:
            count['theorems'] += 1
            pattern = DECLARED.format(re.escape(theorem.split('::')[-1]).replace(r'\*', r'[\w-]*'))
            if not any(re.search(pattern, t, re.M) for t in texts):
                wrong.append(f'{name}:{line}: {theorem} is not declared in {", ".join(files) or "any named file"}')


def declared(line):
    """The indent and the name of a declaration, a field or an equation; None for any other line."""
    m = re.match(r'( *)(?!--|→)(?:abbrev |unfoldable )?(?:pub )?(?:record |data )?([^\s()]+) ', line)
    return m and (m[1], m[2])


def present(old, text):
    """A shown statement as it stands in the source now; the old one where an end of it is not
    found."""
    old, text = old.splitlines(), text.splitlines()
    ends = [line for line in map(declared, old) if line]
    places = [i for i, line in enumerate(text) if ends and declared(line) == ends[0]]
    if not places:
        return '\n'.join(old)
    start = places[0]
    last = [i for i in range(start, len(text)) if declared(text[i]) == ends[-1]][:ends.count(ends[-1])]
    if not last:
        return '\n'.join(old)
    end = last[-1] + 1
    while end < len(text) and re.match(ends[-1][0] + r' +(?!--)\S', text[end]):
        end += 1
    while old[0].startswith('--') and text[start - 1].startswith('--'):
        start -= 1
    return '\n'.join(text[start:end])


def mend(name):
    path = TOP / 'docs' / name
    paper = path.read_text()
    for _, file, text in blocks(paper):
        if source(file) and text not in source(file):
            paper = paper.replace(text, present(text, source(file)))
    for _, file, number in sizes(paper):
        if source(file):
            paper = paper.replace(f'| {file} | {number} |', f'| {file} | {size(file)} |')
    path.write_text(paper)


def main():
    for name in ('THEOREMS.md', 'READING.md') if sys.argv[1:] == ['--mend'] else ():
        mend(name)
    count, wrong = {'statements': 0, 'theorems': 0}, []
    for name in ('THEOREMS.md', 'READING.md'):
        check(name, count, wrong)
    if count['statements'] < 5 or count['theorems'] < 100:
        wrong.append('too little was found to be a check')
    for line in wrong:
        print('theorems: ' + line)
    print(f'theorems: {count["statements"]} statements, {count["theorems"]} theorems named, {len(wrong)} wrong')
    return 1 if wrong else 0


if __name__ == '__main__':
    sys.exit(main())
