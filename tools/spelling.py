#!/usr/bin/env python3
"""spelling.py: brings the names of this repository's definitions and lemmas to today's spelling.

usage: tools/spelling.py            renames in every .rt and .antt file below crates/
       tools/spelling.py --list     prints `old new` for each name, and changes nothing
       tools/spelling.py --names F FILE..   renames by the pairs of F, one `old new` a line, in these
                                    files: whole in .rt and .antt files, else between backticks

A name is turned if a file of specs/ or proofs/ declares it: `linkOf` becomes `link_of`, `left-low`
becomes `left_low`. A name that a library of the kit has too keeps its spelling; those are printed. A
name that would be that of a function, a variable or another definition gets the ending `_lem`, or `_law` if that is taken too.
Names of src/ are as they were. It is run once, after port.py.
"""
import pathlib
import re
import sys

TOP = pathlib.Path(__file__).resolve().parent.parent
NAME = r"[^\s(){}\[\],;.«»λ:→×∷`\"|]+"
WORD = re.compile(NAME)
DECLARED = re.compile(r'^\s*(?:pub |abbrev |unfoldable )*((?:' + NAME + r' )+): ')


def snake(part):
    if not re.match(r"[a-z]", part):
        return part
    return re.sub(r'(?<=[a-z0-9])([A-Z])', lambda m: '_' + m[1].lower(), part)


def turned(name):
    return '_'.join(snake(it) for it in name.split('-'))


def files(*patterns):
    for pattern in patterns:
        yield from sorted(TOP.glob(pattern))


def pairs():
    crates = '|'.join(p.name for p in (TOP / 'crates').iterdir() if p.is_dir())
    kit_line = re.compile(r'^(?:pub )?(?:ghost )?use (?!Rattle\.(?:' + crates + r')\.)\S*\.\{(.*)\}')
    declared, seen, kit = set(), set(), set()
    for path in files('crates/*/specs/**/*.antt', 'crates/*/proofs/**/*.antt', 'crates/*/src/**/*.rt'):
        for line in path.read_text().split('\n'):
            m = kit_line.match(line)
            if m:
                kit.update(it.strip().split(' ')[0] for it in m[1].split(','))
            code = line.split('--')[0] if path.suffix == '.antt' and line.lstrip().startswith('--') else line
            seen.update(WORD.findall(code))
            if path.suffix == '.rt' or path.name == 'Proof.antt' or line.lstrip().startswith(('--', 'use ', 'mod', '|')):
                continue
            m = DECLARED.match(line)
            if m:
                declared.update(m[1].split())
    got, kept = {}, []
    taken = seen | kit
    # definitions first, then lemmas: of two that would fall together the second gets an ending
    for name in sorted(declared, key=lambda it: ('-' in it, it)):
        new = turned(name)
        if new == name or not re.fullmatch(r"[\w'-]+", name):
            continue
        if name in kit:
            kept.append((name, 'the kit has it'))
            continue
        new = next(it for it in (new, new + '_lem', new + '_law') if it not in taken)
        taken.add(new)
        got[name] = new
    return got, kept


def renamed(text, names):
    return WORD.sub(lambda m: names.get(m[0], m[0]), text)


def turn(path, names):
    out, clause = [], 0
    for line in path.read_text().split('\n'):
        if path.suffix == '.antt':
            body = line.lstrip()
            out.append(re.sub(r'`[^`]*`', lambda m: renamed(m[0], names), line) if body.startswith('--') else renamed(line, names))
        elif path.suffix == '.rt':
            if line.lstrip().startswith('//'):
                out.append(re.sub(r'`[^`]*`', lambda m: renamed(m[0], names), line))
                continue
            if clause or re.match(r'\s*(ghost use |requires|ensures|ghost )', line):
                out.append(renamed(line, names))
                clause += line.count('{') - line.count('}')
            else:
                out.append(line)
        else:
            out.append(re.sub(r'`[^`]*`', lambda m: renamed(m[0], names), line))
    path.write_text('\n'.join(out))


def main(words):
    if words[:1] == ['--names']:
        names = dict(line.split() for line in pathlib.Path(words[1]).read_text().split('\n') if line.strip())
        for it in words[2:]:
            turn(pathlib.Path(it), names)
        return
    names, kept = pairs()
    if words == ['--list']:
        print('\n'.join(f'{a} {b}' for a, b in names.items()))
        return
    for path in files('crates/*/specs/**/*.antt', 'crates/*/proofs/**/*.antt', 'crates/*/src/**/*.rt'):
        turn(path, names)
    for name, why in kept:
        print(f'kept: {name}: {why}')
    print(f'{len(names)} names turned, {len(kept)} kept')


main(sys.argv[1:])
