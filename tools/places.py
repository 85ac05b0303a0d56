#!/usr/bin/env python3
"""places.py: counts the places in src/ that docs/DESIGN-PASS.md speaks of, a row for each point.

usage: tools/places.py [--at COMMIT]           the counts
       tools/places.py [--at COMMIT] --list K  each place of point K, one a line

Comments are left out. A function is what stands from its `fn` to the brace that ends it, in the
layout that `rt fmt` gives. What is counted:

  1 kinds     enums of two variants of which one holds something, or with a variant that is named
              after nothing or a refusal; structs that hold a bool beside other fields; functions
              with two arms or more between a number and a value (`3 => ..`, `.. => 3`)
  2 twins     functions of 20 words or more whose text is that of another but for names, numbers
              and types (those of the crates of exports and of tests are marked)
  3 loops     `while` and `loop`
  4 by hand   functions that list a bool for each variant; functions named after an order, an
              equality or a conversion that std has (eq, le, cmp, smaller, larger, least, wide ..)
  5 together  runs of two parameters or more that three functions or more take in the same order,
              those that save most first, no parameter of a function in two; premises that stand in
              three contracts or more
  6 lengths   functions that take a slice and beside it a place or a length in it
  7 switches  calls that turn a name into a place in a list, and functions that turn that place into
              a value
  8 answers   declarations in proofs/**/Answers.antt, and the lines of proofs/
"""
import collections
import pathlib
import re
import subprocess
import sys
import tempfile

TOP = pathlib.Path(__file__).resolve().parent.parent
THIN = re.compile(r'^(iset_c.*|test_.*)$')
NONE_LIKE = {'Nothing', 'None', 'Nil', 'Not', 'Over', 'Refused', 'Sound'}
BY_HAND = {'eq', 'ne', 'le', 'lt', 'ge', 'gt', 'cmp', 'same', 'smaller', 'larger', 'least', 'most', 'wide', 'plus', 'minus', 'times'}
PLACES = {'at', 'n', 'len', 'count', 'size', 'to', 'from', 'k', 'i', 'place', 'places'}


class Function:
    def __init__(self, crate, file, line, name, head, body):
        self.crate, self.file, self.line, self.name, self.body = crate, file, line, name, body
        open_at = head.index('(', head.index(name))
        depth = 0
        for end in range(open_at, len(head)):
            depth += (head[end] in '([{<') - (head[end] in ')]}' or head[end] == '>' and head[end - 1] != '-')
            if depth == 0:
                break
        self.params = []
        for part in split(head[open_at + 1:end], ','):
            if ':' in part:
                left, right = part.split(':', 1)
                self.params.append((left.replace('mut ', '').strip(), right.strip()))
        self.premises = []
        for clause in re.findall(r'requires(?: \w+)? \{(.*?)\}\n', head[end:] + '\n', re.S):
            self.premises += [it.strip().strip('()') for it in clause.split('×')]

    def __str__(self):
        return f'{self.crate}/src/{self.file}:{self.line} {self.name}'


def split(text, mark):
    parts, depth, last = [], 0, 0
    for i, c in enumerate(text):
        depth += (c in '([{<') - (c in ')]}>')
        if c == mark and depth == 0:
            parts.append(text[last:i])
            last = i + 1
    return [it.strip() for it in parts + [text[last:]] if it.strip()]


def without_comments(text):
    return '\n'.join(re.sub(r'(^|\s)//.*', '', line) for line in text.split('\n'))


def functions(crate, file, text):
    lines = text.split('\n')
    at = 0
    while at < len(lines):
        m = re.match(r'^(\s*)(?:pub(?:\([a-z]+\))? )?(?:final )?(?:unsafe )?(?:extern "C" )?fn (\w+)', lines[at])
        if not m:
            at += 1
            continue
        indent, name = m.groups()
        begin = at
        while at < len(lines) and not (lines[at] == indent + '{' or lines[at].endswith(' {') and not re.match(r'^\s*(requires|ensures|where)', lines[at])) and not lines[at].endswith(';'):
            at += 1
        if at >= len(lines) or lines[at].endswith(';'):
            at += 1
            continue
        head = '\n'.join(lines[begin:at + 1])
        start = at + 1
        while at < len(lines) and lines[at] != indent + '}':
            at += 1
        yield Function(crate, file, begin + 1, name, head, '\n'.join(lines[start:at]))
        at += 1


WORD = re.compile(r'b?"[^"]*"|b?\'[^\']*\'|\w+|[^\w\s]')


def shape(body):
    words = WORD.findall(re.sub(r',(\s*[\])}])', r'\1', body))
    keep = {'if', 'else', 'match', 'while', 'for', 'in', 'let', 'return', 'mut', 'true', 'false', 'as', 'loop', 'self', 'Self'}
    out = [w if w in keep or not re.match(r'\w|b?["\']', w) else 'N' if w[0].isdigit() or w[0] in '"\'' or w[:2] in ('b"', "b'") else 'I' for w in words]
    return len(out), ' '.join(out)


def enums(text):
    for m in re.finditer(r'^((?:pub(?:\([a-z]+\))? )?)enum (\w+)[^{]*\{\n(.*?)^\}', text, re.S | re.M):
        variants = re.findall(r'^    (\w+)(\(|\s\{)?', m.group(3), re.M)
        yield m.start(), m.group(2), [(name, bool(held)) for name, held in variants]


def structs(text):
    for m in re.finditer(r'^(?:pub(?:\([a-z]+\))? )?struct (\w+)[^{;(]*\{\n(.*?)^\}', text, re.S | re.M):
        yield m.start(), m.group(1), re.findall(r'^    (?:pub(?:\([a-z]+\))? )?(\w+): (.*),$', m.group(2), re.M)


class Sources:
    def __init__(self, top):
        self.top = top
        self.files = []
        self.functions = []
        for path in sorted(top.glob('crates/*/src/**/*.rt')):
            crate = path.relative_to(top).parts[1]
            text = without_comments(path.read_text())
            file = str(path.relative_to(top / 'crates' / crate / 'src'))
            self.files.append((crate, file, text))
            self.functions += functions(crate, file, text)

    def at(self, crate, file, text, place, what):
        return f'{crate}/src/{file}:{text.count(chr(10), 0, place) + 1} {what}'

    def kinds(self):
        for crate, file, text in self.files:
            for place, name, variants in enums(text):
                two = len(variants) == 2 and any(held for _, held in variants)
                if two or {it for it, _ in variants} & NONE_LIKE:
                    yield self.at(crate, file, text, place, f'enum {name}')
            for place, name, fields in structs(text):
                if len(fields) > 1 and any(kind == 'bool' for _, kind in fields):
                    yield self.at(crate, file, text, place, f'struct {name}')
        for f in self.functions:
            into = re.findall(r'^\s*\d+(?: \| \d+)* => ', f.body, re.M)
            out_of = re.findall(r'=> \d+,$', f.body, re.M)
            if len(into) > 1 or len(out_of) > 1:
                yield f'{f} (numbers)'

    def twins(self):
        groups = collections.defaultdict(list)
        for f in self.functions:
            size, form = shape(f.body)
            if size >= 20:
                groups[form].append(f)
        for form, found in sorted(groups.items(), key=lambda it: str(it[1][0])):
            if len(found) > 1:
                thin = all(THIN.match(f.crate) for f in found)
                for f in found:
                    yield f'{f} ({"exports and tests, " if thin else ""}{len(found)} alike, first {found[0].crate}::{found[0].name})'

    def loops(self):
        for crate, file, text in self.files:
            for m in re.finditer(r'^\s*(?:\'\w+: )?(while\b.*|loop) \{$', text, re.M):
                yield self.at(crate, file, text, m.end() - len(m.group(1)) - 2, m.group(1))

    def by_hand(self):
        for f in self.functions:
            arms = re.findall(r'=> (.*),$', f.body, re.M)
            if f.name in BY_HAND or len(arms) > 1 and set(arms) == {'true', 'false'}:
                yield str(f)

    def together(self):
        # the run that saves most words first; its parameters are then out of its functions
        lists = [[f'{name}: {kind.replace("&mut ", "&")}' for name, kind in f.params] for f in self.functions]
        while True:
            runs = collections.defaultdict(set)
            for k, names in enumerate(lists):
                for size in range(2, 7):
                    for i in range(len(names) - size + 1):
                        run = tuple(names[i:i + size])
                        if None not in run:
                            runs[run].add(k)
            best = max((it for it in runs if len(runs[it]) >= 3), key=lambda it: ((len(it) - 1) * len(runs[it]), it), default=None)
            if not best:
                break
            yield f'{len(runs[best])} functions take ({", ".join(best)})'
            for k in runs[best]:
                names = lists[k]
                i = next(i for i in range(len(names)) if tuple(names[i:i + len(best)]) == best)
                lists[k] = names[:i] + [None] + names[i + len(best):]
        facts = collections.defaultdict(set)
        for k, f in enumerate(self.functions):
            for it in f.premises:
                facts[re.sub(r'\.(old|now)\b', '', it)].add(k)
        for fact, found in sorted(facts.items(), key=lambda it: (-len(it[1]), it[0])):
            if len(found) >= 3:
                yield f'{len(found)} contracts require {fact}'

    def lengths(self):
        for f in self.functions:
            for (name, kind), (after, number) in zip(f.params, f.params[1:]):
                if re.match(r'&(mut )?\[', kind) and number == 'usize' and after in PLACES:
                    yield f'{f} ({name}, {after})'
                    break

    def switches(self):
        for f in self.functions:
            calls = len(re.findall(r'\bwhich\(', f.body))
            arms = re.findall(r'^\s*\d+ => \w+(?:::\w+)+', f.body, re.M)
            for _ in range(calls):
                yield f'{f} (a name to a place)'
            if len(arms) > 1:
                yield f'{f} (a place to a value)'

    def answers(self):
        for path in sorted(self.top.glob('crates/*/proofs/**/Answers.antt')):
            for name in re.findall(r'^pub (\S+) : goal\.', path.read_text(), re.M):
                yield f'{path.relative_to(self.top / "crates")} {name}'

    def proof_lines(self):
        return sum(path.read_text().count('\n') for path in self.top.glob('crates/*/proofs/**/*.antt'))


POINTS = ['kinds', 'twins', 'loops', 'by_hand', 'together', 'lengths', 'switches', 'answers']


def main():
    words = sys.argv[1:]
    commit = words[words.index('--at') + 1] if '--at' in words else None
    point = int(words[words.index('--list') + 1]) if '--list' in words else None
    with tempfile.TemporaryDirectory() as room:
        top = TOP
        if commit:
            archive = subprocess.run(['git', '-C', str(TOP), 'archive', commit, 'crates'], check=True, stdout=subprocess.PIPE).stdout
            subprocess.run(['tar', '-x', '-C', room], input=archive, check=True)
            top = pathlib.Path(room)
        sources = Sources(top)
        if point:
            print('\n'.join(getattr(sources, POINTS[point - 1])()))
            return
        for k, name in enumerate(POINTS, 1):
            print(f'{k} {name:10} {len(list(getattr(sources, name)()))}')
        print(f'  proofs     {sources.proof_lines()} lines')


if __name__ == '__main__':
    main()
