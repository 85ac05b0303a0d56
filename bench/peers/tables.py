#!/usr/bin/env python3
"""tables.py [--short] [--native] ROWS: the tables of bench/peers/run, in Markdown.

ROWS has the rows of one or more runs of the program: workload, entries, what, side, the ns for one
in each round. A ratio is the time of one side over that of another in the same round. Printed are
the median of the runs' medians and, in the long tables, the least and the greatest ratio of all
rounds. --short leaves out the long tables. --native is for rows that were not measured under the
emulator: there a goal is 1.5 times the figure.
"""
import sys
from statistics import median

OURS = 'this library'
FAST = 'this library, fast engine'
LINKS = 'this library, by links'
ORDER = ['build', 'points', 'windows', 'all', 'find one', 'remove one', 'insert one', 'bytes an entry']
# What is asked for: what it says, the thing measured, the side, the peer, the greatest ratio.
GOALS = [
    ("points by the pruned walk, of the crate's", 'points', OURS, 'iset 0.3.3', 0.25),
    ("windows by the pruned walk, of the crate's", 'windows', OURS, 'iset 0.3.3', 0.35),
    ("full drain by the pruned walk, of the crate's", 'all', OURS, 'iset 0.3.3', 0.35),
    ("exact lookup of one, of the crate's `get`", 'find one', OURS, 'iset 0.3.3', 1.0),
    ("removal by range, of the crate's", 'remove one', OURS, 'iset 0.3.3', 0.9),
    ("points by the fast engine, of iit's", 'points', FAST, 'iit', 1.0),
    ("windows by the fast engine, of iit's", 'windows', FAST, 'iit', 1.0),
    ("iteration by links, of std::map's", 'all', LINKS, 'std::map', 0.6),
]


class Rows:
    """The times of all runs, by workload, entries, what and side: a list of rounds for each run."""

    def __init__(self, lines):
        self.notes, self.times = [], {}
        for line in lines:
            if line.startswith('#'):
                if line not in self.notes:
                    self.notes.append(line)
                continue
            if not line.startswith('|'):
                sys.exit(line.rstrip())
            kind, size, what, side, numbers = (cell.strip() for cell in line.strip().strip('|').split('|'))
            rounds = [float(x) for x in numbers.split()]
            self.times.setdefault((kind, int(size), what, side), []).append(rounds)
        self.kinds = sorted({key[0] for key in self.times})
        self.sizes = sorted({key[1] for key in self.times})
        # this library's sides first, then the walks over its store, then the peers
        families = ['this library', 'own store', '']
        rank = lambda side: next(k for k, family in enumerate(families) if side.startswith(family))
        self.sides = sorted(dict.fromkeys(key[3] for key in self.times), key=rank)

    def time(self, kind, size, what, side):
        runs = self.times.get((kind, size, what, side))
        return runs and median(median(rounds) for rounds in runs)

    def ratios(self, kind, size, what, side, peer):
        """The ratios of all rounds, a list for each run; None if one of the two was not measured."""
        runs = self.times.get((kind, size, what, side))
        others = self.times.get((kind, size, what, peer))
        if not runs or not others:
            return None
        return [[x / y for x, y in zip(run, other)] for run, other in zip(runs, others)]

    def ratio(self, *cell):
        runs = self.ratios(*cell)
        return runs and median(median(rounds) for rounds in runs)


def shown(ratio):
    if ratio is None:
        return '-'
    return f'{ratio:.4f}' if ratio < 0.01 else f'{ratio:.2f}' if ratio < 10 else f'{ratio:.0f}'


def head(first, columns):
    print(f'| {first} | ' + ' | '.join(columns) + ' |')
    print('|---' * (len(columns) + 1) + '|')


def long_cell(rows, kind, size, what, side):
    time = rows.time(kind, size, what, side)
    if time is None:
        return '-'
    if what == 'bytes an entry':
        return f'{time:.1f}'
    runs = rows.ratios(kind, size, what, OURS, side)
    ratios = [x for rounds in runs for x in rounds]
    return f'{shown(rows.ratio(kind, size, what, OURS, side))} ({shown(min(ratios))} to {shown(max(ratios))}), {time:,.0f}'


def long_tables(rows):
    """For each workload and each thing measured: sides by sizes."""
    for note in rows.notes:
        print(note.rstrip())
    for kind in rows.kinds:
        for what in ORDER:
            sides = [side for side in rows.sides if any((kind, size, what, side) in rows.times for size in rows.sizes)]
            print(f'\n{kind}, {what}' + ('' if what == 'bytes an entry' else ': ratio (least to greatest), ns for one') + '\n')
            head('side', [f'{size:,}' for size in rows.sizes])
            for side in sides:
                print(f'| {side} | ' + ' | '.join(long_cell(rows, kind, size, what, side) for size in rows.sizes) + ' |')


def triple(rows, kind, *cell):
    ratios = [rows.ratio(kind, size, *cell) for size in rows.sizes]
    return '-' if all(x is None for x in ratios) else ' / '.join(shown(x) for x in ratios)


def short_tables(rows):
    """For each thing measured: this library's time over each side's, workload by workload."""
    sizes = ' / '.join(f'{size:,}' for size in rows.sizes)
    for what in ORDER[:-1]:
        print(f"\n{what}: this library's time over this one's, at {sizes} entries\n")
        head('side', rows.kinds)
        for side in rows.sides:
            cells = [triple(rows, kind, what, OURS, side) for kind in rows.kinds]
            if side != OURS and any(cell != '-' for cell in cells):
                print(f'| {side} | ' + ' | '.join(cells) + ' |')


def verdict(rows, what, side, peer, limit):
    """Met if the median is at most the limit in every workload and size that was measured."""
    measured = [(kind, rows.ratio(kind, size, what, side, peer)) for kind in rows.kinds for size in rows.sizes]
    measured = [(kind, ratio) for kind, ratio in measured if ratio is not None]
    missed = sorted({kind for kind, ratio in measured if round(ratio, 2) > limit})
    return 'not measured' if not measured else 'missed in ' + ', '.join(missed) if missed else 'met'


def goals(rows, factor):
    sizes = ' / '.join(f'{size:,}' for size in rows.sizes)
    print(f'\nthe goals: ratios at {sizes} entries\n')
    head('', ['at most'] + rows.kinds + [''])
    for says, what, side, peer, limit in GOALS:
        limit *= factor
        cells = [f'{limit:.2f}'] + [triple(rows, kind, what, side, peer) for kind in rows.kinds]
        print(f'| {says} | ' + ' | '.join(cells + [verdict(rows, what, side, peer, limit)]) + ' |')


def main():
    options = [x for x in sys.argv[1:] if x.startswith('--')]
    files = [x for x in sys.argv[1:] if not x.startswith('--')]
    if not files or set(options) - {'--short', '--native'}:
        sys.exit(__doc__.strip())
    rows = Rows(line for name in files for line in open(name))
    if '--short' not in options:
        long_tables(rows)
    short_tables(rows)
    goals(rows, 1.5 if '--native' in options else 1)


main()
