#!/usr/bin/env python3
"""The program `slotshell` by docs/MANUAL.md and tests/model.py, and not by its code.

    slotshell.py          runs the program on many random talks and compares what it prints with this
                          model; tries that trees of up to 31 entries fit 100 columns, that nothing
                          overlaps in a picture, and that every command and refusal was met; the
                          program must be built (rt ci)
    slotshell.py COMMAND  the same with the program that a command runs
    slotshell.py print    what slotshell prints for the commands on standard input

The last line of a run is 'slotshell: N passed, M failed'.
"""
import os
import pathlib
import random
import re
import select
import subprocess
import sys

import model
from model import END, HI, LEFT, LO, PARENT, RIGHT, START, U, VALUE

TOP = pathlib.Path(__file__).resolve().parent.parent
MOST, LONGEST = 256, 32768
BARE = ('tree', 'slots', 'svg', 'dot', 'check', 'disjoint', 'save', 'load', 'plan', 'tidy', 'help', 'quit')
RANGED = ('find', 'trace', 'plain', 'unload')
COUNTS = {'build': None, 'insert': 3, 'remove': 1, 'at': 1, 'exact': 2, 'ticket': 1, 'read': 1, 'renumber': None, 'point': 1, 'fit': 3}
USAGE = {
    'build': 'build START END VALUE .., as in: build 10 20 1  10 30 2',
    'insert': 'insert START END VALUE, as in: insert 10 20 7',
    'remove': 'remove SLOT, as in: remove 1',
    'at': 'at ADDRESS, as in: at 20',
    'exact': 'exact START END, as in: exact 10 20',
    'ticket': 'ticket SLOT, as in: ticket 4',
    'read': 'read TICKET, as in: read 1',
    'renumber': 'renumber NEW NEW .., as in: renumber 1 0',
    'point': 'point ADDRESS, as in: point 20',
    'fit': 'fit START END VALUE, as in: fit 10 20 7',
}
REFUSED = {
    1: 'no room, the shell keeps 256 at most (NoRoom, 1)',
    3: 'no entry in slot %d (NoSuch, 3)',
    4: 'the range is empty, or ends before it begins (BadRange, 4)',
    5: 'the start is not below the end (BadInterval, 5)',
    6: 'the list is not sorted by start, then by end (NotSorted, 6)',
    8: 'the list is not made of threes: start, end, value (BadList, 8)',
    11: 'stale: taken at version %d, the map is at %d (Stale, 11)',
    12: 'no image was saved (BadImage, 12)',
    13: 'it overlaps the entry in slot %d (Overlap, 13)',
    14: 'two ranges overlap (NotDisjoint, 14)',
    15: 'the plan does not name each slot once (BadPlan, 15)',
}
BLANK = b' \t\r'
BOUND = rb'[ \t\r]*(\.\.|[0-9]+)[ \t\r]*'
RANGE = re.compile(rb'[ \t\r]*([(\[])' + BOUND + b',' + BOUND + rb'([])])[ \t\r]*')
STYLE = (
    '<style>text{font:12px monospace;text-anchor:middle;fill:#fff}.t{font-weight:bold}.s{font-size:10px}'
    '.k{fill:#000;text-anchor:start}.r{fill:#c62828}.b{fill:#212121}.e{stroke:#757575;stroke-width:2}'
    '.m{fill:none;stroke:#ffb300;stroke-width:5}.l{fill:none;stroke:#1e88e5;stroke-width:3;stroke-dasharray:7 4}</style>'
)


def link(k):
    return '-' if k == U else str(k)


def limited(text):
    """A number of 64 bits, or None."""
    return int(text) if int(text) < 2**64 else None


def bound(text, excluded):
    return (2, 0) if text == b'..' else (1 if excluded else 0, limited(text))


def range_of(rest):
    """The four numbers of a range, or None."""
    if rest.strip(BLANK) == b'..':
        return 2, 0, 2, 0
    found = RANGE.fullmatch(rest)
    if not found:
        return None
    numbers = bound(found[2], found[1] == b'(') + bound(found[3], found[4] == b')')
    return None if None in numbers else numbers


def numbers_of(rest):
    words = rest.replace(b'\t', b' ').replace(b'\r', b' ').split(b' ')
    numbers = [limited(w) if re.fullmatch(b'[0-9]+', w) else None for w in words if w]
    return None if None in numbers else numbers


class Shell:
    def __init__(self):
        self.s = model.Store(0, U, [0] * 8 * MOST, [0] * (MOST // 8))
        self.tickets, self.image, self.out = [], b'', []
        self.moved, self.added, self.look = {}, None, None
        self.met, self.widest = set(), 0

    def say(self, text, *numbers):
        self.out.append(text % numbers)

    def refuse(self, no, *numbers):
        self.met.add(no)
        self.say('refused: ' + REFUSED[no], *numbers)

    def changed(self, moved, added=None):
        self.moved, self.added, self.look = moved, added, None

    # entries

    def entry(self, slot):
        return '[%d,%d) %d' % (self.s.key(slot) + (self.s.get(slot, VALUE),))

    def hull(self, slot):
        return '[%d,%d)' % self.s.hull(slot)

    def numbers(self):
        return 'entries %d, root %s, version %d' % (self.s.count, link(self.s.root), self.s.version)

    def change(self):
        self.say('version %d, reach %d', self.s.version, self.s.reach)

    def kids(self, slot):
        return [(side, self.s.get(slot, side)) for side in (LEFT, RIGHT)]

    def depths(self):
        """Each slot with its depth and the sides on the way there, in tree order."""
        found = []

        def down(slot, way):
            if slot != U:
                down(self.s.get(slot, LEFT), way + [LEFT])
                found.append((slot, way))
                down(self.s.get(slot, RIGHT), way + [RIGHT])

        down(self.s.root, [])
        return found

    def entered(self):
        if self.look is None:
            return set()
        return {slot for what, slot in model.events(self.s, self.look, model.first(self.s, self.look)) if what == 'enter'}

    def note(self, slot):
        return 'new' if slot == self.added else 'was slot %d' % self.moved[slot] if slot in self.moved else ''

    # changes

    def build(self, numbers):
        s = self.s.copy()
        no = int(model.build(s, numbers).split()[0])
        if no:
            return self.refuse(no)
        self.s = s
        self.changed({})
        self.say('built: ' + self.numbers())
        for slot in range(s.count):
            self.say('  slot %d  ' % slot + self.entry(slot))

    def insert(self, start, end, value):
        self.s.reach = 0
        self.inserted(*map(int, model.insert(self.s, start, end, value).split()))

    def fit(self, start, end, value):
        self.s.reach = 0
        self.inserted(*map(int, model.insert_disjoint(self.s, start, end, value).split()))

    def inserted(self, no, _, __, slot):
        if no:
            return self.refuse(no, *[slot][:no == 13])
        self.changed({}, slot)
        self.say('inserted: slot %d  ' % slot + self.entry(slot))
        self.change()

    def remove(self, slot):
        if slot >= self.s.count:
            return self.refuse(3, slot)
        self.say('removed: slot %d  ' % slot + self.entry(slot))
        self.s.reach = 0
        answer = list(map(int, model.remove(self.s, slot).split()))
        pairs = [(old, new) for old, new in zip(answer[4::2], answer[5::2]) if old != U]
        for old, new in pairs:
            self.say('moved: slot %d -> %d  ' % (old, new) + self.entry(new))
        if not pairs:
            self.say('moved: nothing')
        self.changed({new: old for old, new in pairs})
        self.change()

    def order(self):
        return [slot for slot, _ in self.depths()]

    def moves(self, before):
        """Says which entries are in other slots than those of the list, which is in tree order."""
        pairs = [(old, new) for old, new in zip(before, self.order()) if old != new]
        for old, new in pairs:
            self.say('moved: slot %d -> %d  ' % (old, new) + self.entry(new))
        if not pairs:
            self.say('moved: nothing')
        self.changed({new: old for old, new in pairs})

    def unload(self, *bounds):
        """Those that stay keep their order."""
        q = ('o',) + bounds
        no, gone, _, _ = model.lookup(self.s, q, (model.first(self.s, q), 1, 0), 0)
        if no:
            return self.refuse(no)
        for slot in gone:
            self.say('gone: slot %d  ' % slot + self.entry(slot))
        before = [slot for slot in self.order() if slot not in gone]
        model.unload(self.s, q)
        self.moves(before)
        self.say('unloaded %d, version %d', len(gone), self.s.version)

    def plan(self):
        moves = [(old, new) for new, old in enumerate(self.order()) if old != new]
        for old, new in moves:
            self.say('would move: slot %d -> %d  ' % (old, new) + self.entry(old))
        if not moves:
            self.say('would move: nothing')

    def tidy(self):
        order = self.order()
        self.renumber(*map(order.index, range(self.s.count)))

    def renumber(self, *plan):
        before = self.order()
        no = int(model.renumber(self.s, list(plan)).split()[0])
        if no:
            return self.refuse(no)
        self.moves(before)
        self.say('version %d', self.s.version)

    def point(self, address):
        no, slot, entered = map(int, model.point(self.s, address).split())
        if no:
            return self.refuse(no)
        self.hits([slot][:slot != U])
        self.say('hits %d, nodes entered %d', slot != U, entered)

    def save(self):
        self.image = model.image_of(self.s)
        self.say('saved: entries %d, bytes %d', self.s.count, len(self.image))

    def load(self):
        s = self.s.copy()
        no = int(model.read_image(s, self.s.version, self.image).split()[0])
        if no:
            return self.refuse(no)
        self.s = s
        self.changed({})
        self.say('loaded: ' + self.numbers())

    # lookups

    def hits(self, slots):
        for slot in slots:
            self.say('hit: slot %d  ' % slot + self.entry(slot))

    def looked(self, q):
        no, slots, entered, _ = model.lookup(self.s, q, (model.first(self.s, q), 1, 0), 0)
        if no:
            self.refuse(no)
            return None
        self.look = q
        return slots, entered

    def find(self, *bounds):
        q = ('o',) + bounds
        found = self.looked(q)
        if found:
            self.hits(found[0])
            h = max([len(way) + 1 for _, way in self.depths()] + [0])
            t = sum((q[1] == 2 or self.s.get(k, END) >= q[2]) and model.allowed_right(q, self.s.get(k, START)) for k in range(self.s.count))
            self.say('hits %d, nodes entered %d; h %d, t %d, so at most h + t*h*(h-1)/2 = %d', len(found[0]), found[1], h, t, h + t * h * (h - 1) // 2)

    def at(self, address):
        self.find(0, address, 0, address)

    def exact(self, start, end):
        found = self.looked(('e', start, end))
        if found:
            self.hits(found[0])
            self.say('hits %d, nodes entered %d', len(found[0]), found[1])

    def plain(self, *bounds):
        q = ('o',) + bounds
        found = self.looked(q)
        if found:
            words = list(map(int, model.plain(self.s, q, MOST).split()))
            self.hits(words[4:4 + words[1]])
            self.say('hits %d, nodes looked at %d', words[1], words[2])
            fast = int(model.find_all(self.s, q, MOST).split()[2])
            self.say('find enters %d, that is %d fewer; find_all enters %d', found[1], words[2] - found[1], fast)

    def rule(self, q, side):
        """What is said of the bound on a side if a child is entered, and if it is not."""
        low, x, high, y = q[1:]
        if side == LEFT:
            return ', and there is no lower bound' if low == 2 else ' ends at %d or after' % x, ' ends before %d' % x
        if high == 2:
            return ', and there is no upper bound', ''
        words = (' starts before %d', ' does not start before %d') if high else (' starts at %d or before', ' starts after %d')
        return words[0] % y, words[1] % y

    def trace(self, *bounds):
        q = ('o',) + bounds
        found = self.looked(q)
        if not found:
            return
        count = 0

        def child(slot, side, k, blanks):
            text = '%s of %d: hull %s' % ('left' if side == LEFT else 'right', slot, self.hull(k))
            if model.goes(self.s, q, slot, side):
                down(k, blanks, 'entered, ' + text + self.rule(q, side)[0])
            else:
                self.say('%s' % (blanks + 'slot %d: not entered, ' % k + text + self.rule(q, side)[1]))

        def down(slot, blanks, why):
            nonlocal count
            count += 1
            touches = (q[1] == 2 or self.s.get(slot, END) >= q[2]) and model.allowed_right(q, self.s.get(slot, START))
            kind = 'a hit' if model.hit(self.s, q, slot) else 'touches only' if touches else 'neither'
            self.say('%s' % (blanks + 'slot %d  ' % slot + self.entry(slot) + ': %s; ' % kind + why))
            for side, k in self.kids(slot):
                if k != U:
                    child(slot, side, k, blanks + '  ')

        if self.s.root != U:
            down(self.s.root, '', 'entered as the root')
        self.say('hits %d, nodes entered %d; this walk entered %d', len(found[0]), found[1], count)

    # tickets

    def ticket(self, slot):
        if len(self.tickets) == 256:
            return self.refuse(1)
        self.tickets.append((slot, self.s.version))
        self.say('ticket %d: slot %d at version %d', len(self.tickets), slot, self.s.version)

    def read(self, number):
        if not 0 < number <= len(self.tickets):
            return self.say('there is no ticket %d; %d were taken', number, len(self.tickets))
        slot, taken = self.tickets[number - 1]
        no = int(model.read(self.s, slot, taken).split()[0])
        if no == 11:
            return self.refuse(11, taken, self.s.version)
        if no:
            return self.refuse(no, slot)
        self.say('ticket %d: slot %d  ' % (number, slot) + self.entry(slot))

    # pictures

    def changes(self):
        return bool(self.moved) or self.added is not None

    def lookups(self):
        return self.look is not None and model.first(self.s, self.look) != U

    def digits(self):
        """How many digits the longest address and the longest value have."""
        addresses = [len(str(self.s.get(k, w))) for k in range(self.s.count) for w in (START, END, LO, HI)]
        return max(addresses + [1]), max([len(str(self.s.get(k, VALUE))) for k in range(self.s.count)] + [1])

    def tree(self):
        entered, order = self.entered(), self.depths()
        if not order:
            self.say('no entries')
        marks = self.changes() * (11 + len(str(self.s.count))) + self.lookups() * 9
        widest = 3 * max([len(way) for _, way in order] + [0]) + len(str(self.s.count)) + 4 * self.digits()[0] + self.digits()[1] + 21 + marks
        for slot, way in order:
            bars = ''.join('|  ' if a != b else '   ' for a, b in zip(way, way[1:]))
            corner = ('.- ' if way[-1] == LEFT else "'- ") if way else ''
            line = '%s%s%d %s %s' % (bars, corner, slot, 'red  ' if self.s.red(slot) else 'black', self.entry(slot))
            start = len(self.out)
            if widest > 100:
                down = [way[-1] == LEFT] if way else []
                self.say('%s', line)
                line = bars + ''.join('|  ' if bar else '   ' for bar in down + [self.s.get(slot, RIGHT) != U])
            notes = ''.join('  ' + note for note in (self.note(slot), 'entered' if slot in entered else '') if note)
            self.say('%s', line + '  hull ' + self.hull(slot) + notes)
            if len(order) <= 31:
                self.widest = max([self.widest] + [len(text) for text in self.out[start:]])

    def slots(self):
        rows = [['slot', 'start', 'end', 'value', 'colour', 'hull', 'left', 'right', 'parent']]
        for slot in range(self.s.count):
            own = [str(self.s.get(slot, k)) for k in (START, END, VALUE)]
            links = [link(self.s.get(slot, k)) for k in (LEFT, RIGHT, PARENT)]
            rows.append([str(slot)] + own + ['red' if self.s.red(slot) else 'black', self.hull(slot)] + links)
        widths = [max(map(len, column)) for column in zip(*rows)]
        for row in rows:
            cells = [text.ljust(6) if k == 4 else text.rjust(widths[k]) for k, text in enumerate(row)]
            self.say('%s', ' '.join(cells))

    def dot(self):
        entered = self.entered()
        self.say('digraph map {')
        self.say('  graph [ordering=out];')
        self.say('  node [shape=box, style=filled, fontname=monospace, fontcolor=white];')
        for slot in range(self.s.count):
            notes = ''.join('\\n' + note for note in (self.note(slot), 'entered' if slot in entered else '') if note)
            label = 'slot %d\\n[%d,%d)\\nvalue %d\\nhull %s%s' % ((slot,) + self.s.key(slot) + (self.s.get(slot, VALUE), self.hull(slot), notes))
            border = ', color=orange, penwidth=4' if self.note(slot) else ', color=dodgerblue, penwidth=3' if slot in entered else ''
            dashed = ', style="filled,dashed"' if slot in entered else ''
            self.say('%s', '  s%d [label="%s", fillcolor=%s%s%s];' % (slot, label, 'red3' if self.s.red(slot) else 'black', border, dashed))
            if any(k != U for _, k in self.kids(slot)):
                for side, k in self.kids(slot):
                    name = 's%d%s' % (slot, 'left' if side == LEFT else 'right')
                    if k == U:
                        self.say('  %s [style=invis];' % name)
                    self.say('  s%d -> %s;' % (slot, 's%d' % k if k != U else name + ' [style=invis]'))
                    if side == LEFT:
                        self.say('  s%dmiddle [style=invis, label="", width=0.1];' % slot)
                        self.say('  s%d -> s%dmiddle [style=invis, weight=9];' % (slot, slot))
        self.say('}')

    def svg(self):
        order, entered = self.depths(), self.entered()
        a, v = self.digits()
        long = a > 8
        width = (max(a, v) + 6) * 8 + 16 if long else max((2 * a + 3) * 8, (2 * a + 8) * 6, (v + 6) * 8, 80) + 16
        change, looked = self.changes(), self.lookups()
        height = 76 + 29 * long + 14 * change + 14 * looked
        place = (width + 24) // 2
        centre = {slot: 24 + width // 2 + i * place for i, (slot, _) in enumerate(order)}
        top = {slot: 56 + len(way) * (height + 44) for slot, way in order}
        bottom = 56 + max([len(way) + 1 for _, way in order] + [0]) * (height + 44)
        size = max(max(len(order) - 1, 0) * place + width + 48, 400), bottom + 18 * change + 18 * looked
        self.say('%s', "<svg xmlns='http://www.w3.org/2000/svg' width='%d' height='%d' viewBox='0 0 %d %d'>" % (size + size))
        self.say('%s', STYLE)
        self.say('%s', "<rect width='%d' height='%d' fill='#fff'/>" % size)
        self.say('%s', "<text class='k' x='24' y='30'>%s</text>" % self.numbers())
        for slot in range(self.s.count):
            up = self.s.get(slot, PARENT)
            if up != U:
                self.say("<line class='e' x1='%d' y1='%d' x2='%d' y2='%d'/>", centre[up], top[slot] - 44, centre[slot], top[slot])
        for slot in range(self.s.count):
            self.box(slot, centre[slot], top[slot], width, height, long, slot in entered)
        if change:
            self.say("<text class='k' x='24' y='%d'>thick border: moved or new in the last change</text>", bottom)
        if looked:
            self.say("<text class='k' x='24' y='%d'>dashed border: entered by the last lookup</text>", bottom + 18 * change)
        self.say('</svg>')

    def box(self, slot, x, y, width, height, long, entered):
        def rect(kind, more):
            self.say("<rect class='%s' x='%d' y='%d' width='%d' height='%d' rx='8'/>", kind, x - width // 2 - more, y - more, width + 2 * more, height + 2 * more)

        def text(y, words, kind=''):
            self.say('%s', "<text%s x='%d' y='%d'>%s</text>" % (kind and " class='%s'" % kind, x, y, words))

        rect('r' if self.s.red(slot) else 'b', 0)
        if self.note(slot):
            rect('m', 0)
        if entered:
            rect('l', 7)
        text(y + 18, 'slot %d' % slot, 't')
        (start, end), (low, high) = self.s.key(slot), self.s.hull(slot)
        if long:
            text(y + 34, '[%d,' % start)
            text(y + 50, '%d)' % end)
        else:
            text(y + 34, '[%d,%d)' % (start, end))
        y += 50 + 16 * long
        text(y, 'value %d' % self.s.get(slot, VALUE))
        if long:
            text(y + 15, 'hull [%d,' % low, 's')
            text(y + 28, '%d)' % high, 's')
        else:
            text(y + 15, 'hull [%d,%d)' % (low, high), 's')
        y += 29 + 13 * long
        if self.note(slot):
            text(y, self.note(slot), 's')
        if entered:
            text(y + 14 * bool(self.note(slot)), 'entered', 's')

    # the rest

    def check(self):
        self.say('sound: ' + self.numbers())

    def disjoint(self):
        no = model.check_disjoint(self.s)
        if no:
            return self.refuse(no)
        self.say('disjoint: no two ranges overlap')

    def help(self):
        self.out.append(HELP)

    def line(self, line):
        """Answers a line. Returns whether it was `quit`."""
        line = line.lstrip(BLANK)
        if not line or line[:1] == b'#':
            return False
        name = re.match(b'[a-z]*', line)[0].decode()
        rest = line[len(name):]
        self.met.add(name)
        if name in BARE and not rest.strip(BLANK):
            if name == 'quit':
                return True
            getattr(self, name)()
        elif name in RANGED:
            bounds = range_of(rest)
            if bounds:
                getattr(self, name)(*bounds)
            else:
                self.say('usage: find, trace, plain or unload, and a range, as in: find [20,25); one address is: at 20')
        elif name in COUNTS:
            numbers = numbers_of(rest)
            if numbers is None or COUNTS[name] not in (None, len(numbers)):
                self.say('usage: ' + USAGE[name])
            elif name == 'build':
                self.build(numbers)
            else:
                getattr(self, name)(*numbers)
        else:
            self.say('not understood; type help for the commands, which are in small letters')
        return False


def answered(data, shell=None):
    """What slotshell prints for an input."""
    shell = shell or Shell()
    for line in data.split(b'\n'):
        if len(line) > LONGEST:
            shell.say('not understood; type help for the commands, which are in small letters')
        elif shell.line(line):
            break
    return ''.join(text + '\n' for text in shell.out)


GREETING = 'An empty map, with room for 256 entries. help lists the commands, quit ends.'
HELP = """\
build START END VALUE ..   a new map of these entries, sorted
insert START END VALUE     one entry more
remove SLOT                one entry less; other entries may move
unload RANGE               removes the entries that meet the range
plan, tidy                 numbers the slots in tree order: shows it, does it
renumber NEW NEW ..        numbers the slots by a plan: NEW for slot 0, 1 ..
save, load                 the map as an image, and back from it
tree                       the tree in text
slots                      a table of the slots
svg, dot                   the tree as an SVG or a DOT picture
check                      is the store sound
find RANGE, at ADDRESS     the entries that meet the range, and the work
trace RANGE                that walk, node by node
plain RANGE                the same without pruning
exact START END            the entries equal to [START,END)
ticket SLOT, read TICKET   a ticket, and the entry through it
disjoint                   do no two ranges overlap; if so:
point ADDRESS              the one entry that holds it, by one way down
fit START END VALUE        one entry more, if it overlaps no other
help, quit
A RANGE is [20,25), (20,25], [20,..) or the like, or .. for everything."""


def built_program():
    """The command that runs the proved program."""
    return [str(TOP / 'crates/slotshell/out/slotshell')]


# Random talks

def some_range(r, top):
    def side():
        return r.choice(['..', str(r.randrange(top))] + [str(r.randrange(top))] * 4)

    return '..' if r.random() < 0.05 else r.choice('[(') + side() + r.choice([',', ', ', ' , ']) + side() + r.choice(')]')


def some_entry(r, top):
    start = r.randrange(top)
    return start, start + r.randrange(0 if r.random() < 0.1 else 1, max(2, top // 8)), r.randrange(10)


def some_line(r, top, slots):
    kind = r.randrange(24)
    if kind < 6:
        return 'insert %d %d %d' % some_entry(r, top)
    if kind < 10:
        return 'remove %d' % r.randrange(slots)
    if kind < 14:
        return r.choice(RANGED) + ' ' + some_range(r, top)
    if kind < 16:
        return r.choice(['at %d' % r.randrange(top), 'exact %d %d' % some_entry(r, top)[:2]])
    if kind < 18:
        return r.choice(['ticket %d' % r.randrange(slots), 'read %d' % r.randrange(8)])
    if kind < 22:
        return r.choice(BARE[:-1])
    return bytes(r.choice(b'abc[(,.)] 019\t%@\0\xff') for _ in range(r.randrange(12))).decode('latin-1')


def some_talk(r):
    top = r.choice([12, 60, 1000, 10**9, 2**64 - 10**18])
    n = r.choice([0, 1, 2, 3, 5, 8, 31, 31, 64, 255, 256, 257])
    entries = sorted(some_entry(r, top)[:2] for _ in range(n))
    lines = ['build ' + '  '.join('%d %d %d' % (a, max(b, a + 1), r.randrange(100)) for a, b in entries)]
    lines += [some_line(r, top, max(n, 4)) for _ in range(30)]
    return '\n'.join(lines).encode('latin-1')


def long_talk(order):
    """Entries of 20 digits, inserted one by one, a removal, a lookup, a tree and a picture."""
    top = 2**64 - 2 * 10**17
    lines = ['insert %d %d %d' % (top + 10**15 * k, top + 10**15 * (k + 1), top + k) for k in order]
    return '\n'.join(lines + ['remove 3', 'find [%d,..)' % (top + 29 * 10**15), 'tree', 'svg', 'dot']).encode()


def fixed_talks():
    """Lines that are just as long as they may be, longer ones, and one without its end; every
    refusal; long numbers."""
    yield b'help\nquit\ncheck\n'
    for size in LONGEST, LONGEST + 1, 200000:
        yield b'check' + b' ' * (size - 5) + b'\ncheck'
        yield b'\xff' * size + b'\nbuild ' + b'1 ' * 20000 + b'\nbuild ' + b'1 ' * 16000 + b'\ntree'
    yield b'build 1 2 3\r\n\ttree\t\r\n # no\nticket 0\n' + b'ticket 1\n' * 256 + b'read 256\nread 257\nread 0\n'
    yield b'find [18446744073709551615,18446744073709551616)\nfind (0,18446744073709551615]\nfind [5,5)\nfind [5,5]\n'
    yield b'load\nsave\nload\nfind..\nfind [..,..]\nfind(3 , .. )\ntrace ..\nplain ..\nsvg\ndot\nslots\nremove 0\n'
    yield b'build 1 2 3  4\nbuild 4 5 6  1 2 3\nbuild 2 1 3\nfit 1 5 1\nfit 4 6 2\nfit 5 9 3\npoint 5\npoint 9\nticket 0\ninsert 2 6 4\nread 1\ndisjoint\npoint 1\nquit'
    yield b'build 1 2 3  3 4 5\nplan\nrenumber 1 0\ntree\nplan\ntidy\ntree\nrenumber 0\nrenumber 1 1\nrenumber 0 1 2\nunload [1,1)\nunload (1,3]\nunload ..\ntidy\nrenumber'
    for order in range(31), range(31, 0, -1), [k * 7 % 31 for k in range(31)]:
        yield long_talk(order)


# Pictures

def number(text, name):
    return int(re.search(r"[ ]%s='(\d+)'" % name, text)[1])


def ends(text):
    """Left, right, top and bottom of a box, and of a line."""
    x, y, width, height = (number(text, name) for name in ('x', 'y', 'width', 'height'))
    return x, x + width, y, y + height


def apart(a, b):
    return a[1] < b[0] or b[1] < a[0] or a[3] < b[2] or b[3] < a[2]


def drawn_well(svg):
    """No two boxes meet, also with their dashed borders, no line crosses a box, and each text is
    inside its box."""
    lines = svg.split('\n')
    width, height = number(lines[0], 'width'), number(lines[0], 'height')
    boxes, box = [], (0, width, 0, height)
    for line in lines[4:]:
        kind = re.match(r"<(\w+)(?: class='(\w)')?", line)
        if line.startswith('<rect'):
            if kind[2] in 'rb':
                box = ends(line)
                boxes.append(box)
            elif kind[2] == 'l':
                boxes[-1] = ends(line)
        elif line.startswith('<text'):
            words = re.search('>(.*)<', line)[1]
            half = len(words) * (6.1 if kind[2] == 's' else 7.3) / 2
            x, y = number(line, 'x') + (half if kind[2] == 'k' else 0), number(line, 'y')
            inside = box if kind[2] != 'k' else (0, width, 0, height)
            if not (inside[0] <= x - half and x + half <= inside[1] and inside[2] + 9 <= y <= inside[3] - 3):
                return False
    links = [(number(line, 'y1'), number(line, 'y2')) for line in lines if line.startswith('<line')]
    rows = {(top, bottom) for _, _, top, bottom in boxes}
    return (all(0 <= b[0] and b[1] <= width and 0 <= b[2] and b[3] <= height for b in boxes)
            and all(apart(a, b) for i, a in enumerate(boxes) for b in boxes[:i])
            and all(bottom - 8 <= start or end - 1 <= top + 8 for start, end in links for top, bottom in rows))


# A talk, line by line

def heard(source, end):
    """What is written up to an end, or within a minute."""
    text = b''
    while not text.endswith(end) and select.select([source], [], [], 60)[0]:
        piece = os.read(source, 4096)
        text += piece
        if not piece:
            break
    return text


def answers_at_once(run):
    """Through pipes, each line is answered before the next one is written."""
    with subprocess.Popen(run, stdin=subprocess.PIPE, stdout=subprocess.PIPE, bufsize=0) as shell:
        told = b''
        for line in b'check', b'insert 1 2 3', b'tree', b'what', b'remove 1', b'find [0,9)':
            before = answered(told).encode()
            told += line + b'\n'
            shell.stdin.write(line + b'\n')
            answer = answered(told).encode()[len(before):]
            if heard(shell.stdout.fileno(), answer) != answer:
                return False
        shell.stdin.close()
        return not shell.stdout.read()


def is_typed_to(run):
    """On a terminal it says how to begin, asks for each line, and ends at the end of the input."""
    ours, its = os.openpty()
    with subprocess.Popen(run, stdin=its, stdout=its) as shell:
        os.close(its)
        text = heard(ours, b'> ')
        for line in b'check\n', b'\4':
            os.write(ours, line)
            text += heard(ours, b'> ' if line != b'\4' else b'\n')
        shell.wait(60)
    os.close(ours)
    lines = [line.strip() for line in text.decode().split('\n')]
    return lines == [GREETING, '> check', 'sound: entries 0, root -, version 0', '>', '']


def main():
    if sys.argv[1:] == ['print']:
        sys.stdout.write(answered(sys.stdin.buffer.read()))
        return
    run, passed, failed, met = sys.argv[1:] or built_program(), 0, 0, set()
    r = random.Random(34)
    for k, talk in enumerate(list(fixed_talks()) + [some_talk(r) for _ in range(150)]):
        shell = Shell()
        out = subprocess.run(run, input=talk, capture_output=True).stdout
        pictures = re.findall('(?s)<svg.*?</svg>', out.decode('latin-1'))
        wrong = [what for what, there in (
            ('it answers otherwise than the model', out != answered(talk, shell).encode()),
            ('a tree is %d columns wide' % shell.widest, shell.widest > 100),
            ('something overlaps in a picture', not all(map(drawn_well, pictures)))) if there]
        met |= shell.met
        passed, failed = passed + (not wrong), failed + bool(wrong)
        for what in wrong:
            print('slotshell: talk %d, %r ..: %s' % (k, talk[:60], what))
    for what, good in ('an answer did not come at once', answers_at_once(run)), ('a talk on a terminal', is_typed_to(run)):
        passed, failed = passed + good, failed + (not good)
        if not good:
            print('slotshell: wrong: ' + what)
    missing = [str(name) for name in list(REFUSED) + list(BARE) + list(RANGED) + list(COUNTS) if name not in met]
    if missing:
        failed += 1
        print('slotshell: not met in any talk: ' + ', '.join(missing))
    print('slotshell: %d passed, %d failed' % (passed, failed))
    sys.exit(1 if failed or not passed else 0)


if __name__ == '__main__':
    main()
