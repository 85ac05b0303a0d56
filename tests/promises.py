#!/usr/bin/env python3
"""promises.py: every public function has a promise (docs/DECISIONS.md, 'What is a public
function').

A public function is a `pub fn`, a `pub extern "C" fn` or a function of a public trait: another
crate, or a host, can call it. What a trait promises holds of each type that implements it, by the
type's own ghost members. A trait's function is an inner one, and what its promise determines is
said of the functions that go through it. This reads the sources and the proofs. Each public
function must have an `ensures` that says what it returns, and what it leaves at its exit in all
that is lent to it by `&mut`. Either these are equations, of the answer and of each lent thing by
itself, or a theorem NAME-determined says that the promise leaves one choice. An equation of the
eight-word form of node words, `as_eight narrow`, is one of the words: `eight_injective` of
words/proofs/Layouts. A public call has no `requires`, and always has that theorem. An inner
function may have premises. A function that returns nothing and is lent nothing by `&mut` has
nothing to promise. `From` is std's trait: a type that implements it owes the ghost member that says
what `from` gives.

The static libraries of FACES only give the exports of a library their C names. Each of their
functions states the clauses of the library's function of its name, word for word, so that
function's theorem is its own.
"""
import pathlib
import re
import sys

TOP = pathlib.Path(__file__).resolve().parent.parent

# Here every public function is a public call.
CALLS = {'iset', 'disjoint', 'image_host', 'iset_c', 'iset_c_open', 'iset_c_disjoint', 'iset_c_image', 'iset_c_ruled', 'iset_c_narrow',
         'iset_c_c', 'iset_c_open_c', 'iset_c_disjoint_c', 'iset_c_ruled_c', 'slotlist_core', 'image_text', 'plan_text', 'lines'}
# But these modules hold what one crate of exports takes from the other: inner functions.
INNER = {('iset_c', 'answer'), ('iset_c', 'call'), ('iset_c', 'range'), ('iset_c_open', 'call'), ('iset_c_disjoint', 'answer')}
# And a function NAME_in of these crates does the work of two exports: iset_NAME, with nodes of
# eight words, and iset_narrow_NAME, with nodes of six. It is an inner function. Its promise is that
# of the one or of the other, by its argument `narrow`, so it is determined if both of them are.
BODIES, EXPORTS, NARROW = {'iset_c', 'iset_c_open', 'iset_c_disjoint', 'iset_c_ruled'}, 'exports', 'iset_c_narrow'
# Each static library with the library whose exports it gives their C names.
FACES = {face: face.removesuffix('_c') for face in ('iset_c_c', 'iset_c_open_c', 'iset_c_disjoint_c', 'iset_c_ruled_c')}
# Here the public calls are those that return one of these types, and `new`. The others are inner
# functions, as in all other crates.
ANSWERS = {'bitvec': {'Result'}, 'stack': {'Result', 'After'}}
# What these return and leave is what the system gives them, so no rule can say it. Their promise is
# a bound. docs/DECISIONS.md lists them too.
GIVEN = {('lines', 'read_all')}
# The methods of these types are the system's own calls. Nothing is owed of them but that they have
# no premise.
SYSTEM = {('lines', 'Streams')}
# The whole tree has more; a reading that finds fewer has gone wrong.
FEWEST_FUNCTIONS, FEWEST_CALLS = 100, 50


class Function:
    def __init__(self, crate, file, impl, head):
        code, *clauses = re.split(r'\s*\n\s*(?=(?:requires|ensures)(?: \w+)? \{)', head)
        self.crate = crate
        self.name = re.match(r'\w+', code)[0]
        # How the proofs call it: below the module of its file, or below its type, wherever that
        # stands.
        self.place = ([impl] if impl else [p for p in file if p != 'lib']) + [self.name]
        self.below_type = bool(impl)
        self.below_trait = False
        self.requires = any(c.startswith('requires') for c in clauses)
        self.ensures = [re.sub(r'\s+', ' ', c) for c in clauses if c.startswith('ensures')]
        self.lent = re.findall(r"(\w+): &(?:'\w+ )?mut ", code)
        self.parameters = re.sub(r'\s+', '', code).replace(',)', ')')
        result = re.search(r'\)\s*->\s*(.+?)\s*$', code)
        self.result = result[1] if result else None

    def __str__(self):
        return '::'.join([self.crate] + self.place)

    def is_call(self):
        if self.crate in ANSWERS:
            return str(self.result).split('<')[0] in ANSWERS[self.crate] or self.name == 'new'
        return self.crate in CALLS and (self.crate, self.place[0]) not in INNER and not self.is_body() and not self.below_trait

    def says_what(self, other):
        """Whether the other function has this one's name, parameters and clauses."""
        return (self.name, self.parameters, self.ensures) == (other.name, other.parameters, other.ensures)

    def is_body(self):
        return self.crate in BODIES and self.name.endswith('_in')

    def owed(self):
        """What the promise has to speak of, each as it stands in a clause."""
        return (['result'] if self.result else []) + ['%s.new' % x for x in self.lent]

    def unsaid(self):
        text = ' '.join(self.ensures)
        return [x for x in self.owed() if not re.search(r'(?<![\w.])%s(?!\w)' % re.escape(x), text)]

    def is_equations(self):
        text = re.sub(r'as_eight narrow (nodes\.new)\b', r'\1', ' '.join(self.ensures))
        return all(re.search(r'(?:[{(]|[})] ×) ?%s ≡ ' % re.escape(x), text) for x in self.owed())

    def is_determined(self, theorems):
        """Whether a theorem of the crate about this function's promise speaks of all that is owed."""
        for path, text in theorems:
            there = path[-len(self.place):] if self.below_type else path
            if there == self.place and ("r ≡ r'" in text or not self.result) and left_alike(text) >= len(self.lent):
                return True
        return False

    def are_exports_determined(self, told):
        """Whether a theorem speaks of each of the two exports that a body does the work of."""
        of = [(told[self.crate], [EXPORTS], 'iset_'), (told.get(NARROW, []), [], 'iset_narrow_')]
        return all(any(path[:len(module)] == module and path[-1] == before + self.name[:-len('_in')] and left_alike(text) >= len(self.lent)
                       for path, text in theorems) for theorems, module, before in of)


def left_alike(text):
    """How many of the things that are lent a theorem finds equal at two exits."""
    return len(re.findall(r"s'(?:\.\d+)+\.now\b", text))


def trait_functions(crate, path, text):
    """The functions of the public traits of a file. Only a trait's function has no body."""
    found = []
    for name, body in re.findall(r'^pub trait (\w+)[^{]*\{\n((?:.*\n)*?)\}', text, re.M):
        for head in re.findall(r'^    fn ((?:.|\n)*?);\n', body, re.M):
            found.append(Function(crate.name, path, name, head))
            found[-1].below_trait = True
    return found


def unsaid_from(crate):
    """The public types that implement std's `From` and do not say what `from` gives."""
    for file in sorted(crate.glob('src/**/*.rt')):
        text = file.read_text()
        public = re.findall(r'^pub (?:struct|enum) (\w+)', text, re.M)
        for name, body in re.findall(r'^impl From<[^\n]*> for (\w+) \{\n((?:.*\n)*?)\}', text, re.M):
            if name in public and not re.search(r'^    ghost from_gives = \{', body, re.M):
                yield name


def functions(crate):
    found = []
    for file in sorted(crate.glob('src/**/*.rt')):
        impl = None
        path = list(file.relative_to(crate / 'src').with_suffix('').parts)
        text = re.sub(r'//.*', '', file.read_text())
        for m in re.finditer(r'^impl (\w+) \{|^(\})|^ *pub (?:extern "C" )?fn ((?:.|\n)*?)\s*\{\n', text, re.M):
            if m[3]:
                found.append(Function(crate.name, path, impl, m[3]))
            else:
                impl = m[1]
        found += trait_functions(crate, path, text)
    return found


def theorems(crate):
    """Each theorem of determinedness in a file that the crate's proofs declare: the path of the
    function that it is about, and what it says."""
    found = []
    root = crate / 'proofs/Lib.antt'
    declared = re.findall(r'^pub mod (\w+)', root.read_text(), re.M) if root.exists() else []
    for module in declared:
        text = re.sub(r'--.*', '', (crate / 'proofs' / (module + '.antt')).read_text())
        aliases = {a: p.split('.') for p, a in re.findall(r'^use Rattle\.%s\.(?:proofs|specs\.contracts)\.(\S+?)(?:\.Reads)? as (\S+)$' % crate.name, text, re.M)}
        short = dict(re.findall(r'^ *abbrev (\S+) :.*\n((?: *\1 .*\n(?: +.*\n)*)+)', text, re.M))
        for name, said in re.findall(r'^ *pub (\S+[-_]determined) :((?:.|\n)*?)\n *\1 ', text, re.M):
            about = re.search(r'(\S+?)\.(?:Post|clauses)\b', said.replace('(', ' '))
            if about and about[1] in aliases:
                found.append((aliases[about[1]], said + ''.join(t for s, t in short.items() if re.search(r'(?<!\S)%s(?!\S)' % s, said))))
    return found


def main():
    bad = count = calls = proved = 0

    def wrong(what):
        nonlocal bad
        bad += 1
        print('promises: ' + what)

    crates = [c for c in sorted((TOP / 'crates').iterdir()) if c.is_dir()]
    told = {crate.name: theorems(crate) for crate in crates}
    found = {crate.name: functions(crate) for crate in crates}

    def is_determined(f):
        if f.crate not in FACES:
            return f.is_determined(told[f.crate])
        return any(f.says_what(g) and g.is_determined(told[g.crate]) for g in found[FACES[f.crate]])

    for crate in crates:
        proved += len(told[crate.name])
        for name in unsaid_from(crate):
            wrong('%s: no promise of what `from` gives for %s' % (crate.name, name))
        for f in found[crate.name]:
            count += 1
            if (f.crate, f.place[0]) in SYSTEM:
                if f.requires:
                    wrong('%s: a premise' % f)
                continue
            if (f.crate, f.name) in GIVEN:
                if not f.ensures or f.requires:
                    wrong('%s: no promise, or a premise' % f)
                continue
            calls += f.is_call()
            if f.unsaid():
                wrong('%s: no promise about %s' % (f, ', '.join('what it returns' if x == 'result' else x for x in f.unsaid())))
            elif f.below_trait:
                continue
            elif (f.is_call() or f.is_body()) and f.requires:
                wrong('%s: a public call has a premise' % f)
            elif f.is_body():
                if not f.are_exports_determined(told):
                    wrong('%s: no theorem says that the promises of its two exports determine it' % f)
            elif f.owed() and (f.is_call() or not f.is_equations()) and not is_determined(f):
                wrong('%s: no theorem says that its promise determines it' % f)
    if count < FEWEST_FUNCTIONS or calls < FEWEST_CALLS or proved < FEWEST_CALLS:
        wrong('too little was found')
    print('promises: %d public functions, %d of them public calls; %d theorems; %d wrong' % (count, calls, proved, bad))
    return 1 if bad else 0


if __name__ == '__main__':
    sys.exit(main())
