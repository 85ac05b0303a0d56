#!/usr/bin/env python3
"""refusals.py: every change of every must-fail edit is refused by itself, and for the named reason.

usage: tests/refusals.py [CRATE..]

rt tries an edit, and asks that the crate be refused. An edit may hold several changes, and one of
them would be enough for that. So this compares each edit, crates/NAME/must-fail/LABEL.edit, with
the form below. Then it has the prover check the crate with the edit, as rt does, over the libraries
that `rt ci` kept on this machine, and compares the names in the edit with all that the prover says.
It leaves that in target/must-fail/NAME/LABEL/.log, and makes anew only what is out of date: a log
that is older than the edit, than a file of the crate, or than a file of a crate below it. What it
made of the same files, over the same libraries, in another checkout on this machine, it takes from
~/.cache/pilkhusan-refusals (or below XDG_CACHE_HOME). RT_JOBS says how many checks may run at a
time: as many as there are processors, if it is not set. With REFUSALS_MINUTES=N no check begins
after N minutes, and this fails if an edit was not tried by then.

The form. An edit is a list of changes. A change is, in this order:
  `# ..`              a sentence on what the change makes wrong, on one line or more. A change
                      without one is one more of what the last sentence says.
  `file: ..`          the file of the pairs after it, up to the next such line.
  `old: ..`/`new: ..` a pair. A change has one, besides those inside a `use` line, which only bring
                      in a name. If one change takes N pairs, its own sentence says `in N places`.
  `refused: ..`       what must not be proved because of this change: one name or more, and no name
                      twice in one edit. A function is named by its path, as iset::Map::check. A
                      theorem is named by its name, as new-determined, with its file before it, as
                      Fills.turn, if several files have one.

The log. A function counts as refused if its own proof fails, not if it only calls one that is not
proved. A theorem counts if it is refused itself, not if it only cites one that is. One of the
errors must say that a fact does not hold, or that no proof of it is found (FACT). An error shows
nothing if it says only that the proof's text does not fit the changed code, as a field or a name
that is gone. The prover names a goal by the code, `then-self-le32`, so a change of a number in the
code changes the name. Such a name is brought up to date in the changed crate's answers, and the
check is made once more: then the old answer meets the new goal.
"""
import difflib
import hashlib
import os
import pathlib
import re
import shutil
import sys
import tempfile
import time

sys.path.insert(0, str(pathlib.Path(__file__).resolve().parent.parent / 'tools'))
import kept

TOP = pathlib.Path(__file__).resolve().parent.parent

# What the prover says of a goal that does not follow. Anything else, as `has no field`, `can be
# named from here` or `no occurrence`, is of the text.
FACT = re.compile(
    r'`(?:omega|grind)`: the (?:goal|part `[^`]*` of the goal) does not follow'
    r'|`search`: no proof of '
    r'|`search` did not prove '
    r'|allow values at which this goal is false'
    r'|`cc` [^`]*equations had joined '
    r'|must be a path whose two ends are equal, and '
    r'|expected type `(?!goal\.)'
)
# What ends a log: the status of the check.
ENDED = re.compile(r'\nrefusals: the check ended with status (-?\d+)\n\Z')


class Change:
    def __init__(self):
        self.says, self.pairs, self.names = '', [], []


def is_import(crate, file, old):
    """Whether a pair's old text stands inside a `use` line."""
    path = crate / file
    lines = path.read_text().splitlines() if path.is_file() else []
    return any(old in line and re.match(r'(ghost )?use ', line) for line in lines)


def changes_of(text):
    """The changes of an edit, and what is wrong with its form."""
    changes, wrong, file, old = [Change()], [], None, None
    for number, line in enumerate(text.splitlines(), 1):
        key, _, rest = line.partition(' ')
        if changes[-1].names and key != 'refused:':
            changes.append(Change())
        now = changes[-1]
        if old is not None and key != 'new:':
            wrong.append(f'line {number}: `new:` is missing')
        if key == '#' and not now.pairs:
            now.says += ' ' + rest
        elif key == 'file:':
            file = rest
        elif key == 'old:' and file:
            old = rest
            continue
        elif key == 'new:' and old is not None:
            now.pairs.append((file, old))
        elif key == 'refused:' and now.pairs and rest:
            now.names.append(rest)
        else:
            wrong.append(f'line {number}: `{line}` does not stand in its place')
        old = None
    return changes, wrong


def form(crate, text):
    """The names of each change of an edit, and what is wrong with the edit's form."""
    changes, wrong = changes_of(text)
    if not changes[0].says:
        wrong.append('it does not begin with a sentence on what its change makes wrong')
    for change in changes:
        places = sum(not is_import(crate, file, old) for file, old in change.pairs)
        said = re.search(r'\bin (\d+) places\b', change.says)
        what = f'the change of {change.names[0]}' if change.names else 'its last change'
        if not change.names:
            wrong.append(f'{what} names nothing that is refused')
        if places != (int(said[1]) if said else 1):
            wrong.append(f'{what} has {places} pairs: either it is several changes, or its sentence says `in {places} places`')
    names = [name for change in changes for name in change.names]
    wrong += [f'{name} is named twice' for name in sorted(set(names)) if names.count(name) > 1]
    return [change.names for change in changes], wrong


def said_of(log):
    """The state of each function, and what the prover said: of each theorem of each file, unless it
    only cites a refused one; and of each function whose proof is not in a file."""
    states, errors, made = {}, {}, {}
    notes = []
    for block in re.split(r'\n(?! )', log):
        error = re.match(r'(?:\./)?(\S+?):\d+:\d+: error: `([^`]+)`', block)
        function = re.match(r'fn (\S+): (.*)', block)
        if error and 'was not admitted' not in block:
            errors.setdefault((error[1], error[2]), []).append(block)
        elif re.match(r'note: (what antt said of |(\./)?src/)', block):
            notes.append(block)
        elif function:
            states[function[1]], made[function[1]] = function[2], notes
            notes = []
    return states, errors, made


def cycles(crate):
    """The folder of the shared proof of each function of a cycle of calls, by the function's path."""
    found = {}
    for file in sorted(crate.glob('src/**/*.rt')):
        path, kind = [part for part in file.relative_to(crate / 'src').with_suffix('').parts if part not in ('lib', 'main')], None
        for line in re.finditer(r'^impl (\w+) \{|^(\})|#\[cycle\((\w+)\)\]\s*(?:pub )?fn (\w+)', file.read_text(), re.M):
            if line[3]:
                # below the module of its file, or below its type, wherever that stands
                found['::'.join([crate.name, *([kind] if kind else path), line[4]])] = '+' + line[3]
            else:
                kind = line[1]
    return found


def of_function(name, said, cycle):
    """What the prover said of a function's own proof: nothing if the function is proved, or only
    calls or cites what is not."""
    states, errors, made = said
    state = states.get(name, '')
    if not state.startswith(('not proved', 'no proof')) or re.search(r'(?:;|^no proof:) it calls ', state):
        return []
    *path, last = name.split('::')[1:]
    shared = re.escape(cycle or f'+{last}')
    own = re.compile('/'.join(['proofs', *path, rf'(?:{last}|{shared}|(?:\+\w+)*\+{last}(?:\+\w+)*)', r'(?:Proof|Answers|Invariants)\.antt']))
    return [state] + made[name] + [block for (file, _), blocks in errors.items() if own.fullmatch(file) for block in blocks]


def of_theorem(name, said):
    """What the prover said of a theorem: nothing if it stands, or only cites one that does not."""
    *module, last = name.split('.')
    found = {file: blocks for (file, theorem), blocks in said[1].items() if theorem == last and (not module or pathlib.Path(file).stem == module[-1])}
    if len(found) > 1:
        return [f'it stands in {len(found)} files, and its own must be named before it']
    return next(iter(found.values()), [])


def below(crate):
    """A crate and all that it stands on, as crates.txt has it."""
    rows = [line.partition('#')[0].partition(':') for line in (TOP / 'crates.txt').read_text().splitlines()]
    needs = {name.strip(): rest.split() for name, _, rest in rows if name.strip()}
    found, todo = {crate}, [crate]
    while todo:
        more = needs.keys() & set(needs.get(todo.pop(), [])) - found
        found |= more
        todo += more
    return found


def newest(crate):
    """The file of a crate, or of one below it, that was written last."""
    files = [file for name in below(crate) for part in ('src', 'specs', 'proofs') for file in (TOP / 'crates' / name / part).rglob('*') if file.is_file()]
    return max(files, key=lambda file: file.stat().st_mtime)


def log_of(edit):
    return TOP / 'target/must-fail' / edit.parts[-3] / edit.stem / '.log'


def is_made(edit):
    """Whether the log of an edit is there, whole, and of the files as they are now."""
    log = log_of(edit)
    if not log.exists() or not ENDED.search(log.read_text()):
        return False
    later = max(edit, newest(edit.parts[-3]), key=lambda file: file.stat().st_mtime)
    return later.stat().st_mtime <= log.stat().st_mtime


def of_log(crate, edit, names):
    """What is wrong with what the log of an edit says."""
    log = log_of(edit)
    text = log.read_text() if log.exists() else ''
    ended = ENDED.search(text)
    if not ended:
        return ['it was not tried']
    # 3 is a limit of the prover; what else it said by then counts
    if ended[1] != '3' and '\nlogic=not-proved' not in text:
        said = next((line for line in text.splitlines() if 'error' in line), 'the crate is proved with it')
        return [f'its check ended with status {ended[1]} and no refusal: {said[:200]}']
    said, wrong = said_of(text), []
    shared = cycles(TOP / 'crates' / crate)
    for name in names:
        blocks = of_function(name, said, shared.get(name)) if '::' in name else of_theorem(name, said)
        if not blocks:
            wrong.append(f'{name} is not refused, or only for what it calls or cites')
        elif not any(FACT.search(block) for block in blocks):
            wrong.append(f'{name} is refused for the text of its proof alone: ' + '; '.join(block.split(': ', 2)[-1][:200] for block in blocks))
    return wrong


def renamed(read, said):
    """The files of proofs/ that name goals which the changed code has by another name, with today's
    names, and a line on each. `read` gives a file's text. A name is only taken for another's if
    they are much alike and no other is as near."""
    asks = {}
    for missing, goals, _, places in re.findall(r'^help: `\S+` has no `([^`]+)`; rattle asks for ((?:`[^`]+`(?:, )?)+)(; a `use` line of it can name these places: ((?:`[^`]+`(?:, )?)+))?', said, re.M):
        asks[missing] = re.findall(r'`([^`]+)`', places if missing[:1].isupper() else goals)
    texts, lines = {}, []
    for file in sorted(set(re.findall(r'^(?:\./)?(proofs/\S+?\.antt):\d+:\d+: error: .*has no `[^`]+` that can be named', said, re.M))):
        text, taken = read(file), set()
        for missing in sorted(asks):
            word = re.compile(rf'(?<![\w-]){re.escape(missing)}(?![\w-])')
            near = [it for it in asks[missing] if it not in taken and difflib.SequenceMatcher(None, missing, it).ratio() >= 0.7]
            if word.search(text) and near:
                taken.add(near[0])
                text = word.sub(near[0], text)
                lines.append(f'refusals: {file}: `{missing}` is `{near[0]}` now')
        if taken:
            texts[file] = text
    return texts, lines


def tried(rt, crate, edit, seed):
    """What the prover says of a crate with an edit, over what it proved of the crate without."""
    texts, why = rt.read_edit(str(edit), crate.folder)
    if why:
        return f'refusals: {why}', -1
    with tempfile.TemporaryDirectory(prefix=f'rt-edits-{os.getpid()}-') as room:
        rt.linked(seed, f'{room}/over')
        lines = []
        for _ in range(3):
            ran = rt.checked(crate, texts, ['--jobs', '1'], f'{room}/over')
            more, says = renamed(lambda file: texts.get(file) or pathlib.Path(crate.folder, file).read_text(), ran.stdout)
            if not more:
                break
            texts.update(more)
            lines += says
        return '\n'.join([*lines, ran.stdout]), ran.returncode


# What earlier runs on this machine made, by a sum of all that a log rests on. CACHED goes up by one
# if `tried` comes to do something else.
CACHE = pathlib.Path(os.environ.get('XDG_CACHE_HOME') or pathlib.Path.home() / '.cache') / 'pilkhusan-refusals'
CACHED = 1
DAYS = 30


def place_of(room, edit):
    """Where the cache has the log of an edit; None if the libraries below were not kept by rt ci."""
    crate = room.crates[edit.parts[-3]]
    if room.lacking and {crate.name, *(it.name for it in crate.below())} & {*room.lacking}:
        return None
    rests_on = (CACHED, room.kept.key(crate), edit.name, edit.read_bytes())
    return CACHE / f'{hashlib.sha256(repr(rests_on).encode()).hexdigest()}.log'


def put(path, text):
    """Writes a file whole, so that no other run meets half of it."""
    path.parent.mkdir(parents=True, exist_ok=True)
    with tempfile.NamedTemporaryFile('w', dir=path.parent, prefix='new-', delete=False, encoding='utf-8') as file:
        file.write(text)
    os.replace(file.name, path)


def take(room, edits):
    """Takes the logs that the cache has. Returns the edits that it lacks."""
    lacking = []
    for edit in edits:
        place = place_of(room, edit)
        text = place.read_text() if place and place.is_file() else ''
        if ENDED.search(text):
            os.utime(place)
            put(log_of(edit), text)
        else:
            lacking.append(edit)
    for file in CACHE.glob('*'):
        if file.stat().st_mtime < time.time() - DAYS * 86400:
            file.unlink()
    return lacking


def make(edits):
    """Makes the logs of these edits. Returns what went wrong, and the edits that were not tried in
    the time."""
    rt, wrong, late = kept.loaded(), [], []
    minutes = os.environ.get('REFUSALS_MINUTES', '')
    end = time.time() + 60 * float(minutes) if minutes else float('inf')
    names = sorted({edit.parts[-3] for edit in edits})
    with kept.Room(rt, names) as room:
        edits = take(room, edits)
        names = sorted({edit.parts[-3] for edit in edits})
        wrong += room.prove_lacking()
        # a check begins with what an earlier one of the same crate left, here or in another checkout
        here = {it.name: it for it in rt.rtlib.crates_below(str(TOP))}

        def seed(name, jobs):
            if time.time() > end:
                return None
            made = rt.seeded(room.crates[name], ['--jobs', str(jobs)], rt.work_for(here[name]))
            if not made:
                wrong.append(f'{name} is not proved as it stands, so its edits were not tried')
            return made

        def one(given, edit):
            made = given[edit.parts[-3], 'seed']
            if time.time() > end:
                late.append(edit)
            elif made:
                said, status = tried(rt, room.crates[edit.parts[-3]], edit, f'{made}/seed')
                text, place = f'{said.rstrip()}\nrefusals: the check ended with status {status}\n', place_of(room, edit)
                put(log_of(edit), text)
                # any other status may be of this run alone
                if place and status in (0, 1):
                    put(place, text)
            if made:
                left[edit.parts[-3]] -= 1
                if not left[edit.parts[-3]]:
                    shutil.rmtree(made, ignore_errors=True)

        tasks, left = {}, {}
        for name in names:
            if name in room.unproved:
                continue
            crate, own = room.crates[name], [edit for edit in edits if edit.parts[-3] == name]
            left[name], lines = len(own), crate.count(rb'\n')
            tasks[name, 'seed'] = ([], lines, rt.need(crate), lambda given, jobs, name=name: seed(name, jobs))
            for edit in own:
                tasks[name, 'edits', edit.stem] = ([(name, 'seed')], lines, 0.7 * rt.need(crate), lambda given, jobs, edit=edit: one(given, edit))
        rt.in_lanes(tasks)
    return wrong, late


def main():
    edits = sorted(it for it in TOP.glob('crates/*/must-fail/*.edit') if it.parts[-3] in (sys.argv[1:] or [it.parts[-3]]))
    changes = names = bad = 0
    old = [edit for edit in edits if not is_made(edit)]
    unmade, late = make(old) if old else ([], [])
    for line in unmade:
        bad += 1
        print(f'refusals: {line}')
    for edit in edits:
        crate = edit.parts[-3]
        groups, wrong = form(edit.parents[1], edit.read_text())
        named = [name for group in groups for name in group]
        changes, names = changes + len(groups), names + len(named)
        wrong += of_log(crate, edit, named) if edit not in late else []
        bad += len(wrong)
        for line in wrong:
            print(f'refusals: {crate}/{edit.stem}: {line}')
    if not edits:
        print('refusals: there is no edit')
    if late:
        print(f'refusals: {len(late)} edits were not tried in the time')
    print(f'refusals: {len(edits)} edits, {changes} changes, {names} names, {bad} wrong')
    return 1 if bad or late or not edits else 0


if __name__ == '__main__':
    sys.exit(main())
