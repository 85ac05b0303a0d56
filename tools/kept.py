#!/usr/bin/env python3
"""kept.py: uses what `rt ci` proved and kept on this machine, so that nothing is proved again.

usage: tools/kept.py CRATE..            says which of these crates, and of those below them, are not
                                        kept, one a line; the status is 3 if there is one
       tools/kept.py --archives TO CRATE=NAME..
                                        writes TO/libNAME.a of each static library, over the
                                        libraries below it as they were kept; the static library
                                        itself is proved here. Prints each archive. The status is 3,
                                        and nothing is written, if a library below is not kept

`rt` has no command for this: `rt lib` builds its own libraries, and proves each from nothing in a
clone that has none. So this calls parts of the installed rt's own script, as tests/refusals.py
does. If a newer rt has other parts, both say so and end with status 2.
"""
import contextlib
import filecmp
import importlib.machinery
import importlib.util
import os
import pathlib
import shutil
import sys
import tempfile

TOP = pathlib.Path(__file__).resolve().parent.parent
PARTS = ('rtlib', 'Crate', 'Kept', 'copy_crates', 'crates_of', 'handles_of', 'in_lanes', 'need', 'seeded', 'work_for', 'linked', 'checked', 'read_edit')


def stop(why):
    print(f'{pathlib.Path(sys.argv[0]).stem}: {why}', file=sys.stderr)
    sys.exit(2)


def loaded():
    """The installed rt's own script."""
    path = shutil.which('rt')
    if not path:
        stop("there is no rt on the PATH (README.md, 'What it needs')")
    sys.dont_write_bytecode = True
    loader = importlib.machinery.SourceFileLoader('rt', os.path.realpath(path))
    rt = importlib.util.module_from_spec(importlib.util.spec_from_loader('rt', loader))
    sys.modules['rt'] = rt
    try:
        loader.exec_module(rt)
    except Exception as error:
        stop(f'{path} cannot be read as a script: {error}')
    gone = [it for it in PARTS if not hasattr(rt, it)]
    if gone:
        stop(f'the installed rt has no {", ".join(gone)}: this is written for another one (tools/kept.py)')
    # its first call sets a signal's handler, which only the main thread may
    rt.rtlib.guarded()
    return rt


class Room:
    """A copy of the repository in which each crate of some has its library, or its program, as
    `rt ci` kept it. `lacking` has those that it did not keep."""

    def __init__(self, rt, names, top=TOP):
        self.rt, self.names, self.top = rt, names, str(top)

    def __enter__(self):
        rt, self.closing = self.rt, contextlib.ExitStack()
        with self.closing:
            self.folder = self.closing.enter_context(tempfile.TemporaryDirectory(prefix=f'rt-copy-{os.getpid()}-'))
            root = f'{self.folder}/repo'
            rt.copy_crates(self.top, root)
            os.mkdir(f'{root}/.git')
            # as under rt ci: the crates above a library load its statements
            rt.Crate.cuts_libraries = True
            rt.Crate.allowed = rt.handles_of(root)
            every = rt.crates_of(root)
            unknown = {*self.names} - {it.name for it in every}
            if unknown:
                stop(f'crates.txt lists no {", ".join(sorted(unknown))}')
            wanted = {below for it in every if it.name in self.names for below in [it, *it.below()]}
            self.crates = {it.name: it for it in every if it in wanted}
            self.lacking = []
            self.kept = kept = rt.Kept([*self.crates.values()])
            for crate in self.crates.values():
                if any(it.name in self.lacking for it in crate.below()):
                    self.lacking.append(crate.name)
                    continue
                os.makedirs(f'{crate.folder}/out', exist_ok=True)
                if kept.give(crate, False, kept.key(crate)):
                    kept.is_built(crate)
                else:
                    self.lacking.append(crate.name)
            self.closing = self.closing.pop_all()
        return self

    def prove_lacking(self):
        """Proves what is lacking, from nothing, as rt ci would. Returns a line on each that fails."""
        lacking, self.unproved = [it for it in self.crates if it in self.lacking], []
        above = {below.name for it in self.names for below in self.crates[it].below()}
        wrong = []
        for name in lacking:
            crate = self.crates[name]
            if name not in above:
                continue
            crate.out = sys.stderr
            print(f'kept: rt ci kept no proof here of {name}, so it is proved now', file=sys.stderr, flush=True)
            if any(it.name in self.unproved for it in crate.below()) or crate.build_rlib(['--jobs', str(self.rt.processors())], anew=True):
                self.unproved.append(name)
                wrong.append(f'{name} is not proved')
        self.unproved += [it for it in self.names if any(below.name in self.unproved for below in self.crates[it].below())]
        return wrong

    def __exit__(self, *how):
        self.closing.close()


def archives(to, pairs):
    rt = loaded()
    faces = dict(it.split('=') for it in pairs)
    with Room(rt, [*faces]) as room:
        lacking = [it for it in room.lacking if it not in faces]
        if lacking:
            print(f'kept: rt ci kept no proof here of {" ".join(lacking)}', file=sys.stderr)
            return 3
        to.mkdir(parents=True, exist_ok=True)
        for face, name in faces.items():
            crate, made = room.crates[face], f'out/lib{name}.a'
            crate.out = sys.stderr
            os.makedirs(f'{crate.folder}/out', exist_ok=True)
            if crate.compile(['--jobs', '2'], made):
                return 1
            # an archive that is the same keeps its date, so that nobody links again
            source, target = pathlib.Path(crate.folder, made), to / f'lib{name}.a'
            if not target.is_file() or not filecmp.cmp(source, target, shallow=False):
                shutil.copyfile(source, target)
            print(target)
    return 0


def main():
    words = sys.argv[1:]
    if not words or words[0].startswith('-') and (words[0] != '--archives' or len(words) < 3):
        sys.exit(__doc__)
    if words[0] == '--archives':
        return archives(pathlib.Path(words[1]).absolute(), words[2:])
    with Room(loaded(), words) as room:
        for name in room.lacking:
            print(name)
        return 3 if room.lacking else 0


if __name__ == '__main__':
    sys.exit(main())
