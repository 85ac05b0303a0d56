#!/usr/bin/env python3
"""lines.py REQUESTS ANSWERS: takes the recorded lines of the programs drive and test_vectors that
lines.c takes, if the store has nodes of eight words and passes the check, or if the line is about
bytes alone. It writes them, each after a line `store` or `bytes`, to REQUESTS, and the recorded
answers to ANSWERS. A line `store` has the version in front."""
import pathlib
import sys

TOP = pathlib.Path(__file__).resolve().parent.parent.parent
sys.path.insert(0, str(TOP / 'tests'))
import drive  # noqa: E402
import model  # noqa: E402

TAKEN = 'remove ', 'insert ', 'fresh e ', 'step ', 'drain ', 'plain ', 'find ', 'read ', 'write ', 'checkd', 'point ', 'insertd ', 'removed ', 'unload ', 'propose ', 'renumber '


def store_line(store):
    parts = [store.version, store.count, store.root, len(store.words), *store.words, len(store.colours), *store.colours]
    return ' '.join(map(str, ['store', *parts]))


def setting_of(session, text):
    """The line that gives what the request works on, or nothing if it is not taken."""
    if text.startswith('chost '):
        return ' '.join(map(str, ['bytes', len(session.bytes), *session.bytes]))
    if text.startswith(TAKEN) and not session.narrow and model.refuse_store(session.store) == 0:
        return store_line(session.store)
    return None


def taken(program):
    """Each request with its setting before it and its recorded answer after it."""
    recorded = iter((TOP / f'crates/{program}/stdout').read_text().splitlines())
    session = drive.Drive()
    for text in (TOP / f'crates/{program}/stdin').read_text().split('\n'):
        if text == '' or text.startswith('#'):
            continue
        setting = setting_of(session, text)
        try:
            answer = session.line(text)
        except drive.What:
            answer = 'what'
        if answer is None:
            continue
        answer = next(recorded)
        if answer != 'what' and setting is not None:
            yield setting, text, answer


def main():
    sys.setrecursionlimit(100000)
    requests, answers, last = [], [], {}
    for program in 'drive', 'test_vectors':
        for setting, request, answer in taken(program):
            name = setting.split(' ')[0]
            if setting != last.get(name):
                requests.append(setting)
                last[name] = setting
            requests.append(request)
            answers.append(answer)
    for path, lines in zip(sys.argv[1:], (requests, answers)):
        pathlib.Path(path).write_text('\n'.join(lines) + '\n')


if __name__ == '__main__':
    main()
