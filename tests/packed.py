#!/usr/bin/env python3
"""A recorded run of `drive` once more, with nodes of six words.

    packed.py REQUESTS ANSWERS SIX_REQUESTS SIX_ANSWERS    from the first two files to the other two
    packed.py --vectors        makes the second half of crates/test_vectors, from `layout 6` on, again
    packed.py --compare REQUESTS EXPECTED ANSWERS          of a run in six words; the status is 1 if one differs

Each store is packed, and so are the node words that an answer says have changed. All else of a
request and of its answer is as it was recorded: nothing is worked out here. Left out are lines that
fit nothing, lines that see no node words (the bit and stack calls, and `chost`), and lines on a
store that has, below its count, a link that 16 bits cannot hold. The last kind is counted."""
import pathlib
import sys

import drive
import model

TOP = pathlib.Path(__file__).resolve().parent.parent
U = model.U
BEGIN = "layout 6"
SETTINGS = "store", "bytes", "commit", "version"
WITHOUT_NODES = tuple(drive.BIT_CALLS) + tuple(drive.STACK_CALLS) + ("chost",)


def is_setting(text):
    name, *tokens = text.split(" ")
    try:
        return name in SETTINGS and getattr(drive.Drive(), "do_" + name)(drive.Numbers(tokens)) is None
    except drive.What:
        return False


def paired(requests, answers, more=False):
    """Each line with its answer, if it has one. There may be more answers."""
    answers = iter(answers)
    for text in requests:
        silent = text == "" or text.startswith("#") or is_setting(text)
        yield text, None if silent else next(answers)
    assert more or next(answers, None) is None


def links_fit(count, words):
    live = range(min(count, len(words) // 8))
    return all(link < 65535 or link == U for slot in live for link in words[8 * slot + model.LEFT:8 * slot + 8])


def packed(words):
    """Six words for each eight, and at most five of what is left, so that there are as many nodes.
    Of a link that 16 bits cannot hold the lowest bits stay, of a parent 32: past the count anything
    may be there, top bits too."""
    wide, tops = list(words), []
    for at in range(0, len(words) - 7, 8):
        parent = words[at + model.PARENT]
        tops.append(0 if parent == U else parent // 65536 % 65536)
        for k in range(at + model.LEFT, at + 8):
            wide[k] = U if words[k] == U else words[k] % 65536
    return model.pack(wide, tops)[:6 * len(tops) + 5]


def changed(content, numbers):
    """The content after the CHANGES that the numbers begin with, and the places that changed."""
    content, places = list(content), numbers[1:2 * numbers[0] + 1:2]
    for k, at in enumerate(places):
        content[at] = numbers[2 * k + 2]
    return content, places


def packed_after(six, words, places):
    """`packed(words)`, if all but these places of the words are packed in `six`."""
    six = list(six)
    for slot in {at // 8 for at in places}:
        six[6 * slot:6 * slot + 6] = packed(words[8 * slot:8 * slot + 8])
    return six


class Run:
    """Follows the recorded run by its own answers: the store's words, also in six words a node, the
    bytes, and what the last request left of them. `kept` says that the run in six words has the
    same store, `left_kept` that it made the last request."""

    def __init__(self):
        self.words, self.six, self.bytes, self.left = [], [], [], {}
        self.kept = self.left_kept = True
        self.six_bytes, self.comment = [], None
        self.requests, self.answers, self.left_out = [], [], 0

    def emit(self, text, answer=None):
        if self.comment is not None:
            self.requests.append(self.comment)
        self.comment = None
        self.requests.append(text)
        if answer is not None:
            self.answers.append(answer)

    def setting(self, name, numbers, text):
        if name == "store":
            self.words = numbers[3:3 + numbers[2]]
            self.kept = links_fit(numbers[0], self.words)
            self.six = packed(self.words)
            if self.kept:
                self.emit(" ".join(map(str, ["store", *numbers[:2], len(self.six), *self.six, *numbers[3 + numbers[2]:]])))
        elif name == "bytes":
            self.bytes = numbers[1:]
        elif name == "commit":
            self.commit(text)
        elif self.kept:
            self.emit(text)

    def commit(self, text):
        vars(self).update(self.left)
        if "words" in self.left:
            self.kept = self.left_kept
        if self.left_kept:
            self.emit(text)
            self.six_bytes = self.left.get("bytes", self.six_bytes)

    def without_nodes(self, name, answer):
        """A bit call can leave bytes, and `chost` leaves the store, for `commit`."""
        if name in drive.BIT_CALLS:
            numbers = list(map(int, answer.split(" @ ")[1].split(" ")))
            self.left, self.left_kept = {"bytes": changed(self.bytes, numbers)[0]}, False
        elif name == "chost":
            self.left, self.left_kept = {"words": self.words, "six": self.six}, False

    def request(self, name, text, answer):
        head, sign, tail = answer.partition(" @ ")
        kept = self.left_kept if name == "last" else self.kept
        if kept and name == "load" and self.six_bytes != self.bytes:
            self.six_bytes = self.bytes
            self.emit(" ".join(map(str, ["bytes", len(self.bytes), *self.bytes])))
        if sign:
            numbers = list(map(int, tail.split(" ")))
            after, places = changed(self.words, numbers)
            six = packed_after(self.six, after, places)
            shown = list(map(int, head.split(" ")))
            self.left = {"bytes": shown[3:3 + shown[1]]} if name == "write" and shown[0] == 0 else {"words": after, "six": six}
            self.left_kept = kept
            answer = " ".join([head, "@", drive.changes(self.six, six), *map(str, numbers[2 * len(places) + 1:])])
        if kept:
            self.emit(text, answer)
        else:
            self.left_out += 1

    def line(self, text, answer):
        name, *tokens = text.split(" ")
        if text.startswith("#"):
            self.comment = text
        elif answer is None and text:
            self.setting(name, list(map(int, tokens)), text)
        elif name in WITHOUT_NODES and answer != "what":
            self.without_nodes(name, answer)
        elif answer not in (None, "what"):
            self.request(name, text, answer)


def run_of(requests, answers):
    run = Run()
    for text, answer in paired(requests, answers):
        run.line(text, answer)
    return run


def read(path):
    return pathlib.Path(path).read_text().split("\n")[:-1]


def write(path, lines):
    pathlib.Path(path).write_text("".join(line + "\n" for line in lines))


def told(run):
    print(f"{len(run.requests)} lines and {len(run.answers)} answers in six words; {run.left_out} requests were left out: 16 bits cannot hold a link")


def vectors():
    """The recorded lines are those before `layout 6`."""
    files = [TOP / "crates/test_vectors" / name for name in ("stdin", "stdout")]
    requests, answers = map(read, files)
    if BEGIN in requests:
        requests = requests[:requests.index(BEGIN)]
    answers = answers[:sum(1 for text in requests if text and not text.startswith("#") and not is_setting(text))]
    run = run_of(requests, answers)
    write(files[0], requests + [BEGIN] + run.requests)
    write(files[1], answers + run.answers)
    told(run)


def compare(requests, expected, answers):
    """Shows the first difference, as the store line, the request and both answers."""
    requests, expected, answers = map(read, (requests, expected, answers))
    store = ""
    if len(expected) != len(answers):
        sys.exit(f"in six words: {len(answers)} answers to {len(expected)} requests")
    for text, both in paired(requests[1:], zip(expected, answers)):
        store = text if text.startswith("store ") else store
        if both and both[0] != both[1]:
            sys.exit("in six words an answer differs\n%s\n%s\ncrate: %s\ndrive: %s" % (store, text, *both))
    print(f"{len(answers)} answers compared in six words, all equal")


def main():
    if sys.argv[1:] == ["--vectors"]:
        return vectors()
    if sys.argv[1:2] == ["--compare"]:
        return compare(*sys.argv[2:])
    requests, answers, six_requests, six_answers = sys.argv[1:]
    run = run_of(read(requests), read(answers))
    write(six_requests, [BEGIN] + run.requests)
    write(six_answers, run.answers)
    told(run)


if __name__ == "__main__":
    main()
