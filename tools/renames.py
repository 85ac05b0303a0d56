#!/usr/bin/env python3
"""Renames names, functions, modules and crates, in sources, must-fail edits, papers and tests.

    tools/renames.py ROOT            over a copy of the repository; twice comes to the same as once
    tools/renames.py --patch FILE    over a patch against the old names, to standard output

Add a row to a table below and run it. A name is replaced where it stands as a whole: in antt a
name may hold - _ ' and digits. Names that are plain English words are replaced in code and between
backquotes only, so that comments keep their sense: read those yourself.
"""
import functools
import os
import re
import sys

# Crates: old name, new name.
CRATES = [
    ("tree_rm_links", "tree_links"),
    ("tree_rm_laws", "tree_rm_rule"),
    ("tree_in_laws", "tree_in_rule"),
    ("plain_laws", "plain_rule"),
    ("fast_laws", "fast_rule"),
    ("capi_open", "iset_c_open"),
    ("capi", "iset_c"),
    ("driver", "drive_core"),
    ("slotcases", "test_slotcases"),
    ("slots", "slotlist_core"),
    ("examples", "test_document"),
    ("bits", "test_bits"),
    ("limits", "test_limits"),
    ("vectors", "test_vectors"),
]

# Crates whose old name is a word of its own too: their names are replaced in paths, in crates.txt
# and in front of `::` in an edit or in another crate's code alone.
WORDS = {"slots", "examples", "bits", "limits", "vectors"}

# Modules: crate (its new name), specs or proofs, old name, new name.
MODULES = [
    ("tree", "specs", "Hues", "RedBlack"),
    ("tree_edit", "proofs", "Turns", "Rotations"),
    ("tree_edit", "proofs", "Walk", "Upward"),
    ("tree_edit", "proofs", "Paint", "Colours"),
    ("tree_rm_rule", "specs", "Removed", "RemovalGuarantee"),
    ("tree_rm_rule", "proofs", "Mended", "RepairInPlace"),
    ("tree_in_rule", "specs", "Inserted", "InsertionGuarantee"),
    ("tree_in_rule", "specs", "Mend", "InsertRepair"),
    ("tree_in_rule", "proofs", "Mends", "InsertRepaired"),
    ("tree_in", "proofs", "Mends", "InsertRounds"),
    ("tree_rm_repair", "proofs", "Turns", "Rounds"),
    ("iset", "specs", "Changes", "Effects"),
]

# Functions of the code: crate, folder of its proof, old name, new name.
FUNCTIONS = [
    ("tree_links", "", "turn_up", "rotate_up"),
    ("tree_rm_repair", "", "turn_two", "rotate_two"),
    ("tree_rm_repair", "", "turn_four", "rotate_four"),
    ("tree_rm_repair", "", "one_turn", "one_round"),
    ("tree_rm_repair", "", "turn_at", "round_at"),
    ("tree_rm_repair", "", "turn_of", "round_of"),
    ("tree_in", "descent/", "slot_above", "insert_inner"),
    ("tree_in", "repair/", "one_turn", "one_round"),
    ("tree_in", "repair/", "turn_at", "round_at"),
    ("tree_in", "repair/", "turn_below", "round_below"),
    ("tree_in", "repair/", "turn_rotated", "round_rotated"),
    ("slotlist_core", "working/Work/", "remove_held", "remove_mapped"),
]

# Names that went to another module, by their old names: module, names (None for all), new module.
# `use` lines of other crates follow; not those of a patch, where a line has to stay one line.
RM, EDIT = "tree_rm_laws", "tree_edit"
MOVES = [
    (f"{RM}.specs.Links", None, f"{EDIT}.specs.Links"),
    (f"{RM}.specs.Remove", "leftmost", f"{EDIT}.specs.Links"),
    (f"{RM}.specs.Remove", "Store store", f"{EDIT}.specs.Store"),
    (f"{RM}.specs.Remove", "ending", f"{EDIT}.specs.Rounds"),
    (f"{RM}.specs.Repair", "turn turn-2 turn-4", f"{EDIT}.specs.Rotations"),
    (f"{RM}.specs.Repair", "Next done again goOn", f"{EDIT}.specs.Rounds"),
    (f"{RM}.specs.Repair", "dyeAt", "bitvec.specs.Colours"),
    (f"{RM}.specs.Reach", "Work work differs changes bothHulls upHulls onward Stays Follows", f"{EDIT}.specs.Reach"),
    (f"{RM}.specs.Below", None, f"{EDIT}.specs.Below"),
    (f"{RM}.specs.Removed", "Inside", f"{EDIT}.specs.Inside"),
    (f"{RM}.specs.With", None, f"{RM}.specs.Remove"),
    (f"{RM}.specs.declared.pairs.Pair", None, "words.specs.declared.pair.Pair"),
    (f"{RM}.specs.declared.pairs.Pairs", None, "words.specs.declared.pair.Pairs"),
    (f"{RM}.proofs.Below", "link-same", f"{EDIT}.proofs.Below"),
    (f"{RM}.proofs.Links", None, f"{EDIT}.proofs.Links"),
    (f"{RM}.proofs.Turns", None, f"{EDIT}.proofs.Turns"),
    ("tree_in_laws.specs.Sequence", None, "tree_changes.specs.Sequence"),
    ("tree_in_laws.proofs.Sequence", None, "tree_changes.proofs.Sequence"),
]
# And uses of the code.
USES = [
    ("tree_rm_laws::pairs::", "words::pair::"),
    ("tree_rm_repair::copy_colour", "bitvec::colours::copy_colour"),
    ("tree_rm_repair::Repaired", "tree_links::Repaired"),
]

# Paths, as regular expressions over the path below ROOT. The papers are always in scope.
EDITS = r"crates/(tree_edit|tree_links|tree_rm\w*|tree_in\w*|tree_changes)/"
LAWS = r"crates/(tree_edit|tree_rm_rule|tree_in_rule)/"
BOTH = EDITS + r"|crates/test_document/"
COLOURS = EDITS + r"|crates/(bitvec|builder|builder_laws|test_document)/"
TREES = EDITS + r"|crates/(tree|audit|builder_laws|iter_laws|iset|test_document)/"
ROUND = r"crates/(tree_rm_rule|tree_rm_repair|tree_links)/"
INSERT = r"crates/(tree_in|tree_in_rule|test_document)/"
DEMANDS = EDITS + r"|crates/iset/\w+/Demands"

FACES = r"crates/iset/(specs|src|must-fail)|crates/iset/proofs/(?!Sequence)|crates/(iset_c|iset_c_open|slotlist_core|test_document)/"

# A row that hands its old name on to another row holds only while ROOT has the old names: while
# this file lacks this text.
ONCE = ("crates/bitvec/specs/Colours.antt", "abbrev pub paint ")
FIRST = "first"

# Words that the papers use for something else too.
NOT_IN_PAPERS = {"paper", "those", "only", "room", "change", "Change", "step", "turn", "turned", "walk", "held", "Held", "sorted", "instead"}

# Names: old, new, where; and FIRST for those that another row's new name would follow.
NAMES = [
    # colours as a function of the slots, and in the bytes
    ("paint", "withColour", LAWS, FIRST),
    ("paint-same", "withColour-same", LAWS),
    ("paint-other", "withColour-other", LAWS),
    ("paint-is", "withColour-is", LAWS),
    ("paint-fits", "withColour-fits", LAWS),
    ("paint-keeps", "withColour-keeps", LAWS),
    *((f"paint-{k}", f"fits-{k}", LAWS) for k in range(1, 6)),
    ("dye", "paint", COLOURS),
    ("dyeAt", "paintAt", COLOURS),
    ("red-dye", "red-paint", LAWS),
    ("both-dye", "both-paint", LAWS),
    ("hued-dye", "sameColours-paint", LAWS),
    ("steady-dye", "steady-paint", LAWS),
    ("dye-one", "paint-one", LAWS),
    ("dye-two", "paint-two", LAWS),
    ("dye-three", "paint-three", LAWS),
    ("Dyed", "LowColours", LAWS),
    ("dyed", "low-paint", LAWS),
    ("dyed-refl", "lowColours-refl", LAWS),
    ("Dyed", "SpanColours", r"crates/builder_laws/"),
    ("dyed", "colours-right", r"crates/builder_laws/"),
    ("dyed-none", "colours-none", r"crates/builder_laws/"),
    ("dyed-some", "colours-some", r"crates/builder_laws/"),
    ("dyed-span", "colours-span", r"crates/builder_laws/"),
    # red-black trees
    ("Hue", "RedBlackNode", TREES),
    ("Hues", "RedBlack", TREES),
    ("Hued", "SameColours", TREES),
    ("hues", "redBlack", TREES),
    ("hues-is", "redBlack-is", TREES),
    ("hues-view", "redBlack-view", TREES),
    ("open-hue", "open-redBlack", TREES),
    ("make-hue", "make-redBlack", TREES),
    ("datum-hue", "datum-colour", TREES),
    ("hue", "sibling-node", LAWS),
    ("hue-x", "node-x", LAWS),
    ("hue-y", "node-y", LAWS),
    ("calm", "noRedRed", TREES),
    ("even", "equalBlacks", TREES),
    ("dark", "blackOf", TREES),
    ("dark-le", "blackOf-le", TREES),
    ("Even", "BlackHeight", r"crates/tree_in_rule/"),
    ("Dark", "BlackRoot", r"crates/tree_in_rule/"),
    ("keep-even", "keep-blackHeight", r"crates/tree_in_rule/"),
    ("keep-dark", "keep-blackRoot", r"crates/tree_in_rule/"),
    ("dark-P", "black-P", r"crates/tree_in_rule/"),
    ("dark-Q", "black-Q", r"crates/tree_in_rule/"),
    # rotations
    ("rotate", "placed-rotated", r"crates/tree_in_rule/(proofs/(Rotate|Loop)\.antt|must-fail/hull_below\.edit)", FIRST),
    *((f"{a}turn{b}", f"{a}rotate{b}", BOTH) for a in ("", "agree-", "kept-", "length-", "low-", "is-", "stand-") for b in ("", "-2", "-4")),
    ("by-turn", "by-rotate", BOTH),
    ("turn-4-is", "rotate-4-is", BOTH),
    ("turn-Q", "rotate-Q", BOTH),
    ("Turned", "Rotated", BOTH),
    ("turned", "rotated-way", r"crates/tree_edit/"),
    ("turned", "made", r"crates/tree_links/"),
    ("turned", "after-rotation", r"crates/tree_in_rule/"),
    ("turned", "rotated", r"crates/tree_in/src/"),
    ("turned-below", "rotated-below", BOTH),
    ("stand-turned", "stand-rotated", BOTH),
    ("turned-slots", "rotated-slots", BOTH),
    ("partly-turned", "partly-rotated", BOTH),
    ("walk", "hulls-upward", LAWS),
    ("no-walk", "fixUp-stops", LAWS),
    # rounds of a repair's loop
    ("Turn", "Next", r"crates/(tree_links|tree_rm_repair|tree_in)/"),
    ("turns", "rounds", DEMANDS),
    ("turns₀", "rounds₀", EDITS),
    ("step", "round", ROUND),
    ("stepHulls", "roundHulls", BOTH),
    ("turnOf", "roundOf", BOTH),
    ("turnAt", "roundAt", BOTH),
    ("turnOfHulls", "roundOfHulls", BOTH),
    ("turnAtHulls", "roundAtHulls", BOTH),
    ("same-turnOf", "same-roundOf", BOTH),
    ("same-turnAt", "same-roundAt", BOTH),
    ("same-step", "same-round", BOTH),
    ("sums-turnOf", "sums-roundOf", BOTH),
    ("sums-turnAt", "sums-roundAt", BOTH),
    ("sums-step", "sums-round", BOTH),
    ("follows-step", "follows-round", BOTH),
    ("step-two", "round-two", BOTH),
    ("step-stays", "round-stays", BOTH),
    ("step-good", "round-good", r"crates/tree_in_rule/"),
    ("step-root", "round-root", BOTH),
    ("step-black", "round-black", BOTH),
    ("step-red", "round-red", BOTH),
    ("steady-step", "steady-round", BOTH),
    ("turn-good", "round-good", BOTH),
    ("turn-is", "round-is", BOTH),
    ("turn-changes", "round-changes", BOTH),
    ("turn-le", "round-le", BOTH),
    ("at-turn", "at-round", BOTH),
    ("Held", "LoopInvariant", LAWS),
    ("held", "invariant", LAWS),
    # what a public call answers and leaves; a change is a removal or an insertion
    *((old, new, FACES) for old, new in (
        ("Change", "Effect"), ("change", "effect"), ("changeExit", "effectExit"), ("SameChange", "SameEffect"), ("change-kept", "effect-kept"),
        ("done-change", "done-effect"), ("refused-change", "refused-effect"), ("same-change", "same-effect"))),
    # answers by their numbers, and by the map's words
    ("paper", "numbers", r"crates/(bitvec|stack)/"),
    ("paper-injective", "numbers-injective", r"crates/(bitvec|stack)/"),
    *((f"{call}Paper", f"{call}Answer", FACES) for call in ("build", "remove", "insert", "start", "step", "drain", "plain")),
    ("Gone", "Removed", FACES),
    ("Added", "Inserted", FACES),
    ("Emptied", "Drain", FACES),
    ("goneNumbers", "removedNumbers", FACES),
    ("addedNumbers", "insertedNumbers", FACES),
    ("put_gone", "put_removed", FACES),
    ("put_added", "put_inserted", FACES),
    # one filter; a query's order; the check's recursion; capacity
    ("those", "filter", r"crates/(iter|iter_laws|plain|plain_rule|fast|fast_rule|iset|test_document)/"),
    ("only", "filter", r"crates/tree_in_rule/", FIRST),
    ("sorted", "toward", r"crates/(iter|iter_laws)/|crates/iset/proofs/Below"),
    ("sorted-by", "toward-by", r"crates/iter_laws/"),
    ("sorted-both", "toward-both", r"crates/iter_laws/"),
    ("walk", "survey_at", r"crates/audit/"),
    ("room", "capacity", r"crates/words/(specs|proofs)/", FIRST),
    # the states of slotlist's work
    ("Held", "Mapped", r"crates/slotlist_core/"),
    ("held", "mapped", r"crates/slotlist_core/"),
    ("heldText", "checkedText", r"crates/slotlist_core/"),
    ("Turn", "Stage", r"crates/slotlist_core/"),
    ("turn", "stage", r"crates/slotlist_core/"),
    # a repair moves no entry
    ("Mended", "InPlace", LAWS),
    ("mended-refl", "in-place-refl", LAWS),
    ("mended-act", "act-in-place", LAWS),
    ("mended-turn", "roundAt-in-place", LAWS),
    ("mended-step", "round-in-place", LAWS),
    ("mended-restructure", "restructure-in-place", LAWS),
    ("mended", "repair-in-place", r"crates/tree_rm_rule/"),
    ("mended", "repaired", r"crates/tree_rm/"),
    ("mended-most", "repaired-most", r"crates/tree_rm/"),
    # insertion's repair
    *((f"{a}mend{b}", f"{a}{c}", INSERT) for a in ("", "same-", "sums-", "follows-") for b, c in (
        ("", "insertRepair"), ("Hulls", "insertRepairHulls"), ("Step", "insertRound"), ("StepHulls", "insertRoundHulls"),
        ("At", "insertRoundAt"), ("AtHulls", "insertRoundAtHulls"), ("Below", "insertRoundBelow"),
        ("BelowHulls", "insertRoundBelowHulls"), ("ed", "insertAt"), ("edHulls", "insertAtHulls"))),
    ("mended-is", "insertAt-is", INSERT),
    ("mended-changes", "insertAt-changes", INSERT),
    ("mended-fits", "insertAt-fits", INSERT),
    ("mend-more", "insertRepair-more", INSERT),
    ("mend-most", "insertRepair-most", INSERT),
    ("mend-turn-le", "insertRound-le", INSERT),
    ("mend-hulls", "insert-hulls", INSERT),
    ("mend-stays", "insert-stays", INSERT),
    ("mends", "insert-rounds", r"crates/tree_in/"),
    ("mends", "insertRepaired", r"crates/tree_in_rule/"),
    # removal
    ("instead", "movedTo", r"crates/(tree_rm\w*|test_document)/"),
    ("instead-here", "movedTo-here", LAWS),
    ("instead-other", "movedTo-other", LAWS),
    ("instead-self", "movedTo-self", LAWS),
    ("sorted", "byOldSlot", r"crates/(tree_rm_rule|tree_rm_pairs)/"),
    ("sorted-none", "byOldSlot-none", r"crates/tree_rm_rule/"),
    ("Removed", "RemovalGuarantee", r"crates/tree_rm_rule/|crates/iset/(specs/Demands|proofs/(Removals|Answers|After))\.antt", FIRST),
    ("Removal", "Removed", r"crates/tree_rm_rule/|crates/tree_rm/proofs/Removes\.antt|crates/iset/(specs/Demands|proofs/(Sequence|Demands|After))\.antt", FIRST),
    ("SameRemoval", "SameRemoved", r"crates/(tree_rm_rule|iset)/"),
    ("Inserted", "InsertionGuarantee", r"crates/tree_in_rule/|crates/iset/(specs|proofs)/", FIRST),
    ("PlainAnswer", "TallyAnswer", FACES),
    ("plainDone", "tallyDone", FACES),
    ("refusedPlain", "refusedTally", FACES),
    ("plainAnswer", "tallyAnswer", FACES),
    ("plainNumbers", "tallyNumbers", FACES),
    ("plainReply", "tallyReply", FACES),
    ("plainPlaces", "tallyPlaces", FACES),
]

# Places that take more than a name: path, old text, new text. They come before the names.
TEXTS = [
    ("crates/iset/proofs/Sequence.antt", "specs.Changes.{change}", "specs.Effects.{effect}"),
    ("crates/iset/proofs/Sequence.antt", "calls.Change", "calls.Effect"),
    ("crates/iset/proofs/Sequence.antt", "(change (", "(effect ("),
    ("crates/slotlist_core/proofs/Meaning.antt", "Value.the-variants as held", "Value.the-variants as parsed"),
    ("crates/slotlist_core/proofs/Meaning.antt", "held.Is", "parsed.Is"),
    ("crates/slotlist_core/proofs/Meaning.antt", "held.Over", "parsed.Over"),
    ("crates/test_document/proofs/Examples.antt", "turnAt, step, repair}", "turnAt, round, repair}"),
    ("crates/test_document/proofs/Examples.antt", "turnOf turnAt step repair", "turnOf turnAt round repair"),
    ("crates/test_document/proofs/Examples.antt", "lower, upper, sorted, moved}", "lower, upper, byOldSlot, moved}"),
    ("crates/test_document/proofs/Examples.antt", "lower upper sorted moved", "lower upper byOldSlot moved"),
    ("crates/iset/specs/Remove.antt", "rule.Removal", "rule.Removed"),
    ("crates/iset/proofs/Laws.antt", "specs.Remove.{Removal}", "specs.Remove as rule"),
    ("crates/iset/proofs/Laws.antt", "(R : Removal)", "(R : rule.Removed)"),
    ("crates/iset/proofs/Laws.antt", "(S : Removal)", "(S : rule.Removed)"),
    ("crates/tree_rm/proofs/Determined.antt", "specs.Remove.{Removal}", "specs.Remove as rule"),
    ("crates/tree_rm/proofs/Determined.antt", "(R : Removal)", "(R : rule.Removed)"),
    ("crates/tree_rm/specs/Answers.antt", "specs.Remove.{Removal}", "specs.Remove as rule"),
    ("crates/tree_rm/specs/Answers.antt", "List ℕ → Removal", "List ℕ → rule.Removed"),
]

BORDER = r"\s()\[\]{};,.`⌜⌝«»\"':<>&!=@|/\\*+λ→"
BEFORE, AFTER = rf"(?<![^{BORDER}])", rf"(?![^{BORDER}])"


def hyphened(name):
    return name.replace("_", "-")


def function_names(crate, old, new):
    """The names that are made of a function's name, in its own crate and where it is called."""
    yield old, new
    for end in ("", "2", "3", "-spec"):
        yield hyphened(old) + end, hyphened(new) + end


def rows(guarded):
    for crate, _, old, new in FUNCTIONS:
        where = rf"crates/({crate}|tree_rm_repair|tree_in)/" if crate == "tree_links" else rf"crates/{crate}/"
        for a, b in function_names(crate, old, new):
            yield a, b, where
    for row in NAMES:
        if len(row) == 3:
            yield row
        elif guarded:
            yield row[:3]


class Names:
    """All names in one pass, so that no row's new name is met by another row."""

    def __init__(self, path, guarded):
        self.code, self.prose, self.functions = {}, {}, {}
        paper = not path.startswith("crates/")
        for old, new, where in rows(guarded):
            if (old in self.code or old in NOT_IN_PAPERS) if paper else not re.match(where, path):
                continue
            self.code[old] = new
            if not re.fullmatch(r"[A-Za-z][a-z]*", old):
                self.prose[old] = new
            if any(old == row[2] for row in FUNCTIONS):
                self.functions[old] = new

    @staticmethod
    @functools.lru_cache(maxsize=None)
    def pattern(names):
        return re.compile(BEFORE + "(" + "|".join(re.escape(k) for k in names) + ")" + AFTER)

    def replace(self, table, text):
        if not table:
            return text
        names = tuple(sorted(table, key=len, reverse=True))
        return self.pattern(names).sub(lambda m: table[m.group(1)], text)

    def in_code(self, text):
        return self.replace(self.code, text)

    def in_prose(self, text):
        parts = text.split("`")
        for i, part in enumerate(parts):
            if i % 2 and len(parts) % 2:
                parts[i] = self.in_code(part)
            else:
                parts[i] = self.replace(self.prose, part)
        return "`".join(parts)

    def in_use(self, line):
        """A `use` line: modules have their own table, the types of the code stand after `declared`."""
        path, rest = re.match(r"((?:ghost )?use [^\s{;]*)(.*)", line).groups()
        modules, mark, types = path.partition(".declared.")
        return self.replace(self.functions, modules) + mark + self.in_code(types) + self.in_code(rest)

    def in_line(self, line, mark):
        """A line of code with a comment at its end, or a comment."""
        if re.match(r"pub mod [A-Z]", line):
            return line
        if re.match(r"(ghost )?use Rattle·", line):
            return self.in_use(line)
        at = re.search(rf"(^|\s){mark}(\s|$)", line)
        if not at:
            return self.in_code(line)
        return self.in_code(line[: at.start()]) + self.in_prose(line[at.start() :])


def with_crates(path, line):
    for old, new in CRATES:
        line = re.sub(rf"Rattle·{old}(?=[·.])", f"Rattle·{new}", line)
        if old not in WORDS or re.match(rf"(refused:|use) {old}::", line):
            line = re.sub(rf"(?<![\w:]){old}::", f"{new}::", line)
        line = re.sub(rf"crates/{old}(?!\w)", f"crates/{new}", line)
        if old not in WORDS:
            line = line.replace(f"`{old}`", f"`{new}`")
        if path == "crates.txt" or "_" in old:
            line = re.sub(rf"(?<!\w){old}(?!\w)", new, line)
    return line


def with_modules(path, line):
    own = path.split("/")[1] if path.startswith("crates/") else None
    for crate, part, old, new in MODULES:
        line = re.sub(rf"(Rattle·{crate}(?:·{part})?\.{part}\.){old}(?![\w-])", rf"\1{new}", line)
        line = re.sub(rf"(crates/{crate}/{part}/){old}(?![\w-])", rf"\1{new}", line)
        if own == crate:
            line = re.sub(rf"^(file: {part}/){old}\.antt", rf"\1{new}.antt", line)
            line = re.sub(rf"^(refused: ){old}\.", rf"\1{new}.", line)
            if path == f"crates/{crate}/{part}/Lib.antt" and line == f"pub mod {old}":
                line = f"pub mod {new}"
    return line


def mark_of(path):
    return {"antt": "--", "rt": "//"}.get(path.rsplit(".", 1)[-1])


def with_line(path, names, line, state):
    line = with_modules(path, with_crates(path, line))
    if path.endswith(".md"):
        if line.startswith("```"):
            state["fence"] = not state["fence"]
            return line
        return names.in_line(line, "--") if state["fence"] else names.in_prose(line)
    if path.endswith(".edit"):
        return names.in_prose(line) if line.startswith("#") else names.in_code(line)
    mark = mark_of(path)
    return names.in_line(line, mark) if mark else names.in_prose(line)


def with_moves(line):
    """The `use` lines that one becomes."""
    for old, new in USES:
        line = line.replace(old, new)
    at = re.fullmatch(r"((?:ghost )?use )Rattle·([\w.]+)\.\{(.*)\}(;?)", line)
    if not at:
        return [line]
    start, module, names, end = at.groups()
    parts = {}
    for name in names.split(", "):
        to = module
        for old, moved, new in MOVES:
            if old == module and (moved is None or name.split(" ")[0] in moved.split()):
                to = new
        parts.setdefault(to, []).append(name)
    return [f"{start}Rattle·{to}.{{{', '.join(group)}}}{end}" for to, group in parts.items()]


def renamed(path, text, guarded):
    if path.endswith((".antt", ".rt")):
        text = "\n".join(part for line in text.split("\n") for part in with_moves(line))
    for where, old, new in TEXTS:
        if where == path:
            text = text.replace(old, new)
    names, state = Names(path, guarded), {"fence": False}
    return "\n".join(with_line(path, names, line, state) for line in text.split("\n"))


def new_path(path):
    parts = path.split("/")
    if parts[0] == "crates" and len(parts) > 1:
        parts[1] = dict(CRATES).get(parts[1], parts[1])
        path = "/".join(parts)
        for crate, part, old, new in MODULES:
            if path == f"crates/{crate}/{part}/{old}.antt":
                path = f"crates/{crate}/{part}/{new}.antt"
        for crate, folder, old, new in FUNCTIONS:
            start = f"crates/{crate}/proofs/{folder}"
            path = re.sub(rf"^{re.escape(start)}{old}/", f"{start}{new}/", path)
    return path


def in_scope(path):
    return (
        re.fullmatch(r"crates/.*\.(rt|antt|edit)|docs/[^/]*\.md|README\.md|crates\.txt|tests/[^/]*\.(py|sh)|tests/readme", path)
        is not None
    )


def run(root):
    for old, new in CRATES:
        if os.path.isdir(os.path.join(root, "crates", old)):
            os.rename(os.path.join(root, "crates", old), os.path.join(root, "crates", new))
    once = os.path.join(root, ONCE[0])
    guarded = not (os.path.exists(once) and ONCE[1] in open(once).read())
    for folder, _, files in os.walk(root):
        for name in sorted(files):
            full = os.path.join(folder, name)
            path = os.path.relpath(full, root).replace(os.sep, "/")
            if path.startswith((".git/", "target/")) or not in_scope(path):
                continue
            text = open(full).read()
            target, new = new_path(path), renamed(new_path(path), text, guarded)
            if target != path:
                os.makedirs(os.path.dirname(os.path.join(root, target)), exist_ok=True)
                os.rename(full, os.path.join(root, target))
            if new != text:
                open(os.path.join(root, target), "w").write(new)
    for folder, _, _ in list(os.walk(os.path.join(root, "crates"), topdown=False)):
        if not os.listdir(folder):
            os.rmdir(folder)


def patch(file):
    path, names, state = "", None, {"fence": False}
    for line in open(file).read().split("\n"):
        head = re.match(r"(--- a/|\+\+\+ b/|rename (?:from|to) )(.*)", line)
        if head:
            path = head.group(2)
            line, path = head.group(1) + new_path(path), new_path(path)
            names, state = Names(path, True), {"fence": False}
        elif line.startswith("diff --git a/"):
            a, b = line[13:].split(" b/")
            line = f"diff --git a/{new_path(a)} b/{new_path(b)}"
        elif names and line[:1] in "+- " and in_scope(path):
            for where, old, new in TEXTS:
                if where == path:
                    line = line.replace(old, new)
            line = line[:1] + with_line(path, names, line[1:], state)
        print(line)


if __name__ == "__main__":
    if len(sys.argv) == 3 and sys.argv[1] == "--patch":
        patch(sys.argv[2])
    elif len(sys.argv) == 2:
        run(sys.argv[1])
    else:
        sys.exit(__doc__)
