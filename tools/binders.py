#!/usr/bin/env python3
"""binders.py: what makes the rules in crates/*/specs readable without the proofs.

  python3 tools/binders.py            writes what follows into every specs/*.antt
  python3 tools/binders.py --check    writes nothing; says what is missing, and exits 1 if anything is

1. Names in signatures: `remove_rule : List ℕ → List ℕ → ℕ → ..` becomes
   `remove_rule : (words colours : List ℕ) (count root slot : ℕ) → Removal`. The same goes for the
   constructors of a data type and for those fields of a record that are functions. An argument that
   has a name keeps it, and a premise, such as `a < n`, gets none.
2. A legend, after the first comment of a file: `-- Letters: W words, C colours, ..` has each letter
   that the file's equations, records and functions bind.
3. Bytes that are written as numbers get their text in a comment: `-- "remove"`.
4. A comment with a line of more than 100 columns is wrapped.

Names and legend come from one table, MEANINGS, so they cannot disagree: what a letter means is a
phrase, and the first word of the phrase is the name of the argument. A variable that is a word is
its own name. A new letter goes into the table, under its file (`crate/File`), under its crate if all
files of the crate use it so, or under '' if everybody does.
  `s slot asked for`     the letter s, whatever its type
  `l:Tree left subtree`  the letter l where its type is Tree; `[X]` is short for `List X`
  `Bool side`            an argument of type Bool for which every equation has a constructor
  `k:2 changed hulls`    a second meaning of k, for a name that stands in NAMES
NAMES has the names of the arguments that no letter tells.
"""
import pathlib
import re
import sys
import textwrap

TOP = pathlib.Path(__file__).resolve().parent.parent
WIDTH = 100

# A crate on the left has the tables of the one on the right: it had its name, or has files of it.
ALIASES = {
    'tree_rm_rule': 'tree_rm_laws', 'tree_edit': 'tree_rm_laws', 'tree_in_rule': 'tree_in_laws',
    'tree_changes': 'tree_in_laws', 'tree_links': 'tree_rm_repair', 'plain_rule': 'plain_laws',
    'test_document': 'examples', 'slotlist_core': 'slots', 'iset_c': 'capi', 'iset_c_open': 'capi_open',
}

MEANINGS = {
    '': """
        W words; C colours; n count; r root; s slot; k link; b side (true: left); m map; a slot;
        v value; p parent; g above; u uncle; t tree; q query; c cursor; e entry; x interval; y refusal;
        f measure; i place; j place; d default; h height; l list; z otherwise; w words; o other;
        S store; T other store; P parent; G grandparent; E entries; R result; K red? (which slots are);
        X later words; D later colours; Z final words; A answer; Q rules of the lookup; L claim;
        l:Tree left subtree; r:Tree right subtree; t:Store store; c:[Frame] way up; q:Span range;
        x:Node node; e:ℕ entered so far; p:Pair pair; P:Pairs pairs; p:Page page; p:ℕ→Bool test;
        f:Field field; S:[ℕ] triples; s:ActionStack stack; h:Interval hull; d:Interval interval;
        b:Bound bound; l:[ℕ] slots; w:Work work; A:Type0 any type; k:Effect effect; k:Output output;
        c:Effect effect; d:Output output""",
    'words/Ix': """
        n count; k link; f found (for the slot that the link leads to); z otherwise (if it leads to
        none)""",
    'words/Intervals': """
        x number of a bound; x:Interval interval; e end; s start; q range; a first interval;
        b second interval; a:2 hull; b:2 interval""",
    'words/Layouts': """
        k link in 16 bits; v link or new word; w word of a node; b side (true: left); n count; s slot;
        N six-word nodes; W words; a start; b:ℕ end; c value; d hull start; e hull end""",
    'words/Nodes': """
        W words; f field; s slot; v new word; b side (true: left); e entry; h hull; n count; k link;
        i one slot; j other slot; d interval to extend""",
    'bitvec/Bits': """
        b number (a byte is one); j place of a bit in it; i place of a bit in bytes; s bytes;
        v bit to write; x byte to write; n count of bytes""",
    'bitvec/Calls': """
        s bytes; n size in bytes; i place of a bit; v:Bool bit to write; b bit that was read;
        v vector of bits; y refusal""",
    'bitvec/Colours': 'C colours; s slot; v red? (true: red); n count; k link',
    'bitvec/Written': """
        s bytes before; t bytes afterwards; i place of the bit; v bit that was written;
        k place of any bit""",
    'stack/Calls': 'b yes (what a test says); s stack; v state; y refusal',
    'stack/States': 'j level; v state; s stack',
    'stack/Written': """
        a entered (for 00); b left (for 01); c returned (for 10); d right (for 11); v state; j level;
        k level; s stack before; t told (what the call answers)""",
    'tree': """
        s slot; l:Tree left subtree; r:Tree right subtree; r root; K red? (which slots are); t tree;
        p parent; k link; L claim about the left subtree; R claim about the right subtree""",
    'tree/Below': 'n count; W words; X other words; C colours; D other colours; f field; a slot',
    'tree/Hues': 'Bool red?',
    'tree/RedBlack': 'Bool red?',
    'tree/Hulls': 'f measure of a slot; d initial number; h hull word of a slot; t tree',
    'tree/Order': 'a interval; b next interval; l:[Interval] intervals; l slots',
    'tree/Tree': 's slot; a other slot; l:[ℕ] slots; d default slot; p parent; k link',
    'tree/Zipper': 'b side (true: left); a slot; c way up; t tree; p parent; k link; r root',
    'audit/Calls': 'N nodes (by slot); p parent; k link; l:ℕ left calls; r:ℕ right calls',
    'audit/Survey': """
        s slot; b ok (right so far); d interval of the parent; x node; p parent; k link;
        N nodes (by slot); M judged (makes the node that is judged);
        l:Found left subtree; r:Found right subtree; l:Interval left hull; r:Interval right hull;
        a found; r root""",
    'little/Numbers': 'w width (count of bytes); s bytes; i place of a byte; v number',
    'image_rule': """
        I image (its bytes); n count; r root; s slot; j place of the link; b side (true: left);
        h hull; x node; l:Found left subtree; r:Found right subtree; N nodes (by slot); p parent;
        d:Interval interval of the parent; k link; W words; C colours""",
    'image_rule/Written': 'w width of a number; v number; l numbers; f piece of a slot; m count of slots',
    'image_rule/Sought': """
        a address; e entry; k index of the hit asked for; x seen so far; E entries (by slot);
        L children (by side and slot); n count; s slot; l slots""",
    'image_host': """
        I image (its bytes); a address; k index of the hit asked for; L children (by side and slot);
        n count; s slot; m map; W words; C colours; c reading (what the reader left); d drain""",
    'layouts': """
        o operation; m map; n map at the end; M memory; X memory afterwards; Z memory at the end;
        a answer; l triples; l:[Told] operations with their answers; x operation with its answer;
        I image (its bytes); s slot; e entry; t ticket; q query; c cursor;
        x:Interval interval; x:ℕ address; A any type""",
    'layouts/Narrowed': """
        N memory or words of six-word nodes; X memory or words afterwards; Y other memory afterwards;
        Z memory at the end; M memory; a answer; b other answer; n map at the end; p other map at the
        end; l operations with their answers; k others; f field; s slot; m map; o operation;
        C colours""",
    'builder/Build': """
        S triples; a start of the span; b end of the span; f levels left for the span;
        d interval to extend; e entry; h hull; p parent; w words of the span; m number;
        g bound of the answer""",
    'builder/Input': 'S triples; k index of a triple; p test; m places to test',
    'builder_laws/Built': """
        S triples; W words before; C colours before; X words afterwards; K:ℕ→Bool red? (which slots
        are); K colours afterwards; D deepest level that is black; d depth of the root; a first slot;
        s slot; k any number; r:Tree right subtree; r root""",
    'builder_laws/Input': 'S triples; n count; k index of a triple',
    'capi': 'S triples; e entry; x interval; q query; c cursor; a answer; R reply; p pairs',
    'capi/Places': """
        l numbers; A answer before; X answer afterwards; r returned number; b answer of the call""",
    'capi/Ranges': 'x number; b known (whether both kinds are); R reply',
    'capi/Replies': """
        A places of the answer; a answer of the call; R reply; s step; p pairs; n number;
        b known (whether each bound has a kind); k:Effect effect; k:Output output; l:[[ℕ]] slices""",
    'examples/Rows': """
        t store; s slot; e entry; q query; c:Cursor cursor; x interval; S triples; a answer; d answer;
        k slot; k:2 steps at most; c call; r row; a:Pair pair; b:Pair pair; c:Pair pair; l:[Pair] pairs;
        a:2 old slot; b byte; b:2 new slot""",
    'examples/Stores': 't store; s slot; e entry; S triples; k link; q range; h height',
    'examples/Table': 'a start; b end; v value; k count; s slot',
    'disjoint': """
        k number of a refusal; x address; l:[Call] calls; y refusal; g answer of the code;
        P proof that the store passes""",
    'disjoint/Place': 'a start; b end; s slot that was met',
    'disjoint/Point': 'a spot; k number of a refusal; x address',
    'disjoint/Sequence': 'S:State state; x call; l:[Call] calls',
    'disjoint/Demands': 'S:State state; a slot; x address',
    'disjoint_core': 'a address',
    'iset_c_disjoint/Replies': 'A places of the answer; a answer of the call; R reply; x address',
    'disjoint_rule': """
        W words; n count; s slot; m slots to test; r:Bool rest of the test; r root; x interval;
        a:Interval interval; b:Interval next interval; l:[Interval] intervals; l slots; a slot; b other slot""",
    'disjoint_rule/Apart': 'a slot behind the link',
    'disjoint_rule/Point': 'a address; s slot that was found',
    'first_rule': """
        D way down; W words; n count; k link; d slot further down; l nodes further down; s slot;
        p passes (the test of an end); m:ℕ→Bool admits (the test of a start); a slot behind the link; q range; r root""",
    'unload_rule': """
        W words; C colours; n count; r root; s slot that goes next; S store; R:Sweep sweep; q range;
        g test (which entries go); e entry; l:[Entry] entries; l slots that go later""",
    'image_text': 'I image (its bytes); n count; r root; s slot; m slots to print; k link; v red (whether the slot is); x nothing',
    'image_text/Text': 'a left link; b right link; c parent; e entry',
    'image_text/Words': """
        w:Word word; d digit; b byte; v value; x longer value or other name; o name; s bytes""",
    'image_text/Reading': """
        s:State state; s:[ℕ] text; t stage; i place of a word in the text; o name; k slot;
        j place of the word among the slot's; b byte; v number; y refusal""",
    'plan_text': 's old slot; v new slot; P plan; n line (its number); b byte; f flaw',
    'plan_text/Line': """
        d digit; v value; w longer value; g before (what the line has so far)""",
    'plan_text/Reading': """
        s:State state; m move; L lines; i place; t stage; h shelf; c text; c:ℕ number of a slot or line""",
    'plan_text/Text': 'c count; b before (the line that came first); w which (old or new)',
    'iset': """
        S:[ℕ] triples; s slot; e entry; x interval; q:Query query; q:Span range; q range; c cursor;
        k number of a refusal; y refusal; a answer; g answer of the code; t tree; p test of a slot;
        P proof that the store passes; l:[Ask] calls; c:Effect effect; I image (its bytes)""",
    'iset/Below': 'n count; W words; C colours; X other words; D other colours',
    'iset/Build': 'm map that is replaced',
    'iset/Check': 'k number of a refusal; x next number',
    'iset/Demands': 'S triples; a slot; t ticket; k rule',
    'iset/Fits': 'k number (the limit less 1)',
    'iset/Image': 'v length of an image',
    'iset/Insert': 'a start; b end; v value; S:Store store; k:2 changed hulls',
    'iset/Lookup': """
        a:Answer answer; a lower number; b higher number; h hit?; s step; d drained;
        y:Bound high bound""",
    'iset/Plain': 'a tally',
    'iset/Refusals': """
        k number that is answered; P:Type0 condition; a lower number; b higher number;
        y:Bound high bound; s:ActionStack stack; i place of a bit; h highest equal node""",
    'iset/Remove': 'R removal by the rule; P:Pairs pairs; p pair; a kept slot; k:2 changed hulls',
    'iset/Runs': 'x:Ask call; r:Run rest; i moves; h highest equal node; k slot',
    'iset/Saved': 'o map that is replaced; X words of the target; D colours of the target',
    'iset/Sequence': 'S:State state; x call; l:[ℕ] triples; l:[Call] calls; k rule',
    'iset/Unload': 'R:Sweep sweep (what the rule comes to); k rule',
    'iset/Unloaded': """
        S:State state; T:State state afterwards; k rule; j second rule; q range; p:Span second range;
        E:[Entry] entries before""",
    'iset/Tidy': 'k number of a refusal; R:Both store afterwards',
    'iset/Renumbered': 'S:State state; T state afterwards; X words; D colours; f field; a slot; i place',
    'iset/Versions': """
        S state; t ticket; l:[ℕ] triples; l:[Call] calls;
        B state before the builds; k number of a refusal or rule""",
    'iter': """
        Q rules of the lookup; c cursor; s slot; b side (true: left); e entered so far;
        x interval asked for; q range""",
    'iter/Answers': 'd drained; e entered nodes',
    'iter/Calls': 's stack; t stack; t:Told told (what a stack call answers); k slot',
    'iter/Cursors': 'z stack; k slot; p parent',
    'iter/Drains': """
        a answer of a step; d drained; e entered nodes; d:2 first drain; e:2 second drain;
        r:[ℕ] rest""",
    'iter/Exact': 'a child of s; k link; d deeper slot; r root',
    'iter/Forms': 'p parent; k start of the lookup; j links up; r rest of the test',
    'iter/Lists': 'b wanted?; l list; p test; a slot; d default',
    'iter/Overlap': 'b:Bound bound; a child of s',
    'iter/Walk': 'v state; d next cursor; r rest; m moves',
    'iter_laws': """
        q:Span range; x interval asked for; b side (true: left); s slot; a child of s; E rule of entry;
        c:[Frame] way up; c cursor; t tree; k slot""",
    'iter_laws/Place': 'q state; bs sides; c:Cursor cursor',
    'lines/Input': """
        n number; b byte; d digit; l line; p part; v value; s slice; f found (for the number); z otherwise (if
        there is none)""",
    'lines/Output': 'b byte; p page; s text; f digits at most; n number',
    'slotshell_view': """
        I image (its bytes); n count; s slot; b side (true: left); k link; d:Interval otherwise (if the
        link leads to none); x interval asked for; q query; q:Span range; a child of s; h:Interval hull;
        t:Trail trail; l list; i taken""",
    'slotshell_say/Said': 'b byte; n numbers; p page; s text; x number',
    'plain_laws/Tour': 's slot; p parent; k link',
    'slots': """
        E entries (their numbers); b byte; k slot; a start; c value; d desk; t:Turn turn; t:Stand stand;
        s:State state; w work; h shelf; S triples""",
    'slots/Feeding': 's:[ℕ] piece of the input',
    'slots/Printed': 'b byte; b: end; b:2 end; l line; ls lines; s bytes; X words; K colours; t stand',
    'slots/Reading': """
        b byte; d digit; k letters so far; v value; w longer value; g before (what the line has so far);
        a start; b: end""",
    'slots/Text': 's slot',
    'slots/Words': """
        b byte; s bytes; v value so far; x byte; y byte; t other bytes; a word; b:[ℕ] word; c word;
        d word; k word; l more words; [[ℕ]] words""",
    'slots/Working': 'b end',
    'slots/Writing': 'p page; b byte; s text',
    'tidy_rule': """
        P plan; W words; C colours; n count; m slots to do; s slot; k link; v new slot; i slot; j other slot;
        O output; l slots; r root; S:Both store""",
    'tidy_rule/Plan': """
        P plan; m slots to ask about; n count; k link; i first place; s slot; l slots; O output; W words; r root""",
    'tidy_rule/Tidied': """
        n count; P plan; W words before; C colours before; X words afterwards; D colours afterwards;
        s old slot; b side (true: left); f:Field field; f:ℕ→ℕ new slot of each; a slot from the count up;
        l:Tree left subtree; r:Tree right subtree""",
    'tree_in_laws': """
        e entry; x slot at which the repair stands; P parent of x; G grandparent of x; u uncle of x;
        b side (true: left); S:ℕ child that comes up; S store; p parent link; t store; X later words;
        D later colours; q later root; i later slot; s slot; k link; p:ℕ→Bool test; x:Interval interval;
        a slot; l slots""",
    'tree_in_laws/Descent': 'k slot',
    'tree_in_laws/Insert': 'x new slot',
    'tree_in_laws/Sequence': 'x change; l changes; m capacity in slots; s slot; e entry; S store',
    'tree_rm/Answers': 'a answer',
    'tree_rm_repair/Answers': 'ix slot; k hulls that changed; d what the repair made; s where it goes on',
    'tree_rm_laws': """
        s slot asked for; x vacated slot; y child of x; v emptied slot; z last slot; g above v; k link;
        ix slot of the loop; b side (true: left); P:ℕ parent; S:ℕ sibling; c:ℕ close nephew;
        d:ℕ distant nephew; S:Store store; t store; T other store; f:Field field; f continue; a slot;
        R removal; l:[ℕ] slots; X later words; D later colours; q later root; i later slot""",
    'tree_rm_laws/Corrected': 'X words after the exchange; k link word; b side (true: left)',
    'tree_rm_laws/Links': """
        c child link; p parent; g parent; z old link; v new link; v:2 child link; s slot; k:2 slot""",
    'tree_rm_laws/Names': """
        l:[ℕ] old slots; m new slots; a old slot; b new slot; p pair; P pairs; l:[Pair] pairs""",
    'tree_rm_laws/Pairs': """
        z last slot; s removed slot; x vacated slot; y child of x; a slot; c from; b to; a:2 old slot;
        b:2 new slot; p first pair; q second pair; o third pair; a:Pair pair; b:Pair pair; c:Pair pair;
        d:Pair pair""",
    'tree_rm_laws/Reach': """
        s slot; w work; l:[Work] hulls; a first slot; b:ℕ second slot; ix slot; f continue; P parent;
        S sibling; c close nephew; Z final words""",
    'tree_rm_laws/Remove': 'X words after the exchange; s slot asked for; k:2 slot',
    'tree_rm_laws/Repair': """
        ix slot; P parent; S sibling; c close nephew; d distant nephew; p parent (red?);
        s:Bool sibling (red?); s slot; v red?; f continue""",
    'tree_rm_laws/With': 'X words after the exchange',
}

# The names of arguments that no letter tells: by file and declared name, if there are as many.
NAMES = {
    'Drains.joined': 'first second', 'Insert.insert_done': 'map store changed',
    'Intervals.contains': 'hull interval', 'Links.remove_child_lem': 'words parent child',
    'Links.leftmost': 'count height words slot', 'Lookup.ordered': 'low high', 'Pairs.named': 'old new',
    'Printed.entered': 'start end value stand', 'Refusals.BadRange': 'low high',
    'Refusals.ShortOutput': 'limit places', 'Remove.leftmost': 'count height words slot',
    'Remove.remove_done': 'map removal changed', 'Rows.◌entering◌': 'outcome count',
    'Rows.◌to◌': 'old new', 'Rows.drained': 'answer output', 'Rows.hit': 'slot',
    'Rows.holds': 'words', 'Rows.link': 'link', 'Rows.looked': 'answer output',
    'Rows.removed': 'answer colours', 'Rows.steps_from': 'store query steps cursor',
    'Rows.refused': 'number', 'Calls.refused': 'number', 'View.some': 'left datum right',
    'Walk.go': 'side slot', 'Walk.match': 'slot', 'Working.entered_list': 'work start end value entries',
    'Written.state': 'first last',
}

# The names of arguments by their types alone: of those that are constructors in all equations, and
# of the arguments of a function that is itself an argument.
BY_TYPES = {
    '[Frame]': 'way', '[Pair]': 'pairs', '[Interval]': 'intervals',
    '[Bool]': 'sides', '[Ask]': 'calls', '[Call]': 'calls', '[Change]': 'changes', '[Work]': 'hulls',
    '[Row]': 'rows', '[[ℕ]]': 'lines', 'Ask': 'call', 'ActionStack': 'stack', 'Bool': 'side',
    'Bool ℕ ℕ': 'side slot child', '[ℕ] [ℕ] ℕ ℕ': 'words colours root slot',
}
UNKNOWN = '?'
BUILT_IN = {'zero', 'suc', 'true', 'false', '[]', '∷', 'refl'}


def chunks(text, cut):
    """The parts of a text between cuts, a cut inside brackets not counted."""
    parts, depth, start = [], 0, 0
    for i, c in enumerate(text):
        depth += (c in '({') - (c in ')}')
        if depth == 0 and text.startswith(cut, i):
            parts.append(text[start:i])
            start = i + len(cut)
    return [part.strip() for part in parts + [text[start:]] if part.strip()]


def inner(text):
    """A text without the brackets around all of it."""
    return text[1:-1] if text.startswith('(') and len(chunks(text, ' ')) == 1 else text


def short(kind):
    """A type as the tables write it: `[ℕ]` for `List ℕ`, no spaces, of an applied type the head."""
    arrows = chunks(inner(kind), ' → ')
    if len(arrows) > 1:
        return '→'.join(map(short, arrows))
    words = chunks(inner(kind), ' ')
    if words[0] == 'List' and len(words) == 2:
        return '[' + short(words[1]) + ']'
    return ''.join(words[:2]) if words[0] == 'Type' else words[0].split('.')[-1]


def is_type(word):
    """Whether a type may be applied to it as to a type: `Change Answer`, `Change A`; not `Stays W
    X`."""
    return word in ('ℕ', 'A', 'K') or bool(re.fullmatch(r'(\w+\.)?[A-Z]\w+', word))


def is_data(kind):
    """Whether it is the type of an argument, and not a premise."""
    if len(chunks(inner(kind), ' → ')) > 1:
        return all(map(is_data, chunks(inner(kind), ' → ')))
    words = chunks(inner(kind), ' ')
    if words[0] in ('List', 'Type') and len(words) == 2:
        return words[0] == 'Type' or is_data(words[1])
    return bool(re.fullmatch(r'ℕ|(\w+\.)?[A-Z]\w*', words[0])) and all(map(is_type, words[1:]))


class Declared:
    """A signature: its lines in its file, and its arguments, each a name or None and a type."""

    def __init__(self, lines, at, name, start, kind):
        self.at, self.end, self.name, self.start = at, at + 1, name, start
        deeper = re.match(' *', lines[at])[0] + r' +(?!--)\S'
        while self.end < len(lines) and re.match(deeper, lines[self.end]):
            kind += ' ' + lines[self.end].strip()
            self.end += 1
        *before, self.result = chunks(kind, ' → ')
        self.implicit, self.arguments = [], []
        for part in before:
            groups = chunks(part, ' ')
            for group in groups if all(' : ' in g for g in groups) else [part]:
                names, _, typed = group[1:-1].partition(' : ')
                if group.startswith('{') and typed:
                    self.implicit.append(group)
                elif group.startswith('(') and typed and not re.search(r'[()→]', names):
                    self.arguments += [(n, typed) for n in names.split()]
                else:
                    self.arguments.append((None, group))

    def is_constructor(self):
        return self.start.startswith('  ') and not self.start.startswith('  pub ')

    def lacks_names(self):
        return any(name is None and is_data(kind) for name, kind in self.arguments)

    def text(self, names):
        """The lines of the signature with these names, None for a premise."""
        parts = [(group, False) for group in self.implicit]
        last = None
        for name, (_, kind) in zip(names, self.arguments):
            kind = function(kind)
            if name and last == kind:
                parts[-1] = (parts[-1][0].replace(' : ', f' {name} : ', 1), True)
            else:
                parts.append((f'({name} : {kind})', True) if name else (kind, False))
            last = kind if name else None
        parts.append((self.result, False))
        indent = re.match(' *', self.start)[0] + '    '
        lines = [self.start + ' ' + parts[0][0]]
        for (_, before), (part, named) in zip(parts, parts[1:]):
            part = part if before and named else '→ ' + part
            if len(lines[-1]) + 1 + len(part) > WIDTH:
                lines.append(indent + part)
            else:
                lines[-1] += ' ' + part
        return lines


def function(kind):
    """The type of an argument; if that is a function of several arguments, with their names."""
    *before, result = chunks(inner(kind), ' → ')
    names = BY_TYPES.get(' '.join(map(short, before)), '').split()
    if len(before) < 2 or len(names) != len(before):
        return inner(kind) if before else kind
    inside = Declared([''], 0, '', '', inner(kind))
    return ' '.join(inside.text(names)).strip()


class Spec:
    """A file of specs/, and what its table says."""

    def __init__(self, path, constructors):
        self.path, self.wrong, self.done = path, [], 0
        self.lines = path.read_text().splitlines()
        crate = path.parent.parent.name
        self.crate = crate = ALIASES.get(crate, crate)
        self.own = [table(f'{crate}/{path.stem}'), table(crate)]
        if not any(key.split('/')[0] == crate for key in MEANINGS):
            self.own += [table(key) for key in MEANINGS if key.endswith('/' + path.stem)][:1]
        self.declared = list(declarations(self.lines))
        imports = re.findall(r'[^\s{},]+', ' '.join(line for line in self.lines if line.startswith('use ')))
        self.constructors = {n: d for n, d in constructors.items() if n in imports}
        self.constructors |= {d.name: d for d in self.declared if d.is_constructor()}

    def meaning(self, name, kind, wanted=None):
        """What a variable of this type means; with a wanted first word, only such a meaning."""
        for known in self.own + [{name: name} if len(name) > 1 else {}, table('')]:
            for key in [f'{name}:{kind}', name] + [k for k in known if wanted and k.startswith(name + ':')]:
                if key in known and (not wanted or first(known[key]) == wanted):
                    return known[key]
        return wanted

    def is_variable(self, word):
        constructor = word in self.constructors or word in BUILT_IN or re.match(r'[A-Z]\w', word)
        return not constructor and bool(re.fullmatch(r'[^\W\d_][\w\'?-]*', word))

    def bound(self, pattern, kind):
        """The variables of a pattern of this type, each with its type, '' where it is not known."""
        words = chunks(inner(pattern), ' ')
        if len(words) == 1:
            return [(words[0], kind)] if self.is_variable(words[0]) else []
        if '∷' in words:
            heads = chunks(inner(pattern), ' ∷ ')
            kinds = [kind[1:-1]] * (len(heads) - 1) + [kind]
            return [pair for h, k in zip(heads, kinds) for pair in self.bound(h, k)]
        infix = self.constructors.get(f'◌{words[1]}◌') if len(words) == 3 else None
        known = infix or self.constructors.get(words[0])
        kinds = [short(k) for _, k in known.arguments] if known else ['ℕ'] if words[0] == 'suc' else []
        words = [words[0], words[2]] if infix else words[1:]
        kinds = kinds if len(kinds) == len(words) else [''] * len(words)
        return [pair for w, k in zip(words, kinds) for pair in self.bound(w, k)]

    def equations(self, name):
        """The patterns of each equation of a definition."""
        for line in self.lines:
            if line.startswith(name + ' ') and not line.startswith(name + ' :'):
                yield chunks(re.split(r' =(?: |$)', line)[0], ' ')[1:]

    def uses(self, name):
        """The arguments of a constructor in the patterns of the file."""
        for line in self.lines:
            left = re.split(r' =(?: |$)', line)[0] if re.match(r'\S', line) else ''
            for use in re.findall(r'\(' + re.escape(name) + r' ([^()]*)\)', left):
                yield use.split(' ∷')[0].split()

    def names(self, d):
        """A name for each argument that has none; None for a premise; UNKNOWN where nothing tells
        it."""
        wanted = NAMES.get(f'{self.path.stem}.{d.name}', '').split()
        patterns = list(self.uses(d.name) if d.name in self.constructors else self.equations(d.name))
        result = []
        for i, (name, kind) in enumerate(d.arguments):
            if name is None and is_data(kind):
                name = self.name([p[i] for p in patterns if i < len(p)], kind)
                name = wanted[i] if len(wanted) == len(d.arguments) else name
            result.append(name + "'" if name and name in result else name)
        return result

    def name(self, patterns, kind):
        """The name of an argument of this type, by the patterns for it in all equations."""
        kind = short(kind)
        tails = [re.sub(r'^\(suc (\S+)\)$', r'\1', p) for p in patterns]
        tails += [p.split(' ∷ ')[-1][:-1] for p in patterns if ' ∷ ' in p and kind not in BY_TYPES]
        for variable in filter(self.is_variable, tails):
            return first(self.meaning(variable, kind) or UNKNOWN)
        for known in self.own + [BY_TYPES]:
            if kind in known:
                return first(known[kind])
        if kind.endswith('Answer'):
            return 'answer'
        return kind[0].lower() + kind[1:] if re.fullmatch(r'[A-Z]\w+', kind) else UNKNOWN

    def letters(self):
        """The letters that the file binds, each with what it means there."""
        found = {}

        def add(name, phrase):
            if len(name.rstrip("'")) == 1 or any(name in t for t in self.own):
                found.setdefault(name, [])
                if phrase not in found[name]:
                    found[name].append(phrase)

        for d in self.declared:
            for patterns in self.equations(d.name):
                for pattern, (binder, kind) in zip(patterns, d.arguments):
                    pattern = re.sub(r'^\(suc (\S+)\)$', r'\1', pattern)
                    if self.is_variable(pattern):
                        add(pattern, self.meaning(pattern, short(kind), binder))
                    else:
                        for name, inside in self.bound(pattern, short(kind)):
                            add(name, self.meaning(name, inside))
        code = '\n'.join(line for line in self.lines if not re.match(r' *--|use ', line))
        for m in re.finditer(r'\(((?:[^\s(){}:]+ )+): (?=(.*))', code):
            kind = chunks('(' + m[2], ' ')[0]
            for name in m[1].split():
                add(name, self.meaning(name, short(kind)))
        for name, kind in re.findall(r'let (\S+) : (.*?) =', code):
            add(name, self.meaning(name, short(kind)))
        for name in re.sub(r'\([^()]*\)', '', ' '.join(re.findall(r'λ ([^.]*)\.', code))).split():
            if name != '_' and (name not in found or any(name in t for t in self.own)):
                add(name, self.meaning(name, ''))
        for name, phrases in found.items():
            if None in phrases:
                self.wrong.append(f'the table has no meaning for the letter {name}')
        usual = [n for n in 'mWCnr' if found.get(n) == [table('')[n]]]
        order = usual + [key.split(':')[0] for t in self.own + [table('')] for key in t]
        return {n: found[n] for n in sorted(found, key=(order + list(found)).index) if None not in found[n]}

    def name_arguments(self):
        named = []
        for d in {d.at: d for d in reversed(self.declared)}.values():
            if d.lacks_names():
                names = self.names(d)
                if UNKNOWN in names:
                    self.wrong.append(f'nothing tells the names of the arguments of {d.name}')
                else:
                    named.insert(0, d.name)
                    self.lines[d.at:d.end] = d.text(names)
        self.done = len(named)
        self.declared = list(declarations(self.lines))
        return 'arguments without names: ' + ', '.join(named)

    def explain_letters(self):
        head = next((i for i, line in enumerate(self.lines) if not line.startswith('--')), 0)
        kept, old = [], []
        for line in self.lines[:head]:
            legend = line.startswith('-- Letters:') or old and line.startswith('--   ')
            (old if legend else kept).append(line)
        letters = self.letters()
        if letters:
            text = ', '.join(f'{name}\u00a0{" or ".join(phrases)}' for name, phrases in letters.items())
            kept += wrapped('-- Letters: ' + text, '', '--   ')
        self.lines[:head] = kept
        lacking = [n for n in letters if not re.search(rf'[:,] (--   )?{n} ', ' '.join(old))]
        return 'the legend lacks ' + ', '.join(lacking) if lacking else 'the legend is not the table\'s'

    def read_bytes(self):
        """The text of bytes that are written as numbers, in a comment on their line."""
        for i, line in enumerate(self.lines):
            lists = re.findall(r'(?<![\w)])((?:\d+ ∷ )+)', line) if self.crate in ('lines', 'slots') else []
            if lists and '--' not in line:
                texts = [''.join(chr(int(n)) for n in re.findall(r'\d+', one)) for one in lists]
                self.lines[i] += '  -- ' + ', '.join('"%s"' % text.replace('\n', r'\n') for text in texts)
        return 'bytes without their text'

    def wrap_comments(self):
        lines, i = [], 0
        while i < len(self.lines):
            prefix = re.match(r'( *-- )(?!Letters:|  )', self.lines[i])
            end = i + 1
            while prefix and end < len(self.lines) and re.match(prefix[1] + '(?!Letters:)', self.lines[end]):
                end += 1
            if prefix and max(map(len, self.lines[i:end])) > WIDTH:
                text = ' '.join(line[len(prefix[1]):].strip() for line in self.lines[i:end])
                lines += wrapped(text, prefix[1], prefix[1])
            else:
                lines += self.lines[i:end]
            i = end
        self.lines = lines
        return f'a comment of more than {WIDTH} columns'


def table(key, known={}):
    """An entry of MEANINGS, taken apart."""
    if key not in known:
        entries = [' '.join(entry.split()) for entry in MEANINGS.get(key, '').split(';')]
        known[key] = dict(entry.split(' ', 1) for entry in entries if entry)
        assert len(known[key]) == len(list(filter(None, entries))), key
    return known[key]


def wrapped(text, first, later):
    """The lines of a comment; no line ends at a no-break space, which becomes a space."""
    lines = textwrap.wrap(text, WIDTH, initial_indent=first, subsequent_indent=later, break_on_hyphens=False)
    return [line.replace('\u00a0', ' ') for line in lines]


def first(phrase):
    """The name in a phrase."""
    return phrase.split()[0].rstrip(':')


def declarations(lines):
    """The signatures of a file: definitions, constructors, fields."""
    inside = False
    for i, line in enumerate(lines):
        if re.match(r'\S', line):
            inside = re.match(r'pub (data|record) ', line)
        prefix = r'  (?! |--)' if inside else r'(?!--|use )(?:abbrev |unfoldable )?'
        m = re.match(prefix + r'(?:pub )?(\S+(?: \S+)*?) :(?= (.+))', line)
        for name in m[1].split() if m else []:
            yield Declared(lines, i, name, m[0], m[2])


def main():
    check = sys.argv[1:] == ['--check']
    if sys.argv[1:] and not check:
        sys.exit(__doc__)
    paths = sorted(TOP.glob('crates/*/specs/**/*.antt'))
    declared = [d for path in paths for d in declarations(path.read_text().splitlines())]
    constructors = {d.name: d for d in declared if d.is_constructor()}
    signatures = changed = wrong = 0
    for path in paths:
        spec = Spec(path, constructors)
        given = list(spec.lines)
        for step in (spec.name_arguments, spec.explain_letters, spec.read_bytes, spec.wrap_comments):
            before = list(spec.lines)
            says = step()
            if check and spec.lines != before:
                spec.wrong.append(says)
        signatures += spec.done
        changed += spec.lines != given
        if not check and spec.lines != given:
            path.write_text('\n'.join(spec.lines) + '\n')
        for text in spec.wrong:
            print(f'binders: {path.relative_to(TOP)}: {text}')
        wrong += len(spec.wrong)
    said = ('to name', 'to change') if check else ('named', 'changed')
    print(f'binders: {len(paths)} files: {signatures} signatures {said[0]}, {changed} files {said[1]}, {wrong} wrong')
    return 1 if wrong else 0


if __name__ == '__main__':
    sys.exit(main())
