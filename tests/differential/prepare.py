#!/usr/bin/env python3
"""prepare.py SOURCES TARGET: copies the crate iset 0.3.3 into TARGET and adds what the comparison
must see. The originals are unchanged."""
import pathlib
import sys

HERE = pathlib.Path(__file__).resolve().parent

MANIFEST = """[package]
name = "iset"
version = "0.3.3"
edition = "2018"

[features]
std = []
serde = []
dot = []

[lints.rust]
warnings = "allow"
"""

# Each old text must be exactly once in its file. Otherwise the sources are not the ones that this
# was written for.
CHANGES = {
    # The bytes are lent here: pop drops none, so the bit of the old last slot can still be read;
    # push adds a byte only where there is none.
    "bitvec.rs": [
        ("        if k == 0 {\n            self.data.pop();\n        }\n", ""),
        ("        if self.len & IX_MASK == 0 {\n            self.data.push(0);",
         "        if self.len >> IX_SHIFT == self.data.len() {\n            self.data.push(0);"),
    ],
    # Nodes entered are counted where the walk pushes a level.
    "iter.rs": [
        ("    fn push(& mut self) {\n", "    fn push(& mut self) {\n        crate::probe::count_push();\n"),
    ],
    # The five cases of removal's repair are counted, by side.
    "tree_rm.rs": [
        (text, text + f"\n                crate::probe::count_case({number}, node_is_left);")
        for number, text in enumerate((
            "// Case: Node has black parent and black sibling, both nephews are black.",
            "// Case: Node has black parent and red sibling, both nephews are black.",
            "else if !parent_black && sibling_black && close_nephew_black && distant_nephew_black {",
            "else if sibling_black && distant_nephew_black && !close_nephew_black {",
            "debug_assert!(sibling_black && !distant_nephew_black);",
        ))
    ],
    # So are the three of insertion's repair, by the side of the parent: a red uncle, two rotations,
    # one.
    "lib.rs": [
        (text, text + f"\n                crate::probe::count_case({number}, {left});")
        for number, left, text in (
            (5, "parent == self.nodes[grandparent.get()].left", "if uncle.defined() && self.is_red(uncle) {"),
            (6, "true", "self.rotate_left(parent);"),
            (6, "false", "self.rotate_right(parent);"),
        )
    ] + [
        ("                index = self.nodes[index.get()].right;\n            }\n",
         "                index = self.nodes[index.get()].right;\n            } else {\n"
         "                crate::probe::count_case(7, parent == self.nodes[grandparent.get()].left);\n            }\n"),
    ],
}


def write(path, text):
    """Leaves an equal file alone, so that cargo does not build again."""
    if not path.exists() or path.read_text() != text:
        path.parent.mkdir(parents=True, exist_ok=True)
        path.write_text(text)


def main(sources, target):
    write(target / "Cargo.toml", MANIFEST)
    for path in sorted(sources.glob("*.rs")):
        text = path.read_text()
        for old, new in CHANGES.get(path.name, []):
            if text.count(old) != 1:
                sys.exit(f"{path}: not the text of iset 0.3.3, no single place with: {old.strip()}")
            text = text.replace(old, new)
        added = HERE / "accessors" / path.name
        if added.exists():
            text += "\n" + added.read_text()
        write(target / "src" / path.name, text)


main(pathlib.Path(sys.argv[1]), pathlib.Path(sys.argv[2]))
