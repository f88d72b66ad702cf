#!/usr/bin/env python3
"""Brings the definitions and lemmas of this repository to today's spelling: words in snake case, types and facts in upper camel case.

usage: tools/respell.py [TOP]

It was run once, right after the kit's port.py, on the crates below TOP (the folder that holds tools/); docs/PORT.md says when. respelled.tsv beside it
has a row for each name: old, a tab, new. LEMMAS are names that a definition takes: the lemma gets _lem. TYPES are facts that were spelled as values.
Names of src/, strings, inputs and outputs stay.
"""
import os
import re
import subprocess
import sys

HERE = os.path.dirname(os.path.abspath(__file__))
WORD = re.compile(r'[^\s(){}.;,@"«»]+')
QUOTED = re.compile(r'"(?:[^"\\\n]|\\.)*"')

# a lemma, and the files that have it
LEMMAS = {
    "is_word": ("definition/proofs/Words.antt", "word/proofs/Laws.antt"),
    "is_address": ("word/proofs/Laws.antt", "word/proofs/is_address/Proof.antt"),
    "number_fits": ("exercise/proofs/Made.antt", "assembly/proofs/Cells.antt"),
    "dot_word": ("assembly/proofs/Placed.antt",),
    "held_in": ("back/proofs/Laws.antt",),
    "is_digit": ("expression/proofs/Complete.antt",),
}
# facts of expression's specs/Code
TYPES = {"ahead": "Ahead", "forward": "Forward", "onward": "Onward", "operand_at": "OperandAt"}
CODE = "Rattle.expression.specs.Code"


def realigned():
    """The kit's own function that moves the later lines of a block with its first."""
    first = subprocess.run(["rt", "doc"], capture_output=True, text=True, check=True).stdout.strip()
    sys.path.insert(0, os.path.join(os.path.dirname(first), "port/notes/2026-11-18-names-are-in-snake-case"))
    sys.dont_write_bytecode = True
    import snake

    return snake.realigned


def turned(text, table, bare):
    """The text with each word of table turned, and each word of bare where no dot stands before it; strings stay."""

    def words(part):
        def one(m):
            if m[0] in bare and part[m.start() - 1 : m.start()] != ".":
                return bare[m[0]]
            return table.get(m[0], m[0])

        return WORD.sub(one, part)

    out, at = [], 0
    for m in QUOTED.finditer(text):
        out += [words(text[at : m.start()]), m[0]]
        at = m.end()
    return "".join(out + [words(text[at:])])


def main():
    top = sys.argv[1] if len(sys.argv) > 1 else os.path.dirname(HERE)
    with open(os.path.join(HERE, "respelled.tsv"), encoding="utf-8") as f:
        table = dict(line.rstrip("\n").split("\t") for line in f)
    align, crates, changed = realigned(), os.path.join(top, "crates"), 0
    for folder, folders, files in os.walk(crates):
        folders[:] = sorted(d for d in folders if d != "out")
        for name in sorted(files):
            if not name.endswith((".antt", ".rt")):
                continue
            path = os.path.join(folder, name)
            here = re.sub(r"__edit__\w+(?=\.)", "", os.path.relpath(path, crates))
            with open(path, encoding="utf-8") as f:
                old = f.read()
            bare = {w: w + "_lem" for w, where in LEMMAS.items() if here in where}
            if here == "expression/specs/Code.antt":
                bare.update(TYPES)
            else:
                for names in re.findall(re.escape(CODE) + r"\.\{([^}]*)\}", old):
                    bare.update({w: TYPES[w] for w in names.replace(" ", "").split(",") if w in TYPES})
            new, _ = align(old, turned(old, table, bare))
            if new != old:
                changed += 1
                with open(path, "w", encoding="utf-8") as f:
                    f.write(new)
    print(f"{changed} files changed")


if __name__ == "__main__":
    main()
