#!/usr/bin/env python3
"""Turns the rows of journals into a table of definitions, which the prover computes, or into one of a test.

    tools/journals_to_lemmas.py antt rows/lawful.journals > crates/journal_rule/proofs/Journals.antt
    tools/journals_to_lemmas.py rust rows/lawful.journals > crates/journal_rule/src/rows.rt
"""
import sys


def blocks(path):
    """The rows: each its name and its lines, the answer last."""
    for block in open(path, encoding="utf-8").read().split("\n\n"):
        lines = [line for line in block.split("\n") if line]
        if lines and lines[-1].startswith("=> "):
            yield lines[0].lstrip("# "), lines[1:-1], lines[-1][3:].split(" ")


class Base:
    """A journal with its script and the number of lanes, and the rows that change it."""

    def __init__(self, name, lines, answer):
        assert lines[0].startswith("lanes ") and answer == ["lawful"], name
        ends, journal = lines.index("ends"), lines.index("journal")
        self.name, self.lanes = name, lines[0].split(" ")[1]
        self.script, self.ends, self.journal = lines[1:ends], lines[ends + 1 : journal], lines[journal + 1 :]
        self.rows = []

    def row(self, name, edits, answer):
        """The lines that change, by their numbers from 0, each with those that stand in its place."""
        changes, at = {}, None
        for edit in edits:
            mark, line = edit[0], edit[2:]
            if mark in "-@":
                assert self.journal.count(line) == 1, (name, line)
                at = self.journal.index(line)
                changes[at] = [] if mark == "-" else [line]
            else:
                assert mark == "+", (name, edit)
                changes[at].append(line)
        self.rows.append((name, sorted(changes.items()), answer))


def bases(path):
    found = []
    for name, lines, answer in blocks(path):
        if lines[0].startswith("lanes "):
            found.append(Base(name, lines, answer))
        else:
            found[-1].row(name, lines, answer)
    return found


def listed(items):
    return "(" + " ∷ ".join(list(items) + ["[]"]) + ")"


def codes(lines):
    return listed(f'codes "{line}"' for line in lines)


ANTT = """\
-- Journals with the parts of the rule that each breaks, computed: the rows of {source}, written by tools/journals_to_lemmas.py.
use Rattle.std.proofs.Common.{{ℕ, List, [], ◌∷◌, codes}}
use Rattle.journal_rule.specs.declared.part.Part.TheVariants.{{{parts}}}
use Rattle.journal_rule.proofs.Table.{{Row, row}}
"""

PARTS = ["Calls", "Ranges", "Ends", "Requests", "Sources", "GoneWords", "Strays", "Marks", "Losses", "Cancels"]


def antt(path):
    print(ANTT.format(source=path, parts=", ".join(PARTS)), end="")
    for number, base in enumerate(bases(path), 1):
        print(f"\n-- {base.name}\nabbrev pub lanes-{number} : ℕ\nlanes-{number} = {base.lanes}\n")
        for word, lines in (("script", base.script), ("ends", base.ends), ("journal", base.journal)):
            print(f"abbrev pub {word}-{number} : List (List ℕ)\n{word}-{number} =")
            for line in lines:
                print(f'    codes "{line}" ∷')
            print("    []\n")
        print(f"abbrev pub rows-{number} : List Row\nrows-{number} =")
        for name, changes, answer in [("as it stands", [], ["lawful"])] + base.rows:
            breaks = [] if answer == ["lawful"] else answer
            changed = [f"({at}, {codes(lines)})" for at, lines in changes]
            line = f"    row {listed(changed)} {listed(breaks)} ∷"
            if len(line) > 180:
                line = "    row (" + " ∷\n    ".join(changed + ["[]"]) + f") {listed(breaks)} ∷"
            print(f"    -- {name}\n{line}")
        print("    []")


RUST = """\
//! Journals, and changes of their lines: the rows of {source}, written by tools/journals_to_lemmas.py.
"""


def quoted(lines):
    return '"' + "".join(line + "\\n" for line in lines) + '"'


def spread(lines, width=110):
    """The same text as a literal over several lines of code, each of so many characters as far as a line fits."""
    pieces = [""]
    for line in (line + "\\n" for line in lines):
        if pieces[-1] and len(pieces[-1]) + len(line) > width:
            pieces.append("")
        pieces[-1] += line
    return '"' + "\\\n     ".join(pieces) + '"'


def changed_line(row, at, lines):
    """A change as an element of the test's table, laid out as rt fmt lays it out."""
    parts = [str(row), str(at), quoted(lines)]
    short = ", ".join(parts)
    return f"    ({short})," if len(short) <= 60 else "    (\n" + "".join(f"        {part},\n" for part in parts) + "    ),"


def rust(path):
    print(RUST.format(source=path), end="")
    for number, base in enumerate(bases(path), 1):
        changes = [
            changed_line(row, at, lines)
            for row, (_, changed, _) in enumerate(base.rows, 1)
            for at, lines in changed
        ]
        print(f"\n/// {base.name[0].upper() + base.name[1:]}.\npub const JOURNAL_{number}: &str =\n    {spread(base.journal)};")
        print("\n/// The row, the line's number from 0, and what stands in its place.")
        print(f"pub const CHANGES_{number}: [(usize, usize, &str); {len(changes)}] = [")
        print("\n".join(changes) + "\n];")


def main():
    {"antt": antt, "rust": rust}[sys.argv[1]](sys.argv[2])


main()
