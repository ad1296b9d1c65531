#!/usr/bin/env python3
"""Respells the repository's own names in specs/ and proofs/ as the Rattle of this repository spells names: definitions, fields and lemmas in snake
case, a dash in a lemma's name only where it joins two names.

usage: tools/respell.py [ROOT]      run once, after port.py, at the top of a checkout: rewrites crates/, README.md and docs/ by tools/respell.tsv
       tools/respell.py --table     prints the table for the tree as it stands

The table has a row for each name: old, a tab, new. Whole words turn: in .antt files everywhere, in .rt files in clauses, ghost items and comments,
in must-fail edits everywhere, in README.md and docs/ (but for CHANGES.md, which is history) inside code spans and bold names.
Names of Rust code, of files and of strings stay.
"""

import glob
import os
import re
import sys

WORD = r"[^\s(){}.;,@\"«»:`*\[\]|]+"
HERE = os.path.dirname(os.path.realpath(__file__))

# A lemma or a field whose respelled name would be that of a definition.
BY_HAND = {
    "is-given": "gives",
    "down-row": "down_row_lem",
    "up-row": "up_row_lem",
    "leaves-sheet": "leaves_sheet_lem",
    "on-sheet": "on_sheet_lem",
    "known-engine": "known_engine_lem",
    "true-distance": "true_distance_lem",
    "in-rectangle": "in_rectangle_lem",
}

# The same, where the lemma's name has no dash and stands in one file alone.
BY_FILE = {
    "crates/join/specs/BitsLaws.antt": {"from_bits": "from_bits_lem"},
    "crates/probe/proofs/Solving.antt": {"way_up": "way_up_lem", "way_down": "way_down_lem"},
    "crates/guarantee/proofs/Gates.antt": {"by_values": "by_values_lem"},
}


def declared(root):
    """The names that specs/*.antt and proofs/*.antt declare: functions, fields and lemmas, with the kind of each."""
    kinds = {}
    for path in sorted(glob.glob(root + "/crates/*/specs/*.antt") + glob.glob(root + "/crates/*/proofs/*.antt")):
        in_record = False
        for line in open(path, encoding="utf-8"):
            line = line.rstrip("\n")
            if line.strip().startswith("--"):
                continue
            if m := re.match(r"\s*(?:(?:abbrev|unfoldable|pub)\s+)*(record|data)\s+(%s)" % WORD, line):
                kinds.setdefault(m[2], set()).add("type")
                in_record = True
                continue
            if m := re.match(r"(\s*)((?:(?:abbrev|unfoldable|pub)\s+)*)(%s(?:\s+%s)*)\s*:(\s|$)" % (WORD, WORD), line):
                kind = "field" if in_record and m[1] else "definition" if re.search("abbrev|unfoldable", m[2]) else "other"
                for name in m[3].split():
                    kinds.setdefault(name, set()).add(kind)
            if line and not line[0].isspace():
                in_record = False
    return kinds


def snake(name):
    """Camel case to snake case; a name of one capital, as the R of a relation, stays."""
    return re.sub(r"(?<=[a-z0-9])([A-Z])", lambda m: "_" + m[1].lower(), name)


def rows(root):
    kinds = declared(root)
    words = {snake(n) for n, k in kinds.items() if "definition" in k or ("other" in k and "-" not in n)}
    words |= set("length take drop replicate append map set get_or cond not abs".split())
    table = {}
    for name, kind in kinds.items():
        if not (name[0].islower() or name[0] == "_"):
            continue
        parts = snake(name).split("-")
        new = parts[0]
        for i, part in enumerate(parts[1:], 1):
            left = re.split("-", new)[-1]
            right = any("_".join(parts[i:j]) in words for j in range(i + 1, len(parts) + 1))
            join = "-" if "field" not in kind and left in words and right else "_"
            new += join + part
        new = BY_HAND.get(name, new)
        if new != name:
            table[name] = new
    return table, kinds


def turned(text, table, spans=None):
    """The text with each whole word of the table turned, inside the spans if any are given."""
    word = re.compile(r"(?<![^\s(){}.;,@\"«»:`*\[\]|/'])([a-z_][^\s(){}.;,@\"«»:`*\[\]|/]*)")

    def one(m):
        w = m[1]
        if w in table:
            return table[w]
        base = w.rstrip("'₀₁₂₃′")
        return table[base] + w[len(base):] if base in table and base != w else w

    if spans is None:
        return word.sub(one, text)
    return spans.sub(lambda m: word.sub(one, m[0]), text)


CLAUSE = re.compile(r"//[^\n]*|ghost\s+use\b[^;]*;|(?:requires|ensures)\s*\*?\s*(?:\w+\s*)?\{[^{}]*(?:\{[^{}]*\}[^{}]*)*\}|ghost\s+\w+\s*:\s*\{[^{}]*\}")
SPAN = re.compile(r"`[^`\n]+`|\*\*[^*\n]+\*\*")


def main(argv):
    if argv == ["--table"]:
        table, _ = rows(".")
        for old in sorted(table):
            print(f"{old}\t{table[old]}")
        return 0
    root = argv[0] if argv else "."
    with open(os.path.join(HERE, "respell.tsv"), encoding="utf-8") as f:
        table = dict(line.rstrip("\n").split("\t") for line in f if line.strip())
    for folder, dirs, files in os.walk(os.path.join(root, "crates")):
        dirs[:] = sorted(d for d in dirs if d != "out")
        for name in sorted(files):
            path = os.path.join(folder, name)
            spans = None if name.endswith((".antt", ".edit")) else CLAUSE if name.endswith(".rt") else False
            if spans is not False:
                rewrite(path, table | BY_FILE.get(os.path.relpath(path, root), {}), spans)
    for path in [os.path.join(root, "README.md")] + sorted(glob.glob(os.path.join(root, "docs", "*.md"))):
        if os.path.basename(path) != "CHANGES.md":
            rewrite(path, table, SPAN)
    return 0


def rewrite(path, table, spans):
    with open(path, encoding="utf-8") as f:
        old = f.read()
    new = turned(old, table, spans)
    if new != old:
        with open(path, "w", encoding="utf-8") as f:
            f.write(new)


if __name__ == "__main__":
    raise SystemExit(main(sys.argv[1:]))
