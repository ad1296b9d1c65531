#!/usr/bin/env python3
"""Counts the places of docs/DESIGN-PASS.md, a line for each, and a total for each point.

    tools/places.py [FOLDER]    FOLDER is a checkout; without it this one is read
"""
import collections
import pathlib
import re
import sys

ROOT = pathlib.Path(sys.argv[1] if len(sys.argv) > 1 else pathlib.Path(__file__).resolve().parent.parent)
SOURCES = sorted(ROOT.glob("crates/*/src/**/*.rt"))
FUNCTION = re.compile(r"^( *)(?:#\[.*\]\n *)?(?:pub(?:\(crate\))? )?(?:const )?(?:extern \"C\" )?fn (\w+)", re.M)


def functions(text):
    """Name, line, header and body of each function."""
    for start in FUNCTION.finditer(text):
        end = re.compile("^" + start[1] + r"\}$", re.M).search(text, start.end())
        if end is None:
            continue
        whole = text[start.start() : end.end()]
        opening = re.search("^" + start[1] + r"\{$|\{$", whole, re.M)
        if opening:
            line = text.count("\n", 0, start.start()) + 1
            yield start[2], line, whole[: opening.start()], whole[opening.end() :]


def show(point, places):
    print(f"== {point}: {len(places)}")
    for place in places:
        print("  ", place)


def matching(pattern):
    for path in SOURCES:
        for number, line in enumerate(path.read_text().splitlines(), 1):
            if not line.lstrip().startswith("//") and re.search(pattern, line):
                yield f"{path.relative_to(ROOT / 'crates')}:{number}: {line.strip()}"


ALL = [(path.relative_to(ROOT / "crates"), *f) for path in SOURCES for f in functions(path.read_text())]

# 1: a number that says how a call went or of which kind a thing is; a flag beside the value that it speaks of
show("1 refusals as numbers", list(matching(r"(return|answer:|written: .*answer:) (1[1-9]|3[0-7]|4[0-9])\b|^\s+answer: (1[1-9]|3[0-7]|4[0-9])")))
show("1 kinds as numbers", list(matching(r"\b(engine|kind) (==|!=|<=) \d|\d <= (engine|kind)\b|\(d: u16\)|, d: u16|direction: u16")))
show("1 flag or answer beside a value", list(matching(r"^\s+(pub )?(answer|met|unlabelled|blocked): (u32|bool),")))
show("1 enums like Option or Result", list(matching(r"^\s+(Broken|Nothing|Missing|Failed),?$")))


# 2: functions of one shape, names and numbers left out
def shape(text):
    text = re.sub(r"//.*|^\s*(requires|ensures).*$", "", text, flags=re.M)
    keywords = r"\b(?!fn\b|let\b|mut\b|if\b|else\b|while\b|for\b|in\b|return\b|match\b|self\b|pub\b)\w+\b"
    return re.sub(r"\s+", "", re.sub(keywords, "_", text))


def parameters(header):
    inner = re.split(r"fn \w+(?:<[^\n]*?>)?\(", header, maxsplit=1)[1]
    inner = re.split(r"\)\s*(?:->|\n|requires|ensures|where|$)", inner)[0]
    return [p for p in re.split(r",\s*", inner.strip().rstrip(",")) if p]


shapes = collections.defaultdict(list)
for path, name, line, header, body in ALL:
    if "no_mangle" not in header and path.parts[0] not in ("abi", "planner"):
        shapes[shape(",".join(p.split(":")[-1] for p in parameters(header)) + body)].append(f"{path}:{line} {name}")
show("2 functions of one shape", [", ".join(group) for group in shapes.values() if len(group) > 1])

# 3: loops
show("3 while", list(matching(r"^\s*while ")))
show("3 for over an index", list(matching(r"^\s*for \w+ in \(?[\w.]+\.\.")))

# 4: conversions by `as`, one function for each
show("4 conversions by as", [f"{path}:{line} {name}" for path, name, line, _, body in ALL if re.search(r"\bas [iu](8|16|32|64|size)\b", body)])

# 5: long lists of parameters, and clauses that stand in three functions or more
show("5 seven parameters or more", [f"{path}:{line} {name} ({len(parameters(header))})" for path, name, line, header, _ in ALL if len(parameters(header)) > 6])
clauses = collections.defaultdict(list)
for path, name, line, header, _ in ALL:
    for clause in re.findall(r"requires(?: \w+)? \{ (.*) \}", header):
        for part in re.sub(r"\.(now|old)\b", "", clause).split(" × "):
            clauses[(path.parts[0], part.strip("() "))].append(name)
show("5 facts that three functions ask for", [f"{crate}: {part} ({len(names)})" for (crate, part), names in clauses.items() if len(names) > 2])

# 6: a slice and a number that says how much of it counts; two slices that lie side by side
show("6 stack beside its count", [f"{path}:{line} {name}" for path, name, line, header, _ in ALL if re.search(r"\bcount: usize", header)])
show("6 text buffer beside its end", [f"{path}:{line} {name}" for path, name, line, header, _ in ALL if re.search(r"out: &mut \[u8\],\s*at: usize", header)])

# 7: a flag that says which step is run
show("7 flag for a step", [f"{path}:{line} {name}" for path, name, line, header, _ in ALL if re.search(r"\b(corners|corner|up|valued): bool", header)])

# 8: answers, and names that nothing cites
answers = sorted(ROOT.glob("crates/*/proofs/**/Answers.antt"))
print(f"== 8 answers: {len(answers)} files, {sum(len(a.read_text().splitlines()) for a in answers)} lines")
logic = [p for p in ROOT.glob("crates/*/*/**/*.antt") if "out" not in p.parts]
words = collections.Counter()
for path in [*logic, *SOURCES]:
    words.update(set(re.findall(r"[\w'◌+*/<>=≤≡-]+", re.sub(r"^use .*$|--.*$|//.*$", "", path.read_text(), flags=re.M))))
inside = collections.Counter()
lonely = []
for path in logic:
    if path.name in ("Answers.antt", "Invariants.antt", "Lib.antt"):
        continue
    text = re.sub(r"^use [^}]*$|^use .*$|--.*$", "", path.read_text(), flags=re.M)
    for name in re.findall(r"^ *(?:abbrev |unfoldable )?pub ([\w'-]+) :", text, re.M):
        here = len(re.findall(r"(?<![\w'-])" + re.escape(name) + r"(?![\w'-])", text))
        heads = len(re.findall(r"^ *(?:(?:abbrev |unfoldable )?pub )?" + re.escape(name) + r"(?![\w'-])", text, re.M))
        if words[name] == 1 and here == heads:
            lonely.append(f"{path.relative_to(ROOT / 'crates')} {name}")
show("8 names that nothing cites", lonely)
