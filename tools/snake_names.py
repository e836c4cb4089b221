#!/usr/bin/env python3
"""Brings the repository's own definitions, constructors, fields of records and lemmas to snake case.

usage: python3 tools/snake_names.py [--dry] [TOP]

It reads every .antt file below TOP/crates, collects the names that they declare with a small first letter, and writes each that has a dash or a capital in snake case, wherever the
name stands: in .antt files, in the `ghost use` items, clauses and comments of .rt files, in must-fail edits, and in the pages (README.md, docs/). Types, modules, functions of src/,
labels that Rattle makes (`Need-..`, `c.step.field`), and names that a file imports from a library stay as they are.

It ran once, right after the kit's port.py (docs/PORT.md). It is kept to show what it did, and is not run again: the names of goals, which proofs have now, have dashes of their own.
"""
import os
import re
import sys

DRY = "--dry" in sys.argv
WORDS = [w for w in sys.argv[1:] if w != "--dry"]
TOP = WORDS[0] if WORDS else "."
LETTER = r"[^\s(){}\[\];,.:λ\"@]"
TOKEN = re.compile(LETTER + "+")
DECLARED = re.compile(r"^\s*(?:(?:abbrev|unfoldable|opaque|pub|data|record|postulate|ruleset)\s+)*((?:" + LETTER + r"+\s+)*" + LETTER + r"+)\s+:(?:\s|$)")
OLD = re.compile(r"[a-z][A-Za-z0-9'-]*(?:[₀-₉]*)")


def texts(endings):
    for folder, dirs, files in os.walk(os.path.join(TOP, "crates")):
        dirs[:] = sorted(d for d in dirs if d != "out")
        for f in sorted(files):
            if f.endswith(endings):
                yield os.path.join(folder, f)


def snake(name):
    name = name.replace("-", "_")
    name = re.sub(r"(?<=[a-z0-9'])([A-Z])", r"_\1", name)
    name = re.sub(r"(?<=[A-Z])([A-Z][a-z])", r"_\1", name)
    return name.lower()


def read(p):
    with open(p, encoding="utf-8") as f:
        return f.read()


def declared():
    """Every small-letter name that a line of a .antt file gives a type at the left of a colon."""
    found = set()
    for p in texts(".antt"):
        for line in read(p).splitlines():
            if line.lstrip().startswith(("--", "use ", "module ")):
                continue
            m = DECLARED.match(line)
            if not m:
                continue
            for name in m.group(1).split():
                if OLD.fullmatch(name) and (("-" in name) or re.search("[A-Z]", name)):
                    found.add(name)
    return found


def everything():
    """The names in snake case that are declared now."""
    found = set()
    for p in texts(".antt"):
        for line in read(p).splitlines():
            m = None if line.lstrip().startswith(("--", "use ", "module ")) else DECLARED.match(line)
            found.update(m.group(1).split() if m else ())
    return found


def foreign(text):
    """The names that a file imports from a library."""
    got = set()
    for m in re.finditer(r"use ([\w.·+]+)\.\{([^}]*)\}", text):
        if own_module(m.group(1)):
            continue
        for item in m.group(2).split(","):
            got.add(item.split(" as ")[-1].strip())
    return got


# constructors of the cases of document 01's table, which the rules would make fall together with definitions
GIVEN = {
    "class-at": "class_case",
    "date-of": "date_case",
    "minute-of": "minute_case",
    "moment-of": "moment_case",
    "refused-with": "refused_case",
}
# lemmas whose spelling was changed before to one that a definition now takes
MOVED = ["closed_on", "ends_of", "first_part", "first_two", "in_use", "last_digits", "no_line", "no_start", "one_more"]
WORDS_NOW = set()
CRATES = set(os.listdir(os.path.join(TOP, "crates")))


def own_module(path):
    parts = path.split(".")
    return parts[0] == "Rattle" and len(parts) > 1 and parts[1] in CRATES


def prose(text, path):
    """The stretches of a file that are prose: comments, and the whole of a page."""
    if path.endswith(".md"):
        return [(0, len(text))]
    mark = r"(?m)^\s*//.*$|\s//.*$" if path.endswith(".rt") else r"(?m)(^|\s)--(\s.*)?$"
    return [m.span() for m in re.finditer(mark, text)]


def strings(text):
    return [m.span() for m in re.finditer(r'b?"(?:[^"\\\n]|\\.)*"', text)]


def modules(text):
    """The names under which a file has own modules of definitions or lemmas, and whether each is one that Rattle makes."""
    made = ("Tie", "Reads", "Statement", "Met", "Lts", "Given", "Goals", "TheVariants")
    return {m.group(2): m.group(1).split(".")[-1] in made for m in re.finditer(r"(?m)^use ([\w.+·'-]+) as (\S+)$", text) if own_module(m.group(1))}


def turned(text, names, path, keep=()):
    """The text with each of the names in snake case, where it stands as a whole word and not behind a dot (a label that Rattle made). Of prose a dashed word counts only as `word`."""
    out, at = [], 0
    said = prose(text, path)
    aliases = modules(text) if path.endswith(".antt") else {}
    names = names | {a: snake(a) for a in aliases if "-" in a}
    plainly = [a for a, made in aliases.items() if not made]
    named = re.compile(r"(?:^|[\s(\[{,;←])(?:" + "|".join(map(re.escape, plainly)) + r")\.$") if plainly else None
    quoted = strings(text) if path.endswith(".rt") else []
    for m in TOKEN.finditer(text):
        word = m.group()
        # a name in backquotes
        inner = word.strip("`")
        start = m.start() + len(word) - len(word.lstrip("`"))
        ticked = inner != word
        if inner not in names or inner in keep:
            continue
        if text[start - 1:start] == "." and inner not in FIELDS and not (named and named.search(text[max(0, start - 60):start])):
            continue
        if any(a <= start < b for a, b in quoted):
            continue
        if not re.search("[A-Z]", inner) and not ticked and any(a <= start < b for a, b in said):
            continue
        out.append(text[at:start] + names[inner])
        at = start + len(inner)
    out.append(text[at:])
    return "".join(out)


def plain(text):
    """A file's own text: with no comments, no paths of modules, no labels behind a dot."""
    lines = [l for l in text.splitlines() if not l.lstrip().startswith(("--", "//", "mod ", "pub mod "))]
    text = "\n".join(lines)
    text = re.sub(r"use [\w.·+'-]+\.\{", "{", text)
    text = re.sub(r"(?m)^use [\w.·+'-]+( as [\w'-]+)?$", "", text)
    return re.sub(r"(?<=\S)\." + LETTER + "+", " ", text)


def in_use():
    """The words in snake case that .antt files have now, the names of bound variables among them."""
    global WORDS_NOW
    if not WORDS_NOW:
        for p in texts(".antt"):
            WORDS_NOW |= set(TOKEN.findall(plain(read(p))))
    return WORDS_NOW


def record_fields():
    """Fields of records that .antt files declare: these are turned behind a dot, too."""
    found = set()
    for p in texts(".antt"):
        inside = False
        for line in read(p).splitlines():
            if re.match(r"^\s*(pub )?(abbrev )?record ", line):
                inside = True
            elif line.strip() and not line.startswith(" "):
                inside = False
            elif inside:
                m = DECLARED.match(line)
                if m:
                    found.update(m.group(1).split())
    return found


def main():
    global FIELDS
    FIELDS = record_fields()
    old = declared()
    taken = in_use() | {snake(n) for n in old if "-" not in n}
    names = {}
    for n in sorted(old):
        s = snake(n)
        if "-" in n and s in taken:
            s += "_lem"
        names[n] = s
        if "-" not in n and s in in_use():
            print("taken already:", n, "->", s)
    names |= {n: n + "_lem" for n in MOVED}
    makes = {}
    for n, s in names.items():
        makes.setdefault(s, []).append(n)
    for s, ns in sorted(makes.items()):
        if len(ns) > 1:
            print("together:", s, "<-", ", ".join(sorted(ns)))
    for p in texts(".antt"):
        words = set(TOKEN.findall(plain(read(p))))
        made = {}
        for w in words:
            made.setdefault(names.get(w, w), set()).add(w)
        for s, ws in sorted(made.items()):
            if len(ws) > 1:
                print(f"in one file: {p}: {s} <- {', '.join(sorted(ws))}")
    print("lemmas with a definition's name:", ", ".join(sorted(n for n, s in names.items() if s.endswith("_lem"))))
    now = {snake(n) for n in old} | everything()
    changed = 0
    for p in list(texts((".antt", ".rt", ".edit"))) + pages():
        text = read(p)
        mine = names | GIVEN if os.path.basename(p) == "Cases.antt" else names
        if not p.endswith(".antt"):
            mine = {n: s for n, s in mine.items() if n not in MOVED}
        if p.endswith((".edit", ".md")):
            # names that were in snake case before this script ran
            mine = {w: snake(w) for w in set(re.findall(r"[a-z][A-Za-z0-9-]*", text)) if snake(w) != w and snake(w) in now} | mine
        new = turned(text, mine, p, foreign(text) if p.endswith((".antt", ".rt")) else ())
        if new != text:
            changed += 1
            if not DRY:
                with open(p, "w", encoding="utf-8") as f:
                    f.write(new)
    print(f"{len(names)} names, {changed} files")


def pages():
    got = [os.path.join(TOP, "README.md")]
    for folder, _, files in os.walk(os.path.join(TOP, "docs")):
        got += [os.path.join(folder, f) for f in sorted(files) if f.endswith(".md") and f != "PORT.md"]
    return got


FIELDS = set()
if __name__ == "__main__":
    main()
