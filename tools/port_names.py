#!/usr/bin/env python3
"""Spells the repository's own definitions and lemmas as the kit's style page asks: words in snake case, a dash only between two names.

usage: tools/port_names.py [--list]      at the top, once, right after the kit's port script

Names that specs/ and proofs/ declare turn there, in the clauses of src/ and in the must-fail edits; functions of src/, exported names, strings, inputs and
outputs keep theirs. --list prints the table and what would fall together, and writes nothing. Where two names would meet, FIXED says what is written.
The crate `log` turns to `reading_log`, since the kit has a library of that name.
"""

import collections
import os
import re
import sys

NAME = r'[^\s(){}.;,@"«»:]+'
DECLARED = re.compile(rf"^( *)((?:(?:pub|abbrev|unfoldable|data|record) )*)({NAME})((?: \{{[^{{}}\n]*\}}| \([^()\n]*\))*) :(?: |$)(.*)", re.M)
WORD = re.compile(r'[^\s(){}.;,@"«»:]+')
LIBRARY = re.compile(r"^use (\S+?)\.\{([^}]*)\}", re.M)
# Parts that the library's lemmas join by dashes, beside the repository's own definitions.
PARTS = set(
    "length append take drop map filter set nil cons replicate zero suc one add sub mul div mod get_or some none true false and or not xor shr shl min max"
    " eq le lt ne refl sum reverse concat if elim pow cond first capture getD eqb leb ltb".split()
)
# Names that would meet another one, and what they are called.
FIXED = {
    w: w.replace("-", "_") + "_lem"
    for w in "alike-in bad-log data-octets kind-bits lead-size like-error no-tag octets-in octets-of plain-judged plain-outcome record-given row-holds"
    " start-found to-own kind-of word-of entries_from".split()
} | {"endsOpen": "ends_open_test", "ends-none": "ends_none"}


def texts(*ends):
    for folder, dirs, files in os.walk("crates"):
        dirs[:] = sorted(d for d in dirs if d != "out")
        for f in sorted(files):
            if f.endswith(ends):
                yield os.path.join(folder, f)
    if ".edit" in ends:
        for folder, dirs, files in os.walk("more-edits"):
            yield from (os.path.join(folder, f) for f in sorted(files) if f.endswith(".edit"))


def read(path):
    with open(path, encoding="utf-8") as f:
        return f.read()


def snake(word):
    if word == "getD":
        return "get_or"
    return re.sub(r"([a-z0-9])([A-Z])", lambda m: m[1] + "_" + m[2].lower(), word)


def declared():
    """The names that files declare, each with whether one of its declarations is a definition, and those of walks by hand."""
    names, definitions, walks = set(), set(), set()
    for path in texts(".antt"):
        for m in DECLARED.finditer(read(path)):
            if path.endswith("/Proof.antt"):
                if not m[5].startswith("tie.") and not m[5].startswith("{M : Type 1}"):
                    walks.add(m[3])
                continue
            names.add(m[3])
            if m[2].replace("pub", "").strip() or ("/specs/" in path and "-" not in m[3]):
                definitions.add(m[3])
    return names, definitions, walks


def spelled(name, definitions):
    """A name in snake case, with dashes between names alone."""
    if name[0].isupper() and "-" not in name:
        return name
    parts = [p if p[:1].isupper() else snake(p) for p in name.split("-")]
    out = parts[0]
    for left, right in zip(parts, parts[1:]):
        is_name = lambda p: p in PARTS or p in definitions or p[:1].isupper()
        out += ("-" if is_name(left) and is_name(right) and right != "" and left != "" else "_") + right
    return out


def table():
    names, definitions, walks = declared()
    known = {snake(d) if not d[:1].isupper() else d for d in definitions}
    rows = {}
    for name in sorted(names | {w for w in walks if re.search("[a-z0-9][A-Z]", w) and w[0].islower()}):
        if name[0] in "◌_'" or not name[0].isalpha():
            continue
        new = FIXED.get(name) or spelled(name, known)
        if new != name:
            rows[name] = new
    return rows, names | walks


def turned(text, rows, kept):
    """The text with each whole word of the table turned; behind a dot a word turns only if it is in camel case or follows a module or a type."""

    def one(m):
        word = m[0]
        if word not in rows or word in kept:
            return word
        if text[m.start() - 1 : m.start()] == "." and "-" in word:
            before = re.search(r"(\w+)\.$", text[: m.start()])
            if not (before and before[1][0].isupper()):
                return word
        return rows[word]

    return WORD.sub(one, text)


def imported(text):
    out = set()
    for m in LIBRARY.finditer(text):
        if not m[1].startswith("Rattle.") or m[1].startswith("Rattle.std"):
            out |= {n.strip().split(" as ")[-1] for n in m[2].split(",")}
    return out


CLAUSE = re.compile(r"((?:requires|ensures)\s*\*?\s*(?:\w+\s*)?\{|ghost\s*(?:\w+\s*(?::\s*|=\s*))?\{|ghost use [^;]*;)")


def closing(text, at):
    depth = 1
    while at < len(text):
        depth += (text[at] == "{") - (text[at] == "}")
        at += 1
        if depth == 0:
            return at
    return at


def rt_turned(text, rows):
    out, at = [], 0
    for m in CLAUSE.finditer(text):
        if m.start() < at:
            continue
        end = m.end() if m[0].startswith("ghost use") else closing(text, m.end())
        out += [text[at : m.start()], turned(text[m.start() : end], rows, ())]
        at = end
    out.append(text[at:])
    # in comments, the names that stand between ticks
    return re.sub(r"(?m)//[^\n]*", lambda c: re.sub(r"`[^`\n]*`", lambda s: turned(s[0], rows, ()), c[0]), "".join(out))


def rename_crate():
    """The kit has a library `log`."""
    for path in texts(".antt", ".rt", ".edit"):
        old = read(path)
        new = re.sub(r"\bRattle\.log\b", "Rattle.reading_log", old)
        if not path.endswith(".antt"):
            new = re.sub(r"(?<![\w:])log::", "reading_log::", new)
        if new != old:
            with open(path, "w", encoding="utf-8") as f:
                f.write(new)
    with open("crates.txt", encoding="utf-8") as f:
        old = f.read()
    with open("crates.txt", "w", encoding="utf-8") as f:
        f.write(re.sub(r"(?m)^([^#\n]*)$", lambda m: re.sub(r"\blog\b", "reading_log", m[1]), old))
    for top in ("crates", "more-edits"):
        os.rename(top + "/log", top + "/reading_log")


def main():
    rows, names = table()
    if "--list" in sys.argv:
        by = collections.defaultdict(list)
        for a, b in rows.items():
            by[b].append(a)
        for b, olds in sorted(by.items()):
            if len(olds) > 1:
                print("meet:", b, olds)
        tokens = collections.defaultdict(set)
        for path in texts(".antt"):
            for w in WORD.findall(re.sub(r"--[^\n]*", "", read(path))):
                tokens[w].add(path)
        for b, olds in sorted(by.items()):
            if b in tokens:
                print("stands:", b, olds, sorted(tokens[b])[:4], "declared" if b in names else "")
        fields = collections.defaultdict(set)
        for path in texts(".rt"):
            for m in re.finditer(r"\b(\w+)\s*:(?!:)|\bfn (\w+)|\blet (?:mut )?(\w+)|\|(\w+)\|", read(path)):
                fields[m[1] or m[3] or m[4] or "fn " + m[2]].add(path)
        for b, olds in sorted(by.items()):
            if b in fields:
                print("field:", b, olds, sorted(fields[b])[:4])
        for a, b in rows.items():
            print(a, "->", b)
        return
    for path in texts(".antt", ".rt", ".edit"):
        old = read(path)
        if path.endswith(".rt"):
            new = rt_turned(old, rows)
        else:
            kept = imported(old)
            if path.endswith("/Proof.antt"):
                kept |= {m[3] for m in DECLARED.finditer(old) if m[5].startswith("tie.")}
            new = turned(old, rows, kept)
        if new != old:
            with open(path, "w", encoding="utf-8") as f:
                f.write(new)
    rename_crate()


main()
