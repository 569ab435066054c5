#!/usr/bin/env python3
"""tools/pages/files.py [--check]: the links in the column "File" of docs/DEFINITIONS.md.

A cell names CRATE/FILE of specs/, CRATE/proofs/FILE, or several with commas between; this makes links of them. --check changes nothing and tells where
the page is not as made, where a definition or theorem does not stand in the file of its row, where a definition of the sources is in no row with its
file, and rows of 300 characters or more.
"""
import pathlib
import re
import sys

root = pathlib.Path(__file__).resolve().parent.parent.parent
page = root / "docs" / "DEFINITIONS.md"
DEFINED = re.compile(r"^(?:unfoldable |abbrev )*pub (?:record |data )?([^\s:({]+)", re.M)
CONSTRUCTED = re.compile(r"^  ([^\s:({]+) :", re.M)  # what a data type's values are called
PROVED = re.compile(r"^ *(?:unfoldable |abbrev )*pub ([^\s:({]+)(?: \{ℓ\})? :", re.M)
LONGEST = 300


def cells(row):
    return [cell.strip() for cell in row.strip().strip("|").split("|")]


def row_of(row):
    return "| " + " | ".join(row) + " |"


def path_of(tag):
    parts = tag.split("/")
    return f"crates/{parts[0]}/proofs/{parts[2]}.antt" if len(parts) == 3 else f"crates/{parts[0]}/specs/{parts[1]}.antt"


def tags(cell, section):
    """The files of a cell. Where the claims are listed, a name alone is a file of mac/proofs."""
    names = [re.sub(r"\[([^\]]*)\]\([^)]*\)", r"\1", part.strip()) for part in cell.split(",") if part.strip()]
    return [f"mac/proofs/{name}" if section == "The claims" and "/" not in name else name for name in names]


def rows(text):
    """Each line with its section, its table's header and its cells; both None where it is no row of a table."""
    section, header = "", None
    for line in text.split("\n"):
        section = line[3:].split(" (")[0] if line.startswith("## ") else section
        if not line.startswith("|"):
            header = None
            yield line, section, None, None
        elif header is None:
            header = cells(line)
            yield line, section, None, None
        elif set(line) <= set("|-: "):
            yield line, section, None, None
        else:
            yield line, section, header, cells(line)


def made(text):
    lines = []
    for line, section, header, row in rows(text):
        if row and "File" in header and len(row) == len(header):
            at = header.index("File")
            row[at] = ", ".join(f"[{tag}](../{path_of(tag)})" for tag in tags(row[at], section))
            line = row_of(row)
        lines.append(line)
    return "\n".join(lines)


def names_in(path):
    text = path.read_text()
    return set(PROVED.findall(text)) if path.parent.name == "proofs" else set(DEFINED.findall(text)) | set(CONSTRUCTED.findall(text))


def definitions():
    """What a reader believes: each definition of specs/ with its file, but for internal files."""
    for path in sorted(root.glob("crates/*/specs/*.antt")):
        text = path.read_text()
        if path.name == "Lib.antt" or text.startswith("-- Internal"):
            continue
        for name in DEFINED.findall(text):
            if name not in ("mod", "use") and name[0] not in "_◌":
                yield path, name


def long_rows(path):
    lines = [line for line in path.read_text().split("\n") if line.startswith("|") and len(line) >= LONGEST]
    return [f"{path.relative_to(root)}: a row of {len(line)} characters: {line[:80]}" for line in lines]


def wrong():
    text = page.read_text()
    found = [] if made(text) == text else ["docs/DEFINITIONS.md: its links are not as made (tools/pages/files.py)"]
    said = set()
    for line, section, header, row in rows(text):
        if not row or "File" not in header:
            continue
        if len(row) != len(header):
            found.append(f"docs/DEFINITIONS.md: cells: {line[:80]}")
            continue
        files = [root / path_of(tag) for tag in tags(row[header.index("File")], section)]
        found += [f"docs/DEFINITIONS.md: no file {path.relative_to(root)}" for path in files if not path.exists()]
        there = {path: names_in(path) for path in files if path.exists()}
        for column in ("Definition", "Theorem"):
            for name in re.findall(r"`([^`]+)`", row[header.index(column)]) if column in header else []:
                at = [path for path in there if name in there[path]]
                said |= {(path, name) for path in at}
                if not at:
                    found.append(f"docs/DEFINITIONS.md: `{name}` is not in {row[header.index('File')]}")
    found += [f"docs/DEFINITIONS.md: `{name}` of {path.relative_to(root)} is in no row" for path, name in definitions() if (path, name) not in said]
    return found + long_rows(page)


if __name__ == "__main__":
    if sys.argv[1:] == ["--check"]:
        problems = wrong()
        print("\n".join(problems), end="\n" if problems else "")
        sys.exit(1 if problems else 0)
    page.write_text(made(page.read_text()))
