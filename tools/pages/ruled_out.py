#!/usr/bin/env python3
"""tools/pages/ruled_out.py [--check]: the columns "Ruled out", "Edit" and "Equals" of docs/PROMISES.md.

Beside each function stand the must-fail edits that break its promise, as links whose words are the edit's own first line; in a row of its own what has no
room in the first. An edit is named in the page by its link, or, where it is new, as crate/`edit`: this makes the link, to crates/CRATE/must-fail or to
more-edits, wherever the edit stands now. The first definition of a promise is linked to its file, by what the crate's source uses. --check changes nothing
and tells where the page is not as made, edits that are not there, functions with fewer than two, and rows of 300 characters or more.
"""
import pathlib
import re
import sys

sys.dont_write_bytecode = True
from files import cells, long_rows, root, row_of  # noqa: E402

page = root / "docs" / "PROMISES.md"
EDIT = re.compile(r"\((?:\.\./crates/(\w+)/must-fail|\.\./more-edits/(\w+))/(\w+)\.edit\)|\b(\w+)/`(\w+)`")
USED = re.compile(r"^ghost use Rattle\.(?!std\b)(\w+)\.specs\.(\w+)\.\{([^}]*)\};", re.M)
LONGEST = 299


def edits(cell):
    """The edits of a cell, each a crate and a name, in their order."""
    found = [(a or b or d, c or e) for a, b, c, d, e in EDIT.findall(cell)]
    return list(dict.fromkeys(found))


def path_of(edit):
    places = [f"crates/{edit[0]}/must-fail/{edit[1]}.edit", f"more-edits/{edit[0]}/{edit[1]}.edit"]
    return next((place for place in places if (root / place).exists()), None)


def link(edit, words=None):
    """What an edit does, in its own words, or those given; as it was named where it is not there."""
    path = path_of(edit)
    if path is None:
        return f"{edit[0]}/`{edit[1]}`"
    return f"[{words or (root / path).read_text().split(chr(10), 1)[0].lstrip('# ')}](../{path})"


def definition_file(crate, name):
    """The file of a definition that a crate's source uses."""
    source = root / "crates" / crate / "src" / "lib.rt"
    for used, file, names in USED.findall(source.read_text()) if source.exists() else []:
        if name in re.split(r"[\s,]+", names):
            return f"crates/{used}/specs/{file}.antt"
    return None


def equals(cell, function):
    """The cell with its first definition linked."""
    cell = re.sub(r"\[(`[^`]+`)\]\([^)]*\)", r"\1", cell)
    for name in re.findall(r"`([^`]+)`", cell):
        path = definition_file(function.split("::")[0], name)
        if path:
            return cell.replace(f"`{name}`", f"[`{name}`](../{path})", 1)
    return cell


def packed(row, at, links):
    """The row and those below it, as many links in each as there is room for."""
    lines, now = [], row[:at] + [""] + row[at + 1:]
    for one in links:
        more = now[:at] + ["; ".join(filter(None, [now[at], one]))] + now[at + 1:]
        if len(row_of(more)) > LONGEST and (now[at] or now[0]):
            lines.append(row_of(now))
            more = [""] * at + [one] + [""] * (len(row) - at - 1)
        now = more
    return [re.sub(r"\|  (?=\|)", "| ", line) for line in lines + [row_of(now)]]


def groups(text):
    """Lines as they are, and rows of a table with a column of edits, those below that go on with it taken together: header and cells."""
    header, at, row = None, None, None
    for line in text.split("\n"):
        parts = cells(line) if line.startswith("|") else None
        if parts is None or header is None or set(line) <= set("|-: ") or at is None:
            if row:
                yield header, row
            row = None
            header = parts if parts and header is None else header if parts else None
            at = next((header.index(name) for name in ("Ruled out", "Edit") if name in header), None) if header else None
            yield None, line
        elif parts[0] == "" and row:
            row[at] += "; " + parts[at]
        else:
            if row:
                yield header, row
            row = parts
    if row:
        yield header, row


def function_of(row):
    found = re.match(r"`(\w+::\w+(?:<[^>]+> for \w+)?)`", row[0])
    return found.group(1) if found else None


def made(text):
    lines = []
    for header, row in groups(text):
        if header is None:
            lines.append(row)
            continue
        at = header.index("Ruled out") if "Ruled out" in header else header.index("Edit")
        words = [None if "Ruled out" in header else "/".join(edit) for edit in edits(row[at])]
        if "Equals" in header and function_of(row):
            row[header.index("Equals")] = equals(row[header.index("Equals")], function_of(row))
        lines += packed(row, at, [link(edit, said) for edit, said in zip(edits(row[at]), words)])
    return "\n".join(lines)


def wrong():
    text = page.read_text()
    found = [] if made(text) == text else ["docs/PROMISES.md: not as made (tools/pages/ruled_out.py)"]
    for header, row in groups(text):
        if header is None:
            continue
        there = edits(row[header.index("Ruled out") if "Ruled out" in header else header.index("Edit")])
        found += [f"docs/PROMISES.md: no edit {crate}/{edit}" for crate, edit in there if path_of((crate, edit)) is None]
        if "Ruled out" in header and len(there) < 2:
            found.append(f"docs/PROMISES.md: fewer than two edits: {row[0]}")
        if len(re.findall(r"`\w+::\w+(?:<[^>]+> for \w+)?`", row[0])) > 1:
            found.append(f"docs/PROMISES.md: a row for each function: {row[0]}")
    return found + long_rows(page)


if __name__ == "__main__":
    if sys.argv[1:] == ["--check"]:
        problems = wrong()
        print("\n".join(problems), end="\n" if problems else "")
        sys.exit(1 if problems else 0)
    page.write_text(made(page.read_text()))
