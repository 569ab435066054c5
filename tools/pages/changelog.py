#!/usr/bin/env python3
"""tools/pages/changelog.py [--check]: CHANGELOG.md, a line for each landing note of docs/landings.

A note that has no line yet gets one above those there are: the day that git first had it, its title as a link, and its first sentence. Lines that are there
stay as they are. --check changes nothing and tells which notes have no line, and lines of more than one row.
"""
import re
import subprocess
import sys

sys.dont_write_bytecode = True
from files import root  # noqa: E402

page = root / "CHANGELOG.md"


def notes():
    return sorted((root / "docs" / "landings").glob("*.md"))


def day(note):
    """When git first had a note; where it has not yet, the day of the last commit."""
    for words in (["--diff-filter=A", "--", str(note)], ["-1"]):
        said = subprocess.run(["git", "log", "--format=%as", *words], cwd=root, capture_output=True, text=True).stdout.split()
        if said:
            return said[-1]
    return "undated"


def line(note):
    title, _, rest = note.read_text().partition("\n")
    sentence = re.sub(r"\s+", " ", rest.strip().split("\n\n")[0])
    sentence = re.match(r".*?\.(?=\s|$)|.*", sentence).group(0)
    return f"- {day(note)} [{title.lstrip('# ')}](docs/landings/{note.name}). {sentence}"


def missing(text):
    return [note for note in notes() if f"(docs/landings/{note.name})" not in text]


def made(text):
    head, lines = text.split("\n- ", 1)
    new = [line(note) for note in reversed(missing(text))]
    return "\n".join([head, *new, "- " + lines])


def wrong():
    text = page.read_text()
    found = [f"CHANGELOG.md: no line for docs/landings/{note.name} (tools/pages/changelog.py)" for note in missing(text)]
    return found + [f"CHANGELOG.md: one line a landing: {one[:60]}" for one in text.split("\n- ", 1)[1].rstrip().split("\n")[1:] if not one.startswith("- ")]


if __name__ == "__main__":
    if sys.argv[1:] == ["--check"]:
        problems = wrong()
        print("\n".join(problems), end="\n" if problems else "")
        sys.exit(1 if problems else 0)
    page.write_text(made(page.read_text()))
