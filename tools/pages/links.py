#!/usr/bin/env python3
"""tools/pages/links.py: every link of every page leads to a file, and to a heading of it where it names one; in docs/RULES.md each definition stands in
the file that is named before it; and docs/DEFINITIONS.md links each section of it. Prints what does not and exits 1, or says nothing.
"""
import pathlib
import re
import subprocess
import sys

root = pathlib.Path(__file__).resolve().parent.parent.parent

LINK = re.compile(r"\[[^\]]*\]\(([^)\s]+)\)")
DEFINED = re.compile(r"^(?:unfoldable |abbrev )*pub (?:record |data )?([^\s:({]+)", re.M)


def pages():
    """The pages of the repository, new ones too; all there are where there is no git."""
    words = ["git", "ls-files", "--cached", "--others", "--exclude-standard", "*.md"]
    listed = subprocess.run(words, cwd=root, capture_output=True, text=True).stdout.split()
    return [root / name for name in listed] or [path for path in root.rglob("*.md") if "target" not in path.parts]


def prose(text):
    """A page without its code: neither blocks nor spans."""
    return re.sub(r"`[^`\n]*`", "", re.sub(r"^```.*?^```", "", text, flags=re.M | re.S))


def headings(text):
    """The anchors of a page, as the usual renderers make them."""
    text = re.sub(r"^```.*?^```", "", text, flags=re.M | re.S)
    titles = re.findall(r"^#+ +(.*?) *$", text, re.M)
    return {re.sub(r"[^\w\- ]", "", title.lower()).replace(" ", "-") for title in titles}


def broken(page):
    """The links of a page that lead nowhere."""
    for link in LINK.findall(prose(page.read_text())):
        if re.match(r"[a-z]+:", link):
            continue
        name, _, anchor = link.partition("#")
        to = (page.parent / name).resolve() if name else page
        if not to.exists():
            yield f"{page.relative_to(root)}: {link} is not there"
        elif anchor and to.suffix == ".md" and anchor not in headings(to.read_text()):
            yield f"{page.relative_to(root)}: {link}: no such heading"


def misplaced(page):
    """Of the paragraphs that name definitions: those that are not in the file named before them."""
    for paragraph in re.findall(r"^\*Definitions\.\*(.*?)(?:\n\n|\Z)", page.read_text(), re.M | re.S):
        for link, names in re.findall(r"\]\(([^)]*)\)([^\[]*)", paragraph):
            path = (page.parent / link).resolve()
            if not path.exists():
                continue
            there = set(DEFINED.findall(path.read_text()))
            for name in re.findall(r"`([^`]+)`", names):
                if name not in there:
                    yield f"{page.relative_to(root)}: `{name}` is not in {path.relative_to(root)}"


def unlinked(rules, definitions):
    """Sections of the rules that the page of definitions does not link."""
    linked = set(re.findall(r"\(RULES\.md#([^)]*)\)", definitions.read_text()))
    for title in re.findall(r"^## (.*)$", rules.read_text(), re.M):
        anchor = headings(f"## {title}").pop()
        if anchor not in linked:
            yield f"docs/DEFINITIONS.md: no link to {title} of docs/RULES.md"


def wrong():
    rules = root / "docs" / "RULES.md"
    found = [line for page in pages() if page.exists() for line in broken(page)]
    return found + list(misplaced(rules)) + list(unlinked(rules, root / "docs" / "DEFINITIONS.md"))


if __name__ == "__main__":
    lines = wrong()
    print("\n".join(lines), end="\n" if lines else "")
    sys.exit(1 if lines else 0)
