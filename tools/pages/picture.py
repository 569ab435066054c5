#!/usr/bin/env python3
"""tools/pages/picture.py [--check | --text | --order]: docs/crates.svg, which crate uses which, from crates.txt.

crates.txt lists for each crate all that it may name; a line is drawn only where no crate between has it already. A crate stands above all that it uses,
the ground floor at the bottom; programs are drawn with a dashed frame, what has no code of its own with a round one. --text prints the lines as text.
--order puts crates.txt into the order of the floors of docs/ARCHITECTURE.md. --check changes nothing, and tells where the picture is not as made, where
crates.txt is in another order, and where that page has a crate that is not listed, lacks one or has it below one that it uses.
"""
import re
import sys

sys.dont_write_bytecode = True
from files import cells, root  # noqa: E402

picture = root / "docs" / "crates.svg"
page = root / "docs" / "ARCHITECTURE.md"
HIGH, WIDE, APART, DOWN, EDGE = 26, 7.4, 18, 62, 20  # of a box, of a letter, between boxes, from floor to floor, around all
SWEEPS = 40


def name_of(line):
    """The crate of a line of crates.txt, without what stands behind its name, as `staticlib`."""
    return line.split(":")[0].split()[0]


def listed():
    """Each crate of crates.txt with those of the repository that it may name, in the file's order."""
    lines = [line.split("#")[0].strip() for line in (root / "crates.txt").read_text().split("\n")]
    named = {name_of(line): line.split(":")[1].split() for line in lines if line}
    return {crate: [one for one in below if one in named] for crate, below in named.items()}


def direct(crates):
    """Those that a crate uses by itself: no other one that it uses has them."""
    return {crate: [one for one in below if not any(one in crates[other] for other in below)] for crate, below in crates.items()}


def floors(crates):
    """How many crates stand below each, one on the other, at most."""
    found = {}

    def floor(crate):
        if crate not in found:
            found[crate] = 1 + max((floor(one) for one in crates[crate]), default=-1)
        return found[crate]

    for crate in crates:
        floor(crate)
    return found


def laid(crates):
    """The floors with what stands on each, in order: crates, and bends (a crate, one below it, a floor) where a line passes by."""
    uses, height = direct(crates), floors(crates)
    rows = [[crate for crate in crates if height[crate] == at] for at in range(max(height.values()) + 1)]
    ends = []  # neighbours, an upper and a lower one
    for crate, below in uses.items():
        for one in below:
            way = [(crate, one, at) for at in range(height[crate] - 1, height[one], -1)]
            for bend in way:
                rows[bend[2]].append(bend)
            ends += zip([crate] + way, way + [one])
    above = {node: [a for a, b in ends if b == node] for row in rows for node in row}
    below = {node: [b for a, b in ends if a == node] for row in rows for node in row}
    best = (crossings(rows, below), [list(row) for row in rows])
    for sweep in range(SWEEPS):
        for at in range(1, len(rows)) if sweep % 2 == 0 else range(len(rows) - 2, -1, -1):
            near, beside = (below, rows[at - 1]) if sweep % 2 == 0 else (above, rows[at + 1])
            place = {node: k for k, node in enumerate(beside)}
            now = {node: k for k, node in enumerate(rows[at])}
            rows[at].sort(key=lambda node: (mean([place[one] for one in near[node]], now[node]), now[node]))
        best = min(best, (crossings(rows, below), [list(row) for row in rows]), key=lambda one: one[0])
    return best[1], above, below


def mean(numbers, otherwise):
    return sum(numbers) / len(numbers) if numbers else otherwise


def crossings(rows, below):
    count = 0
    for upper, lower in zip(rows[1:], rows):
        place = {node: k for k, node in enumerate(lower)}
        lines = [(k, place[one]) for k, node in enumerate(upper) for one in below[node]]
        count += sum((a - c) * (b - d) < 0 for i, (a, b) in enumerate(lines) for c, d in lines[:i])
    return count


def width(node):
    return WIDE * len(node) + 16 if isinstance(node, str) else 0


def places(rows, above, below):
    """Where each stands from left to right: near its neighbours, and no two on one spot."""
    x = {}
    for row in rows:
        at = 0
        for node in row:
            x[node] = at + width(node) / 2
            at += width(node) + APART
    for sweep in range(SWEEPS):
        for row in rows if sweep % 2 == 0 else rows[::-1]:
            wanted = [mean([x[one] for one in above[node] + below[node]], x[node]) for node in row]
            spread(row, wanted, x)
    left = min(x[node] - width(node) / 2 for row in rows for node in row)
    return {node: round(at - left + EDGE) for node, at in x.items()}


def spread(row, wanted, x):
    """The row at the wanted places, those that would overlap moved apart around their middle."""
    blocks = []  # nodes side by side with the place of the first
    for node, at in zip(row, wanted):
        blocks.append([[node], at])
        while len(blocks) > 1 and blocks[-2][1] + reach(blocks[-2][0], blocks[-1][0]) > blocks[-1][1]:
            last, before = blocks.pop(), blocks.pop()
            gap = reach(before[0], last[0])
            n, m = len(before[0]), len(last[0])
            blocks.append([before[0] + last[0], (before[1] * n + (last[1] - gap) * m) / (n + m)])
    for nodes, at in blocks:
        x[nodes[0]] = at
        for before, node in zip(nodes, nodes[1:]):
            at += step(before, node)
            x[node] = at


def step(one, other):
    return width(one) / 2 + APART + width(other) / 2


def reach(nodes, more):
    """From the first of some nodes side by side to the first of those behind them."""
    return sum(step(a, b) for a, b in zip(nodes, nodes[1:])) + step(nodes[-1], more[0])


def shape(crate):
    """A frame of dashes for a program, a round one for a crate without code."""
    if (root / "crates" / crate / "src" / "main.rt").exists():
        return 'rx="3" stroke-dasharray="4 3"'
    return 'rx="13"' if not re.search(r"\bfn\b", (root / "crates" / crate / "src" / "lib.rt").read_text()) else 'rx="3"'


def drawn():
    rows, above, below = laid(listed())
    x = places(rows, above, below)
    high = EDGE * 2 + HIGH + DOWN * (len(rows) - 1)
    wide = max(x[node] + width(node) / 2 for row in rows for node in row) + EDGE
    y = {node: high - EDGE - HIGH / 2 - DOWN * at for at, row in enumerate(rows) for node in row}
    lines = []
    for row in rows:
        for node in row:
            if not isinstance(node, str):  # a line passes between boxes
                lines.append(f'<path d="M{x[node]} {y[node] - HIGH / 2:g}V{y[node] + HIGH / 2:g}"/>')
            for one in below[node]:
                top, foot = y[node] + HIGH / 2, y[one] - HIGH / 2
                half = (top + foot) / 2
                lines.append(f'<path d="M{x[node]} {top:g}C{x[node]} {half:g} {x[one]} {half:g} {x[one]} {foot:g}"/>')
    boxes = []
    for row in rows:
        for crate in sorted(node for node in row if isinstance(node, str)):
            left, w = x[crate] - width(crate) / 2, width(crate)
            boxes.append(f'<rect x="{left:g}" y="{y[crate] - HIGH / 2:g}" width="{w:g}" height="{HIGH}" {shape(crate)}/>')
            boxes.append(f'<text x="{x[crate]}" y="{y[crate] + 4:g}">{crate}</text>')
    return "\n".join([
        f'<svg xmlns="http://www.w3.org/2000/svg" viewBox="0 0 {wide:g} {high:g}" width="{wide:g}" height="{high:g}">',
        "<title>Which crate uses which; each stands above all that it uses</title>",
        f'<rect width="{wide:g}" height="{high:g}" fill="#ffffff"/>',
        '<g fill="none" stroke="#7a8794" stroke-width="1.2">', *lines, "</g>",
        '<g fill="#eef3f8" stroke="#27455f" stroke-width="1.2" font-family="monospace" font-size="12" text-anchor="middle">',
        *[box if box.startswith("<rect") else box.replace("<text", '<text fill="#10202e" stroke="none"') for box in boxes], "</g>", "</svg>", ""])


def told():
    """The floors that docs/ARCHITECTURE.md tells: each crate with its number, None where it has none."""
    section = page.read_text().split("\n## ")[0]
    rows = [cells(line) for line in section.split("\n") if line.startswith("|") and "`" in line]
    return {crate: int(row[0]) if row[0].isdigit() else None for row in rows for crate in re.findall(r"`(\w+)`", row[1])}


def ordered():
    """crates.txt, floor by floor as the page has them."""
    known, text = told(), (root / "crates.txt").read_text()
    of = {name_of(line): line for line in text.split("\n") if line and not line.startswith("#")}
    lines, floor = [text.split("\n", 1)[0]], 0
    for crate in [crate for crate in known if crate in of] + [crate for crate in of if crate not in known]:
        if known.get(crate) != floor:
            floor = known.get(crate)
            lines.append(f"# Floor {floor}" if floor else "# Programs that run and compare")
        lines.append(of[crate])
    return "\n".join(lines) + "\n"


def wrong():
    crates, known = listed(), told()
    found = [] if picture.exists() and picture.read_text() == drawn() else ["docs/crates.svg is not as made (tools/pages/picture.py)"]
    if (root / "crates.txt").read_text() != ordered():
        found.append("crates.txt is not in the order of docs/ARCHITECTURE.md (tools/pages/picture.py --order)")
    found += [f"docs/ARCHITECTURE.md: `{crate}` is on no floor" for crate in crates if crate not in known]
    found += [f"docs/ARCHITECTURE.md: crates.txt has no `{crate}`" for crate in known if crate not in crates]
    for crate, below in crates.items():
        for one in below:
            if (known.get(crate) or 99) < (known.get(one) or 0):
                found.append(f"docs/ARCHITECTURE.md: `{crate}` stands below `{one}`, which it uses")
    return found


if __name__ == "__main__":
    if sys.argv[1:] == ["--text"]:
        for crate, below in direct(listed()).items():
            print(f"{crate} uses {', '.join(below)}" if below else crate)
    elif sys.argv[1:] == ["--order"]:
        (root / "crates.txt").write_text(ordered())
    elif sys.argv[1:] == ["--check"]:
        problems = wrong()
        print("\n".join(problems), end="\n" if problems else "")
        sys.exit(1 if problems else 0)
    else:
        picture.write_text(drawn())
