#!/usr/bin/env python3
"""tools/check_docs.py [--make]: holds the pages to the sources. Prints what is missing and exits 1, or says nothing. With --make it first makes what is
made in them: links, tables, the picture, lines of the changelog.

- docs/DEFINITIONS.md: every definition and record of crates/*/specs is named there with its file, but for files whose first line says `Internal`, and
  every name and theorem there stands in the file of its row (tools/pages/files.py).
- docs/PROMISES.md: every public function and every `impl From` of a library, and no other, is there, each with two must-fail edits or more, which exist
  and are told in their own words (tools/pages/ruled_out.py).
- docs/ARCHITECTURE.md has every crate on its floor, and docs/crates.svg shows who uses whom (tools/pages/picture.py).
- CHANGELOG.md has a line for each landing note (tools/pages/changelog.py).
- docs/TRUST.md tells how many lines one has to believe (tools/pages/trust.py).
- README.md shows its samples as they are. docs/PLAIN.md shows the reader's code, all of it and in its order but for what it uses and promises and its
  derives, and the model's rows of its worked capture, these alone and in their order, on one page.
- crates/fenhamper_c exports the functions of crates/fenhamper, each under its own name and clauses (tools/pages/exports.py).
- All pages: links lead to files and headings; docs/RULES.md names definitions in their files, and docs/DEFINITIONS.md links its sections
  (tools/pages/links.py).
"""
import pathlib
import re
import sys

root = pathlib.Path(__file__).resolve().parent.parent
sys.dont_write_bytecode = True
sys.path[:0] = [str(root / "tools" / "pages"), str(root / "tools" / "oracle")]
import changelog  # noqa: E402
import exports  # noqa: E402
import files  # noqa: E402
import links  # noqa: E402
import picture  # noqa: E402
import plain_page  # noqa: E402
import ruled_out  # noqa: E402
import trust  # noqa: E402

if sys.argv[1:] == ["--make"]:
    for made in (files, ruled_out, trust, changelog):
        made.page.write_text(made.made(made.page.read_text()))
    picture.picture.write_text(picture.drawn())
page = (root / "docs" / "DEFINITIONS.md").read_text()
named = set(re.findall(r"`([^`\s]+)`", page))

missing = []
words = set()
for path in list(root.glob("crates/**/*.antt")) + list(root.glob("crates/**/*.rt")):
    words |= set(re.findall(r"[^\s(){}.,;⟦⟧⌜⌝←]+", path.read_text()))
words |= {path.name for path in root.glob("crates/*")}
for name in sorted(named):
    if re.fullmatch(r"[A-Za-z][\w-]*", name) and name not in words:
        missing.append(f"docs/DEFINITIONS.md: `{name}` is nowhere in crates/")
promises = (root / "docs" / "PROMISES.md").read_text()
promised = set(re.findall(r"`(\w+::\w+(?:<[^>]+> for \w+)?)`", promises))
public = set()
for path in root.glob("crates/*/src/lib.rt"):
    for name in re.findall(r"^(?:pub fn |impl (?=From<))(\w+(?:<[^>]+> for \w+)?)", path.read_text(), re.M):
        public.add(f"{path.parent.parent.name}::{name}")
missing += [f"docs/PROMISES.md: `{name}` is not there" for name in sorted(public - promised)]
missing += [f"docs/PROMISES.md: there is no public `{name}`" for name in sorted(promised - public)]
readme = (root / "README.md").read_text()
missing += [f"README.md: samples/{name} is not shown as it is" for name in ("first.txt", "first.log.txt", "room.log.txt", "sizes.sizes.txt") if (root / "samples" / name).read_text() not in readme]
# docs/PLAIN.md: the code of the reader, and the worked capture
plain = (root / "docs" / "PLAIN.md").read_text()
shown = [line for block in re.findall(r"^```rust\n(.*?)^```", plain, re.M | re.S) for line in block.split("\n") if line.strip()]
PAGE = 112  # "a reader that fits on one page" (document 02, item 12)
code = (root / "crates" / "plain" / "src" / "lib.rt").read_text()
code = code[code.index("// The reader between"):]
code = re.sub(r"^ +ensures.*?(?=^\{)|^#\[[^\n]*\n", "", code, flags=re.M | re.S)
if shown != [line for line in code.split("\n") if line.strip()]:
    missing.append("docs/PLAIN.md: the code is not crates/plain/src/lib.rt")
if re.findall(r"^\| \d.*$", plain, re.M) != plain_page.rows():
    missing.append("docs/PLAIN.md: the rows of its capture are not tools/oracle/plain_page.py's")
if plain.count("\n") > PAGE:
    missing.append(f"docs/PLAIN.md: more than a page of {PAGE} lines")
# links, and what is made
missing += links.wrong() + files.wrong() + ruled_out.wrong() + trust.wrong() + picture.wrong() + changelog.wrong() + exports.wrong()
for line in missing:
    print(line)
sys.exit(1 if missing else 0)
