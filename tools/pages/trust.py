#!/usr/bin/env python3
"""tools/pages/trust.py [--check | --files]: how many lines one has to believe, in docs/TRUST.md between the two marks of this script.

Lines are those with something on them but for comments and imports. --files prints each file with its lines and the row it belongs to. --check changes
nothing and tells where the page is not as made, or a number of it is off by more than a tenth: a line of proof more needs no new page.
"""
import re
import sys

sys.dont_write_bytecode = True
import files  # noqa: E402
from files import root  # noqa: E402

page = root / "docs" / "TRUST.md"
MARKS = ("<!-- made by tools/pages/trust.py -->", "<!-- end -->")


def lines(text, comment):
    """Those of .antt and .rt files."""
    skip = (comment, "use ", "pub mod ", "pub use ", "mod ", "ghost use ")
    return [line for line in text.split("\n") if line.strip() and not line.strip().startswith(skip)]


def c_lines(text):
    return [line for line in re.sub(r"/\*.*?\*/", "", text, flags=re.S).split("\n") if line.strip()]


def rust_lines(text):
    return [line for line in text.split("\n") if line.strip() and not line.strip().startswith("//")]


def head(text):
    """The comment at the front of a file."""
    return re.match(r"(?:--.*\n)*", text).group(0)


def kind_of(path):
    """Which row a file of specs/ belongs to."""
    text, crate = path.read_text(), path.parent.parent.name
    if text.startswith("-- Internal") or path.name == "Lib.antt":
        return "internal"
    if crate in ("crossing", "fenhamper"):
        return "face"
    return "claims" if crate == "mac" or path.name == "Claims.antt" or "claims" in head(text) else "rules"


def specs(kind):
    return {path: len(lines(path.read_text(), "--")) for path in sorted(root.glob("crates/*/specs/*.antt")) if kind_of(path) == kind}


def statements():
    """The theorems of docs/DEFINITIONS.md with their files, and the lines that state each."""
    found = {}
    for _, section, header, row in files.rows(files.page.read_text()):
        if not row or "Theorem" not in header or len(row) != len(header):
            continue
        for tag in files.tags(row[header.index("File")], section):
            path = root / files.path_of(tag)
            text = path.read_text() if path.exists() else ""
            for name in re.findall(r"`([^`]+)`", row[header.index("Theorem")]):
                stated = re.search(rf"^( *)pub {re.escape(name)}(?: \{{ℓ\}})? :.*(?:\n(?!\1{re.escape(name)}\b|\1unfolding\b).*)*", text, re.M)
                if stated:
                    found[path, name] = len(stated.group(0).rstrip().split("\n"))
    return found


EXPORTS = "fenhamper_c"  # its functions are those of another crate, with the same contracts (tools/pages/exports.py), so that no contract is to be read there


def sources(programs):
    """The code of libraries, or of programs, without tests."""
    names = "main.rt" if programs else "lib.rt"
    crates = [path.parent for path in sorted(root.glob(f"crates/*/src/{names}"))]
    return {path: lines(path.read_text(), "//") for crate in crates for path in sorted(crate.glob("*.rt")) if path.name != "tests.rt"}


def contracts():
    """How many public functions there are, and the lines of their contracts; one of a single line, up to its `{`, has none."""
    text = "\n".join("\n".join(code) for path, code in sources(False).items() if path.parent.parent.name != EXPORTS)
    public = re.findall(r"^pub fn (?:[^\n]*\{$|\w+.*?^\{)", text, re.M | re.S)
    clauses = "\n".join(re.sub(r"\A.*?(?=^ +(?:requires|ensures))", "", one, flags=re.M | re.S) for one in public if "\n" in one)
    return len(public), len([line for line in clauses.split("\n") if line.strip() not in ("", "{")])


def types():
    text = "\n".join("\n".join(code) for code in sources(False).values())
    declared = re.findall(r"^pub (?:struct|enum) .*?(?:;|^\})", text, re.M | re.S)
    return len(declared), sum(len(one.split("\n")) for one in declared)


def unsafe():
    """The unsafe blocks of the Rust face, and their lines."""
    text = (root / "bindings/rust/src/sys.rs").read_text()
    blocks = re.findall(r"unsafe \{[^{}]*\}", text)
    return len(blocks), sum(len(block.split("\n")) for block in blocks)


def number(n):
    return f"{n:,}"


def table():
    said = statements()
    rules, face, claims, internal = (specs(kind) for kind in ("rules", "face", "claims", "internal"))
    public, clauses = contracts()
    declared, type_lines = types()
    blocks, block_lines = unsafe()
    header = (root / "include/fenhamper.h").read_text()
    inline = [len(c_lines(one)) for one in re.findall(r"^static inline [^\n]*\}$|^static inline .*?^\}", header, re.M | re.S)]
    proofs = [len(lines(path.read_text(), "--")) for path in sorted(root.glob("crates/*/proofs/**/*.antt"))]
    code, programs = sources(False), sources(True)
    rust = [len(rust_lines(path.read_text())) for path in sorted(root.glob("bindings/rust/src/*.rs"))]
    rows = [
        ("**to read and believe**", "", "", ""),
        ("definitions of the rules", "`crates/*/specs`", len(rules), sum(rules.values())),
        ("what the records of the C face stand for", "`crates/crossing/specs`, `crates/fenhamper/specs`", len(face), sum(face.values())),
        ("what the claims speak of", "`crates/mac/specs`, `crates/*/specs/Claims.antt` and the like", len(claims), sum(claims.values())),
        (f"statements of the {len(said)} theorems that are claimed", "`crates/*/proofs`", len({path for path, _ in said}), sum(said.values())),
        (f"contracts of the {public} public functions", "`crates/*/src/lib.rt`", len(code) - 1, clauses),
        (f"the {declared} types that they name", "the same", "", type_lines),
        ("**not to believe: the prover checks them**", "", "", ""),
        ("definitions inside a crate", "`crates/*/specs`, first line `-- Internal`", len(internal), sum(internal.values())),
        ("code of the libraries, contracts and types included", "`crates/*/src`", len(code), sum(map(len, code.values()))),
        ("proofs", "`crates/*/proofs`", len(proofs), sum(proofs)),
        ("**not proved: read, or rely on the tests**", "", "", ""),
        ("what the programs do around a proved function", "`crates/*/src/main.rt`", len(programs), sum(map(len, programs.values()))),
        (f"the {len(inline)} inline functions of the header", "`include/fenhamper.h`", 1, sum(inline)),
        ("the Rust face", "`bindings/rust/src`", len(rust), sum(rust)),
        (f"its {blocks} unsafe blocks", "`bindings/rust/src/sys.rs`", 1, block_lines),
    ]
    shown = ["| | Where | Files | Lines |", "|---|---|---:|---:|"]
    return "\n".join(shown + ["| " + " | ".join(number(cell) if isinstance(cell, int) else cell for cell in row) + " |" for row in rows])


def made(text):
    before, rest = text.split(MARKS[0])
    return before + MARKS[0] + "\n" + table() + "\n" + MARKS[1] + rest.split(MARKS[1])[1]


def wrong():
    text = page.read_text()
    told, counted = ([int(n.replace(",", "")) for n in re.findall(r"\d[\d,]*", one)] for one in (text, made(text)))
    words, as_made = (re.sub(r"\d[\d,]*", "", one) for one in (text, made(text)))
    near = len(told) == len(counted) and all(abs(a - b) * 10 <= b for a, b in zip(told, counted))
    return [] if words == as_made and near else ["docs/TRUST.md: its table is not as made (tools/pages/trust.py)"]


if __name__ == "__main__":
    if sys.argv[1:] == ["--files"]:
        for kind in ("rules", "face", "claims", "internal"):
            for path, count in specs(kind).items():
                print(f"{kind:8} {count:5} {path.relative_to(root)}")
        for (path, name), count in sorted(statements().items()):
            print(f"theorem  {count:5} {path.relative_to(root)} {name}")
    elif sys.argv[1:] == ["--check"]:
        problems = wrong()
        print("\n".join(problems), end="\n" if problems else "")
        sys.exit(1 if problems else 0)
    else:
        page.write_text(made(page.read_text()))
