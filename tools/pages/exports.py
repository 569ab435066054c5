#!/usr/bin/env python3
"""tools/pages/exports.py: crates/fenhamper_c exports each function of crates/fenhamper that the header declares, under the same name and signature, with
the same clauses word for word and in the same order, and does nothing but call it; and no other. Prints what differs and exits 1, or says nothing.
"""
import re
import sys

sys.dont_write_bytecode = True
from files import root  # noqa: E402

LIBRARY, EXPORTS = (root / "crates" / crate / "src" / "lib.rt" for crate in ("fenhamper", "fenhamper_c"))
HEADER = root / "include" / "fenhamper.h"
FUNCTION = re.compile(r"^pub (extern \"C\" )?fn (\w+)(.*?)\n\{\n(.*?)^\}", re.M | re.S)
EXPORTED = '#[unsafe(no_mangle)]\npub extern "C" fn '


def functions(path):
    """Each public function: its signature and clauses, spaces aside, and its body."""
    found = FUNCTION.findall(path.read_text())
    squeezed = {name: re.sub(r",? ?\) ?", ") ", re.sub(r"\s+", " ", rest.replace("(\n", "("))) for _, name, rest, _ in found}
    return {name: (squeezed[name].replace("( ", "("), body.strip()) for _, name, _, body in found}


def parameters(signature):
    return re.findall(r"(\w+): ", signature[:signature.index(") ")] if ") " in signature else signature)


def wrong():
    library, exported = functions(LIBRARY), functions(EXPORTS)
    named = re.findall(r"^\w[\w ]*?\b(fenhamper_\w+)\(", re.sub(r"^static inline.*?$", "", HEADER.read_text(), flags=re.M), re.M)
    found = [] if list(library) == list(exported) else ["crates/fenhamper_c: its functions are not those of crates/fenhamper, in their order"]
    found += [f"crates/fenhamper_c: the header has no {name}" for name in exported if name not in named]
    found += [f"crates/fenhamper_c: no {name}, which the header has" for name in named if name not in exported]
    if EXPORTS.read_text().count(EXPORTED) != len(exported):
        found.append("crates/fenhamper_c: a function that is not exported")
    for name, (said, body) in exported.items():
        if name not in library:
            continue
        if said != library[name][0]:
            found.append(f"crates/fenhamper_c: {name} has another signature or other clauses than that of crates/fenhamper")
        if re.sub(r"\s+", "", body).rstrip(";").replace(",)", ")") != f"fenhamper::{name}({','.join(parameters(said))})":
            found.append(f"crates/fenhamper_c: {name} does not just call fenhamper::{name}")
    return found


if __name__ == "__main__":
    problems = wrong()
    print("\n".join(problems), end="\n" if problems else "")
    sys.exit(1 if problems else 0)
