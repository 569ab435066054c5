#!/usr/bin/env python3
"""tools/more_edits.py [CRATE ..]: tries the must-fail edits of more-edits/, of all crates or of these.

They are edits like those of crates/*/must-fail, for which the gate has no time: each costs a check of its crate. All must be refused. The edits are
tried by `rt must-fail` in a copy of the crates, which begins with what checks here or elsewhere on this machine have kept of the same files. Ends as rt does:
0 if all were refused.
"""
import pathlib
import shutil
import subprocess
import sys
import tempfile

root = pathlib.Path(__file__).resolve().parent.parent
more = root / "more-edits"


def copy_with_edits(to, crates):
    """The crates, with the edits of more-edits/ for those named in place of the gate's."""
    shutil.copy(root / "crates.txt", to)
    shutil.copytree(root / "crates", to / "crates", ignore=shutil.ignore_patterns("must-fail", "out"))
    for crate in crates:
        shutil.copytree(more / crate, to / "crates" / crate / "must-fail")


def main():
    crates = sys.argv[1:] or sorted(crate.name for crate in more.iterdir())
    for crate in crates:
        if not (more / crate).is_dir():
            print(f"more-edits has none of {crate}")
            return 2
    with tempfile.TemporaryDirectory() as folder:
        copy_with_edits(pathlib.Path(folder), crates)
        return subprocess.run(["rt", "must-fail", *crates], cwd=folder).returncode


sys.exit(main())
