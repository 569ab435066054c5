#!/usr/bin/env python3
"""The case program on tapes that are not whole: it says `bad tape` and makes no call. On the whole tape `rt ci` runs it.

Needs target/bin/cases (tools/program cases). Prints how many tapes were told, or what was printed of one that was not, and exits 1.
"""
import pathlib
import subprocess
import sys

root = pathlib.Path(__file__).resolve().parent.parent
RUN = [root / "tools" / "run_x86_64", root / "target" / "bin" / "cases"]
whole = (root / "crates" / "cases" / "stdin").read_bytes()


def damaged():
    """No octet, too few, one bit turned in each part, one octet missing or too many at either end."""
    yield b""
    yield whole[:3]
    yield whole[:-1]
    yield whole[1:]
    yield whole + b"\0"
    for place in (0, 7, 8, len(whole) // 2, len(whole) - 5, len(whole) - 4, len(whole) - 1):
        tape = bytearray(whole)
        tape[place] ^= 1
        yield bytes(tape)


def main():
    told = 0
    for tape in damaged():
        printed = subprocess.run(RUN, input=tape, stdout=subprocess.PIPE, check=True).stdout
        if printed != b"bad tape\n":
            print(f"tape: {len(tape)} octets that are not whole print {printed[:80]!r}")
            return 1
        told += 1
    print(f"tape: {told} tapes that are not whole are told")
    return 0


sys.exit(main())
