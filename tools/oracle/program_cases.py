#!/usr/bin/env python3
"""Writes crates/cases/stdin, the tape of all readings, sendings, calls on a log, reasons, calls with totals, calls of two jobs, the plain reader and the size
table, and crates/cases/stdout, what the model says must be printed of them.

With --check it writes nothing, and exits 1 if a file is not as it would be written.
"""
import pathlib
import sys

import job_cases
import log_cases
import plain_cases
import read_cases
import reason_cases
import send_cases
import size_cases
import totals_cases
from tape import TAPE

crate = pathlib.Path(__file__).resolve().parent.parent.parent / "crates" / "cases"
read_cases.cases()
send_cases.cases()
log_cases.cases()
reason_cases.cases()
totals_cases.cases()
job_cases.cases()
plain_cases.cases()
size_cases.cases()
wrong = 0
for name, octets in [("stdin", TAPE.octets()), ("stdout", TAPE.text())]:
    path = crate / name
    if "--check" not in sys.argv[1:]:
        path.write_bytes(octets)
    elif not path.exists() or path.read_bytes() != octets:
        print(f"crates/cases/{name} is not as tools/oracle/program_cases.py makes it")
        wrong = 1
sys.exit(wrong)
