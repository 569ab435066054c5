#!/usr/bin/env python3
"""The worked capture of docs/PLAIN.md, symbol by symbol as the model has it: prints its rows. tools/check_docs.py holds the page to them."""
import sys

sys.dont_write_bytecode = True
from model import IDLE, PREAMBLE, PRINTING, START, TERMINATE, PlainReader, fcs, taking  # noqa: E402

NAMES = {START: "Start", TERMINATE: "Terminate", IDLE: "Idle"}
DATA = [0x68, 0x69]  # "hi", by a length field of 2, padded to 46 octets
COVERED = PRINTING.own + [2, 0, 0, 0, 0, 9] + [0, len(DATA)] + DATA + [0] * 44
SYMBOLS = [(START, 1), (0x55, 0), (START, 1)] + [(o, 0) for o in PREAMBLE + COVERED + fcs(COVERED)] + [(TERMINATE, 1), (IDLE, 1), (START, 1)]


def kept(reader):
    run = reader.run
    if run is None:
        return "no", "", "", ""
    # the register is the check's complement
    register = 0xFFFFFFFF ^ run.check if run.count > 11 else 0xFFFFFFFF
    return "yes", str(run.count), " ".join(f"{o:02X}" for o in run.last[-4:]) if run.count > 10 else "", f"{register:08X}"


def row(first, last, symbol, reader, told):
    places = str(first) if first == last else f"{first} to {last}"
    running, count, four, register = kept(reader)
    return f"| {places} | {symbol} | {reader.taken} | {running} | {count} | {four} | {register} | {told} |"


def rows():
    """A row for each control symbol, and for each stretch of data up to where the page looks."""
    stops = {1: "0x55", 9: "the preamble, 55 55 55 55 55 55 D5", 13: "first octets of the destination", 14: "the next one: the FCS takes its first octet",
             69: "addresses, field 2, `hi`, 44 octets of padding", 73: "the FCS"}
    out, reader, begun = [], PlainReader(), 0
    for place, (octet, mark) in enumerate(SYMBOLS):
        step = taking(PRINTING, reader, octet, mark)
        reader, ended = step.reader, step.ended
        if mark == 0 and place not in stops:
            continue
        told = "" if ended is None else f"outcome {ended.outcome}, status {ended.status:010X}, data at {ended.part[0]}, length {ended.part[1]}, address {ended.address}"
        out.append(row(begun, place, stops[place] if mark == 0 else f"{NAMES[octet]}, 0x{octet:02X}", reader, told))
        begun = place + 1
    return out


if __name__ == "__main__":
    print("\n".join(rows()))
