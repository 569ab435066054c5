"""A reason in the words of the program `why`, by the model's evidence (model.py, item 8), and all that the program prints of an input.

The words are no document's: docs/DECISIONS.md, item 8, and crates/why_lines/specs/Whys.antt have them. Nothing here is taken from there but the words.
"""
from model import MOST_RECORDS, PRINTING, why

ENDS = {0x07: "Idle", 0xFB: "Start", 0xFE: "Error"}
WORDS = {
    1: "cut at {0} by 0x{1:02X} ({2})",
    3: "undersized: length {0}, limit {1}",
    4: "oversized: length {0}, limit {1}",
    5: "wrong FCS: stands 0x{0:08X}, should be 0x{1:08X}",
    6: "wrong length: field 0x{0:04X}, data length {1}",
    8: "pause taken: opcode 0x{0:04X}",
    9: "PFC taken: opcode 0x{0:04X}",
    10: "control dropped: opcode 0x{0:04X}",
    11: "handed out: data at {0}, length {1}",
}


def words(w):
    """What is said of a counted Start."""
    first, *rest = w.evidence
    if w.outcome == 2:
        return f"bad preamble: {'run length' if first == 'length' else 'first wrong place'} {rest[0]}"
    if w.outcome == 7:
        return "filtered: to " + "-".join(f"{octet:02X}" for octet in first)
    if w.outcome == 1:
        rest.append(ENDS.get(rest[0], "like Error"))
    return WORDS[w.outcome].format(first, *rest)


def whys(data):
    """What the program `why` prints of these octets: a line for each counted Start, and the printing program's last line."""
    if len(data) % 2 or len(data) > 2 * MOST_RECORDS:
        return b"bad input\n"
    marks, octets = list(data[::2]), list(data[1::2])
    lines, place = [], 0
    while True:
        w = why(PRINTING, octets, marks, place)
        if w.kind != "counted":
            break
        lines.append(f"{w.start} {words(w)}")
        place = w.next
    lines.append(f"starts {len(lines)} open {int(w.kind == 'open')}")
    return "".join(line + "\n" for line in lines).encode()
