"""The size table on the tape of crates/cases (tape.py): captures added to one (item 13), on both sides of each band's edge, of each outcome, open ones, each
refusal in its order, counts that roll over, and two tables added. What must come of each is the model's answer."""
from dataclasses import replace

from model import EMPTY, ERROR, IDLE, RESERVED_GROUP, START, TERMINATE, SizeTable, adding_sizes
from read_cases import frame, line, listing, multicast, settings, station
from tape import ADD_CAPTURE, ADD_TABLE, FRESH_SIZES, TAPE, changed, table_octets

FRESH = SizeTable()
FULL = SizeTable([2**64 - 1] * 7, [2**64 - 100] * 7)
MIXED = SizeTable(list(range(1, 8)), [2**32 * n for n in range(1, 8)])
EDGES = (64, 65, 127, 128, 255, 256, 511, 512, 1023, 1024, 1518, 1519)
WIDE = settings(limit=9618)
TAGS = [0x8100, 0x88A8]


def numbers(sizes):
    return list(sizes.frames) + list(sizes.octets)


def told(name, before, after, refusal=None):
    said = "" if refusal is None else f" refused {refusal}" if refusal else " fine"
    TAPE.lines.append(f"{name}:{said} sizes{changed(numbers(before), numbers(after), 0)}")


def add(name, s, syms, before=FRESH, job=0, table=EMPTY, marks=None):
    name = "sizes, " + name
    octets, marks = [o for o, _ in syms], [m for _, m in syms] if marks is None else marks
    TAPE.sizes_call(ADD_CAPTURE, name, numbers(before), s, octets, marks, job, table_octets(table))
    refusal, after = adding_sizes(before, s, octets, marks, job, table)
    told(name, before, after, refusal)


def join(name, a, b):
    """The model has no such call: each count is the sum of two."""
    name = "sizes, " + name
    TAPE.sizes_call(ADD_TABLE, name, numbers(a) + numbers(b))
    told(name, a, SizeTable(*[[(x + y) % 2**64 for x, y in zip(*counts)] for counts in ((a.frames, b.frames), (a.octets, b.octets))]))


def sized(length, tags=(), **more):
    """A frame of so many octets from destination to FCS, between two Idles."""
    return [(IDLE, 1)] + line(frame(n=length - 18 - 4 * len(tags), tags=tags, **more)) + [(IDLE, 1)]


def band_cases():
    for length in EDGES + (1517, 9617, 9618, 9619):
        add(f"{length} octets", WIDE, sized(length))
    for length in (63, 64, 68, 127, 128, 1518, 1519, 1522, 1523):
        add(f"{length} octets, a tag", settings(), sized(length, TAGS[:1]))
    for length in (1518, 1519, 1526, 1527):
        add(f"{length} octets, two tags", settings(), sized(length, TAGS))
    for length in (1550, 1551):
        add(f"{length} octets, eight tags", settings(), sized(length, TAGS * 4))
    add("all edges", WIDE, [symbol for length in EDGES for symbol in sized(length)], MIXED)
    add("all edges, the longest first", WIDE, [symbol for length in reversed(EDGES) for symbol in sized(length)], MIXED)


def outcome_cases():
    s, f = settings(), sized(64)
    pause = line(frame(to=RESERVED_GROUP, field=0x8808, n=42, body=[0, 1, 0, 9]))
    pfc = line(frame(to=RESERVED_GROUP, field=0x8808, n=26, body=[1, 1, 0, 255] + [0, 5] * 8))
    for flow in ("none", "pause", "PFC"):
        for passing in (False, True):
            add(f"pause and PFC, flow {flow}{', passing' * passing}", settings(flow=flow, pass_control=passing), pause + pfc, MIXED)
    for name, syms in [("nothing", []), ("Start alone", f[:2]), ("cut", f[:-2] + [(ERROR, 1)]), ("bad preamble", f[:2] + f[3:]), ("undersized", sized(63)),
                       ("oversized", sized(1519)), ("wrong FCS", sized(64, bad=1)), ("wrong length", sized(64, field=1501)),
                       ("filtered", sized(64, to=station(2))), ("padded", sized(64, field=3)), ("open", f[:-2]), ("open behind a frame", f + f[:-2]),
                       ("a Start ends a run", f[:-2] + f), ("two frames", f + sized(300)), ("0xFB as data", [(START, 0)] + f)]:
        add(name, s, syms, MIXED)
    add("promiscuous", settings(promiscuous=True), sized(100, to=station(2)))
    table = listing(station(5), multicast(1), at=3, others=[multicast(2)])
    for job in (0, 1):
        for to in (multicast(1), multicast(2)):
            add(f"job {job}, to {to[5]}", s, sized(70, to=to), job=job, table=table)
    long = [(IDLE, 1)] * 8000
    for n in (191 - 75, 192 - 75, 57461):  # and a long one
        add(f"{n} symbols behind a frame and 8,000", s, long + f + [(IDLE, 1)] * n, FULL)


def refusal_cases():
    """Every choice of 1, 14, 2 and 20; the table stays."""
    good, syms = settings(), sized(64)
    broken = listing(multicast(1), multicast(1))
    marks = [m for _, m in syms]
    for wrongs in range(16):
        one, fourteen, two, twenty = [bool(wrongs >> k & 1) for k in range(4)]
        add(f"wrongs {wrongs}", replace(good, limit=1517) if one else good, syms, FULL, 2 * fourteen, broken if twenty else EMPTY, marks[1:] if two else None)
    add("one mark more", good, syms, MIXED, marks=marks + [1])
    for n in (65536, 65537):
        add(f"{n} symbols", good, syms + [(IDLE, 1)] * (n - len(syms)), MIXED)
    add("thirteen entries", good, syms, MIXED, table=listing(*[multicast(n) for n in range(13)], job=1))


def count_cases():
    s = settings()
    for frames, octets in [(0, 0), (2**32 - 1, 2**32 - 64), (2**63, 2**63), (2**64 - 2, 2**64 - 65), (2**64 - 1, 2**64 - 64), (2**64 - 1, 2**64 - 1)]:
        before = SizeTable([frames] * 7, [octets] * 7)
        add(f"a frame on {frames} and {octets}", s, sized(64), before)
        join(f"{frames} and {octets} with others", before, MIXED)
    join("others with fresh", MIXED, FRESH)
    join("fresh with others", FRESH, MIXED)
    join("all ones twice", FULL, FULL)
    for band in range(7):
        one = SizeTable([int(k == band) for k in range(7)], [(k == band) * 2**40 for k in range(7)])
        join(f"one in band {band}", MIXED, one)
    TAPE.sizes_call(FRESH_SIZES, "sizes, a fresh one", numbers(FULL))
    told("sizes, a fresh one", FULL, FRESH)


def cases():
    band_cases()
    outcome_cases()
    refusal_cases()
    count_cases()
