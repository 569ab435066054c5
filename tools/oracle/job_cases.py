"""The calls of two jobs on the tape of crates/cases (tape.py, item 10): readings, walks, reasons and walks with a log by tables of every sort, the table calls
and the screen call; each refusal, each pair of them in its order, and both sides of each limit. What must come of each is the model's answer."""
from itertools import combinations

from log_cases import TWO, keep
from model import BROADCAST, EMPTY, IDLE, RESERVED_GROUP, START, adding, removing, showing
from read_cases import OWN, capture, case, every, frame, line, listing, multicast, one, settings, station
from reason_cases import explain
from tape import ADD, EMPTY_TABLE, REMOVE, TAPE, checksum, entries, entry_octets, table_octets

KEPT = 99  # what stands where the entry is told, until it is
JOBS = (0, 1)
GROUPS = [multicast(n) for n in range(16)]
NEW = multicast(99)


def filled(of_0, of_1):
    """So many entries of each job, those of job 0 first; no two addresses are alike."""
    return [(int(n >= of_0), GROUPS[n]) if n < of_0 + of_1 else None for n in range(16)]


def holding(**entry):
    """A table of a few entries, by their numbers: e3=(0, address)."""
    return [entry.get(f"e{n}") for n in range(16)]


MIXED = [(n % 3 % 2, GROUPS[n]) for n in range(16)]  # two of job 0 to one of job 1, all in use
# Nobody holds these entries, whatever address stands in them.
UNHELD = [[holder] + GROUPS[1] + [spare] for holder, spare in [(0, 0), (3, 7), (255, 255), (0x81, 1)]]
BROKEN = [("13 of job 0", filled(13, 0)), ("13 of job 1", filled(3, 13)), ("16 of job 0", filled(16, 0)), ("16 of job 1", filled(0, 16)),
          ("twice of job 0", holding(e0=(0, GROUPS[1]), e15=(0, GROUPS[1]))), ("twice of job 1", holding(e7=(1, GROUPS[1]), e8=(1, GROUPS[1]))),
          ("twice of both", holding(e1=(1, GROUPS[1]), e2=(0, GROUPS[1]), e3=(0, GROUPS[1]), e4=(1, GROUPS[1])))]
TO_EACH = [symbol for address in GROUPS for symbol in line(frame(to=address))]


# ---- readings


def table_cases():
    """A frame to each of 16 addresses, by tables that list none of them, some and all, for either job."""
    s = settings()
    for name, table in [("empty", EMPTY), ("12 and 4", filled(12, 4)), ("4 and 12", filled(4, 12)), ("8 and 8", filled(8, 8)), ("12 and none", filled(12, 0)),
                        ("mixed", MIXED), ("mixed backwards", MIXED[::-1])]:
        for job in JOBS:
            capture(f"table {name}, job {job}", s, TO_EACH, job=job, table=table)
    for at in (0, 7, 15):
        for job, reader in [(0, 0), (0, 1), (1, 0), (1, 1)]:
            case(f"entry {at} of job {job}, read by {reader}", s, frame(to=GROUPS[1]), job=reader, table=listing(GROUPS[1], job=job, at=at))
    both = holding(e3=(0, GROUPS[1]), e9=(1, GROUPS[1]))
    for job in JOBS:
        case(f"both list it, job {job}", s, frame(to=GROUPS[1]), job=job, table=both)
        case(f"first octet differs, job {job}", s, frame(to=[3] + GROUPS[1][1:]), job=job, table=both)
        case(f"last octet differs, job {job}", s, frame(to=GROUPS[2]), job=job, table=both)
    # octets that the table has beside its entries
    octets, marks = map(list, zip(*line(frame(to=GROUPS[1]))))
    for n, unheld in enumerate(UNHELD):
        every(f"free entries {n}", s, octets, marks, table=table_octets(EMPTY, unheld))
        every(f"free entries {n} and a held one", s, octets, marks, table=table_octets(both, unheld, unheld[7]))
        every(f"free entries {n}, 12 and none", s, octets, marks, table=table_octets(filled(12, 0), unheld, unheld[7]))


def special_cases():
    """The own address, broadcast and the reserved group, listed by either job."""
    special = [OWN, BROADCAST, RESERVED_GROUP]
    for job in JOBS:
        for owner in JOBS:
            table = listing(*special, job=owner, at=4)
            for name, to in zip(["own", "broadcast", "reserved group"], special):
                case(f"{name} listed by job {owner}, read by {job}", settings(broadcast=owner == 1), frame(to=to), job=job, table=table)
            case(f"pause to the group listed by job {owner}, read by {job}", settings(flow="pause"), frame(RESERVED_GROUP, 0x8808, 42, [0, 1, 0, 5]), job=job,
                 table=table)
            case(f"pause to an entry of job {owner}, read by {job}", settings(pass_control=True), frame(GROUPS[1], 0x8808, 42, [0, 1, 0, 5]), job=job,
                 table=listing(GROUPS[1], job=owner))


# ---- refusals of the calls that read

ORDER = [1, 14, 2, 3, 20, 11]


def calls(name, numbers):
    """Every call that reads, with these refusals and no other: 11 is of the walk with a log, and a walk has no place."""
    s = settings(limit=0) if 1 in numbers else settings()
    job, table = 2 if 14 in numbers else 1, filled(13, 0) if 20 in numbers else filled(2, 2)
    octets, marks = [o for o, _ in TWO], [m for _, m in TWO][2 in numbers:]
    place = len(octets) + 1 if 3 in numbers else 0
    keep("log: " + name, TWO, place, [0] * (15 if 11 in numbers else 16), s=s, job=job, table=table, more_marks=int(2 in numbers))
    if 11 in numbers:
        return
    if 3 in numbers:
        one(name, s, octets, marks, place, job, table)
    else:
        every(name, s, octets, marks, job=job, table=table_octets(table))
    explain(name, s, octets, marks, place, job, table)
    screen(name, s, [([], []), (octets, marks)], place, job, table)


def refusal_cases():
    calls("no refusal", [])
    for a in ORDER:
        calls(f"{a} alone", [a])
    for a, b in combinations(ORDER, 2):
        calls(f"{a} before {b}", [a, b])
    calls("1 before all", ORDER[:-1])
    calls("14 before all behind it", ORDER[1:-1])
    octets, marks = [o for o, _ in TWO], [m for _, m in TWO]
    for name, table in BROKEN:
        for job in JOBS:
            name_, octets_of = f"{name}, read by {job}", table_octets(table)
            every(name_, settings(), octets, marks, job=job, table=octets_of)
            explain(name_, settings(), octets, marks, 0, job, table)
            keep("log: " + name_, TWO, 0, [0] * 32, job=job, table=table)
            screen(name_, settings(), [(octets, marks)] * 2, 0, job, table)
    # what is told of the place is the place it was called with, and the table is looked at where no Start is left too
    for place in (3, len(octets)):
        one(f"20 at {place}", settings(), octets, marks, place, 0, filled(13, 0))
        explain(f"20 at {place}", settings(), octets, marks, place, 0, filled(13, 0))
        keep(f"log: 20 at {place}", TWO, place, [], table=filled(13, 0))
    every("20 of no symbol", settings(), [], [], table=table_octets(filled(13, 0)))
    for job in (2, 3, 128, 255):
        name = f"job {job}"
        every(name, settings(), octets, marks, job=job)
        explain(name, settings(), octets, marks, 0, job)
        keep("log: " + name, TWO, 0, [0] * 32, job=job)
        screen(name, settings(), [(octets, marks)] * 2, 0, job, EMPTY)
    for name, table in [("12 of job 0", filled(12, 0)), ("12 of job 1 behind 4", filled(4, 12)), ("an address of both", holding(e0=(0, NEW), e1=(1, NEW)))]:
        for job in JOBS:
            every(f"no 20, {name}, read by {job}", settings(), octets, marks, job=job, table=table_octets(table))


# ---- the table calls


def told(refusal):
    return f"refused {refusal}" if refusal else "fine"


def change(kind, name, before, job, address):
    """One call on a table's octets; gives those after it. A refused call leaves them; else one entry is written, and no other octet."""
    name = {ADD: "add, ", REMOVE: "remove, "}[kind] + name
    TAPE.table_call(kind, name, before, job, address, KEPT)
    answer = {ADD: adding, REMOVE: removing}[kind](entries(before), job, address)
    after = bytearray(before)
    if not answer.refusal:
        after[8 * answer.entry:8 * answer.entry + 8] = bytes(entry_octets((job, address) if kind == ADD else None))
    assert entries(after) == answer.table
    TAPE.lines.append(f"{name}: {told(answer.refusal)} entry {KEPT if answer.refusal else answer.entry} table {checksum(after)}")
    return bytes(after)


def add(name, table, job, address):
    return change(ADD, name, table_octets(table), job, address)


def remove(name, table, job, address):
    return change(REMOVE, name, table_octets(table), job, address)


def empty(name, before):
    TAPE.table_call(EMPTY_TABLE, name, before, 0, bytes(6), KEPT)
    TAPE.lines.append(f"{name}: table {checksum(bytes(128))}")


def adding_cases():
    for name, before in [("empty", table_octets(EMPTY)), ("full", table_octets(filled(12, 4))), ("any octets", bytes([255] * 128))]:
        empty(f"empty table of {name}", before)
    # every limit of what a job may hold; the other job always gets 4
    for of_0, of_1 in [(0, 0), (11, 0), (12, 0), (12, 3), (12, 4), (11, 4), (11, 5), (8, 8), (4, 12), (3, 12), (0, 12), (0, 11), (4, 11)]:
        for job in JOBS:
            add(f"{of_0} and {of_1}, job {job}", filled(of_0, of_1), job, NEW)
    # already listed: before 15, before 16, before both, and by the other job alone
    for name, table in [(f"{a} and {b}", filled(a, b)) for a, b in [(2, 2), (12, 2), (2, 12), (8, 8), (12, 4), (4, 12)]] + [("mixed", MIXED)]:
        for job in JOBS:
            for n in (0, next(n for n in range(16) if table[n][0] == 1)):
                add(f"entry {n} of {name}, job {job}", table, job, GROUPS[n])
    # the lowest free entry, whatever stands in it; what stands in the others stays
    for name, free in [("first", [0]), ("last", [15]), ("two", [5, 9]), ("neighbours", [14, 15])]:
        table = [None if n in free else entry for n, entry in enumerate(MIXED)]
        for job in JOBS:
            add(f"{name} free, job {job}", table, job, NEW)
    for n, unheld in enumerate(UNHELD):
        for job in JOBS:
            change(ADD, f"free entries {n}, job {job}", table_octets(filled(1, 1), unheld, 9), job, GROUPS[1 - job])
    for name, address in [("own", OWN), ("broadcast", BROADCAST), ("reserved group", RESERVED_GROUP), ("zeros", [0] * 6), ("ones but one", [255] * 5 + [254])]:
        add(f"{name}", filled(1, 1), 1, address)
    add("first octet differs", filled(1, 1), 0, [3] + GROUPS[0][1:])
    add("last octet differs", filled(1, 1), 0, GROUPS[0][:5] + [0x80])


def removing_cases():
    for job in JOBS:
        for n in (0, 1, 14, 15):
            remove(f"entry {n} of mixed, job {job}", MIXED, job, GROUPS[n])
        remove(f"none, job {job}", EMPTY, job, GROUPS[1])
        remove(f"another, job {job}", MIXED, job, NEW)
        remove(f"first octet differs, job {job}", MIXED, job, [3] + GROUPS[job][1:])
        remove(f"last octet differs, job {job}", MIXED, job, GROUPS[job][:5] + [0x80])
        remove(f"both list it, job {job}", holding(e3=(0, GROUPS[1]), e9=(1, GROUPS[1])), job, GROUPS[1])
        remove(f"zeros, job {job}", EMPTY, job, [0] * 6)
        for n, unheld in enumerate(UNHELD):
            change(REMOVE, f"free entries {n}, job {job}", table_octets(holding(e6=(0, GROUPS[2])), unheld, 9), job, GROUPS[1 + (job == 0)])


def change_refusal_cases():
    """14, 20, 17, 15, 16 and 14, 20, 18: each pair that can be."""
    for job in (2, 255):
        for name, table in [("empty", EMPTY), ("13 of job 0", filled(13, 0)), ("12 and 4", filled(12, 4)), ("8 and 8", filled(8, 8))]:
            for listed, address in [("listed", GROUPS[1]), ("not listed", NEW)]:
                add(f"{name}, {listed}, job {job}", table, job, address)
                remove(f"{name}, {listed}, job {job}", table, job, address)
    twice = [(0, GROUPS[1]) if n == 0 else entry for n, entry in enumerate(filled(12, 4))]  # 12 held, all in use, and an address twice
    for name, table in BROKEN + [("12 and 4, one twice", twice)]:
        for job in JOBS:
            for listed, address in [("listed", GROUPS[1]), ("not listed", NEW)]:
                add(f"{name}, {listed}, job {job}", table, job, address)
                remove(f"{name}, {listed}, job {job}", table, job, address)


def sequence_cases():
    """Freed entries are used again, the lowest first, whoever freed them: one call after the other on one table."""
    table = table_octets(EMPTY)
    steps = [(ADD, 0, n) for n in range(3)] + [(ADD, 1, n) for n in range(3)]  # both list the same three
    steps += [(REMOVE, 0, 1), (REMOVE, 1, 0), (ADD, 1, 7), (ADD, 0, 7), (ADD, 0, 1), (REMOVE, 0, 0), (REMOVE, 0, 0), (ADD, 1, 0)]
    steps += [(ADD, 0, n) for n in range(8, 16)] + [(ADD, 0, 0)] + [(ADD, 1, n) for n in range(8, 12)] + [(REMOVE, 0, 15), (ADD, 1, 12), (ADD, 0, 15)]
    for n, (kind, job, address) in enumerate(steps):
        table = change(kind, f"step {n}, job {job}, address {address}", table, job, GROUPS[address])
    for job in JOBS:
        capture(f"table of {len(steps)} steps, job {job}", settings(), TO_EACH, job=job, table=entries(table))


# ---- the screen


def screen(name, s, captures, place, job, table):
    name = "screen, " + name
    TAPE.screen_call(name, s, captures, place, job, table_octets(table))
    refusal, (at, length) = showing(s, captures, place, job, table)
    data = captures[job][0][at:at + length] if length else []
    TAPE.lines.append(f"{name}: {told(refusal)} part {at} of {length} sum {checksum(data)}")


def of(symbols):
    return [octet for octet, _ in symbols], [mark for _, mark in symbols]


def screen_cases():
    s = settings()
    one_of = of(line(frame(to=GROUPS[1], n=60)) + [(IDLE, 1)])
    two_of = of([(IDLE, 1)] * 3 + line(frame(to=GROUPS[2], field=20)) + line(frame(to=GROUPS[1], n=50)))
    for name, table in [("none listed", EMPTY), ("job 0 lists both", listing(*GROUPS[1:3])), ("job 1 lists both", listing(*GROUPS[1:3], job=1)),
                        ("each lists one", holding(e0=(1, GROUPS[2]), e15=(0, GROUPS[1]))),
                        ("each lists the other's", holding(e0=(0, GROUPS[2]), e15=(1, GROUPS[1])))]:
        for job in JOBS:
            for place in (0, 4):
                screen(f"{name}, job {job} at {place}", s, [one_of, two_of], place, job, table)
                screen(f"{name}, exchanged, job {job} at {place}", s, [two_of, one_of], place, job, table)
    # no data: none, open, another outcome, a field of 0
    nothing, opened, wrong, none = of([(IDLE, 1)] * 9), of([(START, 1)] + [(0x55, 0)] * 8), of(line(frame(bad=1))), of(line(frame(field=0)))
    for name, symbols in [("none", nothing), ("open", opened), ("wrong FCS", wrong), ("field 0", none), ("no symbol", ([], [])), ("control", of(line(frame(
            RESERVED_GROUP, 0x8808, 42, [0, 1, 0, 5])))), ("own", of(line(frame()))), ("to another", of(line(frame(to=station(2)))))]:
        for job in JOBS:
            captures = [symbols, of(line(frame()))] if job == 0 else [of(line(frame())), symbols]
            screen(f"{name}, job {job}", s, captures, 0, job, EMPTY)
    # refused by the chosen capture alone: lengths, the longest and the place
    unequal, short = (one_of[0], one_of[1][1:]), of([(IDLE, 1)] * 2)
    long, longest = ([0] * 65537, [0] * 65537), tuple([0] * (65536 - len(buffer)) + buffer for buffer in one_of)
    for job in JOBS:
        for name, captures, place in [("unequal", [unequal, two_of], 0), ("no marks", [(one_of[0], []), two_of], 0), ("short", [short, two_of], 3),
                                      ("at its end", [short, two_of], 2)]:
            screen(f"{name} is 0, job {job}", s, captures, place, job, filled(2, 0))
            screen(f"{name} is 1, job {job}", s, captures[::-1], place, job, filled(0, 2))
        screen(f"65,537 symbols is 0, job {job}", s, [long, two_of], 0, job, filled(0, 3))
        screen(f"the longest is 0, job {job}", s, [longest, two_of], 0, job, filled(3, 0))


def cases():
    table_cases()
    special_cases()
    refusal_cases()
    adding_cases()
    removing_cases()
    change_refusal_cases()
    sequence_cases()
    screen_cases()
