"""The readings on the tape of crates/cases (tape.py): captures of each outcome and of both sides of each limit, built by this file's own code."""
from dataclasses import replace

from model import (START, TERMINATE, IDLE, ERROR, PREAMBLE, RESERVED_GROUP, BROADCAST, EMPTY, Settings, State, fcs, high_first, reading, screen,
                   walk)
from tape import MOST_READINGS, READINGS, TAPE, changed, checksum, entries, table_octets

FRESH = State()
USED = State(counters=[2**64 - 1] * 11, timers=[1000] * 8)
SOAKED = State(counters=[2**32 - 1] * 11, timers=[0] * 8)
SOURCE = [2, 0, 0, 0, 0, 9]
TAG = [0x81, 0x00, 0x20, 0x05]


def station(n):
    return [2, 0, 0, 0, 0, n]


def multicast(n):
    return [1, 0, 0x5E, 0, 0, n]


OWN = station(1)
STATIONS = [station(0x11 + i) for i in range(4)]


def settings(**changes):
    base = Settings(own=OWN, broadcast=True, promiscuous=False, checking=True, limit=1518, flow="none", pass_control=False)
    return replace(base, **changes)


def listing(*addresses, job=0, at=0, others=()):
    """A table in which a job lists these addresses, from an entry on, and the other job others, up to the last entry."""
    table = list(EMPTY)
    table[at:at + len(addresses)] = [(job, address) for address in addresses]
    table[16 - len(others):] = [(1 - job, address) for address in others]
    assert len(table) == 16
    return table


def line(frame, by=TERMINATE):
    return [(START, 1)] + [(o, 0) for o in PREAMBLE + frame] + [(by, 1)]


def frame(to=OWN, field=0x0800, n=46, body=(), tagged=False, tags=(), bad=0):
    filler = [(1 + 7 * i) % 256 for i in range(n)]
    run = [octet for kind in tags for octet in high_first(kind) + TAG[2:]]
    covered = to + SOURCE + (TAG if tagged else run) + high_first(field) + list(body) + filler
    wrong = (int.from_bytes(bytes(fcs(covered)), "little") ^ bad).to_bytes(4, "little")
    return covered + list(wrong)


def reading_line(name, before, r, worn=False):
    answer = {"refused": f"refused {r.refusal}", "none": "none", "open": "open",
              "counted": f"outcome {r.outcome} status {r.status:010x} part {r.part[0]} of {r.part[1]} way {r.address} data {len(r.data)} "
                         f"sum {checksum(r.data)}"}[r.kind]
    TAPE.tell(name, f"{answer} start {r.start} next {r.next}", r.refusal, before, r.state, worn)


def one(name, s, octets, marks, place, job=0, table=EMPTY):
    TAPE.call(READINGS, name, s, FRESH, place, 1, octets, marks, job=job, table=table_octets(table))
    reading_line(name, FRESH, reading(s, FRESH, octets, marks, place, job, table))


def every(name, s, octets, marks, state=FRESH, worn=False, job=0, table=table_octets(EMPTY), spare=0):
    """The table as its octets, which say more than its entries."""
    TAPE.call(READINGS, name, s, state, 0, MOST_READINGS, octets, marks, worn=worn, job=job, table=table, spare=spare)
    readings = walk(s, state, octets, marks, 0, job, entries(table))
    before = state
    for i, r in enumerate(readings[:MOST_READINGS]):
        reading_line(name, before, r, worn and i == 0)
        before = r.state
    last = readings[-1]
    end = f"walk refused {last.refusal}" if last.kind == "refused" else f"walk {len(readings) - 1} open {int(last.kind == 'open')}"
    shown = "screen" + changed(screen(state), screen(last.state), 1)
    TAPE.tell(name, f"{end} {shown}", last.refusal, state, last.state, worn)


def symbols(name, octets, marks):
    every(name, settings(), octets, marks)


def capture(name, s, syms, state=FRESH, job=0, table=EMPTY):
    every(name, s, [o for o, _ in syms], [m for _, m in syms], state, job=job, table=table_octets(table))


def case(name, s, f, state=FRESH, by=TERMINATE, job=0, table=EMPTY):
    capture(name, s, line(f, by) + [(IDLE, 1)], state, job, table)


def line_cases():
    s = settings()
    f = frame(n=50)
    for name, by in [("Idle", 0x07), ("Error", 0xFE), ("Sequence", 0x9C), ("control 0", 0)]:
        case("cut by " + name, s, f, by=by)
    capture("cut by Start", s, line(f)[:-1] + line(f))
    capture("two and open", s, line(frame()) + line(frame()) + [(START, 1)])
    symbols("nothing", [], [])
    symbols("Start alone", [0xFB], [1])
    symbols("Start, Start, Terminate", [0xFB, 0xFB, 0xFD], [1, 1, 1])
    symbols("the page's own", [0xFB, 7, 0xFB, 0x55, 0xFD], [1, 1, 1, 0, 1])
    symbols("open after one", [7, 0xFB, 0xFD, 0xFB, 0x55], [1, 1, 1, 1, 0])
    symbols("mark 2", [0xFB, 0xFD], [2, 2])
    symbols("mark 255", [0xFB, 0xFD], [255, 255])
    symbols("mark 128 ends a run", [0xFB, 0x55, 0xFD], [1, 0, 128])
    symbols("0xFB as data", [0xFB, 0xFB, 0xFD], [0, 0, 1])
    symbols("0xFB in a run", [0xFB, 0xFB, 0xFD], [1, 0, 1])
    for name, run in [("preamble alone", PREAMBLE), ("first octet wrong", [0x54] + PREAMBLE[1:]), ("sixth octet wrong", PREAMBLE[:5] + [0xD5, 0xD5]),
                      ("seventh octet wrong", PREAMBLE[:6] + [0x55]), ("six octets", PREAMBLE[:6])]:
        symbols(name, [0xFB] + run + [0xFD], [1] + [0] * len(run) + [1])


def refusal_cases():
    for name, s in [("own with group bit", settings(own=[3, 0, 0, 0, 0, 1])), ("M 1517", settings(limit=1517)), ("M 9619", settings(limit=9619)),
                    ("M 9618", settings(limit=9618))]:
        every(name, s, [0xFB, 0xFD], [1, 1])
        every(name + ", spare octets", s, [0xFB, 0xFD], [1, 1], spare=255)
    symbols("fewer marks", [0xFB, 0xFD], [1])
    symbols("fewer octets", [0xFB], [1, 1])
    o, m = [0] * 65534 + [0xFB, 0xFD, 0], [0] * 65534 + [1, 1, 0]
    symbols("65,537 symbols", o, m)
    symbols("65,536 symbols", o[:-1], m[:-1])
    for name, place in [("place 0", 0), ("place 1", 1), ("place at the end", 4), ("place past the end", 5)]:
        one(name, settings(), [0xFB, 0xFD] * 2, [1] * 4, place)
    one("2 before 3", settings(), [0xFB, 0xFD], [1], 9)
    one("place 1 of none", settings(), [], [], 1)
    one("1 before 2 and 3", settings(limit=0), [0xFB, 0xFD], [1], 9)
    one("1 before 3", settings(limit=0), [0xFB, 0xFD], [1, 1], 9)
    for name, s in [("worn state", settings()), ("worn state, refused", settings(limit=0))]:
        every(name, s, [0xFB, 0xFD], [1, 1], USED, worn=True)


def frame_cases():
    s = settings()
    case("63 octets", s, frame(n=45))
    case("63 octets, wrong FCS", s, frame(n=45, bad=1))
    case("64 octets", s, frame())
    case("lowest bit of the FCS", s, frame(bad=1))
    case("highest bit of the FCS", s, frame(bad=0x80000000))
    case("1518", s, frame(n=1500))
    case("1519", s, frame(n=1501))
    case("1519, wrong FCS", s, frame(n=1501, bad=1))
    case("tagged 1522", s, frame(n=1500, tagged=True))
    case("tagged 1523", s, frame(n=1501, tagged=True))
    most = settings(limit=9618)
    case("M 9618, 9618", most, frame(n=9600))
    case("M 9618, tagged 9622", most, frame(n=9600, tagged=True))
    case("M 9618, tagged 9623", most, frame(n=9601, tagged=True))
    case("M 9618, 9619", most, frame(n=9601))
    case("M 9618, wrong FCS", most, frame(n=9000, bad=0x00100000))
    case("tagged", s, frame(tagged=True))
    case("tag in a tag", s, frame(field=0x8100, tagged=True))
    case("tagged, field 45 with 46", s, frame(field=45, tagged=True))
    case("tagged, field 42 with 42", s, frame(field=42, n=42, tagged=True))
    for field, n in [(0, 46), (0, 47), (45, 46), (45, 47), (46, 46), (46, 47), (100, 99), (100, 100), (100, 101), (1500, 1500), (1535, 46), (1536, 46)]:
        case(f"field {field} with {n}", s, frame(field=field, n=n))
    wide = settings(limit=2000)
    case("field 1501 with 1501", wide, frame(field=1501, n=1501))
    case("field 1500 with 1501", wide, frame(field=1500, n=1501))
    for field, n in [(1501, 1501), (45, 47), (10, 46)]:
        case(f"unchecked, field {field} with {n}", replace(wide, checking=False), frame(field=field, n=n))


def tag_cases():
    s = settings()
    c, p = 0x8100, 0x88A8
    for name, tags in [("0x88A8", [p]), ("0x88A8 outside 0x8100", [p, c]), ("0x8100 outside 0x88A8", [c, p]), ("three tags", [p, c, c]), ("eight tags", [p, c] * 4),
                       ("nine tags", [p] * 9), ("a ninth of 0x8100", [p] * 8 + [c]), ("0x88A9", [0x88A9])]:
        case(name, s, frame(tags=tags))
    for n, most in [(2, 1500), (8, 1500), (9, 1496)]:
        case(f"{n} tags, the limit", s, frame(n=most, tags=[p] * n))
        case(f"{n} tags, over it", s, frame(n=most + 1, tags=[p] * n))
    for n in (2, 8):
        for field, octets in [(45, 46), (45, 47), (46, 46), (46, 47), (100, 100)]:
            case(f"{n} tags, field {field} with {octets}", s, frame(field=field, n=octets, tags=[p] * n))
    for n, field, lengths in [(0, 10, (46, 47)), (1, 10, (42, 43, 45, 46)), (1, 43, (42, 43, 44)), (2, 10, (38, 39, 46)), (2, 39, (38, 39, 40)), (8, 10, (14, 15, 46)),
                              (8, 14, (14, 15)), (8, 15, (14, 15, 16))]:
        for octets in lengths:
            case(f"{n} tags, field {field} with {octets}", s, frame(field=field, n=octets, tags=[c] * n))
    for tags in [[p], [p, c]]:
        case(f"pause behind {len(tags)} of 0x88A8 and 0x8100", settings(flow="pause"), frame(RESERVED_GROUP, 0x8808, 42, [0, 1, 0, 5], tags=tags))


def address_cases():
    everything = settings(promiscuous=True)
    for name, s, to in [
        ("another station", settings(), station(2)),
        ("first octet differs", settings(), [6, 0, 0, 0, 0, 1]),
        ("a group", settings(), multicast(1)),
        ("reserved group, no control", settings(), RESERVED_GROUP),
        ("promiscuous, another station", everything, station(2)),
        ("promiscuous, a group", everything, multicast(1)),
        ("broadcast on", settings(), BROADCAST),
        ("broadcast off", settings(broadcast=False), BROADCAST),
        ("promiscuous, broadcast off", settings(broadcast=False, promiscuous=True), BROADCAST),
    ]:
        case(name, s, frame(to=to))
    for name, n, to in [("first of none", 0, 0x11), ("first of 1", 1, 0x11), ("second of 1", 1, 0x12), ("fourth of 3", 3, 0x14), ("fourth of 4", 4, 0x14)]:
        case(name, settings(), frame(to=station(to)), table=listing(*STATIONS[:n]))
    groups, s = listing(BROADCAST, multicast(5)), settings(broadcast=False)
    case("listed broadcast", s, frame(to=BROADCAST), table=groups)
    case("listed group", s, frame(to=multicast(5)), table=groups)
    case("group not listed", s, frame(to=multicast(6)), table=groups)


def way_cases():
    """Which address let a frame in (items 7 and 10): each number, and what is tried before what. A table on both sides of each limit: job_cases.py."""
    s, everything = settings(), settings(promiscuous=True)
    four = listing(*STATIONS)
    for i, to in enumerate(STATIONS):
        case(f"entry {i} of 4", s, frame(to=to), table=four)
        case(f"entry {i} of 4, promiscuous", everything, frame(to=to), table=four)
        case(f"own address at entry {i}", s, frame(), table=listing(*STATIONS[:i], OWN, *STATIONS[i + 1:]))
        case(f"broadcast at entry {i}", s, frame(to=BROADCAST), table=listing(*STATIONS[:i], BROADCAST, *STATIONS[i + 1:]))
    case("own address, promiscuous", everything, frame(), table=four)
    listed = listing(*STATIONS[:2], BROADCAST, RESERVED_GROUP)
    for name, s in [("", settings()), (", promiscuous", everything)]:
        case("listed broadcast, setting on" + name, s, frame(to=BROADCAST), table=listed)
        case("listed broadcast, setting off" + name, replace(s, broadcast=False), frame(to=BROADCAST), table=listed)
        case("listed reserved group, no control" + name, s, frame(to=RESERVED_GROUP), table=listed)
        case("listed reserved group, behind a tag" + name, s, frame(RESERVED_GROUP, 0x8808, 42, [0, 1, 0, 1], tagged=True), table=listed)
        for flow in ("none", "pause", "PFC"):
            pause(f"listed reserved group, pause in {flow}" + name, replace(s, flow=flow), RESERVED_GROUP, table=listed)
            pfc(f"listed reserved group, PFC in {flow}" + name, replace(s, flow=flow, pass_control=True), RESERVED_GROUP, 1, table=listed)
    case("promiscuous, reserved group, no control", everything, frame(to=RESERVED_GROUP))
    pause("promiscuous, pause to the group", everything, RESERVED_GROUP)
    s = settings()
    pause("pause to entry 1", s, station(0x12), table=four)
    pause("pause to the own address at entry 0", s, OWN, table=listing(OWN))
    case("entry 3, wrong FCS", s, frame(to=station(0x14), bad=1), table=four)
    case("entry 3, cut", s, frame(to=station(0x14)), by=ERROR, table=four)


def pause(name, s, to, quanta=1, state=FRESH, table=EMPTY):
    case(name, s, frame(to=to, field=0x8808, n=42, body=[0, 1] + high_first(quanta)), state, table=table)


def pfc(name, s, to, named, state=FRESH, table=EMPTY):
    quanta = [octet for n in range(8) for octet in high_first(0x0101 * (n + 1))]
    case(name, s, frame(to=to, field=0x8808, n=26, body=[1, 1, 0xFF, named] + quanta), state, table=table)


def control_cases():
    s = settings(flow="pause")
    pause("pause to the group", s, RESERVED_GROUP)
    pause("pause to the own address", s, OWN)
    pause("pause, 65,535 quanta", s, RESERVED_GROUP, 65535)
    pause("pause to another station", s, station(2))
    pause("pause to all", s, BROADCAST)
    pfc("PFC in pause mode", s, RESERVED_GROUP, 255)
    first = listing(station(0x11))
    pause("pause to a listed address", s, station(0x11), table=first)
    s = replace(s, broadcast=False)
    pause("pause to all, broadcast off", s, BROADCAST, table=first)
    s = replace(s, promiscuous=True)
    pause("promiscuous, pause to another station", s, station(2), table=first)
    s = replace(s, pass_control=True)
    pause("passing, pause to another station", s, station(2), table=first)
    pause("passing, pause to the group", s, RESERVED_GROUP, table=first)
    s = settings(flow="PFC")
    pfc("PFC, all classes", s, RESERVED_GROUP, 255)
    pfc("PFC, classes 0, 2 and 7", s, RESERVED_GROUP, 0b10000101)
    pfc("PFC, no class", s, RESERVED_GROUP, 0)
    pfc("PFC to the own address", s, OWN, 255)
    pfc("PFC to another station", s, station(2), 255)
    pause("pause in PFC mode", s, RESERVED_GROUP)
    s = settings()
    pause("pause, flow none", s, RESERVED_GROUP)
    pfc("PFC, flow none", s, RESERVED_GROUP, 255)
    s = settings(pass_control=True)
    pause("passing, pause, flow none", s, RESERVED_GROUP)
    pfc("passing, PFC to the own address", s, OWN, 255)
    pause("passing, pause to another station, filtered", s, station(2))
    s = settings(flow="pause")
    second = frame(to=RESERVED_GROUP, field=0x8808, n=44, body=[0, 2])
    case("opcode 2", s, second)
    s = replace(s, pass_control=True)
    case("passing, opcode 2", s, second)
    case("pause, wrong FCS", s, frame(to=RESERVED_GROUP, field=0x8808, n=42, body=[0, 1, 0, 1], bad=1))
    case("tagged pause to the group", s, frame(to=RESERVED_GROUP, field=0x8808, n=42, body=[0, 1, 0, 1], tagged=True))
    case("tagged pause to the own address", s, frame(to=OWN, field=0x8808, n=42, body=[0, 1, 0, 1], tagged=True))
    s = settings(flow="pause")
    pause("pause, zero quanta", s, RESERVED_GROUP, 0, USED)
    pause("pause, two quanta", s, RESERVED_GROUP, 2, USED)
    case("filtered, counter rolls over", s, frame(to=station(2)), USED)
    case("filtered, counter passes 2^32", s, frame(to=station(2)), SOAKED)
    s = settings(flow="PFC")
    pfc("PFC, classes 1 and 6", s, RESERVED_GROUP, 0b01000010, USED)
    some = [octet for q in [0, 0, 9, 0, 9, 9, 9, 9] for octet in high_first(q)]
    case("PFC, zero quanta for some", s, frame(to=RESERVED_GROUP, field=0x8808, n=26, body=[1, 1, 0, 0x0F] + some), USED)


def cases():
    line_cases()
    refusal_cases()
    frame_cases()
    tag_cases()
    address_cases()
    control_cases()
    way_cases()
