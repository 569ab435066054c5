"""The plain reader on the tape of crates/cases (tape.py): captures symbol by symbol (item 12), each outcome, both sides of each limit, every refusal in its
order, and the 65,536th symbol. What must come of each is the model's answer."""
from dataclasses import replace

from model import BROADCAST, EMPTY, ERROR, IDLE, PREAMBLE, RESERVED_GROUP, START, TERMINATE, PlainReader, State, high_first, taking
from read_cases import FRESH, OWN, USED, frame, line, listing, multicast, settings, station
from tape import PLAIN, TAPE, table_octets


def take(name, s, syms, state=FRESH, job=0, table=EMPTY, taken=0, worn=False):
    """All symbols, also behind one that is refused."""
    name = "plain, " + name
    octets, marks = [o for o, _ in syms], [m for _, m in syms]
    TAPE.call(PLAIN, name, s, state, taken, 0, octets, marks, worn=worn, job=job, table=table_octets(table))
    reader, said, counted = PlainReader(taken, None, state), "", False
    for k, (octet, mark) in enumerate(syms):
        step = taking(s, reader, octet, mark, job, table)
        reader, ended = step.reader, step.ended
        if step.refusal:
            said += f"symbol {k} refused {step.refusal} "
        if ended:
            counted = True
            said += f"symbol {k} outcome {ended.outcome} status {ended.status:010x} part {ended.part[0]} of {ended.part[1]} way {ended.address} "
    end = f"taken {reader.taken} open {int(reader.run is not None)}"
    TAPE.tell(name, said + end, not counted, state, reader.state, worn)


def case(name, s, f, by=TERMINATE, **more):
    take(name, s, line(f, by) + [(IDLE, 1)], **more)


def run(name, octets, by=TERMINATE):
    take(name, settings(), [(IDLE, 1), (START, 1)] + [(o, 0) for o in octets] + [(by, 1)])


def line_cases():
    s, f = settings(), frame(n=50)
    take("nothing", s, [])
    take("Start alone", s, [(START, 1)])
    take("data alone", s, [(0x55, 0)] * 3 + [(TERMINATE, 1)])
    take("data before a Start", s, [(0x11, 0)] * 60 + line(frame()))
    take("0xFB as data", s, [(START, 0), (START, 1), (START, 0), (TERMINATE, 1)])
    take("a Start ends a run and begins one", s, line(f)[:-1] + line(f) + [(IDLE, 1)])
    take("three Starts", s, [(START, 1)] * 3)
    take("three Starts, Terminate", s, [(START, 1)] * 3 + [(TERMINATE, 1)])
    take("two, and open", s, line(frame()) + line(frame()) + [(START, 1), (0x55, 0)])
    take("Terminate twice", s, line(frame()) + [(TERMINATE, 1)])
    for mark in (2, 128, 255):
        take(f"mark {mark}", s, [(START, mark), (0x55, 0), (TERMINATE, mark), (IDLE, mark)])
        take(f"a frame ended with mark {mark}", s, line(frame())[:-1] + [(TERMINATE, mark)])
    for by in (IDLE, ERROR, 0x9C, 0):
        case(f"cut by {by:#04x}", s, f, by)
    for n in (0, 6, 7, 8):
        run(f"run of {n}", (PREAMBLE + [0x55])[:n])
    for n in range(7):
        run(f"octet {n} wrong", PREAMBLE[:n] + [PREAMBLE[n] ^ 1] + PREAMBLE[n + 1:])


def frame_cases():
    s, group = settings(), multicast(1)
    for n in (45, 46, 47, 1500, 1501):
        case(f"{n} octets of data", s, frame(n=n))
    for n in (1, 2, 8):
        case(f"{n} tags, the limit", s, frame(n=1500, tags=[0x8100] * n))
        case(f"{n} tags, over it", s, frame(n=1501, tags=[0x8100] * n))
    case("nine tags", s, frame(tags=[0x88A8] * 9))
    for bit in (0, 31):
        case(f"FCS bit {bit} off", s, frame(bad=1 << bit))
    for field, n in [(0, 46), (5, 46), (45, 46), (45, 47), (46, 46), (46, 47), (1500, 1500), (1501, 46), (1535, 46), (1536, 46)]:
        case(f"field {field}, {n} octets", s, frame(field=field, n=n))
        case(f"field {field}, {n} octets, not checked", replace(s, checking=False), frame(field=field, n=n))
    case("short, tagged, bridged", s, frame(field=5, n=42, tagged=True))
    case("to another", s, frame(to=station(2)))
    case("to another, promiscuous", replace(s, promiscuous=True), frame(to=station(2)))
    case("broadcast", s, frame(to=BROADCAST))
    case("broadcast, not accepted", replace(s, broadcast=False), frame(to=BROADCAST))
    table = listing(station(5), group, at=3, others=[multicast(2)])
    for job in (0, 1):
        for to in (group, multicast(2)):
            case(f"job {job}, to {to[5]}", s, frame(to=to), job=job, table=table)


def control_cases():
    pause = frame(to=RESERVED_GROUP, field=0x8808, n=42, body=[0, 1, 0, 9])
    classes = [octet for q in range(1, 9) for octet in high_first(q)]
    pfc = frame(to=RESERVED_GROUP, field=0x8808, n=26, body=[1, 1, 0xEE, 0b10000001] + classes)
    for flow in ("none", "pause", "PFC"):
        for passing in (False, True):
            s = settings(flow=flow, pass_control=passing)
            said = f"flow {flow}{', passing' * passing}"
            case(f"pause, {said}", s, pause, state=USED)
            case(f"PFC, {said}", s, pfc, state=USED)
    case("pause to the own address", settings(flow="pause"), frame(field=0x8808, n=42, body=[0, 1, 0, 9]), state=USED)
    case("worn, pause", settings(flow="pause"), pause, worn=True)
    take("worn, nothing counted", settings(), [(START, 1), (0x55, 0)], worn=True)


def refusal_cases():
    """Every choice of 1, 14, 20 and 2; a reader that is refused is as it was, so that all symbols are."""
    good, syms = settings(), [(START, 1), (0x55, 0), (TERMINATE, 1)]
    broken = listing(multicast(1), multicast(1))
    for wrongs in range(1, 16):
        one, fourteen, twenty, two = [bool(wrongs >> k & 1) for k in range(4)]
        take(f"wrongs {wrongs}", replace(good, limit=1517) if one else good, syms, job=2 * fourteen, table=broken if twenty else EMPTY,
             taken=65536 if two else 0, worn=wrongs % 2 == 0)
    for taken in (65533, 65534, 65535, 65536, 65537, 2**32 - 1):
        take(f"{taken} taken", good, syms, taken=taken)
    frames = line(frame()) + line(frame(to=BROADCAST))
    take("the last symbol ends a frame", good, frames, taken=65536 - len(frames))
    take("one too many", good, frames, taken=65537 - len(frames))


def cases():
    line_cases()
    frame_cases()
    control_cases()
    refusal_cases()
