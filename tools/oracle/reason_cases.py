"""The reasons on the tape of crates/cases (tape.py): why a Start has its outcome (item 8), each evidence at both sides of its limit; `none`, `open` and each
refusal. What must come of each is the model's answer."""
from model import BROADCAST, EMPTY, ERROR, IDLE, PREAMBLE, RESERVED_GROUP, START, TERMINATE, why
from read_cases import FRESH, OWN, frame, line, multicast, settings, station
from tape import EXPLAIN, TAPE, table_octets

KINDS = {"counted": 0, "refused": 0, "none": 1, "open": 2}
# the header's number of a reason; of bad preamble there are two, by what the evidence is
REASONS = {1: 1, 3: 4, 4: 5, 5: 6, 6: 7, 7: 8, 8: 9, 9: 10, 10: 11, 11: 12}
PREAMBLE_REASONS = {"length": 2, "place": 3}
SEQUENCE = 0x9C
CUSTOMER, SERVICE = 0x8100, 0x88A8


def numbers(answer):
    """The reason's number and its evidence: an address with its first octet highest, and 0 where there is no second number."""
    if answer.kind != "counted":
        return 0, 0, 0
    if answer.outcome == 2:
        said, number = answer.evidence
        return PREAMBLE_REASONS[said], number, 0
    plain = [int.from_bytes(bytes(e), "big") if isinstance(e, list) else e for e in answer.evidence]
    first, second = (plain + [0])[:2]
    return REASONS[answer.outcome], first, second


def explain(name, s, octets, marks, place=0, job=0, table=EMPTY):
    name = "why, " + name
    TAPE.call(EXPLAIN, name, s, FRESH, place, 0, octets, marks, job=job, table=table_octets(table))
    a = why(s, octets, marks, place, job, table)
    reason, first, second = numbers(a)
    told = f"refused {a.refusal} kind {KINDS[a.kind]} outcome {a.outcome} start {a.start} next {a.next} reason {reason} of {first} and {second}"
    TAPE.lines.append(f"{name}: {told}")


def run(name, octets, by=TERMINATE, s=None):
    """A Start behind two Idles, these data octets, and what ends them; from place 1 on, so that the Start is found."""
    symbols = [(IDLE, 1)] * 2 + [(START, 1)] + [(o, 0) for o in octets] + [(by, 1), (IDLE, 1)]
    explain(name, s or settings(), [o for o, _ in symbols], [m for _, m in symbols], 1)


def case(name, s, f):
    """The same capture as the reading of that frame has, so that it lies on the tape once."""
    symbols = line(f) + [(IDLE, 1)]
    explain(name, s, [o for o, _ in symbols], [m for _, m in symbols])


def run_cases():
    whole = PREAMBLE + frame(n=50)
    for name, by in [("Idle", IDLE), ("Start", START), ("Error", ERROR), ("Sequence", SEQUENCE), ("control 0", 0)]:
        run("cut by " + name, whole, by)
    run("cut, empty run", [], IDLE)
    run("cut, six octets", PREAMBLE[:6], ERROR)
    for n in range(7):
        run(f"run of {n}", PREAMBLE[:n])
    run("run of 6, all wrong", [0] * 6)
    for n in range(7):
        run(f"octet {n} wrong", PREAMBLE[:n] + [PREAMBLE[n] ^ 1] + PREAMBLE[n + 1:])
        run(f"wrong from octet {n} on", PREAMBLE[:n] + [0] * (7 - n))
    run("run of 7", PREAMBLE)
    run("run of 8", PREAMBLE + [0x55])


def size_cases():
    s, most = settings(), settings(limit=9618)
    case("63 octets", s, frame(n=45))
    case("63 octets, wrong FCS", s, frame(n=45, bad=1))
    case("64 octets", s, frame())
    case("1518", s, frame(n=1500))
    case("1519", s, frame(n=1501))
    case("1519, wrong FCS", s, frame(n=1501, bad=1))
    case("tagged 1522", s, frame(n=1500, tagged=True))
    case("tagged 1523", s, frame(n=1501, tagged=True))
    for n in (2, 8):
        case(f"{n} tags, the limit", s, frame(n=1500, tags=[SERVICE] * n))
        case(f"{n} tags, over it", s, frame(n=1501, tags=[SERVICE] * n))
    case("M 9618, 9618", most, frame(n=9600))
    case("M 9618, 9619", most, frame(n=9601))
    case("M 9618, tagged 9623", most, frame(n=9601, tagged=True))


def check_cases():
    s = settings()
    for bit in (0, 7, 8, 15, 16, 23, 24, 31):
        case(f"FCS bit {bit} off", s, frame(bad=1 << bit))
    case("all bits of the FCS off", s, frame(bad=0xFFFFFFFF))
    case("tagged, FCS off", s, frame(tagged=True, bad=1))
    case("FCS off before the length", s, frame(field=45, n=47, bad=1))


def length_cases():
    s = settings()
    for field, n in [(0, 46), (0, 47), (45, 46), (45, 47), (46, 46), (46, 47), (100, 99), (100, 100), (100, 101), (1500, 1500), (1535, 46), (1536, 46)]:
        case(f"field {field} with {n}", s, frame(field=field, n=n))
    wide = settings(limit=2000)
    case("field 1501 with 1501", wide, frame(field=1501, n=1501))
    case("field 1500 with 1501", wide, frame(field=1500, n=1501))
    case("unchecked, field 45 with 47", settings(limit=2000, checking=False), frame(field=45, n=47))
    case("unchecked, field 10 with 46", settings(limit=2000, checking=False), frame(field=10, n=46))
    for n, field, lengths in [(1, 10, (42, 43, 45, 46)), (1, 43, (42, 43, 44)), (2, 10, (38, 39, 46)), (2, 39, (38, 39, 40)), (8, 10, (14, 15, 46)),
                              (8, 15, (14, 15, 16)), (8, 0, (14, 46, 47))]:
        for octets in lengths:
            case(f"{n} tags, field {field} with {octets}", s, frame(field=field, n=octets, tags=[CUSTOMER] * n))


def address_cases():
    for name, s, to in [
        ("another station", settings(), station(2)),
        ("first octet differs", settings(), [6, 0, 0, 0, 0, 1]),
        ("a group", settings(), multicast(1)),
        ("reserved group, no control", settings(), RESERVED_GROUP),
        ("broadcast off", settings(broadcast=False), BROADCAST),
        ("broadcast on", settings(), BROADCAST),
        ("promiscuous, another station", settings(promiscuous=True), station(2)),
        ("own", settings(), OWN),
    ]:
        case(name, s, frame(to=to))
    case("control frame to another", settings(), frame(to=station(2), field=0x8808, n=44, body=[0, 1]))


def control_cases():
    for flow, opcode in [("pause", 0x0001), ("PFC", 0x0101), ("none", 0x0001), ("none", 0x0101), ("pause", 0x0002), ("PFC", 0x0102), ("PFC", 0x0001),
                         ("none", 0xFEDC)]:
        body = [opcode >> 8, opcode & 255]
        f = frame(to=RESERVED_GROUP, field=0x8808, n=44, body=body)
        case(f"opcode {opcode}, flow {flow}", settings(flow=flow), f)
    case("opcode 1 to own, flow pause", settings(flow="pause"), frame(to=OWN, field=0x8808, n=44, body=[0, 1]))
    case("opcode 2, passed", settings(pass_control=True), frame(to=RESERVED_GROUP, field=0x8808, n=44, body=[0, 2]))


def place_cases():
    s = settings()
    explain("nothing", s, [], [])
    explain("Idle alone", s, [IDLE] * 3, [1] * 3)
    explain("place at the end", s, [START, TERMINATE] * 2, [1] * 4, 4)
    explain("open", s, [IDLE, START, 0x55], [1, 1, 0])
    explain("one past the Start", s, [START, TERMINATE, START, 0x55], [1, 1, 1, 0], 1)
    explain("0xFB as data", s, [START, START, TERMINATE], [0, 1, 1])
    explain("mark 255", s, [START, TERMINATE], [255, 255])
    o, m = [0] * 65534 + [START, TERMINATE, 0], [0] * 65534 + [1, 1, 0]
    explain("65,536 symbols", s, o[:-1], m[:-1])
    for name, of, octets, marks, place in [
        ("own with group bit", settings(own=[3, 0, 0, 0, 0, 1]), [START, TERMINATE], [1, 1], 0),
        ("M 1517", settings(limit=1517), [START, TERMINATE], [1, 1], 0),
        ("M 9619", settings(limit=9619), [START, TERMINATE], [1, 1], 0),
        ("fewer marks", s, [START, TERMINATE], [1], 0),
        ("fewer octets", s, [START], [1, 1], 0),
        ("65,537 symbols", s, o, m, 0),
        ("place past the end", s, [START, TERMINATE], [1, 1], 3),
        ("a place of 2^64 - 1", s, [START, TERMINATE], [1, 1], 2**64 - 1),
        ("2 before 3", s, [START, TERMINATE], [1], 9),
        ("1 before 2 and 3", settings(limit=0), [START, TERMINATE], [1], 9),
        ("1 before 3", settings(limit=0), [START, TERMINATE], [1, 1], 9),
    ]:
        explain(name, of, octets, marks, place)


def cases():
    run_cases()
    size_cases()
    check_cases()
    length_cases()
    address_cases()
    control_cases()
    place_cases()
