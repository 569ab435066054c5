"""The sendings on the tape of crates/cases (tape.py): each refusal, each pair of neighbours in their order, and both sides of each limit."""
from dataclasses import dataclass, replace
from typing import Callable, Optional

from model import BROADCAST, FOUR_LANE, PLAIN, RESERVED_GROUP, Client, Settings, State, client_sending, gap_behind, idle_sending, pause_sending, pfc_sending
from tape import CLIENT, COUNTED, IDLE, PAUSE, PFC, TAPE, changed, checksum, client_octets

FAR = 2**64 - 1
LONGEST = [(1 + 7 * i) % 256 for i in range(9601)]
QUANTA = [0x0101 * (n + 1) for n in range(7)] + [65535]


def station(n):
    return [2, 0, 0, 0, 0, n]


def settings(flow, **changes):
    base = Settings(own=station(1), broadcast=True, promiscuous=False, checking=True, limit=1518, flow=flow, pass_control=False)
    return replace(base, **changes)


def unlike(octets, marks):
    """Buffers of these lengths, of a symbol that no call writes."""
    return [0xA5] * octets, [0x5A] * marks


@dataclass(frozen=True)
class Call:
    """Where a call writes: the length of each buffer, what they hold, a place, and a port's number. The deficit count is one of the state's numbers, any of
    64 bits. A call with totals keeps them (item 9)."""
    place: int
    flow: str = "none"
    octets: int = 1700
    marks: int = 1700
    changes: tuple = ()
    state: State = State()
    worn: bool = False
    port: int = 0
    deficit: int = 0
    holding: Callable = unlike
    totals: Optional[tuple] = None

    def before(self):
        """The state as the model has it: its greatest count stands for all that are above."""
        return replace(self.state, deficit=min(self.deficit, 255))

    def model_port(self):
        return FOUR_LANE if self.port else PLAIN

    def buffers(self):
        return self.holding(self.octets, self.marks)

    def kind(self, plain):
        return plain if self.totals is None else plain + COUNTED

    def lent(self):
        """The totals as the model takes them."""
        return None if self.totals is None else list(self.totals)

    def settings(self):
        return settings(self.flow, **dict(self.changes))


def of(n, place, flow="none", **changes):
    return Call(place, flow, n, n, **changes)


def report(name, call, r):
    answer = f"refused {r.refusal}" if r.refusal else "wrote"
    octets, marks = [f"{len(buffer)} {checksum(buffer)}" for buffer in (r.octets, r.marks)]
    totals = "" if r.totals is None else " totals" + changed(call.totals, r.totals, 0)
    TAPE.tell(name, f"{answer} place {r.place} octets {octets} marks {marks}{totals}", r.refusal, call.before(), r.state, call.worn, call.deficit)
    return r


def on(call):
    """What of a call stands on the tape beside its buffers."""
    return {"worn": call.worn, "deficit": call.deficit, "port": call.port, "totals": call.totals or ()}


def client(name, call, n, kind=None, cls=0, tag=None, to=station(2), octet=None):
    data = LONGEST[:n] if octet is None else [octet] * n
    c = Client(to, tag, kind, cls, data)
    TAPE.call(call.kind(CLIENT), name, call.settings(), call.state, call.place, 0, *call.buffers(), client=client_octets(c), data=data, **on(call))
    return report(name, call, client_sending(call.settings(), call.before(), *call.buffers(), call.place, c, call.model_port(), call.lent()))


def pause(name, call, quanta=9):
    TAPE.call(call.kind(PAUSE), name, call.settings(), call.state, call.place, quanta, *call.buffers(), **on(call))
    return report(name, call, pause_sending(call.settings(), call.before(), *call.buffers(), call.place, quanta, call.model_port(), call.lent()))


def pfc(name, call, named=9):
    TAPE.call(call.kind(PFC), name, call.settings(), call.state, call.place, named, *call.buffers(), quanta=QUANTA, **on(call))
    return report(name, call, pfc_sending(call.settings(), call.before(), *call.buffers(), call.place, named, QUANTA, call.model_port(), call.lent()))


def idle(name, call, n):
    TAPE.call(call.kind(IDLE), name, None, call.state, call.place, n, *call.buffers(), **{**on(call), "port": None})
    return report(name, call, idle_sending(call.before(), *call.buffers(), call.place, n, call.lent()))


def wide(limit):
    return of(10000, 5, changes=(("limit", limit),))


def data_cases():
    for n in [0, 1, 45, 46, 47, 1500]:
        client(f"length {n}", Call(3 if n else 0), n)
    for name, n in [("0", 0), ("45", 45), ("46", 46), ("47", 47), ("M - 18", 1500)]:
        client(f"type with {name}", Call(3 if n else 0), n, 0x0800)
    for n in [0, 42, 46, 1500]:
        client(f"tagged, length {n}", Call(3 if n else 0), n, tag=0x2005)
    client("tagged, type with 45", Call(3), 45, 0x86DD, tag=0x2005)
    client("tagged, type with M - 18", Call(3), 1500, 0x86DD, tag=0x2005)
    client("M 9618, type with 9600", wide(9618), 9600, 0x0800)
    client("M 9618, type with 9601", wide(9618), 9601, 0x0800)
    client("M 9618, length 1500", wide(9618), 1500)
    client("M 9618, length 1501", wide(9618), 1501)
    client("M 9618, tagged, type with 9600", wide(9618), 9600, 0x0800, tag=0x2005)
    client("length 1501", Call(0), 1501)
    client("type with M - 17", Call(0), 1501, 0x0800)
    client("tagged, length 1501", Call(0), 1501, tag=0x2005)
    client("M 1519, type with 1501", wide(1519), 1501, 0x0800)
    client("M 1519, type with 1502", wide(1519), 1502, 0x0800)
    client("to all", Call(3), 50, cls=3, to=BROADCAST)
    client("to the reserved group", Call(3), 50, cls=3, to=RESERVED_GROUP)
    client("tag control 0xFFFF", Call(3), 50, cls=3, to=RESERVED_GROUP, tag=0xFFFF)
    client("tag control 0", Call(3), 50, cls=3, to=RESERVED_GROUP, tag=0)


def tag_cases():
    stack = [(0x88A8, 0x2007), (0x8100, 0x2005)]
    for n in (2, 8):
        client(f"{n} tags, length 50", Call(3), 50, tag=(stack * 4)[:n])
        client(f"{n} tags, type with M - 18", Call(3), 1500, 0x86DD, tag=(stack * 4)[:n])
    client("0x88A8 alone", Call(3), 0, tag=stack[:1])
    client("eight tags, room exactly", of(116, 0), 46, tag=stack * 4)
    client("eight tags, one symbol short", of(115, 0), 46, tag=stack * 4)
    for n in (9, 255):
        client(f"{n} tags", Call(3), 50, tag=(stack * 128)[:n])


def field_cases():
    for c in [7, 8, 255]:
        client(f"class {c}", Call(3), 50, cls=c)
    for name in ["0", "1535", "1536", "0x8100", "0x8101", "0x8808", "0x88A8", "0xFFFF"]:
        client(f"type {name}", Call(3), 50, int(name, 0))
    pause("pause 0", Call(0, "pause"), 0)
    pause("pause 0x1234", Call(3, "pause"), 0x1234)
    pause("pause 65,535", Call(3, "pause"), 65535)
    pause("pause, flow none", Call(3), 1)
    pause("pause in PFC mode", Call(3, "PFC"), 1)
    pfc("PFC, no class", Call(0, "PFC"), 0)
    pfc("PFC, all classes", Call(3, "PFC"), 255)
    pfc("PFC, classes 0, 2 and 7", Call(3, "PFC"), 0b10000101)
    pfc("PFC, classes 1 and 6", Call(3, "PFC"), 0b01000010)
    pfc("PFC, flow none", Call(3), 255)
    pfc("PFC in pause mode", Call(3, "pause"), 255)
    for n in [0, 1, 1000]:
        idle(f"Idle {n}", Call(3), n)
    idle("Idle, all", Call(0), 1700)
    idle("Idle, one more", Call(0), 1701)
    refused_idle("Idle, most", Call(3), FAR)


def refused_idle(name, call, n):
    """A number of Idles that no list holds: more than the buffers have is refused in the same way."""
    idle(name, call, min(n, 65537))


def place_cases():
    client("client fills 84", of(84, 0), 46)
    client("client in 83", of(83, 0), 46)
    client("client ends at the end", of(100, 16), 0)
    client("client, one short", of(100, 17), 0)
    client("tagged fills 88", of(88, 0), 0, tag=0x2005)
    client("tagged in 87", of(87, 0), 0, tag=0x2005)
    client("47 in 84", of(84, 0), 47)
    client("1500 fills 1538", of(1538, 0), 1500)
    client("1500 in 1537", of(1537, 0), 1500)
    pause("pause fills 84", of(84, 0, "pause"))
    pause("pause, one short", of(100, 17, "pause"))
    pfc("PFC fills 84", of(84, 0, "PFC"))
    pfc("PFC, one short", of(100, 17, "PFC"))
    idle("Idle in none", of(0, 0), 0)
    idle("Idle 1 in none", of(0, 0), 1)
    idle("Idle 0 at the end", Call(1700), 0)
    client("client at the end", Call(1700), 46)
    client("client past the end", Call(1701), 46)
    client("client, largest place", Call(FAR), 46)
    client("client at 1 of none", of(0, 1), 46)
    for word, send, flow in [("pause", pause, "pause"), ("PFC", pfc, "PFC")]:
        send(f"{word} at the end", Call(1700, flow))
        send(f"{word} past the end", Call(1701, flow))
        send(f"{word}, largest place", Call(FAR, flow))
    idle("Idle 1 at the end", Call(1700), 1)
    idle("Idle past the end", Call(1701), 0)
    idle("Idle, largest place", Call(FAR), 1)


def buffer_cases():
    group = (("own", [3, 0, 0, 0, 0, 1]),)
    client("client, own with group bit", Call(3, changes=group), 46)
    client("client, M 1517", wide(1517), 46)
    client("client, M 9619", wide(9619), 46)
    for word, send, flow in [("pause", pause, "pause"), ("PFC", pfc, "PFC")]:
        send(f"{word}, own with group bit", Call(3, flow, changes=group))
    idle("Idle, own with group bit", Call(3, changes=group), 9)
    for word, send, flow in [("client", lambda name, call: client(name, call, 46), "none"), ("pause", pause, "pause"), ("PFC", pfc, "PFC"),
                             ("Idle", lambda name, call: idle(name, call, 9), "none")]:
        send(f"{word}, fewer marks", Call(3, flow, 500, 499))
        send(f"{word}, fewer octets", Call(3, flow, 499, 500))
    client("client, 65,537 symbols", of(65537, 9), 0)
    client("client ends at 65,536", of(65536, 65452), 0)
    pause("pause, 65,537 symbols", of(65537, 9, "pause"))
    pfc("PFC, 65,537 symbols", of(65537, 9, "PFC"))
    idle("Idle, 65,537 symbols", of(65537, 9), 9)
    idle("Idle, 65,536 symbols", of(65536, 0), 65536)


def timed(flow, *three):
    return Call(3, flow, state=State([5] * 11, [*three, 0, 1, 4194240, 2**32 - 1, 0]))


def all_at(n, flow="none", place=3):
    return Call(place, flow, state=State([5] * 11, [n] * 8))


def timer_cases():
    client("client lowers", timed("none", 83, 84, 85), 46, cls=3)
    client("client of 138 lowers", timed("none", 137, 138, 139), 100, cls=3)
    client("tagged lowers", timed("none", 87, 88, 89), 46, cls=3, tag=1)
    pause("pause lowers", timed("pause", 83, 84, 85))
    pfc("PFC lowers", timed("PFC", 83, 84, 85))
    tens = timed("none", 9, 10, 11)
    idle("Idle 9 lowers", tens, 9)
    idle("Idle 10 lowers", tens, 10)
    idle("Idle 0 lowers nothing", tens, 0)
    idle("a refused one lowers nothing", tens, 9999)
    client("held, class 0", all_at(1), 46)
    client("held, class 7", all_at(1), 46, cls=7)
    client("held, largest time", timed("none", 0, 0, 0), 46, cls=6)
    client("not held", timed("none", 0, 0, 0), 46, cls=7)
    pause("pause goes", all_at(1, "pause"))
    pfc("PFC goes", all_at(1, "PFC"))
    idle("Idle goes", all_at(1), 1)


def bad(flow, place):
    """Settings that are refused, and buffers that differ in length."""
    return Call(place, flow, 500, 499, changes=(("limit", 1517),))


def order_cases():
    client("client, 1 before 2", bad("none", 3), 46)
    client("client, 2 before 3", Call(501, "none", 500, 499), 46)
    client("client, 3 before 5", Call(1701), 46, cls=8)
    client("client, 5 before 6", Call(3), 46, 1535, cls=8)
    client("client, 6 before 7", Call(3), 1501, 0x8100)
    client("client, 6 before 10", Call(3), 46, 0x88A8, tag=[(0x8100, 5)] * 9)
    client("client, 10 before 7", Call(3), 1501, tag=[(0x8100, 5)] * 9)
    client("client, 10 before 8", Call(1650), 46, tag=[(0x8100, 5)] * 9)
    client("client, 10 before 9", all_at(1), 46, tag=[(0x8100, 5)] * 9)
    client("client, 7 before 8", Call(1000), 1501)
    client("client, 7 before 9", all_at(1), 1501)
    client("client, 8 before 9", all_at(1, place=1650), 46)
    client("client, 1 before all", bad("none", 501), 1501, 1535, cls=8)
    for word, send, flow in [("pause", pause, "pause"), ("PFC", pfc, "PFC")]:
        send(f"{word}, 1 before 2", bad(flow, 3))
        send(f"{word}, 2 before 3", Call(501, flow, 500, 499))
        send(f"{word}, 3 before 4", Call(1701))
        send(f"{word}, 4 before 8", Call(1650))
        send(f"{word}, 1 before all", bad("none", 501))
    idle("Idle, 2 before 3", bad("none", 501), 1)
    idle("Idle, 2 before 8", bad("none", 500), 9)
    idle("Idle, 3 before 8", Call(1701), 9)
    worn = of(9, 3, state=State([2**32 - 1] * 11, [1000] * 8), worn=True, deficit=FAR)
    client("worn state, client refused", worn, 46)
    idle("worn state, Idle refused", worn, 9)
    idle("worn state, Idle", worn, 5)


# The state of sendings on the four-lane port: class 0 runs not, the others run out about when a frame of 46 to 49 octets and its gap have ended.
LANES = State([5] * 11, [0, 81, 83, 84, 85, 86, 87, 4194240])
# The calls that send a frame; each writes 84 symbols with a gap of 12, and takes a place not divisible by four alone as bad.
FRAMES = [("client", lambda name, call: client(name, call, 46), "none"), ("pause", pause, "pause"), ("PFC", pfc, "PFC")]


def lanes(place, deficit, flow="none", n=400, port=1, **changes):
    return of(n, place, flow, **{"state": LANES, "port": port, "deficit": deficit, **changes})


def gap_cases():
    """Every count with every r: the gap has just enough room, and one symbol less."""
    for count in range(4):
        for r in range(4):
            gap, _ = gap_behind(FOUR_LANE, State(deficit=count), 8, [0] * (84 + r))
            name = f"four lanes, count {count}, r {r}, gap {gap}"
            client(name, lanes(8, count, n=80 + r + gap), 46 + r)
            client(name + ", one short", lanes(8, count, n=79 + r + gap), 46 + r)
    client("four lanes, room of 12 for a gap of 9", lanes(0, 0, n=87), 49)
    client("four lanes, 1500", lanes(100, 1, n=1700), 1500)
    client("four lanes, 1499", lanes(100, 3, n=1700), 1499)
    client("four lanes, eight tags", lanes(4, 3), 47, 0x0800, tag=[(0x88A8, 0x2007), (0x8100, 0x2005)] * 4)
    client("four lanes, up to 65,536", lanes(65452, 2, n=65536), 46)
    for count in range(4):
        for word, send, flow in FRAMES[1:]:
            send(f"{word} on four lanes, count {count}", lanes(4, count, flow, n=88))
            send(f"{word} on four lanes, count {count}, one short", lanes(4, count, flow, n=87))
    for octet in (2, 128, 255):
        client(f"port {octet}", lanes(0, 2, port=octet), 48)


def count_cases():
    """Counts on both sides of 3, by their high bits too: the plain port and Idle fill leave them."""
    for deficit in [4, 5, 255, 256, 259, 2**32, 2**32 + 3, 2**63, FAR]:
        for word, send, flow in FRAMES:
            send(f"{word} on four lanes, count {deficit}", lanes(8, deficit, flow))
    for deficit in [0, 1, 2, 3, 4, 5, 2**32, FAR]:
        for word, send, flow in FRAMES:
            send(f"{word} on the plain port, count {deficit}", lanes(9, deficit, flow, port=0))
        idle(f"Idle, count {deficit}", lanes(9, deficit), 81)
    client("the plain port, r 3, count 0", lanes(0, 0, port=0), 49)


def lane_place_cases():
    for word, send, flow in FRAMES:
        for place in [1, 2, 3, 5, 399, 400, 401, 404, FAR - 3, FAR]:
            send(f"{word} on four lanes at {place}", lanes(place, 0, flow))
        send(f"{word} on four lanes, 1 before 2", replace(bad(flow, 3), port=1, deficit=4))
        send(f"{word} on four lanes, 2 before 3", Call(3, flow, 500, 499, port=1, deficit=4))
        send(f"{word} on four lanes, 3 before 19", lanes(2, 4, flow))
        send(f"{word} on four lanes, 19 before 8", lanes(396, 4, flow))
    client("four lanes, 19 before 5", lanes(8, 4), 46, cls=8)
    client("four lanes, 19 before 9", lanes(8, 4), 46, cls=7)
    client("four lanes, 5 before 8", lanes(396, 3), 46, cls=8)
    client("four lanes, 8 before 9", lanes(396, 3), 46, cls=7)
    client("four lanes, 9", lanes(8, 3), 47, cls=7)
    pause("pause on four lanes, 19 before 4", lanes(8, 4))
    pfc("PFC on four lanes, 19 before 4", lanes(8, 4))
    pause("pause on four lanes, 4 before 8", lanes(396, 3))
    pfc("PFC on four lanes, 4 before 8", lanes(396, 3))
    worn = lanes(8, 3, worn=True)
    client("worn state, four lanes", worn, 47)
    client("worn state, four lanes, refused", replace(worn, place=9), 47)


def cases():
    TAPE.place(LONGEST)  # of which all other data is a part
    data_cases()
    tag_cases()
    field_cases()
    place_cases()
    buffer_cases()
    timer_cases()
    order_cases()
    gap_cases()
    count_cases()
    lane_place_cases()
