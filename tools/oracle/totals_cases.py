"""The calls with the totals of a capture on the tape of crates/cases (tape.py, item 9): filling, the question and the four sendings that keep them, around the
edges of the blocks, on both sides of each limit, each refusal, and each pair of neighbours in their order. What must come of each is the model's answer."""
from dataclasses import replace

from model import START, TERMINATE, IDLE, State, filling, starts_before, true_totals
from send_cases import FAR, Call, client, idle, pause, pfc
from tape import FILL, STARTS_BEFORE, TAPE, changed

LENGTHS = (0, 1, 255, 256, 257, 511, 512, 513)
EDGES = (0, 1, 254, 255, 256, 257, 511, 512, 513)
MOST = [256] * 257  # of which the totals of the longest captures are a part
KEPT = 77  # what stands where the number of Starts is told, until it is


def blocks(n):
    return -(-n // 256)


# ---- what captures hold


def starts(octets, marks):
    """Nothing but Starts."""
    return [START] * octets, [1] * marks


def data(octets, marks):
    """Their octets, but as data."""
    return [START] * octets, [0] * marks


def marked(octets, marks):
    """Starts with every mark but 0, and one of 256 that is data."""
    return [START] * octets, [(7 + n) % 256 for n in range(marks)]


def others(octets, marks):
    """All control; one octet of 256 is a Start's."""
    return [(9 + n) % 256 for n in range(octets)], [255] * marks


def mixed(octets, marks):
    """Starts, their octets as data, other symbols: in runs that no block's edge ends, so that no two blocks are alike."""
    some = [START] * 37 + [IDLE] * 11 + [0xF8, 0xF9, 0xFA, 0xFB, 0xFC] + [START] * 3 + [TERMINATE] * 9 + [START] * 20
    control = [0] * 5 + [1] * 19 + [255] * 7 + [0] * 14 + [2] * 1 + list(range(250, 256)) + list(range(7))
    return (some * (octets // len(some) + 1))[:octets], (control * (marks // len(control) + 1))[:marks]


# ---- one call each


def told(refusal):
    return f"refused {refusal}" if refusal else "fine"


def fill(name, octets, marks, totals):
    name = "totals, " + name
    TAPE.totals_call(FILL, name, octets, marks, totals)
    refusal, after = filling(octets, marks, list(totals))
    TAPE.lines.append(f"{name}: {told(refusal)} totals{changed(totals, after, 0)}")


def ask(name, octets, marks, totals, place):
    name = "before, " + name
    TAPE.totals_call(STARTS_BEFORE, name, octets, marks, totals, place, KEPT)
    refusal, answer = starts_before(octets, marks, list(totals), place)
    TAPE.lines.append(f"{name}: {told(refusal)} starts {KEPT if refusal else answer}")


# The four sendings; each writes 84 symbols on the plain port.
FRAMES = [("client", lambda name, call: client(name, call, 46), "none"), ("pause", pause, "pause"), ("PFC", pfc, "PFC")]
SENDINGS = FRAMES + [("Idle", lambda name, call: idle(name, call, 84), "none")]


def lent(n, place, totals, flow="none", holding=starts, **changes):
    return Call(place, flow, **{"octets": n, "marks": n, "holding": holding, "totals": tuple(totals), **changes})


# ---- the cases


def fill_cases():
    for n in LENGTHS:
        for count in sorted({0, max(blocks(n) - 1, 0), blocks(n), blocks(n) + 1}):
            fill(f"{n} symbols, {count} totals", *mixed(n, n), [999] * count)
    for name, holding in [("Starts", starts), ("data", data), ("marks", marked), ("others", others)]:
        fill(f"600 of {name}", *holding(600, 600), [65535, 256, 257])
    fill("true ones stay", *mixed(513, 513), true_totals(*mixed(513, 513)))
    fill("fewer marks", *starts(512, 511), [1, 1])
    fill("fewer octets", *starts(511, 512), [1, 1])
    for count in (255, 256, 257):
        fill(f"65,536 symbols, {count} totals", *others(65536, 65536), MOST[:count])
    fill("65,537 symbols, 256 totals", *others(65537, 65537), MOST[:256])
    fill("2 before 21", *starts(512, 511), [257])
    fill("no 22", *starts(1, 1), [257])


def ask_cases():
    for n in LENGTHS:
        octets, marks = mixed(n, n)
        for place in [place for place in EDGES if place <= n]:
            ask(f"{n} symbols at {place}", octets, marks, true_totals(octets, marks), place)
        ask(f"{n} symbols, one beyond", octets, marks, true_totals(octets, marks), n + 1)
        for count in {max(blocks(n) - 1, 0), blocks(n) + 1} - {blocks(n)}:
            ask(f"{n} symbols, {count} totals", octets, marks, [7] * count, 0)
    for place in EDGES[:-1]:  # totals that are not true: a whole block is added, and the last looked into
        ask(f"untrue totals at {place}", *starts(512, 512), [3, 5], place)
    for name, holding in [("data", data), ("marks", marked), ("others", others)]:
        for place in (300, 600):
            ask(f"600 of {name} at {place}", *holding(600, 600), true_totals(*holding(600, 600)), place)
    for total in (255, 256, 257, 65535):
        for totals in ([total, 0, 0], [0, total, 0], [0, 0, total]):
            ask(f"totals {totals}", *starts(600, 600), totals, 600)
            ask(f"totals {totals} at 0", *starts(600, 600), totals, 0)
    for place in (0, 65279, 65280, 65535, 65536, 65537):
        ask(f"65,536 Starts at {place}", *starts(65536, 65536), MOST[:256], place)
    for count in (255, 257):
        ask(f"65,536 Starts, {count} totals", *starts(65536, 65536), MOST[:count], 65536)
    ask("65,537 Starts", *starts(65537, 65537), MOST, 9)
    ask("a place of 2^64 - 1", *starts(512, 512), [1, 1], FAR)
    ask("fewer marks", *starts(512, 511), [1, 1], 5)
    ask("fewer octets", *starts(511, 512), [1, 1], 5)
    ask("2 before 3", *starts(512, 511), [1, 1], 513)
    ask("2 before all", *starts(512, 511), [257], 513)
    ask("3 before 21", *starts(512, 512), [1], 513)
    ask("3 before 22", *starts(512, 512), [257, 1], 513)
    ask("21 before 22", *starts(512, 512), [257], 512)


def block_cases():
    """What is written around the blocks: those it lies in are counted anew, the others stay, whatever they say."""
    for word, send, flow in SENDINGS:
        for place in (0, 171, 172, 173, 255, 256, 257, 428, 429, 684):
            send(f"{word} with totals at {place}", lent(768, place, [9, 9, 9], flow))
        for place in (172, 200):
            send(f"{word} with totals, true ones at {place}", lent(513, place, true_totals(*mixed(513, 513)), flow, mixed))
        for n in (84, 255, 256, 257, 512, 513):
            send(f"{word} with totals, up to {n}", lent(n, n - 84, [256] * blocks(n), flow, others))
        send(f"{word} with totals, up to 65,536", lent(65536, 65452, MOST[:256], flow, data))
        send(f"{word} with totals, untrue ones", lent(600, 300, [0, 256, 256], flow))
    for n in (500, 1500):  # over several blocks, with 0xFB among the data
        for place in (0, 1, 255):
            client(f"{n} with totals at {place}", lent(1800, place, [9] * 8), n)
    client("data 0xFB with totals", lent(600, 200, [9, 9, 9]), 300, octet=START)
    client("data 0xFB with totals, no other Start", lent(600, 200, [9, 9, 9], holding=data), 300, octet=START)
    for n, place in [(0, 0), (0, 255), (0, 256), (0, 768), (1, 0), (1, 255), (1, 256), (1, 767), (256, 0), (256, 256), (256, 255), (257, 256), (258, 255),
                     (512, 256), (768, 0)]:
        idle(f"Idle {n} with totals at {place}", lent(768, place, [9, 9, 9]), n)
    for n in (0, 1):
        idle(f"Idle {n} with totals in {n}", lent(n, 0, [9] * n), n)
    # the four-lane port's own gap: 9 symbols end at 256, 13 behind it
    for deficit in (0, 3):
        client(f"four lanes with totals, count {deficit}", lent(512, 172, [9, 9], port=1, deficit=deficit), 49)


def limit_cases():
    """Refusals 21 and 22 on both sides; none of the totals changes."""
    for word, send, flow in SENDINGS:
        for n, counts in [(256, (0, 1, 2)), (257, (1, 2, 3)), (512, (1, 2, 3)), (513, (2, 3, 4))]:
            for count in counts:
                send(f"{word} with totals, {n} symbols, {count}", lent(n, 9, [9] * count, flow))
        for totals in ([255, 0, 0], [256, 256, 256], [257, 0, 0], [0, 257, 0], [0, 0, 257], [0, 0, 65535]):
            send(f"{word} with totals {totals}", lent(600, 9, totals, flow))
        for count in (255, 257):
            send(f"{word}, 65,536 symbols, {count} totals", lent(65536, 9, MOST[:count], flow))
        send(f"{word}, 65,537 symbols, 257 totals", lent(65537, 9, MOST, flow))


BAD, HELD = (("limit", 1517),), State([5] * 11, [1] * 8)
NINE = [(0x8100, 5)] * 9


def order_cases():
    """A call that hits one refusal and all that come behind it, from the first on; and each of 5, 6, 10, 7, 8 and 9 with all before it in order."""
    few, high, fine = [257], [9, 257, 9], [9, 256, 9]
    for word, send, flow in FRAMES:
        def at(place, totals, **changes):
            return lent(600, place, totals, "none", **{"port": 1, "deficit": 4, **changes})

        send(f"{word} with totals, 1 before all", at(602, few, marks=599, changes=BAD))
        send(f"{word} with totals, 1 before 21", lent(600, 9, few, flow, changes=BAD))
        send(f"{word} with totals, 2 before all", at(602, few, marks=599))
        send(f"{word} with totals, 2 before 21", lent(600, 9, few, flow, marks=599))
        send(f"{word} with totals, 3 before all", at(602, few))
        send(f"{word} with totals, 3 before 21", lent(600, 601, few, flow))
        send(f"{word} with totals, 3 before 22", lent(600, 601, high, flow))
        send(f"{word} with totals, 19 before all", at(596, few))
        send(f"{word} with totals, 19 before 21", lent(600, 8, few, flow, port=1, deficit=4))
        send(f"{word} with totals, 19 before 22", lent(600, 8, high, flow, port=1, deficit=4))
        send(f"{word} with totals, 19 alone", lent(600, 8, fine, flow, port=1, deficit=4))
        send(f"{word} with totals, 21 before all", at(596, few, deficit=3))
        send(f"{word} with totals, 22 before all", at(596, high, deficit=3))
        send(f"{word} with totals, 21 before 22", lent(600, 9, few, flow))
    for word, send, _ in FRAMES[1:]:
        send(f"{word} with totals, 21 before 4", lent(600, 9, fine[1:]))
        send(f"{word} with totals, 22 before 4", lent(600, 9, high))
        send(f"{word} with totals, 4 before 8", lent(600, 596, fine))
    for word, send, flow in SENDINGS:
        send(f"{word} with totals, 21 before 8", lent(600, 596, few, flow))
        send(f"{word} with totals, 22 before 8", lent(600, 596, high, flow))
        send(f"{word} with totals, 8", lent(600, 596, fine, flow))
        worn = lent(600, 517, fine, flow, state=replace(HELD, timers=[0] + [1000] * 7), worn=True, deficit=FAR)
        send(f"worn state, {word} with totals refused", worn)
    idle("worn state, Idle with totals", lent(600, 516, fine, state=HELD, worn=True, deficit=FAR), 84)
    idle("Idle with totals, 2 before all", lent(600, 601, few, marks=599), 84)
    idle("Idle with totals, 2 before 21", lent(600, 9, few, marks=599), 84)
    idle("Idle with totals, 3 before 21", lent(600, 601, few), 84)
    idle("Idle with totals, 3 before 22", lent(600, 601, high), 84)
    idle("Idle with totals, 21 before 22", lent(600, 9, few), 84)
    # a client frame: what comes behind 22, each with all that come behind it, and alone with 22 and 21 before it
    for number, place, asked, state in [
        (5, 596, dict(n=1501, kind=0x8100, cls=8, tag=NINE), HELD), (6, 596, dict(n=1501, kind=0x8100, tag=NINE), HELD),
        (10, 596, dict(n=1501, tag=NINE), HELD), (7, 596, dict(n=1501), HELD), (8, 596, dict(n=46), HELD), (9, 9, dict(n=46), HELD),
    ]:
        client(f"client with totals, {number} before all", lent(600, place, fine, state=state), **asked)
        client(f"client with totals, 22 before {number}", lent(600, place, high, state=state), **asked)
        client(f"client with totals, 21 before {number}", lent(600, place, few, state=state), **asked)


def growth_cases():
    """A capture that grows: filled once, written into by each call, and asked after each, so that true totals stay true."""
    octets, marks = mixed(400, 400)
    totals = [0, 0]
    fill("a capture that grows", octets, marks, totals)
    totals = true_totals(octets, marks)
    state, place = State(), 5
    for word, send, flow in SENDINGS:
        held = (list(octets), list(marks))
        call = lent(400, place, totals, flow, holding=lambda *_: held, state=state)
        r = send(f"growing, {word} at {place}", call)
        octets, marks, totals, state, place = r.octets, r.marks, r.totals, r.state, r.place
        assert r.refusal == 0 and totals == true_totals(octets, marks)
        for at in (place, 400):
            ask(f"growing, {word}, at {at}", octets, marks, totals, at)


def cases():
    fill("65,537 symbols, 257 totals", *others(65537, 65537), MOST)
    fill_cases()
    ask_cases()
    block_cases()
    limit_cases()
    order_cases()
    growth_cases()
