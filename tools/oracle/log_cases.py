"""The calls on a log on the tape of crates/cases (tape.py): each refusal, each pair of them in its order, and both sides of each limit; walks that keep their
readings with logs too short for them, just long enough and longer, and gone on with; and room in the log (item 11), by every pattern of used records of a few.
What must come of each is the model's answer."""
from itertools import product

from model import (BROADCAST, EMPTY, ERROR, IDLE, RESERVED_GROUP, START, TERMINATE, LogReader, Reading, Record, appending, bad_log, compacting, deleting,
                   deleting_all, handing_out, logged_walk, pause_symbols, reading, reading_appending, record_at, used_only, walks_on)
from read_cases import FRESH, USED as WORN, frame, line, listing, settings
from tape import APPEND, APPEND_READING, COMPACT, DELETE, DELETE_OUTCOME, KEEP, LOOK, ONES, TAPE, checksum, table_octets

ENDS = {"none": 1, "open": 2, "full": 3}
NUMBERED = Record(0x04030201, 5, 6, 0x0807, 0x100F0E0D0C0B0A09)  # in the log the octets 1 to 16
LEAST, MOST = Record(0, 1, 0, 0, 0), Record(2**32 - 1, 255, 255, 2**16 - 1, 2**64 - 1)
BAD_LENGTHS = (1, 15, 17, 31, 33)
BEFORE = list(range(0xF0, 0x100))  # what stands where a record is handed out


def log(*outcomes):
    """Records with these outcomes, all their other octets 0xA7."""
    return [octet for outcome in outcomes for octet in [0xA7] * 4 + [outcome] + [0xA7] * 11]


def known(*outcomes):
    """The same, but that a record's other octets are its number, from 1 on: so one that was moved is known again."""
    return [octet for n, outcome in enumerate(outcomes, 1) for octet in [n] * 4 + [outcome] + [n] * 11]


def told(refusal):
    return f"refused {refusal}" if refusal else "fine"


def tell(name, answer, log_after):
    TAPE.lines.append(f"{name}: {answer} log {len(log_after)} {checksum(log_after)}")


def words(octets):
    text = bytes(octets).hex()
    return " ".join(text[i:i + 8] for i in range(0, 32, 8))


# ---- one call each


def append(name, before, r):
    TAPE.log_call(APPEND, name, before, record=r.octets())
    answer = appending(before, r)
    tell(name, told(answer.refusal), answer.log)
    return answer.log


def append_reading(name, before, r, above=0):
    """`above` stands above the bits that a record has of each number of the reading, and in numbers that it has not: the C face does not look at them."""
    kind = {"counted": 0, "none": 1, "open": 2, "refused": 0}[r.kind]
    numbers = [r.refusal, kind, r.outcome + above * 2**8, r.start + above * 2**32, r.next, r.status, r.part[0], r.part[1] + above * 2**16,
               r.address + above * 2**8]
    TAPE.log_call(APPEND_READING, name, before, reading=numbers + [above] * 15)
    answer = reading_appending(before, r)
    tell(name, told(answer.refusal), answer.log)


def used_records(log):
    """Refusal, or 0 and how many records are used, wherever they stand; 11 alone."""
    return (11, None) if bad_log(log) else (0, len(used_only(log)))


def look(name, of, number):
    """Record `number`, the next record of a reader that stands there, and how many are used, where the number was told before."""
    TAPE.log_call(LOOK, name, of, number, BEFORE)
    record_refusal, r = record_at(of, number)
    next_refusal, handed, reader = handing_out(LogReader(of, number))
    used_refusal, used = used_records(of)
    one, two = words(BEFORE if record_refusal else r.octets()), words(BEFORE if next_refusal else handed.octets())
    tell(name, f"{told(record_refusal)} record {one} {told(next_refusal)} record {two} {told(used_refusal)} at {reader.place} "
         f"used {number if used_refusal else used}", of)


def delete(name, before, number):
    TAPE.log_call(DELETE, name, before, number)
    answer = deleting(before, number)
    tell(name, told(answer.refusal), answer.log)
    return answer.log


def delete_outcome(name, before, outcome):
    """How many were deleted, where 99 was told before."""
    TAPE.log_call(DELETE_OUTCOME, name, before, 99, n=outcome)
    answer = deleting_all(before, outcome)
    tell(name, f"{told(answer.refusal)} deleted {99 if answer.refusal else answer.count}", answer.log)
    return answer.log


def compact(name, before):
    TAPE.log_call(COMPACT, name, before)
    answer = compacting(before)
    tell(name, told(answer.refusal), answer.log)
    return answer.log


def keep(name, line, place, before, s=None, state=FRESH, worn=False, more_marks=0, job=0, table=EMPTY):
    s = s or settings()
    octets, marks = [octet for octet, _ in line], [mark for _, mark in line] + [0] * more_marks
    TAPE.call(KEEP, name, s, state, place, 0, octets, marks, worn=worn, log=before, job=job, table=table_octets(table))
    w = logged_walk(s, state, octets, marks, place, before, job, table)
    answer = f"refused {w.refusal} next {w.next}" if w.refusal else f"kept {w.appended} end {ENDS[w.end]} next {w.next}"
    TAPE.tell(name, f"{answer} log {len(w.log)} {checksum(w.log)}", w.refusal, state, w.state, worn)
    return w


# ---- the cases


def append_cases():
    for name, r in [("all octets differ", NUMBERED), ("least of each", LEAST), ("most of each", MOST)]:
        append(f"append, {name}", [0] * 32, r)
    for name, before in [("one record", log(0)), ("none used", log(0, 0, 0)), ("the second", log(1, 0, 11)), ("the last", log(1, 255, 0)),
                         ("the first of two holes", log(1, 0, 1, 0)), ("used by the outcome alone", [0] * 4 + [1] + [0] * 27)]:
        append(f"append, {name}", before, NUMBERED)
    none = NUMBERED._replace(outcome=0)
    for name, before in [("no record", []), ("one used", log(1)), ("three used", log(1, 255, 11))]:
        append(f"append, {name}", before, NUMBERED)
        append(f"append outcome 0, {name}", before, none)
    append("append outcome 0, one unused", log(1, 0), none)
    for n in BAD_LENGTHS:
        append(f"append, length {n}, used", log(1, 1, 1)[:n], NUMBERED)
    for n in (15, 17):
        append(f"append, length {n}, unused", [0] * n, NUMBERED)
        append(f"append outcome 0, length {n}", log(1, 1, 1)[:n], none)
    last = [0xA7] * 65524 + [0] + [0xA7] * 11
    append("append, the last of 4,096", last, NUMBERED)
    append("append, 4,096 used", [0xA7] * 65536, NUMBERED)
    append("append, length 65,537", last + [0], NUMBERED)


def reading_cases():
    s = settings()
    good, bad = line(frame(n=300)), line(frame(bad=1))
    octets, marks = zip(*(good + bad + [(START, 1)]))
    readings = [reading(s, FRESH, list(octets), list(marks), place) for place in (0, len(good), len(good + bad), len(octets), len(octets) + 1)]
    assert [r.kind for r in readings] == ["counted", "counted", "open", "none", "refused"]
    for name, r in zip(["handed out", "wrong FCS", "open", "none", "refused"], readings):
        append_reading(f"reading, {name}", log(1, 0), r)
        append_reading(f"reading, {name}, bits above", log(1, 0), r, above=3)
        append_reading(f"reading, {name}, log used", log(1, 1), r)
        append_reading(f"reading, {name}, last used", known(0, 1), r)
        append_reading(f"reading, {name}, length 31", log(1, 1)[:31], r)
    most = Reading("counted", 2**32 - 1, 0, FRESH, outcome=255, status=2**64 - 1, part=(9, 65535), data=[0] * 65535, address=255)
    append_reading("reading, most of each", [0] * 16, most)
    # items 7 and 10: the octet behind the outcome, of each way into a station that lists groups and the own address, and accepts every destination
    groups, s = [[1, 0, 0x5E, 0, 0, n] for n in range(3)], settings(promiscuous=True)
    table = listing(groups[0], groups[1], [2, 0, 0, 0, 0, 1])[:15] + [(0, groups[2])]
    ways = [frame(), *(frame(to=to) for to in groups), frame(to=BROADCAST), frame(to=[2, 0, 0, 0, 0, 2]), frame(RESERVED_GROUP, 0x8808, 44, [0, 2])]
    for n, f in zip((1, 16, 17, 31, 6, 7, 8), ways):
        octets, marks = map(list, zip(*line(f)))
        r = reading(s, FRESH, octets, marks, 0, 0, table)
        assert r.address == n
        append_reading(f"reading, way {n}", log(1, 0), r)
        append_reading(f"reading, way {n}, bits above", log(1, 0), r, above=3)


def look_cases():
    three = log(1, 255, 11)
    hole = NUMBERED.octets() + log(0) + MOST.octets()
    for name, of, number in [("first", three, 0), ("last", three, 2), ("beyond", three, 3), ("far beyond", three, ONES), ("2^60", three, 2**60),
                             ("before a hole", hole, 0), ("a hole", hole, 1), ("behind a hole", hole, 2), ("of none", [], 0), ("one", log(1), 0),
                             ("one unused", log(0), 0), ("two used, the hole", log(1, 1, 0), 2), ("a hole in front", log(0, 1, 1), 0),
                             ("the last of 4,096", [0xA7] * 65536, 4095), ("4,096 of 4,096", [0xA7] * 65536, 4096)]:
        look(f"look, {name}", of, number)
    for n, number in [(n, 0) for n in BAD_LENGTHS] + [(17, 9)]:
        look(f"look {number}, length {n}", log(1, 1, 1)[:n], number)
    back = NUMBERED.octets() + MOST.octets() + LEAST.octets() + log(0, 1)
    for number in range(5):  # up to the hole, at it, and behind it
        look(f"read back, {number}", back, number)
    # item 11: holes in front, between and behind
    for number in range(11):
        look(f"read on from {number}", known(0, 0, 1, 0, 255, 11, 0, 0, 9, 0), number)
    for name, of, number in [("4,095 holes in front", [0] * 65520 + log(1), 0), ("4,095 holes behind", log(1) + [0] * 65520, 1),
                             ("4,096 holes", [0] * 65536, 0), ("every other of 64", log(*[0, 1] * 32), 62)]:
        look(f"look, {name}", of, number)


IDLES, STARTS, TERMINATES = (IDLE, 1), (START, 1), (TERMINATE, 1)
TWO = [IDLES, STARTS, STARTS, TERMINATES]  # a cut one at 1, a bad preamble at 2
THREE = TWO + [IDLES, STARTS]  # and an open one at 5


def walk_cases():
    for name, line_, places in [("two", TWO, range(5)), ("three", THREE, (0, 2, 3, 5)), ("nothing", [], (0,)), ("Idle", [IDLES], (0,))]:
        for place in places:
            for size in (0, 1, 2, 3) if place == 0 else (0, 2):
                keep(f"{name} from {place}, {size} records", line_, place, [0] * (16 * size), state=WORN)
        keep(f"{name} from 0, one used", line_, 0, log(9), state=WORN)
    for name, before in [("a hole", log(9, 0, 9)), ("two holes", log(9, 0, 9, 0)), ("holes around", log(0, 9, 0, 0)), ("32 records", log(*[9] * 31, 0)),
                         ("room for one behind", known(0, 9, 0)), ("none behind", known(0, 0, 9)), ("one in all", known(9, 0, 9)),
                         ("one in all, behind", known(9, 9, 0)), ("every other", known(0, 9, 0, 9, 0, 9)), ("none in all", known(9, 9))]:
        keep(f"two, {name}", TWO, 0, before)
        keep(f"Idle, {name}", [IDLES], 0, before)  # nothing is compacted for nothing
        keep(f"open, {name}", THREE, 5, before)
    # gone on with: nothing is lost, and nothing comes twice
    for sizes in ([1, 1], [0, 2], [1, 0, 1]):
        state, place, kept = FRESH, 0, []
        for n, size in enumerate(sizes):
            w = keep(f"three, logs of {sizes}, {n}", THREE, place, [0] * (16 * size), state=state)
            state, place, kept = w.state, w.next, kept + [w]
        assert kept == walks_on(settings(), FRESH, [o for o, _ in THREE], [m for _, m in THREE], 0, sizes)


def frame_cases():
    """What is kept of frames: each outcome, octets handed out in one octet and in two, status words, the largest place."""
    pausing = settings(flow="pause", pass_control=True)
    pause = frame(RESERVED_GROUP, 0x8808, 42, [0, 1, 0, 5])
    every = (line(frame(), by=ERROR) + [(START, 1), (0x55, 0), (TERMINATE, 1)] + line(frame(n=45)) + line(frame(n=1501)) + line(frame(bad=1))
             + line(frame(field=45, n=47)) + line(frame(to=[2, 0, 0, 0, 0, 2])) + line(pause) + line(frame(n=300)) + line(frame(tagged=True))
             + line(frame(field=10)) + line(frame(RESERVED_GROUP, 0x8808, 44, [0, 2])))
    for size in (12, 13, 11):
        keep(f"each outcome, {size} records", every, 0, [0] * (16 * size), s=pausing)
    # items 7 and 10: each way in a walk's record, of either job
    groups = [[1, 0, 0x5E, 0, 0, n] for n in range(4)]
    by_each = [symbol for f in [frame(), *(frame(to=to) for to in groups), frame(to=BROADCAST), frame(to=[2, 0, 0, 0, 0, 2]), pause] for symbol in line(f)]
    for job in (0, 1):
        keep(f"each way, job {job}", by_each, 0, [0] * 128, s=settings(promiscuous=True), job=job, table=listing(*groups[:2], job=0, others=groups[2:]))
    pfc = frame(RESERVED_GROUP, 0x8808, 26, [1, 1, 0, 0x81] + [0, 9] * 8)
    keep("PFC taken, control dropped", line(pfc) + line(pause), 0, [0] * 32, s=settings(flow="PFC"))
    keep("9,600 octets handed out", line(frame(n=9600)), 0, [0] * 16, s=settings(limit=9618))
    keep("the last place", [(0, 0)] * 65534 + TWO[2:], 0, [0] * 16)
    # a pause that finds no record sets no timer
    two_pauses = pause_symbols(settings(), 3) + pause_symbols(settings(), 7)
    for size in (0, 1, 2):
        keep(f"two pauses, {size} records", two_pauses, 0, [0] * (16 * size), s=pausing, state=WORN)


def refusal_cases():
    bad = settings(limit=0)
    keep("kept, 1 before all", TWO, 5, [0] * 15, s=bad, more_marks=1)
    keep("kept, 2 before 3", TWO, 5, [0] * 15, more_marks=1)
    keep("kept, 2 before 11", TWO, 0, [0] * 15, more_marks=1)
    keep("kept, 3 before 11", TWO, 5, [0] * 15)
    keep("kept, 3", TWO, 5, [0] * 16)
    for n in (*BAD_LENGTHS, 16):
        keep(f"kept from 0, length {n}", TWO, 0, [0] * n)
    for n in (15, 16):
        keep(f"kept from the end, length {n}", TWO, 4, [0] * n)
    long = [(0, 0)] * 65537
    keep("kept, 65,537 symbols", long, 0, [0] * 16)
    keep("kept, 65,536 symbols", long[1:], 65536, [0] * 16)
    for name, s, place, n in [("kept", settings(), 0, 16), ("refused 1", bad, 0, 16), ("refused 3", settings(), 5, 16), ("refused 11", settings(), 0, 15),
                              ("full", settings(), 0, 0)]:
        keep(f"worn state, {name}", TWO, place, [0] * n, s=s, state=WORN, worn=True)


# ---- room in the log


def patterns(outcomes, most):
    """Every row of these outcomes, of up to so many records, and what it is called."""
    return [("".join(map(str, row)) or "none", known(*row)) for n in range(most + 1) for row in product(outcomes, repeat=n)]


LONG = [("all used", log(*[7] * 64)), ("none used", [0] * 1024), ("all used but the first", log(0, *[7] * 63)), ("all used but the last", log(*[7] * 63, 0)),
        ("only the first used", log(7) + [0] * 1008), ("only the last used", [0] * 1008 + log(7)), ("the second half used", [0] * 512 + log(*[7] * 32)),
        ("every other used", log(*[7, 0] * 32)), ("every other unused", log(*[0, 7] * 32))]  # of 64 records


def room_cases():
    for name, before in patterns((0, 5), 4):
        append(f"append to {name}", before, NUMBERED)
        compact(f"compact twice {name}", compact(f"compact {name}", before))
    for name, before in LONG:
        append(f"append, {name}", before, NUMBERED)
        compact(f"compact, {name}", before)
        delete_outcome(f"delete 7, {name}", before, 7)
        delete(f"delete the last, {name}", before, len(before) // 16 - 1)
    for name, before in patterns((0, 1, 2), 3):
        delete_outcome(f"delete 1, {name}", before, 1)
    every = known(1, 0, 255, 11, 0, 1, 9)
    for outcome in (0, 1, 2, 9, 10, 11, 254, 255):
        delete_outcome(f"delete {outcome}, all sorts", every, outcome)
    for number in (*range(9), 2**60, 2**60 + 2, 2**63, ONES):
        delete(f"delete record {number}, all sorts", every, number)
    for name, before in [("none", []), ("one used", known(1)), ("one unused", known(0)), ("used by the outcome alone", [0] * 4 + [1] + [0] * 11)]:
        for number in (0, 1):
            delete(f"delete record {number}, {name}", before, number)
    # 11 before 12 and 13, whatever stands there
    for n in BAD_LENGTHS:
        before = log(0, 1, 1)[:n]
        for number in (0, 1, 9):
            delete(f"delete record {number}, length {n}", before, number)
        for outcome in (0, 1):
            delete_outcome(f"delete {outcome}, length {n}", before, outcome)
        compact(f"compact, length {n}", before)
    last = [0] * 65520 + log(7)
    compact("compact, 4,095 unused", last)
    append("append, 4,095 unused", last, NUMBERED)
    append("append, 4,095 used", log(0) + [0xA7] * 65520, NUMBERED)
    delete_outcome("delete 7, 4,095 unused", last, 7)
    delete_outcome("delete 7, 4,096 of another", [0xA7] * 65536, 7)
    delete("delete record 4,095 of 4,096", last, 4095)
    compact("compact, length 65,537", last + [7])


def sequence_cases():
    """One call after the other on one log: filled, records deleted, what is freed used again by and by, and each record read back."""
    after = [0] * 64
    steps = [(append, n) for n in range(5)] + [(delete, 1), (append, 5), (append, 6), (delete, 0), (delete, 0), (delete, 3), (append, 7), (compact, None)]
    steps += [(append, 8), (append, 9), (delete_outcome, 1), (append, 10), (delete_outcome, 2), (append, 11), (delete, 2), (compact, None), (append, 12)]
    steps += [(delete_outcome, 1), (delete_outcome, 2), (delete_outcome, 3), (delete, 0), (append, 13)]
    for n, (call, what) in enumerate(steps):
        name = f"step {n}"
        if call is append:  # outcomes 1 to 3 in turn
            after = append(name, after, Record(what, 1 + what % 3, what, what, what))
        else:
            after = call(name, after) if call is compact else call(name, after, what)
        look(f"{name}, look", after, n % 5)


def cases():
    append_cases()
    reading_cases()
    look_cases()
    walk_cases()
    frame_cases()
    refusal_cases()
    room_cases()
    sequence_cases()
