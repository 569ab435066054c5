"""An independent model of document 01 with items 1 to 14 of document 02, written from their text alone and not from the definitions in crates/*/specs.

Each piece stands under the sentence of the documents that it renders. The check is zlib's crc32, not a loop of our own, and a log's record is laid
out by struct.
"""
import random
import struct
import zlib
from dataclasses import dataclass, field, replace
from typing import List, NamedTuple, Optional, Tuple

# ---- The line

# "Control octets: Idle 0x07, Start 0xFB, Terminate 0xFD, Error 0xFE."
IDLE, START, TERMINATE, ERROR = 0x07, 0xFB, 0xFD, 0xFE
# "Start; six data octets 0x55; data 0xD5"
PREAMBLE = [0x55] * 6 + [0xD5]
# "broadcast (all ones)"; "The reserved group is 01-80-C2-00-00-01."
BROADCAST = [0xFF] * 6
RESERVED_GROUP = [0x01, 0x80, 0xC2, 0x00, 0x00, 0x01]
CONTROL = 0x8808
# Item 1: "a 0x88A8 tag outside a 0x8100 one"; "up to eight tags of either kind"
CUSTOMER, SERVICE = 0x8100, 0x88A8
TAG_KINDS = (CUSTOMER, SERVICE)
MOST_TAGS = 8


def is_data(mark: int) -> bool:
    """"Mark 0 is data; any other mark is control." """
    return mark == 0


def is_start(octet: int, mark: int) -> bool:
    """"only a control symbol starts a frame" """
    return not is_data(mark) and octet == START


# ---- Settings and state


@dataclass(frozen=True)
class Settings:
    own: List[int]
    broadcast: bool
    promiscuous: bool
    checking: bool
    limit: int
    flow: str  # "Flow mode is none, `pause` or `PFC`."
    pass_control: bool


@dataclass(frozen=True)
class State:
    """"The state is these eleven counters and the eight timers below; a fresh state is all zeros."; item 5: "The count is part of the state" """
    counters: List[int] = field(default_factory=lambda: [0] * 11)
    timers: List[int] = field(default_factory=lambda: [0] * 8)
    deficit: int = 0  # any number up to 255 can stand here


def counted(state: State, outcome: int) -> State:
    """"Each outcome has a 32-bit counter that rolls over to zero"; item 6: "Make all eleven 64 bits" """
    counters = list(state.counters)
    counters[outcome - 1] = (counters[outcome - 1] + 1) % 2**64
    return replace(state, counters=counters)


def screen(state: State) -> List[int]:
    """"The management screen goes on showing the 32-bit values, each the remainder of the wide one." """
    return [counter % 2**32 for counter in state.counters]


# ---- Refusals


def bad_settings(s: Settings) -> bool:
    """1: "own address has its group bit (lowest bit of the first octet), …, or M outside 1518 to 9618"; item 10: "In refusal 1 the listed count falls
    away." """
    return s.own[0] & 1 == 1 or not 1518 <= s.limit <= 9618


def bad_buffers(octets: List[int], marks: List[int]) -> bool:
    """2: "octet and mark buffers differ in length, or exceed 65,536" """
    return len(octets) != len(marks) or len(octets) > 65536


def order(refusal: int) -> float:
    """"Lowest number first."; item 1: "new 10, …, tested after 6 and before 7"; item 5: "3 …, then new 19"; item 9: "Refusals, after 3 and 19 …: 21 …;
    22 …"; item 10: "14 …, tested right after 1; 2 and 3 then …; 20 …; then lowest first 15 …"; "When adding, 17 comes before 15 and 16." """
    return {10: 6.5, 14: 1.5, 17: 14.5, 19: 3.5, 20: 3.8, 21: 3.6, 22: 3.7}.get(refusal, refusal)


def first(*tests: Tuple[int, bool]) -> Optional[int]:
    """The refusal that is given."""
    return min((number for number, holds in tests if holds), key=order, default=None)


# ---- Two jobs on one tester (item 10): the table

# "one address table of 16 entries": each is free (None) or held, with the job and its address.
Entry = Optional[Tuple[int, List[int]]]
Table = List[Entry]
ENTRIES, MOST_HELD = 16, 12
EMPTY: Table = [None] * ENTRIES
Own = List[Tuple[int, List[int]]]  # entries of one job: their numbers, from 0 on, and addresses


def bad_job(job: int) -> bool:
    """14: "job above 1" """
    return job > 1


def own_entries(table: Table, job: int) -> Own:
    return [(n, entry[1]) for n, entry in enumerate(table) if entry is not None and entry[0] == job]


def bad_table(table: Table) -> bool:
    """20: "a table where a job holds above 12 or has an address twice"; open point: each of the two jobs, whichever one calls."""
    addresses = [[address for _, address in own_entries(table, job)] for job in (0, 1)]
    return any(len(held) > MOST_HELD or any(held.count(address) > 1 for address in held) for held in addresses)


@dataclass
class TableCall:
    refusal: int  # 0: not refused
    entry: Optional[int]  # the one taken or freed
    table: Table


def with_entry(table: Table, n: int, entry: Entry) -> TableCall:
    after = table[:n] + [entry] + table[n + 1:]
    assert len(after) == ENTRIES and not bad_table(after)
    return TableCall(0, n, after)


def adding(table: Table, job: int, address: List[int]) -> TableCall:
    """"An addition takes the lowest free entry, so freed ones are used again."; "Table calls give only 14 to 18 and 20." Open point: no address is refused
    for what it is."""
    held, free = own_entries(table, job), [n for n, entry in enumerate(table) if entry is None]
    refusal = first((14, bad_job(job)), (20, bad_table(table)), (17, address in [a for _, a in held]),  # "already listed by this job"
                    (15, len(held) == MOST_HELD), (16, not free))  # "holds 12"; "all 16 in use"
    if refusal:
        # "Each holds at most 12, so each always gets 4 whatever the other does."
        assert refusal != 16 or len(held) >= 4
        return TableCall(refusal, None, table)
    return with_entry(table, free[0], (job, address))


def removing(table: Table, job: int, address: List[int]) -> TableCall:
    """18: "not listed by this job" """
    entries = [n for n, a in own_entries(table, job) if a == address]
    refusal = first((14, bad_job(job)), (20, bad_table(table)), (18, not entries))
    return TableCall(refusal, None, table) if refusal else with_entry(table, entries[0], None)


# ---- FCS


def check(octets: List[int]) -> int:
    """"IEEE 802.3 clause 3 … result complemented" """
    return zlib.crc32(bytes(octets))


def fcs(octets: List[int]) -> List[int]:
    """"the four FCS octets are its complement, low octet first" """
    return list(check(octets).to_bytes(4, "little"))


# ---- One frame, from destination to FCS


class Frame:
    """"Destination 6, source 6, field 2. Field 0x8100 means tagged: two octets of tag control, then the real field." """

    def __init__(self, octets: List[int]):
        self.octets = octets
        self.destination = octets[0:6]
        self.first_field = self.number(12)
        self.tags = self.tag_run(12, MOST_TAGS)
        # "The length rule and padding act on the field after the last tag."
        self.field_place = 12 + 4 * len(self.tags)
        self.field = self.number(self.field_place)
        # "Data runs from after the field to before the FCS."
        self.data_place = self.field_place + 2
        self.data = octets[self.data_place:len(octets) - 4]
        # "First field 0x8808 … A tagged 0x8808 is an ordinary type.", however many tags there are
        self.control = self.first_field == CONTROL
        # "the next two octets are the opcode, high octet first"
        self.opcode = self.number(14)

    def number(self, place: int) -> int:
        """"read high octet first" """
        return int.from_bytes(bytes(self.octets[place:place + 2]), "big")

    def tag_run(self, place: int, most: int) -> List[Tuple[int, int]]:
        """Kinds and tag controls: "a run that is one tag followed by a shorter run; a ninth is an ordinary type" """
        if most == 0 or self.number(place) not in TAG_KINDS:
            return []
        return [(self.number(place), self.number(place + 2))] + self.tag_run(place + 4, most - 1)

    def undersized(self) -> bool:
        """3: "frame under 64 octets" """
        return len(self.octets) < 64

    def oversized(self, s: Settings) -> bool:
        """4: "over the limit M, or M + 4 if tagged"; item 1: "M grows by 4 for each tag." """
        return len(self.octets) > s.limit + 4 * len(self.tags)

    def wrong_fcs(self) -> bool:
        """5: "last four octets differ from the check"; "It covers destination to the end of data." """
        return self.octets[-4:] != fcs(self.octets[:-4])

    def wrong_length(self, s: Settings) -> bool:
        """6: "length rule broken, checking on" """
        if not s.checking:  # "With checking off, no test is made"
            return False
        if self.field >= 1536:  # "Field 1536 or more is a type."
            return False
        if self.field >= 1501:  # "Field 1501 to 1535: always wrong length"
            return True
        if self.field >= 46:  # "Field 46 to 1500: data must be exactly that long."
            return len(self.data) != self.field
        # "Field under 46: data must be exactly 46, tagged or not"; item 2: "the larger of the field and 46 - 4 × n, or the 46 of before; nothing else"
        return len(self.data) not in (46, max(self.field, 46 - 4 * len(self.tags)))

    def handed(self, s: Settings) -> List[int]:
        """"only the first `field` octets are handed out"; "With checking off, … all data is handed out." """
        return self.data[:self.field] if s.checking and self.field < 46 else self.data

    def accepted(self, s: Settings, mine: Own = ()) -> bool:
        """The address rule; item 10: listed are the job's own entries of the table."""
        if s.promiscuous:  # "Promiscuous accepts all."
            return True
        if self.destination == BROADCAST:  # "accepted exactly if its setting is on; a listed broadcast address never matches"
            return s.broadcast
        # "Else the destination must equal the own address or a listed one, all six octets."
        return self.destination == s.own or self.destination in [entry for _, entry in mine]

    def address(self, s: Settings, mine: Own = ()) -> int:
        """Item 7: "1 own, 2 to 5 the first listed entry that matches, 6 broadcast, 7 promiscuous only, 0 not accepted"; item 10: "16 plus the entry for
        listed ones" """
        tests = [(1, self.destination == s.own)] + [(16 + n, self.destination == entry) for n, entry in mine]
        if self.destination == BROADCAST:  # "broadcast is 6 if its setting is on, else 7 or 0, listed or not"
            tests = [(6, s.broadcast)]
        if self.control and self.destination == RESERVED_GROUP:  # "Every control frame to the reserved group says 8, listed or not."
            tests = [(8, True)]
        # "Own address and list are tried before promiscuous"
        number = next(number for number, holds in tests + [(7, s.promiscuous), (0, True)] if holds)
        assert (number == 0) == self.filtered(s, mine)  # "Accepted and refused stay as they are."
        return number

    def named_here(self, s: Settings) -> bool:
        """"to the reserved group or the own address" """
        return self.destination in (RESERVED_GROUP, s.own)

    def filtered(self, s: Settings, mine: Own = ()) -> bool:
        """7: "address rule refuses"; of a control frame to the group or the own address, "Its address isn't tested further." """
        if self.control and self.named_here(s):
            return False
        return not self.accepted(s, mine)

    def takes_pause(self, s: Settings) -> bool:
        """8: "Destination is the reserved group or the own address, opcode 0x0001, flow mode `pause`" """
        return self.control and self.named_here(s) and self.opcode == 0x0001 and s.flow == "pause"

    def takes_pfc(self, s: Settings) -> bool:
        """9: "Destination is the reserved group, opcode 0x0101, flow mode `PFC`" """
        return self.control and self.destination == RESERVED_GROUP and self.opcode == 0x0101 and s.flow == "PFC"

    def drops_control(self, s: Settings) -> bool:
        """10: "other control frame, setting `pass control` off" """
        return self.control and not s.pass_control

    def timers_after(self, outcome: int, timers: List[int]) -> List[int]:
        """"A quantum is 512 bit times, which is 64 slots"; "Setting replaces the old time" """
        timers = list(timers)
        if outcome == 8:  # "The next two octets are quanta, and all eight timers are set from them."
            timers = [64 * self.number(16)] * 8
        if outcome == 9:
            # "an unused octet (not looked at), a class octet whose bit n names class n, then eight two-octet quanta. Only named classes are set."
            for n in range(8):
                if self.octets[17] >> n & 1:
                    timers[n] = 64 * self.number(18 + 2 * n)
        return timers

    def status(self, s: Settings, outcome: int) -> int:
        """The status word."""
        if outcome <= 7:  # "Outcomes 1 to 7: the whole word is 0."
            return 0
        group = self.destination[0] & 1 == 1
        everyone = self.destination == BROADCAST
        # "15 to 0 data length (handed out for 11; all of the data for 8, 9 and 10)"
        length = len(self.handed(s)) if outcome == 11 else len(self.data)
        # "Bit 39 PFC taken; 38 unicast; 37 multicast other than broadcast; 36 broadcast; 35 pause taken; 34 control; …; 31 to 16 frame length,
        # destination to FCS"; item 1: "Status bit 33 means exactly one tag, bit 32 two or more."
        bits = [(39, outcome == 9), (38, not group), (37, group and not everyone), (36, everyone), (35, outcome == 8), (34, self.control),
                (33, len(self.tags) == 1), (32, len(self.tags) >= 2)]
        return sum(1 << n for n, on in bits if on) | len(self.octets) << 16 | length


# ---- Reading one Start


@dataclass
class Reading:
    kind: str  # refused, none, open or counted
    start: int
    next: int
    state: State
    refusal: int = 0
    outcome: int = 0
    status: int = 0
    part: Tuple[int, int] = (0, 0)  # where it begins, and its length
    data: List[int] = field(default_factory=list)
    address: int = 0  # item 7: "The reading carries the number, with 0 for outcomes 1 to 7"


def find(octets, marks, place, test) -> Optional[int]:
    return next((i for i in range(place, len(octets)) if test(octets[i], marks[i])), None)


def rules_that_hold(s: Settings, run: List[int], by: int, mine: Own = ()) -> List[int]:
    """Every row of the table that holds, in order, each by itself; a row that looks into a frame is tried only where the row needs no more
    octets than there are (rows 2 and 3 stand before it)."""
    rows = []
    if by != TERMINATE:  # "ended by anything but Terminate"
        rows.append(1)
    if len(run) < 7 or run[:7] != PREAMBLE:  # "run under 7 octets, or the first 7 wrong"
        rows.append(2)
    octets = run[7:]
    if len(octets) < 64:
        rows.append(3)
    if len(octets) >= 24:
        f = Frame(octets)
        tests = [(4, f.oversized(s)), (5, f.wrong_fcs()), (6, f.wrong_length(s)), (7, f.filtered(s, mine)), (8, f.takes_pause(s)),
                 (9, f.takes_pfc(s)), (10, f.drops_control(s))]
        rows += [number for number, holds in tests if holds]
    return rows + [11]  # "everything else"


def read_refusal(s, octets, marks, place, job=0, table=EMPTY) -> Optional[int]:
    """"Reading can give 1 to 3"; 3: "place beyond the buffers' length"; item 10: 14 and 20"""
    return first((1, bad_settings(s)), (2, bad_buffers(octets, marks)), (3, place > len(octets)), (14, bad_job(job)), (20, bad_table(table)))


def reading(s: Settings, state: State, octets: List[int], marks: List[int], place: int, job: int = 0, table: Table = EMPTY) -> Reading:
    """Item 10: a job reads, with a table. The capture is that job's: "2 and 3 then look at the chosen job's capture"."""
    refusal = read_refusal(s, octets, marks, place, job, table)
    if refusal:  # "A refusal gives its number, status 0, an empty part, the place it was called with (in a reading, as both places), the old state"
        return Reading("refused", place, place, state, refusal=refusal)
    # "A reading at a place finds the first Start at that place or later."
    start = find(octets, marks, place, is_start)
    if start is None:  # "gives `none` and the capture's length as both places"
        return Reading("none", len(octets), len(octets), state)
    # "the run is the data symbols after the Start up to the first control symbol"
    end = find(octets, marks, start + 1, lambda _, mark: not is_data(mark))
    if end is None:  # "the answer is `open`, nothing is counted, and the next place is that Start's"
        return Reading("open", start, start, state)
    # "Else the next place is that of the ending control symbol, and the first rule that holds gives the outcome"
    run = octets[start + 1:end]
    mine = own_entries(table, job)
    outcome = rules_that_hold(s, run, octets[end], mine)[0]
    answer = Reading("counted", start, end, counted(state, outcome), outcome=outcome)
    if outcome >= 8:
        f = Frame(run[7:])
        answer.address = f.address(s, mine)
        answer.status = f.status(s, outcome)
        answer.state = replace(answer.state, timers=f.timers_after(outcome, state.timers))
        if outcome == 11:  # "Client data is a part of the captured octets themselves"; "Outcomes 1 to 10 hand out an empty part."
            answer.data = f.handed(s)
            answer.part = (start + 8 + f.data_place, len(answer.data))
    return answer


def walk(s: Settings, state: State, octets: List[int], marks: List[int], place: int = 0, job: int = 0, table: Table = EMPTY) -> List[Reading]:
    """"a walk from place 0 until `none` or `open`", or from another place: the readings it makes; a refused one ends it too."""
    readings = [reading(s, state, octets, marks, place, job, table)]
    while readings[-1].kind == "counted":
        readings.append(reading(s, readings[-1].state, octets, marks, readings[-1].next, job, table))
    last = readings[-1]
    if last.kind != "refused":
        # "the eleven counters together have risen, …, by the number of Start symbols in the capture, less one if the walk ended `open`";
        # item 6: "Demand 2 and the sum over Starts then hold modulo 2^64."
        starts = sum(is_start(o, m) for o, m in zip(octets[place:], marks[place:])) - (last.kind == "open")
        assert (sum(last.state.counters) - sum(state.counters) - starts) % 2**64 == 0
    return readings


def showing(s: Settings, captures: List[Tuple[List[int], List[int]]], place: int, job: int, table: Table) -> Tuple[int, Tuple[int, int]]:
    """The screen call of item 10, with octets and marks of both captures: refusal or 0, and "the client data that a reading of the chosen job gives, a part
    of that job's capture and of no other". Open points: it has no state, and gives an empty part at 0 where a reading has no data."""
    refusal = first((1, bad_settings(s)), (14, bad_job(job)))
    if refusal:
        return refusal, (0, 0)
    octets, marks = captures[job]
    r = reading(s, State(), octets, marks, place, job, table)
    assert r.data == octets[r.part[0]:sum(r.part)]
    return r.refusal, r.part


# ---- A plain reader (item 12)

# "the first octets" of a run: the rules look at none behind the preamble, the addresses, eight tags and a field; a control frame's quanta end before that
FIRST = 7 + 12 + 4 * MOST_TAGS + 2


@dataclass(frozen=True)
class Run:
    """"keeps a run count, the first octets and a running FCS in its state". The check runs four octets behind, since the last four may be the FCS."""
    count: int = 0
    first: List[int] = field(default_factory=list)
    check: int = 0  # of the frame's octets before the last four
    last: List[int] = field(default_factory=list)

    def with_octet(self, octet: int) -> "Run":
        of_frame = self.last + [octet] * (self.count >= 7)
        check_on = zlib.crc32(bytes(of_frame[:-4]), self.check)
        return Run(self.count + 1, (self.first + [octet])[:FIRST], check_on, of_frame[-4:])

    def number(self, place: int) -> int:
        """Two octets of the frame, "read high octet first"; fewer where the run is shorter."""
        return int.from_bytes(bytes(self.first[7 + place:9 + place]), "big")


@dataclass(frozen=True)
class PlainReader:
    """Open point: a reader reads one capture from its front; counters and timers go on from the state that it is given."""
    taken: int = 0  # how many symbols
    run: Optional[Run] = None  # "stop with a run in progress exactly when the walk says `open`"
    state: State = field(default_factory=State)


@dataclass(frozen=True)
class Ended:
    outcome: int
    status: int = 0
    part: Tuple[int, int] = (0, 0)  # "the data's place and length in the capture, 0 and 0 for outcomes 1 to 10"
    address: int = 0


@dataclass
class Taking:
    refusal: int  # 0: taken
    ended: Optional[Ended]  # "answers at each ending control symbol"
    reader: PlainReader


def run_ended(s: Settings, reader: PlainReader, by: int, mine: Own) -> Tuple[Ended, State]:
    """All rules on one page, without a Frame; what a short run lacks is never asked for, since rows 1 to 3 stand in front."""
    run, state = reader.run, reader.state
    length, destination, opcode = run.count - 7, run.first[7:13], run.number(14)
    tags = next((n for n in range(MOST_TAGS) if run.number(12 + 4 * n) not in TAG_KINDS), MOST_TAGS)
    number, data = run.number(12 + 4 * tags), length - 18 - 4 * tags
    if number < 46:
        keeps_length = data in (46, max(number, 46 - 4 * tags))
    else:
        keeps_length = number >= 1536 or number <= 1500 and data == number
    control, to_group, to_own = run.number(12) == CONTROL, destination == RESERVED_GROUP, destination == s.own
    everyone, otherwise = destination == BROADCAST, 7 if s.promiscuous else 0
    if control and to_group:
        address = 8
    elif everyone:
        address = 6 if s.broadcast else otherwise
    else:
        address = 1 if to_own else next((16 + n for n, entry in mine if entry == destination), otherwise)
    outcome = next(row for row, holds in [
        (1, by != TERMINATE), (2, run.first[:7] != PREAMBLE), (3, length < 64), (4, length > s.limit + 4 * tags),
        (5, int.from_bytes(bytes(run.last), "little") != run.check), (6, s.checking and not keeps_length), (7, address == 0),
        (8, control and (to_group or to_own) and opcode == 0x0001 and s.flow == "pause"),
        (9, control and to_group and opcode == 0x0101 and s.flow == "PFC"), (10, control and not s.pass_control), (11, True)] if holds)
    state = counted(state, outcome)
    if outcome <= 7:
        return Ended(outcome), state
    named = {8: 0xFF, 9: run.number(16) % 256}.get(outcome, 0)
    quanta = [run.number(16 if outcome == 8 else 18 + 2 * n) for n in range(8)]
    state = replace(state, timers=[64 * quanta[n] if named >> n & 1 else state.timers[n] for n in range(8)])
    group, handed = destination[0] % 2 == 1, number if outcome == 11 and s.checking and number < 46 else data
    bits = [outcome == 9, not group, group and not everyone, everyone, outcome == 8, control, tags == 1, tags > 1]  # 39 to 32
    status = int("".join(str(int(bit)) for bit in bits), 2) << 32 | length << 16 | handed
    # The run ends right before the symbol that is being taken.
    return Ended(outcome, status, (reader.taken - length + 14 + 4 * tags, handed) if outcome == 11 else (0, 0), address), state


def taking(s: Settings, reader: PlainReader, octet: int, mark: int, job: int = 0, table: Table = EMPTY) -> Taking:
    """"it takes one symbol at a time"; "Refusals: 1, 14, 20 as in reading, then 2 for a symbol after 65,536 of them, with the state kept." Open point: a run is
    judged by what comes with its ending symbol."""
    refusal = first((1, bad_settings(s)), (14, bad_job(job)), (20, bad_table(table))) or first((2, reader.taken >= 65536))
    if refusal:
        return Taking(refusal, None, reader)
    ended, run, state = None, reader.run, reader.state
    if not is_data(mark):
        if run is not None:
            ended, state = run_ended(s, reader, octet, own_entries(table, job))
        run = Run() if is_start(octet, mark) else None  # also the one that ended a run
    elif run is not None:
        run = run.with_octet(octet)
    return Taking(0, ended, PlainReader(reader.taken + 1, run, state))


def plain_walk(s: Settings, state: State, octets: List[int], marks: List[int], job: int = 0, table: Table = EMPTY) -> Tuple[int, List[Ended], PlainReader]:
    """A capture taken symbol by symbol, to its end or a refusal: that one or 0, what ended, and the reader then."""
    reader, answers = PlainReader(state=state), []
    for octet, mark in zip(octets, marks):
        step = taking(s, reader, octet, mark, job, table)
        reader, answers = step.reader, answers + [step.ended] * (step.ended is not None)
        if step.refusal:
            return step.refusal, answers, reader
    # "It must give the same outcomes, status words, counters and timers as the walk over any valid capture, and stop with a run in progress exactly when the
    # walk says `open`."
    *starts, last = walk(s, state, octets, marks, 0, job, table)
    if last.kind != "refused":
        assert answers == [Ended(r.outcome, r.status, r.part, r.address) for r in starts]
        assert reader.state == last.state and (reader.run is not None) == (last.kind == "open") and reader.taken == len(octets)
    return 0, answers, reader


# ---- Size table for a day of captures (item 13)

# "64, 65 to 127, 128 to 255, 256 to 511, 512 to 1023, 1024 to 1518, above"
BANDS = [range(64, 65), range(65, 128), range(128, 256), range(256, 512), range(512, 1024), range(1024, 1519), range(1519, 2**16)]


@dataclass(frozen=True)
class SizeTable:
    frames: List[int] = field(default_factory=lambda: [0] * 7)
    octets: List[int] = field(default_factory=lambda: [0] * 7)  # "and the octets in each band", from destination to FCS


def adding_sizes(sizes: SizeTable, s: Settings, octets: List[int], marks: List[int], job: int = 0, table: Table = EMPTY) -> Tuple[int, SizeTable]:
    """"Add up, over any number of captures, frames of outcomes 8 to 11 by frame length": one capture, walked from place 0; refusal or 0, and the table. Open
    point: it has no state, since what it adds doesn't depend on one."""
    *starts, last = walk(s, State(), octets, marks, 0, job, table)
    if last.kind == "refused":  # "a refused capture adds nothing"
        return last.refusal, sizes
    # Status bits "31 to 16 frame length, destination to FCS"
    lengths = [r.status >> 16 & 0xFFFF for r in starts if r.outcome >= 8]
    # "Counts are 64 bits and roll over"
    after = SizeTable([(count + sum(length in band for length in lengths)) % 2**64 for count, band in zip(sizes.frames, BANDS)],
                      [(count + sum(length for length in lengths if length in band)) % 2**64 for count, band in zip(sizes.octets, BANDS)])
    # "All bands together equal the rise of those four counters, modulo 2^64"
    assert (sum(after.frames) - sum(sizes.frames) - sum(last.state.counters[7:])) % 2**64 == 0
    return 0, after


# ---- Why was it thrown away? (item 8)


@dataclass
class Why:
    kind: str  # refused, none, open or counted; "`none` and `open` have no reason"
    start: int
    next: int
    refusal: int = 0
    outcome: int = 0
    evidence: Tuple = ()


def evidence(s: Settings, octets: List[int], start: int, end: int, outcome: int) -> Tuple:
    run = octets[start + 1:end]
    if outcome == 1:  # "for cut, the place and octet of the ending symbol"
        return end, octets[end]
    if outcome == 2:  # "for bad preamble, the run's length if under 7, else the first wrong place"
        wrong = [start + 1 + n for n, octet in enumerate(PREAMBLE) if run[n:n + 1] != [octet]]
        return ("length", len(run)) if len(run) < 7 else ("place", wrong[0])
    f = Frame(run[7:])
    if outcome in (3, 4):  # "for sizes, length and limit"
        return len(f.octets), 64 if outcome == 3 else s.limit + 4 * len(f.tags)
    if outcome == 5:  # "for FCS, both values", the one that stands there first; "low octet first"
        return int.from_bytes(bytes(f.octets[-4:]), "little"), check(f.octets[:-4])
    if outcome == 6:  # "for length, field and data length"
        return f.field, len(f.data)
    if outcome == 7:  # "for filtered, the destination"
        return (f.destination,)
    if outcome <= 10:  # "for 8 to 10, the opcode"
        return (f.opcode,)
    return start + 8 + f.data_place, len(f.handed(s))  # "for 11, place and length of the data"


def why(s: Settings, octets: List[int], marks: List[int], place: int, job: int = 0, table: Table = EMPTY) -> Why:
    """"The Start is found from a place as in reading"; "It must be given for each outcome, with the next place equal to the reading's."; "Refusals: 1 to
    3 as in reading."; item 10: "Item 8's tool gives 14 and 20 as reading does." """
    r = reading(s, State(), octets, marks, place, job, table)
    if r.kind != "counted":
        return Why(r.kind, r.start, r.next, r.refusal)
    return Why(r.kind, r.start, r.next, outcome=r.outcome, evidence=evidence(s, octets, r.start, r.next, r.outcome))


# ---- The reading log (item 4)

# "place (4 octets, low first), outcome (1), zero (1), octets handed out (2, low first), status word (8, low first)"; item 7: "the log's zero octet
# holds it from then on", the number of the address that let the frame in
RECORD = struct.Struct("<IBBHQ")
assert RECORD.size == 16  # "one record of 16 octets per counted Start, no header"


class Record(NamedTuple):
    """"the five fields at those widths" """
    place: int
    outcome: int
    address: int
    handed: int
    status: int

    def octets(self) -> List[int]:
        return list(RECORD.pack(*self))

    def used(self) -> bool:
        """"A record is used if its outcome octet isn't zero" """
        return self.outcome != 0


def log_records(log: List[int]) -> List[Record]:
    """"Records are read as they stand." Octets behind the last whole record belong to none."""
    whole = len(log) - len(log) % RECORD.size
    return [Record(*fields) for fields in RECORD.iter_unpack(bytes(log[:whole]))]


def unused_numbers(log: List[int]) -> List[int]:
    return [number for number, r in enumerate(log_records(log)) if not r.used()]


def bad_log(log: List[int]) -> bool:
    """11: "log length no multiple of 16" """
    return len(log) % RECORD.size != 0


def used_in_front(log: List[int]) -> Tuple[int, Optional[int]]:
    """Refusal, or 0 and how many records there are "up to the first unused record"; 11 alone."""
    if bad_log(log):
        return 11, None
    return 0, min(unused_numbers(log), default=len(log_records(log)))


def first_unused(log: List[int]) -> Tuple[int, Optional[int]]:
    """Refusal, or 0 and the number; 12: "no unused record". Since item 11 appending need not take it."""
    unused = unused_numbers(log)
    refusal = first((11, bad_log(log)), (12, not unused))
    return (refusal, None) if refusal else (0, unused[0])


# Room in the log (item 11)


@dataclass
class LogChange:
    refusal: int  # 0: not refused
    count: Optional[int]  # how many records were deleted, or remain
    log: List[int]


def used_only(log: List[int]) -> List[Record]:
    """"the records that remain" """
    return [r for r in log_records(log) if r.used()]


def octets_of(records: List[Record]) -> List[int]:
    return [octet for r in records for octet in r.octets()]


def deleting(log: List[int], number: int) -> LogChange:
    """"A deleted record's outcome octet becomes 0."; 11, then 13: "record number not used" """
    refusal, r = record_at(log, number)
    if refusal:
        return LogChange(refusal, None, log)
    records = log_records(log)
    return LogChange(0, 1, octets_of(records[:number] + [r._replace(outcome=0)] + records[number + 1:]))


def deleting_all(log: List[int], outcome: int) -> LogChange:
    """"Support deletes records of outcomes they have dealt with."; 11 alone. Open point: outcome 0 is that of no used record, so none is deleted."""
    if bad_log(log):
        return LogChange(11, None, log)
    numbers = [number for number, r in enumerate(log_records(log)) if r.used() and r.outcome == outcome]
    for number in numbers:
        log = deleting(log, number).log
    return LogChange(0, len(numbers), log)


def compacted(log: List[int]) -> List[int]:
    """"Compaction moves the remaining ones to the front in their order and fills the rest with zero octets" """
    front = octets_of(used_only(log))
    return front + [0] * (len(log) - len(front))


def compacting(log: List[int]) -> LogChange:
    """11 alone."""
    if bad_log(log):
        return LogChange(11, None, log)
    after = compacted(log)
    assert compacted(after) == after  # "doing it twice changes nothing more"
    # "Reading back gives the records that remain; written into a zero log of that length they give the compacted one."
    assert read_back(log) == read_back(after) == used_only(log) and written(len(log), read_back(log)) == after
    return LogChange(0, len(used_only(log)), after)


def behind_last(log: List[int]) -> int:
    """Number of the slot "after the last used record"; of the first one, if none is used."""
    return max((number + 1 for number, r in enumerate(log_records(log)) if r.used()), default=0)


@dataclass
class Appending:
    refusal: int  # 0: not refused
    number: Optional[int]  # of the record written; none: nothing was appended
    log: List[int]


def appending(log: List[int], r: Record) -> Appending:
    """Item 11: "Appending now goes after the last used record, and compacts first if that one is the last slot. So 12 is given, for an outcome other than
    0, exactly when every record is used."; 11 is given with outcome 0 too, since that "never gives 12" and no more is said of it.
    Open points: no value of a field is refused, and each is written as given, as reading back "gives what was appended"; outcome 0 compacts nothing."""
    refusal = first((11, bad_log(log)), (12, r.used() and all(there.used() for there in log_records(log))))
    if refusal or not r.used():  # "with outcome 0, …, it appends nothing"
        return Appending(refusal or 0, None, log)
    before = used_only(log)
    if behind_last(log) * RECORD.size == len(log):
        log = compacted(log)
    number = behind_last(log)
    place = number * RECORD.size
    after = log[:place] + r.octets() + log[place + RECORD.size:]
    assert log_records(after) == log_records(log)[:number] + [r] + log_records(log)[number + 1:]
    assert used_only(after) == before + [r]
    return Appending(0, number, after)


def fields_of(r: Reading) -> Record:
    """"outcome 0, which stands for `none`, `open` and a refused reading"; open point: with zeros beside it, which are never written."""
    if r.kind != "counted":
        return Record(0, 0, 0, 0, 0)
    return Record(r.start, r.outcome, r.address, len(r.data), r.status)


def reading_appending(log: List[int], r: Reading) -> Appending:
    return appending(log, fields_of(r))


def record_at(log: List[int], number: int) -> Tuple[int, Optional[Record]]:
    """Refusal, or 0 and the record; 13: "record number not used", so also where the log has ended. It may lie behind an unused one."""
    found = log_records(log)[number:number + 1]
    refusal = first((11, bad_log(log)), (13, not any(r.used() for r in found)))
    return (refusal, None) if refusal else (0, found[0])


@dataclass(frozen=True)
class LogReader:
    """"A reader that keeps the lent log and its place"; open point: making one is never refused."""
    log: List[int]
    place: int = 0


def handing_out(reader: LogReader) -> Tuple[int, Optional[Record], LogReader]:
    """"and hands out the next record": refusal or 0, the record, and the reader behind it; a refused one stays as it is. Item 11: "The reader skips deleted
    records." Open point: a deleted record is one that isn't used, whether it ever was or not; where no other follows, 13 is given."""
    ahead = [number for number, r in enumerate(log_records(reader.log)) if r.used() and number >= reader.place]
    refusal, r = record_at(reader.log, ahead[0] if ahead else len(reader.log))
    return refusal, r, reader if refusal else replace(reader, place=ahead[0] + 1)


def read_back(log: List[int]) -> List[Record]:
    """What a reader hands out until it is refused; item 11: "Reading back gives the records that remain" """
    records_read = []
    refusal, r, reader = handing_out(LogReader(log))
    while not refusal:
        records_read.append(r)
        refusal, r, reader = handing_out(reader)
    return records_read


def written(length: int, appended: List[Record]) -> List[int]:
    """"a log of zero octets" of that length, with these appended one after the other."""
    log = [0] * length
    for r in appended:
        log = appending(log, r).log
    return log


def kept(length: int, appended: List[Record]) -> List[int]:
    """The same log, with its sentence tried; the length is a multiple of 16."""
    log = written(length, appended)
    back = read_back(log)
    # "reading it back up to the first unused record gives what was appended, and writing that again gives the same octets"
    assert back == [r for r in appended if r.used()][:length // RECORD.size]
    assert written(length, back) == log
    return log


# Both ends of each width, an outcome 0 between them, and one for which there is no room.
kept(32, [Record(0, 1, 0, 0, 0), Record(9, 0, 9, 9, 9), Record(2**32 - 1, 255, 255, 2**16 - 1, 2**64 - 1), Record(1, 2, 3, 4, 5)])


@dataclass
class LoggedWalk:
    end: str  # refused, none, open or full
    next: int  # as the last reading gives it; where the walk stands if full, and the place it was called with if refused
    state: State
    log: List[int]
    refusal: int = 0
    appended: int = 0  # how many readings, each with its Start counted


def logged_walk(s: Settings, state: State, octets: List[int], marks: List[int], place: int, log: List[int], job: int = 0, table: Table = EMPTY) -> LoggedWalk:
    """A walk that keeps its readings: from a place on, reading after reading, each counted Start's record appended, until `none`, `open` or a full log.
    Open point: the documents have no such call. It is refused as a reading at that place, then for 11, with the old state, place and log. It never
    gives 12: a Start that finds every record used is not counted, and the walk ends full where it stands. `none` and `open` end it whether or not an
    unused record is left, and compact nothing."""
    refusal = read_refusal(s, octets, marks, place, job, table) or first((11, bad_log(log)))
    if refusal:
        return LoggedWalk("refused", place, state, log, refusal=refusal)
    answer = LoggedWalk("", place, state, log)
    while not answer.end:
        r = reading(s, answer.state, octets, marks, answer.next, job, table)
        step = reading_appending(answer.log, r)
        if step.refusal == 12:  # the reading is given up, with its state
            answer.end = "full"
        elif r.kind == "counted":
            answer.next, answer.state, answer.log, answer.appended = r.next, r.state, step.log, answer.appended + 1
        else:
            answer.end, answer.next = r.kind, r.next
    # The same by the walk as a whole: of its readings as many are kept as there are unused records, behind the used ones, which are compacted if the
    # room behind them does not do.
    *starts, last = walk(s, state, octets, marks, place, job, table)
    stands = [(place, state)] + [(r.next, r.state) for r in starts]
    into = starts[:len(unused_numbers(log))]
    end = ("full", *stands[len(into)]) if len(into) < len(starts) else (last.kind, last.next, last.state)
    assert (answer.end, answer.next, answer.state) == end and answer.appended == len(into)
    new, at = octets_of([fields_of(r) for r in into]), behind_last(log) * RECORD.size
    whole = octets_of(used_only(log)) + new
    assert answer.log == (log[:at] + new + log[at + len(new):] if at + len(new) <= len(log) else whole + [0] * (len(log) - len(whole)))
    return answer


def walks_on(s: Settings, state: State, octets: List[int], marks: List[int], place: int, sizes: List[int], job: int = 0,
             table: Table = EMPTY) -> List[LoggedWalk]:
    """Walks into logs of zero octets with so many records, each from where the one before it ended full."""
    walks = []
    for size in sizes:
        if not walks or walks[-1].end == "full":
            walks.append(logged_walk(s, state, octets, marks, place, [0] * (RECORD.size * size), job, table))
            state, place = walks[-1].state, walks[-1].next
    return walks


# ---- Starts per stretch (item 9)

BLOCK = 256  # "Keep a total for each block of 256 symbols beside the capture."


def true_totals(octets: List[int], marks: List[int]) -> List[int]:
    starts = [is_start(o, m) for o, m in zip(octets, marks)]
    return [sum(starts[place:place + BLOCK]) for place in range(0, len(starts), BLOCK)]


def totals_refusals(octets, totals) -> List[Tuple[int, bool]]:
    """21: "number of totals isn't the number of blocks, a last short one included"; 22: "a total above 256" """
    whole, rest = divmod(len(octets), BLOCK)
    return [(21, len(totals) != whole + (rest > 0)), (22, any(total > BLOCK for total in totals))]


def starts_before(octets, marks, totals, place) -> Tuple[int, Optional[int]]:
    """Refusal, or 0 and how many: "The answer adds whole blocks and looks only into the last"; 2 and 3, then 21 and 22."""
    refusal = first((2, bad_buffers(octets, marks)), (3, place > len(octets)), *totals_refusals(octets, totals))
    if refusal:
        return refusal, None
    last = place - place % BLOCK
    answer = sum(totals[:last // BLOCK]) + sum(is_start(o, m) for o, m in zip(octets[last:place], marks[last:place]))
    # "and equals a count over everything before the place"; "The answer is right whenever the totals are true."
    assert totals != true_totals(octets, marks) or answer == sum(is_start(o, m) for o, m in zip(octets[:place], marks[:place]))
    return 0, answer


def filling(octets, marks, totals) -> Tuple[int, List[int]]:
    """"one call fills them all for a capture"; "filling gives 2 and 21 only": refusal or 0, and the totals."""
    refusal = first((2, bad_buffers(octets, marks)), *totals_refusals(octets, totals)[:1])
    return (refusal, totals) if refusal else (0, true_totals(octets, marks))


def counted_anew(octets, marks, totals, place, after) -> List[int]:
    """"counts anew the blocks it writes into and touches no other total" """
    written = {at // BLOCK for at in range(place, after)}
    return [anew if n in written else old for n, (old, anew) in enumerate(zip(totals, true_totals(octets, marks)))]


# ---- Sending


@dataclass(frozen=True)
class Client:
    """"A client frame names a destination, …, a form (length, or a type), a class 0 to 7 and data."; item 1: "Sending takes up to eight tags
    with their kinds." No tag may be given as None, and a single 0x8100 tag by its tag control alone."""
    destination: List[int]
    tags: List[Tuple[int, int]]  # kinds and tag controls, the outermost first
    type: Optional[int]  # none: the length form
    cls: int
    data: List[int]

    def __post_init__(self):
        if self.tags is None:
            object.__setattr__(self, "tags", [])
        if isinstance(self.tags, int):
            object.__setattr__(self, "tags", [(CUSTOMER, self.tags)])


@dataclass
class Sending:
    refusal: int  # 0: written
    place: int
    state: State
    octets: List[int]
    marks: List[int]
    totals: Optional[List[int]] = None  # item 9, if the call takes them


def high_first(n: int) -> List[int]:
    return list(n.to_bytes(2, "big"))


# "one Terminate and eleven Idles"; item 5: "Its gaps, Terminate included, vary"
GAP = 12


def on_line(covered: List[int], gap: int = GAP) -> List[Tuple[int, int]]:
    """"Start; six data octets 0x55; data 0xD5 …; the frame from destination to FCS; Terminate; Idle" """
    data = PREAMBLE + covered + fcs(covered)
    # "We write 0 for data and 1 for control."
    return [(START, 1)] + [(o, 0) for o in data] + [(TERMINATE, 1)] + [(IDLE, 1)] * (gap - 1)


def client_symbols(s: Settings, c: Client, gap: int = GAP) -> List[Tuple[int, int]]:
    tags = [octet for kind, control in c.tags for octet in high_first(kind) + high_first(control)]
    # "In the length form the field is the data's length."
    number = len(c.data) if c.type is None else c.type
    # "Data under 46 octets is padded with zeros to 46, tagged or not."
    padded = c.data + [0] * max(0, 46 - len(c.data))
    # "Source is the own address."
    return on_line(c.destination + s.own + tags + high_first(number) + padded, gap)


def pause_symbols(s: Settings, quanta: int, gap: int = GAP) -> List[Tuple[int, int]]:
    """"A pause frame: reserved group, own address, 0x8808, 0x0001, quanta, 42 zeros." """
    return on_line(RESERVED_GROUP + s.own + high_first(CONTROL) + high_first(0x0001) + high_first(quanta) + [0] * 42, gap)


def pfc_symbols(s: Settings, named: int, quanta: List[int], gap: int = GAP) -> List[Tuple[int, int]]:
    """"A PFC frame: 0x0101, zero, class octet, eight quanta (zero for a class not named), 26 zeros." """
    eight = [octet for n in range(8) for octet in high_first(quanta[n] if named >> n & 1 else 0)]
    return on_line(RESERVED_GROUP + s.own + high_first(CONTROL) + high_first(0x0101) + [0, named] + eight + [0] * 26, gap)


def idle_symbols(n: int) -> List[Tuple[int, int]]:
    """"Idle fill writes a stated number of Idles." """
    return [(IDLE, 1)] * n


def sent(refusals, state, octets, marks, place, symbols, deficit: Optional[int] = None, totals: Optional[List[int]] = None) -> Sending:
    """What is written, if there is no refusal; the deficit count behind it, the old one unless a frame's gap gives one; the totals, if there are any."""
    refusal = first(*refusals, *(totals_refusals(octets, totals) if totals is not None else []))
    if refusal:  # "A refusal gives its number, …, the place it was called with …, the old state, and untouched buffers."; item 9: "changes none"
        return Sending(refusal, place, state, octets, marks, totals)
    n = len(symbols)
    # "written into the line buffers from the place the caller names on; every other symbol stays"
    octets = octets[:place] + [o for o, _ in symbols] + octets[place + n:]
    marks = marks[:place] + [m for _, m in symbols] + marks[place + n:]
    # "Every call that writes n symbols lowers each timer by n, not below zero."; item 5: "those really written"
    state = replace(state, timers=[max(0, t - n) for t in state.timers], deficit=state.deficit if deficit is None else deficit)
    # "gives its own place plus the number of symbols it wrote"
    return Sending(0, place + n, state, octets, marks, None if totals is None else counted_anew(octets, marks, totals, place, place + n))


def common(octets, marks, place, needed) -> List[Tuple[int, bool]]:
    """2, 3 and 8: "fewer symbols from the place to the end of the buffers than needed" """
    return [(2, bad_buffers(octets, marks)), (3, place > len(octets)), (8, len(octets) - place < needed)]


# Item 5: "The new port board accepts Start only at places divisible by four." Each call that sends a frame names its port.
PLAIN, FOUR_LANE = "plain", "four-lane"


def port_refusals(state, place, port) -> List[Tuple[int, bool]]:
    """"when sending a frame on this port only, 3 also for a place not divisible by four, then new 19, deficit count above 3" """
    return [] if port == PLAIN else [(3, place % 4 != 0), (19, state.deficit > 3)]


def gap_behind(port, state, place, symbols) -> Tuple[int, int]:
    """The gap behind a frame whose symbols, with a gap of 12, are written at that place; and the deficit count behind it."""
    if port == PLAIN:  # "only frames sent on this port change it"
        return GAP, state.deficit
    # "If a gap of 12 would end r past a multiple of four, shorten by r when count plus r is at most 3 and add r to the count;
    # else lengthen by 4 - r and take 4 - r off the count."
    r = (place + len(symbols)) % 4
    missing = r if state.deficit + r <= 3 else r - 4
    return GAP - missing, state.deficit + missing


def frame_sending(refusals, state, octets, marks, place, port, totals, symbols) -> Sending:
    """A frame; symbols(gap) gives those to be written."""
    gap, deficit = gap_behind(port, state, place, symbols(GAP))
    return sent(refusals, state, octets, marks, place, symbols(gap), deficit, totals)


def client_refusals(s, state, octets, marks, place, c: Client, port=PLAIN) -> List[Tuple[int, bool]]:
    """"client sending 1 to 3 and 5 to 9"; item 1: "Refusals: 6 also for type 0x88A8; new 10, more than eight tags"; item 5: "8 counts the actual gap" """
    gap, _ = gap_behind(port, state, place, client_symbols(s, c))
    most = 1500 if c.type is None else s.limit - 18
    # "type form under 1536, or 0x8100 or 0x8808"
    bad_type = c.type is not None and (c.type < 1536 or c.type == CONTROL or c.type in TAG_KINDS)
    return common(octets, marks, place, len(client_symbols(s, c, gap))) + port_refusals(state, place, port) + [
        (1, bad_settings(s)),
        (5, c.cls > 7),  # "class above 7"
        (6, bad_type),
        (7, len(c.data) > most),  # "data over 1500 (length form) or over M - 18 (type form)"
        (9, c.cls <= 7 and state.timers[c.cls] > 0),  # "client frame, timer of its class above zero"
        (10, len(c.tags) > MOST_TAGS),
    ]


def control_refusals(s, octets, marks, place, mode, state=State(), port=PLAIN) -> List[Tuple[int, bool]]:
    """"pause and PFC 1 to 4 and 8"; 4: "pause or PFC asked in another flow mode". Both frames are 64 octets: 84 symbols, also on the four-lane port,
    where a gap of 12 ends at a multiple of four."""
    return common(octets, marks, place, 84) + port_refusals(state, place, port) + [(1, bad_settings(s)), (4, s.flow != mode)]


def idle_refusals(octets, marks, place, n) -> List[Tuple[int, bool]]:
    """"Idle fill 2, 3 and 8" """
    return common(octets, marks, place, n)


def client_sending(s, state, octets, marks, place, c: Client, port=PLAIN, totals=None) -> Sending:
    refusals = client_refusals(s, state, octets, marks, place, c, port)
    return frame_sending(refusals, state, octets, marks, place, port, totals, lambda gap: client_symbols(s, c, gap))


def pause_sending(s, state, octets, marks, place, quanta: int, port=PLAIN, totals=None) -> Sending:
    refusals = control_refusals(s, octets, marks, place, "pause", state, port)
    return frame_sending(refusals, state, octets, marks, place, port, totals, lambda gap: pause_symbols(s, quanta, gap))


def pfc_sending(s, state, octets, marks, place, named: int, quanta: List[int], port=PLAIN, totals=None) -> Sending:
    refusals = control_refusals(s, octets, marks, place, "PFC", state, port)
    return frame_sending(refusals, state, octets, marks, place, port, totals, lambda gap: pfc_symbols(s, named, quanta, gap))


def idle_sending(state, octets, marks, place, n: int, totals=None) -> Sending:
    return sent(idle_refusals(octets, marks, place, n), state, octets, marks, place, idle_symbols(n), totals=totals)


# ---- Quiet means quiet (item 14)


class Set(NamedTuple):
    """A reading set a class."""
    cls: int
    quanta: int


class Wrote(NamedTuple):
    """A call wrote so many symbols. The first of them is the Start of a client frame of that class, if there is one, and no other is."""
    count: int
    cls: Optional[int]


def loud(trace: List) -> Optional[int]:
    """"after a reading that sets a class to q quanta, none of the next 64 × q symbols that we write is the Start of a client frame of that class, unless a
    later reading sets that class again first": where in the trace of a sequence of calls such a Start is."""
    for at, event in enumerate(trace):
        passed = 0
        for later in range(at + 1, len(trace)) if isinstance(event, Set) else ():
            if isinstance(trace[later], Set):
                if trace[later].cls == event.cls:
                    break
            else:
                # "Control frames and other classes may start."
                if trace[later].cls == event.cls and passed < 64 * event.quanta:
                    return later
                passed += trace[later].count
    return None


@dataclass(frozen=True)
class Hearing:
    """A call that reads; open point: capture, job and table may be others each time."""
    how: str  # reading, walk, logged or plain
    capture: Optional[Tuple[List[int], List[int]]]  # octets and marks; none: the line that is written into
    place: int = 0
    records: int = 0  # of a log of zero octets
    job: int = 0
    table: Table = field(default_factory=lambda: EMPTY)


@dataclass(frozen=True)
class Writing:
    """A call that writes into the line."""
    what: str  # client, pause, pfc or idle
    place: int
    asked: object  # a Client; quanta; (named, quanta); a number of Idles
    port: str = PLAIN
    counting: bool = False  # with the totals of the line, which are true


def heard(s: Settings, state: State, octets: List[int], marks: List[int], c: Hearing) -> Tuple[State, List[Set]]:
    """The state behind a call that reads, and what it set. No timer is asked: the quanta are those of the captured octets."""
    if c.how == "reading":
        r = reading(s, state, octets, marks, c.place, c.job, c.table)
        after, starts = r.state, [(r.start, r.outcome)]
    elif c.how == "walk":
        readings = walk(s, state, octets, marks, 0, c.job, c.table)
        after, starts = readings[-1].state, [(r.start, r.outcome) for r in readings]
    elif c.how == "logged":
        walked = logged_walk(s, state, octets, marks, c.place, [0] * (RECORD.size * c.records), c.job, c.table)
        after, starts = walked.state, [(r.place, r.outcome) for r in read_back(walked.log)]
    else:
        reader, starts, start = PlainReader(state=state), [], None
        for place, symbol in enumerate(zip(octets, marks)):
            step = taking(s, reader, *symbol, c.job, c.table)
            if step.ended:
                starts.append((start, step.ended.outcome))
            reader, start = step.reader, place if is_start(*symbol) else start
        after = reader.state
    sets = []
    for start, outcome in starts:
        quanta = [int.from_bytes(bytes(octets[start + 8 + at:start + 10 + at]), "big") for at in range(16, 34, 2)] if outcome in (8, 9) else []
        sets += [Set(n, quanta[0]) for n in range(8) if outcome == 8] + [Set(n, quanta[1 + n]) for n in range(8) if outcome == 9 and quanta[0] >> n & 1]
    return after, sets


def written_by(s: Settings, state: State, octets: List[int], marks: List[int], c: Writing) -> Sending:
    totals = true_totals(octets, marks) if c.counting else None
    if c.what == "client":
        return client_sending(s, state, octets, marks, c.place, c.asked, c.port, totals)
    if c.what == "pause":
        return pause_sending(s, state, octets, marks, c.place, c.asked, c.port, totals)
    if c.what == "pfc":
        return pfc_sending(s, state, octets, marks, c.place, *c.asked, c.port, totals)
    return idle_sending(state, octets, marks, c.place, c.asked, totals)


def quiet_calls(s: Settings, state: State, octets: List[int], marks: List[int], calls: List) -> Tuple[List, State]:
    """"Over any sequence of our calls on one state with fixed valid settings": the trace of these calls, and the state behind them."""
    trace = []
    for c in calls:
        if isinstance(c, Hearing):
            state, sets = heard(s, state, *(c.capture or (octets, marks)), c)
            trace += sets
            continue
        a = written_by(s, state, octets, marks, c)
        state, octets, marks = a.state, a.octets, a.marks
        if not a.refusal:
            starts = [n for n in range(a.place - c.place) if is_start(octets[c.place + n], marks[c.place + n])]
            assert starts == ([] if c.what == "idle" else [0])
            trace.append(Wrote(a.place - c.place, c.asked.cls if c.what == "client" else None))
    assert loud(trace) is None
    return trace, state


# ---- The printing program

# "Settings: own 02-00-00-00-00-01, none listed, broadcast on, promiscuous off, checking on, M 1518, flow none, `pass control` off."
PRINTING = Settings(own=[0x02, 0, 0, 0, 0, 0x01], broadcast=True, promiscuous=False, checking=True, limit=1518, flow="none", pass_control=False)
MOST_RECORDS = 32768


def records(symbols: List[Tuple[int, int]]) -> bytes:
    """"records of two octets, mark then octet, no header" """
    return bytes(x for octet, mark in symbols for x in (mark, octet))


def printed(data: bytes) -> bytes:
    # "at most 32,768 records. An odd or longer input prints `bad input` alone."
    if len(data) % 2 or len(data) > 2 * MOST_RECORDS:
        return b"bad input\n"
    # Open point: job 0 reads, with an empty table.
    readings = walk(PRINTING, State(), list(data[1::2]), list(data[0::2]))
    # "One line per counted Start: its place, outcome, status word, octets handed out, all decimal."
    lines = [f"{r.start} {r.outcome} {r.status} {len(r.data)}" for r in readings if r.kind == "counted"]
    # "Last line: the word `starts`, the number of counted Starts, the word `open`, then 1 if the walk ended `open`, else 0."
    lines.append(f"starts {len(lines)} open {int(readings[-1].kind == 'open')}")
    return ("\n".join(lines) + "\n").encode()


# ---- A walk that keeps its readings, tried on both sides of its limits


def try_logged_walks():
    before = State([2**64 - 1] * 11, [5] * 8)  # a state that any counting and any setting would change
    used, hole = [0xA7] * 16, [0xA7] * 4 + [0] + [0xA7] * 11
    idle, start, terminate = (IDLE, 1), (START, 1), (TERMINATE, 1)
    two = [idle, start, start, terminate]  # a cut one at 1, a bad preamble at 2
    three = two + [idle, start]  # and an open one at 5
    cut, bad = Record(1, 1, 0, 0, 0), Record(2, 2, 0, 0, 0)
    limit_0 = replace(PRINTING, limit=0)

    def tried(line, place, log, s=PRINTING, more_marks=0):
        marks = [mark for _, mark in line] + [0] * more_marks
        walked = logged_walk(s, before, [octet for octet, _ in line], marks, place, log)
        if walked.appended == 0:
            assert walked.state == before and walked.log == log
        return walked.refusal or walked.end, walked.next, walked.appended

    # No unused record, and a counted Start, none or an open one ahead.
    for log in ([], used, used * 3):
        for line, place, answer in [
                (two, 0, ("full", 0, 0)), (two, 1, ("full", 1, 0)), (two, 2, ("full", 2, 0)), (two, 3, ("none", 4, 0)), (two, 4, ("none", 4, 0)),
                ([], 0, ("none", 0, 0)), ([idle], 0, ("none", 1, 0)), ([idle, start], 0, ("open", 1, 0)), ([start, start], 1, ("open", 1, 0)),
                (three, 2, ("full", 2, 0)), (three, 3, ("open", 5, 0)), (three, 5, ("open", 5, 0)), (three, 6, ("none", 6, 0))]:
            assert tried(line, place, log) == answer
    # Fewer records than Starts, as many, and more; from the first Start's place on, and from behind it.
    for line, end in [(two, ("none", 4)), (three, ("open", 5))]:
        for place, size, answer in [
                (0, 1, ("full", 2, 1)), (0, 2, (*end, 2)), (0, 3, (*end, 2)), (1, 1, ("full", 2, 1)), (1, 2, (*end, 2)), (2, 1, (*end, 1)),
                (3, 0, (*end, 0)), (3, 1, (*end, 0))]:
            assert tried(line, place, [0] * (16 * size)) == answer
        octets, marks = [octet for octet, _ in line], [mark for _, mark in line]
        # Another log gets the rest, and a log without records none of it.
        for sizes in ([2], [5], [1, 1], [0, 2], [1, 0, 1], [0, 1, 0, 0, 7]):
            walks = walks_on(PRINTING, before, octets, marks, 0, sizes)
            assert len(walks) == len(sizes) and (walks[-1].end, walks[-1].next) == end
            assert [r for walked in walks for r in read_back(walked.log)] == [cut, bad]
            assert walks[-1].state == State([0, 0] + [2**64 - 1] * 9, [5] * 8)
        # Behind the last used record, and compacted first where that one is the last slot: for both, for the second, for the only one.
        zero = [0] * 16
        for log, filled in [(used + hole + used + hole, [used, used, cut.octets(), bad.octets()]),
                            (hole + used + hole + hole, [hole, used, cut.octets(), bad.octets()]), (used + hole, [used, cut.octets()]),
                            (hole + hole + used, [used, cut.octets(), bad.octets()]), (hole + used, [used, cut.octets()]),
                            (hole + hole + hole + used + hole, [used, cut.octets(), bad.octets(), zero, zero]),
                            (hole * 4 + used, [used, cut.octets(), bad.octets(), zero, zero])]:
            assert logged_walk(PRINTING, before, octets, marks, 0, log).log == sum(filled, [])
        # Nothing is compacted for nothing, nor where every record is used.
        for log, place in [(hole + used, 3), (hole + used, len(line)), (used + used, 0)]:
            assert logged_walk(PRINTING, before, octets, marks, place, log).log == log
    # The refusals, one after the other.
    for length in (1, 15, 17, 31, 33):
        log = [0xA7] * length
        assert tried(two, 5, log, s=limit_0, more_marks=1) == (1, 5, 0)
        assert tried(two, 5, log, more_marks=1) == (2, 5, 0)
        assert tried(two, 5, log) == (3, 5, 0)
        assert tried(two, 4, log) == (11, 4, 0) and tried(two, 0, log) == (11, 0, 0) and tried([], 0, log) == (11, 0, 0)
    for log in ([], used, hole):
        assert tried(two, 0, log, s=limit_0) == (1, 0, 0) and tried(two, 0, log, more_marks=1) == (2, 0, 0) and tried(two, 5, log) == (3, 5, 0)
    # A pause that finds no unused record sets no timer.
    pausing = replace(PRINTING, flow="pause")
    line = pause_symbols(pausing, 3) + pause_symbols(pausing, 7)
    walks = walks_on(pausing, before, [octet for octet, _ in line], [mark for _, mark in line], 0, [0, 1, 0, 1])
    assert [(walked.end, walked.next, walked.state.timers[0]) for walked in walks] == [
        ("full", 0, 5), ("full", 72, 192), ("full", 72, 192), ("none", 168, 448)]


try_logged_walks()


# ---- Room in the log, tried with every pattern of used records


def try_room():
    def record(n, outcome):
        return Record(n, outcome, 3, 4, 5)

    new = Record(99, 9, 9, 9, 9)
    for size in range(6):
        for pattern in range(3**size):
            # Unused records with other octets, and used ones of two outcomes.
            outcomes = [pattern // 3**n % 3 for n in range(size)]
            log = octets_of([record(n, outcome) for n, outcome in enumerate(outcomes)])
            remain = [record(n, outcome) for n, outcome in enumerate(outcomes) if outcome]
            assert read_back(log) == remain
            change = compacting(log)
            assert (change.refusal, change.count, change.log) == (0, len(remain), octets_of(remain) + [0] * (16 * (size - len(remain))))
            for number in list(range(size + 2)) + [2**64 - 1]:
                change = deleting(log, number)
                if number < size and outcomes[number]:
                    assert (change.refusal, change.count) == (0, 1)
                    assert [at for at in range(len(log)) if log[at] != change.log[at]] == [16 * number + 4] and change.log[16 * number + 4] == 0
                    assert read_back(change.log) == [r for r in remain if r.place != number]
                else:
                    assert (change.refusal, change.count, change.log) == (13, None, log)
            for outcome in range(4):
                change = deleting_all(log, outcome)
                assert (change.refusal, change.count) == (0, outcomes.count(outcome) if outcome else 0)
                assert change.log == octets_of([record(n, 0 if o == outcome else o) for n, o in enumerate(outcomes)])
            # Appending until every record is used: behind the last used one, or behind all that remain.
            into = log
            for count in range(len(remain), size):
                last_used = bool(into[-12])
                answer = appending(into, new)
                assert answer.refusal == 0 and answer.number == (count if last_used else behind_last(into))
                unused = [answer.log[at:at + 16] for at in range(0, len(log), 16) if answer.log[at + 4] == 0]
                assert not last_used or all(octets == [0] * 16 for octets in unused)
                into = answer.log
            assert read_back(into) == remain + [new] * (size - len(remain))
            assert appending(into, new) == Appending(12, None, into)
            assert appending(log, new._replace(outcome=0)) == Appending(0, None, log)
    # The reader passes what isn't used, and stays where nothing follows.
    log = octets_of([record(n, outcome) for n, outcome in enumerate([0, 1, 0, 0, 2, 0])])
    for place, number in [(0, 1), (1, 1), (2, 4), (3, 4), (4, 4)]:
        assert handing_out(LogReader(log, place)) == (0, log_records(log)[number], LogReader(log, number + 1))
    for place in (5, 6, 7, 2**64 - 1):
        assert handing_out(LogReader(log, place)) == (13, None, LogReader(log, place))
    # 11 comes first.
    for length in (1, 15, 17, 31):
        for octet in (0, 7):
            log = [octet] * length
            assert deleting(log, 0) == deleting(log, 9) == deleting_all(log, 7) == deleting_all(log, 0) == compacting(log) == LogChange(11, None, log)
            assert appending(log, new) == Appending(11, None, log) and handing_out(LogReader(log))[0] == 11


try_room()


# ---- The four-lane port, tried on both sides of its limits


def try_four_lanes():
    length = 400
    octets, marks, timers = [0xA7] * length, [0xC9] * length, [0, 1, 80, 84, 87, 90, 500, 2**32 - 1]
    pausing, by_class = replace(PRINTING, flow="pause"), replace(PRINTING, flow="PFC")
    client = Client([2, 0, 0, 0, 0, 9], [], 0x0800, 0, [7] * 46)

    def tried(place, deficit, c=client, port=FOUR_LANE, room=length, s=PRINTING, held=0):
        before = State([3] * 11, [held] + timers[1:], deficit)
        return client_sending(s, before, octets[:room], marks[:room], place, c, port)

    # Every count with every r: what is written is the plain port's but for the gap, and of all gaps that end at a multiple of four it is the only one
    # that leaves a count of 0 to 3 if what it lacks of 12 is added to the count.
    for count in range(4):
        for r in range(4):
            c = replace(client, data=[7] * (46 + r))
            gap, = [g for g in range(9, 16) if (72 + r + g) % 4 == 0 and 0 <= count + 12 - g <= 3]
            n = 72 + r + gap
            for place in (0, 4, 100):
                a = tried(place, count, c)
                assert (a.refusal, a.place, a.state.deficit) == (0, place + n, count + 12 - gap)
                assert a.state.timers == [max(0, t - n) for t in timers] and a.state.counters == [3] * 11
                line = client_symbols(PRINTING, c)[:72 + r] + [(TERMINATE, 1)] + [(IDLE, 1)] * (gap - 1)
                assert list(zip(a.octets, a.marks)) == [(0xA7, 0xC9)] * place + line + [(0xA7, 0xC9)] * (length - place - n)
                # 8 counts the actual gap.
                assert tried(place, count, c, room=place + n - 1).refusal == 8 and tried(place, count, c, room=place + n).refusal == 0
    # Places and counts; the plain port knows neither and leaves the count.
    for place in range(8):
        for deficit in (0, 3, 4, 255):
            a = tried(place, deficit)
            assert a.refusal == (3 if place % 4 else 19 if deficit > 3 else 0)
            before = State(timers=timers, deficit=deficit)
            control = [pause_sending(pausing, before, octets, marks, place, 9, FOUR_LANE),
                       pfc_sending(by_class, before, octets, marks, place, 9, [9] * 8, FOUR_LANE)]
            for b in control:
                assert b.refusal == a.refusal and b.state == (before if b.refusal else replace(before, timers=[max(0, t - 84) for t in timers]))
            plain = [tried(place, deficit, port=PLAIN), tried(place, deficit, port=PLAIN, room=place + 84),
                     pause_sending(pausing, before, octets, marks, place, 9), pfc_sending(by_class, before, octets, marks, place, 9, [9] * 8),
                     idle_sending(before, octets, marks, place, 84)]
            assert all((b.refusal, b.place, b.state.deficit) == (0, place + 84, deficit) for b in plain)
            assert reading(PRINTING, before, octets, marks, place).state == before
    # The refusals, one after the other; each leaves everything.
    worse = replace(client, type=0x8808, cls=8, tags=[(CUSTOMER, 0)] * 9, data=[7] * 1501)
    for number, answer in [
            (1, tried(401, 4, worse, s=replace(PRINTING, limit=0))), (3, tried(401, 4, worse)), (3, tried(404, 4, worse)), (3, tried(399, 4, worse)),
            (19, tried(396, 4, worse)), (5, tried(396, 3, worse)), (6, tried(396, 3, replace(worse, cls=7))),
            (10, tried(396, 3, replace(worse, cls=7, type=1536))), (7, tried(396, 3, replace(worse, cls=7, type=1536, tags=[]))),
            (8, tried(396, 3, held=1)), (9, tried(0, 3, held=1)), (4, pause_sending(by_class, State(deficit=3), octets, marks, 396, 9, FOUR_LANE)),
            (19, pause_sending(by_class, State(deficit=4), octets, marks, 396, 9, FOUR_LANE)),
            (8, pause_sending(pausing, State(deficit=3), octets, marks, 396, 9, FOUR_LANE)),
            (2, client_sending(PRINTING, State(deficit=4), octets, marks[1:], 401, worse, FOUR_LANE))]:
        assert answer.refusal == number and answer.octets == octets and answer.state.deficit in (3, 4)
    # "From a count of 0, n gaps together lie between 12 × n - 3 and 12 × n, and the count is exactly what is missing."
    for step in range(8):
        state, gaps, n = State(), 0, 0
        for k in range(40):
            data = 46 + (step * k + k // 3) % 50
            a = client_sending(PRINTING, state, octets, marks, 4 * k, replace(client, data=[7] * data), FOUR_LANE)
            state, n, gaps = a.state, n + 1, gaps + a.place - 4 * k - data - 26
            assert a.refusal == 0 and 12 * n - 3 <= gaps <= 12 * n and state.deficit == 12 * n - gaps
    # "Frames handed to a receiver still come out as demand 3 says."
    line, marks_of_line, place, state = octets, marks, 0, State()
    for r in (3, 2, 1):
        a = client_sending(PRINTING, state, line, marks_of_line, place, replace(client, destination=PRINTING.own, data=[r] * (46 + r)), FOUR_LANE)
        line, marks_of_line, place, state = a.octets, a.marks, a.place, a.state
    assert [r.data for r in walk(PRINTING, State(), line[:place], marks_of_line[:place])] == [[3] * 49, [2] * 48, [1] * 47, []]


try_four_lanes()


# ---- The wide counters and the screen, tried on both sides of their limits


def try_counters():
    # A cut Start and a bad preamble, from each side of 2^32 and of 2^64: the sum is held by the walk.
    for before, after, shown in [
            (0, 1, 1), (2**31 - 1, 2**31, 2**31), (2**32 - 2, 2**32 - 1, 2**32 - 1), (2**32 - 1, 2**32, 0), (2**32, 2**32 + 1, 1),
            (2**33 - 1, 2**33, 0), (2**64 - 2**32 - 1, 2**64 - 2**32, 0), (2**64 - 2, 2**64 - 1, 2**32 - 1), (2**64 - 1, 0, 0)]:
        last = walk(PRINTING, State([before] * 11), [START, START, TERMINATE], [1] * 3)[-1].state
        assert last.counters == [after] * 2 + [before] * 9 and screen(last) == [shown] * 2 + [before % 2**32] * 9
        # The screen rises as a counter of 32 bits does.
        assert shown == (screen(State([before] * 11))[0] + 1) % 2**32
    assert screen(State()) == [0] * 11 and screen(State([n * 2**32 + n for n in range(11)])) == list(range(11))


try_counters()


# ---- Which address let it in, tried with many tables


def try_addresses():
    groups = [[1, 0, 0x5E, 0, 0, n] for n in range(1, 5)]
    other, own = [2, 0, 0, 0, 0, 9], PRINTING.own

    def said(s, destination, header=(0x0800,), opcode=2, job=0, table=EMPTY):
        covered = destination + other + [octet for number in header for octet in high_first(number)] + high_first(opcode) + [0] * 44
        line = on_line(covered)
        r = reading(s, State(), [octet for octet, _ in line], [mark for _, mark in line], 0, job, table)
        return r.outcome, r.address

    def table_of(job, addresses, at=0, others=()):
        """The job's addresses from an entry on, and the other job's in the last entries."""
        table = list(EMPTY)
        table[at:at + len(addresses)] = [(job, address) for address in addresses]
        table[16 - len(others):] = [(1 - job, address) for address in others]
        assert len(table) == 16
        return table

    for promiscuous in (False, True):
        none = (11, 7) if promiscuous else (7, 0)  # what is said where nothing matches
        for broadcast in (False, True):
            s = replace(PRINTING, promiscuous=promiscuous, broadcast=broadcast)
            # With the own address, broadcast and the reserved group among them, and with what the other job lists.
            for listed in [[], groups, groups[::-1], groups[1:3], [own], [own, groups[0]], [BROADCAST], [groups[3], BROADCAST], [RESERVED_GROUP],
                           [other, RESERVED_GROUP]]:
                for job, at, others in [(0, 0, []), (1, 0, [other]), (0, 3, groups), (1, 11 - len(listed), groups + [other]),
                                        (0, 16 - len(listed), []), (1, 16 - len(listed), [])]:
                    as_job = dict(job=job, table=table_of(job, listed, at, others))
                    for destination in groups + [other, RESERVED_GROUP]:
                        entries = [(11, 16 + at + n) for n, address in enumerate(listed) if address == destination]
                        assert said(s, destination, **as_job) == (entries + [none])[0]
                        # "A tagged 0x8808 is an ordinary type."
                        assert said(s, destination, (CUSTOMER, 0, CONTROL), **as_job) == (entries + [none])[0]
                    assert said(s, own, **as_job) == (11, 1) and said(s, BROADCAST, **as_job) == ((11, 6) if broadcast else none)
                    # Control frames: to the reserved group, to the own address, to others.
                    for flow, opcode, outcome in [("none", 1, 10), ("pause", 1, 8), ("PFC", 0x0101, 9), ("PFC", 1, 10)]:
                        assert said(replace(s, flow=flow), RESERVED_GROUP, (CONTROL,), opcode, **as_job) == (outcome, 8)
                    assert said(s, own, (CONTROL,), **as_job) == (10, 1)
                    assert said(replace(s, flow="pause"), own, (CONTROL,), 1, **as_job) == (8, 1)
                    for destination in [groups[0], other, BROADCAST]:
                        outcome, number = said(s, destination, **as_job)
                        assert said(s, destination, (CONTROL,), **as_job) == (10 if outcome == 11 else 7, number)
                        assert said(replace(s, pass_control=True), destination, (CONTROL,), **as_job) == (outcome, number)
    # Outcomes 1 to 6 say 0, also of the own address; the log's octet, by the walk that keeps its readings and by appending a reading.
    line = on_line(own + other + high_first(0x0800) + [7] * 46)
    octets, marks = [octet for octet, _ in line], [mark for _, mark in line]
    log = logged_walk(PRINTING, State(), octets, marks, 0, [0] * 16).log
    assert log[5] == 1 and log == reading_appending([0] * 16, reading(PRINTING, State(), octets, marks, 0)).log
    for wrong, by in [(octets[:72] + [ERROR], 1), (octets[:5] + [0] + octets[6:], 2), (octets[:30] + [0] + octets[31:], 5)]:
        r = reading(PRINTING, State(), wrong, marks[:len(wrong)], 0)
        log = logged_walk(PRINTING, State(), wrong, marks[:len(wrong)], 0, [0] * 16).log
        assert (r.outcome, r.address) == (by, 0) and log[4:6] == [by, 0]


try_addresses()


# ---- Two jobs on one table, tried on both sides of their limits


def try_jobs():
    def address(n):
        return [1, 0, 0x5E, 1, 0, n]

    def filled(of_0, of_1):
        """So many entries of each job, those of job 0 first; no two addresses are alike."""
        return [(int(n >= of_0), address(n)) if n < of_0 + of_1 else None for n in range(16)]

    def given(call, *arguments):
        answer = call(*arguments)
        assert answer.refusal == 0 or answer.table == arguments[0]
        return answer.refusal, answer.entry

    # Every number of entries that a good table can have, and one more.
    new = address(99)
    for of_0 in range(14):
        for of_1 in range(min(13, 16 - of_0) + 1):
            for job, held in [(0, of_0), (1, of_1)]:
                broken = 13 in (of_0, of_1)
                expected = 20 if broken else 15 if held == 12 else 16 if of_0 + of_1 == 16 else 0
                assert given(adding, filled(of_0, of_1), job, new) == (expected, None if expected else of_0 + of_1)
                assert given(removing, filled(of_0, of_1), job, new) == (20 if broken else 18, None)
                assert given(adding, filled(of_0, of_1), 2, new) == given(removing, filled(of_0, of_1), 255, new) == (14, None)
                mine = [n for n in range(of_0 + of_1) if (n >= of_0) == job]
                for n in mine:  # 17 before 15 and 16
                    assert given(adding, filled(of_0, of_1), job, address(n)) == (20 if broken else 17, None)
                    assert given(removing, filled(of_0, of_1), job, address(n)) == ((20, None) if broken else (0, n))
                    assert given(removing, filled(of_0, of_1), 1 - job, address(n)) == (20 if broken else 18, None)
    # Freed entries, the lowest first, whoever freed them; both with the same address.
    table = filled(8, 8)
    for job, n in [(1, 13), (0, 2), (1, 9)]:
        table = removing(table, job, address(n)).table
    for job, n, entry in [(1, 98, 2), (0, 98, 9), (1, 99, 13)]:
        assert given(adding, table, job, address(n)) == (0, entry)
        table = adding(table, job, address(n)).table
        assert given(adding, table, job, address(n)) == (17, None)
    assert given(adding, table, 0, address(97)) == (16, None)
    # An address twice, of either job and in any two entries.
    twice = []
    for one in range(16):
        for two in range(one):
            for job in (0, 1):
                table = list(EMPTY)
                table[one] = table[two] = (job, address(5))
                twice.append(table)
                table = list(table)
                table[one] = (1 - job, address(5))  # of both jobs: not twice
                assert not bad_table(table)
    for table in twice + [filled(13, 0), filled(3, 13), filled(16, 0)]:
        assert given(adding, table, 0, address(5)) == given(removing, table, 1, address(5)) == (20, None)

    # The refusals of all calls that read, one after the other.
    bad, line = replace(PRINTING, limit=0), on_line(address(1) + [2, 0, 0, 0, 0, 9] + high_first(0x0800) + [7] * 60)
    octets, marks = [octet for octet, _ in line], [mark for _, mark in line]
    beyond = len(line) + 1

    def refusals(s, marks_given, place, job, table):
        captures = [(octets, marks_given)] * 2
        return [reading(s, State(), octets, marks_given, place, job, table).refusal, walk(s, State(), octets, marks_given, place, job, table)[-1].refusal,
                why(s, octets, marks_given, place, job, table).refusal, showing(s, captures, place, job, table)[0],
                logged_walk(s, State(), octets, marks_given, place, [1], job, table).refusal]

    for table in (filled(13, 0), filled(0, 13), twice[0]):
        assert refusals(bad, marks[1:], beyond, 2, table) == [1] * 5
        assert refusals(PRINTING, marks[1:], beyond, 2, table) == refusals(PRINTING, marks, 0, 255, table) == [14] * 5
        for job in (0, 1):
            assert refusals(PRINTING, marks[1:], beyond, job, table) == [2] * 5 and refusals(PRINTING, marks, beyond, job, table) == [3] * 5
            assert refusals(PRINTING, marks, 0, job, table) == refusals(PRINTING, marks, beyond - 1, job, table) == [20] * 5
            assert refusals(PRINTING, marks, 0, job, EMPTY) == [0] * 4 + [11]

    # A job's readings depend on its own entries, and on where they stand only in item 7's answer.
    for table, seen in [(EMPTY, [(7, 0), (7, 0)]), (filled(2, 0), [(11, 17), (7, 0)]), (filled(1, 1), [(7, 0), (11, 17)]),
                        ([(1, address(1)), None, (0, address(1))] + [None] * 13, [(11, 18), (11, 16)]),
                        ([None] * 15 + [(1, address(1))], [(7, 0), (11, 31)])]:
        # The other capture is one that any reading would refuse.
        for job, captures in [(0, [(octets, marks), (octets, [])]), (1, [(octets, []), (octets, marks)])]:
            r = reading(PRINTING, State(), octets, marks, 0, job, table)
            assert (r.outcome, r.address) == seen[job] and why(PRINTING, octets, marks, 0, job, table).outcome == r.outcome
            assert fields_of(r).address == seen[job][1] == logged_walk(PRINTING, State(), octets, marks, 0, [0] * 16, job, table).log[5]
            assert showing(PRINTING, captures, 0, job, table) == (0, (22, 60) if r.outcome == 11 else (0, 0))
            assert showing(PRINTING, captures, 1, job, table) == (0, (0, 0)) and showing(PRINTING, captures[::-1], 0, job, table) == (2, (0, 0))


try_jobs()


# ---- The reasons, tried with a frame for each outcome and at both sides of each limit


def try_reasons():
    own, other = PRINTING.own, [2, 0, 0, 0, 0, 9]

    def framed(header, data, destination=own):
        covered = destination + other + [octet for number in header for octet in high_first(number)] + data
        return covered + fcs(covered)

    def asked(run, by=TERMINATE, s=PRINTING):
        """Asked from the front and from the Start, which stands at place 2; the next place is that of the ending symbol."""
        octets, marks = [IDLE, START, START] + run + [by, START], [1, 0, 1] + [0] * len(run) + [1, 1]
        answers = [why(s, octets, marks, place) for place in range(3)]
        assert answers[0] == answers[1] == answers[2] and (answers[0].start, answers[0].next) == (2, 3 + len(run))
        return answers[0].outcome, answers[0].evidence

    def asked_of(frame, s=PRINTING):
        return asked(PREAMBLE + frame, s=s)

    good = framed([0x0800], [7] * 46)
    # 1 and 2: the ending symbol, runs of up to 7, and each of the seven places.
    for n in (0, 6, 7, 71):
        for by in (IDLE, START, ERROR, 0x9C):
            assert asked((PREAMBLE + good)[:n], by) == (1, (3 + n, by))
    for n in range(7):
        assert asked(PREAMBLE[:n]) == asked([0] * n) == (2, ("length", n))
        assert asked(PREAMBLE[:n] + [0] * (7 - n)) == asked(PREAMBLE[:n] + [0] + PREAMBLE[n + 1:] + good) == (2, ("place", 3 + n))
    # 3 and 4: both sides of 64, and of M with each number of tags; a ninth adds nothing.
    assert [asked_of(good[:n]) for n in (0, 63)] == [(3, (0, 64)), (3, (63, 64))] and asked_of(good[:64])[0] == 11
    for n in range(10):
        header = [SERVICE, 5] * n + [0x0800]
        limit = 1518 + 4 * min(n, 8)
        data = [7] * (limit - 18 - 4 * n)
        assert asked_of(framed(header, data))[0] == 11
        assert asked_of(framed(header, data + [7])) == (4, (limit + 1, limit)) == asked_of(framed(header, data + [7])[:-1] + [0])
    # 5: a published check value, of digits, stands in the place of another and the other way round.
    digits = [ord(digit) for digit in "123456789"]
    assert check(digits) == 0xCBF43926
    right = check(good[:-4])
    assert asked_of(good[:-4] + [0x26, 0x39, 0xF4, 0xCB]) == (5, (0xCBF43926, right)) and right != 0xCBF43926
    assert asked_of(good[:20] + [8] + good[21:]) == (5, (right, check(good[:20] + [8] + good[21:-4])))
    # 6: the field after the last tag, and all of the data; before the address.
    for n in range(9):
        for number, data in [(0, 47), (45, 47), (46, 47), (47, 46), (1501, 46), (1535, 46)]:
            assert asked_of(framed([CUSTOMER, 5] * n + [number], [7] * data, other)) == (6, (number, data))
        assert asked_of(framed([CUSTOMER, 5] * n + [1536], [7] * 46))[0] == 11
    # 7 to 10.
    passing = replace(PRINTING, pass_control=True)
    for destination in (other, RESERVED_GROUP, [1, 2, 3, 4, 5, 6]):
        assert asked_of(framed([0x0800], [7] * 46, destination)) == (7, (destination,))
    for opcode in (0, 1, 2, 0x0100, 0x0101, 0xFFFF):
        for destination in (own, RESERVED_GROUP):
            control = framed([CONTROL], high_first(opcode) + [7] * 44, destination)
            assert asked_of(control) == (10, (opcode,)) and asked_of(control, passing) == (11, (24, 46))
            assert asked_of(control, replace(PRINTING, flow="pause")) == (8 if opcode == 1 else 10, (opcode,))
            taken = opcode == 0x0101 and destination == RESERVED_GROUP
            assert asked_of(control, replace(PRINTING, flow="PFC")) == (9 if taken else 10, (opcode,))
    # 11: the data's place, also where nothing is handed out.
    for n in range(9):
        for number in (0, 1, 45, 46, 47):
            frame = framed([CUSTOMER, 5] * n + [number], [7] * max(46, number))
            assert asked_of(frame) == (11, (24 + 4 * n, number))
            assert asked_of(frame, replace(PRINTING, checking=False)) == (11, (24 + 4 * n, max(46, number)))
    # Without a reason, and refused.
    line = [IDLE, START, 0]
    assert [why(PRINTING, line, [1, 1, 0], place) for place in range(5)] == [
        Why("open", 1, 1), Why("open", 1, 1), Why("none", 3, 3), Why("none", 3, 3), Why("refused", 4, 4, 3)]
    assert why(PRINTING, line, [1, 1], 4) == Why("refused", 4, 4, 2) and why(replace(PRINTING, limit=0), line, [1, 1], 4) == Why("refused", 4, 4, 1)


try_reasons()


# ---- The totals of Starts, tried on both sides of their limits


def try_totals():
    client = Client([2, 0, 0, 0, 0, 9], [], None, 0, [])
    pausing, by_class, bad = replace(PRINTING, flow="pause"), replace(PRINTING, flow="PFC"), replace(PRINTING, limit=0)

    def line(length):
        """Starts as control and as data, and other symbols, with no pattern in the blocks."""
        symbols = [(START if n % 3 else IDLE, n * n % 7 % 3) for n in range(length)]
        return [octet for octet, _ in symbols], [mark for _, mark in symbols]

    # The number of blocks; every place around them, each held against the count over everything.
    for length, blocks in [(0, 0), (1, 1), (255, 1), (256, 1), (257, 2), (511, 2), (512, 2), (513, 3)]:
        octets, marks = line(length)
        refusal, totals = filling(octets, marks, [999] * blocks)
        assert refusal == 0 and totals == true_totals(octets, marks) and len(totals) == blocks
        for place in {0, 1, 254, 255, 256, 257, 511, 512, 513} & set(range(length + 1)):
            assert starts_before(octets, marks, totals, place)[0] == 0
        for number in {0, blocks - 1, blocks + 1, blocks + 2} - {-1, blocks}:
            assert filling(octets, marks, [7] * number) == (21, [7] * number) and starts_before(octets, marks, [7] * number, 0) == (21, None)
            assert idle_sending(State(), octets, marks, 0, 0, totals=[7] * number).refusal == 21
    # Totals that are not true are added all the same; the last block is looked into, and a whole one added.
    octets, marks = [START] * 512, [1] * 512
    for place, answer in [(0, 0), (1, 1), (255, 255), (256, 3), (257, 4), (511, 258), (512, 8)]:
        assert starts_before(octets, marks, [3, 5], place) == (0, answer)
    for total, refusal in [(255, 0), (256, 0), (257, 22), (65535, 22)]:
        for totals in ([total, 0], [0, total]):
            assert starts_before(octets, marks, totals, 0)[0] == refusal == idle_sending(State(), octets, marks, 512, 0, totals=totals).refusal
            assert filling(octets, marks, totals) == (0, [256, 256])
    # The refusals, one after the other, with what comes behind them wrong too.
    assert starts_before(octets, marks[1:], [300], 513) == (2, None) and filling(octets, marks[1:], [300]) == (2, [300])
    assert starts_before(octets, marks, [300], 513) == (3, None) and starts_before(octets, marks, [300], 512) == (21, None)
    assert starts_before(octets, marks, [300, 0], 512) == (22, None)
    worse, wrong, fresh = replace(client, cls=8), State(deficit=4), State()

    def client_call(totals, place=508, c=worse, state=fresh, s=PRINTING, marks_given=marks):
        return client_sending(s, state, octets, marks_given, place, c, FOUR_LANE, totals)

    def pause_call(totals, place=9, port=PLAIN):
        return pause_sending(PRINTING, wrong, octets, marks, place, 9, port, totals)

    def pfc_call(totals, place=9, port=PLAIN):
        return pfc_sending(PRINTING, wrong, octets, marks, place, 9, [9] * 8, port, totals)

    def idle_call(totals, place=512, marks_given=marks):
        return idle_sending(wrong, octets, marks_given, place, 9, totals)

    for number, totals, call, given in [
            (1, [300], client_call, dict(place=513, state=wrong, s=bad, marks_given=marks[1:])),
            (2, [300], client_call, dict(place=513, state=wrong, marks_given=marks[1:])), (3, [300], client_call, dict(place=513, state=wrong)),
            (3, [300], client_call, dict(place=511, state=wrong)), (19, [300], client_call, dict(state=wrong)), (21, [300], client_call, {}),
            (22, [300, 1], client_call, {}), (5, [256, 1], client_call, {}), (8, [256, 1], client_call, dict(c=client)),
            (3, [300], pause_call, dict(place=513)), (19, [300], pause_call, dict(place=8, port=FOUR_LANE)), (21, [300], pause_call, {}),
            (22, [1, 300], pause_call, {}), (4, [1, 256], pause_call, {}),
            (3, [300], pfc_call, dict(place=513)), (19, [300], pfc_call, dict(place=8, port=FOUR_LANE)), (21, [300], pfc_call, {}),
            (22, [1, 300], pfc_call, {}), (4, [1, 256], pfc_call, {}),
            (2, [300], idle_call, dict(place=513, marks_given=marks[1:])), (3, [300], idle_call, dict(place=513)), (21, [300], idle_call, {}),
            (22, [1, 300], idle_call, {}), (8, [1, 256], idle_call, {})]:
        answer = call(list(totals), **given)
        assert (answer.refusal, answer.totals, answer.octets) == (number, totals, octets)
    # What is written, around the blocks: those it lies in are counted anew, the others stay, whatever they say. All else is as without totals.
    octets, marks = [START] * 768, [1] * 768
    for place in (0, 171, 172, 173, 255, 256, 257, 428, 429, 684):
        calls = [lambda t: client_sending(PRINTING, State(), octets, marks, place, client, PLAIN, t),
                 lambda t: pause_sending(pausing, State(), octets, marks, place, 9, PLAIN, t),
                 lambda t: pfc_sending(by_class, State(), octets, marks, place, 9, [9] * 8, PLAIN, t),
                 lambda t: idle_sending(State(), octets, marks, place, 84, t)]
        for kind, call in enumerate(calls):
            a = call([9, 9, 9])
            assert a.refusal == 0 and replace(a, totals=None) == call(None) and call(true_totals(octets, marks)).totals == true_totals(a.octets, a.marks)
            for n, total in enumerate(a.totals):
                inside = [at for at in range(256 * n, 256 * n + 256) if place <= at < place + 84]
                # Of the 84 symbols only a frame's first is a Start.
                assert total == (256 - len(inside) + (kind < 3 and place in inside) if inside else 9)
        assert idle_sending(State(), octets, marks, place, 0, [9, 9, 9]).totals == [9, 9, 9]
    # The four-lane port's own gap: 9 symbols end at 256, 13 behind it.
    for deficit, totals in [(0, [173, 9]), (3, [173, 256 - 4])]:
        a = client_sending(PRINTING, State(deficit=deficit), [START] * 512, [1] * 512, 172, replace(client, data=[7] * 49), FOUR_LANE, [9, 9])
        assert (a.refusal, a.totals) == (0, totals)


try_totals()


# ---- The plain reader, held against the walk


def try_plain():
    own, other, group = PRINTING.own, [2, 0, 0, 0, 0, 9], [1, 2, 3, 4, 5, 6]
    before = State([2**64 - 1] * 11, [5] * 8, 77)  # a state that any counting and any setting would change
    table = [None, (0, other), (1, group), (0, BROADCAST), (1, own)] + [None] * 11

    def framed(header, data, destination=own):
        covered = destination + other + [octet for number in header for octet in high_first(number)] + data
        return covered + fcs(covered)

    def line(frame, by=TERMINATE):
        return [(START, 1)] + [(octet, 0) for octet in PREAMBLE + frame] + [(by, 1)]

    def taken(symbols, s=PRINTING, job=0, table_given=EMPTY):
        """What ended in these symbols, taken behind an Idle and held against the walk."""
        refusal, answers, reader = plain_walk(s, before, [IDLE] + [octet for octet, _ in symbols], [1] + [mark for _, mark in symbols], job, table_given)
        assert refusal == 0 and reader.state.deficit == before.deficit
        return answers

    # Runs of every length, and every front of a capture, that ends open or not; each of the seven octets wrong.
    good = framed([0x0800], [7] * 46)
    for n in range(72):
        run = (PREAMBLE + good)[:n]
        symbols = [(START, 1)] + [(octet, 0) for octet in run]
        assert taken(symbols) == [] and taken(symbols + [(ERROR, 1)]) == [Ended(1)] == taken(symbols + [(START, 0x80)])
        whole = Ended(11, 0x400040002E, (23, 46), 1)
        assert taken(symbols + [(TERMINATE, 1), (START, 0)]) == [Ended(2) if n < 7 else Ended(3) if n < 71 else whole]
    for n in range(7):
        assert taken([(o if at != n + 1 else o ^ 1, mark) for at, (o, mark) in enumerate(line(good))]) == [Ended(2)]
    # The limits of the frame and the length rule, with each number of tags; the FCS with each octet wrong.
    tags = [SERVICE, 5, CUSTOMER, 6] * 5
    for n in (0, 8, 9):
        most = 1518 + 4 * min(n, 8) - 18 - 4 * n
        assert [e.outcome for size in (most, most + 1) for e in taken(line(framed(tags[:2 * n] + [0x0800], [7] * size)))] == [11, 4]
    for n in (0, 1, 2, 8):
        for number in (0, 14, 15, 42, 45, 46, 47, 1501, 1535, 1536):
            for size in {46, 47, 46 - 4 * n, min(60, max(number, 46 - 4 * n))}:
                taken(line(framed(tags[:2 * n] + [number], [7] * size)), replace(PRINTING, checking=n != 2))
    assert [e.outcome for number in (1500, 1501) for e in taken(line(framed([number], [7] * number)), replace(PRINTING, limit=9618))] == [11, 6]
    for at in list(range(0, 60, 5)) + [60, 61, 62, 63]:
        assert taken(line(good[:at] + [good[at] ^ 0x40] + good[at + 1:])) == [Ended(5)]
    # Addresses, control frames and their timers, by settings of every sort.
    for number in range(12):
        job = number % 2
        s = replace(PRINTING, broadcast=job == 0, promiscuous=number // 2 % 2 == 0, pass_control=job == 1, flow=["none", "pause", "PFC"][number // 4])
        for destination in (own, other, group, RESERVED_GROUP, BROADCAST):
            symbols = line(framed([0x0800], [7] * 46, destination)) + line(framed([CUSTOMER, 0, CONTROL], [0, 1] + [7] * 44, destination))
            for opcode in (0x0100, 0x0101, 1):
                symbols += line(framed([CONTROL], high_first(opcode) + [9, 0xA6] + list(range(3, 19)) + [7] * 30, destination))
            taken(symbols, s, job, table)
    # Drawn symbols and damaged frames.
    draw = random.Random(12)
    for _ in range(40):
        symbols = []
        for _ in range(draw.randrange(5)):
            piece = line(framed([draw.choice([0x0800, 20, CONTROL])], [0, 1] + [7] * draw.choice([44, 60])), draw.choice([TERMINATE, START, IDLE]))
            at = draw.randrange(len(piece))
            symbols += piece[:at] + [(draw.choice([START, TERMINATE, 0x55, 0xD5]), draw.choice([0, 1])) for _ in range(draw.randrange(4))] + piece[at:]
        taken(symbols, replace(PRINTING, flow="pause"))
    # The refusals, one after the other, with the state kept; the symbol 65,536 is taken.
    bad, broken = replace(PRINTING, limit=0), [(1, own)] * 2 + [None] * 14
    for at, number in [(0, 0), (65535, 0), (65536, 2), (65537, 2)]:
        for run in (None, Run(9, [0x55] * 9, 0, [0x55] * 2)):
            reader = PlainReader(at, run, before)
            for symbol in [(0x55, 0), (START, 1), (TERMINATE, 1), (IDLE, 1)]:
                for refusal, given in [(1, (bad, 2, broken)), (14, (PRINTING, 2, broken)), (20, (PRINTING, 1, broken)), (number, (PRINTING, 1, EMPTY))]:
                    step = taking(given[0], reader, *symbol, *given[1:])
                    assert step.refusal == refusal and (step.reader == reader if refusal else step.reader.taken == at + 1)
                    assert (step.ended is not None) == (refusal == 0 and run is not None and symbol[1] == 1)


try_plain()


# ---- The size table, tried on both sides of each band


def try_sizes():
    wide, other, edges = replace(PRINTING, limit=9618), [2, 0, 0, 0, 0, 9], [64, 65, 127, 128, 255, 256, 511, 512, 1023, 1024, 1518, 1519, 9618]

    def line(length, header=(0x0800,), destination=PRINTING.own):
        """A frame of that length, without Idles."""
        covered = destination + other + [octet for number in header for octet in high_first(number)]
        return on_line(covered + [7] * (length - 4 - len(covered)), 1)

    def added(symbols, sizes=SizeTable(), s=wide, **by):
        refusal, after = adding_sizes(sizes, s, [octet for octet, _ in symbols], [mark for _, mark in symbols], **by)
        assert refusal == 0
        return after

    # Each edge by itself, with as many tags as fit, and all in one capture and in another order; an undersized and an oversized one are in no band.
    for n, length in enumerate(edges):
        band = (n + 1) // 2
        for header in ([0x0800], [SERVICE, 5, 0x0800], [CUSTOMER, 5] * 8 + [0x0800]):
            assert added(line(length, header)) == SizeTable([int(k == band) for k in range(7)], [length * (k == band) for k in range(7)])
    whole = SizeTable([1, 2, 2, 2, 2, 2, 2], [64, 192, 383, 767, 1535, 2542, 11137])
    one_by_one = SizeTable()
    for length in edges[::-1]:
        one_by_one = added(line(length), one_by_one)
    every = [symbol for length in edges for symbol in line(length)] + line(63) + line(9619) + line(64, destination=other) + [(START, 1)]
    assert added(every) == whole == one_by_one
    assert added(line(9650, [CUSTOMER, 5] * 8 + [0x0800])).octets[6] == 9650
    # Outcomes 8 to 11; of a frame that is padded, all of it.
    pause = pause_symbols(PRINTING, 3)
    for s, symbols, n in [(replace(PRINTING, flow="pause"), pause, 64), (replace(PRINTING, flow="PFC"), pfc_symbols(PRINTING, 3, [1] * 8), 64),
                          (PRINTING, pause, 64), (replace(PRINTING, pass_control=True), pause, 64),
                          (PRINTING, line(64, [0]), 64), (PRINTING, line(64, [1501]), 0), (PRINTING, line(64)[:-1] + [(ERROR, 1)], 0),
                          (PRINTING, [(o ^ (n == 30), m) for n, (o, m) in enumerate(line(64))], 0), (PRINTING, line(64)[2:], 0)]:
        assert added(symbols, s=s) == SizeTable([int(n > 0)] + [0] * 6, [n] + [0] * 6)
    # By the entries of the job.
    for job, n in [(0, 0), (1, 1)]:
        assert sum(added(line(100, destination=other), job=job, table=[None, (1, other)] + [None] * 14).frames) == n
    # Both roll over, each by itself.
    for frames, octets, after in [(2**64 - 1, 2**64 - 63, (0, 1)), (2**64 - 2, 2**64 - 64, (2**64 - 1, 0)), (2**32 - 1, 2**64 - 65, (2**32, 2**64 - 1))]:
        assert added(line(64), SizeTable([frames] * 7, [octets] * 7)) == SizeTable([after[0]] + [frames] * 6, [after[1]] + [octets] * 6)
    # The refusals of the walk, one after the other.
    before, octets, marks = SizeTable([3] * 7, [4] * 7), [octet for octet, _ in every], [mark for _, mark in every]
    broken = [(1, other)] * 2 + [None] * 14
    for refusal, given in [(1, (replace(wide, limit=0), octets, marks[1:], 2, broken)), (14, (wide, octets, marks[1:], 2, broken)),
                           (2, (wide, octets, marks[1:], 1, broken)), (20, (wide, octets, marks, 1, broken)), (2, (wide, [IDLE] * 65537, [1] * 65537))]:
        assert adding_sizes(before, *given) == (refusal, before)


try_sizes()


# ---- Quiet, tried on traces and with drawn calls


def try_quiet():
    # Traces, loud and not, on both sides of the last symbol of the quiet.
    one, idles = Wrote(84, 3), lambda n: Wrote(n, None)
    for trace, at in [
            ([one], None), ([Set(3, 0), one], None), ([Set(3, 1), one], 1), ([Set(3, 1), idles(63), one], 2), ([Set(3, 1), idles(64), one], None),
            ([Set(3, 65535), idles(64 * 65535 - 1), one], 2), ([Set(3, 65535), idles(64 * 65535), one], None), ([one, Set(3, 1)], None),
            ([Set(3, 2), Wrote(84, 2), one], 2), ([Set(3, 2), Wrote(84, 2), idles(43), one], 3), ([Set(3, 2), Wrote(84, 2), idles(44), one], None),
            ([Set(3, 9), Set(3, 0), one], None), ([Set(3, 9), Set(2, 0), one], 2), ([Set(3, 0), Set(3, 1), one], 2), ([Set(2, 9), one], None),
            ([Set(3, 1), idles(60), Set(3, 1), idles(60), one], 4), ([Set(3, 3), idles(60), Set(3, 1), idles(64), one], None)]:
        assert loud(trace) == at
    own, other, draw, seen = PRINTING.own, [2, 0, 0, 0, 0, 9], random.Random(14), []

    def symbols():
        """A pause, a PFC frame or noise, at times cut."""
        few = [0, 1, 1, 2, 3, 7]
        line = draw.choice([pause_symbols(replace(PRINTING, own=other), draw.choice(few)), [(START, 1), (7, 0)],
                            pfc_symbols(replace(PRINTING, own=other), draw.randrange(256), [draw.choice(few) for _ in range(8)])])
        return line[:draw.choice([30] + [len(line)] * 7)]

    def call(length):
        if draw.randrange(4) == 0:
            line = [symbol for _ in range(draw.randrange(1, 4)) for symbol in symbols()]
            capture = draw.choice([None] + [([octet for octet, _ in line], [mark for _, mark in line])] * 3)
            table = draw.choice([EMPTY, [(0, other)] + [None] * 15, [(1, other)] * 2 + [None] * 14])
            return Hearing(draw.choice(["reading", "walk", "logged", "plain"]), capture, draw.choice([0, 0, 84, 999]), draw.randrange(4),
                           draw.choice([0, 0, 1, 1, 2]), table)
        tags, data = draw.choice([[], [], [(SERVICE, 5)] * 2]), [7] * draw.choice([0, 0, 49])
        client = Client(draw.choice([own, other]), tags, draw.choice([None, 0x0800]), draw.randrange(9), data)
        what, asked = draw.choice([("client", client)] * 4 + [("idle", draw.choice([0, 1, 63, 64, 65, 300])), ("pause", draw.choice([0, 1, 3])),
                                                              ("pfc", (draw.randrange(256), [1] * 8))])
        return Writing(what, draw.choice([0, 0, 4, 7, length - 84, length]), asked, draw.choice([PLAIN, FOUR_LANE]), draw.randrange(3) == 0)

    for _ in range(60):
        length = draw.choice([84, 400])
        calls = [call(length) for _ in range(25)]
        trace, state = quiet_calls(replace(PRINTING, flow=draw.choice(["pause", "PFC"])), State(), [0xA7] * length, [0xC9] * length, calls)
        # From a fresh state no class is held any longer than that.
        for n in range(8):
            at = max((at for at, event in enumerate(trace) if isinstance(event, Set) and event.cls == n), default=None)
            left = 0 if at is None else 64 * trace[at].quanta - sum(event.count for event in trace[at:] if isinstance(event, Wrote))
            assert state.timers[n] == max(0, left)
        seen += trace
    sets, starts = [event for event in seen if isinstance(event, Set)], [event for event in seen if isinstance(event, Wrote) and event.cls is not None]
    assert len(sets) > 300 and len(starts) > 100
    # Every way to read sets the same, and what follows is held by it.
    line = [(START, 1)] + pause_symbols(PRINTING, 2) + pfc_symbols(PRINTING, 0x81, [3] * 8)
    capture, client = ([octet for octet, _ in line], [mark for _, mark in line]), Client(other, [], None, 7, [])
    for flow, sets, slots in [("pause", 8, 128), ("PFC", 2, 192), ("none", 0, 0)]:
        place = 1 if flow == "pause" else 2
        for c in [Hearing("walk", capture), Hearing("plain", capture), Hearing("logged", capture, 1, 2), Hearing("reading", capture, place)]:
            for n, starts in [(0, slots == 0), (max(0, slots - 1), slots == 0), (slots, True)]:
                calls = [c, Writing("idle", 5, n), Writing("client", 9, client)]
                trace, state = quiet_calls(replace(PRINTING, flow=flow), State(), [0] * 400, [0] * 400, calls)
                assert len(trace) == sets + 1 + starts


try_quiet()
