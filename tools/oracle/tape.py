"""Calls of the C face on a tape, for crates/cases, and what the program must print of them, as model.py works it out.

The tape: the place of the first call in eight octets, what the calls name, the calls, and the FCS of all that, low octet first; of a tape that does not
end in it no call is made. Every number is eight octets, high octet first. A call is fifteen numbers: kind (0 readings, 1 client, 2 pause, 3 PFC, 4 Idle
fill); name; settings; state; client frame; quanta; place; a number (how many readings at most, and a walk after them if that is more than one; quanta; class
octet; Idles); octets; marks; data; log; totals; job; table. What lies elsewhere on the tape is named by its place, and where its length is not known, by its
place times 2^32 plus its length. A state, quanta and totals are numbers; a name and data are octets; settings, a client frame, the two buffers, a log and a
table are runs: how many octets, the first, and what is added from one to the next. In a sending of a frame the port stands in place of the log: 0 plain,
anything else the four-lane one. Only calls that read and calls of two jobs look at job and table.

Calls on a log: kinds 5 append, 6 append a reading, 7 look (record, next record and used records), 8 the walk that keeps its readings. In that walk the log has
its own number. In the others it stands in place of the octets, a record of 16 octets in place of the client frame, the numbers of a reading in place of the
state, and a record number in place of the place; record and number are also what a refusal must leave.

Kind 9 asks why the first Start at a place or later has its outcome. It has settings, place, both buffers, job and table; the rest is not looked at.

Calls with the totals of a capture: kind 10 fills them; 11 to 14 are the sendings 1 to 4 that keep them; 15 asks how many Starts lie before the place, and its
number is what a refusal must leave. Of the totals those are printed that are not as on the tape.

Calls of two jobs: kind 16 makes the table an empty one, 17 adds to it and 18 removes, an address of six octets in place of the client frame; their number is
what a refusal must leave in place of the entry. 19 asks what the screen shows: octets and marks are the capture of job 0, and that of job 1 stands, as octets,
in place of data and log.

Room in the log: kind 20 deletes a record, 21 all records of an outcome, and 22 compacts, with the log as in the kinds 5 to 7. The record number stands in place
of the place; the outcome is the call's number, and then the place is what a refusal must leave in place of how many were deleted.

The plain reader: kind 23 gives it the symbols one by one, as many as there are octets. It is fresh, but that the place is how many symbols it has taken.

The size table: kind 24 adds a capture to it, 25 another table, and 26 makes it a fresh one. Its fourteen numbers, the frames of each band and then their
octets, stand in place of the totals, and behind them those of the other table. Of its counts those are printed that are not as on the tape.
"""
import zlib

READINGS, CLIENT, PAUSE, PFC, IDLE, APPEND, APPEND_READING, LOOK, KEEP, EXPLAIN, FILL = range(11)
COUNTED = 10  # what is added to the kind of a sending that keeps totals
STARTS_BEFORE, EMPTY_TABLE, ADD, REMOVE, SCREEN, DELETE, DELETE_OUTCOME, COMPACT, PLAIN, ADD_CAPTURE, ADD_TABLE, FRESH_SIZES = range(15, 27)
MOST_READINGS = 16
LONGEST = 524288  # what the program reads
ONES = 2**64 - 1
KINDS = {0x8100: 0, 0x88A8: 1}
FLOWS = {"none": 0, "pause": 1, "PFC": 2}


def number(n):
    return n.to_bytes(8, "big")


def runs(octets):
    """As few runs as going forward gives: each of up to 255 octets, one step apart."""
    out, i = bytearray(), 0
    while i < len(octets):
        step = (octets[i + 1] - octets[i]) % 256 if i + 1 < len(octets) else 0
        n = 1
        while n < 255 and i + n < len(octets) and octets[i + n] == (octets[i + n - 1] + step) % 256:
            n += 1
        out += bytes([n, octets[i], step])
        i += n
    return bytes(out)


def settings_octets(s, spare=0):
    """The spare octets are not looked at."""
    flags = [s.broadcast, s.promiscuous, s.checking, s.pass_control]
    return bytes(s.own + [int(flag) for flag in flags] + [FLOWS[s.flow], spare]) + s.limit.to_bytes(2, "little") + bytes([spare] * 10)


def entry_octets(entry, spare=0):
    """Who holds it, the address, and an octet that is not looked at."""
    return [0] * 8 if entry is None else [1 + entry[0]] + entry[1] + [spare]


def table_octets(table, free=None, spare=0):
    """What stands in a free entry is `free`: nobody holds one with a first octet other than 1 and 2."""
    return bytes(octet for entry in table for octet in (free if entry is None and free else entry_octets(entry, spare)))


def entries(octets):
    """The table that these octets are."""
    parts = [list(octets[at:at + 8]) for at in range(0, 128, 8)]
    return [(part[0] - 1, part[1:7]) if part[0] in (1, 2) else None for part in parts]


def client_octets(c):
    tags = c.tags
    head = bytes(c.destination + [c.cls, int(c.type is not None)]) + (c.type or 0).to_bytes(2, "little") + bytes([len(tags), 0])
    run = b"".join(bytes([KINDS[kind], 0]) + control.to_bytes(2, "little") for kind, control in tags[:8])
    return (head + run).ljust(44, b"\0")


def state_numbers(state, worn=False, deficit=None):
    """Counters, timers, the deficit count and what is kept for later. A worn state has ones above the 32 bits of each timer, in the count and in what is
    kept: but for the count no call looks at them, and a refused one leaves them. A count that is given stands in place of the state's."""
    above = ONES - 0xFFFFFFFF if worn else 0
    if deficit is None:
        deficit = ONES if worn else state.deficit
    return list(state.counters) + [above + n for n in state.timers] + [deficit] + [ONES if worn else 0] * 4


class Tape:
    def __init__(self):
        self.named, self.calls, self.lines = bytearray(8), [], []

    def place(self, octets):
        """Where these octets lie on the tape: they lie there once, be it as a part of others."""
        at = self.named.find(bytes(octets), 8)
        if at < 0:
            at = len(self.named)
            self.named += bytes(octets)
        return at

    def part(self, octets, coded=None):
        return self.place(octets if coded is None else coded) << 32 | len(octets)

    def call(self, kind, name, s, state, place, n, octets, marks, client=bytes(44), quanta=(0,) * 8, data=b"", worn=False, log=b"", deficit=None,
             port=None, totals=(), job=0, table=bytes(128), spare=0):
        self.add(kind, name, settings_octets(s, spare) if s else bytes(24), state_numbers(state, worn, deficit), client, quanta, place, n, octets, marks, data,
                 log, totals, job, table)
        if port is not None:
            self.calls[-1][11] = port

    def log_call(self, kind, name, log, place=0, record=bytes(16), reading=(0,) * 24, n=0):
        self.add(kind, name, bytes(24), reading, record, (0,) * 8, place, n, log, b"", b"", b"")

    def totals_call(self, kind, name, octets, marks, totals, place=0, n=0):
        self.add(kind, name, bytes(24), (0,) * 24, bytes(44), (0,) * 8, place, n, octets, marks, b"", b"", totals)

    def sizes_call(self, kind, name, counts, s=None, octets=b"", marks=b"", job=0, table=bytes(128)):
        self.add(kind, name, settings_octets(s) if s else bytes(24), (0,) * 24, bytes(44), (0,) * 8, 0, 0, octets, marks, b"", b"", counts, job, table)

    def table_call(self, kind, name, table, job, address, n):
        self.add(kind, name, bytes(24), (0,) * 24, address, (0,) * 8, 0, n, b"", b"", b"", b"", (), job, table)

    def screen_call(self, name, s, captures, place, job, table):
        (octets, marks), others = captures
        self.add(SCREEN, name, settings_octets(s), (0,) * 24, bytes(44), (0,) * 8, place, 0, octets, marks, others[0], b"", (), job, table)
        self.calls[-1][11] = self.part(bytes(others[1]))

    def add(self, kind, name, settings, state, client, quanta, place, n, octets, marks, data, log, totals=(), job=0, table=bytes(128)):
        self.calls.append([kind, self.part(name.encode() + b":"), self.place(runs(settings)), self.place(b"".join(number(n) for n in state)),
                           self.place(runs(client)), self.place(b"".join(number(q) for q in quanta)), place, n, self.part(octets, runs(octets)),
                           self.part(marks, runs(marks)), self.part(bytes(data)), self.part(log, runs(log)),
                           self.part(totals, b"".join(number(total) for total in totals)), job, self.place(runs(table))])

    def octets(self):
        tape = bytes(number(len(self.named)) + self.named[8:] + b"".join(number(n) for call in self.calls for n in call))
        tape += zlib.crc32(tape).to_bytes(4, "little")
        assert len(tape) <= LONGEST, len(tape)
        return tape

    def text(self):
        return "".join(line + "\n" for line in self.lines).encode()

    def tell(self, name, what, refused, before, after, worn=False, deficit=None):
        """A line that the program must print: what was answered, and what changed of the state's numbers. A count that the model cannot say stays."""
        was = state_numbers(before, worn, deficit)
        now = was if refused else state_numbers(after, deficit=was[19] if was[19] > 255 else None)
        self.lines.append(f"{name}: {what} counters" + changed(was[:11], now[:11], 1) + " timers" + changed(was[11:19], now[11:19], 0) + changed(was[19:], now[19:], 19))


def changed(before, after, first):
    return "".join(f" {first + i}={b}" for i, (a, b) in enumerate(zip(before, after)) if a != b)


def checksum(octets):
    return f"{zlib.crc32(bytes(octets)):08x}"


TAPE = Tape()
