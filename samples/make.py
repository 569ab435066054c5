#!/usr/bin/env python3
"""Makes the sample captures of this folder, NAME.capture, and beside each what the programs print of it: the printing program NAME.txt, `why` NAME.why.txt,
`size_table` NAME.sizes.txt; of one also a log of its readings, NAME.log, and a line on each record, NAME.log.txt, and a shorter log after each of six calls,
room.log and room.log.txt: all by the independent model (tools/oracle/model.py). `samples/make.py` writes them; `samples/make.py --check` writes nothing and
compares them with the files kept."""
import random
import sys
from dataclasses import replace
from pathlib import Path

HERE = Path(__file__).resolve().parent
sys.dont_write_bytecode = True  # nothing but the samples is written into the repository
sys.path.insert(0, str(HERE.parent / "tools" / "oracle"))
from model import (BROADCAST, CONTROL, CUSTOMER, ERROR, IDLE, PRINTING, SERVICE, START, TERMINATE, Client, State, client_symbols, compacting,  # noqa: E402
                   deleting, deleting_all, high_first, idle_symbols, log_records, logged_walk, on_line, pause_symbols, pfc_symbols, printed, read_back,
                   records, used_only, walks_on)
from reason_text import whys  # noqa: E402
from size_text import size_lines  # noqa: E402

US = PRINTING.own
PEER = replace(PRINTING, own=[0x02, 0, 0, 0, 0, 0x09])  # the station at the other end: the source of every frame here
OTHER = [0x02, 0, 0, 0, 0, 0x02]
IPV4, ARP = 0x0800, 0x0806
TAG = (CUSTOMER, 0x2005)  # priority 1, VLAN 5
OUTER_TAG = (SERVICE, 0x2064)  # a provider's: priority 1, VLAN 100
PEER_IP, OUR_IP = bytes([192, 0, 2, 9]), bytes([192, 0, 2, 1])  # from the block for documentation


# ---- Frames, each as the symbols from its Start to its eleventh Idle


def client(data, to=US, tags=(), kind=None):
    """In the length form unless `kind` is a type; the model pads it and adds the FCS."""
    return client_symbols(PEER, Client(to, list(tags), kind, 0, list(data)))


def raw(field, data):
    """Any field over any data, with the right FCS: what no sender here would write."""
    return on_line(US + PEER.own + high_first(field) + list(data))


def internet_checksum(octets):
    """RFC 1071, over an even number of octets."""
    total = sum(int.from_bytes(octets[i:i + 2], "big") for i in range(0, len(octets), 2))
    while total >> 16:
        total = (total & 0xFFFF) + (total >> 16)
    return (total ^ 0xFFFF).to_bytes(2, "big")


def echo_request(n):
    """An IPv4 packet of 84 octets: the nth echo request, with the usual 56 octets behind its header."""
    icmp = [b"\x08\x00", bytes([0, 1, 0, n]) + bytes(range(8, 64))]
    message = icmp[0] + internet_checksum(b"".join(icmp)) + icmp[1]
    ip = [b"\x45\x00" + (20 + len(message)).to_bytes(2, "big") + bytes([0, n, 0x40, 0x00, 64, 1]), PEER_IP + OUR_IP]
    return ip[0] + internet_checksum(b"".join(ip)) + ip[1] + message


def who_has():
    """An ARP request of 28 octets."""
    return bytes.fromhex("0001080006040001") + bytes(PEER.own) + PEER_IP + bytes(6) + OUR_IP


def damaged(symbols, at):
    """One bit of one octet is turned."""
    octet, mark = symbols[at]
    return symbols[:at] + [(octet ^ 0x04, mark)] + symbols[at + 1:]


# ---- The samples


def first():
    return (
        idle_symbols(12)
        + client(b"hello, fenhamper")  # length form: 16 octets, 30 of padding
        + client(who_has(), to=BROADCAST, kind=ARP)
        + client(echo_request(1), kind=IPV4)
        + damaged(client(echo_request(2), kind=IPV4), 50)
        + client(echo_request(3), kind=IPV4)[:60]  # its rest and its gap are lost: the next Start cuts it
        + client(b"right behind the damage")
        + client(b"not for us", to=OTHER)
        + pause_symbols(PEER, 0xFFFF)
        + client(echo_request(4), tags=[TAG], kind=IPV4)
    )


def outcomes():
    return (
        client(b"cut")[:40] + [(ERROR, 1)] + idle_symbols(11)  # 1
        + damaged(client(b"preamble"), 7)  # 2: the octet behind six of 0x55
        + raw(IPV4, bytes(45))  # 3: 63 octets
        + raw(IPV4, bytes(1501))  # 4: 1,519 octets
        + damaged(client(b"check"), 30)  # 5
        + raw(45, bytes(47))  # 6: under 46, and not padded to 46
        + client(b"filter", to=OTHER)  # 7
        + pfc_symbols(PEER, 0xFF, [1] * 8)  # 10: 8 and 9 need another flow mode than the program's, which is none
        + client(b"client")  # 11
    )


def tags():
    return (
        client(b"one tag", tags=[TAG])
        + client(b"one tag", tags=[OUTER_TAG])
        + client(b"a provider's tag outside", tags=[OUTER_TAG, TAG])
        + client(b"a provider's tag inside", tags=[TAG, OUTER_TAG])
        + client(b"eight tags", tags=[OUTER_TAG, TAG] * 4)
        + client(b"nine tags", tags=[OUTER_TAG, TAG] * 4 + [TAG])  # no sender writes it: the ninth is a type, and all behind it is data
        + client(b"\x00\x01\xff\xff", tags=[OUTER_TAG, TAG], kind=CONTROL)  # as a pause frame, but behind tags: a type
    )


def sized(length, tags=()):
    """By type, of so many octets from destination to FCS."""
    return client(bytes(length - 18 - 4 * len(tags)), tags=tags, kind=IPV4)


def sizes():
    """A mix of frames, some at the edges of the bands, and what is in no band: a damaged one, one for another station, one whose run is still open."""
    lengths = [64] * 6 + [65, 90, 127] * 3 + [128, 255] * 2 + [256, 300, 511] + [512, 1023] + [1024] + [1518] * 2
    return (
        sum((sized(length) for length in lengths), [])
        + sized(1522, tags=[TAG])  # by its tag one above 1518
        + client(b"padded to 64 octets")
        + pause_symbols(PEER, 0xFFFF)
        + damaged(sized(64), 30)
        + client(b"not for us", to=OTHER)
        + sized(64)[:60]
    )


def half_a_frame():
    return client(echo_request(1), kind=IPV4) + client(echo_request(2), kind=IPV4)[:60]


def noise():
    # Only random() itself is promised to draw the same numbers in every version of Python.
    rng = random.Random(1)

    def pick(values):
        return values[int(rng.random() * len(values))]

    def stretch(n):
        octets = [START, TERMINATE, IDLE, ERROR, 0x9C, 0x55, 0xD5]
        return [(pick(octets + [int(rng.random() * 256)] * 3), pick([0, 0, 0, 0, 0, 1, 2, 128, 255])) for _ in range(n)]

    # A good frame stands in it, its control marks odd ones.
    good = [(octet, mark and 0x80) for octet, mark in client(b"in the noise")]
    return stretch(150) + good + stretch(150)


def samples():
    """Each capture by its name."""
    return {
        "first": records(first()),
        "example": bytes.fromhex("01 FB 01 07 01 FB 00 55 01 FD"),  # document 01, "The printing program"
        "outcomes": records(outcomes()),
        "tags": records(tags()),
        "sizes": records(sizes()),
        "open": records(half_a_frame()),
        "empty": b"",
        "odd": records(client(b"and a mark without its octet")) + b"\x01",
        "noise": records(noise()),
    }


# ---- The log of a run

LOGGED = "first"  # the capture whose readings are kept
PARTS, RECORDS = 3, 4  # in so many logs of so many records, one behind the other in the file: the last of them has unused ones
OUTCOMES = ["cut", "bad preamble", "undersized", "oversized", "wrong FCS", "wrong length", "filtered", "pause taken", "PFC taken", "control dropped",
            "handed out"]


def kept_walk(capture):
    """The walk over a capture file that keeps its readings. In logs one after the other, each gone on with, they are the same octets as in one."""
    run = PRINTING, State(), list(capture[1::2]), list(capture[0::2]), 0
    whole = logged_walk(*run, [0] * (16 * PARTS * RECORDS))
    parts = walks_on(*run, [RECORDS] * PARTS)
    assert sum((part.log for part in parts), []) == whole.log and (parts[-1].end, parts[-1].next) == (whole.end, whole.next)
    return whole


def log_lines(walked):
    """A line on each record that was appended: its octets, and what they say; and a last line on the walk."""
    lines = [f"{bytes(r.octets()).hex(' ').upper()}  at {r.place}: {r.outcome} {OUTCOMES[r.outcome - 1]}, way {r.address}, {r.handed} octets, "
             f"status {r.status:010X}" for r in read_back(walked.log)]
    lines.append(f"{walked.appended} of {len(log_records(walked.log))} records used, end {walked.end} at {walked.next}")
    return ("\n".join(lines) + "\n").encode()


# ---- Room in a log

SLOTS = 6  # too few for that run


def made_room(capture):
    """What is done with a log of so many records, call after call, and the log after each: walks over the capture, from where the one before was full,
    deletions and a compaction."""
    octets, marks = list(capture[1::2]), list(capture[0::2])

    def walk(state, place, log):
        w = logged_walk(PRINTING, state, octets, marks, place, log)
        return w, (f"walk from {place}: {w.appended} kept, {w.end} at {w.next}", w.log)

    walked, first_walk = walk(State(), 0, [0] * (16 * SLOTS))
    dealt_with = deleting_all(deleting_all(walked.log, 5).log, 1).log
    walked, second_walk = walk(walked.state, walked.next, dealt_with)
    two = deleting(deleting(walked.log, 0).log, SLOTS - 1).log
    walked, third_walk = walk(walked.state, walked.next, two)
    return [first_walk, ("delete outcomes 5 and 1", dealt_with), second_walk, (f"delete records 0 and {SLOTS - 1}", two), third_walk,
            ("compact", compacting(walked.log).log)]


def room_lines(steps):
    """A line on each: the places of its records, `-` for one that is unused and has other octets, `0` for zeros; how many are used; what was done."""
    lines = ["record" + "".join(f"{n:5}" for n in range(SLOTS)) + "   used"]
    for done, log in steps:
        cells = [str(r.place) if r.used() else "-" if any(r) else "0" for r in log_records(log)]
        lines.append("      " + "".join(f"{cell:>5}" for cell in cells) + f"   {len(used_only(log)):4}   {done}")
    return ("\n".join(lines) + "\n").encode()


def files():
    """Every file that is made, by its name: the captures, what the model says is printed of them, and the logs."""
    captures = samples()
    made = {f"{name}.capture": data for name, data in captures.items()}
    made.update({f"{name}.txt": printed(data) for name, data in captures.items()})
    made.update({f"{name}.why.txt": whys(data) for name, data in captures.items()})
    made.update({f"{name}.sizes.txt": size_lines(data) for name, data in captures.items()})
    walked = kept_walk(captures[LOGGED])
    made.update({f"{LOGGED}.log": bytes(walked.log), f"{LOGGED}.log.txt": log_lines(walked)})
    steps = made_room(captures[LOGGED])
    made.update({"room.log": bytes(sum((log for _, log in steps), [])), "room.log.txt": room_lines(steps)})
    return made


def differences():
    """What is wrong with the files kept, a line each."""
    made = files()
    kept = {path.name: path.read_bytes() for pattern in ("*.capture", "*.txt", "*.log") for path in HERE.glob(pattern)}
    lines = [f"samples/{name} is missing" for name in made if name not in kept]
    lines += [f"samples/{name} is not one that samples/make.py makes" for name in kept if name not in made]
    return sorted(lines + [f"samples/{name} differs from what samples/make.py makes" for name in made if name in kept and kept[name] != made[name]])


def main():
    if sys.argv[1:] == ["--check"]:
        found = differences()
        print("\n".join(found) if found else f"samples: {len(files())} files are as made")
        sys.exit(1 if found else 0)
    if sys.argv[1:]:
        sys.exit("usage: samples/make.py [--check]")
    for name, data in files().items():
        (HERE / name).write_bytes(data)


if __name__ == "__main__":
    main()
