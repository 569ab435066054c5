#!/usr/bin/env python3
"""The programs `readings`, `plain_readings`, `why` and `size_table`, as built, against the independent model (tools/oracle/model.py).

`tests/printing.py [FOLDER] [N] [SEED]` runs each of FOLDER (target/bin if none is named) on every sample, on the edges of document 01, "The
printing program", and on N drawn inputs (300), each whole from a file and, of `readings`, again in short pieces through a pipe; on the edges also with
little stack. Standard output is compared to the octet; exit status 0 and nothing on standard error are asked for. It says how many inputs agree, or the
first difference, and then exits 1.
"""
import fcntl
import random
import resource
import subprocess
import sys
import tempfile
import termios
import time
from pathlib import Path

ROOT = Path(__file__).resolve().parent.parent
sys.dont_write_bytecode = True  # nothing is written into the repository
sys.path[:0] = [str(ROOT / "tools" / "oracle"), str(ROOT / "samples")]
import make  # noqa: E402
from model import (BROADCAST, IDLE, MOST_RECORDS, PREAMBLE, PRINTING, RESERVED_GROUP, START, TAG_KINDS, TERMINATE, fcs, high_first,  # noqa: E402
                   on_line, printed, records)
from reason_text import whys  # noqa: E402
from size_text import size_lines  # noqa: E402

SLOW = 5  # seconds that 32,768 Starts may take: far above what they do, so that no busy machine fails this
HANGS = 60  # seconds after which a program is given up
SMALL = 2000  # octets: up to here pieces are of 1 to 7 octets, above it longer
STACK = 512  # KB of stack that each program does with: `readings` and `why` take 264, `plain_readings` 208, `size_table` 160
PART = 131072  # octets of a part of the output, after each of which `readings`, `plain_readings` and `why` begin anew
RUN = ROOT / "tools" / "run_x86_64"  # what rt builds is for x86-64
SOURCE = [2, 0, 0, 0, 0, 9]
STARTS = "32,768 Starts"


# ---- Inputs


def frames(size, n):
    """n records: a type frame to the program's own address with `size` octets of data, the same damaged, over and over; the last is broken off."""
    good = on_line(PRINTING.own + SOURCE + [0x08, 0x00] + [7] * size)
    both = records(good + make.damaged(good, 40))
    return (both * (2 * n // len(both) + 1))[:2 * n]


def one_run(n):
    """A Start, a run of n octets, a Terminate."""
    return records([(START, 1)] + [(o, 0) for o in PREAMBLE] + [(0, 0)] * (n - 7) + [(TERMINATE, 1)])


def filling(most):
    """Idles and Starts, so that the lines of the Starts, with the last one, have `most` octets."""
    for idles in range(10000):
        left, n = most, 0
        while left > len(f"starts {n} open 1\n"):
            left -= len(f"{idles + n} 1 0 0\n")
            n += 1
        if left == len(f"starts {n} open 1\n"):
            return records([(IDLE, 1)] * idles + [(START, 1)] * (n + 1))
    raise ValueError(most)


def edges():
    most = MOST_RECORDS
    return {
        STARTS: b"\x01\xfb" * most,
        "32,769 records": b"\x01\xfb" * (most + 1),
        "one octet too many": b"\x01\xfb" * most + b"\x01",
        "one octet too few": (b"\x01\xfb" * most)[:-1],
        "much too long": b"\x01\xfb" * 200000,
        "32,768 records of small frames": frames(46, most),
        "32,768 records of large frames": frames(1500, most),
        "32,769 records of frames": frames(46, most + 1),
        "32,768 records of Start, Terminate": b"\x01\xfb\x01\xfd" * (most // 2),
        "32,768 records without a Start": b"\x00\xfb" * most,
        "one run that fills 32,768 records": one_run(most - 2),
        "one open run that fills 32,768 records": one_run(most - 1)[:-2],
        # the walk takes other tables for the FCS from 4,096 symbols on
        "4,095 records of frames": frames(100, 4095),
        "4,096 records of frames": frames(100, 4096),
        "a part that is filled": filling(PART),
        "a part that is filled but for one octet": filling(PART - 1),
        "a part and one octet": filling(PART + 1),
        "two parts that are filled": filling(2 * PART),
        "one octet": b"\x01",
        "one record": b"\x01\xfb",
    }


def drawn_tags(rng):
    """Most frames have none; the others one to eight of both kinds, or more, of which the ninth is a type."""
    n = rng.choice([0] * 10 + [1, 1, 1, 2, 2, 3, 7, 8, 8, 9, 10])
    return [octet for _ in range(n) for octet in high_first(rng.choice(TAG_KINDS)) + high_first(rng.choice([7, 0x8100, 0x88A8, 0x8808]))]


def drawn_frame(rng):
    to = rng.choice([PRINTING.own, PRINTING.own, BROADCAST, RESERVED_GROUP, [2, 0, 0, 0, 0, 2]])
    tags = drawn_tags(rng)
    n = rng.choice([45, 46, 46, 47, 100, 1500, 1501])
    field = rng.choice([0x0800, 0x8808, n, 0, 45, 1501, 1535, 1536, 0x8100, 0x88A8])
    covered = to + SOURCE + tags + high_first(field) + [rng.randrange(256) for _ in range(n)]
    check = fcs(covered)
    if rng.random() < 0.1:
        check[rng.randrange(4)] ^= 1 << rng.randrange(8)
    preamble = PREAMBLE if rng.random() < 0.95 else PREAMBLE[1:]
    end = TERMINATE if rng.random() < 0.9 else rng.choice([IDLE, 0xFE, 0x9C, START])
    return [(START, rng.choice([1, 1, 2, 255]))] + [(o, 0) for o in preamble + covered + check] + [(end, 1)] + [(IDLE, 1)] * rng.randrange(3)


def drawn(rng):
    symbols = []
    for _ in range(rng.randrange(12) if rng.random() < 0.9 else rng.randrange(12, 60)):
        symbols += drawn_frame(rng) if rng.random() < 0.7 else [(rng.choice([START, IDLE, 0xFD, 0x55, rng.randrange(256)]), rng.choice([0, 1, 1, 7]))]
    if rng.random() < 0.2:
        symbols += [(START, 1)] + [(0x55, 0)] * rng.randrange(9)
    data = records(symbols[:MOST_RECORDS])
    return data[:-1] if data and rng.random() < 0.05 else data


# ---- Running


def whole(program, data, _, before=None):
    with tempfile.TemporaryFile() as file:
        file.write(data)
        file.seek(0)
        p = subprocess.run([RUN, program], stdin=file, capture_output=True, timeout=HANGS, preexec_fn=before)
    return p.stdout, p.stderr, p.returncode


def with_little_stack(program, data, rng):
    return whole(program, data, rng, lambda: resource.setrlimit(resource.RLIMIT_STACK, (STACK * 1024, STACK * 1024)))


def unread(pipe):
    return int.from_bytes(fcntl.ioctl(pipe, termios.FIONREAD, bytes(4)), sys.byteorder)


def hand_over(p, data, longest, rng):
    """Each piece is written once the one before it has been read, so that every read of the program is a short one."""
    at, deadline = 0, time.monotonic() + HANGS
    try:
        while at < len(data):
            n = rng.randint(1, longest)
            p.stdin.write(data[at:at + n])
            at += n
            while unread(p.stdin) and p.poll() is None:
                if time.monotonic() > deadline:
                    raise subprocess.TimeoutExpired(p.args, HANGS)
                time.sleep(0.00002)
    except BrokenPipeError:
        pass  # a program may leave the rest of a longer input unread


def in_pieces(program, data, rng):
    longest = 7 if len(data) <= SMALL else len(data) // 15
    with subprocess.Popen([RUN, program], stdin=subprocess.PIPE, stdout=subprocess.PIPE, stderr=subprocess.PIPE, bufsize=0) as p:
        try:
            hand_over(p, data, longest, rng)
            out, err = p.communicate(timeout=HANGS)
        finally:
            p.kill()  # of no effect on one that has ended
    return out, err, p.returncode


def difference(got, due):
    """What is wrong with an answer, in words, or nothing."""
    out, err, status = got
    if out != due:
        ours, theirs = due.split(b"\n"), out.split(b"\n")
        at = next((i for i, (a, b) in enumerate(zip(ours, theirs)) if a != b), min(len(ours), len(theirs)))
        a, b = (lines[at].decode(errors="replace") if at < len(lines) else "nothing" for lines in (ours, theirs))
        return f"line {at + 1} should be '{a}' and is '{b}'"
    if err:
        return f"it writes to standard error: {err[:80]!r}"
    return f"it exits with {status}" if status else None


def fail(why):
    print(f"printing: {why}")
    sys.exit(1)


def agree(program, text, ways, inputs, rng):
    """Runs a program in these ways on all inputs, each against what the model says is printed of it."""
    for name, data in inputs.items():
        due = text(data)
        for how, run in ways:
            began = time.monotonic()
            try:
                wrong = difference(run(program, data, rng), due)
            except subprocess.TimeoutExpired:
                wrong = f"not done after {HANGS} s"
            if name == STARTS and run is not in_pieces:
                took = time.monotonic() - began
                wrong = wrong or (took > SLOW and f"it takes {took:.1f} s")
            if wrong:
                fail(f"{program.name}: {name}, {how}: {wrong}")
    print(f"printing: {program.name}: {len(inputs)} inputs agree, each {' and '.join(how for how, _ in ways)}; {STARTS} took {took * 1000:.0f} ms")


def main():
    folder = Path(sys.argv[1]).resolve() if len(sys.argv) > 1 else ROOT / "target" / "bin"
    n, seed = int(sys.argv[2]) if len(sys.argv) > 2 else 300, int(sys.argv[3]) if len(sys.argv) > 3 else 1
    for name in ("readings", "plain_readings", "why", "size_table"):
        if not (folder / name).is_file():
            fail(f"no program {folder / name}; `tools/program {name}` builds target/bin/{name}")
    stale = make.differences()  # so that the samples kept, and what stands beside them, are the model's
    if stale:
        fail(stale[0])
    rng = random.Random(seed)
    inputs = {path.name: path.read_bytes() for path in sorted((ROOT / "samples").glob("*.capture"))}
    inputs.update(edges())
    inputs.update({f"drawn input {i} of seed {seed}": drawn(rng) for i in range(n)})
    both = [("whole", whole), ("in pieces", in_pieces)]
    # `plain_readings` "prints what `readings` prints, octet for octet" (document 02, item 12)
    for name, text, ways in (("readings", printed, both), ("plain_readings", printed, both), ("why", whys, [("whole", whole)]), ("size_table", size_lines, both)):
        agree(folder / name, text, ways, inputs, rng)
        agree(folder / name, text, [(f"with {STACK} KB of stack", with_little_stack)], edges(), rng)


if __name__ == "__main__":
    main()
