"""Cases for the comparison: a seeded generator over a table of recipes, and what each case hits.

A recipe fixes what is to be hit (a limit, a fault, a pair of faults); everything it leaves open is drawn. What a case hits is worked out from
the case itself by the model, never from the recipe. `python3 tools/oracle/cases.py N SEED` prints the coverage table alone.
"""
import random
import sys
from dataclasses import dataclass, replace
from typing import Any, List

sys.dont_write_bytecode = True  # nothing is written into the repository
import model
from model import (BROADCAST, CONTROL, CUSTOMER, EMPTY, ERROR, IDLE, MOST_TAGS, PREAMBLE, RESERVED_GROUP, START, TAG_KINDS, TERMINATE, Client, LogReader,
                   Record, Settings, State, high_first)
from log_cases import used_records
from tape import entries, entry_octets

KINDS = {"refused": 0, "none": 1, "open": 2, "counted": 3}

# Check values of CRC-32 (IEEE 802.3) as published: of "123456789", and the residue 0xDEBB20E3 (here complemented) of octets followed by their own
# check, from the catalogue of CRC parameters; the others are the texts that test suites of this check use. They are written out, not computed, so
# that zlib is tried too.
PUBLISHED = [
    (b"123456789", 0xCBF43926),
    (b"123456789\x26\x39\xf4\xcb", 0x2144DF1C),
    (b"", 0x00000000),
    (b"a", 0xE8B7BE43),
    (b"abc", 0x352441C2),
    (b"message digest", 0x20159D7F),
    (b"abcdefghijklmnopqrstuvwxyz", 0x4C2750BD),
    (b"The quick brown fox jumps over the lazy dog", 0x414FA339),
    (bytes(32), 0x190A55AD),
    (b"\xff" * 32, 0xFF6CAB0B),
    (bytes(range(32)), 0x91267E8A),
    (b"\x00", 0xD202EF8D),
    (b"\xff\xff\xff\xff", 0xFFFFFFFF),
]


@dataclass
class Case:
    call: str  # reading, walk, why, plain, sizes, client, pause, pfc, idle, fcs; of a log append, look, delete, delete_all,
    # compact, keep; of totals fill, before; of two jobs add, remove, bad, screen
    settings: Any = None
    state: Any = None
    octets: Any = None
    marks: Any = None
    place: int = 0
    # a Client; quanta; (named, quanta); a number of Idles; the octets under a check and the published value; a Record; its number; an outcome; an address
    asked: Any = None
    log: Any = None
    totals: Any = None  # a sending that has them keeps them; of sizes the counts of the table
    port: str = model.PLAIN
    job: int = 0
    table: Any = None  # the octets of one that a call goes by
    other: Any = None  # octets and marks of the other job's capture

    def __post_init__(self):
        self.answer, self.hits = ANSWERS[self.call](self)


# ---- What the model answers, as a list of numbers, and what the case hits. header.txt flattens the definitions' answers in the same way.


def state_numbers(state):
    return state.counters + state.timers + [state.deficit]


def reading_numbers(r):
    number = r.refusal or r.outcome
    # document 01 gives no place to an empty part: 0 here, and in header.txt
    at, length = r.part if r.part[1] else (0, 0)
    return [KINDS[r.kind], number, r.status, at, length, r.address, r.start, r.next] + state_numbers(r.state) + r.data


def heard(c):
    """The job and the table of a case."""
    return c.job, entries(c.table)


def mine(c):
    return model.own_entries(entries(c.table), c.job)


def read_tests(c):
    return [(1, model.bad_settings(c.settings)), (2, model.bad_buffers(c.octets, c.marks)), (3, c.place > len(c.octets)), (14, model.bad_job(c.job)),
            (20, model.bad_table(entries(c.table)))]


def pairs(name, tests):
    """Of what the refusals hit the pairs alone."""
    return {x for x in refusal_hits(name, tests) if "before" in x}


def answer_reading(c):
    r = model.reading(c.settings, c.state, c.octets, c.marks, c.place, *heard(c))
    return reading_numbers(r), reading_hits(c, r)


def answer_why(c):
    w = model.why(c.settings, c.octets, c.marks, c.place, *heard(c))
    hits = {"why: " + {"refused": f"refused {w.refusal}", "counted": f"outcome {w.outcome}"}.get(w.kind, w.kind)} | pairs("why", read_tests(c))
    evidence = list(w.evidence)
    if w.outcome == 2:  # which of the two it is, as a number
        hits.add(f"why: bad preamble, {evidence[0] if evidence[0] == 'length' else f'octet {evidence[1] - w.start}'}")
        evidence[0] = int(evidence[0] == "place")
    if w.outcome == 4:
        hits.add(f"why: limit M+{evidence[1] - c.settings.limit}")
    if w.outcome == 6:
        hits.add(f"why: {tags_said(len(model.Frame(c.octets[w.start + 8:w.next]).tags))}, length broken")
    if w.outcome == 7:
        evidence = evidence[0]
    if w.outcome == 11:
        hits.add(f"why: handed out, {'data' if evidence[1] else 'no data'}")
    return [KINDS[w.kind], w.refusal or w.outcome, w.start, w.next] + evidence, hits


def answer_plain(c):
    """All symbols, one by one: what is told at each, and the reader at the end."""
    reader, told, hits = model.PlainReader(state=c.state), [], set()
    for octet, mark in zip(c.octets, c.marks):
        step = model.taking(c.settings, reader, octet, mark, *heard(c))
        reader, e = step.reader, step.ended
        if step.refusal:
            told += [0, step.refusal]
            hits |= {f"plain: refused {step.refusal}"} | pairs("plain", [t for t in read_tests(c) if t[0] not in (2, 3)])
        if e:
            told += [1, e.outcome, e.status, *e.part, e.address]
            hits |= {f"plain: outcome {e.outcome}", f"plain: way {e.address}"}
    hits.add(f"plain: ends {'open' if reader.run else 'none'}")
    return [reader.taken, int(reader.run is not None)] + state_numbers(reader.state) + told, hits


def answer_sizes(c):
    before = model.SizeTable(c.totals[:7], c.totals[7:])
    refusal, after = model.adding_sizes(before, c.settings, c.octets, c.marks, *heard(c))
    numbers = after.frames + after.octets
    rises = [(b - a) % 2**64 for a, b in zip(c.totals, numbers)]
    if refusal:
        return [refusal] + numbers, {f"sizes: refused {refusal}"} | pairs("sizes", [t for t in read_tests(c) if t[0] != 3])
    hits = {"sizes: added" if any(rises) else "sizes: nothing"} | {f"sizes: band {n}" for n in range(7) if rises[n]}
    if sum(rises[:7]) == 1:
        hits.add(f"sizes: a frame of {sum(rises[7:])}")
    if model.walk(c.settings, State(), c.octets, c.marks, 0, *heard(c))[-1].kind == "open":
        hits.add(f"sizes: open, {'added' if any(rises) else 'nothing'}")
    if any(a > b for a, b in zip(c.totals, numbers)):
        hits.add("sizes: a count rolls over")
    return [refusal] + numbers, hits


def answer_walk(c):
    rs = model.walk(c.settings, c.state, c.octets, c.marks, 0, *heard(c))
    last, counted = rs[-1], len(rs) - 1
    handed = [n for r in rs if r.outcome == 11 for n in [len(r.data)] + r.data]
    refused = last.kind == "refused"
    ended = [0, last.refusal, 0, 0] if refused else [1, 0, counted, int(last.kind == "open")]
    hits = {f"walk: {'refused ' + str(last.refusal) if refused else 'ends ' + last.kind}", f"walk: {min(counted, 3)}{'+' if counted > 2 else ''} Starts counted"}
    for r in rs[:-1]:
        hits.add(f"walk: outcome {r.outcome} inside")
    if any(a.next == b.start for a, b in zip(rs, rs[1:]) if a.kind == b.kind == "counted"):
        hits.add("walk: a Start that ended the run before it")
    hits |= pairs("walk", read_tests(c)) | {f"walk: way {r.address}" for r in rs}
    return ended + state_numbers(last.state) + handed, hits


def sending_numbers(a):
    return [0 if a.refusal else 1, a.refusal, a.place] + state_numbers(a.state) + a.octets + a.marks + (a.totals or [])


def refusal_hits(name, tests, otherwise="written"):
    numbers = sorted((n for n, holds in tests if holds), key=model.order)
    hits = {f"{name}: refused {numbers[0]}" if numbers else f"{name}: {otherwise}"}
    return hits | {f"{name}: refusal {a} before {b}" for a, b in zip(numbers, numbers[1:])}


def totals_tests(c):
    return [] if c.totals is None else model.totals_refusals(c.octets, c.totals)


def totals_hits(name, c, after):
    """What of item 9 a call hits that wrote up to a place."""
    blocks = (after - 1) // 256 - c.place // 256 + 1 if after > c.place else 0
    hits = {f"{name}: totals, into {min(blocks, 3)} block{'s' * (blocks != 1)}", f"{name}: totals, {truth_said(c)}"}
    if blocks:
        hits |= {f"{name}: totals, {side} at an edge" for side, at in [("begins", c.place), ("ends", after)] if at % 256 == 0}
        hits.add(f"{name}: totals, {'others stay' if blocks < len(c.totals) else 'all anew'}")
    if len(c.octets) % 256 and (after - 1) // 256 == len(c.octets) // 256:
        hits.add(f"{name}: totals, into a short block")
    return hits


def truth_said(c):
    return "true" if c.totals == model.true_totals(c.octets, c.marks) else "untrue"


def common_hits(name, c, needed, tests):
    numbers = [n for n, holds in tests if holds]
    hits = refusal_hits(name, tests)
    if not numbers and c.totals is not None:
        hits |= totals_hits(name, c, c.place + needed)
    room = len(c.octets) - c.place
    if not numbers or numbers == [8]:
        hits |= {f"{name}: room {'exact' if room == needed else 'one short' if room == needed - 1 else 'other'}"}
    if not numbers:
        if c.place > 0 and room > needed:
            hits.add(f"{name}: symbols before and after stay")
        for t in c.state.timers:
            if needed - 1 <= t <= needed + 1:
                hits.add(f"{name}: a timer at n{t - needed:+d} slots" if t != needed else f"{name}: a timer at n slots")
    if min(numbers, default=3) == 3:
        if c.place >= len(c.octets):
            hits.add(f"{name}: place {'at' if c.place == len(c.octets) else 'beyond'} the length")
    if 2 in numbers[:1]:
        hits.add(f"{name}: {'unequal' if len(c.octets) != len(c.marks) else 'too long'} buffers")
    if c.settings is not None:
        hits |= settings_hits(name, c.settings, 1 in numbers)
    return hits


def settings_hits(name, s, refused):
    if not refused:
        return {f"{name}: M {s.limit} taken"} if s.limit in (1518, 9618) else set()
    reasons = {"group bit": s.own[0] & 1, "M 1517": s.limit < 1518, "M 9619": s.limit > 9618}
    return {f"{name}: {reason} refused" for reason, holds in reasons.items() if holds}


def tags_said(n):
    return "untagged" if n == 0 else "1 tag" if n == 1 else f"{n} tags"


def answer_client(c):
    k = c.asked
    a = model.client_sending(c.settings, c.state, c.octets, c.marks, c.place, k, c.port, c.totals)
    tests = model.client_refusals(c.settings, c.state, c.octets, c.marks, c.place, k, c.port) + totals_tests(c)
    gap, _ = model.gap_behind(c.port, c.state, c.place, model.client_symbols(c.settings, k))
    hits = common_hits("client", c, len(model.client_symbols(c.settings, k, gap)), tests)
    form = "length" if k.type is None else "type"
    numbers = {n for n, holds in tests if holds}
    first = model.first(*tests)
    if not numbers:
        hits.add(f"client: {form} form, {tags_said(len(k.tags))}")
        if k.tags:
            hits.add(f"client: {tags_said(len(k.tags))}, {k.tags[0][0]:#06x} outermost")
        if len(k.data) in (0, 45, 46, 47, 1500):
            hits.add(f"client: data {len(k.data)} written")
        if k.cls in (0, 7):
            hits.add(f"client: class {k.cls} written")
        if any(k.cls != n and t for n, t in enumerate(c.state.timers)):
            hits.add("client: written while another class is held")
    if first == 10:
        hits.add(f"client: {len(k.tags)} tags refused")
    if first in (None, 7):
        over = len(k.data) - (1500 if k.type is None else c.settings.limit - 18)
        if over in (0, 1):
            hits.add(f"client: {form} form, data {'at the limit' if over == 0 else 'one over'}")
    if numbers <= {6} and k.type in (1535, 1536, 0x80FF, 0x8100, 0x8101, 0x8807, 0x8808, 0x8809, 0x88A7, 0x88A8, 0x88A9):
        hits.add(f"client: type {k.type:#06x} {'refused' if numbers else 'taken'}")
    return sending_numbers(a), hits


def answer_pause(c):
    a = model.pause_sending(c.settings, c.state, c.octets, c.marks, c.place, c.asked, c.port, c.totals)
    tests = model.control_refusals(c.settings, c.octets, c.marks, c.place, "pause", c.state, c.port) + totals_tests(c)
    return sending_numbers(a), common_hits("pause", c, 84, tests) | {f"pause: flow mode {c.settings.flow}"}


def answer_pfc(c):
    a = model.pfc_sending(c.settings, c.state, c.octets, c.marks, c.place, *c.asked, c.port, c.totals)
    tests = model.control_refusals(c.settings, c.octets, c.marks, c.place, "PFC", c.state, c.port) + totals_tests(c)
    hits = common_hits("pfc", c, 84, tests) | {f"pfc: flow mode {c.settings.flow}"}
    named, quanta = c.asked
    if not a.refusal:
        hits |= {f"pfc: class {'named' if named >> n & 1 else 'not named'} with quanta" for n in range(8) if quanta[n]}
    return sending_numbers(a), hits


def answer_idle(c):
    a = model.idle_sending(c.state, c.octets, c.marks, c.place, c.asked, c.totals)
    hits = common_hits("idle", c, c.asked, model.idle_refusals(c.octets, c.marks, c.place, c.asked) + totals_tests(c))
    if c.asked == 0:
        hits.add("idle: none asked")
    return sending_numbers(a), hits


def answer_fcs(c):
    octets, published = c.asked
    assert model.check(octets) == published, "zlib and the published value differ"
    return [published] + list(published.to_bytes(4, "little")), {"fcs: published value"}


def record_numbers(r):
    return list(r or Record(0, 0, 0, 0, 0))


def room_said(log):
    """What a log has: how many records, and how many of them are unused."""
    return f"{len(model.unused_numbers(log))} unused of {len(model.log_records(log))}"


def behind_last(log):
    """Whether a record behind the last used one is free, and whether another is: an unused one in front of it, a hole."""
    behind = model.behind_last(log)
    return behind < len(model.log_records(log)), any(n < behind for n in model.unused_numbers(log))


def last_said(log):
    room, hole = behind_last(log)
    return f"{'room behind the last' if room else 'the last slot used' if model.log_records(log) else 'no record'}, {'a hole' if hole else 'no hole'}"


def answer_append(c):
    a = model.appending(c.log, c.asked)
    what = "a record" if c.asked.used() else "outcome 0"
    hits = {f"append: {what}, {f'refused {a.refusal}' if a.refusal else 'not written' if a.number is None else 'written'}"}
    if a.refusal != 11:
        hits |= {f"append: {what}, {room_said(c.log)}", f"append: {what}, {last_said(c.log)}"}
    return [a.refusal] + a.log, hits


def answer_look(c):
    """Record, next record and used records of a log at a record number."""
    refusal, r = model.record_at(c.log, c.asked)
    next_refusal, handed, reader = model.handing_out(LogReader(c.log, c.asked))
    used, unused = used_records(c.log), model.unused_numbers(c.log)
    numbers = [refusal] + record_numbers(r) + [reader.place, next_refusal] + record_numbers(handed) + [n or 0 for n in used]
    hits = {f"look: record {f'refused {refusal}' if refusal else 'read'}", f"look: used records {f'refused {used[0]}' if used[0] else 'told'}"}
    if not refusal and any(n < c.asked for n in unused):
        hits.add("look: a used record behind an unused one")
    if refusal == 13:
        hits.add(f"look: {'an unused record' if c.asked < len(model.log_records(c.log)) else 'beyond the log'}")
    skipped = reader.place - 1 - c.asked
    hits.add(f"look: next refused {next_refusal}" if next_refusal else f"look: next, {min(skipped, 2)}{'+' if skipped > 1 else ''} skipped")
    if next_refusal == 13 and c.asked in unused:
        hits.add("look: next, unused ones alone")
    return numbers, hits


def log_hits(call, c, changed):
    """Of a call on a log other than appending: its refusal, and what it found."""
    hits = {f"{call}: {f'refused {changed.refusal}' if changed.refusal else 'done'}"}
    return hits if changed.refusal else hits | {f"{call}: {last_said(c.log)}", f"{call}: {room_said(c.log)}"}


def answer_delete(c):
    a = model.deleting(c.log, c.asked)
    hits, records = log_hits("delete", c, a), len(model.log_records(c.log))
    if not a.refusal:
        hits.add(f"delete: {'the only' if records == 1 else 'the first' if c.asked == 0 else 'the last' if c.asked == records - 1 else 'in the middle'}")
    if a.refusal == 11:
        hits.add(f"delete: 11, {'13 too' if c.asked >= records or not model.log_records(c.log)[c.asked].used() else 'used'}")
    if a.refusal == 13:
        hits.add(f"delete: {'an unused record' if c.asked < records else 'beyond the log'}")
    return [a.refusal] + a.log, hits


def answer_delete_all(c):
    a = model.deleting_all(c.log, c.asked)
    hits = log_hits("delete_all", c, a)
    if not a.refusal:
        left = "others" if model.used_only(a.log) else "none"
        hits.add(f"delete_all: {'outcome 0' if c.asked == 0 else f'{min(a.count, 2)} deleted'}, {left} left")
    return [a.refusal, a.count or 0] + a.log, hits


def answer_compact(c):
    a = model.compacting(c.log)
    hits = log_hits("compact", c, a)
    if not a.refusal:
        hits.add(f"compact: {'changed' if a.log != c.log else 'nothing changes'}, {min(a.count, 3)}{'+' if a.count > 2 else ''} remain")
    return [a.refusal] + a.log, hits


def answer_keep(c):
    w = model.logged_walk(c.settings, c.state, c.octets, c.marks, c.place, c.log, *heard(c))
    hits = {f"keep: {f'refused {w.refusal}' if w.refusal else f'ends {w.end}'}"} | pairs("keep", read_tests(c) + [(11, model.bad_log(c.log))])
    if not w.refusal:
        hits.add(f"keep: {min(w.appended, 2)}{'+' if w.appended > 1 else ''} kept, ends {w.end}")
        hits.add(f"keep: ends {w.end}, {'a record' if model.unused_numbers(w.log) else 'no record'} left")
        fresh = model.used_only(w.log)[len(model.used_only(c.log)):]
        hits |= {f"keep: outcome {r.outcome} kept" for r in fresh} | {f"keep: way {r.address} kept" for r in fresh}
        room, hole = behind_last(c.log)
        if w.appended and model.used_only(c.log):
            hits.add("keep: used records stay")
        if hole:
            moved = w.appended > len(model.log_records(c.log)) - model.behind_last(c.log)
            hits.add(f"keep: a hole, {'room behind the last' if room else 'the last slot used'}, {'compacted' if moved else 'not compacted'}, ends {w.end}")
    return [{"refused": 0, "none": 1, "open": 2, "full": 3}[w.end], w.refusal, w.next, w.appended] + state_numbers(w.state) + w.log, hits


def answer_fill(c):
    refusal, totals = model.filling(c.octets, c.marks, c.totals)
    hits = refusal_hits("fill", [(2, model.bad_buffers(c.octets, c.marks))] + totals_tests(c)[:1], "filled")
    if not refusal:
        hits.add(f"fill: {len(totals)} blocks, the last {'short' if len(c.octets) % 256 else 'whole'}")
        if any(total > 256 for total in c.totals):
            hits.add("fill: a total above 256 before")
        if 256 in totals:
            hits.add("fill: a total of 256")
    return [refusal] + totals, hits


def answer_before(c):
    refusal, starts = model.starts_before(c.octets, c.marks, c.totals, c.place)
    hits = refusal_hits("before", [(2, model.bad_buffers(c.octets, c.marks)), (3, c.place > len(c.octets))] + totals_tests(c), "answered")
    if not refusal:
        hits |= {f"before: {truth_said(c)} totals", f"before: {'at an edge' if c.place % 256 == 0 else 'inside a block'}, {min(c.place // 256, 2)} before it"}
        if 256 in c.totals:
            hits.add("before: a total of 256")
        if c.place == len(c.octets):
            hits.add("before: place at the length")
    return [refusal, starts or 0], hits


def change_hits(name, c, answer, tests):
    hits = refusal_hits(name, tests, "fine") | {f"{name}: {name} of job {c.job}: {f'refused {answer.refusal}' if answer.refusal else 'fine'}"}
    if not answer.refusal:
        hits.add(f"{name}: entry {answer.entry}")
    return hits


def changed_octets(c, answer, entry):
    """The table after a call: one entry is written, and every other octet stays."""
    after = list(c.table)
    if not answer.refusal:
        after[8 * answer.entry:8 * answer.entry + 8] = entry_octets(entry)
    assert entries(after) == answer.table
    return [answer.refusal, answer.entry or 0] + after


def answer_add(c):
    job, table = heard(c)
    a = model.adding(table, job, c.asked)
    tests = [(14, model.bad_job(job)), (20, model.bad_table(table)), (17, c.asked in [x for _, x in mine(c)]), (15, len(mine(c)) >= 12)]
    hits = change_hits("add", c, a, tests + [(16, None not in table)])
    if not a.refusal:
        others = [x for _, x in model.own_entries(table, 1 - job)]
        hits |= {f"add: {'listed' if c.asked in others else 'not listed'} by the other job", f"add: a free entry with octet {c.table[8 * a.entry]}"}
    return changed_octets(c, a, (job, c.asked)), hits


def answer_remove(c):
    job, table = heard(c)
    a = model.removing(table, job, c.asked)
    hits = change_hits("remove", c, a, [(14, model.bad_job(job)), (20, model.bad_table(table)), (18, c.asked not in [x for _, x in mine(c)])])
    if a.refusal == 18 and c.asked in [x for _, x in model.own_entries(table, 1 - job)]:
        hits.add("remove: listed by the other job alone")
    return changed_octets(c, a, None), hits


def answer_bad(c):
    bad, table = model.bad_table(entries(c.table)), entries(c.table)
    most = max(len(model.own_entries(table, job)) for job in (0, 1))
    return [int(bad)], {f"bad: {'20' if bad else 'no 20'}, {'13 or more' if most > 12 else '12' if most == 12 else 'fewer'} of a job"}


def answer_screen(c):
    captures = [(c.octets, c.marks), c.other] if c.job != 1 else [c.other, (c.octets, c.marks)]
    refusal, (at, length) = model.showing(c.settings, captures, c.place, *heard(c))
    hits = refusal_hits("screen", read_tests(c), "shown") | {f"screen: job {c.job}, {'refused' if refusal else 'data' if length else 'no data'}"}
    if not refusal and model.bad_buffers(*c.other):
        hits.add("screen: the other capture is one that is refused")
    if not refusal and c.place > len(c.other[0]):
        hits.add("screen: the place is beyond the other capture")
    # an empty part has no place, here as in a reading
    return [refusal, at if length else 0, length] + c.octets[at:at + length], hits


def reading_hits(c, r):
    s, own = c.settings, mine(c)
    n = r.refusal or r.outcome
    hits = {"reading: " + {"refused": f"refused {n}", "counted": f"outcome {n}"}.get(r.kind, r.kind)}
    hits |= settings_hits("reading", s, model.bad_settings(s))
    if r.kind == "refused":
        hits |= refusal_hits("reading", read_tests(c))
        if n == 2:
            hits.add(f"reading: {'unequal' if len(c.octets) != len(c.marks) else 'too long'} buffers")
        return hits
    if c.place == len(c.octets):
        hits.add("reading: place at the length")
    if any(model.is_start(c.octets[i], c.marks[i]) for i in range(c.place)):
        hits.add("reading: a Start before the place")
    if any(c.octets[i] == START and c.marks[i] == 0 for i in range(c.place, r.start)):
        hits.add("reading: data 0xFB before the Start")
    if r.kind != "counted":
        return hits
    by, mark = c.octets[r.next], c.marks[r.next]
    names = {IDLE: "Idle", START: "Start", TERMINATE: "Terminate", ERROR: "Error", 0x9C: "Sequence"}
    hits.add(f"reading: ended by {names.get(by, 'another control octet')}")
    if mark > 1:
        hits.add("reading: a control mark above 1")
    run = c.octets[r.start + 1:r.next]
    rows = model.rules_that_hold(s, run, by, own)
    hits |= {f"reading: outcome {a} before {b}" for i, a in enumerate(rows) for b in rows[i + 1:] if b != 11}
    if START in run[7:]:
        hits.add("reading: data 0xFB in the run")
    if n == 2:
        hits.add(f"reading: run {'under 7' if len(run) < 7 else 'of 7 or more'}, bad preamble")
    if rows[0] > 2 and len(run) - 7 in (0, 63, 64):
        hits.add(f"reading: frame of {len(run) - 7}")
    if n >= 4:
        f = model.Frame(run[7:])
        tagged = tags_said(len(f.tags))
        over = len(f.octets) - s.limit
        if over in (0, 1, 4, 5, 8, 9, 32, 33):
            hits.add(f"reading: M{over:+d}, {tagged}" if over else f"reading: M, {tagged}")
    if n >= 6:
        if s.checking:
            if f.field < 1536:
                side = 0 if f.field == 0 else 1 if f.field < 45 else 100 if 47 < f.field < 1500 else 1510 if 1501 < f.field < 1535 else f.field
                names = {0: "0", 1: "1 to 44", 100: "48 to 1499", 1510: "1502 to 1534"}
                hits.add(f"reading: field {names.get(side, side)} {'broken' if n == 6 else 'kept'}, {tagged}")
                hits |= padding_hits(f, tagged, "broken" if n == 6 else "kept")
            elif f.field == 1536:
                hits.add("reading: field 1536, a type")
        elif f.field < 1536:
            hits.add("reading: length field, checking off")
    if n >= 7:
        d = f.destination
        listed, theirs = ([a for _, a in x] for x in (own, model.own_entries(entries(c.table), 1 - c.job)))
        kind = ("own" if d == s.own else "reserved group" if d == RESERVED_GROUP else "broadcast" if d == BROADCAST
                else "listed" if d in listed else "listed by the other job" if d in theirs else "other")
        if kind == "broadcast" and BROADCAST in listed:
            hits.add(f"reading: listed broadcast, setting {'on' if s.broadcast else 'off'}{', promiscuous' if s.promiscuous else ''}: {n}")
        hits.add(f"reading: {'control' if f.control else 'client'} frame to {kind}{', promiscuous' if s.promiscuous else ''}: {n}")
        hits |= way_hits(f, s, r.address, c.job, own, theirs)
        if f.tags and f.field == CONTROL:
            hits.add(f"reading: 0x8808 behind {tagged}, an ordinary type")
        if n == 11:
            hits |= tag_hits(f, r.status)
        if f.control and f.opcode in (0x0001, 0x0101) and n > 9:
            hits.add(f"reading: opcode {f.opcode:#06x} in flow mode {s.flow}: not taken")
        if n == 9:
            hits |= {f"reading: PFC class {'named' if f.octets[17] >> k & 1 else 'not named'}" for k in range(8) if f.number(18 + 2 * k)}
        if n == 8 and f.number(16) in (0, 1, 65535):
            hits.add(f"reading: pause of {f.number(16)} quanta")
        if n == 11 and not r.data:
            hits.add("reading: no data handed out by 11")
        if c.state.counters[n - 1] == 2**64 - 1:
            hits.add("reading: a counter rolls over")
        if c.state.counters[n - 1] == 2**32 - 1:
            hits.add("reading: a counter passes 2^32")
    return hits


def way_hits(f, s, way, job, own, theirs):
    """What a frame that came to the address rule hits by items 7 and 10."""
    sort = "control frame" if f.control else "client frame"
    said = way if way < 16 else "of an entry"
    hits = {f"reading: {sort}, way {way}", f"reading: {'promiscuous' if s.promiscuous else 'not promiscuous'}, way {said}"}
    if way > 15:
        hits.add(f"reading: job {job}, way of an entry")
    if f.destination in [a for _, a in own]:
        hits.add(f"reading: {sort}, listed{' by both' if f.destination in theirs else ''}, way {said}")
    return hits


def padding_hits(f, tagged, rule):
    """What a frame hits by item 2: "data whose length is the larger of the field and 46 - 4 × n, or the 46 of before; nothing else" """
    if not f.tags or f.field >= 46:
        return set()
    by_tags = 46 - 4 * len(f.tags)
    if len(f.data) == 46:
        return {f"reading: {tagged}, padded to 46: {rule}"}
    over = len(f.data) - max(f.field, by_tags)
    by = "field" if f.field > by_tags else "tags"
    return {f"reading: {tagged}, shortest data by the {by}{f', and {over:+d}' if over else ''}: {rule}"} if abs(over) <= 1 else set()


def tag_hits(f, status):
    """What a frame that is handed out hits by its tags."""
    kinds = [kind for kind, _ in f.tags]
    hits = {f"reading: {tags_said(len(kinds))}, bits 33 and 32 are {status >> 32 & 3:02b}"}
    if kinds:
        hits.add(f"reading: {tags_said(len(kinds))}, {kinds[0]:#06x} outermost")
    if len(kinds) == 2:
        hits.add(f"reading: {kinds[0]:#06x} outside {kinds[1]:#06x}")
    if len(kinds) == MOST_TAGS and f.field in TAG_KINDS:
        hits.add(f"reading: a ninth tag, {f.field:#06x}, an ordinary type")
    return hits


ANSWERS = {"reading": answer_reading, "walk": answer_walk, "why": answer_why, "plain": answer_plain, "sizes": answer_sizes,
           "client": answer_client, "pause": answer_pause, "pfc": answer_pfc, "idle": answer_idle, "fcs": answer_fcs, "append": answer_append,
           "look": answer_look, "delete": answer_delete, "delete_all": answer_delete_all, "compact": answer_compact, "keep": answer_keep,
           "fill": answer_fill, "before": answer_before, "add": answer_add, "remove": answer_remove,
           "bad": answer_bad, "screen": answer_screen}

# ---- Drawing


def some(r, n):
    """n octets; 0xFB and 0xFD are likely among them, since only a mark makes them control."""
    return [r.choice([START, TERMINATE, IDLE, 0x55]) if r.random() < 0.08 else r.randrange(256) for _ in range(n)]


def some_address(r, group=False):
    return [r.randrange(128) * 2 + group] + some(r, 5)


def some_tags(r, tags):
    """Tags by their number, of drawn kinds, or by their kinds; "few" draws the number too. One tag control in four would mean something as a field."""
    if tags == "few":
        tags = r.choice([1, 1, 1, 2, 2, 3, 8])
    kinds = [r.choice(TAG_KINDS) for _ in range(tags)] if isinstance(tags, int) else tags
    return [(kind, r.choice([0, 0x8100, 0x88A8, 0x8808]) if r.random() < 0.25 else r.randrange(65536)) for kind in kinds]


def some_settings(r, **given):
    own = some_address(r)
    s = Settings(own, r.random() < 0.5, r.random() < 0.15, r.random() < 0.8, r.choice([1518, 1518, 1519, 9618]), r.choice(["none", "pause", "PFC"]),
                 r.random() < 0.4)
    if given.pop("group_bit", False):
        given["own"] = [own[0] | 1] + own[1:]
    return replace(s, **given)


def some_state(r, free=None):
    counters = [r.choice([0, 2**32 - 1, 2**64 - 1, r.randrange(2**64)]) for _ in range(11)]
    timers = [r.choice([0, 1, 83, 84, 85, 64, 4194240, r.randrange(5000)]) for _ in range(8)]
    if free is not None and free < 8:
        timers[free] = 0
    return State(counters, timers, r.choice([0, 1, 3, 4, 255]))


def shuffled(r, jobs):
    """So many entries of each job, in any places; broadcast may be among them, and no job has an address twice."""
    table = [(job, some_address(r, r.random() < 0.5)) for job, n in enumerate(jobs) for _ in range(n)]
    if table and r.random() < 0.5:
        table[0] = (table[0][0], BROADCAST)
    table += [None] * (16 - len(table))
    r.shuffle(table)
    return table


def again(r, table, job, by):
    """An address of a job once more, in an entry that was free or another's."""
    table = list(table)
    at = [n for n, entry in enumerate(table) if entry is not None and entry[0] == job]
    table[r.choice([n for n in range(16) if n not in at])] = (by, table[r.choice(at)][1])
    return table


def some_table(r, sort=None):
    """The octets of a table: of so many entries for each job, of given ones, or broken. Nobody holds an entry with a first octet other than 1 and 2,
    whatever else stands there."""
    if isinstance(sort, list):
        table = sort
    elif sort in ("twice of 0", "twice of 1", "of both"):
        job = int(sort == "twice of 1")
        table = again(r, shuffled(r, (3, 2)), job, 1 - job if sort == "of both" else job)
    else:
        table = shuffled(r, sort or r.choice([(0, 0), (1, 0), (1, 1), (2, 1), (1, 2), (3, 3)]))
    listed = [entry[1] for entry in table if entry is not None] or [[1] * 6]
    spare, octet = r.choice([0, 0, 255]), r.choice([0, 0, 0, 3, 255])
    free = [octet] + r.choice(listed) + [spare] if octet or spare else [0] * 8
    return [octet for entry in table for octet in (free if entry is None else entry_octets(entry, spare))]


def listener(r, given):
    """Takes a job and a table out of what is given, or draws them: a job of 0 or 1, a table that is not broken."""
    return {"job": given.pop("job", r.choice([0, 1])), "table": some_table(r, given.pop("table", None))}


def address_of(r, s, to, job=0, table=(0,) * 128):
    if isinstance(to, list):
        return to
    lists = [[a for _, a in model.own_entries(entries(table), of) if a != BROADCAST] or [some_address(r)] for of in (job, 1 - job)]
    return {"own": s.own, "reserved": RESERVED_GROUP, "broadcast": BROADCAST, "listed": r.choice(lists[0]), "theirs": r.choice(lists[1]),
            "near": s.own[:5] + [s.own[5] ^ 1], "group": some_address(r, True), "other": some_address(r)}[to]


def frame(r, s, to=None, tags=0, field=None, data=None, control=None, quanta=None, named=None, size=None, fcs=True, **by):
    """A frame from destination to FCS, for a job and its table. `size` cuts or stretches it before its FCS is made; `fcs=False` spoils that."""
    d = address_of(r, s, to or r.choice(["own", "own", "listed", "reserved", "broadcast", "other", "group", "near", "theirs"]), **by)
    if control is not None:
        eight = [o for _ in range(8) for o in high_first(r.choice([0, 1, 65535, r.randrange(65536)]))]
        pause = high_first(r.randrange(65536) if quanta is None else quanta) + some(r, 42)
        pfc = [r.randrange(256), r.randrange(256) if named is None else named] + eight + some(r, 26)
        body = high_first(CONTROL) + high_first(control) + (pfc if control == 0x0101 else pause)
    else:
        if field is None:
            field = r.choice([0, 1, 30, 45, 46, 47, 60, 0x0800, 0x86DD, 0x0600])
        if data is None:
            data = field if 46 <= field <= 1500 else 46
        body = high_first(field) + some(r, data)
    octets = d + some_address(r) + [o for tag in some_tags(r, tags) for number in tag for o in high_first(number)] + body
    if size is not None:
        octets = (octets + some(r, size))[:max(0, size - 4)]
    check = model.fcs(octets)
    if not fcs:
        check[r.randrange(4)] ^= 1 << r.randrange(8)
    return (octets + check)[:size] if size is not None else octets + check


def on_line(r, octets, preamble="right", ending=TERMINATE, strict=False):
    """Start, preamble, frame and ending symbol, as octets and marks. An `ending` of None leaves the run open."""
    before = {"right": PREAMBLE, "wrong": None, "short": PREAMBLE[:r.randrange(7)], "late": PREAMBLE[:6] + [0x55]}[preamble]
    if before is None:
        before = list(PREAMBLE)
        before[r.randrange(7)] ^= 1 << r.randrange(8)
    run = before + ([] if preamble == "short" else octets)
    mark = lambda: 1 if strict else r.choice([1, 1, 1, 2, 255])
    tail = [] if ending is None else [ending]
    return [START] + run + tail, [mark()] + [0] * len(run) + [mark() for _ in tail]


def noise(r, n):
    """Symbols among which no Start is: also data that looks like one."""
    octets = [r.choice([IDLE, IDLE, START, TERMINATE, ERROR, 0x55]) for _ in range(n)]
    return octets, [0 if o == START else r.choice([0, 1, 1, 7]) for o in octets]


def make_reading(r, given):
    """One capture with one Start worth reading, noise around it, and a place."""
    given = dict(given)
    s = some_settings(r, **given.pop("settings", {}))
    by = listener(r, given)
    state = some_state(r)
    line = {k: given.pop(k) for k in ("preamble", "ending", "strict") if k in given}
    lead = given.pop("lead", r.choice([0, 0, 1, 3]))
    shape, place, unequal = given.pop("shape", "one"), given.pop("place", None), given.pop("unequal", 0)
    tags = given.pop("tags", 0 if r.random() < 0.7 else "few")
    octets, marks = noise(r, lead)
    if shape == "after":  # a Start before the place
        octets, marks = octets + [START], marks + [1]
        place = len(octets)
    if shape == "long":  # buffers of 65,537 Idles, or of 65,536
        octets, marks = [IDLE] * given["n"], [1] * given["n"]
    elif shape != "none":
        o, m = on_line(r, frame(r, s, tags=tags, **by, **given), **line)
        octets, marks = octets + o, marks + m
    if line.get("ending", 0) is not None and shape != "long":
        o, m = noise(r, r.choice([0, 1, 2]))
        octets, marks = octets + o, marks + m
    if place is None:
        place = r.randrange(lead + 1)
    elif place == "end":
        place = len(octets)
    elif place == "beyond":
        place = len(octets) + r.choice([1, 1, 500])
    if unequal:
        octets, marks = (octets[:-1], marks) if unequal < 0 else (octets, marks[:-1])
        if given.get("short", False):
            octets, marks = octets[:2], marks[:1]
    return Case("reading", s, state, octets, marks, place, **by)


def some_walk(r, given):
    """Settings, state, a capture of several short stretches, at most one or two of them whole frames, and a job and its table."""
    s, by = some_settings(r, **given.get("settings", {})), listener(r, dict(given))
    octets, marks = noise(r, r.randrange(3))
    for part in given["parts"]:
        if part == "frame":
            to = r.choice(["own", "listed", "listed", "reserved"])
            o, m = on_line(r, frame(r, s, to=to, tags=r.choice([0, 0, "few"]), field=r.choice([0, 20, 46, 0x0800]), **by))
        elif part == "pause":
            o, m = on_line(r, frame(r, s, to="reserved", control=r.choice([1, 0x0101]), quanta=r.choice([0, 1, 65535])))
        elif part == "wrong":
            o, m = on_line(r, frame(r, s, fcs=r.random() < 0.5, field=r.choice([45, 47, 1501]), data=r.choice([46, 47])))
        elif part == "small":
            o, m = on_line(r, frame(r, s, size=r.choice([0, 1, 63])))
        elif part == "preamble":
            o, m = on_line(r, [], preamble=r.choice(["short", "late"]))
        elif part == "cut":
            o, m = on_line(r, some(r, r.randrange(9)), ending=r.choice([IDLE, ERROR, 0x9C]))
        elif part == "start":  # its run is ended by whatever control symbol follows, perhaps a Start
            o, m = on_line(r, [], preamble="short", ending=None)
        elif part == "open":
            o, m = on_line(r, some(r, r.randrange(9)), ending=None)
        else:
            o, m = noise(r, 2)
        octets, marks = octets + o, marks + m
    if given.get("unequal"):
        marks = marks[:-1]
    return (s, some_state(r) if r.random() < 0.6 else State(), octets, marks), by


def make_walk(r, given):
    walk, by = some_walk(r, given)
    return Case("walk", *walk, **by)


def buffers(r, n):
    """n symbols that a sender must leave where it does not write; of very many all alike, which antt reads faster."""
    if n > 60000:
        return [r.randrange(256)] * n, [r.choice([0, 1, 2])] * n
    octets = [r.randrange(256) for _ in range(8)]
    marks = [r.choice([0, 1, 2]) for _ in range(8)]
    return (octets * (n // 8 + 1))[:n], (marks * (n // 8 + 1))[:n]


def room_for(r, needed, given):
    """Buffers with room for `needed` symbols from the place, or one fewer, or more."""
    place = r.choice([0, 1, 5]) if given.get("place") is None else given["place"]
    place = place(needed) if callable(place) else place
    spare = {"exact": 0, "short": -1, "none": -needed, "more": r.choice([1, 3, 9]), "much": 300}[
        given.get("room") or r.choice(["exact", "more", "more"])]
    n = max(0, place + needed + spare)
    octets, marks = buffers(r, given.get("n", n))
    if given.get("unequal"):
        marks = marks[:-1] if marks else [0]
    if given.get("beyond"):
        place = len(octets) + r.choice([1, 1, 70000])
    return octets, marks, place


def state_for(r, given, needed, cls=None):
    state = some_state(r, None if given.get("held") else cls)
    timers = list(state.timers)
    k = r.randrange(8)
    if k != cls:
        timers[k] = max(0, needed + r.choice([-1, 0, 1]))
    if given.get("held") and cls is not None and cls < 8:
        timers[cls] = r.choice([1, 84, 4194240])
    return replace(state, timers=timers)


def make_client(r, given):
    s = some_settings(r, **given.get("settings", {}))
    form = given.get("type", r.choice([None, None, 0x0800, 0x86DD, 0xFFFF]))
    n = given.get("data", r.choice([0, 1, 12, 45, 46, 47, 60]))
    n = n(s) if callable(n) else n
    data = some(r, n) if n < 200 else [r.randrange(256)] * n
    cls = given.get("cls", r.randrange(8))
    tags = some_tags(r, given.get("tags", 0 if r.random() < 0.5 else "few"))
    c = Client(address_of(r, s, given.get("to", r.choice(["own", "other", "broadcast", "group"]))), tags, form, cls, data)
    needed = len(model.client_symbols(s, c))
    octets, marks, place = room_for(r, needed, given)
    return Case("client", s, state_for(r, given, needed, cls), octets, marks, place, c)


def make_pause(r, given):
    s = some_settings(r, **{"flow": "pause", **given.get("settings", {})})
    octets, marks, place = room_for(r, 84, given)
    return Case("pause", s, state_for(r, given, 84), octets, marks, place, given.get("quanta", r.randrange(65536)))


def make_pfc(r, given):
    s = some_settings(r, **{"flow": "PFC", **given.get("settings", {})})
    octets, marks, place = room_for(r, 84, given)
    quanta = [r.choice([0, 1, 255, 256, 65535, r.randrange(65536)]) for _ in range(8)]
    return Case("pfc", s, state_for(r, given, 84), octets, marks, place, (given.get("named", r.randrange(256)), quanta))


def make_idle(r, given):
    n = given.get("asked", r.choice([0, 1, 7, 64]))
    octets, marks, place = room_for(r, n, given)
    return Case("idle", None, state_for(r, given, n), octets, marks, place, n)


def some_record(r, outcome):
    """Of these fields the lowest and highest values are likely."""
    return Record(r.choice([0, 65534, 2**32 - 1, r.randrange(2**32)]), outcome, r.choice([0, 1, 8, 255]), r.choice([0, 46, 2**16 - 1, r.randrange(2**16)]),
                  r.choice([0, 2**64 - 1, r.randrange(2**64)]))


def some_log(r, outcomes, more=0):
    """Records of these outcomes, and so many octets more, or fewer; an unused one is all zeros or has other octets."""
    records = [octet for outcome in outcomes for octet in (some_record(r, outcome).octets() if outcome or r.random() < 0.5 else [0] * 16)]
    return records + some(r, more) if more >= 0 else records[:more]


def make_append(r, given):
    return Case("append", log=some_log(r, given["log"], given.get("more", 0)), asked=some_record(r, given["outcome"]))


def make_look(r, given):
    return Case("look", log=some_log(r, given["log"], given.get("more", 0)), asked=given["number"])


def make_delete(r, given):
    return Case("delete", log=some_log(r, given["log"], given.get("more", 0)), asked=given["number"])


def make_delete_all(r, given):
    return Case("delete_all", log=some_log(r, given["log"], given.get("more", 0)), asked=given["outcome"])


def make_compact(r, given):
    return Case("compact", log=some_log(r, given["log"], given.get("more", 0)))


def make_keep(r, given):
    (s, state, octets, marks), by = some_walk(r, given)
    place = {"end": len(octets), "beyond": len(octets) + 1}.get(given.get("place"), r.choice([0, 0, min(1, len(octets))]))
    return Case("keep", s, state, octets, marks, place, log=some_log(r, given["log"], given.get("more", 0)), **by)


def starts_among(r, n):
    """n symbols in stretches that are alike: Starts, their octets as data, and others."""
    octets, marks = [], []
    while len(octets) < n:
        length, octet = r.choice([1, 2, 40, 90, 120]), r.choice([START, START, START, IDLE, 0x55])
        octets, marks = octets + [octet] * length, marks + [r.choice([0, 1, 1, 2, 255])] * length
    return octets[:n], marks[:n]


def some_totals(r, octets, marks, given):
    """The true totals or others, so many more or fewer, and one above 256 or just not."""
    totals = model.true_totals(octets, marks)
    if r.random() < 0.5:
        totals = [r.choice([0, 1, 255, 256]) for _ in totals]
    more = given.get("count", 0)
    totals = (totals + [r.choice([0, 256])] * more) if more > 0 else totals[:len(totals) + more]
    if "total" in given and totals:
        totals[{"first": 0, "last": -1}.get(given.get("which")) if given.get("which") else r.randrange(len(totals))] = given["total"]
    return totals


def make_counted(r, given):
    """A sending that keeps totals: the call of that recipe, over a capture with Starts."""
    c = given["of"](r, given)
    n, m = len(c.octets), len(c.marks)
    octets, marks = (c.octets, c.marks) if n > 60000 else starts_among(r, max(n, m))
    octets, marks = octets[:n], marks[:m]
    state = c.state if "deficit" not in given else replace(c.state, deficit=given["deficit"])
    return replace(c, octets=octets, marks=marks, state=state, totals=some_totals(r, octets, marks, given), port=given.get("port", model.PLAIN))


def make_totals(r, given):
    """Filling, or the question."""
    n = given["n"]
    octets, marks = ([START] * n, [given["alike"]] * n) if "alike" in given else starts_among(r, n)
    if given.get("unequal"):
        marks = marks[:-1]
    place = given.get("place", 0)
    return Case(given["call"], octets=octets, marks=marks, place=n + 1 if place == "beyond" else place, totals=some_totals(r, octets, marks, given))


def make_change(r, given):
    """An addition or a removal of an address that the job lists, that the other lists, or that neither does."""
    by = listener(r, dict(given))
    address = address_of(r, some_settings(r), given["to"], **{**by, "job": min(by["job"], 1)})
    return Case(given["call"], asked=address, **by)


def make_bad(r, given):
    return Case("bad", table=some_table(r, given["table"]))


def make_screen(r, given):
    """The reading of that recipe, and beside it another capture: a few symbols, or one that would be refused."""
    c = make_reading(r, {k: v for k, v in given.items() if k != "other"})
    other = {"refused": ([START], []), "empty": ([], []), None: on_line(r, frame(r, c.settings, to="own"))}[given.get("other")]
    return replace(c, call="screen", state=None, other=other)


# ---- The recipes

BAD_SETTINGS = [{"group_bit": True}, {"limit": 1517}, {"limit": 9619}, {"limit": 0}, {"limit": 65535}]
# what gives 20, by either job, and what just does not
BROKEN = [(13, 0), (0, 13), (13, 3), (3, 13), (16, 0), "twice of 0", "twice of 1"]
WHOLE = [(0, 0), (12, 0), (0, 12), (12, 4), (4, 12), (8, 8), "of both"]
BAD_JOBS = [{"job": n} for n in (2, 255)]
ON, OFF = {"checking": True}, {"checking": False}


def to_own(**settings):
    return {"promiscuous": False, "checking": True, **settings}


FAULTS = {1: {"ending": ERROR}, 2: {"preamble": "wrong"}, 3: {"size": 63}, 4: {"size": 1519, "settings": {"limit": 1518, "checking": True}},
          5: {"fcs": False}, 6: {"field": 45, "data": 47, "settings": {"checking": True}}, 7: {"to": "near", "settings": {"promiscuous": False}},
          8: {"to": "reserved", "control": 1, "settings": {"flow": "pause"}}, 9: {"to": "reserved", "control": 0x0101, "settings": {"flow": "PFC"}},
          10: {"to": "own", "control": 2, "settings": {"pass_control": False}}}


def both(a, b):
    """A recipe with two faults at once: the first rule must win."""
    return {**FAULTS[b], **FAULTS[a], "tags": 0, "settings": {**FAULTS[b].get("settings", {}), **FAULTS[a].get("settings", {})}}


PAIRS = [both(a, b) for a in range(1, 8) for b in range(a + 1, 11)
         if (a, b) not in [(3, 4), (4, 8), (4, 9), (4, 10), (6, 8), (6, 9), (6, 10), (7, 8), (7, 9), (7, 10)]]
PAIRS += [{**FAULTS[8], "settings": {"flow": "pause", "pass_control": False}}, {**FAULTS[9], "settings": {"flow": "PFC", "pass_control": False}}]
PAIRS += [{"to": "near", "control": 2, "tags": 0, "settings": {"promiscuous": False, "pass_control": False}}]

READINGS = (
    [{"settings": x} for x in BAD_SETTINGS]
    + [{"unequal": 1}, {"unequal": -1}, {"place": "beyond"}, {"place": "end"}, {"shape": "none", "lead": 3}, {"shape": "none", "lead": 0, "place": 0}]
    + [{"unequal": 1, "settings": BAD_SETTINGS[0]}, {"unequal": 1, "place": "beyond"}, {"place": "beyond", "settings": BAD_SETTINGS[1]}]
    + BAD_JOBS + [{"table": x, "to": "listed"} for x in BROKEN + WHOLE]
    + [{"job": 2, "settings": BAD_SETTINGS[0]}, {"job": 2, "unequal": 1}, {"job": 2, "place": "beyond"}, {"job": 2, "table": (13, 0)},
       {"table": (13, 0), "settings": BAD_SETTINGS[0]}, {"table": (13, 0), "unequal": 1}, {"table": (13, 0), "place": "beyond"}]
    + [{"ending": None}, {"ending": None, "size": 20}, {"shape": "after"}, {"shape": "after", "to": "own", "settings": to_own()}]
    + [{"ending": x} for x in (IDLE, START, ERROR, 0x9C, 0x00, 0x55)]
    + [{"preamble": x} for x in ("short", "wrong", "wrong", "late")]
    + [{"size": n, "to": "own", "settings": to_own()} for n in (0, 1, 3, 13, 17, 63, 64, 65)]
    + [{"size": 63, "fcs": False}]
    + PAIRS
    # the length rule, both sides of each limit, untagged and tagged
    + [{"to": "own", "tags": t, "field": f, "data": d, "settings": to_own()} for t in (0, 1) for f, d in
       [(0, 46), (1, 46), (44, 46), (45, 46), (45, 47), (46, 46), (46, 47), (47, 47), (47, 46), (60, 60), (60, 61), (60, 59), (0, 47), (1535, 46),
        (1501, 46), (1520, 50), (1536, 46)]]
    + [{"to": "own", "tags": 1, "field": f, "data": d, "settings": to_own()} for f, d in [(42, 42), (45, 45), (46, 45)]]
    + [{"to": "own", "tags": t, "field": f, "data": d, "settings": to_own()} for t in (2, 8) for f, d in
       [(0, 46), (0, 46 - 4 * t), (0, 47 - 4 * t), (45, 46), (45, 47), (46, 46), (46, 47), (47, 47), (47, 46), (1501, 46), (1536, 46)]]
    # the shorter padding of item 2, by the tags and by the field; one octet less by the tags would be an undersized frame
    + [{"to": "own", "tags": t, "field": f, "data": d, "settings": to_own()} for t in (1, 2, 8) for f, d in
       [(10, 46 - 4 * t), (10, 47 - 4 * t), (10, 46), (48 - 4 * t, 47 - 4 * t), (48 - 4 * t, 48 - 4 * t), (48 - 4 * t, 49 - 4 * t)]]
    # tags: how many, of which kinds, and a ninth
    + [{"to": "own", "tags": t, "settings": to_own()} for t in (3, 4, 5, 6, 7)]
    + [{"to": "own", "tags": [a], "field": 0x0800, "settings": to_own()} for a in TAG_KINDS]
    + [{"to": "own", "tags": [a, b], "field": 0x0800, "settings": to_own()} for a in TAG_KINDS for b in TAG_KINDS]
    + [{"to": "own", "tags": [a] + [b] * 7, "field": 0x0800, "settings": to_own()} for a, b in (TAG_KINDS, TAG_KINDS[::-1], [CUSTOMER] * 2)]
    + [{"to": "own", "tags": [b, a] * 4 + [a], "field": 10, "settings": to_own()} for a, b in (TAG_KINDS, TAG_KINDS[::-1])]
    + [{"to": "own", "tags": t, "size": 64, "settings": to_own()} for t in (2, 8, 12)]
    + [{"to": "own", "field": f, "data": d, "settings": to_own(**OFF)} for f, d in [(0, 46), (45, 47), (60, 61), (1520, 46), (0, 60)]]
    # the address rule
    + [{"to": x, "control": c, "settings": {"promiscuous": p, "checking": True}} for x in ("own", "listed", "theirs", "near", "other", "group", "reserved")
       for c in (None, 2) for p in (False,)]
    + [{"to": "theirs", "job": job, "table": (2, 2), "settings": to_own()} for job in (0, 1)]
    + [{"to": x, "control": c, "settings": {"promiscuous": True, "pass_control": True}} for x in ("other", "broadcast", "reserved") for c in (None, 2)]
    + [{"to": "broadcast", "control": 2, "tags": 0, "settings": to_own(broadcast=b, pass_control=p)} for b, p in [(False, True), (True, True), (True, False)]]
    # control frames
    + [{"to": x, "control": c, "tags": 0, "settings": {"flow": m, "promiscuous": False}} for x in ("reserved", "own") for c in (1, 0x0101)
       for m in ("none", "pause", "PFC")]
    + [{"to": "reserved", "control": 1, "tags": 0, "quanta": q, "settings": {"flow": "pause"}} for q in (0, 1, 65535)]
    + [{"to": "reserved", "control": 0x0101, "tags": 0, "named": k, "settings": {"flow": "PFC"}} for k in (0, 1, 128, 255, 0x5A)]
    + [{"to": "own", "control": c, "tags": t, "settings": to_own(flow="pause")} for c in (1, 0x0101) for t in (1, 2)]
    + [{"to": "reserved", "control": 1, "tags": t, "settings": to_own(flow="pause")} for t in (1, 2, 8)]
    + [{"to": "listed", "control": 1, "tags": 0, "table": (2, 2), "settings": to_own(flow="pause", pass_control=p)} for p in (False, True)]
    + [{"to": "group", "control": 0x0101, "tags": 0, "settings": to_own(flow="PFC", pass_control=True)}]
    + [{}] * 12
)
# which address let it in (items 7 and 10): each entry, and the own address, broadcast and the reserved group among them
GROUPS = [[1, 0, 0x5E, 0, 0, n] for n in range(4)]
STATION = [2, 0, 0, 0, 0, 1]


def at(entry, address, job=0, others=()):
    """A table in which a job lists one address, at that entry, and the other job others."""
    table = list(EMPTY)
    table[:len(others)] = [(1 - job, a) for a in others]
    table[entry] = (job, address)
    return table


def to_table(to, table, job=0, control=None, **settings):
    given = {"own": STATION, "checking": True, **settings}
    return {"to": to, "control": control, "field": 0x0800, "tags": 0, "job": job, "table": table, "settings": given}


WAYS = [to_table(GROUPS[1], at(n, GROUPS[1], n % 2, GROUPS), n % 2, promiscuous=n % 3 == 0) for n in range(16)]
WAYS += [to_table(GROUPS[1], at(n, GROUPS[1], 1 - job, GROUPS[2:]), job, promiscuous=p) for n in (0, 15) for job in (0, 1) for p in (False, True)]
WAYS += [to_table(STATION, at(3, STATION, job), job, c, promiscuous=p, flow="pause") for job in (0, 1) for c in (None, 1) for p in (False, True)]
WAYS += [to_table(BROADCAST, at(3, BROADCAST, 1), 1, c, broadcast=b, promiscuous=p) for c in (None, 2) for b in (False, True) for p in (False, True)]
WAYS += [to_table(RESERVED_GROUP, at(2, RESERVED_GROUP), 0, c, promiscuous=p, flow=m, pass_control=k) for c in (None, 1, 0x0101) for p in (False, True)
         for m, k in (("none", True), ("pause", False), ("PFC", False))]
READINGS += WAYS
# few of these: a thousand octets and more, whose check antt computes in seconds
LARGE_READINGS = [
    {"to": "own", "tags": 0, "field": 0x0800, "size": 1518, "settings": to_own(limit=1518)},
    {"to": "own", "tags": 1, "field": 0x0800, "size": 1522, "settings": to_own(limit=1518)},
    {"to": "own", "tags": 0, "field": 0x0800, "size": 1519, "settings": to_own(limit=1518)},
    {"to": "own", "tags": 1, "field": 0x0800, "size": 1523, "settings": to_own(limit=1518)},
    {"to": "own", "tags": 2, "field": 0x0800, "size": 1526, "settings": to_own(limit=1518)},
    {"to": "own", "tags": 2, "field": 0x0800, "size": 1527, "settings": to_own(limit=1518)},
    {"to": "own", "tags": 8, "field": 0x0800, "size": 1550, "settings": to_own(limit=1518)},
    {"to": "own", "tags": 9, "field": 0x0800, "size": 1551, "settings": to_own(limit=1518)},
    {"to": "own", "tags": 0, "field": 0x0800, "size": 1522, "settings": to_own(limit=1518)},
    {"to": "own", "tags": 0, "field": 1500, "data": 1500, "settings": to_own(limit=9618)},
    {"to": "own", "tags": 0, "field": 1500, "data": 1501, "settings": to_own(limit=9618)},
    {"to": "own", "tags": 0, "field": 1501, "data": 1501, "settings": to_own(limit=9618)},
    {"shape": "long", "n": 65537, "place": 65530},
    {"shape": "long", "n": 65536, "place": 65530},
]
WALKS = [{"parts": p} for p in (
    [], ["noise"], ["frame"], ["frame", "frame"], ["start", "start", "cut"], ["start", "frame"], ["cut", "start", "frame", "open"], ["open"],
    ["preamble", "open"], ["small", "noise", "small", "preamble"], ["pause", "frame"], ["pause", "pause"], ["wrong", "cut"], ["wrong", "open"],
    ["frame", "start"], ["start", "pause", "start", "preamble"], ["frame", "noise", "wrong"], ["cut"] * 5)]
WALKS += [{"parts": ["frame"], "settings": {"limit": 9619}}, {"parts": ["cut"], "unequal": True}, {"parts": ["cut"], "unequal": True, "settings": {"limit": 1517}}]
WALKS += [{"parts": ["cut"], **x} for x in BAD_JOBS + [{"table": (13, 0)}, {"table": "twice of 1"}, {"job": 2, "table": (0, 13)},
          {"unequal": True, "table": (0, 13)}, {"job": 2, "settings": {"limit": 0}}, {"job": 2, "unequal": True}]]
WALKS += [{"parts": ["frame", "frame"], "table": (12, 4), "job": job, "settings": {"promiscuous": False}} for job in (0, 1)]

COMMON = [{"room": x} for x in ("exact", "short", "none")] + [{"unequal": True}, {"beyond": True}, {"unequal": True, "beyond": True},
          {"unequal": True, "room": "short"}]
CONTROLS = COMMON + [{"settings": x} for x in BAD_SETTINGS] + [{"room": "short", "place": 0}, {"room": "more", "place": 5}]
CONTROLS += [{"settings": BAD_SETTINGS[0], "unequal": True}, {"settings": BAD_SETTINGS[1], "beyond": True}, {"n": 0, "place": 0}]
M_18 = {"limit": 1518}
CLIENTS = (
    CONTROLS + [{"settings": {"limit": x}} for x in (1518, 9618)] + [{"place": 5, "room": "more"}]
    + [{"data": n, "tags": t} for n in (0, 45, 46, 47) for t in (0, 1, 2)]
    + [{"data": n, "type": 0x0800, "tags": t} for n in (0, 46, 47) for t in (0, 1)]
    + [{"type": t, "tags": 2} for t in (None, 0x0800)] + [{"type": t, "tags": 8} for t in (None, 0x0800)] + [{"tags": t} for t in (3, 4, 5, 6, 7)]
    + [{"tags": [a]} for a in TAG_KINDS] + [{"tags": [a, b]} for a, b in (TAG_KINDS, TAG_KINDS[::-1])]
    + [{"tags": [a] + [b] * 7} for a, b in (TAG_KINDS, TAG_KINDS[::-1])] + [{"tags": t, "type": None, "data": 9} for t in (9, 12, 255)]
    + [{"type": t} for t in (0, 1535, 1536, 0x8100, 0x8808, 0x88A8, 0x80FF, 0x8101, 0x8807, 0x8809, 0x88A7, 0x88A9, 0xFFFF)]
    + [{"cls": k} for k in (0, 7, 8, 255)] + [{"held": True}, {"held": True, "cls": 0}, {"held": True, "cls": 7}]
    # two refusals at once
    + [{"settings": BAD_SETTINGS[0], "cls": 8}, {"beyond": True, "cls": 8}, {"unequal": True, "held": True}, {"beyond": True, "held": True}]
    + [{"cls": 8, "type": 5}, {"cls": 9, "room": "short"}, {"type": 0x8100, "room": "short"}, {"type": 0x8100, "held": True}, {"room": "short", "held": True}]
    + [{"cls": 8, "data": 1501, "type": None, "place": 0}, {"beyond": True, "type": 5}]
    + [{"tags": 9, "type": 0x88A8}, {"tags": 9, "cls": 8}, {"tags": 9, "type": 0x0800, "room": "short"}, {"tags": 9, "type": None, "held": True}]
    + [{}] * 6
)
# the data may be long while no check is computed: refused for its length or for room
LARGE_CLIENTS = [
    {"data": 1500, "type": None, "room": "exact", "tags": 0}, {"data": 1501, "type": None, "n": 3, "place": 0, "settings": {"limit": 9618}},
    {"data": 1500, "type": 0x0800, "settings": M_18, "tags": 8}, {"data": 1501, "type": 0x0800, "n": 3, "place": 0, "settings": M_18},
    {"data": 1501, "type": 1535, "n": 3, "place": 0, "settings": M_18}, {"data": 1501, "type": 0x0800, "n": 3, "place": 0, "held": True, "settings": M_18},
    {"data": 9601, "type": 0x0800, "n": 3, "place": 0, "tags": 9, "settings": {"limit": 9618}}, {"data": 1501, "type": None, "room": "exact", "settings": M_18},
]
FLOWS = [{"settings": {"flow": m}} for m in ("none", "pause", "PFC")]
FLOWS += [{"settings": {"flow": "none"}, "room": "short"}, {"settings": {"flow": "none"}, "beyond": True}]
IDLES = COMMON + [{"asked": n, "room": x} for n in (0, 1, 2, 84) for x in ("exact", "more", "short")] + [{"asked": 0, "room": "exact", "place": 0}, {"beyond": True, "asked": 0}]
LARGE_IDLES = [{"n": 65537, "place": 65530, "asked": 7}, {"n": 65536, "place": 65530, "asked": 6}, {"n": 65536, "place": 65530, "asked": 7}]

LOGS = ([], [0], [1], [0, 0], [1, 0], [0, 255], [11, 1], [1, 0, 7, 0], [9, 8, 0], [0, 5, 0], [3, 0, 4], [0, 0, 6], [0, 2, 11], [7, 0, 7, 5, 0, 7])
BAD_LENGTHS = (1, -1, -15)  # so many octets more
APPENDS = [{"log": log, "outcome": n} for log in LOGS for n in (0, 1, 255)] + [{"log": [1, x], "more": n, "outcome": o} for x in (0, 1)
           for n in (1, 15, -1) for o in (0, 11)]
LOOKS = [{"log": log, "number": n} for log in LOGS for n in range(len(log) + 1)] + [{"log": [1, 1], "number": n} for n in (3, 2**32, 2**60, 2**64 - 1)]
LOOKS += [{"log": [1, 1], "more": n, "number": k} for n in BAD_LENGTHS for k in (0, 9)]
DELETES = [{"log": log, "number": n} for log in LOGS for n in range(len(log) + 1)] + [{"log": [1, 1], "number": n} for n in (3, 2**32, 2**60, 2**64 - 1)]
DELETES += [{"log": [1, x], "more": n, "number": k} for n in BAD_LENGTHS for k, x in ((0, 1), (1, 0), (9, 1))]
ALIKE = ([], [7], [0], [7, 7, 7], [7, 0, 5, 7], [0, 7, 7, 1, 0], [5, 1], [7, 255, 7])
DELETE_ALLS = [{"log": log, "outcome": o} for log in ALIKE for o in (7, 0, 1, 255)]
DELETE_ALLS += [{"log": [7, 7], "more": n, "outcome": o} for n in BAD_LENGTHS for o in (7, 0)]
COMPACTS = [{"log": log} for log in LOGS] + [{"log": [0, 7], "more": n} for n in BAD_LENGTHS]
COMPACTS += [{"log": log} for log in ([0, 1, 2, 3], [1, 0, 2, 3], [1, 2, 0, 3], [1, 2, 3, 0], [0, 1, 0, 2, 0, 3], [1, 2, 3, 4, 5], [0, 0, 0, 0])]
KEEPS = [{"parts": p, "log": log} for p in ([], ["frame"], ["cut", "preamble"], ["cut", "open"], ["wrong", "pause"], ["small", "frame", "start", "preamble"])
         for log in ([], [0], [0, 0], [1, 0], [1, 0, 1, 0, 0], [0, 1], [0, 0, 0, 1])]
KEEPS += [{"parts": ["open"], "log": log} for log in ([], [0], [0, 1])] + [{"parts": ["cut"] * 3, "log": [0] * n} for n in (2, 3, 4)]
KEEPS += [{"parts": ["cut", "cut"], "log": [0], "place": "end"}]
KEEPS += [{"parts": ["cut"], "log": [0], **x} for x in ({"settings": {"limit": 0}}, {"unequal": True}, {"place": "beyond"}, {"more": 1}, {"more": -1},
          {"settings": {"limit": 1517}, "unequal": True}, {"unequal": True, "place": "beyond"}, {"place": "beyond", "more": 1},
          {"settings": {"limit": 9619}, "more": 1})]
KEEPS += [{"parts": ["cut"], "log": [0], **x} for x in BAD_JOBS + [{"table": (13, 0)}, {"table": "twice of 0"}, {"job": 2, "table": (13, 0)},
          {"table": (0, 13), "more": 1}, {"job": 2, "settings": {"limit": 0}}, {"job": 2, "unequal": True},
          {"table": (13, 0), "place": "beyond"}, {"job": 2, "more": 1}]]
KEEPS += [{"parts": ["frame"], "log": [0], "table": (12, 4), "job": job, "settings": {"promiscuous": False}} for job in (0, 1)]
LOG_RECIPES = [(make_append, x) for x in APPENDS] + [(make_look, x) for x in LOOKS] + [(make_keep, x) for x in KEEPS]
LOG_RECIPES += [(make_delete, x) for x in DELETES] + [(make_delete_all, x) for x in DELETE_ALLS] + [(make_compact, x) for x in COMPACTS]

STRETCHES = (0, 1, 255, 256, 257, 511, 512, 513)
COUNTS = [{"n": n, "count": count} for n in (0, 256, 257) for count in (-1, 1) if n + count >= 0]
FILLS = [{"n": n} for n in STRETCHES] + COUNTS + [{"n": 512, "alike": 1}, {"n": 300, "total": 257}, {"n": 300, "total": 65535}, {"n": 300, "unequal": True},
         {"n": 300, "unequal": True, "count": 1}]
BEFORES = [{"n": n, "place": place} for n in STRETCHES for place in (0, 1, 255, 256, 257, 512) if place <= n] + COUNTS
BEFORES += [{"n": 512, "place": place, "alike": 1} for place in (256, 300, 511, 512)]
BEFORES += [{"n": 300, "place": 280, "total": total, "which": which} for total in (256, 257, 65535) for which in ("first", "last")]
BEFORES += [{"n": 300, **x} for x in ({"unequal": True}, {"place": "beyond"}, {"unequal": True, "place": "beyond"}, {"place": "beyond", "count": 1},
            {"count": 1, "total": 257}, {"place": "beyond", "total": 257})]
FILLS += [{"n": 2048, "alike": 1}, {"n": 65537, "alike": 0}]  # antt does not compute the totals of 65,536 symbols; the tape has them
BEFORES += [{"n": 65536, "place": 65536, "alike": 1}, {"n": 65537, "place": 0, "alike": 0}]
EDGED = [{"place": place, "room": room} for place in (lambda n: max(0, 256 - n), lambda n: max(0, 257 - n), lambda n: 200, lambda n: 255, lambda n: 256)
         for room in ("exact", "much")]
AMISS = [{"count": -1}, {"count": 1}, {"total": 256}, {"total": 257, "which": "first"}, {"total": 257, "which": "last"}, {"count": 1, "total": 257},
         {"beyond": True, "count": 1}, {"unequal": True, "count": 1}, {"beyond": True, "total": 257}, {"room": "short", "total": 257}, {"room": "short"}]
LANED = [{"port": model.FOUR_LANE, "place": 4 * n, "deficit": deficit, **x} for n, deficit, x in
         [(0, 0, {}), (43, 3, {"room": "much"}), (43, 0, {"room": "much"}), (64, 1, {}), (1, 4, {}), (1, 4, {"count": 1}), (1, 4, {"total": 257}),
          (1, 3, {"count": -1})]]
KEEPING = EDGED + AMISS
FOR_CLIENT = [{"cls": 8, "total": 257}, {"cls": 8, "count": 1}, {"type": 0x8100, "total": 257}, {"tags": 9, "total": 257}, {"held": True, "total": 257},
              {"held": True}, {"cls": 8}, {"settings": BAD_SETTINGS[3], "count": 1}, {"data": 300, "place": 250, "room": "much"}, {"data": 60, "place": 170}]
FOR_CONTROL = [{"settings": {"flow": "none"}, **x} for x in ({}, {"total": 257}, {"count": 1})] + [{"settings": BAD_SETTINGS[3], "count": 1}]
FOR_IDLE = [{"asked": n, "place": place, "room": "much"} for n, place in [(0, 0), (0, 256), (1, 255), (1, 256), (256, 0), (256, 256), (257, 255), (520, 10)]]
TOTALS_RECIPES = (
    [(make_totals, {"call": "fill", **x}) for x in FILLS] + [(make_totals, {"call": "before", **x}) for x in BEFORES]
    + [(make_counted, {"of": make_client, **x}) for x in KEEPING + LANED + FOR_CLIENT]
    + [(make_counted, {"of": make, **x}) for make in (make_pause, make_pfc) for x in KEEPING + LANED + FOR_CONTROL]
    + [(make_counted, {"of": make_idle, **x}) for x in KEEPING + FOR_IDLE])

CHANGES = [{"to": to, "job": job, "table": x} for x in WHOLE + [(11, 0), (12, 3), (3, 12), (7, 8), (1, 1)] for job in (0, 1)
           for to in ("listed", "theirs", "other")]
CHANGES += [{"to": to, "job": job, "table": x} for x in BROKEN for job, to in ((0, "listed"), (1, "other"))]
CHANGES += [{"to": to, "job": job, "table": x} for x in ((0, 0), (13, 0), (12, 4), "twice of 1") for job, to in ((2, "listed"), (255, "other"))]
CHANGES += [{"to": to, "job": 1, "table": (2, 2)} for to in ("own", "reserved", "broadcast")]
CHANGES += [{"to": "other", "job": n % 2, "table": [None if n == k else (k % 2, [1, 0, 0x5E, 0, 0, k]) for k in range(16)]} for n in (0, 9, 15)]
HANDED = {"settings": to_own(), "field": 0x0800, "tags": 0}
SCREENS = [{"to": to, "job": job, "table": (2, 2), "other": x, **HANDED} for to in ("own", "listed", "theirs") for job in (0, 1)
           for x in (None, "refused", "empty")]
SCREENS += [{"job": job, **x} for job in (0, 1) for x in ({"ending": None}, {"fcs": False}, {"shape": "none"}, {"unequal": 1}, {"place": "beyond"},
            {"table": (13, 0)}, {"settings": BAD_SETTINGS[0], "job": 2}, {"job": 2, "unequal": 1}, {"unequal": 1, "place": "beyond"},
            {"place": "beyond", "table": "twice of 0"})]
SCREENS += [{"shape": "after", "job": job, "to": "own", "lead": 3, "other": "empty", **HANDED} for job in (0, 1)]
JOB_RECIPES = [(make_change, {"call": call, **x}) for call in ("add", "remove") for x in CHANGES] + [(make_bad, {"table": x}) for x in WHOLE + BROKEN]
JOB_RECIPES += [(make_screen, x) for x in SCREENS]

READING_RECIPES = [(make_reading, x) for x in READINGS] + [(make_walk, x) for x in WALKS]
SENDING_RECIPES = (
    [(make_client, x) for x in CLIENTS] + [(make_pause, x) for x in CONTROLS + FLOWS + [{"quanta": q} for q in (0, 255, 256, 65535)]]
    + [(make_pfc, x) for x in CONTROLS + FLOWS + [{"named": k} for k in (0, 1, 128, 255)]] + [(make_idle, x) for x in IDLES])
LARGE = [(make_reading, x) for x in LARGE_READINGS] + [(make_client, x) for x in LARGE_CLIENTS] + [(make_idle, x) for x in LARGE_IDLES]


def drawn(r, recipes, n):
    """n recipes: each once before any twice."""
    out = []
    while len(out) < n:
        round_ = list(recipes)
        r.shuffle(round_)
        out += round_
    return out[:n]


def generate(n, seed) -> List[Case]:
    """n drawn cases, three readings or walks to two sendings, one in twenty large; beside them the published values of the check, a call on a log,
    a call with totals and a call of two jobs for each two of them, each recipe once at most, of some readings why they have their outcomes, and of
    some captures what the plain reader tells of them, and what they add to a size table."""
    r = random.Random(seed)
    large = min(n // 20, len(LARGE))
    readings = (n - large) * 3 // 5
    chosen = drawn(r, READING_RECIPES, readings) + drawn(r, SENDING_RECIPES, n - large - readings) + drawn(r, LARGE, large)
    cases = [make(r, given) for make, given in chosen] + [Case("fcs", asked=(list(text), value)) for text, value in PUBLISHED]
    cases += [make(r, given) for make, given in drawn(r, LOG_RECIPES, min(n // 2, len(LOG_RECIPES)))]
    cases += [make(r, given) for make, given in drawn(r, TOTALS_RECIPES, min(n // 2, len(TOTALS_RECIPES)))]
    cases += [make(r, given) for make, given in drawn(r, JOB_RECIPES, min(n // 2, len(JOB_RECIPES)))]
    return cases + why_cases(cases) + plain_cases(cases) + size_cases(r, cases)


def why_cases(cases):
    """Why the readings among them have their outcomes: of one in three, and of each that hits something new."""
    whys = [Case("why", c.settings, None, c.octets, c.marks, c.place, job=c.job, table=c.table) for c in cases if c.call == "reading"]
    hit, out = set(), []
    for n, c in enumerate(whys):
        if n % 3 == 0 or c.hits - hit:
            out.append(c)
            hit |= c.hits
    return out


def plain_cases(cases):
    """The captures among them that a plain reader can be given: of the short ones one in six, and each that hits something new; longer ones only for that."""
    given = sorted((c for c in cases if c.call in ("reading", "walk") and len(c.octets) == len(c.marks) <= 1700), key=lambda c: len(c.octets))
    hit, out = set(), []
    for n, c in enumerate(Case("plain", c.settings, c.state, c.octets, c.marks, job=c.job, table=c.table) for c in given):
        if n % 6 == 0 and len(c.octets) <= 200 or c.hits - hit:
            out.append(c)
            hit |= c.hits
    return out


SIZE_EDGES = (63, 64, 65, 127, 128, 255, 256, 511, 512, 1023, 1024, 1518, 1519)


def size_cases(r, cases):
    """Frames on both sides of each band's edge; and of the captures among them one in eight of the short ones, and each that hits something new."""
    s = replace(model.PRINTING, limit=9618)
    lines = [model.on_line(s.own + [2, 0, 0, 0, 0, 9, 8, 0] + [n % 256] * (n - 18)) for n in SIZE_EDGES]
    lines.append(lines[1] + lines[2][:50])  # the second one open
    out = [Case("sizes", s, None, [o for o, _ in line], [m for _, m in line], totals=counts(r), table=[0] * 128) for line in lines]
    hit = set().union(*(c.hits for c in out))
    given = sorted((c for c in cases if c.call in ("reading", "walk") and len(c.octets) <= 1700), key=lambda c: len(c.octets))
    for n, c in enumerate(Case("sizes", c.settings, None, c.octets, c.marks, totals=counts(r), job=c.job, table=c.table) for c in given):
        if n % 8 == 0 and len(c.octets) <= 200 or c.hits - hit:
            out.append(c)
            hit |= c.hits
    return out


def counts(r):
    """Fourteen of them, some of which roll over soon."""
    return [r.choice([0, r.randrange(2**64), 2**64 - 1, 2**64 - r.randrange(1, 100)]) for _ in range(14)]


# ---- Coverage: what must be hit (every outcome, every refusal of every call, both sides of each limit), and what else was

MUST = (
    ["reading: none", "reading: open"] + [f"reading: outcome {n}" for n in range(1, 12)] + [f"reading: refused {n}" for n in (1, 2, 3, 14, 20)]
    + ["walk: ends none", "walk: ends open", "walk: a Start that ended the run before it"] + [f"walk: refused {n}" for n in (1, 2, 14, 20)]
    + ["plain: ends none", "plain: ends open"] + [f"plain: outcome {n}" for n in range(1, 12)] + [f"plain: refused {n}" for n in (1, 14, 20)]
    + ["sizes: added", "sizes: nothing", "sizes: open, added", "sizes: open, nothing", "sizes: a count rolls over"] + [f"sizes: band {n}" for n in range(7)]
    + [f"sizes: a frame of {n}" for n in SIZE_EDGES[1:]] + [f"sizes: refused {n}" for n in (1, 2, 14, 20)]
    + [f"sizes: refusal {a} before {b}" for a, b in [(1, 14), (14, 2), (14, 20), (2, 20)]]
    + ["why: none", "why: open"] + [f"why: outcome {n}" for n in range(1, 12)] + [f"why: refused {n}" for n in (1, 2, 3, 14, 20)]
    + [f"{c}: refusal {a} before {b}" for c in ("reading", "why", "keep") for a, b in [(1, 14), (14, 2), (14, 20), (3, 20)]] + ["reading: refusal 2 before 20"]
    + [f"walk: refusal {a} before {b}" for a, b in [(1, 14), (14, 2), (14, 20), (2, 20)]]
    + ["why: bad preamble, length", "why: bad preamble, octet 7", "why: handed out, data", "why: handed out, no data"]
    + ["why: limit M+0", "why: limit M+4"] + [f"why: {t}, length broken" for t in ("untagged", "1 tag", "2 tags", "8 tags")]
    + [f"client: refused {n}" for n in (1, 2, 3, 5, 6, 7, 8, 9, 10)] + [f"{c}: refused {n}" for c in ("pause", "pfc") for n in (1, 2, 3, 4, 8)]
    + [f"idle: refused {n}" for n in (2, 3, 8)] + [f"{c}: written" for c in ("client", "pause", "pfc", "idle")]
    + [f"{c}: {x} refused" for c in ("reading", "client", "pause", "pfc") for x in ("group bit", "M 1517", "M 9619")]
    + [f"{c}: M {x} taken" for c in ("reading", "client") for x in (1518, 9618)]
    + [f"{c}: room {x}" for c in ("client", "pause", "pfc", "idle") for x in ("exact", "one short")]
    + [f"{c}: place beyond the length" for c in ("client", "pause", "pfc", "idle")] + ["reading: place at the length", "idle: place at the length"]
    + ["reading: unequal buffers", "reading: too long buffers", "idle: too long buffers"]
    + [f"reading: frame of {n}" for n in (63, 64)]
    + [f"reading: M{x}" for x in (", untagged", "+1, untagged", "+4, untagged", "+4, 1 tag", "+5, 1 tag", "+8, 2 tags", "+9, 2 tags", "+32, 8 tags", "+33, 8 tags")]
    + [f"reading: field {x}, {t}" for t in ("2 tags", "8 tags") for x in ("0 kept", "0 broken", "45 kept", "45 broken", "46 kept", "46 broken", "47 kept",
       "47 broken", "1501 broken")]
    + [f"reading: {t}, {x}" for t in ("1 tag", "2 tags", "8 tags") for x in ("padded to 46: kept", "shortest data by the tags: kept",
       "shortest data by the tags, and +1: broken", "shortest data by the field, and -1: broken", "shortest data by the field: kept",
       "shortest data by the field, and +1: broken")]
    + [f"reading: {n}, bits 33 and 32 are {x}" for n, x in [("untagged", "00"), ("1 tag", "10"), ("2 tags", "01"), ("3 tags", "01"), ("8 tags", "01")]]
    + [f"reading: {n}, {x:#06x} outermost" for n in ("1 tag", "2 tags", "8 tags") for x in TAG_KINDS]
    + [f"reading: {a:#06x} outside {b:#06x}" for a in TAG_KINDS for b in TAG_KINDS] + [f"reading: a ninth tag, {x:#06x}, an ordinary type" for x in TAG_KINDS]
    + [f"reading: 0x8808 behind {n}, an ordinary type" for n in ("1 tag", "2 tags")]
    + [f"reading: field {x}, {t}" for t in ("untagged", "1 tag") for x in ("0 kept", "45 kept", "45 broken", "46 kept", "46 broken", "47 kept", "47 broken",
       "1501 broken", "1535 broken")] + ["reading: field 1500 kept, untagged", "reading: field 1500 broken, untagged", "reading: field 1536, a type"]
    + ["reading: length field, checking off", "reading: data 0xFB in the run", "reading: a counter rolls over", "reading: a counter passes 2^32"]
    + ["reading: PFC class named", "reading: PFC class not named"] + [f"reading: pause of {n} quanta" for n in (0, 1, 65535)]
    + [f"reading: client frame, way {n}" for n in (0, 1, 6, 7, *range(16, 32))] + [f"reading: control frame, way {n}" for n in (0, 1, 6, 7, 8)]
    + [f"reading: {p}, way {n}" for p in ("promiscuous", "not promiscuous") for n in (1, 6, 8, "of an entry")]
    + [f"reading: job {n}, way of an entry" for n in (0, 1)]
    + [f"reading: client frame, listed{x}, way of an entry" for x in ("", " by both")]
    + [f"reading: {x} frame, listed, way {n}" for x, n in [("client", 0), ("client", 1), ("client", 6), ("client", 7), ("control", 1), ("control", 8)]]
    + [f"keep: way {n} kept" for n in (0, 1, 8)]
    + [f"reading: ended by {x}" for x in ("Idle", "Start", "Error", "Sequence", "another control octet")]
    + [f"reading: outcome {a} before {b}" for a, b in [(1, 2), (2, 3), (3, 5), (4, 5), (5, 6), (6, 7), (7, 10), (8, 10), (9, 10)]]
    + ["reading: listed broadcast, setting on: 11", "reading: listed broadcast, setting off: 7", "reading: client frame to listed: 11",
       "reading: client frame to listed by the other job: 7", "reading: control frame to own: 8", "reading: control frame to reserved group: 8"]
    + [f"client: {f} form, {t}" for f in ("length", "type") for t in ("untagged", "1 tag", "2 tags", "8 tags")]
    + [f"client: {n}, {x:#06x} outermost" for n in ("1 tag", "2 tags", "8 tags") for x in TAG_KINDS] + [f"client: {n} tags refused" for n in (9, 255)] + [f"client: data {n} written" for n in (0, 45, 46, 47, 1500)]
    + [f"client: {f} form, data {x}" for f in ("length", "type") for x in ("at the limit", "one over")]
    + ["client: type 0x05ff refused", "client: type 0x0600 taken", "client: type 0x8100 refused", "client: type 0x8808 refused"]
    + ["client: type 0x88a7 taken", "client: type 0x88a8 refused", "client: type 0x88a9 taken"]
    + [f"client: a timer at n{x} slots" for x in ("-1", "", "+1")] + ["client: written while another class is held", "pfc: class not named with quanta"]
    + [f"client: refusal {a} before {b}" for a, b in [(1, 2), (2, 3), (3, 5), (5, 6), (6, 10), (10, 7), (7, 8), (8, 9)]]
    + [f"{c}: refusal {a} before {b}" for c in ("pause", "pfc") for a, b in [(1, 2), (2, 3), (3, 4), (4, 8)]] + ["idle: refusal 2 before 3", "fcs: published value"]
    + [f"append: {x}" for x in ("a record, written", "a record, refused 11", "a record, refused 12", "outcome 0, not written", "outcome 0, refused 11",
       "a record, 0 unused of 0", "outcome 0, 0 unused of 0", "a record, 0 unused of 2", "outcome 0, 0 unused of 2")]
    + [f"append: {what}, {x}" for what in ("a record", "outcome 0") for x in ("room behind the last, a hole", "room behind the last, no hole",
       "the last slot used, a hole", "the last slot used, no hole", "1 unused of 3", "2 unused of 3")]
    + [f"look: {x}" for x in ("record read", "record refused 11", "record refused 13", "an unused record", "beyond the log", "used records told",
       "used records refused 11", "a used record behind an unused one", "next, 0 skipped", "next, 1 skipped", "next, 2+ skipped", "next refused 11",
       "next refused 13", "next, unused ones alone")]
    + [f"{c}: {x}" for c in ("delete", "delete_all", "compact") for x in ("done", "refused 11", "room behind the last, a hole", "room behind the last, no hole",
       "the last slot used, a hole", "the last slot used, no hole")]
    + [f"delete: {x}" for x in ("refused 13", "the only", "the first", "the last", "in the middle", "an unused record", "beyond the log", "11, 13 too",
       "11, used")]
    + [f"delete_all: {x} left" for x in ("0 deleted, others", "0 deleted, none", "1 deleted, others", "1 deleted, none", "2 deleted, others", "2 deleted, none",
       "outcome 0, others", "outcome 0, none")] + ["delete_all: no record, no hole", "compact: no record, no hole"]
    + [f"compact: {x} remain" for x in ("changed, 0", "changed, 1", "changed, 3+", "nothing changes, 0", "nothing changes, 1", "nothing changes, 3+")]
    + [f"keep: refused {n}" for n in (1, 2, 3, 11, 14, 20)] + [f"keep: refusal {a} before {b}" for a, b in [(1, 2), (2, 3), (3, 11), (14, 11), (20, 11)]]
    + [f"keep: {x}" for x in ("0 kept, ends none", "0 kept, ends open", "0 kept, ends full", "2+ kept, ends none", "2+ kept, ends full", "used records stay")]
    + [f"keep: a hole, {x}" for x in ("room behind the last, not compacted, ends none", "room behind the last, compacted, ends full",
       "the last slot used, not compacted, ends none", "the last slot used, not compacted, ends open", "the last slot used, compacted, ends none",
       "the last slot used, compacted, ends full")]
    + [f"keep: ends {x} left" for x in ("none, a record", "none, no record", "open, a record", "full, no record")]
    + [f"keep: outcome {n} kept" for n in (1, 2, 3, 11)]
    + ["fill: filled", "fill: refused 2", "fill: refused 21", "fill: refusal 2 before 21", "fill: a total above 256 before", "fill: a total of 256"]
    + [f"fill: {x}" for x in ("0 blocks, the last whole", "1 blocks, the last short", "1 blocks, the last whole", "2 blocks, the last short",
       "2 blocks, the last whole", "3 blocks, the last short", "8 blocks, the last whole")]
    + [f"before: refused {n}" for n in (2, 3, 21, 22)] + [f"before: refusal {a} before {b}" for a, b in [(2, 3), (3, 21), (21, 22)]]
    + [f"before: {x}, {n} before it" for x in ("at an edge", "inside a block") for n in (0, 1)] + ["before: at an edge, 2 before it"]
    + ["before: true totals", "before: untrue totals", "before: a total of 256", "before: place at the length"]
    + [f"{c}: refused {n}" for c in ("client", "pause", "pfc", "idle") for n in (21, 22)] + [f"{c}: refused 19" for c in ("client", "pause", "pfc")]
    + [f"{c}: refusal {a} before {b}" for c in ("client", "pause", "pfc") for a, b in
       [(1, 21), (2, 21), (3, 21), (3, 22), (19, 21), (19, 22), (21, 22), (22, 8)]]
    + [f"client: refusal 22 before {n}" for n in (5, 6, 9, 10)] + [f"{c}: refusal 22 before 4" for c in ("pause", "pfc")] + ["client: refusal 21 before 5"]
    + [f"idle: refusal {a} before {b}" for a, b in [(2, 21), (3, 21), (3, 22), (21, 22), (22, 8)]]
    + [f"{c}: totals, {x}" for c in ("client", "pause", "pfc", "idle") for x in ("into 1 block", "into 2 blocks", "begins at an edge", "ends at an edge",
       "into a short block", "others stay", "all anew", "true", "untrue")]
    + ["client: totals, into 3 blocks", "idle: totals, into 3 blocks", "idle: totals, into 0 blocks"]
    + [f"add: {x}" for x in ("fine", "refusal 14 before 20", "refusal 20 before 17", "refusal 17 before 15", "refusal 17 before 16", "refusal 15 before 16",
       "listed by the other job", "not listed by the other job", "entry 0", "entry 15", "a free entry with octet 0", "a free entry with octet 3")]
    + [f"add: add of job {job}: refused {n}" for job in (0, 1) for n in (15, 16, 17, 20)]
    + [f"{c}: {c} of job {job}: fine" for c in ("add", "remove") for job in (0, 1)]
    + [f"{c}: {c} of job {job}: refused 14" for c in ("add", "remove") for job in (2, 255)]
    + [f"remove: remove of job {job}: refused {n}" for job in (0, 1) for n in (18, 20)]
    + ["remove: listed by the other job alone", "remove: refusal 14 before 20", "remove: refusal 20 before 18"]
    + [f"bad: {x} of a job" for x in ("20, 13 or more", "20, fewer", "no 20, 12", "no 20, fewer")]
    + [f"screen: job {job}, {x}" for job in (0, 1) for x in ("refused", "data", "no data")] + [f"screen: refused {n}" for n in (1, 2, 3, 14, 20)]
    + [f"screen: refusal {a} before {b}" for a, b in [(1, 14), (14, 2), (2, 3), (3, 20)]]
    + ["screen: the other capture is one that is refused", "screen: the place is beyond the other capture"]
)


def coverage(cases) -> str:
    """The table, one call to a paragraph: how many cases hit each thing, and what was not hit."""
    counts = {}
    for c in cases:
        for hit in c.hits:
            counts[hit] = counts.get(hit, 0) + 1
    lines = []
    for call in ("reading", "walk", "why", "plain", "sizes", "client", "pause", "pfc", "idle", "fcs", "append", "look", "delete", "delete_all", "compact", "keep", "fill",
                 "before", "add", "remove", "bad", "screen"):
        mine = {k.split(": ", 1)[1]: v for k, v in counts.items() if k.startswith(call + ": ")}
        lines.append(f"{call} ({sum(c.call == call for c in cases)} cases)")
        key = lambda k: [int(w) if w.isdigit() else w for w in k.split()]
        cells = [f"{k} ×{mine[k]}" for k in sorted(mine, key=lambda k: [(0, x, "") if isinstance(x, int) else (1, 0, x) for x in key(k)])]
        lines += ["    " + " · ".join(cells[i:i + 5]) for i in range(0, len(cells), 5)]
    missed = [m for m in MUST if m not in counts]
    lines.append(f"to be hit: {len(MUST)}; hit: {len(MUST) - len(missed)}" + "".join(f"\n    not hit: {m}" for m in missed))
    return "\n".join(lines)


if __name__ == "__main__":
    print(coverage(generate(int(sys.argv[1]), int(sys.argv[2]))))
