#!/usr/bin/env python3
"""The lines that crates/loopback must print, worked out by model.py alone: `tools/oracle/loopback.py > crates/loopback/stdout`.

The case names and their order are those of the program.
"""
import zlib

from model import ERROR, FOUR_LANE, PLAIN, START, TERMINATE, Client, Settings, State, client_sending, idle_sending, walk

N = 400


def station(n):
    return [2, 0, 0, 0, 0, n]


def settings(n):
    return Settings(own=station(n), broadcast=True, promiscuous=False, checking=True, limit=1518, flow="none", pass_control=False)


class Capture:
    def __init__(self, octet=0):
        self.octets, self.marks, self.place, self.state = [octet] * N, [0] * N, 0, State()

    def take(self, r):
        assert not r.refusal
        self.octets, self.marks, self.place, self.state = r.octets, r.marks, r.place, r.state

    def idles(self, n):
        self.take(idle_sending(State(), self.octets, self.marks, self.place, n))

    def client(self, data, tag=None, kind=None, port=PLAIN):
        self.take(client_sending(settings(1), self.state, self.octets, self.marks, self.place, Client(station(2), tag, kind, 0, list(data)), port))

    def damage(self, at, octet, mark):
        self.octets, self.marks = list(self.octets), list(self.marks)
        self.octets[at], self.marks[at] = octet, mark

    def three(self, place=None):
        self.place = self.place if place is None else place
        self.client(b"short")
        self.client(b"a type, and padding", kind=0x0800)
        self.client(b"tagged, and longer than what is padded to forty-six octets", tag=0x2005)

    def every(self, name):
        readings = walk(settings(2), State(), self.octets, self.marks)
        assert len(readings) <= 16
        for r in readings:
            answer = {"none": "none", "open": "open",
                      "counted": f"outcome {r.outcome} status {r.status:010x} data {len(r.data)} sum {zlib.crc32(bytes(r.data)):08x}"}[r.kind]
            print(f"{name}: {answer} start {r.start} next {r.next}")
        last = readings[-1]
        counters = last.state.counters
        print(f"{name}: walk {len(readings) - 1} open {int(last.kind == 'open')} cut {counters[0]} handed out {counters[10]}")


c = Capture()
c.idles(9)
c.three()
c.idles(5)
c.every("clean")

c = Capture()
c.client(b"cut")
c.damage(40, ERROR, 1)
c.three()
c.every("cut frame")

c = Capture()
c.client(b"turned")
c.damage(30, 0x99, 0)
c.three()
c.every("turned octet")

c = Capture()
c.client(b"overrun")
c.three(50)
c.every("open run")

c = Capture(START)
c.damage(3, 0x9C, 1)
c.damage(5, START, 2)
c.damage(17, TERMINATE, 255)
c.damage(20, START, 1)
c.three(25)
c.every("noise")

c = Capture()
c.three()
c.damage(c.place, START, 1)
c.every("open behind")

c = Capture()
c.client(b"cut", port=FOUR_LANE)
c.damage(40, ERROR, 1)
c.client(b"forty-seven octets: behind them a gap of eleven", port=FOUR_LANE)
c.client(b"forty-eight octets, and behind them a gap of ten", port=FOUR_LANE)
c.client(b"forty-nine octets: behind them a gap of thirteen!", port=FOUR_LANE)
assert c.place == 84 + 84 + 84 + 88 and c.state.deficit == 2
c.every("four lanes")
