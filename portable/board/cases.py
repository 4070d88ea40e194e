#!/usr/bin/env python3
"""Writes cases for every call of the header, as driver.py reads them: cases.py HEADER HANDS CLAIMS OUT LOG.. makes OUT/cases0, OUT/cases1, ..

HANDS, CLAIMS and LOG are what the other scorer's programs `hands`, `claims` and `logs` write. Records are put to Score; every call is made many
times with arguments found by their parameter's name, one in three damaged; and each log is booked entry by entry by the call of its kind, by
hb_book_entry, and printed. The same input gives the same cases. A call with a parameter whose name has no values below is an error: every call is covered.
A file of cases has at most PART bytes, begins anew, and needs none before it."""
import os
import random
import struct
import sys

from header import NUMBERS, Header

PART = 150000
HANDS = 6000  # so many of the file, in the first part
OFTEN, SELDOM = 500, {"hb_ready": 60, "hb_say_ready": 60, "hb_cards": 14}  # how often a call is made; those that take a million instructions
TURNS = 40  # of a list of random calls, how many are for one game


def length_of(record):
    """How long the record is that bytes start with, by its m."""
    m = (int.from_bytes(record[2:4], "big") >> 7) & 7
    return (103 - 10 * m + 7) // 8


def bits_from(data, first, bits):
    """So many bits of bytes, from one on, with zero bits to the byte."""
    number = int.from_bytes(data, "big") >> max(0, len(data) * 8 - first - bits) & ((1 << bits) - 1)
    return (number << -bits % 8).to_bytes((bits + 7) // 8, "big")


class Hand:
    """A record with its dealer and wind, a claim for it, and the hand before it was won."""

    def __init__(self, record, dealer, wind, claim=b""):
        self.record, self.dealer, self.wind, self.claim = record, dealer, wind, claim
        self.unfinished = b""
        if len(record) >= 4 and length_of(record) == len(record):
            self.unfinished = bits_from(record, 22, 81 - 10 * ((int.from_bytes(record[2:4], "big") >> 7) & 7))


class Entry:
    """An entry of a log: its bytes, its kind and argument, and what follows the header byte."""

    def __init__(self, log, at):
        self.kind, self.argument = log[at] >> 4, log[at] & 15
        end = at + 1
        if self.kind in (1, 4):
            for _ in range(1 if self.kind == 1 else self.argument):
                end += length_of(log[end:])
        elif self.kind == 5:
            end += 1
        elif self.kind == 6:
            end = Entry(log, at + 1).end
        self.end, self.part, self.inside = end, log[at:end], log[at + 1:end]


class Cases:
    def __init__(self, header, hands, logs):
        self.header, self.hands, self.logs, self.rng = header, hands, logs, random.Random(34)
        self.number = {call.name: i for i, call in enumerate(header.calls)}
        self.parts, self.made = [b""], {call.name: 0 for call in header.calls}
        self.entries = [entry for log in logs for _, entry in numbered(log)]
        self.multi_rons = [entry for entry in self.entries if entry.kind == 4]

    # ---- values by the parameter's name; h is the hand of the case

    def values(self):
        r = self.rng
        some, log = r.choice(self.multi_rons), r.choice(self.logs)
        return {
            "record": lambda h: h.record, "dealer": lambda h: h.dealer, "wind": lambda h: h.wind, "claim": lambda h: h.claim,
            "n": lambda h: r.choice((1, 1, 1, 2, r.randrange(14), r.randrange(2 ** 32))),
            "hand": lambda h: h.unfinished if r.random() < 0.7 else drawn(r),
            "discards": lambda h: bytes(r.choice((r.randrange(34), r.randrange(36))) for _ in range(r.randrange(20))),
            "seat": lambda h: r.randrange(5), "holder": lambda h: r.randrange(5), "feeder": lambda h: r.randrange(5), "yaku": lambda h: r.randrange(27, 31),
            "bits": lambda h: r.randrange(17), "number": lambda h: r.choice((some.argument, r.randrange(24))),
            "records": lambda h: some.inside, "language": lambda h: r.randrange(6),
            "suit": lambda h: r.randrange(4) if r.random() < 0.2 else r.randrange(3), "size": lambda h: r.choice((2, 5, 8, 2, 5, 8, r.randrange(9))),
            "log": lambda h: log[:r.randrange(400)], "at": lambda h: r.randrange(300), "part": lambda h: r.choice(self.entries).part,
            "entry": lambda h: r.choice((1, 99, 2 ** 32 - 1, r.randrange(2 ** 32))),
            "letter": lambda h: r.choice(b"RWDCMPX"), "refusal": lambda h: r.randrange(256),
            "buf": lambda h: r.choice((0, 12, 13, 83, 150, 1000, r.randrange(60))), "page": lambda h: r.choice((149, 150, 151, 200)),
        }

    def damaged(self, value):
        """Another number, or bytes with a bit changed, cut or longer."""
        r = self.rng
        if isinstance(value, int):
            return r.choice((value ^ 1 << r.randrange(8), r.randrange(256)))
        kind = r.randrange(4)
        if kind == 0 or not value:
            return value + bytes(r.randrange(256) for _ in range(1 + r.randrange(3)))
        if kind == 1:
            return value[:r.randrange(len(value))]
        return changed(value, r.randrange(8 * len(value)))

    # ---- cases

    def write(self, data):
        if len(self.parts[-1]) + len(data) > PART:
            self.another()
        self.parts[-1] += data

    def another(self):
        self.parts.append(b"")
        self.begin()

    def begin(self):
        """A game and a walk, since a part needs none before it."""
        for call in self.header.calls:
            if not call.parameters:
                self.parts[-1] += bytes([self.number[call.name]])
                self.made[call.name] += 1

    def make(self, name, hand=None, damage=0.0, **given):
        """One case of a call; arguments that are not given are found by their names."""
        call = self.header.calls[self.number[name]]
        hand, values, data = hand or self.rng.choice(self.hands), self.values(), bytes([self.number[name]])
        harmed = self.rng.choice(call.parameters).name if call.parameters and self.rng.random() < damage else None
        for p in call.parameters:
            if p.kind in ("struct", "pointer"):
                if p.name == harmed:
                    kinds = [kind for kind in self.header.taken() if not self.header.has_size(kind)]
                    if p.type in kinds:
                        self.write(bytes([255, kinds.index(p.type), self.rng.randrange(256), 1 << self.rng.randrange(8)]))
                continue
            if p.name not in given and p.name not in values:
                sys.exit(f"cases.py: {name}: no values for its parameter {p.name}; add them to Cases.values")
            value = given.get(p.name) if p.name in given else values[p.name](hand)
            if p.name == harmed and p.kind != "buffer":
                value = self.damaged(value)
            if p.kind == "bytes":
                data += struct.pack("<H", len(value)) + value
            else:
                bytes_ = 2 if p.kind == "buffer" else NUMBERS[p.type]
                data += (value % 256 ** bytes_).to_bytes(bytes_, "little")
        self.made[name] += 1
        self.write(data)

    def booked(self, entry, correct=""):
        """An entry by the call of its kind."""
        if entry.kind == 0:
            self.make("hb_riichi", seat=entry.argument)
        elif entry.kind == 1:
            self.make(f"hb_{correct}win", record=entry.inside)
        elif entry.kind == 2:
            self.make(f"hb_{correct}draw", bits=entry.argument)
        elif entry.kind == 3:
            self.make(f"hb_{correct}chombo", seat=entry.argument)
        elif entry.kind == 4:
            self.make(f"hb_{correct}multi_ron", number=entry.argument, records=entry.inside)
        elif entry.kind == 5:
            byte = entry.inside[0]
            self.make("hb_pao", holder=byte >> 6, feeder=byte >> 4 & 3, yaku=28 + (byte >> 3 & 1))
        elif entry.kind == 6:
            self.booked(Entry(entry.inside, 0), "correct_")

    def all(self):
        self.begin()
        for hand in self.hands:
            self.make("hb_score", hand)
        self.another()  # Score's figures are of the first part
        for log in self.logs:
            self.make("hb_fresh_game")
            for _, entry in numbered(log):
                self.booked(entry)
            self.make("hb_fresh_game")
            for at, entry in numbered(log):
                self.make("hb_log_next", log=log[at:at + 60], at=0)
                self.make("hb_book_entry", part=entry.part)
                if self.rng.random() < 0.2:
                    self.make("hb_log_line", buf=83)
            self.make("hb_log_start")
            for _ in range(1 + len(log) // 400):
                self.make("hb_log_lines", log=log, buf=self.header.constants["HB_CARDS_MAX"])
            hurt = changed(log[:300], self.rng.randrange(2400))
            self.make("hb_log_start")
            for _ in range(12):
                self.make("hb_log_lines", log=hurt, buf=self.rng.choice((82, 83, 300)))
        left = {call.name: SELDOM.get(call.name, OFTEN) for call in self.header.calls}
        names = list(left)
        while any(left.values()):
            self.make("hb_fresh_game")
            for _ in range(TURNS):
                name = self.rng.choice([n for n in names if left[n]] or names[:1])
                left[name] = max(0, left[name] - 1)
                if any(p.type in ("HbHand", "HbHeld") for p in self.header.calls[self.number[name]].parameters):
                    self.make("hb_read")
                if name == "hb_write_claim":
                    self.make("hb_reading")
                given = {"buf": self.header.constants["HB_CARDS_MAX"]} if name == "hb_cards" and self.rng.random() < 0.8 else {}
                self.make(name, damage=1 / 3, **given)


def changed(data, bit):
    """Bytes with one bit changed."""
    return data[:bit // 8] + bytes([data[bit // 8] ^ 1 << bit % 8]) + data[bit // 8 + 1:]


def drawn(r):
    """An unfinished hand drawn from a wall, with no melds."""
    tiles = sorted(r.sample([kind for kind in range(34) for _ in range(4)], 13))
    number = 0
    for tile in tiles:
        number = number << 6 | tile
    return (number << 7).to_bytes(11, "big")


def numbered(log):
    """The entries of a log with their offsets."""
    at = 0
    while at < len(log):
        entry = Entry(log, at)
        yield at, entry
        at = entry.end


def main():
    header, (hands_file, claims_file, out, *log_files) = Header(sys.argv[1]), sys.argv[2:]
    hands, logs = [], []
    with open(claims_file, "rb") as file:
        claims = {(e[1:1 + e[0]], e[14], e[15]): e[17:17 + e[16]] for e in iter(lambda: file.read(24), b"")}
    with open(hands_file, "rb") as file:
        for e in [file.read(54) for _ in range(HANDS)]:
            key = e[1:1 + e[0]], e[17], e[18]
            hands.append(Hand(*key, claims.get(key, b"\x40\xc8\x00")))
    for path in log_files:
        with open(path, "rb") as file:
            logs.append(file.read())
    cases = Cases(header, hands, logs)
    cases.all()
    missing = [name for name, count in cases.made.items() if count == 0]
    if missing:
        sys.exit(f"cases.py: no case of {' '.join(missing)}")
    for i, part in enumerate(cases.parts):
        with open(os.path.join(out, f"cases{i}"), "wb") as file:
            file.write(part)
    print(f"{sum(cases.made.values())} cases of {len(cases.made)} calls, {sum(map(len, cases.parts))} bytes in {len(cases.parts)} parts")


main()
