#!/usr/bin/env python3
"""Makes the list of answers that crates/perf_replay replays: see README.md beside this file.

    make.py --streams            lists the cases and counts their frames; runs nothing
    make.py --page PROGRAM WORD.. compares what PROGRAM prints with page.py, also for what the lists leave out
    make.py PROGRAM WORD..       writes the list after the cases that are written by hand, and what a replay must print

PROGRAM is the original under a program that prints perfrec's lines. It takes perfrec's arguments (order, limit, and
`attr` if the stream begins with an attribute), and before them the WORDs, which make it hide the departures that
README.md lists. The same input always makes the same list.
"""

import collections
import math
import os
import struct
import subprocess
import sys

sys.dont_write_bytecode = True
import page  # noqa: E402

HERE = os.path.dirname(os.path.abspath(__file__))
REPLAY = os.path.join(HERE, "..", "..", "crates", "perf_replay")
# The line before the list; everything before that line is written by hand.
MARK = "# What the original answers: tools/answers/make.py writes all that follows.\n"
LIMIT = 1000

# The sizes of an attribute, in order.
SIZES = [64, 72, 80, 96, 104, 112, 120, 128, 136, 137, 144, 160]

# Types that are in a list of their own.
APART = {9}

TID, TIME, ID, CPU, STREAM_ID, IDENTIFIER = 1 << 1, 1 << 2, 1 << 6, 1 << 7, 1 << 9, 1 << 16
ALL_SIX = TID | TIME | ID | CPU | STREAM_ID | IDENTIFIER
NOT_OF_AN_ID = (1 << 24) - 1 & ~ALL_SIX


class Draw:
    """Numbers that look random and are the same in each run: a linear congruential generator."""

    def __init__(self, seed):
        self.state = seed

    def below(self, bound):
        self.state = (self.state * 6364136223846793005 + 1442695040888963407) % 2**64
        return (self.state >> 33) % bound

    def one_of(self, things):
        return things[self.below(len(things))]

    def number(self, bits):
        """A number of that many bits: small, at an end, or any."""
        kind = self.below(8)
        if kind < 3:
            return self.below(1000)
        if kind == 3:
            return self.one_of([0, 1, 2**bits - 1, 2 ** (bits - 1)])
        return (self.below(2**31) * 2**33 + self.below(2**31) * 2**11 + self.below(2**11)) % 2**bits

    def bytes(self, count):
        return bytes(self.below(256) for _ in range(count))


PARTS = "sample_type all_ids read_format hw_index user interrupt"
Config = collections.namedtuple("Config", PARTS, defaults=(0, 0, 0))
PLAIN = Config(0, False, 0)


def id_length(config):
    return 8 * bin(config.sample_type & ALL_SIX).count("1") if config.all_ids else 0


def agreed(config, type_):
    """Whether the lists of all types contain this one under this configuration; README.md has what they leave out."""
    if type_ in APART:
        return False
    return id_length(config) == 0 or (type_ != 1 and type_ < 64)


class Bodies:
    """Bodies in one byte order, by shapes: each is a type, a misc and the body's bytes."""

    def __init__(self, order, draw):
        self.mark, self.draw = "<" if order == "little" else ">", draw

    def pack(self, form, *numbers):
        return struct.pack(self.mark + form, *numbers)

    def some(self, form):
        """Numbers of the widths in the form."""
        bits = {"H": 16, "I": 32, "Q": 64}
        return self.pack(form, *(self.draw.number(bits[letter]) for letter in form))

    FIXED = {2: "QQ", 4: "IIIIQ", 5: "QQQ", 6: "QQQ", 7: "IIIIQ", 11: "QQQ"}
    FIXED |= {12: "II", 13: "Q", 14: "", 15: "II", 21: "Q"}
    BEFORE_NAME = {1: "IIQQQ", 3: "II", 17: "QIHH", 19: "Q"}

    def whole(self, type_):
        """A well-formed body of a type of fixed length."""
        if type_ == 18:
            return self.some("HHI") + self.draw.bytes(8)
        return self.some(self.FIXED[type_])

    def names(self):
        return [
            b"a",
            b"kworker\0",
            b"sleep\0\0\0",
            b"/usr/lib/libc.so.6\0\0\0\0\0\0",
            b"in\0side\0\0",
            b"\0\0lead",
            b"\0",
            b"\0" * 8,
            b"",
            b"\xff\xfe\x80\0",
            b"caf\xe9 \xc3\xa9\0\0",
            b"//anon\0\0",
            self.draw.bytes(5) + b"\0" * self.draw.below(4),
        ]

    def shapes(self):
        """All shapes, as pairs of a type and a function from nothing to (misc, body)."""
        draw, found = self.draw, []

        def add(type_, make):
            found.append((type_, make))

        def misc():
            return draw.one_of([0, 0, 1, 2, 0x2000, 0x4000, 0x6000, 0xDFFF, 0xFFFF])

        def shorter(body):
            return body[: -1 - draw.below(max(1, len(body)))]

        # Bodies of fixed length: whole, with bytes left over, cut short by one and by more, and none.
        for type_ in [2, 4, 5, 6, 7, 11, 12, 13, 14, 18, 21]:
            add(type_, lambda type_=type_: (misc(), self.whole(type_)))
            add(type_, lambda type_=type_: (misc(), self.whole(type_) + draw.bytes(1 + draw.below(16))))
            add(type_, lambda type_=type_: (misc(), self.whole(type_)[:-1]))
            add(type_, lambda type_=type_: (misc(), shorter(self.whole(type_))))
            add(type_, lambda type_=type_: (misc(), self.whole(type_)))
            add(type_, lambda type_=type_: (0, b""))
        for bits in [0, 0x2000, 0x4000, 0x6000, 0xDFFF, 0xFFFF, 0x1000, 0x2001]:
            add(15, lambda bits=bits: (bits, self.whole(15) + draw.bytes(draw.below(2) * draw.below(9))))
        add(15, lambda: (0x2000, self.whole(15)[:-1]))
        add(15, lambda: (0x2000, b""))

        # Names of all forms, and what precedes them cut short.
        for type_ in [1, 3, 17, 19]:
            for at in range(len(self.names())):
                add(type_, lambda type_=type_, at=at: (misc(), self.some(self.BEFORE_NAME[type_]) + self.names()[at]))
            add(type_, lambda type_=type_: (misc(), self.some(self.BEFORE_NAME[type_])[:-1]))
            add(type_, lambda type_=type_: (misc(), self.some(self.BEFORE_NAME[type_])[: draw.below(8)]))

        # MMAP2 in both forms of its detail.
        def mapped(bits, detail, name):
            return bits, self.some("IIQQQ") + detail + self.some("II") + name

        for at in range(len(self.names())):
            add(10, lambda at=at: mapped(draw.one_of([0, 2, 0x2000, 0xBFFF]), self.some("IIQQ"), self.names()[at]))
        for length in [0, 1, 19, 20, 21, 255]:
            detail = lambda length=length: bytes([length]) + draw.bytes(23)
            bits = lambda: draw.one_of([0x4000, 0x4002, 0xFFFF])
            add(10, lambda detail=detail, bits=bits: mapped(bits(), detail(), draw.one_of(self.names())))
            add(10, lambda detail=detail: (0x4000, self.some("IIQQQ") + detail()))
            add(10, lambda detail=detail: (0x4000, self.some("IIQQQ") + detail()[: 3 + draw.below(21)]))
        add(10, lambda: (0, self.some("IIQQQ") + self.some("IIQQ")[: draw.below(24)]))
        add(10, lambda: (0, self.some("IIQQQ")[: draw.below(32)]))
        add(10, lambda: (0, mapped(0, self.some("IIQQ"), b"")[1][:-1]))
        add(10, lambda: (0x4000, mapped(0, bytes([20]) + draw.bytes(23), b"")[1][: -1 - draw.below(8)]))

        # NAMESPACES: counts that fit, that leave bytes over, and that no body can hold.
        def spaces(count, entries, cut=0, over=0):
            body = self.some("II") + self.pack("Q", count) + self.some("QQ" * entries)
            return misc(), body[: len(body) - cut] + draw.bytes(over)

        for count in [0, 1, 2, 7]:
            add(16, lambda count=count: spaces(count, count))
            add(16, lambda count=count: spaces(count, count, over=1 + draw.below(20)))
            add(16, lambda count=count: spaces(count, count, cut=1 + draw.below(8)))
            add(16, lambda count=count: spaces(count + 1, count))
        for count in [2**16, 2**31, 2**32, 2**32 + 1, 2**59, 2**60, 2**60 + 1, 2**61, 2**63, 2**64 - 1]:
            add(16, lambda count=count: spaces(count, draw.below(3), over=draw.below(2) * draw.below(16)))
        add(16, lambda: (0, self.some("IIQ")[: 8 + draw.below(8)]))
        add(16, lambda: (0, self.some("II")[: draw.below(8)]))

        # TEXT_POKE: lengths that need padding or none, that the run lacks, and that no frame can hold.
        def poked(old, new, change):
            length = old + new
            while length % 8 != 4:
                length += 1
            run = draw.bytes(min(length, 40) + change) if length < 100 else draw.bytes(draw.below(24))
            return misc(), self.some("Q") + self.pack("HH", old, new) + run

        for old in [0, 1, 4, 5, 0xFFFF]:
            for new in [0, 1, 4, 5, 0xFFFF]:
                add(20, lambda old=old, new=new: poked(old, new, 0))
        for old, new in [(0, 0), (3, 1), (2, 3), (0, 4), (12, 0), (6, 7)]:
            add(20, lambda old=old, new=new: poked(old, new, -1))
            add(20, lambda old=old, new=new: poked(old, new, 1 + draw.below(12)))
        add(20, lambda: (0, self.some("QHH")[: draw.below(12)]))
        add(20, lambda: (0, self.some("Q") + self.pack("HH", 0, 0)))

        # Types without a name.
        for type_ in NAMELESS:
            add(type_, lambda type_=type_: (misc(), b""))
            add(type_, lambda type_=type_: (misc(), draw.bytes(1 + draw.below(24))))
            add(type_, lambda type_=type_: (misc(), draw.bytes(8) + bytes(draw.below(9))))

        # READ, and SAMPLE if the lists are compared: eight bytes for each number that the format can request.
        for count in range(7):
            add(8, lambda count=count: (misc(), self.some("II" + "Q" * count)))
            add(9, lambda count=count: (misc(), self.some("Q" * 2 * count)))
        return found


class Frames:
    """Frames under one configuration."""

    def __init__(self, order, draw, config):
        self.bodies, self.draw, self.config = Bodies(order, draw), draw, config

    def frame(self, type_, misc, rest, size=None):
        size = 8 + len(rest) if size is None else size
        return self.bodies.pack("IHH", type_, misc, size) + rest

    def with_id(self, type_, misc, body):
        return self.frame(type_, misc, body + self.draw.bytes(id_length(self.config)))

    def size_below_eight(self, type_):
        return self.frame(type_, 0, b"", self.draw.one_of([0, 7, 7, self.draw.below(8)]))

    def without_room(self, type_):
        """A frame with too few bytes for the sample id."""
        length = self.draw.one_of([0, id_length(self.config) - 1, self.draw.below(8)])
        return self.frame(type_, 0, self.draw.bytes(length))


def attribute(order, draw, size, config, tail=0):
    """An attribute of the size: what the configuration requests, and elsewhere numbers without meaning for it."""
    mark = "<" if order == "little" else ">"
    flags = draw.number(63) & ~(1 << 18) | (1 << 18 if config.all_ids else 0)
    head = struct.pack(mark + "IIQQQQQIIQ", draw.below(6), size, draw.number(64), draw.number(64), config.sample_type,
                       config.read_format, flags, draw.number(32), draw.number(32), draw.number(64))
    rest = draw.bytes(max(0, min(size, 136) - 64))
    return (head + rest + bytes(max(0, size - 137)) + bytes([tail] if size > 136 else []))[: max(size, 8)]


# The configurations, by name.
CONFIGS = [
    ("nothing", Config(0, False, 0)),
    ("flags_without_ids", Config(ALL_SIX, False, 0x0C)),
    ("ids_of_no_bytes", Config(0, True, 0)),
    ("other_flags_alone", Config(NOT_OF_AN_ID, True, 4)),
    ("tid", Config(TID, True, 0)),
    ("time", Config(TIME, True, 0)),
    ("id", Config(ID, True, 0)),
    ("stream_id", Config(STREAM_ID, True, 1)),
    ("cpu", Config(CPU, True, 0)),
    ("identifier", Config(IDENTIFIER, True, 0)),
    ("tid_and_time", Config(TID | TIME, True, 0x1F)),
    ("id_beside_identifier", Config(ID | IDENTIFIER, True, 0)),
    ("time_and_cpu", Config(TIME | CPU, True, 0)),
    ("all_but_identifier", Config(ALL_SIX & ~IDENTIFIER, True, 0x08)),
    ("all_six", Config(ALL_SIX, True, 0)),
    ("all_six_among_others", Config(ALL_SIX | NOT_OF_AN_ID, True, 0x17)),
    ("bits_above", Config(TID | 1 << 24 | 1 << 39 | 1 << 40 | 1 << 63, True, 0x41)),
]

# The types that have no name, and those that the program could read before it read attributes.
NAMELESS = [0, 22, 63, 64, 68, 2**32 - 1]
KNOWN_AT_FIRST = [2, 4, 7, 13] + NAMELESS

Case = collections.namedtuple("Case", "name order limit config attr stream")


class Turns:
    """Shapes in turn, so that each comes up under many configurations."""

    def __init__(self, at):
        self.at = at

    def take(self, shapes, types):
        # The step has no divisor with the number of shapes, so all come before one comes again.
        assert math.gcd(41, len(shapes)) == 1
        while True:
            shape = shapes[self.at * 41 % len(shapes)]
            self.at += 1
            if shape[0] in types:
                return shape


def ending(draw, frames, which):
    """What follows the last whole frame: nothing, one to seven bytes, or an unfinished frame."""
    if which == 0:
        return b""
    if which == 1:
        return draw.bytes(1 + draw.below(7))
    return frames.frame(draw.one_of([2, 4, 13, 22]), 0, draw.bytes(draw.below(24)), 40 + draw.below(60))


def filled(case_name, order, config, types, turns, count, which, everything):
    draw = Draw(sum(case_name.encode()) * 2**20 + len(case_name) * 2**10 + (order == "big"))
    frames, stream = Frames(order, draw, config), b""
    shapes = frames.bodies.shapes()
    known = [type_ for type_ in types if everything or agreed(config, type_)]
    for at in range(count):
        if at % 9 == 4:
            stream += frames.size_below_eight(draw.one_of(known))
        elif at % 9 == 7 and id_length(config):
            stream += frames.without_room(draw.one_of(known))
        else:
            type_, make = turns.take(shapes, known)
            misc, body = make()
            stream += frames.with_id(type_, misc, body)
    return draw, stream + ending(draw, frames, which)


def cases(everything=False):
    found = []
    for order in ["little", "big"]:
        turns = Turns(0 if order == "little" else 7)
        for at, (name, limit) in enumerate([("done", LIMIT), ("cut", LIMIT), ("unfinished", LIMIT), ("limit", 12)]):
            _, stream = filled("first_" + name, order, PLAIN, KNOWN_AT_FIRST, turns, 24, at % 3, everything)
            found.append(Case("first_%s_%s" % (name, order), order, limit, PLAIN, False, stream))
        turns = Turns(0 if order == "little" else 100)
        for at, (name, config) in enumerate(CONFIGS):
            for again in [0, 1] if at < 4 else [0]:
                size = SIZES[(2 * at + again + (order == "big")) % len(SIZES)]
                types, which = list(range(1, 22)) + NAMELESS, (at + again) % 3
                draw, stream = filled(name + "_" * again, order, config, types, turns, 28, which, everything)
                full = "%s%s_%s" % (name, "_again" * again, order)
                found.append(Case(full, order, LIMIT, config, True, attribute(order, draw, size, config) + stream))
    return found


def attributes():
    """Attributes that are refused, and some at the edge that aren't, each with one frame after it."""
    found = []
    for order in ["little", "big"]:
        draw = Draw(7 if order == "little" else 11)
        frame = Frames(order, draw, PLAIN).frame(13, 0, b"\5" * 8)
        for size in SIZES + [0, 7, 8, 63, 65, 100, 132, 135]:
            whole = attribute(order, draw, size, PLAIN)
            found.append(Case("size_%d_%s" % (size, order), order, LIMIT, PLAIN, True, whole + frame))
        cuts = [(64, 0), (64, 3), (64, 7), (64, 8), (64, 63), (72, 71), (136, 64), (137, 136), (2**32 - 1, 200)]
        for size, left in cuts:
            whole = attribute(order, draw, min(size, 300), PLAIN)
            whole = whole[:4] + struct.pack("<I" if order == "little" else ">I", size) + whole[8:]
            found.append(Case("size_%d_cut_to_%d_%s" % (size, left, order), order, LIMIT, PLAIN, True, whole[:left]))
        for size in [137, 144]:
            whole = attribute(order, draw, size, PLAIN, tail=1)
            found.append(Case("tail_of_%d_%s" % (size, order), order, LIMIT, PLAIN, True, whole + frame))
    return found


def reads():
    """READ under read formats for one number and for more, for a group, and for what isn't known."""
    found = []
    for order in ["little", "big"]:
        for at, read_format in enumerate([1, 2, 3, 4, 0x10, 0x13, 0x14, 0x17, 8, 0x1F, 0x20, 0x41]):
            config = Config(TID, True, read_format)
            draw = Draw(2 * read_format + (order == "big"))
            frames, stream = Frames(order, draw, config), b""
            whole = "II" + "Q" * (1 + bin(read_format & 0x17).count("1"))
            for change in [0, 3, -1, -8]:
                body = frames.bodies.some(whole)
                stream += frames.with_id(8, 0, body + draw.bytes(change) if change > 0 else body[: len(body) + change])
            stream += frames.with_id(8, 0, frames.bodies.some("II")) + frames.with_id(8, 0, draw.bytes(7))
            name = "read_format_%d_%s" % (read_format, order)
            head = attribute(order, draw, SIZES[at % 9], config)
            found.append(Case(name, order, LIMIT, config, True, head + stream))
    return found


# The bits of a sample type: those whose fields may have any length; all except WEIGHT_STRUCT; and these in the order of
# their bytes.
READ, CALLCHAIN, RAW, BRANCHES, REGS_USER, STACK_USER, REGS_INTR, AUX = 4, 5, 10, 11, 12, 13, 18, 20
LISTS = [READ, CALLCHAIN, RAW, BRANCHES, REGS_USER, STACK_USER, REGS_INTR, AUX]
FLAGS = range(24)
IN_ORDER = [16, 0, 1, 2, 3, 6, 9, 7, 8, READ, CALLCHAIN, RAW, BRANCHES, REGS_USER, STACK_USER, 14, 15, 17, REGS_INTR]
IN_ORDER += [19, 21, 22, 23, AUX]


def of_flags(*bits):
    """A sample type of these bits."""
    return sum(1 << bit for bit in bits)


class Samples(Frames):
    """Bodies of samples under one configuration, whole and not."""

    def some(self, form):
        return self.bodies.some(form)

    def counted(self, count, form, there=None):
        """A count, and that many items, or another number of them."""
        return self.bodies.pack("Q", count) + self.some(form * (count if there is None else there))

    def read(self, count, there=None):
        """A read of a group, or of one event if the format requests no group."""
        read_format = self.config.read_format
        times, entry = "Q" * bin(read_format & 3).count("1"), "Q" * (1 + bin(read_format & 0x14).count("1"))
        if read_format & 8 == 0:
            return self.some(times + entry)
        return self.bodies.pack("Q", count) + self.some(times + entry * (count if there is None else there))

    def raw(self, length):
        return self.bodies.pack("I", length) + self.draw.bytes(length + -(length + 4) % 8)

    def branches(self, count, there=None):
        index = self.some("Q") if self.config.hw_index else b""
        return self.bodies.pack("Q", count) + index + self.some("QQQ" * (count if there is None else there))

    def registers(self, bit, abi):
        mask = self.config.user if bit == REGS_USER else self.config.interrupt
        return self.bodies.pack("Q", abi) + self.some("Q" * bin(mask).count("1"))

    def stack(self, size, used):
        return self.bodies.pack("Q", size) + self.draw.bytes(size) + (self.bodies.pack("Q", used) if size else b"")

    def field(self, bit):
        """A field as a kernel could write it; the lists are short."""
        makers = {
            READ: lambda: self.read(2),
            CALLCHAIN: lambda: self.counted(self.draw.below(4), "Q"),
            RAW: lambda: self.raw(self.draw.below(14)),
            BRANCHES: lambda: self.branches(self.draw.below(3)),
            REGS_USER: lambda: self.registers(bit, 1 + self.draw.below(2)),
            STACK_USER: lambda: self.stack(16, self.draw.below(17)),
            REGS_INTR: lambda: self.registers(bit, 1 + self.draw.below(2)),
            AUX: lambda: self.counted(8, "") + self.draw.bytes(8),
        }
        return makers[bit]() if bit in makers else self.some("II" if bit in (1, 7) else "Q")

    def whole(self):
        return b"".join(self.field(bit) for bit in IN_ORDER if self.config.sample_type >> bit & 1)

    def over(self):
        return self.whole() + self.draw.bytes(1 + self.draw.below(12))

    def cut(self):
        whole = self.whole()
        return whole[: len(whole) - 1 - self.draw.below(max(1, len(whole) - 1))]

    def of_lists(self, bit):
        """Bodies for the one flag: counts and sizes that fit, that leave bytes over, and that no body can hold."""
        pack, draw = self.bodies.pack, self.draw
        if bit == READ:
            if self.config.read_format & 8 == 0:
                return [self.whole(), self.over(), self.whole()[:-1]]
            held = [(0, 0), (3, 3), (2, 1), (2**63, 1)]
            if self.config.read_format in (8, 0x1F):
                held += [(1, 1), (1, 2), (2**61, 1), (2**64 - 1, 0)]
            return [self.read(*pair) for pair in held if self.config.read_format < 0x20 or pair[0] == 3]
        if bit == CALLCHAIN:
            held = [(0, 0), (1, 1), (7, 7), (2, 3), (3, 2), (2**32, 1), (2**61, 2), (2**64 - 1, 0)]
            return [self.counted(count, "Q", there) for count, there in held] + [self.cut()]
        if bit == RAW:
            bodies = [self.raw(length) for length in [0, 1, 3, 4, 5, 8, 20]]
            bodies += [self.raw(9)[:-1], self.raw(5)[:-7], self.raw(4) + draw.bytes(3), self.raw(2)[:3]]
            return bodies + [pack("I", 2**32 - 1) + draw.bytes(12)]
        if bit == BRANCHES:
            held = [(0, 0), (3, 3), (1, 2), (2, 1), (2**64 // 24 + 1, 1)]
            held += [] if self.config.hw_index else [(1, 1), (2**63, 0)]
            return [self.branches(*pair) for pair in held] + [self.branches(1)[:-1]]
        if bit in (REGS_USER, REGS_INTR):
            bodies = [self.registers(bit, abi) for abi in [1, 2, 2**64 - 1]]
            return bodies + [self.registers(bit, 2) + draw.bytes(5), self.registers(bit, 1)[:-1]]
        if bit == STACK_USER:
            used = [(0, 0), (8, 0), (8, 3), (8, 8), (8, 9), (5, 4), (24, 2**64 - 1)]
            bodies = [self.stack(*pair) for pair in used] + [self.stack(0, 0) + draw.bytes(8), self.stack(8, 8)[:-8]]
            return bodies + [self.counted(size, "QQ", 1) for size in [17, 2**32, 2**63, 2**64 - 1]]
        sizes = [(0, 0), (0, 8), (1, 1), (8, 8), (19, 24), (9, 8), (2**32, 8), (2**64 - 1, 3)]
        return [pack("Q", size) + draw.bytes(there) for size, there in sizes] + [self.some("Q")[:-1]]


def sample_case(name, order, size, config, make, last=b""):
    """A stream of the samples that are made, each followed by a LOST_SAMPLES that ends at a multiple of eight."""
    draw = Draw(sum(name.encode()) * 2**20 + len(name) * 2**10 + (order == "big"))
    head = bytearray(attribute(order, draw, size, config))
    branch_sample_type = draw.number(64) & ~(1 << 17) | (config.hw_index << 17)
    for at, number in [(72, branch_sample_type), (80, config.user), (96, config.interrupt)]:
        if at + 8 <= size:
            head[at : at + 8] = number.to_bytes(8, order)
    # An attribute that is too short for them doesn't request them.
    within = config._replace(hw_index=config.hw_index if size >= 80 else 0, user=config.user if size >= 96 else 0,
                             interrupt=config.interrupt if size >= 104 else 0)
    frames, stream = Samples(order, draw, within), b""
    for body in make(frames):
        stream += frames.frame(9, draw.one_of([0, 1, 2, 0x4002]), body)
        stream += frames.with_id(13, 0, frames.some("Q") + bytes(-len(stream) % 8))
    return Case("%s_%s" % (name, order), order, LIMIT, config, True, bytes(head) + stream + last)


def samples():
    """SAMPLE under each flag alone, under several read formats and masks, and under many flags at once."""
    found = []
    for order in ["little", "big"]:
        big = order == "big"

        def add(name, size, config, make, last=b""):
            found.append(sample_case("sample_" + name, order, size, config, make, last))

        def three(frames):
            return [frames.whole(), frames.over(), frames.cut()]

        # The flags of one number in one order each, TID and CPU in both.
        for at, bit in enumerate(bit for bit in FLAGS if bit not in LISTS):
            if bit in (1, 7) or at % 2 == big:
                config = Config(1 << bit, at // 2 % 2 == 0, 0)
                add("flag_%d" % bit, 64, config, lambda frames: [frames.over(), frames.cut()])
        for read_format in [1, 0x10, 0x13, 8, 0x1F, 0x1A, 0x48] if big else [0, 4, 0x17, 8, 0x1F, 0x0C, 0x20]:
            config = Config(of_flags(READ), False, read_format)
            add("read_format_%d" % read_format, 64, config, lambda frames: frames.of_lists(READ))
        asking = [(CALLCHAIN, {}), (RAW, {}), (STACK_USER, {}), (AUX, {}), (BRANCHES, {}), (BRANCHES, {"hw_index": 1})]
        asking += [(REGS_USER, {"user": 0xB, "interrupt": 1}), (REGS_INTR, {"user": 7, "interrupt": 2**32 + 1})]
        asking += [(REGS_USER, {"user": 2**63 + 2**31}) if big else (REGS_INTR, {"user": 1})]
        for bit, more in asking:
            name = "_".join(["flag_%d" % bit] + ["%s_%x" % pair for pair in more.items()])
            config = Config(1 << bit, True, 0, **more)
            add(name, 136 if big else 104, config, lambda frames, bit=bit: frames.of_lists(bit))

        add("recorded", 112, Config(of_flags(0, 1, 2, 5, 7, 8, 16), True, 0x14), three)
        add("numbers", 120, Config(of_flags(*(bit for bit in FLAGS if bit not in LISTS)), False, 0), three)
        unfinished = Frames(order, Draw(3), PLAIN).frame(9, 0, b"\1" * 20, 29)
        add("bits_above", 128, Config(of_flags(RAW, STACK_USER, AUX, 25, 39, 40, 63), True, 0), three, unfinished)
        asked = {"hw_index": 1, "user": 0x31, "interrupt": 0x82}
        for size in [80, 104] if big else [72, 96]:
            config = Config(of_flags(BRANCHES, REGS_USER, REGS_INTR, 23), False, 0, **asked)
            add("attribute_of_%d" % size, size, config, three)
        add("all", 144, Config(of_flags(*FLAGS), True, 0x1F, **asked), three)
        if big:
            add("all_single", 136, Config(of_flags(*FLAGS), False, 0x17, **asked), three)
            add("no_flags", 72, Config(0, True, 0x1F), three, Frames(order, Draw(3), PLAIN).frame(9, 0, b"", 7))
        else:
            add("ids", 64, Config(of_flags(6, 16), True, 0), three, bytes(7))
    return found


def words_of(case):
    return [case.order, str(case.limit)] + ["attr"] * case.attr


def said(program, case):
    ran = subprocess.run(program + words_of(case), input=case.stream, stdout=subprocess.PIPE)
    return ran.stdout.decode("ascii"), ran.returncode


def compare(program):
    """Prints each line on which the program and the page differ, also if the list leaves the frame out."""
    differ = collections.Counter()
    for case in cases(everything=True) + reads() + attributes() + samples():
        by_program, by_page = said(program, case), page.text(case.stream, *words_of(case))
        if by_program == by_page:
            continue
        for one, other in zip(by_program[0].splitlines(), by_page[0].splitlines()):
            if one != other:
                type_ = one.split()[1]
                group = type_ if int(type_) < 64 else "64 or more"
                why = "type %s under ids of %d bytes" % (group, id_length(case.config))
                expected = int(type_) not in APART and not agreed(case.config, int(type_))
                if one.split()[1:4] != other.split()[1:4] or not expected:
                    why = "NOT EXPECTED"
                differ[why] += 1
                print("%s: %s\n    the program  %s\n    the page     %s" % (case.name, why, one, other))
        if len(by_program[0].splitlines()) != len(by_page[0].splitlines()) or by_program[1] != by_page[1]:
            print("%s: NOT EXPECTED: another number of lines or another status" % case.name)
    for why, count in sorted(differ.items()):
        print("%5d  %s" % (count, why))


def write(blocks):
    """The list, after what is written by hand, and what the program that replays both prints if nothing differs."""
    with open(os.path.join(REPLAY, "stdin")) as it:
        by_hand = it.read().partition(MARK)[0].rstrip("\n")
    whole = "\n".join([by_hand + "\n", MARK, *blocks])
    with open(os.path.join(REPLAY, "stdin"), "w") as it:
        it.write(whole)
    counts = [sum(line.startswith(word) for line in whole.splitlines()) for word in ("case ", "= ")]
    with open(os.path.join(REPLAY, "stdout"), "w") as it:
        it.write("%d cases, %d answers, 0 differences\n" % tuple(counts))


def block_of(case, text, status, alone):
    """A case's text. A line is marked by ~ if the original alone, with nothing hidden, prints something else."""
    digits = case.stream.hex()
    lines = ["case %s" % case.name, *["bytes %s" % digits[at : at + 112] for at in range(0, len(digits), 112)]]
    lines.append("perfrec %s" % " ".join(words_of(case)))
    told = alone.splitlines()
    lines += [("> " if line in told else "~ ") + line for line in text.splitlines()]
    return "\n".join(lines + ["= status %d" % status, ""])


class Tally:
    """The number of frames of each type with each answer, and of runs with each last line."""

    def __init__(self):
        self.frames, self.ends = collections.Counter(), collections.Counter()

    def add(self, text):
        for line in text.splitlines():
            words = line.split()
            if words[0].isdigit():
                self.frames[int(words[1]), words[5] if words[4] == "refused" else words[4]] += 1
            else:
                self.ends[line] += 1

    def __str__(self):
        refusals = ["Eof", "InvalidRecord", "UnsupportedConfig"]
        heads = ["Type", "Accepted"] + ["`%s`" % kind for kind in refusals]
        rows = ["| %s |" % " | ".join(heads), "|---" * len(heads) + "|"]
        for type_ in sorted({type_ for type_, _ in self.frames}):
            name = {kind for at, kind in self.frames if at == type_} - set(refusals)
            cells = [type_, *sorted(name)], *([self.frames[type_, kind]] for kind in sorted(name) + refusals)
            rows.append("".join("| %s " % " ".join(map(str, cell)) for cell in cells) + "|")
        rows += ["", ", ".join("%s %d" % pair for pair in sorted(self.ends.items()))]
        return "\n".join(rows + ["%d frames" % sum(self.frames.values())])


def answers(words, listed):
    """The blocks of the cases, by the program that the words name; prints their tally. Without words nothing is run."""
    blocks, tally, marked = [], Tally(), 0
    for case in listed:
        text, status = page.text(case.stream, *words_of(case))
        if words:
            by_program = said(words, case)
            if by_program != (text, status):
                sys.exit("%s: the program and docs/FORMATS.md differ; --page shows where" % case.name)
            text, status = by_program
        tally.add(text)
        block = block_of(case, text, status, said(words[:1], case)[0] if words else text)
        marked += block.count("\n~ ")
        blocks.append(block)
    print("%s, %d cases; at %d lines the original alone says something else" % (tally, len(listed), marked))
    return blocks


def main(words):
    if words and words[0] == "--page":
        return compare(words[1:])
    words = [] if words == ["--streams"] else words
    listed = cases() + reads() + attributes()
    blocks, of_samples = answers(words, listed), answers(words, samples())
    if words:
        first = [block for case, block in zip(listed, blocks) if not case.attr]
        later = [block for case, block in zip(listed, blocks) if case.attr]
        write(first + later + of_samples)


if __name__ == "__main__":
    if len(sys.argv) < 2:
        sys.exit(__doc__)
    main(sys.argv[1:])
