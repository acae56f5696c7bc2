#!/usr/bin/env python3
"""Streams made from a seed, for the programs that print records or count them:

    streams.py list SEED COUNT      a list of that many streams, in the form of crates/perf_replay/stdin
    streams.py lies SEED COUNT      a list of streams with nothing but frames whose counts lie, and in part their sizes
    streams.py counts LIST PROGRAM [WORD..]
                                    compares what PROGRAM WORD.. counts in each stream of a list with what its text says

The first two of `list` are the recordings of examples/. Each other stream is generated, or is a piece of a recording; two in three are
mutated. All 21 types and unknown ones are there, in both byte orders, with and without an attribute. The same seed gives the
same list. Its text is that of tools/answers/page.py, which is written from docs/FORMATS.md alone; the program `perf_replay`
and bindings/c/replay.c read the list.
"""
import os
import random
import re
import struct
import subprocess
import sys

sys.dont_write_bytecode = True
TOP = os.path.join(os.path.dirname(os.path.abspath(__file__)), "..")
sys.path.insert(0, os.path.join(TOP, "tools", "answers"))
import fields  # noqa: E402
import page  # noqa: E402

SAMPLE, READ = 9, 8
TYPES = fields.read_table()[1]
RECORDINGS = ("recording.stream", "samples.stream")
NO_LIMIT = 2**64 - 1
# Numbers of each type before its lists and byte strings: H, I and Q are those of `struct`.
NUMBERS = {number: fields.widths(record) for number, _, _, record in TYPES if number not in (0, SAMPLE)}
NAMES = [number for number, _, _, record in TYPES if any(it.item == "name" for it in record.fields)]
# The bits of a sample type by which a sample id has a number, and those whose field of a sample is one number.
IN_ID = (1, 2, 6, 7, 9, 16)
PLAIN = (0, 1, 2, 3, 6, 7, 8, 9, 14, 15, 16, 17, 19, 21, 22, 23, 24)


class Maker:
    """Makes the parts of one stream."""

    def __init__(self, seed):
        self.random = random.Random(seed)
        self.order = self.random.choice("<>")
        self.sample_type = self.some_bits()
        self.read_format = self.random.choice([0, 4, 8, 12, 15, 23, 28, 31, self.random.randrange(32), self.number(64)])
        self.all_ids = self.random.random() < 0.6
        self.hw_index = self.random.random() < 0.5
        self.masks = [self.random.choice([0, 1, 7, 0xFF0FFF, 1 << 63]) for _ in range(2)]

    def is_one_in(self, count):
        return self.random.randrange(count) == 0

    def some_bits(self):
        """A sample type: few bits, many, or any number."""
        kind = self.random.randrange(4)
        if kind == 0:
            return self.random.getrandbits(25)
        if kind == 1:
            return self.number(64)
        return sum({1 << self.random.randrange(25) for _ in range(self.random.randrange(9))})

    def number(self, bits):
        """A number of that many bits: small, at an end, or any."""
        kind = self.random.randrange(8)
        if kind < 4:
            return self.random.randrange(300) % 2**bits
        if kind == 4:
            return self.random.choice([0, 1, 2**bits - 1, 2 ** (bits - 1), 2 ** (bits - 3) + 1])
        return self.random.getrandbits(bits)

    def pack(self, form):
        widths = {"H": 16, "I": 32, "Q": 64}
        return struct.pack(self.order + form, *[self.number(widths[it]) for it in form])

    def one(self, form, number):
        return struct.pack(self.order + form, number)

    def count(self, actual, bits=64):
        """A count in front of a list: true, or seldom a lie."""
        if not self.is_one_in(12):
            return actual
        return self.random.choice([actual + 1, max(actual - 1, 0), self.number(bits), 2 ** (bits - 3), 2**bits // 3 + 1]) % 2**bits

    def some_bytes(self, most=20):
        return self.random.randbytes(self.random.randrange(most + 1))

    def name(self):
        text = self.random.choice([b"", b"sh", b"/usr/lib/libc.so.6", b"a\0b", self.some_bytes()])
        return text + bytes(self.random.choice([0, 1, -len(text) % 8]))

    def numbers(self, most, each=1):
        """A count, and as many items of `each` numbers."""
        count = self.random.randrange(most + 1)
        return self.one("Q", self.count(count)), self.pack("Q" * each * count)

    def counters(self):
        """What was read of counters, in a sample."""
        times = self.pack("Q" * bin(self.read_format & 3).count("1"))
        entry = 1 + (self.read_format >> 2 & 1) + (self.read_format >> 4 & 1)
        if self.read_format >> 3 & 1:
            head, entries = self.numbers(3, entry)
            return head + times + entries
        return self.pack("Q") + times + self.pack("Q" * (entry - 1))

    def raw(self):
        data = self.some_bytes()
        padding = bytes(-(4 + len(data)) % 8)
        return self.one("I", self.count(len(data), 32)) + data + padding

    def branches(self):
        head, entries = self.numbers(3, 3)
        return head + self.pack("Q" * self.hw_index) + entries

    def registers(self, mask):
        abi = self.random.choice([0, 1, 2, self.number(64)])
        return self.one("Q", abi) + self.pack("Q" * (bin(mask).count("1") if abi else 0))

    def stack(self):
        data = bytes(8 * self.random.randrange(4)) or b""
        used = self.random.choice([0, len(data), len(data) // 2, len(data) + 1, self.number(64)])
        return self.one("Q", self.count(len(data))) + data + (self.one("Q", used) if data else b"")

    def aux(self):
        data = self.some_bytes()
        return self.one("Q", self.count(len(data))) + data

    def sample(self):
        """The body of a sample, in the order of the kernel; the number after a bit stands for its field."""
        made = b""
        for bit in (16, 0, 1, 2, 3, 6, 9, 7, 8, 4, 5, 10, 11, 12, 13, 14, 24, 15, 17, 18, 19, 21, 22, 23, 20):
            if not self.sample_type >> bit & 1 or (bit == 24 and self.sample_type >> 14 & 1):
                continue
            if bit in PLAIN:
                made += self.pack("II" if bit in (1, 7) else "Q")
            else:
                made += self.list_of(bit)
        return made

    def list_of(self, bit):
        if bit == 5:
            return b"".join(self.numbers(9))
        if bit in (12, 18):
            return self.registers(self.masks[bit == 18])
        return {4: self.counters, 10: self.raw, 11: self.branches, 13: self.stack, 20: self.aux}[bit]()

    def body(self, type_, misc):
        """A whole body of that type."""
        if type_ == SAMPLE:
            return self.sample()
        made = self.pack(NUMBERS.get(type_, ""))
        if type_ == READ:
            made += self.pack("Q" * bin(self.read_format & 0x17).count("1"))
        elif type_ == 10:
            length = self.random.choice([0, 8, 16, 20, 21, 255])
            detail = bytes([length, 0, 0, 0]) + self.random.randbytes(20) if misc >> 14 & 1 else self.pack("IIQQ")
            made += detail + self.pack("II")
        elif type_ == 16:
            made += b"".join(self.numbers(7, 2))
        elif type_ == 20:
            old, new = self.random.randrange(12), self.random.randrange(12)
            made += self.one("H", self.count(old, 16)) + self.one("H", self.count(new, 16))
            made += self.random.randbytes(old + new) + bytes((4 - old - new) % 8)
        elif type_ not in NUMBERS:
            made += self.some_bytes(40)
        return made + self.name() if type_ in NAMES else made

    def frame(self):
        """A frame whose size is its own, or seldom another one; its body may be cut or too long."""
        kind = self.random.randrange(12)
        type_ = SAMPLE if kind < 4 else self.random.randrange(1, 22) if kind < 11 else self.number(32)
        if kind == 11 and self.is_one_in(2):
            type_ = self.random.choice([0, 22, 63, 64, 65])
        misc = self.random.choice([0, 1, 2, 0x2000, 0x4000, self.number(16)])
        made = self.body(type_, misc)
        if self.is_one_in(6):
            made = made[: self.random.randrange(len(made) + 1)]
        elif self.is_one_in(6):
            made += self.some_bytes()
        if self.all_ids and type_ != SAMPLE and type_ < 64 and not self.is_one_in(20):
            made += self.pack("Q" * sum(self.sample_type >> bit & 1 for bit in IN_ID))
        size = 8 + len(made)
        if self.is_one_in(15):
            size = self.random.choice([0, 7, 8, size - 1, size + 1, size + 8, self.number(16)]) % 2**16
        return self.one("I", type_) + self.one("H", misc) + self.one("H", size) + made

    def attribute(self):
        """An attribute with the fields that count, of a size that the kernel had, or seldom of another one."""
        flags = self.number(64) & ~(1 << 18) | self.all_ids << 18
        branches = self.number(64) & ~(1 << 17) | self.hw_index << 17
        whole = self.pack("I") + bytes(4) + self.pack("QQ")
        whole += struct.pack(self.order + "QQQ", self.sample_type, self.read_format, flags) + self.pack("IIQQ")
        whole += self.one("Q", branches) + self.one("Q", self.masks[0]) + self.pack("II") + self.one("Q", self.masks[1])
        whole += bytes(32 + self.random.choice([0, 0, 8, 24])) + (b"\1" if self.is_one_in(20) else b"")
        size = self.random.choice([64, 72, 80, 96, 104, 112, 120, 128, 136, 136, 136, 136, len(whole)])
        if self.is_one_in(40):
            size = self.number(16)
        whole = whole.ljust(size, b"\0") if size < 300 else whole
        return whole[:4] + self.one("I", size) + whole[8:size]

    def frames(self):
        made = b"".join(self.frame() for _ in range(self.random.randrange(1, 9)))
        return made[: self.random.randrange(len(made))] if self.is_one_in(8) else made

    def mutate(self, stream, start):
        """Changes some bytes from `start` on, or inserts, removes or repeats some; seldom before it too."""
        start = 0 if self.is_one_in(10) else start
        made = bytearray(stream)
        for _ in range(self.random.randrange(1, 5)):
            at = self.random.randrange(start, len(made) + 1) if start <= len(made) else 0
            kind = self.random.randrange(8)
            if kind == 0:
                made[at:at] = self.some_bytes(9)
            elif kind == 1:
                del made[at : at + self.random.randrange(1, 17)]
            elif kind == 2:
                made[at:at] = made[max(at - 24, start) : at]
            elif at < len(made):
                made[at] = self.random.choice([0, 1, 7, 8, 255, made[at] ^ 1 << self.random.randrange(8), self.random.randrange(256)])
        return bytes(made)


class Liar(Maker):
    """Makes frames each of whose counts is more than there is, up to all bits."""

    def __init__(self, seed):
        super().__init__(seed)
        self.sample_type = self.random.choice([1 << bit for bit in (4, 5, 10, 11, 12, 13, 18, 20)]) | self.some_bits() % 2**25
        self.masks = [self.random.choice([1, 0xFF0FFF, 2**64 - 1]) for _ in range(2)]
        self.read_format = self.random.randrange(32)

    def count(self, actual, bits=64):
        kind = self.random.randrange(4)
        if kind == 0:
            return (actual + self.random.randrange(1, 300)) % 2**bits
        if kind == 1:
            return 2 ** self.random.randrange(bits - 4, bits) // self.random.choice([1, 3, 8, 24])
        # what would be a list of 1 MB to 4 GB
        return 2 ** self.random.randrange(bits // 4, min(bits, 30)) + actual if kind == 2 else self.random.getrandbits(bits)

    def frame(self):
        type_ = self.random.choice([SAMPLE, SAMPLE, SAMPLE, 16, 20])
        made = self.body(type_, 0)
        size = 8 + len(made)
        if self.is_one_in(6):
            size = self.random.choice([0, 7, 8, size + 1, size + 8, 65535, self.number(16)]) % 2**16
        return self.one("I", type_) + self.one("H", 0) + self.one("H", size) + made


def piece_of(maker, recording):
    """The attribute of a recording, and some frames of it, one after another."""
    start = struct.unpack_from("<I", recording, 4)[0]
    places, at = [], start
    while at < len(recording):
        places.append(at)
        at += struct.unpack_from("<H", recording, at + 6)[0]
    first = maker.random.randrange(len(places))
    last = min(first + maker.random.randrange(1, 12), len(places) - 1)
    return recording[:start] + recording[places[first] : places[last]], start


def stream_of(maker, recordings):
    """A stream, and the words of `perfrec` by which it is read, with a limit."""
    if maker.is_one_in(3):
        stream, start = piece_of(maker, maker.random.choice(recordings))
        words = ["little", "attr"]
    elif maker.is_one_in(8):
        maker.sample_type, maker.read_format, maker.all_ids = 0, 0, False
        stream, start = maker.frames(), 0
        words = ["little" if maker.order == "<" else "big"]
    else:
        head = maker.attribute()
        stream, start = head + maker.frames(), len(head)
        words = ["little" if maker.order == "<" else "big", "attr"]
    if not maker.is_one_in(3):
        stream = maker.mutate(stream, start)
    if words[0] == "little" and maker.is_one_in(4):
        words[0] = "native"
    limit = maker.random.choice([0, 1, 3]) if maker.is_one_in(8) else NO_LIMIT
    return stream, [words[0], str(limit), *words[1:]]


def lying_stream(seed):
    """An attribute and lying frames after it, and the words of `perfrec` by which they are read."""
    liar = Liar(seed)
    order = "little" if liar.order == "<" else "big"
    return liar.attribute() + liar.frames(), [order, str(NO_LIMIT), "attr"]


def write_case(name, stream, words):
    text, status = page.text(stream, "big" if words[0] == "big" else "little", int(words[1]), "attr" in words)
    print("case", name)
    print("bytes", stream.hex())
    print("perfrec", *words)
    print("=", text.replace("\n", "; ") + f"status {status}")


def write_list(seed, count):
    recordings = []
    for name in RECORDINGS:
        with open(os.path.join(TOP, "examples", name), "rb") as file:
            recordings.append(file.read())
    for index in range(count):
        if index < len(recordings):
            write_case(RECORDINGS[index], recordings[index], ["little", str(NO_LIMIT), "attr"])
        else:
            write_case(f"seed_{seed}_{index}", *stream_of(Maker(f"{seed}/{index}"), recordings))


# What the line of a record adds to the checksum besides its type and its size; of a byte string it is the length.
SUMS = {name: {it.name: it for it in record.fields if it.is_summed} for _, name, _, record in TYPES}


def counts_of(text):
    """What `perf_count` prints of the stream that has this text, and its status."""
    *lines, _, status = text.split("; ")
    records = refused = checksum = 0
    for line in lines:
        _, type_, _, size, name, *words = line.split(" ")
        records += 1
        refused += name == "refused"
        if name != "refused":
            checksum += int(type_) + int(size)
        for key, _, value in (field.partition("=") for field in words):
            if key in SUMS.get(name, ()):
                is_string = SUMS[name][key].item in ("name", "bytes")
                checksum += len(value) // 2 if is_string else sum(map(int, value.split(","))) if value else 0
    return f"{records} {refused} {checksum % 2**64}\n", int(status[len("status ") :])


def compare_counts(file, program):
    """Returns how many streams of a list are counted otherwise than their text says."""
    runs = differences = 0
    with open(file, encoding="ascii") as lines:
        cases = re.findall(r"^bytes (.*)\nperfrec (.*)\n= (.*)$", lines.read(), re.M)
    for digits, words, text in cases:
        order, limit, *attr = words.split()
        if int(limit) != NO_LIMIT or text.startswith("attr refused"):
            continue
        ran = subprocess.run([*program, order, *attr], input=bytes.fromhex(digits), stdout=subprocess.PIPE, stderr=subprocess.DEVNULL)
        found, wanted = (ran.stdout.decode(), ran.returncode), counts_of(text)
        runs += 1
        if found != wanted:
            differences += 1
            print(f"{words} of {digits}: {found}, not {wanted}")
    print(f"{runs} runs, {differences} differences")
    return differences + (runs == 0)


def main(words):
    if len(words) == 3 and words[0] == "list" and words[2].isdigit():
        write_list(words[1], int(words[2]))
        return 0
    if len(words) == 3 and words[0] == "lies" and words[2].isdigit():
        for index in range(int(words[2])):
            write_case(f"lies_{words[1]}_{index}", *lying_stream(f"{words[1]}/lies/{index}"))
        return 0
    if len(words) >= 3 and words[0] == "counts":
        return 1 if compare_counts(words[1], words[2:]) else 0
    print(__doc__, file=sys.stderr)
    return 2


if __name__ == "__main__":
    sys.exit(main(sys.argv[1:]))
