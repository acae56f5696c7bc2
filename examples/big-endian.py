#!/usr/bin/env python3
"""Writes a file of `perf record` as a big-endian machine would have written it:

    big-endian.py FILE > BIG

FILE is little-endian. Each number of BIG is at the same place in the other order of bytes, and each flag of an
attribute at the bit where C has it there. So `perf_data` prints the same lines of both. The bytes of frames that perf
wrote for itself stay as they are, as `perf_data` prints them as bytes. Of the features there remain the names of
events, and that of the machine, by which perf recognizes the order of the features. It is for what the bundled files
contain.
"""

import struct
import sys

HOSTNAME, EVENT_DESC = 3, 12
# Attributes of 128 bytes: what is before the flags, and after them.
BEFORE_FLAGS, AFTER_FLAGS = "IIQQQQ", "IIQQQQIiQIHHIIQ"
# What comes first in MMAP, COMM, EXIT, FORK and MMAP2.
RECORDS = {1: "IIQQQ", 3: "II", 4: "IIIIQ", 7: "IIIIQ", 10: "IIQQQIIQQII"}
SAMPLE, NAMESPACES = 9, 16
# The bits of PERF_SAMPLE_*, in the order of a SAMPLE, and at the end of another record.
IDENTIFIER, READ, CALLCHAIN = 16, 4, 5
IN_SAMPLE = {16: "Q", 0: "Q", 1: "II", 2: "Q", 3: "Q", 6: "Q", 9: "Q", 7: "II", 8: "Q"}
AT_END = {1: "II", 2: "Q", 6: "Q", 9: "Q", 7: "II", 16: "Q"}


class File:
    def __init__(self, data):
        self.data, self.at = bytearray(data), 0

    def turn(self, form):
        """Turns the numbers here, and goes beyond them."""
        numbers = struct.unpack_from("<" + form, self.data, self.at)
        struct.pack_into(">" + form, self.data, self.at, *numbers)
        self.at += struct.calcsize("<" + form)
        return numbers

    def attribute(self):
        _, size, _, _, sample_type, read_format = self.turn(BEFORE_FLAGS)
        assert size == 128, size
        flags = slice(self.at, self.at + 8)
        self.data[flags] = bytes(int(f"{byte:08b}"[::-1], 2) for byte in self.data[flags])
        self.at += 8
        self.turn(AFTER_FLAGS)
        return sample_type, read_format

    def events(self, at, size, entry):
        """Turns all attributes and their ids; returns the sample type and the read format of each, by its ids."""
        events = {}
        for place in range(at, at + size, entry):
            self.at = place
            event = self.attribute()
            self.at, length = self.turn("QQ")
            ids = self.turn(f"{length // 8}Q")
            events |= dict.fromkeys(ids, event)
        return events

    def fields(self, sample_type, forms):
        self.turn("".join(form for bit, form in forms.items() if sample_type >> bit & 1))

    def sample(self, events):
        sample_type, _ = next(iter(events.values()))
        before = [] if sample_type >> IDENTIFIER & 1 else [bit for bit in range(4) if sample_type >> bit & 1]
        id_, = struct.unpack_from("<Q", self.data, self.at + 8 * len(before))
        sample_type, read_format = events[id_]
        self.fields(sample_type, IN_SAMPLE)
        if sample_type >> READ & 1:
            count, = self.turn("Q")
            numbers = 1 + (read_format >> 2 & 1) + (read_format >> 4 & 1)
            assert read_format & 11 == 8, read_format
            self.turn(f"{count * numbers}Q")
        if sample_type >> CALLCHAIN & 1:
            count, = self.turn("Q")
            self.turn(f"{count}Q")

    def frame(self, events):
        start = self.at
        kind, _, size = self.turn("IHH")
        if kind == SAMPLE:
            self.sample(events)
            assert self.at == start + size, start
        elif kind < 64:
            if kind == NAMESPACES:
                self.turn(f"{2 * self.turn('IIQ')[2]}Q")
            else:
                self.turn(RECORDS[kind])
            sample_type, _ = next(iter(events.values()))
            self.at = start + size - 8 * sum(sample_type >> bit & 1 for bit in AT_END)
            self.fields(sample_type, AT_END)
        self.at = start + size

    def descriptions(self):
        count, _ = self.turn("II")
        for _ in range(count):
            self.attribute()
            ids, length = self.turn("II")
            self.at += length
            self.turn(f"{ids}Q")

    def features(self, table, bits):
        """Turns the features that remain, and writes the table of their places; returns their bits."""
        kept = []
        for entry, bit in enumerate(bit for bit in range(256) if bits >> bit & 1):
            if bit in (HOSTNAME, EVENT_DESC):
                kept.append((bit, *struct.unpack_from("<QQ", self.data, table + 16 * entry)))
        for entry, (bit, at, size) in enumerate(kept):
            struct.pack_into(">QQ", self.data, table + 16 * entry, at, size)
            self.at = at
            if bit == HOSTNAME:
                self.turn("I")
            else:
                self.descriptions()
        return sum(1 << bit for bit, _, _ in kept)

    def whole(self):
        self.data[:8] = self.data[7::-1]
        self.at = 8
        _, entry, attributes, size, start, length, *_, bits = self.turn("9Q")
        self.turn("3Q")
        events = self.events(attributes, size, entry)
        # perf was killed if it did not write the length
        end = start + length if length else len(self.data)
        self.at = start
        while self.at < end:
            self.frame(events)
        if length:
            struct.pack_into(">Q", self.data, 72, self.features(end, bits))


def main():
    if len(sys.argv) != 2:
        sys.exit(__doc__)
    with open(sys.argv[1], "rb") as file:
        turned = File(file.read())
    turned.whole()
    sys.stdout.buffer.write(turned.data)


main()
