#!/usr/bin/env python3
"""bench/make_file.py FILE [BYTES [SEED]]: makes a file of `perf record` of about that many bytes (52,000,000 by default).

It has what `perf record -a -g -e cpu-clock -e page-faults` writes on four processors, little endian: two attributes with four
ids each, and in turns of some milliseconds what each processor wrote, one after another, so that the file is not in order of
time. Of 100 frames 90 are samples, with 38 numbers in a call chain on average, 4 are MMAP2, 3 COMM, and the others FORK, EXIT
and LOST_SAMPLES.
"""
import random
import struct
import sys

PROCESSORS = 4
# The fields of a sample: ip, task, time, call chain, processor, period and identifier.
SAMPLE_TYPE = 1 << 0 | 1 << 1 | 1 << 2 | 1 << 5 | 1 << 7 | 1 << 8 | 1 << 16
# Flags: inherit, mmap, comm, freq, task, sample_id_all, mmap2, comm_exec.
FLAGS = sum(1 << bit for bit in (1, 8, 9, 10, 13, 18, 23, 24))
# The type of software events, and what of it the two count: the clock of a processor, and page faults.
SOFTWARE, COUNTED = 1, (0, 2)
HEAD, ATTRIBUTE = 104, 128
KERNEL, USER = 2**64 - 128, 2**64 - 512
COMM, EXIT, FORK, SAMPLE, MMAP2, LOST_SAMPLES, FINISHED_ROUND = 3, 4, 7, 9, 10, 13, 68
# How many frames a processor writes in a turn, and the most nanoseconds between two.
TURN, STEP = 100, 40_000


def frame(kind, misc, body):
    return struct.pack("<IHH", kind, misc, 8 + len(body)) + body


def padded(name):
    return name + bytes(8 - len(name) % 8)


def chain(numbers):
    """A call chain after its count: of the kernel, in two of five, and of the program."""
    kernel = numbers.randint(3, 20) if numbers.random() < 0.4 else 0
    user = numbers.randint(8, 58)
    marked = [KERNEL] * (kernel > 0) + [0xFFFF_FFFF_8100_0000 + numbers.getrandbits(24) for _ in range(kernel)]
    marked += [USER] + [0x7F00_0000_0000 + numbers.getrandbits(30) for _ in range(user)]
    return struct.pack(f"<{1 + len(marked)}Q", len(marked), *marked)


class Maker:
    """Makes frames, each at its time on its processor."""

    def __init__(self, seed):
        self.numbers = random.Random(seed)
        self.chains = [chain(self.numbers) for _ in range(4096)]
        self.tasks = [1000 + 3 * it for it in range(400)]

    def sample(self, task, time, processor):
        event = self.numbers.random() < 0.1
        period = self.numbers.randint(1, 40) if event else 250_000
        place = 0x7F00_0000_0000 + self.numbers.getrandbits(30)
        numbers = (identifier(event, processor), place, task, task, time, processor, 0, period)
        return frame(SAMPLE, 2, struct.pack("<QQIIQIIQ", *numbers) + self.numbers.choice(self.chains))

    def frame(self, time, processor):
        task, kind = self.numbers.choice(self.tasks), self.numbers.random()
        if kind < 0.9:
            return self.sample(task, time, processor)
        last = struct.pack("<IIQIIQ", task, task, time, processor, 0, identifier(0, processor))
        if kind < 0.94:
            place = (0x7F00_0000_0000 + self.numbers.getrandbits(30), 1 << 20, 0, 8, 1, self.numbers.getrandbits(20), 1, 5, 2)
            name = padded(b"/usr/lib/x86_64-linux-gnu/lib%d.so" % self.numbers.getrandbits(12))
            return frame(MMAP2, 2, struct.pack("<IIQQQIIQQII", task, task, *place) + name + last)
        if kind < 0.97:
            return frame(COMM, 0, struct.pack("<II", task, task) + padded(b"worker/%d" % (task % 7)) + last)
        if kind < 0.99:
            return frame(FORK if kind < 0.98 else EXIT, 0, struct.pack("<IIIIQ", task, 1, task, 1, time) + last)
        return frame(LOST_SAMPLES, 0, struct.pack("<Q", 1) + last)


def identifier(event, processor):
    return 1 + PROCESSORS * event + processor


def frames_of(size, seed):
    """Frames of about so many bytes, in the order in which perf writes them."""
    maker, made, total, start = Maker(seed), [], 0, 81_000_000_000_000
    while total < size:
        for processor in range(PROCESSORS):
            time = start
            for _ in range(TURN):
                time += maker.numbers.randint(1, STEP)
                made.append(maker.frame(time, processor))
                total += len(made[-1])
        made.append(frame(FINISHED_ROUND, 0, b""))
        start += TURN * STEP
    return b"".join(made)


def front(size):
    """The head, the ids of both events, and their attributes, before frames of so many bytes."""
    ids_at, entry = HEAD, ATTRIBUTE + 16
    entries_at = ids_at + 8 * PROCESSORS * len(COUNTED)
    parts = (HEAD, entry, entries_at, entry * len(COUNTED), entries_at + entry * len(COUNTED), size, 0, 0)
    made = b"PERFILE2" + struct.pack("<8Q", *parts) + bytes(32)
    made += struct.pack(f"<{PROCESSORS * len(COUNTED)}Q", *range(1, 1 + PROCESSORS * len(COUNTED)))
    for event, counted in enumerate(COUNTED):
        attribute = struct.pack("<IIQQQQQ", SOFTWARE, ATTRIBUTE, counted, 4000, SAMPLE_TYPE, 0, FLAGS)
        made += attribute.ljust(ATTRIBUTE, b"\0") + struct.pack("<QQ", ids_at + 8 * PROCESSORS * event, 8 * PROCESSORS)
    return made


def main(path, size="52000000", seed="1"):
    frames = frames_of(int(size), int(seed))
    with open(path, "wb") as file:
        file.write(front(len(frames)))
        file.write(frames)


if __name__ == "__main__":
    if len(sys.argv) not in (2, 3, 4):
        sys.exit(__doc__)
    main(*sys.argv[1:])
