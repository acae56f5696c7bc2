#!/usr/bin/env python3
"""bindings/forks.py COUNT FILE LINES: makes a file of `perf record` that is hard on who looks for mappings, and the folded
lines of its samples. A process maps COUNT files. Then it forks, the new process maps a file and forks, and so on COUNT times.
A sample in each process is in the first of these files, which all inherit, and another in the process's own. Last, a sample
of each of three threads whose names are markup or control bytes."""
import struct
import sys

FIRST, PAGE = 0x5000_0000_0000, 0x1000
# IP, TID, TIME, CPU and PERIOD; sample_id_all, mmap, comm, task, mmap2 and comm_exec; the clock of a processor.
SAMPLE_TYPE = 1 << 0 | 1 << 1 | 1 << 2 | 1 << 7 | 1 << 8
FLAGS = sum(1 << bit for bit in (8, 9, 13, 18, 23, 24))
COMM, FORK, SAMPLE, MMAP2 = 3, 7, 9, 10
NAMES = [(b"<script>", "<script>"), (b"]]>", "]]>"), (b"a;b\x01\x7f", "a_b__")]


def main():
    count = int(sys.argv[1])
    frames, lines, time = [], {}, 0

    def add(kind, misc, body, pid, names=True):
        nonlocal time
        time += 1000
        if names:
            body += struct.pack("<IIQII", pid, pid, time, 0, 0)
        frames.append(struct.pack("<IHH", kind, misc, 8 + len(body)) + body)

    def map_file(pid, index):
        text = b"/lib/%d" % index
        body = struct.pack("<IIQQQIIQQII", pid, pid, FIRST + index * PAGE, PAGE, 0, 8, 1, index, 0, 5, 2)
        add(MMAP2, 2, body + text + bytes(8 - len(text) % 8), pid)

    def comm(pid, text):
        add(COMM, 0, struct.pack("<II", pid, pid) + text + bytes(8 - len(text) % 8), pid)

    def sample(pid, address, line):
        add(SAMPLE, 2, struct.pack("<QIIQIIQ", address, pid, pid, time + 1000, 0, 0, 1), pid, False)
        lines[line] = lines.get(line, 0) + 1

    comm(1, b"sh")
    for index in range(count):
        map_file(1, index)
    for pid in range(2, count + 2):
        add(FORK, 0, struct.pack("<IIIIQ", pid, pid - 1, pid, pid - 1, time), pid)
        map_file(pid, count + pid)
        sample(pid, FIRST + 16, "sh;0+0x10")
        sample(pid, FIRST + (count + pid) * PAGE + 32, f"sh;{count + pid}+0x20")
    for number, (text, shown) in enumerate(NAMES):
        comm(2 * count + number, text)
        sample(2 * count + number, 64, f"{shown};[unknown]")
    attribute = struct.pack("<IIQQQQQIIQ", 1, 128, 0, 1, SAMPLE_TYPE, 0, FLAGS, 0, 0, 0).ljust(128, b"\0")
    data = b"".join(frames)
    head = struct.pack("<8s12Q", b"PERFILE2", 104, 144, 104, 144, 248, len(data), 0, 0, 0, 0, 0, 0)
    with open(sys.argv[2], "wb") as file:
        file.write(head + attribute + struct.pack("<QQ", 104, 0) + data)
    with open(sys.argv[3], "w", encoding="utf-8") as file:
        file.writelines(sorted(f"{line} {number}\n" for line, number in lines.items()))


main()
