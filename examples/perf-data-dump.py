#!/usr/bin/env python3
"""Converts what perf prints of a perf.data file to the lines of `perf_data`.

    perf-data-dump.py events FILE
    perf-data-dump.py dump|time FILE

`events` is made from `perf report --header-only`, or if that names no event, from `perf evlist -v` and the ids that
`perf report -D` lists. The other two are made from `perf report -D`: `dump` in the order of the file, `time` by time.
The values are those that perf prints. Only what perf does not print comes from the bytes in its dump: the headers, the
ids, the times in FORK and EXIT, and the bytes of records that perf wrote for itself. It is for little-endian files
whose samples have an IDENTIFIER, or after IP, TID and TIME an ID, and of other fields only CPU, PERIOD, a READ of a
group, and CALLCHAIN; a line of another form ends the run with an error.
"""

import re
import subprocess
import sys

SAMPLE_TYPES = {
    "IP": 0, "TID": 1, "TIME": 2, "ADDR": 3, "READ": 4, "CALLCHAIN": 5, "ID": 6, "CPU": 7, "PERIOD": 8,
    "STREAM_ID": 9, "RAW": 10, "BRANCH_STACK": 11, "IDENTIFIER": 16,
}
TASK = r"(-?\d+)/(\d+)"


def perf(*words):
    run = subprocess.run(["perf", *words], check=True, capture_output=True)
    return run.stdout.decode("utf-8", "surrogateescape").splitlines()


def event(name, ids, fields):
    """An event's name, ids, type, config and the names of the fields of its samples."""
    return {
        "name": name,
        "ids": [int(number) for number in ids],
        "type": int(fields.get("type", "0")),
        "config": int(fields.get("config", "0"), 16),
        "sample": fields["sample_type"].strip().split("|"),
    }


def described_events(path):
    for line in perf("report", "--header-only", "-i", path):
        match = re.fullmatch(r"# event : name = (.*), , id = \{ ([0-9, ]*) \}, (.*)", line)
        if match:
            yield event(match[1], match[2].split(","), dict(re.findall(r"([a-z_]+) = ([^,]+)", match[3])))


def listed_events(path):
    """Events without a description. Their ids are listed one event after another, each with its index in the event."""
    ids = []
    for line in perf("report", "-D", "-i", path):
        match = re.fullmatch(r" \.\.\. id: (\d+)  idx: (\d+)  cpu: -?\d+  tid: -?\d+", line)
        if match:
            if match[2] == "0":
                ids.append([])
            ids[-1].append(match[1])
    for line, own in zip(perf("evlist", "-v", "-i", path), ids, strict=True):
        name, fields = line.split(": ", 1)
        yield event(name, own, dict(re.findall(r"([a-z_]+): ([^,]+)", fields)))


def event_line(number, event):
    sample_type = sum(1 << SAMPLE_TYPES[name] for name in event["sample"])
    return (f"{number} {event['name']} type={event['type']} config={event['config']:#x}"
            f" sample_type={sample_type:#x} ids={len(event['ids'])}")


def records(path):
    """The offset, the bytes and the printed lines of each record."""
    here = None
    for line in perf("report", "-D", "-i", path):
        start = re.fullmatch(r"(0x[0-9a-f]+|0)@(.*) \[0x[0-9a-f]+\]: event: \d+", line)
        if start:
            if here:
                yield here
            # in a pipe perf counts from the first frame, after the head of 16 bytes
            head = 16 if start[2] == "pipe" else 0
            here = {"at": head + int(start[1], 16), "bytes": b"", "lines": []}
        elif here and re.match(r"\.  [0-9a-f]{4}:  ", line):
            here["bytes"] += bytes.fromhex(line[10:58])
        elif here and line and not line.startswith("."):
            here["lines"].append(line)
        elif here and line.startswith("..."):
            here["lines"].append(line)
    if here:
        yield here


def number_at(record, at, size=8):
    return int.from_bytes(record["bytes"][at:at + size], "little")


def hex_of(text):
    return text.encode("utf-8", "surrogateescape").hex()


def unsigned(text):
    return int(text) % 2 ** 32


def fork_words(name, record, text):
    pid, tid, ppid, ptid = re.fullmatch(r"\((\d+):(\d+)\):\((\d+):(\d+)\)", text).groups()
    return f"{name} pid={pid} ppid={ppid} tid={tid} ptid={ptid} time={number_at(record, 24)}"


def comm_words(text):
    name, pid, tid = re.fullmatch(r"(?: exec)?: (.*):(\d+)/(\d+)", text).groups()
    return f"Comm pid={pid} tid={tid} comm={hex_of(name)}"


def map_words(name, text):
    match = re.fullmatch(r" " + TASK + r": \[0x([0-9a-f]+)\(0x([0-9a-f]+)\) @ (0x[0-9a-f]+|0)"
                         r"(?: (\S+):(\S+) (\d+) (\d+))?\]: (\S+) (.*)", text)
    words = (f"{name} pid={unsigned(match[1])} tid={match[2]} addr={int(match[3], 16)} len={int(match[4], 16)}"
             f" pgoff={int(match[5], 16)}")
    if name == "Mmap2":
        may = sum(bit for letter, bit in (("r", 1), ("w", 2), ("x", 4)) if letter in match[10])
        words += (f" maj={int(match[6], 16)} min={int(match[7], 16)} ino={match[8]} ino_generation={match[9]}"
                  f" prot={may} flags={1 if match[10].endswith('s') else 2}")
    return f"{words} filename={hex_of(match[11])}"


def namespaces_words(record, text):
    pid, tid = re.match(r" " + TASK + r" - nr_namespaces: \d+", text).groups()
    links = re.findall(r"\d+/[a-z]+: (\d+)/0x([0-9a-f]+)", " ".join(record["lines"]))
    listed = ",".join(f"{device}:{int(inode, 16)}" for device, inode in links)
    return f"Namespaces pid={pid} tid={tid} namespaces={listed}"


def listed(form, record):
    """What a form matches, of those of a record's lines that it matches."""
    return [match.groups() for match in (re.fullmatch(form, line) for line in record["lines"]) if match]


def counters(record):
    """Each count of a group, with its id and how many samples were lost."""
    found = listed(r"\.\.\.\.\. id ([0-9a-f]{16}), value ([0-9a-f]{16}), lost (\d+)", record)
    return ",".join(f"{int(value, 16)}:{int(id_, 16)}:{lost}" for id_, value, lost in found)


def sample_words(record, event, id_, cpu, time, text):
    form = r"\(IP, 0x[0-9a-f]+\): " + TASK + r": 0x([0-9a-f]+) period: (\d+) addr: 0"
    pid, tid, ip, period = re.match(form, text).groups()
    words = f"Sample ip={int(ip, 16)} pid={pid} tid={tid} time={time} id={id_}"
    if "CPU" in event["sample"]:
        words += f" cpu={int(cpu)}"
    if "PERIOD" in event["sample"]:
        words += f" period={period}"
    if "READ" in event["sample"]:
        words += f" values={counters(record)}"
    if "CALLCHAIN" in event["sample"]:
        chain = listed(r"\.\.\.\.\. +\d+: ([0-9a-f]{16})", record)
        words += " callchain=" + ",".join(str(int(place, 16)) for place, in chain)
    return words


def words_of(record, name, text):
    if name in ("FORK", "EXIT"):
        return fork_words(name.capitalize(), record, text)
    if name == "COMM":
        return comm_words(text)
    if name in ("MMAP", "MMAP2"):
        return map_words(name.capitalize(), text)
    if name == "NAMESPACES":
        return namespaces_words(record, text)
    sys.exit(f"perf-data-dump.py: {name} is not known")


def id_place(fields, name, size):
    """Where a frame has its id, if the samples of all events have that at one place."""
    if "IDENTIFIER" in fields:
        return 8 if name == "SAMPLE" else size - 8
    return 32 if name == "SAMPLE" else size - 8 * (1 + fields.count("CPU"))


def frame(record, list_of_events):
    """The time, the offset and the words of a record."""
    printed = next(line for line in record["lines"] if "PERF_RECORD_" in line)
    form = r"(?:(-?\d+) )?(-?\d+) (?:0x[0-9a-f]+|0) \[0x[0-9a-f]+\]: PERF_RECORD_([A-Z0-9_]+)(.*)"
    cpu, time, name, text = re.match(form, printed).groups()
    kind, misc, size = number_at(record, 0, 4), number_at(record, 4, 2), number_at(record, 6, 2)
    if kind >= 64:
        owner, words = "-", "Unknown data=" + record["bytes"][8:].hex()
    else:
        id_ = number_at(record, id_place(list_of_events[0]["sample"], name, size))
        owner = 0 if id_ == 0 else next(n for n, event in enumerate(list_of_events) if id_ in event["ids"])
        if name == "SAMPLE":
            words = sample_words(record, list_of_events[owner], id_, cpu, time, text)
        else:
            words = words_of(record, name, text)
    return int(time), record["at"], f"{record['at']} {owner} {kind} {misc} {size} {words}"


def main():
    if len(sys.argv) != 3 or sys.argv[1] not in ("events", "dump", "time"):
        sys.exit(__doc__)
    what, path = sys.argv[1:]
    list_of_events = list(described_events(path)) or list(listed_events(path))
    if what == "events":
        for number, event in enumerate(list_of_events):
            print(event_line(number, event))
        return
    frames = [frame(record, list_of_events) for record in records(path)]
    frames.sort(key=(lambda found: found[:2]) if what == "time" else (lambda found: found[1]))
    for number, found in enumerate(frames):
        print(number, found[2])


main()
