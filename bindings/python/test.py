#!/usr/bin/env python3
"""Tests perf_event_data, the module beside this file, over a shared object of the library:

    PERF_EVENT_DATA_SO=libperf_event_data.so python3 bindings/python/test.py [PERFREC]
    python3 bindings/python/test.py perfrec little|big|native LIMIT [attr] < STREAM

The first form compares: lines of `perfrec`, `perf_tasks` and `perf_samples` with those that the repository
expects; with PERFREC, the program that `rt run` makes in crates/perfrec, also the lines of all recordings.
Then it tries the calls, and measures. A line is what passed, failed or was skipped; the status is 0 if
nothing failed. The second form prints what `perfrec` prints, and has its arguments and its status.
"""

import array
import ctypes
import inspect
import math
import mmap
import os
import random
import re
import struct
import subprocess
import sys
import tempfile
import time
import tracemalloc
from pathlib import Path

sys.dont_write_bytecode = True
import perf_event_data as ped  # noqa: E402

TOP = Path(__file__).resolve().parents[2]
sys.path.insert(0, str(TOP / "bindings"))
import fields as table  # noqa: E402

CRATES = TOP / "crates"
RECORDINGS = [CRATES / "perf_tasks/stdin", CRATES / "perf_samples/stdin", *sorted(TOP.glob("examples/*.stream"))]
TYPES = table.read_table()[1]
NAMES = [name for _, name, _, _ in TYPES]
ORDERS = {name: table.names_of_line(record) for _, _, name, record in TYPES}
USAGE = "usage: perfrec little|big|native LIMIT [attr]"
results = {"passed": 0, "FAILED": 0, "skipped": 0}


def tell(result, text):
    results[result] += 1
    print(f"{result}: {text}")


def check(text, holds):
    tell("passed" if holds else "FAILED", text)


# ---- the lines of perfrec


def item_text(item):
    return ":".join(map(str, item)) if isinstance(item, tuple) else str(item)


def branch(item):
    """An item of `lbr` as its line has it: from, to, four bits, cycles and type."""
    start, end, word = item
    return (start, end, *(word >> bit & 1 for bit in range(4)), word >> 4 & 0xFFFF, word >> 20 & 15)


def value_text(value):
    if isinstance(value, memoryview):
        return value.hex()
    return ",".join(map(item_text, value)) if isinstance(value, list) else str(value)


def line_fields(frame):
    """The fields of a record's line, in their order."""
    fields = frame.fields
    if frame.name == "sample":
        own = {name: getattr(frame, name) for name in ("pid", "tid", "time", "id", "stream_id", "cpu")}
        fields.update({name: value for name, value in own.items() if value is not None})
        if "value" in fields:
            fields["values"] = [tuple(fields[name] for name in ("value", "value_id", "value_lost") if name in fields)]
        if "lbr" in fields:
            fields["lbr"] = [branch(item) for item in fields["lbr"]]
    lists = [fields[name] for name in ("values", "namespaces") if name in fields]
    assert list(map(len, lists)) == [fields[name] for name in ["count"] if name in fields], frame.fields
    return {name: fields[name] for name in ORDERS[frame.name] if name in fields}


def line(index, frame):
    head = f"{index} {frame.type} {frame.misc} {frame.size} "
    if frame.refusal:
        return head + "refused " + ped.KINDS[frame.refusal]
    words = [f"{name}={value_text(value)}" for name, value in line_fields(frame).items()]
    return head + " ".join([NAMES[frame.read], *words])


def command(words):
    """The byte order, the limit, and whether there is an attribute; None for words that are no command."""
    if len(words) not in (2, 3) or words[0] not in ("little", "big", "native") or words[2:] not in ([], ["attr"]):
        return None
    digits = words[1].lstrip("0")
    if not re.fullmatch("[0-9]+", words[1]) or len(digits) > 20 or int(digits or 0) >= 1 << 64:
        return None
    return ped.BIG if words[0] == "big" else ped.LITTLE, int(digits or 0), len(words) == 3


def perfrec(words, data):
    """The lines that `perfrec` prints, and its status, for words that are a command."""
    order, limit, with_attr = command(words)
    config, start = ped.Config(order), 0
    if with_attr:
        try:
            config, start = ped.read_attribute(data, order)
        except ped.RefusedAttribute as refusal:
            return [f"attr refused {refusal.kind}"], 2
    frames = ped.Frames(data, config, start, limit)
    lines = [line(index, frame) for index, frame in enumerate(frames)]
    status = any(frames.column("refusal")) or frames.end == "cut header"
    return [*lines, "end " + frames.end.removesuffix(" header")], int(status)


# ---- the lines of perf_tasks and perf_samples


def name_text(name):
    return "".join(chr(byte) if 32 <= byte < 127 and byte != 92 else f"\\x{byte:02x}" for byte in name)


def mmap2_text(fields):
    device = "0x{maj:x}:0x{min:x} {ino} {ino_generation}"
    detail = fields["build_id"].hex() if "build_id" in fields else device.format(**fields)
    rights = "".join(letter if fields["prot"] & bit else "-" for letter, bit in (("r", 1), ("w", 2), ("x", 4)))
    place = "{addr:#x} {len:#x} {pgoff:#x}".format(**fields)
    return f"{place} {detail} {rights}{'ps'[fields['flags'] & 1]} {name_text(fields['filename'])}"


def task_line(frame):
    fields, name = frame.fields, frame.name
    if name in ("fork", "exit"):
        return "{0} {pid} {tid} {ppid} {ptid}".format(name, **fields)
    texts = {
        "mmap": lambda: "{addr:#x} {len:#x} {pgoff:#x} ".format(**fields) + name_text(fields["filename"]),
        "mmap2": lambda: mmap2_text(fields),
        "comm": lambda: name_text(fields["comm"]),
        "namespaces": lambda: ",".join(f"{device}:{inode:#x}" for device, inode in fields["namespaces"])}
    return f"{name} {fields['pid']} {fields['tid']} {texts[name]()}" if name in texts else None


def or_dash(form, number):
    return "-" if number is None else format(number, form)


def sample_line(frame):
    if frame.name != "sample":
        return None
    fields, marks = frame.fields, {2**64 - 128: "kernel", 2**64 - 512: "user"}
    chain = "".join(f" {marks.get(entry) or hex(entry)}" for entry in fields.get("callchain", []))
    task = or_dash("d", frame.pid) + "/" + or_dash("d", frame.tid)
    numbers = [or_dash("d", frame.time), or_dash("d", frame.cpu), task, or_dash("d", fields.get("period")),
               or_dash("#x", fields.get("addr")), or_dash("#x", fields.get("ip"))]
    return " ".join(numbers) + ":" + chain


# ---- comparisons


def compare(text, expected, actual):
    for here, there in zip(actual, expected):
        if here != there:
            print(f"    {here}\n    not {there}")
            break
    check(text, expected == actual)


def compare_texts(program):
    words = (CRATES / "perfrec/args").read_text().split()
    lines, _status = perfrec(words, (CRATES / "perfrec/stdin").read_bytes())
    compare("text of crates/perfrec", (CRATES / "perfrec/stdout").read_text().splitlines(), lines)
    for crate, line_of in ("perf_tasks", task_line), ("perf_samples", sample_line):
        data = (CRATES / crate / "stdin").read_bytes()
        found = [text for text in map(line_of, ped.Frames(data, *ped.read_attribute(data))) if text]
        compare(f"lines of crates/{crate}", (CRATES / crate / "stdout").read_text().splitlines(), found)
    if not program:
        tell("skipped", "text of the recordings: PERFREC is not given")
        return
    words = ["little", "1000000", "attr"]
    for path in RECORDINGS:
        with path.open("rb") as stream:
            theirs = subprocess.run([program, *words], stdin=stream, capture_output=True, text=True).stdout
        lines, _status = perfrec(words, path.read_bytes())
        compare(f"text of {path.relative_to(TOP)}", theirs.splitlines(), lines)


def case_bytes(word, items):
    if word == "bytes":
        return bytes.fromhex("".join(items))
    if word == "zeros":
        return bytes(sum(map(int, items)))
    return b"".join(int(item, 0).to_bytes(int(word[1:]) // 8, "little") for item in items)


def replay(what, cases):
    """Compares the runs of `perfrec` in a list."""
    runs = differences = 0
    data, words, expected, is_compared = b"", None, [], False
    for text in cases.splitlines():
        word, _, rest = text.partition(" ")
        if word == "case":
            data, words, is_compared = b"", None, False
        elif word in ("bytes", "zeros", "u16", "u32", "u64"):
            data = (b"" if is_compared else data) + case_bytes(word, rest.split())
            is_compared = False
        elif word in (">", "~"):
            expected.append(rest)
        elif word == "=":
            if words:
                lines, status = perfrec(words, data)
                actual, theirs = "; ".join([*lines, f"status {status}"]), "; ".join([*expected, rest])
                runs += 1
                if actual != theirs:
                    differences += 1
                    print(f"    {actual}\n    not {theirs}")
            expected, is_compared = [], True
        elif word and word[0] != "#":
            words = rest.split() if word == "perfrec" else None
    check(f"{what}: {runs} runs, {differences} differ", runs > 0 and differences == 0)


# ---- the arguments of perfrec

# No digits, what `int` or another language reads as a number, 2^64 and more, digits of other scripts.
NO_LIMITS = ["", "x", "-1", "+1", " 1", "1 ", "1\n", "0x10", "1_0", "1.0", "18446744073709551616", "1" + "0" * 5000,
             "\u0661\u0660", "\uff11", "\u00b2", "attr", "little", "--help"]
NO_COMMANDS = [[], ["little"], ["attr"], ["--help"], ["middle", "3"], ["Little", "3"], ["little 3"], ["", "3"],
               ["attr", "1"], ["1", "little"], ["--help", "little", "3"],
               *(["little", limit, *rest] for limit in NO_LIMITS for rest in ([], ["attr"])),
               *(["big", "1", third] for third in ("", "ATTR", "attr ", "1", "little", "--help")),
               *(["native", "1", "attr", fourth] for fourth in ("", "attr", "--help"))]


def try_words():
    found = [words for words in NO_COMMANDS if command(words) is not None]
    for words in found:
        print(f"    {words} are a command")
    check(f"{len(NO_COMMANDS)} lines of other words are no command", not found)
    limits = {"0": 0, "007": 7, "18446744073709551615": 2**64 - 1, "0" * 5000 + "18446744073709551615": 2**64 - 1}
    orders = {"little": ped.LITTLE, "big": ped.BIG, "native": ped.LITTLE}
    check("an order and a limit are a command, and with attr", all(
        command([name, digits, *rest]) == (order, limit, bool(rest))
        for name, order in orders.items() for digits, limit in limits.items() for rest in ([], ["attr"])))
    for words in [], ["--help"], ["little"], ["little", "1", "attr", "attr"]:
        ran = subprocess.run([sys.executable, __file__, "perfrec", *words], input="", capture_output=True, text=True)
        check(f"the usage for {words}", (ran.returncode, ran.stdout, ran.stderr) == (2, "", USAGE + "\n"))


# ---- the calls


def address_of(view):
    """Where the bytes of a view are: of one that may be written."""
    return ctypes.addressof((ctypes.c_char * view.nbytes).from_buffer(view))


def try_inputs():
    data = (CRATES / "perf_tasks/stdin").read_bytes()
    config, length = ped.read_attribute(data)
    expected = [frame.fields for frame in ped.Frames(data, config, length)]
    words = array.array("Q", data + bytes(-len(data) % 8))
    inputs = {"a bytearray": bytearray(data), "a view in the middle of another": memoryview(b"abc" + data)[3:],
              "an array of 64-bit numbers": words}
    for text, given in inputs.items():
        frames = ped.Frames(given, config, length)
        check(f"frames of {text}", [frame.fields for frame in frames][:len(expected)] == expected)
    with tempfile.TemporaryFile() as file:
        file.write(data)
        file.flush()
        with mmap.mmap(file.fileno(), 0, access=mmap.ACCESS_READ) as mapped:
            frames = ped.Frames(mapped, config, length)
            same = [frame.fields for frame in frames] == expected
            del frames
        check("frames of a mapped file that may not be written", same)
    array_of_bytes = bytearray(data)
    frames = ped.Frames(array_of_bytes, config, length)
    span = next(frame for frame in frames if frame.name == "comm").fields["comm"]
    inside = address_of(span) - address_of(memoryview(array_of_bytes))
    check("a span is a place in the input, not a copy", data[inside:inside + len(span)] == bytes(span))
    try:
        array_of_bytes.append(0)
        check("an input in use does not move", False)
    except BufferError:
        check("an input in use does not move", True)


def try_memory():
    """Reading one frame of a large input must not take memory for the input."""
    large = struct.pack("<IHHQ", 13, 0, 16, 5) * 1000000
    tracemalloc.start()
    ped.Frames(large, limit=1)
    _now, peak = tracemalloc.get_traced_memory()
    tracemalloc.stop()
    check(f"an input of {len(large)} bytes is not copied: {peak} bytes of memory for one frame", peak < 8192)


def spans_are_inside(frame):
    row = frame._row
    return all(row[place] + row[place + 1] <= len(frame.bytes) for place in range(38, 54, 2))


def try_wrong_bytes():
    """Recordings in which bytes are replaced, under their own configurations and under others."""
    source = random.Random(1)
    frames = wrong = 0
    for number in range(400):
        data = bytearray(RECORDINGS[number % 2].read_bytes())
        config, length = ped.read_attribute(data)
        if number % 4 > 1:
            config = ped.Config(
                number // 4 % 2, sample_type=source.getrandbits(25), read_format=source.getrandbits(5), flags=1 << 18,
                branch_sample_type=source.getrandbits(18), sample_regs_user=source.getrandbits(64),
                sample_regs_intr=source.getrandbits(64))
        for _ in range(200):
            data[source.randrange(length, len(data))] = source.choice((0, 1, 8, 16, 255))
        for frame in ped.Frames(data, config, length):
            frames += 1
            wrong += not spans_are_inside(frame) or len(frame.fields) > 27
    check(f"{frames} frames of changed bytes: {wrong} have a span outside their bytes", wrong == 0)


def refuses(text, call):
    try:
        call()
        check(text, False)
    except (ped.Error, IndexError, KeyError):
        check(text, True)


LOST = struct.pack("<IHHQ", 13, 0, 16, 5)


def try_sequence():
    frames = ped.Frames(LOST * 3000 + b"abc")
    first, last = frames[0], frames[-1]
    check("a frame by its index", (first.name, last.fields, bytes(last.bytes)) == ("lost_samples", {"lost": 5}, LOST))
    check("how many, the end and the bytes that were taken",
          (len(frames), frames.end, frames.taken) == (3000, "cut header", 48000))
    check("a slice, and frames in reverse", [frame.fields["lost"] for frame in frames[1:3]] == [5, 5]
          and len(list(reversed(frames))) == 3000)
    check("columns", [frames.column(name) for name in ("lost_samples.lost", "size", "time", "comm.pid")]
          == [[number] * 3000 for number in (5, 16, None, None)])
    some = ped.Frames(LOST * 3, start=16, limit=1)
    check("a start and a limit", (len(some), some.end, some.taken, list(some.starts)[0]) == (1, "limit", 32, 16))
    none = ped.Frames(b""), ped.Frames(bytearray()), ped.Frames(LOST, limit=0)
    check("no frames", [(len(frames), frames.end, frames.column("time")) for frames in none]
          == [(0, "done", []), (0, "done", []), (0, "limit", [])])
    refuses("a start before the bytes is refused", lambda: ped.Frames(LOST, start=-16))
    refuses("a start after the bytes is refused", lambda: ped.Frames(LOST, start=17))
    refuses("an index after the last is refused", lambda: frames[3000])
    refuses("a column of no record is refused", lambda: frames.column("lots.lost"))
    refuses("a column of no field is refused", lambda: frames.column("lost.ip"))


def try_frames():
    short = ped.Frames(struct.pack("<IHH", 13, 0, 4) + LOST)
    check("a frame shorter than a header", [(frame.name, frame.message) for frame in short]
          == [("refused", "header size was too small to be valid"), ("lost_samples", "")])
    cut = ped.Frames(LOST[:12])[0]
    check("a frame cut short", (cut.message, bytes(cut.bytes)) == ("unexpected EOF during parsing", LOST[:12]))
    check("where a frame is, and its length", [(frame.at, frame.length) for frame in (short[0], short[1], cut)]
          == [(0, 8), (8, 16), (0, 12)])
    check("a frame of a stream has no event", (cut.event, cut.unknown_id) == (None, None))
    big = ped.Frames(struct.pack(">IHHIIQ", 8, 0, 24, 1, 2, 3), ped.Config(ped.BIG))
    check("the other byte order", big[0].fields == {"pid": 1, "tid": 2, "value": 3})
    config = ped.Config(sample_type=ped.FLAGS["TID"] | ped.FLAGS["TIME"], flags=1 << 18)
    frames = ped.Frames(struct.pack("<IHHQIIQ", 13, 0, 32, 5, 7, 8, 9), config)
    check("a sample id", [(frame.pid, frame.tid, frame.time, frame.cpu) for frame in frames] == [(7, 8, 9, None)])
    check("columns of a sample id", [frames.column(name) for name in ("tid", "cpu")] == [[8], [None]])
    sample = struct.pack("<IHHQ", 9, 0, 16, 11)
    check("the event of a sample", [ped.identifier(sample[:size], False) for size in (16, 15)] == [11, None])
    comm = struct.pack(">IHHIIQQ", 3, 0, 32, 5, 7, 0, 12)
    check("the event of another record", [ped.identifier(comm, is_there, ped.BIG) for is_there in (True, False)] == [12, None])
    other = ped.Config()
    other.version += 1
    attribute = struct.pack("<IIQQQQQ16x", 0, 64, 0, 0, 6, 0, 1 << 18)
    config, length = ped.read_attribute(attribute + LOST)
    check("an attribute", (config.version, config.sample_type, config.flags, length) == (1, 6, 1 << 18, 64))
    check("whether there is a sample id", (config.sample_id_all, other.sample_id_all) == (True, False))
    shown = [ped.Config(ped.BIG, sample_type=6), short[1], short]
    check("what is shown of objects", list(map(repr, shown)) == [
        "Config(BIG, sample_type=0x6)", "<Frame lost_samples at 8, 16 bytes>", "<Frames: 2, end 'done'>"])
    refuses("an attribute cut short is refused", lambda: ped.read_attribute(attribute[:63]))
    refuses("another version is refused", lambda: ped.Frames(LOST, other))
    refuses("another order is refused", lambda: ped.Frames(LOST, ped.Config(2)))


def try_numpy():
    try:
        import numpy  # noqa: F401
    except ImportError:
        tell("skipped", "numpy: not installed")
        return
    data = (CRATES / "perf_tasks/stdin").read_bytes()
    frames = ped.Frames(data, *ped.read_attribute(data))
    table = frames.numpy()
    check("numpy: a row of 320 bytes for each frame", (table.shape, table.itemsize) == ((len(frames),), 320))
    check("numpy: columns", table["size"].tolist() == frames.column("size"))
    comm = next(index for index, frame in enumerate(frames) if frame.name == "comm")
    check("numpy: numbers and spans", (table["numbers"][comm, 0], table["spans"]["len"][comm, 0])
          == (frames[comm].fields["pid"], len(frames[comm].fields["comm"])))


# ---- files of perf record

EVENTS, MACHINE, GROUP, KILLED, PIPE = (TOP / f"examples/{name}.data" for name in ("events", "machine", "group", "killed", "pipe"))
# In the order of enum ped_file_refusal, with which the header's ped_file_message has the texts.
HEADER = (TOP / "bindings/c/perf_event_data.h").read_text()


def file_line(index, frame):
    """The line of `perf_data dump`."""
    owner = "?" if frame.type < 64 else "-"
    if frame.event:
        owner = frame.event.number
    elif frame.unknown_id is not None:
        owner = f"?{frame.unknown_id}"
    rest = line(index, frame).partition(" ")[2]
    if frame.refusal == 3 and not frame.event:
        rest = f"{frame.type} {frame.misc} {frame.size} refused {'NoId' if owner == '?' else 'UnknownId'}"
    return f"{index} {frame.at} {owner} {rest}"


def lines_of(frames):
    return [file_line(index, frame) for index, frame in enumerate(frames)]


def compare_file(text, path, recording):
    """Compares a recording with the texts of an example."""
    dump, times, events = (path.with_suffix(it).read_text().splitlines() for it in (".dump", ".time", ".events"))
    compare(f"frames of {text}", dump, lines_of(recording.frames("file")))
    compare(f"frames of {text} by time", times, lines_of(recording.frames("time")))
    form = "{0.number} {0.name} type={0.type} config={0.event:#x} sample_type={0.config.sample_type:#x} ids={1}"
    compare(f"events of {text}", events, [form.format(event, len(event.ids)) for event in recording.events])
    for event in recording.events:
        owned = [it.split(" ", 1)[1] for it in times if it.split()[2] == str(event.number)]
        compare(f"frames of {event} of {text}", owned, [it.split(" ", 1)[1] for it in lines_of(event.frames)])


def try_texts_of_files():
    for path in EVENTS, MACHINE, GROUP, KILLED:
        recording, text = ped.open(path), f"examples/{path.name}"
        compare_file(text, path, recording)
        words = [sys.executable, TOP / "examples/big-endian.py", path]
        copy = ped.Recording(subprocess.run(words, capture_output=True, check=True).stdout)
        compare_file(f"{text}, of a big-endian machine", path, copy)
        found = [(it.order, it.is_closed) for it in (recording, copy)]
        check(f"the order of {text}, and whether perf ended",
              found == [(ped.LITTLE, path != KILLED), (ped.BIG, path != KILLED)])
    compare_file("examples/big-endian.data", EVENTS, ped.open(EVENTS.with_name("big-endian.data")))
    compare_file("examples/pipe.data", PIPE, ped.open(PIPE))


def try_features():
    """The machine, the release of its kernel and the words of the command, as examples/record-events.sh has these."""
    for path, output in (EVENTS, "events.data"), (PIPE, "-"):
        recording, words = ped.open(path), ["/usr/bin/perf", "record", "-q", "-B", "-o", output, "-e"]
        check(f"what examples/{path.name} states of the machine and the command",
              (recording.hostname, recording.os_release, recording.command_line[:7], len(recording.command_line))
              == ("vm", "6.18.44-fc-v595", words, 17) and recording.feature(255) is None)
    killed = ped.open(KILLED)
    check("a file of a perf that was killed has no features", (killed.hostname, killed.command_line) == (None, None))
    data = bytearray(EVENTS.read_bytes())
    table = sum(struct.unpack_from("<QQ", data, 40))  # the first feature is the name of the machine
    name_at, = struct.unpack_from("<Q", data, table)
    for kind, at in ("Short", name_at + 1), ("CutFeature", table + 7):
        changed = bytearray(data)
        changed[at] = 1
        recording = ped.Recording(changed)
        try:
            check(f"a feature is refused: {recording.hostname}", False)
        except ped.RefusedFile as refusal:
            check(f"a feature is refused alone: {refusal}", refusal.kind == kind and recording.os_release == "6.18.44-fc-v595")
    refuses("a feature of more than eight bits is refused", lambda: recording.feature(256))


def try_frames_of_a_file():
    recording, dump = ped.open(EVENTS), EVENTS.with_suffix(".dump").read_text().splitlines()
    frames = recording.frames("file")
    owners = [None if it == "-" else int(it) for it in (text.split()[2] for text in dump)]
    check("columns of a file", (frames.column("at"), frames.column("event"), list(frames.starts))
          == ([int(it.split()[1]) for it in dump], owners, frames.column("at")))
    check("the last frame by its index, and a slice", lines_of(frames[-1:]) == lines_of([frames[89]])
          and (frames[-1].at, len(frames[5:]), frames.taken, frames.end) == (8320, 85, 8328, "done"))
    check("what is shown of a file", (repr(recording), repr(recording.events[1]), repr(frames)) == (
        "<Recording: 3 events, 90 frames>", "<Event 1: page-faults/period=7,call-graph=fp/, 4 ids>", "<FileFrames: 90, end 'done'>"))
    refuses("another order of frames is refused", lambda: recording.frames("size"))


def try_refused_files():
    names = dict(re.findall(r"PED_FILE_(\w+) = (\d+)", HEADER))
    texts = dict(re.findall(r"case PED_FILE_(\w+):\s*return ((?:\s*\"[^\"]*\")+);", HEADER))
    expected = {int(names[name]): (name.title().replace("_", ""), "".join(re.findall('"([^"]*)"', text)))
                for name, text in texts.items() if name != "READ"}
    check("the refusals of files are those of the header", ped._FILE_REFUSALS == expected)
    data = EVENTS.read_bytes()
    damaged = {"NotPerfData": b"", "OldFormat": b"PERFFILE" + data[8:], "BadHead": data[:50], "CutFrames": data[:4000],
               "Compressed": data[:75] + bytes([data[75] | 8]) + data[76:], "NoEvent": PIPE.read_bytes()[:16]}
    for kind, given in damaged.items():
        try:
            ped.Recording(given)
            check(f"{kind} is refused", False)
        except ped.RefusedFile as refusal:
            check(f"refused: {refusal}", refusal.kind == kind and str(refusal) == dict(expected.values())[kind])
    for text, call in ("an attribute", ped.read_attribute), ("frames", ped.Frames):
        try:
            call(data)
            check(f"a file in place of {text} is refused", False)
        except ped.Error as refusal:
            check(f"a file in place of {text}: {refusal}", "perf_event_data.open" in str(refusal)
                  and "program perf_data" in str(refusal))


def try_damaged_frames():
    """As bindings/file_words_test.sh does it."""
    data, lines = EVENTS.read_bytes(), EVENTS.with_suffix(".dump").read_text().splitlines()
    (number, last), (before, place, _, _, _, size) = lines[-1].split()[:2], lines[-2].split()[:6]
    short = bytearray(data)
    short[int(last)] = 14
    found = ped.Recording(short).frames("file")
    expected = [*lines[:-1], f"{number} {last} ? 14 0 8 refused NoId"]
    compare("a SWITCH that is too short for an id", expected, lines_of(found))
    check("and why", found[-1].message == "it is too short for an id" and found[-2].message == "")
    other = bytearray(data)
    other[int(last) - 8:int(last)] = (2**63 - 1).to_bytes(8, "little")
    found = ped.Recording(other).frames("file")
    expected = [*lines[:-2], f"{before} {place} ?{2**63 - 1} 4 0 {size} refused UnknownId", lines[-1]]
    compare("an id that no event has", expected, lines_of(found))
    check("and why, too", found[-2].message == "its id is that of no event of the file")
    announcing = bytearray(data)
    announcing[int(place)] = 71
    found = ped.Recording(announcing).frames("file")
    compare("an AUXTRACE that announces more than there is", [*lines[:-2], f"{before} {place} - 71 0 {size} refused Eof"],
            lines_of(found))
    killed = data[:48] + bytes(8) + data[56:int(place) + 20]
    compare("a file that ends inside a frame", [*lines[:-2], f"{before} {place} ? 4 0 {size} refused Eof"],
            lines_of(ped.Recording(killed).frames("file")))


def read_all(data):
    """Reads all of a file in all ways; returns why it is refused, or None."""
    try:
        recording = ped.Recording(data)
    except ped.RefusedFile as refusal:
        return refusal.kind
    for number in range(256):
        try:
            recording.feature(number)
        except ped.RefusedFile as refusal:
            assert refusal.kind == "CutFeature"
    frames = recording.frames("time")
    for frame in frames:
        assert len(frame.fields) < 28 and spans_are_inside(frame) and frame.length <= len(data) - frame.at
    counts = [len(event.frames.column("time")) for event in recording.events]
    assert sum(counts) == sum(it is not None for it in frames.column("event")) and len(frames.rows) == 320 * len(frames)
    return None


def try_hostile_files():
    data = EVENTS.read_bytes()
    lengths = [*range(0, 700), *range(700, len(data), 97)]
    found = [read_all(data[:length]) for length in lengths]
    check(f"{len(lengths)} files that are cut: {len(set(found))} ways", None not in found[:680] and len(set(found)) > 2)
    killed = KILLED.read_bytes()
    places = [int(it.split()[1]) for it in KILLED.with_suffix(".dump").read_text().splitlines()]
    found = [read_all(killed[:length]) for length in range(places[1], len(killed), 97)]
    check(f"{len(found)} files of a perf that was killed are read, also cut", len(found) > 50 and not any(found))
    found = []
    for index, byte in ((index, byte) for byte in (0, 255) for index in range(2048)):
        found.append(read_all(data[:index] + bytes([byte]) + data[index + 1:]))
    check(f"{len(found)} files with one byte changed: {found.count(None)} are read, {len(set(found)) - 1} refusals",
          len(found) == 4096 and len(set(found)) > 8)
    pipe = PIPE.read_bytes()
    lengths = [*range(0, 700), *range(700, len(pipe), 97)]
    found = [read_all(pipe[:length]) for length in lengths]
    check(f"{len(lengths)} pipes that are cut: {found.count(None)} are read", None not in found[:100] and len(set(found)) > 2)
    found = [read_all(pipe[:index] + bytes([byte]) + pipe[index + 1:]) for byte in (0, 255) for index in range(2048)]
    check(f"{len(found)} pipes with one byte changed: {found.count(None)} are read, {len(set(found)) - 1} refusals",
          len(set(found)) > 4 and None in found)


def try_numpy_of_files():
    try:
        import numpy
    except ImportError:
        tell("skipped", "numpy of a file: not installed")
        return
    frames = ped.open(EVENTS).frames("time")
    times = frames.numpy("time")
    samples = re.findall(r" Sample .* time=(\d+)", EVENTS.with_suffix(".time").read_text())
    check("numpy: the times of all frames of a file", times[frames.numpy("read") == 9].tolist() == list(map(int, samples))
          and times.dtype == numpy.uint64 and bool((numpy.diff(times.astype("i8")) >= 0).all()))
    check("numpy: all numbers of a file", frames.numpy()["time"].tolist() == times.tolist())


# ---- the import and the type hints


def try_absent_library():
    environment = {**os.environ, "PERF_EVENT_DATA_SO": "/absent.so", "PYTHONPATH": str(TOP / "bindings/python")}
    words = [sys.executable, "-c", "import perf_event_data"]
    text = subprocess.run(words, env=environment, capture_output=True, text=True).stderr
    expected = "ImportError", "/absent.so", "wheel", "libperf-event-data1", "make -C bindings"
    check("without its library, the import tells what to do", all(part in text for part in expected))


def lacks_hints(call):
    """The arguments of a call that have no hint, and "return" if what it returns has none."""
    arguments = list(inspect.signature(call).parameters)
    return [f"{call.__qualname__}: {name}" for name in [*arguments, "return"]
            if name != "self" and name not in call.__annotations__]


def try_hints():
    public = {name: value for name, value in vars(ped).items() if name[0] != "_"}
    own = [value for value in public.values() if getattr(value, "__module__", "") == ped.__name__]
    kinds = filter(inspect.isclass, own)
    members = [getattr(member, "fget", member) for kind in kinds for member in vars(kind).values()]
    calls = [call for call in [*own, *members] if inspect.isfunction(call)]
    lacking = [text for call in calls for text in lacks_hints(call)]
    check(f"{len(calls)} calls have type hints {' '.join(lacking)}", len(calls) > 10 and not lacking)
    attributes = {ped.Config: dict(ped.Config._fields_), ped.Frame: ped._PLACES, ped.Frames: vars(ped.Frames(b""))}
    check("and each attribute", all(set(names) <= set(kind.__annotations__) for kind, names in attributes.items()))
    tables = {name for name, value in public.items() if isinstance(value, (dict, list, tuple))}
    check("and each table", tables and tables <= set(ped.__annotations__))
    named = {name for name, value in public.items() if value in own or name in tables or isinstance(value, int)}
    check("and __all__ has all names", named - {"annotations", "TYPE_CHECKING"} == set(ped.__all__))


# ---- measurements

LIMIT = 2


def microseconds(count, call, most=math.inf):
    """The least time of the processor per frame, of ten short runs, and of more, up to 60, while it is above a limit: on a
    busy machine most are slower."""
    times = []
    while len(times) < 10 or len(times) < 60 and min(times) > most:
        before = time.process_time()
        call()
        times.append((time.process_time() - before) / count * 1e6)
    return min(times)


def measure():
    for path in RECORDINGS[:2]:
        data = path.read_bytes()
        config, length = ped.read_attribute(data)
        many = data[length:] * 20
        frames = ped.Frames(many, config)
        count = len(frames)
        reading = microseconds(count, lambda: ped.Frames(many, config), LIMIT)
        text = f"{path.relative_to(TOP)}, 20 times: {reading:.2f} microseconds to read a frame, at most {LIMIT}"
        check(text, reading <= LIMIT)
        fields = microseconds(count, lambda: [frame.fields for frame in frames])
        column = microseconds(count, lambda: frames.column("time"))
        print(f"    besides, {fields:.2f} for its fields, {column:.2f} for the column of times")


def main():
    if sys.argv[1:2] == ["perfrec"]:
        if command(sys.argv[2:]) is None:
            print(USAGE, file=sys.stderr)
            return 2
        lines, status = perfrec(sys.argv[2:], sys.stdin.buffer.read())
        print("\n".join(lines))
        return status
    try_absent_library()
    try_hints()
    compare_texts(sys.argv[1] if len(sys.argv) > 1 else None)
    replay("runs of crates/perf_replay", (CRATES / "perf_replay/stdin").read_text())
    streams = [sys.executable, TOP / "bindings/streams.py", "list", "1", "200"]
    replay("generated streams", subprocess.run(streams, capture_output=True, text=True, check=True).stdout)
    for call in (try_words, try_inputs, try_memory, try_sequence, try_frames, try_wrong_bytes, try_numpy,
                 try_texts_of_files, try_features, try_frames_of_a_file, try_refused_files, try_damaged_frames, try_hostile_files,
                 try_numpy_of_files, measure):
        call()
    print(", ".join(f"{number} {result.lower()}" for result, number in results.items()))
    return 1 if results["FAILED"] else 0


sys.exit(main())
