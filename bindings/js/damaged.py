#!/usr/bin/env python3
"""Prints what the module for Python has of damaged copies of examples/events.data and pipe.data, as test_open.mjs compares
it:

    PERF_EVENT_DATA_SO=libperf_event_data.so bindings/js/damaged.py

A line of each copy is why it is refused, or how many events and frames there are, and a sum of the frames and features.
"""
import hashlib
import multiprocessing
import sys
from pathlib import Path

sys.dont_write_bytecode = True
TOP = Path(__file__).resolve().parents[2]
sys.path.insert(0, str(TOP / "bindings/python"))
import perf_event_data as ped  # noqa: E402


def frame_text(frame):
    event = frame.event.number if frame.event else None
    words = [frame.at, event, frame.unknown_id, frame.type, frame.misc, frame.size, frame.message, frame.time,
             frame.tid, ",".join(sorted(frame.fields))]
    return " ".join("" if it is None else str(it) for it in words) + "\n"


def feature_text(recording, number):
    try:
        found = recording.feature(number)
        return f"{number} {'' if found is None else found.hex()}\n"
    except ped.RefusedFile as refusal:
        return f"{number} {refusal.kind}\n"


def text_of(data):
    try:
        recording = ped.Recording(data)
    except ped.RefusedFile as refusal:
        return f"{refusal.kind}: {refusal}"
    orders = [recording.frames(order) for order in ("file", "time")]
    text = "".join(frame_text(frame) for frames in orders for frame in frames)
    text += "".join(feature_text(recording, number) for number in range(40))
    return (f"{len(recording.events)} events, {len(orders[0])} frames, {recording.end}: "
            + hashlib.md5(text.encode()).hexdigest())


def damaged_copies(data):
    yield from (data[:length] for length in range(4096))
    for byte in 0, 255:
        yield from (data[:at] + bytes([byte]) + data[at + 1:] for at in range(2048))


def main():
    with multiprocessing.Pool() as pool:
        for name in "events", "pipe":
            copies = damaged_copies((TOP / f"examples/{name}.data").read_bytes())
            for text in pool.imap(text_of, copies, 64):
                print(text)


if __name__ == "__main__":
    main()
