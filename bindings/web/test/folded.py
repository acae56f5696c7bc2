#!/usr/bin/env python3
"""Folds the call chains that perf printed, a line for each with how many samples have it:

    perf script -i perf.data -F comm,tid,event,ip,dso > script.txt
    bindings/web/test/folded.py script.txt

A line has the thread's name, the event, and from the outermost call on FILE+0xOFFSET, 0xADDRESS_[k] in the kernel or
[unknown]. perf prints the offset in the file as a place's address."""

import collections
import re
import sys

HEAD = re.compile(r"^\s*(\S.*?)\s+(-?\d+)\s+(\S.*?):\s+(?:([0-9a-f]+) \((.*)\))?\s*$")
PLACE = re.compile(r"^\s+([0-9a-f]+) \((.*)\)$")


def name_of(address, file):
    if file.startswith("[kernel"):
        return f"0x{address}_[k]"
    return "[unknown]" if file == "[unknown]" else f"{file.rsplit('/', 1)[-1]}+0x{address}"


def samples_of(lines):
    """Each sample as its event and thread, and its places, the innermost first. A sample without a chain is one line."""
    head, places = None, []
    for line in lines:
        found = PLACE.match(line) if head else None
        if found:
            places.append(name_of(*found.groups()))
            continue
        if head:
            yield head, places
        head, places = None, []
        found = HEAD.match(line)
        if found:
            comm, _, event, address, file = found.groups()
            head, places = [comm, event], [name_of(address, file)] if address else []
    if head:
        yield head, places


def folded(lines):
    counts = collections.Counter(";".join(head + places[::-1]) for head, places in samples_of(lines))
    return [f"{stack} {count}" for stack, count in sorted(counts.items())]


if __name__ == "__main__":
    with open(sys.argv[1], encoding="utf-8") as file:
        print("\n".join(folded(file.read().splitlines())))
