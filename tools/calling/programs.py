#!/usr/bin/env python3
"""Runs the programs of README.md and docs/CALLING.md over `examples/recording.stream`, and compares what they print
with what the page says of it.

Usage: tools/calling/programs.py

One `rt try` compiles and interprets them all, joined (`tools/quick`), without a proof. After a program its page has the
output, as "prints `LINE`" or "prints N lines; the first is `LINE`".
"""

import re
import sys
import tempfile
from pathlib import Path

TOP = Path(__file__).resolve().parent.parent.parent
sys.dont_write_bytecode = True
sys.path.insert(0, str(TOP / "tools/quick"))
from joined import Room, outcomes  # noqa: E402

PROGRAM = "fn main(rt: HostRuntime)"
PAGES = ("README.md", "docs/CALLING.md")
USES = ["perf_event_data", "anyhow"]
LINES = re.compile(r"prints\s+(\d+)\s+lines;\s+the\s+first\s+is\s+`([^`]+)`")
LINE = re.compile(r"prints\s+`([^`]+)`")


def programs_of(page):
    """Each whole program of a page, with the text that follows it."""
    parts = re.split(r"^```\w*\n", (TOP / page).read_text(encoding="utf-8"), flags=re.M)
    return [(code, told) for code, told in zip(parts[1::2], parts[2::2]) if PROGRAM in code]


def add_to(room):
    """Adds the programs of the pages to a room, and returns for each name its first line and what its page says of it."""
    stream = (TOP / "examples/recording.stream").read_bytes()
    found = {}
    for code, told in [it for page in PAGES for it in programs_of(page)]:
        name = f"of_page_{len(found)}"
        room.add_program(name, code, USES, stream)
        found[name] = code.splitlines()[0].removeprefix("//! "), told
    return found


def is_told(output, told):
    """Whether an output is what the page says of it."""
    lines, many, one = output.splitlines(), LINES.search(told), LINE.search(told)
    if many:
        return len(lines) == int(many.group(1)) and lines[0] == many.group(2)
    return bool(one) and lines == [one.group(1)]


def fault_of(told, status, output, why):
    """What is wrong with how a program ended and with what it printed, or nothing."""
    if status != 0:
        return f"status {status}: {why[-800:]}"
    output = output.decode(errors="replace")
    return "" if is_told(output, told) else f"it prints something else than its page tells: {output[-800:]}"


def main():
    wrong = 0
    with tempfile.TemporaryDirectory(prefix="pages-") as folder:
        room = Room(TOP, folder)
        found = add_to(room)
        words = room.join_programs("programs", list(found))
        for name, (status, output, why) in outcomes(room.run("programs", *words), found).items():
            line, told = found[name]
            fault = fault_of(told, status, output, why)
            wrong += bool(fault)
            print(f"FAILED: {line}\n{fault}" if fault else f"passed: {line}", flush=True)
    return 1 if wrong or not found else 0


if __name__ == "__main__":
    sys.exit(main())
