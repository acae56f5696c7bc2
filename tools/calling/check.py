#!/usr/bin/env python3
"""Checks that the code on the pages is code that the gate compiles and runs.

Usage, at the top of the repository: tools/calling/check.py

Each block of code is a part of a file of `crates/perf_uses`, which `rt ci` proves and runs, or of `bindings`, whose
tests build and run it. Whole programs in Rattle are left to `programs.py` beside this file. What a page prints as an
output is in the file with which the gate compares that output.
"""

import re
import sys
from pathlib import Path
from textwrap import indent

BLOCK = re.compile(r"^```([\w,]*)\n(.*?)^```$", re.M | re.S)
PROGRAM = "fn main(rt: HostRuntime)"
PAGES = "README.md docs/CALLING.md docs/LINKING.md bindings/README.md bindings/rust/README.md bindings/js/README.md".split()
SOURCES = "crates/perf_uses/src/*.rt crates/perf_uses/specs/*.antt bindings/first/* bindings/rust/tests/*.rs".split()
# a page, lines that it prints as an output, and the file that has them
OUTPUTS = [
    ("README.md", "0 13 0 16 LostSamples lost=5\nend done", "crates/perfrec/stdout"),
    ("README.md", "8 lost", "bindings/try.sh"),
    ("docs/LINKING.md", "904355445346 13844 is sh", "crates/perf_uses/stdout"),
    ("bindings/README.md", "904355445346 13844 is sh", "crates/perf_uses/stdout"),
    ("docs/LINKING.md", "task 4583, event 1: 11", "examples/events.samples"),
    ("bindings/rust/README.md", "task 4583, event 1: 11", "examples/events.samples"),
    ("bindings/README.md", "task 4583, event 1: 11", "examples/events.samples"),
    ("bindings/js/README.md", "task 4583, event 1: 11", "examples/events.samples"),
]


def is_part(block, texts):
    """Whether a text has this block, at some depth."""
    return any(indent(block, " " * depth) in text for depth in range(0, 17, 4) for text in texts)


def main():
    texts = [path.read_text() for pattern in SOURCES for path in sorted(Path().glob(pattern))]
    blocks, wrong = 0, 0
    for page in PAGES:
        for language, block in BLOCK.findall(Path(page).read_text()):
            blocks += 1
            if language != "toml" and PROGRAM not in block and not is_part(block, texts):
                wrong += 1
                print(f"{page}: in no file that the gate runs:\n{block}")
    for page, lines, file in OUTPUTS:
        if any(line not in Path(it).read_text() for line in lines.splitlines() for it in (page, file)):
            wrong += 1
            print(f"{page} or {file} does not have: {lines}")
    print(f"{blocks} blocks and {len(OUTPUTS)} outputs, {wrong} of them wrong")
    return 1 if wrong or not blocks else 0


sys.exit(main())
