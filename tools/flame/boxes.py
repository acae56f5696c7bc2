#!/usr/bin/env python3
"""Compares a flame graph with the folded stacks that it is of.

    tools/flame/boxes.py [--inverted] FOLDED SVG

It reads the SVG with an XML parser, adds up the stacks anew, and tells whether each box has the name, the count, the
part, the place and the width of a beginning of stacks, whether each beginning that is wide enough has a box, and
whether children lie inside their parents and siblings beside one another, by name.
"""

import argparse
import re
import sys
import xml.etree.ElementTree as xml
from collections import Counter
from fractions import Fraction
from pathlib import Path

SVG, WIDTH, ROW = "{http://www.w3.org/2000/svg}", 1200, 16


def cleaned(name):
    """A name as a graph has it: control bytes as `_`, and those that are not ASCII as `\\x..`."""
    return b"".join(b"_" if it < 32 or it == 127 else b"%c" % it if it < 128 else b"\\x%02x" % it for it in name).decode()


def in_order(name):
    """What the order of names goes by: a name before it was cleaned."""
    return re.sub(r"\\x([89a-f][0-9a-f])", lambda it: chr(int(it[1], 16)), name)


def stacks_of(text, inverted):
    """The counts of stacks, each a row of names."""
    sums = Counter()
    for line in text.split(b"\n"):
        if line:
            stack, _, count = line.rpartition(b" ")
            names = [bytes(95 if it < 32 or it == 127 else it for it in name) for name in stack.split(b";")]
            sums[tuple(reversed(names)) if inverted else tuple(names)] += int(count)
    return sums


def wanted(sums):
    """The boxes of the stacks: depth, name, count, and what is left of it."""
    total = sum(sums.values())
    before, found = 0, {(): [0, total]}
    for stack in sorted(sums):
        for depth in range(1, len(stack) + 1):
            found.setdefault(stack[:depth], [before, 0])[1] += sums[stack]
        before += sums[stack]
    wide = {first: it for first, it in found.items() if it[1] and it[1] * 12000 >= total}
    return total, [(len(first), cleaned(first[-1]) if first else "all", count, left) for first, (left, count) in sorted(wide.items())]


def boxes_of(svg):
    """The boxes of a graph: depth, name, count, hundredths of a percent, and both edges in thousandths of a pixel."""
    root = xml.fromstring(svg)
    height, found = int(root.get("height")), []
    for group in root:
        assert group.tag == f"{SVG}g" and [it.tag for it in group][:2] == [f"{SVG}title", f"{SVG}rect"], group.tag
        title, rect = group[0].text, group[1]
        name, _, rest = title.rpartition(" (")
        count, part = rest.removesuffix("%)").split(", ")
        left, width = (int(rect.get(it).replace(".", "")) for it in ("x", "width"))
        depth = (height - ROW - int(rect.get("y"))) // ROW
        found.append((depth, name, int(count), int(part.replace(".", "")), left, left + width))
    return found


def faults(text, svg, inverted):
    """What is wrong with a graph, a line each."""
    total, want = wanted(stacks_of(text, inverted))
    found = boxes_of(svg)
    drawn = [(depth, name, count, count * 10000 // total, left * WIDTH * 1000 // total, (left + count) * WIDTH * 1000 // total)
             for depth, name, count, left in want]
    for one, other in zip(drawn, found):
        if one != other:
            yield f"wanted {one}, found {other}"
    if len(drawn) != len(found):
        yield f"wanted {len(drawn)} boxes, found {len(found)}"
    open_boxes = []
    for depth, name, count, _, left, right in found:
        above = open_boxes[depth - 1] if depth else (0, WIDTH * 1000, total)
        if left < above[0] or right > above[1] or count > above[2]:
            yield f"{name} at {depth} is outside its parent"
        if depth < len(open_boxes) and open_boxes[depth][3] == (open_boxes[depth - 1][4] if depth else 0) and (
                left < open_boxes[depth][1] or in_order(name) < in_order(open_boxes[depth][5])):
            yield f"{name} at {depth} is not right of {open_boxes[depth][5]}"
        parent = open_boxes[depth - 1][4] if depth else 0
        open_boxes[depth:] = [(left, right, count, parent, object(), name)]


def main():
    parser = argparse.ArgumentParser(description=__doc__.splitlines()[0])
    parser.add_argument("--inverted", action="store_true")
    parser.add_argument("folded", type=Path)
    parser.add_argument("svg", type=Path)
    asked = parser.parse_args()
    found = list(faults(asked.folded.read_bytes(), asked.svg.read_bytes(), asked.inverted))
    for line in found[:20]:
        print(line)
    print(f"{len(boxes_of(asked.svg.read_bytes()))} boxes, {len(found)} of them wrong")
    return 1 if found else 0


if __name__ == "__main__":
    sys.exit(main())
