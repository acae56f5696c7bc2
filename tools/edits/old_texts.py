#!/usr/bin/env python3
"""Checks that each `old:` text of `crates/NAME/edits` is in its file exactly once, and that each body is in a file that
exists. It needs no proof, and takes a second.

    tools/edits/old_texts.py

It prints a line for each edit that cannot be applied, and ends with how many bodies can; the status is 1 if one cannot.
"""

import sys
from pathlib import Path

sys.dont_write_bytecode = True
from edits import bodies_of  # noqa: E402

TOP = Path(__file__).resolve().parent.parent.parent


def main():
    count, faults = 0, []
    for edit in sorted(TOP.glob("crates/*/edits/*.edit")):
        try:
            found = bodies_of(edit, edit.parent.parent)
            count += len(found)
            faults += [] if found else [f"{edit.relative_to(TOP)} has no body"]
        except (OSError, ValueError) as why:
            faults.append(f"{edit.relative_to(TOP)}: {why}")
    print("\n".join([*faults, f"{count} wrong bodies can be applied; edits that cannot: {len(faults)}"]))
    return 0 if count and not faults else 1


if __name__ == "__main__":
    sys.exit(main())
