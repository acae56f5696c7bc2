"""The record of wrong bodies that were refused: `refused.txt` beside this file, a line for each crate.

A line has the crate, how many bodies it has, and the sum of all that they were tried over: its texts and edits, the
texts of the libraries below it, and what the kit is. While that sum is the same, no body can be proved that was not, so
only those of a few small crates are tried again: at most a hundredth of all, chosen by the record itself, others with each record."""

import contextlib
import hashlib
from pathlib import Path

FILE = Path(__file__).resolve().parent / "refused.txt"
# One more whenever these tools judge bodies in another way.
JUDGED = 1


def sum_of(crate, edits):
    """The sum of what the bodies of a crate are tried over."""
    total = hashlib.sha256(repr((JUDGED, crate.stamp())).encode())
    for edit in edits:
        total.update(repr((edit.name, edit.read_bytes())).encode())
    return total.hexdigest()


class Record:
    """Which crates had all of their bodies refused, and over which texts."""

    def __init__(self):
        self.lines = {}
        with contextlib.suppress(OSError, ValueError):
            for line in FILE.read_text(encoding="utf-8").splitlines():
                name, count, total = line.split()
                self.lines[name] = int(count), total
        self.some = self.chosen()

    def chosen(self):
        """The crates whose bodies are tried although they are recorded, up to a hundredth of all bodies."""
        whole = hashlib.sha256(repr(sorted(self.lines.items())).encode()).hexdigest()
        order = sorted(self.lines, key=lambda it: hashlib.sha256(f"{whole} {it}".encode()).hexdigest())
        left, some = sum(count for count, _ in self.lines.values()) // 100, set()
        for name in order:
            if self.lines[name][0] <= left:
                left -= self.lines[name][0]
                some.add(name)
        return some

    def has(self, crate, edits, bodies):
        """Whether all bodies of a crate were refused over the texts that are there now."""
        return self.lines.get(crate.name) == (len(bodies), sum_of(crate, edits))

    def add(self, crate, edits, bodies):
        self.lines[crate.name] = len(bodies), sum_of(crate, edits)

    def write(self):
        lines = [f"{name} {count} {total}\n" for name, (count, total) in sorted(self.lines.items())]
        FILE.write_text("".join(lines), encoding="utf-8")
