#!/usr/bin/env python3
"""Runs a command, and reports what each crate cost in it, in minutes of processor time:

    tools/gate/sample.py [--log FILE] COMMAND WORD..

Every second it reads the processor time of each process of the prover, with what that process works on: the proof of
a crate, that of its tests, an edit of it, or compiling it. A compiler or linker that the prover or `rt` starts counts
as compiling the same crate. Other processes below the command are in a second table, by what runs: a program in a
crate's out/, the first argument of an interpreter, or the process's own name. At the end it prints both tables and the
time of the whole command, by the clock and on processors; if it runs where `crates.txt` is, also the longest path: the
dearest chain of proofs of which each waits for the one before it, with the tests of its last crate. With --log FILE the tables so far are also written there each
minute. A process of which less than a second is seen counts in the whole alone. The status is that of the command.
"""
import itertools
import os
import re
import resource
import subprocess
import sys
import time

KINDS = ("proof", "tests", "edits", "compiling")
TICK = os.sysconf("SC_CLK_TCK")
# What runs a script, which is its first argument that is no option.
INTERPRETERS = re.compile(r"(python|node|perl|bash|sh)[\d.]*$")
COMPILERS = ("clang", "ld.lld", "rattle-link")
# The rows of the second table.
MOST = 40


def state_of(process):
    """The name of a process, its processor time in seconds, its parent, and when it began."""
    try:
        with open(f"/proc/{process}/stat", encoding="ascii", errors="replace") as it:
            head, _, rest = it.read().rpartition(")")
        fields = rest.split()
        return head.partition("(")[2], (int(fields[11]) + int(fields[12])) / TICK, fields[1], fields[19]
    except (OSError, IndexError, ValueError):
        return None


def words_of(process):
    """The command line of a process, and the folder that it runs in."""
    try:
        with open(f"/proc/{process}/cmdline", "rb") as it:
            words = it.read().decode(errors="replace").split("\0")
        return words, os.readlink(f"/proc/{process}/cwd")
    except OSError:
        return [], ""


def kind_of(words, folder):
    """What a process of the prover works on: a crate, and one of KINDS."""
    crate = words[words.index("--crate-name") + 1] if "--crate-name" in words[:-1] else ""
    if not crate:
        return None
    if re.search(r"/(rt-edits?|bodies)-", folder):
        return crate, "edits"
    if "--crate-checked" in words:
        return crate, "compiling"
    return crate, "tests" if "--test" in words else "proof"


def other_of(name, words):
    """What another process runs."""
    options = list(itertools.takewhile(lambda it: it.startswith("-"), words[1:]))
    script = next(iter(words[1 + len(options):]), "")
    is_script = INTERPRETERS.match(name) and script and "-c" not in options
    # (a browser's process may have all of its words in the first)
    return os.path.basename(script if is_script else words[0].partition(" ")[0] if words else "") or name


def uses_of_crates():
    """The libraries that each crate of `crates.txt` uses, if that is in this folder."""
    try:
        with open("crates.txt", encoding="utf-8") as it:
            lines = [line.partition(":") for line in it if ":" in line and not line.startswith("#")]
    except OSError:
        return {}
    return {name.split()[0]: libraries.split() for name, _, libraries in lines}


def longest_path(rows, uses):
    """The seconds of the dearest chain of proofs with the tests of its last crate, and each crate of it with its own."""
    known = {}

    def chain_to(crate):
        if crate not in known:
            before, chain = max(map(chain_to, uses.get(crate, ())), default=(0.0, []))
            proof = rows.get(crate, {}).get("proof", 0.0)
            known[crate] = before + proof, [*chain, (crate, proof)]
        return known[crate]

    def with_tests(crate):
        seconds, chain = chain_to(crate)
        tests = rows.get(crate, {}).get("tests", 0.0)
        return (seconds + tests, [*chain, ("its tests", tests)]) if tests else (seconds, chain)

    return max(map(with_tests, uses), default=(0.0, []))


class Times:
    """The processor time of each process that was seen, by what it works on."""

    def __init__(self, root):
        self.root, self.seen = str(root), {}
        # what each process that still runs works on: it is looked up again if it begins another program
        self.known = {}

    def look(self):
        states = {it: state_of(it) for it in os.listdir("/proc") if it.isdigit()}
        states = {it: state for it, state in states.items() if state}
        below = {self.root: True}
        known, self.known = self.known, {}
        for process in states:
            if self.is_below(process, states, below):
                name, seconds, _, began = states[process]
                key = process, began, name
                what = known.get(key) or self.what(process, name, states)
                self.seen[*key, what] = seconds
                # (a process that has just begun may not tell its words yet)
                if what != ("rattle",):
                    self.known[key] = what

    def is_below(self, process, states, below):
        """Whether a process is the command's, or one that it started. What is known of others is kept in `below`."""
        if process not in below:
            below[process] = False
            below[process] = process in states and self.is_below(states[process][2], states, below)
        return below[process]

    def what(self, process, name, states):
        """A crate and one of KINDS, or only what runs."""
        words, folder = words_of(process)
        first = os.path.basename(words[0]) if words else name
        if first == "rattle" and kind_of(words, folder):
            return kind_of(words, folder)
        if first in COMPILERS:
            above = words_of(states[process][2])[0]
            if kind_of(above, ""):
                return kind_of(above, "")[0], "compiling"
            if "/crates/" in folder:
                return os.path.basename(folder), "compiling"
        return (other_of(name, words),)

    def sums(self):
        """The seconds of each crate by KINDS, and of all else by what ran."""
        sums, others = {}, {}
        for (_, _, _, what), seconds in self.seen.items():
            if len(what) == 1:
                others[what[0]] = others.get(what[0], 0.0) + seconds
            else:
                row = sums.setdefault(what[0], dict.fromkeys(KINDS, 0.0))
                row[what[1]] += seconds
        return sums, others

    def table(self):
        sums, others = self.sums()
        lines = ["| Crate | " + " | ".join(KINDS) + " | all |", "|---" * (len(KINDS) + 2) + "|"]
        rows = sorted(sums.items(), key=lambda it: -sum(it[1].values()))
        total = {kind: sum(row[kind] for _, row in rows) for kind in KINDS}
        for name, row in [*rows, ("all", total)]:
            cells = [f"{row[kind] / 60:.1f}" if row[kind] else "" for kind in KINDS]
            lines.append(f"| {name} | " + " | ".join([*cells, f"{sum(row.values()) / 60:.1f}"]) + " |")
        lines += ["", "| Others | minutes |", "|---|---|"]
        for name, seconds in [*sorted(others.items(), key=lambda it: -it[1])[:MOST], ("all", sum(others.values()))]:
            lines.append(f"| {name} | {seconds / 60:.1f} |")
        seconds, chain = longest_path(sums, uses_of_crates())
        if seconds:
            told = ", ".join(f"{name} {own / 60:.1f}" for name, own in chain if own)
            lines += ["", f"the longest path, of {seconds / 60:.1f} minutes: {told}"]
        return "\n".join(lines)


def main(words):
    log = None
    if words[:1] == ["--log"] and len(words) > 2:
        log, words = words[1], words[2:]
    if not words or words[0].startswith("--"):
        print(__doc__, file=sys.stderr)
        return 2
    begun = time.monotonic()
    ran = subprocess.Popen(words)
    times, written = Times(ran.pid), begun
    while ran.poll() is None:
        times.look()
        if log and time.monotonic() - written > 60:
            written = time.monotonic()
            with open(log, "w", encoding="utf-8") as it:
                it.write(times.table() + "\n")
        time.sleep(1)
    used = resource.getrusage(resource.RUSAGE_CHILDREN)
    table = times.table()
    print(table)
    print(f"{(time.monotonic() - begun) / 60:.1f} minutes by the clock, {(used.ru_utime + used.ru_stime) / 60:.1f} of processor time")
    if log:
        with open(log, "w", encoding="utf-8") as it:
            it.write(table + "\n")
    return ran.returncode


if __name__ == "__main__":
    sys.exit(main(sys.argv[1:]))
