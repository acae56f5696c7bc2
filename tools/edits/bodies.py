#!/usr/bin/env python3
"""Shows that the prover refuses each wrong body of `crates/NAME/edits`, at a goal of the function that it changes.

    tools/edits/bodies.py [--jobs N] [--verbose] [--anew] [--record] [--right] [--after LOG] [CRATE[/EDIT]..]

Run it at the top of the repository, over the libraries that `rt ci` proved, or beside it with --after LOG: then it
begins with a crate as soon as the log of `rt ci` names it as proved, with fewer checks at a time until that has ended.
The README beside this file says how bodies are tried. A line says for each file of edits whether all its bodies were
refused, and another for each body that was not. The last line is how many bodies were; the status is 1 if one was not.
The bodies of a crate that `refused.txt` records over the same texts are not tried, but for a hundredth of all (record.py);
with --anew all are tried. With --record the crates all of whose bodies were refused are written there.
A body that was refused is also kept, for this user and on this machine, by the sum of all that its check read: the texts
of its crate and of the libraries below, the kit, and these tools. So a later run tries only bodies that are new, or whose
texts have changed. With --verbose lines tell what each check took, and each body in it.
With --right the right body of each function that can be copied is tried in the copy's place, and must be proved there:
so what refuses a wrong body is that body, and nothing that a copy lacks.
"""

import argparse
import os
import re
import sys
import tempfile
import threading
import time
from concurrent.futures import ThreadPoolExecutor
from pathlib import Path

sys.path[:0] = [str(Path(__file__).resolve().parent.parent)]
sys.dont_write_bytecode = True
from edits import Body, bodies_of  # noqa: E402
from kept import Kept  # noqa: E402
from kit import load_rt  # noqa: E402
from record import Record  # noqa: E402
from trial import Trial  # noqa: E402

PROVED = re.compile(r"rt: (\w+)(?: is kept:.*| proved)$")


class Log:
    """The log of an `rt ci` that may still run: which crates it has proved, and whether it has ended."""

    def __init__(self, path):
        self.path, self.proved, self.ended, self.read = path, set(), path is None, 0

    def look(self):
        """Reads the whole lines that were written since it last looked."""
        if self.path is None:
            return
        with open(self.path, "rb") as it:
            it.seek(self.read)
            added = it.read()
        added = added[: added.rfind(b"\n") + 1]
        self.read += len(added)
        lines = added.decode(errors="replace").split("\n")
        self.proved |= {found[1] for found in map(PROVED.match, lines) if found}
        self.ended = self.ended or any(re.match(r"\d+ passed, \d+ failed", it) for it in lines)

    def text(self):
        with open(self.path, encoding="utf-8", errors="replace") as it:
            return it.read()

    def functions(self, crate):
        """The functions of a crate that it names as proved."""
        return set(re.findall(rf"^fn {crate}::(\S+): proved$", self.text(), re.MULTILINE)) if self.path else set()


class Run:
    """The bodies of all crates, tried beside one another."""

    def __init__(self, options):
        self.top, self.options = Path.cwd(), options
        self.rtlib = load_rt()
        self.rtlib.Crate.cuts_libraries = True
        self.log, self.print, self.bodies, self.record = Log(options.after), threading.Lock(), [], Record()
        # what the prover calls the folder of the files of proof that it offers
        self.offers = set()

    def crate(self, name, edits):
        """Tries the bodies of a crate, and prints a line for each of its edits."""
        found = []
        try:
            for edit in edits:
                found += bodies_of(edit, self.top / "crates" / name)
            if self.options.right:
                found = self.tried(name, found)
            else:
                self.refuse(self.rtlib.Crate(f"{self.top}/crates/{name}", str(self.top), {}), edits, found)
            self.bodies += found
        except (OSError, ValueError) as why:
            with self.print:
                print(f"{name}: {why}", flush=True)
            self.bodies.append(Body(name, "", [], False, 0))
        with self.print:
            for edit in edits:
                self.tell(name, edit.stem, [it for it in found if it.edit == edit.stem])

    def refuse(self, crate, edits, bodies):
        """Tries the bodies of a crate that are not known to be refused."""
        is_recorded = self.record.has(crate, edits, bodies)
        if is_recorded and crate.name not in self.record.some and not self.options.anew:
            for body in bodies:
                body.told = body.before = "recorded"
            return
        kept = Kept(crate, bool(self.options.after))
        self.tried(crate.name, bodies if self.options.anew else kept.take(bodies))
        kept.keep(bodies)
        if len(edits) == len(edits_of(self.top, [crate.name])[crate.name]) and all(it.told for it in bodies):
            self.record.add(crate, edits, bodies)

    def tried(self, name, bodies):
        """Tries bodies of a crate, if there are any, and returns those that were tried."""
        if not bodies:
            return []
        with tempfile.TemporaryDirectory(prefix=f"bodies-{os.getpid()}-") as room:
            trial = Trial(self, name, room)
            if self.options.right:
                return trial.try_right(bodies)
            trial.run(bodies)
            return bodies

    def say(self, text):
        """Prints what a check took, if that is asked for."""
        if self.options.verbose:
            with self.print:
                print(text, flush=True)

    def tell(self, name, edit, bodies):
        good = sum(bool(it.told) for it in bodies)
        if self.options.right:
            print(f"{name}/{edit}: {good} of {len(bodies)} right bodies proved in a copy", flush=True)
        else:
            verdict = "refused" if bodies and good == len(bodies) else "NOT REFUSED"
            before = ", ".join(sorted({it.before for it in bodies if it.before}))
            before = f" ({before})" if before else ""
            print(f"{verdict}: {name}/{edit}: {good} of {len(bodies)} at their own goal{before}", flush=True)
        for body in bodies:
            if self.options.verbose or not body.told:
                why = body.told or ("NOT PROVED: " if self.options.right else "NOT REFUSED AT ITS OWN GOAL: ") + body.why
                took = f" ({body.took:.0f} seconds)" if body.took else ""
                print(f"    {body.path}:{body.line} {' '.join(body.functions())}{took}: {why[:160]}", flush=True)

    def lanes(self):
        """How many crates are tried at a time. While proofs run, which go first, one processor is theirs alone."""
        return self.options.jobs if self.log.ended else max(1, self.options.jobs - 1)

    def all(self, wanted):
        """Tries the crates in the order in which they are proved, the largest of those that are ready first."""
        sizes = {name: sum(it.stat().st_size for it in edits) for name, edits in wanted.items()}
        with ThreadPoolExecutor(self.options.jobs) as pool:
            running = []
            while wanted or running:
                self.log.look()
                for ended in [it for it in running if it.done()]:
                    running.remove(ended)
                    ended.result()
                ready = [it for it in wanted if self.log.path is None or it in self.log.proved]
                ready.sort(key=lambda it: -sizes[it])
                for name in ready[: max(0, self.lanes() - len(running))]:
                    running.append(pool.submit(self.crate, name, wanted.pop(name)))
                if not ready and self.log.ended and not running:
                    break
                time.sleep(2)
        for name in wanted:
            print(f"NOT TRIED: {name}: rt ci has not proved it", flush=True)
            self.bodies.append(Body(name, "", [], False, 0))


def edits_of(top, asked):
    """The edits of each crate that is asked for, or of all."""
    found = {}
    for name in asked or sorted(it.parent.name for it in top.glob("crates/*/edits")):
        crate, _, edit = name.partition("/")
        found.setdefault(crate, []).extend(sorted((top / "crates" / crate / "edits").glob(f"{edit or '*'}.edit")))
    return found


def main():
    words = argparse.ArgumentParser(description=__doc__, formatter_class=argparse.RawDescriptionHelpFormatter)
    words.add_argument("--jobs", type=int, default=min(4, len(os.sched_getaffinity(0))))
    words.add_argument("--verbose", action="store_true")
    words.add_argument("--anew", action="store_true", help="try also what was refused before, over the same texts")
    words.add_argument("--record", action="store_true", help="write the crates all of whose bodies were refused")
    words.add_argument("--right", action="store_true", help="try the right bodies instead, which must be proved")
    words.add_argument("--after", metavar="LOG")
    words.add_argument("crates", nargs="*", metavar="CRATE[/EDIT]")
    run = Run(words.parse_args())
    run.all(edits_of(run.top, run.options.crates))
    if run.options.record:
        run.record.write()
    good, before = sum(bool(it.told) for it in run.bodies), sum(bool(it.before) for it in run.bodies)
    if before:
        print(f"{before} bodies were refused in an earlier run, over the same texts")
    print(f"{good} of {len(run.bodies)} bodies {'proved in a copy' if run.options.right else 'refused at their own goal'}")
    return 0 if run.bodies and good == len(run.bodies) else 1


if __name__ == "__main__":
    sys.exit(main())
