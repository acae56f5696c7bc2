"""Tries wrong bodies of a crate, several in each check of a copy of it."""

import os
import re
import shutil
import signal
import subprocess
import time
from pathlib import Path

from copies import copy_proof, hollow, insert, is_hidden, place_of
from edits import functions_of, texts_of, traits_of, types_of
from kit import crate_of

# What the prover reports at a function, and in the files of its proof.
NOTE = re.compile(r"note: (?:\./)?(src/\S+?):(\d+):(\d+): (it is not proved .*)")
GAVE_UP = re.compile(r"note: what antt said of .*?: (?:\./)?(src/\S+?):(\d+):(\d+): error: (.*)")
ERROR = re.compile(r"(?:\./)?proofs/(\S+?)/\w+\.antt:\d+:\d+: error: (.*)")
# Errors of proofs that name what the edit, or the refusal of a callee, removed.
NAMES = re.compile(r"has no field|is not in scope|has no `|was not admitted|\(nearest:")
# What it reports of a text that it cannot read, or compile, and of a proof of no function.
UNREAD = re.compile(r"(?:\./)?src/\S+?:\d+:\d+: error: [^`].*")
PLACE = re.compile(r"(?:\./)?(src/\S+?):(\d+):\d+: error")
NO_PROOF = re.compile(r"\./proofs/(\S+)/Proof\.antt: error(?:\[reserved-name\])?: ")
# Its last line, and what it says of a function that is proved, if what it calls is.
ENDED = re.compile(r"only=\d+ holes=\d+")
HOLDS = re.compile(r"no holes|depends on a hole in|proved$")
FUNCTION_LINE = re.compile(r"fn \w+::(\S+): (.*)")
# What it prints once it is through with a function, if it is asked to.
THROUGH = re.compile(r"checked \w+::(\S+), \d+ of \d+")
# What a check takes, in GB, if it is a large one.
LEAST_MEMORY = 4


def refusal(place, output):
    """What the prover reports at the function of a body, or nothing."""
    for line in output:
        note = NOTE.match(line) or GAVE_UP.match(line)
        if note and note[1] == place.path and place.first <= int(note[2]) <= place.last:
            return note[4]
        error = ERROR.match(line)
        if error and place.proves(error[1]) and not NAMES.search(error[2]):
            return error[2]
    return ""


def is_refused(name, output):
    """Whether the prover reports an open goal of a function, or an error in the files of its proof."""
    for line in output:
        said, error = FUNCTION_LINE.match(line), ERROR.match(line)
        if said and said[1] == name and "did not prove `" in said[2]:
            return True
        if error and error[1].replace("/", "::") == name and not NAMES.search(error[2]):
            return True
    return False


def has_proof(name):
    """Whether a function can have a file of proof: how a type is dropped has none, and a closure's is its function's."""
    return "+Destruct" not in name and "fn" not in name.split("::")


def free_memory():
    """How many GB of memory are free."""
    with open("/proc/meminfo", encoding="ascii") as it:
        return int(re.search(r"MemAvailable:\s+(\d+)", it.read())[1]) / 1e6


class Trial:
    """A copy of a crate, in which its bodies are tried, many in each check."""

    def __init__(self, run, name, room):
        crate = crate_of(run.rtlib, str(run.top), name)
        self.name, self.folder, self.source, self.whole = name, Path(room) / "crate", Path(crate.folder), run
        # the functions that count as proved, and other names that have no proof
        self.functions = functions_of(self.source) | {it for it in run.log.functions(name) if has_proof(it)}
        self.unknown, self.types, self.traits = set(), types_of(self.source), traits_of(self.source)
        # the seconds after which the prover was through with each function, if that is asked for
        self.took = {}
        self.proofs = self.source / "proofs"
        self.command = [run.rtlib.RATTLE, "check", *crate.words(["--jobs", "1"], keeps=False), "--allow-holes"]
        self.kept = Path(room) / "kept"
        self.command += ["--incremental", str(self.kept)]
        self.environment = {**os.environ, "TMPDIR": f"{room}/absent"}
        for part in ("src", "specs"):
            if (self.source / part).is_dir():
                shutil.copytree(self.source / part, self.folder / part)

    def places(self, bodies):
        """The files with these bodies in them, and the place of each, of as many as fit beside one another: one in each
        function that is not copied. What is no function's is beside no function's body, which might be refused for it."""
        texts, places, taken = {}, [], set()
        for body in bodies:
            place = place_of(body, self.text(body.path, {}))
            changed = {path: self.text(path, texts) for path, _, _ in body.pairs}
            if place.lines is None:
                for path, old, new in body.pairs:
                    changed[path] = changed[path].replace(old, new) if changed[path].count(old) == 1 else ""
            own = {(body.path, body.first), *place.functions} if place.lines is None else set()
            fits = place.lines is not None or all(changed.values()) and not own & taken
            if fits and body.is_apart() == (places[0].body if places else body).is_apart():
                texts.update(changed)
                places.append(place)
                taken |= own
        for path, text in texts.items():
            texts[path] = insert(text, [it for it in places if it.path == path])
        return texts, [it for it in places if not is_hidden(it, places, texts[it.path])]

    def text(self, path, texts):
        return texts.get(path) or (self.folder / path).read_text(encoding="utf-8")

    def check(self, texts, places):
        """What the prover prints of the functions of these bodies, in lines. Other functions count as proved, and from the
        next check on also those that it names otherwise than the source."""
        output, unknown = [], {""}
        while unknown and not any(ENDED.match(it) for it in output):
            output = self.run_prover(texts, places)
            # (some of a trait's, say, have no proof of that name)
            unknown = {found[1].replace("/", "::") for found in map(NO_PROOF.match, output) if found} & self.functions
            self.unknown |= unknown
            self.functions -= unknown
        tried = {it for place in places for it in place.functions}
        named = {found[1] for found in map(FUNCTION_LINE.match, output) if found and HOLDS.match(found[2])}
        self.functions |= {it for it in named - tried - self.unknown if has_proof(it)}
        return output

    def run_prover(self, texts, places):
        shutil.rmtree(self.folder / "proofs", ignore_errors=True)
        if self.proofs.is_dir():
            shutil.copytree(self.proofs, self.folder / "proofs")
        for place in places:
            if place.lines is not None:
                copy_proof(place, self.folder / "proofs")
        asked = {it for place in places for it in place.functions}
        self.assume_all(self.functions - asked)
        for path, text in {**texts_of(self.source), **texts}.items():
            text = hollow(path, text, self.functions - asked, self.types, self.traits)
            (self.folder / path).write_text(text, encoding="utf-8")
        only = [word for it in sorted(asked) for word in ("--only", it)]
        status, lines = self.started(only)
        if status == -signal.SIGKILL:
            # most likely for memory
            status, lines = self.started(only)
        self.whole.offers |= {it.name for it in self.kept.glob("*-offers")}
        for path in texts_of(self.source):
            shutil.copy2(self.source / path, self.folder / path)
        return lines

    def refuse_offers(self):
        """Leaves the prover no folder for the files of proof that it would offer, for which it runs once more: no one reads
        them. What it calls that folder is known once a check has ended."""
        for name in list(self.whole.offers):
            self.kept.mkdir(exist_ok=True)
            shutil.rmtree(self.kept / name, ignore_errors=True)
            (self.kept / name).touch()

    def started(self, only):
        """Runs the prover once there is memory for it, and returns its status and what it prints, in lines. What rt ci still
        proves goes first."""
        self.refuse_offers()
        while free_memory() < LEAST_MEMORY and not self.whole.log.ended:
            time.sleep(5)
        gently = [] if self.whole.log.ended else ["nice", "-n", "19"]
        told = ["--progress"] if self.whole.options.verbose else []
        lines, last = [], time.monotonic()
        with subprocess.Popen([*gently, *self.command, *only, *told], cwd=self.folder, env=self.environment, stdin=subprocess.DEVNULL,
                              stdout=subprocess.PIPE, stderr=subprocess.STDOUT, errors="replace") as ran:
            for line in ran.stdout:
                lines.append(line.removesuffix("\n"))
                through = THROUGH.match(line)
                if through:
                    now = time.monotonic()
                    self.took[through[1]], last = now - last, now
        return ran.returncode, lines

    def assume_all(self, names):
        """Puts one hole in the place of the proofs of these functions: rt ci has proved them. Each gets its proof from that
        hole, since the prover writes out the goal of every hole."""
        proofs = self.folder / "proofs"
        proofs.mkdir(exist_ok=True)
        hole = "pub proved_before : (S : Type 2) → S\nproved_before S = ?\n"
        (proofs / "ProvedBefore.antt").write_text(hole, encoding="utf-8")
        with open(proofs / "Lib.antt", "a", encoding="utf-8") as it:
            it.write("\nmod ProvedBefore\n")
        for name in names:
            self.assume(name)

    def assume(self, name):
        """Gives a function its proof from the hole."""
        folder, own = self.folder / "proofs" / name.replace("::", "/"), name.split("::")[-1]
        for proof in ("Answers.antt", "Invariants.antt"):
            (folder / proof).unlink(missing_ok=True)
        folder.mkdir(parents=True, exist_ok=True)
        module = f"Rattle.{self.name}.proofs.{name.replace('::', '.')}"
        uses = f"use {module}.Statement.{{statement}}\nuse Rattle.{self.name}.proofs.ProvedBefore.{{proved_before}}\n\n"
        proof = f"pub {own}_spec : {{M : Type 1}} → statement M\n{own}_spec {{M}} = proved_before (statement M)\n"
        (folder / "Proof.antt").write_text(uses + proof, encoding="utf-8")

    def run(self, bodies):
        """Tries all bodies, and notes with each what the prover said of it, or nothing. Those that do not fit beside
        the others, or that another changed function stands in the way of, are tried after these, and at last alone."""
        for number, body in enumerate(bodies, 1):
            body.number = number
        left, alone = list(bodies), []
        while left or alone:
            texts, places = self.places(left or alone[:1])
            if not places:
                (left or alone).pop(0).why = "its old text is not there once"
                continue
            began = time.monotonic()
            again, tried = self.judge(places, self.check(texts, places)), [it.body for it in places]
            for place in places:
                place.body.took += sum(self.took.get(it, 0) for it in place.functions)
            left, alone = ([it for it in group if it not in tried] for group in (left, alone))
            for body in again:
                body.tries, body.is_copied = body.tries + 1, False
                (alone if body.tries > 1 or len(again) == len(tried) else left).append(body)
            took, rest = time.monotonic() - began, len(left) + len(alone)
            self.whole.say(f"{self.name}: {len(tried)} bodies in {took:.0f} seconds, {rest} left")

    def try_right(self, bodies):
        """Tries the right body of each function that can be copied, in a copy of it, and notes what the prover said of it if
        it is proved there. It returns these bodies."""
        chosen = {}
        for body in bodies:
            body.pairs = [(path, old, old) for path, old, _ in body.pairs]
            if place_of(body, self.text(body.path, {})).lines is not None:
                chosen.setdefault(body.functions()[0], body).number = len(chosen)
        texts, places = self.places(chosen.values())
        lines = {it.split(": ")[0]: it.partition(": ")[2] for it in self.check(texts, places)}
        for place in places:
            said = lines.get(f"fn {self.name}::{place.functions[0]}", "no verdict")
            place.body.told, place.body.why = said if HOLDS.match(said) else "", said
        return [it.body for it in places]

    def judge(self, places, output):
        """Notes what was refused, and returns the bodies to try again."""
        failed = next((it for it in output if UNREAD.match(it)), "")
        if not any(ENDED.match(it) for it in output):
            failed = failed or next((it for it in output if "error" in it), "no verdict")
        if failed:
            return self.parted(places, failed)
        lines = {it.split(": ")[0]: it.partition(": ")[2] for it in output if it.startswith("fn ")}
        again = []
        for place in places:
            body, said = place.body, [lines.get(f"fn {self.name}::{it}", "") for it in place.functions]
            body.why = "; ".join(said)
            if body.is_apart() or len(said) > 1:
                body.told = body.why if all(is_refused(it, output) for it in place.functions) else ""
            elif not all(HOLDS.match(it) for it in said):
                body.told = refusal(place, output)
            is_open = not body.told and not body.is_apart() and not any(HOLDS.match(it) for it in said)
            again += [body] if is_open and (len(places) > 1 or place.lines is not None) else []
        return again

    def parted(self, places, failed):
        """Tries the bodies without those that cannot be compiled, or read, and returns what is to be tried again."""
        if len(places) == 1:
            places[0].body.why = failed
            return [it.body for it in places if it.lines is not None]
        at = PLACE.match(failed)
        own = [it for it in places if at and it.path == at[1] and it.first <= int(at[2]) <= it.last]
        own = own or [it for it in places if any(f"`{name}`" in failed for name in it.functions)]
        if not 0 < len(own) < len(places):
            own = places[len(places) // 2 :]
        texts, fitting = self.places([it.body for it in places if it not in own])
        tried = [it.body for it in fitting]
        return self.judge(fitting, self.check(texts, fitting)) + [it.body for it in places if it.body not in tried]
