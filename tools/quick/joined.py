"""Joins programs, and crates of tests, so that one `rt try` serves several: each reads the sources of all libraries below,
those of the kit too, and compiles what it reaches of them, in 15 to 25 seconds of processor time."""

import re
import shutil
import subprocess
import sys
from pathlib import Path

ATTEMPT = Path(__file__).resolve().parent / "attempt.py"
# The steps of the interpreter, which most of the programs end after, and the seconds of the compiled run, by the clock. A
# million steps take about three seconds.
LIMITS = ["--steps", "100000", "--seconds", "600"]
# Folders of a crate that no `rt try` reads.
UNTRIED = shutil.ignore_patterns("out", "specs", "proofs", "edits", "must-fail")
MAIN = re.compile(r"^fn main\(rt: HostRuntime\) -> (.*) \{$", re.MULTILINE)
# The words of a program, with its own name or without.
WORDS = re.compile(r"(env::args\(&?rt\)\?)(\.skip\(1\))?")
TEST = re.compile(r"^(?://[^\n]*\n)*#\[test\]\n.*?^\}\n", re.MULTILINE | re.DOTALL)
# How a main's result is returned as that of the joined program.
RETURNED = {
    "ExitCode": "Ok({call})",
    "Result<ExitCode>": "{call}",
    "Result<()>": "{call}.map(|()| ExitCode::SUCCESS)",
}
# Runs the program that the first line of the input names, on the rest of the input.
JOINED_MAIN = """#![tactic(auto)]

use anyhow::{Result, bail};
use std::io::Read;
use std::process::ExitCode;

fn main(rt: HostRuntime) -> Result<ExitCode> {
    let (mut name, mut len, mut byte) = ([0u8; 32], 0, [0u8; 1]);
    while rt.stdin().read(&mut byte)? == 1 && byte[0] != b'\\n' && len < 32 {
        name[len] = byte[0];
        len += 1;
    }
    match &name[..len] {
%s
        _ => bail!("no such program"),
    }
}
"""


def outcomes(ran, names):
    """For each of several programs that a joined one ran: its status, or none if it did not end, what it printed, and what
    `rt try` complained of."""
    _, output, why = ran
    parts = re.split(rb"^== (\w+)\n", output, flags=re.MULTILINE)
    printed = dict(zip(parts[1::2], parts[2::2]))
    found = {}
    for name in names:
        ended = re.search(rf"^case={name} run=ended status=(\d+) ", why, re.MULTILINE)
        found[name] = int(ended[1]) if ended else None, printed.get(name.encode(), b""), why
    return found


class Room:
    """A copy of the repository's sources, whose crates are changed and joined."""

    def __init__(self, top, folder):
        self.folder = Path(folder)
        for crate in top.glob("crates/*"):
            shutil.copytree(crate, self.crate(crate.name), ignore=UNTRIED)
        text = (top / "crates.txt").read_text(encoding="utf-8")
        self.uses = {found[1]: found[2].split() for found in re.finditer(r"^(\w+)[^:\n#]*: ?(.*)$", text, re.MULTILINE)}
        self.list()

    def crate(self, name):
        return self.folder / "crates" / name

    def source(self, name):
        return self.crate(name) / "src"

    def list(self):
        lines = [f"{name}: {' '.join(uses)}\n" for name, uses in self.uses.items()]
        (self.folder / "crates.txt").write_text("".join(lines), encoding="utf-8")

    def run(self, name, *words):
        """Runs `rt try` in a crate, and returns its status, what it printed, and what it complained of."""
        words = [sys.executable, str(ATTEMPT), *LIMITS, *words]
        ran = subprocess.run(words, cwd=self.crate(name), stdin=subprocess.DEVNULL, capture_output=True)
        return ran.returncode, ran.stdout, ran.stderr.decode(errors="replace").strip()

    def own(self, name, file):
        """What a file beside a crate's `src` has, or nothing."""
        path = self.crate(name) / file
        return path.read_bytes() if path.is_file() else b""

    def add_program(self, name, text, uses, stdin):
        """Adds a program of one file, which uses these libraries and reads this input."""
        self.source(name).mkdir(parents=True)
        (self.source(name) / "main.rt").write_text(text, encoding="utf-8")
        (self.crate(name) / "stdin").write_bytes(stdin)
        self.uses[name] = uses
        self.list()

    def join_programs(self, joined, names):
        """Makes a program of several, and beside its source the folder of their inputs. It returns what `rt try` is
        given: their files, and the arguments of all, one after another."""
        words, arms, data, inputs = [], [], [], self.crate(joined) / "inputs"
        self.source(joined).mkdir(parents=True)
        inputs.mkdir()
        for name in names:
            given = self.own(name, "args").decode().splitlines()
            result = self.make_library(name, 1 + len(words), len(given))
            arms.append(f'        b"{name}" => {RETURNED[result].format(call=f"{name}::joined(rt)")},')
            (inputs / name).write_bytes(name.encode() + b"\n" + self.own(name, "stdin"))
            words += given
            data += [word for it in sorted(self.crate(name).glob("data/*")) for word in ("--data", f"{it.name}={it}")]
        (self.source(joined) / "main.rt").write_text(JOINED_MAIN % "\n".join(arms), encoding="utf-8")
        self.uses[joined] = ["anyhow", *names]
        self.list()
        return ["--cases", "inputs", *data, "--", *words]

    def make_library(self, name, first, count):
        """Makes a library of a program, whose arguments are `count` from the one with the number `first` on. It returns
        the type that its main returns."""
        main = self.source(name) / "main.rt"
        text = main.read_text(encoding="utf-8")
        result = MAIN.search(text)[1]
        text = MAIN.sub(r"pub fn joined(rt: HostRuntime) -> \1 {", text)
        # What stands for the program's own name is the word before its arguments.
        own = {True: f".skip({first}).take({count})", False: f".skip({first - 1}).take({count + 1})"}
        text, found = WORDS.subn(lambda it: it[1] + own[bool(it[2])], text)
        if count and not found:
            raise ValueError(f"{name} has arguments, but does not read them as other programs do")
        main.with_name("lib.rt").write_text(text, encoding="utf-8")
        main.unlink()
        return result

    def replace(self, name, file, old, new):
        """Replaces a text that is in a file of a crate once."""
        place = self.source(name) / file
        text = place.read_text(encoding="utf-8")
        if text.count(old) != 1:
            raise ValueError(f"{file} of {name} does not have once: {old}")
        place.write_text(text.replace(old, new), encoding="utf-8")

    def join_tests(self, name, others):
        """Adds the tests of other crates to those of one, each crate's in a module of its name, with the modules beside them."""
        root = self.source(name) / "lib.rt"
        for other in others:
            (self.source(name) / other).mkdir()
            for file in [self.source(other) / "tests.rt", *self.source(other).glob("tests/*.rt")]:
                place = self.source(name) / file.relative_to(self.source(other)).as_posix().replace("tests", other, 1)
                place.write_text(re.sub(r"\bcrate::tests::", f"crate::{other}::", file.read_text(encoding="utf-8")), encoding="utf-8")
            beside = [it for it in self.source(other).glob("*.rt") if it.name not in ("lib.rt", "tests.rt")]
            for file in beside:
                shutil.copy(file, self.source(name) / other)
            with open(self.source(name) / f"{other}.rt", "a", encoding="utf-8") as it:
                it.writelines(f"mod {file.stem};\n" for file in beside)
            with open(root, "a", encoding="utf-8") as it:
                it.write(f"#[cfg(test)]\nmod {other};\n")
            self.uses[name] = list(dict.fromkeys(self.uses[name] + self.uses[other]))
        self.list()

    def split_tests(self, name, part, modules):
        """Moves the tests of some modules of a crate to a copy of it, in which there are no others. What they call stays in
        both."""
        shutil.copytree(self.source(name), self.source(part))
        for source, is_moved in ((self.source(name), True), (self.source(part), False)):
            for file in source.rglob("*.rt"):
                if (file.stem in modules) == is_moved:
                    file.write_text(TEST.sub("", file.read_text(encoding="utf-8")), encoding="utf-8")
        self.uses[part] = self.uses[name]
        self.list()
