#!/usr/bin/env python3
"""Makes the static library over the libraries that `rt ci` or `rt lib` proved, at the top of the repository:

    bindings/gate_archive.py FOLDER [TARGET ..]

`rt ci` makes no archive, `rt lib` would prove the libraries below crates/perf_event_c once more, and neither builds for
another machine than x86-64. So this asks the `rt` on the path for the words of that build: that crate alone is checked
again, once, and then built for each TARGET. For x86_64-unknown-linux-gnu, which is the TARGET if none is named, it is
built by each of the kit's two compilers, as FOLDER/llvm/libperf_event_c.a and FOLDER/rattle/libperf_event_c.a; for
aarch64-unknown-linux-gnu and wasm64-unknown-unknown by the first of them alone, as FOLDER/TARGET/libperf_event_c.a.

The status is 0 if the first archive was made, and 77, after a line that says why, if none could be. A line also says of
each other one if it could not be made.
"""
import os
import subprocess
import sys
import tempfile

sys.dont_write_bytecode = True
sys.path.insert(0, os.path.join(os.path.dirname(os.path.realpath(__file__)), "..", "tools"))
from kit import crate_of, load_rt  # noqa: E402

CRATE = "perf_event_c"
HERE = "x86_64-unknown-linux-gnu"


def archives(targets):
    """The target, the compiler and the folder of each archive."""
    found = []
    for target in targets:
        found += [(target, it, it) for it in ("llvm", "rattle")] if target == HERE else [(target, "llvm", target)]
    return found


def build(rtlib, crate, words):
    """Runs the kit's compiler in the folder of the crate, which must not fail."""
    ran = subprocess.run([rtlib.RATTLE, "build", *words], cwd=crate.folder, stdin=subprocess.DEVNULL, stdout=subprocess.PIPE,
                         stderr=subprocess.STDOUT, text=True, errors="replace", timeout=1200)
    if ran.returncode:
        last = "".join(f"\n    {line}" for line in ran.stdout.splitlines()[-5:])
        raise OSError(f"rattle build ended with status {ran.returncode}:{last}")


def make_archives(folder, targets):
    """Builds the crate for each target. What the first build checks, which is all but what depends on the target, is kept
    for the others, in a folder of this run alone."""
    rtlib = load_rt()
    crate = crate_of(rtlib, os.getcwd(), CRATE)
    words = crate.words(["--jobs", "1"], keeps=False)
    with tempfile.TemporaryDirectory() as kept:
        words += ["--incremental", kept, "--toolchain", f"{rtlib.KIT}/toolchain"]
        for place, (target, compiler, name) in enumerate(archives(targets)):
            os.makedirs(f"{folder}/{name}", exist_ok=True)
            more = ["--target", target, "--backend", compiler, "-o", f"{folder}/{name}/lib{CRATE}.a"]
            try:
                build(rtlib, crate, words + more)
            except OSError as why:
                if place == 0:
                    raise
                print(f"no archive in {name}: {why}")


def main(folder, targets):
    try:
        make_archives(os.path.abspath(folder), targets or [HERE])
    except (Exception, SystemExit) as why:  # an rt of another kit may differ in anything
        print(f"no archive of {CRATE}: {why}")
        return 77
    return 0


if __name__ == "__main__":
    if len(sys.argv) < 2:
        print(__doc__, file=sys.stderr)
        sys.exit(2)
    sys.exit(main(sys.argv[1], sys.argv[2:]))
