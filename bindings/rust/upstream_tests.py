#!/usr/bin/env python3
"""Runs the public tests of the original crate over this one.

    upstream_tests.py UPSTREAM

UPSTREAM is a folder with the original's texts: src--tests--tests--part1.rs.txt, in which each test module
follows a line `// ===== PATH`, and src--README.md and src--src--*.rs.txt, whose examples are run too. Only the
paths in them are changed. All is built in a folder of its own, and nothing of it is kept. Without an argument
nothing is run, and the status is 0.

Left out are the modules of src/config.rs and src/util/cow.rs, which test private items. One test fails with
the original too: parse_sample_with_cgroup, where both return 683702700.
"""
import glob
import os
import re
import subprocess
import sys
import tempfile

PRIVATE = {"src/config.rs", "src/util/cow.rs"}
FAILS_WITH_BOTH = {"records_sample::parse_sample_with_cgroup": "left: Some(683702700)"}

# Of the examples; doctest is a hidden module with their bytes.
PATHS = {"perf_event_open_sys::bindings": "perf_event_data::sys", "perf_event_data::doctest": "upstream_tests::doctest"}

MANIFEST = """[package]
name = "upstream-tests"
version = "0.0.0"
edition = "2021"

[features]
arbitrary = []

[dependencies]
perf-event-data = {{ path = "{crate}" }}
"""


def modules(text):
    for part in text.split("// ===== ")[1:]:
        head, code = part.split("\n", 1)
        yield head.split()[0], code


def examples(upstream):
    """The examples in comments and in the README, without those that are not compiled."""
    for path in sorted(glob.glob(os.path.join(upstream, "src--*"))):
        with open(path) as file:
            text = file.read()
        if path.endswith(".rs.txt"):
            comments = re.findall(r"^ *//[/!] ?(.*)$", text, re.M)
            text = "\n".join(comments)
        elif not path.endswith("README.md"):
            continue
        for language, code in re.findall(r"^```(\w*)\n(.*?)^```$", text, re.M | re.S):
            if language in ("", "rust"):
                yield code


def write_examples(upstream, folder):
    with open(os.path.join(upstream, "src--src--lib.rs.txt")) as file:
        bytes_of_examples = re.findall(r"pub const \w+: &\[u8\] = &\[.*?\];", file.read(), re.S)
    code = "pub mod doctest {\n" + "\n".join(bytes_of_examples) + "\n}\n"
    for number, example in enumerate(examples(upstream)):
        for path, here in PATHS.items():
            example = example.replace(path, here)
        lines = "".join(f"/// {line}\n" for line in example.splitlines())
        code += f"/// ```\n{lines}/// ```\npub fn example_{number}() {{}}\n"
    with open(os.path.join(folder, "src", "lib.rs"), "w") as file:
        file.write(code)


def write_tests(upstream, folder, crate):
    with open(os.path.join(upstream, "src--tests--tests--part1.rs.txt")) as file:
        text = file.read()
    inner = "#![allow(dead_code, unused_imports)]\n"
    os.makedirs(os.path.join(folder, "src"))
    os.makedirs(os.path.join(folder, "tests"))
    for path, code in modules(text):
        name = path.removeprefix("src/").removeprefix("tests/").removesuffix(".rs").replace("/", "_")
        if path in PRIVATE:
            continue
        if path.startswith("tests/"):
            with open(os.path.join(folder, "tests", name + ".rs"), "w") as file:
                file.write(code)
            continue
        code = code.replace("use super::*;", "use perf_event_data::parse::*;\n    use perf_event_data::*;")
        code = code.replace("use crate::", "use perf_event_data::")
        inner += code.replace("mod tests {", f"mod {name} {{")
    with open(os.path.join(folder, "tests", "inner.rs"), "w") as file:
        file.write(inner)
    write_examples(upstream, folder)
    with open(os.path.join(folder, "Cargo.toml"), "w") as file:
        file.write(MANIFEST.format(crate=crate))


def main():
    if len(sys.argv) < 2:
        print("skipped: the tests of the original, whose folder is not given")
        return 0
    crate = os.path.dirname(os.path.abspath(__file__))
    with tempfile.TemporaryDirectory() as folder:
        write_tests(sys.argv[1], folder, crate)
        environment = dict(os.environ, CARGO_TARGET_DIR=os.path.join(folder, "target"))
        run = subprocess.run(
            ["cargo", "test", "--offline", "--no-fail-fast"],
            cwd=folder, env=environment, text=True, stdout=subprocess.PIPE, stderr=subprocess.STDOUT)
    results = re.findall(r"^test (.+?) \.\.\. (\w+)", run.stdout, re.M)
    counts = {}
    wrong = []
    block = r"^---- (.+?) stdout ----\n(.*?)(?=^---- |^failures:)"
    outputs = dict(re.findall(block, run.stdout, re.M | re.S))
    for test, result in results:
        expected = "ok"
        if test in FAILS_WITH_BOTH:
            expected = "FAILED"
            if result == "FAILED" and FAILS_WITH_BOTH[test] not in outputs.get(test, ""):
                wrong.append(test)
        counts[result] = counts.get(result, 0) + 1
        if result not in (expected, "ignored"):
            wrong.append(test)
    passed, failed, ignored = (counts.get(word, 0) for word in ("ok", "FAILED", "ignored"))
    if wrong or not passed:
        print(run.stdout)
    print(f"{passed} passed, {failed} failed as with the original, {ignored} ignored"
          if not wrong else f"not as with the original: {', '.join(wrong)}")
    return 1 if wrong or not passed else 0


sys.exit(main())
