#!/usr/bin/env python3
"""Prints a page of the public names of perf_event_data, each with the first sentence of its documentation.

Usage, at the top of the repository: tools/names/make.py > FILE
"""

import re
import sys
from functools import cache
from pathlib import Path

HEAD = """# Names

The public names of `perf_event_data`, each with the first sentence of its documentation.
"""
TABLE = "\n| Name | Kind | What it is |\n|---|---|---|\n"
USE = re.compile(r"pub use ([\w:]+?)(?:::(\w+)|::\{([^}]*)\});")
ITEM = re.compile(r"pub (?:const )?(?:unsafe )?(struct|enum|trait|fn|const|type) (\w+)")
IMPL = re.compile(r"impl(?:<.*?>)? (\w+)(?:<.*>)? \{$|impl(?:<.*?>)? (\w+)(?:<.*>)?$")


def handed_on(file, crate):
    """What a file exports again: the crate, the module and the name of each."""
    text = re.sub(r"\n\s+", " ", file.read_text())
    for path, one, many in USE.findall(text):
        home, *modules = path.split("::")
        for name in [one] if one else [part.strip() for part in many.split(",") if part.strip()]:
            yield crate if home == "crate" else home, modules, name


def modules_of(crate):
    """The public modules of a crate."""
    return re.findall(r"^pub mod (\w+);", Path("crates", crate, "src/lib.rt").read_text(), re.M)


def sentence(docs):
    """The first sentence of the documentation, in one line."""
    text = " ".join(docs)
    end = re.search(r"\.(?= |$)", text)
    text = text[: end.end()] if end else text
    return re.sub(r"\[(`[^`]*`)\](\([^)]*\))?", r"\1", text).replace("|", "\\|")


@cache
def items(file):
    """The public items of a file and the public functions of its types: (type, kind, name, sentence)."""
    found, docs, owner, trait = [], [], None, None
    for line in file.read_text().splitlines():
        bare = line.strip()
        if bare.startswith("///"):
            docs.append(bare[3:].strip())
            continue
        if bare.startswith(("#[", "//")):
            continue
        item, block, call = ITEM.match(bare), IMPL.match(line), re.match(r"    fn (\w+)", line)
        if block:
            owner, trait = block.group(1) or block.group(2), None
        elif line.startswith("pub trait"):
            owner, trait = None, re.match(r"pub trait (\w+)", line).group(1)
        elif not line.startswith((" ", "}")) and bare:
            owner, trait = None, None
        if trait and call:
            found.append((trait, "fn", call.group(1), sentence(docs)))
        if item and (not line.startswith(" ") or owner):
            found.append((owner if line.startswith(" ") else None, item.group(1), item.group(2), sentence(docs)))
        docs = []
    return found


def row(owner, kind, name, text):
    return f"| `{owner}::{name}` | {kind} | {text} |" if owner else f"| `{name}` | {kind} | {text} |"


def rows_of(crate, name):
    """The rows of a name, wherever it is in its crate, and of its functions."""
    every = [item for file in sorted(Path("crates", crate, "src").glob("*.rt")) for item in items(file)]
    own = [item for item in every if item[0] is None and item[2] == name and item[1] != "const"]
    if not own:
        for other, _, inner in handed_on(Path("crates", crate, "src/lib.rt"), crate):
            if inner == name and other != crate:
                return rows_of(other, name)
        sys.exit(f"{name} is in no file of {crate}")
    return [row(*item) for item in own[:1] + [item for item in every if item[0] == name]]


def page():
    crate = "perf_event_data"
    singles, parts = [], []
    modules = [(crate, name) for name in modules_of(crate)]
    for home, within, name in handed_on(Path("crates", crate, "src/lib.rt"), crate):
        if not within and name in modules_of(home):
            modules.append((home, name))
        else:
            singles += rows_of(home, name)
    for home, name in modules:
        file = Path("crates", home, "src", f"{name}.rt")
        lines = [row(*item) for item in items(file)]
        for other, _, inner in handed_on(file, home):
            lines += rows_of(other, inner)
        parts.append(f"\n## `perf_event_data::{name}`\n" + TABLE + "\n".join(lines) + "\n")
    return HEAD + "\n## `perf_event_data`\n" + TABLE + "\n".join(singles) + "\n" + "".join(parts)


print(page(), end="")
