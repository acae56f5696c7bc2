#!/usr/bin/env python3
"""Writes the wheel of perf_event_data, without a network and without other packages:

    PERF_EVENT_DATA_SO=SHARED PERF_EVENT_DATA_LICENCES=FOLDER python3 bindings/python/backend.py OUTPUT

SHARED is the shared object that the wheel contains, and FOLDER the licences of what is in it. `make -C bindings wheel`
makes both. This file is what pyproject.toml names, so `pip wheel bindings/python` with these variables writes the same.
The last line is the path of the wheel. It needs Python 3.11 and `readelf`.
"""
import ast
import base64
import hashlib
import os
import re
import subprocess
import sys
import tomllib
import zipfile
from pathlib import Path

HERE = Path(__file__).resolve().parent
MODULE = "perf_event_data"


def platform_tag(shared):
    """The platform with the oldest C library that has the symbols which the shared object needs."""
    needed = subprocess.run(["readelf", "-W", "-V", shared], capture_output=True, text=True, check=True).stdout
    versions = [(int(major), int(minor)) for major, minor in re.findall(r"\bName: GLIBC_(\d+)\.(\d+)", needed)]
    return "manylinux_{}_{}_x86_64".format(*max(versions + [(2, 5)]))  # pip knows none that is older


def metadata(project, module, licences):
    """The text of METADATA: what pyproject.toml states, and the version and the description of the module."""
    summary, _, text = ast.get_docstring(ast.parse(module)).partition("\n")
    lines = ["Metadata-Version: 2.4", f"Name: {project['name']}", f"Version: {version_of(module)}"]
    lines += [f"Summary: {summary}"]
    lines += [f"Author: {author['name']}" for author in project["authors"]]
    lines += [f"License-Expression: {project['license']}", *(f"License-File: {name}" for name in licences)]
    lines += [f"Keywords: {','.join(project['keywords'])}", *(f"Classifier: {it}" for it in project["classifiers"])]
    lines += [f"Requires-Python: {project['requires-python']}"]
    for extra, needs in project["optional-dependencies"].items():
        lines += [f"Provides-Extra: {extra}", *(f'Requires-Dist: {need} ; extra == "{extra}"' for need in needs)]
    return "\n".join([*lines, "Description-Content-Type: text/plain", "", text.strip("\n"), ""])


def version_of(module):
    return re.search(r'^__version__ = "(.*)"$', module, re.M)[1]


def record(files):
    """The text of RECORD: the digest and the length of each file."""
    rows = []
    for name, content in files.items():
        digest = base64.urlsafe_b64encode(hashlib.sha256(content).digest()).rstrip(b"=").decode()
        rows.append(f"{name},sha256={digest},{len(content)}\n")
    return "".join(rows)


def write(path, files):
    """Writes a file of files, which is the same each time."""
    with zipfile.ZipFile(path, "w", zipfile.ZIP_DEFLATED) as wheel:
        for name, content in files.items():
            entry = zipfile.ZipInfo(name)
            entry.external_attr = (0o755 if name.endswith(".so") else 0o644) << 16
            entry.compress_type = zipfile.ZIP_DEFLATED
            wheel.writestr(entry, content)


def build_wheel(wheel_directory, config_settings=None, metadata_directory=None):
    """Writes the wheel to a folder, and returns its name, as PEP 517 has it."""
    shared, licences = (Path(os.environ[f"PERF_EVENT_DATA_{name}"]) for name in ("SO", "LICENCES"))
    project = tomllib.loads((HERE / "pyproject.toml").read_text())["project"]
    module = (HERE / f"{MODULE}.py").read_text()
    texts = {str(it.relative_to(licences)): it.read_bytes() for it in sorted(licences.rglob("*")) if it.is_file()}
    tag, about = f"py3-none-{platform_tag(shared)}", f"{MODULE}-{version_of(module)}"
    wheel = f"Wheel-Version: 1.0\nGenerator: {MODULE}\nRoot-Is-Purelib: false\nTag: {tag}\n"
    files = {f"{MODULE}/__init__.py": module.encode(), f"{MODULE}/py.typed": b"",
             f"{MODULE}/lib{MODULE}.so": shared.read_bytes(),
             f"{about}.dist-info/METADATA": metadata(project, module, texts).encode(),
             f"{about}.dist-info/WHEEL": wheel.encode()}
    files.update((f"{about}.dist-info/licenses/{name}", content) for name, content in texts.items())
    own = f"{about}.dist-info/RECORD"
    files[own] = (record(files) + f"{own},,\n").encode()
    name = f"{about}-{tag}.whl"
    write(Path(wheel_directory, name), files)
    return name


if __name__ == "__main__":
    if len(sys.argv) != 2:
        print(__doc__, file=sys.stderr)
        sys.exit(2)
    print(Path(sys.argv[1], build_wheel(sys.argv[1])))
