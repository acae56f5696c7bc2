"""Keeps which wrong bodies were refused, over the same texts, as `rt ci` keeps what it proved."""

import contextlib
import hashlib
import json
import os
from pathlib import Path

HERE = Path(__file__).resolve().parent
# How many texts of a crate have their results kept.
MOST = 8


def folder_of_results():
    return Path(os.environ.get("XDG_CACHE_HOME") or Path.home() / ".cache") / "wrong_bodies"


def sum_of(body):
    """What tells a body from others of its crate: its edit, its place, and its pairs."""
    return hashlib.sha256(repr((body.edit, body.path, body.at, body.is_whole, body.pairs)).encode()).hexdigest()


class Kept:
    """The bodies of a crate that were refused, and what the prover said of each. The file's name is the sum of all that a
    check reads: the texts of the crate and of the libraries below it, what the kit is, and the tools that try bodies."""

    def __init__(self, crate, libraries_are_its_own):
        total = hashlib.sha256(crate.stamp().encode())
        for tool in [*sorted(HERE.glob("*.py")), HERE.parent / "kit.py"]:
            total.update(tool.read_bytes())
        self.name, self.path = crate.name, folder_of_results() / f"{crate.name}-{total.hexdigest()}.json"
        self.told, self.is_sure = {}, libraries_are_its_own or all(it.is_built() for it in crate.below())
        if self.is_sure:
            with contextlib.suppress(OSError, ValueError):
                self.told = dict(json.loads(self.path.read_text(encoding="utf-8")))

    def take(self, bodies):
        """Notes what was said of the bodies that were refused before, and returns the others."""
        for body in bodies:
            body.told = self.told.get(sum_of(body), "")
            body.before = "kept" if body.told else ""
        return [it for it in bodies if not it.told]

    def keep(self, bodies):
        """Keeps the bodies that were refused, and drops what was kept of the oldest texts."""
        for body in bodies:
            self.told.pop(sum_of(body), None)
            if body.told:
                self.told[sum_of(body)] = body.told
        if not self.is_sure:
            return
        with contextlib.suppress(OSError):
            self.path.parent.mkdir(parents=True, exist_ok=True)
            made = self.path.with_suffix(f".{os.getpid()}")
            made.write_text(json.dumps(self.told), encoding="utf-8")
            made.replace(self.path)
            files = sorted(self.path.parent.glob(f"{self.name}-*.json"), key=lambda it: -it.stat().st_mtime)
            for old in files[MOST:]:
                old.unlink()
