#!/usr/bin/env python3
"""Runs `rt try` in the folder of a crate, with the same words, but without its look for reserved names, which reads all
libraries once more, in as much processor time as the rest."""
import shutil
import sys
from pathlib import Path

sys.dont_write_bytecode = True
sys.path.insert(0, str(Path(__file__).resolve().parent.parent))
from kit import load_rt  # noqa: E402

rt = load_rt()
rt.RATTLE = shutil.which("true")
sys.exit(rt.main("try", *sys.argv[1:]))
