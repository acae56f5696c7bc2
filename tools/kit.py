"""What the tools here take of the kit's `rt`: how it calls the prover for a crate."""
import functools
import importlib.machinery
import importlib.util
import os
import shutil
import sys


def load_rt():
    """The part of the `rt` on the path that knows how crates are checked and built."""
    rt = shutil.which("rt")
    if rt is None:
        raise OSError("there is no rt on the path")
    file = os.path.join(os.path.dirname(os.path.realpath(rt)), "rtlib.py")
    loader = importlib.machinery.SourceFileLoader("rtlib", file)
    made = importlib.util.module_from_spec(importlib.util.spec_from_loader("rtlib", loader))
    sys.modules["rtlib"] = made
    loader.exec_module(made)
    # computed once for each crate, as it is made of the sums of all libraries below
    made.Crate.stamp = functools.cache(made.Crate.stamp)
    return made


def crate_of(rtlib, top, name):
    """A crate of the repository at `top`, whose libraries `rt ci` has proved and left beside it."""
    crate = rtlib.Crate(f"{top}/crates/{name}", top, {})
    absent = [it.name for it in crate.below() if not os.path.isdir(it.rlib)]
    if absent:
        raise OSError(f"rt ci left no library of {', '.join(absent)}")
    return crate
