#!/usr/bin/env python3
"""Lays the libraries that `rt ci` keeps on this machine into crates/*/out/rlib, where `rt check`, `rt lib` and
`rt must-fail` look for them, so that these prove one crate and not all below it once more.

    python3 tests/kept.py NAME..

Only libraries are laid whose key, the checksum of all that their proofs read, is that of this checkout's files: those
below the crates named. The keys, the store and the copies are rt's own (`Kept`), which is loaded from the kit. Where
the store lacks a library its name is printed, and the exit status is 1."""
import importlib.machinery
import importlib.util
import os
import pathlib
import shutil
import subprocess
import sys

TOP = pathlib.Path(__file__).resolve().parent.parent


def load_rt():
    """The kit's rt, as a module; None where there is no kit."""
    if not shutil.which("rt"):
        return None
    page = subprocess.run(["rt", "doc"], capture_output=True, text=True).stdout.strip()
    file = os.path.join(os.path.dirname(page), "bin", "rt")
    if not os.path.isfile(file):
        return None
    loader = importlib.machinery.SourceFileLoader("rt_of_the_kit", file)
    module = importlib.util.module_from_spec(importlib.util.spec_from_loader("rt_of_the_kit", loader))
    loader.exec_module(module)
    return module


def lay_one(kept, crate):
    """Lays a library whose own libraries are laid, and returns whether it is there; one that the store lacks may have
    been built here."""
    key = kept.key(crate)
    if os.path.isdir(kept.place(crate, False, key)):
        # The files may be the store's own by another name, so they are removed and not written over.
        shutil.rmtree(f"{crate.folder}/out/rlib", ignore_errors=True)
        if kept.give(crate, False, key):
            pathlib.Path(crate.folder, "out", "rlib", "stamp").write_text(crate.stamp())
    is_there = crate.is_built()
    if is_there:
        kept.is_built(crate)
    return is_there


def lay_all(kept, crates):
    """Lays these libraries, lowest first, and returns the names of those that it couldn't."""
    lacking = []
    for crate in crates:
        if any(it.name in lacking for it in crate.below()) or not lay_one(kept, crate):
            lacking.append(crate.name)
    return lacking


def lay(top, names):
    """Lays the libraries below these crates of the checkout, and returns the names of those that the store lacks, and
    of those above them."""
    rt = load_rt()
    if not rt:
        sys.exit("there is no rt on the path: the store belongs to the kit")
    rt.Crate.allowed = rt.handles_of(str(top))
    crates = rt.crates_of(str(top))
    below = {it.name for crate in crates if crate.name in names for it in crate.below()}
    if not os.path.isdir(rt.STORE):
        return sorted(below)
    held = rt.rtlib.lock([it for it in crates if it.name in below])
    try:
        return lay_all(rt.Kept(crates), [it for it in crates if it.name in below])
    finally:
        for it in held:
            os.close(it)


def main():
    names = sys.argv[1:]
    if not names or any(it.startswith("-") for it in names):
        sys.exit(__doc__)
    lacking = lay(TOP, names)
    if lacking:
        print("not kept:", *lacking)
    sys.exit(1 if lacking else 0)


if __name__ == "__main__":
    main()
