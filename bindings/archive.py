#!/usr/bin/env python3
"""Has crates/sazhonthil/out/libsazhonthil.a made after an `rt ci` that passed, which keeps the libraries below it but
no archive.

    python3 bindings/archive.py          from the kept libraries, by one proof, that of the crate sazhonthil
    python3 bindings/archive.py --kept   only where an earlier call made it from these very files

What it makes it also keeps in bindings/out/archive, since `rt ci` clears the out/ of each crate. Where libraries are
missing it names the command that makes them, and starts no proof of theirs. The exit status is 0 with an archive that
is of these files, 3 without one, and else that of `rt lib`."""
import pathlib
import shutil
import subprocess
import sys

TOP = pathlib.Path(__file__).resolve().parent.parent
sys.dont_write_bytecode = True
sys.path.insert(0, str(TOP / "tests"))
import kept

CRATE = TOP / "crates" / "sazhonthil"
ARCHIVE = CRATE / "out" / "libsazhonthil.a"
KEPT = TOP / "bindings" / "out" / "archive"
NONE = 3


def stamp():
    """rt's checksum of all that the archive is made from; none without rt."""
    rt = kept.load_rt()
    if not rt:
        return None
    rt.Crate.allowed = rt.handles_of(str(TOP))
    return next(it.stamp() for it in rt.crates_of(str(TOP)) if it.name == CRATE.name)


def is_kept(of):
    return (KEPT / "stamp").is_file() and (KEPT / "stamp").read_text() == of and (KEPT / ARCHIVE.name).is_file()


def keep(of):
    KEPT.mkdir(parents=True, exist_ok=True)
    (KEPT / "stamp").unlink(missing_ok=True)
    shutil.copyfile(ARCHIVE, KEPT / ARCHIVE.name)
    (KEPT / "stamp").write_text(of)


def make():
    """Makes the archive from the libraries that `rt ci` kept."""
    lacking = kept.lay(TOP, [CRATE.name])
    if lacking:
        print(f"bindings: no archive, since {len(lacking)} libraries below {CRATE.name} aren't kept ({lacking[0]}, ..):")
        print(f"bindings: `rt ci {CRATE.name}` proves and keeps them")
        return NONE
    ran = subprocess.run(["rt", "lib"], cwd=CRATE, stdout=subprocess.PIPE, stderr=subprocess.STDOUT, text=True)
    if ran.returncode or not ARCHIVE.is_file():
        print(ran.stdout, end="")
        return ran.returncode or 1
    return 0


def main():
    of = stamp()
    if of is None:
        print("bindings: no archive, since there is no rt on the path")
        return NONE
    if is_kept(of):
        ARCHIVE.parent.mkdir(exist_ok=True)
        shutil.copyfile(KEPT / ARCHIVE.name, ARCHIVE)
        return 0
    if "--kept" in sys.argv:
        return NONE
    status = make()
    if not status:
        keep(of)
    return status


sys.exit(main())
