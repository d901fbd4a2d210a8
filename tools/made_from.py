#!/usr/bin/env python3
"""tools/made_from.py [--at FOLDER] PROGRAM: whether a program was built from the sources as they stand, with the toolchain as it is. Ends with 0 where it was.

With --at it is put down that the program was built from the sources in that folder, a copy of the repository that was made for this.
"""
import argparse
import hashlib
import os
import sys
import time

from crates import PARTS, Crates

# The file in the folder `out` of a crate that has the sum of what its library or program was made from.
MADE = "made-from"


def origins(names, crates):
    """For each crate, a sum of all that its library or program is made from: its sources, the libraries that it lists, and the toolchain."""
    kit, found = (crates.kit / "KIT-ID").read_bytes(), {}
    for name in names:
        digest = hashlib.sha256(kit + repr(crates.uses[name]).encode())
        for path in sorted(path for part in PARTS for path in (crates.folder(name) / part).rglob("*") if path.is_file()):
            digest.update(repr((str(path.relative_to(crates.at)), path.read_bytes())).encode())
        digest.update("".join(found[used] for used in crates.own(name)).encode())
        found[name] = digest.hexdigest()
    return found


def origin_of(program, crates):
    """The sum of all that a program is made from."""
    return origins([*crates.below(program), program], crates)[program]


def is_made_from(name, crates, origin):
    """Whether the library, archive or program of a crate is there, and was made from what has this sum."""
    made = crates.folder(name) / "out" / MADE
    return crates.product(name).exists() and made.is_file() and made.read_text(encoding="utf-8") == origin


def put_down(name, crates, origin, when):
    """Puts down what the library or program of a crate was made from, as of a time: whatever changed since is newer than this note."""
    made = crates.folder(name) / "out" / MADE
    made.write_text(origin, encoding="utf-8")
    os.utime(made, (when, when))


def main():
    words = argparse.ArgumentParser(description=__doc__, formatter_class=argparse.RawDescriptionHelpFormatter)
    words.add_argument("--at")
    words.add_argument("program")
    asked = words.parse_args()
    crates, begun = Crates(), time.time()
    if asked.at:
        copy = Crates(asked.at)
        put_down(asked.program, crates, origin_of(asked.program, copy), (copy.at / "crates.txt").stat().st_mtime)
        return 0
    origin = origin_of(asked.program, crates)
    if not is_made_from(asked.program, crates, origin):
        return 1
    put_down(asked.program, crates, origin, begun)
    return 0


if __name__ == "__main__":
    sys.exit(main())
