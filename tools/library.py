#!/usr/bin/env python3
"""tools/library.py [--at FOLDER]: puts the library for programs in C into library/: libtrade.a, and libtrade.so, which library/trade.py loads. The latter is a
link to libtrade.so.N, where N is the first number of the version of the program.

It takes what `tools/build.py gq_library` built. With --at it proves and builds the crate first, over the libraries of that folder, a copy of the repository in
which `rt ci` has passed. No symbol of libtrade.a is global but those of trade.h, where `ld` and `objcopy` are there. Without the C compiler `cc` there is no
libtrade.so. It ends with 0 where libtrade.a is there.
"""
import argparse
import os
import re
import shutil
import subprocess
import sys
import tempfile

sys.dont_write_bytecode = True
from crates import TOP, Crates  # noqa: E402

NAME, TO = "gq_library", TOP / "library"


def keep_own_symbols(made, archive, ar):
    """Makes an archive of one object of all that another one has, in which no symbol is global but those of the header. Gives whether there are tools for it."""
    if not shutil.which("ld") or not shutil.which("objcopy"):
        return False
    with tempfile.TemporaryDirectory() as room:
        commands = [
            ["ld", "-r", "-o", f"{room}/trade.o", "--whole-archive", str(made)],
            ["objcopy", "--wildcard", "--keep-global-symbol=trade_*", f"{room}/trade.o"],
            [str(ar), "rcsD", str(archive), f"{room}/trade.o"],
        ]
        return all(subprocess.run(command, check=False).returncode == 0 for command in commands)


def numbered(shared):
    """The name of the shared library with the first number of the version, which programs that are linked with it ask for."""
    version = re.search(r'VERSION: &str = "trade (\d+)\.', (TOP / "crates/gq_command/src/command.rt").read_text(encoding="utf-8"))
    return f"{shared.name}.{version[1]}"


def link_shared(archive, shared):
    """Links a shared library of all that an archive has, and makes a link to it. Gives whether there is a compiler that can."""
    compiler = os.environ.get("CC", "cc")
    if not shutil.which(compiler):
        return False
    name = numbered(shared)
    whole = ["-Wl,--whole-archive", str(archive), "-Wl,--no-whole-archive", "-Wl,--gc-sections", f"-Wl,-soname,{name}", f"-Wl,--version-script={TO}/trade.map"]
    if subprocess.run([compiler, "-shared", "-o", str(shared.with_name(name)), *whole], check=False).returncode != 0:
        return False
    shared.symlink_to(name)
    return True


def main():
    words = argparse.ArgumentParser(description=__doc__, formatter_class=argparse.RawDescriptionHelpFormatter)
    words.add_argument("--at", default=TOP)
    given = words.parse_args()
    crates, archive, shared = Crates(given.at), TO / "libtrade.a", TO / "libtrade.so"
    archive.unlink(missing_ok=True)
    for old in shared.parent.glob(f"{shared.name}*"):
        old.unlink()
    if crates.at != TOP and not crates.build(NAME, len(os.sched_getaffinity(0)), sys.stdout):
        return 1
    if not crates.archive(NAME).is_file():
        print(f"{NAME} is not built", file=sys.stderr)
        return 1
    if not keep_own_symbols(crates.archive(NAME), archive, crates.kit / "toolchain/bin/llvm-ar"):
        shutil.copyfile(crates.archive(NAME), archive)
        print("libtrade.a has global symbols beside those of trade.h: there is no ld or no objcopy", file=sys.stderr)
    if not link_shared(archive, shared):
        print("libtrade.so was not linked: there is no C compiler for it", file=sys.stderr)
    return 0


if __name__ == "__main__":
    sys.exit(main())
