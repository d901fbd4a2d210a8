"""What the tools know of the crates of the repository and of the toolchain: which stand on which, and the commands that check, build and link one.

The commands are those of `rt ci`. A library is built with its statements alone, which is all that a check above it reads.
"""
import os
import pathlib
import shutil
import subprocess

TOP = pathlib.Path(__file__).resolve().parent.parent
# The folders of a crate that a check reads.
PARTS = ("src", "specs", "proofs")
TARGET = "x86_64-unknown-linux-gnu"
# The object of the kit that calls malloc, realloc and free.
HEAP = "heap.pic.o"


def rows(at):
    """For each line of a folder's crates.txt: the name of the crate, whether it is a static library for programs in C, and the libraries that it lists."""
    for line in (at / "crates.txt").read_text(encoding="utf-8").split("\n"):
        head, _, uses = line.partition("#")[0].partition(":")
        if head.strip():
            name, *words = head.split()
            yield name, "staticlib" in words, uses.split()


def listed(at):
    """For each crate, in the order of a folder's crates.txt, the libraries that it lists."""
    return {name: uses for name, _, uses in rows(at)}


class Crates:
    """The crates of the repository, with their libraries below a folder, and the toolchain."""

    def __init__(self, at=TOP):
        page = subprocess.run(["rt", "doc"], capture_output=True, text=True, check=True).stdout.strip()
        self.kit, self.at, self.found = pathlib.Path(page).parent, pathlib.Path(at).resolve(), {}
        # Whether a tool prints how long each check takes.
        self.times = False
        self.uses = listed(self.at)
        self.static = {name for name, is_static, _ in rows(self.at) if is_static}

    def own(self, name):
        """The crates of the repository that a crate lists."""
        return [used for used in self.uses[name] if used in self.uses]

    def below(self, name):
        """The crates of the repository on which one stands, each after those that it stands on."""
        if name not in self.found:
            found = []
            for used in self.own(name):
                found += [other for other in [*self.below(used), used] if other not in found]
            self.found[name] = found
        return self.found[name]

    def folder(self, name):
        """The folder of a crate."""
        return self.at / "crates" / name

    def library(self, name):
        """The folder in which the library of a crate lies."""
        return self.folder(name) / "out" / "rlib"

    def is_program(self, name):
        """Whether a crate is a program, and no library."""
        return (self.folder(name) / "src" / "main.rt").is_file()

    def is_static(self, name):
        """Whether a crate is a static library for programs in C."""
        return name in self.static

    def archive(self, name):
        """The archive that is built of a static library."""
        return self.folder(name) / "out" / f"lib{name}.a"

    def product(self, name):
        """What is built of a crate, its program, its archive or its library."""
        if self.is_static(name):
            return self.archive(name)
        return self.folder(name) / "out" / name if self.is_program(name) else self.library(name) / f"{name}.rlib"

    def words(self, name, jobs=1):
        """The words of a check of a crate, in a folder with its sources."""
        of_kit = ["std", *(used for used in self.uses[name] if used not in self.uses)]
        words = ["--crate-name", name, "src/main.rt" if self.is_program(name) else "src/lib.rt"]
        for used in of_kit:
            words += ["--extern", f"{used}={self.kit}/rlibs/{used}.rlib"]
        words += ["-L", f"dependency={self.kit}/rlibs"]
        for used in self.own(name):
            words += ["--extern", f"{used}={self.product(used)}"]
        for used in self.below(name):
            words += ["-L", f"dependency={self.library(used)}"]
        words += ["--antt-project", f"{self.kit}/rattle/logic/antt-project.json", "--links", f"{name}="]
        words += ["--crate-type", "staticlib"] if self.is_static(name) else []
        return [*words, "--logic-built", f"{self.kit}/logic_built", "--jobs", str(jobs)]

    def check(self, name, more=(), jobs=1):
        """The command that checks a crate."""
        return [f"{self.kit}/bin/rattle", "check", *self.words(name, jobs), *more]

    def build(self, name, jobs, log):
        """Proves a crate from nothing and builds its library or program. Gives whether that went well; what was said goes to a log."""
        if self.is_static(name):
            return self.build_archive(name, jobs, log)
        return self.build_program(name, jobs, log) if self.is_program(name) else self.build_library(name, jobs, log)

    def build_library(self, name, jobs, log):
        """Proves a library from nothing and builds it."""
        room = self.folder(name) / "out" / "rlib.new"
        shutil.rmtree(room, ignore_errors=True)
        room.mkdir(parents=True)
        command = [f"{self.kit}/bin/rattle", "build", *self.words(name, jobs), "--statements", "-o", f"{room}/{name}.rlib"]
        if not self.is_done(command, name, log):
            return False
        shutil.rmtree(self.library(name), ignore_errors=True)
        os.rename(room, self.library(name))
        return True

    def build_program(self, name, jobs, log):
        """Proves a program from nothing, compiles it by LLVM and links it."""
        to, toolchain = self.folder(name) / "out" / name, ["--toolchain", f"{self.kit}/toolchain"]
        to.parent.mkdir(parents=True, exist_ok=True)
        compiled = [*toolchain, "--backend", "llvm", "-o", f"{to}.o"]
        libraries = [f"{self.kit}/c/libos_c.a", f"{self.kit}/c/liblibc_c.a"]
        return self.is_done([f"{self.kit}/bin/rattle", "build", *self.words(name, jobs), *compiled], name, log) and self.is_done(
            [f"{self.kit}/bin/rattle-link", "--target", TARGET, *toolchain, "-o", str(to), f"{to}.o", *libraries], name, log
        )

    def build_archive(self, name, jobs, log):
        """Proves a static library from nothing, compiles it by LLVM and adds the kit's object that calls the allocator, so that it needs no other library."""
        to, toolchain = self.archive(name), f"{self.kit}/toolchain"
        room = to.with_name("archive.new")
        shutil.rmtree(room, ignore_errors=True)
        room.mkdir(parents=True)
        made, heap, ar = str(room / to.name), str(room / HEAP), f"{toolchain}/bin/llvm-ar"
        compiled = ["--toolchain", toolchain, "--backend", "llvm", "-o", made]
        is_built = (
            self.is_done([f"{self.kit}/bin/rattle", "build", *self.words(name, jobs), *compiled], name, log)
            and self.is_done([ar, "x", "--output", str(room), f"{self.kit}/c/liblibc_c.a", HEAP], name, log)
            and self.is_done([ar, "rcsD", made, heap], name, log)
        )
        if is_built:
            os.replace(made, to)
        shutil.rmtree(room, ignore_errors=True)
        return is_built

    def is_done(self, command, name, log):
        """Runs a command in the folder of a crate, and returns whether it ended with 0."""
        how = {"stdin": subprocess.DEVNULL, "stdout": log, "stderr": subprocess.STDOUT}
        return subprocess.run(command, cwd=self.folder(name), check=False, **how).returncode == 0
