"""The records of must-fail edits: which the prover refused, over which sources, and above which contracts.

`crates/NAME/must-fail/refused.md` has a line for each edit of a crate that was refused: its file and two checksums. The first is of what was tried: the toolchain's
logic, the edit, and the crate's own sources, definitions and proofs. The second is of what a check of the crate reads of the crates below it: their contracts and
definitions, without bodies, as the toolchain writes them into a built library. Only tools/try_edits.py writes these files.
"""
import hashlib
import os
import pathlib
import re

from crates import PARTS, TOP

NAME = "refused.md"
HEAD = "# Refused edits\n\nOnly `tools/try_edits.py` writes this file. `docs/GATE.md` says what its two checksums are of.\n"
LINE = re.compile(r"    (\S+\.edit) ([0-9a-f]{32}) ([0-9a-f]{32})")
# What a built library has of the contracts and definitions of its crate.
STATED = ("lang/src", "lang/antt/specs", "lang/antt/specs.antt")


class BadRecord(Exception):
    """A file of records that can't be read."""


class NoLibrary(Exception):
    """A crate whose library is not built."""


class NoLogic(Exception):
    """A toolchain that does not name its logic."""


def digest(parts):
    """A checksum of byte strings, in 32 hexadecimal digits. No two lists of strings are taken for one."""
    total = hashlib.sha256()
    for part in parts:
        total.update(len(part).to_bytes(8, "little") + part)
    return total.hexdigest()[:32]


def files_below(path):
    """The files of a folder, or a file itself, in the order of their names."""
    return sorted(it for it in path.rglob("*") if it.is_file()) if path.is_dir() else [path] if path.is_file() else []


def named(folder, parts):
    """The names and the bytes of all files of some parts of a folder."""
    for part in parts:
        for path in files_below(folder / part):
            yield str(path.relative_to(folder)).encode()
            yield path.read_bytes()


def logic_of(kit):
    """What names the logic of a toolchain: the words `logic X` at the end of what `rt version` prints. Kits of other names may have the same."""
    words = (pathlib.Path(kit) / "KIT-ID").read_text(encoding="utf-8").split()
    if words[-2:-1] != ["logic"]:
        raise NoLogic(f"{kit}/KIT-ID does not end in `logic` and a number: records of edits are of a logic")
    return " ".join(words[-2:]).encode()


class Sums:
    """The checksums of edits, over the crates and libraries below a folder."""

    def __init__(self, crates):
        self.crates, self.sources, self.stated = crates, {}, {}

    def own(self, name, edit):
        """A checksum of the toolchain's logic, an edit of a crate, and the crate's own sources, definitions and proofs."""
        if name not in self.sources:
            self.sources[name] = digest([logic_of(self.crates.kit), *named(self.crates.folder(name), PARTS)])
        return digest([self.sources[name].encode(), edit.name.encode(), edit.path.read_bytes()])

    def below(self, name):
        """A checksum of the contracts and definitions of all crates below one, from their built libraries, and of the libraries that the crate lists."""
        return digest([" ".join(self.crates.uses[name]).encode(), *(self.of_library(other).encode() for other in sorted(self.crates.below(name)))])

    def of_library(self, name):
        """A checksum of the contracts and definitions that the built library of a crate has."""
        if name not in self.stated:
            parts = list(named(self.crates.library(name) / f"{name}.rlib", STATED))
            if not parts:
                raise NoLibrary(f"the library of {name} is not built below {self.crates.at}: `./check` or `./trade build` builds it")
            self.stated[name] = digest([name.encode(), *parts])
        return self.stated[name]


class Records:
    """The records of the edits of a crate: for each edit that was refused, by the name of its file, the two checksums."""

    def __init__(self, name, at=TOP):
        self.path = pathlib.Path(at) / "crates" / name / "must-fail" / NAME
        self.sums = {}
        lines = self.path.read_text(encoding="utf-8").split("\n") if self.path.is_file() else []
        for number, line in enumerate(lines, 1):
            found = LINE.fullmatch(line)
            if found and found[1] not in self.sums:
                self.sums[found[1]] = (found[2], found[3])
            elif found or line.startswith(" "):
                why = f"{found[1]} has two records" if found else "this is no record"
                raise BadRecord(f"{self.path}:{number}: {why}: `git checkout` the file, or remove it and run `tools/try_edits.py {name}`")

    def gone(self):
        """The edits that have a record and no file."""
        return [edit for edit in self.sums if not self.path.with_name(edit).is_file()]

    def keep(self, edit, own, below):
        """Keeps that an edit was refused."""
        self.sums[edit] = (own, below)

    def drop(self, edit):
        """Drops the record of an edit, where it has one."""
        self.sums.pop(edit, None)

    def write(self):
        """Writes the file, or removes it where no edit has a record."""
        if not self.sums:
            self.path.unlink(missing_ok=True)
            return
        made = self.path.with_name(f".{NAME}.{os.getpid()}")
        lines = [f"    {edit} {own} {below}\n" for edit, (own, below) in sorted(self.sums.items())]
        made.write_text(HEAD + "\n" + "".join(lines), encoding="utf-8")
        made.replace(self.path)
