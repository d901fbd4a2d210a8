#!/usr/bin/env python3
"""tests/run_document_tools.py: tries which names in documents tools/document_names.py takes for false, which files tools/stray_sources.py takes for those of a
crate, and how tools/plant_rows.py writes rows, in a small repository with a search that is a script. Ends with 0 where all is well."""
import os
import pathlib
import shutil
import subprocess
import sys
import tempfile
import unittest

TOP = pathlib.Path(__file__).resolve().parent.parent
sys.path.insert(0, str(TOP / "tools"))
sys.dont_write_bytecode = True
from document_names import false_names  # noqa: E402
from stray_sources import is_in_a_crate  # noqa: E402

# Rows of crates with names that another crate has, or none.
ROWS = """
| Crate | `src` | `specs` | `proofs` |
|---|---|---|---|
| `gq_program` | `shapes` (the table and its length) | | |
| `gq_asm` | `shapes`, and `prefixes` if it is common | | |
| `gq_rules` | `operands` | | `Lib` |
"""
# A text, and the names in it that are false.
TEXTS = [
    ("`gq_model`, `gq_nothing` and `Machine::new`, `Machine::no_such_call`", ["gq_nothing", "Machine::no_such_call"]),
    ("`World::load` (`gq_world/src/load.rt`), `gq_world/src/loads.rt`, `docs/NAME.md`, `tests/run_*.py`", ["gq_world/src/loads.rt"]),
    ("`gq_model/src/{fault,phase}.rt`, `gq_model/src/{fault,nothing}.rt`", ["gq_model/src/{fault,nothing}.rt"]),
    ("`run` and `no_such_function`, `dup` and `nosuchword`", ["no_such_function", "nosuchword"]),
    ("`check-ambiguous` and `check-no-such-case`, `need-caps`", ["check-no-such-case"]),
    ("`shapes` of `gq_program`, `shapes` of `gq_asm`", ["shapes of gq_asm"]),
    ("`IsSlots` (`gq_slots`) and `IsSlots` (`gq_pages/specs`)", ["IsSlots of gq_pages"]),
    ("`python3 tools/no_such_tool.py NAME`, `need_ends` and `TRADE_NONE`", ["python3 tools/no_such_tool.py NAME"]),
    ("`check_processor` and `no_such_handler`, `ARENA` and `NO_SUCH_ARENA`", ["no_such_handler", "NO_SUCH_ARENA"]),
    (ROWS, ["src/shapes of gq_asm", "src/prefixes of gq_asm", "src/operands of gq_rules"]),
    ("```\n`no_such_function`\n```\n    `no_such_function`\n", []),
]

TABLE = """| Crate | Refused | Met | Not judged | Commit | Crate | Refused | Met | Not judged | Commit |
|---|---|---|---|---|---|---|---|---|---|
| `low` | 6 | 0 | 1 | 1234abcd | `shapes` | 20 | 2 | 0 | — |
"""
LAST = "plants crate=low planted-in=2 untested=0 no-ensures=0 proves={met} same=1 refused={refused} elsewhere=0 not-judged=3 not-source=0 not-run={left}"
WHO = {f"GIT_{who}_{what}": "tester" for who in ("AUTHOR", "COMMITTER") for what in ("NAME", "EMAIL")}


class Names(unittest.TestCase):
    """Names in backquotes."""

    def test_texts(self):
        for text, wanted in TEXTS:
            self.assertEqual(false_names(text), wanted)


class Sources(unittest.TestCase):
    """Code, definitions and proofs, of a repository with one crate."""

    def test_places(self):
        for path in ("crates/low/src/lib.rt", "crates/low/specs/internal/Lib.antt", "crates/low/proofs/lib/run/Answers.antt"):
            self.assertTrue(is_in_a_crate(path, {"low": []}), path)
        for path in ("wip/lib.rt", "wip/proofs/Answers.antt", "crates/high/src/lib.rt", "crates/low/lib.rt", "crates/low/wip/lib.rt", "crates/src/lib.rt"):
            self.assertFalse(is_in_a_crate(path, {"low": []}), path)


class Rows(unittest.TestCase):
    """Rows of wrong bodies, in a repository of two crates."""

    def setUp(self):
        room = tempfile.TemporaryDirectory()
        self.addCleanup(room.cleanup)
        self.top, self.words = pathlib.Path(room.name, "repository"), pathlib.Path(room.name, "words")
        shutil.copytree(TOP / "tools", self.top / "tools", ignore=shutil.ignore_patterns("__pycache__"))
        files = {"crates.txt": "low:\nshapes: low\n", "docs/PROOFS.md": f"Before.\n\n{TABLE}\nAfter.\n"}
        for name, text in {**files, "crates/low/src/lib.rt": "", "crates/shapes/src/lib.rt": ""}.items():
            self.write(self.top / name, text)
        self.environment = {**os.environ, **WHO, "GIT_CONFIG_GLOBAL": os.devnull, "PATH": f"{self.words}:{os.environ['PATH']}"}
        self.git("init", "-q")
        self.commit()

    def write(self, path, text):
        path.parent.mkdir(parents=True, exist_ok=True)
        path.write_text(text, encoding="utf-8")

    def git(self, *words):
        return subprocess.run(["git", *words], cwd=self.top, env=self.environment, check=True, stdout=subprocess.PIPE, text=True).stdout.strip()

    def commit(self):
        self.git("add", "-A")
        self.git("commit", "-qm", "a state")
        return self.git("rev-parse", "--short=8", "HEAD")

    def search(self, *words, refused=7, met=1, left=0):
        """What the tool prints on both streams, with its status, where a search ends so."""
        self.write(self.words / "rt", f"#!/bin/sh\necho '{LAST.format(refused=refused, met=met, left=left)}'\n")
        (self.words / "rt").chmod(0o755)
        command = [sys.executable, "-B", "tools/plant_rows.py", *words]
        done = subprocess.run(command, cwd=self.top, env=self.environment, check=False, capture_output=True, text=True)
        return done.stdout + done.stderr, done.returncode

    def document(self):
        return (self.top / "docs/PROOFS.md").read_text(encoding="utf-8")

    def test_row(self):
        commit = self.git("rev-parse", "--short=8", "HEAD")
        self.assertEqual(self.search("low")[1], 0)
        self.assertIn(f"| `low` | 7 | 1 | 3 | {commit} | `shapes` | 20 | 2 | 0 | — | together | 27 | 3 | 3 |  |\n\nAfter.", self.document())
        self.assertTrue(self.document().startswith("Before.\n\n| Crate | Refused |"))
        again = self.document()
        self.search("low")
        self.assertEqual(self.document(), again)

    def test_no_row(self):
        left, ended = "not all bodies were tried", "the search did not end"
        for how, why in (({"left": 2}, left), ({"refused": 10000}, left), ({"met": "x"}, ended)):
            said, status = self.search("low", **how)
            self.assertIn(why, said)
            self.assertEqual((status, TABLE in self.document()), (1, True))
        self.write(self.top / "crates/low/src/lib.rt", "other\n")
        self.assertIn("low has no new row: its files are not committed", self.search("low")[0])
        self.assertEqual(self.search("nothing")[1], 2)

    def test_list(self):
        self.search("low")
        self.search("shapes")
        self.assertEqual(self.search("--list"), ("All crates have a row, and none has changed since.\n", 0))
        old = self.git("rev-parse", "--short=8", "HEAD")
        self.write(self.top / "crates/shapes/proofs/Lib.antt", "proof\n")
        self.write(self.top / "crates.txt", "low:\nshapes: low\nnew:\n")
        new = self.commit()
        self.assertEqual(self.search("--list"), (f"new has no row\nshapes: the row is of {old}, and {new} changed the crate\n", 0))


if __name__ == "__main__":
    unittest.main()
