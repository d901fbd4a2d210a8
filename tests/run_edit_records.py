#!/usr/bin/env python3
"""tests/run_edit_records.py: tries how tools/try_edits.py keeps records of edits and samples them, in a small repository with a prover that is a script. Ends with
0 where all is well."""
import os
import pathlib
import shutil
import subprocess
import sys
import tempfile
import unittest

TOP = pathlib.Path(__file__).resolve().parent.parent
sys.path.insert(0, str(TOP / "tools"))
sys.dont_write_bytecode = True
from records import HEAD, NAME, BadRecord, Records  # noqa: E402

# A crate of 40 functions, each with an edit that turns a 7 into an 8. Its prover refuses every 8 but those that have the word `meant` beside them.
EDITS = 40
SOURCE = "".join(f"pub fn f{number}() -> u8 {{\n    7 + {100 + number}\n}}\n" for number in range(EDITS))
LOW = {"crates/low/src/lib.rt": "pub fn low() -> u8 { 1 }\n", "crates/low/out/rlib/low.rlib/lang/src/lib.rt": "pub fn low ( ) -> u8 ;\n"}
KIT = """#!/usr/bin/env python3
import pathlib, re, sys
wanted = [after for word, after in zip(sys.argv, sys.argv[1:]) if word == "--only"]
lines = pathlib.Path("src/lib.rt").read_text().split("\\n")
with open({log!r}, "a") as log:
    print(" ".join(wanted), file=log)
wrong = [re.match(r"pub fn (\\w+)", above)[1] for above, line in zip(lines, lines[1:]) if " 8 " in line and "meant" not in line]
for name in wrong:
    print(f"note: src/lib.rt:1:1: it is not proved that what the function ensures holds when it returns (`returns`)")
    print(f"fn shapes::{{name}}: not proved")
print(f"only={{len(wanted)}} proved={{len(wanted) - len(wrong)}}")
sys.exit(1 if wrong else 0)
"""
FIXED = {"GIT_AUTHOR_DATE": "2001-01-01T00:00:00Z", "GIT_COMMITTER_DATE": "2001-01-01T00:00:00Z", "GIT_CONFIG_GLOBAL": os.devnull}
WHO = {f"GIT_{who}_{what}": "tester" for who in ("AUTHOR", "COMMITTER") for what in ("NAME", "EMAIL")}


class Repository(unittest.TestCase):
    """What the tool does in a repository of two crates."""

    def setUp(self):
        room = tempfile.TemporaryDirectory()
        self.addCleanup(room.cleanup)
        self.top, self.log = pathlib.Path(room.name, "repository"), pathlib.Path(room.name, "checks")
        kit, words = pathlib.Path(room.name, "kit"), pathlib.Path(room.name, "words")
        shutil.copytree(TOP / "tools", self.top / "tools", ignore=shutil.ignore_patterns("__pycache__"))
        files = {"crates.txt": "low:\nshapes: low\n", "crates/shapes/src/lib.rt": SOURCE, **LOW}
        for number in range(EDITS):
            files[f"crates/shapes/must-fail/e{number}.edit"] = f"file: src/lib.rt\nold: 7 + {100 + number}\nnew: 8 + {100 + number}\n"
        for name, text in files.items():
            self.write(name, text)
        for path, text in ((kit / "bin/rattle", KIT.format(log=str(self.log))), (words / "rt", f"#!/bin/sh\necho {kit}/START\n"), (kit / "KIT-ID", "kit-1 logic 1\n")):
            path.parent.mkdir(parents=True, exist_ok=True)
            path.write_text(text, encoding="utf-8")
            path.chmod(0o755)
        self.environment = {**os.environ, **FIXED, **WHO, "PATH": f"{words}:{os.environ['PATH']}"}
        self.git("init", "-q")
        self.commit("first")

    def write(self, name, text):
        (self.top / name).parent.mkdir(parents=True, exist_ok=True)
        (self.top / name).write_text(text, encoding="utf-8")

    def git(self, *words):
        subprocess.run(["git", *words], cwd=self.top, env=self.environment, check=True, capture_output=True)

    def commit(self, message):
        self.git("commit", "-q", "--allow-empty", "-m", message)

    def tried(self, *words):
        """The status of a call, its lines, and the functions that the prover was asked about."""
        self.log.write_text("", encoding="utf-8")
        command = [sys.executable, "-B", "tools/try_edits.py", *words]
        ran = subprocess.run(command, cwd=self.top, env=self.environment, check=False, capture_output=True, text=True)
        return ran.returncode, (ran.stdout + ran.stderr).rstrip("\n").split("\n"), sorted(set(self.log.read_text(encoding="utf-8").split()))

    def records(self):
        return Records("shapes", self.top)

    def change(self, name, old, new):
        path = self.top / name
        self.write(name, path.read_text(encoding="utf-8").replace(old, new))

    def test_all_without_a_record_are_tried_once(self):
        status, lines, asked = self.tried()
        self.assertEqual((status, lines[-1]), (0, "40 edits, 40 tried, 40 refused, 0 not refused, 0 mistakes"))
        self.assertEqual(len(asked), EDITS)
        self.assertIn("shapes/e3.edit has to be tried: it has no record. `tools/try_edits.py shapes` tries it and writes its record", lines)
        self.assertEqual(len(self.records().sums), EDITS)
        self.assertEqual(self.tried(), (0, ["40 edits, 0 tried, 0 refused, 0 not refused, 0 mistakes"], []))
        self.assertEqual(len(self.tried("--anew")[2]), EDITS)

    def test_an_edit_without_a_record_is_tried(self):
        self.tried()
        self.write("crates/shapes/must-fail/more.edit", "file: src/lib.rt\nold: 7 + 101\nnew: 1 + 8 + 101\n")
        status, lines, asked = self.tried()
        self.assertEqual((status, asked, lines[-1]), (0, ["f1"], "41 edits, 1 tried, 1 refused, 0 not refused, 0 mistakes"))

    def test_a_record_of_other_sources_counts_for_nothing(self):
        self.tried()
        self.change("crates/shapes/src/lib.rt", "7 + 100", "7 + 50 + 50")
        self.change("crates/shapes/must-fail/e0.edit", "old: 7 + 100", "old: 7 + 50 + 50")
        status, lines, asked = self.tried()
        self.assertEqual((status, len(asked)), (0, EDITS))
        self.assertIn("shapes/e3.edit has to be tried: its record is of other sources of shapes. `tools/try_edits.py shapes` tries it and writes its record", lines)

    def test_an_edit_that_is_proved_fails_and_loses_its_record(self):
        self.tried()
        self.change("crates/shapes/must-fail/e5.edit", "new: 8 + 105", "new: 8 + 105 // meant")
        status, lines, _ = self.tried()
        self.assertEqual((status, lines[-1]), (1, "40 edits, 1 tried, 0 refused, 1 not refused, 0 mistakes"))
        self.assertTrue(any("shapes/e5.edit: NOT REFUSED: the crate is still proved with it" in line for line in lines))
        self.assertNotIn("e5.edit", self.records().sums)

    def kit(self, name):
        """Makes the toolchain one of another name."""
        path = pathlib.Path(self.environment["PATH"].split(":")[0]).parent / "kit/KIT-ID"
        path.write_text(name, encoding="utf-8")

    def test_a_record_is_of_a_logic(self):
        self.tried()
        self.kit("kit-2 logic 1\n")
        self.assertEqual(self.tried()[2], [])
        self.kit("kit-2 logic 2\n")
        self.assertEqual(len(self.tried()[2]), EDITS)

    def test_a_toolchain_without_a_logic(self):
        self.kit("kit-3\n")
        status, lines, asked = self.tried()
        self.assertEqual((status, asked), (1, []))
        self.assertTrue(lines[-1].endswith("KIT-ID does not end in `logic` and a number: records of edits are of a logic"))

    def sampled(self, message):
        self.commit(message)
        status, lines, asked = self.tried("--sample")
        self.assertEqual(status, 0)
        return lines, asked

    def test_each_commit_has_a_sample_of_its_own(self):
        self.tried()
        samples = [self.sampled(f"commit {number}")[1] for number in range(12)]
        self.assertTrue(all(len(asked) < EDITS // 2 for asked in samples))
        self.assertGreater(len({*map(tuple, samples)}), 8)
        self.assertGreater(len({name for asked in samples for name in asked}), EDITS // 2)

    def test_the_sample_is_counted(self):
        self.tried()
        lines, asked = self.sampled("one")
        self.assertTrue(asked and lines[-1] == f"40 edits, {len(asked)} tried, {len(asked)} refused, 0 not refused, 0 mistakes")
        self.assertTrue(lines[-2].endswith(f" has {len(asked)} of the 40 edits with a record; {len(asked)} of them were tried."))

    def test_other_contracts_below_make_the_sample_larger(self):
        self.tried()
        before = [len(self.sampled(f"commit {number}")[1]) for number in range(6)]
        # (what is refused in the sample has a new record then)
        first = self.records().path.read_text(encoding="utf-8")
        self.change("crates/low/out/rlib/low.rlib/lang/src/lib.rt", " ;", " ensures { } ;")
        after = []
        for number in range(6):
            self.records().path.write_text(first, encoding="utf-8")
            after.append(len(self.sampled(f"commit {number}")[1]))
        self.assertGreater(sum(after), sum(before))

    def test_one_that_is_not_refused_in_the_sample_fails(self):
        self.tried()
        # The prover becomes one that proves everything.
        kit = pathlib.Path(self.environment["PATH"].split(":")[0]).parent / "kit/bin/rattle"
        kit.write_text(kit.read_text(encoding="utf-8").replace('"meant" not in line', "False"), encoding="utf-8")
        self.commit("one")
        status, lines, asked = self.tried("--sample")
        self.assertEqual((status, len(asked) > 0), (1, True))
        self.assertTrue(any("NOT REFUSED" in line for line in lines))
        self.assertEqual(len(self.records().sums), EDITS - len(asked))

    def test_the_sample_ends_in_time(self):
        self.tried()
        self.change("tools/try_edits.py", "SAMPLE_SECONDS = 20 * 60", "SAMPLE_SECONDS = 0")
        lines, asked = self.sampled("one")
        self.assertEqual(asked, [])
        self.assertTrue(lines[-2].endswith("0 of them were tried. The 0 minutes for it were over before the others."))

    def test_a_record_of_an_edit_that_is_gone(self):
        self.tried()
        (self.top / "crates/shapes/must-fail/e7.edit").unlink()
        status, lines, _ = self.tried("--list")
        self.assertEqual((status, lines[0]), (1, "shapes/e7.edit has a record and is gone: `tools/try_edits.py --drop shapes` takes the record away"))
        self.assertEqual(self.tried("--sample")[0], 1)
        self.assertEqual(self.tried("--drop", "shapes")[0], 0)
        self.assertEqual(len(self.records().sums), EDITS - 1)
        self.assertEqual(self.tried("--list")[0], 0)

    def test_a_bad_record(self):
        for text in ("    e1.edit 12 13\n", f"    e1.edit {'0' * 32} {'1' * 32}\n" * 2):
            self.write(f"crates/shapes/must-fail/{NAME}", HEAD + "\n" + text)
            with self.assertRaises(BadRecord):
                self.records()
            status, lines, asked = self.tried()
            self.assertEqual((status, asked), (1, []))
            self.assertIn("`tools/try_edits.py shapes`", lines[-1])

    def test_a_library_that_is_not_built(self):
        shutil.rmtree(self.top / "crates/low/out")
        status, lines, _ = self.tried()
        self.assertEqual((status, lines[-1]), (1, f"the library of low is not built below {self.top}: `./check` or `./trade build` builds it"))

    def test_an_unknown_crate(self):
        self.assertEqual(self.tried("round")[0], 2)


if __name__ == "__main__":
    unittest.main()
