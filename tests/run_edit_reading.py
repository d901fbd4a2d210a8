#!/usr/bin/env python3
"""tests/run_edit_reading.py: tries how tools/try_edits.py reads edits and what a check says, over small texts. Ends with 0 where all is well."""
import pathlib
import sys
import tempfile
import unittest

TOP = pathlib.Path(__file__).resolve().parent.parent
sys.path.insert(0, str(TOP / "tools"))
sys.dont_write_bytecode = True
from crates import Crates  # noqa: E402
from edits import BadEdit, read_edit  # noqa: E402
from try_edits import CheckReport, breaks_others, has_read, parted, read_report, unread, why_refused  # noqa: E402

SOURCE = """pub struct Box {
    size: u32,
}
"""
METHODS = """impl Box {
    /// A half.
    pub fn half(&self) -> u32
        ensures { result ≡ self.now.size / 2 }
    {
        self.size / 2
    }
}

impl From<Ball> for Box {
    fn from(ball: Ball) -> Box {
        Box { size: ball.size }
    }
}

#[cycle(turns)]
fn even(n: u32) -> bool
    ensures { result ≡ is_even n }
{
    n == 0 || odd(n - 1)
}

#[cycle(turns)]
fn odd(n: u32) -> bool {
    n > 0 && even(n - 1)
}
"""
REFUSED = """./proofs/shapes/Box/half/Answers.antt:5:13: error: `returns`: `search`: no proof of it
note: src/methods.rt:16:1: it is not proved that what the function ensures holds when it returns (`returns`)
fn shapes::methods::even: no proof: expected answers
fn shapes::shapes::Box::half: not proved
fn shapes::methods::other: not proved; it calls `half`, which is not proved
only=3 proved=0"""


class Reading(unittest.TestCase):
    """What edits are read as."""

    def setUp(self):
        self.room = tempfile.TemporaryDirectory()
        self.addCleanup(self.room.cleanup)
        self.crate = pathlib.Path(self.room.name, "shapes")
        for name, text in {"src/shapes.rt": SOURCE, "src/methods.rt": METHODS}.items():
            (self.crate / name).parent.mkdir(parents=True, exist_ok=True)
            (self.crate / name).write_text(text, encoding="utf-8")

    def edit(self, *pairs, front=""):
        """An edit of these texts of src/methods.rt."""
        path = self.crate / "must-fail" / f"{len(pairs)}{abs(hash(pairs))}.edit"
        path.parent.mkdir(exist_ok=True)
        path.write_text(front + "file: src/methods.rt\n" + "".join(f"old: {old}\nnew: {new}\n" for old, new in pairs), encoding="utf-8")
        return read_edit(path, self.crate)

    def test_functions(self):
        self.assertEqual(self.edit(("self.size / 2", "self.size")).functions, {("shapes::Box::half", "")})
        self.assertEqual(self.edit(("Box { size: ball.size }", "Box { size: 0 }")).functions, {("methods::BoxFromBall::from", "")})
        self.assertEqual(self.edit(("n == 0", "n == 1"), ("n > 0", "n > 1")).functions, {("methods::even", "turns"), ("methods::odd", "turns")})
        self.assertEqual(self.edit(("is_even n }", "is_odd n }")).functions, set())
        self.assertEqual(self.edit(("is_even n }", "is_odd n }"), front="function: methods::even\n").functions, {("methods::even", "")})

    def test_bad_edits(self):
        with self.assertRaises(BadEdit):
            self.edit(("n - 1", "n"))
        with self.assertRaises(BadEdit):
            self.edit(("is not there", ""))
        with self.assertRaises(BadEdit):
            self.edit()

    def test_groups(self):
        half, even, odd = self.edit(("self.size / 2", "self.size")), self.edit(("n == 0", "n == 1")), self.edit(("n > 0", "n > 1"))
        self.assertEqual(parted([half, even, odd]), [[half, even], [odd]])

    def test_what_is_refused(self):
        half, even = self.edit(("self.size / 2", "self.size")), self.edit(("n == 0", "n == 1"))
        start = self.edit(("Box { size: ball.size }", "Box { size: 0 }"))
        said = read_report("shapes", 1, REFUSED.split("\n"))
        self.assertEqual(set(said.refused), {"shapes::Box::half", "methods::even"})
        self.assertTrue(why_refused(half, said) and why_refused(even, said) and has_read(said, [half, even]))
        self.assertEqual(why_refused(start, said), "")
        self.assertFalse(breaks_others(Crates(), "gq_trade", [half, even], said))
        self.assertTrue(breaks_others(Crates(), "gq_trade", [half], said))

    def test_what_says_nothing_of_a_contract(self):
        half = self.edit(("self.size / 2", "self.size"))
        names = read_report("shapes", 1, ["./proofs/shapes/Box/half/Answers.antt:5:13: error: `returns`: module `Goals` has no `returns`", "only=1 proved=0"])
        self.assertEqual(why_refused(half, names), "")
        self.assertTrue(unread(CheckReport(1, ["src/methods.rt:5:9: error[unknown-name]: cannot find it", "src/methods.rt:5:9: error: no such type"], {}), [half]))
        self.assertFalse(has_read(CheckReport(1, ["src/methods.rt:5:9: error[unknown-name]: cannot find it"], {}), [half]))
        self.assertFalse(has_read(CheckReport(0, ["only=1 proved=1"], {}), [half]))

    def test_verdicts_decide(self):
        half = self.edit(("self.size / 2", "self.size"))
        answer = "./proofs/shapes/Box/half/Answers.antt:5:13: error: `returns`: no proof of it"
        for verdict, is_refused in (("not proved", True), ("no proof: `search` did not prove it", True), ("proved", False), ("could not tell", False)):
            said = read_report("shapes", 1, [answer, f"fn shapes::shapes::Box::half: {verdict}", "only=1 proved=0"])
            self.assertEqual(why_refused(half, said) != "", is_refused)

    def test_files_outside(self):
        path = self.crate / "must-fail" / "outside.edit"
        path.parent.mkdir(exist_ok=True)
        for file in ("/etc/hostname", "src/../../lib.rt", "must-fail/a.edit"):
            path.write_text(f"file: {file}\nold: a\nnew: b\n", encoding="utf-8")
            with self.assertRaises(BadEdit):
                read_edit(path, self.crate)

    def test_all_edits_of_the_repository(self):
        for path in sorted(TOP.glob("crates/*/must-fail/*.edit")):
            self.assertTrue(read_edit(path, path.parent.parent).pairs)


if __name__ == "__main__":
    unittest.main()
