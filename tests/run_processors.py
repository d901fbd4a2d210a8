#!/usr/bin/env python3
"""tests/run_processors.py: tries how many checks tools/processors.py lets run side by side. Ends with 0 where all is well."""
import os
import pathlib
import sys
import unittest
from unittest import mock

sys.path.insert(0, str(pathlib.Path(__file__).resolve().parent.parent / "tools"))
sys.dont_write_bytecode = True
import processors  # noqa: E402

GIGABYTE = 1_000_000_000


class SideBySide(unittest.TestCase):
    """How many checks run side by side."""

    def test_one_for_each_processor_where_memory_is_plenty(self):
        for count in range(1, 13):
            self.assertEqual(processors.jobs(count, 1000 * GIGABYTE), count)

    def test_one_at_least(self):
        self.assertEqual(processors.jobs(4, 1), 1)

    def test_at_most_nine_tenths_of_the_memory(self):
        for count in range(2, 9):
            for memory in range(1, 64):
                found = processors.jobs(count, memory * GIGABYTE)
                self.assertTrue(1 <= found <= count)
                self.assertTrue(found == 1 or processors.together(found) <= 0.9 * memory * GIGABYTE)
                self.assertTrue(found == count or processors.together(found + 1) > 0.9 * memory * GIGABYTE)

    def test_what_somebody_has_set_decides(self):
        with mock.patch.dict(os.environ, RT_JOBS="3"):
            self.assertEqual(processors.wanted_jobs(), 3)
        for word in ("", "0", "many"):
            with mock.patch.dict(os.environ, RT_JOBS=word):
                self.assertEqual(processors.wanted_jobs(), processors.jobs())


if __name__ == "__main__":
    unittest.main()
