"""Tests of archive.py: python3 -m unittest discover -s tools"""

import os
import sys
import tempfile
import unittest

sys.path.insert(0, os.path.dirname(os.path.abspath(__file__)))

from archive import below, dependencies  # noqa: E402

CRATES = """# Base
low:
middle: low io   # io is the kit's

top staticlib: middle other
other: low
"""


class Archive(unittest.TestCase):
    def setUp(self):
        with tempfile.TemporaryDirectory() as folder:
            path = os.path.join(folder, "crates.txt")
            with open(path, "w", encoding="utf-8") as file:
                file.write(CRATES)
            self.uses = dependencies(path)

    def test_dependencies(self):
        self.assertEqual(self.uses, {"low": [], "middle": ["low", "io"], "top": ["middle", "other"], "other": ["low"]})

    def test_below(self):
        self.assertEqual(below(self.uses, "top"), ["low", "middle", "other"])
        self.assertEqual(below(self.uses, "low"), [])


if __name__ == "__main__":
    unittest.main()
