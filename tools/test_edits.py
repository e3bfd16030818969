"""Tests of the must-fail edits' names: each stands once in the documents, and what they name is there."""

import collections
import pathlib
import re
import unittest

ROOT = pathlib.Path(__file__).resolve().parent.parent
DOCUMENTS = ["CALLS", "THEOREMS", "DEFINITIONS"]


def text_of(pattern):
    return "\n".join(file.read_text(encoding="utf-8") for file in ROOT.glob(pattern))


def edits():
    return sorted(file.stem for file in ROOT.glob("crates/*/must-fail/*.edit"))


def named():
    """How often each name stands in the documents, as code."""
    text = "".join(text_of(f"docs/{name}.md") for name in DOCUMENTS)
    return collections.Counter(re.findall(r"`([a-z0-9_]+)`", text))


class Edits(unittest.TestCase):
    def test_no_name_twice(self):
        self.assertEqual([name for name, times in collections.Counter(edits()).items() if times > 1], [])

    def test_each_is_named_once(self):
        names = named()
        self.assertEqual([name for name in edits() if names[name] != 1], [])

    def test_each_that_is_named_is_there(self):
        # (definitions and theorems have such names too)
        files = ["crates.txt", "crates/*/src/**/*.rt", "crates/*/specs/**/*.antt", "crates/*/proofs/**/*.antt"]
        known = set(edits()) | set(re.findall(r"\w+", "\n".join(text_of(pattern) for pattern in files)))
        self.assertEqual([name for name in sorted(named()) if "_" in name and name not in known], [])


if __name__ == "__main__":
    unittest.main()
