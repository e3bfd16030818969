"""Tests of believed.py: python3 -m unittest discover -s tools"""

import os
import sys
import tempfile
import unittest

sys.path.insert(0, os.path.dirname(os.path.abspath(__file__)))

from believed import count, lines_left, lines_reached  # noqa: E402

BASE = """-- Definitions of the base.
use Rattle.std.specs.Prelude.{Bool, true, false, ℕ, zero, suc, ◌+◌, ◌≡◌}

infix 2 when◌then◌else◌
abbrev pub when◌then◌else◌ : {A : Type 0} → Bool → A → A → A
when true then a else b = a
when false then a else b = b

-- how a step ends
pub data Ending : Type 0 where
  done : Ending
  failed : (place : ℕ) → Ending

pub record Grid : Type 0 where
  -- how many cells
  pub cells : ℕ
  pub size : ℕ

abbrev pub size : ℕ → ℕ
size n = n

pub size_is : (n : ℕ) → size n ≡ n
size_is n = refl

module _ (limit : Grid) where
  abbrev pub small : ℕ → ℕ
  small n = helper n

  abbrev pub unused : ℕ → ℕ
  unused n = n

  unfoldable pub helper : ℕ → ℕ
  helper zero = limit.size
  helper (suc n) = helper n

unfoldable mutual
  pub even : ℕ → Bool
  even zero = true
  even (suc n) = odd n

  pub odd : ℕ → Bool
  odd zero = false
  odd (suc n) = even n
"""

TOP = """use Rattle.std.specs.Prelude.{ℕ, ◌≡◌}
use Rattle.base.specs.Base.{when◌then◌else◌, Grid, even, size as length_of}
use Rattle.base.specs.Base as base
use Rattle.top.specs.declared.inner.Told.{Told}

-- a field has the name of a definition, and this comment that of another: other
abbrev pub first : Grid → ℕ
first g = g.size

abbrev pub chosen : ℕ → ℕ
chosen n = when even n then base.small n else n

abbrev pub other : ℕ → ℕ
other n = length_of n

-- a bound name that is also a definition's counts as used
abbrev pub shared : ℕ → ℕ
shared other = other

pub record Promise (n : ℕ) (r : Told) : Type 0 where
  pub is : (g : Grid) → r.number ≡ first g
"""

LIBRARY = """mod inner;
mod hidden;

pub use inner::{
    call,
};
pub use other::queries::{Answer, asked};
"""

INNER = """ghost use Rattle.top.specs.Top.{Promise, chosen};

// What is told.
pub struct Told {
    // its number
    pub number: u32,
}

pub fn call(chosen: u32) -> Told
    ensures { Promise chosen result }
{
    Told { number: chosen }
}

fn private(n: u32) -> u32
    ensures { result ≡ chosen n }
{
    n
}
"""

HIDDEN = """ghost use Rattle.top.specs.Top.{chosen};

pub fn within(n: u32) -> u32
    requires { n < 9 }
    ensures { result ≡ chosen n }
{
    n
}
"""

QUERIES = """ghost use Rattle.base.specs.Base.{done};

pub fn asked(n: u32) -> bool
    ensures { result ≡ done }
{
    n == 0
}
"""


def names_reached(library):
    return sorted(d.name for d in library.reached)


class Believed(unittest.TestCase):
    def setUp(self):
        self.folder = tempfile.TemporaryDirectory()
        for path, text in (
            ("base/specs/Base.antt", BASE),
            ("top/specs/Top.antt", TOP),
            ("top/src/lib.rt", LIBRARY),
            ("top/src/inner.rt", INNER),
            ("top/src/hidden.rt", HIDDEN),
            ("other/src/queries.rt", QUERIES),
            ("other/src/lib.rt", "pub mod queries;\n"),
        ):
            full = os.path.join(self.folder.name, "crates", path)
            os.makedirs(os.path.dirname(full), exist_ok=True)
            with open(full, "w", encoding="utf-8") as file:
                file.write(text)

    def tearDown(self):
        self.folder.cleanup()

    def reached(self, inner=False):
        return count(self.folder.name, "top", inner)

    def lines(self, library):
        return {os.path.basename(s.path): len(lines) for s, lines in lines_reached(library).items()}

    def test_public_contracts(self):
        library, contracts = self.reached()
        self.assertEqual({name: len(lines) for name, lines in contracts.items()}, {"asked": 1, "call": 1})
        self.assertEqual(names_reached(library), ["Ending", "Grid", "Promise", "first"])
        self.assertEqual(library.missing, set())

    def test_lines(self):
        # Ending 3, and Grid 3 without its comment; first 2, Promise 2
        self.assertEqual(self.lines(self.reached()[0]), {"Base.antt": 6, "Top.antt": 4})

    def test_types_of_the_code(self):
        library, _ = self.reached()
        self.assertEqual({name: len(lines) for name, lines in library.types.items()}, {("top", "Told"): 3})

    def test_inner_functions(self):
        library, contracts = self.reached(inner=True)
        self.assertEqual({name: len(lines) for name, lines in contracts.items()}, {"asked": 1, "call": 1, "within": 2})
        # the conditional by its first word; a definition with the one that it is mutual with; one by its module's name, with the module's parameter
        self.assertEqual(
            names_reached(library),
            ["Ending", "Grid", "Promise", "chosen", "even", "first", "helper", "odd", "small", "when◌then◌else◌"],
        )

    def test_lines_around_definitions(self):
        # infix and when◌then◌else◌ 4, Ending 3, Grid 3, module 1, small 2, helper 3, mutual 1, even 3, odd 3; first 2, chosen 2, Promise 2
        self.assertEqual(self.lines(self.reached(inner=True)[0]), {"Base.antt": 23, "Top.antt": 6})

    def test_lines_left(self):
        library, _ = self.reached(inner=True)
        by = lines_reached(library)
        base = next(s for s in by if s.path.endswith("Base.antt"))
        # the theorem size_is; size and unused
        self.assertEqual(lines_left(base, by[base], library), (2, 4))

    def test_shared_name(self):
        library, _ = self.reached()
        library.reach(library.sources["top", "specs.Top"], ["shared"])
        self.assertIn("other", names_reached(library))
        self.assertIn("size", names_reached(library))

    def test_name_that_is_not_there(self):
        library, _ = self.reached()
        source = library.sources["top", "specs.Top"]
        source.imports["gone"] = ("Rattle.base.specs.Base", "gone")
        library.reach(source, ["gone"])
        self.assertEqual(len(library.missing), 1)


if __name__ == "__main__":
    unittest.main()
