"""The page of definitions, made of the comments of a small tree."""
import shutil
import subprocess
import sys
import tempfile
import unittest
from pathlib import Path

TOP = Path(__file__).resolve().parents[2]

CLOCKS = """\
-- Clocks and their hands. They name
-- no hour.
use Rattle.std.specs.Prelude.{ℕ}

-- A clock at hour h | h is below 12
pub record IsClock (h : ℕ) : Type 0 where
  -- not a row
  pub below : h < 12

-- ---- hands

-- The hour after h
abbrev pub next : ℕ → ℕ
next zero = 1
next (suc h) = h + 2

module _ (p : Plan) (a b : ℕ) where
  -- The state of the clock is open
  abbrev pub is_open : OpState → List ℕ → Bool
  is_open Ready [] = true
  is_open Ready (x ∷ xs) = false

  abbrev pub IsSilent : Type 0
  IsSilent = a ≡ b

-- How a clock stops
pub data Stops (h : ℕ) : (left : List ℕ) → Type 0 where
  Early : Stops h []
  Late, Never : Stops h (h ∷ [])
"""
ROWS = """\
## `morph_base`

### `specs/Clocks.antt`: Clocks and their hands

They name no hour.

| Name | What it says |
|---|---|
| `IsClock h` | A clock at hour h \\| h is below 12 |
| `next h` | The hour after h |
| `is_open p a b state xs` | The state of the clock is open |
| `Stops h left` | How a clock stops |
"""


class Definitions(unittest.TestCase):
    def setUp(self):
        self.tree = Path(tempfile.mkdtemp())
        self.addCleanup(shutil.rmtree, self.tree)
        self.write("docs/definitions", (TOP / "docs/definitions").read_text())
        for crate in self.crates():
            self.write(f"crates/{crate}/specs/Lib.antt", "pub mod Clocks\n" if crate == "morph_base" else "")
        self.write("crates/morph_base/specs/Clocks.antt", CLOCKS)

    def crates(self):
        text = (TOP / "docs/definitions").read_text()
        return text.split('CRATES = """')[1].split('"""')[0].split()

    def write(self, name, text):
        file = self.tree / name
        file.parent.mkdir(parents=True, exist_ok=True)
        file.write_text(text)

    def call(self, *words):
        done = subprocess.run([sys.executable, self.tree / "docs/definitions", *words], capture_output=True, text=True, timeout=60)
        return done.returncode, done.stdout.splitlines()

    def test_page(self):
        self.assertEqual(self.call(), (0, []))
        page = (self.tree / "docs/DEFINITIONS.md").read_text()
        self.assertTrue(page.startswith("# The definitions, in plain words\n"))
        self.assertIn(ROWS, page)
        self.assertNotIn("IsSilent", page)
        self.assertEqual(self.call("--check"), (0, []))

    def test_changed_comment(self):
        self.call()
        self.write("crates/morph_base/specs/Clocks.antt", CLOCKS.replace("The hour after h", "The next hour"))
        status, said = self.call("--check")
        self.assertEqual((status, sorted(said)), (1, [
            "docs/DEFINITIONS.md: has: | `next h` | The hour after h |",
            "docs/DEFINITIONS.md: lacks: | `next h` | The next hour |"]))

    def test_cited(self):
        self.write("crates/morph_base/src/lib.rt", "ghost use Rattle.morph_base.specs.Clocks.{next, Never, IsSilent as Still};\n")
        self.call()
        self.assertEqual(self.call("--check"), (1, [
            "morph_base: specs/Clocks.antt: IsSilent is cited by a contract, and has no comment"]))

    def test_handed_on(self):
        self.write("crates/op_words/specs/Lib.antt", "pub mod Hands\n")
        self.write("crates/op_words/specs/Hands.antt", "pub use Rattle.morph_base.specs.Clocks.{next as later, IsSilent}\n")
        self.write("crates/op_words/src/lib.rt", "ghost use Rattle.op_words.specs.Hands.{later, IsSilent};\n")
        self.call()
        self.assertEqual(self.call("--check"), (1, [
            "morph_base: specs/Clocks.antt: IsSilent is cited by a contract, and has no comment"]))

    def test_defined_twice(self):
        self.write("crates/op_words/specs/Lib.antt", "pub mod Hands\n")
        self.write("crates/op_words/specs/Hands.antt", "abbrev pub next : ℕ\nnext = 1\n\nabbrev pub IsClock : Type 0\nIsClock = Unit {0}\n")
        self.call()
        self.assertEqual(self.call("--check"), (1, [
            "IsClock is defined in morph_base/specs/Clocks.antt and in op_words/specs/Hands.antt"]))

    def test_new_crate(self):
        self.write("crates/watches/specs/Lib.antt", "")
        self.call()
        self.assertEqual(self.call("--check"), (1, ["watches: docs/definitions has no place for it"]))


if __name__ == "__main__":
    unittest.main()
