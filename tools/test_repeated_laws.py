"""Tests of repeated_laws.py: it finds a law that stands twice, under other names of the law and of its variables."""

import pathlib
import tempfile
import unittest

from repeated_laws import repeated_laws

LAW = """-- Words that are made from a test.
use Rattle.std.specs.Prelude.{length}

pub words-many : (m : ℕ) (p : ℕ → Bool) → length (wordsOf m p) ≡ m
unfolding wordsOf
words-many zero p = refl
words-many (suc m) p = ap suc (words-many m (λ (i : ℕ). p (64 + i)))
"""
SAME = """module _ (x : ℕ) where
  words-length : (n : ℕ) (q' : ℕ → Bool) → length (wordsOf n q') ≡ n
  unfolding wordsOf
  words-length zero q' = refl
  words-length (suc n) q' =
      ap suc (words-length n (λ (k : ℕ). q' (64 + k)))
"""


class Checks(unittest.TestCase):
    def findings(self, second, file="crates/two/proofs/Bits.antt"):
        with tempfile.TemporaryDirectory() as folder:
            root = pathlib.Path(folder)
            for name, text in (("crates/one/specs/Words.antt", LAW), (file, second)):
                (root / name).parent.mkdir(parents=True, exist_ok=True)
                (root / name).write_text(text, encoding="utf-8")
            return list(repeated_laws(root))

    def test_law_that_stands_twice(self):
        said = "words-many (crates/one/specs/Words.antt), words-length (crates/two/proofs/Bits.antt)"
        self.assertEqual(self.findings(SAME), [f"the same declaration stands more than once: {said}"])

    def test_other_laws(self):
        for old, new in (("64", "63"), ("q' : ℕ → Bool", "q' : Bool → ℕ"), ("= refl", "= cc"), ("wordsOf", "bytesOf")):
            self.assertEqual(self.findings(SAME.replace(old, new)), [])
        self.assertEqual(self.findings(SAME.replace("(64 + k)", "(64 + n)")), [])

    def test_short_and_open_declarations(self):
        self.assertEqual(self.findings("pub many : ℕ → ℕ\nmany n = n\n\npub few : ℕ → ℕ\nfew n = n\n"), [])
        clause = "  pub field : (m : ℕ) (p : ℕ → Bool) → length (wordsOf m p) ≡ length (wordsOf m p) + length (wordsOf m p)\n"
        self.assertEqual(self.findings(f"pub record R : Type 0 where\n{clause}\npub record S : Type 0 where\n{clause}"), [])

    def test_proof_of_a_function(self):
        for name in ("Proof", "Answers", "Invariants"):
            self.assertEqual(self.findings(SAME, f"crates/two/proofs/put/{name}.antt"), [])
        for part in ("proofs", "specs"):
            self.assertEqual(len(self.findings(SAME, f"crates/two/{part}/Answers.antt")), 1)


if __name__ == "__main__":
    unittest.main()
