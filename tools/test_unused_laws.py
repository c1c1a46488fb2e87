"""Tests of unused_laws.py: it finds a law that nothing uses."""

import pathlib
import tempfile
import unittest
import unittest.mock

from unused_laws import unused_laws

SOUND = {
    "crates/one/src/lib.rt": "ghost use Rattle.one.proofs.Laws.{Shape};\n// by-hand\n",
    "crates/one/proofs/Laws.antt": """-- A comment about lone.
use lib.ListN.{length}

abbrev pub Shape : Type 0
Shape = ℕ

pub many : (n : ℕ) → n ≡ n
many zero = refl
many (suc n) = ap suc (helper n)
  where
    helper : (n : ℕ) → n ≡ n
    helper n = refl

module _ (x : ℕ) where
  few : x ≡ x
  few = many x
""",
    "crates/one/proofs/Claims.antt": "pub claim : Claim\nclaim = few\n",
    "crates/one/proofs/put/Proof.antt": "returns : Need\nreturns = search\n",
    "crates/one/proofs/put/Answers.antt": "returns : goal.returns\nreturns c = search rules\n",
    "crates/one/proofs/put/Invariants.antt": "invariant-loop : goal.invariant-loop\ninvariant-loop l = l.i ≤ l.n\n",
    "crates/one/specs/Lib.antt": "pub mine : ℕ\nmine = 0\n",
}


class Checks(unittest.TestCase):
    def findings(self, old="", new=""):
        with tempfile.TemporaryDirectory() as folder:
            root = pathlib.Path(folder)
            for name, text in SOUND.items():
                (root / name).parent.mkdir(parents=True, exist_ok=True)
                (root / name).write_text(text.replace(old, new) if old else text, encoding="utf-8")
            return list(unused_laws(root))

    def test_sound(self):
        self.assertEqual(self.findings(), [])

    def test_law_that_a_function_names(self):
        self.assertEqual(len(self.findings("few = many x", "few = refl")), 1)
        change = ("// by-hand", "#[tactic(auto, using(crate::proofs::Laws::Shape, crate::proofs::Laws::lone))]")
        with unittest.mock.patch.dict(SOUND, {"crates/one/proofs/Lone.antt": "pub lone : ℕ\nlone = 0\n"}):
            self.assertEqual(len(self.findings()), 1)
            self.assertEqual(self.findings(*change), [])

    def test_laws_in_a_file_that_is_called_as_a_proof(self):
        file = "crates/one/proofs/Answers.antt"
        with unittest.mock.patch.dict(SOUND, {file: "pub lone : ℕ\nlone = 0\n"}):
            self.assertEqual(self.findings(), [f"{file}: nothing uses lone"])

    def test_laws_that_nothing_uses(self):
        where = "crates/one/proofs/Laws.antt: nothing uses"
        self.assertEqual(self.findings("claim = few", "claim = refl"), [f"{where} few"])
        self.assertEqual(self.findings("few = many x", "few = refl"), [f"{where} many"])
        self.assertEqual(self.findings("(helper n)", "(refl)"), [f"{where} helper"])
        self.assertEqual(self.findings("{Shape}", "{Other}"), [f"{where} Shape"])
        self.assertEqual(self.findings("abbrev pub Shape", "pub lone : ℕ\nlone = 0\n\nabbrev pub Shape"), [f"{where} lone"])


if __name__ == "__main__":
    unittest.main()
