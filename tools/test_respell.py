"""Tests of respell.py: which names it turns, and which it leaves."""

import contextlib
import io
import os
import pathlib
import tempfile
import unittest
import unittest.mock

import respell

BEFORE = {
    "crates.txt": "unicode:\nbase: unicode\n",
    "crates/unicode/src/lib.rt": "// `isTag` of specs/Tags.antt.\npub fn is_tag(ch: u32) -> bool\n    ensures { result ≡ isTag ch }\n",
    "crates/unicode/specs/Tags.antt": """use Rattle.std.specs.Prelude.{ℕ, Bool}

-- `isTag`: the tags
pub isTag : ℕ → Bool
isTag c = within 1 2 c

-- a name, not a word of the text: well-formed
pub record wellMade (c : ℕ) : Type 0 where
  pub at-first : isTag c ≡ true
""",
    "crates/unicode/proofs/Tags.antt": """pub is-tag : (c : ℕ) → isTag c ≡ true
is-tag c = refl

pub isTag-atFirst : (c : ℕ) → wellMade c → isTag c ≡ true
isTag-atFirst c w = w.at-first

pub atFirst : ℕ → ℕ
atFirst c = c
""",
    "crates/unicode/must-fail/lost.edit": "refused by: is_tag: returns-2\nfile: specs/Tags.antt\nold: isTag c = within 1 2 c\nnew: isTag c = true\n",
    "docs/PAGE.md": "The law `isTag-atFirst` of crate unicode; isTag stays in prose.\n",
}
AFTER = {
    "crates.txt": "emoji:\nbase: emoji\n",
    "crates/emoji/src/lib.rt": "// `is_tag` of specs/Tags.antt.\npub fn is_tag(ch: u32) -> bool\n    ensures { result ≡ is_tag ch }\n",
    "crates/emoji/specs/Tags.antt": """use Rattle.std.specs.Prelude.{ℕ, Bool}

-- `is_tag`: the tags
pub is_tag : ℕ → Bool
is_tag c = within 1 2 c

-- a name, not a word of the text: well-formed
pub record WellMade (c : ℕ) : Type 0 where
  pub at_first_lem : is_tag c ≡ true
""",
    "crates/emoji/proofs/Tags.antt": """pub is_tag_lem : (c : ℕ) → is_tag c ≡ true
is_tag_lem c = refl

pub is_tag-at_first : (c : ℕ) → WellMade c → is_tag c ≡ true
is_tag-at_first c w = w.at_first_lem

pub at_first : ℕ → ℕ
at_first c = c
""",
    "crates/emoji/must-fail/lost.edit": "refused by: is_tag: returns-2\nfile: specs/Tags.antt\nold: is_tag c = within 1 2 c\nnew: is_tag c = true\n",
    "docs/PAGE.md": "The law `is_tag-at_first` of crate emoji; isTag stays in prose.\n",
}


class Respelling(unittest.TestCase):
    def turned(self, *arguments):
        with tempfile.TemporaryDirectory() as folder:
            root = pathlib.Path(folder)
            for name, text in {**BEFORE, ".ci/run": "", "README.md": ""}.items():
                (root / name).parent.mkdir(parents=True, exist_ok=True)
                (root / name).write_text(text, encoding="utf-8")
            was = os.getcwd()
            os.chdir(root)
            try:
                with unittest.mock.patch("sys.argv", ["respell.py", *arguments]), contextlib.redirect_stdout(io.StringIO()) as said:
                    respell.main()
            finally:
                os.chdir(was)
            files = [path for path in root.rglob("*") if path.is_file() and path.read_text(encoding="utf-8")]
            return {str(path.relative_to(root)): path.read_text(encoding="utf-8") for path in files}, said.getvalue()

    def test_turns_every_name_of_the_repository(self):
        self.maxDiff = None
        files, said = self.turned()
        self.assertEqual(files, AFTER)
        self.assertIn("isTag -> is_tag\n", said)
        self.assertIn("clash: is-tag and isTag would both be is_tag: is-tag becomes is_tag_lem\n", said)

    def test_dry_turns_nothing(self):
        files, said = self.turned("--dry")
        self.assertEqual(files, BEFORE)
        self.assertIn("wellMade -> WellMade\n", said)

    def test_no_two_names_are_given_the_same_spelling(self):
        given = [*respell.CHOSEN.values(), *respell.INNER.values()]
        self.assertEqual(len(given), len(set(given)))


if __name__ == "__main__":
    unittest.main()
