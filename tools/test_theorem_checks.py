"""Tests of theorem_checks.py: each planted fault is found, and nothing in a sound repository."""

import pathlib
import re
import shutil
import tempfile
import unittest
import unittest.mock

import theorem_checks as checks

ROOT = pathlib.Path(__file__).resolve().parent.parent

SOUND = {
    "crates.txt": "one:\n",
    "crates/one/src/lib.rt": "pub enum Answer {\n    Done,\n}\npub const LIMIT: usize = 1;\n",
    "crates/one/specs/Lib.antt": "pub mod Theorems\n",
    "crates/one/specs/Claimed.antt": """
module _ (policy : List ℕ) where
  -- A clause.
  pub record ListClaim (calls : List Call) : Type 0 where
    pub others : text ≡ calls
    pub number : (n : ℕ)
        → n ≡ length calls

  pub record FormattedClaim : Type 0 where
    pub again : text ≡ policy
""",
    "crates/one/specs/Theorems.antt": """
-- a reader's words
unfoldable pub Same : Type 0
Same = (x : ℕ) → Parted x × Through x

pub Worked : Type 0
Worked =
    -- 1
    (f 1 ≡ 1)
    × (f 2 ≡ 2)

pub record Whole : Type 0 where
  pub part : Same

pub EveryList : Type 0
EveryList = (policy : List ℕ) (calls : List Call) → ListClaim policy calls

pub record Parted (x : ℕ) : Type 0 where
  pub part : f x ≡ x

abbrev pub Through : ℕ → Type 0
Through x = Last x x

pub Last
    : ℕ
    → ℕ
    → Type 0
Last x y = x ≡ y

pub data Kind : Type 0 where
  Some : Kind
""",
    "crates/one/proofs/Lib.antt": "pub mod Claims\n",
    "crates/one/proofs/Laws.antt": "",
    "crates/one/proofs/Claims.antt": """
use Rattle.std.proofs.Common.{refl}
use Rattle.one.specs.Theorems.{
  EveryList,
  Same,
  Whole,
  Worked,
}

pub same : Same
unfolding Same
same = refl

pub whole : Whole
whole = record { part = same }

pub every_list : EveryList
every_list policy calls = list-claim policy calls

pub worked : Worked
worked = (refl, refl)
""",
    "docs/DECISIONS.md": "The answer is an `Answer`, and not an `Option`, as `Same` says. In Rust it is a `Reply`.\n",
    "host/tilghorz/src/reply.rs": "/// What a call answers.\npub struct Reply(u64);\n",
    "docs/AUDIT.md": """
`EveryList` is about `Some`, `Answer`, `Done` and `LIMIT`, and not about Rust's `Vec`; its proof is in `Laws`.
`others` and `number` of `ListClaim`, `again` in `FormattedClaim`, which is `FormattedClaim` (`again`).
one/Theorems: `Through`, `Last`; one/lib.rt: `Answer`.

## The statements

| crate | statements |
|---|---|
| one | `Same`, `Worked`, `Whole`, `EveryList` |

| record | clauses |
|---|---|
| `ListClaim` | `others`, `number` |
| `FormattedClaim` | `again` |

## Another part

| one | `nothing` |
""",
}
CHECKS = (
    checks.unproved_statements,
    checks.open_statements,
    checks.empty_statements,
    checks.other_statements,
    checks.unknown_names,
)


# The claimed records of the sound repository.
CLAIMED_RECORDS = {"ListClaim": "EveryList", "FormattedClaim": "EveryFormattedText"}


@unittest.mock.patch.object(checks, "CLAIMED_RECORDS", CLAIMED_RECORDS)
class Checks(unittest.TestCase):
    def findings(self, check, *changes, removed=()):
        """What a check finds after these changes, each with the end of a file's name, the old text and the new text."""
        texts = dict(SOUND)
        for file, old, new in changes:
            name = next(name for name in texts if name.endswith(file))
            self.assertIn(old, texts[name])
            texts[name] = texts[name].replace(old, new)
        with tempfile.TemporaryDirectory() as folder:
            root = pathlib.Path(folder)
            for name, text in texts.items():
                if name not in removed:
                    (root / name).parent.mkdir(parents=True, exist_ok=True)
                    (root / name).write_text(text, encoding="utf-8")
            return list(check(root))

    def finds(self, words, check, *changes, **removed):
        findings = self.findings(check, *changes, **removed)
        self.assertTrue(any(words in finding for finding in findings), findings)

    def test_sound(self):
        for check in CHECKS:
            self.assertEqual(self.findings(check), [], check.__name__)

    def test_theorem_taken_away(self):
        changes = (
            ("Theorems.antt", "pub EveryList : Type 0\nEveryList = (policy : List ℕ) (calls : List Call) → ListClaim policy calls\n", ""),
            ("Claims.antt", "  EveryList,\n", ""),
            ("Claims.antt", "pub every_list : EveryList\nevery_list policy calls = list-claim policy calls\n", ""),
        )
        self.assertEqual(self.findings(checks.unproved_statements, *changes), [])
        self.finds("one lists EveryList, which specs/ does not have", checks.other_statements, *changes)
        self.finds("`EveryList` is nowhere in specs/ or src/", checks.unknown_names, *changes)

    def test_theorem_of_this_repository_taken_away(self):
        with tempfile.TemporaryDirectory() as folder:
            root = pathlib.Path(folder)
            shutil.copytree(ROOT / "crates" / "formatter", root / "crates" / "formatter")
            (root / "docs").mkdir()
            shutil.copy(ROOT / "docs" / "AUDIT.md", root / "docs")
            shutil.copy(ROOT / "docs" / "DECISIONS.md", root / "docs")
            (root / "crates.txt").write_text("formatter:\n", encoding="utf-8")
            gone = "formatter lists EveryList, which specs/ does not have"
            self.assertFalse([one for one in checks.other_statements(root) if "formatter" in one])
            theorem, claim = r"unfoldable pub EveryList.*?\n\n", r"pub every_list.*?\n\n"
            for name, taken in (("specs/Theorems.antt", theorem), ("proofs/Claims.antt", claim)):
                path = root / "crates" / "formatter" / name
                text, times = re.subn(taken, "", path.read_text(encoding="utf-8"), flags=re.S)
                self.assertEqual(times, 1)
                path.write_text(text.replace(" EveryList,", ""), encoding="utf-8")
            self.assertEqual(list(checks.unproved_statements(root)), [])
            self.assertTrue([one for one in checks.other_statements(root) if gone in one])
            self.assertTrue([one for one in checks.unknown_names(root) if "`EveryList` is nowhere" in one])

    def test_theorem_that_became_a_function(self):
        changes = (
            ("Theorems.antt", "EveryList : Type 0\nEveryList = (policy : List ℕ)", "EveryList : List ℕ → Type 0\nEveryList policy ="),
            ("Claims.antt", "  EveryList,\n", ""),
            ("Claims.antt", "pub every_list : EveryList\nevery_list policy calls = list-claim policy calls\n", ""),
            ("AUDIT.md", ", `EveryList` |", " |"),
        )
        self.assertEqual(self.findings(checks.unproved_statements, *changes), [])
        self.finds("Theorems.antt: EveryList is an open statement", checks.open_statements, *changes)

    def test_open_statements(self):
        uses = ("Theorems.antt", "Parted x × Through x", "f x ≡ x")
        for name in ("Parted", "Through", "Last"):
            self.finds(f"Theorems.antt: {name} is an open statement", checks.open_statements, uses)
        self.assertEqual(len(self.findings(checks.open_statements, uses)), 3)
        section = ("Theorems.antt", "pub data Kind", "module _ (x : ℕ) where\n  pub Inside : Type 0\n  Inside = x ≡ x\n\npub data Kind")
        self.finds("Theorems.antt: Inside is an open statement", checks.open_statements, section)

    def test_statement_that_says_nothing(self):
        for empty in ("Unit {0}", "(x : ℕ) → Unit", "(x : ℕ) → f x ≡ f x", "\n    (x : ℕ)\n    → ⊤"):
            change = ("Theorems.antt", "Same = (x : ℕ) → Parted x × Through x", f"Same = {empty}")
            self.finds("Same is empty", checks.empty_statements, change)
        change = ("Theorems.antt", "→ ListClaim policy calls", "→ policy ≡ calls")
        self.finds("EveryList does not claim ListClaim", checks.empty_statements, change)

    def test_clause_that_says_nothing(self):
        change = ("Claimed.antt", "pub others : text ≡ calls", "pub others : text ≡ text")
        self.finds("the clause others of ListClaim is empty", checks.empty_statements, change)
        change = ("Claimed.antt", "→ n ≡ length calls", "→ Unit {0}")
        self.finds("the clause number of ListClaim is empty", checks.empty_statements, change)

    def test_statement_that_is_not_listed(self):
        self.finds("one does not list Whole", checks.other_statements, ("AUDIT.md", "`Worked`, `Whole`", "`Worked`"))
        row = "| one | `Same`, `Worked`, `Whole`, `EveryList` |\n"
        self.finds("one does not list Same", checks.other_statements, ("AUDIT.md", row, ""))
        self.finds("one lists Same twice", checks.other_statements, ("AUDIT.md", "`Same`, `Worked`", "`Same`, `Same`, `Worked`"))
        self.finds("it has no row", checks.other_statements, ("AUDIT.md", "## The statements", "## Statements"))

    def test_statement_of_a_crate_that_is_not_there(self):
        self.finds("two has nothing in specs/", checks.other_statements, ("AUDIT.md", "| one | `Same`", "| two | `Same`"))

    def test_clause_taken_away(self):
        self.finds("ListClaim lists others", checks.other_statements, ("Claimed.antt", "    pub others : text ≡ calls\n", ""))
        self.finds("FormattedClaim has nothing", checks.other_statements, ("Claimed.antt", "record FormattedClaim", "record Formatted"))
        self.finds("ListClaim does not list number", checks.other_statements, ("AUDIT.md", "`others`, `number` |", "`others` |"))

    def test_clause_named_in_passing(self):
        self.finds("ListClaim has no clause other", checks.unknown_names, ("AUDIT.md", "`others` and", "`other` and"))
        self.finds("FormattedClaim has no clause once", checks.unknown_names, ("AUDIT.md", "(`again`)", "(`once`)"))

    def test_name_that_is_not_in_its_place(self):
        self.finds("one/Theorems does not declare Laws", checks.unknown_names, ("AUDIT.md", "`Last`", "`Laws`"))
        self.finds("one/Claimed does not declare Through", checks.unknown_names, ("AUDIT.md", "one/Theorems", "one/Claimed"))
        self.finds("two/Theorems does not declare Last", checks.unknown_names, ("AUDIT.md", "one/Theorems", "two/Theorems"))

    def test_name_that_is_not_there(self):
        self.finds("`Other` is nowhere", checks.unknown_names, ("AUDIT.md", "about `Some`", "about `Other`"))
        self.finds("DECISIONS.md: `Sum` is nowhere", checks.unknown_names, ("DECISIONS.md", "`Same`", "`Sum`"))
        self.finds("`Answer` is nowhere", checks.unknown_names, ("lib.rt", "enum Answer", "enum Question"))
        self.finds("`Reply` is nowhere", checks.unknown_names, ("reply.rs", "pub struct", "struct"))

    def test_statement_without_claim(self):
        self.finds("nothing proves Same", checks.unproved_statements, ("Claims.antt", "pub same : Same\n", "same : Same\n"))

    def test_record_without_claim(self):
        self.finds("nothing proves Whole", checks.unproved_statements, ("Claims.antt", "pub whole : Whole", "whole : Whole"))

    def test_missing_claims(self):
        self.finds("is missing, so nothing proves Same", checks.unproved_statements, removed=["crates/one/proofs/Claims.antt"])

    def test_claim_with_hypothesis(self):
        self.finds("is not a statement", checks.unproved_statements, ("Claims.antt", "pub same : Same", "pub same : (x : ⊥) → Same"))

    def test_claim_in_a_comment(self):
        self.finds("nothing proves Same", checks.unproved_statements, ("Claims.antt", "pub same : Same\n", "{-\npub same : Same\n-}\n"))

    def test_statement_with_a_comment(self):
        self.finds(
            "nothing proves Other",
            checks.unproved_statements,
            ("Theorems.antt", "pub record Whole", "pub Other : Type 0 -- words\nOther = Same\n\npub record Whole"),
        )

    def test_no_statement(self):
        self.finds("it has no statement", checks.unproved_statements, ("Theorems.antt", ": Type 0", ": Type zero"))

    def test_claim_in_section(self):
        self.finds("further hypotheses", checks.unproved_statements, ("Claims.antt", "pub same", "module _ (x : ⊥) where\npub same"))

    def test_claim_of_another_statement(self):
        self.finds("is not imported from", checks.unproved_statements, ("Claims.antt", "specs.Theorems", "specs.Others"))

    def test_statement_in_section(self):
        change = ("Theorems.antt", "unfoldable pub Same", "  unfoldable pub Same")
        self.finds("that a claim cannot name", checks.unproved_statements, change)

    def test_statement_not_public(self):
        self.finds("that a claim cannot name", checks.unproved_statements, ("Theorems.antt", "unfoldable pub Same", "unfoldable Same"))

    def test_claims_not_reached(self):
        self.finds("no line `pub mod Claims`", checks.unproved_statements, ("proofs/Lib.antt", "pub mod ", "mod "))
        self.finds("no line `pub mod Claims`", checks.unproved_statements, ("proofs/Lib.antt", "pub mod ", "{-\npub mod "))


if __name__ == "__main__":
    unittest.main()
