"""Tests of reading_list.py: it finds each fault of a reading list, and none in a sound one."""

import contextlib
import io
import pathlib
import tempfile
import unittest
import unittest.mock

import reading_list

SOUND = {
    "crates.txt": "base:\nitems: base\n",
    "crates/base/src/lib.rt": """// The base.
pub mod more;

// An answer.
pub enum Answer {
    Done,
    Refused,
}

// A number.
#[inline]
pub fn number(answer: Answer) -> usize
    ensures { result ≡ numberOf answer }
{
    0
}
""",
    "crates/base/specs/Answers.antt": """-- Answers.
use Rattle.std.specs.Prelude.{List}
use Rattle.base.specs.declared.Answer.{Answer}
use Rattle.base.specs.declared.Answer.TheVariants.{
  Done,
  Refused,
}

-- The number of an answer.
unfoldable pub numberOf : Answer → ℕ
numberOf Done = 0
numberOf Refused = limit

-- The limit.
abbrev pub limit : ℕ
limit = 8

-- A helper's contract.
abbrev pub helper : ℕ → ℕ
helper limit = limit
""",
    "crates/items/src/lib.rt": """use base::Answer;
ghost use Rattle.base.specs.Answers.{numberOf};
ghost use Rattle.items.specs.Automaton.{states};

// The answer that it is given.
pub fn answer(given: Answer) -> usize
    ensures { result ≡ numberOf given }
{
    base::number(given)
}

// A number of states.
pub(crate) fn states() -> usize
    ensures { result ≡ states }
{
    7
}
""",
    "crates/items/specs/Items.antt": """-- Items.
use Rattle.base.specs.Answers.{limit, numberOf}
use Rattle.items.specs.Automaton.{states as all-states, ◌⊕◌}

-- An item.
pub record Item : Type 0 where
  pub limit : ℕ
  pub helper : ℕ

module _ (n : ℕ) where
  -- The number of items.
  abbrev pub count : Item → (limit : ℕ) → ℕ
  count x limit = all-states ⊕ x.helper
""",
    "crates/items/specs/Automaton.antt": """-- The automaton.
unfoldable pub states : ℕ
states = 7

infixl 65 ◌⊕◌
abbrev pub ◌⊕◌ : ℕ → ℕ → ℕ
m ⊕ n = m
""",
    "docs/AUDIT.md": """# Audit

## Reading list

### One

There are about 18 lines in all.

| file | what to read | lines | what it says |
|---|---|---|---|
| crates/base/src/lib.rt | `Answer` | 4 | the answers |
| crates/base/specs/Answers.antt | `numberOf`, `limit` | 5 | their numbers |
| crates/base/src/lib.rt | `number` | 3 | the contract |
| crates/items/specs/Items.antt | all | 6 | items |

Not to be read:

| file | what need not be read | why |
|---|---|---|
| crates/items/specs/Automaton.antt | `states`, `◌⊕◌` | a theorem says it |

### Two

These are about 4 lines in all.

| file | what to read | lines | what it says |
|---|---|---|---|
| crates/items/src/lib.rt | `answer`, `states` | 4 | the contracts |

## Next

| crates/none/src/lib.rt | `none` | 5 | another table |
""",
}
AUDIT = "docs/AUDIT.md"
LIMITS = {"One": 30, "Two": 10}
REAL_LIMITS = dict(reading_list.LIMITS)


@unittest.mock.patch.object(reading_list, "LIMITS", LIMITS)
class ReadingList(unittest.TestCase):
    def in_repository(self, do, changed=None, old="", new=""):
        with tempfile.TemporaryDirectory() as folder:
            root = pathlib.Path(folder)
            for name, text in SOUND.items():
                if name == changed:
                    self.assertIn(old, text)
                    text = text.replace(old, new, 1)
                (root / name).parent.mkdir(parents=True, exist_ok=True)
                (root / name).write_text(text, encoding="utf-8")
            return do(root)

    def finds(self, words, *change):
        faults = self.in_repository(lambda root: list(reading_list.faults(root)), *change)
        self.assertTrue(any(words in fault for fault in faults), faults)

    def test_sound(self):
        self.assertEqual(self.in_repository(lambda root: list(reading_list.faults(root))), [])

    def test_counts(self):
        def counts(root):
            files = reading_list.Files(root)
            return [[len(lines) for _, _, lines, _, _ in reading_list.read_rows(files, text)] for text in reading_list.parts(root).values()]

        self.assertEqual(self.in_repository(counts), [[4, 5, 3, 6, 5], [4]])

    def test_methods_of_traits(self):
        # What the impl of a trait states counts with its function. A head without clauses ends where the body opens.
        method = """
impl Default for Item {
    ghost use Rattle.items.specs.Automaton.{states};

    ghost is_default = {
        λ x. x ≡ states
    };

    fn fallback() -> Self {
        Item
    }
}

// A number of states."""
        found = self.in_repository(
            lambda root: reading_list.File(root, "crates/items/src/lib.rt"), "crates/items/src/lib.rt", "\n// A number of states.", method
        )
        self.assertEqual(len(found.lines["fallback"]), 4)
        self.assertIn("states", found.words["fallback"])

    def test_missing(self):
        self.finds("crates/items/specs/Item.antt: there is no such file", AUDIT, "Items.antt", "Item.antt")
        self.finds("crates/base/specs/Answers.antt: it does not define numberof", AUDIT, "numberOf", "numberof")
        self.finds("crates/items/specs/Automaton.antt: it does not define state", AUDIT, "`states`", "`state`")
        self.finds("the row names no definition", AUDIT, "`Answer`", "Answer")
        self.finds("| crates/items/specs/Items.antt | all: there is no such file, or no such row", AUDIT, " | 6 | items |", "")
        self.finds("crates/base/specs/Answers.antt: limit is listed twice", AUDIT, "`limit`", "`limit`, `limit`")

    def test_lines(self):
        self.finds("Items.antt: the row says 13 lines, and there are 6", AUDIT, "| 6 |", "| 13 |")
        longer = "limit =\n    1 +\n    2 +\n    3 +\n    2"
        self.finds("Answers.antt: the row says 5 lines, and there are 9", "crates/base/specs/Answers.antt", "limit = 8", longer)
        comment = "-- The\n-- limit\n-- of\n-- it\n-- ."
        sound = self.in_repository(lambda root: list(reading_list.faults(root)), "crates/base/specs/Answers.antt", "-- The limit.", comment)
        self.assertEqual(sound, [])

    def test_sum(self):
        self.finds("One: the text must say once how many lines there are in all, about 18", AUDIT, "about 18 lines in all", "few lines")
        self.finds("One: the text must say once", AUDIT, "about 18 lines", "about 40 lines")
        self.finds("Two: the text must say once", AUDIT, "about 4 lines", "about 2 lines")
        self.finds("One: the lines to read are 0", AUDIT, SOUND[AUDIT], SOUND[AUDIT].replace("| crates/", "| elsewhere/"))
        with unittest.mock.patch.object(reading_list, "LIMITS", {"One": 26, "Two": 4}):
            self.finds("Two: the lines to read are 4; there must be fewer than 4")

    def test_limits(self):
        # The lines of both documents are fewer than 2,500.
        first, second, _ = REAL_LIMITS.values()
        self.assertLessEqual(first + second, 2500)

    def test_parts(self):
        self.finds("One: the lines to read are 0", AUDIT, "## Reading list", "## What to read")
        self.finds("Two: the lines to read are 0", AUDIT, "### Two", "### Three")
        self.finds("Three: the lines to read are 4; there must be fewer than 0", AUDIT, "### Two", "### Three")

    def test_unlisted(self):
        self.finds("number uses Answer of crates/base/src/lib.rt, which is in no table", AUDIT, "`Answer` | 4", "`number` | 3")
        self.finds("numberOf uses limit of crates/base/specs/Answers.antt, which is in no table", AUDIT, ", `limit`", "")
        self.finds("count uses states of crates/items/specs/Automaton.antt, which is in no table", AUDIT, "`states`, ", "")
        self.finds("count uses ◌⊕◌ of crates/items/specs/Automaton.antt, which is in no table", AUDIT, ", `◌⊕◌`", "")
        self.finds("answer uses numberOf of crates/base/specs/Answers.antt, which is in no table", AUDIT, "`numberOf`, ", "")
        self.finds("states uses states of crates/items/specs/Automaton.antt, which is in no table", AUDIT, "`states`, `◌⊕◌`", "`◌⊕◌`")

    def test_order(self):
        row = "| crates/base/src/lib.rt | `Answer` | 4 | the answers |\n"
        later = "| crates/base/src/lib.rt | `number` | 3 | the contract |\n"
        text = SOUND[AUDIT].replace(row, "").replace(later, later + row)
        self.finds("numberOf uses Answer of crates/base/src/lib.rt, which is listed below it", AUDIT, SOUND[AUDIT], text)

    def test_main(self):
        def run(*arguments):
            said = io.StringIO()
            with contextlib.redirect_stdout(said), contextlib.redirect_stderr(said):
                status = self.in_repository(lambda root: reading_list.main(list(arguments), root))
            return status, said.getvalue().splitlines()

        self.assertEqual(run(), (0, []))
        status, lines = run("lines")
        self.assertEqual((status, lines[0].split(), lines[-1].split()), (0, ["4", "crates/base/src/lib.rt"], ["4", "in", "all:", "Two"]))
        self.assertEqual(run("more")[0], 2)


if __name__ == "__main__":
    unittest.main()
