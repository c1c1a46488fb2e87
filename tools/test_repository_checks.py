"""Tests of repository_checks.py: each check finds its faults, and none in a correct repository."""

import pathlib
import tempfile
import unittest
import unittest.mock

import repository_checks as checks
import theorem_checks
from test_theorem_checks import CLAIMED_RECORDS

SOUND = {
    "crates.txt": "# a comment\none:\nmessage_io: one io\ntwo: one message_io io\n",
    "crates/one/src/lib.rt": """
// pub fn in_a_comment(x: u8) -> u8 { x }
pub fn same(x: u8) -> u8
    ensures { result ≡ x }
{
    x
}

pub fn twice(x: u8) -> [u8; 2]
    ensures { result ≡ x ∷ x ∷ [] }
{
    [x, x]
}

fn private(x: u8) -> u8
    requires { x < 3 }
{
    x + 1
}

pub struct Thing {}

impl Thing {
    pub fn part<'a>(self, s: &'a [u8; 4], at: usize) -> &'a [u8]
        ensures first { f (record { at = at }) ≡ result }
        ensures second { s.new ≡ s.old }
    {
        &s[..]
    }
}

impl<'a> BitOr<&'a Thing> for Thing {
    type Output = Self;

    ghost bitor_gives = { λ a b r. r ≡ record { bits = a .bits; more = b.now } };

    fn bitor(self, rhs: &'a Thing) -> Self {
        merged(self, rhs)
    }
}

impl Iterator for Thing {
    ghost use Rattle.one.specs.Theorems.{yields};

    ghost next_gives = { yields };

    ghost remaining = { λ s. at_most s.rest };

    fn next(&mut self) -> Option<u8> {
        self.pass()
    }
}

impl Error for Thing {}

struct Hidden;

impl Display for Hidden {
    fn fmt(&self, f: &mut Formatter) -> Result {
        Ok(())
    }
}

#[cfg(test)]
mod tests {
    impl Read for Slow<'_> {
        fn read(&mut self, buf: &mut [u8]) -> usize {
            0
        }
    }
}
""",
    "crates/one/specs/Theorems.antt": "pub Same : Type 0\nSame = (x : ℕ) → f x ≡ x\n",
    "crates/one/specs/Claimed.antt": "pub record ListClaim (x : ℕ) : Type 0 where\n  pub all : f x ≡ x\n\n"
    "pub record FormattedClaim (x : ℕ) : Type 0 where\n  pub all : f x ≡ x\n",
    "crates/one/proofs/Lib.antt": "pub mod Claims\n",
    "crates/one/proofs/Claims.antt": "use Rattle.one.specs.Theorems.{Same}\n\npub same : Same\nsame = refl\n",
    "crates/one/must-fail/wrong.edit": "refused by: twice: returns\nfile: src/lib.rt\nold: [x, x]\nnew: [x, 0]\n",
    "crates/message_io/src/lib.rt": "pub fn get() -> u8 ensures { result ≡ 0 } { 0 }\n",
    "crates/message_io/must-fail/one.edit": "refused by: get: returns\nfile: src/lib.rt\nold: { 0 }\nnew: { 1 }\n",
    "crates/two/src/main.rt": "pub struct Seen;\n\nimpl Display for Seen {\n    fn fmt(&self) -> Result {\n        Ok(())\n    }\n}\n\n"
    "fn main() {}\n",
    "docs/DECISIONS.md": "A theorem is as `Same`.\n",
    "docs/AUDIT.md": """
Each of `same`, `twice` and `part` has a row below.

Excludes: another letter (edit
`wrong` of one).

## The statements

| crate | statements |
|---|---|
| one | `Same` |

| record | clauses |
|---|---|
| `ListClaim` | `all` |
| `FormattedClaim` | `all` |

## Impostors

| impostor | the wrong program as an edit | what refuses it |
|---|---|---|
| one that writes 0 | edit `wrong` of one | `returns` of `twice` |
| one that gets 1 | for the code edit `one` of message_io; edit `wrong` of one | `returns` of `get`; `returns` of `twice` |

## What each contract rules out

### one

| function | what excludes wrong programs |
|---|---|
| `same`, `thing::twice` | edit `wrong` |
| `Thing::part` | `ensures`; not as `same` |
| `\\|` of `Thing` | `bitor_gives` |
| `Thing::next` | `next_gives` |

### message_io

| function | what excludes wrong programs |
|---|---|
| `get` | edit `one` |
""",
    "target/edits/one/wrong.log": "./proofs/twice/Answers.antt:1:2: error: `returns`: the two types differ\n",
    "target/edits/message_io/one.log": "note: src/lib.rt:1:1: it is not proved that (`returns`)\n"
    "fn message_io::get: no proof: expected answers in ./proofs/get/Answers.antt; `search` did not prove `returns`\n",
    "target/rt-ci.log": "rt: one proved\nrt: message_io is kept: an earlier run on this machine proved the same files\nrt: two proved\n"
    "rt: ok; handles allowed: none; must-fail edits: 2 refused; every proof and must-fail edit was done in this run\n5 passed, 0 failed\n",
    "target/log/tilghorz_c.say": "fn one::same: proved\naxioms libc: none reached of the 128 declared\n"
    "logic=proved functions=2 target=x86_64 sum=0\n",
}


@unittest.mock.patch.object(theorem_checks, "CLAIMED_RECORDS", CLAIMED_RECORDS)
class Checks(unittest.TestCase):
    def findings(self, check, **changes):
        with tempfile.TemporaryDirectory() as folder:
            root, changed = pathlib.Path(folder), set()
            for name, text in SOUND.items():
                key = pathlib.PurePath(name).name.replace(".", "_").replace("-", "_")
                if key in changes and changes[key][0] in text:
                    text = text.replace(*changes[key])
                    changed.add(key)
                path = root / name
                path.parent.mkdir(parents=True, exist_ok=True)
                path.write_text(text, encoding="utf-8")
            self.assertEqual(changed | {"folders", "removed"}, {*changes, "folders", "removed"})
            for name in changes.get("folders", ()):
                (root / name).mkdir(parents=True)
            for name in changes.get("removed", ()):
                (root / name).unlink()
            return list(check(root))

    def finds(self, words, check, **changes):
        findings = self.findings(check, **changes)
        self.assertTrue(any(words in finding for finding in findings), findings)

    def test_sound(self):
        for check in checks.SOURCE + checks.PRODUCTS:
            self.assertEqual(self.findings(check), [], check.__name__)

    def test_unlisted_crate(self):
        self.finds("crates/three", checks.unlisted_crates, folders=["crates/three"])

    def test_no_library(self):
        self.finds("it lists no library", checks.unlisted_crates, crates_txt=("one:\nmessage_io:", "# one:\n#"))

    def test_library_without_edit(self):
        self.finds("one: the library has no must-fail edit", checks.unlisted_crates, removed=["crates/one/must-fail/wrong.edit"])

    def test_long_line(self):
        line = "// " + 138 * "x"
        change = ("// pub fn in_a_comment(x: u8) -> u8 { x }", line)
        self.finds("crates/one/src/lib.rt: line 2 has 141 characters", checks.long_lines, lib_rt=change)
        self.assertEqual(self.findings(checks.long_lines, lib_rt=("// pub fn in_a_comment(x: u8) -> u8 { x }", line[:-1])), [])
        attribute = "#[tactic(auto, using(" + 138 * "x" + "))]"
        self.assertEqual(self.findings(checks.long_lines, lib_rt=("// pub fn in_a_comment(x: u8) -> u8 { x }", attribute)), [])

    def test_public_requires(self):
        self.finds("part: a public function has a `requires`", checks.weak_contracts, lib_rt=("ensures first", "requires first"))

    def test_public_without_ensures(self):
        self.finds("same: a public function has no `ensures`", checks.weak_contracts, lib_rt=("    ensures { result ≡ x }\n", ""))

    def test_public_with_an_empty_ensures(self):
        for empty in ("result ≡ result", "x ≡ x", "Unit", "f x ≡ x", "x.result ≡ x"):
            self.finds("same: an `ensures` says nothing", checks.weak_contracts, lib_rt=("result ≡ x }", f"{empty} }}"))
        self.finds("part: an `ensures` says nothing", checks.weak_contracts, lib_rt=("s.new", "s.now"))

    def test_exported_without_ensures(self):
        self.finds(
            "cross: a public function has no `ensures`",
            checks.weak_contracts,
            lib_rt=("impl Thing {", '#[unsafe(no_mangle)]\npub extern "C" fn cross(x: u64) -> u64 {\n    x\n}\n\nimpl Thing {'),
        )

    def test_ensures_in_a_comment(self):
        self.finds(
            "same: a public function has no `ensures`",
            checks.weak_contracts,
            lib_rt=("    ensures { result ≡ x }\n", "/* /* nested */ ensures { result ≡ x } */\n"),
        )

    def test_clause_that_is_not_known(self):
        self.finds("is not understood: 'promises", checks.weak_contracts, lib_rt=("ensures second", "promises { } requires"))

    def test_trait_without_a_contract(self):
        words = "lib.rt: Thing::{}: a function of a trait has neither an `ensures` nor a ghost member that says what it gives"
        gives = "    ghost bitor_gives = { λ a b r. r ≡ record { bits = a .bits; more = b.now } };\n\n"
        self.finds(words.format("bitor"), checks.weak_contracts, lib_rt=(gives, ""))
        self.finds(words.format("bitor"), checks.weak_contracts, lib_rt=("ghost bitor_gives", "ghost other"))
        self.finds(words.format("next"), checks.weak_contracts, lib_rt=("    ghost next_gives = { yields };\n\n", ""))
        self.finds("Hidden::fmt", checks.weak_contracts, lib_rt=("struct Hidden", "pub struct Hidden"))
        own = "    fn bitor(self, rhs: &'a Thing) -> Self\n        ensures { result ≡ merged self rhs }\n    {\n"
        changed = (gives + "    fn bitor(self, rhs: &'a Thing) -> Self {\n", own)
        self.assertEqual(self.findings(checks.weak_contracts, lib_rt=changed), [])
        self.finds("Thing::bitor: the contract of", checks.weak_contracts, lib_rt=(changed[0], own.replace("result ≡", "self ≡")))

    def test_trait_with_an_empty_contract(self):
        words = "Thing::{}: the contract of a function of a trait says nothing about the outcome: {}"
        for empty in ("λ _ _ _. ⊤", "⊤", "λ a b r. Unit {0}", "λ a b r. a ≡ b", "λ a b (r : Thing). f r ≡ f r", "λ a b r. f a.r b"):
            change = ("λ a b r. r ≡ record { bits = a .bits; more = b.now }", empty)
            self.finds(words.format("bitor", f"bitor_gives = {empty}"), checks.weak_contracts, lib_rt=change)
        self.finds(words.format("next", "next_gives = λ s r t. f s"), checks.weak_contracts, lib_rt=("{ yields }", "{ λ s r t. f s }"))
        self.assertEqual(self.findings(checks.weak_contracts, lib_rt=("{ yields }", "{ λ s r t. r ≡ f s }")), [])
        shown = "impl Display for Thing {\n    ghost output = { λ x. None };\n\n    fn fmt(&self) -> Result {\n        Ok(())\n    }\n}"
        self.finds(words.format("fmt", "output = λ x. None"), checks.weak_contracts, lib_rt=("impl Error for Thing {}", shown))
        shown = shown.replace("None", "Some (codes \"a thing\")")
        self.assertEqual(self.findings(checks.weak_contracts, lib_rt=("impl Error for Thing {}", shown)), [])

    def test_trait_that_asks_more(self):
        words = "Thing::bitor: a function of a trait asks more of its callers than the trait: "
        asks = "    ghost can_bitor = { λ a b. a ≡ b };\n\n    ghost bitor_gives"
        self.finds(words + "can_bitor", checks.weak_contracts, lib_rt=("    ghost bitor_gives", asks.replace("a ≡ b", "f a < 3")))
        self.assertEqual(self.findings(checks.weak_contracts, lib_rt=("    ghost bitor_gives", asks.replace("a ≡ b", "⊤"))), [])
        asks = "Thing) -> Self\n        requires { f self < 3 }\n    {\n"
        self.finds(words + "requires", checks.weak_contracts, lib_rt=("Thing) -> Self {\n", asks))

    def test_library_without_public_function(self):
        self.finds("has no public function", checks.weak_contracts, lib_rt=("pub fn", "pub(crate) fn"))

    def test_function_without_row(self):
        self.finds("one: part has no row", checks.unaudited_functions, AUDIT_md=("| `Thing::part` | `ensures`; not as `same` |\n", ""))

    def test_function_in_the_row_of_another(self):
        self.finds("one: same has no row", checks.unaudited_functions, AUDIT_md=("`same`, `thing::twice`", "`thing::twice`"))

    def test_row_in_the_part_of_another_crate(self):
        self.finds("one: same has no row", checks.unaudited_functions, AUDIT_md=("### one", "### two"))

    def test_function_of_a_trait_without_row(self):
        check = checks.unaudited_functions
        self.finds("one: Thing::bitor has no row", check, AUDIT_md=("| `\\|` of `Thing` | `bitor_gives` |\n", ""))
        self.finds("one: Thing::next has no row", check, AUDIT_md=("`Thing::next`", "`Other::next`"))
        self.finds("one: Thing::bitor has no row", check, AUDIT_md=("`\\|` of `Thing`", "`\\|` of `Other`"))
        self.finds("one: Thing::bitor has no row", check, AUDIT_md=("`\\|` of `Thing`", "`&` of `Thing`"))
        for row in ("`Thing::bitor`", "`&`, `\\|` of `Other` and `Thing`"):
            self.assertEqual(self.findings(check, AUDIT_md=("`\\|` of `Thing`", row)), [])

    def test_impostor_that_another_proof_refuses(self):
        check, words = checks.other_impostors, "one that writes 0: it is refused by `returns` of `twice`, and the row says"
        self.finds(f"{words} `returns` of `same`", check, AUDIT_md=("| `returns` of `twice` |", "| `returns` of `same` |"))
        self.finds(f"{words} `returns-2` of `twice`", check, AUDIT_md=("| `returns` of `twice` |", "| `returns-2` of `twice` |"))
        self.finds(f"{words} the contract of `twice`", check, AUDIT_md=("| `returns` of `twice` |", "| the contract of `twice` |"))
        self.finds("one that gets 1: it is refused by", check, AUDIT_md=("`returns` of `get`; ", ""))
        self.finds("one that writes 0: it is refused by `shape` of `Laws`", check, wrong_edit=("twice: returns", "Laws: shape"))
        self.finds("one that gets 1: it is refused by", check, AUDIT_md=("code edit `one` of message_io", "code edit `one` of one"))
        self.finds("no row names an edit", check, AUDIT_md=("## Impostors\n", "## Others\n"))

    def test_edit_that_is_not_there(self):
        self.finds("no must-fail edit right", checks.unaudited_functions, AUDIT_md=("edit `wrong`", "edits `wrong`, `right`"))

    def test_edits_of_two_crates_over_two_lines(self):
        change = ("edit\n`wrong` of one", "edits\n`wrong` of one,\n`right` of two")
        self.finds("no must-fail edit right", checks.unaudited_functions, AUDIT_md=change)

    def test_what_rt_ci_counted(self):
        def of(line):
            return lambda root: checks.miscounted(root, line)

        self.assertEqual(self.findings(of("5 passed, 0 failed")), [])
        for line in ("0 passed, 0 failed", "4 passed, 0 failed", "5 passed, 1 failed", ""):
            self.finds("with all crates and must-fail edits it is `5 passed, 0 failed`", of(line))
        for change in (("rt: ok;", "rt: well;"), ("2 refused;", "1 refused, 1 bad;"), ("2 refused;", "1 refused;")):
            self.finds("its line `rt: ok` is `", of("5 passed, 0 failed"), rt_ci_log=change)

    def test_edit_that_is_refused_for_a_name(self):
        self.assertEqual(self.findings(checks.refused_for_a_name), [])
        line = "rt: must-fail one/wrong.edit: refused, as it must be (only {}: change a value): ./proofs/a\nrt: ok;"
        for why in ("because a proof file names what the edit took away", "by a limit of the prover"):
            said = f"crates/one/must-fail/wrong.edit: rt ci refuses it only {why}"
            self.finds(said, checks.refused_for_a_name, rt_ci_log=("rt: ok;", line.format(f"{why}, so this says little")))
        plain = "rt: must-fail one/wrong.edit: refused, as it must be: ./proofs/a: (only here)\nrt: ok;"
        self.assertEqual(self.findings(checks.refused_for_a_name, rt_ci_log=("rt: ok;", plain)), [])
        limit = ("2 refused;", "2 refused, 1 of them only by a limit;")
        self.finds("its line `rt: ok` is `", lambda root: checks.miscounted(root, "5 passed, 0 failed"), rt_ci_log=limit)

    def test_library_that_calls_c_through_std(self):
        words = "one/src/lib.rt: the library uses contracts of C functions, through std::fs"
        self.finds(words, checks.libraries_that_call_c, lib_rt=("fn private", "use std::fs;\n\nfn private"))
        test = "#[cfg(test)]\nmod tests {\n    use std::fs;\n}\n\nfn private"
        self.assertEqual(self.findings(checks.libraries_that_call_c, lib_rt=("fn private", test)), [])

    def test_clauses_after_type_parameters_and_bounds(self):
        for head in ("fn same<F: Fn(u8) -> u8>(x: F) -> u8", "fn same<T>(x: T) -> Result<u8, Error>\n    where\n        T: Copy,"):
            self.assertEqual(self.findings(checks.weak_contracts, lib_rt=("fn same(x: u8) -> u8", head)), [])
            empty = ("fn same(x: u8) -> u8\n    ensures { result ≡ x }", f"{head}\n    ensures {{ x ≡ x }}")
            self.finds("same: an `ensures` says nothing", checks.weak_contracts, lib_rt=empty)

    def test_library_that_calls_c(self):
        words = "one: the library uses contracts of C functions, through libc"
        self.finds(words, checks.libraries_that_call_c, crates_txt=("one:", "one: libc"))

    def test_library_that_calls_c_through_another(self):
        words = "one: the library uses contracts of C functions, through message_io"
        self.finds(words, checks.libraries_that_call_c, crates_txt=("one:\nmessage_io: one io", "one: message_io\nmessage_io: io"))

    def test_static_library_on_an_axiom(self):
        self.assertEqual(self.findings(checks.rests_on_axioms), [])
        for more in ("axioms=1", "foreign=1"):
            self.finds("uses an axiom", checks.rests_on_axioms, tilghorz_c_say=("sum=0", f"{more} sum=0"))
        change = ("none reached of the 128 declared", "libc::write (1 of the 128 declared)")
        self.finds("uses an axiom: axioms libc: libc::write", checks.rests_on_axioms, tilghorz_c_say=change)

    def test_static_library_not_made(self):
        words = "does not say that it is a proved static library"
        self.finds(words, checks.rests_on_axioms, removed=["target/log/tilghorz_c.say"])
        self.finds(words, checks.rests_on_axioms, tilghorz_c_say=("=proved", "=not-proved"))
        self.finds(words, checks.rests_on_axioms, tilghorz_c_say=(" target=x86_64", ""))

    def test_crate_not_proved(self):
        self.finds("crates/two: no log says", checks.unproved_crates, removed=["target/rt-ci.log"])
        self.finds("crates/one: no log says", checks.unproved_crates, rt_ci_log=("rt: one proved", "rt: one NOT PROVED"))
        self.finds("crates/message_io: no log says", checks.unproved_crates, rt_ci_log=("message_io is kept: ", "message_io "))


if __name__ == "__main__":
    unittest.main()
