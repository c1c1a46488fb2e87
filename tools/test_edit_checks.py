"""Tests of edit_checks.py: it finds planted faults of must-fail edits and of their logs."""

import contextlib
import io
import os
import pathlib
import tempfile
import unittest
import unittest.mock

import edit_checks as checks

BELOW = "."
SOUND = {
    "crates/one/src/lib.rt": "pub fn same(x: u8) -> u8 { x }\npub fn plain(x: u8) -> u8 { x + 1 }\nfn part() {}\n",
    "crates/one/proofs/part/Answers.antt": "returns : goal.returns\nreturns c = search rules\n",
    "crates/one/specs/Lib.antt": "same x = x\nother x = x\n",
    "crates/one/proofs/Laws.antt": "pub law : Law\nlaw = refl\n",
    "crates/one/proofs/Claims.antt": "pub theorem : Theorem\ntheorem = law\n",
    "crates/one/proofs/same/Proof.antt": "returns : Need\nreturns = search\n\npub same-spec : Statement\nsame-spec = close\n",
    "crates/one/must-fail/wrong.edit": """Another number comes back, of both.
refused by: same: returns
file: src/lib.rt
old: { x }
new: { 0 }
file: specs/Lib.antt
old: same x = x
new: same x = 0
old: same x = 0
new: same x = 1
""",
    "target/edits/one/wrong.log": f"""{BELOW}/proofs/same/Proof.antt:1:2: error: `returns`: the two types differ
  expected type `x ≡ x`
{BELOW}/proofs/same/Proof.antt:3:2: error: `same-spec`: `returns` was not admitted (it was rejected), so this cannot be checked
{BELOW}/proofs/Laws.antt:4:5: error: `law`: the two types differ
{BELOW}/proofs/Claims.antt:4:5: error: `theorem`: `law` was not admitted (it was rejected), so this cannot be checked
note: {BELOW}/src/lib.rt:2:1: it is not proved that what the function ensures holds when it returns (`returns-2`)
./proofs/part/Answers.antt:7:8: error: `returns-then-a`: `search`: no proof of `a ≤ b` was found
fn one::plain: no proof: expected answers in {BELOW}/proofs/plain/Answers.antt; `search` did not prove `returns-2`, `index`
logic=not-proved
""",
}
# Two wrong programs in one edit. The second one changes a method.
TOGETHER = {
    "crates/two/src/lib.rt": """const LAST: u8 = 9;
pub fn same(x: u8) -> u8
    ensures { result ≡ x }
{
    x * 1
}
fn helper(x: u8) -> u8 {
    x + 1
}
""",
    "crates/two/src/pairs/pair.rt": """impl Pair {
    pub fn first(&self) -> u8
        ensures { result ≡ self.now.x }
    {
        self.x
    }
}
""",
    "crates/two/must-fail/together_1.edit": """program: zero
Zero comes back.
refused by: same: returns
file: src/lib.rt
old: x * 1
new: x * 0

program: second
The second part comes back.
refused by: pairs::pair::Pair::first: returns
file: src/pairs/pair.rt
old: self.x
new: self.y
""",
    "target/edits/two/together_1.log": """note: src/lib.rt:2:1: it is not proved that (`returns`)
fn two::same: no proof: expected answers in ./proofs/same/Answers.antt; `search` did not prove `returns`
fn two::pairs::pair::Pair::first: no proof: expected answers in ./proofs/pairs/pair/Pair/first/Answers.antt; `search` did not prove `returns`
only=2 proved=0
""",
}


class Checks(unittest.TestCase):
    def findings(self, check, *changes, sound=SOUND):
        """What a check finds after these changes, each with the end of a file's name, the old text and the new text."""
        texts = dict(sound)
        for file, old, new in changes:
            name = next(name for name in texts if name.endswith(file))
            self.assertIn(old, texts[name])
            texts[name] = texts[name].replace(old, new)
        with tempfile.TemporaryDirectory() as folder:
            root = pathlib.Path(folder)
            for name, text in texts.items():
                (root / name).parent.mkdir(parents=True, exist_ok=True)
                (root / name).write_text(text, encoding="utf-8")
            return list(check(root))

    def finds(self, words, check, *changes, sound=SOUND):
        findings = self.findings(check, *changes, sound=sound)
        self.assertTrue(any(words in finding for finding in findings), findings)

    def test_sound(self):
        for refuser in ("same: returns", "Laws: law", "plain: returns-2", "plain: index", "part: returns-then-a"):
            change = ("wrong.edit", "same: returns", refuser)
            self.assertEqual(self.findings(checks.misfits, change), [])
            self.assertEqual(self.findings(checks.telling_nothing, change), [])

    def test_old_text_that_is_not_there_once(self):
        self.finds("src/lib.rt has its old text 0 times, not once: { x }", checks.misfits, ("lib.rt", "{ x }", "{ y }"))
        self.finds("specs/Lib.antt has its old text 2 times, not once: same x = x", checks.misfits, ("Lib.antt", "other", "same"))

    def test_pair_that_is_not_whole(self):
        self.finds("a pair has no file or no old text", checks.misfits, ("wrong.edit", "src/lib.rt", "src/other.rt"))
        self.finds("a pair has no file or no old text", checks.misfits, ("wrong.edit", "old: { x }\n", ""))
        self.finds("it has no pair", checks.misfits, ("wrong.edit", "new: ", "now: "))

    def test_edit_of_a_proof(self):
        change = ("wrong.edit", "file: specs/Lib.antt\nold: same x = x", "file: proofs/Laws.antt\nold: law = refl")
        self.finds("it changes proofs/Laws.antt", checks.misfits, change)

    def test_edit_of_a_crate_that_is_too_large(self):
        with tempfile.TemporaryDirectory() as folder:
            root = pathlib.Path(folder)
            (root / "crates/vectors/must-fail").mkdir(parents=True)
            (root / "crates/vectors/must-fail/wrong.edit").write_text("", encoding="utf-8")
            self.assertTrue(any("vectors takes too long" in finding for finding in checks.misfits(root)))

    def test_edit_that_names_no_refuser(self):
        self.finds("it has 0 lines `refused by", checks.misfits, ("wrong.edit", "refused by: same: returns\n", ""))
        self.finds("it has 0 lines `refused by", checks.misfits, ("wrong.edit", "same: returns", "same"))
        self.finds("it has 2 lines `refused by", checks.misfits, ("wrong.edit", "file: src", "refused by: Laws: law\nfile: src"))

    def test_refuser_that_is_not_there(self):
        self.finds("proofs/Laws.antt does not declare other", checks.misfits, ("wrong.edit", "same: returns", "Laws: other"))
        self.finds("same/Proof.antt does not declare returns-9", checks.misfits, ("wrong.edit", "same: returns", "same: returns-9"))
        # Of a function without a proof by hand the prover may find a goal alone.
        self.assertEqual(self.findings(checks.misfits, ("wrong.edit", "same: returns", "plain: returns-9")), [])
        self.finds("there is no another", checks.misfits, ("wrong.edit", "same: returns", "another: returns"))

    def test_sound_programs_of_one_edit(self):
        self.assertEqual(self.findings(checks.misfits, sound=TOGETHER), [])
        self.assertEqual(self.findings(checks.telling_nothing, sound=TOGETHER), [])
        self.assertEqual([found[1] for found in self.findings(checks.wrong_programs, sound=TOGETHER)], ["zero", "second"])

    def test_programs_of_one_edit_that_are_not_apart(self):
        second = "file: src/pairs/pair.rt\nold: self.x\nnew: self.y"
        for old, words in (
            ("x * ", "second: zero changes same too"),
            ("result ≡ x", "second: it changes more than bodies"),
            ("LAST: u8 = 9", "second: it changes more than bodies"),
            ("x + 1", "second: it changes more than bodies"),
        ):
            change = (".edit", second, f"file: src/lib.rt\nold: {old}\nnew: 1")
            self.finds(words, checks.misfits, change, sound=TOGETHER)
            self.finds("second: it does not change pairs::pair::Pair::first", checks.misfits, change, sound=TOGETHER)

    def test_methods_of_traits_and_of_types_of_another_file(self):
        pair = TOGETHER["crates/two/src/pairs/pair.rt"]
        method = "impl Start<&[u8]> for Pair {\n    fn first(&self) -> u8 {\n        self.x\n    }\n}\n"
        refused = (".edit", "pairs::pair::Pair::first", "pairs::pair::PairStartRefSliceU8::first")
        self.assertEqual(self.findings(checks.misfits, ("pair.rt", pair, method), refused, sound=TOGETHER), [])
        # A method without clauses has a contract only if it is a trait's.
        bare = method.replace("Start<&[u8]> for ", "")
        self.finds("second: it changes more than bodies", checks.misfits, ("pair.rt", pair, bare), sound=TOGETHER)
        imported = ("pair.rt", pair, "use crate::{Kind, Pair};\n" + pair)
        refused = (".edit", "pairs::pair::Pair::first", "Pair::first")
        self.assertEqual(self.findings(checks.misfits, imported, refused, sound=TOGETHER), [])

    def test_function_that_the_edit_alone_writes(self):
        change = ("wrong.edit", "same: returns", "written: returns")
        new = ("wrong.edit", "new: ", "new: fn written() {} ")
        self.finds("there is no written", checks.misfits, change, new)

    def test_fault_of_one_program_of_an_edit(self):
        for old, new, words in (
            ("old: self.x", "old: self.z", "second: src/pairs/pair.rt has its old text 0 times"),
            ("refused by: same: returns\n", "", "zero: it has 0 lines `refused by"),
            ("program: second", "program: zero", "two has another wrong program of this label"),
        ):
            self.finds(words, checks.misfits, (".edit", old, new), sound=TOGETHER)

    def test_program_of_an_edit_that_nothing_refuses(self):
        """The other program is refused, and so the edit."""
        change = (".log", "fn two::pairs::pair::Pair::first: no proof", "fn two::other: no proof")
        self.finds("second: pairs::pair::Pair::first: returns does not refuse it", checks.telling_nothing, change, sound=TOGETHER)

    def test_edit_that_is_no_definition(self):
        self.finds("ill-formed", checks.telling_nothing, (".log", f"{BELOW}/proofs/same/Proof.antt:1", f"{BELOW}/specs/Lib.antt:1"))

    def test_edit_that_makes_the_proof_unfit(self):
        """The goals of a function are named by its conditions. So an edit can take away the names of some, and be refused by another."""
        for error in (
            "`goal.returns`: module `Rattle.one.proofs.same.Goals` has no `returns` that can be named from here",
            "`x` is not in scope",
            "`c.if1` has no field `before`",
            "record `Lts.Else1`\n  has no field `if2`",
        ):
            change = (".log", "`returns`: the two types differ", f"`returns`: {error}")
            self.finds("same: returns does not refuse it", checks.telling_nothing, change)
            self.finds("and the proof file no longer fits the code", checks.telling_nothing, change)
            self.assertEqual(self.findings(checks.telling_nothing, change, ("wrong.edit", "same: returns", "Laws: law")), [])

    def test_equivalent_rewriting_that_ends_elsewhere(self):
        """The proof of a law goes by the words of the definition, and what the edit names fails only with it."""
        change = ("wrong.edit", "same: returns", "Claims: theorem")
        others = "Laws: law, part: returns-then-a, plain: index, plain: returns-2, same: returns"
        self.finds(f"Claims: theorem does not refuse it; {others} does", checks.telling_nothing, change)
        self.finds("same: same-spec does not refuse it", checks.telling_nothing, ("wrong.edit", "same: returns", "same: same-spec"))

    def test_refuser_that_has_no_error(self):
        named, log = ("wrong.edit", "same: returns", "Laws: law"), (".log", "`law`: the", "`lemma`: the")
        self.finds("Laws: law does not refuse it", checks.telling_nothing, named, log)
        named, log = ("wrong.edit", "same: returns", "plain: index"), (".log", ", `index`", "")
        self.finds("plain: index does not refuse it", checks.telling_nothing, named, log)

    def test_refuser_of_the_same_name_elsewhere(self):
        change = (".log", "proofs/same/Proof.antt:1:2", "proofs/other/Proof.antt:1:2")
        self.finds("same: returns does not refuse it", checks.telling_nothing, change)

    def test_places_of_a_log(self):
        found = self.findings(lambda root: [checks.places(checks.own_errors(log, "one")) for _, log in checks.tried(root)])
        self.assertEqual(found, ["Laws: law, part: returns-then-a, plain: index, plain: returns-2, same: returns"])
        self.assertEqual(checks.places(set()), "nothing")

    def test_log_without_error(self):
        self.finds("its log has no error", checks.telling_nothing, (".log", "error: ", "no "), (".log", "note: ", "no "), (".log", "fn ", "no "))

    def test_edit_not_tried(self):
        with tempfile.TemporaryDirectory() as folder:
            root = pathlib.Path(folder)
            (root / "crates/one/must-fail").mkdir(parents=True)
            (root / "crates/one/must-fail/wrong.edit").write_text("", encoding="utf-8")
            self.assertEqual(list(checks.telling_nothing(root)), ["crates/one/must-fail/wrong.edit: it was not tried"])

    def trying(self, call, logs, status=0, sound=SOUND, more=None):
        """What a call gives with a program in place of rt: its `check` prints the text of a file of `logs`, by the words of the call. The
        status, the lines that are printed, the calls of rt, and what is then in target/edits."""
        with tempfile.TemporaryDirectory() as folder:
            root = pathlib.Path(folder)
            texts = {**sound, "crates.txt": "one:\ntwo: one\n", "crates/one/out/rlib/one": "proved", **(more or {})}
            texts = {name: text for name, text in texts.items() if not name.startswith("target/edits")}
            texts["bin/rt"] = f"""#!/bin/sh
[ "$1" != version ] || exec echo a kit
echo "$(basename "$PWD"): $*" >> {root}/calls
[ ! -e must-fail ] && [ ! -e ../one/out/rlib/one ] && exit 9
cat src/* >> {root}/sources
cat "{root}/logs/$(echo "$*" | tr ' ' '_')"
exit {status}
"""
            texts |= {"calls": "", "sources": "", **{f"logs/{words.replace(' ', '_')}": log for words, log in logs.items()}}
            for file, text in texts.items():
                (root / file).parent.mkdir(parents=True, exist_ok=True)
                (root / file).write_text(text, encoding="utf-8")
            (root / "bin" / "rt").chmod(0o755)
            path, said = f"{root / 'bin'}{os.pathsep}{os.environ['PATH']}", io.StringIO()
            variables = {"PATH": path, "XDG_CACHE_HOME": str(root / "kept")}
            with unittest.mock.patch.dict(os.environ, variables), contextlib.redirect_stdout(said), contextlib.redirect_stderr(said):
                result = call(root)
            self.sources = (root / "sources").read_text(encoding="utf-8")
            made = {path.name: path.read_text(encoding="utf-8") for path in (root / "target" / "edits").rglob("*.log")}
            return result, said.getvalue().splitlines(), (root / "calls").read_text(encoding="utf-8").splitlines(), made

    def test_one_edit_alone(self):
        log = SOUND["target/edits/one/wrong.log"]
        status, lines, calls, _ = self.trying(lambda root: checks.try_one(root, "one/wrong"), {"check --only one::same": log})
        self.assertEqual((status, len(lines)), (0, 2))
        self.assertEqual(lines[0], "one/wrong: Another number comes back, of both.")
        self.assertIn("same: returns: `returns`: the two types differ", lines[1])
        self.assertEqual(calls, ["one: check --only one::same"])
        self.assertIn("fn same(x: u8) -> u8 { 0 }", self.sources)

    def test_one_edit_that_nothing_refuses(self):
        for log in ("only=1 proved=1\n", "", "only=1 proved=0\n"):
            self.assertEqual(self.trying(lambda root: checks.try_one(root, "one/wrong"), {"check --only one::same": log})[0], 1)
        self.assertEqual(self.trying(lambda root: checks.try_one(root, "one/wrung"), {})[0], 2)

    def test_one_program_of_an_edit_alone(self):
        log = TOGETHER["target/edits/two/together_1.log"]
        logs = {"check --only two::pairs::pair::Pair::first": log}
        status, lines, _, _ = self.trying(lambda root: checks.try_one(root, "two/second"), logs, sound=TOGETHER)
        self.assertEqual((status, lines[0]), (0, "two/second: The second part comes back."))
        self.assertIn("x * 1", self.sources)

    def test_goal_that_an_edit_gave_another_name(self):
        """The proof file has no answer under the new name, so only a goal that values make false counts."""
        note = "note: src/pairs/pair.rt:4:9: it is not proved that it holds (`returns-then-x-lt-y`); "
        sound = {**TOGETHER, "crates/two/must-fail/together_1.edit": TOGETHER["crates/two/must-fail/together_1.edit"].replace("first: returns", "first: returns-then-x-lt-y")}
        for end, status in (("the facts known there allow values at which this goal is false", 0), ("`search` gave up at one of its limits", 1)):
            logs = {"check --only two::pairs::pair::Pair::first": f"{note}{end}\nfn two::pairs::pair::Pair::first: not proved\nonly=1 proved=0\n"}
            self.assertEqual(self.trying(lambda root: checks.try_one(root, "two/second"), logs, sound=sound)[0], status)

    def test_every_edit(self):
        """The functions of an edit's programs are checked in one call. What was tried once is not tried again, until something changes."""
        logs = {"check --only one::same": "logic=not-proved\n", "check --only two::pairs::pair::Pair::first --only two::same": "only=2 proved=0\n"}

        def twice(root):
            first = checks.refuse(root)
            (root / "crates/two/src/lib.rt").write_text(TOGETHER["crates/two/src/lib.rt"] + "\n", encoding="utf-8")
            return first, checks.refuse(root)

        status, _, calls, made = self.trying(twice, logs, sound={**SOUND, **TOGETHER})
        self.assertEqual(status, (0, 0))
        two = "two: check --only two::pairs::pair::Pair::first --only two::same"
        self.assertEqual(sorted(calls), ["one: check --only one::same", two, two])
        self.assertEqual(sorted(made), ["together_1.log", "wrong.log"])

    def test_edit_whose_check_ends_without_a_verdict(self):
        status, lines, _, made = self.trying(checks.refuse, {"check --only one::same": "killed\n"})
        self.assertEqual((status, made), (1, {}))
        self.assertIn("crates/one/must-fail/wrong.edit: its check gave no verdict", lines)

    def test_edit_that_rt_ci_tells_of(self):
        """The line of rt ci is enough if it names the lemma; else the whole crate is checked."""
        sound = {**SOUND, "crates/one/must-fail/wrong.edit": SOUND["crates/one/must-fail/wrong.edit"].replace("same: returns", "Laws: law")}
        for name, called in (("law", []), ("lemma", ["one: check"])):
            line = f"rt: must-fail one/wrong.edit: refused, as it must be: ./proofs/Laws.antt:4:5: error: `{name}`: the two types\n"
            found = self.trying(checks.refuse, {"check": "logic=not-proved\n"}, sound=sound, more={"target/rt-ci.log": line})
            self.assertEqual((found[0], found[2]), (0, called))


if __name__ == "__main__":
    unittest.main()
