"""Tests of the gate, .ci/run, with test programs instead of rt, cargo, python3 and the two programs. The gate passes if all of them
pass, it fails if any one of them fails, and it says so if it skips the comparison with evfmt."""

import os
import pathlib
import shutil
import subprocess
import tempfile
import unittest

ROOT = pathlib.Path(__file__).resolve().parent.parent
# Writes its call to the file `calls`. The call in the file `failing` fails.
PROGRAM = """#!/bin/sh
call="$(basename "$0") $*"
echo "$call" >> "$GATE/calls"
[ "$call" != "$(cat "$GATE/failing")" ] || exit 9
[ "${TILGHORZ_LIBRARY:-target/staticlib}" = target/staticlib ] || exit 9
case "$call" in
    "rt version") cat "$GATE/kit" ;;
    "rt ci") echo proved; cat "$GATE/ok" "$GATE/last" ;;
    "tilghorz format" | "tilghorz report") cat ;;
esac
"""


OK = "rt: ok; handles allowed: none; must-fail edits: 2 refused; every proof and must-fail edit was done in this run\n"


class Gate(unittest.TestCase):
    def setUp(self):
        # A program that the gate started may still write a file while the folder is removed.
        folder = tempfile.mkdtemp()
        self.addCleanup(shutil.rmtree, folder, ignore_errors=True)
        self.root = pathlib.Path(folder, "repository")
        table = "crates/findings_table/out"
        for name in (".ci", "bin", "tools", "host", "crates/format", "crates/report", table, "evfmt/src"):
            (self.root / name).mkdir(parents=True)
        (self.root / table / "findings_table").write_text("a program\n", encoding="utf-8")
        shutil.copy(ROOT / ".ci" / "run", self.root / ".ci" / "run")
        (self.root / "tools" / "kits.txt").write_text("# kits\na kit logic 1\nanother kit logic 2\n", encoding="utf-8")
        for name in ("bin/rt", "bin/cargo", "bin/cargo-clippy", "bin/cargo-fmt", "bin/python3", "tilghorz"):
            (self.root / name).write_text(PROGRAM, encoding="utf-8")
            (self.root / name).chmod(0o755)
        for name in ("format", "report"):
            for file in ("stdin", "stdout"):
                (self.root / "crates" / name / file).write_text("a text\n", encoding="utf-8")

    def run_gate(self, last="3 passed, 0 failed\n", failing="", kit="a kit logic 1\n", ok=OK, **variables):
        """The status, the lines of standard output, and the calls."""
        for name, text in (("calls", ""), ("last", last), ("failing", failing), ("kit", kit), ("ok", ok)):
            (self.root / name).write_text(text, encoding="utf-8")
        path = f"{self.root / 'bin'}{os.pathsep}{os.environ['PATH']}"
        variables = {"PATH": path, "GATE": str(self.root), "EVFMT_SRC": str(self.root), **variables}
        ran = subprocess.run(["bash", self.root / ".ci" / "run"], env=variables, capture_output=True, text=True, check=False)
        return ran.returncode, ran.stdout.splitlines(), (self.root / "calls").read_text(encoding="utf-8").splitlines()

    def test_all_pass(self):
        status, lines, calls = self.run_gate(TILGHORZ_LIBRARY="elsewhere")
        self.assertEqual((status, lines[-1]), (0, "3 passed, 0 failed"))
        self.assertIn("python3 tools/repository_checks.py products 3 passed, 0 failed", calls)
        self.assertLess(calls.index("rt ci"), calls.index("python3 tools/edit_checks.py refuse"))
        self.assertEqual((self.root / "target" / "rt-ci.log").read_text(encoding="utf-8"), f"proved\n{OK}3 passed, 0 failed\n")
        self.assertGreater(len(calls), 25)
        self.assertFalse(any("SKIPPED" in line for line in lines))

    def test_any_one_fails(self):
        _, _, calls = self.run_gate()
        self.assertEqual(len(calls), len(set(calls)))
        for call in calls:
            with self.subTest(call):
                status, lines, made = self.run_gate(failing=call)
                self.assertNotEqual(status, 0)
                self.assertIn(call, made)
                self.assertFalse(any(line.startswith("== done") for line in lines))

    def test_other_last_lines_of_rt_ci(self):
        for last in ("", "0 passed, 0 failed\n", "3 passed, 1 failed\n", "3 passed, 0 failed\nmore\n"):
            with self.subTest(last):
                self.assertNotEqual(self.run_gate(last)[0], 0)

    def test_bad_edits_and_no_line_that_counts_them(self):
        """rt ci itself passes where an edit is bad."""
        for ok in ("", "rt: FAILED: one\n", OK.replace("refused;", "refused, 1 bad;"), OK.replace("refused;", "refused, 12 bad;")):
            with self.subTest(ok):
                self.assertNotEqual(self.run_gate(ok=ok)[0], 0)

    def test_other_output_of_a_program(self):
        (self.root / "crates" / "report" / "stdout").write_text("another text\n", encoding="utf-8")
        self.assertNotEqual(self.run_gate()[0], 0)

    def test_another_kit(self):
        for kit, said in (("a kit logic 1", 0), ("another kit logic 2", 0), ("a kit logic", 1), ("a kit logic 12", 1)):
            with self.subTest(kit):
                status, lines, _ = self.run_gate(kit=f"{kit}\n")
                self.assertEqual((status, lines[-1]), (0, "3 passed, 0 failed"))
                self.assertEqual(len([line for line in lines if line.startswith("gate: ANOTHER KIT: ") and line.endswith(kit)]), said)

    def test_static_library_is_looked_at(self):
        _, _, calls = self.run_gate()
        made = calls.index("python3 tools/static_library.py after-ci")
        self.assertLess(made, calls.index("python3 tools/repository_checks.py staticlib"))

    def test_without_the_crate(self):
        status, lines, calls = self.run_gate(EVFMT_SRC="nowhere")
        self.assertEqual((status, lines[-1]), (0, "3 passed, 0 failed"))
        self.assertEqual(len([line for line in lines if line.startswith("gate: SKIPPED: ")]), 2)
        self.assertFalse(any("compare" in call or "stored-answers" in call for call in calls))
        self.assertNotEqual(self.run_gate(EVFMT_SRC="nowhere", CI="true")[0], 0)


if __name__ == "__main__":
    unittest.main()
