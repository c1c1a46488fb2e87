"""Tests of program_runs.py, with programs of a few lines."""

import pathlib
import tempfile
import unittest

import program_runs

FAILS = '#!/bin/sh\nif [ -d /dev/stdin ]; then echo "standard input: no" >&2; else cat; fi\n'
READS_ONCE = "#!/bin/sh\nif [ -d /dev/stdin ]; then echo no >&2; else dd bs=65536 count=1 2>/dev/null; fi\n"


class Runs(unittest.TestCase):
    def setUp(self):
        folder = tempfile.TemporaryDirectory()
        self.addCleanup(folder.cleanup)
        self.runs = pathlib.Path(folder.name, "runs")
        self.programs = pathlib.Path(folder.name, "bin")
        self.runs.mkdir()
        self.programs.mkdir()

    def program(self, name, text):
        path = self.programs / name
        path.write_text(text, encoding="utf-8")
        path.chmod(0o755)

    def store(self, name, text, format_output, report_output):
        for suffix, content in (("in", text), ("format", format_output), ("report", report_output)):
            (self.runs / f"{name}.{suffix}").write_bytes(content)

    def wrong(self):
        return list(program_runs.wrong_runs(self.runs, self.programs))

    def test_as_stored(self):
        self.store("a", b"abc", b"abc", b"abc")
        self.program("format", FAILS)
        self.program("report", FAILS)
        self.assertEqual(self.wrong(), [])

    def test_another_byte(self):
        self.store("a", b"abc", b"abc", b"abd")
        self.program("format", FAILS)
        self.program("report", FAILS)
        found = self.wrong()
        self.assertEqual(len(found), 2)
        self.assertIn("report a, as a file: 3 bytes, expected 3; from byte 2 on 63, expected 64", found[0])
        self.assertIn("in pieces", found[1])

    def test_another_status(self):
        self.store("a", b"abc", b"abc", b"abc")
        self.program("format", FAILS)
        self.program("report", FAILS + "exit 3\n")
        self.assertEqual(self.wrong(), ["report a, as a file: exit status 3", "report a, in pieces: exit status 3"])

    def test_a_short_read_taken_for_the_end(self):
        text = b"x" * (200 * program_runs.PIECE)
        self.store("long", text, text, text)
        self.program("format", READS_ONCE)
        self.program("report", FAILS)
        self.assertTrue(any("format long, in pieces" in line for line in self.wrong()))

    def test_a_failing_read_taken_for_the_end(self):
        self.store("a", b"", b"", b"")
        self.program("format", FAILS)
        self.program("report", "#!/bin/sh\ncat 2>/dev/null || true\n")
        self.assertEqual(self.wrong(), ["report: it writes 0 lines to standard error when standard input cannot be read"])

    def test_tables_that_differ(self):
        texts = [b"x" * 100] * 200
        self.program("table", "#!/bin/sh\necho $(wc -l) lines, 0 findings, 0 refused, 0 different\n")
        self.assertEqual(list(program_runs.wrong_tables(self.programs / "table", texts)), [])
        self.program("table", "#!/bin/sh\necho $(wc -l) lines, 0 findings, 0 refused, 1 different\n")
        self.assertEqual(len(list(program_runs.wrong_tables(self.programs / "table", texts))), 2)

    def test_tables_of_no_text(self):
        self.program("table", "#!/bin/sh\necho $(wc -l) lines, 0 findings, 0 refused, 0 different\n")
        self.assertEqual(list(program_runs.wrong_tables(self.programs / "table", [])), ["table: no stored text"])
        self.program("table", "#!/bin/sh\necho $(wc -l) lines, 0 findings, 0 refused, 0 different\nexit 3\n")
        self.assertEqual(len(list(program_runs.wrong_tables(self.programs / "table", [b"x"]))), 1)

    def test_other_lines(self):
        (self.runs / "stdin").write_bytes(program_runs.lines())
        self.assertEqual(list(program_runs.wrong_lines(self.runs)), [])
        (self.runs / "stdin").write_bytes(program_runs.lines()[1:])
        self.assertEqual(len(list(program_runs.wrong_lines(self.runs))), 1)

    def test_a_failing_read_that_writes(self):
        self.store("a", b"", b"", b"")
        self.program("format", FAILS)
        self.program("report", "#!/bin/sh\nif [ -d /dev/stdin ]; then echo no; echo no >&2; fi\n")
        self.assertEqual(self.wrong(), ["report: it writes b'no\\n' when standard input cannot be read"])

    def test_statuses_of_refusals(self):
        root = self.runs.parent
        self.store("a", b"refused 1\n", b"refused 1\n", b"total\n")
        self.store("b", b"\xff", b"refused 3 0\n", b"refused 3 0\n")
        self.store("c", b"a" * 16385, b"refused 1\n", b"refused 1\n")
        self.store("d", b"a" * 12289, b"a" * 12289, b"refused 1\n")
        wrapper = root / "tilghorz"
        lines = """#!/bin/sh
cat > "$0.text"
for name in a b c d; do cmp -s "$0.text" "$(dirname "$0")/runs/$name.in" && cat "$(dirname "$0")/runs/$name.$1"; done
cmp -s "$0.text" "$(dirname "$0")/runs/a.in" || test "$1$(wc -c < "$0.text")" = format12289 || exit 3
"""
        for text, wrong in (
            (lines, 0),
            (lines.replace("exit 3", "exit 0"), 5),
            (lines.replace(" || exit 3", "; exit 3"), 3),
            (lines.replace("cat \"$(", "echo \"$("), 8),
        ):
            wrapper.write_text(text, encoding="utf-8")
            wrapper.chmod(0o755)
            self.assertEqual(len(list(program_runs.wrong_statuses(root, self.runs))), wrong)

    def test_nothing_stored_and_nothing_built(self):
        found = self.wrong()
        self.assertEqual(len(found), 3)
        self.assertIn("no stored run", found[0])
        self.assertIn("format: is not built", found[1])


class Examples(unittest.TestCase):
    def wrong(self, readme):
        with tempfile.TemporaryDirectory() as name:
            folder = pathlib.Path(name)
            (folder / "README.md").write_text(readme, encoding="utf-8")
            (folder / "tilghorz").write_text('#!/bin/sh\necho "$1"; cat\n', encoding="utf-8")
            (folder / "tilghorz").chmod(0o755)
            return list(program_runs.wrong_examples(folder))

    def test_as_shown(self):
        shown = "```console\n$ other ./tilghorz-host\nx\n$ printf 'a\\nb\\n' | ./tilghorz format\nformat\na\nb\n```\n"
        self.assertEqual(len(program_runs.examples(shown)), 1)
        self.assertEqual(self.wrong(shown), [])

    def test_other_output_or_none(self):
        self.assertEqual(len(self.wrong("```console\n$ ./tilghorz report\nreported\n```\n")), 1)
        self.assertEqual(self.wrong("    ./tilghorz report\n"), ["README.md: no example of ./tilghorz"])


class Files(unittest.TestCase):
    def test_the_inputs(self):
        made = program_runs.inputs()
        format_limit, report_limit = program_runs.LIMITS["format"], program_runs.LIMITS["report"]
        self.assertEqual(len(made["copyright_signs"]), report_limit)
        self.assertEqual(len(made["report_too_long"]), report_limit + 1)
        self.assertEqual(len(made["format_full"]), format_limit)
        self.assertEqual(len(made["too_long"]), format_limit + 1)
        self.assertLessEqual(len(made["thread"]), report_limit)

    def test_another_file(self):
        with tempfile.TemporaryDirectory() as name:
            folder = pathlib.Path(name)
            for run, text in program_runs.inputs().items():
                (folder / f"{run}.in").write_bytes(text)
            self.assertEqual(list(program_runs.wrong_files(folder)), [])
            (folder / "empty.in").write_bytes(b" ")
            (folder / "more.in").write_bytes(b"")
            found = list(program_runs.wrong_files(folder))
            self.assertEqual([line.split(":")[0].rsplit("/", 1)[1] for line in found], ["empty.in", "more.in"])


if __name__ == "__main__":
    unittest.main()
