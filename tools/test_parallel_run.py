"""Tests of tools/parallel_run.py, with a script instead of the command. It cuts at any byte, and formatting makes capitals."""

import contextlib
import io
import os
import pathlib
import shutil
import tempfile
import unittest

import parallel_run

COMMAND = """#!/bin/sh
case "$1" in
    split) mkdir "$4" && split --number="$3" --numeric-suffixes=1 "$5" "$4/part-" ;;
    format)
        for file; do :; done
        [ "$(basename "$file")" != "$FAILING" ] || exit 2
        tr a-z A-Z < "$file" ;;
esac
"""


class ParallelRun(unittest.TestCase):
    def setUp(self):
        folder = tempfile.TemporaryDirectory()
        self.addCleanup(folder.cleanup)
        self.folder = pathlib.Path(folder.name)
        self.command = self.folder / "command"
        self.command.write_text(COMMAND, encoding="utf-8")
        self.command.chmod(0o755)

    def run_it(self, failing=""):
        """The text that it prints, and the folder in which it worked."""
        os.environ["FAILING"] = failing
        self.addCleanup(os.environ.pop, "FAILING", None)
        inner, out = self.folder / "inner", io.StringIO()
        words = [inner, "--bytes", 100_000, "--parts", 12, "--jobs", 3, "--engine", "xargs", "--command", self.command]
        # What the programs say of a failure is not looked at.
        kept = os.dup(2)
        with open(os.devnull, "wb") as nothing:
            os.dup2(nothing.fileno(), 2)
        try:
            with contextlib.redirect_stdout(out):
                parallel_run.main([str(word) for word in words])
        except SystemExit as end:
            return str(end), inner
        finally:
            os.dup2(kept, 2)
            os.close(kept)
        return out.getvalue(), inner

    def test_parts_are_formatted_and_joined(self):
        text, folder = self.run_it()
        export = (folder / "export.txt").read_bytes()
        self.assertEqual(len(export), 100_000)
        self.assertEqual((folder / "formatted").read_bytes(), export.upper())
        self.assertEqual(len(list((folder / "parts").iterdir())), 12)
        self.assertIn("100000 bytes in 12 parts, 3 workers by xargs", text)
        self.assertIn("a terabyte at the speed of `format by xargs`", text)

    def test_a_worker_that_fails_leaves_no_result(self):
        for failing in ("part-01", "part-07", "part-12"):
            with self.subTest(failing):
                text, folder = self.run_it(failing)
                self.assertIn("format by xargs: it failed with the status 124, and there is no result", text)
                self.assertFalse((folder / "formatted").exists())
                self.assertFalse((folder / "formatted.tmp").exists())
                shutil.rmtree(folder)

    def test_a_result_that_differs_is_told(self):
        self.command.write_text(COMMAND.replace("tr a-z", '[ "$2" = --jobs ] || printf x; tr a-z'), encoding="utf-8")
        text, _ = self.run_it()
        self.assertIn("compare: it failed with the status 1,", text)

    def test_commands(self):
        command = parallel_run.engine_command("parallel", "/a b/tilghorz-host", 2)
        self.assertIn("parallel --jobs 2 --keep-order --halt now,fail=1 '/a b/tilghorz-host' format --jobs 1 ::: parts/part-*", command)
        self.assertTrue(command.endswith("> formatted.tmp && mv formatted.tmp formatted"))

    def test_a_chat_is_text_with_emoji(self):
        for length in (0, 100, 100_000):
            text = parallel_run.chat(length)
            self.assertTrue(length - 300 < len(text) <= length)
            text.decode()
        emoji = sum(ord(character) > 0x7F for character in text.decode())
        self.assertTrue(0.03 < emoji / len(text) < 0.1, emoji / len(text))

    def test_figures(self):
        step = parallel_run.Step("format", 2.0, 3.6, 10**9)
        self.assertIn("2.00 s      500 MB/s   1.80 processors busy", step.line())
        cost, limit, disk = parallel_run.conclusion(step, parallel_run.Step("write", 1.0, 0.5, 10**9), 2, 2)
        self.assertIn("0.56 hours on this machine, 1.00 hours of a processor", cost)
        self.assertIn("2 processors were busy for 90% of the time, so what limits it is the processors", limit)
        self.assertIn("synced at 1000 MB/s, which is not slower", disk)
        slow = parallel_run.Step("write", 10.0, 0.5, 10**9)
        _, limit, disk = parallel_run.conclusion(parallel_run.Step("format", 4.0, 3.6, 10**9), slow, 2, 8)
        self.assertIn("reading and writing", limit)
        self.assertIn("synced at 100 MB/s, which is slower", disk)


if __name__ == "__main__":
    unittest.main()
