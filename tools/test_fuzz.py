"""Tests of fuzz.py, without a fuzzer."""

import contextlib
import io
import pathlib
import re
import subprocess
import tempfile
import unittest
from unittest import mock

import fuzz

MACHINE = fuzz.ROOT / "host" / "src" / "fuzz" / "machine.rs"


class Fuzz(unittest.TestCase):
    def setUp(self):
        folder = tempfile.TemporaryDirectory()
        self.addCleanup(folder.cleanup)
        self.folder = pathlib.Path(folder.name)

    def test_the_steps_are_those_of_the_target(self):
        text = MACHINE.read_text(encoding="utf-8")
        calls, changes = (re.search(rf"const {name}: .*?= \[\n(.*?)\n    \];", text, re.S)[1] for name in ("CALLS", "CHANGES"))
        self.assertEqual(re.findall(r'"(\w+)", Self::(\w+)', calls), [(name, name) for name in fuzz.CALLS])
        self.assertEqual(re.findall(r"Self::(\w+)", changes), fuzz.CHANGES)

    def test_the_first_inputs_are_always_the_same(self):
        inputs = list(fuzz.first_inputs())
        self.assertEqual(inputs, list(fuzz.first_inputs()))
        self.assertTrue(all(0 < len(data) <= fuzz.MOST_BYTES for data in inputs))

    def test_the_stored_inputs_are_read_as_they_are_written(self):
        given = self.folder / "given"
        given.mkdir()
        for name, data in (("a", b"\x00\xff"), ("b", b"z"), ("c", b""), ("d", b"z")):
            (given / name).write_bytes(data)
        stored = self.folder / "corpus.txt"
        with mock.patch.multiple(fuzz, STORED=stored, CORPUS=self.folder / "corpus"):
            fuzz.pack(given)
            self.assertEqual(stored.read_text(), "7a\n00ff\n")
            fuzz.unpack()
            unpacked = {path.read_bytes() for path in fuzz.CORPUS.iterdir()}
        self.assertEqual(unpacked, {b"z", b"\x00\xff", *fuzz.first_inputs()})

    def test_the_stored_inputs_are_small(self):
        lines = fuzz.STORED.read_text().splitlines()
        self.assertTrue(all(re.fullmatch("(?:[0-9a-f]{2})+", line) for line in lines))
        self.assertLessEqual(max(map(len, lines)), 2 * fuzz.MOST_BYTES)
        self.assertLessEqual(fuzz.STORED.stat().st_size, 160_000)
        self.assertEqual(len(lines), len(set(lines)))

    def test_the_names_of_faults(self):
        self.assertIn("keycap-rule", fuzz.faults())
        self.assertEqual(len(fuzz.faults()), len(set(fuzz.faults())))

    def test_what_is_missing_is_named_with_its_package(self):
        with mock.patch("fuzz.shutil.which", return_value=None):
            lines = list(fuzz.missing())
        self.assertEqual(len(lines), 5)
        self.assertIn("clang is missing: Debian's package clang", lines)
        with (
            mock.patch("fuzz.shutil.which", return_value="/bin/true"),
            mock.patch("fuzz.runtime", return_value=self.folder / "none.a"),
            mock.patch("fuzz.version", return_value="14"),
        ):
            lines = list(fuzz.missing())
        self.assertEqual(lines, [f"libFuzzer is missing, {self.folder}/none.a: Debian's package libclang-rt-14-dev"])

    def test_nothing_is_built_if_something_is_missing(self):
        with mock.patch("fuzz.missing", return_value=["x is missing"]), mock.patch("fuzz.build") as build:
            with contextlib.redirect_stderr(io.StringIO()) as printed:
                self.assertEqual(fuzz.main(["1"]), 2)
        build.assert_not_called()
        self.assertEqual(printed.getvalue(), "fuzz: x is missing\n")

    def test_a_fuzzer_that_is_not_built(self):
        failed = subprocess.CalledProcessError(1, "cargo")
        with mock.patch("fuzz.missing", return_value=[]), mock.patch("fuzz.build", side_effect=failed):
            with contextlib.redirect_stderr(io.StringIO()):
                self.assertEqual(fuzz.main(["1"]), 2)

    def test_branches_are_counted_by_their_function(self):
        functions = [(0x40, 8, "c"), (0x10, 16, "a::b"), (0x20, 16, "other")]
        lines = ["10 1", "1f 0", "20 1", "40 1", "48 1", "8 1", "11 1"]
        self.assertEqual(fuzz.tally(functions, {"a::b", "c"}, lines), {"a::b": (2, 3), "c": (1, 1)})

    def test_arguments(self):
        self.assertEqual(fuzz.arguments([]).what, "120")
        self.assertEqual(fuzz.arguments(["7", "--fault", "x"]).fault, "x")
        self.assertEqual(fuzz.arguments(["replay", "a"]).file, "a")
        self.assertEqual(fuzz.arguments(["branches"]).what, "branches")
        for words in (["replay"], ["keep", "a"], ["branches", "a"], ["x"], ["-1"]):
            with self.subTest(words), contextlib.redirect_stderr(io.StringIO()), self.assertRaises(SystemExit) as ended:
                fuzz.arguments(words)
            self.assertEqual(ended.exception.code, 2)

    def test_the_status_and_the_file_of_what_is_found(self):
        script = self.folder / "fuzzer"
        finding = 'for word; do case $word in -artifact_prefix=*) : >"${word#*=}crash-1" ;; esac; done; exit 77'
        for body, status in (("exit 0", 0), (finding, 1)):
            script.write_text(f"#!/bin/sh\n{body}\n")
            script.chmod(0o755)
            with mock.patch.multiple(fuzz, ROOT=self.folder, FOLDER=self.folder, FUZZER=script):
                with contextlib.redirect_stdout(io.StringIO()) as printed:
                    self.assertEqual(fuzz.run([]), status)
            found = r"fuzz: found, the input is found-\w+/crash-1\n" if status else ""
            self.assertRegex(printed.getvalue(), rf"\A{found}\Z")
            self.assertEqual(len(list(self.folder.glob("found-*"))), status)

    def test_the_links_to_a_toolchain_have_another_clang(self):
        kit = self.folder / "kit-of-rt"
        place = kit / "toolchain" / "bin"
        place.mkdir(parents=True)
        saved = self.folder / "saved.bc"
        with mock.patch.object(fuzz, "FOLDER", self.folder):
            self.assertIsNone(fuzz.toolchain_with_own_clang(kit, saved))
            for name in ("clang", "ld.lld"):
                (place / name).write_text(f'#!/bin/sh\necho {name} "$@"\n')
                (place / name).chmod(0o755)
            (place.parent / "lib").mkdir()
            (place.parent / "lib" / "crt1.o").write_text("code\n")
            folder = fuzz.toolchain_with_own_clang(kit, saved)
        self.assertEqual((folder / "lib" / "crt1.o").read_text(), "code\n")
        self.assertTrue((folder / "bin" / "ld.lld").is_symlink())
        (self.folder / "module.bc").write_bytes(b"code")
        words = [folder / "bin" / "clang", "-c", "module.bc"]
        printed = subprocess.run(words, cwd=self.folder, capture_output=True, text=True, check=True)
        self.assertEqual((printed.stdout, saved.read_bytes()), ("clang -c module.bc\n", b"code"))


if __name__ == "__main__":
    unittest.main()
