"""Tests of crate_files.py."""

import pathlib
import tempfile
import unittest

import crate_files


class CrateFiles(unittest.TestCase):
    def test_uses(self):
        with tempfile.TemporaryDirectory() as folder:
            root = pathlib.Path(folder)
            (root / "crates.txt").write_text("# NAME: its uses\none:\ntwo staticlib: one io # more: words\n", encoding="utf-8")
            (root / "crates/one/src").mkdir(parents=True)
            (root / "crates/one/src/lib.rt").write_text("", encoding="utf-8")
            self.assertEqual(crate_files.uses(root), {"one": [], "two": ["one", "io"]})
            self.assertEqual(crate_files.listed(root), ["one", "two"])
            self.assertEqual(crate_files.libraries(root), ["one"])

    def test_comments_of_rattle(self):
        text = "a // b\nc /* d /* e */ \n f */ g b\"// h\" b'\"' // i"
        self.assertEqual(crate_files.without_comments(text), "a \nc \n g b\"// h\" b'\"' ")

    def test_comments_of_antt(self):
        text = "a -- b\nc--d {- e {- f -} -} g"
        self.assertEqual(crate_files.without_comments(text, crate_files.ANTT), "a \nc--d  g")


if __name__ == "__main__":
    unittest.main()
