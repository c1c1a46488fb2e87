"""Tests of unused_imports.py."""

import contextlib
import io
import pathlib
import tempfile
import unittest

import unused_imports


class Cleaned(unittest.TestCase):
    def test_names_operators_and_modules(self):
        text = (
            "-- ap stands in a comment only\n"
            "use a.B.{◌≡◌, refl, ap, cond}\n"
            "use a.C.{\n  Longer,\n  Other,\n}\n"
            "use a.D as D\n"
            "use a.E as E\n"
            "use a.F.{gone}\n"
            "\nx : D.T ≡ Longer\nx = refl\n"
        )
        made, unused = unused_imports.cleaned(text)
        self.assertEqual(sorted(unused), ["E", "Other", "ap", "cond", "gone"])
        self.assertIn("use a.B.{◌≡◌, refl}\n", made)
        self.assertIn("use a.C.{Longer}\n", made)
        self.assertIn("use a.D as D\n", made)
        self.assertNotIn("a.F", made)

    def test_names_in_brackets_and_escapes(self):
        made, unused = unused_imports.cleaned("use a.B.{f, g, «x_y»}\n\nh = (f).«x_y» [g]\n")
        self.assertEqual(unused, [])

    def test_a_renamed_name_alone_in_its_import(self):
        text = "use a.B.{the-type as the-class}\n\nx : the-class\n"
        self.assertEqual(unused_imports.cleaned(text), (text, []))
        self.assertEqual(unused_imports.cleaned("use a.B.{the-type as the-class}\n\nx : y\n")[1], ["the-type as the-class"])


class Status(unittest.TestCase):
    def run_on(self, files):
        with tempfile.TemporaryDirectory() as name, contextlib.redirect_stderr(io.StringIO()) as said:
            for path, text in files.items():
                file = pathlib.Path(name, path)
                file.parent.mkdir(parents=True)
                file.write_text(text, encoding="utf-8")
            return unused_imports.main([], pathlib.Path(name)), said.getvalue()

    def test_sound_unused_and_nothing_to_look_at(self):
        self.assertEqual(self.run_on({"crates/a/specs/Lib.antt": "use a.B.{f}\n\ng = f\n"}), (0, ""))
        status, said = self.run_on({"crates/a/specs/Lib.antt": "use a.B.{f}\n\ng = g\n"})
        self.assertEqual(status, 1)
        self.assertIn("crates/a/specs/Lib.antt: unused imports: f", said)
        self.assertEqual(self.run_on({}), (1, "unused_imports: there is no file to check\n"))


if __name__ == "__main__":
    unittest.main()
