"""Tests of static_library.py, with programs in the places of rt and of the kit's compiler."""

import contextlib
import io
import os
import pathlib
import tempfile
import unittest
from unittest import mock

import static_library

# In the place of rt and of the kit's compiler: each writes its call, and a library where it is to be.
RT = """#!/bin/sh
[ "$1" != version ] || { echo kit 1; exit; }
echo "rt $* in $(basename "$PWD")" >> ../../calls
[ ! -e ../../fails ] || { echo why; exit 3; }
mkdir -p out
echo by rt > out/libtilghorz_c.a
echo rt: chose
echo a line
echo logic=proved
"""
RATTLE = """#!/bin/sh
echo "rattle $* in $(basename "$PWD")" >> ../../calls
for word; do last=$word; done
echo by rattle > "$last"
echo logic=proved
"""


class StaticLibrary(unittest.TestCase):
    def setUp(self):
        folder = tempfile.TemporaryDirectory()
        self.addCleanup(folder.cleanup)
        self.root = pathlib.Path(folder.name).resolve() / "repository"
        kit = self.root.parent / "kit" / "bin"
        for path, text in ((kit / "rt", RT), (kit / "rattle", RATTLE)):
            path.parent.mkdir(parents=True, exist_ok=True)
            path.write_text(text, encoding="utf-8")
            path.chmod(0o755)
        (self.root / "crates" / "tilghorz_c").mkdir(parents=True)
        lines = "low:\nmid: low json\ntilghorz: mid low\ntilghorz_c staticlib: mid tilghorz\napart: low\n"
        (self.root / "crates.txt").write_text(lines, encoding="utf-8")
        path = f"{kit}{os.pathsep}{os.environ['PATH']}"
        environment = mock.patch.dict(os.environ, PATH=path)
        environment.start()
        self.addCleanup(environment.stop)

    def make(self, after_ci=False):
        """The status, what is printed, the library, and the calls."""
        with contextlib.redirect_stdout(io.StringIO()) as printed:
            status = static_library.make(self.root, after_ci)
        library, calls = self.root / static_library.LIBRARY, self.root / "calls"
        return status, printed.getvalue(), library.read_text() if library.is_file() else None, calls.read_text().splitlines()

    def left(self, *names, beside=()):
        """Makes libraries as rt ci leaves them, with these files beside each."""
        for name in names:
            static_library.rlib(self.root, name).mkdir(parents=True, exist_ok=True)
            for file in beside:
                (static_library.rlib(self.root, name).parent / file).write_text("", encoding="utf-8")

    def test_the_libraries_below(self):
        self.assertEqual(static_library.below(self.root, "tilghorz_c"), ["low", "mid", "tilghorz"])

    def test_it_has_the_name_that_hosts_link(self):
        printed = "rt: chose\nlogic=proved\n"
        self.assertEqual(self.make(), (0, printed, "by rt\n", ["rt lib in tilghorz_c"]))
        said = (self.root / "target" / "log" / "tilghorz_c.say").read_text()
        self.assertEqual(said, "rt: chose\na line\nlogic=proved\n")
        note = (self.root / "target" / "staticlib" / "libtilghorz.a.made-from").read_text()
        self.assertEqual(note, "kit kit 1\n")

    def test_a_failure(self):
        (self.root / "fails").write_text("", encoding="utf-8")
        self.assertEqual(self.make(), (3, "why\n", None, ["rt lib in tilghorz_c"]))

    def test_after_rt_ci_its_libraries_are_taken(self):
        self.left("low", "mid", "tilghorz")
        status, _, library, calls = self.make(after_ci=True)
        self.assertEqual((status, library, len(calls)), (0, "by rattle\n", 1))
        for name in ("mid", "tilghorz"):
            self.assertIn(f" --extern {name}={self.root}/crates/{name}/out/rlib/{name}.rlib ", calls[0])
        self.assertIn(f" -L dependency={self.root}/crates/low/out/rlib ", calls[0])
        self.assertIn(" --crate-type staticlib ", calls[0])
        self.assertTrue(calls[0].startswith("rattle build --crate-name tilghorz_c src/lib.rt "))

    def test_work_of_another_command_is_left_to_rt(self):
        self.left("low", "mid")
        self.assertEqual(self.make(after_ci=True)[2], "by rt\n")
        self.left("tilghorz")
        self.left("mid", beside=["stamp"])
        self.assertEqual(self.make(after_ci=True)[2], "by rt\n")


if __name__ == "__main__":
    unittest.main()
