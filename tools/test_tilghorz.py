"""Tests of ./tilghorz, with programs in the places of rt and of the two proved ones."""

import os
import pathlib
import shutil
import subprocess
import tempfile
import unittest

ROOT = pathlib.Path(__file__).resolve().parent.parent
# In the place of rt: it builds a program that copies. Its identity stands in a file beside it.
RT = """#!/bin/sh
[ "$1" != version ] || exec cat "$(dirname "$0")/KIT-ID"
echo "rt: $* in $(pwd)"
[ -z "$RT_FAILS" ] || { echo why; exit 1; }
[ -z "$RT_KEEPS" ] || exit 0
name=$(basename "$(pwd)")
mkdir -p out
printf '#!/bin/sh\\nexec cat\\n' > "out/$name"
chmod +x "out/$name"
"""


class Tilghorz(unittest.TestCase):
    def setUp(self):
        folder = tempfile.TemporaryDirectory()
        self.addCleanup(folder.cleanup)
        self.root = pathlib.Path(folder.name).resolve() / "repository"
        (self.root / "bin").mkdir(parents=True)
        shutil.copy(ROOT / "tilghorz", self.root / "tilghorz")
        self.program(self.root / "bin" / "rt", RT)
        (self.root / "bin" / "KIT-ID").write_text("kit 1\n", encoding="utf-8")
        (self.root / "crates.txt").write_text("a\n", encoding="utf-8")
        self.source = self.root / "crates" / "a" / "src" / "lib.rt"
        self.source.parent.mkdir(parents=True)
        self.source.write_text("one\n", encoding="utf-8")
        for name in ("format", "report"):
            (self.root / "crates" / name).mkdir()

    def program(self, path, text):
        path.parent.mkdir(parents=True, exist_ok=True)
        path.write_text(text, encoding="utf-8")
        path.chmod(0o755)

    def run_it(self, *arguments, path=None, rt_fails="", rt_keeps="", after_ci="", text=b"a text\n", tools=None):
        """The status, standard output and standard error on a text."""
        paths = tools or f"{self.root / 'bin'}{os.pathsep}{os.environ['PATH']}"
        command = [path or self.root / "tilghorz", *arguments]
        variables = {"PATH": str(paths), "RT_FAILS": rt_fails, "RT_KEEPS": rt_keeps, "TILGHORZ_AFTER_CI": after_ci}
        ran = subprocess.run(command, input=text, env=variables, capture_output=True, check=False)
        return ran.returncode, ran.stdout, ran.stderr.decode()

    def tools_but_rt(self):
        """A folder of the commands that ./tilghorz calls, without rt."""
        folder = self.root.parent / "tools"
        folder.mkdir()
        for name in "bash cat cmp cp cut dirname env find grep head mktemp readlink rm sed sha256sum sort tail tee tr wc xargs".split():
            (folder / name).symlink_to(shutil.which(name))
        return folder

    def with_program(self, lines):
        """Puts a program in the place of `format`, as if it had been built from these sources."""
        (self.root / "target" / "bin" / "format").unlink(missing_ok=True)
        self.program(self.root / "crates" / "format" / "out" / "format", f"#!/bin/sh\n{lines}\n")
        self.run_it("format", rt_keeps="yes")

    def test_it_builds_once_and_runs(self):
        status, out, said = self.run_it("format")
        self.assertEqual((status, out), (0, b"a text\n"))
        self.assertIn(f"rt: run in {self.root}/crates/format\n", said)
        self.assertEqual(self.run_it("format"), (0, b"a text\n", ""))

    def test_after_rt_ci_its_program_is_taken(self):
        self.program(self.root / "crates" / "format" / "out" / "format", "#!/bin/sh\necho as rt ci left it\n")
        status, out, said = self.run_it("format", after_ci="yes")
        self.assertEqual((status, out), (0, b"as rt ci left it\n"))
        self.assertNotIn("rt: ", said)
        self.assertIn("rt: run in", self.run_it("report", after_ci="yes")[2])

    def test_through_a_link_from_elsewhere(self):
        link = self.root.parent / "link"
        link.symlink_to(self.root / "tilghorz")
        status, out, said = self.run_it("report", path=link)
        self.assertEqual((status, out), (0, b"a text\n"))
        self.assertIn(f"rt: run in {self.root}/crates/report\n", said)

    def test_what_cannot_be_built_or_read_or_written_has_a_status(self):
        status, out, said = self.run_it("format", rt_fails="yes")
        self.assertEqual((status, out), (1, b""))
        self.assertIn("why\ntilghorz: format could not be built\n", said)
        self.with_program("cat\necho 'standard output: full' >&2")
        self.assertEqual(self.run_it("format"), (1, b"a text\n", "standard output: full\n"))
        self.with_program("cat\necho 'standard output: full' >&2\nexit 1")
        self.assertEqual(self.run_it("format"), (1, b"a text\n", "standard output: full\n"))
        self.with_program("kill -9 $$")
        self.assertEqual(self.run_it("format"), (137, b"", ""))
        self.with_program("exec cat")
        command = f"'{self.root / 'tilghorz'}' format"
        for redirection, said in (("< /", "Is a directory"), ("<&-", "it is closed")):
            path = f"{self.root / 'bin'}:{os.environ['PATH']}"
            shell = ["sh", "-c", f"{command} {redirection}"]
            ran = subprocess.run(shell, env={"PATH": path}, capture_output=True, check=False)
            self.assertEqual((ran.returncode, ran.stdout), (1, b""))
            self.assertEqual(ran.stderr.decode(), f"tilghorz: standard input could not be read: {said}\n")

    def is_built_anew(self):
        """Whether a call builds the program, and the next one does not."""
        status, out, said = self.run_it("format")
        self.assertEqual((status, out), (0, b"a text\n"))
        self.assertEqual(self.run_it("format"), (0, b"a text\n", ""))
        self.assertEqual("rt: run in" in said, said != "")
        return said != ""

    def test_a_program_from_other_sources_is_built_anew(self):
        self.assertTrue(self.is_built_anew())
        self.source.write_text("one\n", encoding="utf-8")  # the same, at another time
        self.assertFalse(self.is_built_anew())
        self.source.write_text("two\n", encoding="utf-8")
        self.assertTrue(self.is_built_anew())
        self.source.rename(self.source.with_name("other.rt"))
        self.assertTrue(self.is_built_anew())
        self.source.write_text("new\n", encoding="utf-8")
        self.assertTrue(self.is_built_anew())
        (self.root / "crates.txt").write_text("a b\n", encoding="utf-8")
        self.assertTrue(self.is_built_anew())
        (self.root / "bin" / "KIT-ID").write_text("kit 2\n", encoding="utf-8")
        self.assertTrue(self.is_built_anew())
        # A program that somebody else put there.
        self.program(self.root / "target" / "bin" / "format", "#!/bin/sh\necho old\n")
        self.assertTrue(self.is_built_anew())
        (self.root / "target" / "bin" / "format.built-from").unlink()
        self.assertTrue(self.is_built_anew())

    def test_without_rt(self):
        self.run_it("format")
        tools = self.tools_but_rt()
        self.assertEqual(self.run_it("format", tools=tools), (0, b"a text\n", ""))
        self.source.write_text("two\n", encoding="utf-8")
        status, out, said = self.run_it("format", tools=tools)
        self.assertEqual((status, out), (1, b""))
        self.assertIn("format was built from other sources or with another kit, and rt is missing", said)

    def test_a_program_that_could_not_be_built_is_not_run(self):
        self.run_it("format")
        self.source.write_text("two\n", encoding="utf-8")
        for _ in range(2):
            self.assertEqual(self.run_it("format", rt_fails="yes")[:2], (1, b""))
        self.assertTrue(self.is_built_anew())

    def test_a_refusal_has_a_status(self):
        selectors = "\ufe0f".encode() * 6000
        for lines, text, status in (
            ("cat", b"refused 1\n", 0),
            ("cat", b"refused 3 9\n", 0),
            ("cat", b"refused to answer\0\n", 0),
            ("cat", b"", 0),
            ("echo refused 1", b"a" * 16385, 3),
            ("cat", b"refused " * 2048, 0),
            ("echo refused 1", b"refused 1\n" + selectors, 3),
            ("echo refused 3 9", b"cut off: \xe2\x9d", 3),
            ("echo refused 3 0", b"\xef\xb8", 3),
            ("echo refused 3 12", b"refused 3 12\xef\xb8\n", 3),
            # Formatted texts: the selectors go, or come.
            ("echo refused 3 9", b"refu\xef\xb8\x8fsed 3 9\xef\xb8\x8e\n", 0),
            (r"printf 'refused \302\251\357\270\216\n'", "refused \u00a9\n".encode(), 0),
        ):
            with self.subTest(lines=lines, text=text[:20]):
                self.with_program(lines)
                answer = self.run_it("format", text=text)
                self.assertEqual((answer[0], answer[2]), (status, ""))

    def test_how_it_is_called(self):
        usage = "usage: ./tilghorz format < FILE, or ./tilghorz report < FILE\n"
        self.assertEqual(self.run_it("--help"), (0, usage.encode(), ""))
        self.assertEqual(self.run_it(), (2, b"", usage))
        self.assertEqual(self.run_it("mend"), (2, b"", usage))
        self.assertEqual(self.run_it("format", "a.txt")[0], 2)


if __name__ == "__main__":
    unittest.main()
