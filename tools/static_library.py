#!/usr/bin/env python3
"""Makes the static library target/staticlib/libtilghorz.a, which hosts link. It is the crate tilghorz_c under the name that hosts know.

    tools/static_library.py              has rt prove what has changed and make the library
    tools/static_library.py after-ci     the same right after rt ci, in a checkout where no other command of rt has run: only tilghorz_c is
                                         proved again, over the libraries that rt ci proved and left in the folders out/

rt lib takes no proof from rt ci: in a clone where nothing but rt ci has run, it proves every crate again. So the gate calls this script
with `after-ci`. Where another command has left work of its own, or a library is missing, the script calls rt lib all the same.

What the prover writes goes to target/log/tilghorz_c.say. Of that, a line for each crate and the verdict are printed as they come; all of
it if the command fails. Beside the library, libtilghorz.a.made-from notes the kit. The exit status is 0, or that of the command that
failed.
"""

import os
import pathlib
import shutil
import subprocess
import sys

from crate_files import uses

ROOT = pathlib.Path(__file__).resolve().parent.parent
CRATE = "tilghorz_c"
LIBRARY = pathlib.Path("target", "staticlib", "libtilghorz.a")
# The lines of the prover that are printed as they come.
TOLD = ("rt: ", "logic=")


def kit():
    """The folder of the kit that has rt."""
    return pathlib.Path(shutil.which("rt") or "rt").resolve().parent.parent


def below(root, name):
    """The libraries of the repository below a crate, each after those that it uses."""
    named, found = uses(root), []

    def visit(crate):
        for used in named[crate]:
            if used in named and used not in found:
                visit(used)
                found.append(used)

    visit(name)
    return found


def rlib(root, name):
    return root / "crates" / name / "out" / "rlib" / f"{name}.rlib"


def left_by_ci(root):
    """Whether the libraries below are all there, and all made by rt ci: any other command of rt writes a stamp beside its own."""
    return all(rlib(root, name).is_dir() and not (rlib(root, name).parent / "stamp").exists() for name in below(root, CRATE))


def build_words(root, home, toolchain, archive):
    """The command that proves the crate over the libraries below it and makes the archive, as rt lib calls it in the crate's folder."""
    named = uses(root)
    words = [home / "bin" / "rattle", "build", "--crate-name", CRATE, "src/lib.rt", "-L", f"dependency={home / 'rlibs'}"]
    for name in ["std", *named[CRATE]]:
        words += ["--extern", f"{name}={rlib(root, name) if name in named else home / 'rlibs' / f'{name}.rlib'}"]
    for name in below(root, CRATE):
        words += ["-L", f"dependency={rlib(root, name).parent}"]
    words += ["--antt-project", home / "rattle" / "logic" / "antt-project.json", "--logic-built", home / "logic_built"]
    words += ["--jobs", str(min(4, os.cpu_count() or 1)), "--links", f"{CRATE}=", "--crate-type", "staticlib"]
    return [*words, "--toolchain", toolchain, "--backend", "llvm", "-o", archive]


def make(root, after_ci):
    """Makes the library. The exit status."""
    home, made = kit(), root / "crates" / CRATE / "out" / f"lib{CRATE}.a"
    words = ["rt", "lib"]
    if after_ci and left_by_ci(root):
        made.parent.mkdir(parents=True, exist_ok=True)
        words = build_words(root, home, home / "toolchain", made)
    made.unlink(missing_ok=True)
    say = root / "target" / "log" / f"{CRATE}.say"
    say.parent.mkdir(parents=True, exist_ok=True)
    output = {"stdin": subprocess.DEVNULL, "stdout": subprocess.PIPE, "stderr": subprocess.STDOUT}
    with subprocess.Popen(words, cwd=root / "crates" / CRATE, text=True, errors="replace", **output) as ran, say.open("w") as log:
        for line in ran.stdout:
            log.write(line)
            if line.startswith(TOLD):
                print(line, end="", flush=True)
    if ran.returncode or not made.is_file():
        print(say.read_text(), end="")
        return ran.returncode or 1
    library = root / LIBRARY
    library.parent.mkdir(parents=True, exist_ok=True)
    shutil.copyfile(made, library)
    version = subprocess.run(["rt", "version"], capture_output=True, text=True, check=True).stdout.strip()
    (root / f"{LIBRARY}.made-from").write_text(f"kit {version}\n", encoding="utf-8")
    return 0


def main(arguments):
    if arguments not in ([], ["after-ci"]):
        print(__doc__, file=sys.stderr)
        return 2
    return make(ROOT, bool(arguments))


if __name__ == "__main__":
    sys.exit(main(sys.argv[1:]))
