#!/usr/bin/env python3
"""The check that every law is used. repository_checks.py runs it.

    tools/unused_laws.py    prints the laws that nothing uses; status 1 says that there are some

A law is what a file of proofs/ declares, apart from Claims.antt, whose declarations are the claims, and from the proofs of functions
(Proof.antt, Answers.antt and Invariants.antt). It is used if its name stands anywhere else than in its own signature and at the front of its own clauses. So a law that
only calls itself counts as used, and so does one whose name another law has too.
"""

import collections
import pathlib
import re
import sys

from crate_files import antt, is_of_function, rattle

SIGNATURE = re.compile(r"^(?P<indent> {0,4})(?:(?:unfoldable|abbrev|pub) )*(?P<name>[^\s:(){}]+) :(?: |$)", re.M)
WORD = re.compile(r"[^\s(){}.,;@]+")


def laws(text):
    """The laws of a file, each with its name and the number of times that it stands in its own signature and clauses."""
    for law in SIGNATURE.finditer(text):
        clause = re.compile(rf"^{law['indent']}{re.escape(law['name'])}(?= |$)", re.M)
        yield law["name"], 1 + sum(1 for _ in clause.finditer(text, law.end()))


def unused_laws(root):
    files = (path for part in ("specs", "proofs") for path in root.glob(f"crates/*/{part}/**/*.antt"))
    texts = {path: antt(path) for path in sorted(files)}
    words = collections.Counter()
    # A function names the laws that its proof needs by their paths, as in `#[tactic(auto, using(crate::proofs::Laws::law))]`.
    sources = (rattle(path).replace("::", " ") for path in root.glob("crates/*/src/**/*.rt"))
    for text in (*texts.values(), *sources):
        words.update(WORD.findall(text))
    for path, text in texts.items():
        if "proofs" in path.relative_to(root).parts[2:3] and path.name != "Claims.antt" and not is_of_function(path, root):
            for name, own in laws(text):
                if words[name] <= own:
                    yield f"{path.relative_to(root)}: nothing uses {name}"


def main():
    faults = list(unused_laws(pathlib.Path(__file__).resolve().parent.parent))
    for fault in faults:
        print(fault)
    return 1 if faults else 0


if __name__ == "__main__":
    sys.exit(main())
