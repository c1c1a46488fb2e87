#!/usr/bin/env python3
"""The check that no definition and no law stands twice, under one name or under two. repository_checks.py runs it.

    tools/repeated_laws.py    prints the declarations that stand twice; status 1 says that there are some

Two declarations are the same if they differ only in their own name, in the names of variables, in line breaks, and in the words before
the name (`pub`, `abbrev`, `unfoldable`). A name of at most two letters, with primes or digits below the line, counts as a variable. Short
declarations do not count, nor do the proofs of functions (Proof.antt, Answers.antt and Invariants.antt), whose goals are named by the
code.
"""

import collections
import pathlib
import re
import sys

from crate_files import antt, is_of_function

SIGNATURE = re.compile(r"^(?P<indent> *)(?:(?:unfoldable|abbrev|pub) )*(?P<name>[^\s:(){}]+) :(?: .*)?$")
WORD = re.compile(r"[^\s(){}.,;]+|[(){}.,;]")
VARIABLE = re.compile(r"[A-Za-z][a-z]?['′″₀-₉]*")
MODIFIERS = ("unfoldable", "abbrev", "pub")
SHORTEST = 69


def declarations(text):
    """The declarations of a file with a body, each with its name and its lines. What is declared below one is a part of it."""
    found, indent = [], None
    for line in text.splitlines():
        depth = len(line) - len(line.lstrip())
        signature = SIGNATURE.match(line)
        if signature and (indent is None or depth <= indent):
            indent = depth
            found.append((signature["name"], [line]))
        elif line and indent is not None:
            if depth < indent:
                indent = None
            else:
                found[-1][1].append(line)
    return [(name, " ".join(lines)) for name, lines in found if any("=" in WORD.findall(line) for line in lines)]


def shape(name, text):
    """A declaration without its own name and without the names of its variables."""
    variables = {}
    words = (word for word in WORD.findall(text) if word not in MODIFIERS)
    return " ".join(
        "@" if word == name else variables.setdefault(word, f"v{len(variables)}") if VARIABLE.fullmatch(word) else word for word in words
    )


def repeated_laws(root):
    places = collections.defaultdict(list)
    for path in sorted(root.glob("crates/*/specs/**/*.antt")) + sorted(root.glob("crates/*/proofs/**/*.antt")):
        if not is_of_function(path, root):
            for name, text in declarations(antt(path)):
                places[shape(name, text)].append(f"{name} ({path.relative_to(root)})")
    for said, names in places.items():
        if len(names) > 1 and len(said) >= SHORTEST:
            yield f"the same declaration stands more than once: {', '.join(names)}"


def main():
    faults = list(repeated_laws(pathlib.Path(__file__).resolve().parent.parent))
    for fault in faults:
        print(fault)
    return 1 if faults else 0


if __name__ == "__main__":
    sys.exit(main())
