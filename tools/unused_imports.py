#!/usr/bin/env python3
"""Finds the unused imports of antt files, and of the statements in Rattle files.

    tools/unused_imports.py            print a line for each file with unused imports, and fail if there is one
    tools/unused_imports.py --remove   remove the unused imports from the files
"""

import pathlib
import re
import sys

ROOT = pathlib.Path(__file__).resolve().parent.parent
USE = re.compile(r"^(?P<head>(?:ghost )?use \S+?\.)\{(?P<names>[^}]*)\}(?P<tail>;?)\n", re.M)
AS = re.compile(r"^(?:ghost )?use [^\s{]+ as (?P<name>\S+?);?\n", re.M)


def tokens(text):
    """The words of a text. Blanks, brackets, commas, semicolons and dots separate them."""
    found = set(re.split(r"[\s(){},;.⌜⌝⟦⟧]+", text))
    return found | {token.strip("«»") for token in found}


def parts(name):
    """How a text can use the name: as the name itself, or as the sign of an operator."""
    own = name.split(" as ")[-1].strip()
    signs = [sign for sign in own.split("◌") if sign] if "◌" in own else []
    return [own] + ([" ".join(signs)] if len(signs) == 1 else [])


def cleaned(text):
    """The text without its unused imports, and their names."""
    body = re.sub(r"^\s*(?:--|//).*$", "", AS.sub("", USE.sub("", text)), flags=re.M)
    used = tokens(body) | tokens(re.sub(r"[()\[\]]", " ", body))
    unused = []

    def keep(match):
        names = [name.strip() for name in match["names"].split(",") if name.strip()]
        kept = [name for name in names if any(part in used for part in parts(name))]
        unused.extend(name for name in names if name not in kept)
        if kept == names:
            return match[0]
        return f"{match['head']}{{{', '.join(kept)}}}{match['tail']}\n" if kept else ""

    text = USE.sub(keep, text)

    def keep_module(match):
        if match["name"] in used:
            return match[0]
        unused.append(match["name"])
        return ""

    return AS.sub(keep_module, text), unused


def files(root):
    """The files of a repository that are checked."""
    patterns = ("crates/*/specs/**/*.antt", "crates/*/proofs/**/*.antt", "crates/*/src/**/*.rt")
    return sorted(path for pattern in patterns for path in root.glob(pattern))


def main(arguments, root=ROOT):
    if arguments not in ([], ["--remove"]):
        print(__doc__, file=sys.stderr)
        return 2
    status = 0
    if not files(root):
        print("unused_imports: there is no file to check", file=sys.stderr)
        return 1
    for path in files(root):
        text = path.read_text(encoding="utf-8")
        if path.suffix == ".rt":
            ghost = re.sub(r"^use .*\n", "", text, flags=re.M)
            _, unused = cleaned(ghost)
            made = text
            for name in unused:
                made = re.sub(rf"(?<=[{{ ,]){re.escape(name)}(?:, |(?=\}}))", "", made, count=1)
        else:
            made, unused = cleaned(text)
        if unused and arguments:
            path.write_text(made, encoding="utf-8")
        elif unused:
            print(f"{path.relative_to(root)}: unused imports: {', '.join(unused)}", file=sys.stderr)
            status = 1
    return status


if __name__ == "__main__":
    sys.exit(main(sys.argv[1:]))
