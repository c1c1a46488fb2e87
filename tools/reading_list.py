#!/usr/bin/env python3
"""The check of the reading list of docs/AUDIT.md.

    tools/reading_list.py          fail if the list has a fault; each fault is a line on standard error
    tools/reading_list.py lines    print the number of lines of each row, and the sum of each part

The list has the parts that LIMITS names, each under a heading of its own. A row of a part has a file, the names of some of its
definitions, or `all`, and a number of lines. A row without a number names definitions that need not be read. These are faults:

- a file does not exist, or does not have a definition of that name;
- a row's number of lines differs from the count by more than a tenth and by more than 3;
- the sum of a part is 0, or its limit or more, or differs by more than a tenth from the number in "about N lines in all" there;
- a definition that must be read uses one that is in no table, or one of a row below its own. Types, contracts of functions and
  definitions of specs/ all count as definitions.

In specs/ a definition is the paragraph that declares it. In src/ it is a type, or the head of a function, without its body. Functions of
one name in one file count together. Comments, blank lines and imports do not count.
"""

import pathlib
import re
import sys

from crate_files import ANTT, RATTLE, listed, without_comments

LIST = "\n## Reading list\n"
# The parts of the list. The sum of each is below its limit. The two documents have fewer than 2,500 lines together.
LIMITS = {"The calls of document 01": 1180, "The changes of document 02": 1320, "Beside the calls": 400}
# A row: the file, the names, and for definitions that must be read the number of lines.
ROW = re.compile(r"^\| (crates/\S+) \| ([^|]*) \| (?:(\d+) \| )?([^|]*) \|$")
SAID = re.compile(r"\babout ([\d,]+) lines\s+in\s+all\b")
# Imports, and what they import: names of a file of specs/ or types of src/ by a module of specs/, and types of src/ by their path.
IMPORT = re.compile(r"^(?:(?:pub |ghost )?use |pub mod )[^{;\n]*(?:\{[^}]*\})?[^\n]*\n", re.M)
OF_SPECS = re.compile(r"Rattle\.(\w+)\.specs\.([\w.-]+?)(?:\.\{([^}]*)\}| as (\w+))?;?$")
OF_SRC = re.compile(r"^use (\w+(?:::\w+)*)::(?:(\w+)|\{([^}]*)\});$", re.M)
# What a paragraph of specs/ defines, and its fields and constructors; what begins a definition in src/.
DEFINES = re.compile(r"^ *(?:(?:unfoldable|abbrev|opaque) pub|pub record|pub data) ([^\s(){}]+)", re.M)
HAS = re.compile(r"^ +(?:pub )?([^\s(){}]+) : ", re.M)
ITEM = re.compile(r'^( *)(?:pub(?:\(crate\))? )?(?:extern "C" )?(fn|struct|enum) (\w+)')
NO_CODE = re.compile(r"\s*(?:--|//|$)")
WORD = r"[^\s(){}.;,@⌜⌝:&\[\]<>!]+"


class File:
    """A file of specs/ or src/: the lines and the words of each definition, and where the names that it imports are declared."""

    def __init__(self, root, name):
        self.name, self.crate = name, name.split("/")[1]
        text = (root / name).read_text(encoding="utf-8")
        self.lines, self.words, self.parts, self.uses, self.all = {}, {}, {}, {}, set()
        imports = set()
        for found in IMPORT.finditer(text):
            first = text.count("\n", 0, found.start())
            imports.update(range(first, first + found[0].count("\n")))
            self.read_import(root, " ".join(found[0].split()))
        lines = text.split("\n")
        self.all = {at for at, line in enumerate(lines) if not NO_CODE.match(line) and at not in imports}
        if name.endswith(".rt"):
            self.read_items(lines)
        else:
            clean = without_comments(text, ANTT).split("\n")
            self.read_paragraphs(clean, lines)

    def read_import(self, root, text):
        if found := OF_SPECS.search(text):
            crate, path, names, alias = found.groups()
            where = declared_in(crate, path)
            for name in filter(None, (part.strip() for part in (names or "").split(","))):
                old, _, new = name.partition(" as ")
                self.uses[new or old] = where[0], where[1] or old
            if alias:
                self.uses[alias] = where[0], where[1] or alias
        for path, alone, names in OF_SRC.findall(text):
            first, *rest = path.split("::")
            crate, rest = (first, rest) if first in listed(root) else (self.crate, rest if first == "crate" else [first, *rest])
            for name in re.findall(r"\w+", alone or names):
                self.uses[name] = f"crates/{crate}/src/{'/'.join(rest) or 'lib'}.rt", name

    def define(self, name, lines, text):
        self.lines[name] = self.lines.get(name, set()) | (lines & self.all)
        self.words[name] = self.words.get(name, set()) | free_words(name, text)

    def read_paragraphs(self, clean, lines):
        start = 0
        for at in [at for at, line in enumerate(lines) if not line.strip()] + [len(lines)]:
            paragraph = set(range(start, at)) & self.all
            text = "\n".join(clean[one] for one in sorted(paragraph))
            names = DEFINES.findall(text)
            for name in names:
                self.define(name, paragraph, text)
                self.parts.update((part, name) for part in HAS.findall(text))
            start = at + 1

    def read_items(self, lines):
        for at, line in enumerate(lines):
            if not (found := ITEM.match(line)):
                continue
            indent, kind, name = found.groups()
            first, last = at, at
            while first and re.match(r" *(?://|#)", lines[first - 1]):
                first -= 1
            closes = f"{indent}{'{' if kind == 'fn' else '}'}"
            # A function without clauses opens its body in the last line of its head.
            heads = (line[: len(line) - len(line.lstrip())] + ")", line) if kind == "fn" else ()
            while last < len(lines) and lines[last] != closes and not (lines[last].endswith(" {") and lines[last].startswith(heads)):
                last += 1
            opens = last < len(lines) and lines[last] != closes
            item = {*range(first, last + (kind != "fn" or opens)), *self.promises(lines, at)}
            self.define(name, item, without_comments("\n".join(lines[one] for one in sorted(item)), RATTLE))

    def promises(self, lines, at):
        """The lines of what the `impl` of a trait states, if a function stands in one: its ghost members hold the function's clauses."""
        head = next((one for one in range(at, -1, -1) if lines[one] and not lines[one][0].isspace()), 0)
        if head == at or not re.match(r"impl\b.* for ", lines[head]):
            return []
        end = next((one for one in range(head, len(lines)) if lines[one] == "}"), len(lines))
        found, inside = [], False
        for one in range(head + 1, end):
            inside = inside or bool(re.match(r"    ghost (?!use )\w+", lines[one]))
            if inside:
                found.append(one)
                inside = not lines[one].endswith(";")
        return found


def declared_in(crate, path):
    """The file of a module of specs/, and the type that it declares, if it is one that Rattle declares."""
    parts = path.removesuffix(".TheVariants").split(".")
    if parts[0] != "declared":
        return f"crates/{crate}/specs/{'/'.join(parts)}.antt", None
    return f"crates/{crate}/src/{'/'.join(parts[1:-1]) or 'lib'}.rt", parts[-1]


def free_words(name, text):
    """The words of a definition that are neither variables that it binds nor names of fields."""
    bound = {*HAS.findall(text)}
    for left in re.findall(rf"^ *{re.escape(name)} (.*?)=", text, re.M):
        bound.update(re.findall(WORD, left))
    for left in re.findall(r"[({]([^(){}:=]+) : ", text):
        bound.update(left.split())
    text = re.sub(r"(?<=[^\s({,;])\.[\w'«»]+|(?<=[{;])\s*\S+ =", " ", text)
    return {word for word in re.findall(WORD, text)} - bound


class Files:
    """The files of a repository, each read once."""

    def __init__(self, root):
        self.root, self.read = root, {}

    def file(self, name):
        if name not in self.read:
            self.read[name] = File(self.root, name) if (self.root / name).is_file() else None
        return self.read[name]

    def resolve(self, name, word):
        """Where a word of a file is defined: the file and the name of the definition, or nothing for a word of the kit's."""
        file = self.file(name)
        if file is None:
            return None
        own = next((one for one in (word, f"◌{word}◌") if one in file.lines or one in file.uses), word)
        if own in file.uses and file.uses[own] != (name, own):
            return self.resolve(*file.uses[own])
        if own in file.lines:
            return name, own
        if own in file.parts:
            return name, file.parts[own]
        return None


def parts(root):
    """The parts of the reading list of docs/AUDIT.md, by their headings."""
    text = (root / "docs" / "AUDIT.md").read_text(encoding="utf-8").partition(LIST)[2].partition("\n## ")[0]
    return {heading: rest for heading, _, rest in (one.partition("\n") for one in text.split("\n### ")[1:])}


def rows(text):
    """The rows of a part: the file, the names, and the number of lines, if it has one."""
    for line in text.splitlines():
        if line.startswith("| crates/"):
            found = ROW.match(line)
            yield (found[1], found[2], int(found[3]) if found[3] else None) if found else (line, "", None)


def read_rows(files, text):
    """For each row of a part: its file, the names of its definitions, their lines, the row's number, and its faults."""
    for name, names, number in rows(text):
        file = files.file(name)
        if file is None:
            yield name, [], set(), number, [f"{name}: there is no such file, or no such row"]
            continue
        whole = names == "all"
        named = list(file.lines) if whole else re.findall(r"`([^`]+)`", names)
        faults = [f"{name}: it does not define {one}" for one in named if one not in file.lines]
        if not named:
            faults.append(f"{name}: the row names no definition")
        named = [one for one in named if one in file.lines]
        yield name, named, file.all if whole else set().union(*(file.lines[one] for one in named)), number, faults


def other_sum(heading, text, total):
    """The faults of the sum of a part."""
    limit = LIMITS.get(heading, 0)
    if not 0 < total < limit:
        yield f"{heading}: the lines to read are {total}; there must be fewer than {limit}, and at least one"
    said = [int(number.replace(",", "")) for number in SAID.findall(text)]
    if len(said) != 1 or abs(said[0] - total) > said[0] // 10:
        yield f"{heading}: the text must say once how many lines there are in all, about {total}"


def faults(root):
    files, read, skipped, row = Files(root), {}, set(), 0
    for heading, text in {**dict.fromkeys(LIMITS, ""), **parts(root)}.items():
        total = 0
        for name, named, lines, number, wrong in read_rows(files, text):
            yield from wrong
            if number is None:
                skipped.update((name, one) for one in named)
                continue
            row += 1
            for one in named:
                if (name, one) in read:
                    yield f"{name}: {one} is listed twice"
                read[name, one] = row
            total += len(lines)
            if abs(len(lines) - number) > max(3, number // 10):
                yield f"{name}: the row says {number} lines, and there are {len(lines)}"
        yield from other_sum(heading, text, total)
    for (name, one), row in read.items():
        for found in sorted({*(files.resolve(name, word) for word in files.file(name).words[one])} - {None} - skipped):
            if found not in read:
                yield f"{name}: {one} uses {found[1]} of {found[0]}, which is in no table"
            elif read[found] > row:
                yield f"{name}: {one} uses {found[1]} of {found[0]}, which is listed below it"


def main(arguments, root=pathlib.Path(__file__).resolve().parent.parent):
    if arguments == ["lines"]:
        for heading, text in parts(root).items():
            counted = [(name, len(lines)) for name, _, lines, number, _ in read_rows(Files(root), text) if number is not None]
            for name, number in counted:
                print(f"{number:5} {name}")
            print(f"{sum(number for _, number in counted):5} in all: {heading}")
        return 0
    if arguments:
        print(__doc__, file=sys.stderr)
        return 2
    found = list(faults(root))
    for fault in found:
        print(f"docs/AUDIT.md, Reading list: {fault}", file=sys.stderr)
    return 1 if found else 0


if __name__ == "__main__":
    sys.exit(main(sys.argv[1:]))
