#!/usr/bin/env python3
"""The gate's checks of README.md and docs/, and of the words in all texts.

    tools/document_checks.py

The script prints each fault as a line on standard error, and its exit status is then 1. A check that has nothing to check is
also a fault.

- links:    every link in README.md and docs/ to a file of the repository, or to a heading of it, has its target.
- stages:   the numbered list in README.md, "Testing", has the stages of .ci/run, with their names and in their order.
- data:     docs/UNICODE.md gives the SHA-256 of every data file of crates/published_data, and it is right.
- decisions: every decision that README.md or docs/ cites by its number has a heading in docs/DECISIONS.md; no number has two
            headings; and each decision has a context, a decision and a reason.
- tests:    every script of tools/ has a file of tests.
- words:    no text of the repository has a word of UNCLEAR, such as `behind` for "after". A name between backticks may have one,
            and so may a sentence that is quoted from document 01.
"""

import hashlib
import os
import pathlib
import re
import sys

LINK = re.compile(r"\[[^\]]*\]\(([^)\s]+)\)")
STAGE = re.compile(r"""^ *stage (?:'([^']*)'|"([^"$`]*)")$""", re.M)
DIGEST = re.compile(r"^\| (\S+) \| ([0-9a-f]{64}) \|$", re.M)
# A decision is a heading with its number, or with its number and a letter if it has parts. It is cited as "decided: 37, 46" in
# the tables of docs/AUDIT.md, else as "decision 37" or "decisions 24 and 39".
DECISION = re.compile(r"^### (\d+)([a-z]?)\. .*\n((?:(?!#).*\n)*)", re.M)
CITED = re.compile(r"\b(?:decided:|[Dd]ecisions?) (\d+[a-z]?(?:(?:, | and )\d+[a-z]?)*)")
PARTS = ("Context", "Decision", "Reason")
# Words that a reader must guess: the plain ones are "after", a number with a name, and "unused".
UNCLEAR = re.compile(r"\bbehind\b|\bso many\b|\bin vain\b", re.I)
# What is not looked at: names between backquotes, and a quotation of document 01.
NAME_OR_QUOTED = re.compile(r"`[^`]*`|places behind it unchanged")
# The texts of the repository, by their suffixes; the gate and the command have none.
TEXTS = (".antt", ".c", ".edit", ".h", ".md", ".py", ".rs", ".rt", ".toml")
SCRIPTS = ("run", "tilghorz")


def without_blocks(text):
    """The text without its blocks of code."""
    return re.sub(r"^```.*?^```$", "", text, flags=re.M | re.S)


def anchors(text):
    """The anchors of the headings of a text, as links name them."""
    headings = re.findall(r"^#+ (.*)$", without_blocks(text), re.M)
    return {re.sub(r"[^\w\- ]", "", heading.lower()).replace(" ", "-") for heading in headings}


def broken_links(root):
    seen = 0
    for path in [root / "README.md", *sorted((root / "docs").glob("*.md"))]:
        for link in LINK.findall(without_blocks(path.read_text(encoding="utf-8"))):
            if "://" in link:
                continue
            seen += 1
            name, _, anchor = link.partition("#")
            target = path.parent / name if name else path
            if not target.exists():
                yield f"{path.relative_to(root)}: {link}: there is no such file"
            elif anchor and anchor not in anchors(target.read_text(encoding="utf-8")):
                yield f"{path.relative_to(root)}: {link}: there is no such heading"
    if not seen:
        yield "README.md, docs/: they have no link"


def other_stages(root):
    stages = [one or other for one, other in STAGE.findall((root / ".ci" / "run").read_text(encoding="utf-8"))]
    called = len(re.findall(r"^ *stage\b", (root / ".ci" / "run").read_text(encoding="utf-8"), re.M)) - 1
    if not stages or len(stages) != called:
        yield f".ci/run: it calls {called} stages, and the names of {len(stages)} can be read"
    part = (root / "README.md").read_text(encoding="utf-8").partition("\n## Testing\n")[2].partition("\n## ")[0]
    items = [" ".join(item.split()) for item in re.findall(r"^\d+\. (.*(?:\n   .*)*)", part, re.M)]
    for number in range(max(len(stages), len(items))):
        stage = stages[number] if number < len(stages) else "none"
        item = items[number] if number < len(items) else "none"
        if not re.match(re.escape(stage) + r"(?:\.|:|$)", item):
            yield f"README.md, Testing, {number + 1}: it is `{item[:60]}`, and the stage of .ci/run is `{stage}`"


def other_data(root):
    told = dict(DIGEST.findall((root / "docs" / "UNICODE.md").read_text(encoding="utf-8")))
    data = root / "crates" / "published_data" / "data"
    for name in sorted({*told, *(path.name for path in data.glob("*.txt"))}):
        path = data / name
        found = hashlib.sha256(path.read_bytes()).hexdigest() if path.is_file() else "missing"
        if told.get(name) != found:
            yield f"{path.relative_to(root)}: its SHA-256 is {found}, and docs/UNICODE.md says {told.get(name, 'nothing')}"
    if not told:
        yield "docs/UNICODE.md: it gives no SHA-256"


def other_decisions(root):
    found = DECISION.findall((root / "docs" / "DECISIONS.md").read_text(encoding="utf-8"))
    headings = [number + letter for number, letter, _ in found]
    for number, letter, text in found:
        heading = number + letter
        if headings.count(heading) > 1 or (letter and number in headings):
            yield f"docs/DECISIONS.md: {heading}: the number has two headings"
        if re.findall(r"^- (\w+): \S", text, re.M) != list(PARTS):
            yield f"docs/DECISIONS.md: {heading}: its parts are not {', '.join(PARTS)}"
    known = {*headings, *(number for number, _, _ in found)}
    cited = 0
    for path in [root / "README.md", *sorted((root / "docs").glob("*.md"))]:
        for numbers in CITED.findall(path.read_text(encoding="utf-8")):
            for number in re.findall(r"\d+[a-z]?", numbers):
                cited += 1
                if number not in known:
                    yield f"{path.relative_to(root)}: it cites decision {number}, which docs/DECISIONS.md does not have"
    if not headings or not cited:
        yield f"docs/DECISIONS.md: {len(headings)} decisions are found, and {cited} are cited"


def untested_tools(root):
    scripts = [path for path in sorted((root / "tools").glob("*.py")) if not path.name.startswith("test_")]
    if not scripts:
        yield "tools/: it has no script"
    for script in scripts:
        tests = script.with_name(f"test_{script.name}")
        if not tests.is_file() or not re.search(r"^    def test_", tests.read_text(encoding="utf-8"), re.M):
            yield f"tools/{script.name}: tools/{tests.name} has no test"


def unclear_words(root):
    seen = 0
    for folder, folders, names in os.walk(root):
        folders[:] = sorted(one for one in folders if one not in (".git", "out", "target"))
        for path in (pathlib.Path(folder, name) for name in sorted(names)):
            if path.name.startswith("test_") or not (path.suffix in TEXTS or path.name in SCRIPTS):
                continue
            seen += 1
            for number, line in enumerate(path.read_text(encoding="utf-8").splitlines(), 1):
                for word in UNCLEAR.findall(NAME_OR_QUOTED.sub("", line)):
                    yield f"{path.relative_to(root)}: line {number}: the word `{word}` is unclear"
    if not seen:
        yield "the repository has no text"


CHECKS = (broken_links, other_stages, other_data, other_decisions, untested_tools, unclear_words)


def main(arguments):
    if arguments:
        print(__doc__, file=sys.stderr)
        return 2
    root = pathlib.Path(__file__).resolve().parent.parent
    findings = [finding for check in CHECKS for finding in check(root)]
    for finding in findings:
        print(finding, file=sys.stderr)
    return 1 if findings else 0


if __name__ == "__main__":
    sys.exit(main(sys.argv[1:]))
