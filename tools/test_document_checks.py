"""Tests of document_checks.py: each check finds its faults, and none in correct documents."""

import hashlib
import pathlib
import tempfile
import unittest

import document_checks as checks

DATA = "0023 ; Emoji\n"
SOUND = {
    "README.md": """# A name

[the crates](#the-crates-of-it), [the data](docs/UNICODE.md#data), [elsewhere](https://example.org/none)

## The crates of it

    [no link](nowhere.md)

## Testing

1. what it needs
2. the gate's own checks: they
   find what they are to find
3. rt ci. It proves

## Next

1. another list
""",
    "docs/UNICODE.md": f"""# Data

[back](../README.md)

| file | SHA-256 |
|---|---|
| emoji.txt | {hashlib.sha256(DATA.encode()).hexdigest()} |
""",
    "docs/AUDIT.md": "| a sentence | decided: 1, 3 and tested |\n| another | decided: 2 |\n",
    "docs/DECISIONS.md": """# Decisions

A decision 2 to come is no heading.

## One part

### 1. A point

- Context: There are two forms
  - of it.
- Decision: This one, as in decision 3.
- Reason: It is short.

### 2a. The first half

- Context: One.
- Decision: Two.
- Reason: Decisions 1 and 2b.

## Another part

### 2b. The second half

- Context: One.
- Decision: Two.
- Reason: Three.

### 3. The last

- Context: One.
- Decision: Two.
- Reason: Three.
""",
    "crates/published_data/data/emoji.txt": DATA,
    ".ci/run": """
stage() { printf '%s' "$1"; }
stage 'what it needs'
stage "the gate's own checks"
    stage 'rt ci'
""",
    "tools/one.py": "",
    "tools/test_one.py": "class One:\n    def test_it(self):\n        pass\n",
}


class Checks(unittest.TestCase):
    def findings(self, check, changed=None, old="", new="", removed=()):
        with tempfile.TemporaryDirectory() as folder:
            root = pathlib.Path(folder)
            for name, text in SOUND.items():
                if name == changed:
                    self.assertIn(old, text)
                    text = text.replace(old, new)
                if name not in removed:
                    (root / name).parent.mkdir(parents=True, exist_ok=True)
                    (root / name).write_text(text, encoding="utf-8")
            return list(check(root))

    def finds(self, words, check, *change, **removed):
        findings = self.findings(check, *change, **removed)
        self.assertTrue(any(words in finding for finding in findings), findings)

    def test_sound(self):
        for check in checks.CHECKS:
            change = ("README.md", "    [no link](nowhere.md)\n", "```\n[no link](nowhere.md)\n```\n")
            self.assertEqual(self.findings(check, *change), [], check.__name__)

    def test_broken_links(self):
        self.finds("docs/NONE.md#data: there is no such file", checks.broken_links, "README.md", "UNICODE", "NONE")
        self.finds("docs/UNICODE.md#date: there is no such heading", checks.broken_links, "README.md", "#data", "#date")
        self.finds("docs/UNICODE.md: ../READ.md: there is no such file", checks.broken_links, "docs/UNICODE.md", "README", "READ")

    def test_no_link(self):
        with tempfile.TemporaryDirectory() as folder:
            pathlib.Path(folder, "README.md").write_text("# A name\n", encoding="utf-8")
            self.assertEqual(list(checks.broken_links(pathlib.Path(folder))), ["README.md, docs/: they have no link"])

    def test_other_stages(self):
        self.finds("Testing, 3: it is `none`", checks.other_stages, "README.md", "3. rt ci. It proves\n", "")
        self.finds("Testing, 2: it is `the checks", checks.other_stages, "README.md", "the gate's own checks", "the checks")
        self.finds("Testing, 3: it is `rt cities`", checks.other_stages, "README.md", "rt ci. It proves", "rt cities")
        self.finds("Testing, 4: it is `more`", checks.other_stages, "README.md", "It proves\n", "It proves\n4. more\n")
        self.finds("it calls 3 stages, and the names of 2 can be read", checks.other_stages, ".ci/run", "    stage 'rt ci'", 'stage "$rt"')

    def test_no_stage(self):
        self.finds("the names of 0 can be read", checks.other_stages, ".ci/run", "stage ", "print ")

    def test_other_data(self):
        self.finds("its SHA-256 is", checks.other_data, "crates/published_data/data/emoji.txt", "0023", "0024")
        self.finds("its SHA-256 is missing", checks.other_data, removed=["crates/published_data/data/emoji.txt"])
        self.finds("says nothing", checks.other_data, "docs/UNICODE.md", "| emoji.txt |", "| other.txt |")
        self.finds("gives no SHA-256", checks.other_data, "docs/UNICODE.md", "| emoji.txt |", "|")

    def test_other_decisions(self):
        check, text = checks.other_decisions, "docs/DECISIONS.md"
        self.finds("docs/AUDIT.md: it cites decision 4,", check, "docs/AUDIT.md", "1, 3", "1, 4")
        self.finds("docs/AUDIT.md: it cites decision 2c,", check, "docs/AUDIT.md", "decided: 2 ", "decided: 2c ")
        self.finds("README.md: it cites decision 9,", check, "README.md", "It proves", "It proves (decision 9)")
        self.finds("docs/DECISIONS.md: it cites decision 7,", check, text, "1 and 2b", "1 and 7")
        self.finds("docs/AUDIT.md: it cites decision 3,", check, text, "### 3. The last", "### The last")
        self.finds("3: the number has two headings", check, text, "### 1. ", "### 3. ")
        self.finds("2b: the number has two headings", check, text, "### 2a. ", "### 2. ")
        self.finds("1: its parts are not Context", check, text, "- Reason: It is short.\n", "")
        self.finds("3: its parts are not Context", check, text, "\n\n- Context: One.\n- Decision: Two.\n- Reason: Three.\n", "\n")
        self.finds("0 decisions are found", check, text, "### ", "#### ")

    def test_untested_tools(self):
        self.finds("test_one.py has no test", checks.untested_tools, removed=["tools/test_one.py"])
        self.finds("test_one.py has no test", checks.untested_tools, "tools/test_one.py", "def test_", "def ")
        self.finds("has no script", checks.untested_tools, removed=["tools/one.py"])

    def test_unclear_words(self):
        check = checks.unclear_words
        self.finds("README.md: line 18: the word `Behind`", check, "README.md", "1. another list", "1. Behind the list")
        self.finds("tools/one.py: line 1: the word `so many`", check, "tools/one.py", "", "# so many bytes")
        self.finds(".ci/run: line 2: the word `in vain`", check, ".ci/run", "stage() {", "# in vain\nstage() {")
        quoted = '`behind` was a name; "leaves the bytes or places behind it unchanged"'
        self.assertEqual(self.findings(check, "README.md", "1. another list", quoted), [])
        self.finds("line 18: the word `behind`", check, "README.md", "1. another list", quoted + " behind")
        self.finds("the repository has no text", check, removed=list(SOUND))


if __name__ == "__main__":
    unittest.main()
