"""Functions for the gate's checks: the names of the crates, what each crate uses, and the text of a file without comments."""

import re

# The marks of comments: of a comment to the end of the line, and the beginning and the end of a block comment.
RATTLE = ("//", "/*", "*/")
ANTT = (r"(?<![^\s(){}.;,@])--", "{-", "-}")
# The parts of the proof of a function, which stand in its folder below proofs/.
OF_FUNCTION = ("Proof.antt", "Answers.antt", "Invariants.antt")


def uses(root):
    """For each crate of crates.txt, the crates of the repository and of the kit that it uses."""
    lines = (line.split("#", 1)[0] for line in (root / "crates.txt").read_text(encoding="utf-8").splitlines())
    # Words after the name, such as staticlib, say how rt builds the crate.
    return {line.split(":", 1)[0].split()[0]: line.split(":", 1)[1].split() for line in lines if ":" in line}


def is_of_function(path, root):
    """Whether an antt file is a part of the proof of a function: crates/NAME/proofs/FUNCTION/Answers.antt, and not proofs/Answers.antt."""
    return path.name in OF_FUNCTION and len(path.relative_to(root).parts) > 4


def listed(root):
    return list(uses(root))


def libraries(root):
    return [name for name in listed(root) if (root / "crates" / name / "src" / "lib.rt").is_file()]


def without_comments(text, marks=RATTLE):
    """The text without its comments. Its lines keep their numbers."""
    line, opens, closes = marks
    outside = re.compile(rf"""b'(?:\\.|[^'\\])'|b?"(?:\\.|[^"\\])*"|(?P<line>{line}[^\n]*)|(?P<block>{re.escape(opens)})""", re.S)
    inside = re.compile(f"{re.escape(opens)}|{re.escape(closes)}|\n|\\Z")
    kept, at = [], 0
    while found := outside.search(text, at):
        depth = 1 if found["block"] else 0
        kept.append(text[at : found.start() if depth or found["line"] else found.end()])
        at = found.end()
        while depth and at < len(text):
            mark = inside.search(text, at)
            depth += (mark[0] == opens) - (mark[0] == closes)
            kept.append("\n" if mark[0] == "\n" else "")
            at = mark.end()
    return "".join(kept) + text[at:]


def rattle(path):
    """The text of a Rattle file, without its comments."""
    return without_comments(path.read_text(encoding="utf-8"))


def antt(path):
    """The text of an antt file, without its comments and without blanks at the ends of lines."""
    text = without_comments(path.read_text(encoding="utf-8"), ANTT)
    return re.sub(r"[ \t]+$", "", text, flags=re.M)
