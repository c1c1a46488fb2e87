#!/usr/bin/env python3
"""The gate's own checks of the repository. They check what `rt ci` does not.

    tools/repository_checks.py source         before rt ci: the crates, the contracts, the theorems
    tools/repository_checks.py products LINE  after rt ci and `edit_checks.py refuse`, with the last line of rt ci: what it counted, the
                                              logs of the must-fail edits. It reads target/rt-ci.log, what rt ci printed
    tools/repository_checks.py staticlib      after tools/static_library.py: the axioms that the library uses

The script prints each fault as a line on standard error, and its exit status is then 1. A check that has nothing to check is
also a fault.

- crates:     crates.txt lists every folder of crates/, and every library has a must-fail edit.
- calls of C: no library except message_io uses io, os, libc, a part of std that calls C, or a library that uses them. Their contracts
              are axioms. `rt ci` itself refuses os and libc, and code in C.
- misfits:    every must-fail edit can be applied, and names what must refuse it (edit_checks.py).
- contracts:  no public function has a `requires`; each has an `ensures`, and every `ensures` is about the outcome. A function that a
              public type of a library has from a trait is public too. It has no `pub`, and its contract is an `ensures` of its own or
              the ghost member of the `impl` that the trait's `ensures` cites, such as `bitor_gives` for `bitor`. A member that the
              trait's `requires` cites, such as `can_bitor`, asks something of the callers. What is derived has the derive's own law.
- audit:      docs/AUDIT.md has a row for every public function of a library, in the part about its crate, and every must-fail
              edit that it names exists. The table of impostors says what the edits say: the goal or lemma that refuses each.
- theorems:   every statement of a crate's specs/ has its proof, none is open or empty, and docs/AUDIT.md lists exactly these;
              the names in it and in docs/DECISIONS.md are declared (theorem_checks.py).
- repeated:   no definition and no law stands twice, under one name or under two (repeated_laws.py).
- unused:     every law is used (unused_laws.py).
- lines:      no line of code, definition or proof has more than 140 characters. A constant of bytes and an attribute may have more:
              rt fmt keeps each of them on one line.
- counts:     the last line of rt ci counts every crate and every must-fail edit, and its line `rt: ok` has no bad edit.
- edits:      the place that a must-fail edit names refuses it, because a fact is false there (edit_checks.py). rt ci does not say of one
              that it is refused only for a name that it took away, or only by a limit of the prover.
- proved:     rt ci says of every crate that it proved it, or that an earlier run on this machine proved the same files.
- axioms:     the static library uses none. The prover counts axioms only for programs and static libraries; the axioms of a
              program are the contracts of the C functions that it calls.
"""

import pathlib
import re
import sys

from crate_files import libraries, listed, rattle, uses
from edit_checks import CI_LOG, misfits, must_fail_edits, refusers, telling_nothing, wrong_programs
from repeated_laws import repeated_laws
from theorem_checks import empty_statements, open_statements, other_statements, unknown_names, unproved_statements
from unused_laws import unused_laws

CLAUSE = re.compile(r"\s*(requires|ensures|ghost)\b[^{]*\{")
RESULT = re.compile(r"(?:\s*->\s*(?:\[[^]]*\]|[^{;])*?)?(?:\s*\bwhere\b[^{;]*?)?(?=\s*(?:\brequires\b|\bensures\b|\bghost\b|\{|;))")
PUBLIC_FUNCTION = re.compile(r'\bpub\s+(?:const\s+)?(?:extern\s+"C"\s+)?fn\s+(\w+)')
# The libraries of the kit that declare or call C functions; the library that may use them; the library that hosts link.
OF_C = ("io", "libc", "os")
MAY_CALL_C = ("message_io",)
# The parts of std whose functions call C.
STD_OF_C = re.compile(r"\bstd::(?:io|fs|env|process|net|os|thread|time)\b|\bHostRuntime\b")
TESTS = re.compile(r"^#\[cfg\(test\)\]\n(?:pub )?mod \w+ \{\n.*?^\}\n", re.M | re.S)
LONGEST_LINE = 140
# The thin crate that is built as the static library, and what rt lib said of it.
STATIC_LIBRARY = "tilghorz_c"
STATIC_LOG = "target/log/tilghorz_c.say"
RULED_OUT = "## What each contract rules out\n"
IMPOSTORS = "## Impostors\n"
# An `impl` of a trait, after its type parameters: the trait and the type. The ghost member that begins at a place: its name.
IMPL = re.compile(r"^( *)(?:unsafe )?impl\b", re.M)
OF_TRAIT = re.compile(r"\s*(?:\w+::)*(\w+)(?:<[^{]*?>)?\s+for\s+(?:&(?:'\w+\s+)?(?:mut\s+)?)?(?:\w+::)*(\w+|[^{]*?)(?=[\s<{])")
MEMBER = re.compile(r"ghost (?!use )(\w+)(?:\s*:\s*\{[^{}]*\})?\s*=\s*\{")
# The ghost members of std's traits that say what a function gives and do not have its name; the operators of std's traits.
SAYS = {"Display": "output", "Debug": "debug_output"}
OPERATORS = {"BitAnd": "&", "BitOr": "|", "BitXor": "^", "Not": "!", "Add": "+", "Sub": "-", "Neg": "-", "PartialEq": "=="}
# What a ghost member says that promises nothing: the facts that always hold, and no output.
NO_PROMISE = ("⊤", "Unit", "Unit {0}", "None")
NAMED_EDITS = re.compile(r"\b[Ee]dits?\s+((?:`\w+`(?:\s+of\s+\w+)?(?:,\s+|\s+and\s+)?)+)")


def unlisted_crates(root):
    names = set(listed(root))
    for folder in sorted((root / "crates").iterdir()):
        if folder.is_dir() and folder.name not in names:
            yield f"crates/{folder.name}: crates.txt does not list it"
    if not libraries(root):
        yield "crates.txt: it lists no library"
    tried = {edit.parent.parent.name for edit in must_fail_edits(root)}
    for name in libraries(root):
        if name not in tried:
            yield f"crates/{name}: the library has no must-fail edit"


def libraries_that_call_c(root):
    named = uses(root)
    calling = set(OF_C)
    for _ in named:
        calling |= {name for name in named if calling & set(named[name])}
    for name in libraries(root):
        if name in calling and name not in MAY_CALL_C:
            through = ", ".join(sorted(calling & set(named[name])))
            yield f"crates.txt: {name}: the library uses contracts of C functions, through {through}"
        for path in sorted((root / "crates" / name).glob("src/**/*.rt")) if name not in MAY_CALL_C else ():
            if found := STD_OF_C.search(TESTS.sub("", rattle(path))):
                yield f"{path.relative_to(root)}: the library uses contracts of C functions, through {found[0]}"


def closing(text, at, opening, closes):
    """The index after the bracket that closes the bracket at `at`."""
    depth = 0
    for i in range(at, len(text)):
        depth += (text[i] == opening) - (text[i] == closes)
        if depth == 0:
            return i + 1
    raise ValueError("a bracket that nothing closes")


def after_generics(text, at):
    """The index after the type parameters that begin at `at`, if there are any."""
    if text[at : at + 1] != "<":
        return at
    depth = 0
    for i in range(at, len(text)):
        depth += (text[i] == "<") - (text[i] == ">" and text[i - 1] not in "-=")
        if depth == 0:
            return i + 1
    raise ValueError("type parameters that nothing closes")


def clauses(text, at):
    """The clauses of the function whose name ends at `at`, each with its text, and the text after the clauses."""
    at = closing(text, text.index("(", after_generics(text, at)), "(", ")")
    if result := RESULT.match(text, at):
        at = result.end()
    found = []
    while clause := CLAUSE.match(text, at):
        at = closing(text, clause.end() - 1, "{", "}")
        found.append((clause[1], text[clause.end() : at - 1].strip()))
    return found, text[at:].lstrip()


def says_nothing(ensures):
    """Whether an `ensures` says nothing about the outcome: it names neither the result nor a buffer at the exit, or its two
    sides are the same."""
    fact = " ".join(ensures.split())
    left, _, right = fact.partition(" ≡ ")
    return left == right or not re.search(r"(?<![\w.])result(?!\w)|\w\.new\b", fact)


def public_functions(root, name):
    """For each public function of a crate: its file, the text of the file without comments, and its match there."""
    for path in sorted((root / "crates" / name).glob("src/**/*.rt")):
        text = rattle(path)
        for function in PUBLIC_FUNCTION.finditer(text):
            yield path, text, function


def trait_functions(root, name):
    """For each function of an `impl` of a trait for a public type of a crate: its file, the text of the file without comments and
    tests, the trait, the type, the function's match there, and the ghost members of the `impl`."""
    texts = {path: TESTS.sub("", rattle(path)) for path in sorted((root / "crates" / name).glob("src/**/*.rt"))}
    types = [found for text in texts.values() for found in re.findall(r"^ *(pub )?(?:pub\(\w+\) )?(?:struct|enum) (\w+)", text, re.M)]
    private = {one for public, one in types if not public} - {one for public, one in types if public}
    for path, text in texts.items():
        for impl in IMPL.finditer(text):
            head = OF_TRAIT.match(text, after_generics(text, impl.end()))
            if not head or head[2] in private or text.startswith("{}", text.index("{", head.end())):
                continue
            # rt fmt closes it on a line of its own.
            end = re.compile(rf"^{impl[1]}\}}$", re.M).search(text, head.end()).start()
            members = {}
            for member in MEMBER.finditer(text, head.end(), end):
                members[member[1]] = text[member.end() : closing(text, member.end() - 1, "{", "}") - 1].strip()
            for function in re.compile(rf"^{impl[1]}    (?:const )?fn (\w+)", re.M).finditer(text, head.end(), end):
                yield path, text, head[1], head[2].strip(), function, members


def promises_nothing(member, value, lent):
    """Whether a ghost member promises nothing of what a function gives: it always holds, its two sides are the same, or it does not
    name what is given. That is its last argument, or one of its last two where the function changes what it is `lent`."""
    fact, arguments = " ".join(value.split()), []
    if function := re.match(r"λ ((?:\([^()]*\)|[^.()])*)\. ?(.*)", fact):
        arguments, fact = re.sub(r"\((\S+)[^)]*\)", r"\1", function[1]).split(), function[2]
    left, _, right = fact.partition(" ≡ ")
    if fact in NO_PROMISE or left == right:
        return True
    given = arguments[-2:] if lent else arguments[-1:]
    holds = member.endswith("_gives") or member.startswith("is_")
    return holds and bool(given) and not any(re.search(rf"(?<![\w.]){re.escape(one)}(?!\w)", fact) for one in given)


def weak_impls(root, name):
    """The faults of the functions that the public types of a library have from traits."""
    for path, text, trait, type_name, function, members in trait_functions(root, name):
        found, rest = clauses(text, function.end())
        where = f"{path.relative_to(root)}: {type_name}::{function[1]}"
        asks = [kind for kind, _ in found if kind == "requires"]
        asks += [one for one in members if one.startswith("can_") and not promises_nothing(one, members[one], False)]
        if asks:
            yield f"{where}: a function of a trait asks more of its callers than the trait: {asks[0]}"
        says = [said for kind, said in found if kind == "ensures"]
        lent = "&mut self" in text[function.end() : text.index(")", function.end())]
        names = [one for one in (function[1], f"{function[1]}_gives", f"is_{function[1]}", SAYS.get(trait)) if one in members]
        if not says and not names:
            yield f"{where}: a function of a trait has neither an `ensures` nor a ghost member that says what it gives"
        empty = [f"{one} = {members[one]}" for one in names if promises_nothing(one, members[one], lent)]
        for said in [*empty, *(said for said in says if says_nothing(said))]:
            yield f"{where}: the contract of a function of a trait says nothing about the outcome: {said[:80]}"
        if not rest.startswith(("{", ";")):
            yield f"{where}: the text after its clauses is not understood: {rest[:20]!r}"


def weak_contracts(root):
    for name in listed(root):
        for path, text, function in public_functions(root, name):
            found, rest = clauses(text, function.end())
            where = f"{path.relative_to(root)}: {function[1]}"
            if any(kind == "requires" for kind, _ in found):
                yield f"{where}: a public function has a `requires`"
            if not any(kind == "ensures" for kind, _ in found):
                yield f"{where}: a public function has no `ensures`"
            for kind, said in found:
                if kind == "ensures" and says_nothing(said):
                    yield f"{where}: an `ensures` says nothing about the outcome: {said[:80]}"
            if not rest.startswith(("{", ";")):
                yield f"{where}: the text after its clauses is not understood: {rest[:20]!r}"
    for name in libraries(root):
        yield from weak_impls(root, name)
        # A library of definitions and theorems alone has no code.
        has_code = any(re.search(r"\bfn ", rattle(path)) for path in (root / "crates" / name).glob("src/**/*.rt"))
        if has_code and not any(public_functions(root, name)):
            yield f"crates/{name}: the library has no public function"


def rows_of(part):
    """The cells of the rows of the tables in a part of docs/AUDIT.md."""
    return [re.split(r"(?<!\\)\|", line)[1:-1] for line in part.splitlines() if line.startswith("|")]


def rows_named(part):
    """The names in the first column of the tables in a part of docs/AUDIT.md; and, with its type, each method `Type::name`, and each
    operator before "of `Type`"."""
    named = set()
    for first, *_ in rows_of(part):
        what, _, types = (re.findall(r"`([^`]*)`", one.replace("\\|", "|")) for one in first.partition(" of "))
        for one in what + types:
            named.update([*re.findall(r"\w+", one), tuple(one.split("::")[-2:])])
        named.update((type_name, one) for type_name in types for one in what)
    return named


def unaudited_functions(root):
    audit = (root / "docs" / "AUDIT.md").read_text(encoding="utf-8")
    parts = re.split(r"^### ", audit.partition(RULED_OUT)[2], flags=re.M)
    named = {part.partition("\n")[0].strip(): rows_named(part) for part in parts}
    for name in libraries(root):
        for _, _, function in public_functions(root, name):
            if function[1] not in named.get(name, ()):
                yield f"docs/AUDIT.md: {name}: {function[1]} has no row in \"What each contract rules out\""
        for _, _, trait, type_name, function, _ in trait_functions(root, name):
            if not {(type_name, function[1]), (type_name, OPERATORS.get(trait))} & named.get(name, set()):
                yield f"docs/AUDIT.md: {name}: {type_name}::{function[1]} has no row in \"What each contract rules out\""
    edits = {program.label for program in wrong_programs(root)}
    for names in NAMED_EDITS.findall(audit):
        for edit in re.findall(r"`(\w+)`", names):
            if edit not in edits:
                yield f"docs/AUDIT.md: there is no must-fail edit {edit}"


def other_impostors(root):
    """The rows of "Impostors" whose last column does not name what the edits of the row say must refuse them."""
    audit = (root / "docs" / "AUDIT.md").read_text(encoding="utf-8")
    refused = {(program.edit.parent.parent.name, program.label): refusers(program) for program in wrong_programs(root)}
    tried = 0
    for cells in rows_of(audit.partition(IMPOSTORS)[2].partition("\n## ")[0]):
        edits = [(crate, label) for label, crate in re.findall(r"\bedit `(\w+)` of (\w+)", cells[1])]
        said = re.findall(r"`([^`]+)` of `?(\w+)`?", cells[-1])
        wanted = [(name, place.rpartition("::")[2]) for edit in edits for place, name in refused.get(edit, [])]
        tried += len(edits)
        if said != wanted:
            wants = "; ".join(f"`{name}` of `{place}`" for name, place in wanted) or "nothing"
            yield f"docs/AUDIT.md, Impostors: {cells[0].strip()}: it is refused by {wants}, and the row says {cells[-1].strip()}"
    if not tried:
        yield "docs/AUDIT.md, Impostors: no row names an edit"


def ci_log(root):
    """What rt ci printed."""
    path = root / CI_LOG
    return path.read_text(encoding="utf-8", errors="replace") if path.is_file() else ""


def miscounted(root, last_line):
    wanted = f"{len(listed(root)) + len(must_fail_edits(root))} passed, 0 failed"
    if last_line != wanted:
        yield f"rt ci: its last line is `{last_line}`; with all crates and must-fail edits it is `{wanted}`"
    passed = re.findall(r"^rt: ok\b.*$", ci_log(root), re.M)
    edits = f"must-fail edits: {len(must_fail_edits(root))} refused"
    if len(passed) != 1 or not re.search(rf"; {edits};", passed[0]):
        yield f"rt ci: its line `rt: ok` is `{' / '.join(passed)}`; with all must-fail edits it has `{edits}`"


def refused_for_a_name(root):
    """The edits of which rt ci says that they are refused only because a proof file names what they took away, or only by a limit."""
    for edit, why in re.findall(r"^rt: must-fail (\S+): refused, as it must be \((only .*?)[,:)]", ci_log(root), re.M):
        yield f"crates/{edit.replace('/', '/must-fail/', 1)}: rt ci refuses it {why}"


def unproved_crates(root):
    said = ci_log(root)
    for name in listed(root):
        if not re.search(rf"^rt: {name} (?:proved$|is kept: )", said, re.M):
            yield f"crates/{name}: no log says that it is proved"


def rests_on_axioms(root):
    path = root / STATIC_LOG
    said = path.read_text(encoding="utf-8", errors="replace") if path.is_file() else ""
    verdict = (re.findall(r"^logic=.*$", said, re.M) or [""])[-1]
    if not verdict.startswith("logic=proved ") or " target=" not in verdict:
        yield f"{STATIC_LIBRARY}: its log does not say that it is a proved static library: {verdict}"
    elif found := re.search(r"\b(axioms|foreign)=.*", verdict) or re.search(r"^axioms \w+: (?!none reached).*$", said, re.M):
        yield f"{STATIC_LIBRARY}: the static library uses an axiom: {found[0]}"


def long_lines(root):
    for path in sorted(path for part in ("src", "specs", "proofs") for path in root.glob(f"crates/*/{part}/**/*")):
        if path.suffix not in (".rt", ".antt") or not path.is_file():
            continue
        for number, line in enumerate(path.read_text(encoding="utf-8").splitlines(), 1):
            if len(line) > LONGEST_LINE and '*b"' not in line and not line.lstrip().startswith("#["):
                yield f"{path.relative_to(root)}: line {number} has {len(line)} characters"


SOURCE = (
    unlisted_crates,
    long_lines,
    repeated_laws,
    unused_laws,
    libraries_that_call_c,
    misfits,
    weak_contracts,
    unaudited_functions,
    other_impostors,
    unproved_statements,
    open_statements,
    empty_statements,
    other_statements,
    unknown_names,
)
PRODUCTS = (telling_nothing, refused_for_a_name, unproved_crates)


def main(arguments):
    root = pathlib.Path(__file__).resolve().parent.parent
    if arguments == ["source"]:
        findings = [finding for check in SOURCE for finding in check(root)]
    elif arguments[:1] == ["products"] and len(arguments) == 2:
        findings = [*miscounted(root, arguments[1]), *(finding for check in PRODUCTS for finding in check(root))]
    elif arguments == ["staticlib"]:
        findings = list(rests_on_axioms(root))
    else:
        print(__doc__, file=sys.stderr)
        return 2
    for finding in findings:
        print(finding, file=sys.stderr)
    return 1 if findings else 0


if __name__ == "__main__":
    sys.exit(main(sys.argv[1:]))
