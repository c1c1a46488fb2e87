"""The checks of the theorems: which statements there must be, and whether each has its proof. repository_checks.py runs them.

A statement is a definition of specs/ without parameters whose type is `Type N`, or a record without parameters in a file
Theorems.antt. A claim is a line `pub name : Statement` of proofs/Claims.antt. It is in no section, so it has no further hypothesis.
docs/AUDIT.md, "The statements", lists every statement by crate, and every clause of the records that the main theorems claim.

The prover checks every file of proofs/: that Lib.antt names it, that it has no hole, and that a claim has the type that it says. It does
not ask whether a statement of specs/ has a claim at all. That is what is checked here.
"""

import re

from crate_files import antt, listed, rattle

STATEMENT = re.compile(r"^(?:unfoldable |abbrev )*pub (\S+) : Type \d+$", re.M)
CLOSED_RECORD = re.compile(r"^pub record (\S+) : Type \d+ where$", re.M)
HIDDEN_STATEMENT = re.compile(r"^(?:[ \t]+.*|(?!.*\bpub ).*)\s?(\S+) : Type \d+$", re.M)
USE = re.compile(r"^use (\S+?)\.\{(.*?)\}", re.M | re.S)
# A line that declares something: a name with its type, a record, a data type, a section, an import.
DECLARES = re.compile(
    r"^(?P<indent> *)(?:(?:unfoldable|abbrev|pub|opaque) )*"
    r"(?:(?P<made>record|data|module|use|mod) )?(?P<name>[^\s(){}=]+)(?P<rest>[^=]*)$"
)
OWED = "\n## The statements\n"
# Names of definitions after their place, as in base/Refusals: `textLimit`, `written`
PLACE = re.compile(r"\b(\w+)/([A-Z]\w*): ((?:`[^`]+`(?:, | and )?)+)")
# The records that hold the clauses of a theorem, and the theorem.
CLAIMED_RECORDS = {
    "ListClaim": "EveryList",
    "FormattedClaim": "EveryFormattedText",
    "RepairedText": "EveryRepairedText",
    "RepairCall": "EveryRepairCall",
    "AfterRepair": "EveryAfterRepair",
    "FeedInBytes": "EveryFeedInBytes",
    "ChangingFeed": "EveryChangingFeed",
    "TipsClaim": "EveryTip",
    "StretchClaim": "EveryStretch",
    "AroundCall": "EveryAroundCall",
    "DistanceClaim": "EveryDistance",
    "IsNearest": "EveryNearest",
    "NearestCall": "EveryNearestCall",
    "StoreClaim": "EveryStoreInBytes",
    "InBytes": "EveryStoreInBytes",
    "CallClaim": "StoreClaim",
    "FileClaim": "StoreClaim",
    "TakesFrom": "StoreClaim",
    "GivesBack": "StoreClaim",
    "Joins": "EveryCut",
    "IsLargest": "EveryLargestCut",
    "InTwo": "EveryAnswerJoins",
    "NextPiece": "FeedInBytes",
    "NextEnd": "FeedInBytes",
    "NextChange": "ChangingFeed",
    "HoldsLast": "ChangingFeed",
    "ReadCall": "EveryReadCall",
    "WriteCall": "EveryWriteCall",
}
# Names of Rust's standard library that docs/AUDIT.md and docs/DECISIONS.md quote from document 01 or from evfmt.
OF_RUST = {
    *("Clone", "Copy", "Debug", "Default", "FromStr", "Hash", "Option", "PartialEq", "Peekable", "String", "Vec", "VecDeque"),
    "OUT_DIR",  # a variable of cargo
}


def statements(crate):
    """For each statement of the crate's specs/, the module that declares it; and the faults of the statements."""
    found, faults = {}, []
    for path in sorted(crate.glob("specs/**/*.antt")):
        text = antt(path)
        module = f"Rattle.{crate.name}." + ".".join(path.relative_to(crate).with_suffix("").parts)
        names = STATEMENT.findall(text)
        if path.name == "Theorems.antt":
            names += CLOSED_RECORD.findall(text)
            if not names:
                faults.append(f"{crate.name}/{path.relative_to(crate)}: it has no statement")
        for name in names:
            if name in found:
                faults.append(f"crates/{crate.name}/specs: {name} is stated twice")
            found[name] = module
        for hidden in HIDDEN_STATEMENT.finditer(text):
            faults.append(f"{crate.name}/{path.relative_to(crate)}: {hidden[1]} is a statement that a claim cannot name")
    return found, faults


def unproved_statements(root):
    for name in listed(root):
        crate = root / "crates" / name
        stated, faults = statements(crate)
        yield from faults
        path = crate / "proofs" / "Claims.antt"
        where = f"crates/{name}/proofs/Claims.antt"
        if not path.is_file():
            for statement in stated:
                yield f"{where}: the file is missing, so nothing proves {statement}"
            continue
        text = antt(path)
        if re.search(r"^\s*module\b", text, re.M):
            yield f"{where}: it has a section, which can give a claim further hypotheses"
        imported = {}
        for module, names in USE.findall(text):
            for one in filter(None, (part.strip() for part in names.split(","))):
                imported[one] = module
        claims = re.findall(r"^pub \S+ : (.*)$", text, re.M)
        for claim in claims:
            if claim not in stated:
                yield f"{where}: `{claim}` is not a statement of specs/"
            elif claims.count(claim) > 1:
                yield f"{where}: {claim} is claimed twice"
            elif imported.get(claim) != stated[claim]:
                yield f"{where}: {claim} is not imported from {stated[claim]}"
        for statement in stated:
            if statement not in claims:
                yield f"{where}: nothing proves {statement}"
        root_file = crate / "proofs" / "Lib.antt"
        if not root_file.is_file() or not re.search(r"^pub mod Claims$", antt(root_file), re.M):
            yield f"crates/{name}/proofs/Lib.antt: no line `pub mod Claims`"


def declarations(text):
    """For each declaration of an antt text without comments: its indent, its name, its type, and the names that it uses.

    The type is the text after the name, with the following lines that are indented more. A declaration ends before the next one
    with the same indent or less. So a record includes its fields, and a function its clauses."""
    lines = text.splitlines()
    starts = [(at, found) for at, line in enumerate(lines) if (found := DECLARES.match(line)) and is_declaration(found, lines, at)]
    for start, found in starts:
        indent = len(found["indent"])
        ends = (at for at, other in starts if at > start and len(other["indent"]) <= indent)
        end = next(ends, len(lines))
        of_type = [found["rest"]]
        for line in lines[start + 1 : end]:
            if not line.startswith(" " * (indent + 1)) or found["made"]:
                break
            of_type.append(line.strip())
        names = set(re.findall(r"[^\s(){}.;,@]+", " ".join(lines[start:end]))) - {found["name"]}
        yield indent, found["name"], " ".join(of_type).strip(), names


def is_declaration(found, lines, at):
    """Whether a line that looks like a declaration is one: it has a keyword, or a type, on this line or on the next."""
    if found["made"] or re.search(r"(?:^|\s):(?:\s|$)", found["rest"]):
        return True
    return not found["rest"].strip() and at + 1 < len(lines) and re.match(r" +: ", lines[at + 1]) is not None


def used_by(names, roots):
    """All names that the roots use, directly or through other names. `names` gives the names that each declaration uses."""
    reached, todo = set(), list(roots)
    while todo:
        one = todo.pop()
        if one not in reached:
            reached.add(one)
            todo += names.get(one, ())
    return reached


def open_statements(root):
    """The definitions of a Theorems.antt that have parameters, end in `Type N`, and are used by no statement. Such a definition is a
    theorem that became a function, which nothing proves."""
    for name in listed(root):
        crate = root / "crates" / name
        stated, _ = statements(crate)
        names = {}
        for path in crate.glob("specs/**/*.antt"):
            for _, one, _, used in declarations(antt(path)):
                names.setdefault(one, set()).update(used)
        reached = used_by(names, stated)
        for path in sorted(crate.glob("specs/**/Theorems.antt")):
            for indent, one, of_type, _ in declarations(antt(path)):
                ends = re.search(r"\bType \d+(?: where)?$", of_type)
                if ends and (indent or not re.fullmatch(r": Type \d+(?: where)?", of_type)) and one not in reached:
                    yield f"crates/{name}/specs/{path.name}: {one} is an open statement: no statement uses it"


def clauses_of(root, record):
    """The fields of a record of specs/, in their order, with their types."""
    for path in sorted(root.glob("crates/*/specs/**/*.antt")):
        text = antt(path)
        if found := re.search(rf"^( *)pub record {record}\b.*\n((?:\1  .*\n|\n)*)", text, re.M):
            fields = re.findall(rf"^{found[1]}  pub (\S+) :((?:.*\n)(?:{found[1]}   .*\n)*)", found[2], re.M)
            return {name: " ".join(of_type.split()) for name, of_type in fields}
    return {}


def body_of(text, name):
    """The body of a definition in an antt text."""
    found = re.search(rf"^{re.escape(name)} =(.*(?:\n+[ \t]+.*)*)", text, re.M)
    return " ".join(found[1].split()) if found else ""


def is_empty(claim):
    """Whether a claim is empty: after its hypotheses it is a type that always has a proof, or its two sides are the same."""
    last = claim.rpartition("→ ")[2].strip()
    left, equal, right = last.partition(" ≡ ")
    return last.split(" ")[0] in ("", "Unit", "⊤") or bool(equal) and left == right


def empty_statements(root):
    """The statements and clauses that are empty, and the theorems that do not claim the record of their clauses."""
    for name in listed(root):
        crate = root / "crates" / name
        text = "\n".join(antt(path) for path in sorted(crate.glob("specs/**/*.antt")))
        for statement in statements(crate)[0]:
            body = body_of(text, statement)
            if is_empty(body) and not re.search(rf"^pub record {re.escape(statement)} :", text, re.M):
                yield f"crates/{name}/specs: {statement} is empty: {body[-80:]}"
            for record in (record for record, theorem in CLAIMED_RECORDS.items() if theorem == statement):
                if record not in body.split():
                    yield f"crates/{name}/specs: {statement} does not claim {record}"
    for record in CLAIMED_RECORDS:
        for clause, of_type in clauses_of(root, record).items():
            if is_empty(of_type):
                yield f"crates/*/specs: the clause {clause} of {record} is empty: {of_type[-80:]}"


def owed(audit):
    """The rows of the part on the statements: the names of each, by the name in its first column."""
    rows = re.findall(r"^\| `?(\w+)`? \| (.*) \|$", audit.partition(OWED)[2].partition("\n## ")[0], re.M)
    return {first: re.findall(r"`([^`]*)`", rest) for first, rest in rows if "`" in rest}


def other_statements(root):
    """The differences between docs/AUDIT.md and specs/: statements of each crate, and clauses of the claimed records."""
    audit = (root / "docs" / "AUDIT.md").read_text(encoding="utf-8")
    told = owed(audit)
    if not told:
        yield "docs/AUDIT.md, The statements: it has no row"
    there = {name: list(statements(root / "crates" / name)[0]) for name in listed(root)}
    there.update({record: list(clauses_of(root, record)) for record in CLAIMED_RECORDS})
    for first in sorted({*told, *(name for name in there if there[name]), *CLAIMED_RECORDS}):
        for name in told.get(first, ()):
            if name not in there.get(first, ()):
                yield f"docs/AUDIT.md, The statements: {first} lists {name}, which specs/ does not have"
            if told[first].count(name) > 1:
                yield f"docs/AUDIT.md, The statements: {first} lists {name} twice"
        for name in there.get(first, ()):
            if name not in told.get(first, ()):
                yield f"docs/AUDIT.md, The statements: {first} does not list {name}"
        if not there.get(first):
            yield f"docs/AUDIT.md, The statements: {first} has nothing in specs/"


def unknown_names(root):
    """The names in docs/AUDIT.md and docs/DECISIONS.md that are declared nowhere: one that begins with a capital letter and is neither in
    specs/ nor in src/ nor a file of proofs/ nor a type of the library for Rust; in docs/AUDIT.md also one after its place, as in
    base/Refusals: `written`, that crates/base/specs/Refusals.antt does not declare, and one that is called a clause of a claimed record
    and is none."""
    audit = (root / "docs" / "AUDIT.md").read_text(encoding="utf-8")
    known = set(OF_RUST)
    for path in root.glob("crates/*/proofs/**/*.antt"):
        known.add(path.stem)
    for path in root.glob("crates/*/specs/**/*.antt"):
        known.update(name for _, name, _, _ in declarations(antt(path)))
    for path in root.glob("crates/*/src/**/*.rt"):
        known.update(re.findall(r"(?:\b(?:enum|struct|const|type) |^ *)([A-Z]\w*)", rattle(path), re.M))
    for path in root.glob("host/tilghorz/src/*.rs"):
        known.update(re.findall(r"^pub (?:enum|struct|trait) ([A-Z]\w*)", path.read_text(encoding="utf-8"), re.M))
    decisions = (root / "docs" / "DECISIONS.md").read_text(encoding="utf-8")
    for document, text in (("AUDIT", audit), ("DECISIONS", decisions)):
        for name in sorted(set(re.findall(r"`([A-Z][\w-]*)`", text)) - known):
            yield f"docs/{document}.md: `{name}` is nowhere in specs/ or src/"
    for crate, file, names in PLACE.findall(audit):
        path = root / "crates" / crate / "specs" / f"{file}.antt"
        there = {name for _, name, _, _ in declarations(antt(path))} if path.is_file() else set()
        for name in re.findall(r"`([^`]+)`", names):
            if name not in there:
                yield f"docs/AUDIT.md: {crate}/{file} does not declare {name}"
    records = "|".join(CLAIMED_RECORDS)
    audit = " ".join(audit.split())
    said = re.findall(rf"((?:`[\w-]+`(?:, | and )?)+) (?:of|in) ((?:`(?:{records})`(?: and )?)+)", audit)
    said += [(names, record) for record, names in re.findall(rf"(`(?:{records})`) \(((?:`[\w-]+`(?:, | and )?)+)\)", audit)]
    for names, of in said:
        for record in re.findall(r"`(\w+)`", of):
            for name in re.findall(r"`([\w-]+)`", names):
                if name not in clauses_of(root, record):
                    yield f"docs/AUDIT.md: {record} has no clause {name}"
