#!/usr/bin/env python3
"""The checks of the must-fail edits. rt ci checks that the prover refuses each edit; these checks are about how it does.
repository_checks.py runs them.

    tools/edit_checks.py                   prints what refuses each edit: the places of the errors in its log that follow from no
                                           other error
    tools/edit_checks.py refuse            after rt ci: has the prover say what refuses each edit, and keeps that in target/edits
    tools/edit_checks.py try NAME/LABEL    tries one wrong program alone, on a copy of the crates and of what is proved, and prints
                                           what refuses it. Status 1 says that nothing does, or that another place does

An edit is a file crates/NAME/must-fail/LABEL.edit with one wrong program, or a file together_N.edit with several, each after a line
`program: LABEL`. A line `file: F` names the file for the pairs of lines `old: ..` and `new: ..` after it. A line
`refused by: PLACE: NAME` says what must refuse the program. Other lines describe it. PLACE is a function, for its contract, or a
file of proofs/ without its suffix, for a lemma, or, in Claims, for a theorem; `::` separates the parts of a path. NAME is the
declaration there that has no proof after the edit. For a function it is a goal of its code, for example `returns`.

rt ci tries each edit, and prints a line about it, with the first error alone. It keeps no more of it. So `refuse` tries each edit once
more: on a copy of the crates outside the checkout, since rt ci refuses a Rattle file elsewhere in it. Where a function must refuse the
edit, it has that function checked alone (`rt check --only`). Where a lemma must, the line of rt ci is enough if it names that lemma, and
else the crate is checked. What the prover says is written to target/edits/NAME/LABEL.log. It is also kept on this machine, under a
digest of all that it depends on, so a later run tries only what has changed.

Several programs in one file cost as much as one. The prover checks the body of a function by its own contract and the contracts of the
functions that it calls. So each program of such a file changes bodies that no other one changes, and one of its own functions must
refuse it: then its own fault is the cause.
"""

import concurrent.futures
import hashlib
import os
import pathlib
import queue
import re
import shutil
import subprocess
import sys
import tempfile
import typing

from crate_files import antt, rattle, uses

# Programs whose proof takes much more than 30 processor seconds (docs/PROOFS.md, "Costs"). Each edit would take that time again.
TOO_LARGE = ("published_data", "vectors")
UNFIT = re.compile(r"that can be named from here|is not in scope|has no field `")
FOLLOWS = re.compile(r"was not admitted .*cannot be checked")
REFUSER = re.compile(r"^refused by: (\+?\w+(?:::\+?\w+)*): (\S+)$", re.M)
ERROR = re.compile(r"^(?P<file>\S+?):\d+:\d+: error: (?:`(?P<name>[^`\s]+)`: )?(?P<message>.*(?:\n +has no field .*)?)$", re.M)
LEFT_OPEN = re.compile(r"^fn (?P<place>\S+): no proof: .*`search` did not prove (?P<names>.*)$", re.M)
# A goal of a function that is open although its proof file gives no answer of that name, and for which the prover found values that make it
# false. Its name and its line are told; `check` adds the function's place.
FALSE_GOAL = re.compile(r"^note: (?P<file>src/\S+?\.rt):(?P<line>\d+):\d+: .*\(`(?P<name>[^`\s]+)`\); the facts known there allow values .*$", re.M)
PLACED = re.compile(r"^edit_checks: false at (\S+): (\S+)$", re.M)
# The end of a check that gave a verdict; the line of rt ci about an edit that is refused.
ENDED = re.compile(r"^(?:logic=not-proved|logic=proved .*|only=\d+ .*)$", re.M)
TOLD = re.compile(r"^rt: must-fail (\w+)/([\w.-]+)\.edit: refused, as it must be: (.*)$", re.M)
CI_LOG = "target/rt-ci.log"
# The parts of a proof that stand in the folder of a function.
OF_FUNCTION = ("Proof", "Answers", "Invariants")
# What a check may take of the memory, in bytes.
MEMORY = 3_000_000_000


PROGRAM = re.compile(r"^program: (\w+)\n", re.M)
# A function with clauses has its `{` on a line of its own. A method of a trait has the trait's clauses, and its head may end with `{`.
BODY = re.compile(
    r"""^(?P<indent>\ *)(?:pub(?:\(crate\))?\ )?(?:const\ )?(?:extern\ "C"\ )?fn\ (?P<name>\w+)\b
    (?:(?P<plain>[^\n]*\ \{\n)|(?:(?!^(?P=indent)\}$).)*?^(?P=indent)\{\n)(?P<body>.*?)^(?P=indent)\}$""",
    re.M | re.S | re.X,
)


class Program(typing.NamedTuple):
    """A wrong program: the file of its edit, its label, and the lines about it."""

    edit: pathlib.Path
    label: str
    text: str


def must_fail_edits(root):
    return sorted(root.glob("crates/*/must-fail/*.edit"))


def programs_of(edit):
    """The wrong programs of an edit."""
    first, *rest = PROGRAM.split(edit.read_text(encoding="utf-8"))
    if not rest:
        return [Program(edit, edit.stem, first)]
    return [Program(edit, label, text) for label, text in zip(rest[::2], rest[1::2])]


def wrong_programs(root):
    return [program for edit in must_fail_edits(root) for program in programs_of(edit)]


def replacements(program):
    """For each pair of a wrong program: the file, the old text and the new text."""
    file = old = None
    for line in program.text.splitlines():
        if line.startswith("file: "):
            file = line[len("file: ") :]
        elif line.startswith("old: "):
            old = line[len("old: ") :]
        elif line.startswith("new:"):
            yield file, old, re.sub("^ ", "", line[len("new:") :])
            old = None


def refusers(program):
    """What must refuse a wrong program: the place and the name in each line `refused by:`."""
    return REFUSER.findall(program.text)


def misfits(root):
    """The edits that cannot be applied, that change a proof or a crate that is too large, that do not name what must refuse them,
    or whose wrong programs are not apart. rt ci would report an edit that cannot be applied half an hour later."""
    seen = set()
    for edit in must_fail_edits(root):
        where, crate = edit.relative_to(root), edit.parent.parent
        if crate.name in TOO_LARGE:
            yield f"{where}: the proof of {crate.name} takes too long for an edit; use a smaller crate"
        texts, programs = {}, programs_of(edit)
        for program in programs:
            said = where if len(programs) == 1 else f"{where}: {program.label}"
            yield from (f"{said}: {fault}" for fault in misfits_of(program, texts))
            if (crate.name, program.label) in seen:
                yield f"{said}: {crate.name} has another wrong program of this label"
            seen.add((crate.name, program.label))
        if len(programs) > 1:
            yield from (f"{where}: {fault}" for fault in not_apart(programs))


def misfits_of(program, texts):
    """The faults of one wrong program. `texts` has the files that the edit has changed before it; it gets the program's changes."""
    crate, pairs = program.edit.parent.parent, 0
    for file, old, new in replacements(program):
        pairs += 1
        path = crate / (file or "")
        if not file or not old or not path.is_file():
            yield "a pair has no file or no old text"
            continue
        if not file.startswith(("src/", "specs/")):
            yield f"it changes {file}, which is neither code nor a definition"
        text = texts.get(path) or path.read_text(encoding="utf-8")
        if text.count(old) != 1:
            yield f"{file} has its old text {text.count(old)} times, not once: {old[:60]}"
        texts[path] = text.replace(old, new, 1)
    if not pairs:
        yield "it has no pair of an old and a new text"
    named = refusers(program)
    if len(named) != 1:
        yield f"it has {len(named)} lines `refused by: PLACE: NAME`"
    for place, name in named:
        yield from unknown_place(crate, place, name)


def not_apart(programs):
    """The wrong programs of an edit that do not each change bodies of their own, one of which must refuse the program."""
    changed_by = {}
    for program in programs:
        changed = {body_with(program.edit.parent.parent / file, old) for file, old, _ in replacements(program) if file and old}
        if None in changed:
            yield f"{program.label}: it changes more than bodies of functions that have a contract"
        for place in sorted(changed - {None}):
            if place in changed_by:
                yield f"{program.label}: {changed_by[place]} changes {place} too"
            changed_by[place] = program.label
        for place, _ in refusers(program):
            if not any(is_place(place, one) for one in changed - {None}):
                yield f"{program.label}: it does not change {place}, which must refuse it"


def is_place(said, place):
    """Whether the prover's name of a place is that of a function: in a method of a trait it also has the arguments of the trait."""
    said, place = said.split("::"), place.split("::")
    return said == place or (said[:-2] == place[:-2] and said[-1] == place[-1] and len(place) > 1 and said[-2].startswith(place[-2]))


def body_with(path, text):
    """The place of the function with a contract whose body has a text, or None."""
    source = path.read_text(encoding="utf-8") if path.is_file() else ""
    at = source.find(text)
    for function in BODY.finditer(source):
        if function.start("body") <= at and at + len(text) <= function.end("body"):
            has_contract = not function["plain"] or any(trait for trait, _ in impl_of(source, function))
            return place_of(path, source, function) if has_contract else None
    return None


def impl_of(source, function):
    """The trait, or "", and the type of the impl that a function stands in, in a list; no entry if it stands in none."""
    found = re.findall(r"^impl(?:<.*?>)? (?:(\w+)(?:<.*>)? for )?(\w+)(?:<.*>)? \{$", source[: function.start()], re.M)
    return found[-1:] if function["indent"] else []


def place_of(path, source, function):
    """The place of a function: the modules of its file, the type whose method it is, and its name. A method of a trait has the type and the
    trait in one word. Any other method stands with its type, which another file may declare."""
    found, below = impl_of(source, function), modules(path)
    for trait, type_name in found:
        if not trait and (elsewhere := re.search(rf"^use crate::((?:\w+::)*)(?:{type_name};|\{{[^}}]*\b{type_name}\b)", source, re.M)):
            below = elsewhere[1].split("::")[:-1]
    return "::".join([*below, *(type_name + trait for trait, type_name in found), function["name"]])


def false_goals(own, log):
    """The places and names of the goals in a log for which the prover found values that make them false. It tells only their lines."""
    for goal in FALSE_GOAL.finditer(log):
        source = (own / goal["file"]).read_text(encoding="utf-8")
        for function in BODY.finditer(source):
            first, last = (source.count("\n", 0, at) + 1 for at in function.span())
            if first <= int(goal["line"]) <= last:
                yield place_of(own / goal["file"], source, function), goal["name"]


def modules(path):
    """The modules of a file of src/."""
    parts = path.with_suffix("").parts
    below = list(parts[len(parts) - parts[::-1].index("src") :]) if "src" in parts else []
    return [] if below in (["lib"], ["main"]) else below


def unknown_place(crate, place, name):
    """The fault of a place: it is neither a file of proofs/ that declares the name, nor a function. A proof that walks the code names all
    that it proves; else a goal has an answer in a file only if the prover does not find it alone."""
    below = place.replace("::", "/")
    for path in (crate / "proofs" / f"{below}.antt", crate / "proofs" / below / "Proof.antt"):
        if path.is_file():
            if not re.search(rf"^ *(?:\w+ )*{re.escape(name)}(?: :|$)", antt(path), re.M):
                yield f"refused by: {path.relative_to(crate)} does not declare {name}"
            return
    function = re.compile(rf"\bfn {re.escape(place.rpartition('::')[2])}\b")
    if not any(function.search(rattle(path)) for path in crate.glob("src/**/*.rt")):
        yield f"refused by: there is no {place}"


def first_error(log):
    """The first error of a log. If there is no error, the first note with a place."""
    for pattern in (r"^\S+: error.*$", r"^note: \S+:\d+:\d+:.*$"):
        if found := re.search(pattern, log, re.M):
            return found[0]
    return ""


def first_reason(log):
    """What the first note or error of a log says that follows from no other error."""
    said = re.findall(r"^(?:note: )?\S+:\d+:\d+: (?:error: )?(.*)$", log, re.M)
    return next((words for words in said if not FOLLOWS.search(words)), "")


def own_errors(log, crate):
    """The places and names in a log with an error that follows from no other error: a false statement, or an open proof."""
    found = set()
    for error in ERROR.finditer(log):
        _, _, below = f"/{error['file']}".partition("/proofs/")
        parts = below.removesuffix(".antt").split("/")
        if len(parts) > 1 and parts[-1] in OF_FUNCTION:
            parts.pop()
        if below and error["name"] and not FOLLOWS.search(error["message"]) and not UNFIT.search(error["message"]):
            found.add(("::".join(parts), error["name"]))
    found.update(PLACED.findall(log))
    for function in LEFT_OPEN.finditer(log):
        place = function["place"].removeprefix(f"{crate}::")
        found.update((place, name) for name in re.findall(r"`([^`]+)`", function["names"]))
    return found


def log_of(root, edit):
    return root / "target" / "edits" / edit.parent.parent.name / f"{edit.stem}.log"


def tried(root):
    """For each edit: its file, and its log, or None if the edit was not tried."""
    for edit in must_fail_edits(root):
        path = log_of(root, edit)
        yield edit, path.read_text(encoding="utf-8", errors="replace") if path.is_file() else None


def places(found):
    return ", ".join(f"{place}: {name}" for place, name in sorted(found)) or "nothing"


def telling_nothing(root):
    """The edits whose log does not show a false fact at the place that they name. Such an edit made a definition ill-formed, which
    rt counts as a bad edit; or a proof file no longer fits the code; or something else refuses the edit."""
    for edit, log in tried(root):
        crate = edit.parent.parent.name
        where, programs = edit.relative_to(root), programs_of(edit)
        if log is None:
            yield f"{where}: it was not tried"
            continue
        error = first_error(log)
        if not error and not LEFT_OPEN.search(log):
            yield f"{where}: its log has no error"
        elif f"/{error.removeprefix('note: ')}".partition(": ")[0].startswith(("/specs/", "/./specs/")):
            yield f"{where}: it only made a definition ill-formed: {error[:200]}"
        found = own_errors(log, crate)
        for program in programs:
            said = where if len(programs) == 1 else f"{where}: {program.label}"
            for refuser in refusers(program):
                if refuser not in found:
                    unfit = ", and the proof file no longer fits the code" if UNFIT.search(log) else ""
                    yield f"{said}: {': '.join(refuser)} does not refuse it; {places(found)} does{unfit}"


def copied(root, to):
    """Copies the crates, and the libraries that rt ci built of them. rt writes no file of a library again: it removes it and makes it anew."""
    for name in ("crates.txt", "HANDLES"):
        if (root / name).is_file():
            shutil.copy(root / name, to)
    for folder in sorted(path for path in (root / "crates").iterdir() if path.is_dir()):
        shutil.copytree(folder, to / "crates" / folder.name, ignore=shutil.ignore_patterns("must-fail", "out"))
        if (folder / "out" / "rlib").is_dir():
            shutil.copytree(folder / "out" / "rlib", to / "crates" / folder.name / "out" / "rlib", symlinks=True, copy_function=linked)


def linked(one, other):
    """Gives a file a second name, or copies it where that cannot be done."""
    try:
        os.link(one, other)
    except OSError:
        shutil.copy2(one, other)


def functions_alone(crate, programs):
    """The functions that must refuse the programs, or nothing if a lemma must refuse one of them."""
    found = [place for program in programs for place, _ in refusers(program)]
    of_files = [place for place in found if (crate / "proofs" / f"{place.replace('::', '/')}.antt").is_file()]
    return [] if of_files else sorted(set(found))


def check(to, crate, programs):
    """What the prover says of the crate of a copy with these wrong programs in it; or None if it gave no verdict."""
    own, was = to / "crates" / crate.name, {}
    try:
        for program in programs:
            for file, old, new in replacements(program):
                path = own / file
                text = path.read_text(encoding="utf-8")
                was.setdefault(path, text)
                path.write_text(text.replace(old, new, 1), encoding="utf-8")
        only = [word for place in functions_alone(crate, programs) for word in ("--only", f"{crate.name}::{place}")]
        ran = subprocess.run(["rt", "check", *only], cwd=own, stdin=subprocess.DEVNULL, capture_output=True, text=True, check=False)
        log = ran.stdout + ran.stderr
        log += "".join(f"edit_checks: false at {place}: {name}\n" for place, name in false_goals(own, log))
    finally:
        for path, text in was.items():
            path.write_text(text, encoding="utf-8")
    return log if ENDED.search(log) else None


def below(named, name):
    """A crate and the crates of the repository that it stands on."""
    found, todo = [], [name]
    while todo:
        one = todo.pop()
        if one in named and one not in found:
            found.append(one)
            todo += named[one]
    return sorted(found)


def digest_of(root, kit, edit):
    """A digest of all that the prover's answer to an edit depends on."""
    # What this script asks and notes is part of the answer.
    sums, named = hashlib.sha256(kit.encode() + pathlib.Path(__file__).read_bytes()), uses(root)
    for name in below(named, edit.parent.parent.name):
        sums.update(f"{name}: {' '.join(named[name])}\0".encode())
        for part in ("src", "specs", "proofs"):
            for path in sorted((root / "crates" / name / part).rglob("*")):
                if path.is_file():
                    sums.update(f"{path.relative_to(root)}\0".encode() + hashlib.sha256(path.read_bytes()).digest())
    sums.update(edit.name.encode() + b"\0" + edit.read_bytes())
    return sums.hexdigest()


def told_by_ci(root):
    """The first error of each edit, as rt ci printed it."""
    path = root / CI_LOG
    said = path.read_text(encoding="utf-8", errors="replace") if path.is_file() else ""
    return {(crate, label): text for crate, label, text in TOLD.findall(said)}


def kept_on_this_machine():
    return pathlib.Path(os.environ.get("XDG_CACHE_HOME") or pathlib.Path.home() / ".cache") / "tilghorz" / "edits"


def jobs():
    """How many checks run at a time: one a processor, as many as memory holds."""
    free = re.search(r"^MemAvailable: *(\d+)", pathlib.Path("/proc/meminfo").read_text(encoding="utf-8"), re.M)
    return max(1, min(len(os.sched_getaffinity(0)), int(free[1]) * 1024 // MEMORY if free else 1))


def refuse(root, kept=None):
    """Writes the log of every edit. What an earlier run kept, or rt ci told, is not tried again."""
    kept = kept or kept_on_this_machine()
    kit = subprocess.run(["rt", "version"], capture_output=True, text=True, check=True).stdout
    told, todo = told_by_ci(root), []
    shutil.rmtree(root / "target" / "edits", ignore_errors=True)
    for edit in must_fail_edits(root):
        path, crate, programs = log_of(root, edit), edit.parent.parent, programs_of(edit)
        path.parent.mkdir(parents=True, exist_ok=True)
        digest, line = digest_of(root, kit, edit), told.get((crate.name, edit.stem), "")
        if len(programs) == 1 and set(refusers(programs[0])) <= own_errors(line, crate.name):
            path.write_text(line + "\n", encoding="utf-8")
        elif (kept / digest).is_file():
            shutil.copy(kept / digest, path)
        else:
            todo.append((edit, path, kept / digest))
    print(f"edit_checks: {len(todo)} edits are tried, {len(must_fail_edits(root)) - len(todo)} are told by rt ci or kept")
    with tempfile.TemporaryDirectory(prefix="tilghorz-edits-") as folder:
        copies = queue.Queue()
        for number in range(min(jobs(), len(todo))):
            to = pathlib.Path(folder) / str(number)
            to.mkdir()
            copied(root, to)
            copies.put(to)

        def one(work):
            edit, path, name = work
            to = copies.get()
            try:
                log = check(to, edit.parent.parent, programs_of(edit))
            finally:
                copies.put(to)
            if log is None:
                print(f"{edit.relative_to(root)}: its check gave no verdict", file=sys.stderr)
                return False
            path.write_text(log, encoding="utf-8")
            name.parent.mkdir(parents=True, exist_ok=True)
            made = name.with_suffix(f".{os.getpid()}")
            made.write_text(log, encoding="utf-8")
            made.replace(name)
            return True

        with concurrent.futures.ThreadPoolExecutor(max(1, copies.qsize())) as pool:
            # The edits of one crate one after the other, so that each copy proves few libraries.
            done = list(pool.map(one, todo))
    return 0 if all(done) else 1


def try_one(root, name):
    """Tries one wrong program alone, and prints what refuses it."""
    crate, _, label = name.partition("/")
    program = next((found for found in wrong_programs(root) if (found.edit.parent.parent.name, found.label) == (crate, label)), None)
    if not program:
        print(f"{name}: there is no such wrong program", file=sys.stderr)
        return 2
    with tempfile.TemporaryDirectory(prefix="tilghorz-edit-") as folder:
        to = pathlib.Path(folder)
        copied(root, to)
        log = check(to, root / "crates" / crate, [program])
    if log is None:
        print(f"{name}: its check gave no verdict", file=sys.stderr)
        return 1
    found = own_errors(log, crate)
    print(f"{name}: {program.text.splitlines()[0]}")
    print(f"refused by {places(found)}: {first_reason(log)}")
    others = [refuser for refuser in refusers(program) if refuser not in found]
    for refuser in others:
        print(f"{': '.join(refuser)} does not refuse it", file=sys.stderr)
    return 1 if others or not found else 0


def main(arguments):
    root = pathlib.Path(__file__).resolve().parent.parent
    if len(arguments) == 2 and arguments[0] == "try":
        return try_one(root, arguments[1])
    if arguments == ["refuse"]:
        return refuse(root)
    if arguments:
        print(__doc__, file=sys.stderr)
        return 2
    for edit, log in tried(root):
        if log is not None:
            crate = edit.parent.parent.name
            print(f"{crate}/{edit.stem}: {places(own_errors(log, crate))}")
    return 0


if __name__ == "__main__":
    sys.exit(main(sys.argv[1:]))
