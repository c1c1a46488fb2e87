#!/usr/bin/env python3
"""Brings the repository's own definitions, lemmas and record fields to the toolchain's spelling of names.

usage: respell.py [--dry]        at the top of the repository, once, after port.py

The rule: types, facts (what has a type `Type 0`) and modules are in upper camel case, everything else in snake case. A dash stays only
where it joins the names of two definitions (`length-drop`), as in the toolchain's own library. Names from the source, and names that the
checker makes (goals, steps, fields of `c`), keep their spelling. Where two names would become one, the lemma gets `_lem`.
The crate `unicode` becomes `emoji`, since the toolchain has a library of that name.
It turns specs/, proofs/, the clauses and `ghost use` lines of src/, the texts of must-fail edits, and names in backquotes in README.md and
docs/. It prints each name that it turns; names that it leaves because they would clash are printed with "left:".
"""

import collections
import pathlib
import re
import shutil
import sys

# Names whose new spelling another name has, and which no rule can tell apart well: a record's field or a constructor is no lemma.
CHOSEN = {
    "prefer-bare": "prefer_bare_set",
    "prefer-bare-keycap": "prefer_bare_keycap_set",
    "bare-as-text": "bare_as_text_set",
    "bare-as-text-keycap": "bare_as_text_keycap_set",
    "preferBare": "prefer_bare_words",
    "preferBareKeycap": "prefer_bare_keycap_words",
    "bareAsText": "bare_as_text_words",
    "bareAsTextKeycap": "bare_as_text_keycap_words",
    "by-modifier": "modifier_with_selectors",
    "by-keycap": "keycap_with_selectors",
    "by_tags": "tag_groups",
    "links-only": "only_links",
    "selector-run": "run_of_selectors",
    "emoji-headed": "headed_by_emoji",
    "code-point": "of_digits",
    "word_count": "has_word_count",
    "itemOf": "item_in",
    "defaultsOf": "defaults_for",
    "mendsAt": "mends_finding",
}
# Names that stand in no declaration at the left margin: names that an import gives, variables, and laws of nested sections.
INNER = {
    "oneRi": "one_ri",
    "leftOver": "left_over",
    "callOutcome": "call_outcome",
    "mendedCounts": "mended_counts",
    "mendedAll": "mended_all",
    "isText": "is_text",
    "isModifierBase": "is_modifier_base",
    "outBefore": "out_before",
    "splitFrom-empty": "split_from-empty",
    "splitFrom-run": "split_from-run",
}

DEFINITION = re.compile(r"^(?:(?:abbrev|unfoldable|private|ground) )*(?:pub )?(?:(?:record|data|ruleset) )?([^\s:{}()\[\],;]+)(?=\s)")
FIELD = re.compile(r"^\s+(?:pub )?([^\s:{}()\[\],;.λ]+) : ")
HEAD = re.compile(r"^(?:(?:abbrev|unfoldable|private) )*(?:pub )?(record |data |ruleset )?([^\s:{}()\[\],;]+)( .*)? :(?: |$)|^(?:(?:abbrev|unfoldable) )*(?:pub )?(record |data |ruleset )([^\s:{}()\[\],;]+)\b")
# A name is a run of these.
NAME = re.compile(r"[^\s(){}\[\],;.\"`λ∀∃←≔⌜⌝⟦⟧]+")
WORDS = {"use", "pub", "mod", "abbrev", "unfoldable", "record", "data", "where", "let", "in", "elim", "rw", "at", "as", "unfolding", "private", "ruleset"}


def texts(root):
    for path in sorted((root / "crates").rglob("*")):
        if path.suffix in (".rt", ".antt", ".edit") and "out" not in path.relative_to(root).parts:
            yield path
    for path in [root / "README.md", *sorted((root / "docs").glob("*.md"))]:
        if path.exists():
            yield path


def without_comments(text):
    return "\n".join(line.split("-- ", 1)[0] if not line.lstrip().startswith("--") else "" for line in text.split("\n"))


def codomain(statement):
    """The last part of a type."""
    depth, last = 0, 0
    for i, sign in enumerate(statement):
        depth += (sign in "({[") - (sign in ")}]")
        if sign == "→" and depth == 0:
            last = i + 1
    return statement[last:].strip()


def in_sections(text):
    """What stands in the sections `module _ .. where` of a file, two columns further left, and nothing else."""
    kept, inside = [], False
    for line in text.split("\n"):
        if line.startswith("module _"):
            inside = True
            kept.append("")
        elif line and not line[0].isspace():
            inside = False
            kept.append("")
        else:
            kept.append(line[2:] if inside else "")
    return "\n".join(kept)


def declarations(path, sections=False):
    """For each definition of an antt file: its name, and whether it is a type or a fact; and the names of its record fields."""
    text = without_comments(path.read_text(encoding="utf-8"))
    if sections:
        text = in_sections(text)
    lines = text.split("\n")
    found, fields = {}, set()
    at = 0
    while at < len(lines):
        line = lines[at]
        head = HEAD.match(line)
        if head and not line.startswith(("use ", "pub use ", "mod ", "pub mod ", "unfolding ", "open ")):
            kind = (head[1] or head[4] or "").strip()
            name = head[2] or head[5]
            block = [line]
            at += 1
            while at < len(lines) and (lines[at].startswith((" ", "\t")) or not lines[at].strip()):
                block.append(lines[at])
                at += 1
            whole = "\n".join(block)
            statement = whole.split(" :", 1)[1] if " :" in whole else ""
            if kind in ("record", "data"):
                found[name] = "type"
                for inner in block[1:]:
                    field = FIELD.match(inner)
                    if field:
                        fields.add(field[1])
            elif kind == "ruleset":
                found[name] = "word"
            else:
                goal = re.match(r"\s*(tie|goal)\.", statement)
                end = codomain(statement)
                found[name] = "goal" if goal else "type" if re.fullmatch(r"Type (0|1)", end) else "word"
            continue
        at += 1
    return found, fields


def snake(name):
    name = re.sub(r"(?<=[a-z0-9])([A-Z])(?=[a-z0-9])", lambda m: "_" + m[1].lower(), name)
    return re.sub(r"(?<=[a-z0-9])([A-Z]+)", lambda m: "_" + m[1].lower(), name)


def camel(name):
    return "".join(part[:1].upper() + part[1:] for part in re.split(r"[-_]", snake(name)) if part)


def of_the_library(text, crates):
    """The names that a file imports from a library that is not a crate of the repository: they keep their spelling there."""
    found = set()
    for head, names in re.findall(r"(?m)^\s*(?:pub |ghost )?use ([^\s{;]+)\.\{([^}]*)\}", text):
        crate = re.match(r"Rattle\.(\w+)", head)
        if not crate or crate[1] not in crates:
            found |= set(re.split(r"[\s,]+", names))
    return found


def library_names(kit):
    """Names of definitions of the toolchain's library: those that its clauses and proofs import most often."""
    found = set()
    for page in ("std/specs", "std/proofs", "core/specs"):
        for path in (kit / page).rglob("*.antt"):
            for line in path.read_text(encoding="utf-8", errors="replace").split("\n"):
                head = HEAD.match(line)
                if head:
                    found.add(head[2] or head[5])
    return {name for name in found if "-" not in name}


def rename_crate(root, old, new):
    """Gives a crate another name: its folder, crates.txt, and every path that names it."""
    (root / "crates" / old).rename(root / "crates" / new)
    path = root / "crates.txt"
    path.write_text(re.sub(rf"\b{old}\b", new, path.read_text(encoding="utf-8")), encoding="utf-8")
    for path in [*texts(root), *(root / "tools").glob("*.py"), root / ".ci" / "run"]:
        # This script names the old crate too.
        if path.stem in ("respell", "test_respell"):
            continue
        text = out = path.read_text(encoding="utf-8")
        out = re.sub(rf"\bRattle([.\u00b7]){old}\b", rf"Rattle\1{new}", out)
        out = re.sub(rf"\bcrates/{old}\b", f"crates/{new}", out)
        out = re.sub(rf'"crates" / "{old}"', f'"crates" / "{new}"', out)
        out = re.sub(rf"([Cc]rates? `?){old}\b", rf"\g<1>{new}", out)
        if path.suffix in (".rt", ".edit", ".md"):
            out = re.sub(rf"(?<![\w:]){old}::", f"{new}::", out)
        if path.suffix == ".antt":
            out = re.sub(rf"`{old}::", f"`{new}::", out)
        if out != text:
            path.write_text(out, encoding="utf-8")


def main():
    dry = "--dry" in sys.argv
    root = pathlib.Path(".").resolve()
    # The toolchain has a library of that name.
    if not dry and (root / "crates" / "unicode").is_dir():
        rename_crate(root, "unicode", "emoji")
    kit = pathlib.Path(shutil.which("rt") or "rt").resolve().parent.parent / "rattle"
    kinds, where, fields = {}, collections.defaultdict(set), set()
    goals = collections.defaultdict(set)
    for path in texts(root):
        if path.suffix != ".antt":
            continue
        found, of_records = declarations(path)
        fields |= of_records
        for name, kind in found.items():
            if kind == "goal":
                goals[path].add(name)
                continue
            if kinds.get(name) != "type":
                kinds[name] = kind
            where[name].add(path)
    for name in list(kinds):
        if re.search(r"[-_]spec$", name) or name in WORDS or "◌" in name:
            del kinds[name]
    std = library_names(kit)
    # First the definitions, so that lemmas know which names a dash joins.
    turned = {}
    base = {}
    for name, kind in kinds.items():
        if kind == "type":
            new = name if re.match(r"[A-Z]", name) and "-" not in name and "_" not in name else camel(name)
        else:
            new = name if re.match(r"[A-Z]", name) and "-" not in name else snake(name)
        base[name] = new
    definitions = {base[n] for n in kinds if "-" not in n} | std
    for name, kind in kinds.items():
        new = base[name]
        if kind != "type" and "-" in new:
            parts = new.split("-")
            joined = [parts[0]]
            for part in parts[1:]:
                # A dash stays between the names of two definitions.
                left = re.split(r"-", joined[-1])[-1]
                if left in definitions and part in definitions and len(left) > 1 and len(part) > 1:
                    joined[-1] = joined[-1] + "-" + part
                else:
                    joined[-1] = joined[-1] + "_" + part
            new = joined[0]
        if new != name:
            turned[name] = new
    for name in sorted(fields):
        # Constructors and facts begin with a capital.
        new = name if re.match(r"[A-Z]", name) else snake(name).replace("-", "_")
        if new != name and name not in turned:
            turned[name] = new
    # Names that fall together: with another name that is declared, or with each other.
    taken = collections.defaultdict(set)
    for name in list(kinds) + list(fields):
        taken[turned.get(name, name)].add(name)
    for new, olds in sorted(taken.items()):
        if len(olds) < 2:
            continue
        # The name that already has this spelling keeps it, then the shortest definition in specs; the others are lemmas.
        order = sorted(olds, key=lambda n: (not any("specs" in p.parts for p in where[n]), n != new, "-" in n, n))
        for k, old in enumerate(order[1:]):
            name = new + "_lem" + ("" if k == 0 else str(k + 1))
            print(f"clash: {old} and {order[0]} would both be {new}: {old} becomes {name}")
            turned[old] = name
    # A new name must not be in use in a file for something else: a variable, an import of the library, a name of the source.
    used, bound = {}, {}
    for path in texts(root):
        if path.suffix not in (".antt", ".rt"):
            continue
        text = without_comments(path.read_text(encoding="utf-8")) if path.suffix == ".antt" else path.read_text(encoding="utf-8")
        used[path] = set(NAME.findall(text))
        if path.suffix == ".antt":
            bound[path] = {m[0] for m in NAME.finditer(text) if text[m.start() - 1 : m.start()] != "." and text[m.end() : m.end() + 1] != "."}
        else:
            # In a clause a parameter hides a word, and so does a variable that the clause binds.
            bound[path] = set(re.findall(r"[(,]\s*(?:mut )?(\w+)\s*:[^:]", text)) | set(re.findall(r"λ \(?(\w+)", text))
    for old, new in sorted(turned.items()):
        if new in kinds or new in fields:
            continue
        both = [p for p in used if old in used[p] and new in bound[p]]
        if both:
            clash = new
            lemma = kinds.get(old) != "word" or not any("specs" in p.parts for p in where[old])
            new += "_lem" if lemma else "_of"
            print(f"clash: {old} would be {clash}, which {both[0].relative_to(root)} has: it becomes {new}")
            turned[old] = new
    # The names in sections of files (`module _ .. where`), after the others, so that these keep what they got.
    inner = {}
    for path in texts(root):
        if path.suffix == ".antt":
            found, _ = declarations(path, sections=True)
            for name, kind in found.items():
                if kind != "goal":
                    inner[name] = "type" if "type" in (kind, inner.get(name)) else kind
                    where[name].add(path)
    everywhere = set().union(*bound.values()) | set(turned.values()) | set(kinds) | set(fields)
    second = {}
    for name, kind in sorted(inner.items()):
        if name in turned or name in kinds or kind == "type" or not re.match(r"[a-z]", name) or re.match(r"(then|else|in|loop|returns)-", name):
            continue
        new = snake(name)
        parts = new.split("-")
        joined = parts[0]
        for part in parts[1:]:
            left = joined.split("-")[-1]
            both = left in definitions and part in definitions and len(left) > 1 and len(part) > 1
            joined += ("-" if both else "_") + part
        if joined == name:
            continue
        if joined in everywhere or joined in second.values():
            in_specs = any("specs" in path.parts for path in where[name])
            joined += "_lem" if not in_specs else "_at" if joined.endswith("_of") else "_of"
        if joined in everywhere or joined in second.values():
            print(f"left: {name}")
            continue
        second[name] = joined
    turned.update(second)
    turned.update({name: new for name, new in CHOSEN.items() if name in turned})
    turned.update(INNER)
    for old, new in sorted(turned.items()):
        print(f"{old} -> {new}")
    if "--second" in sys.argv:
        import json

        pathlib.Path(sys.argv[sys.argv.index("--second") + 1]).write_text(json.dumps(second))
    if dry:
        return
    crates = {path.name for path in (root / "crates").iterdir()}
    declared = {turned.get(name, name) for name in list(kinds) + list(fields)}
    changed = 0
    for path in texts(root):
        text = path.read_text(encoding="utf-8")
        markdown = path.suffix == ".md"
        kept = of_the_library(text, crates) | goals[path]

        def swap_in(whole):
            return lambda match: swap(match, whole)

        def swap(match, whole=text):
            name = match[0]
            new = turned.get(name)
            if new is None or name in kept:
                return name
            # A name of the source keeps its spelling, and contracts cite no lemma.
            if path.suffix == ".rt" and not re.search(r"[a-z0-9][A-Z]|-", name):
                return name
            before = whole[: match.start()]
            if before.endswith("."):
                owner = re.search(r"([^\s(){}\[\],;.`]+)\.$", before)
                owner = owner[1] if owner else ""
                # A projection: only fields of the repository's own records; a goal or a step of the checker keeps its name.
                if owner in ("goal", "tie", "l", "c") or (name not in fields and not re.match(r"[A-Z]", owner)):
                    return name
            return new

        if markdown:
            # port.py turned names in crates/ and no page, so a page may have a name that it turned: its snake case is then declared.
            def in_page(match):
                name = match[0]
                if name in turned:
                    return turned[name]
                plain = snake(name).replace("-", "_")
                return plain if plain != name and not re.match(r"[A-Z_-]", name) and plain in declared else name

            out = re.sub(r"`[^`\n]+`", lambda code: NAME.sub(in_page, code[0]) if len(code[0]) > 5 else code[0], text)
        elif path.suffix == ".edit":
            # "refused by: FUNCTION: GOAL": the checker makes a goal's name. "refused by: FILE: LEMMA" names a lemma.
            by_lines = []
            for line in text.split("\n"):
                goal = re.match(r"refused by: (?:[\w]+::)*[a-z]\w*: ", line)
                by_lines.append(line if goal else re.sub(NAME, swap_in(line), line))
            out = "\n".join(by_lines)
        else:
            mark = "--" if path.suffix == ".antt" else "//"
            by_lines, at = [], 0
            for line in text.split("\n"):
                code, comment = line, ""
                found = re.search(rf"(^|\s){mark}( |$)", line)
                if found:
                    code, comment = line[: found.start()], line[found.start() :]
                # In a comment only a name in backquotes is a name.
                comment = re.sub(r"`[^`]+`", lambda quoted: NAME.sub(lambda m: turned.get(m[0], m[0]), quoted[0]), comment)
                by_lines.append(NAME.sub(swap_in(code), code) + comment)
            out = "\n".join(by_lines)
        if out != text:
            changed += 1
            path.write_text(out, encoding="utf-8")
    print(f"respell: {len(turned)} names, {changed} files")


if __name__ == "__main__":
    main()
