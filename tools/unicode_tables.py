#!/usr/bin/env python3
"""Makes the tables of the crate `emoji` from Unicode's two data files, and the command's table of widths.

    tools/unicode_tables.py            write the tables
    tools/unicode_tables.py --check    fail if a committed table differs from what this script makes

The script reads crates/published_data/data/{emoji-data.txt,emoji-variation-sequences.txt} and writes
- crates/emoji/src/unicode_data.rt: the tables. A table of ranges has the first and the last number of each range in turn;
  adjacent ranges of the data file are one range;
- crates/emoji/specs/UnicodeData.antt: the same numbers, as the lists that contracts cite;
- crates/emoji/src/blocks.rt: the emoji and the variation entries as words. Each block of 64 code points is an arm of a `match`;
- crates/emoji/specs/BlockData.antt: the same words, as lists of blocks;
- crates/emoji/proofs/blocks/*_block/Answers.antt: the answers for each `match`, with the same lemma for each arm;
- crates/policy_key_set/src/named_sets.rt: the words of the named sets, with entry i at bit i % 64 of word i / 64;
- crates/policy/src/default_policy.rt and crates/policy/specs/DefaultPolicy.antt: the words of the default policy.

From host/tilghorz-host/data/widths.txt, which tools/width_data.py makes, it writes
- host/tilghorz-host/src/width_table.rs: which characters take two columns of a terminal, which take none, and which are format
  characters.
"""

import pathlib
import re
import sys

ROOT = pathlib.Path(__file__).resolve().parent.parent
# The crate of the tables.
CRATE = "emoji"
DATA = ROOT / "crates" / "published_data" / "data"
SOURCE = ROOT / "crates" / CRATE / "src" / "unicode_data.rt"
SPECS = ROOT / "crates" / CRATE / "specs" / "UnicodeData.antt"
BLOCKS = ROOT / "crates" / CRATE / "src" / "blocks.rt"
BLOCK_SPECS = ROOT / "crates" / CRATE / "specs" / "BlockData.antt"
BLOCK_PROOFS = ROOT / "crates" / CRATE / "proofs" / "blocks"
NAMED_SETS = ROOT / "crates" / "policy_key_set" / "src" / "named_sets.rt"
DEFAULT_POLICY = ROOT / "crates" / "policy" / "src" / "default_policy.rt"
DEFAULT_POLICY_SPECS = ROOT / "crates" / "policy" / "specs" / "DefaultPolicy.antt"
WIDTHS = ROOT / "host" / "tilghorz-host" / "data" / "widths.txt"
WIDTH_TABLE = ROOT / "host" / "tilghorz-host" / "src" / "width_table.rs"

# Document 01, "Character": the data files have no property for the regional indicators.
REGIONAL_INDICATORS = range(0x1F1E6, 0x1F1FF + 1)

# The medial and final Hangul jamo. They stand in the two columns of the initial one before them.
JOINED_JAMO = [*range(0x1160, 0x11FF + 1), *range(0xD7B0, 0xD7C6 + 1), *range(0xD7CB, 0xD7FB + 1)]

# The format characters that are visible: Unicode's property Prepended_Concatenation_Mark.
VISIBLE_FORMATS = {*range(0x600, 0x605 + 1), 0x6DD, 0x70F, 0x890, 0x891, 0x8E2, 0x110BD, 0x110CD}

# The groups of blocks: a name, the first block of the group, and what the group contains.
BLOCK_GROUPS = [
    ("low", 0, "before the symbols"),
    ("symbol", 0x80, "of the symbols, 2000 to 27BF"),
    ("middle", 0x9F, "between the symbols and the pictographs"),
    ("pictograph", 0x7C0, "of the pictographs, from 1F000 on"),
]
FIRST = {name: first for name, first, _ in BLOCK_GROUPS}

# The blocks of the symbols are close together, and so are those of the pictographs; texts have both. They are one `match`, the
# dense one, with the pictographs directly after the symbols, so that the compiler makes one table of them. For each of the two
# groups, this is the number that is subtracted from the number of a block.
SYMBOL_PLACES = FIRST["middle"] - FIRST["symbol"]
MOVED = {"symbol": FIRST["symbol"], "pictograph": FIRST["pictograph"] - SYMBOL_PLACES}


class Malformed(Exception):
    pass


def version(name, text):
    found = re.search(r"^# Used with Emoji Version (\d+)\.(\d+) ", text, re.M)
    if not found:
        raise Malformed(f"{name}: no line '# Used with Emoji Version ..'")
    return int(found[1]), int(found[2])


def content_lines(name, text):
    """The lines that are neither blank nor only a comment, each with its number and without its comment."""
    for number, line in enumerate(text.splitlines(), 1):
        content = line.split("#", 1)[0].strip()
        if content:
            yield f"{name}, line {number}", content


def properties(name, text):
    """For each property of emoji-data.txt, its code points."""
    found = {}
    for place, content in content_lines(name, text):
        match = re.fullmatch(r"([0-9A-F]{4,6})(?:\.\.([0-9A-F]{4,6}))?\s*;\s*(\w+)", content)
        if not match:
            raise Malformed(f"{place}: it is not a range with a property")
        first = int(match[1], 16)
        last = int(match[2] or match[1], 16)
        if last < first:
            raise Malformed(f"{place}: the range ends before it starts")
        found.setdefault(match[3], set()).update(range(first, last + 1))
    return found


def variation_entries(name, text):
    """The characters of emoji-variation-sequences.txt, each listed with both selectors."""
    styles = {"FE0E": "text style", "FE0F": "emoji style"}
    found = {}
    for place, content in content_lines(name, text):
        match = re.fullmatch(r"([0-9A-F]{4,6}) (FE0E|FE0F)\s*;\s*(text style|emoji style)\s*;", content)
        if not match or styles[match[2]] != match[3]:
            raise Malformed(f"{place}: it is not a variation sequence with its style")
        found.setdefault(int(match[1], 16), set()).add(match[2])
    for point, selectors in found.items():
        if len(selectors) != 2:
            raise Malformed(f"{name}: {point:04X} has only one style")
    return set(found)


def ranges(points):
    """The maximal runs of consecutive numbers: the first and the last of each in turn."""
    out = []
    for point in sorted(points):
        if out and out[-1] == point - 1:
            out[-1] = point
        else:
            out += [point, point]
    return out


def tables():
    texts = {name: (DATA / name).read_text(encoding="utf-8") for name in ("emoji-data.txt", "emoji-variation-sequences.txt")}
    versions = {version(name, text) for name, text in texts.items()}
    if len(versions) != 1:
        raise Malformed("the two data files are of different Unicode versions")
    of = properties("emoji-data.txt", texts["emoji-data.txt"])
    entries = variation_entries("emoji-variation-sequences.txt", texts["emoji-variation-sequences.txt"])
    return versions.pop(), [
        ("EMOJI_RANGES", "emoji_ranges", "Emoji", 2, ranges(of["Emoji"])),
        ("EMOJI_PRESENTATION_RANGES", "emoji_presentation_ranges", "Emoji_Presentation", 2, ranges(of["Emoji_Presentation"])),
        ("EMOJI_MODIFIERS", "emoji_modifiers", "Emoji_Modifier", 1, sorted(of["Emoji_Modifier"])),
        ("EMOJI_MODIFIER_BASES", "emoji_modifier_bases", "Emoji_Modifier_Base", 1, sorted(of["Emoji_Modifier_Base"])),
        ("RI_RANGES", "ri_ranges", "Regional indicators", 2, ranges(REGIONAL_INDICATORS)),
        ("VARIATION_ENTRIES", "variation_entries", "The entries of emoji-variation-sequences.txt", 1, sorted(entries)),
    ]


def constant(name, kind, numbers, digits, length=None):
    """A constant array in the layout of rt fmt: on one line, or with as many numbers on a line as fit into 100 columns, or, where a number
    has more than 10 characters, with one on each line. Its length is the number of its elements, or a name for it."""
    written = [f"0x{n:0{digits}X}" for n in numbers]
    line = f"pub const {name}: [{kind}; {length or len(numbers)}] = [" + ", ".join(written) + "];"
    if len(line) <= 100:
        return [line]
    rows, widest = [""], max(map(len, written))
    for number in written:
        if rows[-1] and (widest > 10 or len(rows[-1]) + len(number) + 2 > 97):
            rows.append("")
        rows[-1] += f" {number},"
    return [line[: line.index(" = [") + 4]] + [f"   {row}" for row in rows] + ["];"]


def described(what, width, numbers):
    if width == 2:
        if len(numbers) == 2:
            return f"{what}: the first and the last number of one range."
        return f"{what}: the first and the last number of each of {len(numbers) // 2} ranges."
    return f"{what}: {len(numbers)} numbers."


def source(numbered, tables):
    major, minor = numbered
    out = [
        f"// The tables of Unicode {major}.{minor}. tools/unicode_tables.py makes this file from emoji-data.txt and",
        "// emoji-variation-sequences.txt. The crate evfmt makes a file of the same name when it is built.",
        f"pub const UNICODE_VERSION_MAJOR: u32 = {major};",
        "",
        f"pub const UNICODE_VERSION_MINOR: u32 = {minor};",
        "",
        "// The version as the first word of a stored policy: major times 256 plus minor.",
        f"pub const UNICODE_VERSION: u64 = {major * 256 + minor};",
    ]
    for name, _, what, width, numbers in tables:
        out += ["", "// " + described(what, width, numbers)]
        out += constant(name, "u32", numbers, 1)
        if name == "VARIATION_ENTRIES":
            out += ["", f"pub const VARIATION_ENTRY_COUNT: usize = {len(numbers)};"]
    return "\n".join(out) + "\n"


def specs(numbered, tables):
    major, minor = numbered
    out = [
        f"-- The tables of Unicode {major}.{minor} as lists: the numbers that document 01, \"Character\", takes from emoji-data.txt and",
        "-- emoji-variation-sequences.txt. tools/unicode_tables.py makes this file from the two data files.",
        "use Rattle.std.specs.Prelude.{List, [], ◌∷◌, ℕ, ◌+◌, ◌*◌}",
        "",
        "-- Document 02, change (xi): \"the version as major times 256 plus minor\".",
        "unfoldable pub unicode_version : ℕ",
        f"unicode_version = {major} * 256 + {minor}",
    ]
    for _, name, what, width, numbers in tables:
        out += ["", "-- " + described(what, width, numbers), f"unfoldable pub {name} : List ℕ", f"{name} ="]
        columns = 12
        rows = [numbers[i : i + columns] for i in range(0, len(numbers), columns)]
        lines = ["    " + " ∷ ".join(f"0x{n:X}" for n in row) for row in rows]
        out += [line + " ∷" for line in lines[:-1]] + [lines[-1] + " ∷ []"]
    return "\n".join(out) + "\n"


def blocks(tables):
    """For each block of 64 code points that has an emoji or a variation entry: its number, the word of its emoji, the word of
    its entries, and the number of entries before it."""
    of = {name: numbers for name, *_, numbers in tables}
    entries = of["VARIATION_ENTRIES"]
    bounds = of["EMOJI_RANGES"]
    emoji = [point for first, last in zip(bounds[::2], bounds[1::2]) for point in range(first, last + 1)]
    out = []
    for block in sorted({point // 64 for point in emoji + entries}):
        inside = [sum(1 << point % 64 for point in points if point // 64 == block) for points in (emoji, entries)]
        out.append((block, *inside, sum(point < block * 64 for point in entries)))
    return out


def grouped(tables):
    """For each group of blocks: its name, what it contains, and its blocks."""
    ends = [first for _, first, _ in BLOCK_GROUPS[1:]] + [0x110000 // 64]
    made = blocks(tables)
    return [
        (name, what, [row for row in made if first <= row[0] < end])
        for (name, first, what), end in zip(BLOCK_GROUPS, ends)
    ]


def matched(tables):
    """For each `match`: its name, what it contains, its parameter, and its arms, each with its number."""
    groups = grouped(tables)
    alone = [(name, what, "k", rows) for name, what, rows in groups if name not in MOVED]
    dense = [(block - MOVED[name], *held) for name, _, rows in groups if name in MOVED for block, *held in rows]
    what = ", and ".join(f"of the {name}s, block k at k - 0x{less:X}" for name, less in MOVED.items())
    return alone + [("dense", what, "i", dense)]


def block_source(numbered, tables):
    major, minor = numbered
    out = [
        f"// The emoji and the variation entries of Unicode {major}.{minor} as bit sets: one `match` arm for each block of 64 code",
        "// points. A `match` is compiled to a table in read-only memory, while reading a constant array copies the array. Each",
        "// function equals the search in a list of specs/BlockData.antt. tools/unicode_tables.py makes this file.",
        "ghost use Rattle.std.specs.Prelude.{◌≡◌};",
        f"ghost use Rattle.{CRATE}.specs.Blocks.{{block_in}};",
        f"ghost use Rattle.{CRATE}.specs.BlockData.{{",
        *[f"  {name}," for name in sorted(["blocks"] + [f"{name}_blocks" for name, *_ in matched(tables)])],
        "};",
        "",
        "// Bit j of `emoji` is 1 if character j of the block is emoji. Bit j of `entries` is 1 if character j is a variation",
        "// entry. `rank` is the number of variation entries before the block.",
        "#[derive(Clone, Copy)]",
        "pub(crate) struct Block {",
        "    pub(crate) emoji: u64,",
        "    pub(crate) entries: u64,",
        "    pub(crate) rank: u32,",
        "}",
    ]
    for name, what, given, rows in matched(tables):
        out += ["", f"// Returns one of the {len(rows)} blocks {what}.", f"fn {name}_block({given}: u32) -> Block"]
        out += [f"    ensures {{ result ≡ block_in {given} {name}_blocks }}", "{", f"    match {given} {{"]
        for block, emoji, entries, rank in rows:
            out += [f"        0x{block:X} => Block {{", f"            emoji: 0x{emoji:016X},"]
            out += [f"            entries: 0x{entries:016X},", f"            rank: {rank},", "        },"]
        out += ["        _ => Block {", "            emoji: 0,", "            entries: 0,", "            rank: 0,"]
        out += ["        },", "    }", "}"]
    out += [
        "",
        "// Returns block k. The last `if` only chooses the number to subtract, so that the compiler makes no branch of it.",
        "pub(crate) fn block_of(k: u32) -> Block",
        "    ensures { result ≡ block_in k blocks }",
        "{",
        f"    if k < 0x{FIRST['symbol']:X} {{",
        "        return low_block(k);",
        "    }",
        f"    let is_before_pictographs = k < 0x{FIRST['pictograph']:X};",
        "    if is_before_pictographs {",
        f"        if 0x{FIRST['middle'] - 1:X} < k {{",
        "            return middle_block(k);",
        "        }",
        "    }",
        "    let i = if is_before_pictographs {",
        f"        k - 0x{MOVED['symbol']:X}",
        "    } else {",
        f"        k - 0x{MOVED['pictograph']:X}",
        "    };",
        "    dense_block(i)",
        "}",
    ]
    return "\n".join(out) + "\n"


def block_specs(numbered, tables):
    major, minor = numbered
    out = [
        "-- Contracts of helper functions (src/blocks.rt); no public contract rests on this file.",
        f"-- The emoji and the variation entries of Unicode {major}.{minor} as bit sets. For each block of 64 code points that has any,",
        "-- a row has the block's number, the bits of its emoji, the bits of its variation entries, and the number of entries before",
        "-- the block. tools/unicode_tables.py makes this file.",
        "use Rattle.std.specs.Prelude.{List, [], ◌∷◌, ◌++◌, ℕ, ◌-◌}",
        f"use Rattle.{CRATE}.specs.Blocks.{{BlockRow, moved, row}}",
    ]
    for name, what, rows in grouped(tables):
        out += ["", f"-- The {len(rows)} blocks {what}."]
        out += [f"unfoldable pub {name}_blocks : List BlockRow", f"{name}_blocks ="]
        out += [f"    row 0x{block:X} 0x{emoji:016X} 0x{entries:016X} {rank} ∷" for block, emoji, entries, rank in rows]
        out[-1] += " []"
    names = [f"{name}_blocks" for name, *_ in BLOCK_GROUPS]
    out += ["", "-- All blocks.", "unfoldable pub blocks : List BlockRow"]
    out += ["blocks = " + " ++ (".join(names[:-1]) + f" ++ {names[-1]}" + ")" * (len(names) - 2)]
    out += ["", "-- The first block of each group after the low one."]
    for name, first, _ in BLOCK_GROUPS[1:]:
        out += [f"abbrev pub {name}_first : ℕ", f"{name}_first = 0x{first:X}", ""]
    out += [
        "-- The blocks that one `match` of the code holds: the symbols, and after them the pictographs. Each has the number of its arm.",
        "abbrev pub symbol_places : ℕ",
        "symbol_places = middle_first - symbol_first",
        "",
        "abbrev pub pictograph_move : ℕ",
        "pictograph_move = pictograph_first - symbol_places",
        "",
        "unfoldable pub dense_blocks : List BlockRow",
        "dense_blocks = moved symbol_first symbol_blocks ++ moved pictograph_move pictograph_blocks",
    ]
    return "\n".join(out) + "\n"


def block_answers(name):
    """The function that makes the answers for one `match`: a lemma for each arm, and one for the rest."""

    def make(numbered, tables):
        given, rows = next((given, rows) for match, _, given, rows in matched(tables) if match == name)
        listed = f"{name}_blocks"
        lists, laws = [listed], ["block_in", "no_block"]
        if name == "dense":
            lists, laws = lists + [f"{group}_blocks" for group in sorted(MOVED)], ["block_in", "moved", "no_block"]
        out = [
            f"-- `{CRATE}::blocks::{name}_block` meets its contract: each arm of the `match` is the row of the list with that number, and",
            "-- the list has no other row. tools/unicode_tables.py makes this file.",
            "use mathlib.Core.Path.{sym}",
            f"use Rattle.{CRATE}.specs.Blocks.{{{', '.join(laws)}}}",
            f"use Rattle.{CRATE}.specs.BlockData.{{{', '.join(lists)}}}",
            f"use Rattle.{CRATE}.proofs.BlockSearch.{{in_arm, in_no_arm}}",
            f"use Rattle.{CRATE}.proofs.blocks.{name}_block.Goals as goal",
        ]
        answers = [(f"in-{arm}", f"in_arm {listed} c.in-{arm}.is") for arm, *_ in rows]
        answers.append(("in_default", f"sym (in_no_arm c.args.{given} {listed} c.in_default.in_default-own.rest)"))
        for step, answer in answers:
            out += ["", f"pub returns-{step} : goal.returns-{step}", f"unfolding {' '.join(laws + lists)}"]
            out += [f"returns-{step} c = {answer}"]
        return "\n".join(out) + "\n"

    return make


def words(members, entries):
    """The words of a character set, with entry i at bit i % 64 of word i / 64."""
    out = [0] * (-(-len(entries) // 64))
    for i, entry in enumerate(entries):
        if entry in members:
            out[i // 64] |= 1 << i % 64
    return out


def members(tables):
    """The variation entries, and for each named set its members."""
    of = {name: numbers for name, *_, numbers in tables}
    entries = of["VARIATION_ENTRIES"]
    pairs = list(zip(of["EMOJI_PRESENTATION_RANGES"][::2], of["EMOJI_PRESENTATION_RANGES"][1::2]))
    emoji_defaults = {e for e in entries if any(first <= e <= last for first, last in pairs)}
    return entries, {
        "ALL": set(entries),
        "ASCII": {e for e in entries if e < 0x80},
        "TEXT_DEFAULT": set(entries) - emoji_defaults,
        "EMOJI_DEFAULT": emoji_defaults,
        "KEYCAP_RGI": {e for e in entries if chr(e) in "#*0123456789"},
    }


def set_words(name, held, entries):
    """The words of a set as a constant array of W words."""
    return constant(name, "u64", words(held, entries), 16, "CHARSET_WORDS")


def named_sets(numbered, tables):
    major, minor = numbered
    entries, sets = members(tables)
    described = {
        "ALL": "Every entry",
        "ASCII": "The entries below 80",
        "TEXT_DEFAULT": "The entries that default to text presentation",
        "EMOJI_DEFAULT": "The entries that default to emoji presentation",
        "KEYCAP_RGI": "The characters #, * and the digits",
    }
    out = [
        f"// The words of the named sets of Unicode {major}.{minor}. Variation entry i is bit i % 64 of word i / 64.",
        "// tools/unicode_tables.py makes this file.",
        f"pub const CHARSET_WORDS: usize = {len(words(set(), entries))};",
    ]
    for name, what in described.items():
        out += ["", f"// {what}: {len(sets[name])} entries."] + set_words(name + "_BITS", sets[name], entries)
    return "\n".join(out) + "\n"


def default_policy_words(tables):
    """The four sets of the default policy (document 01, "Reference: Policy::default for the default policy"), each with the name of
    its constant, the name of its list, its description and its members; and the variation entries."""
    entries, sets = members(tables)
    return [
        ("PREFER_BARE_BITS", "prefer_bare_words", "`prefer_bare`, ordinary: ASCII and the emoji defaults", sets["ASCII"] | sets["EMOJI_DEFAULT"]),
        (None, "prefer_bare_keycap_words", "`prefer_bare`, keycap: the empty set", set()),
        (None, "bare_as_text_words", "`bare_as_text`, ordinary: the text defaults", sets["TEXT_DEFAULT"]),
        (None, "bare_as_text_keycap_words", "`bare_as_text`, keycap: every entry", sets["ALL"]),
    ], entries


def default_policy(numbered, tables):
    major, minor = numbered
    (name, _, what, held), *_ = default_policy_words(tables)[0]
    entries = default_policy_words(tables)[1]
    out = [
        f"// The words of the one set of the default policy that has no name of its own, for the tables of Unicode {major}.{minor}.",
        "// tools/unicode_tables.py makes this file.",
        "use policy_key_set::named_sets::CHARSET_WORDS;",
        "",
        f"// {what}: {len(held)} entries.",
    ]
    return "\n".join(out + set_words(name, held, entries)) + "\n"


def default_policy_specs(numbered, tables):
    major, minor = numbered
    sets, entries = default_policy_words(tables)
    out = [
        f"-- The words of the default policy, for the tables of Unicode {major}.{minor}. The theorem `DefaultPolicyHolds` says which",
        "-- entries the four sets hold. tools/unicode_tables.py makes this file.",
        "use Rattle.std.specs.Prelude.{List, [], ◌∷◌, ℕ}",
        "use Rattle.policy.specs.declared.Policy.{Policy}",
    ]
    for _, name, what, held in sets:
        numbers = [f"0x{w:016X}" for w in words(held, entries)]
        out += ["", f"-- {what}: {len(held)} entries", f"unfoldable pub {name} : List ℕ", f"{name} ="]
        rows = [numbers[i : i + 4] for i in range(0, len(numbers), 4)]
        lines = ["    " + " ∷ ".join(row) for row in rows]
        out += [line + " ∷" for line in lines[:-1]] + [lines[-1] + " ∷ []"]
    out += [
        "",
        '-- "Reference: Policy::default for the default policy"',
        "unfoldable pub default_policy : Policy",
        "default_policy = record {",
        "  prefer_bare = record { chars = record { bits = prefer_bare_words }; keycap_chars = record { bits = prefer_bare_keycap_words } };",
        "  bare_as_text = record { chars = record { bits = bare_as_text_words }; keycap_chars = record { bits = bare_as_text_keycap_words } };",
        "}",
    ]
    return "\n".join(out) + "\n"


def width_rows(name, text):
    """The rows of widths.txt: a range, its width and its category."""
    for place, content in content_lines(name, text):
        match = re.fullmatch(r"([0-9A-F]{4,6})(?:\.\.([0-9A-F]{4,6}))?;(A|F|H|N|Na|W);(Mn|Me|Cf|-)", content)
        if not match:
            raise Malformed(f"{place}: it is not a range with a width and a category")
        yield range(int(match[1], 16), int(match[2] or match[1], 16) + 1), match[3], match[4]


def width_sets(rows):
    """The characters that take two columns, those that take none, and the format characters that are invisible."""
    wide, marks, formats = set(), set(JOINED_JAMO), set()
    for points, width, category in rows:
        if category in ("Mn", "Me"):
            marks.update(points)
        elif category == "Cf":
            formats.update(points)
        elif width in ("W", "F"):
            wide.update(points)
    return wide, marks, formats - VISIBLE_FORMATS


def width_table(numbered, _):
    sets = width_sets(width_rows(WIDTHS.name, WIDTHS.read_text(encoding="utf-8")))
    whats = [
        ("WIDE", "The characters that take two columns: East_Asian_Width is W or F."),
        ("MARKS", "The characters that take no column: the categories Mn and Me, and the medial and final Hangul jamo."),
        ("FORMATS", "The format characters that are invisible: the category Cf."),
    ]
    out = [
        "//! The widths of characters in Unicode %d.%d, made by tools/unicode_tables.py. "
        "Of each range the first character and the" % numbered,
        "//! one after the last stand in a row, so a character is in the set if the number of edges up to it is odd.",
    ]
    for (name, what), points in zip(whats, sets):
        spans = ranges(points)
        edges = [f"0x{edge + index % 2:X}" for index, edge in enumerate(spans)]
        out += ["", f"/// {what}", "#[rustfmt::skip]", f"pub const {name}: [u32; {len(edges)}] = ["]
        out += ["    " + ", ".join(edges[i : i + 12]) + "," for i in range(0, len(edges), 12)] + ["];"]
    return "\n".join(out) + "\n"


def files():
    """Every file that this script makes, with its text."""
    made = tables()
    makers = [
        (SOURCE, source),
        (SPECS, specs),
        (BLOCKS, block_source),
        (BLOCK_SPECS, block_specs),
        *[(BLOCK_PROOFS / f"{name}_block" / "Answers.antt", block_answers(name)) for name, *_ in matched(made[1])],
        (NAMED_SETS, named_sets),
        (DEFAULT_POLICY, default_policy),
        (DEFAULT_POLICY_SPECS, default_policy_specs),
        (WIDTH_TABLE, width_table),
    ]
    return [(path, make(*made)) for path, make in makers]


def differing(made):
    """The files whose text differs, or that are missing."""
    return [path for path, text in made if not path.is_file() or path.read_text(encoding="utf-8") != text]


def main(arguments):
    if arguments not in ([], ["--check"]):
        print(__doc__, file=sys.stderr)
        return 2
    try:
        made = files()
    except (Malformed, OSError, KeyError) as error:
        print(f"unicode_tables: {error}", file=sys.stderr)
        return 1
    if not arguments:
        for path, text in made:
            path.write_text(text, encoding="utf-8")
        return 0
    wrong = differing(made)
    for path in wrong:
        print(f"unicode_tables: {path.relative_to(ROOT)} differs from what this script makes", file=sys.stderr)
    return 1 if wrong else 0


if __name__ == "__main__":
    sys.exit(main(sys.argv[1:]))
