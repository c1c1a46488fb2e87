#!/usr/bin/env python3
"""Makes the data file of the widths of characters: host/tilghorz-host/data/widths.txt.

    tools/width_data.py [FOLDER]     write the file
    tools/width_data.py --check      fail if the committed file differs from what this script makes

The file has the two properties of Unicode's that say how many columns of a terminal a character takes: East_Asian_Width and
General_Category, for each character that is wide (W or F), a mark (Mn or Me) or a format character (Cf). FOLDER has
EastAsianWidth.txt and UnicodeData.txt; without FOLDER it is /usr/share/unicode, where Debian's package unicode-data puts them. Only
Unicode 15.0 is taken. tools/unicode_tables.py makes the table of the command from the file.
"""

import pathlib
import re
import sys

ROOT = pathlib.Path(__file__).resolve().parent.parent
FILE = ROOT / "host" / "tilghorz-host" / "data" / "widths.txt"
INSTALLED = pathlib.Path("/usr/share/unicode")
VERSION = (15, 0)
LAST = 0x10FFFF
# The categories that matter: marks that take no column, and format characters.
CATEGORIES = ("Mn", "Me", "Cf")
# What EastAsianWidth.txt says of code points that it does not list.
UNLISTED_WIDE = [(0x3400, 0x4DBF), (0x4E00, 0x9FFF), (0xF900, 0xFAFF), (0x20000, 0x2FFFD), (0x30000, 0x3FFFD)]


class Malformed(Exception):
    pass


def widths(text):
    """East_Asian_Width by code point, of the text of EastAsianWidth.txt."""
    version = re.match(r"# EastAsianWidth-(\d+)\.(\d+)\.", text)
    if not version or (int(version[1]), int(version[2])) != VERSION:
        raise Malformed("EastAsianWidth.txt is not that of Unicode %d.%d" % VERSION)
    found = {point: "W" for first, last in UNLISTED_WIDE for point in range(first, last + 1)}
    for number, line in enumerate(text.splitlines(), 1):
        content = line.split("#", 1)[0].strip()
        if not content:
            continue
        match = re.fullmatch(r"([0-9A-F]{4,6})(?:\.\.([0-9A-F]{4,6}))?\s*;\s*(A|F|H|N|Na|W)", content)
        if not match:
            raise Malformed(f"EastAsianWidth.txt, line {number}: it is not a range with a width")
        for point in range(int(match[1], 16), int(match[2] or match[1], 16) + 1):
            found[point] = match[3]
    return found


def categories(text):
    """The categories that matter, by code point, of the text of UnicodeData.txt. It has each of their characters in a line."""
    found = {}
    for number, line in enumerate(text.splitlines(), 1):
        fields = line.split(";")
        if len(fields) != 15:
            raise Malformed(f"UnicodeData.txt, line {number}: it does not have 15 fields")
        if fields[2] in CATEGORIES:
            found[int(fields[0], 16)] = fields[2]
    return found


def properties(folder=INSTALLED):
    """The two properties, of the files in a folder."""
    texts = [(folder / name).read_text(encoding="utf-8") for name in ("EastAsianWidth.txt", "UnicodeData.txt")]
    return widths(texts[0]), categories(texts[1])


def rows(width_of, category_of):
    """The ranges of characters that matter, each with its width and its category."""
    found = []
    for point in range(LAST + 1):
        width, category = width_of.get(point, "N"), category_of.get(point, "-")
        if width not in ("W", "F") and category == "-":
            continue
        if found and found[-1][1:] == (point - 1, width, category):
            found[-1] = (found[-1][0], point, width, category)
        else:
            found.append((point, point, width, category))
    return found


def data(width_of, category_of):
    """The text of the file."""
    out = [
        "# East_Asian_Width and General_Category of Unicode %d.%d, made by tools/width_data.py." % VERSION,
        "# Each character with the width W or F, or with the category Mn, Me or Cf. Any other category is a hyphen.",
        "# Copyright and permission notice: crates/published_data/data/COPYRIGHT.",
    ]
    for first, last, width, category in rows(width_of, category_of):
        span = f"{first:04X}" if first == last else f"{first:04X}..{last:04X}"
        out.append(f"{span};{width};{category}")
    return "\n".join(out) + "\n"


def main(arguments):
    if len(arguments) > 1:
        print(__doc__, file=sys.stderr)
        return 2
    is_check = arguments == ["--check"]
    folder = pathlib.Path(arguments[0]) if arguments and not is_check else INSTALLED
    try:
        made = data(*properties(folder))
    except (Malformed, OSError) as error:
        print(f"width_data: {error}", file=sys.stderr)
        return 1
    if not is_check:
        FILE.write_text(made, encoding="utf-8")
        return 0
    if FILE.read_text(encoding="utf-8") != made:
        print(f"width_data: {FILE.relative_to(ROOT)} differs from what this script makes", file=sys.stderr)
        return 1
    return 0


if __name__ == "__main__":
    sys.exit(main(sys.argv[1:]))
