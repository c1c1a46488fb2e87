"""Tests of unicode_tables.py: what it reads, what it refuses, and the committed tables."""

import unittest

import unicode_tables as maker


class Reading(unittest.TestCase):
    def test_touching_lines_are_one_range(self):
        found = maker.properties("f", "0023 ; Emoji # a\n0024..0026 ; Emoji # b\n0028 ; Emoji\n")
        self.assertEqual(maker.ranges(found["Emoji"]), [0x23, 0x26, 0x28, 0x28])

    def test_comments_and_blank_lines(self):
        self.assertEqual(maker.properties("f", "# 0023 ; Emoji\n\n  \n"), {})

    def test_malformed_property_line(self):
        for line in ("0023 Emoji", "23 ; Emoji", "0026..0023 ; Emoji", "002g ; Emoji", "0023 ; Emoji ; more"):
            with self.assertRaises(maker.Malformed, msg=line):
                maker.properties("f", line)

    def test_variation_sequences(self):
        both = "0023 FE0E  ; text style;  # x\n0023 FE0F  ; emoji style; # x\n"
        self.assertEqual(maker.variation_entries("f", both), {0x23})

    def test_malformed_variation_sequence(self):
        for text in ("0023 FE0E ; text style; # x\n", "0023 FE0E ; emoji style;\n", "0023 FE00 ; text style;\n"):
            with self.assertRaises(maker.Malformed, msg=text):
                maker.variation_entries("f", text)

    def test_version(self):
        self.assertEqual(maker.version("f", "# Used with Emoji Version 15.0 and more\n"), (15, 0))
        with self.assertRaises(maker.Malformed):
            maker.version("f", "# Emoji\n")


class Committed(unittest.TestCase):
    def test_sizes(self):
        _, tables = maker.tables()
        sizes = {name: len(numbers) // width for name, _, _, width, numbers in tables}
        self.assertEqual(
            sizes,
            {
                "EMOJI_RANGES": 151,
                "EMOJI_PRESENTATION_RANGES": 81,
                "EMOJI_MODIFIERS": 5,
                "EMOJI_MODIFIER_BASES": 134,
                "RI_RANGES": 1,
                "VARIATION_ENTRIES": 354,
            },
        )

    def test_a_changed_number_shows(self):
        version, tables = maker.tables()
        committed = maker.SOURCE.read_text(encoding="utf-8")
        self.assertEqual(committed, maker.source(version, tables))
        name, spec, what, width, numbers = tables[-1]
        changed = tables[:-1] + [(name, spec, what, width, numbers[:-1] + [numbers[-1] + 1])]
        self.assertNotEqual(committed, maker.source(version, changed))


    def test_every_file_that_differs_or_is_missing_shows(self):
        made = maker.files()
        self.assertEqual(len(made), 11)
        self.assertEqual(maker.differing(made), [])
        for path, text in made:
            self.assertEqual(maker.differing([(path, text + "\n")]), [path])
            missing = path.with_name("missing")
            self.assertEqual(maker.differing([(missing, text)]), [missing])


class Blocks(unittest.TestCase):
    def test_words_and_ranks(self):
        ranges = [0x23, 0x24, 0x3F, 0x41]
        tables = [("EMOJI_RANGES", "", "", 2, ranges), ("VARIATION_ENTRIES", "", "", 1, [0x24, 0x3F, 0x41])]
        low = (1 << 0x23 | 1 << 0x24 | 1 << 0x3F, 1 << 0x24 | 1 << 0x3F, 0)
        self.assertEqual(maker.blocks(tables), [(0, *low), (1, 0b11, 0b10, 2)])

    def test_every_block_is_in_one_group(self):
        _, tables = maker.tables()
        listed = [row for _, _, rows in maker.grouped(tables) for row in rows]
        self.assertEqual(listed, maker.blocks(tables))
        self.assertEqual(len(listed), 54)
        self.assertEqual(sum(bin(entries).count("1") for _, _, entries, _ in listed), 354)

    def test_every_block_is_in_one_match_at_its_place(self):
        _, tables = maker.tables()
        arms = {name: rows for name, _, _, rows in maker.matched(tables)}
        self.assertEqual({name: len(rows) for name, rows in arms.items()}, {"low": 2, "middle": 5, "dense": 47})
        places = [place for place, *_ in arms["dense"]]
        self.assertEqual(places, sorted(set(places)))
        self.assertEqual((places[0], places[15], places[16], places[-1]), (0, 0x1E, 0x1F, 0x4A))
        held = [row[1:] for name in ("low", "dense", "middle") for row in arms[name]]
        self.assertEqual(sorted(held), sorted(row[1:] for row in maker.blocks(tables)))


class Written(unittest.TestCase):
    def test_arrays_in_the_layout_of_the_formatter(self):
        self.assertEqual(maker.constant("A", "u32", [1, 2], 1), ["pub const A: [u32; 2] = [0x1, 0x2];"])
        self.assertEqual(maker.constant("A", "u32", range(16, 41), 1)[1:3], ["    " + ", ".join(f"0x{n:X}" for n in part) + "," for part in (range(16, 32), range(32, 41))])
        self.assertEqual(maker.constant("A", "u64", range(5), 16, "N")[:2], ["pub const A: [u64; N] = [", "    0x0000000000000000,"])


class Widths(unittest.TestCase):
    def test_the_sets_of_rows(self):
        rows = maker.width_rows("f", "# a\n0300..0301;A;Mn\n0600;N;Cf\n200B;N;Cf\n3099;W;Mn\n4E00..4E01;W;-\nFF01;F;-\n20DD;N;Me\n")
        wide, marks, formats = maker.width_sets(rows)
        self.assertEqual(wide, {0x4E00, 0x4E01, 0xFF01})
        self.assertEqual(marks - set(maker.JOINED_JAMO), {0x300, 0x301, 0x3099, 0x20DD})
        self.assertEqual(formats, {0x200B})

    def test_malformed_rows(self):
        for line in ("0300", "0300;A", "0300;A;Lu", "0300;X;Mn", "300;A;Mn"):
            with self.assertRaises(maker.Malformed, msg=line):
                list(maker.width_rows("f", line))

    def test_a_changed_edge_shows(self):
        made = maker.width_table((15, 0), None)
        self.assertEqual(maker.differing([(maker.WIDTH_TABLE, made)]), [])
        self.assertEqual(maker.differing([(maker.WIDTH_TABLE, made.replace("0x1F004", "0x1F003"))]), [maker.WIDTH_TABLE])


if __name__ == "__main__":
    unittest.main()
