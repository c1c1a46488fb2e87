"""Tests of width_data.py: what it reads, what it refuses, and the committed file."""

import unittest

import width_data as maker

HEAD = "# EastAsianWidth-15.0.0.txt\n"


def has_source():
    try:
        maker.properties()
    except (maker.Malformed, OSError):
        return False
    return True


class Reading(unittest.TestCase):
    def test_widths(self):
        found = maker.widths(HEAD + "# a\n0020;Na # Zs\n1100..1102;W  # Lo [3]\n")
        self.assertEqual([found[point] for point in (0x20, 0x1100, 0x1102, 0x4E00)], ["Na", "W", "W", "W"])
        self.assertNotIn(0x1103, found)

    def test_malformed_widths(self):
        for text in (HEAD + "0020 Na", HEAD + "0020;X", "# EastAsianWidth-14.0.0.txt\n", ""):
            with self.assertRaises(maker.Malformed, msg=text):
                maker.widths(text)

    def test_categories(self):
        line = ";".join(["0300", "NAME", "Mn"] + [""] * 12)
        other = ";".join(["0041", "NAME", "Lu"] + [""] * 12)
        self.assertEqual(maker.categories(f"{line}\n{other}\n"), {0x300: "Mn"})
        with self.assertRaises(maker.Malformed):
            maker.categories("0300;NAME;Mn\n")

    def test_rows_are_joined(self):
        found = maker.rows({0x1100: "W", 0x1101: "W", 0x1103: "W", 0x20: "Na"}, {0x300: "Mn", 0x301: "Me"})
        self.assertEqual(
            found,
            [
                (0x300, 0x300, "N", "Mn"),
                (0x301, 0x301, "N", "Me"),
                (0x1100, 0x1101, "W", "-"),
                (0x1103, 0x1103, "W", "-"),
            ],
        )


class Committed(unittest.TestCase):
    @unittest.skipUnless(has_source(), "Debian's unicode-data 15.0 is not installed")
    def test_the_file_is_what_the_script_makes(self):
        self.assertEqual(maker.FILE.read_text(encoding="utf-8"), maker.data(*maker.properties()))
        self.assertEqual(maker.main(["--check"]), 0)


if __name__ == "__main__":
    unittest.main()
