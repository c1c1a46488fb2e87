"""Tests of tilghorz.py: it declares the functions of include/tilghorz.h, and gives the stored runs of the two programs, the stored
answers of the crate evfmt, and what document 02 says of the other calls. The static library is in the folder that TILGHORZ_LIBRARY
names, or in target/staticlib."""

import doctest
import os
import pathlib
import re
import subprocess
import sys
import tempfile
import threading
import unittest

import tilghorz

ROOT = pathlib.Path(__file__).resolve().parent.parent.parent
HEADER = (ROOT / "include" / "tilghorz.h").read_text(encoding="utf-8")
STATIC = ROOT / (os.environ.get("TILGHORZ_LIBRARY") or "target/staticlib") / "libtilghorz.a"
# The most bytes that the two programs read.
LIMITS = {"format": 16384, "report": 12288}
LETTERS = "umacfrpd"
KINDS = dict(zip("psle", tilghorz.KINDS))

HEART, SIGN, WATCH = "\u2764", "\u00a9", "\u231a"
SHARED = None


def setUpModule():
    global SHARED
    folder = tempfile.TemporaryDirectory()
    unittest.addModuleCleanup(folder.cleanup)
    SHARED = pathlib.Path(folder.name, "libtilghorz.so")
    tilghorz.make(STATIC, SHARED)
    tilghorz.load(SHARED)


def program(name, message, shared=None):
    """The exit status of a program of the file, and what it writes."""
    command = [sys.executable, tilghorz.__file__, *name.split()]
    environment = {**os.environ, "TILGHORZ_SHARED": str(shared or SHARED)}
    ran = subprocess.run(command, input=message, capture_output=True, env=environment, check=False)
    return ran.returncode, ran.stdout


class Declarations(unittest.TestCase):
    def test_functions(self):
        text = re.sub(r"/\*.*?\*/", "", HEADER, flags=re.S)
        declared = {}
        for name, parameters in re.findall(r"uint64_t (tilghorz_\w+)\(([^)]*)\);", text):
            parameters = re.sub(r"const uint8_t \*(\w+),\s*size_t \1_len", tilghorz.READ, parameters)
            parameters = re.sub(r"uint8_t \*(\w+),\s*size_t \1_len", tilghorz.WRITE, parameters)
            parameters = re.sub(r"uint64_t \w+", tilghorz.NUMBER, parameters)
            declared[name] = tuple(word for word in re.split(r",\s*", parameters) if word != "void")
        self.assertEqual(tilghorz.FUNCTIONS, declared)

    def test_sizes(self):
        sizes = re.findall(r"^#define TILGHORZ_(\w+(?:_LIMIT|_BYTES|_ROOM)) (\d+)", HEADER, re.M)
        self.assertGreater(len(sizes), 8)
        for name, size in sizes:
            self.assertEqual(getattr(tilghorz, name), int(size), name)

    def test_refusals(self):
        numbers = re.findall(r"^#define TILGHORZ_([A-Z_]+) (\d+)$", HEADER, re.M)
        refusals = {int(number): name for name, number in numbers if number not in ("0", "255")}
        self.assertEqual({number: name for number, (name, _) in tilghorz.REFUSALS.items()}, refusals)
        rows = dict(re.findall(r"^ \*   (\d+) +\S.*? {2,}(\S.*)$", HEADER, re.M))
        for number, (_, message) in tilghorz.REFUSALS.items():
            self.assertEqual("{}" in message, rows[str(number)] != "0", number)


class StoredRuns(unittest.TestCase):
    def test_programs(self):
        folders = [(path, path.with_suffix) for path in sorted((ROOT / "tests" / "programs").glob("*.in"))]
        self.assertGreater(len(folders), 5)
        for path, stored in folders:
            message = path.read_bytes()
            for name, limit in LIMITS.items():
                if len(message) > limit:
                    continue
                with self.subTest(path=path.name, program=name):
                    expected = stored(f".{name}").read_bytes()
                    refused = expected.startswith(b"refused ") and expected != message
                    self.assertEqual(program(name, message), (3 if refused else 0, expected))

    def test_stored_inputs_of_the_crates(self):
        for name in LIMITS:
            folder = ROOT / "crates" / name
            self.assertEqual(program(name, (folder / "stdin").read_bytes()), (0, (folder / "stdout").read_bytes()))

    def test_table_of_findings(self):
        folder = ROOT / "crates" / "findings_table"
        lines = (folder / "stdin").read_bytes().split(b"\n")[:-1]
        found, refused = 0, 0
        for line in lines:
            try:
                findings = tilghorz.findings(line)
            except tilghorz.Refusal:
                refused += 1
                continue
            # The program's table has eight places, and it counts a text with more findings as refused.
            found, refused = (found + len(findings), refused) if len(findings) <= 8 else (found, refused + 1)
        written = f"{len(lines)} lines, {found} findings, {refused} refused, 0 different\n"
        self.assertEqual(written, (folder / "stdout").read_text(encoding="utf-8"))

    def test_usage(self):
        self.assertEqual(program("other", b""), (2, b""))
        with tempfile.TemporaryDirectory() as folder:
            shared = pathlib.Path(folder, "another.so")
            self.assertEqual(program(f"make {STATIC} {shared}", b"")[0], 0)
            self.assertEqual(program("format", b"1\xef\xb8\x8e", shared), (0, b"1"))
            self.assertNotEqual(program("format", b"", pathlib.Path(folder, "missing.so"))[0], 0)


class StoredAnswers(unittest.TestCase):
    """The answers of the crate evfmt in crates/vectors/data. The head of each file says what its lines are."""

    def test_items_and_findings(self):
        version = tilghorz.Policy().bytes[:8]
        texts = 0
        for path in sorted((ROOT / "crates" / "vectors" / "data").glob("items-*.txt")):
            policies, text = [], b""
            for line in path.read_text(encoding="utf-8").splitlines():
                word, *fields = line.split(" ")
                if word == "policy":
                    policies.append(tilghorz.Policy(version + b"".join(bytes.fromhex(of)[::-1] for of in fields)))
                elif word == "text":
                    text, texts = bytes.fromhex(fields[0].rstrip(".")), texts + 1
                    self.hold_items(text, fields[1:])
                elif word == "under":
                    self.hold_findings(text, policies[int(fields[0])], fields[1:])
            self.assertEqual(policies[0], tilghorz.Policy())
        self.assertGreater(texts, 3000)

    def hold_items(self, text, fields):
        expected = []
        for field in fields:
            kind, start, end, incomplete = re.match(r"([psle])(\d+)-(\d+)(!?)", field).groups()
            expected.append((int(start), int(end), KINDS[kind], not incomplete))
        items = tilghorz.items(text)
        self.assertEqual([item[:4] for item in items], expected, text)
        characters = text.decode()
        for item in items:
            part, before = text[item.start : item.end].decode(), text[: item.start].decode()
            self.assertEqual(characters[item.char_start : item.char_end], part)
            self.assertEqual((item.utf16_start, item.utf16_end - item.utf16_start), (units(before), units(part)))

    def hold_findings(self, text, policy, fields):
        findings, formatted, end = tilghorz.findings(text, policy), b"", 0
        self.assertEqual(len(findings), len(fields), text)
        for finding, field in zip(findings, fields):
            span, counts, choices, *replacements = re.split(r":|=", field)
            given = dict(re.findall(r"([a-z])(\d+)", counts))
            expected = tilghorz.Counts(*(int(given.get(letter, 0)) for letter in LETTERS))
            self.assertEqual((f"{finding.start}-{finding.end}", finding.counts), (span, expected), text)
            replacements = [bytes.fromhex(of) for of in replacements]
            defaults = [{"t": "text", "e": "emoji"}[of] for of in re.findall(r"[te](?=\+)", choices)]
            self.assertEqual(tilghorz.default_decisions(text, finding.start, policy), defaults, text)
            turns = [defaults, ["text"] * len(defaults), ["emoji"] * len(defaults), (["emoji", "text"] * len(defaults))[: len(defaults)]]
            for decisions, replacement in zip(turns, replacements):
                mended = text[: finding.start] + replacement + text[finding.end :]
                self.assertEqual(tilghorz.mend(text, finding.start, decisions, policy), mended)
            formatted += text[end : finding.start] + replacements[0]
            end = finding.end
        self.assertEqual(tilghorz.format(text, policy), formatted + text[end:])


def units(text):
    """The number of UTF-16 units of a text."""
    return len(text.encode("utf-16-le")) // 2


class Calls(unittest.TestCase):
    def test_examples_of_the_file(self):
        failed, attempted = doctest.testmod(tilghorz)
        self.assertEqual((failed, attempted), (0, 4))

    def refused(self, name, value, function, *arguments):
        with self.assertRaises(tilghorz.Refusal) as raised:
            function(*arguments)
        self.assertEqual((raised.exception.name, raised.exception.value), (name, value))
        return raised.exception

    def test_a_text_comes_back_as_it_was_handed_in(self):
        for text, expected in (("1\ufe0e", "1"), (b"1\xef\xb8\x8e", b"1"), ("plain", "plain"), ("", ""), (bytearray(b"ab"), b"ab")):
            self.assertEqual(tilghorz.format(text), expected)
        self.assertEqual(tilghorz.mend(f"I {HEART}", 2, ["emoji"]), f"I {HEART}\ufe0f")
        self.assertEqual(tilghorz.mend(HEART.encode(), 0, ["text"]), f"{HEART}\ufe0e".encode())

    def test_refusals(self):
        refusal = self.refused("NOT_WELL_FORMED", 1, tilghorz.format, "a\ud800")
        self.assertEqual((refusal.number, str(refusal)), (3, "refused 3: not well-formed UTF-8 at byte 1"))
        self.refused("TEXT_TOO_LONG", None, tilghorz.findings, b"a" * (tilghorz.TEXT_LIMIT + 1))
        self.refused("NO_FINDING", None, tilghorz.mend, "plain", 0)
        self.refused("NO_FINDING", None, tilghorz.default_decisions, HEART, 1)
        self.refused("WRONG_NUMBER_OF_DECISIONS", 1, tilghorz.mend, HEART, 0)
        self.refused("NOT_A_POLICY", None, tilghorz.Policy, b"")
        self.refused("OTHER_VERSION", None, tilghorz.Policy, bytes(200))
        with self.assertRaises(ValueError):
            tilghorz.mend(HEART, 0, ["other"])

    def test_numbers_of_64_bits(self):
        for number in (-1, 1 << 64):
            with self.assertRaises(OverflowError):
                tilghorz.nearest(HEART, number)
            with self.assertRaises(OverflowError):
                tilghorz.Store(1, [number])
        self.assertEqual(tilghorz.nearest(HEART, (1 << 64) - 1).distance, (1 << 64) - 3)

    def test_long_tables(self):
        findings = tilghorz.findings(SIGN * 1000)
        self.assertEqual((len(findings), tilghorz.totals(findings).decisions), (1000, 1000))
        self.assertEqual(findings[999][:2] + findings[999][3:], (1998, 2000, 999, 1000, 999, 1000))
        self.assertEqual(len(tilghorz.around(SIGN * 1000, 0, 2000).inside), 1000)
        self.assertEqual(tilghorz.totals([]), tilghorz.Counts(*[0] * 8))

    def test_around_and_nearest(self):
        text = f"1\ufe0e {HEART}"
        around = tilghorz.around(text, 2, 100)
        self.assertEqual([(len(of), of[0].start) for of in around], [(1, 5), (1, 0)])
        self.assertEqual(tilghorz.around(text, 7, 2), ([], []))
        self.assertEqual((tilghorz.nearest(text, 4).finding.start, tilghorz.nearest(text, 4).distance), (0, 1))
        self.assertIsNone(tilghorz.nearest("plain", 0))

    def test_repair(self):
        for data in (b"", b"plain", b"a\xf0\x9f\x98A\xe0\x80\xe2\x9d", b"\xff" * 3):
            repaired = tilghorz.repair(data)
            self.assertEqual(repaired.text.decode(), data.decode(errors="replace"))
            self.assertEqual(repaired.replaced, repaired.text.count(b"\xef\xbf\xbd"))

    def test_cut(self):
        text = f"1\u20e3 {HEART}".encode()
        self.assertEqual([tilghorz.cut(text, offset) for offset in (0, 2, 4, 6, 99)], [0, 0, 4, 5, 8])
        self.assertIsNone(tilghorz.cut("\ufe0f", 2))

    def test_policies(self):
        default = tilghorz.Policy()
        self.assertEqual(tilghorz.Policy.from_sheet(default.sheet()), default)
        self.assertEqual(eval(repr(default), vars(tilghorz)), default)
        self.assertEqual(len({default, tilghorz.Policy(default.bytes)}), 1)
        self.assertEqual(tilghorz.Policy.from_sheet("30-32,31\n\n2764\n\n").sheet(), "30-32\n\n2764\n\n")
        self.refused("NOT_A_SHEET", 0, tilghorz.Policy.from_sheet, "39-30\n\n\n\n")
        self.refused("NOT_AN_ENTRY", 3, tilghorz.Policy.from_sheet, "30,41\n\n\n\n")
        self.assertEqual(tuple(tilghorz.version()), divmod(int.from_bytes(default.bytes[:8], "little"), 256))
        entries = tilghorz.variation_entries()
        self.assertEqual((len(entries), "".join(sorted(entries))), (354, entries))
        for other in ("a", "", f"{HEART}{HEART}"):
            with self.assertRaises(ValueError):
                default.holds("prefer_bare", other)

    def test_policies_of_other_tables(self):
        default = tilghorz.Policy()
        entries = tilghorz.variation_entries()
        self.assertEqual(tilghorz.Policy.carried(entries, bytes(8) + default.bytes[8:]), default)
        self.assertEqual(tilghorz.Policy.carried("", bytes(8)), default)
        # The second of two entries is in prefer_bare, and all other entries are new.
        carried = tilghorz.Policy.carried(f"#{HEART}", bytes(8) + b"\2" + bytes(31))
        self.assertEqual([carried.holds("prefer_bare", of) for of in f"#{HEART}*"], [False, True, True])
        self.refused("NOT_AN_ENTRY_LIST", None, tilghorz.Policy.carried, f"{HEART}#", bytes(40))
        self.refused("NOT_A_POLICY", None, tilghorz.Policy.carried, "#", b"\xff" * 40)

    def test_tips_are_the_flips_that_alter_the_text(self):
        text, policy = f"1 2\ufe0e\u20e3 {HEART}\ufe0f {WATCH} {SIGN}", tilghorz.Policy()
        expected = []
        for character in tilghorz.variation_entries():
            for context in tilghorz.CONTEXTS:
                for of in tilghorz.SETS:
                    flipped = policy.flipped(of, character, context)
                    self.assertNotEqual(flipped.holds(of, character, context), policy.holds(of, character, context))
                    if tilghorz.format(text, flipped) != tilghorz.format(text, policy):
                        expected.append(tilghorz.Tip(character, context, of))
        self.assertEqual(tilghorz.tips(text, policy), expected)
        self.assertGreater(len(expected), 4)

    def test_feed(self):
        thread = (ROOT / "tests" / "programs" / "thread.in").read_bytes()
        for length in (1, 7, 1000, len(thread)):
            feed, out = tilghorz.Feed(), b""
            for start in range(0, len(thread), length):
                out += feed.write(thread[start : start + length])
            out += feed.finish()
            self.assertEqual(out, tilghorz.format(thread))
            self.assertEqual(feed.totals(), tilghorz.totals(tilghorz.findings(thread)))
            self.refused("FEED_ENDED", None, feed.write, b"")
        feed = tilghorz.Feed()
        self.assertEqual(feed.write(b"good \xe2\x9d"), b"good ")
        self.refused("NOT_WELL_FORMED", 5, feed.write, b"\xff")
        self.refused("UNFINISHED_CHARACTER", None, feed.finish)
        self.assertEqual(feed.write(b"\xa4.") + feed.finish(), f"{HEART}\ufe0e.".encode())

    def test_feed_with_two_policies(self):
        emoji = tilghorz.Policy.from_sheet("\n\n\n\n")
        for cut in range(4):
            feed = tilghorz.Feed()
            out = feed.write(HEART.encode()[:cut])
            feed.set_policy(emoji)
            out += feed.write(HEART.encode()[cut:]) + feed.finish()
            self.assertEqual(out.decode(), HEART + ("\ufe0e" if cut == 3 else "\ufe0f"))
            self.refused("FEED_ENDED", None, feed.set_policy)

    def test_store(self):
        store = tilghorz.Store(20, [8, 4])
        self.assertEqual(store.file(HEART, 0, 7), f"{HEART}\ufe0e")
        self.assertEqual((store.used(0), store.file("a dozen byte", 1, 0)), (6, "a dozen byte"))
        self.refused("BAD_CLIENT_OR_NUMBER", None, store.file, "", 1, 0)
        self.refused("DOES_NOT_FIT", 2, store.file, "abc", 0, 8)
        self.assertEqual((store.release(1, 0), store.used(1)), (12, 0))
        self.refused("BAD_CLIENT_OR_NUMBER", None, store.release, 1, 0)
        self.refused("BAD_CLIENT_OR_NUMBER", None, store.used, 16)
        self.refused("DOES_NOT_FIT", 1, tilghorz.Store, 1, [1, 1])

    def test_threads(self):
        thread = (ROOT / "tests" / "programs" / "thread.in").read_bytes()
        store, formatted = tilghorz.Store(1 << 40), tilghorz.format(thread)
        filed = []

        def work(client):
            filed.extend(store.file(thread, client, number) == formatted for number in range(50))

        workers = [threading.Thread(target=work, args=(client,)) for client in range(8)]
        for worker in workers:
            worker.start()
        for worker in workers:
            worker.join()
        self.assertEqual(filed, [True] * 400)
        self.assertEqual([store.used(client) for client in range(9)], [50 * len(formatted)] * 8 + [0])


if __name__ == "__main__":
    unittest.main()
