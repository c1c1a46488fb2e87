#!/usr/bin/env python3
r"""Formats the emoji selectors FE0E and FE0F of texts, for a host in Python: the C functions of libtilghorz, by ctypes.

The file needs python3, 3.9 or newer, and nothing else. The proved library is static. This command makes a shared one of it:

    python3 tilghorz.py make ../../target/staticlib/libtilghorz.a libtilghorz.so

The shared library is the file that the variable TILGHORZ_SHARED names, or else `libtilghorz.so` next to this file. `load` takes another.

    >>> import tilghorz
    >>> print(ascii(tilghorz.format("1\ufe0e and \u2764")))
    '1 and \u2764\ufe0e'
    >>> [(finding.start, finding.end, finding.counts.decisions) for finding in tilghorz.findings("1\ufe0e and \u2764")]
    [(0, 4, 0), (9, 12, 1)]
    >>> tilghorz.format(b"good\xff")
    Traceback (most recent call last):
    tilghorz.Refusal: refused 3: not well-formed UTF-8 at byte 4

A text is `str`, or bytes that are to be UTF-8. A function that gives a text gives it as it was handed in. Offsets count bytes; a
finding and an item also have their start and end in characters, as `str` counts them, and in UTF-16 units. Where a policy is left
out, it is the default one. A call that is refused raises `Refusal`, and changes nothing.

Two programs take a message from standard input. A refusal is one line, and the exit status is then 3:

    python3 tilghorz.py format < FILE     writes the formatted message
    python3 tilghorz.py report < FILE     writes a line for each finding, and the totals
"""

import ctypes
import functools
import os
import pathlib
import struct
import subprocess
import sys
import threading
from typing import NamedTuple, Optional

# The sizes of include/tilghorz.h.
TEXT_LIMIT = 16777216
POLICY_BYTES = 200
FINDING_BYTES = 112
NEAREST_BYTES = 120
ITEM_BYTES = 64
TIP_BYTES = 24
FEED_BYTES = 528
TOTALS_BYTES = 64
SHEET_ROOM = 9916
STORE_BYTES = 33032

# What a C function takes: bytes that it reads, bytes that it writes, and numbers.
READ, WRITE, NUMBER = "read", "write", "number"
FUNCTIONS = {
    "tilghorz_format": (READ, READ, WRITE),
    "tilghorz_list": (READ, READ, WRITE),
    "tilghorz_mend": (READ, READ, NUMBER, READ, WRITE),
    "tilghorz_scan": (READ, WRITE),
    "tilghorz_repair": (READ, WRITE),
    "tilghorz_around": (READ, READ, NUMBER, NUMBER, WRITE, WRITE),
    "tilghorz_nearest": (READ, READ, NUMBER, WRITE),
    "tilghorz_cut": (READ, NUMBER),
    "tilghorz_feed_begin": (READ, WRITE),
    "tilghorz_feed_piece": (WRITE, READ, WRITE),
    "tilghorz_feed_end": (WRITE, WRITE),
    "tilghorz_feed_policy": (WRITE, READ),
    "tilghorz_feed_totals": (READ, WRITE),
    "tilghorz_read_sheet": (READ, WRITE),
    "tilghorz_write_sheet": (READ, WRITE),
    "tilghorz_carry_policy": (READ, READ, WRITE),
    "tilghorz_tips": (READ, READ, WRITE),
    "tilghorz_store_begin": (NUMBER, READ, WRITE),
    "tilghorz_store_file": (WRITE, READ, READ, NUMBER, NUMBER, WRITE),
    "tilghorz_store_release": (WRITE, NUMBER, NUMBER),
    "tilghorz_store_used": (READ, NUMBER),
    "tilghorz_default_policy": (WRITE,),
    "tilghorz_variation_entry": (NUMBER,),
    "tilghorz_version": (),
}

# The refusals: the name in include/tilghorz.h, and the message. A message with braces says what the value is.
REFUSALS = {
    1: ("TEXT_TOO_LONG", "the text is longer than 16,777,216 bytes"),
    2: ("NOT_A_POLICY", "these bytes are not a policy"),
    3: ("NOT_WELL_FORMED", "not well-formed UTF-8 at byte {}"),
    4: ("NO_FINDING", "no finding starts at this offset"),
    5: ("WRONG_NUMBER_OF_DECISIONS", "the number of decisions that the finding needs is {}"),
    6: ("BAD_DECISION", "the decision at index {} is neither text nor emoji"),
    7: ("TABLE_TOO_SHORT", "the table is too short: {} places are needed"),
    8: ("OUTPUT_TOO_SHORT", "the output is too short: {} bytes are needed"),
    9: ("FEED_ENDED", "the feed has ended"),
    10: ("UNFINISHED_CHARACTER", "the thread ends inside a character"),
    11: ("NOT_A_SHEET", "not a policy sheet at byte {}"),
    12: ("NOT_AN_ENTRY", "no variation entry at byte {}"),
    13: ("BAD_CLIENT_OR_NUMBER", "the client or the number is out of range, or the number is in use, or not in use"),
    14: ("DOES_NOT_FIT", "the store has no room for it: {} bytes would fit"),
    15: ("OTHER_VERSION", "the policy is of another Unicode version than the tables"),
    16: ("NOT_AN_ENTRY_LIST", "the old entries do not ascend, or the old policy has another number of words than they want"),
}
DONE, NOTHING_TO_DO = 0, 255

SETS = ("prefer_bare", "bare_as_text")
CONTEXTS = ("ordinary", "keycap")
DECISIONS = ("text", "emoji")
KINDS = ("passthrough", "unsanctioned-selectors", "links-only", "emoji-headed")

# The rows that a table has room for at first.
FIRST_ROWS = 64


class Refusal(ValueError):
    """Why a call was turned back: its number, its name, and its value, which is None where there is nothing to say."""

    def __init__(self, number, value):
        self.number = number
        self.name, message = REFUSALS[number]
        self.value = value if "{}" in message else None
        super().__init__(f"refused {number}: {message.format(value)}")


class Counts(NamedTuple):
    """How many selectors of each kind are added or removed, in document 01's order."""

    unsanctioned: int
    modifier_defective: int
    additional_defective: int
    tag_conflicting: int
    tag_forced: int
    tag_redundant: int
    policy_redundant: int
    decisions: int


class Finding(NamedTuple):
    """An item of a text in which formatting changes something: its span in bytes, its counts, and its span in characters and units."""

    start: int
    end: int
    counts: Counts
    char_start: int
    char_end: int
    utf16_start: int
    utf16_end: int


class Item(NamedTuple):
    """A part of a text. The kind is one of KINDS."""

    start: int
    end: int
    kind: str
    tags_complete: bool
    char_start: int
    char_end: int
    utf16_start: int
    utf16_end: int


class Around(NamedTuple):
    """The findings inside a stretch of bytes, and those that only share a byte with it."""

    inside: list
    sharing: list


class Nearest(NamedTuple):
    """The finding that is nearest to an offset, and its distance."""

    finding: Finding
    distance: int


class Tip(NamedTuple):
    """A membership of a policy whose flip alone alters the formatted text."""

    character: str
    context: str
    set: str


class Repaired(NamedTuple):
    """A text with FFFD for each bad place, as bytes, and the number of replacements."""

    text: bytes
    replaced: int


class Version(NamedTuple):
    """A Unicode version."""

    major: int
    minor: int


_loaded = None


def make(static, shared):
    """Makes a shared library of the static one, with the C compiler. The linker refuses code that cannot be shared."""
    whole = ["-Wl,--whole-archive", os.fspath(static), "-Wl,--no-whole-archive"]
    subprocess.run(["cc", "-shared", "-Wl,-z,text", "-o", os.fspath(shared), *whole], check=True)


def load(path):
    """Takes the shared library of this path for all calls from now on."""
    global _loaded
    library = ctypes.CDLL(os.path.abspath(path))
    kinds = {READ: (ctypes.c_char_p, ctypes.c_size_t), WRITE: (ctypes.c_void_p, ctypes.c_size_t), NUMBER: (ctypes.c_uint64,)}
    for name, taken in FUNCTIONS.items():
        function = getattr(library, name)
        function.argtypes = [kind for of in taken for kind in kinds[of]]
        function.restype = ctypes.c_uint64
    _loaded = library
    variation_entries.cache_clear()


def _library():
    if _loaded is None:
        load(os.environ.get("TILGHORZ_SHARED") or pathlib.Path(__file__).resolve().parent / "libtilghorz.so")
    return _loaded


def _call(name, *arguments):
    """Calls a C function, and gives the value of its answer, or None if there was nothing to do."""
    function, passed = getattr(_library(), name), []
    for of, argument in zip(FUNCTIONS[name], arguments):
        if of == NUMBER:
            # ctypes would take the low 64 bits of any number.
            if not 0 <= argument < 1 << 64:
                raise OverflowError(f"{argument} is not a number of 64 bits")
            passed.append(argument)
        else:
            passed += [argument, len(argument)]
    word = function(*passed)
    number, value = word >> 56, word & (1 << 56) - 1
    if number == NOTHING_TO_DO:
        return None
    if number in REFUSALS:
        raise Refusal(number, value)
    if number != DONE:
        raise RuntimeError(f"the library is not the proved one: it answers {word:#018x}")
    return value


def _two(value):
    """The two values of an answer that has two."""
    return value & (1 << 28) - 1, value >> 28


def _room(length):
    """A buffer for a C function to write to. It has a byte at least, so that its address is not null."""
    return ctypes.create_string_buffer(max(length, 1))


def _front(buffer, length):
    return ctypes.string_at(buffer, length)


def _bytes(text):
    """The bytes of a text. A lone surrogate of a `str` becomes bytes that are not well-formed, which the library refuses."""
    return text.encode("utf-8", "surrogatepass") if isinstance(text, str) else bytes(text)


def _like(text, result):
    """A result as the text was handed in."""
    return result.decode() if isinstance(text, str) else result


def _policy(policy):
    return (Policy() if policy is None else policy).bytes


def _table(size, call):
    """The bytes of the rows that a call writes, with as much room as they need."""
    table = _room(FIRST_ROWS * size)
    try:
        rows = call(table)
    except Refusal as refusal:
        if refusal.name != "TABLE_TOO_SHORT":
            raise
        table = _room(refusal.value * size)
        rows = call(table)
    return _front(table, rows * size)


def _findings(rows):
    """The findings of their rows."""
    return [Finding(row[0], row[1], Counts(*row[2:10]), *row[10:]) for row in struct.iter_unpack("<14Q", rows)]


def version():
    """The Unicode version of the tables."""
    return Version(*divmod(_call("tilghorz_version"), 256))


@functools.lru_cache(maxsize=None)
def variation_entries():
    """The characters that a policy speaks of, in ascending order, as one string."""
    entries = []
    while (code_point := _call("tilghorz_variation_entry", len(entries))) is not None:
        entries.append(chr(code_point))
    return "".join(entries)


class Policy:
    """A policy: the default one, or that of 200 bytes. It does not change; equal policies are equal keys of a dictionary."""

    def __init__(self, data=None):
        if data is None:
            buffer = _room(POLICY_BYTES)
            data = _front(buffer, _call("tilghorz_default_policy", buffer))
        self.bytes = bytes(data)
        # The library itself tests the bytes, with an empty text.
        _call("tilghorz_format", b"", self.bytes, _room(0))

    @classmethod
    def from_sheet(cls, sheet):
        """The policy of a sheet: four lines, with code points and ranges of them."""
        buffer = _room(POLICY_BYTES)
        return cls(_front(buffer, _call("tilghorz_read_sheet", _bytes(sheet), buffer)))

    @classmethod
    def carried(cls, entries, stored):
        """The policy for our tables of bytes that were stored under other tables, whose entries are these characters."""
        buffer, packed = _room(POLICY_BYTES), b"".join(ord(entry).to_bytes(8, "little") for entry in entries)
        return cls(_front(buffer, _call("tilghorz_carry_policy", packed, bytes(stored), buffer)))

    def sheet(self):
        """Its sheet."""
        buffer = _room(SHEET_ROOM)
        return _front(buffer, _call("tilghorz_write_sheet", self.bytes, buffer)).decode("ascii")

    def holds(self, of, character, context="ordinary"):
        """Whether one of its two SETS holds a character in one of the two CONTEXTS."""
        byte, bit = self._place(of, character, context)
        return bool(self.bytes[byte] & bit)

    def flipped(self, of, character, context="ordinary"):
        """The policy with this membership flipped and all others as they are."""
        byte, bit = self._place(of, character, context)
        data = bytearray(self.bytes)
        data[byte] ^= bit
        return Policy(data)

    @staticmethod
    def _place(of, character, context):
        """The byte of a membership and its bit: after the version come the four sets, of 48 bytes each."""
        entry = variation_entries().find(character) if len(character) == 1 else -1
        if entry < 0:
            raise ValueError(f"{character!a} has no variation sequence, so a policy cannot speak of it")
        return 8 + 48 * (2 * SETS.index(of) + CONTEXTS.index(context)) + entry // 8, 1 << entry % 8

    def __eq__(self, other):
        return isinstance(other, Policy) and self.bytes == other.bytes

    def __hash__(self):
        return hash(self.bytes)

    def __repr__(self):
        return f"Policy.from_sheet({self.sheet()!r})"


def format(text, policy=None):
    """The formatted text."""
    data = _bytes(text)
    buffer = _room(4 * min(len(data), TEXT_LIMIT))
    length = _call("tilghorz_format", data, _policy(policy), buffer)
    return text if length is None else _like(text, _front(buffer, length))


def findings(text, policy=None):
    """The findings, in text order."""
    data, policy = _bytes(text), _policy(policy)
    return _findings(_table(FINDING_BYTES, lambda table: _call("tilghorz_list", data, policy, table)))


def totals(found):
    """The sums of the counts of findings."""
    return Counts(*map(sum, zip(*(finding.counts for finding in found)))) if found else Counts(*[0] * 8)


def items(text):
    """The items, in text order."""
    data = _bytes(text)
    rows = _table(ITEM_BYTES, lambda table: _call("tilghorz_scan", data, table))
    return [Item(row[0], row[1], KINDS[row[2]], row[3] == 1, *row[4:]) for row in struct.iter_unpack("<8Q", rows)]


def mend(text, offset, decisions=(), policy=None):
    """The text with the finding that starts at the offset mended. It needs as many decisions as its counts say, each one of DECISIONS."""
    data = _bytes(text)
    buffer = _room(4 * min(len(data), TEXT_LIMIT))
    chosen = bytes(DECISIONS.index(decision) for decision in decisions)
    return _like(text, _front(buffer, _call("tilghorz_mend", data, _policy(policy), offset, chosen, buffer)))


def default_decisions(text, offset, policy=None):
    """The decisions that formatting makes in the finding that starts at the offset."""
    found = nearest(text, offset, policy)
    if found is None or found.finding.start != offset:
        raise Refusal(4, 0)
    item, number = _bytes(text)[offset : found.finding.end], found.finding.counts.decisions
    as_text, as_emoji = (mend(item, 0, [decision] * number, policy) for decision in DECISIONS)
    # The two differ in the last byte of each selector that a decision adds.
    cells = zip(as_text, as_emoji, format(item, policy))
    return ["text" if default == text_byte else "emoji" for text_byte, emoji_byte, default in cells if text_byte != emoji_byte]


def repair(data):
    """The text with FFFD for each bad place, and their number."""
    data = _bytes(data)
    buffer = _room(3 * min(len(data), TEXT_LIMIT))
    length, replaced = _two(_call("tilghorz_repair", data, buffer))
    return Repaired(_front(buffer, length), replaced)


def around(text, start, end, policy=None):
    """The findings inside the bytes from `start` up to, not including, `end`, and those that only share a byte with them."""
    data, policy, sharing, shared = _bytes(text), _policy(policy), _room(2 * FINDING_BYTES), 0

    def call(inside):
        nonlocal shared
        rows, shared = _two(_call("tilghorz_around", data, policy, start, end, inside, sharing))
        return rows

    inside = _table(FINDING_BYTES, call)
    return Around(_findings(inside), _findings(_front(sharing, shared * FINDING_BYTES)))


def nearest(text, offset, policy=None) -> Optional[Nearest]:
    """The finding that is nearest to an offset, or None if the text has no finding."""
    row = _room(NEAREST_BYTES)
    if _call("tilghorz_nearest", _bytes(text), _policy(policy), offset, row) is None:
        return None
    (finding,) = _findings(_front(row, FINDING_BYTES))
    return Nearest(finding, int.from_bytes(row.raw[FINDING_BYTES:NEAREST_BYTES], "little"))


def cut(data, offset) -> Optional[int]:
    """The largest offset, at or below an offset, where bytes may be cut for two workers, or None."""
    return _call("tilghorz_cut", _bytes(data), offset)


def tips(text, policy=None):
    """The memberships of a policy whose flip alone alters the formatted text."""
    data, policy = _bytes(text), _policy(policy)
    rows = _table(TIP_BYTES, lambda table: _call("tilghorz_tips", data, policy, table))
    return [Tip(chr(row[0]), CONTEXTS[row[1]], SETS[row[2]]) for row in struct.iter_unpack("<3Q", rows)]


class Feed:
    """Formats a thread that comes in pieces, cut at any byte. Several threads may use it, one call after the other."""

    def __init__(self, policy=None):
        self._feed, self._lock = _room(FEED_BYTES), threading.Lock()
        _call("tilghorz_feed_begin", _policy(policy), self._feed)

    def write(self, piece):
        """Takes the next bytes of the thread, and gives the bytes that are decided."""
        piece = _bytes(piece)
        buffer = _room(4 * len(piece) + 16)
        with self._lock:
            return _front(buffer, _call("tilghorz_feed_piece", self._feed, piece, buffer))

    def finish(self):
        """Ends the thread, and gives the bytes that are left."""
        buffer = _room(16)
        with self._lock:
            return _front(buffer, _call("tilghorz_feed_end", self._feed, buffer))

    def set_policy(self, policy=None):
        """Changes the policy, for the bases whose last byte comes after this call. A base that is held keeps its policy."""
        policy = _policy(policy)
        with self._lock:
            _call("tilghorz_feed_policy", self._feed, policy)

    def totals(self):
        """The totals of the whole characters so far, as if the thread ended there."""
        buffer = _room(TOTALS_BYTES)
        with self._lock:
            _call("tilghorz_feed_totals", self._feed.raw, buffer)
        return Counts(*struct.unpack("<8Q", buffer.raw))


class Store:
    """An account of the bytes that up to 16 clients file. The reserves are those of the clients from 0 on."""

    def __init__(self, capacity, reserves=()):
        self._store, self._lock = _room(STORE_BYTES), threading.Lock()
        packed = b"".join(reserve.to_bytes(8, "little") for reserve in reserves)
        _call("tilghorz_store_begin", capacity, packed, self._store)

    def file(self, text, client, number, policy=None):
        """Formats a text, charges its formatted length to a client under a number, and gives the formatted text."""
        data = _bytes(text)
        buffer = _room(4 * min(len(data), TEXT_LIMIT))
        with self._lock:
            length = _call("tilghorz_store_file", self._store, data, _policy(policy), client, number, buffer)
        return text if length is None else _like(text, _front(buffer, length))

    def release(self, client, number):
        """Releases what a client filed under a number, and gives the number of bytes that come back."""
        with self._lock:
            return _call("tilghorz_store_release", self._store, client, number)

    def used(self, client):
        """The number of bytes that are charged to a client."""
        with self._lock:
            return _call("tilghorz_store_used", self._store.raw, client)


def report(text, policy=None):
    """The lines of the program `report` for a text: each finding with its counts, and the totals."""
    found = findings(text, policy)
    rows = [(finding.start, finding.end, *finding.counts) for finding in found] + [("total", *totals(found))]
    return "".join(" ".join(map(str, row)) + "\n" for row in rows)


def refusal_line(refusal):
    """The line of the two programs for a refusal."""
    return f"refused {refusal.number}" + ("" if refusal.value is None else f" {refusal.value}") + "\n"


def main(arguments):
    """The commands that the beginning of this file describes."""
    if len(arguments) == 3 and arguments[0] == "make":
        make(arguments[1], arguments[2])
        return 0
    if arguments not in (["format"], ["report"]):
        print("usage: tilghorz.py make STATIC SHARED | format | report", file=sys.stderr)
        return 2
    message = sys.stdin.buffer.read()
    try:
        written, status = format(message) if arguments == ["format"] else report(message).encode(), 0
    except Refusal as refusal:
        written, status = refusal_line(refusal).encode(), 3
    sys.stdout.buffer.write(written)
    return status


if __name__ == "__main__":
    sys.exit(main(sys.argv[1:]))
