"""Reads a page of `tilghorz-host page` by html.parser, and compares it with a report.

    page.py PAGE FORMATTED < REPORT

REPORT is what `report --json` writes of the same texts, and FORMATTED is a folder with the formatted texts, by their names. The script
prints the number of messages and of findings, or the first fault, with status 1. The faults are: something that could load or run; an
anchor that is there twice, or a link without its anchor; a finding that is missing; a marked text, or a text at the UTF-16 positions of
a finding, that has not the finding's bytes; a line after formatting that is no line of the formatted text.
"""

import html.parser
import json
import os
import pathlib
import sys

LOADING = ("script", "img", "link", "iframe", "object", "embed", "base", "form", "video", "audio", "source")
ATTRIBUTES = ("src", "srcset", "style", "data", "action", "background", "ping")
POLICY = "default-src 'none'; style-src 'unsafe-inline'"
# The most bytes of a finding that are shown.
LONGEST = 400
# Control characters stand as U+FFFD.
CONTROLS = {code: 0xFFFD for code in [*range(9), *range(11, 32), *range(127, 160)]}


class Message:
    def __init__(self):
        self.parts, self.marked, self.findings, self.after = [], {}, [], []

    def at(self, start, end):
        """The text from one UTF-16 position to another, if one part has it."""
        for units, text in self.parts:
            encoded = text.encode("utf-16-le")
            if units <= start and 2 * (end - units) <= len(encoded):
                return encoded[2 * (start - units):2 * (end - units)].decode("utf-16-le")
        return None


class Reader(html.parser.HTMLParser):
    def __init__(self):
        super().__init__()
        self.ids, self.links, self.messages, self.policy = [], [], [], None
        self.cell = self.part = self.mark = None
        self.in_style = False

    def handle_starttag(self, tag, attributes):
        given = dict(attributes)
        loading = [name for name in given if name in ATTRIBUTES or name.startswith("on")]
        if tag in LOADING or loading:
            sys.exit(f"<{tag}> {loading} could load or run something")
        self.in_style = tag == "style"
        self.policy = given["content"] if "http-equiv" in given else self.policy
        self.ids += [given["id"]] if "id" in given else []
        self.links += [given["href"]] if "href" in given else []
        kind = tag, given.get("class")
        if kind == ("section", "m"):
            self.messages.append(Message())
        if tag in ("tr", "td"):
            self.cell = given.get("class")
            if kind == ("td", "a"):
                self.messages[-1].after.append("")
        if tag == "i" and self.cell == "a":
            self.messages[-1].after[-1] += "\0"
        if tag == "bdi" and "data-u" in given:
            self.part = [int(given["data-u"]), ""]
            self.messages[-1].parts.append(self.part)
        if kind == ("a", "f"):
            self.mark = given["href"][1:]
            self.messages[-1].marked[self.mark] = ""
        if kind == ("div", "f"):
            self.messages[-1].findings.append((given["id"], given["data-bytes"], given["data-utf16"]))

    def handle_endtag(self, tag):
        self.mark = None if tag == "a" else self.mark
        self.part = None if tag == "bdi" else self.part

    def handle_data(self, data):
        if self.in_style:
            if "url(" in data or "@import" in data:
                sys.exit("the style could load something")
        if self.part:
            self.part[1] += data
        if self.mark:
            self.messages[-1].marked[self.mark] += data
        if self.cell == "a":
            self.messages[-1].after[-1] += data


def compare(message, report, formatted):
    name = bytes.fromhex(report["file_hex"]) if "file_hex" in report else report["file"].encode()
    text = pathlib.Path(os.fsdecode(name)).read_bytes()
    listed = [f"{finding['start']} {finding['end']}" for finding in report["findings"]]
    if [finding[1] for finding in message.findings] != listed:
        sys.exit(f"{name}: other findings than those of the report")
    for anchor, place, units in message.findings:
        start, end = map(int, place.split())
        expected = text[start:end].decode()
        found, marked = message.at(*map(int, units.split())), message.marked[anchor]
        if len(expected.encode()) > LONGEST:
            # Of a long finding the beginning is shown.
            found, expected = marked, expected.encode()[:LONGEST].decode(errors="ignore")
        if (found, marked) != (expected, expected):
            sys.exit(f"{name}: {place}: {found!r} and {marked!r} instead of {expected!r}")
    lines = pathlib.Path(formatted, os.fsdecode(name)).read_bytes().decode().split("\n")
    lines = {line.removesuffix("\r").translate(CONTROLS) for line in lines}
    for line in message.after:
        # Of a long line only parts are shown.
        if line not in lines and "\0" not in line:
            sys.exit(f"{name}: {line!r} is no line of the formatted text")


def main(page, formatted):
    reader = Reader()
    reader.feed(pathlib.Path(page).read_bytes().decode())
    reader.close()
    if reader.policy != POLICY:
        sys.exit("the page may load something")
    broken = [link for link in reader.links if not link.startswith("#") or link[1:] not in reader.ids]
    if broken or len(set(reader.ids)) < len(reader.ids):
        sys.exit(f"anchors: {broken}")
    reports = [report for report in map(json.loads, sys.stdin.buffer) if "findings" in report]
    if len(reports) != len(reader.messages):
        sys.exit(f"{len(reader.messages)} messages, and {len(reports)} texts")
    for message, report in zip(reader.messages, reports):
        compare(message, report, formatted)
    print(f"{len(reports)} messages, {sum(len(message.findings) for message in reader.messages)} findings")


main(*sys.argv[1:])
