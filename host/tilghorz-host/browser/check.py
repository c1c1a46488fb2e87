#!/usr/bin/env python3
"""Opens pages of `tilghorz-host page` in Chromium and checks what the browser has made of them. It is run by hand.

    host/tilghorz-host/browser/check.py COMMAND FOLDER

COMMAND is the built tilghorz-host. FOLDER is made, and gets the texts, the pages and screenshots: light, dark, narrow and as it is
printed. If Chromium is missing, the script installs Debian's package with apt-get, which needs root and a network.

The pages are of the worked texts of document 01, of hostile names and texts, and of 2,000 messages. For each page:

- no message is on the console, no error is in the log, and nothing but the page itself is loaded
- every finding that `report --json` lists is on the page, and the text at its UTF-16 positions, read back from the page's elements, has
  the finding's bytes; so has the marked text
- each line that is shown after formatting is a line of the text that `format` writes
- each anchor exists, no anchor is there twice, and the first Tab leads to the link to the messages
- the same texts give the same bytes again

The script prints a line for each page. It ends with status 1 at the first fault.
"""

import base64
import json
import os
import pathlib
import shutil
import subprocess
import sys
import tempfile
import time

WORKED = (
    "", "31 FE0E", "31 20E3", "231A FE0F", "231A FE0E FE0F", "231A FE0F FE0E", "261D FE0F 1F3FB", "261D FE0E 1F3FB",
    "2764 FE0F 1F3FB", "2764 FE0E E0061", "1F1E6 FE0F 1F1E7", "231A 200D 200D 231A", "61 FE0F", "20E3",
)
# Each finding: its section, its bytes, the text at its UTF-16 positions, and the text that is marked with its number.
READ_BACK = """
(() => {
  const sections = [...document.querySelectorAll('section.m')];
  return sections.map(section => {
    const parts = [...section.querySelectorAll('td.b bdi, details bdi')]
      .filter(part => part.dataset.u).map(part => [Number(part.dataset.u), part.textContent]);
    const after = [...section.querySelectorAll('td.a')].filter(cell => !cell.querySelector('i'));
    return {
      name: section.querySelector('h3').textContent,
      after: after.map(cell => cell.textContent),
      findings: [...section.querySelectorAll('div.f')].map((finding, index) => {
        const [start, end] = finding.dataset.utf16.split(' ').map(Number);
        const part = parts.find(([from, text]) => from <= start && end <= from + text.length);
        const marked = section.querySelector(`td.b a.f[href="#${finding.id}"]`);
        return {
          bytes: finding.dataset.bytes,
          text: part ? part[1].substring(start - part[0], end - part[0]) : null,
          marked: marked.textContent,
        };
      }),
    };
  });
})()
"""
ANCHORS = """
(() => {
  const ids = [...document.querySelectorAll('[id]')].map(element => element.id);
  const links = [...document.querySelectorAll('a[href]')].map(link => link.getAttribute('href'));
  const known = new Set(ids);
  return {
    twice: ids.length - known.size,
    broken: links.filter(link => !link.startsWith('#') || !known.has(link.substring(1))),
    foreign: document.querySelectorAll('script, img, link, iframe, object, embed, [src], [style]').length,
  };
})()
"""


def installed():
    if not shutil.which("chromium"):
        subprocess.run(["apt-get", "update"], check=True)
        packages = ["chromium", "fonts-noto-color-emoji", "fonts-dejavu-core"]
        subprocess.run(["apt-get", "install", "--yes", "--no-install-recommends", *packages], check=True)
    return shutil.which("chromium")


class Browser:
    """Chromium, which is told what to do through two pipes."""

    def __init__(self, program):
        to_read, self.to = os.pipe()
        self.back, to_write = os.pipe()
        self.profile = tempfile.mkdtemp()
        options = [
            "--headless=new", "--no-sandbox", "--disable-gpu", "--no-first-run", "--disable-dev-shm-usage", "--remote-debugging-pipe",
            "--disable-background-networking", f"--user-data-dir={self.profile}", "about:blank",
        ]
        shell = 'exec "$@" 3<&"$0" 4>&"$TO_WRITE"'
        # The two pipes have the numbers 3 and 4 in Chromium.
        self.process = subprocess.Popen(
            ["bash", "-c", shell, str(to_read), program, *options],
            pass_fds=(to_read, to_write), env={**os.environ, "TO_WRITE": str(to_write)}, stderr=subprocess.DEVNULL,
        )
        os.close(to_read)
        os.close(to_write)
        self.number, self.held, self.events = 0, b"", []
        target = self.call("Target.createTarget", {"url": "about:blank"})["targetId"]
        self.session = self.call("Target.attachToTarget", {"targetId": target, "flatten": True})["sessionId"]
        for domain in ("Page", "Runtime", "Log", "Network"):
            self.call(f"{domain}.enable")

    session = None

    def message(self):
        while b"\0" not in self.held:
            more = os.read(self.back, 1 << 20)
            if not more:
                sys.exit("Chromium has ended")
            self.held += more
        message, _, self.held = self.held.partition(b"\0")
        return json.loads(message)

    def call(self, method, params=None):
        self.number += 1
        request = {"id": self.number, "method": method, "params": params or {}}
        if self.session:
            request["sessionId"] = self.session
        data = json.dumps(request).encode() + b"\0"
        while data:
            data = data[os.write(self.to, data):]
        while True:
            message = self.message()
            if message.get("id") == self.number:
                if "error" in message:
                    sys.exit(f"{method}: {message['error']}")
                return message["result"]
            self.events.append(message)

    def open(self, url):
        self.events.clear()
        self.call("Page.navigate", {"url": url})
        while not any(event.get("method") == "Page.loadEventFired" for event in self.events):
            self.events.append(self.message())

    def evaluate(self, expression):
        result = self.call("Runtime.evaluate", {"expression": expression, "returnByValue": True})
        if "exceptionDetails" in result:
            sys.exit(f"the page: {result['exceptionDetails']}")
        return result["result"].get("value")

    def screenshot(self, path, width=1280, height=1600, dark=False):
        self.call("Emulation.setDeviceMetricsOverride", {"width": width, "height": height, "deviceScaleFactor": 1, "mobile": False})
        scheme = "dark" if dark else "light"
        self.call("Emulation.setEmulatedMedia", {"features": [{"name": "prefers-color-scheme", "value": scheme}]})
        path.write_bytes(base64.b64decode(self.call("Page.captureScreenshot")["data"]))

    def close(self):
        self.process.terminate()
        self.process.wait()
        shutil.rmtree(self.profile, ignore_errors=True)


def characters(code_points):
    return "".join(chr(int(code_point, 16)) for code_point in code_points.split())


def make_worked(folder):
    for number, text in enumerate(WORKED, 1):
        (folder / f"{number:02}.txt").write_text(characters(text), encoding="utf-8")
    emoji = "\u00a9 \u2764\ufe0f\u200d\U0001f525 \u2764\u200d\U0001f525 \U0001f469\u200d\U0001f4bb\n"
    thread = "Hello\nI \u2764 it, 1\ufe0e too\n\n" + emoji + "plain\n" * 30
    (folder / "thread.txt").write_text(thread + "1\ufe0e\u20e3 and a\ufe0f", encoding="utf-8")


def make_hostile(folder):
    names = (
        b"<script>alert(1)<.txt", b"\"quoted' & amp;.txt", "txt.\u202egnp".encode(), b"line\nfeed \x1b[31m", b"not \xff UTF-8",
        "\u05e9\u05dc\u05d5\u05dd.txt".encode(), b"http:..evil.example", "\u2764\ufe0f \u200b.txt".encode(), b"--x",
    )
    texts = (
        "<img src=x onerror=alert(1)>\u2764</td></table><script>alert(2)</script>",
        "\u202ereversed \u2764 \u2067isolated 1\ufe0e\u2069 \u202c \u05e9\u05dc\u05d5\u05dd \u2764",
        "bell \x07 escape \x1b[2J CSI \x9b31m return \r in \x0b it \x85 \u2764\r\n&#x202E; &lt; \u2764",
        "\ufe0f\ufe0e\ufe0f \u200d\u200d \u2764\u200d\u2764\u200d\u2764 " + "\U000e0061" * 300 + " \U0001f3f4\U000e0067\U000e007f\u2764",
        "a" * 5000 + "\u2764" + "b" * 700 + "\u2764\ufe0e\ufe0f" + "\U0001f600" * 600 + "\u2764",
        "e" + "\u0301" * 200 + "\u2764 \ufdd0 \uffff \U0010ffff \ufeff \u2028 \u2029",
        "\u2764" * 400, "\t\u2764\t1\ufe0e\n" * 50, "a\u0300\ufe0f" + "\ufe0f" * 900 + " \u2764",
    )
    for name, text in zip(names, texts):
        (pathlib.Path(os.fsdecode(os.path.join(os.fsencode(folder), name)))).write_bytes(text.encode("utf-8"))
    (folder / "damaged").write_bytes(b"first\nsecond <b>\xe2\x9d</b> \xff\n")


def make_many(folder):
    for number in range(2000):
        lines = [f"message {number}", f"I \u2764 it \U0001f600 1\ufe0e and \u00a9 {number}" if number % 3 else "plain", "the end"]
        (folder / f"{number:04}.txt").write_text("\n".join(lines), encoding="utf-8")


def run(command, *arguments, wanted=(0, 2)):
    done = subprocess.run([command, *arguments], capture_output=True)
    if done.returncode not in wanted:
        sys.exit(f"{arguments}: {done.stderr.decode()}")
    return done.stdout


def check_loading(name, browser):
    for event in browser.events:
        method, params = event.get("method"), event.get("params", {})
        if method in ("Runtime.consoleAPICalled", "Runtime.exceptionThrown", "Log.entryAdded"):
            sys.exit(f"{name}: {params}")
        if method == "Network.requestWillBeSent" and params["request"]["url"] != params["documentURL"]:
            sys.exit(f"{name}: it loads {params['request']['url']}")


def check_findings(name, command, folder, browser):
    """Compares what is read back from the page with the report; gives the number of findings."""
    after = folder.with_name(f"{name}-formatted")
    shutil.copytree(folder, after)
    run(command, "format", "--in-place", "--no-sync", "--quiet", str(after))
    reports = [json.loads(line) for line in run(command, "report", "--json", "--quiet", str(folder)).splitlines()]
    reports = [report for report in reports if "findings" in report]
    sections = browser.evaluate(READ_BACK)
    if len(sections) != len(reports):
        sys.exit(f"{name}: {len(sections)} sections, and {len(reports)} texts")
    number = 0
    for section, report in zip(sections, reports):
        where = f"{name}: {section['name']}"
        path = bytes.fromhex(report["file_hex"]) if "file_hex" in report else report["file"].encode()
        text = pathlib.Path(os.fsdecode(path)).read_bytes()
        listed = report["findings"][:200]
        if [finding["bytes"] for finding in section["findings"]] != [f"{one['start']} {one['end']}" for one in listed]:
            sys.exit(f"{where}: other findings than those of the report")
        for shown, finding in zip(section["findings"], listed):
            expected = text[finding["start"]:finding["end"]].decode()
            # Of a finding with more than 400 bytes the page has the beginning.
            is_long = len(expected.encode()) > 400
            is_same = shown["text"] == shown["marked"] == expected
            if not is_same and not (is_long and shown["marked"] and expected.startswith(shown["marked"])):
                sys.exit(f"{where}: {finding['start']}: {shown['text']!r}, {shown['marked']!r} instead of {expected!r}")
            number += 1
        formatted = (after / pathlib.Path(os.fsdecode(path)).relative_to(folder)).read_bytes().decode().split("\n")
        controls = {code: 0xFFFD for code in [*range(9), *range(11, 32), *range(127, 160)]}
        lines = {line.removesuffix("\r").translate(controls) for line in formatted}
        is_capped = len(report["findings"]) > 200
        for line in section["after"]:
            if line not in lines and not is_capped:
                sys.exit(f"{where}: {line!r} is no line of the formatted text")
    return number


def check_page(name, make, command, root, browser):
    folder, page = root / name, root / f"{name}.html"
    folder.mkdir()
    make(folder)
    run(command, "page", "--quiet", "--output", str(page), str(folder))
    first = page.read_bytes()
    run(command, "page", "--quiet", "--jobs=1", "--output", str(page), str(folder))
    if page.read_bytes() != first:
        sys.exit(f"{name}: the same texts give another page")
    start = time.monotonic()
    browser.open(page.as_uri())
    seconds = time.monotonic() - start
    anchors = browser.evaluate(ANCHORS)
    if anchors["twice"] or anchors["broken"] or anchors["foreign"]:
        sys.exit(f"{name}: {anchors}")
    findings = check_findings(name, command, folder, browser)
    key = {"key": "Tab", "code": "Tab", "windowsVirtualKeyCode": 9}
    browser.call("Input.dispatchKeyEvent", {"type": "keyDown", **key})
    browser.call("Input.dispatchKeyEvent", {"type": "keyUp", **key})
    if browser.evaluate("document.activeElement.className") != "skip":
        sys.exit(f"{name}: the first Tab does not lead to the link to the messages")
    browser.screenshot(root / f"{name}-front.png")
    browser.screenshot(root / f"{name}-dark.png", dark=True)
    browser.evaluate("(document.querySelector('div.f') || document.body).scrollIntoView({block: 'center'})")
    browser.screenshot(root / f"{name}-findings.png")
    browser.screenshot(root / f"{name}-narrow.png", width=420)
    if name != "many":
        printed = browser.call("Page.printToPDF")["data"]
        (root / f"{name}.pdf").write_bytes(base64.b64decode(printed))
    check_loading(name, browser)
    print(f"{name}: {len(first)} bytes, opened in {seconds:.1f} s, {findings} findings read back, nothing loaded, no message")


def main(arguments):
    if len(arguments) != 2:
        print(__doc__, file=sys.stderr)
        return 2
    command, root = os.path.abspath(arguments[0]), pathlib.Path(arguments[1]).absolute()
    root.mkdir(parents=True)
    browser = Browser(installed())
    try:
        for name, make in (("worked", make_worked), ("hostile", make_hostile), ("many", make_many)):
            check_page(name, make, command, root, browser)
    finally:
        browser.close()
    return 0


if __name__ == "__main__":
    sys.exit(main(sys.argv[1:]))
