#!/usr/bin/env python3
"""The stored runs of the two programs, in tests/programs: NAME.in is the input, NAME.format and NAME.report are the outputs that
the two programs must write. Also the stored input of the program findings_table, in its file stdin, and its output, in stdout.

    tools/program_runs.py run [FOLDER]   run FOLDER/format and FOLDER/report on each NAME.in, FOLDER/findings_table on the texts
                                         of evfmt's stored answers, ./tilghorz on each NAME.in for its exit status, and the
                                         examples of README.md that call it. FOLDER is target/bin if it is not given
    tools/program_runs.py check          check that the stored inputs are what this script makes, and that there are no others
    tools/program_runs.py make           write the inputs; the host's program stored-answers then writes the outputs

The two programs do not make the stored outputs. An independent implementation of document 01 in host/ makes them, and for the
formatted text the crate evfmt. `stored-answers check` and the host's tests compare the stored files with both.

Each program gets each input twice: as a file, and through a pipe in pieces, so that reads are short. If a read fails, because
standard input is a folder, a program must write nothing to standard output and one line to standard error. The script prints each
difference as a line on standard error. It also prints a line if a program's exit status is not 0, or if there is nothing to run. Its
exit status is 1 if it printed a line.
"""

import pathlib
import re
import subprocess
import sys
import tempfile

ROOT = pathlib.Path(__file__).resolve().parent.parent
PROGRAMS = ("format", "report")

# The most bytes that each program reads, and the most that findings_table reads.
LIMITS = {"format": 16384, "report": 12288}
TABLE_LIMIT = 12288

PIECE = 1000
SECONDS = 60

# A thread of messages. Most lines have findings of one kind. The last lines have none, or several kinds.
THREAD = [
    ("ann", "shall we meet at 9\ufe0e or at 10\ufe0e? bring a \u231a\ufe0f and 2\ufe0e \u2615\ufe0f"),  # policy-redundant
    ("ben", "with love \u2764, \u00a9 2024, room 4\u20e3, press #\u20e3"),  # decisions
    ("ann", "stray a\ufe0f selectors \ufe0e\ufe0f here, a flag \U0001f1e6\ufe0f\U0001f1e7\ufe0e, \u231a\ufe0e\ufe0f"),  # unsanctioned
    ("ben", "this way \u261d\ufe0f\U0001f3fb, not that \u270c\ufe0f\U0001f3ff"),  # modifier-defective
    ("ann", "a dark heart \u2764\ufe0f\U0001f3fb and \u2600\ufe0f\U0001f3fe"),  # additional-defective
    ("ben", "tagged \u2764\ufe0e\U000e0061\U000e007f and \u231a\ufe0e\U000e0062\U000e007f"),  # tag-conflicting
    ("ann", "tagged \u2764\U000e0061\U000e007f and \u2602\U000e0062"),  # tag-forced
    # tag-redundant
    ("ben", "\u231a\ufe0f\U000e0061\U000e007f and \U0001f3f4\ufe0f\U000e0067\U000e0062\U000e0065\U000e006e\U000e0067\U000e007f"),
    ("ann", "nothing wrong: \u261d\ufe0e\U0001f3fb \u231a \u2764\ufe0f \U0001f1e6\U0001f1e7 \U0001f469\u200d\U0001f680, 5 o'clock"),
    (
        "ben",
        "\U0001f469\u200d\u2764\ufe0f\u200d\U0001f468 and \U0001f469\u200d\u2764\u200d\U0001f468, "
        "\u200d\ufe0f\u200d, \u231a\u200d\u200d\u231a\ufe0f",
    ),
    ("ann", "\u2764\ufe0f\ufe0e\ufe0f\u20e3\ufe0e\U0001f3fb\ufe0f\u200d\ufe0f\u261d\ufe0f\U0001f3fb\ufe0e\u200d1\ufe0e\u20e3\ufe0f\u200d"),
]
ROUNDS = 8

# The worked texts of document 01, in its order.
WORKED = [
    "",
    "1\ufe0e",
    "1\u20e3",
    "\u231a\ufe0f",
    "\u231a\ufe0e\ufe0f",
    "\u231a\ufe0f\ufe0e",
    "\u261d\ufe0f\U0001f3fb",
    "\u261d\ufe0e\U0001f3fb",
    "\u2764\ufe0f\U0001f3fb",
    "\u2764\ufe0e\U000e0061",
    "\U0001f1e6\ufe0f\U0001f1e7",
    "\u231a\u200d\u200d\u231a",
    "a\ufe0f",
    "\u20e3",
]

# The number of findings that fit into the table of the program findings_table.
FEW = 8


def lines():
    """The input of findings_table: the worked texts, the thread, a full table, a table that is too short, a damaged text."""
    texts = WORKED + [text for _, text in THREAD] + ["\u00a9" * FEW, "\u00a9" * (FEW + 1)]
    return "".join(f"{text}\n" for text in texts).encode() + b"\xe2\x9d \xe2\x9d\xa4\n"


def inputs():
    """The inputs of the two programs, by name."""
    thread = "".join(f"{n:03} {who}: {text}\n" for n, (who, text) in enumerate(THREAD * ROUNDS))
    return {
        "empty": b"",
        "unchanged": "Meet at \u231a 9, \u261d\ufe0e\U0001f3fb, \u2764\ufe0f.\n".encode(),
        "copyright_signs": "\u00a9".encode() * (LIMITS["report"] // 2),
        "report_too_long": b"a" * (LIMITS["report"] + 1),
        "format_full": "\u00a9".encode() * (LIMITS["format"] // 2),
        "too_long": b"a" * (LIMITS["format"] + 1),
        "damaged": "caf\u00e9 \u2764 ".encode() + b"\xe2\x9d" + " \u2764".encode(),
        "reads_refused": b"refused 1\n",
        "thread": thread.encode(),
    }


def stored(folder):
    """The names of the stored runs."""
    return sorted(path.stem for path in folder.glob("*.in"))


def wrong_files(folder):
    made = inputs()
    for name, text in made.items():
        path = folder / f"{name}.in"
        if not path.is_file() or path.read_bytes() != text:
            yield f"{path}: not what tools/program_runs.py makes"
    for path in sorted(folder.iterdir()):
        if path.stem not in made or path.suffix[1:] not in ("in", *PROGRAMS):
            yield f"{path}: tools/program_runs.py does not make it"


def wrong_lines(folder):
    if (folder / "stdin").read_bytes() != lines():
        yield f"{folder / 'stdin'}: not what tools/program_runs.py makes"


def make(folder):
    folder.mkdir(parents=True, exist_ok=True)
    for name, text in inputs().items():
        (folder / f"{name}.in").write_bytes(text)


def make_lines(folder):
    (folder / "stdin").write_bytes(lines())


def make_outputs():
    command = ["cargo", "run", "--offline", "--quiet", "--release", "--bin", "stored-answers", "--", "make"]
    subprocess.run(command, cwd=ROOT / "host", check=True)


def from_file(program, path):
    with path.open("rb") as source:
        answer = subprocess.run([program], stdin=source, capture_output=True, timeout=SECONDS, check=False)
    return answer.stdout, answer.returncode


def in_pieces(program, text):
    """The output and the exit status of a program that reads the text from a pipe, in pieces."""
    with tempfile.TemporaryFile() as output:
        with subprocess.Popen([program], stdin=subprocess.PIPE, stdout=output, bufsize=0) as process:
            try:
                for at in range(0, len(text), PIECE):
                    process.stdin.write(text[at : at + PIECE])
                process.stdin.close()
            except BrokenPipeError:
                pass  # a program may stop reading when the input is too long
            status = process.wait(timeout=SECONDS)
        output.seek(0)
        return output.read(), status


def difference(expected, found):
    """A description of the first difference between two outputs."""
    at = next((i for i, (a, b) in enumerate(zip(expected, found)) if a != b), min(len(expected), len(found)))
    here, wanted = (text[at : at + 16].hex(" ") for text in (found, expected))
    return f"{len(found)} bytes, expected {len(expected)}; from byte {at} on {here}, expected {wanted}"


def wrong_runs(folder, programs):
    """The runs that differ from the stored ones."""
    names = stored(folder)
    if not names:
        yield f"{folder}: no stored run"
    for program in PROGRAMS:
        path = programs / program
        if not path.is_file():
            yield f"{path}: is not built"
            continue
        for name in names:
            source = folder / f"{name}.in"
            expected = (folder / f"{name}.{program}").read_bytes()
            runs = {"as a file": from_file(path, source), "in pieces": in_pieces(path, source.read_bytes())}
            for way, (found, status) in runs.items():
                if found != expected:
                    yield f"{program} {name}, {way}: {difference(expected, found)}"
                if status != 0:
                    yield f"{program} {name}, {way}: exit status {status}"
        yield from wrong_failure(path, folder)


def answered_texts():
    """The texts of evfmt's stored answers that have only one line."""
    for path in sorted((ROOT / "crates" / "vectors" / "data").glob("items-*.txt")):
        for line in path.read_text(encoding="utf-8").splitlines():
            if line.startswith("text "):
                text = bytes.fromhex(line.split(" ")[1].rstrip("."))
                if b"\n" not in text:
                    yield text


def in_messages(texts):
    """The texts as lines of messages, each message with as many lines as fit, and the number of its lines."""
    message, count = b"", 0
    for text in texts:
        if len(message) + len(text) + 1 > TABLE_LIMIT:
            yield message, count
            message, count = b"", 0
        message, count = message + text + b"\n", count + 1
    if count:
        yield message, count


def wrong_tables(program, texts):
    """The messages for which the table of structs and the table of bytes differ, or that the program did not read whole."""
    if not program.is_file():
        yield f"{program}: is not built"
        return
    messages = list(in_messages(texts))
    if not messages:
        yield f"{program.name}: no stored text"
    for message, count in messages:
        answer = subprocess.run([program], input=message, capture_output=True, timeout=SECONDS, check=False)
        found = answer.stdout.decode()
        is_whole = found.startswith(f"{count} lines, ") and found.endswith(" 0 refused, 0 different\n")
        if answer.returncode != 0 or not is_whole:
            yield f"{program.name}: {found!r}, exit status {answer.returncode}, for {count} lines that begin with {message[:16].hex(' ')}"


def examples(readme):
    """The commands in blocks `console` that call ./tilghorz, each with the output that is shown below it."""
    blocks = "".join(re.findall(r"^```console\n(.*?)^```$", readme, re.M | re.S))
    commands = re.findall(r"^\$ (.*)\n((?:(?!\$ ).*\n)*)", blocks, re.M)
    return [(command, output) for command, output in commands if "./tilghorz " in command]


def wrong_examples(root):
    """The examples of README.md with another output than it shows. A test of tilghorz-host runs the examples of that command."""
    shown = examples((root / "README.md").read_text(encoding="utf-8"))
    if not shown:
        yield "README.md: no example of ./tilghorz"
    for command, expected in shown:
        shell = ["sh", "-c", f"exec 2>&1; {command}"]
        answer = subprocess.run(shell, cwd=root, stdin=subprocess.DEVNULL, capture_output=True, timeout=SECONDS, check=False)
        if answer.stdout.decode() != expected:
            yield f"README.md: {command}: its output is {answer.stdout.decode()!r}"


def is_refused(program, text):
    """Whether a program refuses a text, because it is too long or not well-formed."""
    try:
        text.decode()
    except UnicodeDecodeError:
        return True
    return len(text) > LIMITS[program]


def wrong_statuses(root, folder):
    """The stored runs on which ./tilghorz has another output, or an exit status other than 0, or 3 for a refusal."""
    for program in PROGRAMS:
        for name in stored(folder):
            text = (folder / f"{name}.in").read_bytes()
            answer = subprocess.run([root / "tilghorz", program], input=text, capture_output=True, timeout=SECONDS, check=False)
            wanted = 3 if is_refused(program, text) else 0
            if answer.returncode != wanted:
                yield f"./tilghorz {program} {name}: exit status {answer.returncode}, expected {wanted}"
            if answer.stdout != (folder / f"{name}.{program}").read_bytes():
                yield f"./tilghorz {program} {name}: its output differs from that of the program"


def wrong_failure(program, folder):
    """The faults of a program when standard input cannot be read."""
    shell = ["sh", "-c", 'exec "$1" < "$2"', "sh", program, folder]
    with subprocess.Popen(shell, stdout=subprocess.PIPE, stderr=subprocess.PIPE) as process:
        out, error = process.communicate(timeout=SECONDS)
    if out:
        yield f"{program.name}: it writes {out[:16]!r} when standard input cannot be read"
    lines = error.count(b"\n")
    if lines != 1:
        yield f"{program.name}: it writes {lines} lines to standard error when standard input cannot be read"


def main(arguments):
    folder = ROOT / "tests" / "programs"
    table = ROOT / "crates" / "findings_table"
    if arguments == ["make"]:
        make(folder)
        make_lines(table)
        make_outputs()
        return 0
    if arguments == ["check"]:
        found = [*wrong_files(folder), *wrong_lines(table)]
    elif arguments[:1] == ["run"] and len(arguments) <= 2:
        programs = pathlib.Path(arguments[1]) if arguments[1:] else ROOT / "target" / "bin"
        found = [
            *wrong_runs(folder, programs),
            *wrong_tables(programs / "findings_table", answered_texts()),
            *wrong_statuses(ROOT, folder),
            *wrong_examples(ROOT),
        ]
    else:
        print(__doc__, file=sys.stderr)
        return 2
    for line in found:
        print(line, file=sys.stderr)
    return 1 if found else 0


if __name__ == "__main__":
    sys.exit(main(sys.argv[1:]))
