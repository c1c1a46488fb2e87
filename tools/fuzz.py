#!/usr/bin/env python3
"""The fuzzer of the C functions: it makes lists of calls of the library and of the reference in host/, and compares them.

    tools/fuzz.py [SECONDS]            build the fuzzer and run it from the stored inputs, 120 seconds if no number is given
    tools/fuzz.py [SECONDS] --fault NAME
                                       the same with a fault of `compare --faults` planted: the run must find something
    tools/fuzz.py replay FILE          make the calls of one input
    tools/fuzz.py keep                 write the stored inputs anew, host/fuzz/corpus.txt: out of target/fuzz/corpus, where the
                                       runs leave their inputs, few inputs that together reach every branch that those inputs
                                       reach, and for each planted fault an input that shows it
    tools/fuzz.py branches             for each function of the library, how many of its branches the stored inputs reach

The exit status is 0 if nothing was found, 1 if something was found, and 2 if the fuzzer could not be built. If something was found,
the last line names the file with the input.

The fuzzer is LLVM's libFuzzer. It needs the Rattle kit, cargo, clang and the archive of libFuzzer; the script names Debian's package
for what is missing, and installs nothing. The Rust code of host/ and the library itself are compiled with counters, by which the
fuzzer sees which branches an input reaches. The library is compiled by the kit's clang. The script has the kit's compiler call a clang
that keeps a copy of its input, the library's code as LLVM bitcode, and then compiles that with counters. The proved library stays as
it is. If the kit has no such clang, the script says so and links the proved library without counters.
"""

import argparse
import bisect
import hashlib
import os
import pathlib
import platform
import random
import re
import shutil
import subprocess
import sys
import tempfile

import static_library

ROOT = pathlib.Path(__file__).resolve().parent.parent
FOLDER = ROOT / "target" / "fuzz"
CORPUS = FOLDER / "corpus"
STORED = ROOT / "host" / "fuzz" / "corpus.txt"
FAULTS = ROOT / "host" / "src" / "comparison" / "faults.rs"
LIBRARY = ROOT / "target" / "staticlib" / "libtilghorz.a"
FUZZER = FOLDER / "fuzzer"
DRIVER = ROOT / "host" / "fuzz" / "branches.c"

SECONDS = 120
# No input is longer, and none may take longer. An input takes milliseconds, but the time is by the clock, and a machine can be busy.
MOST_BYTES = 512
MOST_SECONDS = 300
LIMITS = [f"-max_len={MOST_BYTES}", f"-timeout={MOST_SECONDS}", f"-report_slow_units={MOST_SECONDS}"]
FUZZER_OPTIONS = [*LIMITS, "-len_control=0", "-entropic=0"]

COUNTERS = "-fsanitize-coverage=inline-8bit-counters,pc-table,trace-cmp"
RUST_COUNTERS = [
    "passes=sancov-module",
    "llvm-args=-sanitizer-coverage-level=4",
    "llvm-args=-sanitizer-coverage-inline-8bit-counters",
    "llvm-args=-sanitizer-coverage-pc-table",
    "llvm-args=-sanitizer-coverage-trace-compares",
    "debug-assertions=yes",
    "overflow-checks=yes",
    "codegen-units=1",
]
TRIPLE = "x86_64-unknown-linux-gnu"

# The numbers of steps in host/src/fuzz/machine.rs, for the first inputs.
CALLS = (
    "format list mend scan repair around nearest cut feed_begin feed_piece feed_end feed_policy feed_totals read_sheet write_sheet "
    "carry_policy tips store_begin store_file store_release store_used default_policy variation_entry version"
).split()
CHANGES = (
    "text_of_tokens add_tokens text_of_bytes add_bytes add_run text_of_sheet text_of_last change_text cut_text longest_text "
    "policy_of_default policy_of_last flip_membership flip_bit full_sets other_version other_length policy_of_bytes copy_feed "
    "spoil_feed feed_of_bytes copy_store spoil_store store_of_bytes"
).split()
ON_TEXTS = ("format", "list", "mend", "scan", "repair", "around", "nearest", "cut", "tips")
STEPS = {name: number for number, name in enumerate(CALLS + CHANGES)}
# About as many bytes follow a step; none follows these.
FOLLOWING = 6
ALONE = ("text_of_last", "longest_text", "policy_of_default", "policy_of_last", "version")

SHEETS = [
    b"30-39,2764\n\n0000A9,30\n30,30-31,31\n",
    b"\n\n\n\n",
    b"30,030,31\n\n\n\n",
    b"39-30x",
    b"39-30,x\n\n\n\n",
    b"41,39-30\n\n\n\n",
    b"30-0000031\n\n\n\n",
    b"30-31-32\n\n\n\n",
    b"\n\nD800-110000\n\n",
    b"30\n\n\n31",
    b"\n\n\n\n\n",
    b"\n\na9\n\n",
    b"30, 31\n\n\n\n",
    b"39-30",
    b"30-41\n\n\n\n",
    b"000030-000039,000030\n000039\n\n30-000039\n",
    # Entries at the ends of a set's words.
    b"2623,2626,26F7,26F8,1F5D2,1F5D3\n\n\n\n",
]
TEXTS = [
    "1\ufe0e 1\u20e3 \u2764 \u231a\ufe0e\ufe0f",
    "\u261d\ufe0f\U0001f3fb \u2764\ufe0f\U0001f3fb\u2600\ufe0f\U0001f3fe",
    "\u2764\ufe0e\U000e0061\U000e007f\u231a\ufe0f\U000e0061\U000e007f\u2602\U000e0062",
    "\U0001f469\u200d\u2764\u200d\U0001f468\u200d\ufe0f\u200d\U0001f1e6\ufe0f\U0001f1e7",
    "plain ASCII of more than thirty-two bytes, then 1\ufe0e\u20e3 and more plain ASCII",
    "\u4e2d\u6587\u0430\u0431\u00a9\u00ae#*0\u23f8\ufe0f",
]
UNFINISHED = [bytes.fromhex(rest) for rest in "c2 e0a0 e180 ed80 ee80 f090 f180 f480 f09080 f18080 f48080".split()]
# The token `a` of a text, and the byte of a room that is more than four times as much as wanted.
TOKEN_A = 6
FAR_MORE = 253
MORE = [more.replace("s", "\ufe0f") for more in ("s", "ss", "sa", "sss", "ssa", "\ufe10", "\uff01", "s\ufe10", "s\uff01", "ss\uff01")]
DAMAGED = [b"a\xe2\x9d", b"\xff\xc0\x80\xed\xa0\x80", b"\xf4\x90\x80\x80a\x80", b"1\xef\xb8\x8e\xf0\x9f"]


def missing():
    """A line for each thing that is needed and not there."""
    for tool, package in (("clang", "clang"), ("cargo", "cargo"), ("ar", "binutils"), ("nm", "binutils")):
        if shutil.which(tool) is None:
            yield f"{tool} is missing: Debian's package {package}"
    if shutil.which("rt") is None:
        yield 'rt is missing (README.md, "What it needs")'
    if shutil.which("clang") is not None and not pathlib.Path(runtime()).is_file():
        yield f"libFuzzer is missing, {runtime()}: Debian's package libclang-rt-{version()}-dev"


def runtime():
    """Where clang looks for libFuzzer."""
    named = subprocess.run(
        ["clang", f"--print-file-name=libclang_rt.fuzzer-{platform.machine()}.a"], capture_output=True, text=True, check=True
    )
    path = pathlib.Path(named.stdout.strip())
    if path.is_absolute():
        return path
    folder = subprocess.run(["clang", "--print-resource-dir"], capture_output=True, text=True, check=True)
    return pathlib.Path(folder.stdout.strip()) / "lib" / "linux" / path


def version():
    """The major version of clang."""
    printed = subprocess.run(["clang", "-dumpversion"], capture_output=True, text=True, check=True)
    return printed.stdout.split(".")[0]


def first_inputs():
    """Inputs to begin with: texts, sheets, feeds and stores, and calls on them, with drawn bytes."""
    drawn = random.Random(1)

    def step(name, *after):
        if not after and name not in ALONE:
            after = [drawn.choice((0, drawn.randrange(256))) for _ in range(FOLLOWING)]
        return bytes([STEPS[name], *after])

    def text(of):
        of = of if isinstance(of, bytes) else of.encode()
        return step("text_of_bytes", len(of), *of)

    def file(client, number):
        return step("store_file", 0, 0, 0, client, number, 0, 0, 0)

    def release(client, number):
        return step("store_release", 0, client, number)

    def piece(size):
        return step("feed_piece", 0, 4 * size, 0, 0, 0, 0, 0)

    def feed(of):
        return step("feed_piece", 0, 2, len(of), *of, 0, 0, 0, 0, 0)

    change = step("feed_policy", 0, 0, 0, 0, 0, 0)
    end = step("feed_end", 0, 0, 0, 0, 0)
    for name in CALLS:
        yield step(name)
    for of in TEXTS + DAMAGED:
        for name in ON_TEXTS:
            yield text(of) + step("flip_membership", 0, 1, 0) + step(name) + step(name)
        for place in range(0, len(of), 3):
            yield text(of) + step("around", 0, 0, 0x80 + place, 0xC2, drawn.randrange(256), drawn.randrange(256), 0, 0)
            yield text(of) + step("around", 0, 0, 0x80 + place, 0xC2, 13, 0, 0, 0)
        mends = [step("mend", 0, 0, item, 0, 0, 0, 0) for item in range(8)]
        yield text(of) + b"".join(mend + step("text_of_last") for mend in mends)
        fed = b"".join(map(piece, (1, 2, 3, 5, 8, 13, 60)))
        yield text(of) + fed + end + step("feed_totals")
        yield text(of) + fed[:16] + step("full_sets", 6) + change + fed + step("feed_totals") + end + fed[:8]
        yield text(of) + file(0, 7) + file(1, 7) + release(1, 7) + file(1, 7) + file(0, 7) + release(0, 7) + release(0, 7)
    for of in SHEETS:
        yield text(of) + step("read_sheet", 0, 0, 0) + step("policy_of_last") + step("write_sheet") + text(TEXTS[0]) + step("format")
    # Bytes of an unfinished character that are spoiled, so that none begins so.
    for rest in UNFINISHED:
        for place in range(len(rest)):
            yield feed(rest) + step("spoil_feed", 0, 40 + place, 0, 0x20) + end
    # A feed after a change of its policy: an unused bit in each set of the policy in force, and selectors after a character that was
    # unfinished when the policy changed.
    full = step("full_sets", 6)
    for place in (383, 431, 479, 527):
        spoiled = feed("\u2764".encode()) + full + change + step("spoil_feed", 0, place % 256, place // 256, 0x80)
        # A call that is refused reads no byte for the totals.
        yield spoiled + feed(b"a")[:-1] + change[:-1] + step("feed_totals", 0, 0, 0) + end[:-1]
    for rest, after in ((b"\xe2\x9d", b"\xa4"), (b"\xe4\xb8", b"\xad")):
        for more in MORE:
            yield feed(b"1") + feed(rest) + full + change + feed(after + more.encode()) + end
    # The same where the base that is held is spoiled: then none is held.
    for more in MORE:
        yield feed(b"1") + full + change + step("spoil_feed", 0, 8, 0, 0) + feed(more.encode())[:-1] + end
    # Long stretches without a finding, and far more room than the text needs.
    for length in (24, 64, 100, 128, 200):
        stretch = step("add_run", TOKEN_A, length)
        yield stretch + 2 * (step("add_bytes", 3, *"\u2764".encode()) + stretch) + step("format", 0, 0, FAR_MORE, 0)
    # A policy with an unused bit and another version.
    yield step("flip_membership", 0, 0x7F, 1) + step("other_version", 0) + change
    # A client's reserve, where the common part is taken; reserves that pass 2^64 together.
    yield text(b"a" * 20) + file(1, 0) + text(b"a" * 10) + file(0, 0) + release(0, 0) + release(1, 0)
    yield step("store_begin", 0, 40, 2, 0xF0, 5, 0, 0, 0)


def unpack():
    """Writes the stored inputs and the first ones to the folder of inputs."""
    CORPUS.mkdir(parents=True, exist_ok=True)
    lines = STORED.read_text().split() if STORED.exists() else []
    for data in [*map(bytes.fromhex, lines), *first_inputs()]:
        (CORPUS / hashlib.sha1(data).hexdigest()).write_bytes(data)


def pack(folder):
    """Writes the inputs of a folder as the stored ones: one in each line, the short ones first."""
    inputs = sorted({path.read_bytes() for path in folder.iterdir()}, key=lambda data: (len(data), data))
    STORED.write_text("".join(data.hex() + "\n" for data in inputs if data))
    return len(inputs), STORED.stat().st_size


def toolchain_with_own_clang(kit, saved):
    """Makes a folder of links to the kit's toolchain, but for its clang: this one copies the bitcode that it is handed. None if the kit
    has no such clang."""
    real = kit / "toolchain" / "bin" / "clang"
    if not real.is_file():
        return None
    folder = FOLDER / "toolchain"
    shutil.rmtree(folder, ignore_errors=True)
    place, inner = folder, kit / "toolchain"
    for name in ("bin", "clang"):
        place.mkdir(parents=True)
        for path in inner.iterdir():
            if path.name != name:
                (place / path.name).symlink_to(path)
        place, inner = place / name, inner / name
    place.write_text(f'#!/bin/sh\nfor word; do case $word in *.bc) cp "$word" "{saved}" ;; esac; done\nexec "{real}" "$@"\n')
    place.chmod(0o755)
    return folder


def library():
    """The folder of the library with counters. It is made anew if the proved library is another. None if it cannot be made."""
    folder, saved = FOLDER / "library", FOLDER / "library.bc"
    note = folder / "made-from"
    if LIBRARY.is_file() and note.is_file() and note.read_text() == digest(LIBRARY):
        return folder
    kit = static_library.kit()
    FOLDER.mkdir(parents=True, exist_ok=True)
    if static_library.make(ROOT, after_ci=False):
        raise subprocess.CalledProcessError(1, "rt lib")
    toolchain = toolchain_with_own_clang(kit, saved)
    if toolchain is None:
        return None
    # The same build again over the same proved libraries, by that clang. The archive that comes of it is not used.
    saved.unlink(missing_ok=True)
    words = static_library.build_words(ROOT, kit, toolchain, FOLDER / "unused.a")
    subprocess.run(words, cwd=ROOT / "crates" / static_library.CRATE, check=True, stdout=subprocess.DEVNULL)
    if not saved.is_file():
        return None
    shutil.rmtree(folder, ignore_errors=True)
    folder.mkdir()
    clang = kit / "toolchain" / "bin" / "clang"
    words = [f"--target={TRIPLE}", "-march=x86-64", "--no-default-config", "-ffunction-sections", "-fdata-sections", "-fPIC", "-O3"]
    words += ["-mllvm", "-trap-unreachable", COUNTERS, "-c", "-x", "ir", str(saved), "-o", "tilghorz.o"]
    subprocess.run([clang, *words], cwd=folder, check=True)
    subprocess.run(["ar", "rcs", "libtilghorz.a", "tilghorz.o"], cwd=folder, check=True)
    note.write_text(digest(LIBRARY))
    return folder


def digest(path):
    """The digest of a file."""
    return hashlib.sha256(path.read_bytes()).hexdigest()


def build():
    """Builds the fuzzer."""
    environment = dict(os.environ)
    environment["RUSTFLAGS"] = " ".join(f"-C {word}" for word in RUST_COUNTERS)
    folder = library()
    if folder is None:
        print("fuzz: the kit's clang was not found; the library has no counters, only the Rust code has", file=sys.stderr)
        folder = LIBRARY.parent
    environment["TILGHORZ_LIBRARY"] = str(folder)
    target = FOLDER / "build"
    words = ["--offline", "--quiet", "--release", "--package", "fuzz", "--target", TRIPLE, "--target-dir", str(target)]
    subprocess.run(["cargo", "build", *words], cwd=ROOT / "host", env=environment, check=True)
    subprocess.run(["clang", "-fsanitize=fuzzer", archive(), "-o", FUZZER, "-lpthread", "-ldl", "-lm"], check=True)


def archive():
    """The compiled target with the library."""
    return FOLDER / "build" / TRIPLE / "release" / "libfuzz.a"


def surroundings(fault):
    """The variables of the fuzzer. The names of functions in a trace take it seconds, and a difference says more."""
    return dict(os.environ, TILGHORZ_FAULT=fault or "", UBSAN_OPTIONS="symbolize=0")


def run(words, fault=None):
    """Runs the fuzzer with these words, and gives the exit status: 1 if something was found."""
    environment = surroundings(fault)
    found = pathlib.Path(tempfile.mkdtemp(prefix="found-", dir=FOLDER))
    prefix = f"-artifact_prefix={found}/"
    status = subprocess.run([FUZZER, *FUZZER_OPTIONS, prefix, *words], env=environment, check=False).returncode
    paths = sorted(found.iterdir())
    for path in paths if status else ():
        print(f"fuzz: found, the input is {path.relative_to(ROOT)}")
    if not paths:
        found.rmdir()
    return 1 if status else 0


def faults():
    """The names of the planted faults."""
    return re.findall(r'\("([a-z-]+)", Fault::', FAULTS.read_text())


def keep():
    """Writes the stored inputs anew. The fuzzer runs a folder's inputs from the shortest on, and writes the first that shows a fault to
    the folder of the inputs that are kept."""
    least = FOLDER / "least"
    shutil.rmtree(least, ignore_errors=True)
    least.mkdir()
    if run(["-set_cover_merge=1", "-use_counters=0", str(least), str(CORPUS)]):
        return 1
    for fault in faults():
        for folder in (least, CORPUS):
            words = [FUZZER, *FUZZER_OPTIONS, "-runs=0", f"-artifact_prefix={least}/", str(folder)]
            if subprocess.run(words, env=surroundings(fault), check=False, capture_output=True).returncode:
                break
        else:
            print(f"fuzz: no input shows the fault {fault}")
    print("fuzz: {} inputs, {} bytes".format(*pack(least)))
    return 0


def symbols(path):
    """The functions of a compiled file: where each begins, how long it is, and its name."""
    listed = subprocess.run(["nm", "--defined-only", "--print-size", path], capture_output=True, text=True, check=True).stdout
    for line in listed.splitlines():
        found = re.fullmatch(r"([0-9a-f]+) ([0-9a-f]+) [tT] (.+)", line)
        if found and not found[3].startswith("sancov."):
            yield int(found[1], 16), int(found[2], 16), found[3]


def tally(functions, names, lines):
    """For each function of these names, the branches that were reached and all. A line has the place of a branch, and 1 or 0."""
    functions = sorted(functions)
    starts = [start for start, _, _ in functions]
    tallied = {}
    for line in lines:
        place, reached = line.split()
        place = int(place, 16)
        start, size, name = functions[max(bisect.bisect(starts, place) - 1, 0)]
        if name in names and start <= place < start + size:
            before = tallied.get(name, (0, 0))
            tallied[name] = (before[0] + int(reached), before[1] + 1)
    return tallied


def branches():
    """Prints which branches of the library the stored inputs reach."""
    compiled = FOLDER / "library" / "tilghorz.o"
    if not compiled.is_file():
        print("fuzz: the library has no counters", file=sys.stderr)
        return 2
    program = FOLDER / "branches"
    subprocess.run(["clang", "-O1", "-pie", "-fPIE", DRIVER, archive(), "-o", program, "-lpthread", "-ldl", "-lm"], check=True)
    with tempfile.TemporaryDirectory(dir=FOLDER) as folder:
        paths = []
        for data in map(bytes.fromhex, STORED.read_text().split()):
            paths.append(pathlib.Path(folder, str(len(paths))))
            paths[-1].write_bytes(data)
        printed = subprocess.run([program, *paths], env=surroundings(None), capture_output=True, text=True, check=True).stdout
    tallied = tally(symbols(program), {name for _, _, name in symbols(compiled)}, printed.splitlines())
    for name, (reached, count) in sorted(tallied.items()):
        print(f"{reached:5} of {count:5}  {name}")
    for what, is_of in (("the C functions", True), ("the inner functions", False)):
        of = [numbers for name, numbers in tallied.items() if name.startswith("tilghorz_") == is_of]
        print(f"fuzz: {what}, {len(of)}: {sum(n for n, _ in of)} of {sum(n for _, n in of)} branches are reached")
    return 0


def arguments(words):
    """What the script is asked to do."""
    parser = argparse.ArgumentParser(usage="tools/fuzz.py [SECONDS] [--fault NAME] | replay FILE | keep | branches")
    parser.add_argument("what", nargs="?", default=str(SECONDS))
    parser.add_argument("file", nargs="?")
    parser.add_argument("--fault")
    asked = parser.parse_args(words)
    if asked.what not in ("replay", "keep", "branches") and not asked.what.isdigit():
        parser.error(f"{asked.what}: not a number of seconds")
    if (asked.what == "replay") != (asked.file is not None):
        parser.error("replay has a file, and nothing else has one")
    return asked


def main(words):
    """Does what the words ask, and gives the exit status."""
    asked = arguments(words)
    lacks = list(missing())
    for line in lacks:
        print(f"fuzz: {line}", file=sys.stderr)
    if lacks:
        return 2
    try:
        build()
    except (subprocess.CalledProcessError, OSError) as error:
        print(f"fuzz: the fuzzer was not built: {error}", file=sys.stderr)
        return 2
    if asked.what == "replay":
        return run([asked.file], asked.fault)
    if asked.what == "branches":
        return branches()
    unpack()
    if asked.what == "keep":
        return keep()
    return run([f"-max_total_time={asked.what}", "-print_final_stats=1", str(CORPUS)], asked.fault)


if __name__ == "__main__":
    sys.exit(main(sys.argv[1:]))
