#!/usr/bin/env python3
"""Formats a big export by several workers, and says how fast it was. It is run by hand; the gate does not need it.

    tools/parallel_run.py FOLDER [--bytes N] [--parts N] [--jobs N] [--engine parallel|xargs] [--command FILE]

FOLDER must not be there. It gets an export of N bytes of chat with emoji (1 GiB), which is cut into parts (128). An engine formats
the parts by several workers at a time, one for each processor: GNU parallel, or `xargs -P` if GNU parallel is not installed. The
parts joined must be what `format --parts` makes of the whole export. Then the export is formatted by `format --parts` with one
thread and with several. The commands are those of README.md. The command is host/target/release/tilghorz-host.

It prints for each step the time, the bytes of the export a second, and how many processors were busy; then what a terabyte costs at
this speed, and what limits it. The folder stays, so that the parts can be looked at.
"""

import argparse
import os
import pathlib
import random
import resource
import shlex
import shutil
import subprocess
import sys
import time

ROOT = pathlib.Path(__file__).resolve().parent.parent
COMMAND = ROOT / "host" / "target" / "release" / "tilghorz-host"
GIBIBYTE = 1 << 30
TERABYTE = 10**12
# A share of the processors above which they are what limits the speed.
BUSY = 0.8
WORDS = "the of to and you in it that was for on are with as they be at one have this from or had by hot but some what there".split()
# Some with their selector, some without; among them a keycap, a flag, one with a modifier, and one with links.
EMOJI = (
    *("\u2764", "\u2764\ufe0f", "\u263a", "\u263a\ufe0f", "\u00a9", "\u231a\ufe0f", "1\u20e3", "\U0001f600", "\U0001f44d"),
    *("\U0001f44d\U0001f3fd", "\U0001f1eb\U0001f1f7", "\U0001f468\u200d\U0001f469\u200d\U0001f467"),
)


def chat(length, seed=1):
    """A chat with emoji of at most this many bytes, and not much less. About one word in six is an emoji."""
    draw = random.Random(seed)
    lines, left = [], length
    while left > 0:
        words = [draw.choice(WORDS) if draw.random() < 5 / 6 else draw.choice(EMOJI) for _ in range(draw.randint(3, 20))]
        line = f"[{draw.randint(0, 23):02}:{draw.randint(0, 59):02}] {' '.join(words)}\n".encode()
        left -= len(line)
        if left >= 0:
            lines.append(line)
    return b"".join(lines)


def make_export(path, length):
    """An export of exactly this many bytes: one text again and again, and blanks at the end."""
    text = chat(min(length, 1 << 24))
    with open(path, "wb") as file:
        for _ in range(length // len(text) if text else 0):
            file.write(text)
        file.write(b" " * (length - file.tell()))


class Step:
    """What a command took."""

    def __init__(self, name, seconds, busy, length):
        self.name, self.seconds, self.busy, self.length = name, seconds, busy, length

    @property
    def speed(self):
        """Bytes a second."""
        return self.length / self.seconds

    def line(self):
        return f"{self.name:28} {self.seconds:8.2f} s {self.speed / 1e6:8.0f} MB/s {self.busy / self.seconds:6.2f} processors busy"


def run(name, command, folder, length):
    """Runs a command of the shell in a folder, and gives what it took. It ends the script if the command fails."""
    before, start = resource.getrusage(resource.RUSAGE_CHILDREN), time.monotonic()
    done = subprocess.run(["bash", "-c", f"set -o pipefail; {command}"], cwd=folder, check=False)
    seconds, after = time.monotonic() - start, resource.getrusage(resource.RUSAGE_CHILDREN)
    if done.returncode != 0:
        raise SystemExit(f"{name}: it failed with the status {done.returncode}, and there is no result")
    step = Step(name, seconds, after.ru_utime + after.ru_stime - before.ru_utime - before.ru_stime, length)
    print(step.line(), flush=True)
    return step


def engine_command(engine, command, jobs):
    """The command that formats the parts and joins them to the file `formatted`. If one worker fails there is no such file."""
    command = shlex.quote(str(command))
    if engine == "parallel":
        work = f"parallel --jobs {jobs} --keep-order --halt now,fail=1 {command} format --jobs 1 ::: parts/part-*"
        return f"{work} > formatted.tmp && mv formatted.tmp formatted"
    one = f'{command} format --jobs 1 "$0" > "$0.new" || exit 255'
    work = f"printf '%s\\0' parts/part-* | xargs -0 -n 1 -P {jobs} sh -c {shlex.quote(one)}"
    return f"{work} && cat parts/*.new > formatted.tmp && rm parts/*.new && mv formatted.tmp formatted"


def conclusion(step, written, jobs, processors):
    """What a terabyte costs at the speed of a step, and what limits it. The other step wrote and synced a copy."""
    hours = TERABYTE / step.speed / 3600
    own = TERABYTE / step.length * step.busy / 3600
    share = step.busy / step.seconds / min(jobs, processors)
    limit = "the processors" if share >= BUSY else "reading and writing, or other work on this machine"
    is_slower = "slower: with results that do not fit in memory, the disk limits it" if written.speed < step.speed else "not slower"
    return [
        f"a terabyte at the speed of `{step.name}`: {hours:.2f} hours on this machine, {own:.2f} hours of a processor",
        f"the {min(jobs, processors)} processors were busy for {share:.0%} of the time, so what limits it is {limit}",
        f"a copy was written and synced at {written.speed / 1e6:.0f} MB/s, which is {is_slower}",
    ]


def arguments(words):
    processors = os.cpu_count() or 1
    parser = argparse.ArgumentParser(description="Formats a big export by several workers, and says how fast it was.")
    parser.add_argument("folder", type=pathlib.Path)
    parser.add_argument("--bytes", type=int, default=GIBIBYTE)
    parser.add_argument("--parts", type=int, default=128)
    parser.add_argument("--jobs", type=int, default=processors)
    parser.add_argument("--engine", choices=("parallel", "xargs"), default="parallel" if shutil.which("parallel") else "xargs")
    parser.add_argument("--command", type=pathlib.Path, default=COMMAND)
    return parser.parse_args(words)


def main(words):
    asked = arguments(words)
    command, jobs, length = asked.command.resolve(), asked.jobs, asked.bytes
    asked.folder.mkdir()
    print(f"{length} bytes in {asked.parts} parts, {jobs} workers by {asked.engine}, {os.cpu_count()} processors, "
          f"load {os.getloadavg()[0]:.1f}", flush=True)
    make_export(asked.folder / "export.txt", length)
    own = shlex.quote(str(command))
    run("read", "cat export.txt > /dev/null", asked.folder, length)
    written = run("write and sync", "cp export.txt copy && sync copy && rm copy", asked.folder, length)
    run("split", f"{own} split --parts {asked.parts} parts export.txt > parts.txt", asked.folder, length)
    step = run(f"format by {asked.engine}", engine_command(asked.engine, command, jobs), asked.folder, length)
    run("compare", f"{own} format --parts export.txt | cmp - formatted", asked.folder, length)
    for threads in sorted({1, jobs}):
        run(f"format --parts --jobs {threads}", f"{own} format --parts --jobs {threads} export.txt > /dev/null", asked.folder, length)
    print(*conclusion(step, written, jobs, os.cpu_count() or 1), sep="\n")
    return 0


if __name__ == "__main__":
    sys.exit(main(sys.argv[1:]))
