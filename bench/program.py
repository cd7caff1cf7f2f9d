"""Measures builds of config_value and the Rust crate's program: python3 program.py PROGRAM.. [--runs N].

`rt ci` leaves the builds of both compilers, as out/config_value and out/config_value.by-rattle. The processor time is
the least of the runs, which are taken in turn, and the ratio is the median of the runs' ratios to the Rust crate's
program. If the Rust crate cannot be had it says `skipped` and why. If answers differ, the status is 1.
"""
import argparse
import os
import pathlib
import re
import shlex
import shutil
import statistics
import subprocess
import sys
import tempfile

from compare import HERE, build, head, load, run

# a line of each kind, and one that is refused
KINDS = [
    b"suffix K", b"integer -010m", b"amount 7k", b"boolean Yes",
    b"name #F1b", b"attribute no-dim", b"color red ul blue", b"boolean maybe",
]
# the name of an input, and the lines that it has so often
INPUTS = [
    ("1,000,000 short lines", b"integer 0x10k\n", 1_000_000),
    ("1,000,000 lines of every kind", b"\n".join([*KINDS, b""]), 1_000_000 // len(KINDS)),
    ("one line of 50 MB, zeros", b"integer 0x" + b"0" * 50_000_000 + b"7\n", 1),
    ("one line of 50 MB, `ul `", b"color " + b"ul " * 16_000_000 + b"\n", 1),
]


def answers(program, file):
    with open(file, "rb") as given:
        return subprocess.run([program], stdin=given, stdout=subprocess.PIPE, check=False).stdout


def usage(measuring, *command, file=os.devnull):
    """The seconds of processor time of a run, and its peak memory in KiB."""
    with open(file, "rb") as given:
        command = [measuring, *command]
        ran = subprocess.run(command, stdin=given, stdout=subprocess.DEVNULL, stderr=subprocess.PIPE, check=True)
    seconds, memory, status = ran.stderr.decode().splitlines()[-1].split()
    if status not in ("0", "1"):
        sys.exit(f"{command[1]} ended with status {status}")
    return float(seconds), int(memory)


def system_calls(command, file=os.devnull, only="all"):
    """How often a program calls the system, or `-` if strace is not there or may not trace."""
    if not shutil.which("strace"):
        return "-"
    with open(file, "rb") as given, tempfile.NamedTemporaryFile() as trace:
        traced = ["strace", "-f", "-qq", "-e", f"trace={only}", "-o", trace.name, *command]
        quiet = subprocess.DEVNULL
        ran = subprocess.run(traced, stdin=given, stdout=quiet, stderr=quiet, check=False)
        count = len(re.findall(rb"^\d+ +\w+\(", trace.read(), re.MULTILINE))
    return f"{count:,}" if ran.returncode in (0, 1) else "-"


def rows(measuring, programs, file, runs):
    """For each program its least milliseconds, the median of its ratios to the first one, its writes and its peak."""
    measured = [[usage(measuring, program, file=file) for program in programs] for _ in range(runs)]
    for place, program in enumerate(programs):
        times = [runs_of[place][0] for runs_of in measured]
        ratios = [runs_of[place][0] / max(runs_of[0][0], 1e-6) for runs_of in measured]
        peak = max(runs_of[place][1] for runs_of in measured) / 1024
        written = system_calls([program], file, "write,writev")
        yield f"{min(times) * 1000:.1f}", f"{statistics.median(ratios):.2f}", written, f"{peak:.1f}"


def main():
    arguments = argparse.ArgumentParser()
    arguments.add_argument("program", nargs="+")
    arguments.add_argument("--runs", type=int, default=9)
    arguments = arguments.parse_args()
    crate = build.built()
    programs = [str(crate / "upstream"), *(os.path.abspath(program) for program in arguments.program)]
    names = ["the Rust crate", *(pathlib.Path(program).name for program in arguments.program)]
    before, table = load(), []
    with tempfile.TemporaryDirectory() as folder:
        measuring, file = f"{folder}/usage", f"{folder}/input"
        run(*shlex.split(os.environ.get("CC", "cc")), "-O2", HERE / "usage.c", "-o", measuring)
        for what, part, times in INPUTS:
            pathlib.Path(file).write_bytes(part * times)
            wanted = answers(programs[0], file)
            for name, program in zip(names, programs):
                if answers(program, file) != wanted:
                    sys.exit(f"{what}: the answers of {name} are not those of the Rust crate")
            table += [(what, name, *row) for name, row in zip(names, rows(measuring, programs, file, arguments.runs))]
    print(head(before))
    print("| Input | Program | Processor time, ms | To the Rust crate | Calls of `write` | Peak memory, MiB |")
    print("|---|---|---|---|---|---|")
    for row in table:
        print("| " + " | ".join(row) + " |")
    return 0


if __name__ == "__main__":
    sys.exit(main())
