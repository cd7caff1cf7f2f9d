"""Asks programs that answer each line of their input by a line, also the Rust crate's, which bench/upstream builds."""
import argparse
import os
import pathlib
import subprocess
import sys
import tempfile

ROOT = pathlib.Path(__file__).resolve().parent.parent


class Wrong(Exception):
    """A program did not end as it should, or it is not built."""


class Missing(Exception):
    """There is nothing here to compare with."""


def counted(compare):
    """Compares, prints what passed and what failed, and returns the exit status."""
    passed = failed = 0
    try:
        passed, failed = compare()
    except Missing as missing:
        print(f"skipped: {missing}")
    except Wrong as wrong:
        print(wrong)
        failed = 1
    print(f"{passed} passed, {failed} failed")
    return 1 if failed else 0


def compared(compare, **numbers):
    """Compares the program, the Python package and the C library with a Git, as the arguments say, in a folder of its
    own. Each of the numbers is an option too, and its default. Returns the exit status."""
    arguments = argparse.ArgumentParser()
    arguments.add_argument("program", nargs="?")
    arguments.add_argument("--git", default="git")
    arguments.add_argument("--python")
    arguments.add_argument("--c")
    for name, number in numbers.items():
        arguments.add_argument(f"--{name}", type=int, default=number)
    arguments = arguments.parse_args()
    if not (arguments.program or arguments.python or arguments.c):
        sys.exit("neither a program nor a package")
    with tempfile.TemporaryDirectory() as folder:
        return counted(lambda: compare(arguments, pathlib.Path(os.path.realpath(folder))))


def report(comparison, told, shown):
    """Prints the counts and the first faults, in the form `told`, and returns what passed and what failed. A class that
    is expected has to be seen."""
    for name, count in comparison.counts.items():
        print(f"{count:>7,} {name}")
    for fault in comparison.faults[:shown]:
        print(told.format(*fault))
    missing = [name for name in comparison.expected if not comparison.counts[name]]
    for name in missing:
        print(f"not seen: {name}")
    return comparison.counts.total(), len(comparison.faults) + len(missing)


def answers(command, lines):
    """Returns one answer for each line. Lines and answers are without their LF."""
    data = b"".join(line + b"\n" for line in lines)
    run = subprocess.run([str(word) for word in command], input=data, stdout=subprocess.PIPE, check=False)
    given = run.stdout.split(b"\n")
    if given.pop() != b"" or len(given) != len(lines) or run.returncode not in (0, 1):
        raise Wrong(f"{command[0]} ended with status {run.returncode} after {len(given)} answers to {len(lines)} lines")
    return given


def rust_crate():
    """Builds the program over the Rust crate, and returns its path."""
    build = [sys.executable, ROOT / "bench/upstream/build.py"]
    run = subprocess.run(build, stdout=subprocess.PIPE, text=True, check=False)
    said = run.stdout.strip()
    if said.startswith("skipped: "):
        raise Missing(said.removeprefix("skipped: "))
    if run.returncode != 0:
        raise Wrong(said)
    return pathlib.Path(said) / "upstream"
