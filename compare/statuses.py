#!/usr/bin/env python3
"""The exit status of the built program: python3 statuses.py PROGRAM. It is 0 if each line has a value, 1 if some
line has no value, and 2 if the input cannot be read, the output cannot be written, or an argument is neither --help nor
--version. The last line is 'N passed, M failed'."""
import os
import pathlib
import subprocess
import sys

FULL = pathlib.Path("/dev/full")
# the input, its answers, and the status that these give
ANSWERED = [
    ("no line", b"", b"", 0),
    ("a line with a value", b"integer 0x10k\n", b"ok 16k\n", 0),
    ("two lines with values", b"boolean yes\ninteger 1", b"ok true\nok 1\n", 0),
    ("a line without a value", b"integer 08\n", b"refused\n", 1),
    ("a line of no kind", b"number 1\n", b"unknown kind\n", 1),
    ("a value after a refusal", b"integer 08\ninteger 1\n", b"refused\nok 1\n", 1),
]
# an argument, how the output begins, and the status
ARGUMENTS = [("--help", b"Answers each line", 0), ("--version", b"config_value ", 0), ("--list", b"", 2), ("", b"", 2),
             ("get", b"", 2), ("--version" * 9, b"", 2)]
# a line with a value and one without: if the answer cannot be written, that alone decides the status
UNWRITTEN = [b"integer 1\n", b"integer 08\n"]


def status(program, given, output):
    return subprocess.run([program], input=given, stdout=output, check=False).returncode


def closed_pipe():
    """The writing end of a pipe that nothing reads."""
    reader, writer = os.pipe()
    os.close(reader)
    return writer


def rows(program):
    """What was tried, its result, and the wanted result."""
    for name, given, answers, wanted in ANSWERED:
        run = subprocess.run([program], input=given, stdout=subprocess.PIPE, check=False)
        yield name, (run.returncode, run.stdout), (wanted, answers)
    for argument, begin, wanted in ARGUMENTS:
        run = subprocess.run([program, argument], input=b"integer 1\n", capture_output=True, check=False)
        came = run.stdout[:len(begin)] if begin else run.stdout, run.returncode, run.stderr.count(b"\n")
        yield f"the argument {argument!r}", came, (begin, wanted, int(wanted == 2))
    shell = ["sh", "-c", 'exec "$0" <&-', program]
    yield "a closed input", subprocess.run(shell, check=False).returncode, 2
    folder = os.open(".", os.O_RDONLY)
    yield "a directory as input", subprocess.run([program], stdin=folder, check=False).returncode, 2
    os.close(folder)
    for given in UNWRITTEN:
        shell = ["sh", "-c", 'exec "$0" >&-', program]
        run = subprocess.run(shell, input=given, check=False)
        yield f"a closed output, {given!r}", run.returncode, 2
        writer = closed_pipe()
        yield f"a pipe that nothing reads, {given!r}", status(program, given, writer), 2
        os.close(writer)
        if FULL.exists():
            with FULL.open("wb") as full:
                yield f"a full device, {given!r}", status(program, given, full), 2
        else:
            print(f"skipped: a full device, {given!r}, since there is no {FULL}")


def main():
    program = os.path.abspath(sys.argv[1])
    passed = failed = 0
    for name, given, wanted in rows(program):
        if given == wanted:
            passed += 1
        else:
            failed += 1
            print(f"{name}: wanted {wanted!r}, got {given!r}")
    print(f"{passed} passed, {failed} failed")
    return 1 if failed else 0


if __name__ == "__main__":
    sys.exit(main())
