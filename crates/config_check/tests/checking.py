"""What all tests use: it runs the program, says how a run has to end, and counts what passed."""
import collections
import itertools
import json
import os
import pathlib
import re
import subprocess

import plain_reader

SECONDS = 120
FAULTS_SHOWN = 10
BYTES_SHOWN = 300
CANNOT = b"config_check: cannot "
UNREAD = b"config_check: -: "

# how a run of the program ended: its status, standard output and standard error
Ended = collections.namedtuple("Ended", "status output errors")
NO_END = Ended(f"no end after {SECONDS} seconds", b"", b"")


class Program:
    """The program under test, and a folder for the files of settings that it is given."""

    def __init__(self, path, folder):
        self.path = os.path.abspath(path)
        self.folder = pathlib.Path(folder)
        self.numbers = itertools.count()

    def settings(self, text):
        """Writes a new file of settings, and returns its name."""
        file = self.folder / f"settings-{next(self.numbers)}"
        file.write_bytes(text)
        return str(file)

    def run(self, arguments, data=None, **how):
        """Runs the program on the data, and returns how it ended; `how` goes to subprocess.run."""
        return run([self.path, *arguments], data, **how)


def run(command, data=None, **how):
    """Runs a command, and returns how it ended."""
    if data is not None:
        how["input"] = data
    for end in ("stdout", "stderr"):
        how.setdefault(end, subprocess.PIPE)
    try:
        process = subprocess.run(command, timeout=SECONDS, check=False, **how)
    except subprocess.TimeoutExpired:
        return NO_END
    return Ended(process.returncode, process.stdout, process.stderr)


def summary(counts):
    """The line with the numbers of entries, judged entries, unknown keys and findings."""
    entries, judged, unknown, findings = counts
    return b"config_check: %d entr%s, %d judged, %d unknown key%s, %d finding%s\n" % (
        entries, b"y" if entries == 1 else b"ies", judged, unknown, b"" if unknown == 1 else b"s",
        findings, b"" if findings == 1 else b"s")


UNREAD_LINE = re.compile(rb"^(.*:[0-9]+):[0-9]+(: error: (?:Git cannot read this line, and reads nothing of the file|a NUL byte"
                         rb" outside a comment))(?:: .*)? \[invalid-line\]$", re.MULTILINE)


def without_cause(came):
    """The run, without the column, the cause and the code of a line that Git cannot read."""
    return came._replace(output=UNREAD_LINE.sub(rb"\1\2", came.output))


def ended(output, counts):
    """How a run on files that can be read has to end."""
    return Ended(1 if output else 0, output, summary(counts))


def by_plain_reader(rows, data, canonical=False):
    """How a run on standard input has to end, according to the plain reader."""
    return ended(*plain_reader.findings(rows, data, canonical))


def read_json(output):
    """The members, in order, of the JSON objects on the lines, but for what mends them, which mending.py asks about; None
    if the lines are not JSON objects."""
    *lines, rest = output.split(b"\n")
    try:
        return None if rest else [[one for one in json.loads(line, object_pairs_hook=list) if one[0] != "fix"] for line in lines]
    except ValueError:
        return None


def expect_texts(group, program, how, texts, found):
    """Expects these findings and counts of each text, as for standard input, from one run that has a file for each."""
    names = [program.settings(text) for text in texts]
    output = b"".join(re.sub(rb"(?m)^-:", name.encode() + b":", lines) for name, (lines, _) in zip(names, found))
    wanted = ended(output, tuple(map(sum, zip(*(counts for _, counts in found)))))

    def alone():
        for text, one in zip(texts, found):
            group.expect((how[2:-1], text), ended(*one), without_cause(program.run(how, text)))

    group.expect_all(len(texts), wanted, without_cause(program.run([*how[:-1], *names])), alone)


def expect_json_of_texts(group, program, how, texts, lines):
    """Expects these findings of each text as JSON, from one run that has a file for each."""
    names = [program.settings(text) for text in texts]
    came = program.run(["--format", "json", *how[:-1], *names])
    objects = [one for name, found in zip(names, lines) for one in plain_reader.as_json(found, name)]

    def alone():
        for text, found in zip(texts, lines):
            expect_json(group, program, how, text, plain_reader.as_json(found))

    group.expect_all(len(texts), *as_json(objects, came), alone)


def expect_json(group, program, how, data, objects):
    """Expects these objects as lines of JSON, with their members in the order of the names."""
    came = program.run(["--format", "json", *how], data)
    group.expect((how, data, "json"), *as_json(objects, came))


def as_json(objects, came):
    """The status and the objects that are wanted, and those that came, with the members in the order of their names."""
    found = read_json(came.output)
    for one, wanted in zip(found or [], objects):
        if wanted["key"] is None:
            # where and why Git cannot read a line is tested by itself
            at = dict(one)
            wanted["column"] = at["column"]
            wanted["reason"] += at["reason"].removeprefix(wanted["reason"])
    return (int(bool(objects)), [sorted(one.items()) for one in objects]), (came.status, found)


def arguments(settings, canonical=False):
    """The arguments for a file of settings and standard input."""
    return ["--settings", settings, *(["--canonical"] if canonical else []), "-"]


def with_errors_cut(came, beginning):
    """The run, with its errors cut to the length of `beginning` if they are one line."""
    is_line = came.errors.count(b"\n") == 1 and came.errors.endswith(b"\n")
    return came._replace(errors=came.errors[:len(beginning)]) if is_line else came


def brief(thing):
    said = repr(thing)
    return said if len(said) <= BYTES_SHOWN else f"{said[:BYTES_SHOWN]}.. ({len(said)} characters)"


def first_difference(wanted, came):
    """The first lines in which two texts differ, one of each text."""
    pairs = itertools.zip_longest(wanted.splitlines(True), came.splitlines(True), fillvalue=b"")
    return next(((one, other) for one, other in pairs if one != other), (wanted, came))


def described(wanted, came):
    """What was wanted, and what came instead."""
    if not (isinstance(wanted, Ended) and isinstance(came, Ended)):
        return f"    wanted {brief(wanted)}\n    came   {brief(came)}"
    lines = []
    for name, one, other in zip(Ended._fields, wanted, came):
        if one != other and isinstance(one, bytes) and isinstance(other, bytes):
            one, other = first_difference(one, other)
        if one != other:
            lines.append(f"    {name}: wanted {brief(one)}\n    {name}: came   {brief(other)}")
    return "\n".join(lines)


class Group:
    """A group of tests, with the numbers of tests that passed and that failed."""

    def __init__(self, name):
        self.name = name
        self.passed = 0
        self.failed = 0
        self.notes = []

    def expect(self, given, wanted, came):
        """Counts one test, and returns whether it passed."""
        if wanted == came:
            self.passed += 1
            return True
        self.failed += 1
        if self.failed <= FAULTS_SHOWN:
            print(f"{self.name}: {brief(given)}\n{described(wanted, came)}")
        return False

    def expect_all(self, count, wanted, came, alone):
        """Counts this many tests that one run has made. If it ended otherwise, `alone` makes each of them by itself."""
        before = self.failed
        if wanted == came:
            self.passed += count
            return
        alone()
        if self.failed == before:
            self.expect(f"{count} in one run", wanted, came)

    def skip(self, what, why):
        print(f"skipped: {what} of {self.name}, since {why}")

    def report(self):
        notes = "".join(f"; {note}" for note in self.notes)
        print(f"{self.name}: {self.passed} passed, {self.failed} failed{notes}", flush=True)
