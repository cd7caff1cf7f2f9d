#!/usr/bin/env python3
"""Rows of calls and answers: python3 rows.py PROGRAM [WORD..]

PROGRAM is git_settings; with words behind it, it is a Git from 2.46 on that answers the same rows: rows.py git config.
They are in rows.tsv, a row a line, whose fields are between tabs and have Python's escapes:

  the arguments, as a shell splits them; the exit status; the standard output, or * for any; what standard error has to
  say, in pieces between bars; and what is in the folder in which the program runs:

    NAME=TEXT      a file; of the name `-` standard input
    NAME>TEXT      a file after the run
    $NAME=TEXT     a variable                    @folder NAME  a folder
    @link NAME TO  a link                        @git NAME REF  a git directory whose HEAD has this text
    @in NAME       the program runs there        @NAME          all that the line `= NAME` of rows.tsv has

<F> is the folder. No row leaves a lock, and with status 0 nothing is said that the row does not name. A line that begins
with `#` is a comment, and one with `=` names things that several rows have. A row that begins with `!` is not asked of
Git, nor what stands behind `~` in what is said. The last line is 'N passed, M failed'. Without PROGRAM it says
`skipped`, and nothing has passed.
"""
import concurrent.futures
import os
import pathlib
import shlex
import shutil
import subprocess
import sys
import tempfile

ROWS = pathlib.Path(__file__).with_name("rows.tsv")
LONGEST_RUN = 60


def unescaped(field):
    """The bytes of a field."""
    return field.encode().decode("unicode_escape").encode("latin-1")


def read():
    """The rows, each as its number and its fields, with the things of its names in place of these."""
    known = {}
    for number, line in enumerate(ROWS.read_text("utf-8").split("\n"), 1):
        if line[:1] in ("", "#"):
            continue
        words, *fields = line.split("\t")
        if words.startswith("= "):
            known["@" + words[2:]] = fields
            continue
        status, output, told, *things = fields
        yield number, words, int(status), output, told, [one for it in things for one in known.get(it, [it])]


class Place:
    """The folder of a row, and what is asked in it."""

    def __init__(self, folder):
        self.folder = os.fsencode(os.path.realpath(folder))
        self.inside, self.after, self.input = self.folder, {}, b""
        self.known = {b"PATH": os.environb[b"PATH"], b"LC_ALL": b"C", b"GIT_CONFIG_NOSYSTEM": b"1",
                      b"GIT_CEILING_DIRECTORIES": os.path.dirname(self.folder)}

    def bytes(self, field):
        return unescaped(field).replace(b"<F>", self.folder)

    def path(self, name):
        """The name of a file, whose folder is there."""
        path = os.path.join(self.folder, name)
        os.makedirs(os.path.dirname(path), exist_ok=True)
        return path

    def write(self, name, text):
        with open(self.path(name), "wb") as file:
            file.write(text)

    def make(self, thing):
        """Makes a thing of a row, or keeps what the run has to leave."""
        thing = self.bytes(thing)
        word, _, rest = thing.partition(b" ")
        name, _, text = thing.partition(b"=")
        first, _, second = rest.partition(b" ")
        if word == b"@folder":
            os.makedirs(self.path(rest))
        elif word == b"@link":
            os.symlink(second, self.path(first))
        elif word == b"@git":
            for part in (b"objects", b"refs"):
                os.makedirs(self.path(os.path.join(first, part)))
            self.write(os.path.join(first, b"HEAD"), second)
        elif word == b"@in":
            self.inside = os.path.join(self.folder, rest)
            os.makedirs(self.inside, exist_ok=True)
        elif thing.startswith(b"$"):
            self.known[name[1:]] = text
        elif b">" in name:
            name, _, text = thing.partition(b">")
            self.after[name] = text
        elif name == b"-":
            self.input = text
        else:
            self.write(name, text)

    def locks(self):
        return [name for _, _, names in os.walk(self.folder) for name in names if name.endswith(b".lock")]


def faults(program, row):
    """What a row wants otherwise than it is."""
    number, words, status, output, told, things = row
    with tempfile.TemporaryDirectory() as folder:
        place = Place(folder)
        for thing in things:
            place.make(thing)
        asked = shlex.split(os.fsdecode(place.bytes(words.lstrip("! "))))
        run = subprocess.run([*program, *asked], cwd=place.inside, env=place.known, input=place.input,
                             capture_output=True, timeout=LONGEST_RUN, check=False)
        pairs = [("status", status, run.returncode), ("locks", [], place.locks())]
        pairs += [("output", place.bytes(output), run.stdout)] if output != "*" else []
        pairs += [("what is said", b"", run.stderr)] if status == 0 and not told else []
        pieces = place.bytes("" if told.startswith("~") and program[1:] else told.lstrip("~")).split(b"|")
        pairs += [(f"what is said of {piece!r}", True, piece in run.stderr) for piece in pieces]
        for name, text in place.after.items():
            pairs.append((name, text, pathlib.Path(os.fsdecode(place.path(name))).read_bytes()))
        return [f"line {number}, {words}: {what}: wanted {wanted!r}, got {came!r}, {run.stderr!r}"
                for what, wanted, came in pairs if wanted != came]


def main():
    if len(sys.argv) < 2:
        sys.exit(__doc__)
    found = shutil.which(sys.argv[1])
    if found is None:
        print(f"skipped: the rows, since there is no {sys.argv[1]}\n0 passed, 0 failed")
        return 0
    program = [os.path.abspath(found), *sys.argv[2:]]
    rows = [row for row in read() if not (row[1].startswith("!") and program[1:])]
    with concurrent.futures.ThreadPoolExecutor() as pool:
        wrong = [found for found in pool.map(lambda row: faults(program, row), rows) if found]
    for found in wrong:
        print(*found, sep="\n")
    print(f"{len(rows) - len(wrong)} passed, {len(wrong)} failed")
    return 1 if wrong or not rows else 0


if __name__ == "__main__":
    sys.exit(main())
