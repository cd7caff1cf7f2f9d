"""Measures how the time of the programs grows with their input.

python3 growth.py CONFIG_VALUE GIT_SETTINGS CONFIG_CHECK [--runs N] [--places]

Each input is measured in turn at its size and at twice that size. The result is the least processor time of all runs,
minus that of an empty input. A ratio near 2 says that the time grows as the input does. A long line takes less time
than the start of a process, so its input repeats it as often as the table says.

The rows of includes double the number of the files that a file includes. In the rows after them the name of a section
and the number of its keys, or the pattern of a condition and the name of the branch, are doubled both: a ratio near 4
says that the time grows as their product. The last rows are of git_settings in the places of
places.py, and with --places there are no others.
"""
import argparse
import functools
import os
import pathlib
import subprocess
import sys
import tempfile

from places import PLACES, alone, including, repository


class Given:
    """What a run is given besides its standard input: arguments, a folder, and variables."""

    words, folder, known = [], None, {}

    def begin(self):
        """Makes all as it was before a run."""
        self.file.seek(0)


class Lines(Given):
    """Lines on standard input."""

    def __init__(self, data):
        self.file = tempfile.TemporaryFile()
        self.file.write(data)
        self.file.flush()


class Unknown(Lines):
    """A file with this many keys that no row of `config_check` has, in one section."""

    words = ["-q", "-"]

    def __init__(self, header, size):
        super().__init__(header + b"".join(b"\tkey%d = 1\n" % number for number in range(size)))


class Condition(Given):
    """A file in a repository, with a condition on its branch."""

    def __init__(self, pattern, branch):
        self.made, self.file = tempfile.TemporaryDirectory(), tempfile.TemporaryFile()
        self.words, self.folder = ["list", "--file", "config", "--includes"], self.made.name
        repository(pathlib.Path(self.folder), branch)
        pathlib.Path(self.folder, "config").write_text(f'[includeIf "onbranch:{pattern}"]path=none\n', "ascii")


class Tables(Condition):
    """The same with a branch that the first of many tables names. The others, which are one file, have no HEAD."""

    def __init__(self, count):
        super().__init__("main", ".invalid")
        folder = pathlib.Path(self.folder, ".git/reftable")
        folder.mkdir()
        for file, name in ("h", b"HEAD"), ("t", b"Head"):
            record = b"\0\x23" + name + b"\0\x0frefs/heads/main"
            block = b"r" + (24 + 4 + len(record) + 5).to_bytes(3, "big") + record + b"\0\0\x1c\0\1"
            (folder / file).write_bytes(b"REFT\1\0\x10\0" + bytes(16) + block)
        (folder / "tables.list").write_text("h\n" + "t\n" * count, "ascii")


class Includes(Given):
    """A file that includes this many files, each with as many entries."""

    def __init__(self, count, entries):
        self.made, self.file = tempfile.TemporaryDirectory(), tempfile.TemporaryFile()
        self.words, self.folder = ["list", "--file", "config", "--includes"], self.made.name
        text = including(pathlib.Path(self.folder), count, entries)
        pathlib.Path(self.folder, "config").write_text(text, "ascii")


class Urls(Given):
    """A file with settings of this many URLs, and the one that is asked about."""

    def __init__(self, count):
        self.made, self.file = tempfile.TemporaryDirectory(), tempfile.TemporaryFile()
        self.words, self.folder = ["get", "--file", "config", "--url=http://h/7/x", "http.proxy"], self.made.name
        text = "".join(f'[http "http://h/{number}"]\n\tproxy = p\n' for number in range(count))
        pathlib.Path(self.folder, "config").write_text(text, "ascii")


class Section(Given):
    """A file with this many keys in a section whose name has as many letters, and the key that is asked for."""

    def __init__(self, size):
        self.made, self.file = tempfile.TemporaryDirectory(), tempfile.TemporaryFile()
        self.words, self.folder = ["get", "--file", "config", "s" * size + ".k"], self.made.name
        pathlib.Path(self.folder, "config").write_text(f"[{'s' * size}]\n" + "k\n" * size, "ascii")


class Edit(Given):
    """A file with this many entries, of which a word of the program edits one, those of a key, or the section of all."""

    def __init__(self, size, *words, key="k{}"):
        self.made, self.file = tempfile.TemporaryDirectory(), tempfile.TemporaryFile()
        self.words, self.folder = [words[0], "--file", "config", *words[1:]], self.made.name
        self.text = "[s]\n" + "".join(f"\t{key.format(number)} = v # c\n" for number in range(size))

    def begin(self):
        pathlib.Path(self.folder, "config").write_text(self.text, "ascii")


class Mended(Given):
    """A file with this many entries, of which one of a hundred has a misspelled key, and what is done with it."""

    def __init__(self, count, *words):
        self.made, self.file = tempfile.TemporaryDirectory(), tempfile.TemporaryFile()
        self.words, self.folder = ["-q", *words, "config"], self.made.name
        right = "\tdescription = a b\n" * 99
        self.text = "".join(f'[branch "b{number}"]\n\tremot = x\n{right}' for number in range(count // 100))

    def begin(self):
        pathlib.Path(self.folder, "config").write_text(self.text, "ascii")


class Parameters(Given):
    """The settings of a command in one variable, in which the system lets there be 128 KiB."""

    def __init__(self, count):
        self.made, self.file = tempfile.TemporaryDirectory(), tempfile.TemporaryFile()
        self.words, self.folder = ["list"], self.made.name
        self.known = alone(self.folder, GIT_CONFIG_PARAMETERS=" ".join(["'a.b=1'"] * count))


class Searched(Given):
    """A place of places.py."""

    def __init__(self, make, size):
        self.made, self.file = tempfile.TemporaryDirectory(), tempfile.TemporaryFile()
        self.words, self.folder, self.known = make(pathlib.Path(self.made.name), size)


def often(times, front, repeated, back=b""):
    """Makes this many lines, in each of which a part is repeated."""
    return lambda size: Lines((front + repeated * size + back + b"\n") * times)


def lines(*texts):
    """Makes as many lines as the size says, from these texts in turn."""
    return lambda size: Lines(b"".join(text + b"\n" for text in texts) * (size // len(texts)))


# for each program the name of an input, its size, and what makes the input of a size
LINES = [
    ("digits `9`, refused (100 lines)", 100_000, often(100, b"integer ", b"9")),
    ("zeros, then `7` (100 lines)", 100_000, often(100, b"integer -0", b"0", b"7")),
    ("zeros of a boolean (100 lines)", 100_000, often(100, b"boolean 0b", b"0")),
    ("zeros of a name (100 lines)", 100_000, often(100, b"name +", b"0", b"9")),
    ("`ul ` words (10 lines)", 100_000, often(10, b"color ", b"ul ")),
    ("words, mixed (10 lines)", 100_000, often(10, b"color ", b"RESET no-ul\t", b"7 #fff")),
    ("white space U+3000 (10 lines)", 100_000, often(10, b"color ", b"\xe3\x80\x80", b"red")),
    ("a name of no kind (100 lines)", 100_000, often(100, b"", b"i")),
    ("short lines", 100_000, lines(b"integer 0x10k")),
    ("lines of five kinds", 100_000, lines(b"suffix K", b"integer -010m", b"boolean Yes", b"name #F1b",
                                           b"color red ul blue")),
    ("one line of 25 and 50 MB, digits", 25_000_000, lambda size: Lines(b"integer " + b"9" * size + b"\n")),
    ("one line of 25 and 50 MB, zeros", 25_000_000, lambda size: Lines(b"integer 0x" + b"0" * size + b"7\n")),
    ("one line of 25 and 50 MB, `ul `", 25_000_000, lambda size: Lines(b"color " + b"ul " * (size // 3) + b"\n")),
]
SETTINGS = [
    ("settings of `git -c`", 8_000, Parameters),
    ("tables of references", 10_000, Tables),
    ("included files of 100 entries", 400, lambda size: Includes(size, 100)),
    ("included files of one entry", 3_000, lambda size: Includes(size, 1)),
    ("settings of URLs, for one of which is asked", 100_000, Urls),
    ("keys of a section with a long name", 10_000, Section),
    ("keys, one of them set", 100_000, lambda size: Edit(size, "set", "s.k9", "new")),
    ("keys, one put behind them", 100_000, lambda size: Edit(size, "set", "s.new", "v")),
    ("keys, one of them unset", 100_000, lambda size: Edit(size, "unset", "s.k9")),
    ("entries of a key, unset by their value", 100_000,
     lambda size: Edit(size, "unset", "--all", "--value=v", "s.k", key="k")),
    ("keys, their section renamed", 100_000, lambda size: Edit(size, "rename-section", "s", "t")),
    ("keys, their section removed", 100_000, lambda size: Edit(size, "remove-section", "s")),
    ("`*a` for each letter", 50_000, lambda size: Condition("*a" * size, "a" * size)),
    ("`*a` for each letter, then `b`", 50_000, lambda size: Condition("*a" * size + "b", "a" * size)),
    ("`*`, half the letters, `b`", 5_000, lambda size: Condition("*" + "a" * (size // 2) + "b", "a" * size)),
    ("`**/`, half the names, `b`", 5_000, lambda size: Condition("**/" + "a/" * (size // 2) + "b", "a/" * size + "a")),
    ("`**/a/` for each name, then `b`", 5_000, lambda size: Condition("**/a/" * size + "b", "a/" * size + "a")),
    ("`*` and a set of `[:` that is not closed", 2_000, lambda size: Condition("*[" + "[:" * size, "a" * size)),
]
CHECKED = [
    ("unknown keys of a section near one of Git", 500_000, functools.partial(Unknown, b"[coer]\n")),
    ("unknown keys of `core`", 100_000, functools.partial(Unknown, b"[core]\n")),
    ("unknown slots of `color.status`", 100_000, functools.partial(Unknown, b'[color "status"]\n')),
    ("entries, one of 100 misspelled", 100_000, Mended),
    ("the same, all renamed by `--fix`", 100_000, lambda size: Mended(size, "--fix")),
]
SEARCHES = [(name, size, functools.partial(Searched, make)) for name, size, _, make in PLACES]


def seconds(program, given):
    """The processor time of one run, user and system."""
    given.begin()
    command, known = [program, *given.words], {**os.environ, **given.known}
    process = subprocess.Popen(command, cwd=given.folder, env=known, stdin=given.file, stdout=subprocess.DEVNULL)
    _, status, usage = os.wait4(process.pid, 0)
    process.returncode = os.waitstatus_to_exitcode(status)
    if process.returncode not in (0, 1):
        sys.exit(f"the program ended with status {process.returncode}")
    return usage.ru_utime + usage.ru_stime


def measure(program, empty, inputs, runs):
    """Prints a row for each input."""
    nothing = min(seconds(program, empty) for _ in range(50))
    for what, size, made in inputs:
        once, twice = made(size), made(2 * size)
        least = [float("inf"), float("inf")]
        for _ in range(runs):
            least[0] = min(least[0], seconds(program, once))
            least[1] = min(least[1], seconds(program, twice))
        first, second = (1000 * max(taken - nothing, 1e-6) for taken in least)
        print(f"| {what} | {size:,} | {first:.2f} | {2 * size:,} | {second:.2f} | {second / first:.2f} |", flush=True)


def main():
    arguments = argparse.ArgumentParser()
    for name in ("config_value", "git_settings", "config_check"):
        arguments.add_argument(name, type=os.path.abspath)
    arguments.add_argument("--runs", type=int, default=15)
    arguments.add_argument("--places", action="store_true")
    arguments = arguments.parse_args()
    print("| Input | Size | ms | Twice | ms | Ratio |")
    print("|---|---|---|---|---|---|")
    if not arguments.places:
        measure(arguments.config_value, Lines(b""), LINES, arguments.runs)
        measure(arguments.git_settings, Includes(0, 0), SETTINGS, arguments.runs)
        measure(arguments.config_check, Unknown(b"", 0), CHECKED, arguments.runs)
    measure(arguments.git_settings, Includes(0, 0), SEARCHES, arguments.runs)


if __name__ == "__main__":
    main()
