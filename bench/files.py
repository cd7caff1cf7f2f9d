"""Measures reading and checking files: python3 files.py GIT_SETTINGS CONFIG_CHECK [--runs N] [--prefix PREFIX]
[--package FOLDER] [--also NAME=COMMAND].. [--places]

The programs are compared with `git config --list -z`, of the file alone and as the user's file, plain C that makes no
entries (entries.c), libgit2 if it is installed, pygit2 if Python has it, and for the small file dulwich. PREFIX has the
library for C, which is measured too (walk.c), and a lookup in it, and FOLDER has the Python package, as pip's --target
makes it. A COMMAND gets the name of the file: it is another program that reads it. The processor time is the least of
the runs, made in turn; it includes a program's start, which is that of Python too, and its output. The last column has
it as a part of that of Git with the file alone. A second table has calls of Git and of git_settings, which get the same
words, and a third one calls in the places of places.py, where the library for C and the Python package read the same;
with --places there is only that one. If git_settings does not print what Git prints, the status is 1.
"""
import argparse
import contextlib
import importlib.util
import os
import pathlib
import shlex
import shutil
import subprocess
import sys
import tempfile
from unittest import mock

from compare import HERE, head, load, run
from places import OF_REPOSITORY, PLACES, branches
from program import system_calls, usage

SECTION = """[branch "topic-%06d"]
\tremote = origin
\tmerge = refs/heads/topic ; "a comment"
\tdescription = "one \\"quoted\\" word" # and another
\trebase = true
"""
ENTRIES = SECTION.count(" = ")
SIZES = [100_000, 2_000_000]
MILLION = 1_000_000
# programs of Python: the name of each, the module that it needs, and what it does
PYTHON = [("dulwich", "dulwich", """
import sys
from dulwich.config import ConfigFile
file = ConfigFile.from_path(sys.argv[1])
sum(1 for section in file.sections() for _ in file.items(section))
"""), ("pygit2", "pygit2", """
import sys, pygit2
sum(1 for _ in pygit2.Config(sys.argv[1]))
"""), ("the Python package", "gix_config_value", """
import sys, gix_config_value
sum(1 for _ in gix_config_value.read(sys.argv[1]).entries)
""")]
# the same of a file, or else of what Git reads in the current folder
READS = """
import sys, gix_config_value as it
(it.read if sys.argv[1:] else it.read_repository)(*sys.argv[1:])
"""


# what is read: the front of a file, a line that follows it so often, with its number, and the words of a call
CALLS = [
    ("the last of 1,000,000 entries", "[s]\n", "\tk%d = v\n", MILLION, "--get s.k999999"),
    ("1,000,000 entries", "[s]\n", "\tk%d = v\n", MILLION, "--list"),
    ("the values of one key", "[s]\n", "\tk = v\n", MILLION, "--get-all s.k"),
    ("keys by a pattern", "[s]\n", "\tk%d = v\n", MILLION, "--get-regexp ^s.k9999.9$"),
    ("500,000 sections", "", "[s%d]\n\tk = v\n", MILLION // 2, "--list"),
    ("500,000 URLs", "", '[http "https://h/%d"]\n\tproxy = p\n', MILLION // 2,
     "--get-urlmatch http.proxy https://h/7/x"),
    ("1,000,000 blank lines", "", "\n", MILLION, "--list"),
    ("1,000,000 comments", "", "# a comment\n", MILLION, "--list"),
    ("300,000 entries below comments", "[s]\n", "# a comment\n\n\tk%d = v ; why\n", 300_000, "--list"),
    ("1,000 keys below a name of 1,000,000 bytes", f'[s "{"x" * MILLION}"]\n', "\tk%d = v\n", 1000, "--list"),
]


def listed(*command):
    """What a command lists, as parts that a NUL ends."""
    return subprocess.run(command, stdout=subprocess.PIPE, check=True).stdout.split(b"\0")


def walks(folder, prefix):
    """The programs of walk.c that can be built, by their names."""
    found = {"libgit2": ["-DLIBGIT2", "-lgit2"]}
    if prefix:
        found["the library for C"] = [f"-I{prefix}/include", f"{prefix}/lib/libgix_config_value.a"]
    for name, words in found.items():
        program = f"{folder}/{name.replace(' ', '_')}"
        command = [*shlex.split(os.environ.get("CC", "cc")), "-O2", HERE / "walk.c", *words, "-o", program]
        if subprocess.run(command, stderr=subprocess.DEVNULL, check=False).returncode == 0:
            yield name, program


def commands(arguments, folder, file):
    yield "`git config --list -z`", (shutil.which("git"), "config", "--file", file, "--list", "-z")
    yield "`git_settings list -z`", (arguments.git_settings, "list", "--file", file, "-z")
    yield "the same with `--show-origin`", (arguments.git_settings, "list", "--file", file, "-z", "--show-origin")
    yield "Git, as the user's file", ("/usr/bin/env", f"GIT_CONFIG_GLOBAL={file}", "git", "config", "--list", "-z")
    yield "`config_check`", (arguments.config_check, file)
    yield "plain C", (f"{folder}/entries", file)
    for name, program in walks(folder, arguments.prefix):
        yield name, (program, file)
    for name, module, code in PYTHON:
        if importlib.util.find_spec(module):
            yield name, (sys.executable, "-c", code, file)
    for also in arguments.also:
        name, _, command = also.partition("=")
        yield name, (*shlex.split(command), file)


def least(measuring, asked, runs):
    """For each command the least seconds and the least memory of the runs, which are taken in turn."""
    turns = [[usage(measuring, *it) for it in asked] for _ in range(runs)]
    return [tuple(map(min, zip(*of_one))) for of_one in zip(*turns)]


def rows(measuring, asked, file, arguments):
    """For each size and program the least milliseconds, how many entries that is in a second, and the part of Git's."""
    for size, asked in zip(SIZES, (asked, [it for it in asked if it[0] != "dulwich"])):
        text = "".join(SECTION % number for number in range(size // ENTRIES))
        pathlib.Path(file).write_text(text, encoding="utf-8")
        git, same, with_origins = (listed(*command) for _, command in asked[:3])
        if same != git or with_origins[1::2] != git[:-1]:
            sys.exit("a list of git_settings is not Git's")
        taken = least(measuring, [command for _, command in asked], arguments.runs)
        for (name, _), (seconds, _) in zip(asked, taken):
            what = f"{size:,} entries, {len(text) / 1e6:.0f} MB"
            yield what, name, f"{seconds * 1000:.0f}", f"{size / seconds / 1e6:.2f}", f"{seconds / taken[0][0]:.2f}"


def both(git_settings, words):
    """The commands of Git and of git_settings with these words, after a look whether they print the same."""
    asked = [shutil.which("git"), "config", *words], [git_settings, *words]
    printed = [subprocess.run(it, stdout=subprocess.PIPE, check=True).stdout for it in asked]
    if printed[0] != printed[1]:
        sys.exit(f"git_settings does not print what Git prints: {words}")
    return asked


def call(measuring, git_settings, words, runs):
    """The least milliseconds and the memory of Git and of git_settings, and the part of Git's time."""
    (git, most), (own, memory) = least(measuring, both(git_settings, words), runs)
    return f"{git * 1000:.2f}", f"{own * 1000:.2f}", f"{own / git:.2f}", f"{most / 1024:.0f}", f"{memory / 1024:.0f}"


def calls(measuring, arguments, folder):
    """For each call what is read, the call, and what it takes."""
    for name, front, line, count, words in CALLS:
        with open(f"{folder}/config", "w", encoding="utf-8") as text:
            text.write(front)
            text.writelines(line % number if "%" in line else line for number in range(count))
        words = ["--file", f"{folder}/config", *words.split()]
        yield name, f"`{words[2]}`", *call(measuring, arguments.git_settings, words, arguments.runs)
    run("git", "init", "--quiet", f"{folder}/repository")
    with contextlib.chdir(f"{folder}/repository"):
        yield "a new repository", "`--get`", *call(measuring, arguments.git_settings, OF_REPOSITORY, 100)


def traces(git_settings, folder):
    """How often Git and git_settings call the system for a key of a repository."""
    with contextlib.chdir(f"{folder}/repository"):
        return [system_calls(it) for it in both(git_settings, OF_REPOSITORY)]


def lookups(folder, prefix, file, runs):
    """How long a lookup takes in the large file, in each library, and what it finds."""
    key = f"branch.topic-{SIZES[0] // ENTRIES // 2:06}.description"
    for name, program in walks(folder, prefix):
        said = [subprocess.run([program, file, key], stdout=subprocess.PIPE, check=True).stdout for _ in range(runs)]
        told = [it.decode().split(maxsplit=1) for it in said]
        yield name, min(float(nanoseconds) for nanoseconds, _ in told), told[0][1].strip()


def by_file(home, count):
    """A repository with this many branches, of whose file alone is asked."""
    asked, folder, known = branches(home, count)
    return ["--file", ".git/config", *asked], folder, known


def searches(measuring, arguments, folder):
    """For each place and program the least milliseconds, and the part of Git's time."""
    library = dict(walks(folder, arguments.prefix)).get("the library for C")
    for number, (name, _, size, make) in enumerate([*PLACES, ("branches, by `--file`", 0, 4_000, by_file)]):
        home = pathlib.Path(folder, f"home{number}")
        home.mkdir()
        words, place, known = make(home, size)
        file = words[1:-2]  # the name behind --file, if it is there
        with contextlib.chdir(place), mock.patch.dict(os.environ, known):
            names = (f"`{program} {' '.join(words)}`" for program in ("git config", "git_settings"))
            asked = dict(zip(names, both(arguments.git_settings, words)))
            if library:
                asked["the library for C"] = [library, *file]
            if importlib.util.find_spec("gix_config_value"):
                asked["the Python package"] = [sys.executable, "-c", READS, *file]
            taken = least(measuring, asked.values(), arguments.runs)
        for program, (seconds, _) in zip(asked, taken):
            yield f"{size:,} {name}", program, f"{seconds * 1000:.2f}", f"{seconds / taken[0][0]:.2f}"


def table(headings, cells):
    """The lines of a table, whose headings have bars between them."""
    yield f"| {headings} |"
    yield "|" + "---|" * len(headings.split("|"))
    yield from ("| " + " | ".join(row) + " |" for row in cells)


def elsewhere(measuring, arguments, folder):
    """The lines of all that is measured outside of the places."""
    file = f"{folder}/config"
    measured = rows(measuring, list(commands(arguments, folder, file)), file, arguments)
    yield from table("File | Program | Processor time, ms | Million entries in a second | Of Git's time", measured)
    found = list(lookups(folder, arguments.prefix, file, arguments.runs))
    headings = "What is read | Call | Git, ms | git_settings, ms | Of Git's time | Git, MB | git_settings, MB"
    yield from ["", *table(headings, calls(measuring, arguments, folder))]
    of_git, own = traces(arguments.git_settings, folder)
    yield f"\nFor the key of the new repository Git calls the system {of_git} times, and git_settings {own}."
    for name, nanoseconds, value in found:
        yield f"\nA lookup among {SIZES[-1]:,} entries by {name}: {nanoseconds:.0f} ns, {value}"
    yield ""


def main():
    arguments = argparse.ArgumentParser()
    arguments.add_argument("git_settings", type=os.path.abspath)
    arguments.add_argument("config_check", type=os.path.abspath)
    arguments.add_argument("--prefix", type=os.path.abspath)
    arguments.add_argument("--package", type=os.path.abspath)
    arguments.add_argument("--also", action="append", default=[])
    arguments.add_argument("--runs", type=int, default=5)
    arguments.add_argument("--places", action="store_true")
    arguments = arguments.parse_args()
    if arguments.package:
        sys.path.insert(0, arguments.package)
        os.environ["PYTHONPATH"] = arguments.package
    before = load()
    with tempfile.TemporaryDirectory() as folder:
        for name in ("usage", "entries"):
            run(*shlex.split(os.environ.get("CC", "cc")), "-O2", HERE / f"{name}.c", "-o", f"{folder}/{name}")
        measured = [] if arguments.places else list(elsewhere(f"{folder}/usage", arguments, folder))
        found = searches(f"{folder}/usage", arguments, folder)
        measured += table("Place | Program | Processor time, ms | Of Git's time", found)
    print(head(before), *measured, sep="\n")


if __name__ == "__main__":
    main()
