"""Compares how configuration files are read, by the built program and by a Git: the installed one, or that of --git.

python3 config_file.py PROGRAM [--seed N] [--files N] [--short] [--trees N] [--patterns N] [--seconds N]
                       [--git COMMAND]
python3 config_file.py --reader WORDS [--seed N] [--trees N] [--git COMMAND]

PROGRAM is git_settings. It and Git have to give the same entries in the same order, to refuse a file at the same line
after the same entries, and to tell the same line of the first entry whose value is not a color.

The files are those of config_files.txt, as many random changes of them as --files says, as many files of values with
TABs and CRs, and as many of the short texts, which are all texts of up to 4 bytes of LETTERS; with --short all of these
are taken.

Then both follow includes: in the folders of includes.txt, in as many as --trees says of random files that include each
other, in the repositories of STARS, and in as many folders as --patterns says, whose file has PATTERNS random
conditions on a git directory and a branch with a random name. In a repository of STARS the program may take --seconds
of a processor.

WORDS call a reader that lists a file as `git config -l --includes --null --show-origin --file` does, with Git's
words where it stops, and only follows includes in the folders of includes.txt and in random ones. It lists nothing of
what it refuses.

A difference has to belong to a class of classes.OF_FILES that is expected in the version of this Git, and each class
that is expected has to be seen. Where white space does not cut a color in Git, Git may tell an earlier line. The run is
the same for the same seed and numbers. The last line is 'N passed, M failed'. Without such a Git it says `skipped` and
why, and nothing has passed.
"""
import argparse
import collections
import concurrent.futures
import itertools
import os
import pathlib
import random
import re
import resource
import shlex
import subprocess
import sys
import tempfile

import readers
from classes import BLANK, FOREIGN, NUL, OF_FILES, is_expected
from programs import Wrong, counted, report

ROWS = pathlib.Path(__file__).with_name("config_files.txt")
TREES = ROWS.with_name("includes.txt")
LETTERS = [bytes([byte]) for byte in b'[]"\\=#;\n\r \ta1.-']
LONGEST = 4
PIECES = [*LETTERS, b"\r\n", b"\\\n", b"\\\r\n", b'\\"', b"\\\\", b"\\n", b"\\t", b"\\b", b"\\x", b"\0", b"\v", b"\f",
          b"\xef\xbb\xbf", b"\xff", "ü".encode(), b"A", b"b", b"_", b"[a]", b'[a "b"]', b"[a.b]\n", b"k = v\n", b"k\n",
          b'"x y"', b" # c\n", b" ; c\n", b'"#"', b"= ", b"\n\n", b"  ", b"red", b"true", b"a\tb", b" \t ", b"x\r y",
          b"a \t\\\n b"]
VALUES = [*[b"\t", b"\r", b" \t\r", b"a", b"b c"] * 4, b'"', b'"\t"', b"\\\n", b" \t\\\n", b"\\t", b"\\n", b"#", b";",
          b"\n", b"\n k =", b"\n[c]\rd\t=\t", b"\r\n", b'\\"', b"=", b"\xff"]
LONG = rb'''# one of each
[core]
	repositoryformatversion = 0
	bare = false ; not bare
	editor = "vim -c \"set tw=72\"" # quoted
[remote "Origin/\"x\\y"]
	url = https://example.com/a.git
	fetch = +refs/heads/*:refs/remotes/origin/*
[Branch.Main]	rebase
	description = a \
   b\tc
[alias] st = status -sb
	lg = "!f() { git log; }; f" # c
'''
BATCH = 500
SHOWN = 20
REFUSED = 128
# how Git tells a line at which it stops, how the program tells that of an include, and how both tell a chain too long
REFUSAL = re.compile(rb"^fatal: (?:bad config line (\d+) in file (.+?)|(.+?):(\d+))(?:: .*)?$", re.MULTILINE)
DEEP = re.compile(rb"exceeded maximum include depth|too deep")
TOO_DEEP = "too deep"
PATTERNS = 150
NAMES = [*"aabAB1-[]!^*?:,_~", " ", "\\", "/", "/", "\u00e9"]
PARTS = [" ", *r"""a b A B 1 - ! ^ : , _ ? * / ] \ é ** /**/ **/ /** [ [] [! [^ [a-c] [!a] [A-Z] [a- []-a] [\]] [--9]
         [a-\c] [/] \* \A \[ [:alpha:] [[: :] :]] [[:upper:]a]""".split(), *(
             f"[{no}[:{name}:]]" for no in ("", "!") for name in
             "alnum alpha blank cntrl digit graph lower print punct space upper xdigit word ALPHA".split())]
# the files of a random folder, and what their entries and includes are drawn from
FILES = ["p", "h", "s", "d/q", "d/e/r"]
ENTRIES = ["[a]k=1\n", "[a]\n\tk\n", '[A "B c"]K = "x y" ; z\n', "k=2\n", "[a.b]k=\\\n 3\n", "# c\n", "\r\n", "[a]k="]
SECTIONS = ["include", "include", "Include", "includeIf", 'include "x"', 'includeIf "no"', 'includeIf "gitdir:./"', *(
    f'includeIf "{kind}:{pattern}"' for kind, patterns in {
        "gitdir": ("R/", "**/R/.git", "~/", "/", "./d/"), "gitdir/i": ("r/", "./.GIT"),
        "onbranch": ("main", "ma*", "m/", "**")}.items() for pattern in patterns)]
PATHS = ["h", "s", "p", "d/q", "d/e/r", "q", "e/r", "../h", "../s", "../../h", "./s", "l", "d/l", "~/q", "no", '"h" ; c',
         "~no-such-user/h"]
STARRED = ["*a", "*a", "*b", "a*", "?*", "**", "*/", "**/", "/**/", "*[ab]", "*ab", "a"]
LONGEST_RUN = 60
# a work tree, the text of its branch and of the URL of a remote, a condition that is slow if each star is tried again
# at all its places, whether it holds, and the first Git that says so at once; Git knows no branch of 60,000 bytes
Star = collections.namedtuple("Star", "tree text condition holds since")
STARS = [Star(*row) for row in [
    ("R", "a" * 100, "onbranch:" + "*a" * 5 + "*ab", False, (2, 30)),
    ("R", "a" * 200, "onbranch:" + "*a" * 4 + "*ab", False, (2, 30)),
    ("R", "a" * 200, "onbranch:" + "*a" * 50, True, (2, 30)),
    ("R", "a" * 100, "onbranch:**/" + "a*" * 5 + "ab", False, (2, 30)),
    ("R", "a" * 100, "onbranch:*[" + "[:" * 2000, False, (2, 30)),
    ("a" * 100, "main", "gitdir:" + "*a" * 6 + "b/.git", False, (2, 41)),
    ("R", "a" * 60_000, "hasconfig:remote.*.url:" + "*a" * 60_000, True, None),
]]

# the words by which a file is listed with what it includes
LIST = ["-l", "--includes", "--null", "--show-origin", "--file"]
# what a reader gives: keys and values (None for a key alone), and the line of the refusal, or None
Answer = collections.namedtuple("Answer", "entries refused")


def entry(data):
    key, found, value = data.partition(b"\n")
    return key, value if found else None


def refusal(told):
    """The file and the line at which a reader stops, or None."""
    match = REFUSAL.search(told)
    return match and (match[2] or match[3], int(match[1] or match[4]))


class Reader:
    """A program with the words of `git config`, asked for one file in a call."""

    def __init__(self, words, folder):
        self.words, self.folder = words, folder

    def run(self, name, *words):
        known = {"PATH": os.environ["PATH"], "LC_ALL": "C", "GIT_CONFIG_NOSYSTEM": "1"}
        command = [*self.words, "--file", name, *words]
        return subprocess.run(command, env=known, cwd=self.folder, capture_output=True, check=False)

    def answer(self, name):
        run = self.run(name, "-l", "--null")
        *parts, rest = run.stdout.split(b"\0")
        stopped = refusal(run.stderr)
        if rest or run.returncode != (REFUSED if stopped else 0):
            raise Wrong(f"{self.words[0]} ended with status {run.returncode}: {run.stderr!r}")
        return Answer(list(map(entry, parts)), stopped and stopped[1])

    def line(self, name):
        """The line of the first entry whose value is not a color, if there is one."""
        stopped = refusal(self.run(name, "--type=color", "--get-regexp", ".").stderr)
        return stopped and stopped[1]

    def all(self, asked, names):
        """What is asked, for each of these files."""
        with concurrent.futures.ThreadPoolExecutor() as pool:
            return list(pool.map(asked, names))


def processor_seconds():
    """The processor time of all processes that have ended so far."""
    used = resource.getrusage(resource.RUSAGE_CHILDREN)
    return used.ru_utime + used.ru_stime


def is_part(some, entries):
    """Whether `some` are entries of these, in the same order."""
    left = iter(entries)
    return all(one in left for one in some)


def has_hit(answer):
    """Whether the entries of a folder have the one that is included on a condition."""
    return (b"hit.k", b"1") in [one for _, one in answer[0]]


def is_of_git_alone(entries, ours, git):
    """Whether Git stops first, and a value has white space at which it cuts no color."""
    stops_first = git is not None and (ours is None or git < ours)
    return stops_first and any(value and FOREIGN.search(value) for _, value in entries)


def with_spaces(ours, git):
    """An answer, with a space in place of each TAB and CR for which Git has one."""
    def text(ours, git):
        if ours is None or git is None or len(ours) != len(git):
            return ours
        return bytes(other if byte in b"\t\r" and other == ord(" ") else byte for byte, other in zip(ours, git))

    pairs = itertools.zip_longest(ours.entries, git.entries[:len(ours.entries)], fillvalue=(None, None))
    return ours._replace(entries=[(key, text(value, other)) for (key, value), (_, other) in pairs])


def rows():
    """The files of config_files.txt, which has each as a line with the escapes of Python."""
    lines = ROWS.read_text("ascii").split("\n")[:-1]
    return [line.encode().decode("unicode_escape").encode("latin-1") for line in lines]


def short_texts():
    return [b"".join(chosen) for length in range(LONGEST + 1) for chosen in itertools.product(LETTERS, repeat=length)]


def changed(draw, texts):
    """A text made from one of these by a few random changes."""
    text = bytearray(draw.choice(texts))
    for _ in range(draw.choice((1, 1, 2, 3, 5))):
        at, way = draw.randrange(len(text) + 1), draw.randrange(6)
        if way < 2:
            text[at:at + way] = draw.choice(PIECES)
        elif way == 2:
            del text[at:at + draw.choice((1, 1, 2, 8))]
        elif way == 3:
            other = draw.choice(texts)
            text[at:] = other[draw.randrange(len(other) + 1):]
        elif way == 4:
            text[at:at + 1] = bytes([draw.randrange(256)])
        else:
            text = bytearray(bytes(text).replace(b"\n", b"\r\n"))
    return bytes(text)


def valued(draw):
    """A file with a value that has a TAB or a CR, unless it ends before. Most of them begin and end with a letter."""
    pieces = [draw.choice(VALUES) for _ in range(draw.randint(1, 8))]
    pieces.insert(draw.randrange(len(pieces) + 1), draw.choice((b"\t", b"\r")))
    return b"".join([b"[a]b=", draw.choice((b"", b"x", b"x")), *pieces, draw.choice((b"", b"\ty", b"\ry"))])


def files(arguments):
    draw, known, count = random.Random(arguments.seed), rows(), range(arguments.files)
    short = short_texts()
    if not arguments.short:
        short = draw.sample(short, min(arguments.files, len(short)))
    texts = [*known, LONG, LONG.replace(b"\n", b"\r\n"), *short]
    return [*texts, *(changed(draw, [*known, LONG]) for _ in count), *(valued(draw) for _ in count)]


class Folder:
    """A folder of files that include others, as a line of includes.txt has it."""

    def __init__(self, path, line, git):
        self.path, self.main, self.known, self.line = path, "p", {"PATH": os.environ["PATH"], "LC_ALL": "C"}, line
        self.git = git
        path.mkdir(parents=True)
        asked, names = "", []
        for field in line.encode().decode("unicode_escape").split(" | "):
            word, _, rest = field.partition(" ")
            if field.startswith("?"):
                asked += f'[includeIf "{field[1:]}"]path=h\n'
            elif word.startswith("@"):
                getattr(self, word[1:])(*rest.split())
            else:
                name, _, text = field.partition("=")
                names.append(name)
                self.write(name, text)
        if asked:
            self.write("p", asked)
            self.write("h", "[hit]k=1\n")
        if names and self.main == "p":
            self.main = names[0]

    def write(self, name, text):
        (self.path / name).parent.mkdir(parents=True, exist_ok=True)
        (self.path / name).write_bytes(text.encode("latin-1"))

    def read(self, name):
        self.main = name

    def branch(self, name, form="files"):
        known = self.known | {"HOME": str(self.path), "GIT_CONFIG_NOSYSTEM": "1", "GIT_DEFAULT_REF_FORMAT": form}
        subprocess.run([self.git, "init", "-q", "-b", name], cwd=self.path, env=known, check=True, capture_output=True)

    def reftable(self, name):
        self.branch(name, "reftable")

    def git_dir(self, name, head):
        """Makes a git directory."""
        for part in ("objects", "refs"):
            (self.path / name / part).mkdir(parents=True)
        (self.path / name / "HEAD").write_text(f"{head}\n", "ascii")

    def head(self, *words):
        self.git_dir(".git", " ".join(words))

    def home(self, name):
        self.known["HOME"] = str(self.path / name)

    def chain(self, length):
        for number in range(int(length) + 1):
            self.write(str(number) if number else "p", f"[a]k={number}\n[include]path={number + 1}\n")

    def link(self, name, target):
        (self.path / name).parent.mkdir(parents=True, exist_ok=True)
        (self.path / name).symlink_to(target)

    def folder(self, name):
        (self.path / name).mkdir()

    def run(self, *words):
        try:
            return subprocess.run(words, cwd=self.path, env=self.known, capture_output=True, timeout=LONGEST_RUN)
        except subprocess.TimeoutExpired:
            raise Wrong(f"{self.line[:80]}: {words[0]} does not end") from None

    def listed(self, words):
        """The entries with their files, and where a reader stops: a file and a line, or None."""
        run = self.run(*words, self.main)
        parts = run.stdout.split(b"\0")
        place = TOO_DEEP if DEEP.search(run.stderr) else refusal(run.stderr)
        if run.returncode != (REFUSED if place else 0):
            raise Wrong(f"{self.line[:80]}: {words[0]} ended with status {run.returncode} and {run.stderr!r}")
        return [(name.removeprefix(b"file:"), entry(data)) for name, data in zip(parts[::2], parts[1::2])], place

    def by_git(self):
        return self.listed([self.git, "config", *LIST])

    def values(self, program):
        """The value of the last entry that has a value, asked by its key: as the program and as Git give it."""
        keys = [key for _, (key, value) in self.by_git()[0] if value is not None and key.count(b".") == 1]
        return [[self.run(*words, "--file", self.main, "--includes", "--get", key).stdout for key in keys[-1:]]
                for words in ([program], [self.git, "config"])]


def lines_of_trees():
    return [line for line in TREES.read_text("ascii").splitlines() if not line.startswith("#")]


def drawn(draw, pieces, length):
    return "".join(draw.choice(pieces) for _ in range(draw.randint(1, length)))


def included(draw):
    """The text of a random file, rarely with a line that is refused."""
    pieces = [draw.choice(ENTRIES) if draw.randrange(2) else f"[{draw.choice(SECTIONS)}]path={draw.choice(PATHS)}\n"
              for _ in range(draw.randint(0, 6))]
    return "".join(pieces) + draw.choice([""] * 19 + ["[b"])


def tree(draw):
    """A line with random files that include each other, mostly in a repository."""
    fields = [f"{name}={included(draw)}" for name in FILES if name == "p" or draw.randrange(5)]
    fields += [field for field in ("@head ref: refs/heads/main", "@home d", "@link l h", "@link d/l ../s")
               if draw.randrange(4)]
    return " | ".join(fields).encode("unicode_escape").decode("ascii")


def starred(draw, is_deep):
    """A pattern of several stars, or of many if the names have no `/`: older Gits take exponential time otherwise."""
    most = 5 if is_deep else 40
    if draw.randrange(2):
        return draw.choice(STARRED) * draw.randint(1, most) + drawn(draw, STARRED, 1)
    return drawn(draw, STARRED, most)


def conditions(draw):
    """A random name and branch, and a line with conditions whose patterns may match them."""
    name = "/".join(part for part in drawn(draw, NAMES, 5).split("/") if part) or "a"
    patterns = [drawn(draw, PARTS, 4) for _ in range(PATTERNS)]
    if draw.randrange(2):
        name = draw.choice(("a", "a", "ab", "aab/", "a/")) * draw.randint(3, 12) + draw.choice("ab")
        patterns = [starred(draw, "/" in name) for _ in range(PATTERNS)]
    fields = [f"?{draw.choice(('gitdir:./', 'gitdir/i:./', 'onbranch:'))}{pattern}".replace("\\", "\\\\")
              for pattern in patterns]
    branch = re.sub(r"[^\w/!,\]-]", "a", name, flags=re.ASCII)
    return name, branch, " | ".join(fields).encode("unicode_escape").decode("ascii")


class Comparison:
    """What was compared: counts, and the faults."""

    def __init__(self, program, reader, git, folder):
        self.program, self.git, self.folder = program, git, folder
        self.words = [program, *LIST] if program else reader
        of_reader = OF_FILES if program else {NUL: OF_FILES[NUL]}
        self.expected = [name for name, when in of_reader.items() if is_expected(when, git.running)]
        self.counts = collections.Counter()
        self.faults = []

    def class_of(self, text, ours, git):
        """The class of a difference between what the program and what Git gives for a file, or None."""
        if (with_spaces(ours, git) if BLANK in self.expected else ours) == git:
            return BLANK
        is_cut = ours.refused is not None and git.entries[:len(ours.entries)] == ours.entries
        return NUL if is_cut and b"\0" in text.split(b"\n")[ours.refused - 1] else None

    def judge(self, text, ours, git):
        if ours == git:
            name = "accepted" if git.refused is None else "refused"
        else:
            name = self.class_of(text, ours, git)
        if name is None:
            self.faults.append((text, ours, git))
        else:
            self.counts[name] += 1

    def ask(self, texts):
        """Compares a batch of files."""
        names = [str(number) for number in range(len(texts))]
        for name, text in zip(names, texts):
            (self.folder / name).write_bytes(text)
        ours, git = Reader([self.program], self.folder), Reader([self.git.command, "config"], self.folder)
        given = ours.all(ours.answer, names)
        for text, answer, other in zip(texts, given, git.all(git.answer, names)):
            self.judge(text, answer, other)
        told = [name for name, one in zip(names, given) if one.entries and one.refused is None]
        for name, line, other in zip(told, ours.all(ours.line, told), git.all(git.line, told)):
            if line == other or is_of_git_alone(given[int(name)].entries, line, other):
                self.counts["lines of entries"] += other is not None
            else:
                self.faults.append((texts[int(name)], line, other))

    def follow(self, name, tree, difference=None):
        """Compares the entries of a folder with includes. In a class of differences Git may have more entries."""
        ours, other = tree.listed(self.words), tree.by_git()
        if not self.program and other[1] is not None:
            other = [], other[1]
        if ours != other and difference and is_part(ours[0], other[0]):
            self.counts[difference] += 1
        elif ours != other:
            self.faults.append((tree.line[:200], ours, other))
        else:
            self.counts[name] += 1
            if self.program and other[1] is None:
                ours, other = tree.values(self.program)
                self.counts["values"] += ours == other
                if ours != other:
                    self.faults.append((tree.line[:200], ours, other))

    def follow_trees(self, folder):
        """Compares the folders of includes.txt."""
        for number, line in enumerate(lines_of_trees()):
            difference = NUL if r"\x00" in line else None
            # a reader need not know tables, since it finds the repository itself
            if self.program or "@reftable" not in line:
                self.follow("folders", Folder(folder / f"f{number}" / "R", line, self.git.command), difference)

    def follow_files(self, arguments, folder):
        """Compares folders of random files."""
        draw = random.Random(arguments.seed)
        for number in range(arguments.trees):
            self.follow("folders of random files", Folder(folder / f"t{number}" / "R", tree(draw), self.git.command))

    def follow_stars(self, seconds, folder):
        """Compares the repositories of STARS with what Git said, and with this Git where it answers at once."""
        for number, star in enumerate(STARS):
            tree = Folder(folder / f"s{number}" / star.tree, f"?{star.condition}", self.git.command)
            tree.head("ref:", f"refs/heads/{star.text}")
            tree.write("p", f'[includeIf "{star.condition}"]path=h\n[remote "r"]url={star.text}\n')
            began = processor_seconds()
            try:
                holds = has_hit(tree.listed(self.words))
            except Wrong as wrong:
                holds = wrong
            taken = processor_seconds() - began
            wanted = has_hit(tree.by_git()) if star.since and self.git.version >= star.since else star.holds
            if holds == wanted == star.holds and taken < seconds:
                self.counts["conditions with many stars"] += 1
            else:
                self.faults.append((star.condition[:60], f"{holds} after {taken:.2f} s", f"{wanted} and {star.holds}"))

    def follow_drawn(self, arguments, folder):
        """Compares folders with random patterns for the git directory and the branch."""
        draw = random.Random(arguments.seed)
        for number in range(arguments.patterns):
            name, branch, line = conditions(draw)
            tree = Folder(folder / f"p{number}", line, self.git.command)
            tree.git_dir(name, f"ref: refs/heads/{branch}")
            tree.known["GIT_DIR"] = str(tree.path / name)
            self.follow(f"folders with {PATTERNS} patterns", tree)


def compare(arguments, folder):
    git = readers.Command(arguments.git, folder)
    print(f"{git.said}, seed {arguments.seed}")
    program = arguments.program and os.path.abspath(arguments.program)
    comparison = Comparison(program, arguments.reader, git, folder)
    texts = files(arguments) if program else []
    for at in range(0, len(texts), BATCH):
        comparison.ask(texts[at:at + BATCH])
    comparison.follow_trees(folder / "includes")
    comparison.follow_files(arguments, folder / "trees")
    if program:
        comparison.follow_stars(arguments.seconds, folder / "stars")
        comparison.follow_drawn(arguments, folder / "drawn")
    return report(comparison, "{!r}: {} here, {} in Git", SHOWN)


def main():
    arguments = argparse.ArgumentParser()
    arguments.add_argument("program", nargs="?")
    arguments.add_argument("--reader", type=shlex.split)
    arguments.add_argument("--seed", type=int, default=1)
    arguments.add_argument("--files", type=int, default=1000)
    arguments.add_argument("--short", action="store_true")
    arguments.add_argument("--trees", type=int, default=100)
    arguments.add_argument("--patterns", type=int, default=30)
    arguments.add_argument("--seconds", type=float, default=0.1)
    arguments.add_argument("--git", default="git")
    arguments = arguments.parse_args()
    if bool(arguments.program) == bool(arguments.reader):
        sys.exit("either a program or a reader")
    with tempfile.TemporaryDirectory() as folder:
        return counted(lambda: compare(arguments, pathlib.Path(folder)))


if __name__ == "__main__":
    sys.exit(main())
