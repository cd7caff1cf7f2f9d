"""Compares typed `get`s of the built program with those of a Git from 2.46 on: the installed one, or that of --git.

python3 gets.py PROGRAM [--seed N] [--gets N] [--git COMMAND]

PROGRAM is git_settings. Each file has one key: with no value, with one or with several, or alone. The key is read as a
type, also with a default, all values, names, NULs, origins, a pattern or a URL, by the word `get` or by the key alone,
from a file, from that of GIT_CONFIG or from standard input; each of them includes another one. The status and the
output have to be Git's. If they differ, one of the texts has to differ by itself too, in a class of classes.py that is
expected in the version of this Git; or it is a path that begins with `%(prefix)/`, which the program refuses; or Git
crashes at a key alone. The run is the same for the same seed on the same machine. The last line is 'N passed, M
failed', in gets.
"""
import argparse
import collections
import concurrent.futures
import os
import pathlib
import random
import subprocess
import sys
import tempfile

import classes
import texts
from calls import MARK, PREFIX
from classes import HOME, NOT_SET, Case, Question
from programs import Missing, counted
from readers import Git, escaped, user_of

FIRST_VERSION = (2, 46)
SHOWN = 20
# the kind of texts that a type reads, by whose classes it differs; a type without one has no classes
TYPES = {"bool": "bool", "int": "int", "bool-or-int": "bool-or-int", "bool-or-str": "bool", "path": "path",
         "color": "color", None: None}
# what a get has behind its type
OPTIONS = [[], [], ["--all"], ["--show-names"], ["-z"], ["--all", "-z", "--show-names"], ["--value=[0-9]"],
           ["--value=!e", "--all"], ["--fixed-value", "--value=yes"], ["--regexp", "--all"], ["--show-origin"],
           ["--url=https://h.org/x"]]
# those that a key alone has too
OLDER = [[], ["--show-names"], ["-z"], ["--show-origin"], ["-z", "--show-scope"], ["--includes"]]
# a get of a key: its word, what is read, the type, the options, the default and the values of the key, of which None is
# a key alone
Get = collections.namedtuple("Get", "word source type options default values")


def text_for(draw, kind):
    """A text for a type, which is often one of another type."""
    made = kind if kind in ("path", "color") else "number"
    words = {"path": texts.PATH_TEXTS, "color": texts.COLOR_TEXTS + texts.COLOR_WORDS,
             "number": texts.NUMBER_WORDS + texts.NUMBER_TEXTS}
    if draw.randrange(6) == 0:
        made = draw.choice(list(words))
    text = draw.choice(words[made]) if draw.randrange(2) else texts.MADE[made](draw)
    return text if texts.is_carried(text) and classes.is_utf8(text) else b"yes"


def gets(draw, count):
    for _ in range(count):
        kind = draw.choice(list(TYPES))
        values = [None if draw.randrange(12) == 0 else text_for(draw, TYPES[kind])
                  for _ in range(draw.choice((0, 1, 1, 1, 1, 2, 3)))]
        default = text_for(draw, TYPES[kind]) if draw.randrange(4) == 0 or not values else None
        word, source = draw.choice((["get"], ["get"], [])), draw.choice(("-f", "-f", "GIT_CONFIG", "-"))
        yield Get(word, source, kind, draw.choice(OPTIONS if word else OLDER), default, values)


class Readers:
    """The program and Git, which read files of a folder."""

    def __init__(self, program, git, folder):
        self.words = [program], [git.command, "config"]
        self.git, self.folder, self.install = git, pathlib.Path(folder), git.install()
        self.known = {"PATH": os.environ["PATH"], "LC_ALL": "C", "GIT_CONFIG_NOSYSTEM": "1", "HOME": HOME.decode()}
        (self.folder / "included").write_bytes(b"[a]\n\tk = included\n")

    def answers(self, numbered):
        """The statuses and outputs of the program and of Git."""
        number, get = numbered
        file = self.folder / f"{number}"
        lines = [b"k\n" if value is None else b'k = "' + escaped(value) + b'"\n' for value in get.values]
        text = b"[include]\n\tpath = " + os.fsencode(self.folder / "included") + b"\n[a]\n" + b"".join(lines)
        file.write_bytes(text)
        known = self.known | ({"GIT_CONFIG": str(file)} if get.source == "GIT_CONFIG" else {})
        asked = [*get.word, *{"-f": ["-f", file], "-": ["-f", "-"]}.get(get.source, [])]
        asked += [*([f"--type={get.type}"] if get.type else []), *get.options]
        asked += ["a.k"] if get.default is None else [b"--default=" + get.default, "a.k"]
        runs = [subprocess.run([*words, *asked], env=known, cwd=self.folder, input=text, capture_output=True,
                               check=False) for words in self.words]
        return [(run.returncode, run.stdout) for run in runs]

    def case(self, kind, text):
        """The case of a text that is the only value of its kind."""
        both = self.answers(("alone", Get(["get"], "-f", kind, [], None, [text])))
        shown = [{0: out[:-1], 1: NOT_SET}.get(status) for status, out in both]
        return Case(Question(kind, text, HOME), user_of(text)[1], self.install, *shown)

    def class_of(self, get, git):
        """The name of the class of a difference, if it has one."""
        if git[0] < 0 and None in get.values:
            return "a key alone at which Git crashes"
        for text in [*get.values, get.default]:
            if text is None or TYPES[get.type] is None:
                continue
            case = self.case(TYPES[get.type], text)
            one = classes.of(case, self.git.running) if case.ours != case.git else None
            if one is not None:
                return one.name
            if text.removeprefix(MARK).startswith(PREFIX) and case.ours is None:
                return "a path in the folder that Git is installed in"
        return None


def compare(arguments, folder):
    git = Git(arguments.git, folder)
    if git.running["Git"] < FIRST_VERSION:
        raise Missing(f"{git.said} has no word get")
    print(f"{git.said}, seed {arguments.seed}")
    readers = Readers(arguments.program, git, folder)
    asked = list(gets(random.Random(arguments.seed), arguments.gets))
    seen, faults = collections.Counter(), []
    with concurrent.futures.ThreadPoolExecutor() as pool:
        given = list(pool.map(readers.answers, enumerate(asked)))
    for get, (ours, theirs) in zip(asked, given):
        if ours != theirs:
            name = readers.class_of(get, theirs)
            seen[name] += 1
            faults += [] if name else [f"{get}: {ours} here, {theirs} in Git"]
    for name, count in seen.items():
        print(f"{count:>7,} {name or 'in no class that is expected'}")
    print(*faults[:SHOWN], sep="\n", end="\n" * bool(faults))
    return len(asked) - len(faults), len(faults)


def main():
    arguments = argparse.ArgumentParser()
    arguments.add_argument("program", type=os.path.abspath)
    arguments.add_argument("--seed", type=int, default=1)
    arguments.add_argument("--gets", type=int, default=2500)
    arguments.add_argument("--git", default="git")
    arguments = arguments.parse_args()
    with tempfile.TemporaryDirectory() as folder:
        return counted(lambda: compare(arguments, folder))


if __name__ == "__main__":
    sys.exit(main())
