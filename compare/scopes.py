"""Compares which file a scope means, as `git config --global` reads and changes it, with a Git: the installed one,
or that of --git.

python3 scopes.py [PROGRAM] [--git COMMAND] [--python FOLDER] [--c PROGRAM]

PROGRAM is git_settings, which has to read the value that Git reads, and to change the same file. FOLDER has the
Python package, whose `edit_repository` has to change it so too. The PROGRAM of --c is the built
crates/gix_config_value_c/tests/here.c, which calls `gcv_file_of_scope`. Where Git changes no file, they have to refuse.

Each row of ROWS is a folder, in which some files may not be read. Without setpriv root may read them all, and then
these rows are left out. The last line is 'N passed, M failed'. Without such a Git it says `skipped` and why, and nothing
has passed.
"""
import collections
import os
import shutil
import subprocess
import sys

import readers
from programs import compared, report

SHOWN = 20
# what root does as another user would
AS_OTHERS = ["setpriv", "--bounding-set=-dac_override,-dac_read_search"]
USER, XDG = "home/.gitconfig", "home/.config/git/config"
OWN, OTHER, G = "[k]\n\tk = own\n", "[k]\n\tk = other\n", {"g": "[k]\n\tk = g\n"}
BOTH = {USER: OWN, XDG: OTHER}
REPOSITORY = {"top/.git/HEAD": "ref: refs/heads/main\n", "top/.git/objects/x": "", "top/.git/refs/x": "",
              "top/.git/config": OWN, "top/deep/x": ""}
TREE = REPOSITORY | {"top/.git/config": f"[core]\n\trepositoryformatversion = 1\n[extensions]\n\tworktreeConfig\n{OWN}"}
# a file that is no text: a link to a name, a folder, or a pipe
LINK, FOLDER, PIPE = "link to ", "a folder", "a pipe"
# a row: its name, its files, those that may not be read, its variables (None is not set, F is its folder), the scope,
# and the folder in which the readers are called
Row = collections.namedtuple("Row", "name files denied known scope where", defaults=[{}, (), {}, "global", "top"])
ROWS = [
    Row("both", BOTH), Row("none"), Row("only the other one", {XDG: OTHER}),
    Row("XDG_CONFIG_HOME", {XDG: OTHER, "x/git/config": OTHER}, (), {"XDG_CONFIG_HOME": "F/x"}),
    Row("an empty XDG_CONFIG_HOME", {XDG: OTHER}, (), {"XDG_CONFIG_HOME": ""}),
    Row("a denied one, and the other", BOTH, [USER]), Row("a denied one alone", {USER: OWN}, [USER]),
    Row("both denied", BOTH, [USER, XDG]), Row("the other one denied", {XDG: OTHER}, [XDG]),
    Row("a folder that is denied", {XDG: OTHER, USER: FOLDER}, [USER]), Row("a folder", {USER: FOLDER, XDG: OTHER}),
    Row("a pipe that is denied", {XDG: OTHER, USER: PIPE}, [USER]),
    Row("a link", BOTH | {USER: LINK + "real", "home/real": OWN}), Row("a link to nothing", {USER: LINK + "real"}),
    Row("a link to nothing, and the other", {USER: LINK + "real", XDG: OTHER}),
    Row("a link to a denied one", BOTH | {USER: LINK + "real", "home/real": OWN}, ["home/real"]),
    Row("GIT_CONFIG_GLOBAL", BOTH | G, (), {"GIT_CONFIG_GLOBAL": "F/g"}),
    Row("a denied GIT_CONFIG_GLOBAL", BOTH | G, ["g"], {"GIT_CONFIG_GLOBAL": "F/g"}),
    Row("a missing GIT_CONFIG_GLOBAL", BOTH, (), {"GIT_CONFIG_GLOBAL": "F/g"}),
    Row("an empty GIT_CONFIG_GLOBAL", BOTH, (), {"GIT_CONFIG_GLOBAL": ""}),
    Row("no HOME", BOTH, (), {"HOME": None}),
    Row("no HOME, and XDG_CONFIG_HOME", {"x/git/config": OTHER}, (), {"HOME": None, "XDG_CONFIG_HOME": "F/x"}),
    Row("no HOME, and GIT_CONFIG_GLOBAL", BOTH | G, (), {"HOME": None, "GIT_CONFIG_GLOBAL": "F/g"}),
    *(Row(f"a relative HOME, {name}", REPOSITORY | files, denied, {"HOME": "rel"}, where=where)
      for name, files, denied in (("the other", {"top/rel/.config/git/config": OTHER}, ()),
                                  ("both", {"top/rel/.gitconfig": OWN, "top/rel/.config/git/config": OTHER}, ()),
                                  ("in the folder", {"top/rel/x": "", "top/deep/rel/.config/git/config": OTHER}, ()),
                                  ("denied", {"top/rel/.gitconfig": OWN, "top/rel/.config/git/config": OTHER},
                                   ["top/rel/.gitconfig"]))
      for where in ("top", "top/deep")),
    *(Row(f"the system, {known}", {"system": OWN}, (), known, "system")
      for known in ({}, {"GIT_CONFIG_NOSYSTEM": "1"}, {"GIT_CONFIG_SYSTEM": "F/missing"}, {"GIT_CONFIG_SYSTEM": ""})),
    Row("a denied system", {"system": OWN}, ["system"], {}, "system"),
    *(Row(f"a repository in {where}", REPOSITORY, (), {}, "local", where) for where in ("top", "top/deep", "home")),
    *(Row(f"a work tree in {where}", TREE, (), {}, "worktree", where) for where in ("top", "top/deep", "home")),
    Row("GIT_DIR", TREE, (), {"GIT_DIR": "../top/.git"}, "worktree", "home"),
]
# how Python changes the file of a scope, by the arguments that `git config` takes
PYTHON = """
import sys
sys.path.append(sys.argv[1])
from gix_config_value import edit_repository
try:
    with edit_repository(scope=sys.argv[2][2:]) as file:
        file.set(*sys.argv[3:])
except (OSError, ValueError) as error:
    sys.exit(str(error))
"""


def make(folder, row):
    """Makes the files of a row, and returns each with its text."""
    for name, text in {"home/x": "", "top/x": "", **row.files}.items():
        file = folder / name
        file.parent.mkdir(parents=True, exist_ok=True)
        if text.startswith(LINK):
            file.symlink_to(text.removeprefix(LINK))
        elif text == FOLDER:
            file.mkdir()
        elif text == PIPE:
            os.mkfifo(file)
        else:
            file.write_text(text)
    made = texts(folder).items()
    for name in row.denied:
        (folder / name).chmod(0)
    return made


def texts(folder):
    """The files below a folder with their texts."""
    return {str(file.relative_to(folder)): file.read_text() for file in folder.rglob("*") if file.is_file()}


class Comparison:
    """What was compared: counts, and the faults."""

    def __init__(self, arguments, git, folder):
        self.git, self.folder, self.expected = git, folder, []
        self.prefix = AS_OTHERS if os.geteuid() == 0 else []
        # the readers, of which only the first one reads a value
        self.ours = {}
        if arguments.program:
            self.ours["the program"] = [os.path.abspath(arguments.program)]
        if arguments.python:
            self.ours["Python"] = [sys.executable, "-I", "-B", "-c", PYTHON, os.path.abspath(arguments.python)]
        if arguments.c:
            self.ours["C"] = [os.path.abspath(arguments.c)]
        self.counts, self.faults = collections.Counter(), []

    def ask(self, row, words):
        """What a call does in the folder of a row: its status, its output, and the files that it changes."""
        before = make(self.folder, row)
        known = {"PATH": os.environ["PATH"], "LC_ALL": "C", "HOME": "F/home", "GIT_CONFIG_SYSTEM": "F/system",
                 "GIT_CEILING_DIRECTORIES": "F", **row.known}
        known = {name: value.replace("F", str(self.folder), value[:1] == "F") for name, value in known.items()
                 if value is not None}
        words = [*self.prefix * bool(row.denied), *map(str, words)]
        run = subprocess.run(words, cwd=self.folder / row.where, env=known, capture_output=True, check=False)
        for name in row.denied:
            (self.folder / name).chmod(0o600)
        after = texts(self.folder).items()
        shutil.rmtree(self.folder)
        return run.returncode, run.stdout, dict(after - before)

    def compare(self, row):
        for kind, more in (("read", ["k.k"]), ("changed", ["k.k", "new"])):
            git = self.ask(row, [self.git.command, "config", f"--{row.scope}", *more])
            for reader, words in self.ours.items():
                if kind == "read" and reader != "the program":
                    continue
                ours = self.ask(row, [*words, f"--{row.scope}", *more])
                is_same = ours[2] == git[2] and (ours[0] == 0) == (git[0] == 0)
                if is_same and (kind == "changed" or ours[:2] == git[:2]):
                    self.counts[f"{kind} by {reader}" + ", refused" * (git[0] != 0)] += 1
                else:
                    self.faults.append((f"{row.name}, {kind} by {reader}", ours, git))


def compare(arguments, folder):
    git = readers.Command(arguments.git, folder)
    print(git.said)
    comparison = Comparison(arguments, git, folder / "row")
    drops = not comparison.prefix or subprocess.run([*AS_OTHERS, "true"], check=False).returncode == 0
    if not drops:
        print("skipped: what may not be read, since setpriv takes no rights from root")
    for row in ROWS:
        if drops or not row.denied:
            comparison.compare(row)
    return report(comparison, "{}:\n  {} here\n  {} in Git", SHOWN)


def main():
    return compared(compare)


if __name__ == "__main__":
    sys.exit(main())
