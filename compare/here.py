"""Compares what is read in a folder, by the built program and by a Git: the installed one, or that of --git.

python3 here.py [PROGRAM] [--seed N] [--places N] [--git COMMAND] [--python FOLDER] [--c PROGRAM]

PROGRAM is git_settings, whose `-l --show-scope --show-origin --null` has to give the same settings in the same
order as Git's, each with the same scope and the same name of its file. If Git refuses to go on, the program has to do
so too. FOLDER has the Python package: its `read_repository` is compared too. The PROGRAM of --c is the built
crates/gix_config_value_c/tests/here.c, which calls `gcv_read_here`.

The places are as many random ones as --places says: a folder with or without a repository of some kind, a HEAD, a
format and an owner, the files of the system and of the user, variables, the settings of a command, and includes with
conditions. Then come the layouts of LAYOUTS, which Git's own commands make. What needs root is left out without it, and
a message says so.

A difference has to belong to a class of classes.OF_PLACES that is expected in the version of this Git, and each class
that is expected has to be seen. The run is the same for the same seed and number. The last line is 'N passed, M
failed'. Without such a Git it says `skipped` and why, and nothing has passed.
"""
import collections
import os
import random
import re
import shlex
import shutil
import subprocess
import sys

import classes
import readers
from programs import compared, report

SHOWN = 20
REFUSED = 128
# another user, to whom files are given
OTHER = 12345
IS_ROOT = os.geteuid() == 0
# variables that say where a file of the system or of the user is
OF_FILES = {"GIT_CONFIG_SYSTEM", "GIT_CONFIG_GLOBAL", "XDG_CONFIG_HOME", "HOME"}
SECTION = "[%s]\n\t%s\n"

# the settings that were read, or None if the reader refuses to go on, and the folder that Python puts before the names
Answer = collections.namedtuple("Answer", "status settings told folder", defaults=[b""])


def fields(output):
    """Each setting that Git or the program lists: its scope, its file, and its key with its value."""
    parts = output.split(b"\0")[:-1]
    return list(zip(parts[::3], parts[1::3], parts[2::3]))


# what Python lists, in Git's form, after the folder in which Git works: in it each name begins
PYTHON = """
import os, sys
sys.path.append(sys.argv[1])
from gix_config_value import _repository, read_repository
try:
    config = read_repository()
except (OSError, ValueError) as error:
    print(error, file=sys.stderr)
    sys.exit(128)
words = [_repository.find("").folder]
for entry in config.entries:
    text = entry.key + ("" if entry.text is None else chr(10) + entry.text)
    words += entry.scope, entry.origin, text
sys.stdout.buffer.write(os.fsencode("".join(word + chr(0) for word in words)))
print(config.refusal, file=sys.stderr)
"""


def python_words(package):
    return [sys.executable, "-I", "-B", "-c", PYTHON, os.path.abspath(package)]


def listing(*words):
    return [*words, "-l", "--show-scope", "--show-origin", "--null"]


def of_git(run):
    settings = [(scope, origin.removeprefix(b"file:").removesuffix(b":"), entry)
                for scope, origin, entry in fields(run.stdout)]
    return Answer(run.returncode, settings, run.stderr)


def of_python(run):
    folder, _, run.stdout = run.stdout.partition(b"\0")
    return of_git(run)._replace(folder=folder)


def run_in(folder, known, words):
    return subprocess.run([str(word) for word in words], cwd=folder, env=known, capture_output=True, check=False)


def is_same(ours, git):
    if git.status == REFUSED or ours.status == REFUSED:
        return ours.status == git.status
    settings = [(scope, file if scope == b"command" else os.path.join(ours.folder, file), entry)
                for scope, file, entry in git.settings]
    return ours.status == git.status and ours.settings == settings


def plain(folder):
    """The variables that both know in a place before others are drawn."""
    return {"PATH": os.environ["PATH"], "LC_ALL": "C", "HOME": f"{folder}/home",
            "GIT_CONFIG_SYSTEM": f"{folder}/system"}


class Place:
    """A random folder, with the variables and the texts in it. `words` are those by which classes know it."""

    def __init__(self, draw, folder):
        self.draw, self.folder, self.words = draw, folder, set()
        self.known = plain(folder)
        self.urls = draw.random() < 0.5
        for name in ("home/.config/git", "xdg/git", "top/deep/er", "other", "rel/git"):
            (folder / name).mkdir(parents=True)
        self.repository()
        self.texts()
        self.variables()
        self.command()
        self.where = self.one("top", "top", "top/deep", "top/deep/er", "other", *self.inner)
        (folder / self.where).mkdir(parents=True, exist_ok=True)
        self.known["PWD"] = f"{folder}/{self.where}"
        self.owners()

    def one(self, *choices):
        return self.draw.choice(choices)

    def rarely(self, often=0.15):
        return self.draw.random() < often

    def write(self, name, text):
        file = self.folder / name
        file.parent.mkdir(parents=True, exist_ok=True)
        with open(file, "a", encoding="utf-8") as opened:
            opened.write(text)

    def git_dir(self, name):
        """Makes a git directory, which may lack something."""
        for part in ("objects", "refs/heads"):
            if not self.rarely(0.03):
                (self.folder / name / part).mkdir(parents=True, exist_ok=True)
        (self.folder / name).mkdir(exist_ok=True)
        head = self.folder / name / "HEAD"
        if self.rarely(0.1):
            head.symlink_to(self.one("refs/heads/linked", "refs/x", "elsewhere"))
        elif not self.rarely(0.03):
            head.write_text(self.one("ref: refs/heads/main\n", "ref: refs/heads/main\n", "ref: refs/heads/a/b\n",
                                     "ref:refs/heads/main", "ref: refs/tags/x\n", "0" * 40 + "\n", "x\n",
                                     "ref: refs/heads/a..b\n"))
        if self.rarely(0.05):
            self.write(f"{name}/refs/heads/main", self.one("ref: refs/heads/a/b\n", "0" * 40 + "\n", "x"))
        if not self.rarely(0.05):
            self.write(f"{name}/config", self.format(name) + self.settings("local"))

    def format(self, git_dir):
        """The format of a repository."""
        version = self.one(*["0"] * 6, *["1"] * 4, "", "2", "99", "-1", "0x1", "x")
        lines = [f"repositoryformatversion = {version}"] if version else []
        if self.rarely(0.2):
            lines.append(self.one("bare = true", "bare = false", "bare", "bare = x"))
        if self.rarely(0.1):
            lines.append(f"worktree = {self.one('../deep', '..', '../..', f'{self.folder}/top', '../missing')}")
            self.words.add("work tree")
        text = "".join(SECTION % ("core", line) for line in lines)
        if self.rarely(0.5):
            self.write(f"{git_dir}/config.worktree", SECTION % ("w", "t"))
        for _ in range(self.one(0, 0, 0, 1, 1, 2)):
            extension = self.one("worktreeConfig", "worktreeConfig = true", "noop", "preciousObjects = no",
                                 "noop-v1 = 1", "partialClone = x", "objectFormat = sha1", "refStorage = files",
                                 "foo = 1", "relativeWorktrees", "objectFormat = md5", "worktreeConfig = x",
                                 "partialClone")
            self.words.add(extension.split()[0].lower())
            if extension == "partialClone":
                self.words.add("partial clone alone")
            text += SECTION % ("extensions", extension)
        return text

    def repository(self):
        """A repository of some kind in the folder top."""
        kind = self.one("none", "plain", "plain", "plain", "plain", "file", "bare", "link", "tree", "junk")
        self.inner = []
        if kind in ("plain", "tree"):
            self.git_dir("top/.git")
            self.inner = ["top/.git", "top/.git/refs"]
        if kind == "file":
            self.git_dir("held")
            self.write("top/.git", self.one("gitdir: ../held\n", f"gitdir: {self.folder}/held"))
            self.inner = ["held"]
        if kind == "bare":
            self.git_dir("top")
            self.inner = ["top/refs"]
        if kind == "link":
            self.git_dir("held")
            (self.folder / "top/.git").symlink_to("../held")
        if kind == "junk":
            self.write("top/.git/x", "")
        if kind == "tree":
            self.write("other/.git", f"gitdir: {self.folder}/top/.git/worktrees/w\n")
            self.write("top/.git/worktrees/w/commondir", "../..\n")
            self.write("top/.git/worktrees/w/HEAD", "ref: refs/heads/tree\n")
            self.write("top/.git/worktrees/w/config.worktree", SECTION % ("w", "own"))
            self.inner += ["other", "other"]
        self.kind = kind

    def includes(self):
        """Includes with conditions. What they include may have the URL of a remote."""
        text = ""
        for number in range(self.one(0, 0, 1, 1, 2)):
            condition = self.one('includeIf "gitdir:%s/top/"' % self.folder, 'includeIf "gitdir:**/.git"',
                                 'includeIf "onbranch:main"', 'includeIf "onbranch:a/"', "include",
                                 *(f'includeIf "hasconfig:remote.*.url:{url}"'
                                   for url in ("https://*/**", "**", "git@x:y")),
                                 'includeIf "gitdir:./top/.git"', 'includeIf "gitdir:./"')
            name = f"included-{self.draw.randrange(4)}"
            if "hasconfig" in condition:
                self.words.add("hasconfig")
            text += SECTION % (condition, f"path = {self.folder}/{name}")
            if not (self.folder / name).exists():
                self.write(name, SECTION % ("i", f"{name} = {number}"))
                if self.urls and self.rarely(0.3):
                    self.write(name, SECTION % ('remote "i"', "url = https://i/x"))
        return text

    def settings(self, scope):
        """The settings of a file."""
        text = SECTION % ("a", f"{scope} = {self.draw.randrange(10)}") + self.includes()
        if self.urls and self.rarely(0.4):
            url = self.one("url = https://a/b", "url = git@x:y", "url = x", "pushurl = y", "url")
            if url == "url":
                self.words.add("URL alone")
            text += SECTION % ('remote "r"', url)
        if self.rarely(0.3):
            text += SECTION % ("safe", "directory" + self.safe())
        if self.rarely(0.05):
            text += SECTION % ("safe", "bareRepository = " + self.one("explicit", "all", "Explicit"))
            self.words.add("safe.bareRepository")
        if self.rarely(0.02):
            text += "[bad\n"
        return text

    def safe(self):
        value = self.one(" = *", " = %s/top" % self.folder, " = %s/other" % self.folder, " = %s/*" % self.folder, " =",
                         "", " = .", " = ~/../top", " = top", " = %s/top/" % self.folder, " = /*")
        if value.endswith("/*") or value in (" = .", " = ~/../top") or value.endswith("/top/"):
            self.words.add("safe path")
        return value

    def texts(self):
        """The files of the system and of the user."""
        for name, scope in (("system", "system"), ("home/.gitconfig", "home"), ("home/.config/git/config", "xdg"),
                            ("xdg/git/config", "xdg"), ("rel/git/config", "relative"), ("top/g", "top"),
                            ("top/deep/g", "deep"), ("other/g", "other"), ("top/rel/git/config", "rel")):
            if not self.rarely(0.2):
                self.write(name, self.settings(scope))

    def variables(self):
        """Variables that say where files are, and which repository is meant."""
        folder = self.folder
        choices = {
            "GIT_CONFIG_NOSYSTEM": ("1", "0", "yes", "maybe"),
            "GIT_CONFIG_SYSTEM": ("", "g", f"{folder}/missing"),
            "GIT_CONFIG_GLOBAL": ("g", "./g", f"{folder}/top/g", "", f"{folder}/missing", "../top/g"),
            "XDG_CONFIG_HOME": (f"{folder}/xdg", "rel", "", f"{folder}/xdg/", "./rel", ".//rel"),
            "HOME": ("", f"{folder}/home/", "rel", f"{folder}/missing", "./rel"),
            "GIT_CEILING_DIRECTORIES": (f"{folder}/top", f"{folder}/top/deep", str(folder), f":{folder}/top", "top",
                                        "..", f"..:{folder}/top/", f"x::{folder}/top/"),
            "GIT_DISCOVERY_ACROSS_FILESYSTEM": ("1", "0", "maybe", ""),
            "GIT_TEST_ASSUME_DIFFERENT_OWNER": ("1", "1", "0"),
        }
        for name, values in choices.items():
            if self.rarely():
                self.known[name] = self.one(*values)
                if name in OF_FILES and self.known[name] and not os.path.isabs(self.known[name]):
                    self.words.add("relative name")
        if self.rarely():
            self.known["GIT_DIR"] = self.one(".git", "top/.git", "../.git", f"{folder}/top/.git", f"{folder}/held", "",
                                             f"{folder}/top", ".", "missing")
            self.words.add("GIT_DIR")
        if self.rarely(0.07):
            self.known["GIT_WORK_TREE"] = self.one(f"{folder}/top", ".", "..", f"{folder}/other", "")
        if self.rarely(0.05):
            self.known["GIT_COMMON_DIR"] = self.one(f"{folder}/top/.git", ".git", "../.git", "", "missing")
        if self.rarely(0.03):
            self.known["GIT_OBJECT_DIRECTORY"] = self.one(f"{folder}/top/deep", "deep", "missing", "")
        if self.rarely(0.05):
            self.known["GIT_REFERENCE_BACKEND"] = self.one("files", "files://../../held", "reftable", "files://x", "x")
            self.words.add("store")
        if self.rarely(0.05):
            del self.known["HOME"]

    def command(self):
        """The settings of a command."""
        if self.rarely(0.2):
            count = self.one("1", "2", "1", "0", "", "x", "3")
            self.known["GIT_CONFIG_COUNT"] = count
            for number in range(2):
                key = self.one("a.count", "B.Count", "remote.c.url", "safe.directory", "bad", "include.path", "a.B.c",
                               "includeIf.gitdir:/.path", "includeIf.gitdir:./top.path")
                value = self.one("1", "*", f"{self.folder}/included-0", "https://c/d", "g", "", "a\nb#\"\\ ")
                self.known[f"GIT_CONFIG_KEY_{number}"] = key
                if not self.rarely(0.05):
                    self.known[f"GIT_CONFIG_VALUE_{number}"] = value
                if ":./" in key:
                    self.words.add("relative condition")
        if self.rarely(0.2):
            self.known["GIT_CONFIG_PARAMETERS"] = self.one(
                "'a.p'='1'", "'a.p=2' 'a.q'", "'a.p'", "'a.p'=", "'a.p'='1", "a.p=1", "'include.path'='rel'",
                "'safe.directory'='*'", "'remote.p.url'='https://p/q'", "'a.It'\\''s.p'='!'\\!''", "", " 'a.p'='1'",
                f"'include.path'='{self.folder}/included-1'")

    def owners(self):
        """Gives a repository to another user."""
        if not IS_ROOT:
            return
        if self.rarely(0.2):
            for name in ("top", "top/.git", "held", "other", "other/.git"):
                if self.rarely(0.5) and (self.folder / name).exists():
                    os.lchown(self.folder / name, OTHER, OTHER)
            self.words.add("owner")
        if self.rarely(0.1):
            self.known["SUDO_UID"] = self.one(str(OTHER), "1", "x", "")

    def described(self):
        known = {name: value.replace(str(self.folder), "/F") for name, value in self.known.items()
                 if name not in ("PATH", "LC_ALL", "PWD")}
        return f"{self.kind} in {self.where}, {known}, {sorted(self.words)}"


def is_read_first(place, told):
    """Whether Git stops at a file that it reads before it knows the repository: below a `GIT_DIR`, or by a relative name."""
    if re.search(rb"^(fatal: remote URLs cannot be |error: relative config includes )", told, re.MULTILINE):
        return True
    found = re.search(rb"^fatal: bad config line \d+ in file (.*)$", told, re.MULTILINE)
    if not found:
        return False
    name, given = os.fsdecode(found[1]), place.known.get("GIT_DIR")
    return not name.startswith("/") or bool(given) and name.startswith(given.rstrip("/") + "/")


def class_of(place, ours, git, running):
    """The class of the difference, or None."""
    rules = {
        classes.NOWHERE: place.kind in ("file", "tree") and b"not a git repository: " in git.told,
        classes.NO_PATH: git.told.startswith((b"fatal: Invalid path", b"fatal: The empty string")),
        classes.NO_TREE: git.told.startswith(b"fatal: cannot chdir to "),
        classes.NO_URL: git.status == -11 and "URL alone" in place.words,
        classes.PARTIAL: git.status == -11 and "partial clone alone" in place.words,
        classes.SAFE_PATH: "safe path" in place.words and all(scope != b"local" for scope, _, _ in git.settings),
        classes.EXTENSION: place.words & {"refstorage", "relativeworktrees"} and b"extension" in git.told + ours.told,
        classes.OF_COMMAND: "relative condition" in place.words and b"must come from files" in git.told,
        classes.COMMAND_KEY: "blank key" in place.words and b"invalid key" in ours.told,
        classes.REFUSED_DIR: "GIT_DIR" in place.words and git.told.startswith(b"warning: "),
        classes.FIRST: place.words & {"GIT_DIR", "relative name"} and is_read_first(place, git.told),
        classes.BARE: "safe.bareRepository" in place.words and ".git" in place.where.split("/"),
        classes.NO_WORD: git.status == -11 and "word alone" in place.words,
        classes.NO_STORE: "store" in place.words and (b"main_ref_store outside of repository" in git.told
                                                      or git.status == -11),
        classes.STORED: "store" in place.words,
    }
    return next((name for name, holds in rules.items()
                 if holds and classes.is_expected(classes.OF_PLACES[name], running)), None)


# a place in which a class is shown, or one without a class: the class, the words of its rule, variables, the folder,
# and the texts of files
Shown = collections.namedtuple("Shown", "name words known where texts kind", defaults=["file"])
REPOSITORY = {"top/.git/HEAD": "ref: refs/heads/main\n", "top/.git/objects/x": "", "top/.git/refs/x": "",
              "more": "[a]more=1\n"}
ON_MAIN, ON_DIR, ON_OTHER, ON_ANY, BESIDE = ('[includeIf "%s"]path=F/more\n' % condition for condition in (
    "onbranch:main", "gitdir:/", "onbranch:other", "onbranch:**", "gitdir:./"))
TO_OTHER, BARE_WORD = "ref: refs/heads/other\n", "[safe]bareRepository"
# references in a place of their own, in which work trees have folders
STORE = {"top/.git/own/HEAD": TO_OTHER, "top/.git/own/worktrees/w/HEAD": TO_OTHER, "system": ON_OTHER}
TREE = {"other/.git": "gitdir: F/top/.git/worktrees/w\n", "top/.git/worktrees/w/commondir": "../..\n",
        "top/.git/worktrees/w/HEAD": "ref: refs/heads/w\n"}
# texts of HEAD, of which most name no branch or are not Git's
HEADS = [*(f"ref: refs/heads/{name}\n" for name in (
    "a..b", "a.lock", "a.lock/b", ".a", "a.", "a b", "", "/a", "a//b", "a/", "../../x", "a\x1b", "a\x7f", "a\nb", "a\f",
    "a~", "a^", "a:", "a?", "a*", "a[", "a\\", "a@{b", "a@{", "@", "a{", "-a", "a\0x", "a \0x", "x" * 300)),
         "ref:\frefs/heads/a", "ref:\n\t refs/heads/a \r\n", "0" * 41,
         *(f"ref:{' ' * blanks}refs/heads/a" for blanks in (246, 247, 300))]
PLACES = [
    Shown(classes.NO_URL, {"URL alone"}, {}, "top",
          {"system": '[remote "r"]url\n[includeIf "hasconfig:remote.*.url:x"]path=F/more\n'}),
    Shown(classes.PARTIAL, {"partial clone alone"}, {}, "top",
          {"top/.git/config": "[core]repositoryformatversion=0\n[extensions]partialClone\n"}),
    Shown(classes.SAFE_PATH, {"safe path"}, {"GIT_TEST_ASSUME_DIFFERENT_OWNER": "1"}, "top",
          {"system": "[safe]directory=F/*\n", "top/.git/config": "[a]b=1\n"}),
    Shown(classes.EXTENSION, {"relativeworktrees"}, {}, "top",
          {"top/.git/config": "[core]repositoryformatversion=1\n[extensions]relativeWorktrees\n"}),
    Shown(classes.OF_COMMAND, {"relative condition"}, {"GIT_CONFIG_PARAMETERS": "'includeIf.gitdir:./x.path'='F/more'"},
          "top", {}),
    Shown(classes.COMMAND_KEY, {"blank key"}, {"GIT_CONFIG_PARAMETERS": "' a.b =c'"}, "top", {}),
    Shown(classes.REFUSED_DIR, {"GIT_DIR"}, {"GIT_DIR": ".git"}, "top",
          {"top/.git/config": "[core]repositoryformatversion=99\n", "system": ON_MAIN}),
    Shown(classes.BARE, {"safe.bareRepository"}, {}, "top/.git/refs",
          {"top/.git/config": "[extensions]worktreeConfig=x\n", "system": "[safe]bareRepository=explicit\n"}),
    Shown(classes.NOWHERE, set(), {}, "top/deep",
          {"top/deep/.git": "gitdir: nowhere\n", "top/.git/config": "[a]b=1\n"}),
    Shown(classes.NO_TREE, set(), {}, "top", {"top/.git/config": "[core]repositoryformatversion=0\n worktree=../x\n"}),
    Shown(classes.NO_PATH, {"GIT_DIR"}, {"GIT_DIR": ""}, "top", {"system": ON_DIR}),
    Shown(classes.FIRST, {"relative name"}, {"GIT_CONFIG_GLOBAL": "g"}, "top/deep", {"top/deep/g": "[bad\n", "top/g": ""}),
    Shown(classes.FIRST, {"GIT_DIR"}, {"GIT_DIR": "../top"}, "top", {"top/config": "[bad\n"}),
    Shown(classes.FIRST, {"GIT_DIR"}, {"GIT_DIR": "missing"}, "top",
          {"system": '[includeIf "gitdir:missing"]path=F/url\n[includeIf "hasconfig:remote.*.url:x"]path=F/more\n',
           "url": '[remote "r"]url=x\n'}),
    Shown(classes.NO_WORD, {"word alone"}, {}, "top/.git", {"system": BARE_WORD}),
    Shown(classes.STORED, {"store"}, {}, "top", STORE | {
        "top/.git/config": "[core]repositoryformatversion=1\n[extensions]refStorage=files://own\n"}),
    Shown(classes.STORED, {"store"}, {"GIT_REFERENCE_BACKEND": "files://own"}, "top", STORE),
    Shown(classes.STORED, {"store"}, {"GIT_REFERENCE_BACKEND": "files://own"}, "other", STORE | TREE),
    Shown(classes.STORED, {"store"}, {"GIT_REFERENCE_BACKEND": "x"}, "home", {}),
    Shown(classes.NO_STORE, {"store"}, {"GIT_REFERENCE_BACKEND": "files"}, "home", {"system": ON_ANY}),
    *(Shown(None, set(), {}, "top/.git", {"system": f"{BARE_WORD}{word}\n{BARE_WORD}=all\n"}) for word in ("=x", "=")),
    Shown(None, set(), {}, "bare", {"bare/HEAD": TO_OTHER, "bare/objects/x": "", "bare/refs/x": "",
                                    "bare/config": BESIDE, "home/.gitconfig": BARE_WORD + "=All"}),
    *(Shown(None, set(), {}, "top", {"top/.git/HEAD": head, "system": ON_ANY}) for head in HEADS),
    *(Shown(None, set(), {}, "top", {"top/.git/refs/heads/main": text, "system": ON_MAIN})
      for text in (TO_OTHER, "x", "0" * 40, "0" * 40 + " x", "0" * 41, "ref: refs/heads/main", "ref: refs/heads/a..b")),
    Shown(None, set(), {}, "top", {"top/.git/refs/heads/main/x": "", "system": ON_MAIN}),
    *(Shown(None, set(), {}, where, {"top/.git/config": BESIDE}) for where in ("top", "top/.git", "top/.git/refs")),
    *(Shown(None, set(), {"GIT_OBJECT_DIRECTORY": name}, "top/deep", {"top/deep/x": "", "top/.git/config": "[a]b=1\n"})
      for name in ("missing", "", "../deep")),
    *(Shown(None, set(), {}, "top", {f"top/.git/commondir{more}": text})
      for more, text in (("", ""), ("/x", ""), ("", "../missing/x"), ("", "../missing"), ("", "\n"))),
    Shown(None, set(), {}, "other", {"other/.git": "gitdir: ../top/.git\0x", "top/.git/config": "[a]b=1\n"}),
    *(Shown(None, set(), {"GIT_CEILING_DIRECTORIES": text}, "top/deep", {"top/.git/config": "[a]b=1\n"})
      for text in ("..", "..:F/top/", "x::F/top/", "F/top//", ":F/top//", "/", "F/../top")),
    *(Shown(None, set(), {name: "maybe", **more}, "top/deep", {"top/.git/config": "[a]b=1\n"})
      for name in ("GIT_CONFIG_NOSYSTEM", "GIT_DISCOVERY_ACROSS_FILESYSTEM")
      for more in ({}, {"GIT_DIR": "../.git"}, {"GIT_DIR": "x"})),
    *(Shown(None, set(), {"GIT_COMMON_DIR": name}, "top/deep", {"top/.git/config": "[a]b=1\n"})
      for name in ("../.git", ".git", "", "F/top/.git")),
    Shown(None, set(), {"GIT_COMMON_DIR": "../.git"}, "top/deep",
          {"top/.git/config": "[core]repositoryformatversion=99\n", "system": ON_DIR}),
    *(Shown(None, set(), {name: f".{slashes}x"}, "top",
            {"top/x/.config/git/config": "[a]b=1\n", "top/x/git/config": "[a]b=2\n"})
      for name in ("HOME", "XDG_CONFIG_HOME") for slashes in ("/", "//")),
    *(Shown(None, set(), {"GIT_WORK_TREE": "", **more}, "top", {"top/.git/config": "[a]b=1\n"})
      for more in ({}, {"GIT_DIR": ".git"}, {"GIT_DIR": "x"})),
    # a user whom nobody knows, also behind a value that names every folder
    *(Shown(None, set(), {"GIT_TEST_ASSUME_DIFFERENT_OWNER": more}, "top",
            {"system": f"[safe]directory{first}\n[safe]directory=~nobody-of-this-name/x\n", "top/.git/config": "[a]b=1\n"})
      for more in ("0", "1") for first in ("=*", "=", "=%(prefix)/x")),
    *(Shown(None, set(), {}, "top", {"top/.git/config": f"[core]{line}\n[a]b=1\n[bad\n"}) for line in ("bare=x", "bare=no")),
    # a line of a file, and a file, before the settings of the command
    *(Shown(None, set(), {"GIT_TEST_ASSUME_DIFFERENT_OWNER": "1", "GIT_CONFIG_COUNT": "x"}, "top",
            {"system": text, "top/.git/config": "[a]b=1\n"}) for text in ("[bad\n", "[include]path\n", "[a]b=1\n")),
]
MADE = r"""
git init -q -b main work; git -C work commit -q --allow-empty -m x; mkdir -p work/deep
git -C work worktree add -q ../tree; git -C work config extensions.worktreeConfig true
git -C tree config --worktree core.x tree; git -C work config --worktree core.x work
git init -q --bare bare.git; git init -q -b main owned; git init -q -b main detached
git -C detached commit -q --allow-empty -m x; git -C detached checkout -q --detach
git -c protocol.file.allow=always -C work submodule --quiet add ../detached sub 2> /dev/null
git init -q -b main hooked; printf '#!/bin/sh\nexec sh "$SCRIPT" > "$OUTPUT"\n' > hooked/.git/hooks/pre-commit
chmod +x hooked/.git/hooks/pre-commit; git init -q above; mkdir above/mounted; mkdir home
printf '[includeIf "onbranch:main"]\n\tpath = more\n[includeIf "gitdir:**/work/"]\n\tpath = more\n' > home/.gitconfig
printf '[includeIf "onbranch:in/"]\n\tpath = more\n' >> home/.gitconfig; printf '[a]\n\tmore = 1\n' > home/more
export GIT_DEFAULT_REF_FORMAT=reftable GIT_TEST_REFTABLE_AUTOCOMPACTION=false
git init -q -b main table; git -C table commit -q --allow-empty -m x; git -C table worktree add -q -b in/tree ../tables
git init -q -b main --object-format=sha256 moved; git -C moved commit -q --allow-empty -m x
git clone -q moved loose; git -C moved checkout -q -b in/deep; git -C loose checkout -q --detach
git init -q -b main long; git -C long commit -q --allow-empty -m x; git -C long config reftable.blockSize 1048576
seq -f "create refs/heads/b%g $(git -C long rev-parse HEAD)" 3000 | git -C long update-ref --stdin
git -C long pack-refs
git init -q -b by/name named; git -C named symbolic-ref refs/heads/by/name refs/heads/in/named
"""
SAFE = {"GIT_CONFIG_COUNT": "1", "GIT_CONFIG_KEY_0": "safe.directory", "GIT_CONFIG_VALUE_0": "*"}
COUNTED = {"GIT_CONFIG_COUNT": "2", "GIT_CONFIG_KEY_0": "a.b", "GIT_CONFIG_VALUE_0": "c",
           "GIT_CONFIG_KEY_1": "a.b", "GIT_CONFIG_VALUE_1": "d \\\"\n"}
# how a reader is called: `git` is the Git that is compared, and `script` calls the reader
ALIAS = ("git", "-c", "a.b=c d", "-c", "e.f", "-c", 'alias.x=!sh "$SCRIPT"', "x")
HOOK = ("git", "-c", "a.b='", "--config-env=g.h=HOME", "hook", "run", "pre-commit")
MOUNT = ("unshare", "-m", "sh", "-ec", 'mount -t tmpfs none "$PWD"; cd "$PWD"; exec sh "$SCRIPT"')
NO_PROC = ("unshare", "-m", "sh", "-ec", 'mount -t tmpfs none /proc; exec sh "$SCRIPT"')
# a layout: its folder, more variables, or None for no variables at all, and the words that call the reader
Layout = collections.namedtuple("Layout", "name folder more words", defaults=[{}, ("sh", "-c", 'exec sh "$SCRIPT"')])
LAYOUTS = [
    Layout("a linked work tree", "tree"), Layout("a submodule", "work/sub"),
    Layout("a bare repository", "bare.git/refs"), Layout("a detached HEAD", "detached"),
    Layout("files of work trees", "work/deep"),
    Layout("two counted settings", "work", COUNTED), Layout("no variables", "work", None),
    Layout("an alias", "work/deep", {}, ALIAS), Layout("a hook", "hooked", {}, HOOK),
    # in Git since 2.45 with a reftable
    Layout("a table", "table"), Layout("a table of a linked work tree", "tables"),
    Layout("a branch after another", "moved"), Layout("a detached HEAD after a branch", "loose"),
    Layout("a table whose first block is long", "long"), Layout("a branch that names another one", "named"),
]
# in Git since 2.54
PLACED = [Layout("a table in a place of its own", "work", {"GIT_REFERENCE_BACKEND": "reftable://../../moved/.git"})]
# those that need root
OF_ROOT = [Layout("another owner", "owned"), Layout("another owner that is safe", "owned", SAFE),
           Layout("a mount", "above/mounted", {}, MOUNT), Layout("no /proc", "work", SAFE, NO_PROC)]


class Comparison:
    """What was compared: counts, and the faults."""

    def __init__(self, arguments, git, folder):
        self.git, self.folder = git, folder
        # the readers that are compared with Git: how each is called, and how its output is read
        self.ours = {}
        if arguments.program:
            self.ours[""] = listing(os.path.abspath(arguments.program)), of_git
        if arguments.python:
            self.ours[" in Python"] = python_words(arguments.python), of_python
        if arguments.c:
            self.ours[" in C"] = [os.path.abspath(arguments.c)], of_python
        self.expected = [name for name, when in classes.OF_PLACES.items() if classes.is_expected(when, git.running)]
        self.counts = collections.Counter()
        self.faults = []

    def ask(self, name, folder, known, place=None):
        """Compares the answers in a folder."""
        git = of_git(run_in(folder, known, listing(self.git.command, "config")))
        for reader, (words, answer) in self.ours.items():
            self.judge(name + reader, answer(run_in(folder, known, words)), git, place)

    def judge(self, name, ours, git, place=None):
        if is_same(ours, git):
            self.counts[name if git.status == 0 else f"{name} that are refused"] += 1
            return
        found = class_of(place, ours, git, self.git.running) if place else None
        if found:
            self.counts[found] += 1
        else:
            what = place.described() if isinstance(place, Place) else place or ""
            self.faults.append((f"{name}: {what}", ours, git))

    def places(self, arguments):
        draw = random.Random(arguments.seed)
        for number in range(arguments.places):
            folder = self.folder / str(number)
            folder.mkdir()
            place = Place(draw, folder)
            self.ask("random places", folder / place.where, place.known, place)
            shutil.rmtree(folder)

    def shown(self):
        """Asks in the place of each class, and in those without one."""
        for number, place in enumerate(PLACES):
            folder = self.folder / f"shown-{number}"
            for name, text in (REPOSITORY | place.texts).items():
                (folder / name).parent.mkdir(parents=True, exist_ok=True)
                (folder / name).write_text(text.replace("F/", f"{folder}/"))
            known = {name: value.replace("F/", f"{folder}/") for name, value in place.known.items()}
            name = "places of classes that are not expected" if place.name else "single places"
            (folder / place.where).mkdir(parents=True, exist_ok=True)
            self.ask(name, folder / place.where, plain(folder) | known, place)

    def called(self, layout, reader):
        """What a reader answers that is called in a layout."""
        script, output = self.folder / "script", self.folder / "output"
        script.write_text("exec " + shlex.join(map(str, reader)) + "\n")
        output.write_bytes(b"")
        known = {**plain(self.folder), **(layout.more or {}), "SCRIPT": str(script), "OUTPUT": str(output)}
        if layout.more is None:
            known = {name: known[name] for name in ("PATH", "SCRIPT")}
        words = [self.git.command if word == "git" else word for word in layout.words]
        run = run_in(self.folder / layout.folder, known, words)
        return subprocess.CompletedProcess(words, run.returncode, run.stdout or output.read_bytes(), run.stderr)

    def layouts(self):
        """Compares the layouts that Git's own commands make."""
        people = {f"GIT_{who}_{what}": "x@x" for who in ("AUTHOR", "COMMITTER") for what in ("NAME", "EMAIL")}
        subprocess.run(["sh", "-ec", MADE], cwd=self.folder, env=plain(self.folder) | people, check=True)
        if IS_ROOT:
            subprocess.run(["chown", "-R", str(OTHER), self.folder / "owned"], check=True)
        else:
            print(f"skipped: {len(OF_ROOT)} layouts, which need root")
        for layout in LAYOUTS + PLACED * (self.git.running["Git"] >= (2, 54)) + OF_ROOT * IS_ROOT:
            git = of_git(self.called(layout, listing(self.git.command, "config")))
            if layout.words in (MOUNT, NO_PROC) and git.status != 0:
                print(f"skipped: {layout.name}, since {git.told.decode(errors='replace').strip()}")
                continue
            for reader, (words, answer) in self.ours.items():
                name = (layout.name if git.settings else "a layout without settings") + reader
                self.judge(name, answer(self.called(layout, words)), git)


def compare(arguments, folder):
    git = readers.Command(arguments.git, folder)
    print(f"{git.said}, seed {arguments.seed}")
    comparison = Comparison(arguments, git, folder)
    comparison.shown()
    comparison.places(arguments)
    comparison.layouts()
    return report(comparison, "{}:\n  {} here\n  {} in Git", SHOWN)


def main():
    return compared(compare, seed=1, places=400)


if __name__ == "__main__":
    sys.exit(main())
