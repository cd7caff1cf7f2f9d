"""Tests configurations from files, and edits of files, and compares them with Git if it is installed.

Run in this folder, with the package installed: python -W error -bb -m unittest test_files
"""
import concurrent.futures
import copy
import errno
import getpass
import inspect
import itertools
import json
import os
import pathlib
import pickle
import re
import resource
import shutil
import signal
import stat
import subprocess
import sys
import tempfile
import threading
import time
import unittest
from collections.abc import Mapping, Sequence
from unittest import mock

from gix_config_value import (Color, Configuration, Entries, Entry, InvalidFile, Refused, boolean, edit, edit_repository,
                              integer, lookup, path, read, read_repository)

TYPED = """[core]
    bare
    limit = 10k
    editor = vi
    bare = no
    hooksPath = ~/hooks
[color "branch"]
    Current = red bold
    current = reddish
[branch "Main"]
    rebase
"""
# conditions that are slow if each star is tried again at all its places, on a branch, a folder or a URL that is a run of
# this many letters; and whether they hold in Git 2.55.0, which needs no time
STARS = [(100, "onbranch:" + "*a" * 5 + "*ab", False), (200, "onbranch:" + "*a" * 4 + "*ab", False),
         (200, "onbranch:" + "*a" * 50, True), (60_000, "hasconfig:remote.*.url:" + "*a" * 60_000, True),
         (100, "onbranch:**/" + "a*" * 5 + "ab", False), (100, "onbranch:*[" + "[:" * 2000, False),
         (100, "gitdir:" + "*a" * 6 + "b/.git", False), (100, "gitdir:" + "*a" * 6 + "/.git", True)]
# files of a tree, of which `main` is read; {root} is the folder of the tree, and {user} the current user
FILES = {
    "one after the other": {"main": "[a]k=1\nk\n[b \"C\\\"d\"]K=\n[a] k = x # y\n"},
    "texts": {"main": "\ufeff[a]b=\"q\\n \" \\\n  c d ; e\r\n[a.B]c=\\\"\\\\\\t\n[a \"\u00e9\"]c=\u00e9\udcff\n"},
    "no section": {"main": "k=1\n[x]\ny"},
    "in place": {"main": "[a]k=1\n[include]path=other\nk=2\n[a]k=3", "other": "[hit]k=1\nk=2"},
    "in folders": {"main": "[include]path=s/one", "s/one": "[include]path=two\npath=../two\npath=/{root}/two",
                   "s/two": "[hit]k=1", "two": "[hit]k=2"},
    "names of any bytes": {"main": "[include]path=\udcff/x\n", "\udcff/x": "[include]path=\u00e9\n[a]k",
                           "\udcff/\u00e9": "[hit]k"},
    "twice, and none": {"main": "[include]path=o\npath=o\npath=none\npath=o/x\npath=", "o": "[hit]k=1"},
    "at home": {"main": "[include]path=~/h\npath=~{user}/no such file", "home/h": "[hit]k=1"},
    "other keys": {"main": "[include]path2=o\n[include \"x\"]path=o\n[includeIf]path=o\n[includeif \"\"]path=o", "o": "bad ="},
    "conditions": {
        "main": "".join(f"[includeIf \"{condition}\"]path=hit\n" for condition in (
            "gitdir:.git", "gitdir:.GIT", "gitdir/i:.GIT", "gitdir:{root}/", "gitdir:*", "gitdir:/*", "gitdir:**/x/**",
            "onbranch:topic/*", "onbranch:topic/", "onbranch:topic", "onbranch:**", "Gitdir:.git", "unknown:")),
        "hit": "[hit]k"},
    "remotes": {"main": "[remote \"a\"]url=https://a/b\nurl=git@c:d\n[remote]url=e\npushurl=f\n" + "".join(
        f"[includeIf \"hasconfig:remote.*.url:{url}\"]path=hit\n" for url in (
            "https://*/**", "git@c:*", "e", "f", "https://A/b", "**", "x")), "hit": "[hit]k"},
    "remotes of included files": {"main": "[includeIf \"hasconfig:remote.*.url:x\"]path=hit\n[include]path=more\n",
                                  "hit": "[hit]k", "more": "[remote \"a.b\"]url=x"},
    "ten deep": {"main": "[include]path=1", **{str(at): f"[hit]k={at}\n[include]path={at + 1}" for at in range(1, 11)}},
    "eleven deep": {"main": "[include]path=1", **{str(at): f"[include]path={at + 1}" for at in range(1, 12)}},
    "itself": {"main": "[include]path=main"},
    "a bad line": {"main": "[a]b=1\n[a\n"},
    "a bad line of an included file": {"main": "[include]path=s/o\n", "s/o": "[a]b=1\nc=\"\n"},
    "a bad line after the include of another": {"main": "[include]path=o\n[a\n", "o": "[a]b=1\n[a\n"},
    "a bad line after itself": {"main": "[include]path=main\n[a\n"},
    "no path": {"main": "[a]b=1\n[include]\npath\n"},
    "no such user": {"main": "\n[include]path=~no_such_user/x\n"},
    "a folder": {"main": "[include]path=s\n", "s/x": ""},
}


# what makes Git use no repository: the settings of its format, and Git's reason
UNUSED = [("[core]repositoryformatversion=99", "Expected git repo version <= 1, found 99"),
          ("[core]repositoryformatversion=1\n[extensions]Foo=1", "unknown repository extension found: foo"),
          ("[core]repositoryformatversion=0\n[extensions]objectFormat=sha1",
           "repo version is 0, but v1-only extension found: objectformat")]
# what Git stops at: variables or a setting of the format, and the code
STOPS = [({"GIT_CONFIG_COUNT": "x"}, "bad_count"), ({"GIT_CONFIG_COUNT": "1"}, "missing_key"),
         ({"GIT_CONFIG_COUNT": "1", "GIT_CONFIG_KEY_0": "a.b"}, "missing_value"),
         ({"GIT_CONFIG_COUNT": "1", "GIT_CONFIG_KEY_0": "ab", "GIT_CONFIG_VALUE_0": ""}, "no_section"),
         ({"GIT_CONFIG_COUNT": "1", "GIT_CONFIG_KEY_0": "", "GIT_CONFIG_VALUE_0": ""}, "empty_key"),
         ({"GIT_CONFIG_COUNT": "1", "GIT_CONFIG_KEY_0": "a.b_c", "GIT_CONFIG_VALUE_0": ""}, "bad_key"),
         ({"GIT_CONFIG_COUNT": "99999999999"}, "too_many_settings"),
         ({"GIT_CONFIG_PARAMETERS": "a.b=c"}, "bad_parameters"), ({"GIT_CONFIG_PARAMETERS": "'=c'"}, "no_key"),
         ({"GIT_CONFIG_PARAMETERS": "'include.path'='more'"}, "relative"),
         ("[core]bare=x", "bad_format"), ("[core]repositoryformatversion=x", "bad_format"),
         ("[core]repositoryformatversion=1\n[extensions]objectFormat=md5", "bad_format")]

# edits after which a file is as Git leaves it, one after the other; what they begin with has Git's own layout
AS_GIT = [
    ("", [("set", "user.name", "A B"), ("set", "user.name", "C"), ("add", "user.name", " x"), ("unset_all", "user.name"),
          ("set", "branch.Main.merge", "a;b"), ("set", "branch.main.merge", "")]),
    ("# top\n[core]\n\tbare = true\n[user]\n\tname = A\n", [
        ("set", "core.bare", "no"), ("set", "core.editor", "vi \\ \"q\"\t\n"), ("unset", "user.name"),
        ("add", "core.bare", "\u00e9\udcff"), ("replace_all", "core.bare", "x # y"), ("unset", "core.bare")]),
    ("[a]\n\tk = 1\n\tk = 2\n\tj = 3\n[b]\n\tk = 4\n[a]\n\tk = 5\n", [
        ("replace_all", "a.k", "6"), ("add", "a.k", "7"), ("unset_all", "a.k"), ("rename_section", "a", "c.D e"),
        ("remove_section", "b"), ("remove_section", "c.D e")]),
]
# edits of this file that are refused, by Git too, and the code
SEVERAL = "[a]\n\tk = 1\n\tk = 2\n"
REFUSED = [(("set", "ab", "v"), "no_section"), (("set", "a.", "v"), "no_key_name"), (("add", "a.k_", "v"), "bad_key"),
           (("set", "a.x\ny.k", "v"), "key_line_feed"), (("set", "a.k", "v"), "several"), (("unset", "a.k"), "several"),
           (("unset", "a.j"), "absent"), (("unset_all", "b.k"), "absent"), (("rename_section", "b", "c"), "absent"),
           (("remove_section", "b"), "absent"), (("rename_section", "a", "b c"), "bad_section")]
# edits of what has another layout than Git's, and the text that is left
KEPT = [("[user]\n\tname = A # me\n", ("set", "user.name", "B C"), "[user]\n\tname = B C # me\n"),
        ("[a] Bare\r\n", ("set", "a.bare", "no"), "[a] Bare = no\r\n"),
        ("[a]\r\n\tk=v\r\n", ("add", "a.j", "w"), "[a]\r\n\tk=v\r\n\tj = w\r\n"),
        ("[a] k = v\\", ("set", "b.k", "w"), "[a] k = v\\\n\n[b]\n\tk = w\n"),
        ("[a] k = v # c\n[b]\n", ("unset", "a.k"), "[b]\n"),
        ("[a]\n\tk = v\n\n# of b\n[b]\n", ("remove_section", "a"), "# of b\n[b]\n")]
# adds to a file, from one of two processes
ADDS = """
import sys, time
from gix_config_value import edit
end = time.monotonic() + 60
for at in range(60):
    while time.monotonic() < end:
        try:
            with edit("main") as file:
                file.add(f"a.{sys.argv[1]}", str(at))
            break
        except FileExistsError:
            pass
"""


def listing(output):
    """The entries that `git config --list -z --show-origin` writes, as a file, a key and a text."""
    fields = os.fsdecode(output).split("\0")[:-1]
    pairs = [entry.partition("\n") for entry in fields[1::2]]
    return [(origin[len("file:"):], key, text if line else None) for origin, (key, line, text) in zip(fields[::2], pairs)]


class Files(unittest.TestCase):
    def setUp(self):
        folder = tempfile.TemporaryDirectory()
        self.addCleanup(folder.cleanup)
        self.root = os.path.realpath(folder.name)
        variables = {"PATH": os.environ.get("PATH", ""), "HOME": f"{self.root}/home", "GIT_CONFIG_NOSYSTEM": "1",
                     "GIT_CEILING_DIRECTORIES": os.path.dirname(self.root), "LC_ALL": "C.UTF-8"}
        patch = mock.patch.dict(os.environ, variables, clear=True)
        patch.start()
        self.addCleanup(patch.stop)
        self.addCleanup(os.chdir, os.getcwd())
        self.enter(".")

    def enter(self, folder):
        """Changes to a folder, as a shell does."""
        os.chdir(os.path.join(self.root, folder))
        os.environ["PWD"] = os.path.normpath(os.path.join(self.root, folder))

    def write(self, files):
        for name, text in files.items():
            file = pathlib.Path(self.root, name)
            file.parent.mkdir(parents=True, exist_ok=True)
            text = text.replace("{root}", self.root).replace("{user}", getpass.getuser())
            file.write_bytes(text.encode("utf-8", "surrogateescape"))

    def git(self, *words, fails=False):
        done = subprocess.run(["git", *words], stdout=subprocess.PIPE, stderr=subprocess.PIPE, check=False)
        self.assertEqual(done.returncode != 0, fails, done.stderr)
        return done.stderr.decode() if fails else done.stdout

    def refused(self, call, *words, **keywords):
        with self.assertRaises((Refused, InvalidFile)) as caught:
            call(*words, **keywords)
        return caught.exception

    def texts(self, *names):
        """The texts of these files, `None` for one that is not there."""
        files = [pathlib.Path(self.root, name) for name in names]
        return [os.fsdecode(file.read_bytes()) if file.exists() else None for file in files]

    def edit(self, name, word, *words):
        with edit(name) as file:
            getattr(file, word)(*words)


@unittest.skipUnless(shutil.which("git"), "Git is not there")
class AsGit(Files):
    def test_files(self):
        for note, files in FILES.items():
            with self.subTest(note):
                self.root = tempfile.mkdtemp(dir=self.root)
                self.enter(".")
                self.git("init", "-q", "-b", "topic/one")
                self.write({"home/.gitconfig": "", **files})
                os.environ["HOME"] = f"{self.root}/home"
                self.compare("main", False)
                self.compare("main", True)
                self.compare(f"{self.root}/main", True)
                self.root = os.path.dirname(self.root)

    def compare(self, file, includes):
        words = ("config", "-f", file, "--list", "-z", "--show-origin", *["--includes"] * includes)
        done = subprocess.run(["git", *words], stdout=subprocess.PIPE, stderr=subprocess.PIPE, check=False)
        if done.returncode == 0:
            config = read(file, includes=includes, repository=".")
            self.assertEqual([(entry.file, entry.key, entry.text) for entry in config.entries], listing(done.stdout))
            self.assertEqual(dict(config), {key: text for _, key, text in listing(done.stdout)})
            return
        refused = self.refused(read, file, includes=includes, repository=".")
        told = re.search(r"bad config line (\d+) in file (.*)", done.stderr.decode())
        self.assertEqual((refused.line, refused.file) if told else refused.code,
                         (int(told[1]), told[2]) if told else "too_deep")

    def repository(self, path=".", top="", same_names=True):
        """Compares the configuration in a folder, where Git works in the folder `top`."""
        wanted = listing(self.git("-C", path, "config", "--list", "-z", "--show-origin"))
        given = [(entry.file, entry.key, entry.text) for entry in read_repository(path).entries]
        if not same_names:
            wanted = [(os.path.realpath(os.path.join(self.root, top, file)), *more) for file, *more in wanted]
            given = [(os.path.realpath(file), *more) for file, *more in given]
        self.assertEqual(given, wanted)
        return {file for file, *_ in given}

    def test_colors(self):
        texts = (None, "", " = always", " = AUTO", " = Never", " = true", " = 2k", " = no", " =", " = 0")
        rows = [(own, general) for own in texts for general in texts]
        rows += [(own, None) for own in (" = sometimes", " = 08", ' = "always "')] + [(None, " = neverr")]
        for own, general in rows:
            self.write({"c": "".join(f"[color]\n\t{name}{text}\n" for name, text in (("table", own), ("ui", general))
                                     if text is not None)})
            for is_terminal, term in itertools.product((True, False), ("xterm", "dumb")):
                words = ("git", "config", "-f", "c", "--get-colorbool", "color.table", str(is_terminal).lower())
                git = subprocess.run(words, stdout=subprocess.PIPE, stderr=subprocess.DEVNULL, check=False,
                                     env={**os.environ, "TERM": term})
                if git.returncode != 0:
                    refused = self.refused(read("c").uses_color, "color.table", is_terminal)
                    self.assertEqual((refused.code, refused.file, refused.line), ("boolean", "c", 2), (own, general))
                    continue
                depth = read("c").uses_color("Color.Table", is_terminal, {"TERM": term})
                self.assertEqual(depth, 16 if git.stdout == b"true\n" else None, (own, general, is_terminal, term))

    def test_repositories(self):
        hits = "".join(f"[includeIf \"{condition}\"]path=hit\n[c]d={condition}\n" for condition in (
            "gitdir:r/", "gitdir:bare", "gitdir:bare/.", "gitdir:link/", "gitdir:**/worktrees/w", "onbranch:main",
            "onbranch:w", "gitdir:{root}/**"))
        self.write({"home/.gitconfig": f"[user]name=me\n{hits}", "home/hit": "[hit]k", "xdg/git/config": "[x]dg=1",
                    "home/.config/git/config": "[x]dg=2", "system": "[sys]tem\n[user]name=nobody", "own": "[o]wn"})
        self.git("init", "-q", "-b", "main", "r")
        self.git("init", "-q", "--bare", "bare")
        self.git("init", "-q", "--separate-git-dir", "elsewhere", "apart")
        self.git("-C", "r", "-c", "user.email=a@b", "commit", "-q", "--allow-empty", "-m", "x")
        self.git("-C", "r", "worktree", "add", "-q", "../w")
        os.makedirs("r/deep/er")
        os.symlink("r", "link")
        self.assertEqual(len(self.repository()), 2)
        for _ in range(2):
            for name in ("r", "bare", "apart", "w", "link", "r/deep", "r/.git", "r/.git/refs"):
                self.enter(name)
                self.repository(same_names=name not in ("r/deep", "r/.git/refs"), top="r")
                self.enter(".")
                self.repository(name, same_names=False, top=name.replace("/deep", ""))
            # the second time each worktree has a file of its own
            self.git("-C", "r", "config", "extensions.worktreeConfig", "true")
            self.git("-C", "r", "config", "--worktree", "own.r", "1")
            self.git("-C", "w", "config", "--worktree", "own.w", "2")
        self.assertEqual([read_repository(name).value("own.w", integer) for name in "rw"], [None, 2])
        self.variables()

    def variables(self):
        self.enter("r")
        for name, value in (("XDG_CONFIG_HOME", f"{self.root}/xdg"), ("XDG_CONFIG_HOME", ""), ("HOME", "/none"),
                            ("GIT_CONFIG_GLOBAL", f"{self.root}/own"), ("GIT_CONFIG_GLOBAL", ""),
                            ("GIT_CONFIG_NOSYSTEM", "false"), ("GIT_DIR", "../w/.git"), ("GIT_DIR", "../bare"),
                            ("GIT_DIR", "/none"), ("GIT_COMMON_DIR", "../bare"), ("PWD", "/none")):
            with self.subTest(name, value=value), mock.patch.dict(os.environ, {name: value}):
                os.environ["GIT_CONFIG_SYSTEM"] = f"{self.root}/system"
                self.repository()
        with mock.patch.dict(os.environ):
            del os.environ["HOME"]
            self.repository()
        # in a folder of a work tree Git takes names from its top
        self.write({"r/own": "[o]wn=top", "r/deep/own": "[o]wn=deep", "r/x/git/config": "[x]dg=3"})
        for name, value in (("GIT_CONFIG_GLOBAL", "own"), ("GIT_CONFIG_SYSTEM", "own"), ("XDG_CONFIG_HOME", "x")):
            with self.subTest(name, value=value), mock.patch.dict(os.environ, {name: value}):
                self.repository("deep", same_names=False, top="r")
        for ceilings in (f"{self.root}/r", f":{self.root}/r/"):
            os.environ["GIT_CEILING_DIRECTORIES"] = ceilings
            self.assertEqual(len(self.repository("deep/er", same_names=False)), 2, ceilings)

    def test_scopes_edited(self):
        # what Git changes in the same folder, and where it finds nothing to change
        self.write({"home/.config/git/config": "[a]k=xdg\n", "system": "", "other/x": ""})
        self.git("init", "-q", "-b", "topic/x", "r")
        self.git("-C", "r", "config", "extensions.worktreeConfig", "true")
        os.environ["GIT_CONFIG_SYSTEM"] = f"{self.root}/system"
        os.environ["GIT_CONFIG_NOSYSTEM"] = "0"
        os.makedirs("r/deep")
        for folder in ("r", "r/deep", "."):
            self.enter(folder)
            for scope in ("local", "worktree", "global", "system"):
                if folder == "." and scope in ("local", "worktree"):
                    self.assertRaises(FileNotFoundError, edit_repository, ".", scope)
                    continue
                with edit_repository(scope=scope) as file:
                    file.set("a.k", f"{folder} {scope}")
                self.assertEqual(self.git("config", f"--{scope}", "--get", "a.k").decode(), f"{folder} {scope}\n")
                self.git("config", f"--{scope}", "a.k", "git")
        self.assertEqual(self.texts("home/.gitconfig", "system", "home/.config/git/config"),
                         [None, "[a]\n\tk = git\n", "[a]\n\tk = git\n"])
        self.write({"home/.gitconfig": ""})
        with edit_repository("r", "global") as file:
            file.set("a.k", "2")
        self.assertEqual(self.texts("home/.gitconfig"), ["[a]\n\tk = 2\n"])
        config = read_repository("r")
        self.assertEqual((config.branch, read_repository().branch), ("topic/x", None))
        self.assertEqual([scope for scope, _ in config.files], ["system", "global", "global", "local", "worktree"])
        self.assertEqual([os.path.realpath(name) for _, name in config.files[-2:]],
                         [f"{self.root}/r/.git/config", f"{self.root}/r/.git/config.worktree"])
        for again in (copy.copy(config), pickle.loads(pickle.dumps(config)), config.in_scope("local", "worktree")):
            self.assertEqual((again.branch, again.files[-2:]), (config.branch, config.files[-2:]))
        self.assertRaises(ValueError, edit_repository, "r", "command")
        self.assertRaises(FileNotFoundError, edit_repository, "none")
        self.write({"r/.git/config": UNUSED[0][0]})
        with self.assertRaises(FileNotFoundError) as caught:
            edit_repository("r")
        self.assertEqual(caught.exception.strerror, UNUSED[0][1])

    def test_edits(self):
        for text, edits in AS_GIT:
            self.write({"ours": text, "git": text})
            for word, *words in edits:
                self.edit("ours", word, *words)
                flags = [] if word == "set" else [f"--{word.replace('_', '-')}"]
                self.git("config", "--file", "git", *flags, *words)
                ours, git = self.texts("ours", "git")
                self.assertEqual(ours, git, (text, word, words))

    def test_refused_edits(self):
        self.write({"main": SEVERAL})
        for (word, *words), _ in REFUSED:
            flags = [] if word == "set" else [f"--{word.replace('_', '-')}"]
            self.git("config", "--file", "main", *flags, *words, fails=True)
        self.assertEqual(self.texts("main"), [SEVERAL])

    def test_broken_repositories(self):
        self.git("init", "-q", "r")
        self.write({"home/.gitconfig": "[a]b\n[include]path=c", "home/c": "[d"})
        self.assertEqual(str(self.refused(read_repository, "r")), f"{self.root}/home/c:2: a line of the file is invalid")
        self.assertIn(f"bad config line 2 in file {self.root}/home/c",
                      self.git("-C", "r", "config", "--list", fails=True))

    def scoped(self):
        """What Git lists: the scope, the origin, the key and the text of each entry."""
        told = self.git("config", "--list", "-z", "--show-scope", "--show-origin")
        fields = os.fsdecode(told).split("\0")[:-1]
        pairs = [entry.partition("\n") for entry in fields[2::3]]
        return [(scope, origin, key, text if line else None)
                for scope, origin, (key, line, text) in zip(fields[::3], fields[1::3], pairs)]

    def is_listed(self):
        """Compares all that is read in this folder, and returns it."""
        config = read_repository()
        given = [(entry.scope, entry.origin, entry.key, entry.text) for entry in config.entries]
        self.assertEqual(given, self.scoped())
        return config

    def test_all_sources(self):
        self.git("init", "-q", "r")
        self.git("-C", "r", "config", "remote.o.url", "https://a/b")
        self.write({"system": "[a]s", "home/.gitconfig": "[includeIf \"hasconfig:remote.*.url:https://*/**\"]path=hit",
                    "home/hit": "[hit]k", "more": "[more]k\n[include]path=most", "most": "[most]k"})
        self.enter("r")
        counted = {"GIT_CONFIG_COUNT": " +2", "GIT_CONFIG_KEY_0": "A.X y.B", "GIT_CONFIG_VALUE_0": "c \"\\\n",
                   "GIT_CONFIG_KEY_1": "include.path", "GIT_CONFIG_VALUE_1": f"{self.root}/more"}
        os.environ["GIT_CONFIG_NOSYSTEM"] = "0"
        os.environ["GIT_CONFIG_SYSTEM"] = f"{self.root}/system"
        for more in ({}, counted, {"GIT_CONFIG_PARAMETERS": "'a.b=c' 'a.d' 'a.e'='f'\\''g'"}):
            with self.subTest(more), mock.patch.dict(os.environ, more):
                config = self.is_listed()
                self.assertEqual((config["hit.k"], len(config.entries_of("hit.k")), config.refusal), (None, 1, None))
        self.assertEqual([entry.scope for entry in config.entries_of("a.e")], ["command"])

    def test_refused_repositories(self):
        self.git("init", "-q", "r")
        config = pathlib.Path(self.root, "r/.git/config")
        self.enter("r")
        for text, reason in UNUSED:
            with self.subTest(text):
                config.write_text(text)
                refused = self.is_listed()
                self.assertEqual((refused.refusal, len(refused)), (reason, 0))
                self.assertIn(reason, " ".join(self.git("status", fails=True).split()))
                for again in (copy.copy(refused), pickle.loads(pickle.dumps(refused)), eval(repr(refused))):
                    self.assertEqual(again.refusal, reason)
        config.write_text("[a]b")
        os.environ["GIT_TEST_ASSUME_DIFFERENT_OWNER"] = "1"
        reason = f"detected dubious ownership in repository at '{self.root}/r'"
        self.assertEqual(self.is_listed().refusal, reason)
        self.assertIn(reason, self.git("status", fails=True))
        for safe, is_used in (("*", True), ("*\ndirectory=", False), (f"{self.root}/r", True), ("/x", False)):
            with self.subTest(safe):
                self.write({"home/.gitconfig": f"[safe]directory={safe}"})
                self.assertEqual((self.is_listed().refusal is None, "a.b" in self.is_listed()), (is_used, is_used))

    def test_where_git_stops(self):
        self.git("init", "-q", "r")
        self.enter("r")
        for what, code in STOPS:
            with self.subTest(what):
                is_format = isinstance(what, str)
                pathlib.Path(".git/config").write_text(what if is_format else "")
                with mock.patch.dict(os.environ, {} if is_format else what):
                    refused = self.refused(read_repository)
                    told = self.git("config", "--list", fails=True)
                self.assertEqual((refused.code, refused.file), (code, ".git/config" if is_format else "command line"))
                if not is_format:
                    self.assertIn(refused.fault.removesuffix("_n"), told)
        self.write({"r/.git/config": "[includeIf \"hasconfig:remote.*.url:x\"]path=more\n",
                    "r/.git/more": "[a]b\n[remote \"r\"]url=x"})
        refused = self.refused(read_repository)
        self.assertEqual((refused.code, refused.file, refused.line), ("remote_url", ".git/more", 2))
        self.assertIn(refused.fault, self.git("config", "--list", fails=True))

    def test_names_of_folders(self):
        self.git("init", "-q", "r")
        with mock.patch.dict(os.environ, GIT_CONFIG_GLOBAL="", GIT_CONFIG_SYSTEM=""):
            self.assertEqual({entry.file for entry in read_repository("r").entries}, {"r/.git/config"})
        self.assertRaises(NotADirectoryError, read_repository, "r/.git/config")
        with self.assertRaises(FileNotFoundError) as raised:
            read("none")
        self.assertEqual(raised.exception.filename, "none")

    def test_typed(self):
        self.write({"main": TYPED})
        config = read("main")
        for kind, reader, key in (("bool", boolean, "core.bare"), ("int", integer, "core.limit"),
                                  ("path", path, "core.hooksPath"), ("bool", boolean, "branch.Main.rebase")):
            told = self.git("config", "-f", "main", f"--type={kind}", key).decode().strip()
            self.assertEqual(told, str(config.value(key, reader)).replace("False", "false").replace("True", "true"))


class Configurations(Files):
    def setUp(self):
        super().setUp()
        self.write({"main": TYPED, "more": "[core]limit = 1g"})
        self.config = read("main")

    def test_values(self):
        config = self.config
        self.assertIs(config.value("core.bare", boolean), False)
        self.assertEqual(config.values_of("core.bare", boolean), [True, False])
        self.assertEqual([entry.text for entry in config.entries_of("core.bare")], [None, "no"])
        self.assertEqual(config.value("CORE.Limit", integer, 5), 10240)
        self.assertEqual(read("main", pathlib.Path("more")).value("core.limit", integer), 1 << 30)
        self.assertEqual(config.value("core.hookspath", path), f"{self.root}/home/hooks")
        self.assertEqual(config.values_of("color.branch.current", str), ["red bold", "reddish"])
        self.assertEqual(Configuration(config.entries[:6]).value("color.branch.current", Color.parse),
                         Color.parse("red bold"))
        self.assertEqual((config.value("a.b", Color.parse), config.value("a.b", Color.parse, 5), config.get("a.b", 5)),
                         (None, 5, 5))
        self.assertEqual((config.values_of("a.b", str), config.entries_of("a.b")), ([], ()))
        self.assertEqual((config.get("branch.Main.rebase", 5), config.value("branch.Main.rebase", boolean)), (None, True))
        self.assertEqual(config.entries_of("core.Limit"), (Entry("main", 3, "core.limit", "10k"),))
        self.assertIs(lookup("boolean", config, "Core.bare"), False)
        self.assertEqual(config.value("core.editor", str.upper), "VI")
        self.assertRaises(ZeroDivisionError, config.value, "core.editor", lambda text: 1 // 0)

    def test_mapping(self):
        config = self.config
        self.assertEqual(list(config), ["core.bare", "core.limit", "core.editor", "core.hookspath",
                                        "color.branch.current", "branch.Main.rebase"])
        self.assertEqual(dict(config), {key: config[key] for key in config.keys()})
        self.assertEqual((len(config), config["core.editor"], config["BRANCH.Main.Rebase"]), (6, "vi", None))
        self.assertTrue("core.EDITOR" in config and "branch.Main.REBASE" in config)
        self.assertIs(config["core.EDITOR"], config["core.EDITOR"])
        self.assertEqual((config.get(key="core.editor", default=5), config.get("core.editor", default=5)), ("vi", "vi"))
        self.assertRaises(TypeError, config.get)
        self.assertIsInstance(config, Mapping)
        # \u212a is the sign of Kelvin, whose lower case is k
        for key in ("branch.main.rebase", "core", "", "core.bare.", "core.hoo\u212aspath", "core.bare\0", 5, None, b"core.bare"):
            self.assertNotIn(key, config)
            self.assertRaises(KeyError, config.__getitem__, key)
            self.assertEqual((config.get(key), config.get(key, "vi"), config.entries_of(key)), (None, "vi", ()))
        for again in (copy.copy(config), copy.deepcopy(config), pickle.loads(pickle.dumps(config)), eval(repr(config))):
            self.assertEqual((again, again.entries, type(again)), (config, config.entries, Configuration))
        self.assertEqual(json.loads(json.dumps(dict(config))), dict(config))
        for call in (lambda: config.__setitem__("a", 1), lambda: config.__delitem__("core.bare"), lambda: config.clear(),
                     lambda: setattr(config, "entries", ())):
            self.assertRaises(AttributeError, call)
        self.assertEqual((len(config), len(Configuration())), (6, 0))

    def test_entries(self):
        entries, rows = self.config.entries, list(self.config.entries)
        self.assertIsInstance(entries, Sequence)
        self.assertEqual((len(entries), entries[-1], entries[2:5], entries[::-2]),
                         (8, rows[7], tuple(rows[2:5]), tuple(rows[::-2])))
        self.assertEqual((entries.index(rows[3]), entries.count(rows[0]), rows[3] in entries, list(reversed(entries))),
                         (3, 1, True, rows[::-1]))
        self.assertEqual(repr(entries), repr(rows))
        self.assertEqual(list(Entries(entries=rows)), rows)
        if sys.version_info >= (3, 10):
            self.assertEqual(str(inspect.signature(Entries)), "(entries=())")
            found = {"entries": entries}
            exec("match entries:\n case [first, *rest]: pass", found)
            self.assertEqual((found["first"], found["rest"]), (rows[0], rows[1:]))
        for call in (lambda: entries[8], lambda: entries[-9]):
            self.assertRaises(IndexError, call)
        for call in (lambda: entries["a"], lambda: hash(entries), lambda: Configuration([("f", 1, "a.b", b"1", None, 1)]),
                     lambda: Configuration([("f", 1, "a.b")]), lambda: Configuration([("f", "1", "a.b", None)])):
            self.assertRaises(TypeError, call)
        for row in (("f", 1, "a.b\0", "x"), ("f", 1, "a.b", "x\0"), ("f", -1, "a.b", "x"), ("f", 2 ** 32, "a.b", "x")):
            self.assertRaises(ValueError, Configuration, [row])
        for at, part in enumerate(("g", 2, "a.c", None, "local")):
            other = ["f", 1, "a.b", "x", None]
            one = Configuration([other]).entries
            other[at] = part
            self.assertFalse(one == Configuration([other]).entries or one != Configuration([("f", 1, "a.b", "x")]).entries)

    def test_many_keys(self):
        rows = [(f"f{at // 7}", at + 1, f"a.{at % 700}.k", None if at % 3 else str(at), "local") for at in range(5000)]
        config = Configuration(rows)
        self.assertEqual(list(config.entries), rows)
        self.assertEqual(dict(config), {key: text for _, _, key, text, _ in rows})
        for key in config:
            self.assertEqual(config.entries_of(key), tuple(row for row in rows if row[2] == key))

    def test_memory(self):
        text = "".join(f"[branch \"topic-{at}\"]\n\tremote = origin\n\trebase\n" for at in range(20_000))
        self.write({"long": text})
        config = read("long")
        texts = sum(len(entry.key) + len(entry.text or "") for entry in config.entries)
        self.assertEqual(len(config.entries), 40_000)
        self.assertLess(sys.getsizeof(config.entries) - texts, 100 * 40_000)

    def test_equal_keys(self):
        # a section's name is kept once: otherwise these 60 kB would need 400 MB
        self.write({"long": f"[{'s' * 20000}]\n" + "k\n" * 20000})
        config = read("long")
        self.assertEqual((len(config.entries), len(config)), (20000, 1))
        self.assertLess(sys.getsizeof(config.entries), 2_000_000)

    def test_scopes(self):
        config = Configuration([("a", 1, "user.name", "A", "global"), ("b", 1, "user.name", "B", "local"),
                                ("b", 2, "remote.o.url", "x", "local"), ("c", 1, "remote.p.q.url", "y", "worktree"),
                                ("c", 2, "remote.o.prune", None, "worktree"), ("c", 3, "remote.pushdefault", "o", "worktree"),
                                ("c", 4, "remote..url", "z", "worktree")])
        self.assertEqual([config.in_scope(scope).get("user.name") for scope in ("global", "local", "x")], ["A", "B", None])
        self.assertEqual(list(config.in_scope("global", "worktree")), ["user.name", "remote.p.q.url", "remote.o.prune",
                                                                      "remote.pushdefault", "remote..url"])
        self.assertEqual((config.subsections("Remote"), config.subsections("user")), (["o", "p.q", ""], []))

    def test_refusals(self):
        for key, reader, code, line, text in (("core.editor", boolean, "boolean", 4, b"vi"),
                                              ("core.Editor", integer, "integer", 4, b"vi"),
                                              ("color.branch.current", Color.parse, "color", 9, b"reddish"),
                                              ("branch.Main.rebase", integer, "no_value", 11, b""),
                                              ("branch.Main.rebase", path, "no_value", 11, b""),
                                              ("branch.Main.rebase", str, "no_value", 11, b""),
                                              ("core.editor", int, "value", 4, b"vi")):
            refused = self.refused(self.config.value, key, reader)
            self.assertEqual((refused.file, refused.line, refused.key.lower()), ("main", line, key.lower()))
            self.assertEqual((refused.code, refused.input), (code, text))
            shown = f"{refused.fault}: {text!r}" if text else "no value"
            self.assertEqual(str(refused), f"main:{line}: {refused.key}: {shown}")
            again = pickle.loads(pickle.dumps(refused))
            self.assertEqual((str(again), again.line, again.input), (str(refused), line, text))
        self.assertIsInstance(refused.__cause__, ValueError)
        self.assertEqual(self.refused(self.config.values_of, "color.branch.current", Color.parse).line, 9)
        self.assertEqual(self.refused(self.config.values_of, "core.bare", integer).line, 2)

    def test_invalid_files(self):
        self.write({"bad": "[a]\nb = 1\n[c\n", "nul": "[a]\nb = \0"})
        for file, code, line in (("bad", "bad_line", 3), ("nul", "nul", 2)):
            invalid = self.refused(read, "main", file)
            self.assertEqual((invalid.code, invalid.file, invalid.line), (code, file, line))
            self.assertEqual(str(invalid), f"{file}:{line}: {invalid.fault}")
            self.assertEqual(str(pickle.loads(pickle.dumps(invalid))), str(invalid))
        self.assertRaises(FileNotFoundError, read, "none")
        self.assertRaises(IsADirectoryError, read, b".")
        self.assertRaises(TypeError, read, 3)

    def test_depth(self):
        self.write({str(at): f"[hit]k={at}\n[include]path={at + 1}\n[hit]k=-{at}" for at in range(12)})
        self.write({"main": "[a]k\n[include]path=main"})
        below = [str(at) for at in range(1, 12)] + [str(-at) for at in range(11, 0, -1)]
        self.assertEqual(read("1", includes=True).values_of("hit.k", str), below)
        for name, file in (("0", "10"), ("main", "main")):
            invalid = self.refused(read, name, includes=True)
            self.assertEqual((invalid.code, invalid.file, invalid.line), ("too_deep", file, 2))

    def test_users(self):
        self.write({"main": "[include]path=~ann/s/x\udcff\n", "home/s/x\udcff": "[include]path=y\n[in]it=1",
                    "home/s/y": "[in]it=2", "other": "[include]path=~ann/none\npath=~ann\n",
                    "unknown": "[a]k\n[include]path=~bob/x"})
        homes = {"ann": mock.Mock(pw_dir=f"{self.root}/home")}
        with mock.patch("pwd.getpwnam", homes.__getitem__):
            config = read("main", includes=True)
            for name, code in (("other", "unreadable"), ("unknown", "no_directory")):
                invalid = self.refused(read, name, includes=True)
                self.assertEqual((invalid.code, invalid.file, invalid.line), (code, name, 2))
        self.assertEqual([(entry.file, entry.text) for entry in config.entries], [
            ("main", "~ann/s/x\udcff"), (f"{self.root}/home/s/x\udcff", "y"), (f"{self.root}/home/s/y", "2"),
            (f"{self.root}/home/s/x\udcff", "1")])

    def test_no_files(self):
        os.mkfifo("pipe")
        self.write({"main": "[a]b\n[include]path=pipe", "zero": "\n[include]path=/dev/zero", "null": "[include]path=/dev/null"})
        self.write({"r/.git": "gitdir: none\0b", "r/x": ""})
        invalid = self.refused(read, "main", includes=True)
        self.assertEqual((invalid.code, invalid.line, invalid.fault),
                         ("unreadable", 2, "pipe cannot be read: it is no regular file"))
        self.assertEqual(len(read("null", includes=True)), 1)
        self.assertEqual(dict(read_repository("r")), {})
        with self.assertRaises(OSError) as raised:
            read("/dev/zero")
        self.assertEqual((raised.exception.strerror, raised.exception.filename), ("it is longer than 1 GiB", "/dev/zero"))

    def test_threads(self):
        # other threads run while a file is read, although none has to let another one run, and a signal ends it
        self.addCleanup(sys.setswitchinterval, sys.getswitchinterval())
        sys.setswitchinterval(100)
        self.write({"long": "[a]\n" + "k = v\n" * 300_000})
        is_read, seen, done = [False], [], threading.Event()

        def look():
            while not done.wait(0.0005):
                seen.extend([True] * is_read[0])

        thread = threading.Thread(target=look)
        thread.start()
        for _ in range(100):
            is_read[0] = True
            self.assertEqual(len(read("long").entries), 300_000)
            is_read[0] = False
            if seen:
                break
        done.set()
        thread.join()
        self.assertTrue(seen)
        before = signal.signal(signal.SIGALRM, lambda *_: 1 // 0)
        signal.setitimer(signal.ITIMER_REAL, 0.01)
        try:
            self.assertRaises(ZeroDivisionError, lambda: [read("long") for _ in range(100)])
        finally:
            signal.signal(signal.SIGALRM, before)

    def test_unknown_directories(self):
        del os.environ["HOME"]
        self.write({"home": "[include]\npath=~/x", "prefix": "[include]\npath=%(prefix)/x", "none": "[include]\npath"})
        for name, code in (("home", "no_directory"), ("prefix", "no_directory"), ("none", "no_value")):
            invalid = self.refused(read, name, includes=True)
            self.assertEqual((invalid.code, invalid.file, invalid.line), (code, name, 2))
            self.assertEqual(len(read(name)), 1)

    def test_blanks(self):
        # as Git reads them since 2.45
        self.write({"main": "[a]b = x\ty \r z\t\n c=\t\"\t\" \\\n\t;\n d = p\t\\\n\tq\r\r\n"})
        self.assertEqual(dict(read("main")), {"a.b": "x\ty \r z", "a.c": "\t ", "a.d": "p\t\tq"})

    def repository_of(self, folder, head, conditions, format=""):
        """Writes a repository that includes a file on each of these conditions, and returns which ones hold."""
        config = format + "".join(f"[includeIf \"{condition}\"]path=../{at}\n" for at, condition in enumerate(conditions))
        self.write({f"{folder}/.git/HEAD": head, f"{folder}/.git/objects/x": "", f"{folder}/.git/refs/x": "",
                    f"{folder}/.git/config": config})
        self.write({f"{folder}/{at}": f"[holds]c{at}" for at in range(len(conditions))})
        config = read_repository(folder)
        return [f"holds.c{at}" in config for at in range(len(conditions))]

    def test_reftable(self):
        conditions = ["onbranch:.invalid", "onbranch:**", "gitdir:r/"]
        held = self.repository_of("r", "ref: refs/heads/.invalid\n", conditions)
        self.assertEqual(held, [False, False, True])

    def test_pipe_as_table(self):
        self.write({"r/.git/reftable/tables.list": "pipe\n"})
        os.mkfifo(os.path.join(self.root, "r/.git/reftable/pipe"))
        # who opens the pipe waits, and is ended
        self.addCleanup(signal.alarm, 0)
        signal.alarm(60)
        format = "[core]repositoryformatversion=1\n[extensions]refStorage=reftable\n"
        self.assertEqual(self.repository_of("r", "ref: refs/heads/.invalid\n", ["onbranch:**"], format), [False])

    def stars(self):
        for letters, condition, holds in STARS:
            began = time.thread_time()
            name, url = "a" * min(letters, 200), f"[remote \"r\"]url={'a' * letters}\n"
            held = self.repository_of(name, f"ref: refs/heads/{name}\n", [condition], url)
            self.assertEqual((held, time.thread_time() - began < 0.1), ([holds], True), condition[:40])

    def test_stars(self):
        self.addCleanup(threading.stack_size, threading.stack_size(128 * 1024))
        with concurrent.futures.ThreadPoolExecutor(1) as pool:
            pool.submit(self.stars).result()

    def test_without_git(self):
        self.write({"r/.git/HEAD": "ref: refs/heads/main\n", "r/.git/objects/x": "", "r/.git/refs/x": "",
                    "r/.git/config": "[includeIf \"onbranch:main\"]path=../in", "r/in": "[in]it=1",
                    "home/.gitconfig": "[a]b\n[in]it=0"})
        config = read_repository(os.path.join("r", ".git", ".."))
        self.assertEqual([(entry.file, entry.line, entry.key) for entry in config.entries],
                         [(f"{self.root}/home/.gitconfig", 1, "a.b"), (f"{self.root}/home/.gitconfig", 2, "in.it"),
                          ("r/.git/../.git/config", 1, "includeif.onbranch:main.path"), ("r/.git/../.git/../in", 1, "in.it")])
        self.assertEqual((config["in.it"], dict(read_repository())), ("1", {"a.b": None, "in.it": "0"}))


class Edits(Files):
    def fails(self, error, call, *words):
        """Whether a call raises an error, and leaves the file and no lock. Returns the error."""
        before = self.texts("main")
        with self.assertRaises(error) as caught:
            call(*words)
        self.assertEqual(self.texts("main", "main.lock"), [*before, None], words)
        return caught.exception

    def test_other_layouts(self):
        for text, words, wanted in KEPT:
            self.write({"main": text})
            self.edit("main", *words)
            self.assertEqual(self.texts("main"), [wanted])

    def test_refused(self):
        self.write({"main": SEVERAL})
        more = [(("set", "a.j", "v\0"), "bad_value"), (("add", "a.\0.k", "v"), "bad_section")]
        for words, code in [*REFUSED, *more]:
            refused = self.fails(Refused, self.edit, "main", *words)
            at = -1 if code in ("bad_value", "bad_section") and words[0] != "add" else 1
            self.assertEqual((refused.code, refused.input), (code, words[at].encode()))
            if code == "absent":
                wanted = "no section has the name" if words[0].endswith("section") else "no entry has the key"
                self.assertEqual(refused.fault, wanted)
        for words in ((None, "v"), ("a.j", None), ("a.j", True), ("a.j", 1)):
            self.fails(TypeError, self.edit, "main", "set", *words)
        with edit(b"main") as file:
            for words, _ in REFUSED:
                self.assertRaises(Refused, getattr(file, words[0]), *words[1:])
            self.assertEqual(file.text, SEVERAL.encode())
            file.set(b"a.j", bytearray(b"v"))
        self.assertEqual(self.texts("main"), [f"{SEVERAL}\tj = v\n"])

    def test_invalid_files(self):
        for text, code in (("[a]\n[b\n", "bad_line"), ("[a]\nk = \0\n", "nul")):
            self.write({"main": text})
            invalid = self.fails(InvalidFile, self.edit, "main", "set", "a.k", "v")
            self.assertEqual((invalid.code, invalid.file, invalid.line), (code, "main", 2))

    def test_end(self):
        def raises():
            with edit("main") as file:
                file.set("a.k", "v")
                raise KeyboardInterrupt

        def changes_folder():
            with edit("main") as file:
                os.mkdir("s")
                self.enter("s")
                file.set("a.k", "v")

        self.fails(KeyboardInterrupt, raises)
        self.assertEqual(os.listdir(), [])
        changes_folder()
        self.assertEqual(self.texts("main", "main.lock"), ["[a]\n\tk = v\n", None])
        with edit(f"{self.root}/main") as file:
            # each of these bytes takes two
            file.add("a.k", '"' * 100_000)
        self.assertEqual(read(f"{self.root}/main").values_of("a.k", len), [1, 100_000])
        for call in (lambda: file.text, lambda: file.set("a.k", "v"), lambda: file.remove_section("a")):
            self.assertRaises(ValueError, call)

    def test_no_change(self):
        self.write({"main": "[a]k=v # c\n"})
        os.utime("main", (5, 5))
        with edit("main") as file:
            file.set("a.k", "v")
            file.set("a.j", "w")
            file.unset("a.j")
            file.add("b.k", "w")
            file.remove_section("b")
            file.replace_all("a.k", "v")
        with edit("none"):
            pass
        self.assertEqual((os.stat("main").st_mtime, os.listdir()), (5, ["main"]))

    def test_locks(self):
        self.write({"main": "[a]k=v", "other.lock": "theirs"})
        with edit("main") as file:
            with self.assertRaises(FileExistsError) as held:
                self.edit("main", "set", "a.k", "w")
            self.assertEqual(held.exception.filename, f"{self.root}/main.lock")
            file.set("a.k", "x")
            self.assertEqual(self.texts("main", "main.lock"), ["[a]k=v", ""])
        self.assertEqual(self.texts("main", "main.lock"), ["[a]k=x", None])
        self.assertRaises(FileExistsError, self.edit, "other", "set", "a.k", "w")
        self.assertEqual(self.texts("other", "other.lock"), [None, "theirs"])

    def test_links_and_modes(self):
        self.write({"s/t/own": "[a]k=v"})
        os.chmod("s/t/own", 0o640)
        for link, target in (("s/t/link", "own"), ("far", "s/t/link"), ("away", "s/new")):
            os.symlink(target, link)
        for name, own in (("far", "s/t/own"), ("away", "s/new")):
            with edit(name) as file:
                file.set("a.k", "w")
                self.assertEqual(self.texts(f"{own}.lock", f"{name}.lock"), ["", None])
            self.assertTrue(os.path.islink(name))
        self.assertEqual(self.texts("s/t/own", "s/new"), ["[a]k=w", "[a]\n\tk = w\n"])
        mask = os.umask(0)
        os.umask(mask)
        self.assertEqual([os.stat(name).st_mode & 0o7777 for name in ("far", "away")], [0o640, 0o666 & ~mask])

    def test_system_faults(self):
        self.write({"main": "[a]\n\tk = v\n"})
        fault = OSError(errno.EIO, "a fault")
        for call in ("stat", "fchmod", "fsync", "rename"):
            faulty = mock.patch.object(os, call, mock.Mock(side_effect=fault))(self.edit)
            self.assertIs(self.fails(OSError, faulty, "main", "set", "a.k", "w"), fault)
        # a file may have ten bytes, as if no room was left
        limits = resource.getrlimit(resource.RLIMIT_FSIZE)
        resource.setrlimit(resource.RLIMIT_FSIZE, (10, limits[1]))
        try:
            for value in ("w", "w" * 100_000):
                self.assertEqual(self.fails(OSError, self.edit, "main", "set", "a.k", value).errno, errno.EFBIG)
        finally:
            resource.setrlimit(resource.RLIMIT_FSIZE, limits)

    def test_forks(self):
        def in_child(leave):
            with edit("main") as file:
                file.set("a.k", "w")
                if os.fork() == 0:
                    return leave(file)
                _, status = os.wait()
                # the lock is still there, and is still this process's
                self.assertEqual((status, self.texts("main", "main.lock")), (0, ["[a]k=v", ""]))
                file.add("a.j", "x")

        own = os.getpid()
        for leave in (lambda file: None, lambda file: sys.exit(), lambda file: self.fails_in(file)):
            self.write({"main": "[a]k=v"})
            try:
                in_child(leave)
            except SystemExit:
                pass
            finally:
                if os.getpid() != own:
                    os._exit(sys.exc_info()[0] is not None)
            self.assertEqual(self.texts("main", "main.lock"), ["[a]k=w\n\tj = x\n", None])

    def fails_in(self, file):
        """An edit in a process that was forked, which is refused there."""
        self.assertRaises(ValueError, file.set, "a.k", "theirs")
        raise SystemExit

    def test_threads(self):
        # an edit of a long text lets other threads run
        self.write({"main": "[b]\n" + "\tk = v\n" * 1000})
        before = sys.getswitchinterval()
        self.addCleanup(sys.setswitchinterval, before)
        sys.setswitchinterval(1e-6)
        with edit("main") as file, concurrent.futures.ThreadPoolExecutor(4) as pool:
            list(pool.map(lambda at: file.set(f"a.k{at}", str(at)), range(200)))
        self.assertEqual(len([key for key in read("main") if key.startswith("a.k")]), 200)

    def test_signals(self):
        # as docs/C.md says, so that the signal unwinds
        self.write({"main": "[a]k=v"})
        code = ("import os, signal, sys\nfrom gix_config_value import edit\n"
                "signal.signal(signal.SIGTERM, lambda *_: sys.exit(143))\n"
                "with edit('main') as file:\n file.set('a.k', 'w')\n os.kill(os.getpid(), signal.SIGTERM)")
        done = subprocess.run([sys.executable, "-B", "-c", code], env={**os.environ, "PYTHONPATH": ":".join(sys.path)}, check=False)
        self.assertEqual((done.returncode, self.texts("main", "main.lock")), (143, ["[a]k=v", None]))

    def test_no_files(self):
        os.mkdir("s")
        os.mkfifo("pipe")
        os.symlink("loop", "loop")
        for name in ("s", "pipe", "loop", "none/main", "s/main/x", "main\0"):
            self.fails((OSError, ValueError), self.edit, name, "set", "a.k", "v")
        self.assertEqual(sorted(os.listdir()), ["loop", "pipe", "s"])
        # a device, which is no file to be replaced, although it can be read
        self.write({"main": ""})
        device = mock.patch.object(os, "stat", lambda _: os.stat_result([stat.S_IFCHR] + [0] * 9))(self.edit)
        self.fails(OSError, device, "main", "set", "a.k", "v")

    def test_two_processes(self):
        self.write({"main": "# top\n"})
        variables = {**os.environ, "PYTHONPATH": ":".join(sys.path)}
        both = [subprocess.Popen([sys.executable, "-B", "-c", ADDS, name], env=variables) for name in "xy"]
        self.assertEqual([process.wait() for process in both], [0, 0])
        config = read("main")
        self.assertEqual([config.values_of(key, int) for key in ("a.x", "a.y")], [list(range(60))] * 2)
        self.assertEqual(os.listdir(), ["main"])


if __name__ == "__main__":
    unittest.main()
