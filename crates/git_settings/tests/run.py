#!/usr/bin/env python3
"""Files, names and repositories that are unusual: python3 run.py PROGRAM [--git COMMAND].

PROGRAM is git-settings. Which entries are right is asked of a Git: the installed one, or that of --git. Git keeps names
as bytes; the program refuses names that are not UTF-8 where it has to open them. Of ages a Git 2.55 is asked if the
folder NEWER_GITS has it. The last line is 'N passed, M failed'.
"""
import argparse
import os
import pathlib
import re
import resource
import shutil
import subprocess
import sys
import tempfile
import time

LONGEST_RUN = 60
NOT_UTF8, NO_FOLDER = b"n\xff", b"d\xff"
HIT = b"[hit]\n\tk = 1\n"
# the memory that a program may take for a small file, and the address space that is too small for a large one, in bytes
SMALL, ADDRESSES, LARGE = 50_000_000, 100_000_000, 200_000_000
# ages, which Git reads so too
AGES = ("2.weeks.ago", "90 days", "1.day", "36.hours", "30 minutes ago", "1000.seconds.ago", "1.week.ago")


class Tests:
    """Runs of the program in a folder, and of Git, and the counts of the tests."""

    def __init__(self, program, git, folder):
        self.program, self.git, self.folder = program, git, os.fsencode(folder)
        self.known = {b"PATH": os.environb[b"PATH"], b"LC_ALL": b"C", b"HOME": self.folder, b"GIT_CONFIG_NOSYSTEM": b"1"}
        self.passed = self.failed = 0
        self.is_checked = b"__asan_init" in pathlib.Path(program).read_bytes()

    def path(self, name):
        return os.path.join(self.folder, name)

    def write(self, name, data):
        os.makedirs(os.path.dirname(self.path(name)), exist_ok=True)
        with open(self.path(name), "wb") as file:
            file.write(data)
        return name

    def git_dir(self, name, head=b"ref: refs/heads/main\n"):
        """Makes a git directory."""
        for part in (b"objects", b"refs"):
            os.makedirs(self.path(os.path.join(name, part)))
        self.write(os.path.join(name, b"HEAD"), head)

    def run(self, *words, folder=b"", more=None, **options):
        return subprocess.run(words, cwd=self.path(folder), env=self.known | (more or {}), capture_output=True,
                              stdin=subprocess.DEVNULL, timeout=LONGEST_RUN, check=False, **options)

    def expect(self, what, wanted, came):
        self.passed += wanted == came
        self.failed += wanted != came
        if wanted != came:
            print(f"{what}: wanted {wanted!r}, got {came!r}")

    def entries(self, file, folder=b"", more=None, words=("--includes",)):
        """The entries that the program lists."""
        run = self.run(self.program, "list", "--null", "--file", file, *words, folder=folder, more=more)
        return run.stdout.split(b"\0")[:-1]

    def by_git(self, file, folder=b"", more=None, words=("--includes",)):
        run = self.run(self.git, "config", "--null", "--file", file, *words, "--list", folder=folder, more=more)
        return run.stdout.split(b"\0")[:-1]

    def compare(self, what, file, folder=b"", more=None, holds=None):
        """Expects Git's entries, and that one is included on a condition if this is said."""
        wanted = self.by_git(file, folder, more)
        self.expect(what, wanted, self.entries(file, folder, more))
        if holds is not None:
            self.expect(f"{what}, in Git", holds, b"hit.k\n1" in wanted)

    def refuse(self, what, words, told, status=128, more=None, folder=b""):
        """Expects one line of error, and its status."""
        run = self.run(self.program, *words, folder=folder, more=more)
        self.expect(what, (status, told + b"\n"), (run.returncode, run.stderr))


def endless(tests):
    """Files without an end, and what is no file. Git stops on the same line of a device."""
    told = b"fatal: bad config line 1 in file /dev/zero: a NUL byte outside a comment"
    tests.refuse("a device", ["list", "--file", "/dev/zero"], told)
    file = tests.write(b"device", b"[a]\n\tb = 1\n[include]\n\tpath = /dev/zero\n")
    tests.refuse("an included device", ["get", "--file", file, "--includes", "a.b"], told)
    git = tests.run(tests.git, "config", "--file", file, "--includes", "--list").stderr
    tests.expect("a device, in Git", b"fatal: bad config line 1 in file /dev/zero\n", git)
    tests.compare("no device", tests.write(b"null", b"[include]\n\tpath = /dev/null\n[a]\n\tb\n"))
    os.mkfifo(tests.path(b"pipe"))
    for name, why in (b"pipe", b"it is no regular file"), (b".", b"Is a directory"):
        tests.write(b"includer", b"[include]\n\tpath = " + name)
        told = b"fatal: includer:2: cannot read " + name + b": " + why
        tests.refuse(f"an included {name}", ["list", "--file", "includer", "--includes"], told)
    with open(tests.path(b"long"), "wb") as file:
        file.truncate((1 << 30) + 1)
    tests.refuse("a long file", ["list", "--file", "long"],
                 b"fatal: unable to read config file 'long': it is longer than 1 GiB")
    shell = ["sh", "-c", 'printf "#\\0\\n[a]b=2" | "$0" --file /dev/stdin a.b', tests.program]
    tests.expect("a pipe with a NUL in a comment", b"2\n", tests.run(*shell).stdout)
    pipe = subprocess.PIPE
    with subprocess.Popen([tests.program, "list", "--file", "-"], stdin=pipe, stdout=pipe, stderr=pipe) as run:
        run.stdin.write(b"[a]\n\tb = 1\\\n2\n[c\n")
        run.stdin.flush()
        said = run.wait(LONGEST_RUN), run.stdout.read(), run.stderr.read()
        wanted = 128, b"a.b=12\n", b"fatal: bad config line 4 in standard input\n"
        tests.expect("a pipe that stays open", wanted, said)


def names(tests):
    """Names that are not UTF-8 are refused where the program has to open them."""
    plain = tests.write(b"plain", b"[a]\n\tb = 1\n")
    shown = "n\ufffd".encode()
    told = b"fatal: " + shown + b": the argument is not UTF-8"
    tests.write(NOT_UTF8, b"[a]\n\tb = 1\n")
    tests.refuse("a file", ["list", "--file", NOT_UTF8], told)
    told = "fatal: a.\ufffd: the argument is not UTF-8".encode()
    tests.refuse("a key", ["--file", plain, b"a.\xff"], told)
    file = tests.write(b"of name", b"[a]\n\tb = 1\n[include]\n\tpath = \"" + NOT_UTF8 + b"\"\n")
    tests.refuse("an include", ["list", "--file", file, "--includes"], b"fatal: of name:4: cannot read " + shown
                 + b": its name is not UTF-8")
    bad = {b"HOME": tests.path(NOT_UTF8), b"GIT_DIR": NO_FOLDER, b"GIT_COMMON_DIR": NO_FOLDER}
    tests.compare("variables that are not asked for", plain, more=bad)
    tests.write(b"hit", HIT)
    file = tests.write(b"condition", b"[IncludeIf \"onbranch:main\"]\n\tpath = hit\n")
    tests.git_dir(b"repository")
    for name in (b"GIT_DIR", b"GIT_COMMON_DIR"):
        more = {b"GIT_DIR": b"repository", name: NO_FOLDER}
        tests.refuse(name, ["list", "--file", file, "--includes"], b"fatal: " + name + b" is not UTF-8", more=more)
    file = tests.write(b"home", b"[include]\n\tpath = ~/hit\n")
    told = b"fatal: home:2: cannot read " + os.path.join(tests.folder, shown, b"hit") + b": its name is not UTF-8"
    tests.refuse("HOME", ["list", "--file", file, "--includes"], told, more={b"HOME": bad[b"HOME"]})


def folders(tests):
    """A current folder and a branch whose names are not UTF-8."""
    folder = b"w\xff"
    tests.git_dir(folder + b"/.git", b"ref: refs/heads/\xfe\n")
    text = b"".join(b"[includeIf \"%s\"]\n\tpath = hit%d\n" % (condition, number) for number, condition in enumerate((
        b"gitdir:**/w\xff/", b"gitdir:w\xff/.git", b"gitdir:**/w/", b"onbranch:\xfe", b"onbranch:?", b"onbranch:x")))
    for place in (folder, folder + b"/deep/er"):
        tests.write(place + b"/file", text)
        for number in range(6):
            tests.write(place + b"/hit%d" % number, HIT.replace(b"hit", b"hit%d" % number))
        tests.compare(place, "file", folder=place)
        tests.expect(f"conditions in {place}", [0, 1, 3, 4],
                     [number for number in range(6) if b"hit%d.k\n1" % number in tests.by_git("file", folder=place)])


def shown(tests):
    """A control character of a name or a key never reaches a terminal: Git writes `?` for it."""
    name = b"a\x1b[31m\x07b"
    git = tests.run(tests.git, "config", "--file", name, "--list").stderr
    tests.expect("Git's message", True, b"a?[31m?b" in git and b"\x1b" not in git)
    tests.refuse("a name", ["list", "--file", name], git.strip())
    for words in (["--file", "plain", b"a.b\x1b"], ["--file", "plain", "--remove-section", b"a.\x1b"],
                  ["--file", "plain", b"key"], ["--file", "plain", b"a."], ["--file", "plain", b"a.b\n"]):
        git = tests.run(tests.git, "config", *words)
        tests.expect(f"{words} in Git", True, git.returncode in (1, 128) and b"\x1b" not in git.stderr)
        tests.refuse(words, words, git.stderr[:-1], git.returncode)


def statuses(tests):
    """The statuses and the values of one key, which are Git's: an absent key is told from a wrong value."""
    file = tests.write(b"status", b"[a]\n\tyes = yes\n\twrong = maybe\n\talone\n\tempty =\n")
    bad = tests.write(b"bad", b"[a]\n\tyes = yes\n?\n")
    for file, key, status, more in ((file, b"a.yes", 0, True), (file, b"a.no", 1, True), (file, b"a.wrong", 128, True),
                                    (file, b"a.alone", 0, False), (file, b"a.empty", 0, False), (file, b"a", 1, False),
                                    (bad, b"a.yes", 128, False)):
        words = ["--file", file, *["--type=bool"] * more, "--get", key]
        ours, theirs = tests.run(tests.program, *words), tests.run(tests.git, "config", *words)
        tests.expect(f"{key} of {file}", (status, theirs.returncode, theirs.stdout, theirs.stderr),
                     (ours.returncode, status, ours.stdout, ours.stderr))
    git = tests.run(tests.git, "config", "--list", "--file", "nowhere").stderr
    tests.refuse("a missing file", ["list", "--file", "nowhere"], git.strip())


def repositories(tests):
    """Git directories that are found in other ways, and those that are none."""
    condition = tests.write(b"r/condition", b"[includeIf \"onbranch:main\"]\n\tpath = hit\n")
    tests.write(b"r/hit", HIT)
    at = tests.path(condition)
    tests.git_dir(b"r/held")
    tests.write(b"r/link/file", b"gitdir: ../held\n")
    for more in (b"link/file", b"../r/link/file", tests.path(b"r/link/file")):
        tests.compare("a linked GIT_DIR", at, folder=b"r", more={b"GIT_DIR": more}, holds=True)
    tests.compare("a GIT_DIR that is none", at, folder=b"r", more={b"GIT_DIR": b"link"}, holds=False)
    tests.git_dir(b"linked/.git")
    os.remove(tests.path(b"linked/.git/HEAD"))
    os.symlink(b"refs/heads/main", tests.path(b"linked/.git/HEAD"))
    tests.compare("a HEAD that is a link", at, folder=b"linked", holds=True)
    os.remove(tests.path(b"linked/.git/HEAD"))
    os.symlink(b"nowhere", tests.path(b"linked/.git/HEAD"))
    tests.compare("a HEAD that links elsewhere", at, folder=b"linked", holds=False)
    tests.git_dir(b"outer/.git")
    for number, (head, holds) in enumerate(((b"", True), (b"ref: heads/x\n", True), (b"ref:refs/heads/x\n", False),
                                            (b"f" * 40 + b"\n", False), (b"f" * 39 + b"\n", True))):
        inner = b"outer/%d" % number
        tests.git_dir(inner + b"/.git", head)
        tests.compare(f"a HEAD of {head}", at, folder=inner, holds=holds)
    os.makedirs(tests.path(b"outer/a/b"))
    os.symlink(b"outer", tests.path(b"alias"))
    outer = tests.path(b"outer")
    for ceilings, holds in ((outer, False), (outer + b"/a", False), (b"/x:" + outer + b"/a", False),
                            (tests.path(b"alias") + b"/a", False), (b":" + tests.path(b"alias") + b"/a", True),
                            (outer + b"/a/b", True), (outer + b"/a/", False), (b":" + outer + b"/a/", False),
                            (b":" + outer + b"/a//", True), (b"outer/a", True)):
        more = {b"GIT_CEILING_DIRECTORIES": ceilings}
        tests.compare(f"a ceiling {ceilings}", at, folder=b"outer/a/b", more=more, holds=holds)


def command_line(tests):
    """Settings before the word, which are behind those of the command, and count for the trust in a repository."""
    tests.git_dir(b"strange/.git")
    tests.write(b"strange/.git/config", b"[core]\n\tbare = false\n[hit]\n\tk = 1\n")
    before = {b"GIT_CONFIG_PARAMETERS": b"'hit.k'='2'", b"GIT_CONFIG_COUNT": b"1", b"GIT_CONFIG_KEY_0": b"hit.k",
              b"GIT_CONFIG_VALUE_0": b"3"}
    if os.geteuid() == 0:
        os.chown(tests.path(b"strange/.git"), 65534, -1)
    for more in ({}, before):
        for words in ([], ["-c", "hit.k=it's! 'done'"], ["-c", "hit.k", "-c", "hit.k="], ["-c", "safe.directory=*"],
                      ["-c", "safe.directory=/nowhere", "-c", "hit.k=9"], ["-c", "a.b'c!.d=x", "-c", "hit.k=\n"]):
            ours = tests.run(tests.program, *words, "--get-all", "hit.k", folder=b"strange", more=more)
            theirs = tests.run(tests.git, *words, "config", "--get-all", "hit.k", folder=b"strange", more=more)
            tests.expect(f"{words} before {more}", (theirs.returncode, theirs.stdout), (ours.returncode, ours.stdout))


class Twice(dict):
    """Variables of which one is there a second time, with another value: in Git the first counts."""

    def items(self):
        return [*super().items(), (b"GIT_CONFIG_VALUE_0", b"second")]


def here(tests):
    """What Git reads in a folder, without a file that is named."""
    tests.git_dir(b"here/.git")
    tests.write(b"here/.git/config",
                b"[core]\n\trepositoryformatversion = 0\n[a]\n\tsize = 0x10\n\twrong = x\n\talone\n")
    os.makedirs(tests.path(b"here/deep"))
    counted = {b"GIT_CONFIG_COUNT": b"1", b"GIT_CONFIG_KEY_0": b"a.size", b"GIT_CONFIG_VALUE_0": b"1k"}
    for more in ({}, counted):
        for key, words in ((b"a.size", ["--type=int"]), (b"a.wrong", ["--type=int"]), (b"a.alone", []), (b"a.no", [])):
            ours = tests.run(tests.program, *words, key, folder=b"here/deep", more=more)
            git = tests.run(tests.git, "config", *words, "--get", key, folder=b"here/deep", more=more)
            tests.expect(f"{key} here", (git.returncode, git.stdout), (ours.returncode, ours.stdout))
    ours, git = (tests.run(*words, "--list", "--show-scope", "--show-origin", folder=b"here/deep", more=counted)
                 for words in ([tests.program], [tests.git, "config"]))
    tests.expect("a list", b"local\tfile:.git/config\tcore.repositoryformatversion=0\nlocal\tfile:.git/config\t"
                 b"a.size=0x10\nlocal\tfile:.git/config\ta.wrong=x\nlocal\tfile:.git/config\ta.alone\n"
                 b"command\tcommand line:\ta.size=1k\n", ours.stdout)
    tests.expect("a list in Git", git.stdout, ours.stdout)
    # of Gits the installed one: a shell that calls another hands on one of the two
    twice = Twice(tests.known | counted)
    for words in ([tests.program], ["git", "config"]):
        run = subprocess.run([*words, "a.size"], cwd=tests.path(b"here"), env=twice, capture_output=True, check=False)
        tests.expect(f"a variable twice by {words}", b"1k\n", run.stdout)
    missing = {b"GIT_CONFIG_COUNT": b"1"}
    git = tests.run(tests.git, "config", "--list", folder=b"here", more=missing)
    tests.refuse("a missing key", ["--list"], git.stderr[:-1], more=missing, folder=b"here")
    tests.git_dir(b"newer/.git")
    tests.write(b"newer/.git/config", b"[core]\n\trepositoryformatversion = 2\n")
    told = b"warning: Expected git repo version <= 1, found 2"
    tests.refuse("a newer repository", ["--list"], told, 0, folder=b"newer")


def memory(tests):
    """What the memory grows with, and what is said if it is refused."""
    section = b"s" * 20_000
    file = tests.write(b"keys", b"[" + section + b"]\n" + b"k\n" * 20_000)
    if tests.is_checked:
        print("skipped: memory, of which a checked build takes more")
        return
    for words in (["--list"], [section + b".k"]):
        command = [tests.program, "--file", file, *words]
        process = subprocess.Popen(command, cwd=tests.folder, stdout=subprocess.DEVNULL)
        _, status, used = os.wait4(process.pid, 0)
        process.returncode = os.waitstatus_to_exitcode(status)
        tests.expect(f"keys of a long section, {len(words[0])}", (0, True),
                     (process.returncode, used.ru_maxrss * 1024 < SMALL))
    with open(tests.path(b"large"), "wb") as large:
        large.write(b"#" * LARGE)
    run = tests.run(tests.program, "list", "--file", "large",
                    preexec_fn=lambda: resource.setrlimit(resource.RLIMIT_AS, (ADDRESSES, ADDRESSES)))
    tests.expect("no memory for a file", (128, b"fatal: out of memory\n"), (run.returncode, run.stderr))


def flags(tests):
    """Git's older flags, the settings of `-c` and of scopes, and standard input."""
    tests.git_dir(b"flags/.git")
    tests.write(b"flags/.git/config", b"[core]\n\trepositoryformatversion = 0\n[a]\n\tk = 1k\n\tk = yes\n\tp = ~/x\n")
    tests.write(b"flags/home/.gitconfig", b"[a]\n\tk = 7\n\tg = of home\n")
    more = {b"HOME": tests.path(b"flags/home")}
    for asked in ("--get a.k", "--get-all a.k", "--get a.no", "--bool a.k", "--int a.k", "--get --path a.p", "-l",
                  "-l --show-scope --show-origin", "-z --get a.k", "--global --get a.k", "--local --get-all a.k",
                  "-l -z", "--worktree -l", "--get --default 5 --int a.no", "-l --name-only", "--global -l",
                  "--get --type=bool a.k", "--get a.k 1", "--get-all a.k ![0-9]", "--get-regexp ^a",
                  "--get-regexp A.K 1", "--get-urlmatch a https://h", "--get-urlmatch a.k https://h", "--get-color a.c red",
                  "--get-color a.c", "--get-colorbool a.k", "--get-colorbool b.c true"):
        ours = tests.run(tests.program, *asked.split(), folder=b"flags", more=more)
        git = tests.run(tests.git, "config", *asked.split(), folder=b"flags", more=more)
        tests.expect(asked, (git.returncode, git.stdout), (ours.returncode, ours.stdout))
    for asked in ("-c a.k=3 -c b.C.d --get-all a.k", "-c a.k=3 -c b.C.d -l --show-origin", "-c =x --get a.k",
                  "-c a.k= --get a.k", "-c k=x --get a.k", "-c a.k=yes --get --bool a.k",
                  "--config-env=a.k=HOME --get a.k", "--config-env a=b.k=HOME -c a.k=4 --get-all a.k",
                  "--config-env=a.k=NOT_THERE --get a.k", "--config-env=a.k --get a.k", "--config-env=a.k= --get a.k"):
        settings, option, rest = asked.partition(" -l" if " -l" in asked else " --get")
        ours = tests.run(tests.program, *asked.split(), folder=b"flags", more=more)
        git = tests.run(tests.git, *settings.split(), "config", *(option + rest).split(), folder=b"flags", more=more)
        tests.expect(asked, (git.returncode, git.stdout), (ours.returncode, ours.stdout))
    for option, wanted in (("get -f - --show-origin a.k", b"standard input:\t2\n"), ("-f - a.k", b"2\n")):
        shell = ["sh", "-c", f'printf "[a]k=2" | "$0" {option}', tests.program]
        tests.expect(option, wanted, tests.run(*shell).stdout)


def ages(tests):
    """Ages are those of a newer Git."""
    git = pathlib.Path(os.environ.get("NEWER_GITS", "nowhere"), "sid", "git")
    if not git.exists():
        print("skipped: ages, since NEWER_GITS names no folder with a newer Git")
        return
    for age in AGES:
        asked = ["get", "-f", "/dev/null", "--type=expiry-date", f"--default={age}", "no.date"]
        ours, theirs = tests.run(tests.program, *asked), tests.run(git, "config", *asked)
        tests.expect(age, True, 0 <= int(theirs.stdout) - int(ours.stdout or 0) < LONGEST_RUN)


def changes(tests):
    """Files that words change: their locks, links and modes, and which file is changed."""
    def change(words, status, after, told=b"", name=b"edit", **options):
        run = tests.run(tests.program, *words, **options)
        tests.expect(words, (status, told), (run.returncode, run.stderr))
        file = pathlib.Path(os.fsdecode(tests.path(name)))
        tests.expect(f"{words}, afterwards", after, file.read_bytes() if file.exists() else None)
        tests.expect(f"{words}, its lock", False, os.path.exists(tests.path(name + b".lock")))

    change(["set", "-f", "new", "a.k", "v"], 0, b"[a]\n\tk = v\n", name=b"new")
    change(["unset", "-f", "absent", "a.k"], 5, None, name=b"absent")
    for words in (["set", "-f", "-", "a.k", "v"], ["unset", "-f", "-", "a.k"], ["--file", "-", "a.k", "v"]):
        change(words, 128, None, b"fatal: writing to stdin is not supported\n", name=b"-")
    change(["remove-section", "-f", "absent", "a"], 128, None, b"fatal: no such section: a\n", name=b"absent")
    tests.write(b"edit", b"[a]\n\tk = v\n")
    for words, status, told in ((["rename-section", "-f", "edit", "z", "y"], 128, b"fatal: no such section: z"),
                                (["rename-section", "-f", "edit", "a", "y_z"], 255, b"error: invalid section name: y_z"),
                                (["remove-section", "-f", "edit", "z"], 128, b"fatal: no such section: z")):
        change(words, status, b"[a]\n\tk = v\n", told + b"\n")
    for words, status, told in ((["set", "--value=(", "-f", "edit", "a.k", "w"], 6, b"error: invalid pattern: ("),
                                (["set", "--append", "--value=x", "-f", "edit", "a.k", "w"], 128,
                                 b"fatal: --append cannot be used with --value=<pattern>"),
                                (["set", "--fixed-value", "-f", "edit", "a.k", "w"], 128,
                                 b"fatal: --fixed-value only applies with --value=<pattern>"),
                                (["set", "--comment=a\nb", "-f", "edit", "a.k", "w"], 128,
                                 b"fatal: no multi-line comment allowed: 'a\nb'"),
                                (["--unset", "--comment=b", "-f", "edit", "a.k"], 129,
                                 b"error: --comment is only applicable to add/set/replace operations")):
        change(words, status, b"[a]\n\tk = v\n", told + b"\n")
    change(["unset", "--value=zz", "-f", "edit", "a.k"], 5, b"[a]\n\tk = v\n")
    tests.write(b"held", b"[a]\n\tk = v\n")
    os.utime(tests.path(tests.write(b"held.lock", b"")), (0, time.time() - 3600))
    run = tests.run(tests.program, "set", "-f", "held", "a.k", "w")
    told = re.fullmatch(rb"error: could not lock config file held: held.lock: the lock is held, and (\d+) seconds old: "
                        rb"remove it if no program is changing the file\n", run.stderr)
    tests.expect("a lock that is held", (255, True), (run.returncode, told and 0 <= int(told[1]) - 3600 < LONGEST_RUN))
    held = pathlib.Path(os.fsdecode(tests.path(b"held")))
    tests.expect("a file whose lock is held", b"[a]\n\tk = v\n", held.read_bytes())
    tests.expect("a lock that stays", True, os.path.exists(tests.path(b"held.lock")))
    tests.write(b"kept/real", b"[a]\n\tk = v # c\n")
    os.chmod(tests.path(b"kept/real"), 0o640)
    os.symlink(b"kept/real", tests.path(b"link"))
    change(["set", "-f", "link", "a.k", "w"], 0, b"[a]\n\tk = w # c\n", name=b"kept/real")
    tests.expect("a link stays", b"kept/real", os.readlink(tests.path(b"link")))
    tests.expect("a mode stays", 0o100640, os.stat(tests.path(b"kept/real")).st_mode)
    before = os.stat(tests.path(b"kept/real")).st_ino
    change(["set", "-f", "link", "a.k", "w"], 0, b"[a]\n\tk = w # c\n", name=b"kept/real")
    tests.expect("nothing is written", before, os.stat(tests.path(b"kept/real")).st_ino)
    change(["set", "-f", "d/none", "a.k", "w"], 255, None, name=b"d/none",
           told=b"error: could not lock config file d/none: No such file or directory\n")
    tests.write(b"edit", b"[a]\n\tk = v\n[b")
    change(["set", "-f", "edit", "a.k", "w"], 3, b"[a]\n\tk = v\n[b",
           b"error: bad config line 4 in file edit\nerror: invalid config file edit\n")
    tests.write(b"edit", b"[a]\n\tk = 1\n\tk = 2\n")
    change(["set", "-f", "edit", "a.k", "w"], 5, b"[a]\n\tk = 1\n\tk = 2\n",
           b"warning: a.k has multiple values\nerror: cannot overwrite multiple values with a single value\n"
           b"       Use --value=<pattern>, --append or --all to change a.k.\n")
    change(["set", "-f", "edit", "--type=int", "--append", "a.n", "10k"], 0, b"[a]\n\tk = 1\n\tk = 2\n\tn = 10240\n")
    change(["set", "-f", "edit", "--type=int", "a.n", "10kk"], 128, b"[a]\n\tk = 1\n\tk = 2\n\tn = 10240\n",
           b"fatal: bad numeric config value '10kk' for 'a.n': invalid unit\n")
    tests.git_dir(b"changed/.git")
    config = b"changed/.git/config"
    tests.write(config, b"[core]\n\trepositoryformatversion = 0\n")
    change(["set", "a.k", "v"], 0, b"[core]\n\trepositoryformatversion = 0\n[a]\n\tk = v\n", name=config, folder=b"changed")
    more = {b"HOME": tests.path(b"changed")}
    change(["set", "--global", "a.k", "v"], 0, b"[a]\n\tk = v\n", name=b"changed/.gitconfig", folder=b"changed", more=more)
    more[b"GIT_TEST_ASSUME_DIFFERENT_OWNER"] = b"1"
    change(["set", "--global", "a.k", "w"], 0, b"[a]\n\tk = w\n", name=b"changed/.gitconfig", folder=b"changed", more=more)


def unread(tests):
    """An output that nobody reads to its end ends the run without a word, as a signal ends Git."""
    file = tests.path(tests.write(b"unread", b"[a]\n" + b"\tk = of a list that no pipe holds\n" * 20000))
    for program in ([tests.program], [tests.git, "config"]):
        shell = ["bash", "-c", '"$@" --list --file "$0" | head -n 1; echo "${PIPESTATUS[0]}"', file, *program]
        run = tests.run(*shell)
        tests.expect(f"{program} | head", (b"a.k=of a list that no pipe holds\n141\n", b""), (run.stdout, run.stderr))


def together(tests):
    """Two programs that add entries to one file at once lose none. A lock that is held is tried again."""
    tests.write(b"shared", b"[a]\n")
    loop = 'for n in $(seq 50); do until "$1" set --append -f shared a.k "$2$n" 2> /dev/null; ' \
        'do failed=$((failed + 1)); [ $failed -lt 1000 ] || exit 1; done; done'
    runs = [subprocess.Popen(["sh", "-c", loop, "-", tests.program, name], cwd=os.fsdecode(tests.path(b"")))
            for name in "vw"]
    tests.expect("two programs end", [0, 0], [run.wait() for run in runs])
    lines = pathlib.Path(os.fsdecode(tests.path(b"shared"))).read_text("utf-8").splitlines()
    tests.expect("two programs lose nothing", ["[a]", *sorted(f"\tk = {name}{n}" for name in "vw" for n in range(1, 51))],
                 [*lines[:1], *sorted(lines[1:])])


def killed(tests):
    """A program that is killed as it changes a file leaves the old text or the new one."""
    old = b"[a]\n\tk = v\n" + b"\tj = of a line that makes the file long\n" * 20000
    tests.write(b"long edit", old)
    file = pathlib.Path(os.fsdecode(tests.path(b"long edit")))
    lock = file.with_name("long edit.lock")
    texts = (old, old.replace(b"= v", b"= w"))
    for place in range(20):
        run = subprocess.Popen([tests.program, "set", "-f", file, "a.k", "vw"[place % 2 == 0]], stderr=subprocess.DEVNULL)
        try:
            run.wait(place / 1000)
        except subprocess.TimeoutExpired:
            run.kill()
            run.wait()
        tests.expect("a file whose program is killed", True, file.read_bytes() in texts)
        lock.unlink(missing_ok=True)


def main():
    arguments = argparse.ArgumentParser()
    arguments.add_argument("program", type=os.path.abspath)
    arguments.add_argument("--git", default=shutil.which("git"))
    arguments = arguments.parse_args()
    if arguments.git is None:
        print("skipped: files, names and repositories, since there is no Git\n0 passed, 0 failed")
        return 0
    with tempfile.TemporaryDirectory() as folder:
        tests = Tests(arguments.program, arguments.git, os.path.realpath(folder))
        for part in (flags, ages, endless, names, folders, shown, statuses, repositories, command_line, here, changes,
                     unread, together, killed, memory):
            part(tests)
    print(f"{tests.passed} passed, {tests.failed} failed")
    return 1 if tests.failed else 0


if __name__ == "__main__":
    sys.exit(main())
