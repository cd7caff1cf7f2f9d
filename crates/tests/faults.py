#!/usr/bin/env python3
"""Lets each call of the system by the programs fail in turn: python3 faults.py GIT_SETTINGS CONFIG_VALUE CONFIG_CHECK

faults.c is compiled (CC, or cc) and preloaded. In each run one call of a function of ERRORS fails with an error, up to
the last call that the run makes. So is each request for memory refused, alone and with all that follow. A run then ends
with the right answer, or it says what is wrong and ends with the status of a failure. It leaves the whole old text of a
file or the whole new one, and no lock. It also ends right if reads and writes take some bytes only.

config_value has to answer each line before the one at which it fails, to ask for no memory while no line crosses the
end of a read, and to write many answers at once.

A program that `rt try` builds has memory of its own, of which nothing is refused, and takes about a hundred times as
long: of its calls only every STEP-th fails, and with one error. The last line is 'N passed, M failed', in runs.
"""
import collections
import concurrent.futures
import errno
import itertools
import os
import pathlib
import shlex
import shutil
import subprocess
import sys
import tempfile

SOURCE = pathlib.Path(__file__).with_suffix(".c")
LONGEST_RUN, SHOWN, STEP = 60, 20, 7
ANY = (errno.ENOMEM, errno.EIO, errno.EINTR)
# the functions, and the errors with which they fail; with 0 no byte is written
ERRORS = {"open": ANY, "statx": ANY, "readlink": ANY, "realpath": ANY, "getcwd": ANY, "read": ANY, "close": ANY,
          "write": (*ANY, errno.ENOSPC, errno.EPIPE, 0), "fchmod": ANY, "fsync": ANY, "rename": ANY, "unlink": ANY}
# a run: the arguments, the right output and status, the files, those that it changes with their new texts, its
# variables, the standard input, and the errors of its calls. <F> is its folder
Run = collections.namedtuple("Run", "words output status files changed known given errors",
                             defaults=[b"", 0, {}, {}, {}, b"", ANY + (errno.ENOSPC, errno.EPIPE, 0)])
EDITED = {"edit": b"[a]\n\tk = v # c\n\tl = 1\n"}
URLS = {"f": b"[http \"https://h/\"]\n\tproxy = p\n[include]\n\tpath = g\n[http]\n\tproxy = q\n",
        "g": b"[a]\n\tb = ~/x\n"}
# a repository behind a file, as GIT_DIR names it, with a file of its work tree, and files that are included on
# conditions
HELD = {"held/HEAD": b"ref: refs/heads/main\n", "held/objects/x": b"", "held/refs/x": b"", "link": b"gitdir: held\n",
        "held/config": b"[core]\n\trepositoryformatversion = 0\n[extensions]\n\tworktreeConfig\n",
        "held/config.worktree": b"[a]\n\tb = 1\n[includeIf \"onbranch:main\"]\n\tpath = more\n",
        "held/more": b"[remote \"o\"]\n\turl = x\n[includeIf \"gitdir:**/held\"]\n\tpath = ../link.more\n",
        "link.more": b"[core]\n\tbare = tru\n"}
READ = b"core.repositoryformatversion=0\nextensions.worktreeconfig\na.b=1\nincludeif.onbranch:main.path=more\n" \
    b"remote.o.url=x\nincludeif.gitdir:**/held.path=../link.more\ncore.bare=tru\na.c=d\n"
# after another error than this one Git takes the repository for none, and so does the program
HERE = Run("", files=HELD, known={"GIT_DIR": "link", "GIT_CONFIG_PARAMETERS": "'a.c'='d'", "HOME": "/h"},
           errors=(errno.ENOMEM,))
SETTINGS = [
    HERE._replace(words="list", output=READ),
    HERE._replace(words="get --regexp --all --show-names ^a", output=b"a.b 1\na.c d\n"),
    HERE._replace(words="set a.b 2", changed={"held/config": HELD["held/config"] + b"[a]\n\tb = 2\n"}),
    Run("list --file f --includes", b"http.https://h/.proxy=p\ninclude.path=g\na.b=~/x\nhttp.proxy=q\n", files=URLS),
    Run("get --file f --includes --type=path a.b", b"/h/x\n", files=URLS, known={"HOME": "/h"}),
    Run("get --file f --url=https://h/x http.proxy", b"p\n", files=URLS),
    Run("set --file edit a.k w", files=EDITED, changed={"edit": b"[a]\n\tk = w # c\n\tl = 1\n"}),
    Run("set --file edit a.k v", files=EDITED),
    Run("set --file new a.k v", changed={"new": b"[a]\n\tk = v\n"}),
    Run("set --file edit --all --value=v a.k w", files=EDITED, changed={"edit": b"[a]\n\tk = w # c\n\tl = 1\n"}),
    Run("unset --file edit a.l", files=EDITED, changed={"edit": b"[a]\n\tk = v # c\n"}),
    Run("rename-section --file edit a b", files=EDITED, changed={"edit": b"[b]\n\tk = v # c\n\tl = 1\n"}),
]
WRONG = {"f": b"[core]\n\tbare = tru\n\teditor = vi\n[include]\n\tpath = g\n", "g": b"[core]\n\tbare = on\n"}
MENDED = {"f": b"[core]\n\tbare = true\n\teditor = vi\n[include]\n\tpath = g\n"}
FOUND = b":2:2: error: core.bare: 'tru': Booleans need to be 'no', 'off', 'false', '' or 'yes', 'on', 'true' or any" \
    b" number; did you mean true? [bad-boolean]\n"
CHECK = [
    Run("f", b"f" + FOUND, 1, WRONG),
    Run("-q --color=never -", b"-" + FOUND, 1, {"g": WRONG["g"]}, given=WRONG["f"]),
    Run("--fix f", files=WRONG, changed=MENDED),
    HERE._replace(words="", output=b"<F>/held/../link.more" + FOUND, status=1),
]
# lines that show each way to answer one, the last without an LF
LINES = b"boolean\ncolor\n\nInteger 5\ninteger  5\nsuffix M"
ANSWERS = [b"ok false\n", b"ok \n", b"unknown kind\n", b"unknown kind\n", b"refused\n", b"ok m\n"]
VALUE = Run("", b"".join(ANSWERS), 1, given=LINES)
# many lines, and more writes than their answers may take: nine buffers of 8,192 bytes, and one for each read, since what
# waits is written before it; a pipe may hand over 4,096 bytes at a time
MANY, MOST_WRITES = Run("", b"ok 16k\n" * 10_000, given=b"integer 0x10k\n" * 10_000), 100
# how many bytes a read returns, and how many answers are written if memory is refused to the first line that crosses
# the end of a read
GROWN = [(1, 0), (3, 0), (20, 3), (1000, 5)]


class Faults:
    """The runs of a program, and how they end."""
    dense = 100

    def __init__(self, program, failures, library, folder):
        self.program, self.failures = os.path.abspath(program), failures
        self.is_checked = b"__asan_init" in pathlib.Path(program).read_bytes()
        self.library, self.folder, self.number = library, folder, itertools.count()
        self.right, self.wrong, self.has_come = [], [], False

    def ended(self, run, fault, pieces):
        """How a run ends in which a call fails: what it gives, the files, and whether the call came."""
        folder = self.folder / f"{os.path.basename(self.program)}.{next(self.number)}"
        folder.mkdir()
        for name, text in run.files.items():
            (folder / name).parent.mkdir(parents=True, exist_ok=True)
            (folder / name).write_bytes(text)
        reader, writer = os.pipe()
        known = {"PATH": os.environ["PATH"], "LC_ALL": "C", "GIT_CONFIG_NOSYSTEM": "1", "LD_PRELOAD": self.library,
                 "GIT_CEILING_DIRECTORIES": str(self.folder), "FAULT_FD": str(writer), **run.known}
        known |= {"FAULT": fault} if fault else {}
        known |= {"PIECES": pieces} if pieces else {}
        given = subprocess.run([self.program, *shlex.split(run.words)], input=run.given, env=known, cwd=folder,
                               capture_output=True, pass_fds=[writer], timeout=LONGEST_RUN, check=False)
        os.close(writer)
        has_failed = os.read(reader, 1) == b"\0"
        os.close(reader)
        if has_failed:
            self.has_come = True
        files = {str(it.relative_to(folder)): it.read_bytes() for it in folder.rglob("*") if it.is_file()}
        shutil.rmtree(folder)
        given.stdout = given.stdout.replace(os.fsencode(folder), b"<F>")
        return given, files, has_failed

    def count(self, is_right, *what):
        (self.right if is_right else self.wrong).append((self.program, *what))

    def is_right(self, run, call, given, files):
        """Whether a run ends right, or says what is wrong."""
        locks = {name for name in files if name.endswith(".lock")}
        files = {name: text for name, text in files.items() if name not in locks}
        if locks and call != "unlink":
            return False
        if (given.returncode, given.stdout, files) == (run.status, run.output, run.files | run.changed):
            return True
        return given.returncode in self.failures and self.says(run, call, given) and files == run.files

    def says(self, run, call, given):
        """Whether the output is a beginning of the right one, and a message follows if it can be written."""
        return run.output.startswith(given.stdout) and bool(given.stderr or call == "write")

    def judge(self, run, fault="", pieces=""):
        """Counts a run. Returns whether its call has failed."""
        given, files, has_failed = self.ended(run, fault, pieces)
        if has_failed or not fault:
            right = self.is_right(run, fault.partition(" ")[0], given, files)
            self.count(right, run.words, fault, pieces, given.returncode, given.stdout, given.stderr, files)
        return has_failed

    def numbers(self):
        """The numbers of the calls that fail. From `dense` on they have gaps, since some runs ask often for memory."""
        number = 1
        while True:
            yield number
            number += STEP if self.is_checked else 1 + max(0, 2 * (number - self.dense)) // self.dense

    def turns(self, run, call, error, rest="", pieces=""):
        """Lets each call of a function fail in turn, up to the last one."""
        for number in self.numbers():
            if not self.judge(run, f"{call} {number} {error}{rest}", pieces):
                return

    def tasks(self, run):
        """What is asked of a run, each part by itself."""
        for pieces in ("1 1", "7 3"):
            yield self.judge, run, "", pieces
        for call, errors in ERRORS.items():
            for error in [error for error in errors if error in run.errors][:1 if self.is_checked else None]:
                yield self.turns, run, call, error
        if not self.is_checked:
            yield self.turns, run, "malloc", errno.ENOMEM
            yield self.turns, run, "malloc", errno.ENOMEM, " on"


class Checks(Faults):
    """Those of config_check: a file that cannot be read is a finding, and one is changed before it is checked again."""
    dense = 20

    def is_right(self, run, call, given, files):
        return super().is_right(run, call, given, files) or super().is_right(
            run._replace(files=run.files | run.changed), call, given, files)

    def says(self, run, call, given):
        return bool(given.stderr or call == "write") and (given.returncode == 2 or b": cannot read " in given.stdout)


class Lines(Faults):
    """Those of config_value, which says nothing but by its status."""

    def says(self, run, call, given):
        return run.output.startswith(given.stdout)

    def read(self, piece, error):
        """Lets each read fail: the lines that have come before have their answers."""
        for number in self.numbers():
            fault, pieces = f"read {number} {error}", f"{piece} 1000"
            given, _, has_failed = self.ended(VALUE, fault, pieces)
            if not has_failed:
                return
            lines = LINES[:piece * (number - 1)].count(b"\n")
            self.count((given.returncode, given.stdout) == (2, b"".join(ANSWERS[:lines])), fault, pieces, given)

    def grows(self, piece, answered):
        """Refuses memory for a line: those before it have their answers."""
        given, _, has_failed = self.ended(VALUE, f"malloc 1 {errno.ENOMEM} on", f"{piece} 1000")
        wanted = (2, b"".join(ANSWERS[:answered]), True)
        self.count((given.returncode, given.stdout, has_failed) == wanted, "memory for a line", piece, given)

    def whole(self):
        """No memory is asked for while no line crosses the end of a read, and many answers are written at once."""
        for run, fault in ((VALUE._replace(given=LINES + b"\n"), f"malloc 1 {errno.ENOMEM} on"),
                           (MANY, f"write {MOST_WRITES + 1} {errno.EIO}")):
            given, _, has_failed = self.ended(run, fault, "")
            self.count((given.returncode, given.stdout, has_failed) == (run.status, run.output, False), fault, given)

    def tasks(self, run):
        yield from super().tasks(run)
        yield (self.whole,)
        for piece, error in itertools.product((1, 2, 7, 20, 1000), (errno.EIO, errno.EINTR)):
            yield self.read, piece, error
        for read, written, error in itertools.product((1, 11, 1000), (1, 5, 1000), (errno.EIO, 0)):
            yield self.turns, run, "write", error, "", f"{read} {written}"
        for piece, answered in () if self.is_checked else GROWN:
            yield self.grows, piece, answered


def main():
    if len(sys.argv) != 4:
        sys.exit(__doc__)
    compiler = shlex.split(os.environ.get("CC", "cc"))
    if shutil.which(compiler[0]) is None:
        print(f"skipped: the faults, since there is no C compiler {compiler[0]}\n0 passed, 0 failed")
        return 0
    with tempfile.TemporaryDirectory() as work, concurrent.futures.ThreadPoolExecutor() as pool:
        work = pathlib.Path(os.path.realpath(work))
        library = f"{work}/faults.so"
        options = ["-shared", "-fPIC", "-O1", "-fno-builtin", "-o", library]
        subprocess.run([*compiler, *options, SOURCE, "-ldl"], check=True)
        settings, value, check = sys.argv[1:]
        # the statuses are those of a failure; a `get` that cannot read its file says so, and ends with 1, as in Git, and
        # 141 says without a word that nobody reads the output
        every = {Faults(settings, (1, 2, 3, 4, 128, 141, 255), library, work): SETTINGS,
                 Lines(value, (2,), library, work): [VALUE], Checks(check, (1, 2), library, work): CHECK}
        for task in [pool.submit(*task) for one, runs in every.items() for run in runs for task in one.tasks(run)]:
            task.result()
    for one in every:
        one.count(one.has_come, "no call has failed, so none was intercepted")
        name = os.path.basename(one.program)
        print(f"{len(one.right) + len(one.wrong):,} runs of {name}")
        print(*one.wrong[:SHOWN], sep="\n", end="\n" * bool(one.wrong))
        if one.is_checked:
            print(f"skipped: memory that is refused to {name}, which has its own")
    passed, failed = sum(len(one.right) for one in every), sum(len(one.wrong) for one in every)
    print(f"{passed} passed, {failed} failed")
    return 1 if failed or not passed else 0


if __name__ == "__main__":
    sys.exit(main())
