"""The two readers: the library's programs and a Git. Each answers questions; None means refused. A color of the library
is turned into the codes that Git prints."""
import concurrent.futures
import os
import pathlib
import pwd
import re
import shutil
import subprocess
import sys
import tempfile

import calls
from classes import NOT_SET, Question, dotted
from programs import ROOT, Missing, Wrong, answers

sys.path.insert(0, str(ROOT / "docs"))
import grammar  # noqa: E402

FIRST_VERSION = (2, 30)
REFUSED = 128
USERS = 4
NAMES = ["black", "red", "green", "yellow", "blue", "magenta", "cyan", "white"]
# the code of each word but `reset`
ATTRIBUTES = {grammar.attributes()[name][1][0]: int(code) for names, code in grammar.attribute_codes() for name in names if code}
BACKGROUND = 10


def of_palette(number, ground):
    """The code of a palette number: the first sixteen have codes of their own."""
    if number < 8:
        return f"{30 + ground + number}"
    if number < 16:
        return f"{90 + ground + number - 8}"
    return f"{38 + ground};5;{number}"


def of_name(name, ground):
    """The code of a foreground (ground 0) or of a background; None if the color stays the same."""
    if name == "normal":
        return None
    if name == "default":
        return f"{39 + ground}"
    if name.isdigit():
        return of_palette(int(name), ground)
    if name.startswith("#"):
        return f"{38 + ground};2;" + ";".join(str(int(pair, 16)) for pair in re.findall("..", name[1:]))
    if name.startswith("bright"):
        return f"{90 + ground + NAMES.index(name[len('bright'):])}"
    return f"{30 + ground + NAMES.index(name)}"


def escape_code(text):
    """The bytes that switch a terminal to the color: the attributes by rising code, then the two names."""
    words = text.decode().split()
    names = [word for word in words if word != "reset" and word not in ATTRIBUTES]
    codes = sorted({ATTRIBUTES[word] for word in words if word in ATTRIBUTES})
    codes += [code for name, ground in zip(names, (0, BACKGROUND)) if (code := of_name(name, ground))]
    if "reset" in words:
        codes.insert(0, "")
    return f"\033[{';'.join(map(str, codes))}m".encode() if codes else b""


def text_of(answer):
    """The canonical text in an answer of the program, or None if the text is refused."""
    return answer[len(b"ok "):] if answer.startswith(b"ok ") else None


def value(question, given):
    """What the answers to the lines of a question mean, in the terms of Git."""
    amount, boolean, color = (given[kind + b" " + question.text] for kind in (b"amount", b"boolean", b"color"))
    if question.kind == "color":
        return None if color is None else escape_code(color)
    if question.kind == "int" or question.kind == "bool-or-int" and amount is not None:
        return amount
    return boolean


class Library:
    """The library, by its two programs."""

    def __init__(self, program, paths_program, install):
        self.program = program
        self.paths_program = paths_program
        self.install = install

    def answers(self, questions):
        lines = [kind + b" " + question.text for question in questions if question.kind != "path"
                 for kind in (b"amount", b"boolean", b"color")]
        given = dict(zip(lines, map(text_of, answers([self.program], lines))))
        asked = [question for question in questions if question.kind == "path"]
        paths = dict(zip(asked, self.paths(asked)))
        return [paths[question] if question.kind == "path" else value(question, given) for question in questions]

    def paths(self, questions):
        """The answers to paths; the lookup knows the user that the path names, if the machine does."""
        lines = []
        for question in questions:
            name, home = user_of(question.text)
            lines.append(calls.line(question.text, self.install, question.home, {} if home is None else {name: home}))
        outcomes = [answer.split(b"\t")[3:] for answer in answers([self.paths_program], lines)]
        return [bytes.fromhex(outcome[1].decode()) if outcome[0] == b"ok" else None for outcome in outcomes]


class Command:
    """A Git by its command, which is asked in a folder: what it says it is, and the versions that are running."""

    def __init__(self, command, folder):
        found = shutil.which(command)
        if found is None:
            raise Missing(f"no {command} is installed")
        self.command = os.path.abspath(found)
        self.folder = pathlib.Path(folder)
        run = subprocess.run([self.command, "--version"], capture_output=True, check=False)
        if run.returncode != 0:
            raise Missing(f"{command} does not run: {run.stderr.decode(errors='replace').strip()}")
        said = run.stdout.decode().strip()
        self.version = tuple(map(int, re.search(r"(\d+)\.(\d+)", said).groups()))
        if self.version < FIRST_VERSION:
            raise Missing(f"{said}, and Git from {dotted(FIRST_VERSION)} on is compared")
        self.running = {"Git": self.version, "glibc": self.c_library()}
        self.said = f"{said}, glibc {dotted(self.running['glibc'])}"

    def c_library(self):
        """The version of the glibc that this Git calls, or a version below all others if it is another C library."""
        with tempfile.TemporaryDirectory(dir=self.folder) as folder:
            known = {"PATH": os.environ["PATH"], "LC_ALL": "C", "GIT_EDITOR": ":"}
            command = [self.command, "bugreport", "--suffix", "said"]
            subprocess.run(command, env=known, cwd=folder, capture_output=True, check=True)
            said = (pathlib.Path(folder) / "git-bugreport-said.txt").read_text("utf-8", "replace")
        version = re.search(r"^libc info: glibc: (\d+)\.(\d+)", said, re.MULTILINE)
        return tuple(map(int, version.groups())) if version else (0,)


class Git(Command):
    """A Git that is asked for values, over files in its folder."""

    def config(self, name, values, arguments, home):
        """Runs `git config` over a file with these values, one for each line."""
        file = self.folder / name
        file.write_bytes(b"[a]\n" + b"".join(b'\tb = "' + escaped(value) + b'"\n' for value in values))
        known = {"PATH": os.environ["PATH"], "LC_ALL": "C", "GIT_CONFIG_NOSYSTEM": "1", "GIT_CONFIG_GLOBAL": os.devnull}
        if home is not None:
            known["HOME"] = os.fsdecode(home)
        command = [self.command, "config", "--file", file, *arguments, "a.b"]
        return subprocess.run(command, env=known, cwd=self.folder, capture_output=True, check=False)

    def answer(self, name, question):
        """The answer to a question, whose file has this name."""
        how = ["--get-color"] if question.kind == "color" else [f"--type={question.kind}", "--null", "--get"]
        run = self.config(name, [question.text], how, question.home)
        if run.returncode == 0 and question.kind == "color":
            return run.stdout
        if run.returncode == 0 and run.stdout.endswith(b"\0"):
            return run.stdout[:-1]
        if run.returncode == 1 and not run.stdout:
            return NOT_SET
        if run.returncode != REFUSED:
            raise Wrong(f"git ended with status {run.returncode} at {question}: {run.stderr!r}")
        return None

    def answers(self, questions):
        with concurrent.futures.ThreadPoolExecutor() as pool:
            return list(pool.map(self.answer, map(str, range(len(questions))), questions))

    def lost(self, wanted):
        """The texts that a file does not carry unchanged."""
        *given, _ = self.config("all", wanted, ["--null", "--get-all"], None).stdout.split(b"\0")
        if len(given) != len(wanted):
            return wanted
        return [text for text, carried in zip(wanted, given) if text != carried]

    def install(self):
        """The directory that the prefix means, or /usr if Git does not know the prefix."""
        given = self.answer("prefix", Question("path", calls.PREFIX))
        return b"/usr" if given in (None, calls.PREFIX) else given.removesuffix(b"/")


def escaped(text):
    return text.replace(b"\\", b"\\\\").replace(b'"', b'\\"').replace(b"\n", b"\\n")


def user_of(text):
    """The user that a path names, and that user's home directory, or None if the machine has no such user."""
    first = text.removeprefix(calls.MARK).partition(b"/")[0]
    name = first.removeprefix(b"~") if first.startswith(b"~") else b""
    try:
        return name, os.fsencode(pwd.getpwnam(name.decode()).pw_dir)
    except (KeyError, UnicodeDecodeError):
        return name, None


def users():
    """A few users of the machine, with different homes."""
    by_home = {entry.pw_dir: entry.pw_name for entry in reversed(pwd.getpwall())}
    return [name.encode() for name in list(by_home.values())[::-1][:USERS]]
