#!/usr/bin/env python3
"""Compares examples/c/six_settings.c with Git: six.py PROGRAM

PROGRAM is the built example. It runs in random repositories, whose files, includes and variables have some of the six
settings. Of each it has to print the scope, the file and the value that `git config --show-scope --show-origin --get`
prints. Git tells no line, so the key has to be on the line of the file that is printed. The last line is 'N passed, M
failed'.
"""
import collections
import os
import pathlib
import random
import re
import subprocess
import sys
import tempfile

KEYS = ["core.bare", "core.editor", "user.name", "push.default", "pull.rebase", "remote.origin.url"]
TEXTS = ["", " = one", ' = "two ; three"', " = https://x/y", " = a \\\n b", " =", ' = \\"q\\"']
# Git 2.39 crashes at a URL without =
VALUES = {"core.bare": [" = true", " = no"], "remote.origin.url": TEXTS[1:]}
# a line of the program, whose value may have line feeds
PLACE = re.compile(rb"(?:(\w+)\t(.*):(\d+)\t)?(%s) (?:= (.*)|is not set)" % "|".join(KEYS).encode(), re.DOTALL)
INCLUDED = ["F/a", "F/b", "relative", "~/in home", "F/none"]
CONDITIONS = ["gitdir:**/top/**", "gitdir:F/", "onbranch:main", "onbranch:other", "hasconfig:remote.*.url:https://*/**"]
COMMANDS = [("core.editor", "v"), ("Pull.REBASE", "no"), ("include.path", "F/a"), ("remote.origin.url", "u")]
PARAMETERS = ["'user.name'='p q'", "'pull.rebase'", "'include.path'='relative'", "'include.path'='F/b'"]


def settings(draw, keys, includes):
    """The text of a file, which may include others."""
    text = ""
    for key in draw.sample(keys, draw.randrange(5)):
        section, _, name = key.rpartition(".")
        header = re.sub(r"\.(.*)", r' "\1"', section)
        value = draw.choice(VALUES.get(key, TEXTS))
        text += f"[{header}]\n" + "# x\n" * draw.randrange(3) + f"\t{draw.choice([name, name.upper()])}{value}\n"
    for _ in range(draw.randrange(3) * includes):
        section = draw.choice(["include", f'includeIf "{draw.choice(CONDITIONS)}"'])
        text += f"[{section}]\n\tpath = {draw.choice(INCLUDED)}\n"
    return text


def repository(draw, folder):
    """Makes a repository, the files around it and the variables for Git."""
    top, home, inner = folder / "top", folder / "home", folder / "top/.git"
    known = {"HOME": str(home), "LC_ALL": "C", "GIT_CONFIG_SYSTEM": str(folder / "system")}
    known |= {name: os.environ[name] for name in ("PATH", "LD_LIBRARY_PATH") if name in os.environ}
    (home / ".config/git").mkdir(parents=True)
    (folder / "xdg/git").mkdir(parents=True)
    subprocess.run(["git", "init", "-q", "-b", "main", str(top)], env=known, check=True)
    for name in (folder / "a", folder / "b", home / "in home", home / "relative", inner / "relative"):
        name.write_text(settings(draw, KEYS[1:5], False))
    for name in ("system", "xdg/git/config", "home/.config/git/config", "home/.gitconfig", "g"):
        if draw.random() < 0.7:
            (folder / name).write_text(settings(draw, KEYS, True).replace("F/", f"{folder}/"))
    (inner / "config.worktree").write_text(settings(draw, KEYS[1:], True).replace("F/", f"{folder}/"))
    with open(inner / "config", "a", encoding="utf-8") as file:
        file.write(settings(draw, KEYS[1:], True).replace("F/", f"{folder}/"))
        file.write(draw.choice(["", "[extensions]\n\tworktreeConfig\n", "[extensions]\n\tworktreeConfig = no\n"]))
    drawn = {"XDG_CONFIG_HOME": ["", "F/xdg"], "GIT_CONFIG_GLOBAL": ["F/g", "F/none"], "GIT_CONFIG_PARAMETERS": PARAMETERS}
    known |= {name: draw.choice(values) for name, values in drawn.items() if draw.random() < 0.3}
    if draw.random() < 0.4:
        known |= zip(("GIT_CONFIG_COUNT", "GIT_CONFIG_KEY_0", "GIT_CONFIG_VALUE_0"), ("1", *draw.choice(COMMANDS)))
    return top, {name: value.replace("F/", f"{folder}/") for name, value in known.items()}


def run(top, known, *words):
    return subprocess.run(words, cwd=top, env=known, capture_output=True, check=False)


def is_right(top, known, scope, file, line, key, value):
    """Whether a line of the program is what Git says of its key."""
    git = run(top, known, "git", "config", "--show-scope", "--show-origin", "--null", "--get", key.decode())
    if git.returncode == 1:
        return scope is None
    told = git.stdout.split(b"\0")
    name = told[1].removeprefix(b"file:").removesuffix(b":")
    # Git shows a key without = as the empty text
    if (scope, file) != (told[0], name) or value not in (told[2], told[2] or b"true"):
        return False
    lines = [] if scope == b"command" else (top / name.decode()).read_bytes().split(b"\n")[:int(line)]
    # a value may go on in the next line, which is that of the entry
    return not lines or key.rpartition(b".")[2] in b"".join(lines[-2:] if lines[-1] == b" b" else lines[-1:]).lower()


def main():
    draw, counts, program = random.Random(1), collections.Counter(), os.path.abspath(sys.argv[1])
    for number in range(60):
        with tempfile.TemporaryDirectory() as folder:
            top, known = repository(draw, pathlib.Path(os.path.realpath(folder)))
            ours, git = run(top, known, program, "."), run(top, known, "git", "config", "--list")
            places = re.split(rb"\n(?=(?:\w+\t.*:\d+\t)?(?:%s) )" % "|".join(KEYS).encode(), ours.stdout.strip(b"\n"))
            if git.returncode != 0:
                counts["failed" if ours.returncode == 0 else "refused"] += 1
            elif len(places) != len(KEYS):
                counts["failed"] += 1
                print(f"{number}: {ours}")
            for place in places if git.returncode == 0 else ():
                found = PLACE.fullmatch(place)
                holds = found is not None and is_right(top, known, *found.groups())
                counts[(found[1] or b"not set").decode() if holds else "failed"] += 1
                if not holds:
                    print(f"{number}: {place}")
    wanted = ("refused", "not set", "system", "global", "local", "worktree", "command")
    counts["failed"] += sum(not counts[it] for it in wanted)
    print(f"{counts.total() - counts['failed']} passed, {counts['failed']} failed")
    return 1 if counts["failed"] else 0


sys.exit(main())
