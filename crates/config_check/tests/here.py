"""Compares the files that are read without an argument with those of `git config --list --show-origin`."""
import os
import pathlib
import shutil
import subprocess
import tempfile

from checking import Ended, run

WRONG = "[gc]\n\tauto = wrong\n"
PATH = "[include]\n\tpath = %s\n"
# conditions that may hold somewhere, and some that never do
CONDITIONS = ("gitdir:/r/", "gitdir:/R/", "gitdir/i:/R/", "gitdir:./.git", "gitdir:~/", "gitdir:r/.git", "onbranch:m*",
              "onbranch:main/", "hasconfig:remote.*.url:**")
# the environment variables, and the folder in which both programs run
CASES = [
    ({}, "plain"), ({}, "work"), ({}, "work/deep/er"), ({}, "work/.git"), ({}, "linked"), ({}, "linked/deep"),
    ({}, "bare.git"), ({}, "bare.git/refs"), ({}, "tree"), ({}, "module"),
    ({"GIT_CONFIG_NOSYSTEM": "yes"}, "work"), ({"GIT_CONFIG_NOSYSTEM": "0"}, "work"),
    ({"GIT_CONFIG_SYSTEM": "{0}/missing"}, "work"), ({"GIT_CONFIG_GLOBAL": "{0}/more"}, "work"),
    ({"GIT_CONFIG_GLOBAL": "{0}/missing"}, "work"), ({"GIT_CONFIG_GLOBAL": ""}, "plain"),
    ({"XDG_CONFIG_HOME": "{0}/xdg"}, "plain"), ({"XDG_CONFIG_HOME": ""}, "plain"), ({"HOME": "{0}/other"}, "plain"),
    ({"GIT_DIR": "{0}/bare.git"}, "work"), ({"GIT_DIR": "../work/.git"}, "plain"), ({"GIT_DIR": ".git"}, "module"),
    ({"GIT_DIR": "{0}/tree/.git"}, "plain"), ({"GIT_DIR": "{0}/work/.git/worktrees/tree"}, "plain"),
    ({"GIT_COMMON_DIR": "{0}/work/.git", "GIT_DIR": "{0}/work/.git/worktrees/tree"}, "plain"),
]
MADE = r"""
git init -q work; git -C work commit -q --allow-empty -m x; mkdir -p work/deep/er plain other xdg/git home/.config/git
git init -q --bare bare.git; mkdir -p linked/deep; git init -q --separate-git-dir=apart linked
git -C work worktree add -q ../tree; git -C work config extensions.worktreeConfig true
git -C tree config --worktree core.x tree; git -C work config --worktree core.x work
git init -q module; mv module/.git held; echo "gitdir: ../held" > module/.git
"""


def files_of(folder, output):
    """The real paths of the files with these names, each once, in order."""
    return list(dict.fromkeys(os.path.realpath(folder / name) for name in output))


def by_git(git, folder, known):
    """The files that Git names; it names a file by its path from the top of the worktree, if there is one."""
    top = subprocess.run([git, "rev-parse", "--show-toplevel"], cwd=folder, env=known, check=False,
                         stdout=subprocess.PIPE, stderr=subprocess.DEVNULL).stdout.decode().rstrip("\n")
    said = subprocess.run([git, "config", "--list", "--show-origin", "--null"], cwd=folder, env=known, check=False,
                          stdout=subprocess.PIPE, stderr=subprocess.PIPE)
    origins = said.stdout.decode().split("\0")[:-1:2]
    return files_of(folder / top, [origin.removeprefix("file:") for origin in origins if origin.startswith("file:")])


def by_program(program, folder, known, names=()):
    """The files that the program reads, each of which has a wrong value."""
    came = run([program.path, *names], cwd=folder, env=known)
    return files_of(folder, [line.split(":")[0] for line in came.output.decode().splitlines()])


def spoil(home):
    """Puts a wrong value into each file of the folder that Git may read."""
    for name in ("system", "more", "home/.gitconfig", "home/.config/git/config", "xdg/git/config", "other/.gitconfig",
                 "work/.git/config", "work/.git/config.worktree", "bare.git/config", "apart/config", "held/config",
                 "work/.git/worktrees/tree/config.worktree"):
        with open(home / name, "a", encoding="utf-8") as file:
            file.write(WRONG)


def included(group, program, home, known):
    """Included files are read once, on any condition that Git knows: a cycle, a missing file, no value, and the depth.

    They come in the order in which Git comes to them, behind the file that includes them."""
    folder = home / "includes"
    folder.mkdir()
    deep = [f"deep-{number}" for number in range(12)]
    for name, next_name in zip(deep, deep[1:] + ["missing"]):
        (folder / name).write_text(WRONG + PATH % next_name)
    texts = {"first": "[include]\n\tpath = a\n\tpath = ~/b\n\tpath = missing\n\tpath = a\n\tpath\n"
                      "[includeIf \"onbranch:none\"]\n\tpath = c\n" + PATH % "deep-0",
             "a": WRONG + PATH % "first", "c": WRONG + PATH % "a", "../home/b": WRONG}
    for name, text in texts.items():
        (folder / name).write_text(text)
    known = {**known, "GIT_CONFIG_NOSYSTEM": "1", "GIT_CONFIG_GLOBAL": str(folder / "first")}
    wanted = [str(folder / name) for name in ("first", "a", "../home/b", "c", *deep[:10])]
    group.expect("included files", list(map(os.path.realpath, wanted)), by_program(program, home / "plain", known))
    came = by_program(program, folder, known, ["first", "./first"])
    group.expect("what a named file includes", list(map(os.path.realpath, wanted)), came)
    (folder / "loop").write_text(WRONG + PATH % "../includes/loop" + PATH % "./loop")
    group.expect("a file that includes itself", [str(folder / "loop")], by_program(program, folder, known, ["loop"]))
    for condition in CONDITIONS:
        (folder / "on").write_text(WRONG + f"[includeIf \"{condition}\"]\n\tpath = deep-11\n")
        came = by_program(program, folder, known, ["on"])
        group.expect(condition, [f"{folder}/on", f"{folder}/deep-11"], came)
    (folder / "on").write_text(WRONG + "[includeIf \"unknown:x\"]\n\tpath = deep-11\n")
    group.expect("an unknown condition", [f"{folder}/on"], by_program(program, folder, known, ["on"]))
    data = (WRONG + PATH % "deep-11" + PATH % f"{folder}/c" + PATH % "~/b").encode()
    came = run([program.path, "-"], data, cwd=folder, env=known)
    names = list(dict.fromkeys(line.split(":")[0] for line in came.output.decode().splitlines()))
    wanted = ["-", *(f"{folder}/{name}" for name in ("c", "a", "first")), f"{home}/home/b"]
    wanted += [f"{folder}/{name}" for name in deep[:7]]
    group.expect("what standard input includes", wanted, names)
    stops(group, program, folder, known)


def stops(group, program, folder, known):
    """Includes at which Git stops are errors, an unknown condition is a warning, and a missing file a note."""
    text = ("[include]\n\tpath = ~no-such-user/x\n\tpath = .\n\tpath = none\n\tpath = ~daemon/none\n\tpath = %(prefix)/none\n"
            "[includeIf \"gitdr:x\"]\n\tpath = none\n")
    (folder / "stops").write_text(text + PATH % "stops")
    came = run([program.path, "stops"], cwd=folder, env=known)
    found = [line.split(": ")[0].split(":")[1] + line.split(": ")[1] for line in came.output.decode().splitlines()]
    group.expect("stops", ["2error", "3error", "4note", "5note", "8warning", "10error"], found)
    (folder / "stops").write_text(PATH % "")
    for name in ("stops", "./stops"):
        told = b"%s:2:2: error: include.path: '': the path is empty, and so names a folder, at which Git stops [include-path]\n"
        group.expect("an empty path", told % name.encode(), run([program.path, name], cwd=folder, env=known).output)


def check(group, program):
    git = shutil.which("git")
    if git is None:
        group.skip("all", "no git is installed")
        return
    with tempfile.TemporaryDirectory() as name:
        home = pathlib.Path(os.path.realpath(name))
        plain = {"PATH": os.environ["PATH"], "LC_ALL": "C", "HOME": f"{home}/home",
                 "GIT_CONFIG_SYSTEM": f"{home}/system",
                 **{f"GIT_{who}_{what}": "x@x" for who in ("AUTHOR", "COMMITTER") for what in ("NAME", "EMAIL")}}
        subprocess.run(["sh", "-ec", MADE], cwd=home, env=plain, check=True)
        spoil(home)
        for more, folder in CASES:
            known = {**plain, **{key: value.format(home) for key, value in more.items()}}
            wanted = by_git(git, home / folder, known)
            group.expect((more, folder), wanted, by_program(program, home / folder, known))
        included(group, program, home, plain)
        known = {"PATH": plain["PATH"], "HOME": f"{home}/plain", "GIT_CONFIG_NOSYSTEM": "1"}
        told = b"config_check: Git reads no file here: name one\n"
        group.expect("no file", Ended(2, b"", told), run([program.path], cwd=home / "plain", env=known))
