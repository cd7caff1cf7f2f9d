"""Puts the Gits of newer Debian suites into a folder, each with its own C library: newer_gits.py FOLDER [SUITE..]

FOLDER/SUITE/git is then the command, for each of these suites, or of SUITES if none is named. The packages are those of
Debian's mirror, and apt gets them by a list of its own below FOLDER, so that nothing of the system changes. A command
that is there is kept. If the packages cannot be had within SECONDS, it says `skipped` and why. The last line is
'N passed, M failed'.
"""
import concurrent.futures
import pathlib
import shlex
import subprocess
import sys
import time

from programs import Missing, counted

SUITES = ["trixie", "sid"]
PACKAGES = ["git", "libc6", "libpcre2-8-0", "zlib1g"]
SOURCE = "deb [signed-by=/usr/share/keyrings/debian-archive-keyring.gpg] http://deb.debian.org/debian {} main\n"
# a busy host takes long over the lists of packages
SECONDS = 180


def run(until, folder, *words):
    """Runs a command in a folder, up to a time, and returns its output."""
    try:
        done = subprocess.run(words, cwd=folder, timeout=until - time.monotonic(), check=False, capture_output=True)
    except (OSError, subprocess.TimeoutExpired) as error:
        raise Missing(error) from None
    if done.returncode != 0:
        last = done.stderr.decode(errors="replace").strip().rpartition("\n")[2]
        raise Missing(f"{words[0]} says {last}")
    return done.stdout


def fetch(folder, suite, until):
    """Makes the command of a suite, which calls the suite's own loader, libraries and other commands."""
    root, command = folder / suite / "root", folder / suite / "git"
    if command.exists():
        return
    for name in ("etc/apt", "var/lib/apt/lists/partial", "var/cache/apt/archives/partial"):
        (root / name).mkdir(parents=True, exist_ok=True)
    (root / "etc/apt/sources.list").write_text(SOURCE.format(suite), "ascii")
    apt = ["apt-get", "-o", f"Dir={root}", "-o", "APT::Sandbox::User=root", "-o", "Acquire::Languages=none"]
    run(until, root, *apt, "update")
    run(until, root, *apt, "download", *PACKAGES)
    for package in root.glob("*.deb"):
        run(until, root, "dpkg-deb", "-x", package.name, ".")
    binary = (root / "usr/bin/git").rename(root / "usr/bin/git.elf")
    # the links to git's commands lead to one of these
    for name in ("usr/bin/git", "usr/lib/git-core/git"):
        (root / name).unlink(missing_ok=True)
        (root / name).symlink_to(command)
    loader = next(root.glob("usr/lib/*/ld-linux*.so.*"))
    own = shlex.quote(f"GIT_EXEC_PATH={root}/usr/lib/git-core")
    call = shlex.join(map(str, ["--library-path", loader.parent, binary]))
    script = f'#!/bin/sh\nexport {own}\nexec {shlex.quote(str(loader))} --argv0 "$0" {call} "$@"\n'
    command.touch(0o755)
    command.write_text(script, "utf-8")


def fetch_all(folder, suites):
    """Makes the commands of the suites, and counts them."""
    folder.mkdir(parents=True, exist_ok=True)
    until = time.monotonic() + SECONDS
    with concurrent.futures.ThreadPoolExecutor() as pool:
        list(pool.map(lambda suite: fetch(folder, suite, until), suites))
    for suite in suites:
        print(run(until, folder, folder / suite / "git", "--version").decode().strip())
    return len(suites), 0


if __name__ == "__main__":
    sys.exit(counted(lambda: fetch_all(pathlib.Path(sys.argv[1]).resolve(), sys.argv[2:] or SUITES)))
