#!/usr/bin/env python3
"""Tests install.sh and debian.sh: python3 packaging/tests.py CONFIG_VALUE GIT_SETTINGS CONFIG_CHECK
[--archive ARCHIVE]

The arguments are the built programs, and the static library that `rt` has built for C. Nothing is written outside of
temporary folders: packages are installed in a copy of the machine that only these processes see, which takes root and
a kernel with overlays. A test whose tool is missing says so, and counts nothing. The last line is 'N passed, M failed'.
"""
import argparse
import os
import pathlib
import shlex
import shutil
import subprocess
import sys
import tempfile

ROOT = pathlib.Path(__file__).resolve().parent.parent
VERSION = (ROOT / "crates/gix_config_value_c/VERSION").read_text(encoding="utf-8").strip()
# the crates of the programs, and as what each is installed
NAMES = {"config_value": "config_value", "git_settings": "git-settings", "config_check": "config_check"}
# what a shell completes: the words of a line, and all that is offered for the last one
COMPLETED = [
    (["config_check", "--fail-on", ""], "note warning error"),
    (["config_check", "--format", "="], "github json sarif text"),
    (["config_check", "--format", "=", "j"], "json"),
    (["git-config-check", "--col"], "--color"),
    (["config_check", "--settings", "set"], "settings"),
    (["git", "config-check", "--fail-on", "w"], "warning"),
    (["git-settings", "--type", "=", "boo"], "boolean bool bool-or-int bool-or-str"),
    (["git-settings", "get", "--type", "suf"], "suffix"),
    (["git-settings", "get", "--def"], "--default"),
    (["git-settings", "list", "--def"], ""),
    (["git-settings", "-l", "set", "--ap"], "--append"),
    (["git-settings", "re"], "remove-section rename-section"),
    (["git-settings", "get", "my."], "my.key my.other-key"),
    (["git", "settings", "get", "my.k"], "my.key"),
]
# lists what it completes: the file of completions, and the words
COMPLETE = """. "$1"; shift
COMP_WORDS=("$@"); COMP_CWORD=$(($# - 1))
cur=${@: -1} prev=${@: -2:1}
if [[ $1 == git ]]; then "_git_${2//-/_}"; else _gix_config_value "$1" "$cur" "$prev"; fi
printf '%s\\n' "${COMPREPLY[@]}" | sort"""
# what fish offers for a line
OFFERED = [("config_check --fail-on ", ["error", "note", "warning"]), ("config_check --format=j", ["--format=json"]),
           ("git-config-check --col", ["--color"]), ("git-settings get --type suf", ["suffix"]),
           ("git-settings get --def", ["--default"]), ("git-settings re", ["remove-section", "rename-section"]),
           ("git-settings get my.", ["my.key", "my.other-key", "my.sub section.key"])]
# what zsh is told of the words of a line: the beginning and the end of some of the descriptions
DESCRIBED = [
    (["config_check", "-"], "--canonical[Report", "canonically]"),
    (["config_check", "-"], "--fail-on=[The least severity", "]:SEVERITY:(note warning error)"),
    (["config_check", "-"], "*--settings=[", "]:file:_files"),
    (["config-check", "-"], "--format=[", "]:FORMAT:(text json github sarif)"),
    (["config_check", ""], "*:file:_files", ""),
    (["git-settings", "get", "-"], "--type=[", "]:TYPE:(bool int bool-or-int bool-or-str path expiry-date color suffix "
     "integer amount boolean name attribute)"),
    (["git-settings", "get", ""], "*:key:(my.key my.other-key)", ""),
    (["settings", ""], "*:key:(my.key my.other-key get list set unset rename-section remove-section)", ""),
]
# what zsh is told of a word of Git is in the file of the program
ZSH = {"settings": "git-settings", "config-check": "git-config-check"}
# prints what zsh is told: the file of completions, and the words
DESCRIBE = """setopt extended_glob
_call_program() { shift; eval "$@" }
_arguments() { print -rl -- "$@" }
described() { local -a words=("${@:2}"); . "$1" }
described "$@" """
# runs a script in a copy of the machine: the folder of the copy, the folder that /mnt is there, and the script
COPY = """set -e
mount -t tmpfs tmpfs "$1"; mkdir "$1/new" "$1/work" "$1/root"
mount -t overlay overlay -o "lowerdir=/,upperdir=$1/new,workdir=$1/work" "$1/root"
mount --rbind /proc "$1/root/proc"; mount --rbind /dev "$1/root/dev"; mount --bind "$2" "$1/root/mnt"
exec chroot "$1/root" sh -c "$3" """
# each line is what it prints: packages are installed, each is run, and removed
INSTALLED = r"""set -e
cd /mnt
export PATH=/usr/bin:/usr/sbin:/bin:/sbin HOME=/mnt
dpkg --install *.deb > log 2>&1 || { cat log; exit 1; }
git config-check --version
echo "color $(git settings get --file config a.b)" | config_value
if [ -e libraries ]; then
    cc -o theme theme.c $(pkg-config --cflags --libs gix_config_value)
    ./theme 'bold red' 'ul #fff' | head -n 1
    python3 -c 'import gix_config_value as it; print(it.integer("10m"))'
    ls -d /usr/lib/python3/dist-packages/gix_config_value/__pycache__ | wc -l
fi
dpkg --purge $(ls *.deb | sed 's/_.*//') > log 2>&1 || { cat log; exit 1; }
find /usr/bin /usr/lib /usr/include /usr/share -name '*gix?config?value*' -o -name 'config_value*' \
    -o -name '*config?check*' -o -name '*git-settings*'"""
counts = {True: 0, False: 0}


def holds(name, found, wanted):
    counts[found == wanted] += 1
    if found != wanted:
        print(f"failed: {name}: {found!r}, and not {wanted!r}")


def run(*command, status=0, cwd=ROOT, **variables):
    """What a command prints. If it has another status, that is a fault, which is counted."""
    done = subprocess.run(list(map(str, command)), env=os.environ | {key: str(it) for key, it in variables.items()},
                          cwd=cwd, stdout=subprocess.PIPE, stderr=subprocess.STDOUT, text=True, check=False)
    if done.returncode != status:
        holds(f"the status of {command}, which printed {done.stdout[-2000:]}", done.returncode, status)
    return done.stdout


def tree(folder):
    return {str(it.relative_to(folder)): it.readlink() if it.is_symlink() else it.is_dir() or it.read_bytes()
            for it in folder.rglob("*")}


def completions(prefix):
    """What shells offer, by the help of the programs and by the settings of a file."""
    settings = prefix / "settings"
    settings.write_text('[my]\n\tkey = 1\n\tother-key = 2\n[my "sub section"]\n\tkey = 3\n', encoding="utf-8")
    path = f"{prefix / 'bin'}:{os.environ['PATH']}"
    for words, offered in COMPLETED:
        file = prefix / "share/bash-completion/completions" / "-".join(words[:1 + (words[0] == "git")])
        said = run("bash", "-c", COMPLETE, "-", file, *words, cwd=prefix, PATH=path, GIT_CONFIG_GLOBAL=settings,
                   GIT_CONFIG_NOSYSTEM=1)
        holds(f"completions of {words}", sorted(said.split()), sorted(offered.split()))
    for words, begin, end in DESCRIBED if shutil.which("zsh") else ():
        file = prefix / "share/zsh/site-functions" / f"_{ZSH.get(words[0], words[0])}"
        said = run("zsh", "-f", "-c", DESCRIBE, "-", file, *words, cwd=prefix, PATH=path, GIT_CONFIG_GLOBAL=settings,
                   GIT_CONFIG_NOSYSTEM=1).splitlines()
        holds(f"{words} in zsh, {said}", any(it.startswith(begin) and it.endswith(end) for it in said), True)
    for line, offered in OFFERED if shutil.which("fish") else ():
        with tempfile.TemporaryDirectory() as home:
            said = run("fish", "--no-config", "-c", "set -p fish_complete_path $argv[1]; complete -C $argv[2]",
                       prefix / "share/fish/vendor_completions.d", line, cwd=prefix, HOME=home, PATH=path,
                       GIT_CONFIG_GLOBAL=settings, GIT_CONFIG_NOSYSTEM=1).splitlines()
        holds(f"fish completes {line}", sorted(it.partition("\t")[0] for it in said), offered)
    for shell in ("zsh", "fish"):
        if not shutil.which(shell):
            print(f"skipped: completions of {shell}, without {shell}")
    settings.unlink()


def programs(prefix, given, said):
    for name, program in given.items():
        holds(f"{name} is the program given", (prefix / "bin" / NAMES[name]).read_bytes(), program.read_bytes())
    path = f"{prefix / 'bin'}:{os.environ['PATH']}"
    holds("git config-check", run("git", "config-check", "--version", PATH=path), f"config_check {VERSION}\n")
    holds("git settings", run("git", "-c", "a.b=c", "settings", "get", "a.b", PATH=path), "c\n")
    pages = sorted(it.name for it in prefix.rglob("man1/*"))
    if not shutil.which("help2man"):
        holds("the pages that are left out", (said.count("without help2man"), pages), (3, []))
        print("skipped: man pages, without help2man")
        return
    words = [f"-{word}" for word in ("get", "list", "remove-section", "rename-section", "set", "unset")]
    wanted = ["config_check", "config_value", "git-config-check", *(f"git-settings{word}" for word in [*words, ""])]
    holds("the man pages", pages, [f"{name}.1" for name in wanted])
    for page in pages:
        file = prefix / "share/man/man1" / page
        text = run("man", "--warnings", "--local-file", file, MANWIDTH=100, LC_ALL="C.UTF-8")
        name = page.removesuffix(".1").replace("git-config-check", "config_check")
        holds(f"the name in {page}", text.splitlines()[3].split(" - ")[0].strip(), name)
        holds(f"the head of {page}", text.split("(")[0], name.upper())
        # a line each
        shown = [line.split()[0] for line in text.partition("\nEXAMPLES\n")[2].split("\n\n")[0].splitlines()]
        holds(f"the examples in {page}", set(shown), {name} if shown else set())


def libraries(prefix):
    """The C library by pkg-config, and the package by Python."""
    flags = run("pkg-config", "--define-prefix", "--cflags", "--libs", "gix_config_value",
                PKG_CONFIG_PATH=prefix / "lib/pkgconfig")
    run("cc", "-o", prefix / "theme", "examples/c/theme.c", *shlex.split(flags))
    said = run(prefix / "theme", "bold red", "ul #fff", LD_LIBRARY_PATH=prefix / "lib")
    holds("an example in C", said.split("\n")[0], "#ffffff bold ul")
    (prefix / "theme").unlink()
    said = run("python3", "-c", "import gix_config_value as it; print(it.integer('10m'))",
               PYTHONPATH=prefix / "python", PYTHONDONTWRITEBYTECODE="", PYTHONPYCACHEPREFIX="")
    compiled = prefix / "python/gix_config_value/__pycache__"
    holds("compiled modules, which also are taken away", compiled.is_dir(), True)
    holds("the Python package", said, "10485760\n")


def installation(work, given, archive):
    dest, folder = work / "dest", work / "programs"
    prefix = dest / "srv/my own"
    known = {"DESTDIR": dest, "PROGRAMS": folder, "GCV_ARCHIVE": archive, "PYTHONDIR": "/srv/my own/python"}
    theirs = prefix / "bin/config_check"
    theirs.parent.mkdir(parents=True)
    theirs.write_text("theirs")
    before = tree(dest)
    said = run("sh", "install.sh", "/srv/my own", status=1, **known)
    holds("a file of theirs is named", said.split("\n")[1:], [str(theirs), ""])
    holds("a file of theirs stays, and nothing else is there", tree(dest), before)
    theirs.rename(theirs.with_name("other"))
    before = tree(dest)
    run("sh", "install.sh", "--uninstall", "/srv/my own", status=1, **known)
    said = run("sh", "install.sh", "/srv/my own", **known)
    programs(prefix, given, said)
    completions(prefix)
    hidden = [it for it in prefix.rglob("*") if it.is_file() and it.stat().st_mode & 0o444 != 0o444]
    holds("all can read it", hidden, [])
    if archive.exists():
        libraries(prefix)
    else:
        holds("the libraries are left out", "skipped: the C library and the Python package" in said, True)
        print("skipped: the libraries, without an archive")
    first = {name for name in tree(dest) if "__pycache__" not in name}
    run("sh", "install.sh", "/srv/my own", **known)
    holds("a second installation has the same files", set(tree(dest)), first)
    run("sh", "install.sh", "--uninstall", "/srv/my own", **known)
    holds("what is left is what was there", tree(dest), before)
    run("sh", "install.sh", "/srv/my own", status=1, **known | {"PROGRAMS": work, "GCV_ARCHIVE": work / "none"})
    holds("nothing is installed without programs and archive", tree(dest), before)


def unproved(work):
    """Programs for which nothing is proved, which say so."""
    prefix = work / "it's own"
    run("sh", "install.sh", "--unproved", prefix, PROGRAMS=work / "programs")
    said = run(prefix / "bin/config_check", "--version")
    holds("the version of what is not proved", said, f"config_check {VERSION}, unproved\n")
    said = run(prefix / "bin/git-settings", "get", "--default", "a  b", "no.such.key")
    holds("arguments of what is not proved", said, "a  b\n")
    run("sh", "install.sh", "--uninstall", prefix)
    holds("what is left of what is not proved", prefix.exists(), False)


def packages(work, archive):
    missing = [it for it in ("dpkg-deb", "dpkg-shlibdeps", "strip") if not shutil.which(it)]
    if missing:
        print(f"skipped: packages for Debian, without {' and '.join(missing)}")
        return
    known = {"PROGRAMS": work / "programs", "GCV_ARCHIVE": archive, "DEBFULLNAME": "Some One",
             "DEBEMAIL": "someone@example.org", "SOURCE_DATE_EPOCH": 1_700_000_000,
             # a build with checks is large, and to press it well takes half a minute
             "DPKG_DEB_COMPRESSOR_LEVEL": 0}
    wanted = ["gix-config-value-tools"]
    if archive.exists():
        number = VERSION.rpartition(".")[0]
        wanted += [f"libgix-config-value{number}", "libgix-config-value-dev", "python3-gix-config-value"]
    for folder in ("packages", "again"):
        run("sh", "packaging/debian.sh", work / folder, **known)
    made = sorted((work / "packages").glob("*.deb"))
    holds("the packages", [it.name.partition("_")[0] for it in made], sorted(wanted))
    holds("the packages are reproducible", tree(work / "packages") == tree(work / "again"), True)
    if not shutil.which("lintian"):
        print("skipped: lintian, which is not there")
    else:
        # without help2man there are no man pages
        told = [line for line in run("lintian", "--allow-root", "--fail-on", "error", *made).splitlines()
                if shutil.which("help2man") or "no-manual-page" not in line]
        holds("lintian", told, [])
    (work / "copy").mkdir()
    if subprocess.run(["unshare", "-m", "sh", "-c", COPY, "-", work / "copy", work, "true"], capture_output=True,
                      check=False).returncode != 0:
        print("skipped: the installation of packages, without root or overlays")
        return
    if archive.exists():
        shutil.copy(ROOT / "examples/c/theme.c", work / "packages")
        (work / "packages/libraries").touch()
    (work / "packages/config").write_text("[a]\n\tb = bold red\n", encoding="utf-8")
    said = run("unshare", "-m", "sh", "-c", COPY, "-", work / "copy", work / "packages", INSTALLED)
    wanted = [f"config_check {VERSION}", "ok red bold"] + ["#ffffff bold ul", "10485760", "1"] * archive.exists()
    holds("packages are installed, run, and leave nothing", said.splitlines(), wanted)


def main():
    arguments = argparse.ArgumentParser()
    for name in NAMES:
        arguments.add_argument(name, type=pathlib.Path)
    arguments.add_argument("--archive", type=pathlib.Path, default="none")
    arguments = arguments.parse_args()
    given = {name: getattr(arguments, name).resolve() for name in NAMES}
    with tempfile.TemporaryDirectory() as name:
        work = pathlib.Path(name)
        (work / "programs").mkdir()
        for program in given:
            (work / "programs" / program).symlink_to(given[program])
        installation(work, given, arguments.archive.resolve())
        unproved(work)
        packages(work, arguments.archive.resolve())
    print(f"{counts[True]} passed, {counts[False]} failed")
    return 1 if counts[False] else 0


sys.exit(main())
