#!/usr/bin/env python3
"""Tests vendor.sh: what it copies, what it leaves as it is, and what it refuses to replace.

pages.py compiles a library that vendor.sh has copied. The last line is 'N passed, M failed'.
"""
import pathlib
import re
import shutil
import subprocess
import sys
import tempfile

ROOT = pathlib.Path(__file__).resolve().parent.parent.parent
LIBRARY = "text integer boolean word color path file edit url search host".split()
CRATES = [*(f"config_{name}" for name in LIBRARY), "gix_config_value"]
COPIED = "crates/config_text/src/lib.rt"
OWN = pathlib.PurePath("crates/gix_config_value")
OTHERS = ("LICENSE-MIT", "LICENSE-APACHE", "CALLING.md", "CHANGELOG.md")


def vendor(source, *arguments):
    """The status and the output of a run, and the lines of what it says of faults."""
    run = subprocess.run(["sh", source / "vendor.sh", *arguments], stdout=subprocess.PIPE, stderr=subprocess.PIPE,
                         text=True, check=False)
    return run.returncode, run.stdout, run.stderr.splitlines()[1:]


def tree(folder):
    return {str(file.relative_to(folder)): file.read_bytes() for file in folder.rglob("*") if file.is_file()}


def older(folder):
    """A library of an earlier version: one file has other bytes, one is not there any more, and a line is shorter."""
    for name in (*OTHERS, "crates.txt", "vendor.sh", "packaging/begin.sh", "docs", "crates/gix_config_value_c/VERSION",
                 *(f"crates/{crate}" for crate in CRATES)):
        (folder / name).parent.mkdir(parents=True, exist_ok=True)
        copy = shutil.copytree if (ROOT / name).is_dir() else shutil.copy
        copy(ROOT / name, folder / name, **{"ignore": shutil.ignore_patterns("out")} if copy != shutil.copy else {})
    (folder / COPIED).write_text("// earlier\n", encoding="utf-8")
    (folder / COPIED).with_name("gone.rt").write_text("// gone\n", encoding="utf-8")
    lines = (folder / "crates.txt").read_text(encoding="utf-8")
    (folder / "crates.txt").write_text(re.sub("^config_text: .*", "config_text: bstr", lines, flags=re.M), "utf-8")
    return folder


def copied(folder):
    """A copy into a repository that has files and lines of its own, and another one into the same."""
    (folder / "LICENSE-MIT").write_text("theirs")
    (folder / "crates.txt").write_text("# theirs\nmine: config_file")
    yield "a first copy", vendor(ROOT, folder), (0, "", [])
    first = tree(folder)
    wanted = {str(file.relative_to(ROOT)): file.read_bytes() for crate in CRATES for part in ("src", "specs", "proofs")
              for file in (ROOT / "crates" / crate / part).rglob("*") if file.is_file()}
    wanted |= {str(OWN / name): (ROOT / name).read_bytes() for name in OTHERS}
    pages = {f"docs/{page}" for text in wanted.values() for page in re.findall(r"docs/([A-Z]+\.md)", text.decode())}
    wanted |= {str(OWN / name): (ROOT / name).read_bytes() for name in pages}
    has = {name: text for name, text in first.items() if name.startswith("crates/") and name != str(OWN / "vendored")}
    yield "the files of the library, its licenses and its pages", has, wanted
    yield "a cited page", bool(pages), True
    yield "a license of theirs", first["LICENSE-MIT"], b"theirs"
    lines = first["crates.txt"].decode().splitlines()
    yield "lines of theirs", lines[:2], ["# theirs", "mine: config_file"]
    theirs = (ROOT / "crates.txt").read_text(encoding="utf-8").splitlines()
    yield "lines of ours", lines[2:], [line for line in theirs if line.partition(":")[0] in CRATES]
    version = (ROOT / "crates/gix_config_value_c/VERSION").read_text(encoding="utf-8").strip()
    yield "the version", first[str(OWN / "vendored")].decode().split()[:3], ["#", "gix_config_value", version]
    sums = subprocess.run(["sha256sum", "--check", "--quiet", OWN / "vendored"], cwd=folder, check=False)
    yield "the sums", sums.returncode, 0
    yield "no difference", vendor(ROOT, "--diff", folder), (0, "", [])
    yield "another copy", vendor(ROOT, folder), (0, "", [])
    yield "nothing changes by it", tree(folder), first


def updated(folder, source):
    """A copy of an earlier library is replaced by this one, if nobody has changed it."""
    vendor(source, folder)
    mine = folder / "crates/config_text/src/mine.rt"
    mine.write_text("// theirs\n", encoding="utf-8")
    with open(folder / "crates.txt", "a", encoding="utf-8") as lines:
        lines.write("mine: config_file\n")
    before = tree(folder)
    status, said, _ = vendor(ROOT, "--diff", folder)
    yield "differences have a status", status, 1
    shown = [line for line in ("-// earlier", "-// gone", "-config_text: bstr") if line not in said.splitlines()]
    yield "differences are shown", shown, []
    yield "their file is none", "theirs" in said, False
    yield "--diff changes nothing", tree(folder), before
    elsewhere = folder / "elsewhere.rt"
    elsewhere.write_text("// earlier\n", encoding="utf-8")
    for what, change in (("a changed file", lambda: (folder / COPIED).write_text("// changed\n", encoding="utf-8")),
                         ("a link", lambda: (folder / COPIED).symlink_to(elsewhere))):
        (folder / COPIED).unlink()
        change()
        changed = tree(folder)
        yield f"{what} is refused", vendor(ROOT, folder), (1, "", [COPIED])
        yield f"{what} is told of", vendor(ROOT, "--diff", folder)[1].splitlines()[-1:], \
            [f"not as an earlier run has written it: {COPIED}"]
        yield f"{what} stays, and all else", tree(folder), changed
    (folder / COPIED).unlink()
    shutil.copy(source / COPIED, folder / COPIED)
    lines = (folder / "crates.txt").read_text(encoding="utf-8")
    changed = lines.replace("config_text: bstr\n", "config_text: bstr hex\n")
    (folder / "crates.txt").write_text(changed, encoding="utf-8")
    yield "a changed line is refused", vendor(ROOT, folder), (1, "", ["crates.txt: config_text: bstr hex"])
    (folder / "crates.txt").write_text(lines, encoding="utf-8")
    yield "an update", vendor(ROOT, folder), (0, "", [])
    yield "the new bytes", (folder / COPIED).read_bytes(), (ROOT / COPIED).read_bytes()
    yield "a file that is gone", (folder / COPIED).with_name("gone.rt").exists(), False
    yield "a file of theirs in a folder of ours", mine.exists(), True
    lines = (folder / "crates.txt").read_text(encoding="utf-8").splitlines()
    yield "each line once", len(lines), len(CRATES) + 1
    yield "a line of theirs is where it was", lines[-1], "mine: config_file"


def others(folder):
    """Where a file of theirs has the name of one of ours, nothing is copied."""
    (folder / COPIED).parent.mkdir(parents=True)
    (folder / COPIED).write_text("// theirs\n", encoding="utf-8")
    before = tree(folder)
    yield "a file of theirs is refused", vendor(ROOT, folder), (1, "", [COPIED])
    yield "nothing is copied", tree(folder), before
    yield "a folder that is not there", vendor(ROOT, "--diff", folder / "none")[0] != 0, True
    yield "it is not made", (folder / "none").exists(), False


def main():
    passed = failed = 0
    with tempfile.TemporaryDirectory() as work:
        folders = [pathlib.Path(work, name) for name in ("copied", "updated", "others")]
        for folder in folders:
            folder.mkdir()
        source = older(pathlib.Path(work, "older"))
        for cases in (copied(folders[0]), updated(folders[1], source), others(folders[2])):
            for name, found, wanted in cases:
                passed += found == wanted
                failed += found != wanted
                if found != wanted:
                    print(f"failed: {name}: {str(found)[:1000]}, and not {str(wanted)[:1000]}")
    print(f"{passed} passed, {failed} failed")
    return 1 if failed else 0


sys.exit(main())
