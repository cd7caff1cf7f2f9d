"""What --fix and --diff change: the entries of findings with one suggestion, and no other byte."""
import json
import os
import pathlib
import re
import shutil
import signal
import subprocess
import tempfile
import time

from checking import Ended, run
from planted import LINES

# how often a run over all files is killed
KILLS = 6
# where a run over all files takes longer, those that are killed have fewer files: a kill tears one file at most
SECONDS_UNTIL_KILLED = 2
COUNTS = re.compile(rb"config_check: .* (\d+) findings?(?:, (\d+) fixed)?\n")
GUESSES = ["--unsafe-fixes"]
# files, the arguments, and what --fix makes of them
FIXED = [
    (b"[core]\n\tbare = ture\n", [], b"[core]\n\tbare = true\n"),
    # comments, blanks, quotes, line ends, a missing one, and a byte order mark stay
    (b"\xef\xbb\xbf[core]\r\n  BARE\t=  ture  # why\r\n", [], b"\xef\xbb\xbf[core]\r\n  BARE\t=  true  # why\r\n"),
    (b"[pull] rebas = yes ; x", [], b"[pull] rebase = yes ; x"),
    (b"# a\n\n[merge]\n\n\tconflictStyle = dif3;c\n\n# b", [], b"# a\n\n[merge]\n\n\tconflictStyle = diff3;c\n\n# b"),
    (b"[color \"diff\"]\n\tmeta = yelow bold\n\told = red\n", [], b"[color \"diff\"]\n\tmeta = yellow bold\n\told = red\n"),
    (b"[core]\n\tbigFileThreshold = 500MB\n", [], b"[core]\n\tbigFileThreshold = 500m\n"),
    # a value over several lines
    (b"[core]\n\tbare = tu\\\nre\n\tsharedRepository = 0664\n", [], b"[core]\n\tbare = true\n\tsharedRepository = 0664\n"),
    # of several entries of a key only the wrong one
    (b"[core]\n\tbare = true\n\tbare = ture\n\tbare = false\n", [], b"[core]\n\tbare = true\n\tbare = true\n\tbare = false\n"),
    (b"[core]\n\tbare = ture\n[core]\n\tbare = flase\n", [], b"[core]\n\tbare = true\n[core]\n\tbare = false\n"),
    # a spelling, if it is asked for
    (b"[core]\n\tbare = YES\n\tautocrlf = Input\n", [], b"[core]\n\tbare = YES\n\tautocrlf = Input\n"),
    (b"[core]\n\tbare = YES\n\tautocrlf = Input\n", ["--canonical"], b"[core]\n\tbare = true\n\tautocrlf = input\n"),
    # a suggestion that has a finding of its own, or that is not the only one, is not taken
    (b"[core]\n\tbar = x\n", [], b"[core]\n\tbar = x\n"),
    (b"[core]\n\tbare = yess\n", ["--canonical"], b"[core]\n\tbare = yess\n"),
    (b"[sendemail]\n\ttransferEncoding = 9bit\n", [], b"[sendemail]\n\ttransferEncoding = 9bit\n"),
    (b"[gc]\n\treflog = 90\n", [], b"[gc]\n\treflog = 90\n"),
    # a word too many or missing, two typing errors and another digit are guesses
    (b"[push]\n\tautoSetup = 1\n", [], b"[push]\n\tautoSetup = 1\n"),
    (b"[push]\n\tautoSetup = 1\n", GUESSES, b"[push]\n\tautoSetupRemote = 1\n"),
    (b"[http]\n\tsslVerifyHost = false\n\tproxyPassword = x\n", [], b"[http]\n\tsslVerifyHost = false\n\tproxyPassword = x\n"),
    (b"[core]\n\tpagerOptions = -R\n\teditorArgs = --wait\n", [], b"[core]\n\tpagerOptions = -R\n\teditorArgs = --wait\n"),
    (b"[diff]\n\texternalTool = meld\n", [], b"[diff]\n\texternalTool = meld\n"),
    (b"[color \"diff\"]\n\tremoved = red\n", [], b"[color \"diff\"]\n\tremoved = red\n"),
    (b"[init]\n\tdefaultObjectFormat = sha2\n", [], b"[init]\n\tdefaultObjectFormat = sha2\n"),
    (b"[init]\n\tdefaultObjectFormat = sha2\n", GUESSES, b"[init]\n\tdefaultObjectFormat = sha1\n"),
    (b"[http]\n\tsslVersion = tlsv2\n", [], b"[http]\n\tsslVersion = tlsv2\n"),
    (b"[gpg]\n\tformat = ssl\n", [], b"[gpg]\n\tformat = ssl\n"),
    (b"[gpg]\n\tformat = ssl\n", GUESSES, b"[gpg]\n\tformat = ssh\n"),
    # a word that is another one with an `s` behind it
    (b"[diff]\n\trename = 1\n[pull]\n\trebase = merge\n", [], b"[diff]\n\trename = 1\n[pull]\n\trebase = merge\n"),
    (b"[diff]\n\trename = 1\n", GUESSES, b"[diff]\n\trenames = 1\n"),
    # a key that the file has already, or that two changes would give
    (b"[user]\n\tname = A\n\tnmae = B\n", [], b"[user]\n\tname = A\n\tnmae = B\n"),
    (b"[user]\n\tnmae = B\n[USER]\n\tNAME = A\n", [], b"[user]\n\tnmae = B\n[USER]\n\tNAME = A\n"),
    (b"[user]\n\tnmae = B\n\tnam = A\n", [], b"[user]\n\tnmae = B\n\tnam = A\n"),
    (b"[user]\n\tname = A\n\tnmae = B\n", GUESSES, b"[user]\n\tname = A\n\tname = B\n"),
    (b"[color \"diff\"]\n\tmeta = bue\n", [], b"[color \"diff\"]\n\tmeta = blue\n"),
    (b"[color \"diff\"]\n\tmeta = redd grean\n", [], b"[color \"diff\"]\n\tmeta = redd grean\n"),
    (b"[gc]\n\tauto = 1,5\n", [], b"[gc]\n\tauto = 1,5\n"),
    (b"[gc]\n\tauto = 1_000\n", [], b"[gc]\n\tauto = 1000\n"),
    # another section, or a subsection that is missing, is no spelling
    (b"[colour]\n\tui = auto\n[remote]\n\turl = x\n", [], b"[colour]\n\tui = auto\n[remote]\n\turl = x\n"),
    # what is ignored stays
    (b"[core]\n\tbare = ture\n[pull]\n\trebas = yes\n", ["--ignore", "bad-boolean"], b"[core]\n\tbare = ture\n[pull]\n\trebase = yes\n"),
    (b"[core]\n\tbare = ture\n[pull]\n\trebas = yes\n", ["--ignore", "pull.*"], b"[core]\n\tbare = true\n[pull]\n\trebas = yes\n"),
    # Git reads nothing of the file
    (b"[core]\n\tbare = ture\n[x\n", [], b"[core]\n\tbare = ture\n[x\n"),
    (b"", [], b""),
]


def planted_files(draw, folder, count):
    """Writes files with planted mistakes, right entries, comments and line ends of all kinds; returns their names."""
    lines = [line.split("\t")[0].replace("\\n", "\n") for line in LINES.read_text(encoding="utf-8").splitlines()
             if not line.startswith("#")]
    others = ["# a comment", "", "[user]\n\tname = A B ; c", "[alias]\n\tst = \"status -s\"", "\t", "[core]\n\teditor = vi \\\n  -n"]
    names = []
    for number in range(count):
        parts = [draw.choice(lines if draw.random() < 0.6 else others) for _ in range(draw.randint(1, 12))]
        end = draw.choice(("\n", "\n", "\r\n"))
        text = end.join(parts).replace("\r\n", "\n").replace("\n", end) + draw.choice(("", end))
        names.append(f"f{number}")
        (folder / names[-1]).write_bytes(draw.choice((b"", b"", b"\xef\xbb\xbf")) + text.encode())
    return names


def listed(git, folder, name):
    """The entries of a file by Git: each with its key and its value, which is None for a key alone."""
    told = subprocess.run([git, "config", "-f", name, "--list", "-z"], cwd=folder, check=True, stdout=subprocess.PIPE).stdout
    return [(key, value if feed else None) for key, feed, value in (one.partition(b"\n") for one in told.split(b"\0")[:-1])]


def objects(output):
    return [json.loads(line) for line in output.splitlines()]


def without_place(one):
    return {name: value for name, value in one.items() if name not in ("fingerprint", "column")}


def one_by_one(group, program):
    """The files of FIXED, in one run for the same arguments: what --fix makes of them, and --diff and patch."""
    for how in {" ".join(more): more for _, more, _ in FIXED}.values():
        with tempfile.TemporaryDirectory() as name:
            folder = pathlib.Path(name)
            cases = {f"{number} b": (text, wanted) for number, (text, more, wanted) in enumerate(FIXED) if more == how}
            write(folder, {file: text for file, (text, _) in cases.items()})
            diff = program.run(["--diff", *how, *cases], cwd=folder)
            for file, (text, wanted) in cases.items():
                group.expect(("--diff", text, how), (text, wanted != text),
                             ((folder / file).read_bytes(), f"--- a/{file}".encode() in diff.output))
            program.run(["--fix", *how, *cases], cwd=folder)
            for file, (text, wanted) in cases.items():
                group.expect(("--fix", text, how), wanted, (folder / file).read_bytes())
                group.expect(("no lock", text), [file], [it for it in os.listdir(folder) if it.startswith(file)])
            write(folder, {file: text for file, (text, _) in cases.items()})
            if has_patched(group, folder, diff.output):
                for file, (text, wanted) in cases.items():
                    group.expect(("patch", text, how), wanted, (folder / file).read_bytes())


def single(group, program):
    """Files that need more than a text: a lock, rows, a baseline, includes."""
    with tempfile.TemporaryDirectory() as name:
        folder = pathlib.Path(name)
        (folder / "c").write_bytes(b"[core]\n\tbare = ture\n")
        (folder / "c.lock").write_bytes(b"")
        came = program.run(["--fix", "c"], cwd=folder)
        group.expect("a lock that is held", (2, b"[core]\n\tbare = ture\n", True, True, b" 1 finding\n"),
                     (came.status, (folder / "c").read_bytes(), b"c: " in came.errors and b"lock" in came.errors,
                      came.output.startswith(b"c:2:2: error: core.bare: 'ture': "), came.errors[-11:]))
        (folder / "c").write_bytes(b"[core]\n\tbare = tu\\\nre\n\teditor\n")
        (folder / "c.lock").unlink()
        came = program.run(["--fix", "c"], cwd=folder)
        group.expect("lines of the new text", (1, b"c:3:2: error: core.editor: no value [no-value]\n",
                                               b"config_check: 2 entries, 2 judged, 0 unknown keys, 1 finding, 1 fixed\n"), came)
        (folder / "c").write_bytes(b"[include]\n\tpath = d\n[core]\n\tbrae = true\n")
        (folder / "d").write_bytes(b"[core]\n\tbare = false\n")
        came = program.run(["--fix", "c"], cwd=folder)
        group.expect("a key that an included file has", (1, b"[include]\n\tpath = d\n[core]\n\tbrae = true\n", 1),
                     (came.status, (folder / "c").read_bytes(), came.output.count(b"\n")))
        (folder / "c").write_bytes(b"[core]\n\tbare = ture\n\n[push]\n\tautoSetup = 1\n[pull]\n\trebas = 1\n\tff = of\\\nly\n")
        came = program.run(["--diff", *GUESSES, "c"], cwd=folder)
        group.expect("guesses", b"@@ -1,9 +1,8 @@ guesses: 5", came.output.splitlines()[2])
        came = program.run(["--format", "sarif", "c"], cwd=folder)
        results = json.loads(came.output)["runs"][0]["results"]
        group.expect("safety in SARIF", ["safe", "unsafe", "safe", "safe"], [one["properties"]["fix"] for one in results])
        fixes = [one["fixes"][0]["artifactChanges"][0]["replacements"][0] for one in results if "fixes" in one]
        group.expect("fixes of SARIF", [(2, 2, "\tbare = true"), (7, 7, "\trebase = 1"), (8, 9, "\tff = only")],
                     [(one["deletedRegion"]["startLine"], one["deletedRegion"]["endLine"], one["insertedContent"]["text"]) for one in fixes])
        came = program.run(["--unsafe-fixes", "c"], cwd=folder)
        group.expect("--unsafe-fixes alone", Ended(2, b"", b"config_check: --unsafe-fixes goes with --fix or --diff\n"), came)
        (folder / "c").write_bytes(b"[include]\n\tpat = d\n")
        (folder / "d").write_bytes(b"[core]\n\tbare = x\n")
        came = program.run(["--fix", "c"], cwd=folder)
        group.expect("an include that is mended", (1, b"[include]\n\tpath = d\n", 1),
                     (came.status, (folder / "c").read_bytes(), came.output.count(b"\n")))
        (folder / "rows").write_bytes(b"a.b is=true bool\na.c is=off bool\na.d is=1k int\n")
        (folder / "c").write_bytes(b"[a]\n\tb = no ; x\n\tb = yes\n\tc\n\td = 1023\n\td = 1024\n\td = x\n")
        came = program.run(["--fix", "--settings", "rows", "c"], cwd=folder)
        group.expect("values that rows ask for", (1, b"[a]\n\tb = true ; x\n\tb = yes\n\tc = off\n\td = 1k\n\td = 1024\n\td = x\n", b" 1 finding, 3 fixed\n"),
                     (came.status, (folder / "c").read_bytes(), came.errors[-20:]))
        (folder / "c").write_bytes(b"[core]\n\tbare = ture\n\tbare = x\n\tbare = x\n")
        (folder / "known").write_bytes(program.run(["--format", "json", "c"], cwd=folder).output.splitlines(True)[1])
        came = program.run(["--fix", "--baseline", "known", "c"], cwd=folder)
        group.expect("a baseline and changes", (1, b"[core]\n\tbare = true\n\tbare = x\n\tbare = x\n", b"c:4:2",
                                                b" 1 finding, 1 fixed, 1 in the baseline\n"),
                     (came.status, (folder / "c").read_bytes(), came.output[:5], came.errors[-39:]))
        (folder / "d").write_bytes(b"[include]\n\tpath = e\n")
        (folder / "e").write_bytes(b"[core]\n\tbare = ture\n")
        came = program.run(["--fix", "d"], cwd=folder)
        group.expect("a file that is not named", (1, b"[core]\n\tbare = ture\n", 1),
                     (came.status, (folder / "e").read_bytes(), came.output.count(b"\n")))
        (folder / "ä b").write_bytes(b"[core]\n\tbare = ture\n")
        came = program.run(["--diff", "ä b"], cwd=folder)
        group.expect("a name that Git quotes", [b'--- "a/\\303\\244 b"\t', b'+++ "b/\\303\\244 b"\t'],
                     came.output.splitlines()[:2])
        came = program.run(["--diff", "-"], b"[core]\n\tbare = ture\n")
        group.expect("standard input", b"--- a/-\n+++ b/-\n@@ -1,2 +1,2 @@\n [core]\n-\tbare = ture\n+\tbare = true\n", came.output)


def write(folder, texts):
    for file, text in texts.items():
        (folder / file).write_bytes(text)


def has_patched(group, folder, diff):
    """Whether patch is installed, and has changed the files."""
    if shutil.which("patch") is None:
        group.skip("patch", "it is not installed")
        return False
    came = run(["patch", "-p1", "--binary", "-s"], diff, cwd=folder)
    return came.status == 0 or not group.expect(("patch", diff), 0, came.status)


def many(group, program, draw, git, count):
    """Planted files: --fix, the check afterwards, Git's entries and the lines that differ, and patch."""
    with tempfile.TemporaryDirectory() as name:
        folder = pathlib.Path(name)
        names = planted_files(draw, folder, count)
        old = {name: (folder / name).read_bytes() for name in names}
        before = {name: listed(git, folder, name) for name in names}
        first = objects(program.run(["--format", "json", "--no-includes", *names], cwd=folder).output)
        diff = program.run(["--diff", "--no-includes", *names], cwd=folder).output
        began = time.monotonic()
        came = program.run(["--fix", "--format", "json", "--no-includes", *names], cwd=folder)
        took = time.monotonic() - began
        left, fixed = (int(count or 0) for count in COUNTS.fullmatch(came.errors).groups())
        group.expect("the counts", (len(first), len(objects(came.output))), (left + fixed, left))
        group.expect("some are fixed", True, fixed > count)
        new = {name: (folder / name).read_bytes() for name in names}
        again = objects(program.run(["--format", "json", "--no-includes", *names], cwd=folder).output)
        group.expect("the check afterwards", [without_place(one) for one in objects(came.output)],
                     [without_place(one) for one in again])
        group.expect("what another run mends", [], [one for one in again if one["fix"] == "safe"])
        kept = [(one["file"], one["line"]) for one in objects(came.output)]
        gone = [one for one in first if (one["file"], one["line"]) not in kept]
        group.expect("those that are gone", [one["fix"] == "safe" for one in first], [one in gone for one in first])
        for name in names:
            mended = [one for one in gone if one["file"] == name]
            entries(group, name, mended, before[name], listed(git, folder, name))
            lines(group, name, mended, old[name], new[name])
        for more in ([], ["--ignore", "bad-boolean"]):
            write(folder, old)
            came = program.run(["--fix", "--no-includes", *more, *names], cwd=folder)
            again = program.run(["--no-includes", *more, *names], cwd=folder)
            group.expect(("what is left", more), again, came._replace(errors=re.sub(rb", \d+ fixed", b"", came.errors)))
        write(folder, old)
        if has_patched(group, folder, diff):
            group.expect("patch", new, {name: (folder / name).read_bytes() for name in names})
        killed(group, program, draw, folder, old, new, took)


def entries(group, name, mended, old, new):
    """Git's entries before and after are the same, but for those that are mended, which have what is suggested."""
    wanted = [(one["suggested_key"] or one["key"], one["suggested_value"]) for one in mended]
    different = [pair for pair in zip(old, new) if pair[0] != pair[1]]
    came = [(key.decode(), None if value is None or value == before[1] else value.decode()) for before, (key, value) in different]
    group.expect((name, "entries"), (len(old), [(key.lower(), value) for key, value in wanted]),
                 (len(new), [(key.lower(), value) for key, value in came]))


def lines(group, name, mended, old, new):
    """Only the lines of the mended entries differ."""
    olds, news = old.splitlines(True), new.splitlines(True)
    different = [number for number, (one, other) in enumerate(zip(olds, news), 1) if one != other]
    group.expect((name, "lines"), (len(olds), [one["line"] for one in mended]), (len(news), different))


def killed(group, program, draw, folder, old, new, seconds):
    """A run that is killed leaves each file as it was or as it has to be. A whole run takes about these seconds."""
    torn, cut, part = 0, 0, min(1, SECONDS_UNTIL_KILLED / seconds)
    old = dict(list(old.items())[:int(len(old) * part)])
    for _ in range(KILLS):
        write(folder, old)
        process = subprocess.Popen([program.path, "--fix", "--no-includes", *old], cwd=folder,
                                   stdout=subprocess.DEVNULL, stderr=subprocess.DEVNULL)
        time.sleep(draw.uniform(0.2, 0.9) * seconds * part)
        process.send_signal(signal.SIGKILL)
        process.wait()
        found = {name: (folder / name).read_bytes() for name in old}
        torn += sum(text not in (old[name], new[name]) for name, text in found.items())
        changing = [name for name in old if old[name] != new[name]]
        cut += len({found[name] == new[name] for name in changing}) == 2
        for lock in folder.glob("*.lock"):
            lock.unlink()
    group.expect("torn files", 0, torn)
    group.notes.append(f"{cut} of {KILLS} runs were killed in between")


def baseline(group, program, draw):
    """Of 40 files with a comment at the top of each, only what was changed is reported, and what is left of it if a
    finding goes."""
    with tempfile.TemporaryDirectory() as name:
        folder = pathlib.Path(name)
        names = planted_files(draw, folder, 40)
        known = program.run(["--format", "json", "--no-includes", *names], cwd=folder)
        (folder / "known").write_bytes(known.output)
        how = ["--format", "json", "--no-includes", "--baseline", "known", *names]
        came = program.run(how, cwd=folder)
        group.expect("the same files", (0, b"", True),
                     (came.status, came.output, came.errors.endswith(b" 0 findings, %d in the baseline\n" % known.output.count(b"\n"))))
        for name in names:
            (folder / name).write_bytes(b"# a comment\n" + (folder / name).read_bytes().removeprefix(b"\xef\xbb\xbf"))
        changed = [(names[3], "core.bare", "nope"), (names[7], "gc.auto", "many")]
        for name, key, value in changed:
            section, _, last = key.partition(".")
            with open(folder / name, "a", encoding="utf-8") as file:
                file.write(f"\n[{section}]\n\t{last} = {value}\n")
        came = program.run(how, cwd=folder)
        group.expect("two changes", (1, changed), (came.status, [(one["file"], one["key"], one["value"]) for one in objects(came.output)]))
        text = b"[core]\n\tbare = x\n\tbare = x\n"
        (folder / "twice").write_bytes(text)
        (folder / "known").write_bytes(program.run(["--format", "json", "twice"], cwd=folder).output)
        for more, count in ((b"", 0), (b"\tbare = x\n", 1), (b"\tbare = y\n", 1)):
            (folder / "twice").write_bytes(text + more)
            came = program.run(["--baseline", "known", "twice"], cwd=folder)
            group.expect(("equal findings", more), count, came.output.count(b"\n"))
        (folder / "wrong").write_bytes(b"\n{}\n")
        came = program.run(["--baseline", "wrong", "twice"], cwd=folder)
        group.expect("no baseline", Ended(2, b"", b"config_check: wrong:2: not a finding of --format json\n"), came)


def check(group, program, draw, count):
    one_by_one(group, program)
    single(group, program)
    baseline(group, program, draw)
    git = shutil.which("git")
    if git is None:
        group.skip("planted files", "no git is installed")
        return
    many(group, program, draw, git, count)
