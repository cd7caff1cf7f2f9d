"""The codes and their page, the formats for other programs, options that leave findings out, and the hooks."""
import json
import os
import pathlib
import re
import shlex
import shutil
import subprocess
import tempfile
import urllib.parse

from checking import Ended

ROOT = pathlib.Path(__file__).resolve().parents[3]
PAGE = (ROOT / "docs/CHECKING.md").read_text(encoding="utf-8")
CODES = re.findall('codes "(.*)"', (ROOT / "crates/config_checks/specs/Codes.antt").read_text(encoding="utf-8"))
# findings of four kinds, and their lines in each format
DATA = b"[core]\n\tbare = 50%\n\teditor\n[pull]\n\trebas = true\n\tff = ONLY\n"
FOUND = [("error", 2, "bad-boolean", "core.bare: '50%': Booleans need to be 'no', 'off', 'false', '' or 'yes', 'on', 'true' or any number"),
         ("error", 3, "no-value", "core.editor: no value"),
         ("warning", 5, "unknown-key", "pull.rebas: unknown key; did you mean pull.rebase?"),
         ("error", 6, "not-a-word", "pull.ff: 'ONLY': not a boolean, nor one of: only; did you mean only?")]
# what SARIF 2.1.0 requires of the objects that are written: their members, and the words of some
REQUIRED = {"": ["version", "runs"], "runs": ["tool"], "tool": ["driver"], "driver": ["name"], "rules": ["id"],
            "shortDescription": ["text"], "results": ["message"], "message": ["text"]}
LEVELS = ["none", "note", "warning", "error"]


def codes(group, program):
    """--explain and the rules of SARIF know the codes that are specified, and the examples have these findings."""
    came = program.run(["--format", "sarif", "-"], b"")
    rules = [(rule["id"], rule["shortDescription"]["text"]) for rule in json.loads(came.output)["runs"][0]["tool"]["driver"]["rules"]]
    group.expect("the codes", CODES, [code for code, _ in rules])
    listed = "".join(f"{code}: {meaning}\n" for code, meaning in rules)
    group.expect("--explain all", listed, program.run(["--explain", "all"]).output.decode())
    for code, meaning in rules:
        came = program.run(["--explain", code])
        first, _, rest = came.output.decode().partition("\n\nwrong:\n")
        group.expect(("--explain", code), (0, f"{code}: {meaning}"), (came.status, first))
        wrong, _, right = (re.sub("^    ", "", part, flags=re.MULTILINE) for part in rest.partition("right:\n"))
        for text, wanted in ((wrong, True), (right, False)):
            group.expect((code, text), wanted, code in codes_of(program, text))


def codes_of(program, text):
    """The codes of the findings of an example, and of the files that it speaks of."""
    with tempfile.TemporaryDirectory() as name:
        folder = pathlib.Path(name)
        for other in ("b", "x", "work", "a-file-that-is-there", *(f"f{number}" for number in range(2, 12))):
            (folder / other).write_text("")
        if "up to f11" in text:
            for number in range(2, 12):
                (folder / f"f{number}").write_text(f"[include]\n\tpath = f{number + 1}\n")
            (folder / "f12").write_text("")
        file = ".gitmodules" if text.startswith("# in .gitmodules") else "a"
        (folder / file).write_text(text)
        row = re.match("# with a row `(.*)`\n", text)
        (folder / "rows").write_text(row[1] if row else "")
        how = ["--settings", "rows"] if row else [
            word for line in text.splitlines() if line.startswith("# with ") for word in line.removeprefix("# with ").split()]
        came = program.run(["--format", "json", *how, file], cwd=folder, env=os.environ | {"HOME": name})
        return [json.loads(line)["code"] for line in came.output.splitlines()]


def annotations(group, program):
    """The commands for GitHub, with what would end a property or a line escaped."""
    with tempfile.TemporaryDirectory() as name:
        file = pathlib.Path(name) / "a,b:c%d"
        file.write_bytes(DATA)
        shown = f"{name}/a%2Cb%3Ac%25d".replace(",", "%2C")
        words = {"error": "error", "warning": "warning", "note": "notice"}
        wanted = "".join(f"::{words[severity]} file={shown},line={line},col=2,title={code}::{text.replace('%', '%25')}\n"
                         for severity, line, code, text in FOUND)
        came = program.run(["--format", "github", str(file)])
        group.expect("github", (1, wanted), (came.status, came.output.decode()))
        came = program.run(["--format", "github", "--canonical", "-"], b"[core] bare = yes\n")
        group.expect("a notice", b"::notice file=-,line=1,col=8,title=not-canonical::core.bare: 'yes': should be true\n", came.output)


def objects_in(name, thing):
    """Each object of a document, with the name of the member that has it."""
    if isinstance(thing, dict):
        yield name, thing
        for more, other in thing.items():
            yield from objects_in(more, other)
    elif isinstance(thing, list):
        for other in thing:
            yield from objects_in(name, other)


def sarif(group, program):
    """A SARIF document has what its schema requires, and the findings."""
    with tempfile.TemporaryDirectory() as name:
        folder = pathlib.Path(name)
        (folder / "ä b").write_bytes("[x \"ö\"] y = z\n[a \"ö\"]b\n".encode() + DATA.replace(b"50%", b"\xff"))
        (folder / "rows").write_text("a.*.b int\n")
        came = program.run(["--format", "sarif", "--settings", "rows", "ä b", str(folder / "ä b"), "rows", "none"], cwd=folder)
        document = json.loads(came.output)
        group.expect("the version", ("2.1.0", 1), (document["version"], len(document["runs"])))
        for member, thing in objects_in("", document):
            missing = [one for one in REQUIRED.get(member, []) if one not in thing]
            group.expect((member, thing), [], missing)
        results = document["runs"][0]["results"]
        places = []
        for one in results:
            place = one["locations"][0]["physicalLocation"]
            region, uri = place["region"], place["artifactLocation"]["uri"]
            group.expect(one, (True, True, True), (one["level"] in LEVELS, one["ruleId"] in CODES, uri.isascii() and " " not in uri))
            places.append((urllib.parse.unquote(uri), region["startLine"], region["startColumn"], one["ruleId"]))
        lines = [(2, 8, "no-value"), *((line + 2, 2, code) for _, line, code, _ in FOUND)]
        group.expect("the results", [("ä b", *one) for one in lines] + [("rows", 1, 2, "invalid-line")], places)
        prints = [one["partialFingerprints"]["gitConfigCheck/v1"] for one in results]
        group.expect("fingerprints", len(prints), len(set(prints)))
        group.expect("a file that is missing", 2, came.status)
        came = program.run(["--format", "sarif", str(folder / "rows")])
        uri = json.loads(came.output)["runs"][0]["results"][0]["locations"][0]["physicalLocation"]["artifactLocation"]["uri"]
        group.expect("a path from the root", f"file://{urllib.parse.quote(name)}/rows", uri)


def left_out(group, program):
    """What --ignore, -q and --statistics write."""
    for more, left in (([], [0, 1, 2, 3]), (["--ignore", "no-value"], [0, 2, 3]), (["--ignore", "CORE.*"], [2, 3]),
                       (["--ignore", "pull.ff", "--ignore", "bad-boolean"], [1, 2]), (["--ignore", "*.*"], [0, 1, 2, 3]),
                       (["--ignore", "x.no-value"], [0, 1, 2, 3])):
        came = program.run([*more, "-"], DATA)
        wanted = [f"-:{line}:2: {severity}: {text} [{code}]" for severity, line, code, text in FOUND]
        ignored = b", %d ignored" % (4 - len(left)) if len(left) < 4 else b""
        told = b"config_check: 4 entries, 3 judged, 1 unknown key, %d finding%s%s\n" % (len(left), b"" if len(left) == 1 else b"s", ignored)
        group.expect(more, Ended(1, "".join(f"{wanted[one]}\n" for one in left).encode(), told), came)
    came = program.run(["--ignore", "core.*", "--ignore", "pull.*", "-"], DATA)
    group.expect("all are ignored", (0, b""), (came.status, came.output))
    came = program.run(["-q", "--statistics", "--canonical", "-"], DATA + b"[core]\n\tpager\n")
    group.expect("statistics", Ended(1, b"2\tno-value\n1\tbad-boolean\n1\tnot-a-word\n1\tunknown-key\n", b""), came)


def example(group, program):
    """The object of the page is what is written for such a file."""
    shown = re.search(r'^    (\{"code".*?\})$', PAGE, re.MULTILINE | re.DOTALL)[1]
    with tempfile.TemporaryDirectory() as name:
        (pathlib.Path(name) / "a").write_text("\n" * 7 + "[pull]\n\tff = onyl\n")
        came = program.run(["--format", "json", "a"], cwd=name)
        group.expect("the example", re.sub("\n *", "", shown), came.output.decode()[:-1])


def patterns(group, program):
    """The pattern of the page for other programs takes each line of text apart."""
    pattern = re.search(r'"regexp": ("\^.*\$"),', PAGE)[1]
    lines = program.run(["-"], DATA).output.decode().splitlines()
    came = [re.fullmatch(json.loads(pattern), line) for line in lines]
    wanted = [("-", str(line), "2", severity, text, code) for severity, line, code, text in FOUND]
    group.expect("problemMatcher", wanted, [one and one.groups() for one in came])


def other_machines(group, program):
    """Included files of another machine, and none."""
    with tempfile.TemporaryDirectory() as name:
        folder = pathlib.Path(name)
        for file in ("root/etc/git/more", "root/home/me/mine", "root/etc/git/deeper", "beside"):
            (folder / file).parent.mkdir(parents=True, exist_ok=True)
        wrong = "[core]\n\tbare = x\n"
        (folder / "root/etc/git/more").write_text(wrong + "[include]\n\tpath = deeper\n")
        for file in ("root/etc/git/deeper", "root/home/me/mine", "beside"):
            (folder / file).write_text(wrong)
        (folder / "file").write_text("[include]\n\tpath = /etc/git/more\n\tpath = ~/mine\n\tpath = beside\n\tpath = /none\n")
        known = os.environ | {"HOME": "/home/me"}
        for root, front in (("root", "root"), (f"{name}/root", f"{name}/root")):
            came = program.run(["--root", root, "file"], cwd=folder, env=known)
            found = [line.split(":")[:2] + line.split(" ")[-1:] for line in came.output.decode().splitlines()]
            wanted = [[f"{front}/etc/git/more", "2", "[bad-boolean]"], [f"{front}/etc/git/deeper", "2", "[bad-boolean]"],
                      [f"{front}/home/me/mine", "2", "[bad-boolean]"], ["beside", "2", "[bad-boolean]"], ["file", "5", "[missing-file]"]]
            group.expect(("--root", root), wanted, found)
        (folder / "root/etc/passwd").write_text("no-such-user:x:1000:1000::/home/ann:/bin/sh\n")
        (folder / "paths").write_text("[core]\n\thooksPath = ~no-such-user\n\texcludesFile = ~root/x\n\tattributesFile = ~/x\n")
        homeless = {key: value for key, value in known.items() if key != "HOME"}
        for how, env, wanted in (([], known, "2"), ([], homeless, "24"), (["--root", "root"], known, "3"),
                                 (["--root", "root"], homeless, "34"), (["--root", "none"], homeless, "")):
            came = program.run([*how, "paths"], cwd=folder, env=env)
            found = "".join(line.split(":")[1] for line in came.output.decode().splitlines() if line.endswith("[no-home]"))
            group.expect(("users", how), wanted, found)
        came = program.run(["--no-includes", "file"], cwd=folder, env=known)
        group.expect("--no-includes", (0, b""), (came.status, came.output))


def repositories(group, program):
    """The rows of a repository, and its files as pre-commit would check and mend them."""
    git = shutil.which("git")
    if git is None:
        group.skip("repositories", "no git is installed")
        return
    with tempfile.TemporaryDirectory() as name:
        folder = pathlib.Path(name)
        subprocess.run([git, "init", "-q", name], check=True)
        (folder / "deep").mkdir()
        (folder / ".gitconfig-check").write_text("# ours\ntool.mode word fast\ncore.bare text\n")
        data = b"[tool]\n\tmode = slow\n[core]\n\tbare = x\n"
        for place in (folder, folder / "deep"):
            came = program.run(["-q", "-"], data, cwd=place)
            group.expect(("rows of a repository", place), b"-:2:2: error: tool.mode: 'slow': not one of: fast [not-a-word]\n", came.output)
        (folder / "own").write_text("tool.mode word slow\n")
        came = program.run(["-q", "--settings", "own", "-"], data, cwd=folder)
        group.expect("named rows come first", b"", came.output)
        for lines, more, wanted in (
                ("--ignore bad-boolean\n", [], (0, b"")), ("# ours\n--fail-on=note --ignore not-a-word\n", [], (1, b"c:2")),
                ("--exit-zero # why --git\n", [], (0, b"c:2")), ("--ignore bad-boolean\n", ["--no-ignore"], (1, b"c:2")),
                ("--git 2.50\n", ["--git", "2.51"], (1, b"c:2")), ("tool.x text\n--fix\n", [], (2, b"")), ("--ignore core.* x\n", [], (2, b""))):
            (folder / ".gitconfig-check").write_text(lines)
            (folder / "c").write_bytes(b"[core]\n\tbare = x\n")
            came = program.run(["-q", *more, "c"], cwd=folder)
            group.expect(("options of .gitconfig-check", lines, more), wanted, (came.status, came.output[:3]))
        (folder / ".gitconfig-check").write_text("tool.mode bool\ntool\n")
        came = program.run(["-"], data, cwd=folder)
        group.expect("a wrong row", Ended(2, b"", b"config_check: .gitconfig-check:2: no dot in the key\n"), came)
        (folder / ".gitconfig-check").unlink()
        hooks(group, program, git, folder)


def hooks(group, program, git, folder):
    """Runs the hooks as pre-commit does: the entry, the arguments, and the names of the files that the pattern takes."""
    files = {".gitmodules": "[submodule \"x\"]\n\tpath = x\n\tupdat = merge\n", "etc/team.gitconfig": "[core]\n\tbare = ture\n",
             "deep/.gitmodules": "[submodule \"x\"]\n\tpath = x\n", "gitmodules": "[core]\n\tbare = ture\n", "x.gitconfig.md": "[x\n"}
    for name, text in files.items():
        (folder / name).parent.mkdir(exist_ok=True)
        (folder / name).write_text(text)
    (folder / "bin").mkdir()
    (folder / "bin/git-config-check").symlink_to(program.path)
    known = os.environ | {"PATH": f"{folder}/bin:{os.environ['PATH']}"}
    subprocess.run([git, "add", *files], cwd=folder, check=True)
    tracked = subprocess.run([git, "ls-files", "-z"], cwd=folder, check=True, stdout=subprocess.PIPE).stdout.decode().split("\0")[:-1]
    read = (ROOT / ".pre-commit-hooks.yaml").read_text(encoding="utf-8").split("- id: ")[1:]
    found = {}
    for text in read:
        members = dict(re.findall(r"^ *(\w+): (.*)$", f"id: {text}", re.MULTILINE))
        taken = [one for one in tracked if re.search(members["files"].strip("'"), one)]
        arguments = members["args"].strip("[]").split(", ")
        came = subprocess.run([*shlex.split(members["entry"]), *arguments, *taken], cwd=folder, env=known, check=False,
                              stdout=subprocess.PIPE, stderr=subprocess.PIPE)
        found[members["id"]] = came.returncode, [line.rsplit(" ", 1)[1] for line in came.stdout.decode().splitlines()]
        group.expect("the files of a hook", [".gitmodules", "deep/.gitmodules", "etc/team.gitconfig"], taken)
    group.expect("the hooks", {"git-config-check": (1, ["[unknown-key]", "[bad-boolean]"]), "git-config-check-fix": (0, [])}, found)
    group.expect("what they mend", ("[submodule \"x\"]\n\tpath = x\n\tupdate = merge\n", "[core]\n\tbare = true\n", files["gitmodules"]),
                 tuple((folder / name).read_text() for name in (".gitmodules", "etc/team.gitconfig", "gitmodules")))


def check(group, program):
    for part in (codes, annotations, sarif, left_out, example, patterns, other_machines, repositories):
        part(group, program)
