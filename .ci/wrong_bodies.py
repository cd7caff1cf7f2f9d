"""Tries the wrong bodies: the prover has to refuse each, at the clauses that it names.

    wrong_bodies.py [--all] [CRATE..]

CONTRIBUTING.md has the form of their files. Those of a crate are put into one copy of it, in which other functions have
no body, and the functions that they name are checked once, over the libraries that `rt check` or `rt ci` left; those
that change a definition follow in a second check. If that opens other goals, or two are for the same function, each is
tried by itself, and the goals that it opens are printed. The last line is 'N passed, M failed'.

If all bodies of a crate are refused, out/wrong_bodies keeps a sum of all that this rests on: the folders of the crate
and of those below it, the toolchain and this script. They are tried again if the sum has changed, or with --all.
"""
import collections
import concurrent.futures
import functools
import hashlib
import os
import pathlib
import re
import shutil
import subprocess
import sys
import tempfile

ROOT = pathlib.Path(__file__).resolve().parent.parent
KIT = pathlib.Path(os.path.realpath(shutil.which("rt") or "rt")).parent.parent
# a function that is not proved, its open goals or refused answers, and a theorem that is refused
OPEN = re.compile(r"^fn \w+::(\S+): (?!no holes|proved|it calls)(.*)$", re.MULTILINE)
GOALS = re.compile(r"(?:did not prove|stands on) (`[^`]*`(?:, `[^`]*`)*)")
REFUSED = re.compile(r"^(?:\./)?(?:proofs|specs)/(\S+)\.antt:\S+ error: `([^`]*)`", re.MULTILINE)
# a function as `rt fmt` lays it out: its indent, its name, and its lines up to the end of its body
FUNCTION = re.compile(r"^( *)(?:pub(?:\(crate\))? )?(?:const )?fn (\w+).*[^;}]\n(?:(?!\1(?:\}|\{\})$).*\n)*?\1\}$",
                      re.MULTILINE)
LINES = [line.partition("#")[0].partition(":") for line in (ROOT / "crates.txt").read_text().splitlines()]
# each crate, with the words before the colon of its line, and the libraries that it uses
LISTED = {head.split()[0]: (head, deps.split()) for head, colon, deps in LINES if colon}
Edit = collections.namedtuple("Edit", "name pairs expected")


def edit_of(file):
    text = file.read_text(encoding="utf-8")
    files = [part.partition("\n") for part in re.split("^file: ", text, flags=re.MULTILINE)[1:]]
    pairs = [(path, *it) for path, _, rest in files for it in re.findall("^old: (.*)\nnew: (.*)$", rest, re.MULTILINE)]
    expected = set(re.findall(r"^expect: (\S+) (\S+)$", text, re.MULTILINE))
    return Edit(f"{file.parts[-3]}/{file.stem}", pairs, expected)


def function_of(place):
    """The function of an expected goal: its name, or that of the folder of proofs that has the refused answer."""
    return place if "::" in place or place.islower() else place.rpartition("/")[0].replace("/", "::")


def is_own(function, goal, why):
    """Whether an open goal is that of the function, or of its cycle. A caller names refused answers of what it calls."""
    return "." not in goal or f".{function.replace('::', '.')}.Answers." in goal or "it calls" not in why


class Crate:
    """A crate, and a copy of it in a room."""

    def __init__(self, name, room):
        self.folder, self.room = ROOT / "crates" / name, pathlib.Path(room)
        rlibs = {dep: ROOT / "crates" / dep / "out/rlib" for dep in LISTED}
        # as `rt check` calls the prover
        self.words = [KIT / "bin/rattle", "check", "--crate-name", name, "src/lib.rt", "--links", f"{name}=",
                      "--antt-project", KIT / "rattle/logic/antt-project.json", "--logic-built", KIT / "logic_built",
                      "--allow-holes", "--incremental", "out/incremental", "-L", f"dependency={KIT}/rlibs"]
        self.words += ["--crate-type", "staticlib"] * ("staticlib" in LISTED[name][0])
        for dep in ["std", *LISTED[name][1]]:
            self.words += ["--extern", f"{dep}={rlibs.get(dep, KIT / 'rlibs')}/{dep}.rlib"]
        for rlib in rlibs.values():
            self.words += ["-L", f"dependency={rlib}"]

    def cut(self, edits):
        """Takes the bodies of functions that no edit is about: what calls them needs only their contracts."""
        files = {file: file.read_text(encoding="utf-8") for file in self.room.glob("src/**/*.rt")}
        found = [it for text in files.values() for it in FUNCTION.finditer(text)]
        kept = {function_of(place).rpartition("::")[2] for edit in edits for place, _ in edit.expected}
        kept |= {it[2] for it in found if any(old in it[0] for edit in edits for _, old, _ in edit.pairs)}
        gone = set()

        def without(it):
            # the body follows a brace alone on its line if there are clauses, and otherwise the head; a function of a
            # trait may have none, and then another follows
            head = re.match(rf".*\n(?:(?!.*\bfn |\}}).*\n)*?{it[1]}\{{\n", it[0]) or re.match(
                r"(?:(?! *(?:ensures|requires)).*[^;\n]\n)*?(?! *(?:ensures|requires)).*\{\n", it[0])
            if it[2] in kept or not head:
                return it[0]
            gone.add(it[2])
            return f"{head[0]}{it[1]}    unreachable!()\n{it[1]}}}"

        for file, text in files.items():
            file.write_text(FUNCTION.sub(without, text), encoding="utf-8")
        for file in self.room.glob("proofs/**/*.antt"):
            if file.name in ("Answers.antt", "Invariants.antt") and file.parent.name in gone:
                file.unlink()

    def opened(self, edits):
        """The goals that these edits open together, each a function and a clause."""
        for part in ("src", "specs", "proofs"):
            shutil.rmtree(self.room / part, ignore_errors=True)
            shutil.copytree(self.folder / part, self.room / part)
        self.cut(edits)
        pairs = [pair for edit in edits for pair in edit.pairs]
        files = {path: (self.room / path).read_text(encoding="utf-8") for path, *_ in pairs}
        for number, (path, old, _) in enumerate(pairs):
            if not old or files[path].count(old) != 1:
                raise ValueError(f"{path} has the old text {files[path].count(old)} times, and not once: {old}")
            # the new text follows later, since it may be the old one of another pair
            files[path] = files[path].replace(old, f"\0{number}\0")
        for path, text in files.items():
            whole = re.sub("\0([0-9]+)\0", lambda it: pairs[int(it[1])][2], text)
            (self.room / path).write_text(whole, encoding="utf-8")
        functions = sorted({function_of(place) for edit in edits for place, _ in edit.expected})
        only = [f"--only={it}" for it in functions] if all(functions) else []
        said = subprocess.run([*self.words, *only], cwd=self.room, stdin=subprocess.DEVNULL, stdout=subprocess.PIPE,
                              stderr=subprocess.STDOUT, text=True, errors="replace", check=False).stdout
        if not re.search(r"^(only=\d+ )?holes=\d+\n\Z", said, re.MULTILINE):
            raise ValueError("it does not reach the prover: " + (re.findall(".*error.*", said) or [said])[0][-300:])
        goals = {(function, goal.rpartition(".")[2]) for function, why in OPEN.findall(said)
                 for found in GOALS.findall(why) for goal in re.findall("`([^`]*)`", found)
                 if goal != "unreachable-requires" and is_own(function, goal, why)}
        return goals | {one for one in REFUSED.findall(said) if one[1] not in {goal for _, goal in goals}}

    def faults(self, edits):
        """What is wrong with each of these edits, by its name."""
        wanted = set().union(*(edit.expected for edit in edits))
        functions = [function for edit in edits for function in {function_of(place) for place, _ in edit.expected}]
        try:
            if len(functions) > len(set(functions)):
                raise ValueError("two are of one function")
            opened = self.opened(edits)
            told = [f"does not open {' '.join(goal)}" for goal in sorted(wanted - opened)]
            told += [f"opens {' '.join(goal)}" for goal in sorted(opened - wanted)]
            told += ["names no goal"] * any(not edit.expected for edit in edits)
        except ValueError as fault:
            told = [str(fault)]
        if told and len(edits) > 1:
            return {name: why for edit in edits for name, why in self.faults([edit]).items()}
        return {edit.name: "; ".join(told) for edit in edits}


@functools.cache
def sum_of(name, *more):
    """A sum of the definitions, the code and the proofs of a crate and of those below it, and of more folders of it."""
    digest, folder = hashlib.sha256(LISTED[name][0].encode()), ROOT / "crates" / name
    for file in sorted(it for part in ("src", "specs", "proofs", *more) for it in folder.glob(f"{part}/**/*")):
        if file.is_file():
            digest.update(f"{file.relative_to(ROOT)} {hashlib.sha256(file.read_bytes()).hexdigest()}\n".encode())
    for dep in LISTED[name][1]:
        digest.update(f"{dep} {sum_of(dep) if dep in LISTED else ''}\n".encode())
    return digest.hexdigest()


def verdict_of(name):
    """The file that keeps the sum of a crate whose wrong bodies are refused, and the sum that it has to have."""
    kit = subprocess.run(["rt", "version"], stdout=subprocess.PIPE, text=True, check=True).stdout
    rest = hashlib.sha256(kit.encode() + pathlib.Path(__file__).read_bytes()).hexdigest()
    return ROOT / "crates" / name / "out/wrong_bodies", f"{sum_of(name, 'wrong_bodies')} {rest}\n"


def tried(name):
    """What is wrong with the result of each wrong body of a crate, by its name."""
    with tempfile.TemporaryDirectory() as room:
        crate = Crate(name, room)
        edits = [edit_of(file) for file in sorted((crate.folder / "wrong_bodies").glob("*.edit"))]
        # what cites a changed definition is checked anew: such an edit is tried later, if functions alone refuse it
        later = [edit for edit in edits if any(path.startswith("specs/") for path, *_ in edit.pairs)
                 and all(function_of(place) for place, _ in edit.expected)]
        parts = [edit for edit in edits if edit not in later], later
        return {name: why for part in parts if part for name, why in crate.faults(part).items()}


def judged(name, is_asked):
    """What is wrong with each wrong body of a crate, unless the sum says that all of them have been refused."""
    kept, wanted = verdict_of(name)
    if not is_asked and kept.exists() and kept.read_text(encoding="utf-8") == wanted:
        return {f"{name}/{file.stem}": "" for file in (ROOT / "crates" / name / "wrong_bodies").glob("*.edit")}, True
    faults = tried(name)
    kept.unlink(missing_ok=True)
    if not any(faults.values()):
        kept.parent.mkdir(exist_ok=True)
        kept.write_text(wanted, encoding="utf-8")
    return faults, False


def main():
    is_asked = "--all" in sys.argv
    # the crates that others use come first
    crates = [word for word in sys.argv[1:] if word != "--all"] or [
        name for name in LISTED if any(ROOT.glob(f"crates/{name}/wrong_bodies/*.edit"))]
    passed = failed = 0
    with concurrent.futures.ThreadPoolExecutor(int(os.environ.get("RT_JOBS") or len(os.sched_getaffinity(0)))) as pool:
        for faults, is_kept in pool.map(judged, crates, [is_asked] * len(crates)):
            for name, why in sorted(faults.items()):
                print(f"{name}: {why or 'refused' + ' before, and nothing that it rests on has changed' * is_kept}")
            failed += sum(map(bool, faults.values()))
            passed += sum(not why for why in faults.values())
    print(f"{passed} passed, {failed} failed")
    return 1 if failed or not passed else 0


sys.exit(main())
