#!/usr/bin/env python3
"""What Git does with values of the settings of git.rt: settings.py [PROGRAM | --ask [KEY..]]

settings.tsv has a line for each question: the key of a row, the key that is asked, the name of a command, a value as
Python writes it (None for a key alone), and the answers of the Gits of VERSIONS: `takes`, `warns: ..` or `dies: ..`,
with its first line if it was kept. A row that no command was seen to read has one line, whose command is `-` and
whose answers are `unread`, as are those of a Git whose command takes all values of a key that the other Git refuses.
--ask asks the Git on PATH again, which has to be one of VERSIONS, about all rows or those with these keys, and writes
its answers. A new line needs none before. PROGRAM is config_check: its verdict on each question, with --git VERSION,
has to agree with each of the Gits, or to differ in exactly one class of CLASSES.
"""
import ast
import collections
import concurrent.futures
import os
import pathlib
import re
import shutil
import subprocess
import sys
import tempfile

from programs import counted

ANSWERS = pathlib.Path(__file__).with_name("settings.tsv")
ROWS = pathlib.Path(__file__).parent.parent / "crates/config_checks/src/git.rt"
SECONDS = 20
# the Gits whose answers are kept, in the order of their columns
VERSIONS = ("2.39", "2.55")
# the marks of rows that precede their kinds, and what follows a mark with a value
MARKS = re.compile(r"alone|needs-value|warn|(since|until|instead|old)=(.*)")
# a repository with a remote, a submodule, notes, a conflict, and a change that is not committed
MADE = r"""
git init -q --template= --bare origin.git; git init -q --template= sub; git -C sub commit -q --allow-empty -m sub
git init -q --template= work; cd work
mkdir d; seq 30 > a.txt; echo y > d/y; echo '*.foo diff=foo filter=foo' > .gitattributes; echo foo > b.foo
git add .; git commit -qm 'one <a@x>'; git tag v1
git -c protocol.file.allow=always submodule --quiet add ../sub sub; git commit -qm two
git checkout -q -b conf v1; echo other > a.txt; git commit -qam conf; git checkout -q main
echo mine >> a.txt; echo bar > b.foo; git commit -qam three
git notes add -m note; git notes --ref other add -m other; git branch side v1
git remote add origin ../origin.git; git push -q -u origin main side; git fetch -q origin
git format-patch -q -1 --stdout > ../p.patch; echo changed >> a.txt; seq 5 > new.txt
git fast-export --all > ../s.fi 2> /dev/null
"""
# what is done before a command, and the command, which reads the setting
COMMANDS = {
    "status": ("", "git status"),
    "log": ("", "git log -p -3 --decorate --graph --stat --grep=o --notes"),
    "log-grep": ("", "git log --grep=one -1"),
    "show-signature": ("", "git log --show-signature -1"),
    "log-merges": ("", "git log -1 --diff-merges=on"),
    "sign": ("", "git -c gpg.format=ssh -c user.signingKey=x commit -q -S --allow-empty -m x"),
    "other-owner": ("", "GIT_TEST_ASSUME_DIFFERENT_OWNER=1 git status"),
    "diff": ("", "git diff HEAD~1 -- a.txt b.foo"),
    "diff-stat": ("", "git diff --dirstat HEAD~1"),
    "diff-submodule": ("", "git diff v1 HEAD"),
    "diff-external": ("", "git diff --text HEAD~1 -- b.foo"),
    "blame": ("", "git blame a.txt"),
    "blame-color": ("", "git blame --color-lines --color-by-age a.txt"),
    "grep": ("", "git grep --threads=2 -n foo"),
    "grep-outside": ("mkdir ../plain", "git -C ../plain grep foo"),
    "branch": ("", "git branch -a --color -v"),
    "branch-new": ("", "git branch --track new origin/side"),
    "checkout-remote": ("git remote add more ../origin.git; git fetch -q more", "git checkout side2"),
    "checkout": ("git stash -q", "git checkout conf"),
    "tag-list": ("", "git tag -l"),
    "tag": ("", "git tag -m x v9"),
    "show-branch": ("", "git show-branch"),
    "gc": ("", "git gc --quiet"),
    "gc-auto": ("", "git gc --auto"),
    "prune": ("", "git reflog expire --all"),
    "rerere-gc": ("mkdir -p .git/rr-cache", "git rerere gc"),
    "pack-refs": ("", "git pack-refs --all"),
    "rerere": ("mkdir .git/rr-cache; git stash -q; git merge -q conf", "git rerere"),
    "repack": ("", "git repack -adq"),
    "repack-cruft": ("git reset -q --hard HEAD~1; git reflog expire --expire=now --all", "git repack --cruft -dq"),
    "repack-islands": ("git config repack.useDeltaIslands true", "git repack -adq"),
    "pack-bitmaps": ("", "git repack -adb --quiet"),
    "midx-bitmaps": ("git repack -dq", "git multi-pack-index write --bitmap"),
    "commit-graph": ("", "git commit-graph write --reachable --changed-paths"),
    "maintenance": ("",
                    "git maintenance run --auto --task=commit-graph --task=loose-objects --task=incremental-repack"),
    "schedule": ("", "git maintenance run --schedule=weekly --quiet"),
    "maintenance-one": ("", "git maintenance run --schedule=daily --quiet"),
    "commit": ("", "git commit -qam x"),
    "commit-edit": ("", "GIT_EDITOR=true git commit -am x -e"),
    "amend": ("", "git commit -q --amend -am x"),
    "notes-merge": ("git update-ref refs/notes/foo refs/notes/other", "git notes --ref=foo merge commits"),
    "notes-rewrite": ("", "git -c notes.rewriteRef=refs/notes/commits commit -q --amend -am x"),
    "identity": ("", "env -u GIT_AUTHOR_NAME -u GIT_AUTHOR_EMAIL -u GIT_COMMITTER_NAME -u GIT_COMMITTER_EMAIL "
                 "git commit -qam x"),
    "push": ("git commit -qam x", "git push"),
    "push-all": ("git commit -qam x", "git push --force origin HEAD:refs/heads/more"),
    "push-delete": ("", "git push origin :side"),
    "push-current": ("", "git push . HEAD:refs/heads/main"),
    "push-main": ("", "git push origin :main"),
    "fetch": ("", "git fetch"),
    "fetch-copy": ("git init -q ../copy", "git -C ../copy fetch \"file://$PWD\" main"),
    "fetch-object": ("git init -q ../copy", "git -C ../copy fetch \"file://$PWD\" \"$(git rev-parse main~1)\""),
    "fetch-submodules": ("", "git -c protocol.file.allow=always fetch --recurse-submodules"),
    "pull": ("git stash -q", "git pull"),
    "pull-rebase": ("git stash -q", "git pull origin side"),
    "merge": ("git stash -q", "git merge --no-edit side conf~1"),
    "merge-conflict": ("git stash -q", "git merge conf"),
    "merge-new": ("git stash -q; git checkout -q -b more v1; git commit -q --allow-empty -m more",
                  "GIT_EDITOR=true git merge main"),
    "merge-upstream": ("git stash -q; git checkout -q -b more v1; git branch -q -u origin/main", "git merge"),
    "stash-show": ("git stash -q", "git stash show"),
    "rebase": ("git stash -q", "git rebase --force-rebase HEAD~1"),
    "rebase-todo": ("git stash -q", "GIT_SEQUENCE_EDITOR='echo >' git rebase -i HEAD~1"),
    "rebase-sequence": ("git stash -q", "git rebase -i HEAD~1"),
    "rebase-edit": ("git stash -q", "GIT_SEQUENCE_EDITOR=true git rebase -i HEAD~1"),
    "rebase-exec": ("git stash -q", "git rebase -x true HEAD~1"),
    "revert": ("git stash -q", "git revert --no-edit HEAD"),
    "am": ("git stash -q; git reset -q --hard HEAD~1", "git am -3 ../p.patch"),
    "apply": ("git stash -q; git reset -q --hard HEAD~1", "git apply ../p.patch"),
    "add": ("", "git add ."),
    "add-interactive": ("", "git add -i < /dev/null"),
    "clean": ("", "git clean -i < /dev/null"),
    "clean-dry": ("", "git clean -n"),
    "format-patch": ("", "git format-patch -2 --stdout"),
    "format-patch-cover": ("", "git format-patch -2 --cover-letter --stdout"),
    "format-patch-files": ("", "git format-patch -1 -o ../out"),
    "clone": ("", "git clone -q . ../copy"),
    "clone-submodules": ("", "git -c protocol.file.allow=always clone -q --recurse-submodules --reference . . ../copy"),
    "clone-partial": ("git config uploadpack.allowFilter true",
                      "git clone -q --no-checkout --filter=tree:0 \"file://$PWD\" ../copy"),
    "init": ("", "git init -q ../new"),
    "fsck": ("", "git fsck"),
    "submodule": ("git submodule --quiet deinit -f sub",
                  "git -c protocol.file.allow=always submodule --quiet update --init"),
    "submodule-clone": ("git clone -q . ../copy",
                        "git -C ../copy -c protocol.file.allow=always submodule update --init"),
    "submodule-errors": ("git clone -q . ../copy", "git -C ../copy -c protocol.file.allow=always "
                         "-c submodule.alternateLocation=no submodule update --init"),
    "submodule-remote": ("", "git submodule update --remote"),
    "submodule-update": ("", "git submodule update"),
    "sparse": ("", "git sparse-checkout set d"),
    "index": ("", "git update-index --split-index"),
    "index-new": ("rm .git/index", "git reset -q"),
    "index-shared": ("git update-index --split-index; echo x > more.txt; git add more.txt", "git update-index --split-index"),
    "index-threads": ("git config index.threads 2", "git add ."),
    "hook-version": ("git config core.fsmonitor echo", "git status"),
    "remote": ("", "git remote update"),
    "ls-remote": ("", "git ls-remote origin"),
    "ls-remote-file": ("", "git ls-remote \"file://$PWD\""),
    "ls-remote-git": ("", "git ls-remote git://127.0.0.1:1/x"),
    "ls-remote-ssh": ("", "git ls-remote ssh://127.0.0.1:1/x"),
    "ls-remote-variant": ("git config core.sshCommand false", "git ls-remote ssh://127.0.0.1:1/x"),
    "ls-remote-http": ("", "git ls-remote http://127.0.0.1:1/x"),
    "ls-remote-password": ("", "git ls-remote http://u:p@127.0.0.1:1/x"),
    "credential": ("", "printf 'url=http://127.0.0.1:1/x\\n\\n' | git credential fill"),
    "credential-store": ("",
                         "printf 'protocol=http\\nhost=h\\nusername=u\\npassword=p\\n\\n' | git credential-store --file=../cs store"),
    "imap-send": ("", "git -c imap.host=imap://127.0.0.1 -c imap.folder=x -c imap.tunnel=false imap-send < ../p.patch"),
    "imap-curl": ("", "git -c imap.host=imap://127.0.0.1:1 -c imap.folder=x imap-send < ../p.patch"),
    "mailinfo": ("", "git mailinfo ../m1 ../m2 < ../p.patch"),
    "fast-import": ("git init -q ../copy", "git -C ../copy fast-import --quiet < ../s.fi"),
    "archive": ("", "git archive --format=tar HEAD > /dev/null"),
    "archive-remote": ("", "git archive --remote=. HEAD > /dev/null"),
    "archive-object": ("", "git archive --remote=. \"$(git rev-parse HEAD~1)\" > /dev/null"),
    "instaweb": ("", "git instaweb --stop"),
    "help": ("", "git help git < /dev/null > /dev/null"),
    "unknown": ("", "git statos"),
    "difftool": ("", "git -c diff.tool=foo -c difftool.foo.cmd=true difftool HEAD~1 -- a.txt < /dev/null"),
    "mergetool": ("git stash -q; git merge -q conf", "yes | git -c merge.tool=foo -c mergetool.foo.cmd=true mergetool"),
    "mergetool-wrong": ("git stash -q; git merge -q conf",
                        "yes n | git -c merge.tool=foo -c mergetool.foo.cmd=false mergetool --no-prompt"),
    "worktree": ("", "git worktree add -q ../tree"),
    "worktree-side": ("", "git worktree add -q ../side"),
    "version": ("", "git version"),
    "symbolic-ref": ("", "git symbolic-ref refs/heads/z refs/heads/main"),
    "bare": ("git init -q --bare ../bare.git", "git -C ../bare.git rev-parse --git-dir"),
    "column": ("", "git column --mode=plain < a.txt"),
    "describe": ("", "git describe"),
    "var": ("", "git var GIT_EDITOR"),
    "shortlog": ("", "git shortlog HEAD"),
    "interpret-trailers": ("", "git interpret-trailers --trailer 'x: y' a.txt"),
    "whitespace": ("printf 'x \\n' >> a.txt", "git diff --check"),
    "pager": ("", "git --paginate log -1"),
}
# settings that Git reads only in the repository's own file, or with which elsewhere no repository can be made
LOCAL = re.compile(r"(core\.(bare|worktree|repositoryformatversion)|extensions\..*)", re.IGNORECASE)
COMPLAINT = re.compile(rb"error|fatal|warning|invalid|bad |unknown|unrecognized|unsupported|missing", re.IGNORECASE)

# a question: the key of its row, the key that is asked, the command, and the value, None for a key alone
Question = collections.namedtuple("Question", "row key command value")


def environment(folder):
    """The environment of Git: no other configuration, a name, and a fixed time."""
    return {"PATH": os.environ["PATH"], "HOME": str(folder), "LC_ALL": "C", "GIT_CONFIG_NOSYSTEM": "1",
            "EDITOR": "true", "GIT_CONFIG_GLOBAL": str(folder / "config"), "GIT_AUTHOR_DATE": "1700000000 +0000", "PAGER": "cat",
            "GIT_COMMITTER_DATE": "1700000000 +0000", "TERM": "dumb", "GIT_TERMINAL_PROMPT": "0", "GIT_ASKPASS": "true",
            **{f"GIT_{who}_{what}": "x@x" for who in ("AUTHOR", "COMMITTER") for what in ("NAME", "EMAIL")}}


def entry(key, value):
    """The lines of a configuration file that set a key."""
    section, _, rest = key.partition(".")
    middle, _, last = rest.rpartition(".")
    head = f'[{section} "{middle}"]' if middle else f"[{section}]"
    if value is None:
        return f"{head}\n\t{last}\n"
    text = value.replace("\\", "\\\\").replace('"', '\\"').replace("\n", "\\n").replace("\t", "\\t")
    return f'{head}\n\t{last} = "{text}"\n'


def shell(script, folder, cwd):
    """Runs a script without input, and returns how it ended and its errors."""
    return subprocess.run(["timeout", str(SECONDS), "sh", "-c", script], cwd=cwd, env=environment(folder), check=False,
                          stdin=subprocess.DEVNULL, stdout=subprocess.DEVNULL, stderr=subprocess.PIPE)


def run(made, question):
    """How a command ends in a fresh copy of the repository, with the setting of the question if it has one."""
    with tempfile.TemporaryDirectory() as name:
        folder = pathlib.Path(name) / "home"
        shutil.copytree(made, folder, symlinks=True)
        before, command = COMMANDS[question.command]
        shell(before, folder, folder / "work")
        if question.key:
            where = folder / "work/.git/config" if LOCAL.fullmatch(question.key) else folder / "config"
            with open(where, "a", encoding="utf-8", errors="surrogateescape") as file:
                file.write(entry(question.key, question.value))
        ended = shell(command, folder, folder / "work")
        said = ended.stderr.replace(str(folder).encode(), b"~")
        return ended.returncode, said.splitlines()


def answer(made, plain, question):
    """What Git does with the value, compared with what it does without the setting."""
    status, said = run(made, question)
    usual, lines = plain[question.command]
    new = [line for line in said if line not in lines]
    told = next((line for line in new if COMPLAINT.search(line)), b"").decode(errors="replace")
    told = told.removeprefix("remote: ").rstrip()[:100]
    if status != usual and status >= 128:
        return f"dies: {told or status}"
    names = question.key.lower().rpartition(".")[2]
    if told and (names in told.lower() or (question.value and question.value in told)):
        return f"{'dies' if told.startswith('fatal') else 'warns'}: {told}"
    return "takes"


def read():
    """The questions with the answers of each Git, in the order of the file."""
    lines = ANSWERS.read_text(encoding="utf-8").splitlines() if ANSWERS.exists() else []
    rows = [line.split("\t") for line in lines]
    return {Question(row, key, command, ast.literal_eval(value)): given or ["unread"] * len(VERSIONS)
            for row, key, command, value, *given in rows}


def column():
    """The place of the answers of the Git on PATH."""
    said = subprocess.run(["git", "version"], stdout=subprocess.PIPE, check=True, text=True).stdout
    version = ".".join(said.split()[2].split(".")[:2])
    if version not in VERSIONS:
        sys.exit(f"the Git on PATH is {version}, and answers of {' and '.join(VERSIONS)} are kept")
    return VERSIONS.index(version)


def mark_unread(stored):
    """Marks the answers of a Git whose command takes all values of a key, if the other Git refuses some."""
    asked = collections.defaultdict(list)
    for (row, key, command, _), given in stored.items():
        asked[row, key, command].append(given)
    for answers in asked.values():
        for one, other in ((0, 1), (1, 0)):
            if {given[one] for given in answers} == {"takes"} != {given[other] for given in answers}:
                for given in answers:
                    given[one] = "unread"


def ask(stored, keys):
    """Asks Git all questions again, or those of these rows, and writes the answers."""
    place = column()
    asked = [question for question in stored if question.command in COMMANDS and (not keys or question.row in keys)]
    with tempfile.TemporaryDirectory() as name:
        made = pathlib.Path(name) / "made"
        made.mkdir()
        (made / "config").write_text("[init]\n\tdefaultBranch = main\n", encoding="utf-8")
        shell(MADE, made, made)
        with concurrent.futures.ThreadPoolExecutor(len(os.sched_getaffinity(0))) as pool:
            commands = sorted({question.command for question in asked})
            ends = pool.map(lambda command: run(made, Question("", "", command, None)), commands)
            plain = dict(zip(commands, ends))
            for question, told in zip(asked, pool.map(lambda question: answer(made, plain, question), asked)):
                stored[question][place] = told
    mark_unread(stored)
    lines = ["\t".join([row, key, command, repr(value), *given]) for (row, key, command, value), given in stored.items()]
    ANSWERS.write_text("".join(f"{line}\n" for line in lines), encoding="utf-8")


# what Git does by a verdict of config_check, by the severity of its line
VERDICTS = {b"error": "dies", b"warning": "warns", b"note": "takes"}
# a question whose answer differs from the verdict, and the kind of its row
Case = collections.namedtuple("Case", "question kind ours git")
EFFECTS = set("""core.bare extensions.objectFormat extensions.refStorage extensions.compatObjectFormat
extensions.relativeWorktrees extensions.submodulePathConfig credential.interactive gc.maxCruftSize
commitGraph.changedPathsVersion commit.gpgSign fetch.parallel submodule.fetchJobs
pack.threads format.useAutoBase filter.*.required help.format merge.ff protocol.allow protocol.*.allow push.default
push.gpgSign safe.bareRepository difftool.trustExitCode receive.denyDeleteCurrent merge.verbosity""".split())
WIDER = set("""core.abbrev branch.sort tag.sort gc.logExpiry gc.pruneExpire gc.worktreePruneExpire
diff.colorMovedWS push.recurseSubmodules repack.cruftWindow repack.cruftDepth repack.cruftThreads http.sslVersion
http.*.sslVersion http.sslBackend http.*.sslBackend receive.maxInputSize diff.dirstat log.graphColors hook.jobs
sideband.allowControlCharacters status.compareBranches pack.allowPackReuse""".split())
# the kinds of texts of which a command asks more than their form
FURTHER = ("text", "path", "fetch-refspec", "push-refspec", "branch", "command")
# the classes by their names: whether a difference is in the class
CLASSES = {
    "Git ignores the value without a word": lambda case: (case.ours, case.git) == ("warns", "takes"),
    "a number of 2^63 and more": lambda case: case.question.value == str(2 ** 63) and case.git == "takes",
    "Git warns of a missing value, or of a number: an error": lambda case: (case.ours, case.git) == ("dies", "warns"),
    "Git stops at some wrong values only: a warning": lambda case: (case.ours, case.git) == ("warns", "dies"),
    "a text that the command reads further": lambda case: case.kind in FURTHER and case.ours == "takes",
    "a ref at which only git notes stops": lambda case: case.question.row == "core.notesRef" and case.git == "takes",
    "the mark of a path, which Git knows since 2.52": lambda case: (case.question.value or "").startswith(":(optional)"),
    "a right value with an effect that fails": lambda case: case.question.row in EFFECTS and case.ours == "takes",
    "a message that only a newer fsck has": lambda case: case.ours == "takes"
    and re.search(r"fsck\.(?!skipList)", case.question.row),
    "a kind that takes more than Git": lambda case: case.question.row in WIDER and case.ours == "takes",
}


def number(version):
    return [int(part) for part in version.split(".")]


def table():
    """The rows of git.rt and their comments, each as one line."""
    return re.sub(r"\\\n *", "", ROWS.read_text(encoding="utf-8").split('"\\\n', 1)[1].split('";')[0])


def kinds(version):
    """The kind of each row of git.rt, for a key with several rows of the one that holds for this Git."""
    found = {}
    for key, *rest in [line.split() for line in table().splitlines() if not line.startswith("#")]:
        marks = dict(MARKS.fullmatch(word).groups() for word in rest if MARKS.fullmatch(word))
        kind = next(word for word in rest if not MARKS.fullmatch(word))
        is_old = "until" in marks and number(marks["until"]) <= number(version)
        if key not in found or not (is_old or "since" in marks and number(version) < number(marks["since"])):
            found[key] = kind
    return found


def verdicts(program, version, questions):
    """What this Git does with each question by config_check, or None for a row that no command reads, since a file
    cannot name each of those."""
    asked = [question for question in questions if question.command != "-"]
    file = "".join(entry(question.key, question.value) for question in asked)
    run_of = subprocess.run([program, "--git", version, "-"], input=file.encode(errors="surrogateescape"),
                            stdout=subprocess.PIPE, stderr=subprocess.DEVNULL, check=False, env={**os.environ, "HOME": "/"})
    found = dict.fromkeys(questions) | dict.fromkeys(asked, "takes")
    for line in run_of.stdout.splitlines():
        _, number, _, severity, _ = line.split(b":", 4)
        # each question takes two lines, and the second has its key
        found[asked[int(number) // 2 - 1]] = VERDICTS[severity.strip()]
    return found


def compare(program):
    """Counts the questions that agree or differ in one class, and the others; each row and class has to be seen."""
    stored, seen = read(), collections.Counter()
    rows = {question.row for question in stored}
    failed = [f"no question of {key}" for key in sorted(set(kinds(VERSIONS[0])) - rows)]
    for place, version in enumerate(VERSIONS):
        kind_of = kinds(version)
        for question, ours in verdicts(program, version, stored).items():
            told = stored[question][place]
            case = Case(question, kind_of.get(question.row), ours, told.split(":")[0])
            found = [name for name, rule in CLASSES.items() if rule(case)] if case.git not in (ours, "unread") else []
            if case.git not in (ours, "unread") and len(found) != 1:
                failed.append(f"{version}: {question}: config_check {ours}, Git {told}: classes {found}")
            seen.update(found)
    failed += [f"no difference of the class: {name}" for name in CLASSES if not seen[name]]
    for line in [f"{count:>7,} {name}" for name, count in seen.items()] + failed:
        print(line)
    return len(stored) * len(VERSIONS) - len(failed), len(failed)


if __name__ == "__main__":
    if sys.argv[1:2] == ["--ask"]:
        ask(read(), sys.argv[2:])
    else:
        sys.exit(counted(lambda: compare(sys.argv[1])))
