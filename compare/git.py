"""Compares the built programs with a Git, from 2.30 on: the installed one, or the one that --git names.

python3 git.py PROGRAM PATHS_PROGRAM [--seed N] [--texts N] [--git COMMAND]

PROGRAM is config_value and PATHS_PROGRAM is path_answers. Each text is the value of a small configuration file, which
Git reads as `--type=bool`, `--type=int`, `--type=bool-or-int`, by `--get-color`, and as `--type=path` with a home
directory and with users that the machine has. A color of the library is turned into the codes that Git prints.

Texts with a NUL are left out, since a value ends there for Git; and texts with an LF, except paths, since it ends a
line of PROGRAM. First it is checked that the files carry all others.

Each difference has to belong to a class of classes.py that is expected in the version of this Git, or of the C library
that it calls; and each class that is expected has to be seen. The run is the same for the same seed and number of texts
on the same machine. It prints the classes with their counts, the faults, and last 'N passed, M failed', counted in
texts and classes. Without such a Git it says `skipped` and why, and nothing has passed.
"""
import argparse
import collections
import random
import sys
import tempfile

import classes
import texts
from classes import Case
from programs import Wrong, counted
from readers import Git, Library, user_of, users

SHOWN = 20


class Comparison:
    """What was asked, what was seen, and the faults."""

    def __init__(self, library, git):
        self.library = library
        self.git = git
        self.running = git.running
        self.asked = collections.Counter()
        self.seen = {one.name: [] for one in classes.CLASSES}
        self.faults = []

    def cases(self, questions):
        given = zip(questions, self.library.answers(questions), self.git.answers(questions))
        return [Case(asked, user_of(asked.text)[1], self.library.install, ours, git) for asked, ours, git in given]

    def judge(self, case):
        """The class of a difference, if it has one; otherwise it is a fault."""
        one = classes.of(case, self.running)
        if one is None:
            self.faults.append(("in no class that is expected", case))
        return one

    def ask(self, questions):
        """Judges each difference, and asks the plain text of its class too."""
        more = []
        for case in self.cases(questions):
            self.asked[case.question.kind] += 1
            one = self.judge(case) if case.ours != case.git else None
            if one is not None:
                self.seen[one.name].append(case)
            if one is not None and one.plain:
                more.append((one, case, case.question._replace(text=one.plain(case.question.text))))
        for (one, case, _), plain in zip(more, self.cases([question for _, _, question in more])):
            if plain.ours != plain.git:
                self.judge(plain)
            if getattr(case, one.reader) != getattr(plain, one.reader):
                self.faults.append((f"{one.name!r} is read otherwise than {plain.question.text!r}", case))

    def missing(self):
        """The names of the classes that are expected but were not seen."""
        return [one.name for one in classes.CLASSES
                if classes.is_expected(one.when, self.running) and not self.seen[one.name]]


def said(answer):
    return "refused" if answer is None else repr(answer)


def described(case):
    where = "" if case.question.kind != "path" else f" with the home {said(case.question.home)}"
    return f"{case.question.text!r} as {case.question.kind}{where}: {said(case.ours)} here, {said(case.git)} in Git"


def report(comparison):
    """Prints the classes and the faults, and counts."""
    for kind, count in comparison.asked.items():
        differing = sum(case.question.kind == kind for cases in comparison.seen.values() for case in cases)
        print(f"{count:>7,} texts as {kind}, {differing:,} in a class of differences")
    for one in classes.CLASSES:
        cases = comparison.seen[one.name]
        first = f": {described(cases[0])}" if cases else ""
        print(f"{len(cases):>7,} {one.name} ({classes.versions(one.when)}){first}")
    for fault, case in comparison.faults[:SHOWN]:
        print(f"{fault}: {described(case)}")
    missing = comparison.missing()
    for name in missing:
        print(f"not seen: {name}")
    failed = len(comparison.faults) + len(missing)
    seen = sum(map(bool, comparison.seen.values()))
    return comparison.asked.total() - len(comparison.faults) + seen, failed


def compare(arguments, folder):
    git = Git(arguments.git, folder)
    print(f"{git.said}, seed {arguments.seed}")
    questions = texts.questions(random.Random(arguments.seed), arguments.texts, users())
    lost = git.lost(sorted({question.text for question in questions}))
    if lost:
        raise Wrong(f"a file does not carry {lost[:SHOWN]}")
    comparison = Comparison(Library(arguments.program, arguments.paths_program, git.install()), git)
    comparison.ask(questions)
    return report(comparison)


def main():
    arguments = argparse.ArgumentParser()
    arguments.add_argument("program")
    arguments.add_argument("paths_program")
    arguments.add_argument("--seed", type=int, default=1)
    arguments.add_argument("--texts", type=int, default=300)
    arguments.add_argument("--git", default="git")
    arguments = arguments.parse_args()
    with tempfile.TemporaryDirectory() as folder:
        return counted(lambda: compare(arguments, folder))


if __name__ == "__main__":
    sys.exit(main())
