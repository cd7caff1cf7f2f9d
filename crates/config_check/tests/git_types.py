"""Compares what `git config --type` refuses with what config_check reports for the same texts.

Each difference has to belong to exactly one class of compare/classes.py or of OWN_CLASSES.
"""
import collections
import concurrent.futures
import pathlib
import sys
import tempfile

import made
import plain_reader
import rows
from checking import arguments
from plain_reader import beginning, cut

sys.path.append(str(pathlib.Path(__file__).resolve().parents[3] / "compare"))

import classes  # noqa: E402
import texts  # noqa: E402
from classes import Case, Question, amount  # noqa: E402
from programs import Missing, Wrong  # noqa: E402
from readers import NOT_SET, REFUSED, Git, escape_code, user_of  # noqa: E402

TEXTS = 400
# the last part of a row's key, and the type that Git is asked for
KINDS = [("bool", "bool"), ("int", "int"), ("size", "int"), ("bool-or-int", "bool-or-int"), ("color", "color")]
SHOULD_BE = b"note: should be "
CODE = b" [not-canonical]\n"

# a class: its name, the kind for which it is expected, its rule for a case, and texts that show it
Own = collections.namedtuple("Own", "name kind rule shown")


def number_of_git_alone(case):
    """The number of a text that is reported, although Git reads it as this number; None for other texts."""
    number = amount(case.question.text)
    return number if number is not None and case.ours is None and case.git == b"%d" % number else None


def beyond_an_int(case):
    number = number_of_git_alone(case)
    return number is not None and not -2 ** 31 <= number < 2 ** 31


def below_zero(case):
    number = number_of_git_alone(case)
    return number is not None and number < 0


OWN_CLASSES = [
    Own("an int has 32 bits here, and 64 in Git", "int", beyond_an_int, [b"2147483648", b"-2147483649"]),
    Own("a size is not below zero here", "size", below_zero, [b"-1", b"-1k"]),
]


def by_hand(kind):
    """The texts that the tables have for a kind, without those that have a NUL or a line feed."""
    shown = [text for own in OWN_CLASSES if own.kind == kind for text in own.shown]
    known = shown + [value for value in made.VALUES_BY_KEY[b"test." + kind.encode()] if value is not None]
    return [text for text in known if b"\0" not in text and b"\n" not in text]


def questions(draw, kind, asked):
    """What Git is asked about a kind: texts of the classes, texts written by hand, and mutated ones."""
    known = [one.text for each in classes.CLASSES for one in each.shown if one.kind == asked]
    made_of = asked if asked in texts.MADE else "number"
    found = list(dict.fromkeys(known + by_hand(kind)))
    found = texts.texts(draw, made_of, found, len(found) + TEXTS)
    return [Question(asked, text, None) for text in found]


def in_terms_of_git(asked, canonical):
    """The value of a canonical text, as Git prints it; None if the text was reported."""
    if canonical is None:
        return None
    if asked == "color":
        return escape_code(canonical)
    return b"%d" % amount(canonical) if asked != "bool" and amount(canonical) is not None else canonical


def canonical_texts(program, how, key, values):
    """The canonical text of each value, according to the program's report; None if the value is wrong."""
    data = b"".join(made.line_of(key, value) for value in values)
    found = list(values)
    places = [place for place, _, _ in plain_reader.entries(data)[0]]
    for line in program.run(how, data).output.splitlines(True):
        number = int(line.split(b":")[1])
        front = beginning(places[number - 1], (key, b""), cut(values[number - 1]), SHOULD_BE)
        found[number - 1] = line.removeprefix(front).removesuffix(CODE) if line.startswith(front) else None
    return found


def by_git(git, name, asked):
    """What Git says to questions of one type and home: asked at once, or in halves if Git refuses one."""
    question = asked[0]
    how = [f"--type={question.kind}", "--null", "--get-all"]
    run = git.config(name, [one.text for one in asked], how, question.home)
    *given, _ = run.stdout.split(b"\0")
    if run.returncode == 0 and len(given) == len(asked):
        return given
    if len(asked) == 1:
        if run.returncode != REFUSED and (run.returncode != 1 or run.stdout):
            raise Wrong(f"git ended with status {run.returncode} at {question}: {run.stderr!r}")
        return [None if run.returncode == REFUSED else NOT_SET]
    half = len(asked) // 2
    return by_git(git, name, asked[:half]) + by_git(git, name, asked[half:])


def all_by_git(git, asked, ours):
    """What Git says: texts that the program accepts are in one file, and each other text is in its own file."""
    parts = [[one] for one, text in zip(asked, ours) if text is None]
    accepted = [one for one, text in zip(asked, ours) if text is not None]
    parts += [accepted] if accepted else []
    with concurrent.futures.ThreadPoolExecutor() as pool:
        answers = pool.map(by_git, [git] * len(parts), map(str, range(len(parts))), parts)
        given = {one: answer for part, found in zip(parts, answers) for one, answer in zip(part, found)}
    return [given[one] for one in asked]


def classes_of(kind, case, running):
    one = classes.of(case, running)
    found = [] if one is None else [one.name]
    return found + [own.name for own in OWN_CLASSES if own.kind == kind and own.rule(case)]


def compare(group, program, draw, git):
    """Asks both programs, and counts the differences by class."""
    install = git.install()
    how = arguments(program.settings(rows.SETTINGS), canonical=True)
    seen = collections.defaultdict(list)
    for kind, asked_type in KINDS:
        asked = questions(draw, kind, asked_type)
        group.expect("texts that a file does not carry", [], git.lost(sorted({one.text for one in asked})))
        ours = canonical_texts(program, how, b"test." + kind.encode(), [one.text for one in asked])
        for one, text, answer in zip(asked, ours, all_by_git(git, asked, ours)):
            case = Case(one, user_of(one.text)[1], install, in_terms_of_git(asked_type, text), answer)
            found = classes_of(kind, case, git.running) if case.ours != case.git else None
            group.expect((kind, case, found), True, found is None or len(found) == 1)
            for name in found or []:
                seen[name].append((kind, case))
    for name, cases in seen.items():
        kind, case = cases[0]
        print(f"{len(cases):>7,} {name}: {case.question.text!r} as {kind}")
    for own in OWN_CLASSES:
        group.expect(own.name, True, bool(seen[own.name]))


def check(group, program, draw):
    with tempfile.TemporaryDirectory() as folder:
        try:
            git = Git("git", folder)
        except Missing as missing:
            group.skip("all", missing)
            return
        group.notes.append(git.said)
        compare(group, program, draw, git)
