"""Compares the built programs with the Rust crate that the library is a port of.

python3 upstream.py PROGRAM PATHS_PROGRAM [--seed N] [--lines N] [--calls N]

PROGRAM is config_value and PATHS_PROGRAM is path_answers; bench/upstream answers the same lines by the crate. First
come fixed lines: the texts in which the classes of classes.py are shown, all words and texts near to them, and numbers
at the edges. Then come at least N lines that fuzz.py makes. Every answer is compared: `ok` with its text, `refused`,
`unknown kind`. The calls of interpolation are drawn by calls.py.

No line may differ. Calls with a path that is not UTF-8 differ by a rule: the library refuses it, and the crate keeps it
on Unix. These are compared with that rule, and counted.

The run is the same for the same seed and numbers. The first difference is shrunk to the first text of at most two bytes
that differs, or otherwise until no part of it can be removed or replaced by one space or zero. The last line is 'N
passed, M failed', counted in batches; if the crate cannot be had it says `skipped` and why, and nothing has passed.
"""
import argparse
import itertools
import random
import sys
import time

import calls
import fuzz
import texts
from classes import CLASSES
from programs import answers, counted, rust_crate

SHOWN = 20
BATCH = 1000
SHORT = [bytes(text) for length in range(3) for text in itertools.product(range(256), repeat=length)]
QUESTIONS = [question for one in CLASSES for question in one.shown]


class Tally:
    """The batches that passed and failed, and the differences: what was asked, our answer, the crate's."""

    def __init__(self):
        self.passed = self.failed = 0
        self.differences = []

    def add(self, found):
        self.differences += found
        self.passed += not found
        self.failed += bool(found)

    def show(self, shrunk):
        """Prints the first differences, and then the first one again, shrunk."""
        for found in self.differences[:SHOWN]:
            show(found)
        if self.differences:
            print("the first one, shrunk:")
            show(shrunk(self.differences[0][0]))


class Both:
    """Two programs that the fuzzer asks as one: it gets the answers of the first."""

    def __init__(self, ours, theirs):
        self.programs = [fuzz.Program(ours), fuzz.Program(theirs)]
        self.differences = []
        self.answered = 0

    def answers(self, lines):
        given, wanted = (program.answers(lines) for program in self.programs)
        self.differences += differing(lines, given, wanted)
        self.answered += len(lines)
        return given

    def found(self):
        """The differences since the last call."""
        found, self.differences = self.differences, []
        return found

    def end(self):
        """What is wrong with how the programs end."""
        return [said for program in self.programs if (said := program.end())]


def differing(asked, given, wanted):
    return [found for found in zip(asked, given, wanted) if found[1] != found[2]]


def show(found):
    print("{!r} is answered {!r}, and by the crate {!r}".format(*found))


def shrunk(text, differs):
    """A text that still differs: one of at most two bytes, or otherwise one whose shorter versions do not differ."""
    found = differs(SHORT)
    if found:
        return min(found, key=len)
    while found := differs(shorter(text)):
        text = min(found, key=len)
    return text


def shorter(text):
    """The text with any one part of it removed, or replaced by one space or zero, if that makes it shorter."""
    parts = [(text[:start], text[end:]) for start in range(len(text)) for end in range(start + 1, len(text) + 1)]
    made = [front + byte + back for front, back in parts for byte in (b"", b" ", b"0")]
    return [other for other in made if len(other) < len(text)]


def compare_lines(ours, theirs, seed, least):
    """Compares the fixed lines and at least this many of the fuzzer; returns the tally and the number of lines."""
    both, tally = Both(ours, theirs), Tally()
    fuzzer = fuzz.Fuzzer(both, seed)
    first = [question.text for question in QUESTIONS if question.kind != "path"] + texts.systematic()
    for start in range(0, len(first), BATCH):
        both.answers([kind + b" " + text for text in first[start:start + BATCH] for kind in fuzz.KINDS])
        tally.add(both.found())
    least += both.answered
    while both.answered < least:
        fuzzer.batch(BATCH)
        tally.add(both.found())
    for said in both.end():
        print(said)
        tally.failed += 1
    return tally, both.answered


def shrunk_line(ours, theirs, line):
    """The shrunk line and its answers. If the line begins with the name of a kind, the name stays."""
    kind = fuzz.head_of(line)
    front = kind + b" " if kind in fuzz.KINDS and line != kind else b""

    def found(texts):
        lines = [front + text for text in texts if b"\n" not in text]
        return differing(lines, answers([ours], lines), answers([theirs], lines))

    text = shrunk(line[len(front):], lambda texts: [line[len(front):] for line, _, _ in found(texts)])
    return found([text])[0]


def differing_calls(ours, theirs, asked):
    """The differences that the rule does not allow, and how many it allows."""
    lines = [calls.line(*call) for call in asked]
    wanted = answers([theirs, "paths"], lines)
    ruled = [calls.by_rule(answer) for answer in wanted]
    return differing(asked, answers([ours], lines), ruled), len(differing(asked, ruled, wanted))


def compare_calls(ours, theirs, seed, count):
    """Compares this many calls; returns the tally, and how many calls differ by the rule."""
    draw, tally, by_rule = random.Random(seed), Tally(), 0
    asked = [(question.text, b"/usr", question.home, {}) for question in QUESTIONS if question.kind == "path"]
    asked += [calls.drawn(draw) for _ in range(count - len(asked))]
    for start in range(0, len(asked), BATCH):
        found, more = differing_calls(ours, theirs, asked[start:start + BATCH])
        tally.add(found)
        by_rule += more
    return tally, by_rule


def shrunk_call(ours, theirs, call):
    """The call with a shrunk value, and its answers."""
    def found(values):
        return differing_calls(ours, theirs, [(value, *call[1:]) for value in values])[0]

    return found([shrunk(call[0], lambda values: [call[0] for call, _, _ in found(values)])])[0]


def compare(arguments, theirs):
    start = time.monotonic()
    print(f"gix-config-value 0.21.1, seed {arguments.seed}")
    lines, count = compare_lines(arguments.program, theirs, arguments.seed, arguments.lines)
    lines.show(lambda line: shrunk_line(arguments.program, theirs, line))
    paths, by_rule = compare_calls(arguments.paths_program, theirs, arguments.seed, arguments.calls)
    paths.show(lambda call: shrunk_call(arguments.paths_program, theirs, call))
    print(f"{count:>12,} lines, {len(lines.differences):,} differences")
    print(f"{arguments.calls:>12,} calls, {len(paths.differences):,} differences, {by_rule:,} by the rule")
    print(f"{time.monotonic() - start:>12.1f} s")
    return lines.passed + paths.passed, lines.failed + paths.failed


def main():
    arguments = argparse.ArgumentParser()
    arguments.add_argument("program")
    arguments.add_argument("paths_program")
    arguments.add_argument("--seed", type=int, default=1)
    arguments.add_argument("--lines", type=int, default=100_000)
    arguments.add_argument("--calls", type=int, default=10_000)
    arguments = arguments.parse_args()
    return counted(lambda: compare(arguments, rust_crate()))


if __name__ == "__main__":
    sys.exit(main())
