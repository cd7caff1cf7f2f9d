"""Replays the Rust crate's answers: lines.txt has lines of the program's input, and answers.txt the crate's answers.

python3 replay.py PROGRAM [FOLDER]     feeds the lines to the program, and compares every answer
python3 replay.py --again              asks the crate again about them and the calls of crates/path_answers/stdin
python3 replay.py --make FOLDER [--seed N] [--lines N] [--calls N]     draws others, and has the crate answer them

The first two print the first differences, and last 'N passed, M failed'; if the crate cannot be had they say
`skipped` and why. --make writes lines.txt and answers.txt, which PROGRAM FOLDER replays, and calls.txt and
call_answers.txt for path_answers. The lines are mutated as in fuzz.py; short random texts and long ones are among them.
Each kind has the same number of lines, half of them accepted if there are so many. The same seed and numbers give the
same files. If the crate keeps a path that is not UTF-8, the answer is by the rule of calls.py.
"""
import argparse
import pathlib
import random
import subprocess
import sys

import calls
import fuzz
from programs import ROOT, Missing, answers, counted, rust_crate

HERE = pathlib.Path(__file__).resolve().parent
SHOWN = 20
BATCH = 2000
# some kinds have few texts, so drawing has to end
ROUNDS = 40
KEPT = 4096


def drawn(draw, texts):
    """A random text: a short one, a long one, or one made from one of these."""
    way = draw.randrange(8)
    if way == 0:
        return bytes(draw.randrange(256) for _ in range(draw.choice((0, 1, 1, 2)))).replace(b"\n", b"\r")
    if way == 1:
        return draw.choice(texts) + draw.choice(fuzz.PIECES) * draw.choice((20, 40, 60))
    return fuzz.mutated(draw, texts)


def answered_lines(draw, upstream, kind, count):
    """Different lines of a kind with their answers, half of them accepted if there are so many."""
    texts = list(fuzz.FIRST_TEXTS)
    accepted, refused = {}, {}
    for _ in range(ROUNDS):
        lines = [kind + b" " + drawn(draw, texts) for _ in range(BATCH)]
        for line, answer in zip(lines, answers([upstream], lines)):
            (accepted if answer.startswith(b"ok ") else refused)[line] = answer
        texts = (fuzz.FIRST_TEXTS + [line[len(kind) + 1:] for line in accepted])[-KEPT:]
        if len(accepted) >= count // 2 and len(refused) >= count:
            break
    chosen = draw.sample(sorted(accepted.items()), min(len(accepted), count // 2))
    return chosen + draw.sample(sorted(refused.items()), count - len(chosen))


def lines(draw, upstream, count):
    """Lines of each kind, and some whose kind is misspelled, with their answers."""
    unknown = sorted({fuzz.mutated_head(draw) + b" 1" for _ in range(count // 100)})
    chosen = list(zip(unknown, answers([upstream], unknown)))
    for kind in fuzz.KINDS:
        chosen += answered_lines(draw, upstream, kind, (count - len(unknown)) // len(fuzz.KINDS))
    draw.shuffle(chosen)
    return chosen


def answered_calls(draw, upstream, count):
    """Different calls with their answers."""
    asked = {}
    while len(asked) < count:
        asked[calls.line(*calls.drawn(draw))] = None
    given = answers([upstream, "paths"], list(asked))
    return [(line, calls.by_rule(answer)) for line, answer in zip(asked, given)]


def write(file, rows):
    file.write_bytes(b"".join(row + b"\n" for row in rows))


def make(arguments):
    """Writes lines and calls that the Rust crate has answered."""
    try:
        upstream = rust_crate()
    except Missing as missing:
        sys.exit(str(missing))
    draw, folder = random.Random(arguments.seed), arguments.make
    chosen = lines(draw, upstream, arguments.lines)
    folder.mkdir(parents=True, exist_ok=True)
    write(folder / "lines.txt", [line for line, _ in chosen])
    write(folder / "answers.txt", [answer for _, answer in chosen])
    paths = answered_calls(draw, upstream, arguments.calls)
    write(folder / "calls.txt", [call for call, _ in paths])
    write(folder / "call_answers.txt", [answer for _, answer in paths])
    accepted = sum(answer.startswith(b"ok ") for _, answer in chosen)
    print(f"{len(chosen):,} lines, {accepted:,} of them accepted, and {len(paths):,} calls, seed {arguments.seed}")


def rows(file):
    # only LF ends a line: a value may hold any other byte
    return file.read_bytes().split(b"\n")[:-1]


def replayed(program, folder):
    """The lines, the stored answers, the answers of the program, and what is wrong with its end."""
    run = subprocess.run([program], input=(folder / "lines.txt").read_bytes(), stdout=subprocess.PIPE, check=False)
    asked, wanted, (*given, rest) = rows(folder / "lines.txt"), rows(folder / "answers.txt"), run.stdout.split(b"\n")
    is_well = rest == b"" and len(given) == len(wanted) == len(asked) and run.returncode == 1
    end = f"the program ended with status {run.returncode} after {len(given)} of {len(wanted)} answers"
    return asked, wanted, given, None if is_well else end


def asked_again():
    """The same for the Rust crate, over the stored lines and calls."""
    upstream, asked, calls_asked = rust_crate(), rows(HERE / "lines.txt"), rows(ROOT / "crates/path_answers/stdin")
    given = answers([upstream], asked) + [calls.by_rule(it) for it in answers([upstream, "paths"], calls_asked)]
    stored = rows(HERE / "answers.txt") + rows(ROOT / "crates/path_answers/stdout")
    return asked + calls_asked, stored, given, None if len(stored) == len(given) else "other stored answers than lines"


def compared(asked, wanted, given, wrong):
    """How many answers are as stored, and how many are not: a missing answer and a wrong end count as failed."""
    differences = [found for found in zip(asked, wanted, given) if found[1] != found[2]]
    for line, want, got in differences[:SHOWN]:
        print(f"{line!r}: {want!r} is stored, and the answer is {got!r}")
    if wrong:
        print(wrong)
    passed = min(len(given), len(wanted)) - len(differences)
    return passed, len(wanted) - passed + bool(wrong)


def main():
    arguments = argparse.ArgumentParser()
    arguments.add_argument("program", nargs="?")
    arguments.add_argument("folder", nargs="?", type=pathlib.Path, default=HERE)
    arguments.add_argument("--again", action="store_true")
    arguments.add_argument("--make", type=pathlib.Path)
    arguments.add_argument("--seed", type=int, default=1)
    arguments.add_argument("--lines", type=int, default=10_000)
    arguments.add_argument("--calls", type=int, default=1_500)
    arguments = arguments.parse_args()
    if arguments.make:
        return make(arguments)
    asked = asked_again if arguments.again else lambda: replayed(arguments.program, arguments.folder)
    return counted(lambda: compared(*asked()))


if __name__ == "__main__":
    sys.exit(main())
