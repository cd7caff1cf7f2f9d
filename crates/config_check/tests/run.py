#!/usr/bin/env python3
"""The tests of the program config_check: python3 run.py PROGRAM [--seed N] [--inputs N] [--large N]

The groups run at the same time. The program prints what failed, a line for each group when it ends,
the classes of differences from Git, and at the end 'N passed, M failed'. Runs with the same seed,
number of mutated entries (inputs) and number of entries of a large file (large) are the same. At most
500 files are mended, one for 10 inputs. Tests that need Git or its manual say so if it is missing, and
count nothing.
"""
import argparse
import concurrent.futures
import os
import random
import sys
import tempfile

import by_hand
import endings
import formats
import git_types
import here
import inputs
import mending
import page
import planted
from checking import Group, Program


def groups(program, seed, count, large):
    """The name of each group, and what runs it; each group draws its own numbers, independent of the others."""
    def draw():
        return random.Random(seed)

    return [
        ("the pages of Git", page.check),
        ("rows, keys and arguments", lambda group: by_hand.check(group, program)),
        ("planted mistakes", lambda group: planted.check(group, program)),
        ("files that are cut off", lambda group: inputs.cut(group, program)),
        ("files that arrive in pieces", lambda group: inputs.pieces(group, program, draw())),
        ("codes, formats and hooks", lambda group: formats.check(group, program)),
        ("files that are mended, and a baseline", lambda group: mending.check(group, program, draw(), min(500, count // 10))),
        ("the files that Git reads here", lambda group: here.check(group, program)),
        ("the types of Git", lambda group: git_types.check(group, program, draw())),
        ("large files", lambda group: inputs.large(group, program, draw(), large)),
        ("mutated files", lambda group: inputs.mutated(group, program, draw(), count)),
        ("closed and full outputs, and a terminal", lambda group: endings.check(group, program)),
    ]


def run_group(group, check):
    """Runs a group and returns it; if its tests stop early for any reason, that counts as one more failure."""
    try:
        check(group)
    except Exception as error:
        group.failed += 1
        print(f"{group.name}: broken off by {error!r}")
    group.report()
    return group


def main():
    arguments = argparse.ArgumentParser()
    arguments.add_argument("program")
    arguments.add_argument("--seed", type=int, default=1)
    arguments.add_argument("--inputs", type=int, default=100_000)
    arguments.add_argument("--large", type=int, default=100_000)
    arguments = arguments.parse_args()
    passed = failed = 0
    with tempfile.TemporaryDirectory() as folder:
        program = Program(arguments.program, folder)
        checks = [(Group(name), check) for name, check in groups(program, arguments.seed, arguments.inputs, arguments.large)]
        with concurrent.futures.ThreadPoolExecutor(len(os.sched_getaffinity(0))) as pool:
            for group in pool.map(run_group, *zip(*checks)):
                passed += group.passed
                failed += group.failed
    print(f"{passed} passed, {failed} failed")
    return 1 if failed else 0


if __name__ == "__main__":
    sys.exit(main())
