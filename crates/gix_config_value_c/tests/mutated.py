"""Writes the first lines that the fuzzer feeds to the program, and its answers.

Run: mutated.py PROGRAM LINES ANSWERS
"""
import pathlib
import sys

sys.dont_write_bytecode = True
sys.path.insert(0, str(pathlib.Path(__file__).resolve().parents[3] / "compare"))
import fuzz  # noqa: E402

COUNT = 100_000


class Recorder(fuzz.Program):
    """A program that keeps its lines and answers."""

    def __init__(self, path):
        super().__init__(path)
        self.lines = []
        self.given = []

    def answers(self, lines):
        answers = super().answers(lines)
        self.lines += lines
        self.given += answers
        return answers


def main():
    program, lines, answers = sys.argv[1:]
    recorder = Recorder(program)
    fuzzer = fuzz.Fuzzer(recorder, 1)
    while len(recorder.lines) < COUNT:
        fuzzer.batch(1000)
    wrong_end = recorder.end()
    if fuzzer.faults or wrong_end:
        sys.exit(f"the program is at fault: {[*fuzzer.faults, wrong_end][0]}")
    pathlib.Path(lines).write_bytes(b"".join(line + b"\n" for line in recorder.lines[:COUNT]))
    pathlib.Path(answers).write_bytes(b"".join(answer + b"\n" for answer in recorder.given[:COUNT]))


if __name__ == "__main__":
    main()
