"""Feeds texts made by mutation to the built program, and checks what can be checked without a second reader.

python3 fuzz.py PROGRAM [--seed N] [--lines N] [--seconds S]

One process of the program answers everything, batch by batch. Each text is asked as every kind. It checks that

- the process lives, gives one answer for each line, and ends with the status of its answers;
- an answer is `ok` and printable bytes, at most LONGEST, `refused`, or `unknown kind`, the last exactly if the line
  names no kind;
- the text of an `ok` answer is answered by itself;
- a color name and an attribute word are colors with the same text;
- an amount is an integer, and decides the boolean; no suffix alone is an integer;
- a text of two accepted color texts joined by white space is accepted exactly if they have at most two color
  words together, and its answer has the words of both; joined by a near miss of white space it is refused.

The run is the same for the same seed and number of lines; with --seconds it goes on until the time is over. It prints
the first faults, a table of what was tried, and last 'N passed, M failed', counted in batches.
"""
import argparse
import collections
import random
import re
import subprocess
import sys
import threading
import time

from programs import ROOT, Wrong

sys.path.insert(0, str(ROOT / "docs"))
import grammar  # noqa: E402

KINDS = [b"suffix", b"integer", b"amount", b"boolean", b"name", b"attribute", b"color"]
LONGEST = max(map(int, re.findall(r"longest\s+has\s+(\d+)\s+bytes", grammar.PAGE)))
# the words of attributes, by rising bit
RISING = grammar.attribute_words()
COLORS = [b"black", b"red", b"green", b"yellow", b"blue", b"magenta", b"cyan", b"white"]
SPACES = [chr(code).encode() for code in
          [*range(0x09, 0x0E), 0x20, 0x85, 0xA0, 0x1680, *range(0x2000, 0x200B), 0x2028, 0x2029, 0x202F, 0x205F, 0x3000]
          if code != 0x0A]
NEAR_MISSES = [chr(code).encode() for code in [0x1C, 0x1D, 0x1E, 0x1F, 0x180E, 0x200B, 0xFEFF]]
ILL_FORMED = [b"\xc0\x80", b"\xed\xa0\x80", b"\xf4\x90\x80\x80", b"\xff", b"\xe2\x82", b"\xc2", b"\xa0", b"\xe2\x80"]
PIECES = [*RISING, *COLORS, *SPACES, *NEAR_MISSES, *ILL_FORMED, b"normal", b"default", b"bright", b"-1", b"no", b"no-",
          b"RESET", b"Red", b"yes", b"on", b"true", b"off", b"false", b"k", b"M", b"g", b"+", b"-", b"0x", b"0b", b"0",
          b"00000000", b"#", b"#fff", b"#F1b2c3", b"255", b"256", b"7", b"9", b"ffffffff", b"9223372036854775807",
          b"9223372036854775808", b"8589934592", b"8388608", b"9007199254740991", b"\0", b"\r", b" ", b"_", b":"]
FIRST_TEXTS = [b"", b"1", b"-1", b"0", b"010", b"0x10k", b"-0b11m", b"+9223372036854775807", b"-9223372036854775808g",
               b"yes", b"Off", b"TRUE", b"k", b"G", b"brightred", b"#1a2B3c", b"+007", b"bold", b"no-ul", b"Reset",
               b"red blue bold ul", b"bold\tred no-dim", b"normal -1 RESET", b"brightmagenta #fff italic strike"]
KEPT = 4096
SHOWN = 20
SECONDS_FOR_A_BATCH = 120


class Ended(Wrong):
    """The program ended before it was told to."""


class Program:
    """One process, which answers batches of lines."""

    def __init__(self, path):
        self.process = subprocess.Popen([path], stdin=subprocess.PIPE, stdout=subprocess.PIPE)
        self.all_accepted = True
        self.answered = 0

    def send(self, data):
        try:
            self.process.stdin.write(data)
            self.process.stdin.flush()
        except OSError:
            pass  # the missing answers will show it

    def answers(self, lines):
        data = b"".join(line + b"\n" for line in lines)
        sender = threading.Thread(target=self.send, args=(data,))
        sender.start()
        # without a limit it would wait forever for a program that leaves a line unanswered
        watch = threading.Timer(SECONDS_FOR_A_BATCH, self.process.kill)
        watch.start()
        answers = []
        for _ in lines:
            answer = self.process.stdout.readline()
            if not answer.endswith(b"\n"):
                self.process.kill()
                watch.cancel()
                sender.join()
                raise Ended(f"no whole answer to {lines[len(answers)]!r}")
            answers.append(answer[:-1])
        watch.cancel()
        sender.join()
        self.answered += len(answers)
        self.all_accepted &= all(answer.startswith(b"ok ") for answer in answers)
        return answers

    def end(self):
        """What is wrong with how the process ends, if anything."""
        # without a limit it would wait forever for a program that does not end with its input
        watch = threading.Timer(SECONDS_FOR_A_BATCH, self.process.kill)
        watch.start()
        self.process.stdin.close()
        more = self.process.stdout.read()
        status = self.process.wait()
        watch.cancel()
        wanted = 0 if self.all_accepted else 1
        if more:
            return f"more answers than lines: {more[:80]!r}"
        if status != wanted:
            return f"status {status} in place of {wanted}"
        return None


def mutated(draw, texts):
    """A text made from one of these by random changes."""
    text = bytearray(draw.choice(texts))
    for _ in range(draw.choice((0, 1, 1, 1, 2, 3))):
        at = draw.randrange(len(text) + 1)
        way = draw.randrange(9)
        if way == 0:
            text[at:at + 1] = bytes([draw.randrange(256)])
        elif way == 1:
            text[at:at] = draw.choice(PIECES)
        elif way == 2:
            text[at:at] = draw.choice(SPACES) + draw.choice(PIECES) + draw.choice((b"", draw.choice(SPACES)))
        elif way == 3:
            del text[at:at + draw.choice((1, 1, 1, 2, 4, 8))]
        elif way == 4:
            end = min(len(text), at + draw.choice((1, 3, 8)))
            text[at:end] = bytes(text[at:end]).swapcase()
        elif way == 5:
            other = draw.choice(texts)
            text[at:] = other[draw.randrange(len(other) + 1):]
        elif way == 6:
            text[at:at] = bytes(text[at:at + 4]) * draw.choice((1, 2, 20))
        elif way == 7 and at < len(text):
            text[at] ^= 1 << draw.randrange(8)
        else:
            text[at:at] = b"%d" % draw.getrandbits(draw.choice((3, 8, 33, 63, 64, 65)))
    return bytes(text[:300]).replace(b"\n", b" ")


def mutated_head(draw):
    """A kind's name, changed at one place or unchanged."""
    head = bytearray(draw.choice(KINDS))
    at = draw.randrange(len(head) + 1)
    other_case = bytes(head[at:at + 1]).swapcase()
    head[at:at + draw.randrange(2)] = draw.choice((b"", b"\t", b"x", b"\0", b"\xff", b"\r", other_case))
    return bytes(head)


def head_of(line):
    return line.split(b" ", 1)[0]


def parts(text):
    """The color words and the attribute words of a canonical color text."""
    words = text.split(b" ") if text else []
    return [word for word in words if word not in RISING], {word for word in words if word in RISING}


def joined(front, back):
    """The answer to two canonical color texts with white space between them."""
    front_names, front_words = parts(front)
    back_names, back_words = parts(back)
    if len(front_names) + len(back_names) > 2:
        return b"refused"
    words = front_words | back_words
    return b"ok " + b" ".join(front_names + back_names + [word for word in RISING if word in words])


class Fuzzer:
    """The texts that are kept, what was tried, and the faults found."""

    def __init__(self, program, seed):
        self.program = program
        self.draw = random.Random(seed)
        self.texts = list(FIRST_TEXTS)
        self.colors = {b"": b""}
        self.tried = collections.Counter()
        self.faults = []

    def fault(self, what, line, answer):
        self.faults.append(f"{what}: {line!r} is answered {answer!r}")

    def ask(self, what, lines):
        """The answers to the lines, after each is checked by itself."""
        answers = self.program.answers(lines)
        self.tried[what] += len(lines)
        for line, answer in zip(lines, answers):
            if (answer == b"unknown kind") != (head_of(line) not in KINDS):
                self.fault("kind", line, answer)
            elif answer.startswith(b"ok "):
                text = answer[3:]
                if len(text) > LONGEST or any(byte < 32 or byte > 126 for byte in text):
                    self.fault("no canonical text", line, answer)
            elif answer not in (b"refused", b"unknown kind"):
                self.fault("no answer", line, answer)
        return answers

    def expect(self, what, lines, wanted):
        for line, want, answer in zip(lines, wanted, self.ask(what, lines)):
            if answer != want:
                self.fault(f"{what}, where {want!r} was due", line, answer)

    def keep(self, text):
        if len(self.texts) < KEPT:
            self.texts.append(text)
        else:
            self.texts[self.draw.randrange(len(FIRST_TEXTS), KEPT)] = text

    def compare(self, text, by_kind):
        """Compares the answers of the kinds to one text with each other."""
        def agree(holds, what):
            if not holds:
                self.faults.append(f"{what}: {text!r} is answered {by_kind}")
        for part in (b"name", b"attribute"):
            if by_kind[part] != b"refused":
                agree(by_kind[part] == by_kind[b"color"], "a word is a color")
        amount, integer, boolean = (by_kind[kind] for kind in (b"amount", b"integer", b"boolean"))
        if amount != b"refused":
            agree(integer != b"refused", "an amount is an integer")
            agree(boolean == (b"ok false" if amount == b"ok 0" else b"ok true"), "an amount decides a boolean")
        if by_kind[b"suffix"] != b"refused":
            agree(integer == b"refused", "a suffix is no integer")

    def batch(self, count):
        """Asks texts as every kind, their canonical texts again, misspelled kinds, and joined colors."""
        draw = self.draw
        texts = [mutated(draw, self.texts) for _ in range(count)]
        lines = [kind + b" " + text for text in texts for kind in KINDS]
        answers = self.ask("texts of every kind", lines)
        again = []
        for at, text in enumerate(texts):
            given = answers[at * len(KINDS):(at + 1) * len(KINDS)]
            by_kind = dict(zip(KINDS, given))
            self.compare(text, by_kind)
            accepted = {kind: answer[3:] for kind, answer in by_kind.items() if answer.startswith(b"ok ")}
            again += [kind + b" " + answer for kind, answer in accepted.items()]
            if accepted:
                self.tried["texts that some kind accepts"] += 1
                self.keep(text)
            if b"color" in accepted and len(self.colors) < KEPT:
                self.colors[text] = accepted[b"color"]
        again = sorted(set(again))
        self.expect("canonical texts again", again, [b"ok " + line.split(b" ", 1)[1] for line in again])
        heads = [mutated_head(draw) + draw.choice((b"", b" ")) + draw.choice(texts) for _ in range(count // 4)]
        self.ask("spoilt names of kinds", heads)
        self.join(count)

    def join(self, count):
        draw = self.draw
        colors = list(self.colors)
        lines, wanted = [], []
        for _ in range(count):
            front, back = draw.choice(colors), draw.choice(colors)
            answer = joined(self.colors[front], self.colors[back])
            for space in draw.sample(SPACES, 3):
                lines.append(b"color " + front + space + back)
                wanted.append(answer)
        self.expect("colors joined by white space", lines, wanted)
        lines = [b"color " + draw.choice(colors) + draw.choice(NEAR_MISSES) + draw.choice(colors) for _ in range(count)]
        self.expect("colors joined by a near miss", lines, [b"refused"] * len(lines))


def main():
    arguments = argparse.ArgumentParser()
    arguments.add_argument("program")
    arguments.add_argument("--seed", type=int, default=1)
    arguments.add_argument("--lines", type=int, default=200_000)
    arguments.add_argument("--seconds", type=float)
    arguments = arguments.parse_args()
    program = Program(arguments.program)
    fuzzer = Fuzzer(program, arguments.seed)
    start = time.monotonic()
    passed = failed = 0
    try:
        while True:
            before = len(fuzzer.faults)
            fuzzer.batch(1000)
            if len(fuzzer.faults) > before:
                failed += 1
            else:
                passed += 1
            if arguments.seconds is not None:
                if time.monotonic() - start > arguments.seconds:
                    break
            elif program.answered >= arguments.lines:
                break
        wrong = program.end()
    except Ended as ended:
        wrong = f"{ended}, status {program.process.wait()}"
    faults = fuzzer.faults
    if wrong:
        failed += 1
        faults.append(wrong)
    for fault in faults[:SHOWN]:
        print(fault)
    for what, count in fuzzer.tried.items():
        print(f"{count:>12,} {what}")
    seconds = time.monotonic() - start
    print(f"{program.answered:>12,} lines in all, seed {arguments.seed}, {len(faults)} faults, {seconds:.1f} s")
    print(f"{passed} passed, {failed} failed")
    return 1 if failed else 0


if __name__ == "__main__":
    sys.exit(main())
