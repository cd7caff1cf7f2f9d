"""Runs the program on whole files, and compares it with the plain reader: on cut, large and mutated files."""
import os
import threading
import time

import made
import plain_reader
import rows
from checking import arguments, by_plain_reader, expect_json_of_texts, expect_texts, without_cause

ENTRIES_OF_A_FILE = 1000
TINY_FILES = 300
# of the texts that are cut off, one of so many is read from standard input, and all others from files
ON_INPUT = 50
SECONDS_FOR_A_LARGE_FILE = 10
SECONDS_BETWEEN_PIECES = 0.0005
SHORT = (b"\xef\xbb\xbfint\n[test]\r\n\tbool = maybe # yes\n\tint;\n int = 2g\n"
         b"[middle \"a.\\\"b\\\\\"] last = 1\\\n 2 \\t\\\"\n"
         b"[ \"x\"]y\n[test]bool=\"a # \\\n\xe2\x82\"  b \n\tword = \xf0\x9f\x98\x80\x1b\\")


def compare(group, program, how, data, **chosen):
    """Compares the program with the plain reader on one file."""
    wanted = by_plain_reader(made.ROWS, data, **chosen)
    return group.expect((how[2:-1], data), wanted, without_cause(program.run(how, data)))


def cut(group, program):
    """A short file, cut at every byte, and with each byte left out or replaced by a NUL."""
    how = arguments(program.settings(rows.SETTINGS))
    texts = [more for end in range(len(SHORT) + 1) for more in (
        SHORT[:end], SHORT[:end] + SHORT[end + 1:], SHORT[:end] + b"\0" + SHORT[end + 1:])]
    for text in texts[::ON_INPUT]:
        compare(group, program, how, text)
    others = [text for number, text in enumerate(texts) if number % ON_INPUT]
    expect_texts(group, program, how, others, [plain_reader.findings(made.ROWS, text) for text in others])


def large(group, program, draw, count):
    """Checks a file with this many entries in a few seconds, and then files with entries of 30 times as many bytes."""
    how = arguments(program.settings(rows.SETTINGS), canonical=True)
    data = made.whole(draw, count)
    wanted = by_plain_reader(made.ROWS, data, canonical=True)
    before = time.monotonic()
    came = without_cause(program.run(how, data))
    seconds = time.monotonic() - before
    group.expect(f"{count} entries", wanted, came)
    took = f"{seconds:.1f} s for {count:,} entries"
    group.expect(took, True, seconds < SECONDS_FOR_A_LARGE_FILE)
    group.notes.append(took)
    size = 30 * count
    long = [b"x" * size, b"\xe2\x82\xac\xff\\" * (size // 5)]
    for text in [b"", *long]:
        for key, value in ((b"test.word", text), (b"middle." + text + b".last", b"x"), (b"x.y", text)):
            data = made.line_of(key, value) + made.line_of(b"test.bool", b"maybe")
            compare(group, program, how, data, canonical=True)


def run_in_pieces(program, how, data, size):
    """Runs the program on a pipe into which this many bytes are written at a time."""
    reader, writer = os.pipe()

    def write():
        try:
            for at in range(0, len(data), size):
                os.write(writer, data[at:at + size])
                time.sleep(SECONDS_BETWEEN_PIECES)
        except BrokenPipeError:
            pass  # the output of the program shows that it ended early
        os.close(writer)

    thread = threading.Thread(target=write)
    thread.start()
    came = program.run(how, stdin=reader)
    os.close(reader)
    thread.join()
    return came


def pieces(group, program, draw):
    """Files that arrive byte by byte, or in small pieces."""
    how = arguments(program.settings(rows.SETTINGS), canonical=True)
    for size, count in ((1, 20), (2, 20), (3, 20), (7, 100), (100, 1000)):
        data = made.many(draw, count)
        wanted = by_plain_reader(made.ROWS, data, canonical=True)
        group.expect((size, data), wanted, without_cause(run_in_pieces(program, how, data, size)))


def mutated(group, program, draw, count):
    """This many mutated entries, in a few large files, and tiny files whose text is mutated as well."""
    settings = program.settings(rows.SETTINGS)
    for at in range(0, count, ENTRIES_OF_A_FILE):
        canonical = draw.choice((False, True))
        data = made.many(draw, min(ENTRIES_OF_A_FILE, count - at))
        compare(group, program, arguments(settings, canonical), data, canonical=canonical)
    tiny = [(draw.choice((False, True)), made.tiny(draw)) for _ in range(TINY_FILES)]
    for canonical in (False, True):
        how, texts = arguments(settings, canonical), [text for one, text in tiny if one == canonical]
        expect_texts(group, program, how, texts, [plain_reader.findings(made.ROWS, text, canonical) for text in texts])
        lines = [plain_reader.told(made.ROWS, text, canonical)[0] for text in texts]
        expect_json_of_texts(group, program, how, texts, lines)
    group.notes.append(f"{count:,} entries")
