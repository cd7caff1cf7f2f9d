"""The texts that git.py asks, and those that upstream.py asks before the fuzzer's."""
import itertools

import fuzz
from calls import MARK, PREFIX
from classes import CLASSES, NUMBERS, Question

SUFFIXES = ["", "k", "m", "g", "K", "M", "G"]
SIGNS = ["", "-", "+"]
# the format of a number's digits, by the prefix before them
FORMS = {"": "d", "0": "o", "0x": "x", "0X": "X", "0b": "b"}
EDGES = sorted({(1 << bits) // unit + more for bits in (31, 32, 63, 64) for unit in (1, 1 << 10, 1 << 20, 1 << 30)
                for more in (-1, 0, 1)})
ASCII_SPACES = [b" ", b"\t", b"\v", b"\f", b"\r"]
NUMBER_WORDS = [b"true", b"yes", b"on", b"false", b"no", b"off"]
NUMBER_TEXTS = [b"", b"00", b"010", b"08", b"0x", b"0X1f", b"0b", b"0b2", b"1_0", b"1.5", b"1e3", b"10kb", b"1 k",
                b"1kk", b"+-1", b"--1", b"0x-1", b"0k", b"-0", b"+0x0m", b"1 ", b"\xd9\xa1", b"kilo",
                b"99999999999999999999"]
# the attributes that a word beginning with `no` switches off, and the others
ATTRIBUTES = [word for word in fuzz.RISING if b"no" + word in fuzz.RISING]
OTHERS = [word for word in fuzz.RISING if word not in ATTRIBUTES and not word.startswith(b"no")]
COLOR_WORDS = [*fuzz.COLORS, *(b"bright" + color for color in fuzz.COLORS), b"normal", b"default", b"-1", *OTHERS,
               *(no + word for no in (b"", b"no", b"no-") for word in ATTRIBUTES)]
COLOR_TEXTS = [b"#0a1B2c", b"#f1B", b"#12", b"-0", b"-001", b"00255", b"+7", b"+007", b"-1 red", b"256", b"15",
               b"red blue green", b"RESET red", b"no-reset", b"bold bold nobold no-bold ul", b"normal normal", b"Bold"]
PATH_TEXTS = [PREFIX, b"%(prefix)", b"%(prefix)//x", b"%(prefix)/~/x", b"~", b"~no-such-user/x", b"~/..",
              b"~\xff/x", b"/x"]
# paths to files that are there, whose mark is cut off by a Git that knows it
MARKED = [Question("path", MARK + text, home) for text, home in ((b"~/..", b"/"), (b"~//", b"/"), (b"~/", b""))]
HOMES = (b"/home/u", b"/home/u", b"/home/u", b"", b"/h/", b"/", b"rel", None)
PATH_PIECES = [b"~", b"~/", b"/", b"//", b"x", b"x/y", b"..", PREFIX, b"%(prefix)", b"%(PREFIX)/", MARK, b":(Optional)",
               b" ", b"\n", b"\r", b"\"", b"\\", b"#;", b"=", "ü".encode(), b"\xff", b"\xc3", b"\xe2\x82"]
LETTERS = {"number": [b"0", b"1", b"8", b"x", b"b", b"k", b"+", b"-", b" "],
           "color": [b"0", b"7", b"-", b"+", b"#", b"f", b"\v", b" "],
           "path": [b"~", b"/", b"%", b":", b".", b"x"]}


def is_carried(text):
    """Whether the file can carry the text, which it cannot if the text has a NUL."""
    return b"\0" not in text


def of_case(draw, text):
    """The text with each letter in a random case."""
    return bytes(draw.choice((byte, ord(chr(byte).swapcase()))) if byte < 128 else byte for byte in text)


def short(letters):
    """All texts of these letters, beginning with the shortest."""
    return (b"".join(chosen) for length in itertools.count() for chosen in itertools.product(letters, repeat=length))


def number(sign, form, magnitude, suffix):
    return (sign + form + format(magnitude, FORMS[form]) + suffix).encode()


def edge(draw):
    """A number at an edge of the range of some number of bits, in any base and with any suffix."""
    return number(draw.choice(SIGNS), draw.choice(list(FORMS)), draw.choice(EDGES), draw.choice(SUFFIXES))


def near(word):
    """The word in capitals, and with each of its bytes missing, doubled, or replaced."""
    yield word.upper()
    for at in range(len(word)):
        yield word[:at] + word[at + 1:]
        yield word[:at] + word[at:at + 1] + word[at:]
        for byte in (word[at:at + 1].swapcase(), b"-", b"_", b" ", b"e"):
            yield word[:at] + byte + word[at + 1:]


def systematic():
    """All words and texts near to them, two words with each byte and each white space between them, the numbers at all
    edges in all forms, and small numbers with zeros."""
    words = NUMBER_WORDS + NUMBER_TEXTS + COLOR_WORDS + COLOR_TEXTS + [suffix.encode() for suffix in SUFFIXES]
    found = words + [text for word in words for text in near(word)]
    between = [bytes([byte]) for byte in range(256) if byte != ord("\n")] + fuzz.SPACES + fuzz.NEAR_MISSES
    found += [b"red" + space + b"bold" for space in between]
    found += map(lambda parts: number(*parts), itertools.product(SIGNS, FORMS, EDGES, SUFFIXES))
    found += [f"{sign}{zeros}{small}".encode() for sign in SIGNS for zeros in ("", "0", "000") for small in range(300)]
    return list(dict.fromkeys(found))


def around(draw, words):
    """A word in another case, with a prefix, or with white space before, after or in it."""
    text = of_case(draw, draw.choice(words))
    other = draw.choice(ASCII_SPACES + fuzz.SPACES + fuzz.NEAR_MISSES + [b"no", b"no-", b"bright", b"x", text[:1]])
    at = draw.choice((0, 0, len(text), draw.randrange(len(text) + 1)))
    return text[:at] + other * draw.choice((0, 1, 1, 2)) + text[at:]


def number_text(draw):
    way = draw.randrange(3)
    if way == 0:
        return edge(draw)
    if way == 1:
        return around(draw, NUMBER_WORDS + NUMBER_TEXTS[1:])
    return fuzz.mutated(draw, fuzz.FIRST_TEXTS + NUMBER_WORDS + NUMBER_TEXTS)


def color_word(draw):
    way = draw.randrange(4)
    if way == 0:
        return b"#" + "".join(draw.choices("0123456789abcdefABCDEFg", k=draw.choice((2, 3, 3, 6, 6)))).encode()
    if way == 1:
        small = draw.choice((0, 1, 7, 8, 15, 16, 255, 256))
        return f"{draw.choice(SIGNS)}{'0' * draw.choice((0, 0, 1, 2))}{small}".encode()
    return around(draw, COLOR_WORDS + COLOR_TEXTS)


def color_text(draw):
    if draw.randrange(3) == 0:
        return fuzz.mutated(draw, fuzz.FIRST_TEXTS + COLOR_WORDS + COLOR_TEXTS)
    spaces = draw.choice((ASCII_SPACES[:1], ASCII_SPACES, fuzz.SPACES))
    return draw.choice(spaces).join(color_word(draw) for _ in range(draw.choice((1, 1, 2, 2, 3, 4))))


def path_text(draw):
    return b"".join(draw.choice(PATH_PIECES) for _ in range(draw.choice((1, 2, 2, 3, 4, 6))))


MADE = {"number": number_text, "color": color_text, "path": path_text}


def texts(draw, kind, first, count):
    """This many different texts, or the first ones if these are more: the first ones, then a third of short texts, and
    then random ones."""
    found = dict.fromkeys(first)
    for text in itertools.islice(short(LETTERS[kind]), count // 3):
        found[text] = None
    while len(found) < count:
        text = MADE[kind](draw)
        if is_carried(text) and (kind == "path" or b"\n" not in text):
            found[text] = None
    return list(found)[:max(count, len(first))]


def of_users(names):
    """Paths of these users."""
    return [b"~" + name + rest for name in names for rest in (b"", b"/", b"/x", b"//x", b"/\xff")]


def questions(draw, count, users):
    """This many questions of each kind, among them those in which the classes are shown."""
    shown = [question for one in CLASSES for question in one.shown]
    known = [question.text for question in shown if question.kind in NUMBERS]
    numbers = texts(draw, "number", known + NUMBER_WORDS + NUMBER_TEXTS, count)
    asked = [Question(kind, text) for kind in NUMBERS for text in numbers]
    known = [question.text for question in shown if question.kind == "color"]
    asked += [Question("color", text) for text in texts(draw, "color", known + COLOR_WORDS + COLOR_TEXTS, count)]
    known = [question for question in shown if question.kind == "path"] + MARKED
    paths = texts(draw, "path", PATH_TEXTS + of_users(users), count)
    others = [Question("path", text, draw.choice(HOMES)) for text in paths]
    return asked + list(dict.fromkeys(known + others))[:max(count, len(known))]
