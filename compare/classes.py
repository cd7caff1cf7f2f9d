"""The classes of differences between Git and this library. docs/DIFFERENCES.md has a row for each, with its reason.

Run as a program, it compares the page: each class has one row, with its versions and a text in which it is shown. Its
last line is 'N passed, M failed'.

A class is expected in the versions that it names, and has to be seen there. A difference belongs to the first class
that is expected and whose rule holds for the question and its two answers.
"""
import collections
import pathlib
import re
import sys

from calls import MARK, PREFIX, is_utf8

# what is asked: the kind of the question, its text, and for a path the home directory, if there is one
Question = collections.namedtuple("Question", "kind text home", defaults=[None])
# a question and its answers, each None if the text is refused. user: the directory of the user that the text names,
# if there is one. install: the directory where Git is installed
Case = collections.namedtuple("Case", "question user install ours git")
# when: the versions in which the class is expected. shown: questions in which it is seen then.
# plain: if a rule is wide, the text that is asked too, and to which `reader` has to give the same answer
Class = collections.namedtuple("Class", "name kinds when rule shown plain reader", defaults=[None, None])
# the program whose versions are meant, the first version, and the first one after them; None: without an end
When = collections.namedtuple("When", "of since before", defaults=["Git", None, None])

# Git's answer if the value counts as not set
NOT_SET = "not set"
NUMBERS = ("int", "bool", "bool-or-int")
SMALL_NUMBERS = ("bool", "bool-or-int")
HOME = b"/home/u"
SPACE = re.compile(rb"[\t\n\v\f\r ]+")
NUMBER = re.compile(rb"([+-]?)(?:0[xX]([0-9a-fA-F]+)|0[bB]([01]+)|(0[0-7]*)|([1-9][0-9]*))([kKmMgG]?)")
BINARY = re.compile(rb"[+-]?0[bB]")
# white space of Unicode at which Git does not cut a color text
FOREIGN = re.compile(rb"[\v\f]|\xc2[\x85\xa0]|\xe1\x9a\x80|\xe2\x80[\x80-\x8a\xa8\xa9\xaf]|\xe2\x81\x9f|\xe3\x80\x80")
WORD = rb"(?<![^\t\n\v\f\r ])%s(?![^\t\n\v\f\r ])"
THREE_DIGITS = re.compile(WORD % rb"#([0-9a-fA-F])([0-9a-fA-F])([0-9a-fA-F])")
MINUS_ZERO = re.compile(WORD % rb"-0+(1?)")


# numbers

def amount(text):
    """The number that an integer text means, which may have any size, or None if it is no integer text."""
    match = NUMBER.fullmatch(text)
    if match is None:
        return None
    sign, *magnitudes, suffix = match.groups()
    number = next(int(digits, base) for digits, base in zip(magnitudes, (16, 2, 8, 10)) if digits)
    number *= 1024 ** b" kmg".index(suffix.lower() or b" ")
    return -number if sign == b"-" else number


def number_shown(kind, number):
    return str(number != 0).lower().encode() if kind == "bool" else b"%d" % number


def is_number_of_ours_alone(case):
    """The library reads the text as its number, and Git refuses it."""
    number = amount(case.question.text)
    return number is not None and case.git is None and case.ours == number_shown(case.question.kind, number)


def beyond(case):
    """The least number above the range of the question's kind."""
    return 2 ** 63 if case.question.kind == "int" else 2 ** 31


def white_space_before_a_number(case):
    space = SPACE.match(case.question.text)
    number = amount(case.question.text[space.end():]) if space else None
    return number is not None and case.ours is None and case.git == number_shown(case.question.kind, number)


def least_number(case):
    return is_number_of_ours_alone(case) and amount(case.question.text) == -beyond(case)


def number_out_of_range(case):
    return is_number_of_ours_alone(case) and not -beyond(case) <= amount(case.question.text) < beyond(case)


def binary_digits(case):
    return is_number_of_ours_alone(case) and BINARY.match(case.question.text) is not None


def suffix_alone(case):
    is_suffix = re.fullmatch(rb"[kKmMgG]", case.question.text) is not None
    return is_suffix and case.ours is None and case.git == number_shown(case.question.kind, 0)


# colors

def is_color_of_ours_alone(case):
    return case.ours is not None and case.git is None


def unknown_white_space(case):
    return is_color_of_ours_alone(case) and FOREIGN.search(case.question.text) is not None


def three_digits(case):
    return is_color_of_ours_alone(case) and THREE_DIGITS.search(case.question.text) is not None


def minus_zero(case):
    return case.ours is None and case.git is not None and MINUS_ZERO.search(case.question.text) is not None


def word_default(case):
    return is_color_of_ours_alone(case) and b"default" in case.question.text.lower().split()


def word_reset(case):
    return is_color_of_ours_alone(case) and b"reset" in case.question.text.lower().split()


def plain_color(text):
    """The text without what the two read differently. A reader that accepts the text has to read this one the same."""
    text = FOREIGN.sub(b" ", text)
    text = THREE_DIGITS.sub(rb"#\1\1\2\2\3\3", text)
    return MINUS_ZERO.sub(lambda match: b"-1" if match[1] else b"0", text)


# paths: these rules are about the path after a mark, and a Git that does not know the mark keeps it

def directory_and_rest(case):
    """The directory that a `~` or a `~user` means, and what follows its slash, or None without one of the two."""
    name, slash, rest = case.question.text.removeprefix(MARK).partition(b"/")
    directory = case.question.home if name == b"~" else case.user
    return (directory, rest) if slash and name.startswith(b"~") and directory is not None else None


def is_expanded_by_git(case):
    """Git put the rest after a directory and a slash; only after the prefix it keeps an absolute rest unchanged."""
    text = case.question.text.removeprefix(MARK)
    if text.startswith(PREFIX):
        rest = text[len(PREFIX):]
        return case.git == (rest if rest.startswith(b"/") else case.install + b"/" + rest)
    parts = directory_and_rest(case)
    return case.git == (text if parts is None else b"/".join(parts))


def empty_path(case):
    return case.question.text == b"" and case.ours is None and case.git == b""


def empty_home(case):
    directory, rest = directory_and_rest(case) or (None, None)
    return directory == b"" and rest[:1] != b"/" and case.ours == rest and is_expanded_by_git(case)


def home_with_slash(case):
    directory, rest = directory_and_rest(case) or (b"", None)
    is_joined = directory[-1:] == b"/" and rest[:1] != b"/" and case.ours == directory + rest
    return is_joined and is_expanded_by_git(case)


def second_slash(case):
    _, rest = directory_and_rest(case) or (None, b"")
    return rest[:1] == b"/" and case.ours == rest and is_expanded_by_git(case)


def no_utf8(case):
    return case.ours is None and not is_utf8(case.question.text) and is_expanded_by_git(case)


def is_marked(case):
    """The text has the mark; the library takes a second mark for a part of the path."""
    text = case.question.text
    rest = text.removeprefix(MARK)
    is_kept = case.ours == (rest if is_utf8(rest) else None)
    return text.startswith(MARK) and (is_kept or not rest.startswith(MARK))


def mark_is_kept(case):
    return is_marked(case) and case.git == case.question.text


def file_is_missing(case):
    return is_marked(case) and case.git == NOT_SET


def without_mark(text):
    """The path after the mark, or the text itself if that path begins with a mark again."""
    rest = text.removeprefix(MARK)
    return text if rest.startswith(MARK) else rest


def prefix_is_kept(case):
    return case.question.text.startswith(PREFIX) and case.git == case.question.text


def numbers(*texts, kinds=NUMBERS):
    return [Question(kind, text) for kind in kinds for text in texts]


def colors(*texts):
    return [Question("color", text) for text in texts]


def paths(*texts, home=HOME):
    return [Question("path", text, home) for text in texts]


CLASSES = [
    Class("white space before a number", NUMBERS, When(), white_space_before_a_number,
          numbers(b" 1", b"\t-0x10k", b"\v7", b"\f\r0")),
    Class("the least number", NUMBERS, When(before=(2, 50)), least_number,
          numbers(b"-9223372036854775808", b"-8589934592g", kinds=["int"])
          + numbers(b"-2147483648", b"-2g", kinds=SMALL_NUMBERS)),
    Class("a number beyond 32 bits", SMALL_NUMBERS, When(), number_out_of_range,
          numbers(b"2147483648", b"-2147483649", b"2g", b"-9223372036854775808", kinds=SMALL_NUMBERS)),
    Class("binary digits", NUMBERS, When("glibc", before=(2, 38)), binary_digits, numbers(b"0b1", b"-0B101k", b"+0b0")),
    Class("a suffix alone", NUMBERS, When(before=(2, 39)), suffix_alone, numbers(b"k", b"G")),
    Class("white space that Git does not know", ["color"], When(), unknown_white_space,
          colors(b"red\vblue", b"\xc2\xa0", b"bold\xe3\x80\x80red", b"#fff\f"), plain_color, "ours"),
    Class("three hexadecimal digits", ["color"], When(before=(2, 46)), three_digits,
          colors(b"#fff", b"bold #F1b red"), plain_color, "ours"),
    Class("a minus sign and zeros", ["color"], When(), minus_zero, colors(b"-0", b"-01", b"red -00 bold"),
          plain_color, "git"),
    Class("the word default", ["color"], When(before=(2, 35)), word_default, colors(b"default", b"red DEFAULT")),
    Class("reset among other words", ["color"], When(before=(2, 35)), word_reset, colors(b"reset red", b"bold Reset")),
    Class("an empty path", ["path"], When(), empty_path, paths(b"")),
    Class("an empty home", ["path"], When(), empty_home, paths(b"~/x", b"~/", home=b"")),
    Class("a home that ends in a slash", ["path"], When(), home_with_slash, paths(b"~/x", b"~/", home=b"/h/")),
    Class("a second slash", ["path"], When(), second_slash, paths(b"~//x", b"~//")),
    Class("a path that is no UTF-8", ["path"], When(), no_utf8, paths(b"\xff", b"~/\xff", b"x/\xe2\x82")),
    Class("the mark of an optional path", ["path"], When(before=(2, 52)), mark_is_kept,
          paths(MARK + b"/x", MARK + b"~/x", MARK), without_mark, "ours"),
    Class("an optional file that is missing", ["path"], When(since=(2, 52)), file_is_missing,
          paths(MARK + b"/no/such/file"), without_mark, "ours"),
    Class("the prefix", ["path"], When(before=(2, 34)), prefix_is_kept, paths(b"%(prefix)/x")),
]
# the classes of whole files, by whose names config_file.py has the rules
NUL = "a NUL outside a comment"
BLANK = "a blank inside a value"
OF_FILES = {NUL: When(), BLANK: When(before=(2, 45))}
# the classes of what is read in a folder, by whose names here.py has the rules
NO_URL = "a remote whose URL is a key alone"
PARTIAL = "a partial clone without a name"
SAFE_PATH = "a safe folder by another path"
EXTENSION = "an extension of a later Git"
OF_COMMAND = "a command's condition on a relative folder"
COMMAND_KEY = "blanks around a command's key"
REFUSED_DIR = "the branch of a GIT_DIR that is not used"
BARE = "a git directory of a work tree as a bare repository"
NOWHERE = "a file .git that leads nowhere"
NO_PATH = "a GIT_DIR that is no path"
NO_TREE = "a work tree that is missing"
FIRST = "a first reading"
NO_WORD = "a word about bare repositories that is missing"
STORED = "references in a place of their own"
NO_STORE = "references without a repository"
OF_PLACES = {NO_URL: When(), PARTIAL: When(before=(2, 44)), SAFE_PATH: When(before=(2, 46)),
             EXTENSION: When(before=(2, 48)), OF_COMMAND: When(since=(2, 55)), COMMAND_KEY: When(before=(2, 55)),
             REFUSED_DIR: When(before=(2, 47)), BARE: When(before=(2, 45)), NOWHERE: When(), NO_PATH: When(), NO_TREE: When(),
             FIRST: When(), NO_WORD: When(), STORED: When(before=(2, 54)), NO_STORE: When(since=(2, 54))}


def dotted(version):
    return ".".join(map(str, version))


def versions(when):
    """The versions, as the page writes them."""
    words = [] if when.of == "Git" else [when.of]
    words += [f"since {dotted(when.since)}"] if when.since else []
    words += [f"before {dotted(when.before)}"] if when.before else []
    return " ".join(words) or "each"


def is_expected(when, running):
    """Whether the versions that run are among these; `running` has the version of each thing."""
    version = running[when.of]
    return (when.since is None or version >= when.since) and (when.before is None or version < when.before)


def of(case, running):
    """The class to which a difference belongs in the versions that run, or None."""
    return next((one for one in CLASSES if is_expected(one.when, running)
                 and case.question.kind in one.kinds and one.rule(case)), None)


# the page

PAGE = pathlib.Path(__file__).resolve().parent.parent / "docs/DIFFERENCES.md"
# the Gits that were run, as the page names them, and the versions of each
RUN = {"2.39.5": {"Git": (2, 39), "glibc": (2, 36)}, "2.47.3": {"Git": (2, 47), "glibc": (2, 41)},
       "2.55.0": {"Git": (2, 55), "glibc": (2, 43)}}


def tables(page):
    """The rows of each table; the first row is its head."""
    for lines in re.findall(r"(?:^\|.*\n)+", page, re.MULTILINE):
        rows = [line.strip("|").split("|") for line in lines.splitlines() if not line.startswith("|---")]
        yield [[cell.strip() for cell in row] for row in rows]


def written(text):
    """The text as a row writes it, with the escapes of C."""
    return "`" + text.decode(errors="backslashreplace").replace("\v", "\\v") + "`"


def faults_of_class(rows, when, texts):
    """What is wrong with the row of a class, if anything: it has to show one of the texts, if there are texts."""
    if len(rows) != 1:
        return [f"{len(rows)} rows"]
    _, git, _, said = rows[0]
    faults = [] if said == versions(when) else [f"versions {said!r}, not {versions(when)!r}"]
    return faults + ["none of the texts in which it is shown"] * bool(texts and not any(text in git for text in texts))


def main():
    page = PAGE.read_text(encoding="utf-8")
    rows = [row for table in tables(page) if table[0][0] == "Class" for row in table[1:]]
    known = {one.name: (one.when, [written(it.text) for it in one.shown if it.text]) for one in CLASSES}
    known |= {name: (when, []) for name, when in (OF_FILES | OF_PLACES).items()}
    faults = [f"{name}: {fault}" for name, (when, texts) in known.items()
              for fault in faults_of_class([row for row in rows if row[0] == name], when, texts)]
    faults += [f"{row[0]}: no class has this name" for row in rows if row[0] not in known]
    faults += [f"Git {name} with its C library is not named" for name, running in RUN.items()
               if f"{name} with glibc {dotted(running['glibc'])}" not in page]
    for fault in faults:
        print(fault)
    print(f"{len(rows) + len(known) + len(RUN) - len(faults)} passed, {len(faults)} failed")
    return 1 if faults else 0


if __name__ == "__main__":
    sys.exit(main())
