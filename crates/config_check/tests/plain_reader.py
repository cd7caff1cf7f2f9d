"""A second, plain reader of the files of config_check, by the rules of docs/CHECKING.md, docs/GRAMMAR.md and `specs/`.

`findings` returns what the program has to write, and its counts. Nothing here is meant to be fast.
"""
import base64
import collections
import contextlib
import functools
import hashlib
import itertools
import os
import pathlib
import pwd
import re
import shlex
import sys

sys.path.insert(0, str(pathlib.Path(__file__).resolve().parents[3] / "docs"))
import grammar  # noqa: E402

BOOLEAN_FAULT = b"Booleans need to be 'no', 'off', 'false', '' or 'yes', 'on', 'true' or any number"
INTEGER_FAULT = (b"Integers needs to be positive or negative numbers"
                 b" which may have a suffix like 1k, 42, or 50G")
OVERFLOW_FAULT = b"integer suffix multiplication overflows `i64`"
COLOR_FAULT = b"Colors are specific color values and their attributes, like 'brightred', or 'blue'"

BAD_LINE = b"Git cannot read this line, and reads nothing of the file"
NUL = b"a NUL byte outside a comment"

# a key, cut at its first and at its last dot; if it has only one dot, there is no middle
Key = collections.namedtuple("Key", "first middle last")
Row = collections.namedtuple("Row", "key since until instead old wanted must alone warns kind words text")
# the Git by whose rows values are judged if none is named
NEWEST = (2, 55)

# a number may have any count of digits
sys.set_int_max_str_digits(0)


class Refused(Exception):
    """A text is wrong; the exception holds the reason."""


class BadRow(Exception):
    """A line is not a row; the exception holds the number of the line."""


# numbers and booleans

BITS_64 = range(-2 ** 63, 2 ** 63)
BITS_32 = range(-2 ** 31, 2 ** 31)
INTEGER = re.compile(rb"([+-]?)(0[xX][0-9a-fA-F]+|0[bB][01]+|0[0-7]*|[1-9][0-9]*)([kKmMgG]?)")
BASES = {b"0x": 16, b"0b": 2}
FACTORS = {b"": 1, b"k": 2 ** 10, b"m": 2 ** 20, b"g": 2 ** 30}
TRUE = [b"yes", b"on", b"true"]
FALSE = [b"no", b"off", b"false", b""]


def integer(text):
    """The number of an integer text, and its suffix in lower case; None for any other text."""
    match = INTEGER.fullmatch(text)
    if match is None:
        return None
    sign, magnitude, suffix = match.groups()
    base = BASES.get(magnitude[:2].lower(), 8 if magnitude.startswith(b"0") else 10)
    number = int(sign + magnitude, base)
    return (number, suffix.lower()) if number in BITS_64 else None


def product(number, suffix):
    return number * FACTORS[suffix]


def boolean(text):
    """What a boolean text means; None for any other text."""
    if text.lower() in TRUE:
        return True
    if text.lower() in FALSE:
        return False
    found = integer(text)
    return product(*found) != 0 if found is not None and product(*found) in BITS_64 else None


def bool_shown(truth):
    return b"true" if truth else b"false"


def integer_shown(number, suffix):
    return b"%d" % number + suffix


# colors

COLORS = [b"black", b"red", b"green", b"yellow", b"blue", b"magenta", b"cyan", b"white"]
COLOR_WORDS = {b"normal", b"default", *COLORS, *(b"bright" + color for color in COLORS)}
PALETTE = re.compile(rb"\+?([0-9]+)")
SIX_DIGITS = re.compile(rb"#[0-9a-fA-F]{6}")
THREE_DIGITS = re.compile(rb"#([0-9a-fA-F])([0-9a-fA-F])([0-9a-fA-F])")
ATTRIBUTES = grammar.attribute_words()
SPACES = [*range(0x09, 0x0E), 0x20, 0x85, 0xA0, 0x1680, *range(0x2000, 0x200B), 0x2028, 0x2029, 0x202F,
          0x205F, 0x3000]
SPACE = re.compile(b"|".join(chr(code).encode() for code in SPACES))


def name(word):
    """How the name of a color is displayed; None for any other word."""
    if word.lower() in COLOR_WORDS:
        return word.lower()
    if word == b"-1":
        return b"normal"
    if PALETTE.fullmatch(word):
        number = int(word)
        return b"%d" % number if number <= 255 else None
    if SIX_DIGITS.fullmatch(word):
        return word.lower()
    return THREE_DIGITS.sub(rb"#\1\1\2\2\3\3", word).lower() if THREE_DIGITS.fullmatch(word) else None


def attribute(word):
    """How an attribute is displayed; None for any other word."""
    if word.lower() == b"reset":
        return b"reset"
    plain = b"no" + word[len(b"no-"):] if word.startswith(b"no-") else word
    return plain if plain in ATTRIBUTES else None


def color(text):
    """How a color is displayed; None for a text that is not a color."""
    names, attributes = [], set()
    for word in SPACE.split(text):
        if name(word) is not None:
            names.append(name(word))
        elif attribute(word) is not None:
            attributes.add(attribute(word))
        elif word:
            return None
    known = [one for one in ATTRIBUTES if one in attributes]
    return b" ".join(names + known) if len(names) <= 2 else None


# the kinds: each takes the words of the row and a text, and returns the canonical text or raises Refused

def of_bool(_, text):
    found = integer(text)
    if found is not None and product(*found) in BITS_64:
        in_range(found, *bounds([]))
    if boolean(text) is None:
        raise Refused(BOOLEAN_FAULT + boolean_hint(text))
    return bool_shown(boolean(text))


def in_range(found, low, high):
    """The canonical text of an integer whose product is at least `low` and at most `high`."""
    if not low <= product(*found) <= high:
        raise Refused(b"out of range: not from %d to %d" % (low, high))
    return integer_shown(*found)


def bounds(words):
    """The bounds of `int`: those of 32 bits without words, or two integer texts; None for any other words."""
    if not words:
        return BITS_32[0], BITS_32[-1]
    found = [integer(word) for word in words]
    is_right = len(found) == 2 and all(one is not None and product(*one) in BITS_64 for one in found)
    numbers = tuple(product(*one) for one in found) if is_right else None
    return numbers if numbers and numbers[0] <= numbers[1] else None


def of_int(words, text):
    found = integer(text)
    if found is None:
        raise Refused(INTEGER_FAULT + number_hint(text))
    if product(*found) not in BITS_64:
        raise Refused(OVERFLOW_FAULT)
    return in_range(found, *bounds(words))


def of_text(_, text):
    """A text has no other spelling."""
    return text


def of_bool_or_int(words, text):
    found = integer(text)
    if found is None or product(*found) not in BITS_64:
        return of_bool(words, text)
    return in_range(found, *bounds([]))


def of_color(_, text):
    if color(text) is None:
        raise Refused(COLOR_FAULT + color_hint(text))
    return color(text)


# paths

NO_HOME = b"no such user or no home directory"


def has_home(name):
    """Whether the user of this name, or the current one if it is empty, has a home directory."""
    if not name:
        return "HOME" in os.environ
    try:
        return bool(pwd.getpwnam(os.fsdecode(name)))
    except KeyError:
        return False


def of_path(_, text):
    """A path has no other spelling."""
    front = text.removeprefix(b":(optional)").partition(b"/")[0]
    if front.startswith(b"~") and not has_home(front[1:]):
        raise Refused(NO_HOME)
    return text


# what to write in place of a value that is refused

BLANKS = b" \t\n\r\f"
NEAR_BOOLEANS = [b"true", b"false", b"yes", b"off"]
FOR_TRUE, FOR_FALSE = [b"enable", b"enabled", b"y", b"t"], [b"disable", b"disabled", b"n", b"f"]
COLORS_MEANT = [b"normal", b"default", *COLORS, *(b"bright" + color for color in COLORS), *ATTRIBUTES]


def asked(meant):
    return b"; did you mean %s?" % shown(meant)


def nearest_text(words, text):
    """The first of the words of three bytes or more that are nearest to a text, or None."""
    found = nearest([few_edits(word, text) if len(word) > 2 else None for word in words])
    return None if found is None else words[found]


def boolean_hint(text):
    text = text.strip(BLANKS)
    if text.lower() in FOR_TRUE + FOR_FALSE:
        return asked(b"true" if text.lower() in FOR_TRUE else b"false")
    word = nearest_text(NEAR_BOOLEANS, text)
    return b"" if word is None else asked(word)


def number_hint(text):
    """The number without blanks, `_` and `,`, and without the bytes of a unit: 500MB is 500m. Or the digits before a unit."""
    plain = re.sub(rb"([kmg])i?b$", rb"\1", re.sub(rb"[ \t_,]", b"", text).lower())
    found = integer(plain) if b"\n" not in plain else None
    if plain == text or found is None or product(*found) not in BITS_64:
        before = re.fullmatch(rb"([0-9]+)[ \t\n\r\f]*(s|secs?|seconds?|ms|b|bytes?|commits?|%)[ \t\n\r\f]*", text, re.IGNORECASE)
        return asked(before[1]) if before and integer(before[1]) is not None and product(*integer(before[1])) in BITS_64 else b""
    return asked(plain)


def joined_hint(words, at):
    """The color that is meant if a wrong word and the next one are one word, as in `light green`."""
    words = [word for place, word in enumerate(words) if word or place == at]
    at = next(place for place, word in enumerate(words) if color(word) is None)
    word = nearest_text(COLORS_MEANT, b"".join(words[at:at + 2])) if at + 1 < len(words) else None
    whole = b" ".join([*words[:at], word or b"", *words[at + 2:]])
    return b"" if word is None or color(whole) is None else asked(whole)


def color_hint(text):
    """The word that is wrong, if there are several, and the color that is meant."""
    words = re.split(rb"[ \t\n\r\f]", text)
    wrong = next((word for word in words if color(word) is None), None)
    if wrong is None:
        return b""
    named = b"" if wrong == text.strip(BLANKS) else b"; '%s' is none" % cut(wrong)[0]
    parts = re.sub(rb"[-_,+/]", b" ", text).lower().strip(BLANKS)
    if color(parts) is not None:
        return named + asked(b" ".join(part for part in re.split(rb"[ \t\n\r\f]", parts) if part))
    word = nearest_text(COLORS_MEANT, wrong)
    at = words.index(wrong)
    if word is None:
        return named + joined_hint(words, at)
    whole = b" ".join(part for part in words[:at] + [word] + words[at + 1:] if part)
    return named + asked(word if color(whole) is None else whole)


# words of a row, which may end in `*`

SEPARATORS = re.compile(rb"[, \t\n\r]")
NO_LETTERS = re.compile(rb"[^a-zA-Z]+")
SORT_NAME = re.compile(rb"-?(?:version:)?(?:v:)?\*?(.*)", re.DOTALL)


def is_same(word, text, any_case):
    return word.lower() == text.lower() if any_case else word == text


def matching(words, text, any_case):
    """The first of the words that matches the text; None if no word matches it."""
    for word in words:
        front = word.removesuffix(b"*")
        if is_same(front, text[:len(front)] if word.endswith(b"*") else text, any_case):
            return word
    return None


def is_int(text):
    found = integer(text)
    return found is not None and product(*found) in BITS_32


def is_bool(text):
    return boolean(text) is not None and (integer(text) is None or is_int(text))


def spelled_by_form(form, words, text, any_case):
    """The canonical text of a text that no word of the row matches; None if the text is wrong."""
    def has(piece):
        return matching(words, piece, any_case) is not None

    if form == b"bool-or-word":
        return bool_shown(boolean(text)) if is_bool(text) else None
    if form == b"int-or-word":
        return integer_shown(*integer(text)) if is_int(text) else None
    name = SORT_NAME.fullmatch(text)[1]
    is_right = {b"word": lambda: False,
                b"words": lambda: all(not piece or has(piece) for piece in SEPARATORS.split(text)),
                b"date": lambda: re.search(rb"[0-9]", text) or any(map(has, NO_LETTERS.split(text))),
                b"sort-key": lambda: any(name == word or name.startswith(word + b":") for word in words)}
    return text if is_right[form]() else None


FORMS = {b"word": b"not one of: ", b"bool-or-word": b"not a boolean, nor one of: ",
         b"int-or-word": b"not an integer, nor one of: ", b"words": b"not a list of: ",
         b"date": b"not a date: it has no digit, nor one of: ", b"sort-key": b"not a key to sort by: "}


def meant(words, text):
    """The suggestion of the word that is nearest to a text, if a word that may be suggested is near."""
    can_be = [len(word) > 2 and not word.endswith(b"*") for word in words]
    found = nearest([few_edits(word, text) if is_one else None for word, is_one in zip(words, can_be)])
    return b"" if found is None else b"; did you mean %s?" % shown(words[found])


# how many words of a list are shown
MOST_WORDS = 10


def sort_key_hint(words, text):
    """The key to sort by with the nearest name in it."""
    rest = SORT_NAME.fullmatch(text)[1]
    name, *after = rest.split(b":", 1)
    word = nearest_text([word for word in words if not word.endswith(b"*")], name)
    return b"" if word is None else asked(text.removesuffix(rest) + b":".join([word, *after]))


def list_hint(words, any_case, text):
    """The first piece of a list that is none of the words, if there are several pieces, and the list with the nearest word in it."""
    wrong = next(piece for piece in re.finditer(rb"[^, \t\n\r]+", text) if matching(words, piece[0], any_case) is None)
    named = b"" if wrong[0] == text else b"; '%s' is none" % cut(wrong[0])[0]
    word = nearest_text([word for word in words if not word.endswith(b"*")], wrong[0])
    name, equals, after = wrong[0].partition(b"=")
    if word is None and equals:
        front = nearest_text([word.removesuffix(b"=*") for word in words if word.endswith(b"=*")], name)
        word = None if front is None else front + equals + after
    return named if word is None else named + asked(text[:wrong.start()] + word + text[wrong.end():])


def hint(form, words, any_case, text):
    """What is suggested if no word is near: a boolean or number if the form takes one, or a value with another part."""
    return {b"bool-or-word": lambda: boolean_hint(text), b"int-or-word": lambda: number_hint(text),
            b"sort-key": lambda: sort_key_hint(words, text),
            b"words": lambda: list_hint(words, any_case, text)}.get(form, lambda: b"")()


def of_words(kind, words, text):
    """The canonical text; a word that differs only in case is spelled as in the row."""
    form, any_case = kind.removesuffix(ANY_CASE), kind.endswith(ANY_CASE)
    word = matching(words, text, any_case)
    if word is not None:
        return word if word.lower() == text.lower() else text
    spelling = spelled_by_form(form, words, text, any_case)
    if spelling is None:
        more = b" and %d more" % (len(words) - MOST_WORDS) if len(words) > MOST_WORDS else b""
        raise Refused(FORMS[form] + b", ".join(map(shown, words[:MOST_WORDS])) + more +
                      ((form != b"sort-key" and meant(words, text)) or hint(form, words, any_case, text)))
    return spelling


# texts that Git reads by rules of their own

def is_ref(text):
    """Whether a text is the name of a ref, or a pattern with one `*`, by git-check-ref-format(1)."""
    return (text != b"@" and re.search(rb"[\0- \x7f~^:?[\\]|\.\.|@\{|\.\Z", text) is None and text.count(b"*") < 2
            and all(part and not part.startswith(b".") and not part.endswith(b".lock") for part in text.split(b"/")))


def is_refspec(text, is_fetch):
    """Whether Git takes a refspec, by parse_refspec of its refspec.c as git-fetch(1) and git-push(1) tell it."""
    if text.startswith(b"^"):
        return text[1:] == b"@" or is_ref(text[1:])
    source, colon, target = text.removeprefix(b"+").rpartition(b":")
    source, target = (source, target) if colon else (target, None)
    is_source = source == b"@" or is_ref(source)
    if target is None:
        return (not source or is_source and b"*" not in source) if is_fetch else is_source
    if source.count(b"*") != target.count(b"*"):
        return False
    if is_fetch:
        return (not source or is_source) and (not target or is_ref(target))
    return source == target == b"" or is_ref(target) and (b"*" not in source or is_source)


def is_command(text):
    """Whether an alias is for the shell, or has a word and no open quote."""
    with contextlib.suppress(ValueError):
        return text.startswith(b"!") or bool(shlex.split(text.decode("latin-1")) or text.strip(b" \t\n\v\f\r"))
    return False


def colors_by_age_hint(text):
    """The first field that should be a color, if there are several fields, and the value with the nearest color in it."""
    fields = text.split(b",")
    at = next((place for place in range(0, len(fields), 2) if color(fields[place]) is None), None)
    if at is None:
        return b""
    named = b"; '%s' is none" % cut(fields[at])[0] if len(fields) > 1 else b""
    word = nearest_text(COLORS_MEANT, fields[at])
    return named if word is None else named + asked(b",".join([*fields[:at], word, *fields[at + 1:]]))


def are_colors_by_age(text):
    """Whether every other field is a color, from the first to the last."""
    fields = text.split(b",")
    return len(fields) % 2 == 1 and all(color(field) is not None for field in fields[::2])


SHAPES = {b"fetch-refspec": (lambda text: is_refspec(text, True), b"not a refspec"),
          b"push-refspec": (lambda text: is_refspec(text, False), b"not a refspec"),
          b"branch": (lambda text: b"*" not in text and is_ref(b"refs/heads/" + text), b"not the name of a branch"),
          b"command": (is_command, b"not a command: it is empty, or a quote or a backslash is open at its end"),
          b"no-option": (lambda text: not text.startswith(b"-"), b"begins with -, as an option"),
          b"colors-by-age": (are_colors_by_age, b"not colors with dates between them")}


def of_shape(kind):
    def spelled(_, text):
        is_right, why = SHAPES[kind]
        if not is_right(text):
            raise Refused(why + (colors_by_age_hint(text) if kind == b"colors-by-age" else b""))
        return text
    return spelled


ANY_CASE = b"-any-case"
KINDS = {**{kind: of_shape(kind) for kind in SHAPES}, b"text": of_text, b"path": of_path, b"bool": of_bool, b"int": of_int, b"bool-or-int": of_bool_or_int, b"color": of_color}
WITH_WORDS = [*FORMS, *(form + ANY_CASE for form in FORMS)]
RIGHT_ALONE = [b"bool", b"bool-or-int", b"bool-or-word", b"bool-or-word" + ANY_CASE]


def outside(row):
    """The severity and the reason of each value of a row that is not for the newest Git; None for other rows."""
    if row.since is not None and NEWEST < row.since:
        return b"note: Git reads it only since %d.%d" % row.since
    if row.until is not None and NEWEST >= row.until:
        return b"warning: Git reads it only before %d.%d" % row.until
    return None


def is_old(row, value):
    """Whether a right value means what Git calls deprecated."""
    return meaning(row, b"true" if value is None else value) == meaning(row, row.old)


def reason(row, value, canonical):
    """The severity and the reason of a value that is reported, or None; `value` is None for a key alone."""
    if outside(row) is not None:
        return outside(row)
    found = wrong(row, value, canonical)
    is_right = found is None or found.startswith(b"note: ")
    if row.instead is not None and is_right and (row.old is None or is_old(row, value)):
        return b"warning: deprecated: use " + shown(row.instead)
    return found


def meaning(row, value):
    """The type and the value that a right text has: a number or, for other texts that the kind takes, a boolean, a color or a text."""
    found = value_by(row, value)
    return type(found), found


def value_by(row, value):
    form = row.kind.removesuffix(ANY_CASE)
    if row.kind in WITH_WORDS and matching(row.words, value, row.kind.endswith(ANY_CASE)) is not None:
        return value.lower() if row.kind.endswith(ANY_CASE) else value
    if form in (b"int", b"bool-or-int", b"int-or-word") and integer(value) is not None:
        return product(*integer(value))
    if form in (b"bool", b"bool-or-int", b"bool-or-word"):
        return boolean(value)
    return color(value) if form == b"color" else value


def wrong(row, value, canonical):
    """The severity and the reason of a value that is wrong or not canonical; None for other values."""
    other = (b"warning: " if row.warns else b"error: ") + b"has to be " + shown(row.wanted or b"")
    if value is None:
        if not row.alone:
            return b"error: no value"
        return None if row.wanted is None or meaning(row, b"true") == meaning(row, row.wanted) else other
    try:
        spelling = of_words(row.kind, row.words, value) if row.kind in WITH_WORDS else KINDS[row.kind](row.words, value)
    except Refused as refused:
        return (b"warning: " if row.warns else b"error: ") + refused.args[0]
    if row.wanted is not None and meaning(row, value) != meaning(row, row.wanted):
        return other
    if not canonical or spelling == value:
        return None
    return b"note: should be " + (shown(spelling) if row.kind in WITH_WORDS else spelling)


# rows and keys

def key_of(text):
    """The parts of a key; None if the text has no dot."""
    first, dot, rest = text.partition(b".")
    middle, second_dot, last = rest.rpartition(b".")
    return Key(first.lower(), middle if second_dot else None, last.lower()) if dot else None


def fields_of(line):
    """The fields of a line, which spaces, tabs and CRs separate, up to one that begins with `#`; each without a backslash in front."""
    fields = [field for field in re.split(rb"[ \t\r]", line) if field]
    return [field.removeprefix(b"\\") for field in itertools.takewhile(lambda field: not field.startswith(b"#"), fields)]


def version(text):
    """The two numbers of a version; None for any other text."""
    key = key_of(text)
    found = [] if key is None else [integer(part) for part in (key.first, key.last if key.middle is None else key.middle)]
    return tuple(product(*one) for one in found) if found and None not in found else None


def row_of(fields):
    """The row with these fields; None if they are not a row."""
    text, *rest = fields
    marks = {}
    for mark in (b"since=", b"until=", b"instead=", b"old=", b"is="):
        if rest and rest[0].startswith(mark):
            marks[mark] = rest.pop(0).removeprefix(mark)
    versions = [version(marks[mark]) if mark in marks else None for mark in (b"since=", b"until=")]
    if any(mark in marks and one is None for mark, one in zip((b"since=", b"until="), versions)):
        return None
    must = rest[:1] == [b"must"]
    rest = rest[1:] if must else rest
    alone = {b"alone": True, b"needs-value": False}.get(rest[0]) if rest else None
    rest = rest if alone is None else rest[1:]
    warns = rest[:1] == [b"warn"]
    rest = rest[1:] if warns else rest
    if not rest or key_of(text) is None:
        return None
    kind, *words = rest
    if kind not in KINDS and kind not in WITH_WORDS:
        return None
    is_row = bounds(words) is not None if kind == b"int" else bool(words) == (kind in WITH_WORDS)
    if not is_row:
        return None
    row = Row(key_of(text), *versions, marks.get(b"instead="), marks.get(b"old="), marks.get(b"is="), must,
              kind in RIGHT_ALONE if alone is None else alone, warns, kind, words, text)
    # a row may want any path, whatever users there are
    is_taken = row.wanted is None or kind == b"path" or wrong(row, row.wanted, False) is None
    return row if is_taken else None


def rows_of(text):
    """The rows of the text of a settings file."""
    rows = []
    for number, line in enumerate(text.split(b"\n"), 1):
        fields = fields_of(line)
        if fields:
            if row_of(fields) is None:
                raise BadRow(number)
            rows.append(row_of(fields))
    return rows


def is_matched(pattern, key):
    """Whether the key of a row covers this key."""
    is_any_middle = pattern.middle == b"*" and key.middle is not None
    return (pattern.first == key.first and (is_any_middle or pattern.middle == key.middle)
            and pattern.last in (b"*", key.last))


def row_for(rows, text):
    """The first row that covers the key, or None; rows for the newest Git come before others."""
    key = key_of(text)
    ordered = sorted(rows, key=lambda row: outside(row) is not None)
    return next((row for row in ordered if is_matched(row.key, key)), None) if key is not None else None


# keys that no row covers

# sections that also have settings without a row
SHARED = [b"advice", b"core", b"credential", b"gui", b"user"]


def is_swapped(one, other):
    """Whether two texts differ only in that two neighboring bytes are swapped."""
    at = next((place for place in range(min(len(one), len(other))) if one[place] != other[place]), len(one))
    swapped = one[:at] + one[at + 1:at + 2] + one[at:at + 1] + one[at + 2:]
    return one != other and swapped == other


def distance(one, other):
    """How many edits lead from one text to the other, ignoring ASCII case; a swap with no other edit counts as one."""
    one, other = one.lower(), other.lower()
    if is_swapped(one, other):
        return 1
    line = list(range(len(other) + 1))
    for row, byte in enumerate(one, 1):
        before, line[0] = line[0], row
        for column, wanted in enumerate(other, 1):
            before, line[column] = line[column], min(line[column] + 1, line[column - 1] + 1, before + (byte != wanted))
    return line[-1]


def few_edits(one, other, long=5):
    """How many edits lead from one text to the other; None if more than two, or more than one if a text is short."""
    most = 1 if min(len(one), len(other)) < long else 2
    # if the lengths differ by more, the bytes need not be compared
    if abs(len(one) - len(other)) > most:
        return None
    edits = distance(one, other)
    return edits if edits <= most else None


def lacks_word(short, long):
    """Whether `short` has at least five bytes, and is `long` without one run of bytes."""
    cuts = range(len(short) + 1) if 5 <= len(short) <= len(long) else []
    return any(long.startswith(short[:at]) and long.endswith(short[at:]) for at in cuts)


def has_other_end(one, other):
    """Whether the texts begin with the same six bytes at least, and at most three bytes of each follow what is the same."""
    count = len(os.path.commonprefix([one, other]))
    return count >= 6 and max(len(one), len(other)) - count <= 3


# what people write for words of rows
OTHER_WORDS = {b"added": b"new", b"branches": b"branch", b"command": b"cmd", b"removed": b"old", b"textconvert": b"textconv",
               b"username": b"name"}


def near_or_like(one, other, is_like, long=5):
    """How many edits lead from the word of a row to another one, if they are few; none if people write that for it, and
    three if the other is only like it."""
    if OTHER_WORDS.get(other) == one:
        return 0
    edits = few_edits(one, other, long)
    return 3 if edits is None and is_like else edits


def last_apart(pattern, key):
    """How far the last parts of two keys are apart; in a key of two parts they are alike if one has a run of bytes more,
    or another end."""
    one, other = pattern.last, key.last
    is_alike = lacks_word(one, other) or lacks_word(other, one) or has_other_end(one, other)
    return near_or_like(one, other, key.middle is None and is_alike)


def apart(pattern, key):
    """How far a key is from the key of a row, if they differ in one part by few edits; None otherwise."""
    is_middle = pattern.middle == key.middle or pattern.middle == b"*" and key.middle is not None
    is_last = pattern.last in (b"*", key.last)
    if pattern.first != key.first:
        return near_or_like(pattern.first, key.first, False, 8) if is_middle and is_last else None
    if is_middle:
        return None if is_last else last_apart(pattern, key)
    if None in (pattern.middle, key.middle):
        return 0 if pattern.last == key.last else None
    return few_edits(pattern.middle, key.middle) if is_last else None


def nearest(distances):
    """The place of the first of the least distances; None if all distances are None."""
    near = [(edits, place) for place, edits in enumerate(distances) if edits is not None]
    return min(near)[1] if near else None


def filled(pattern, key):
    """A row's key as it is written, with parts of a key, or NAME for a missing one, in place of `*`."""
    first, _, rest = pattern.partition(b".")
    middle, dot, last = rest.rpartition(b".")
    instead = b"NAME" if key.middle is None else key.middle
    parts = [first, *([instead if middle == b"*" else middle] if dot else []), key.last if last == b"*" else last]
    return b".".join(parts)


# sections whose names are those of commands or helpers
TOPICS = [b"advice", b"color", b"credential", b"pager"]


def is_moved(pattern, key):
    """Whether the key of a row has the last part of a key in another section, and neither has a middle."""
    return (pattern.middle is None and key.middle is None and pattern.last == key.last and pattern.first != key.first
            and pattern.first not in TOPICS and pattern.last != b"color")


def slots_of(rows, middle):
    """The slots of colors that rows have with this middle, each once; rows for the newest Git come before others."""
    ordered = sorted(rows, key=lambda row: outside(row) is not None)
    found = {}
    for row in ordered:
        if row.key.first == b"color" and row.key.middle == middle:
            found.setdefault(row.key.last, row.text.rpartition(b".")[2])
    return list(found.values())


def in_order(rows, key):
    """The key of a row without a middle that has the parts of a key in another order, or None."""
    if key.first == b"color" and key.middle is not None:
        wanted = (key.middle.lower(), None, key.last)
    elif key.last == b"color" and key.middle is None:
        wanted = (b"color", None, key.first)
    else:
        return None
    return next((row.text for row in sorted(rows, key=lambda row: outside(row) is not None) if tuple(row.key) == wanted), None)


def has_slots(middle, slots):
    """What is said of a slot that no row has: the first ten of those with this middle."""
    more = b" and %d more" % (len(slots) - 10) if len(slots) > 10 else b""
    return b"; color.%s has: %s%s" % (shown(middle), b", ".join(map(shown, slots[:10])), more)


def unknown(rows, text):
    """The severity and the reason of a key that no row covers; None if it is not reported."""
    key = key_of(text)
    if key is None:
        return None
    found = nearest([apart(row.key, key) for row in rows])
    if found is None and any(row.key.first == key.first for row in rows):
        found = next((at for at, row in enumerate(rows) if is_moved(row.key, key)), None)
    if found is not None:
        return b"warning: unknown key; did you mean %s?" % shown(filled(rows[found].text, key))
    if key.middle is not None:
        slots = slots_of(rows, key.middle) if key.first == b"color" else []
        if not slots:
            return None
        other = in_order(rows, key)
        return b"warning: unknown key" + (has_slots(key.middle, slots) if other is None else asked(other))
    is_own = key.first not in SHARED and any(row.key.first == key.first for row in rows)
    return b"warning: unknown key" + (b"" if in_order(rows, key) is None else asked(in_order(rows, key))) if is_own else None


# input and output

UNSHOWN = re.compile("[\\\\\x00-\x1f\x7f-\x9f\udc80-\udcff]")


def character_shown(match):
    """How a backslash, a control character or a byte that is not UTF-8 is shown."""
    if match[0] == "\\":
        return "\\\\"
    return "".join(f"\\x{byte:02x}" for byte in match[0].encode(errors="surrogateescape"))


def shown(text):
    """A text as it is shown in a finding."""
    return UNSHOWN.sub(character_shown, text.decode(errors="surrogateescape")).encode()


# a key or a value of more bytes is cut
MOST_BYTES = 80


def cut(text):
    """How a text is shown, and its length if it is cut, before a character."""
    if len(text) <= MOST_BYTES:
        return shown(text), b""
    end = MOST_BYTES
    for _ in range(3):
        end -= 0x80 <= text[end] < 0xC0
    return shown(text[:end]) + b"..", b" (%d bytes)" % len(text)


NAME, BLANK = re.compile(rb"[A-Za-z0-9.-]*"), re.compile(rb"[ \t\r]*")
KEY = re.compile(rb"([A-Za-z][A-Za-z0-9-]*)[ \t]*")
END = re.compile(rb"\r?\n|\Z")
BYTE_ORDER_MARK = re.compile(rb"\xef\xbb?")
ESCAPES = {b"n": b"\n", b"t": b"\t", b"b": b"\b", b'"': b'"', b"\\": b"\\"}


class Stopped(Exception):
    """Git stops reading; the exception holds the place, and whether Git reports the next line instead of its line."""


def header(data, at):
    """The prefix of the keys of a section, and the place after its header."""
    name = NAME.match(data, at + 1)
    at = name.end()
    if data[at:at + 1] == b"]" and name[0]:
        return name[0].lower() + b".", at + 1
    blanks = BLANK.match(data, at)
    if not blanks[0] or data[blanks.end():blanks.end() + 1] != b'"':
        raise Stopped(blanks.end(), at == len(data))
    at, subsection = blanks.end() + 1, []
    while data[at:at + 1] != b'"':
        at += data[at:at + 1] == b"\\"
        if data[at:at + 1] in (b"", b"\n", b"\0"):
            raise Stopped(at, False)
        subsection.append(data[at:at + 1])
        at += 1
    if data[at + 1:at + 2] != b"]":
        raise Stopped(at + 1, END.match(data, at + 1) is not None)
    return name[0].lower() + b"." + b"".join(subsection) + b".", at + 2


def value_at(data, at):
    """The text of a value, and the place after it."""
    text, blanks, is_quoted = [], b"", False
    while True:
        byte = data[at:at + 1]
        if byte == b"\0" or is_quoted and byte in (b"", b"\n"):
            raise Stopped(at, False)
        if not is_quoted and byte in (b"", b"\n", b"#", b";"):
            return b"".join(text), at
        if not is_quoted and byte in b" \t\r":
            blanks += byte if text else b""
            at += 1
            continue
        if blanks:
            text.append(blanks)
            blanks = b""
        end = END.match(data, at + 1)
        if byte == b"\\" and end and (end[0] or not is_quoted):
            at = end.end()
            if not end[0]:
                return b"".join(text), at + 1
            continue
        if byte == b"\\":
            at += 1
            if data[at:at + 1] not in ESCAPES:
                raise Stopped(at, at == len(data))
            text.append(ESCAPES[data[at:at + 1]])
        elif byte == b'"':
            is_quoted = not is_quoted
        elif is_quoted and data[at:at + 2] == b"\r\n":
            raise Stopped(at + 1, False)
        else:
            text.append(byte)
        at += 1


def line_of(data, at):
    return data.count(b"\n", 0, at) + 1 + (at > len(data))


def place_of(data, at):
    """The line and the column of a byte, both from 1."""
    return line_of(data, at), at - data.rfind(b"\n", 0, at)


def entries(data):
    """The place, key and value of each entry, and the line at which Git stops and why, or None if it does not stop."""
    found, front, at = [], b"", 3 if data.startswith(b"\xef\xbb\xbf") else 0
    try:
        while at < len(data):
            key = KEY.match(data, at)
            if data[at:at + 1] in b" \t\r\n":
                at += 1
            elif data[at:at + 1] in b"#;":
                at = (data.find(b"\n", at) + 1 or len(data) + 1) - 1
            elif data[at:at + 1] == b"[":
                front, at = header(data, at)
            elif key is None:
                mark = BYTE_ORDER_MARK.match(data) if at == 0 else None
                # an incomplete mark does not begin an item
                raise Stopped(at, mark is not None and END.match(data, mark.end()) is not None)
            elif data[key.end():key.end() + 1] == b"=":
                place = place_of(data, at)
                value, at = value_at(data, key.end() + 1)
                found.append((place, front + key[1].lower(), value))
            elif END.match(data, key.end()):
                found.append((place_of(data, at), front + key[1].lower(), None))
                at = key.end()
            else:
                raise Stopped(key.end(), False)
    except Stopped as stopped:
        at, is_more = stopped.args
        return found, (line_of(data, at) + is_more, NUL if data[at:at + 1] == b"\0" else BAD_LINE)
    return found, None


def named(rows, key):
    """A key as its row writes it, or as it is if no row covers it."""
    row = row_for(rows, key)
    return key if row is None else filled(row.text, key_of(key))


# the code of a finding, by what its reason begins with
CODES = {
    BOOLEAN_FAULT: "bad-boolean", INTEGER_FAULT: "bad-integer", COLOR_FAULT: "bad-color", OVERFLOW_FAULT: "out-of-range",
    b"not colors with dates": "bad-color", b"not a refspec": "bad-refspec", b"not the name of a branch": "bad-branch", b"not a command": "bad-command",
    b"begins with -": "like-an-option", b"out of range: ": "out-of-range", b"not ": "not-a-word", b"no value": "no-value", b"unknown key": "unknown-key",
    b"Git reads it only since ": "too-new", b"Git reads it only before ": "gone", b"deprecated: use ": "deprecated",
    b"should be ": "not-canonical", b"has to be ": "other-value", NO_HOME: "no-home", b"Git cannot read this line": "invalid-line", b"a NUL byte ": "invalid-line",
}


def code_of(why):
    """The code of a finding, by its severity and its reason."""
    text = why.partition(b": ")[2]
    return next(code for front, code in CODES.items() if text.startswith(front))


def beginning(place, key, value, why, name=b"-"):
    """The line of a finding up to its code. Its key and value are given as they are shown, each with what follows it."""
    (line, column), (severity, _, text) = place, why.partition(b": ")
    said = b"" if value is None else b"'%s'%s: " % value
    return b"%s:%d:%d: %s: %s%s: %s%s" % (name, line, column, severity, *key, said, text)


def finding(place, key, value, why, name=b"-"):
    """The line of a finding."""
    return b"%s [%s]\n" % (beginning(place, key, value, why, name), code_of(why).encode())


def told(rows, data, canonical=False):
    """The place, the key, the value and the reason of each finding, and the counts: entries, judged ones, unknown keys
    and findings. The line that Git cannot read has no key, and no column."""
    found, stopped = entries(data)
    judged, lines = 0, []
    said = functools.cache(lambda key: unknown(rows, key))
    for place, key, value in found:
        row = row_for(rows, key)
        judged += row is not None
        why = said(key) if row is None else reason(row, value, canonical)
        if why is not None:
            lines.append((place, key, None if row is None else value, why))
    if stopped is not None:
        lines.append(((stopped[0], None), None, None, b"error: " + stopped[1]))
    return lines, (len(found), judged, len(found) - judged, len(lines))


def findings(rows, data, canonical=False):
    """The output for standard input, without the column and the cause of a line that Git cannot read, and the counts."""
    lines, counts = told(rows, data, canonical)
    return b"".join(b"-:%d: %s\n" % (place[0], why) if key is None
                    else finding(place, cut(named(rows, key)), None if value is None else cut(value), why)
                    for place, key, value, why in lines), counts


# JSON

SUGGESTION = re.compile(rb"(?:note: should be|(?:error|warning): has to be|warning: deprecated: use) (.*)|.*; did you mean (.*)\?", re.DOTALL)
SHOWN = re.compile(rb"\\(?:\\|x(..))")


def suggestion(why):
    """The text that a reason suggests, as it is before it is shown; None if the reason suggests nothing."""
    match = SUGGESTION.fullmatch(why)
    return match and SHOWN.sub(lambda one: bytes.fromhex(one[1].decode()) if one[1] else b"\\", match[1] or match[2] or b"")


def encoded(text):
    """The bytes of a text in base64 if they are not UTF-8, and otherwise None."""
    is_text = text is None or text.decode(errors="replace").encode() == text
    return None if is_text else base64.b64encode(text).decode()


def with_fingerprints(findings):
    """Adds to each of these findings of a run, given with its key and its value, the digest of what it is: not of its
    line, but of which of its equals it is."""
    seen = collections.Counter()
    for one, key, value in findings:
        parts = [one["file"].encode(), one["code"].encode(), key, value]
        same = b"".join(part + b"\0" for part in parts if part is not None)
        one["fingerprint"] = hashlib.sha256(same + b"%d" % seen[same]).hexdigest()[:32]
        seen[same] += 1
    return [one for one, _, _ in findings]


def member_texts(place, key, value, why):
    """The JSON members of a finding in standard input; the line that Git cannot read has no column."""
    severity, _, text = why.partition(b": ")
    code = code_of(why)
    # the deprecated keys of the rows have a dot, and their deprecated values have none
    names_key = code == "unknown-key" or code == "deprecated" and b"." in suggestion(why)
    members = {"key": key, "reason": text, "severity": severity, "value": value,
               "suggested_key": suggestion(why) if names_key else None,
               "suggested_value": None if names_key else suggestion(why)}
    texts = {name: None if member is None else member.decode(errors="replace") for name, member in members.items()}
    coded = {f"{name}_base64": encoded(members[name]) for name in ("key", "value")}
    return {"code": code, "file": "-", "line": place[0], "column": place[1]} | texts | coded


def as_json(lines, name="-"):
    """The JSON objects of findings in standard input, or in the file with this name."""
    return with_fingerprints([(member_texts(*line) | {"file": name}, line[1], line[2]) for line in lines])
