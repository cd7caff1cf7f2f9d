"""Makes files from the keys and values of rows.py, unchanged or mutated."""
import re

import plain_reader
import rows

LONGEST_PART = 100
SEPARATORS = [b"\0", b"\n", b".", b" ", b"\t", b"\\", b"-", b"+", b"#", b"*", b"\r", b"\x1b", b"\x7f"]
PIECES = [b"\xc2\x85", b"\xef\xbb\xbf", b"\xe2\x82", b"\xff", b"\xc3\xa9", b"\xed\xa0\x80", b"\xe3\x80\x80",
          b"0x", b"0b", b"k", b"M", b"g", b"no", b"no-", b"bright", b"bold", b"red", b"true", b"00",
          b"2147483648", b"9223372036854775808", b"8589934592", b":(optional)", b"always", b"Never", b"\0\0"]
ESCAPES = {b"\\": b"\\\\", b'"': b'\\"', b"\n": b"\\n", b"\t": b"\\t", b"\b": b"\\b"}
MARKS = [b"[", b"]", b'"', b"\\", b"=", b"#", b";", b"\n", b"\r\n", b"\0", b"\\\n", b"\xef\xbb\xbf"]


def keys():
    """The keys that the tables have, known and unknown."""
    named = [key for key, *_ in rows.ACCEPTED + rows.FIRST_ROWS]
    return list(dict.fromkeys(named * 2 + [key for key, _ in rows.KNOWN_KEYS + rows.MISSPELLED_KEYS + rows.OTHER_SLOTS]
                              + rows.OWN_KEYS + rows.UNKNOWN_KEYS))


def values_by_key():
    """The values that the tables have for each key, without very long ones."""
    found = {}
    tables = rows.ACCEPTED + [(key, values) for key, _, values in rows.REPORTED + rows.MEANT] + rows.SPELLINGS
    tables += [(b"test.word", [value for value, _ in rows.SHOWN])]
    for key, values in tables:
        short = [value for value in values if value is None or len(value) <= LONGEST_PART]
        found.setdefault(key, []).extend(short)
    return found


KEYS = keys()
VALUES_BY_KEY = values_by_key()
VALUES = [value for values in VALUES_BY_KEY.values() for value in values if value is not None]
ROWS = plain_reader.rows_of(rows.SETTINGS)


def escaped(text):
    return re.sub(rb'[\\"\n\t\b]', lambda match: ESCAPES[match[0]], text)


def line_of(key, value):
    """The line of a file that sets a key, written as Git lists it, to a value; a NUL stays as it is."""
    first, middle, last = plain_reader.key_of(key)
    quoted = b"" if middle is None else b' "%s"' % re.sub(rb'([\\"])', rb"\\\1", middle)
    return b"[%s%s] %s%s\n" % (first, quoted, last, b"" if value is None else b' = "%s"' % escaped(value))


def mutated(draw, text):
    """The text with a few changes."""
    text = bytearray(text)
    for _ in range(draw.choice((0, 1, 1, 2, 3))):
        at = draw.randrange(len(text) + 1)
        way = draw.randrange(7)
        if way == 0:
            text[at:at + 1] = bytes([draw.randrange(256)])
        elif way == 1:
            text[at:at] = draw.choice(PIECES + SEPARATORS)
        elif way == 2:
            del text[at:at + draw.choice((1, 1, 2, 4))]
        elif way == 3:
            text[at:at + 4] = bytes(text[at:at + 4]).swapcase()
        elif way == 4:
            text[at:] = draw.choice(VALUES)[at:]
        elif way == 5:
            text[at:at] = text[at:at + 3]
        else:
            text[at:at] = b"%d" % draw.getrandbits(draw.choice((3, 8, 31, 32, 63, 64)))
    return bytes(text)


def entry(draw):
    """A key and a value of the tables, which may or may not belong together."""
    key = draw.choice(list(VALUES_BY_KEY) if draw.randrange(3) else KEYS)
    return key, draw.choice(VALUES_BY_KEY.get(key, VALUES) if draw.randrange(3) else VALUES)


def mutated_line(draw):
    """The line of an entry whose value may be mutated."""
    key, value = entry(draw)
    if value is not None and draw.randrange(4):
        value = mutated(draw, value).replace(b"\0", b"")
    return line_of(key, value)


def many(draw, count):
    """A file with this many entries, whose values may be mutated."""
    return b"".join(mutated_line(draw) for _ in range(count))


def tiny(draw):
    """A file with a few such entries, whose text may be mutated as well."""
    text = bytearray(many(draw, draw.randrange(1, 7)))
    for _ in range(draw.choice((0, 1, 1, 2, 3))):
        at = draw.randrange(len(text) + 1)
        text[at:at + draw.randrange(2)] = draw.choice(MARKS)
    return bytes(text) if draw.randrange(3) else mutated(draw, bytes(text))


def whole(draw, count):
    """A file with this many unchanged entries of the tables."""
    return b"".join(line_of(*entry(draw)) for _ in range(count))
