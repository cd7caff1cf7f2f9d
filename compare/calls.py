"""Calls of path interpolation, in the lines that the program path_answers reads: value, install directory, home
directory and what the lookup knows, between tabs and in hexadecimal digits. `crates/path_answers` has the details.
"""
PREFIX = b"%(prefix)/"
MARK = b":(optional)"
PIECES = [b"~", b"~/", b"/", b"//", b"~a", b"~bob/", "~é".encode(), b"~.", PREFIX, b"%(prefix)", b"%(PREFIX)/", b"x",
          b"x/y", b"..", MARK, b":(Optional)", b" ", b"\n", b"\0", b"C:\\x", "ü".encode(), b"\xff", b"\xc3",
          b"\xe2\x82", b"\xf4\x90\x80\x80", b"\xed\xa0\x80"]
DIRECTORIES = [None, b"", b"/", b"/h", b"/h/", b"/h//", b".", b"rel"]
LOOKUPS = [None, {}, {b"a": b"/h/a", b"bob": b"/h/bob"}, {b"a": b"", b"~": b"/t"}, {b"a": b"/", b"": b"/empty"},
           {b"a": b"/h/", b"aa": b"rel", b".": b"/d", "é".encode(): b"/e"}]


def digits(text):
    return b"-" if text is None else text.hex().encode()


def line(value, install, home, users):
    """The line of a call; `None` means a directory or a lookup that is missing."""
    known = None if users is None else b",".join(digits(name) + b"=" + digits(users[name]) for name in users)
    return b"\t".join([digits(value), digits(install), digits(home), b"-" if known is None else known])


def drawn(draw):
    """The parts of a random call."""
    value = b"".join(draw.choice(PIECES) for _ in range(draw.choice((0, 1, 1, 2, 2, 3, 4, 6))))
    return value, draw.choice(DIRECTORIES), draw.choice(DIRECTORIES), draw.choice(LOOKUPS)


def is_utf8(text):
    try:
        text.decode()
    except UnicodeDecodeError:
        return False
    return True


def place(value):
    """The place at which a value, without its mark, is not UTF-8, and the bytes there."""
    if value.startswith(PREFIX):
        return b"PastPrefix", value[len(PREFIX):]
    name, slash, rest = value.partition(b"/")
    if not value.startswith(b"~"):
        return b"Whole", value
    if not slash:
        return b"Username", name[1:]
    return (b"PastHome" if name == b"~" else b"PastUser"), rest


def by_rule(answer):
    """The library's answer if this is the Rust crate's: it refuses a path that is not UTF-8 on each platform.

    The crate keeps such a path on Unix, and refuses it elsewhere.
    """
    flag, value, called, *outcome = answer.split(b"\t")
    if outcome[0] != b"ok" or is_utf8(bytes.fromhex(outcome[1].decode())):
        return answer
    where, ill_formed = place(bytes.fromhex(value.decode()))
    return b"\t".join([flag, value, called, b"IllFormed", where, digits(ill_formed)])
