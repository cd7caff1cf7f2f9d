"""Lookups in settings, paths, and how many colors a terminal has."""
import os
import sys

from . import _core
from ._core import Attribute, Color, Name, boolean, integer, suffix

#: The kinds of values, in the order of their numbers in C.
KINDS = ("suffix", "integer", "amount", "boolean", "name", "attribute", "color")


#: When a program writes colors, in the order of the numbers in C.
WHEN = ("never", "auto", "always")


class Readers(dict):
    """Readers by kinds."""

    def __missing__(self, kind):
        raise ValueError(f"no kind {kind!r}: {', '.join(self)}")


READERS = Readers(suffix=suffix, integer=integer, amount=integer, boolean=boolean, name=Name.parse,
                  attribute=Attribute.parse, color=Color.parse)


def lookup(kind, entries, name, default=None):
    """The value of a setting, or the default if no entry has this name.

    The kinds are `KINDS`; an integer and an amount are both the product. The entries are a mapping, or pairs of a name
    and a text, where the last pair with the name decides. A text of `None` means a key without `=`: it is true as a
    boolean, and no other kind has a value for it.

    >>> lookup("boolean", {"core.bare": "yes"}, "core.bare")
    True
    """
    read = READERS[kind]
    if hasattr(entries, "keys"):
        if name not in entries:
            return default
        text = entries[name]
    else:
        wanted = _core.encode(name)
        text = entries  # a mark that no pair has the name yet
        for key, value in entries:
            if _core.encode(key) == wanted:
                text = value
        if text is entries:
            return default
    return read("true" if text is None else text)


def cut_mark(path):
    """Whether a path begins with the mark `:(optional)`, and the path after that one mark.

    >>> cut_mark(":(optional)~/x")
    (True, '~/x')
    """
    path = os.fspath(path)
    is_optional, start = _core.cut_mark(path)
    return is_optional, path[start:]


def interpolate(path, *, prefix=None, home=None, users=None):
    """The path that a text means, as a `str` or `bytes`, whichever the text is.

    One mark is cut off. `%(prefix)/` means `prefix`, `~` means `home`, and `~user` what `users("user")` returns. It is
    called only for such a path, at most once, and returns `None` for an unknown user. Raises `Refused` if the path
    needs a directory that is `None`: the default of `home` is not HOME.

    >>> interpolate("~/x", home="/home/me")
    '/home/me/x'
    """
    path = os.fspath(path)
    directories = [None if it is None else _core.encode(os.fspath(it)) for it in (prefix, home)]
    whole = _core.interpolate(_core.encode(path), *directories, users)
    return whole.decode("utf-8", "surrogateescape") if isinstance(path, str) else whole


def path(text):
    """The path that a text means, with the home directory of HOME and the users of this system.

    >>> path("/etc/%x")
    '/etc/%x'
    """
    return interpolate(text, home=os.environ.get("HOME"), users=home_of_user)


def home_of_user(name):
    """The home directory of a user of this system, or `None`; for `interpolate`."""
    import pwd  # pylint: disable=import-outside-toplevel

    try:
        return pwd.getpwnam(name).pw_dir
    except (KeyError, ValueError):
        return None


def terminal_depth(is_terminal=None, environ=None, when="auto"):
    """How many colors a program writes with: 16, 256 or 2**24, or `None` if it writes none.

    By default it writes to standard output, and has the environment `os.environ`. No terminal, `NO_COLOR` that is not
    empty, and `TERM` that is absent or `dumb` mean no colors. Otherwise `COLORTERM` or the name in `TERM` tells the
    depth, which `Color.escape` takes. For `when="always"` the output and `NO_COLOR` do not count, and there are 16
    colors if `TERM` is absent or `dumb`; for `when="never"` there are none.

    >>> terminal_depth(True, {"TERM": "xterm-256color"})
    256
    """
    if is_terminal is None:
        is_terminal = sys.stdout.isatty()
    variables = map((os.environ if environ is None else environ).get, ("NO_COLOR", "TERM", "COLORTERM"))
    return _core.terminal_depth(WHEN.index(when), is_terminal,
                                *(None if it is None else _core.encode(it) for it in variables))
