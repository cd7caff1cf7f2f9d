"""Reads the entries of files, and of what they include, in Git's order."""
import os
from collections import namedtuple

from . import _core
from ._core import Entries
from ._errors import COMMAND, InvalidFile, Refused
from ._values import home_of_user, interpolate

# where the entries of a text come from: the scope, the name as a `str` and as `bytes`, the real name of the directory,
# and the text; the settings of a command are in no directory, and so begin no relative name
Source = namedtuple("Source", "scope shown name directory text is_file", defaults=(True,))

MISSING = (FileNotFoundError, NotADirectoryError)


def real(name):
    """The name from the root without links, also of a file that is not there."""
    return _core.real(name) or os.path.realpath(name)


def opened(name, scope=None, is_included=False):
    """The text of the file of this name, and where it is."""
    shown, name = os.fsdecode(name), os.fsencode(name)
    text = _core.read_file(shown, name, is_included)
    whole = real(name)
    return Source(scope, shown, name, whole[:whole.rindex(b"/")], text)


def command():
    """The settings of the command, as the text of a file, if there are any."""
    text = _core.command_text()
    if text:
        yield Source("command", COMMAND, os.fsencode(COMMAND), b"\0", text, False)


def _named(entry, name):
    """The name of the file that an entry includes. Without a name, looks for the user that its path begins with."""
    if name is not None:
        return name
    user, _, rest = entry.text.partition("/")
    try:
        return os.fsencode(interpolate(user + "/", users=home_of_user) + rest)
    except Refused:
        why = f"the directory of {entry.text} is not known"
        raise InvalidFile("no_directory", why, entry.file, entry.line) from None


def _included(source, entry, name):
    """The file that an entry includes, or `None` if it is not there, where Git goes on."""
    name = _named(entry, name)
    if not source.is_file and not name.startswith(b"/"):
        why = "relative config includes must come from files"
        raise InvalidFile("relative", why, entry.file, entry.line)
    try:
        return opened(name, is_included=True)[1:5]
    except MISSING:
        return None
    except OSError as error:
        why = f"{os.fsdecode(name)} cannot be read: {error.strerror}"
        raise InvalidFile("unreadable", why, entry.file, entry.line) from error


def _walked(sources, known):
    """The entries of each text, and if `known` is given of what it includes, up to the error that ends the walk, and
    this error."""
    read = Entries()
    for source in sources:
        try:
            read._read(source.scope, source[1:5], known, lambda entry, name, of=source: _included(of, entry, name))
        except (InvalidFile, OSError) as error:
            return read, error
    return read, None


def entries(sources, known):
    """The entries of these texts, each with the scope of its text. If `known` is given, also those of what they
    include: if conditions ask about URLs, these are sought in a walk, and known in another one."""
    read, error = _walked(sources, known)
    urls, refused = read._urls()
    if urls is not None and refused:
        raise InvalidFile("remote_url", "remote URLs cannot be configured in file directly or indirectly "
                                        "included by includeIf.hasconfig:remote.*.url", refused.file, refused.line)
    if urls is not None and not error:
        read, error = _walked(sources, (*known[:-1], urls))
    if error:
        raise error
    read._trim()
    return read


def known_in(repository):
    """What includes may refer to, in the order of a gcv_known, each `bytes` or `None`: no install directory, the home
    directory, the repository if there is one, and no URLs, which means that they are sought, and each of them holds."""
    home = _core.variable("HOME")
    names = (None, home, home and real(home), *(repository or (None, None, None)))
    return (*(None if name is None else os.fsencode(name) for name in names), None)
