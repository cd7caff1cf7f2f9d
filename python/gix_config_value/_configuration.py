"""Configurations from files: all entries in Git's order, and their values by key."""
import os
from collections.abc import Mapping, Sequence

from . import _core, _repository, _walk
from ._core import Entries, boolean
from ._errors import Refused
from ._values import WHEN, terminal_depth

Sequence.register(Entries)
_ABSENT = object()


def _value(read, text):
    """What a reader makes of the text of an entry."""
    if text is not None:
        return read(text)
    if read is boolean:
        return True
    raise Refused("no_value", "no value", b"")


def _when(text):
    """When a program writes colors, by the text of a setting such as `color.ui`."""
    word = text.lower()
    return word if word in WHEN else WHEN[boolean(text)]


def _refuse(error, entry):
    """Raises the refusal of an entry for the error of a reader."""
    if isinstance(error, Refused):
        raise Refused(error.code, error.fault, error.input, entry) from None
    raise Refused("value", str(error), _core.encode(entry.text), entry) from error


class Configuration(_core.Texts, Mapping):
    """The texts of settings by their keys, and the entries that they come from.

    A key is as Git lists it, `branch.Main.rebase`, and its section and its last part may be in any case. The last entry
    with the key decides. Its text is `None` if the key has no `=`. A configuration cannot be changed.

    >>> config = Configuration([Entry("config", 2, "core.bare", "yes"), Entry("config", 3, "core.abbrev", "12")])
    >>> config["core.bare"], config.get("core.editor", "vi"), config.value("Core.Bare", boolean)
    ('yes', 'vi', True)
    >>> config.value("core.abbrev", int)
    12
    """

    __module__ = "gix_config_value"
    __slots__ = ("_refusal", "_branch", "_files")

    def __init__(self, entries=(), refusal=None, branch=None, files=()):
        self._refusal = refusal
        self._branch = branch
        self._files = tuple(files)

    @property
    def refusal(self):
        """Why Git uses no repository although one is there, in Git's words; `None` if it uses one, or none is there."""
        return self._refusal

    @property
    def branch(self):
        """The branch that is checked out in the repository, or `None`."""
        return self._branch

    @property
    def files(self):
        """The files that Git reads, if they are there: pairs of a scope and a name, in its order."""
        return self._files

    def __iter__(self):
        return iter(self.entries._keys())

    def __len__(self):
        return self.entries._key_count()

    def __repr__(self):
        more = "" if self._refusal is None else f", {self._refusal!r}"
        return f"Configuration({self.entries!r}{more})"

    def __reduce__(self):
        return Configuration, (self.entries, self._refusal, self._branch, self._files)

    def value(self, key, read, default=None):
        """What a reader makes of the text of the last entry with a key, or the default if there is no such entry.

        A reader takes a `str`, and raises `ValueError` for one that it refuses: `boolean`, `integer`, `Color.parse`,
        `path`, `int`, or one of yours. If it refuses the text, `Refused` names the entry. A key without `=` is true
        for `boolean`, and refused for any other reader.
        """
        text = self.get(key, _ABSENT)
        if text is _ABSENT:
            return default
        try:
            return _value(read, text)
        except ValueError as error:
            return _refuse(error, self.entries_of(key)[-1])

    def values_of(self, key, read):
        """What a reader makes of the texts of all entries with a key, in order, as `value` does."""
        values = []
        for entry in self.entries_of(key):
            try:
                values.append(_value(read, entry.text))
            except ValueError as error:
                _refuse(error, entry)
        return values

    def uses_color(self, key, is_terminal=None, environ=None):
        """How many colors the output of a key such as `color.table` has: 16, 256 or 2**24, or `None` without colors.

        The last entry of the key decides, or else that of `color.ui`: `never`, `auto`, `always`, or a boolean, of which
        true is `auto`. Without both it is `auto`. `terminal_depth` says what the words mean, and takes the rest.

        >>> config = Configuration([Entry("config", 2, "color.ui", "always")])
        >>> config.uses_color("color.table", environ={"TERM": "xterm"}), Configuration().uses_color("color.table", False)
        (16, None)
        """
        name = key if key in self else "color.ui"
        when = "auto" if self.get(name) is None else self.value(name, _when)
        return terminal_depth(is_terminal, environ, when)

    def entries_of(self, key):
        """The entries with a key, in order: the last one decides."""
        return self.entries._all(key)

    def subsections(self, section):
        """The subsections of a section, each once, in the order in which they come first: the names of all remotes for
        `remote`. The case of the section does not count."""
        prefix = f"{section.lower() if section.isascii() else section}."
        parts = (key[len(prefix):].rpartition(".") for key in self if key.startswith(prefix))
        return list(dict.fromkeys(subsection for subsection, dot, _ in parts if dot))

    def in_scope(self, *scopes):
        """The configuration of the entries that have one of these scopes."""
        return Configuration((entry for entry in self.entries if entry.scope in scopes), self._refusal, self._branch,
                             (file for file in self._files if file[0] in scopes))


def read(*paths, includes=False, repository=None):
    """The configuration of files: later files decide over earlier ones.

    With `includes` the files that they include are read too, each one after the entry that includes it. Conditions are
    about the repository of the folder `repository`, and about the remotes in all these files; without a repository
    only those on remotes hold.

    Raises `OSError` if a file cannot be read, or has more than 1 GiB, and `InvalidFile`, with the place, for an invalid
    line or a NUL outside a comment.
    """
    known = None
    if includes:
        known = _walk.known_in(repository and _repository.find(os.fsdecode(repository)).repository)
    return Configuration(_walk.entries([_walk.opened(path) for path in paths], known))


def read_repository(path="."):
    """The configuration that `git -C path config --list` reads, with what its files include.

    It has the settings of the system, of the user, of the repository, of its worktree and of the command, in this
    order; outside a repository there are only the first two and the last. Git's variables count, such as
    GIT_CONFIG_GLOBAL, GIT_DIR and GIT_CONFIG_COUNT. If Git uses no repository although one is there, `refusal` of the
    configuration says why. Its `branch` is the one that is checked out, and its `files` are what Git looks for.

    Raises the errors of `read`, but skips a file that does not exist. Raises `InvalidFile` also where Git stops at a
    setting of the repository's format, or of the command.
    """
    place = _repository.find(os.fsdecode(path))
    branch = place.repository and place.repository.branch
    return Configuration(_repository.entries(place), place.refusal, branch and os.fsdecode(branch), place.files)
