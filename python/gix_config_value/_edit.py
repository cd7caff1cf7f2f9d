"""Edits of configuration files: settings change, and each other byte stays."""
import errno
import os
import stat
from _thread import RLock  # type: ignore[attr-defined]
from contextlib import contextmanager

from . import _core, _repository, _walk


class EditedFile:
    """A file that `edit` has opened: its text, and edits of it, which do what those of `git config` do.

    A key is as Git takes it, `branch.Main.rebase`, and so is the name of a section, `branch.Main`. A key, a value and a
    name are a `str`, or `bytes` or another buffer of bytes.

    Threads may edit at the same time. A process that was forked meanwhile cannot: there each edit raises `ValueError`.

    An edit that raises an exception has changed nothing. `InvalidFile` names the line if the text is no configuration
    file. `Refused` has the key, the value or the name as its `input`, and one of these codes:

    - `no_section`, `no_key_name`, `bad_key`, `key_line_feed`: Git refuses the key.
    - `bad_section`: no header can have the section.
    - `bad_value`: the value has a NUL.
    - `several`: several entries have the key of `set` or `unset`.
    - `absent`: no entry has the key to unset, or no section has the name to change.
    """

    __module__ = "gix_config_value"
    __slots__ = ("_file", "_text", "_lock", "_process")

    def __init__(self, file):
        self._file = file
        self._text = None
        self._lock = RLock()
        self._process = os.getpid()

    @property
    def text(self):
        """The text of the file, with the edits so far. Raises `ValueError` after the end of the `with`."""
        if self._text is None:
            raise ValueError(f"{self._file} is not being edited")
        return self._text

    def _is_own(self):
        """Whether this is the process that edits the file, and not one that was forked from it."""
        return os.getpid() == self._process

    def _edit(self, name, *words):
        if not self._is_own():
            raise ValueError(f"{self._file} is being edited by another process")
        with self._lock:
            self._text = _core.edit(name, self._file, self.text, *words)

    def _end(self):
        """Returns the text, after which there are no more edits."""
        with self._lock:
            text, self._text = self.text, None
        return text

    def set(self, key, value):
        """Gives the one entry of a key this value, or adds an entry if there is none."""
        self._edit("set", key, value)

    def replace_all(self, key, value):
        """Does what `set` does, also for several entries: the last one gets the value, and the others are removed."""
        self._edit("replace_all", key, value)

    def add(self, key, value):
        """Adds an entry, whatever entries the key has."""
        self._edit("add", key, value)

    def unset(self, key):
        """Removes the one entry of a key, and its section if nothing else is in it."""
        self._edit("unset", key)

    def unset_all(self, key):
        """Removes all entries of a key, as `unset` does."""
        self._edit("unset_all", key)

    def rename_section(self, old, new):
        """Gives the sections of the name `old` the name `new`."""
        self._edit("rename_section", old, new)

    def remove_section(self, name):
        """Removes the sections of a name, with all that is in them."""
        self._edit("remove_section", name)


def _opened_lock(name):
    """Makes the lock of this name, and opens it, without a buffer that a forked process would write too."""
    try:
        return open(os.fsdecode(name), "xb", buffering=0)
    except FileExistsError as error:
        raise FileExistsError(errno.EEXIST, "the lock is held", error.filename) from None


def _read(shown, name):
    """The text and the mode of a file, or no text and `None` if it is not there."""
    try:
        mode = os.stat(name).st_mode
    except FileNotFoundError:
        return b"", None
    if not stat.S_ISREG(mode):
        raise OSError(errno.EINVAL, "it is no regular file", shown)
    return _core.read_file(shown, name, True), stat.S_IMODE(mode)


def _write(file, text, mode):
    # whoever may not read the old file reads no text of its lock
    if mode is not None:
        os.fchmod(file.fileno(), mode)
    text = memoryview(text)
    while text:
        text = text[file.write(text):]
    os.fsync(file.fileno())


@contextmanager
def edit(path):
    """Changes settings in a configuration file, and keeps all its other bytes.

        with edit(".git/config") as file:
            file.set("user.name", "A")

    As Git does, it takes the lock of the file, `config.lock` beside `config`, and then reads the file, which need not
    be there. At the end of the `with` the new text is written into the lock, which replaces the file, so that others
    read the old text or the new one. Nothing is written if nothing has changed, or after an exception, which leaves the
    file as it was. A link is followed to its file, and the file keeps its mode. A process that is forked meanwhile leaves
    the file and the lock alone, however it leaves the `with`.

    Raises `FileExistsError`, which names the lock, if another program holds it, or was killed while it did. Raises
    another `OSError` if the lock is not made, the file is no regular one, or it is not read or not written.
    """
    # names from the root stay right if the caller changes the folder
    shown, name = os.fsdecode(path), _walk.real(os.fsencode(path))
    lock = name + b".lock"
    with _opened_lock(lock) as made:
        edited, is_held = EditedFile(shown), True
        try:
            text, mode = _read(shown, name)
            edited._text = text
            yield edited
            if edited._is_own() and (new := edited._end()) != text:
                _write(made, new, mode)
                os.rename(lock, name)
                is_held = False
        finally:
            edited._text = None
            if is_held and edited._is_own():
                os.unlink(lock)


def edit_repository(path=".", scope="local"):
    """Changes settings in the file of a scope that Git reads in a folder, as `git -C path config --local` does.

        with edit_repository() as file:
            file.set("user.name", "A")

    The scope is `local`, `worktree`, `global` or `system`. Raises `FileNotFoundError` if the scope has no file there,
    as of `worktree` without its extension or outside a repository, and otherwise the errors of `edit` and
    `read_repository`.
    """
    return edit(_repository.file_of(os.fsdecode(path), scope))
