"""The classes that the module `_core` makes objects of: an entry, and the exceptions of the package."""
from collections import namedtuple

SHOWN_INPUT = 64
# the name of the file that the settings of a command are in
COMMAND = "command line"


class Entry(namedtuple("Entry", "file line key text scope", defaults=(None,))):
    """An entry of a file: the file, the line from 1, the key as Git lists it, the text, and the scope.

    The text is `None` if the key has no `=`. The scope is `None`, or in `read_repository` one of `system`, `global`,
    `local`, `worktree` and `command`. The settings of a command are in a file of the name `command line`, and their
    lines mean nothing.
    """

    __module__ = "gix_config_value"
    __slots__ = ()

    @property
    def origin(self):
        """Where it is, as `git config --show-origin` says it."""
        is_command = self.scope == "command" and self.file == COMMAND
        return "command line:" if is_command else f"file:{self.file}"


class Refused(ValueError):
    """A text that has no value, that means no path, or with which a file is not edited.

    `code` is a word for the fault, `fault` says why in a sentence, and `input` is the whole text as bytes. The message
    shows at most 64 bytes of it. If the text is that of an entry of a file, `file`, `line` and `key` tell which entry,
    and the message begins with them; otherwise they are `None`. The code is `no_value` for a key without `=`, and
    `value` for what a reader of the caller's own refuses. `EditedFile` has the codes of edits.
    """

    __module__ = "gix_config_value"
    file = line = key = _entry = None

    def __init__(self, code, fault, input, entry=None):
        if entry is not None and entry.text is None:
            message = fault
        else:
            shown = repr(input[:SHOWN_INPUT])
            if len(input) > SHOWN_INPUT:
                shown += f".. ({len(input)} bytes)"
            message = f"{fault}: {shown}"
        if entry is not None:
            self._entry = entry
            self.file, self.line, self.key, *_ = entry
            message = f"{self.file}:{self.line}: {self.key}: {message}"
        super().__init__(message)
        self.code = code
        self.fault = fault
        self.input = input

    def __reduce__(self):
        """Lets it pass between processes, such as from the workers of a pool."""
        return Refused, (self.code, self.fault, self.input, self._entry)


class InvalidFile(ValueError):
    """A file that is no configuration, or settings with which Git does not go on.

    `fault` says why in a sentence, and `file` and `line` tell where. `code` is bad_line or nul for a line, no_value,
    no_directory, unreadable, relative, too_deep or remote_url for an include, and bad_format for a setting, a variable
    or a file that says which repository is used, and in which format; the last two have no line. In the variables that
    have the settings of a command, which have the name `command line` and no line, it is the name of a status in the C
    header, in lower case and without `GCV_`, such as bad_count.
    """

    __module__ = "gix_config_value"

    def __init__(self, code, fault, file, line):
        super().__init__(f"{file}:{line}: {fault}" if line else f"{file}: {fault}")
        self.code = code
        self.fault = fault
        self.file = file
        self.line = line

    def __reduce__(self):
        """Lets it pass between processes, such as from the workers of a pool."""
        return InvalidFile, (self.code, self.fault, self.file, self.line)
