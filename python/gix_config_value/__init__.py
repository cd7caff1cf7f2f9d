"""Readers of Git configuration values: booleans, integers, colors and paths, in texts and in files.

>>> boolean("yes"), integer("0x10k")
(True, 16384)
>>> color = Color.parse("bold red")
>>> print(color, color.foreground, color.attributes)
red bold red bold
>>> normalize("integer", "0x10k")
'16k'

`read(file)` and `read_repository(folder)` read files: `read_repository(".").value("core.bare", boolean)`.
`with edit(file) as changed:` changes settings in one, and keeps its comments; `edit_repository()` finds the file.

A text is a `str`, or `bytes` or another buffer of bytes; anything else raises `TypeError`. A refused text raises
`Refused`, a `ValueError` with a code for the fault.
"""
from . import _core
from ._configuration import Configuration, read, read_repository
from ._core import Attribute, Color, Entries, Name, boolean, integer, integer_parts, normalize, over, same, suffix
from ._edit import EditedFile, edit, edit_repository
from ._errors import Entry, InvalidFile, Refused
from ._values import KINDS, cut_mark, home_of_user, interpolate, lookup, path, terminal_depth

__version__ = _core.version
__all__ = ["Attribute", "Color", "Configuration", "EditedFile", "Entries", "Entry", "InvalidFile", "KINDS", "Name",
           "Refused", "boolean", "cut_mark", "edit", "edit_repository", "home_of_user", "integer", "integer_parts",
           "interpolate", "lookup", "normalize", "over", "path", "read", "read_repository", "same", "suffix",
           "terminal_depth"]
