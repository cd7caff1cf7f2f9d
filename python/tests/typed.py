"""What a type checker has to accept and to refuse: mypy --strict typed.py, which tells of an `ignore` that it does not
need. Nothing runs it."""
import pathlib
from typing import List, Mapping, Optional, Tuple

from gix_config_value import (Attribute, Color, Configuration, EditedFile, Entry, Name, Refused, boolean, edit,
                              edit_repository, integer, integer_parts, interpolate, lookup, normalize, path, read, read_repository,
                              terminal_depth)

config: Configuration = read(pathlib.Path("x"), b"y", includes=True, repository=".")
mapping: Mapping[str, Optional[str]] = config
text: Optional[str] = config["a.b"]
same: Optional[str] = config.get("a.b")
other: Optional[str] = config.get("a.b", "c")
bare: Optional[bool] = config.value("core.bare", boolean)
is_bare: bool = config.value("core.bare", boolean, False)
limit: int = config.value("core.limit", integer, default=5)
color: Optional[Color] = config.value("color.ui.x", Color.parse)
hooks: Optional[str] = config.value("core.hooksPath", path)
length: Optional[int] = config.value("core.editor", len)
rebase: List[bool] = config.values_of("branch.main.rebase", boolean)
entries: Tuple[Entry, ...] = config.entries_of("a.b")
first: Entry = config.entries[0]
some: Tuple[Entry, ...] = config.entries[:2]
names: List[str] = [entry.file for entry in reversed(config.entries)]
made: Configuration = Configuration([("f", 1, "a.b", None), Entry("f", 2, "a.c", "x", "local")], None)
depth: Optional[int] = config.uses_color("color.table", True, {"TERM": "xterm"})
always: Optional[int] = terminal_depth(when="always")
terminal_depth(when="yes")  # type: ignore[arg-type]
remotes: List[str] = read_repository().in_scope("local", None).subsections("remote")
branch: Optional[str] = read_repository().branch
locals: List[str] = [name for scope, name in read_repository().files if scope == "local"]
with edit_repository(scope="global") as of_user:
    of_user.set("a.b", "c")
parts: Tuple[int, Optional[str]] = integer_parts(b"1k")
whole: bytes = interpolate(b"~/x", home="/h")
found: Optional[bool] = lookup("boolean", {"a": None}, "a")
bits: int = int(Attribute.BOLD | Attribute.UL)
with edit(pathlib.Path("x")) as file:
    changed: EditedFile = file
    changed.set("a.b", b"c")
    new: bytes = changed.text
try:
    boolean("x")
except Refused as refused:
    line: Optional[int] = refused.line

boolean(1)  # type: ignore[arg-type]
normalize("number", "1")  # type: ignore[arg-type]
Color("red")  # type: ignore[arg-type]
Name.parse(None)  # type: ignore[arg-type]
Attribute.BOLD | 1  # type: ignore[operator]
config["a.b"] = "c"  # type: ignore[index]
config.get(5)  # type: ignore[call-overload]
config.value("a.b")  # type: ignore[call-overload]
config.value("a.b", "boolean")  # type: ignore[call-overload]
number: int = config.value("a.b", integer)  # type: ignore[assignment]
config.entries["a.b"]  # type: ignore[call-overload]
Configuration([("f", "1", "a.b", None)])  # type: ignore[list-item]
edit("x").set("a.b", "c")  # type: ignore[attr-defined]
changed.set("a.b", 1)  # type: ignore[arg-type]
changed.set("a.b", None)  # type: ignore[arg-type]
changed.text = b""  # type: ignore[misc]
interpolate("~/x", "/h")  # type: ignore[misc]


class Sub(Color):  # type: ignore[misc]
    pass
