#!/usr/bin/env python3
"""Checks the header and what it repeats: header.py [PREFIX]. The last line is 'N passed, M failed'.

The header and raw.h are written by hand, and nothing proves them. So this compares them with the Rattle sources and the
definitions: the names, order, types and offsets of the fields of each struct, the parameters of each exported call, and
the number of each constant. The Python module includes the header, and has its own names for the faults and the attributes.

crates/gix_config_value_c/VERSION has the version. The header has to have the same, and so have CHANGELOG.md, the
programs, and the library that was built into PREFIX. The name of the shared library has
the first number of the version, and below 1.0 the second one too. The length of the longest canonical text, and the
number of files that a walk is in at most, are compared with the sources of config_text and config_file."""
import pathlib
import re
import subprocess
import sys

CRATE = pathlib.Path(__file__).resolve().parent.parent
ROOT = CRATE.parent.parent
HEADER, RAW, CALLS = CRATE / "include/gix_config_value.h", CRATE / "raw.h", CRATE / "calls.c"
NUMBERS, FAULTS = CRATE / "specs/Numbers.antt", CRATE / "specs/Faults.antt"
WORDS, REASONS = ROOT / "crates/config_word", ROOT / "crates/config_file"
MODULE = ROOT / "python/_core.c"
# a file, and the pattern of the version in it
PLACES = [
    (HEADER, r'^#define GCV_VERSION "(.*)"$'),
    (ROOT / "CHANGELOG.md", r"^## \[?([0-9][^\s\]]*)"),
    (ROOT / "crates/config_check/src/options.rt", r'^pub\(crate\) const VERSION: &str = "(.*)";$'),
    (ROOT / "crates/config_value/src/main.rt", r'^const VERSION: &\[u8\] = b"config_value (.*)\\n";$'),
    (ROOT / "crates/git_settings/src/main.rt", r'^const VERSION: &\[u8\] = b"git-settings (.*)\\n";$'),
]
PARTS = [(HEADER, rf"^#define GCV_VERSION_{part} (\d+)$") for part in ("MAJOR", "MINOR", "PATCH")]
# constants of the header, and where the sources have the same number
CONSTANTS = [
    ((HEADER, r"^enum \{.*\bGCV_LONGEST_TEXT = (\d+)\b.*\};$"),
     (ROOT / "crates/config_text/src/value.rt", r"^pub const LONGEST_TEXT: usize = (\d+);$")),
    ((HEADER, r"^enum \{.*\bGCV_MOST_FRAMES = (\d+)\b.*\};$"),
     (ROOT / "crates/config_file/src/walk.rt", r"^    frames: ArrayVec<Frame<'t>, (\d+)>,$")),
]
# by the first constant of an enum of the header, where else its numbers are: the beginning of the constants' names, a
# file, the pattern of a name and a number in it, and the function from that number to the constant's value
ENUMS = {
    "GCV_OK": [
        ("GCV_", CRATE / "src/status.rt", r"^    (\w+) = (\d+),$", int),
        ("GCV_", REASONS / "src/errors.rt", r"^    (\w+) = (\d+),$", int),
        ("GCV_", NUMBERS, r"^status_number statuses\.(\w+) = (\d+)$", int),
        ("GCV_", REASONS / "specs/Errors.antt", r"^why_number (\w+) = (\d+)$", int),
    ],
    "GCV_PLAIN": [
        ("GCV_", CRATE / "src/roles.rt", r"^    (\w+) = (\d+),$", int),
        ("GCV_", NUMBERS, r"^role_number roles\.(\w+) = (\d+)$", int),
    ],
    "GCV_EDIT_SET": [
        ("GCV_EDIT_", CRATE / "src/edits.rt", r"^    (\w+) = (\d+),$", int),
        ("GCV_EDIT_", CRATE / "src/edits.rt", r"^        (?P<number>\d+) => Some\(Edit::(?P<name>\w+)\),$", int),
        ("GCV_EDIT_", CRATE / "specs/Edits.antt", r"^edit_number edits\.(\w+) = (\d+)$", int),
    ],
    "GCV_VARIABLE": [("GCV_", ROOT / "crates/config_search/src/lib.rt", r"^pub const (\w+): u32 = (\d+);$", int)],
    "GCV_FINDS_NONE": [("GCV_", CRATE / "src/search.rt", r"^const (\w+): u32 = (\d+);$", int)],
    "GCV_SYSTEM": [("GCV_", CRATE / "src/search.rt", r"^        Scope::(\w+) => (\d+),$", int)],
    "GCV_SUFFIX": [
        ("GCV_", CRATE / "src/numbers.rt", r"^        (?P<number>\d+) => Some\(Kind::(?P<name>\w+)\),$", int),
        ("GCV_", NUMBERS, r"^kind_number kinds\.(\w+) = (\d+)$", int),
    ],
    "GCV_FAULT_NONE": [
        ("GCV_FAULT_", CRATE / "src/faults.rt", r"^        (?:Fault|Error)::(\w+) => (\d+),$", int),
        ("GCV_FAULT_ILL_FORMED_", CRATE / "src/faults.rt", r"^        Place::(\w+) => (\d+),$", int),
        ("GCV_FAULT_", NUMBERS, r"^fault_number faults\.(\w+) = (\d+)$", int),
        ("GCV_FAULT_", FAULTS, r"^path_fault_number (\w+) = (\d+)$", int),
        ("GCV_FAULT_ILL_FORMED_", FAULTS, r"^place_number (\w+) = (\d+)$", int),
    ],
    "GCV_NO_SUFFIX": [
        ("GCV_", CRATE / "src/numbers.rt", r"^        Some\(Suffix::(\w+)\) => (\d+),$", int),
        ("GCV_", NUMBERS, r"^suffix_number \(Some (\w+)\) = (\d+)$", int),
    ],
    "GCV_NO_COLORS": [
        ("GCV_", CRATE / "src/numbers.rt", r"^        (?P<number>\d+) => Some\(Depth::(?P<name>\w+)\),$", int),
        ("GCV_", CRATE / "src/numbers.rt", r"^        Some\(Depth::(\w+)\) => (\d+),$", int),
        ("GCV_", NUMBERS, r"^depth_number depths\.(\w+) = (\d+)$", int),
    ],
    "GCV_NO_NAME": [
        # the tag of a name is one more than its place
        ("GCV_", WORDS / "specs/Orders.antt", r"^name_place \(?(\w+)[^)=]*\)? = (\d+)$", lambda place: int(place) + 1),
    ],
    "GCV_BOLD": [
        ("GCV_", WORDS / "specs/Attribute.antt", r'^    (?:∷ )?\(codes "(\w+)", (\d+), ', lambda bit: 1 << int(bit)),
    ],
}
# the constants that are 0: the fault of a refused suffix, an integer without a suffix, no colors, a color without a name
ZEROS = ("GCV_FAULT_NONE", "GCV_NO_SUFFIX", "GCV_NO_COLORS", "GCV_NO_NAME")
# the statuses that only calls over files return
OF_FILES = ("GCV_LOCKED", "GCV_NOT_WRITTEN")
OTHER_NAMES = {"GCV_FAULT_ILL_FORMED_WHOLE": "GCV_FAULT_ILL_FORMED_PATH", "GCV_KIND": "GCV_FILE_KIND",
               "GCV_UNKNOWN_DIRECTORY": "GCV_NO_DIRECTORY", "GCV_UNREADABLE": "GCV_NOT_READ"}
# the types of C for those of Rattle, and their sizes
TYPES = {"i64": "int64_t", "u32": "uint32_t", "u8": "uint8_t", "usize": "size_t", "*mut u8": "void *"}
TYPES |= {f"Gcv{it.title()}": f"gcv_{it}" for it in ("integer", "name", "color", "frame", "search")}
TYPES |= {"Fact": "gcv_fact"} | {f"Gcv{it.title()}": f"gcv_raw_{it}" for it in ("known", "step", "found")}
# the enums of C are numbers of 32 bits, and a text is of chars
NUMBERED = re.compile(r"\bgcv_(status|kind|fault|suffix|depth|tag|role|subject|outcome|edit)\b")
# the pointers to what is in slices: bytes, and texts
SLICES = {"&[u8]": "const uint8_t *", "&[&[u8]]": "const gcv_text *"}
SIZES = {"int64_t": (8, 8), "uint32_t": (4, 4), "uint8_t": (1, 1), "size_t": (8, 8), "void *": (8, 8)}
SIZES |= dict.fromkeys(SLICES.values(), (8, 8))
LIFETIMES = re.compile(r"<'[^>]*>|'\w+ ")


def text_of(path):
    return path.read_text(encoding="utf-8")


def said(path, pattern):
    """What the pattern finds first in a file, or None."""
    found = re.search(pattern, text_of(path), re.MULTILINE)
    return found.group(1) if found else None


def constant(beginning, name):
    """The name of the header's constant for a name in Rattle."""
    whole = beginning + (name if name.isupper() else re.sub("(?<!^)(?=[A-Z])", "_", name).upper())
    return OTHER_NAMES.get(whole, whole)


def enum_of(first):
    """The constants of the header's enum whose first one has this name, and their numbers."""
    body = re.search(rf"^typedef GCV_ENUM\(\w+\) \{{\s+({first} = .*?)\}}", text_of(HEADER) + text_of(RAW), re.MULTILINE | re.DOTALL)
    return {name: int(number, 0) for name, number in re.findall(r"\b(GCV_\w+) = (\w+)", body[1] if body else "")}


def numbers():
    """Each number of an enum of the header: in the header, and in each sort of file that has it. A proved call returns
    no status of the calls over files."""
    for first, places in ENUMS.items():
        here = {name: number for name, number in enum_of(first).items() if name not in OF_FILES}
        found = {path.suffix: {} for _, path, *_ in places}
        for beginning, path, pattern, value in places:
            for it in re.finditer(pattern, text_of(path), re.MULTILINE):
                name, number = (it["name"], it["number"]) if it.re.groupindex else it.groups()
                found[path.suffix][constant(beginning, name)] = value(number)
        for suffix, names in found.items():
            names |= {name: 0 for name in ZEROS if name in here}
            for name in here | names:
                yield f"the header, {name} of a {suffix} file", here.get(name), names.get(name)


def sources():
    """The Rattle sources, without lifetimes."""
    return LIFETIMES.sub("", "".join(text_of(path) for path in sorted((CRATE / "src").glob("*.rt"))))


def fields_of(body):
    """The fields of a struct of Rattle, as C has them. A slice is a pointer and a length; a ghost field is nothing."""
    for name, kind in re.findall(r"^    (?:pub )?(\w+): (.*),$", body, re.MULTILINE):
        if kind in SLICES:
            yield from ((name, SLICES[kind]), (f"{name}_length", "size_t"))
        else:
            yield name, TYPES[kind]


def structs():
    """The fields of each exported struct, in Rattle and in the header, and the offsets that C gives them."""
    header = re.sub(r"\bchar\b", "uint8_t", text_of(HEADER) + text_of(RAW))
    found = re.findall(r"^#\[repr\(C\)\]\n(?:#[^\n]*\n)*pub struct (\w+) \{\n(.*?)^\}$", sources(),
                       re.MULTILINE | re.DOTALL)
    # the structs in a struct come first
    for name, body in sorted(found, key=lambda it: it[1].count("Gcv")):
        struct, wanted = TYPES[name], list(fields_of(body))
        told = re.search(rf"^typedef struct {struct} \{{(.*?)\}} {struct};$", header, re.MULTILINE | re.DOTALL)
        told = NUMBERED.sub("uint32_t", told[1] if told else "")
        given = re.findall(r"(\w+ |const \w+ \*|void \*)(\w+);", re.sub(r"/\*.*?\*/", "", told))
        given = [(name, kind.strip()) for kind, name in given]
        yield f"the header, {struct}", given, wanted
        size, widest, offsets = 0, 1, {}
        for field, kind in wanted:
            taken, alignment = SIZES[kind]
            offsets[field] = size = -(-size // alignment) * alignment
            size, widest = size + taken, max(widest, alignment)
        SIZES[struct] = (-(-size // widest) * widest, widest)
        asserted = re.findall(rf"^GCV_ASSERT\(offsetof\({struct}, (\w+)\) == (\d+)\);$", header, re.MULTILINE)
        yield f"the offsets of {struct}", {field: int(offset) for field, offset in asserted}, offsets
        sizes = re.findall(rf"^GCV_ASSERT\(sizeof\({struct}\) == (\d+)\);$", header, re.MULTILINE)
        yield f"the size of {struct}", list(map(int, sizes)), [SIZES[struct][0]]


def parameters(words):
    """The types in C of the parameters of an exported function."""
    for kind in re.findall(r"\w+: ([^,]+?)(?:,|$)", words):
        is_slice, name = "[" in kind, kind.removeprefix("&").removeprefix("mut ").strip("[]")
        if kind != "Global":
            yield "const " * (kind[0] == "&" and "mut" not in kind) + TYPES[name] + " *" * (kind[0] == "&")
            yield from ["size_t"] * is_slice


def calls():
    """The result and the parameters of each exported call, in the header and in Rattle."""
    exported = re.findall(r'^pub extern "C" fn (\w+)\((.*?)\)(?: -> (\w+))?(?: \{)?$', sources(), re.MULTILINE | re.DOTALL)
    declared = {}
    for result, name, words in re.findall(r"^(\w+) (gcv_raw_\w+)\((.*?)\);$", text_of(RAW), re.MULTILINE | re.DOTALL):
        words = NUMBERED.sub("uint32_t", re.sub(r"\bchar\b", "uint8_t", words))
        declared[name] = result, [re.sub(r"\w+$", "", word.strip()).strip() for word in words.split(",")]
    wanted = {name: ({"u32": "gcv_status", "": "void"}[result], list(parameters(" ".join(words.split()))))
              for name, words, result in exported}
    for name in wanted | declared:
        yield f"raw.h, {name}", declared.get(name), wanted.get(name)


def names():
    """Python's codes of the faults, in the order of their numbers, its attributes, and the statuses that have a text."""
    faults = [name.removeprefix("GCV_FAULT_") for name in enum_of("GCV_FAULT_NONE")]
    listed = re.search(r"^static const char \*const codes\[\] = \{(.*?)\};$", text_of(MODULE), re.MULTILINE | re.DOTALL)
    yield "Python, codes", re.findall(r'"(\w+)"', listed[1]), ["suffix", *map(str.lower, faults[1:])]
    bits = [name.removeprefix("GCV_") for name in enum_of("GCV_BOLD")]
    yield "Python, attributes", re.findall(r'\{"(\w+)", GCV_\1\}', text_of(MODULE)), bits
    # each status has a text of its own
    texts = re.findall(r"^    case (GCV_\w+):$", text_of(CALLS), re.MULTILINE)
    yield "the texts of statuses", sorted(texts), sorted(enum_of("GCV_OK"))


def built(prefix, version):
    """What pkg-config and the shared library in the prefix say, and what they have to say."""
    module = pathlib.Path(prefix) / "lib/pkgconfig/gix_config_value.pc"
    yield str(module), said(module, r"^Version: (.*)$"), version
    soname = "libgix_config_value.so." + (version.rpartition(".")[0] if version[:2] == "0." else version.split(".")[0])
    library = pathlib.Path(prefix) / "lib" / f"libgix_config_value.so.{version}"
    dynamic = subprocess.run(["readelf", "-d", library], capture_output=True, text=True, check=False).stdout
    found = re.search(r"SONAME.*\[(.*)\]", dynamic)
    yield str(library), found.group(1) if found else None, soname


def main():
    version = text_of(CRATE / "VERSION").strip()
    told = [(PLACES, version), *(([place], said(*source) or "a number") for place, source in CONSTANTS)]
    rows = [(str(path.relative_to(ROOT)), said(path, pattern), wanted)
            for places, wanted in told for path, pattern in places]
    rows += [(f"the header, part {at} of the version", said(*place), version.split(".")[at])
             for at, place in enumerate(PARTS)]
    rows += [*numbers(), *structs(), *calls(), *names()]
    if len(sys.argv) > 1:
        rows += built(sys.argv[1], version)
    wrong = [f"{place} says {given}, and not {wanted}" for place, given, wanted in rows if given != wanted]
    for line in wrong:
        print(line)
    print(f"{len(rows) - len(wrong)} passed, {len(wrong)} failed")
    return 1 if wrong or not rows else 0


sys.exit(main())
