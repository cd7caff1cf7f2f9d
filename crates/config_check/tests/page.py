"""Compares the rows of git.rt with the pages of Git's manual that are installed.

Each key has to be documented in git-config(1), or on a page of ELSEWHERE. Each word of a row has to occur in the
section of its key, in the section of another setting that this section names, or in the section of an option on
another page that takes the same words (OPTIONS), unless Git was seen to take it (compare/settings.tsv). Words are not
compared if the page of their option is not installed. Nothing else of a row is compared.
"""
import gzip
import pathlib
import re
import sys

sys.path.append(str(pathlib.Path(__file__).resolve().parents[3] / "compare"))

import settings  # noqa: E402

MANUAL = pathlib.Path("/usr/share/man")
VERSION = "Git 2.39.5"
# the comment that precedes the rows of git.rt that the page does not have
ELSEWHERE_READ = "# Keys that git-config(1) leaves to other pages"
# keys that git-config(1) leaves to another page
ELSEWHERE = {"filter.*.required": "gitattributes.5", "filter.*.process": "gitattributes.5"}
# settings whose words belong to an option on another page, which their section names
OPTIONS = {
    "apply.whitespace": ("apply", "--whitespace=*"),
    "commit.cleanup": ("commit", "--cleanup=*"),
    "diff.colorMoved": ("diff", "--color-moved[=*]"),
    "diff.ignoreSubmodules": ("diff", "--ignore-submodules[=*]"),
    "sendemail.suppressCc": ("send-email", "--suppress-cc=*"),
    "sendemail.transferEncoding": ("send-email", "--transfer-encoding=(7bit|8bit|quoted-printable|base64|auto)"),
    "format.coverFromDescription": ("format-patch", "--cover-from-description=*"),
    "log.diffMerges": (
        "log",
        "--diff-merges=(off|none|on|first-parent|1|separate|m|combined|c|dense-combined|cc|remerge|r)",
    ),
}
# settings that the page documents together, for each `*`: the prefix of their keys, and the page's term for them
FAMILIES = {
    "credential.*.": "credential.<url>.*",
    "http.*.": "http.<url>.*",
    "sendemail.*.": "sendemail.<identity>.*",
    "gitcvs.ext.": "gitcvs.<access_method>.<varname>",
    "gitcvs.pserver.": "gitcvs.<access_method>.<varname>",
}
# kinds for which a text may be one of the words of the row
SINGLE = ["word", "bool-or-word", "int-or-word"]
ESCAPES = {r"\&": "", r"\-": "-", r"\(aq": "'", r"\(lq": '"', r"\(rq": '"'}


def page(name):
    """The text of a page of the manual, such as `git-config.1`, without fonts; empty if it is not installed."""
    file = MANUAL / f"man{name[-1]}" / f"{name}.gz"
    if not file.exists():
        return ""
    text = gzip.decompress(file.read_bytes()).decode()
    for escape, plain in ESCAPES.items():
        text = text.replace(escape, plain)
    return re.sub(r"\\f[BIR]", "", text)


def key_of(term):
    """The key of the row for a term of the page: `*` replaces the text from `<` to `>`."""
    return re.sub(r"<[^>]*>", "*", re.sub(r" \(.*\)$", "", term)).lower()


def sections(text):
    """What the page says about each key."""
    lines = text.split("\n")
    found = {}
    for start, line in enumerate(lines):
        if line != ".RS 4" or lines[start - 2] != ".PP":
            continue
        depth, end = 1, start
        while depth:
            end += 1
            depth += lines[end].startswith(".RS")
            depth -= lines[end] == ".RE"
        for term in lines[start - 1].split(", "):
            found.setdefault(key_of(term), "\n".join(lines[start + 1:end]))
    return found


def section(key, text, known):
    """The section of a key, or of its family; None if the page has no such section."""
    for front, family in FAMILIES.items():
        if key not in known and key.startswith(front) and family in text:
            key = f"{front.split('.')[0]}.{key.removeprefix(front)}"
    start, _, last = key.rpartition(".")
    if key not in known and start == "advice":
        return known.get(last)
    slots = known.get(f"{start}.*", "") if start.startswith("color.") else ""
    return known.get(key, slots if has_word(slots, last) else None)


def named(body, known):
    """The sections of other settings that a section names."""
    terms = set(re.findall(r"[A-Za-z]+\.[A-Za-z<>.*-]+", body))
    return "\n".join(known.get(key_of(term).rstrip("."), "") for term in terms)


def option(key, body):
    """The section of the option with the words of a setting, if the setting's own section names its page."""
    command, term = OPTIONS.get(key.replace(".*", ""), ("", ""))
    if not command or re.search(rf"\bgit[ -]{command}\b", body) is None:
        return ""
    return sections(page(f"git-{command}.1")).get(term, "")


def has_word(text, word):
    return re.search(rf"(?<![\w-]){re.escape(word)}(?![\w-])", text, re.IGNORECASE) is not None


def check(group):
    text = page("git-config.1")
    if VERSION not in text:
        group.skip("all", f"those of {VERSION} are not installed")
        return
    known = sections(text)
    taken = {question.value.strip("%Y") for question, told in settings.read().items()
             if question.value is not None and told[0] == "takes"}
    for row in settings.table().split(ELSEWHERE_READ)[0].splitlines():
        key, *rest = row.split()
        if key.startswith("#"):
            continue
        kind, *words = [word.strip("*") for word in rest if not settings.MARKS.fullmatch(word)]
        if key in ELSEWHERE:
            term = key.replace("*", "<driver>")
            group.expect(key, True, term in page(ELSEWHERE[key]))
            continue
        body = section(key.lower(), text, known)
        if not group.expect(key, True, body is not None):
            continue
        command, _ = OPTIONS.get(key.replace(".*", ""), ("config", ""))
        if not page(f"git-{command}.1"):
            continue
        said = "\n".join([body, named(body, known), option(key, body)])
        for word in words if kind.removesuffix("-any-case") in SINGLE else []:
            group.expect((key, word), True, has_word(said, word) or word in taken)
