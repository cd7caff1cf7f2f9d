"""Compares what git_settings' edits leave in files with what they ask, and with Git: edits.py PROGRAM [--edits N]
[--seed S] [--git GIT].

Draws files and edits, and sequences of 50 edits. Git lists the file before and after: the entries have to be the old
ones with exactly that change. Each line without the key has to be kept, byte for byte. Prints how often the bytes are
Git's own.
"""
import argparse
import collections
import os
import pathlib
import random
import re
import shutil
import subprocess
import tempfile

KEYS = ("a.k", "a.j", "A.K", "a.B.k", "a.b.k", "b.k", "b.x y.k", "c.d", "a", ".k", "a.k_", "a.-k", "é.k", "a.x\ny.k")
NAMES = ("a", "b", "a.B", "a.b", "b.x y", "c", "", "a_b", "A", "d.e\\f")
VALUES = ("", "v", "true", " v", "v ", "a#b", "a;b", "a\tb", "a\\", 'q"q', "a\nb", "\rx", "x\r", "é", "a  b", "~/x", "\b")
PATTERNS = ("v", "^$", "!v", "1|true", "!", "^v?$", ".")
HEADERS = (b"[a]", b"[A]", b'[a "B"]', b"[a.B]", b'[a "b"]', b"[b]", b'[b "x y"]', b'[ b]', b"[c]", b'[a\t"B"]', b'[b "x\\y"]')
ENTRIES = (b"k = v", b"k=v", b"k", b"K =", b"k = ", b"k\t=\t v ", b"j = 1", b"j", b"k = \"a b\"", b"k = a \\\n  b", b"j = x#k",
           b"k = 'v'", b"d = 2", b"k = \"a;b\" # k", b"j = \"[a]\"", b"k = v\\", b"k =\\\n", b"k = v ; c")
BROKEN = (b"[a", b"[a.", b"[a. x", b'[a "B', b'[a "', b'[b "x."y', b"[]", b"[.]", b"9", b"[a]9", b'k = "v', b"k x", b"[a] [b")
BETWEEN = (b"\n", b"\n", b"\n", b"\n\n", b" # c\n", b"\n; [a]\n", b"\n# k = v\n", b"\r\n", b"\n\t", b" \n", b"")


def draw(rng):
    """A text that is mostly a file."""
    parts = [rng.choice((b"", b"", b"", b"\xef\xbb\xbf", b"# top\n", b"k = 1\n"))]
    for _ in range(rng.randrange(7)):
        parts.append(rng.choice((b"", b"\t", b"  ")))
        parts.append(rng.choice(HEADERS if rng.random() < 0.4 else ENTRIES if rng.random() < 0.98 else BROKEN))
        parts.append(rng.choice(BETWEEN) if parts[-1][:1] != b"[" or rng.random() < 0.9 else b" ")
    text = b"".join(parts)
    return text.replace(b"\n", b"\r\n") if rng.random() < 0.1 else text


def drawn_edit(rng):
    """The word, and its arguments."""
    word = rng.choice(("set", "set", "set", "append", "all", "all where", "unset", "unset-all", "unset-all where",
                       "rename-section", "remove-section"))
    if word == "rename-section":
        return word, (rng.choice(NAMES), rng.choice(NAMES))
    if word == "remove-section":
        return word, (rng.choice(NAMES),)
    key = rng.choice(KEYS[:8] if rng.random() < 0.9 else KEYS)
    arguments = (key,) if word.startswith("unset") else (key, rng.choice(VALUES))
    return word, (*arguments, rng.choice(PATTERNS)) if word.endswith(" where") else arguments


def words(word, arguments):
    """The arguments of the program, and those of Git's older flags, which all versions have."""
    if word.endswith(" where"):
        ours, gits = words(word.removesuffix(" where"), arguments[:-1])
        return [ours[0], f"--value={arguments[-1]}", *ours[1:]], [*gits, arguments[-1]]
    ours = {"append": ("set", "--append"), "all": ("set", "--all"), "unset-all": ("unset", "--all")}.get(word, (word,))
    gits = {"set": (), "append": ("--add",), "all": ("--replace-all",)}.get(word, (f"--{word}",))
    return [*ours, "--file", "f", *arguments], ["config", "--file", "f", *gits, *arguments]


def run(folder, command, text):
    """The status of a command over a file of this text, and the file afterwards."""
    file = folder / "f"
    file.write_bytes(text)
    done = subprocess.run(command, cwd=folder, capture_output=True, check=False)
    return done.returncode, file.read_bytes()


def listed(folder, git, text):
    """The entries of a text as Git lists them, a key alone with the value None, or None if Git refuses the text."""
    (folder / "f").write_bytes(text)
    done = subprocess.run([git, "config", "--file", "f", "--list", "-z"], cwd=folder, capture_output=True, check=False)
    if done.returncode != 0:
        return None
    parts = [entry.partition(b"\n") for entry in done.stdout.split(b"\0")[:-1]]
    return [(key, value if line else None) for key, line, value in parts]


def lowered(key):
    """A key as Git lists it."""
    section, dot, rest = key.partition(".")
    subsection, last, name = rest.rpartition(".")
    return (section.lower() + dot + subsection + last + name.lower()).encode()


def stem(name):
    """What Git lists before the keys of a section."""
    section, dot, subsection = name.partition(".")
    return (section.lower() + dot + subsection + ".").encode()


def fits(value, pattern):
    """Whether an entry with this value, or with None, changes if this is the pattern of values."""
    found = value is not None and re.search(pattern.removeprefix("!").encode(), value) is not None
    return found != pattern.startswith("!")


def is_in(key, front):
    """Whether a listed key is in the section of this stem."""
    return key.startswith(front) and b"." not in key[len(front):]


def is_right(word, arguments, before, after):
    """Whether the entries after the edit are those of before with exactly that change."""
    if word == "rename-section":
        old, new = map(stem, arguments)
        return after == [(new + key[len(old):] if is_in(key, old) else key, value) for key, value in before]
    if word == "remove-section":
        return after == [entry for entry in before if not is_in(entry[0], stem(arguments[0]))]
    key = lowered(arguments[0])
    has = [at for at, entry in enumerate(before)
           if entry[0] == key and (not word.endswith(" where") or fits(entry[1], arguments[-1]))]
    others = [entry for at, entry in enumerate(before) if at not in has]
    if word.startswith("unset"):
        return after == others
    value = arguments[1].encode()
    if word == "append" or not has:
        places = [at for at, entry in enumerate(after) if entry == (key, value)]
        return any(after[:at] + after[at + 1:] == before for at in places[-1:])
    at = has[-1] - len(has) + 1
    return after == others[:at] + [(key, value)] + others[at:]


def is_cut_from(line, other):
    """Whether a line is another one, or its end from a header on, out of which at most one piece is cut."""
    ends = [other, *(other[at:] for at, byte in enumerate(other) if byte == ord("["))]
    fronts = ((end, len(os.path.commonprefix((line, end)))) for end in ends)
    return any(len(line) <= len(end) and end.endswith(line[front:]) for end, front in fronts)


def keeps(word, arguments, old, new):
    """Whether each line that has neither the key nor, where headers may go, a header is kept, in order."""
    name = arguments[0].rpartition(".")[2].lower().encode()
    old, new = old.removeprefix(b"\xef\xbb\xbf"), new.removeprefix(b"\xef\xbb\xbf")
    rest = iter(new.replace(b"\r\n", b"\n").split(b"\n"))
    if word == "remove-section":
        rest = iter(old.replace(b"\r\n", b"\n").split(b"\n"))
        lines = new.replace(b"\r\n", b"\n").split(b"\n")
        return all(any(is_cut_from(line.strip(), other.strip()) for other in rest) for line in lines)
    lines = old.replace(b"\r\n", b"\n").split(b"\n")
    whole = [line for front, line in zip([b"", *lines], lines) if not front.endswith(b"\\") and not line.endswith(b"\\")]
    kept = [line for line in whole if line and name not in line.lower() and b"[" not in line]
    return all(any(line == other for other in rest) for line in kept)


def changed(before, section):
    """The statuses that the change of a section may have. One without entries may have no header."""
    return (0,) if any(is_in(key, stem(section)) for key, _ in before) else (0, 128)


def wanted(word, arguments, before, gits):
    """The statuses that an edit may have, if Git's is this."""
    if before is None:
        return (128, 255) if word.endswith("section") else (gits,)
    if word == "rename-section":
        section = arguments[1].partition(".")[0]
        is_name = arguments[1] and all(byte.isascii() and (byte.isalnum() or byte == "-") for byte in section)
        return changed(before, arguments[0]) if is_name and "\n" not in arguments[1] else (255,)
    if word == "remove-section":
        return changed(before, arguments[0])
    section, dot, rest = arguments[0].partition(".")
    name = rest.rpartition(".")[2]
    if not dot or not section and rest == name:
        return (2,)
    if not all(byte.isascii() and (byte.isalnum() or byte == "-") for byte in section + name) \
            or not name[:1].isalpha() or "\n" in rest:
        return (1,)
    count = sum(entry[0] == lowered(arguments[0]) and (not word.endswith(" where") or fits(entry[1], arguments[-1]))
                for entry in before)
    if word.startswith("unset-all"):
        return (0,) if count else (5,)
    if word == "unset":
        return (0,) if count == 1 else (5,)
    return (5,) if word == "set" and count > 1 else (0,)


def main():
    """Draws, edits and compares."""
    parser = argparse.ArgumentParser(description=__doc__)
    parser.add_argument("program", type=pathlib.Path)
    parser.add_argument("--edits", type=int, default=300)
    parser.add_argument("--seed", type=int, default=1)
    parser.add_argument("--git", default="git")
    options = parser.parse_args()
    if shutil.which(options.git) is None:
        print(f"skipped: the edits, since there is no {options.git}\n0 passed, 0 failed")
        return 0
    rng, counts, failed = random.Random(options.seed), collections.Counter(), 0
    program = str(options.program.resolve())
    with tempfile.TemporaryDirectory() as folder:
        folder = pathlib.Path(folder)
        text = b""
        for number in range(options.edits):
            # of each hundred edits the second half is a sequence over one text
            text = draw(rng) if number % 100 <= 50 else text
            word, arguments = drawn_edit(rng)
            before = listed(folder, options.git, text)
            ours, gits = words(word, arguments)
            status, new = run(folder, [program, *ours], text)
            git_status, git_new = run(folder, [options.git, *gits], text)
            is_good = status in wanted(word, arguments, before, git_status)
            if status == 0:
                after = listed(folder, options.git, new)
                is_good = is_good and is_right(word, arguments, before, after) and keeps(word, arguments, text, new)
                counts["done, with Git's bytes" if new == git_new else "done, with other bytes"] += 1
            else:
                is_good = is_good and new == text
                counts["refused, as by Git" if git_status else "refused, and done by Git"] += 1
            if not is_good:
                failed += 1
                print(f"{word} {arguments}: status {status} (Git {git_status})\n  {text}\n  {new}\n  {git_new} by Git")
            text = new
    print(", ".join(f"{name}: {count}" for name, count in sorted(counts.items())))
    print(f"{options.edits - failed} passed, {failed} failed")
    return int(failed > 0)


if __name__ == "__main__":
    raise SystemExit(main())
