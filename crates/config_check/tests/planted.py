"""The mistakes of planted.txt, and what Git says to lines that it cannot read: each is found, with what was meant."""
import json
import pathlib

from checking import Ended

LINES = pathlib.Path(__file__).with_name("planted.txt")

# a file that Git cannot read: its text, and the line, the column and the cause of what is wrong
UNREAD = [
    (b"[core]\n\teditor = \"vi\n", 2, 11, "a quote is open"),
    (b"[core]\n\teditor = vi\"\n[user]\n", 2, 13, "a quote is open"),
    (b"[core]\n\teditor = C:\\vim\n", 2, 13, "no escape: only \\\\, \\\", \\n, \\t and \\b are"),
    (b"[core]\n\tmy_key = 1\n", 2, 4, "a key has only letters, digits and -"),
    (b"[user]\n\tsigning_key = 1\n", 2, 9, "a key has only letters, digits and -; did you mean signingKey?"),
    (b"[core]\n\tcolor_moved = 1\n[x]\n", 2, 7, "a key has only letters, digits and -"),
    (b"[core]\n[diff] color_moved_ws = 1\n", 2, 13, "a key has only letters, digits and -; did you mean colorMovedWS?"),
    (b"[core]\n\teditor: vi\n", 2, 8, "a = belongs here, and no :"),
    (b"[core]\n\teditor vi\n", 2, 9, "no = after the key"),
    (b"[core]\n<<<<<<< HEAD\n", 2, 1, "a mark of a merge that is not finished"),
    (b"[core]\n\tbare = no\n=======\n", 3, 1, "a mark of a merge that is not finished"),
    (b"[core]\n>>>>>>> b\n", 2, 1, "a mark of a merge that is not finished"),
    (b"[core]\n// bare\n", 2, 1, "a comment begins with # or ;"),
    (b"[core]\n\t1st = x\n", 2, 2, "a key begins with a letter"),
    (b"[core\n\tbare = no\n", 1, 6, "the header has no ]"),
    (b"[remote origin]\n\turl = x\n", 1, 9, "a subsection stands in quotes"),
    (b"[remote \"origin]\n\turl = x\n", 1, 9, "a quote is open"),
    (b"[core]\n\teditor\xc2\xa0= vi\n", 2, 8, "a no-break space, U+00A0, which Git does not take for a space"),
    (b"[core]\n\t\xe2\x80\x8beditor = vi\n", 2, 2, "a space without width, U+200B, which no key has"),
    (b"[my_tool]\n\tx = y\n", 1, 4, "a section has only letters, digits, - and ."),
    ("[core]\n\tbare = no\n".encode("utf-16"), 1, 1, "the file is UTF-16, and Git reads UTF-8"),
]


def found(program, data):
    """The findings as objects, by their lines."""
    came = program.run(["--format", "json", "-"], data)
    return {one["line"]: one for one in map(json.loads, came.output.splitlines())}


def check(group, program):
    lines = [line.split("\t") for line in LINES.read_text(encoding="utf-8").splitlines() if not line.startswith("#")]
    told = found(program, "".join(f"{text}\n" for text, _, _ in lines).encode())
    for number, (text, severity, meant) in enumerate(lines, 1):
        one = told.get(number, {"severity": None, "suggested_key": None, "suggested_value": None})
        group.expect(text, (severity, None if meant == "-" else meant), (one["severity"], one["suggested_key"] or one["suggested_value"]))
    for text, line, column, why in UNREAD:
        wanted = [(line, column, "error", f"Git cannot read this line, and reads nothing of the file: {why}")]
        came = [tuple(one[name] for name in ("line", "column", "severity", "reason")) for one in found(program, text).values()]
        group.expect(text, wanted, came[-1:])
    group.expect("a value that is cut", Ended(1, b"-:1:8: error: core.bare: '" + b"x" * 80 + b"..' (81 bytes): Booleans", b""),
                 beginning(program, b"[core] bare = " + b"x" * 81 + b"\n"))
    group.expect("a value that fits", Ended(1, b"-:1:8: error: core.bare: '" + b"x" * 80 + b"': Booleans", b""),
                 beginning(program, b"[core] bare = " + b"x" * 80 + b"\n"))


def beginning(program, data):
    """The run, with its output up to its first word about booleans, and without the counts."""
    came = program.run(["-"], data)
    return came._replace(output=came.output.partition(b"Booleans")[0] + b"Booleans", errors=b"")
