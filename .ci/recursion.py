"""No function calls itself, since a stack is short and an input may be long. Nor does one call itself through others, which
takes a mark `cycle`. The last line is 'N passed, M failed'.
"""
import pathlib
import re
import sys

CRATES = pathlib.Path(__file__).resolve().parent.parent / "crates"
CYCLE = re.compile(r"^ *#\[cycle\b", re.MULTILINE)
HEAD = re.compile(r'^( *)(?:pub(?:\([a-z]+\))? )?(?:const )?(?:extern "C" )?fn (\w+)\b', re.MULTILINE)


def body(text, head):
    """What is between the braces of a function, or nothing if it has no body, or a body on the line of its head."""
    begin = re.compile(r";$|\{$", re.MULTILINE).search(text, head.end())
    end = re.compile(rf"^{head[1]}\}}", re.MULTILINE).search(text, head.end())
    return text[begin.end():end.start()] if begin and begin[0] == "{" and end else ""


def calls_itself(text, head):
    """Whether a function calls itself: a method by `self` or `Self`, any other by its name alone."""
    callee = rf"(?:\bself\.|\bSelf::){head[2]}\(" if head[1] else rf"(?<![\w.:]){head[2]}(?:::<[^>]*>)?\("
    return re.search(callee, re.sub(r"//[^\n]*", "", body(text, head)))


def main():
    count, faults = 0, []
    for file in sorted(CRATES.glob("*/src/**/*.rt")):
        text, name = file.read_text(encoding="utf-8"), file.relative_to(CRATES).as_posix()
        faults += [f"{name} has a mark `cycle`"] * len(CYCLE.findall(text))
        for head in HEAD.finditer(text):
            count += 1
            if calls_itself(text, head):
                faults.append(f"{name} {head[2]} calls itself")
    print(*faults, f"{count - len(faults)} passed, {len(faults)} failed", sep="\n")
    return 1 if faults or not count else 0


sys.exit(main())
