"""Runs each example in the libraries' comments, and the first one in README.md, as a test on a copy of the library.

An example is a fenced block of Rust. If a line of it begins with `# `, these two bytes are removed. Each public type or
trait in the crates of CALLS and MORE, and each item that they name, has to have an example. If a comment cites a
section of docs/GRAMMAR.md, it has to exist. `rt try` runs the examples and proves nothing. pages.py calls this module,
which can put the tests of the crate `tests` into the same build, since most of it is that of the library.
"""
import pathlib
import re
import shutil
import subprocess
import sys
import tempfile

import reference

ROOT = pathlib.Path(__file__).resolve().parent.parent.parent
# each library, with the calls and types that a user needs first
CALLS = {
    "config_text": ("text", "lookup", "normalize_as"),
    "config_integer": ("from_bytes", "to_decimal"),
    "config_boolean": (),
    "config_word": ("word",),
    "config_color": ("compose", "space_at"),
    "config_path": ("interpolate", "home_for_user"),
    "gix_config_value": ("from_str", "normalize", "same", "refusal", "run"),
    "config_file": ("text", "get", "spell_value", "is_remote_url"),
    "config_edit": ("set", "add", "unset", "rename_section"),
    "config_url": ("last_for_url",),
    "config_search": ("Search",),
    "config_host": ("settings_here", "Locked"),
}
# the crates that use the library
MORE = {"config_checks": ("check_file", "Options", "Setting", "Version"), "config_answers": (),
        "uses": ("color_of_both", "default_warning", "is_bare", "path_at_home", "path_of_user", "preview",
                 "push_default", "read", "six_settings", "value_of")}
FENCED = re.compile(r"^```(\w*)\n(.*?)^```$", re.MULTILINE | re.DOTALL)
CITED = re.compile(r"docs/GRAMMAR\.md, ([A-Z][^.]*)")
AT_THE_ROOT = ("Boolean", "Color", "Error", "Fault", "Integer", "Path", "Returned")


def blocks(text):
    return [block for language, block in FENCED.findall(text) if language in ("", "rust")]


def test(name, block):
    """A test that runs the lines of an example. Missing imports and a missing allocator are added before them."""
    body = re.sub(r"^# |^\s*\n", "", block, flags=re.MULTILINE)
    names = [name for name in AT_THE_ROOT if re.search(rf"\b{name}\b", body)]
    if names and not re.search(r"^use (gix_config_value|config_file)::", body, re.MULTILINE):
        body = f"use gix_config_value::{{{', '.join(names)}}};\n{body}"
    if re.search(r"\balloc\b", body):
        body = f"let alloc = rt.alloc();\n{body}"
    return f"\n#[test]\nfn {name}(rt: HostRuntime) -> Result<(), Fail> {{\n{body}Ok(())\n}}\n"


def line_of(crate):
    return re.search(f"^{crate}:.*\n", (ROOT / "crates.txt").read_text(encoding="utf-8"), re.MULTILINE)[0]


def run(tests, others):
    """For each test, a fault in words and whether it passes, and with `others` also for those of the crate `tests`. If
    one does not, or did not run, prints the end of the output."""
    with tempfile.TemporaryDirectory() as folder:
        root = pathlib.Path(folder)
        subprocess.run(["sh", ROOT / "vendor.sh", root], check=True)
        for crate in (*MORE, "tests") if others else MORE:
            shutil.copytree(ROOT / "crates" / crate, root / "crates" / crate,
                            ignore=shutil.ignore_patterns("out", "wrong_bodies"))
        used = dict.fromkeys(["bstr", "bumpalo", *CALLS, *MORE, *(line_of("tests").split()[1:] if others else [])])
        with open(root / "crates.txt", "a", encoding="utf-8") as listed:
            listed.write("".join(map(line_of, MORE)) + f"tests: {' '.join(used)}\n")
        (root / "crates/tests/src").mkdir(parents=True, exist_ok=True)
        with open(root / "crates/tests/src/lib.rt", "a", encoding="utf-8") as listed:
            listed.write(("" if others else "#![tactic(auto)]\n") + "#[cfg(test)]\nmod examples;\n")
        text = "use std::test::Fail;\n" + "".join(test(*named) for named in tests.items())
        (root / "crates/tests/src/examples.rt").write_text(text, encoding="utf-8")
        done = subprocess.run([sys.executable, ROOT / ".ci/try.py", "--test"], cwd=root / "crates/tests",
                              stdout=subprocess.PIPE, stderr=subprocess.STDOUT, text=True, check=False)
    found = dict(re.findall(r"^test (\S+) \.\.\. (\w+)$", done.stdout, re.MULTILINE))
    ended = [(f"the example {name} does not pass", found.pop(f"examples::{name}", "") == "ok") for name in tests]
    ended += [(f"the test {name} does not pass", end == "ok") for name, end in found.items()]
    if done.returncode == 0 and all(is_right for _, is_right in ended):
        return ended
    print(done.stdout[-2000:])
    return [*ended, ("the run of all tests failed", False)]


def results(others):
    """Each possible fault in words, and whether its check passes; with `others` also the tests of the crate `tests`."""
    checked = []
    sections = re.findall(r"^## ([^(\n]*\w)", (ROOT / "docs/GRAMMAR.md").read_text(encoding="utf-8"), re.MULTILINE)
    tests = {"readme": blocks((ROOT / "README.md").read_text(encoding="utf-8"))[0]}
    public = {item for module in reference.Reference(None).modules.values() for item in module.shown}
    for crate, calls in (CALLS | MORE).items():
        missing = set(calls)
        for file in sorted((ROOT / "crates" / crate / "src").rglob("*.rt")):
            lines, items = re.findall(r"(?m)^ *//([/!]) ?(.*)$", file.read_text("utf-8")), reference.opened(file).items
            page = "\n".join(line for sign, line in lines if sign == "!")
            for comment, name, item in [(page, "page", None), *((item.doc, item.name, item) for item in items)]:
                found = blocks(comment)
                if item in public and item.kind in ("struct", "enum", "trait"):
                    is_shown = found or re.search(r"example\s+of \[`", comment)
                    checked.append((f"{file}: {name} has no example", bool(is_shown)))
                missing -= {name} if found else set()
                for block in found:
                    label = re.sub(r"(?<=[a-z])(?=[A-Z])", "_", f"{crate}_{file.stem}_{name}").lower()
                    tests[f"{label}_{len(tests)}"] = block
            for cited in CITED.findall(" ".join(line for _, line in lines)):
                is_there = any(cited.startswith(section) for section in sections)
                checked.append((f"{file}: docs/GRAMMAR.md has no section {cited}", is_there))
        checked.append((f"{crate} has calls without an example: {missing}", not missing))
    return checked + run(tests, others)
