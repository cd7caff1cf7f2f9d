#!/usr/bin/env python3
"""Compares gcv_uses_color with Git: colored.py PROGRAM

PROGRAM is the built colored.c. For each text of a key and of color.ui, or none, on a terminal and elsewhere, with a TERM
that has colors and with `dumb`, it has to write what `git config --get-colorbool` writes, or to refuse what Git refuses.
Only the deciding text counts here, so one that Git would refuse stands alone. The last line is 'N passed, M failed'.
"""
import itertools
import os
import pathlib
import subprocess
import sys
import tempfile

# lines that follow a header, of which the last one has no value, and none for no entry
TEXTS = ["", "always", "ALWAYS", "auto", "Auto", "never", "nEveR", "true", "yes", "on", "1", "010", "2k", "false", "no",
         "off", "0", '""', "-1", '"always"']
REFUSED = ["sometimes", '"always "', "always auto", "al", "neverr", "08", "1.5"]
LINES = [None, *(f"= {text}" for text in TEXTS), ""]


def ran(*words, **more):
    run = subprocess.run(words, stdout=subprocess.PIPE, stderr=subprocess.DEVNULL, check=False, env={**os.environ, **more})
    return run.returncode, run.stdout


def text_of(own, general):
    """The text of a file in which these lines follow the names of the key and of color.ui."""
    return "".join(f"[color{header}]\n\t{name} {line}\n" for header, name, line in (("", "table", own), ("", "ui", general))
                   if line is not None)


def main(program):
    passed = failed = 0
    texts = [text_of(own, general) for own, general in itertools.product(LINES, LINES[:8] + LINES[-9:])]
    texts += [text_of(own, general) for line in REFUSED for own, general in ((f"= {line}", None), (None, f"= {line}"))]
    texts += ["[color]\ntable = never\n[Color]\nTABLE = always\n", "[color]\nui = 0\nui = always\n[color \"table\"]\nui = no\n"]
    with tempfile.TemporaryDirectory() as folder:
        file = pathlib.Path(folder, "config")
        for text, is_terminal, term in itertools.product(texts, ("true", "false"), ("xterm", "dumb")):
            file.write_text(text, encoding="utf-8")
            wanted = ran("git", "config", "-f", file, "--get-colorbool", "color.table", is_terminal, TERM=term)
            given = ran(program, file, "color.table", is_terminal, TERM=term)
            if wanted == given:
                passed += 1
            else:
                failed += 1
                print(f"{text!r} {is_terminal} {term}: Git {wanted}, here {given}")
    print(f"{passed} passed, {failed} failed")
    return failed != 0


sys.exit(main(sys.argv[1]))
