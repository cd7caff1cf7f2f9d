"""Measures the Python package, plain Python and pygit2: python3 bench/python.py FOLDER..

Each FOLDER has a package, as pip's --target makes it. A row has the least processor time of seven turns, all in one
run: first that of plain Python, in the rows of files that of pygit2 or `-` without it, then that of each package. That
of an import is without a bare start, and memory is what is kept of the file with 100,000 entries, each time all of it.
"""
import importlib.util
import os
import pathlib
import resource
import subprocess
import sys
import tempfile

from files import SECTION

TURNS = 7
PLAIN = """
import re
TRUE, FALSE = {"yes", "on", "true"}, {"no", "off", "false", ""}
COLORS = {word: at for at, word in enumerate("black red green yellow blue magenta cyan white".split())}
WORDS = set("bold dim ul blink italic reverse strike".split())

def boolean(text):
    word = text.lower()
    if word in TRUE:
        return True
    if word in FALSE:
        return False
    raise ValueError(text)

def integer(text):
    found = re.fullmatch(r"([+-]?[0-9]+)([kmg]?)", text, re.IGNORECASE)
    if not found:
        raise ValueError(text)
    return int(found[1]) << {"": 0, "k": 10, "m": 20, "g": 30}[found[2].lower()]

def color(text):
    names, words = [], set()
    for word in text.split():
        if word.lower() in COLORS and len(names) < 2:
            names.append(word.lower())
        elif word in WORDS:
            words.add(word)
        else:
            raise ValueError(text)
    return names, words

def refused(text):
    try:
        boolean(text)
    except ValueError:
        pass

config = {f"core.key{at}": "yes" for at in range(1000)}
lookup = value = lambda key: boolean(config[key])
"""
OF_PACKAGE = """
import gix_config_value as it
boolean, integer, color = it.boolean, it.integer, it.Color.parse
entries = {f"core.key{at}": "yes" for at in range(1000)}
config = it.Configuration(it.Entry("config", 1, *entry) for entry in entries.items())
lookup = lambda key: it.lookup("boolean", entries, key)
value = lambda key: config.value(key, boolean)

def refused(text):
    try:
        boolean(text)
    except it.Refused:
        pass
"""
ROWS = {"a boolean": 'boolean("yes")', "an integer": 'integer("10m")', "a color": 'color("bold red ul blue")',
        "a refused boolean": 'refused("maybe")', "one of 1,000 settings": 'lookup("core.key500")',
        "a text by key": 'config["core.key500"]', "a boolean by key": 'value("core.key500")'}
OF_PYGIT2 = """
import pygit2
read, read_repository = pygit2.Config, lambda folder: pygit2.Repository(folder).config
listed = lambda config: [(entry.name, entry.value) for entry in config]
"""
OF_FILES = """
from gix_config_value import read, read_repository
listed = lambda config: [(entry.key, entry.text) for entry in config.entries]
"""
KEPT = """
import resource
def used():
    with open("/proc/self/statm") as told:
        return int(told.read().split()[1]) * resource.getpagesize()
before = used()
"""
FILES = {"reading 100,000 entries": "read({file!r})", "the same, listed": "listed(read({file!r}))",
         "a small repository": "read_repository({folder!r})"}


def run(folder, code):
    environment = {**os.environ, "PYTHONPATH": folder}
    return subprocess.run([sys.executable, "-c", code], env=environment, check=True, stdout=subprocess.PIPE, text=True).stdout


def microseconds(folder, setup, statement):
    code = f"""
import time, timeit
timer = timeit.Timer({statement!r}, {setup!r}, time.process_time)
count, seconds = timer.autorange()
print(min([seconds, *timer.repeat({TURNS - 1}, count)]) / count * 1e6)"""
    return float(run(folder, code))


def milliseconds(folder, code):
    def used():
        children = resource.getrusage(resource.RUSAGE_CHILDREN)
        return children.ru_utime + children.ru_stime

    times = []
    for _ in range(3 * TURNS):
        before = used()
        run(folder, code)
        times.append(used() - before)
    return min(times) * 1e3


def files(folders, work):
    """Prints the rows of files."""
    file, folder = f"{work}/config", f"{work}/repository"
    pathlib.Path(file).write_text("".join(SECTION % number for number in range(25_000)), encoding="utf-8")
    subprocess.run(["git", "init", "-q", folder], check=True)
    os.environ.update(HOME=work, GIT_CONFIG_NOSYSTEM="1")
    pathlib.Path(work, ".gitconfig").write_text("[user]\n\tname = A\n\temail = a@b\n[core]\n\teditor = vi\n")
    asked = [("", OF_PYGIT2)] if importlib.util.find_spec("pygit2") else []
    asked += [(it, OF_FILES) for it in folders]
    for name, statement in FILES.items():
        statement = statement.format(file=file, folder=folder)
        times = [microseconds(it, setup, statement) for it, setup in asked]
        print(f"{name:24}", "        -" * (len(folders) + 1 - len(asked)), *(f"{time:9.0f}" for time in times))
    kept = [float(run(it, f"{setup}{KEPT}config = read({file!r})\nprint(used() - before)")) for it, setup in asked]
    print(f"{'bytes kept of an entry':24}", "        -" * (len(folders) + 1 - len(asked)),
          *(f"{it / 100_000:9.0f}" for it in kept))


def main():
    folders = sys.argv[1:]
    print(f"{'microseconds':24}", "    plain", *("  package" for _ in folders))
    for name, statement in ROWS.items():
        times = [microseconds("", PLAIN, statement), *(microseconds(it, OF_PACKAGE, statement) for it in folders)]
        print(f"{name:24}", *(f"{time:9.2f}" for time in times))
    bare = milliseconds("", "")
    imports = [milliseconds(it, "import gix_config_value") - bare for it in folders]
    print(f"{'an import, ms':24}", f"{0:9.2f}", *(f"{it:9.2f}" for it in imports))
    with tempfile.TemporaryDirectory() as work:
        files(folders, work)


main()
