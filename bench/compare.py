"""Measures the calls of the C interface, the Rust crate's and plain C, and writes a Markdown table.

python3 compare.py [--rounds N] [--milliseconds N] [--prefix PREFIX] [--only WORD]

A batch is so short that other programs interrupt few batches: while they run, most ratios change by less than a tenth.
PREFIX is where crates/gix_config_value_c/build.sh has put the library; without it, the library is proved and built into
a folder of its own. --only takes the rows of rows.tsv with that word. upstream/build.py builds the Rust crate's side,
and says how to name its sources; if the crate cannot be had it says `skipped` and why. Answers that differ end it with
status 1.

The three libraries are linked into one process and called in batches, in turn, for as many rounds as --rounds says, in
four layouts: the code of each library at its place, or moved by 16 bytes. The nanoseconds are the least of all rounds,
and include the call and its loop. A ratio of a layout is the median of its rounds' ratios; `This to Rust` is the median
of the layouts, and `Over the layouts` has the least and the greatest. limit.c is plain C without proofs: about how low
the ratio of this library can get. `-` means that a library has no such call. For `normalize` the Rust crate's reader
and its `Display` are measured, and a refusal costs the Rust crate an error with a copy of the text.
"""
import argparse
import datetime
import os
import pathlib
import re
import shlex
import statistics
import subprocess
import sys
import tempfile

HERE = pathlib.Path(__file__).resolve().parent
INTERFACE = HERE.parent / "crates/gix_config_value_c"
sys.path.insert(0, str(HERE / "upstream"))

import build  # noqa: E402

KINDS = ["suffix", "integer", "amount", "boolean", "name", "attribute", "color"]
# the libraries of the system that a static library of Rust needs
SYSTEM = ["-lgcc_s", "-lutil", "-lrt", "-lpthread", "-lm", "-ldl"]
# whether the code of this library, and of all that follows, is moved, and whether that of the Rust crate is moved again
LAYOUTS = [(0, 0), (1, 0), (0, 1), (1, 1)]
HEADINGS = ["Row", "Call", "Rust crate, ns", "This library, ns", "Plain C, ns"]
HEADINGS += ["This to Rust", "Over the layouts", "Plain C to Rust"]


def bytes_of(text):
    """The bytes of a text, in which \\xHH is one byte."""
    return re.sub(rb"\\x([0-9a-f]{2})", lambda found: bytes.fromhex(found[1].decode()), text.encode())


def rows():
    """The rows: the name of each, its call and kind, and the line that the driver reads."""
    for line in (HERE / "rows.tsv").read_text(encoding="utf-8").splitlines():
        if line.startswith("# "):
            continue
        row, asked, part, times, end = line.split("\t")
        call, _, kind = asked.partition(" ")
        text, end = bytes_of(part) * int(times), bytes_of(end)
        if call not in ("same", "compose"):
            text, end = text + end, b""
        number = KINDS.index(kind) + 1 if kind else 0
        yield row, asked, f"{call}\t{number}\t{text.hex()}\t{end.hex()}\n"


def run(*command):
    """Runs a command. If it fails, ends the program with what it says."""
    ran = subprocess.run([str(word) for word in command], stdout=subprocess.PIPE, stderr=subprocess.STDOUT, check=False)
    if ran.returncode != 0:
        sys.exit(ran.stdout.decode(errors="replace")[-4000:])


def drivers(folder, prefix, crate):
    """Links the driver and the libraries, once for each layout."""
    compiler = shlex.split(os.environ.get("CC", "cc"))
    flags = ["-std=gnu11", "-O2", "-Wall", "-Wextra", f"-I{prefix}/include", f"-I{HERE}/upstream"]
    for name in ("compare", "limit", "shift"):
        run(*compiler, *flags, "-c", HERE / f"{name}.c", "-o", folder / f"{name}.o")
    ours, theirs = f"{prefix}/lib/libgix_config_value.a", f"{crate}/libupstream.a"
    for first, second in LAYOUTS:
        shift = [folder / "shift.o"]
        objects = [folder / "compare.o", *shift * first, ours, *shift * second, theirs, folder / "limit.o"]
        program = folder / f"compare{first}{second}"
        run(*compiler, *objects, *SYSTEM, "-o", program)
        yield program


def figures(program, arguments, asked):
    """The figures that the driver measures for each row; None for a figure that does not exist."""
    command = [program, str(arguments.rounds), str(arguments.milliseconds)]
    lines = "".join(line for _, _, line in asked)
    measured = subprocess.run(command, input=lines, stdout=subprocess.PIPE, text=True, check=False)
    if measured.returncode != 0:
        sys.exit(measured.returncode)
    return [[None if one == "-" else float(one) for one in line.split("\t")] for line in measured.stdout.splitlines()]


def machine():
    """The model of the processor, and the number of processors."""
    told = pathlib.Path("/proc/cpuinfo").read_text(encoding="utf-8")
    found = re.search(r"^model name\s*:\s*(.*)", told, re.MULTILINE)
    return f"{found[1] if found else 'unknown model'}, {os.cpu_count()} processors"


def load():
    return f"{os.getloadavg()[0]:.1f}"


def head(before):
    """The line before a table, after all is measured."""
    return f"{machine()}; load {before} before and {load()} after; {datetime.date.today().isoformat()}.\n"


def nanoseconds(of_layouts):
    """The least nanoseconds, as the table shows them."""
    least = min(of_layouts) if None not in of_layouts else None
    return "-" if least is None else f"{least:.1f}" if least < 100 else f"{least:,.0f}"


def ratio(of_layouts):
    return "-" if None in of_layouts else f"{statistics.median(of_layouts):.2f}"


def span(of_layouts):
    return "-" if None in of_layouts else f"{min(of_layouts):.2f} to {max(of_layouts):.2f}"


def main():
    arguments = argparse.ArgumentParser()
    arguments.add_argument("--rounds", type=int, default=60, help="for each layout")
    arguments.add_argument("--milliseconds", type=float, default=0.3, help="how long a batch takes")
    arguments.add_argument("--prefix", type=pathlib.Path)
    arguments.add_argument("--only", default="", help="a word that the row or its call has")
    arguments = arguments.parse_args()
    crate = build.built()
    asked = [row for row in rows() if arguments.only in row[0] or arguments.only in row[1]]
    with tempfile.TemporaryDirectory() as folder:
        prefix = arguments.prefix
        if prefix is None:
            prefix = pathlib.Path(folder) / "prefix"
            run("sh", INTERFACE / "build.sh", prefix)
        programs = list(drivers(pathlib.Path(folder), prefix, crate))
        before = load()
        measured = [figures(program, arguments, asked) for program in programs]
    print(head(before))
    print("| " + " | ".join(HEADINGS) + " |")
    print("|---" * len(HEADINGS) + "|")
    for (row, call, _), *layouts in zip(asked, *measured, strict=True):
        rust, ours, limit, to_rust, limit_to_rust = zip(*layouts)
        cells = [row, call, *map(nanoseconds, (rust, ours, limit)), ratio(to_rust), span(to_rust), ratio(limit_to_rust)]
        print("| " + " | ".join(cells) + " |")
    return 0


if __name__ == "__main__":
    sys.exit(main())
