"""Compares the reduced colors of the C library with a plain computation in C.

python3 depth.py PREFIX

PREFIX is where crates/gix_config_value_c/build.sh has put the library. depth.c is compiled (CC, or cc) and linked with
it. For each of the 2^24 colors and each palette number, at each depth, it computes the distances to all numbers that
may replace the color, takes the first of the least, and compares it with what gcv_reduce_color gives. The background
and the attributes have to stay. The last line is 'N passed, M failed', counted in colors; if there is no compiler it
says `skipped`, and nothing has passed.
"""
import os
import pathlib
import re
import shlex
import shutil
import subprocess
import sys
import tempfile

from programs import Missing, Wrong, counted

SOURCE = pathlib.Path(__file__).resolve().parent / "depth.c"
LAST = re.compile(r"(\d+) passed, (\d+) failed")


def ran(command):
    """What a command writes. It may end with status 0 or 1."""
    run = subprocess.run([str(word) for word in command], stdout=subprocess.PIPE, stderr=subprocess.STDOUT, text=True,
                         check=False)
    if run.returncode not in (0, 1):
        raise Wrong(f"{command[0]} ended with status {run.returncode}: {run.stdout}")
    return run.stdout


def compare(prefix):
    """Compiles and runs the comparison, and returns what passed and what failed."""
    compiler = shlex.split(os.environ.get("CC", "cc"))
    if shutil.which(compiler[0]) is None:
        raise Missing(f"there is no C compiler {compiler[0]}")
    with tempfile.TemporaryDirectory() as folder:
        program = pathlib.Path(folder) / "depth"
        told = ran([*compiler, "-std=gnu11", "-O2", "-Wall", "-Wextra", f"-I{prefix}/include", SOURCE,
                    f"{prefix}/lib/libgix_config_value.a", "-o", program])
        if not program.exists():
            raise Wrong(told)
        *differences, last = ran([program]).splitlines()
    print(*differences, sep="\n", end="\n" if differences else "")
    found = LAST.fullmatch(last)
    if found is None:
        raise Wrong(f"depth.c ended with {last!r}")
    return int(found[1]), int(found[2])


if len(sys.argv) != 2:
    sys.exit(__doc__)
sys.exit(counted(lambda: compare(sys.argv[1])))
