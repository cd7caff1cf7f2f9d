"""How the program ends if it cannot read or write, and what it writes on a terminal."""
import os
import pathlib
import pty
import resource
import select
import tempfile

import rows
from checking import CANNOT, UNREAD, Ended, arguments, run, summary
from plain_reader import finding

FULL = pathlib.Path("/dev/full")
FINDING = b"[test] bool = maybe\n"
# so many findings that no buffer holds them
MANY = 20_000
# a file that is larger than the address space of a process, and that address space, in bytes
LONG, ADDRESSES = 20_000_000, 16_000_000
# the length of a value that fits into it, and whose JSON does not, since each byte is shown as six
SHOWN = 3_000_000
RED, PLAIN = b"\x1b[31m", b"\x1b[m"


def expect_cannot(group, what, came, front=CANNOT):
    """Expects that nothing was written, and that a line says what could not be read or written."""
    is_said = any(line.startswith(front) and line.endswith(b"\n") for line in came.errors.splitlines(True))
    group.expect((what, came.errors), (2, b"", True), (came.status, came.output or b"", is_said))


def closed_pipe(group, program, how):
    """The reader of the output is closed: before the program starts, or after it has read some bytes."""
    for data in (FINDING, FINDING * MANY):
        reader, writer = os.pipe()
        os.close(reader)
        # a process that another thread starts has a copy of the reader until it runs its program
        waiting = select.poll()
        waiting.register(writer, 0)
        waiting.poll()
        came = program.run(how, data, stdout=writer)
        os.close(writer)
        group.expect("a pipe that nothing reads", Ended(2, None, b""), came)
    shell = ["sh", "-c", '{ "$@"; echo "status $?" >&2; } | head -c 10', "sh", program.path, *how]
    came = run(shell, FINDING * MANY)
    group.expect("a pipe that is closed early", Ended(0, b"-:1:8: err", b"status 2\n"), came)


def full_device(group, program, how):
    if not FULL.exists():
        group.skip("a full device", f"there is no {FULL}")
        return
    for data in (FINDING, FINDING * MANY):
        with FULL.open("wb") as full:
            came = program.run(how, data, stdout=full)
        expect_cannot(group, FULL, came)
    for argument in ("--help", "--version"):
        with FULL.open("wb") as full:
            came = program.run([argument], b"", stdout=full)
        expect_cannot(group, argument, came)


def closed_files(group, program, how):
    """Standard input or output is closed, or standard input is a folder."""
    for redirection, front in (("<&-", UNREAD), (">&-", CANNOT)):
        shell = ["sh", "-c", f'exec "$@" {redirection}', "sh", program.path, *how]
        came = run(shell, FINDING)
        expect_cannot(group, redirection, came, front)
    folder = os.open(program.folder, os.O_RDONLY)
    came = program.run(how, stdin=folder)
    os.close(folder)
    expect_cannot(group, "a folder", came, UNREAD)


def memory(group, program, how):
    """There is not enough memory for a file, or for the line of a finding."""
    if b"__asan_init" in pathlib.Path(program.path).read_bytes():
        group.skip("the end of memory", "a checked build needs more addresses to start")
        return

    def starve():
        resource.setrlimit(resource.RLIMIT_AS, (ADDRESSES, ADDRESSES))

    with tempfile.TemporaryFile() as entries:
        entries.write(FINDING + b"1" * LONG)
        entries.seek(0)
        came = program.run(how, stdin=entries, preexec_fn=starve)
    group.expect("no memory", Ended(2, b"", b"config_check: no memory\n"), came)
    came = program.run(how, FINDING, preexec_fn=starve)
    line = finding((1, 8), (b"test.bool", b""), (b"maybe", b""), rows.BOOLEAN_FAULT)
    group.expect("memory enough", Ended(1, line, summary((1, 1, 0, 1))), came)
    came = program.run(["--format", "json", *how], b'[test] bool = "' + b"\1" * SHOWN + b'"\n', preexec_fn=starve)
    group.expect("no memory for a line", Ended(2, b"", b"config_check: no memory\n"), came)


def written_on_terminal(terminal):
    """The bytes that were written on a terminal whose other end is closed."""
    found = b""
    while True:
        try:
            more = os.read(terminal, 4096)
        except OSError:
            return found
        if not more:
            return found
        found += more


def on_terminal(program, how, data, environment):
    """How a run ends whose standard output is a terminal."""
    ours, programs = pty.openpty()
    came = program.run(how, data, stdout=programs, env=environment)
    os.close(programs)
    output = written_on_terminal(ours).replace(b"\r\n", b"\n")
    os.close(ours)
    return came._replace(output=output)


def terminal(group, program, how):
    """The severity has its color on a terminal that TERM names, and not as dumb, unless NO_COLOR has a value, and
    nowhere else, unless --color says so. On any terminal the line of the file follows."""
    environment = dict(os.environ, TERM="xterm")
    environment.pop("NO_COLOR", None)
    data = FINDING + b'[test] bool = "\x1b[31m"\nx\0'
    lines = [finding((1, 8), (b"test.bool", b""), (b"maybe", b""), rows.BOOLEAN_FAULT),
             finding((2, 8), (b"test.bool", b""), (b"\\x1b[31m", b""), rows.BOOLEAN_FAULT), b"-:3:2: " + rows.NUL.replace(b"\n", b" [invalid-line]\n")]
    excerpts = [(b"[test] bool = maybe", 14, 5), (b'[test] bool = "?[31m"', 15, 5), (b"x?", 1, 1)]
    plain = Ended(1, b"".join(lines), summary((2, 2, 0, 3)))
    red = plain._replace(output=plain.output.replace(b" error: ", b" " + RED + b"error: " + PLAIN))

    def shown(color):
        """The lines, each with the line of the file, and marks under what is wrong."""
        marked = [line + b"    " + text + b"\n" + b" " * (4 + before) + (RED if color else b"") + b"^" * count
                  + (PLAIN if color else b"") + b"\n" for line, (text, before, count) in
                  zip((red if color else plain).output.splitlines(True), excerpts)]
        return plain._replace(output=b"".join(marked))

    for more, wanted in (({}, shown(True)), ({"NO_COLOR": ""}, shown(True)), ({"NO_COLOR": "0"}, shown(False)),
                         ({"TERM": "dumb"}, shown(False))):
        group.expect(("a terminal", more), wanted, on_terminal(program, how, data, environment | more))
    nameless = {name: value for name, value in environment.items() if name != "TERM"}
    group.expect("a terminal without TERM", shown(False), on_terminal(program, how, data, nameless))
    came = on_terminal(program, ["--format", "json", *how], data, environment)
    group.expect("JSON on a terminal", (1, 3, False), (came.status, came.output.count(b"\n"), b"\x1b" in came.output))
    group.expect("a pipe", plain, program.run(how, data, env=environment))
    group.expect("--color=always", red, program.run(["--color=always", *how], data, env=environment | {"NO_COLOR": "1"}))
    group.expect("--color=never", shown(False), on_terminal(program, ["--color=never", *how], data, environment))
    came = program.run(["--color", "always", "-"], b"[core]\n\tbare = x\n\tbares = x\n[pull]\n\tautoStash\n", env=environment)
    shown = [line.split(b": ")[1:2] for line in came.output.splitlines()]
    group.expect("three colors", [[b"\x1b[31merror"], [b"\x1b[33mwarning"]], shown)


def terminal_input(group, program, how):
    """If standard input is a terminal, the program does not read it, and a line says what to do."""
    ours, programs = pty.openpty()
    came = program.run(how, stdin=programs)
    os.close(programs)
    os.close(ours)
    told = b"config_check: standard input is a terminal: name a file, or redirect one: config_check - < FILE\n"
    group.expect("a terminal as standard input", Ended(2, b"", told), came)


def check(group, program):
    how = arguments(program.settings(rows.SETTINGS))
    for part in (closed_pipe, full_device, closed_files, memory, terminal, terminal_input):
        part(group, program, how)
