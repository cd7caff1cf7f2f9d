"""Compares single entries, keys, rows and arguments with the tables of rows.py."""
import itertools
import os
import pathlib
import re
import shutil

import made
import plain_reader
import rows
from checking import CANNOT, Ended, arguments, ended, expect_json, run, summary, with_errors_cut, without_cause
from plain_reader import beginning, cut, finding, key_of, named, shown

ROWS = 10_000
# the built-in rows
TABLE = pathlib.Path(__file__).resolve().parents[2] / "config_checks/src/git.rt"
BUILT_IN = plain_reader.rows_of(re.sub(rb"\\\n *", b"", TABLE.read_bytes().split(b'"\\\n', 1)[1].split(b'";')[0]).replace(b"\\\\", b"\\"))
# the members of rows.JSON, and what stands there for the byte \xff
MEMBERS = ("line", "severity", "key", "value", "reason", "code", "suggested_key", "suggested_value")
REPLACED = "\ufffd".encode()


def listed(key):
    """A key as Git lists it."""
    return b".".join(part for part in key_of(key) if part is not None)


def expect_entries(group, program, how, entries, known=True):
    """Expects entries, each with its key and its value as they are shown, and its reason or None.

    All entries are in one file, a line each; if that fails, each half of them is tested on its own. The keys are all
    known or all unknown.
    """
    data = b"".join(entry for entry, _, _, _ in entries)
    places = [place for place, _, _ in plain_reader.entries(data)[0]]
    output = b"".join(finding(place, as_cut(key), as_cut(value), reason)
                      for place, (_, key, value, reason) in zip(places, entries) if reason is not None)
    count = len(entries)
    wanted = ended(output, (count, count if known else 0, 0 if known else count, output.count(b"\n")))
    came = program.run(how, data)
    if count == 1:
        group.expect((how, data), wanted, came)
        return

    def alone():
        for half in (entries[:count // 2], entries[count // 2:]):
            expect_entries(group, program, how, half, known)

    group.expect_all(count, wanted, came, alone)


def as_cut(shown):
    """A key or value that is shown, with what follows it if it is cut."""
    return (shown, b"") if isinstance(shown, bytes) else shown


HINTS = [(rows.BOOLEAN_FAULT, plain_reader.boolean_hint), (rows.INTEGER_FAULT, plain_reader.number_hint),
         (rows.COLOR_FAULT, plain_reader.color_hint), (b"error: not a boolean, nor one of: ", plain_reader.boolean_hint),
         (b"error: not an integer, nor one of: ", plain_reader.number_hint)]


def hint(reason, value):
    """What the plain reader suggests for a value that is refused for a reason of the tables."""
    return next((of(value) for front, of in HINTS if value is not None and reason.removeprefix(b"warning: ").removeprefix(b"error: ")
                 .startswith(front.removeprefix(b"error: "))), b"")


def entries_of(key, values, reason):
    """Entries with values that are shown as they are, and that all have this reason."""
    return [(made.line_of(key, value), key, None if value is None else cut(value),
             reason and reason + hint(reason, value)) for value in values]


def values(group, program):
    """Each kind and each reason, with and without --canonical."""
    settings = program.settings(rows.SETTINGS)
    entries, canonical = [], []
    for key, accepted in rows.ACCEPTED:
        entries += entries_of(key, accepted, None)
    for key, reason, refused in rows.REPORTED:
        entries += entries_of(key, refused, reason)
        canonical += entries_of(key, refused, reason)
    for key, reason, near in rows.MEANT:
        entries += [(made.line_of(key, value), key, shown(value), reason + b"; did you mean %s?" % word)
                    for value, word in near.items()]
    for key, spellings in rows.SPELLINGS:
        entries += entries_of(key, spellings, None)
        canonical += [(made.line_of(key, value), key, cut(value), b"note: should be " + text)
                      for value, text in spellings.items()]
    for key, accepted in rows.CANONICAL:
        canonical += entries_of(key, accepted, None)
    expect_entries(group, program, arguments(settings), entries)
    expect_entries(group, program, arguments(settings, canonical=True), canonical)


def escapes(group, program):
    """Texts that are not shown as they are."""
    how = arguments(program.settings(rows.SETTINGS))
    key = b"test.word"
    expect_entries(group, program, how, [
        (made.line_of(key, value), key, shown, rows.NO_WORD) for value, shown in rows.SHOWN])
    expect_entries(group, program, how, [
        (made.line_of(key, value), key, shown, reason + hint(reason, value)) for key, value, shown, reason in rows.SHOWN_OF_KINDS])
    expect_entries(group, program, how, [
        (made.line_of(key, value), key, value, None) for key, value in rows.UNSHOWN_ACCEPTED])


def expect_unknown(group, program, how, keys):
    """Expects unknown keys, each with what is said after that, or None if it is not reported."""
    expect_entries(group, program, how, [
        (made.line_of(key, b"x"), cut(listed(key)), None, None if said is None else b"warning: unknown key" + said)
        for key, said in keys], known=False)


def meant(keys):
    """Keys that are reported as unknown, with what is said if each is meant to be another key, or None."""
    return [(key, b"" if other is None else b"; did you mean %s?" % other) for key, other in keys]


def slots(group, program):
    """Slots of colors that no row has: the finding has those that rows have, and Git says nothing of a wrong color."""
    for how, found in ((arguments(program.settings(rows.SETTINGS)), rows.OTHER_SLOTS), (["-"], rows.OTHER_SLOTS_BUILT_IN)):
        expect_unknown(group, program, how, found)
    git = shutil.which("git")
    if git is None:
        group.skip("slots in Git", "no git on PATH")
        return
    alone = {"GIT_CONFIG_GLOBAL": os.devnull, "GIT_CONFIG_NOSYSTEM": "1", "PATH": os.environ["PATH"]}
    run([git, "init", "-q", program.folder / "slots"], env=alone)
    for key, command, status in rows.SLOTS_OF_GIT:
        came = run([git, "-c", key + b"=zzz", command], env=alone, cwd=program.folder / "slots")
        group.expect((key, command), (status, status == 0), (came.status, came.errors == b""))


def keys(group, program):
    """Which row covers a key, if one does; the value is not an integer."""
    how = arguments(program.settings(rows.SETTINGS))
    expect_entries(group, program, how, [
        (made.line_of(key, b"x"), shown or named(made.ROWS, listed(key)), b"x", rows.INTEGER_FAULT) for key, shown in rows.KNOWN_KEYS])
    expect_unknown(group, program, how, meant(rows.MISSPELLED_KEYS + [(key, None) for key in rows.OWN_KEYS])
                   + [(key, None) for key in rows.UNKNOWN_KEYS + rows.UNKNOWN_BUILT_IN])
    expect_unknown(group, program, ["-"], meant(rows.MISSPELLED_BUILT_IN))
    expect_entries(group, program, how, [
        (made.line_of(key, value), named(made.ROWS, listed(key)), value, reason and reason + hint(reason, value))
        for key, value, reason in rows.FIRST_ROWS])


def files(group, program):
    """Whole files, including files that Git cannot read."""
    how = arguments(program.settings(rows.SETTINGS))
    for data, output, counts in rows.FILES:
        group.expect(data, ended(output, counts), without_cause(program.run(how, data)))
    names = [program.settings(b"[test]\n\tint = x\n"), str(program.folder / "missing"), program.settings(b"test\n=")]
    first, missing, last = (name.encode() for name in names)
    output = finding((2, 2), (b"test.int", b""), (b"x", b""), rows.INTEGER_FAULT, first) + last + b":2: " + rows.BAD_LINE
    came = without_cause(program.run([*how[:-1], *names]))
    group.expect("a file that is missing", (2, output, True, summary((2, 1, 1, 2))),
                 (came.status, came.output, came.errors.startswith(b"config_check: " + missing + b": "),
                  b"".join(came.errors.splitlines(True)[1:])))
    for more in ([b"\x1b[31m\n"], ["--settings", b"\x1b[31m\n", "-"]):
        came = program.run(more, b"")
        group.expect(more, (2, True), (came.status, b"\\x1b[31m\\x0a: " in came.errors and b"\x1b" not in came.errors))


def as_json(group, program):
    """Findings as JSON: all bytes of one finding, and the members of others."""
    how = arguments(program.settings(rows.SETTINGS), canonical=True)
    data, output = rows.JSON_LINE
    group.expect(data, ended(output, (1, 1, 0, 1)), program.run(["--format", "json", *how], data))
    for data, members in rows.JSON:
        members = [dict(zip(MEMBERS, one)) for one in members]
        objects = [{"file": "-", "column": 1, "value_base64": None, **one} for one in members]
        texts = [[text and text.encode().replace(REPLACED, b"\xff") for text in (one["key"], one["value"])] for one in objects]
        found = [({"key_base64": plain_reader.encoded(key), **one}, key, value) for one, (key, value) in zip(objects, texts)]
        expect_json(group, program, how, data, plain_reader.with_fingerprints(found))


def fail_on(group, program):
    """The severities of `--fail-on` at which the status is 1, for one file and for two."""
    how = arguments(program.settings(rows.SETTINGS), canonical=True)
    for data, severities in rows.FAIL_ON:
        for severity in ("note", "warning", "error"):
            came = program.run(["--fail-on", severity, *how], data)
            group.expect((severity, data), int(severity in severities), came.status)
    files = [(program.settings(data), severities) for data, severities in rows.FAIL_ON]
    for (first, one), (second, other) in itertools.permutations(files, 2):
        for severity in ("note", "warning", "error"):
            came = program.run(["--fail-on", severity, *how[:-1], first, second])
            group.expect((severity, one, other), int(severity in one + other), came.status)


def judged_by_built_in(group, program, entries):
    """Entries in one file, each with its key, value and reason, by the built-in rows."""
    data = b"".join(made.line_of(key, value) for key, value, _ in entries)
    count, wrong = len(entries), sum(reason is not None for *_, reason in entries)
    told, came = ended(b"wrong" * bool(wrong), (count, count, 0, wrong)), program.run(["-"], data)
    lines = {int(line.split(b":")[1]): line for line in came.output.splitlines(True)}
    for (place, _, _), (key, value, reason) in zip(plain_reader.entries(data)[0], entries):
        wanted = b"" if reason is None else beginning(
            place, cut(named(BUILT_IN, listed(key))), None if value is None else cut(value), reason)
        code = b"" if reason is None else b" [%s]\n" % plain_reader.code_of(reason).encode()
        line = lines.get(place[0], b"")
        group.expect((key, value), (wanted, code, told.status, told.errors),
                     (line[:len(wanted)], line[-len(code):] if code else line, came.status, came.errors))


def built_in(group, program):
    """Built-in rows, for all sections in one file and for each in a file of its own, and other rows that come before them."""
    judged_by_built_in(group, program, rows.BUILT_IN)
    for section in dict.fromkeys(key_of(key)[0].lower() for key, *_ in rows.BUILT_IN):
        judged_by_built_in(group, program, [it for it in rows.BUILT_IN if key_of(it[0])[0].lower() == section])
    how = arguments(program.settings(rows.OWN_SETTINGS))
    expect_entries(group, program, how, [
        (made.line_of(key, value), named(BUILT_IN, listed(key)), value, reason and reason + hint(reason, value))
        for key, value, reason in rows.OWN_ROWS])


def settings_files(group, program):
    """Files of settings that are wrong, missing or valid."""
    for text, line, fault in rows.BAD_ROWS:
        file = program.settings(text)
        told = f"config_check: {file}:{line}: ".encode() + fault + b"\n"
        group.expect(text, Ended(2, b"", told), program.run(["--settings", file, "-"], b"[test]x=1\n"))
    for text in rows.GOOD_ROWS:
        came = program.run(arguments(program.settings(text)), b"[other]x")
        group.expect(text, ended(b"", (1, 0, 1, 0)), came)
    text = b"".join(b"filler.key-%d bool\n" % number for number in range(ROWS)) + b"test.x int\n"
    wrong = entries_of(b"test.x", [b"yes"], rows.INTEGER_FAULT)
    expect_entries(group, program, arguments(program.settings(text)), wrong)
    first, second = program.settings(b"\xef\xbb\xbftest.x bool\n"), program.settings(b"test.x int\ntest.y int\n")
    for key, reason in ((b"test.x", rows.BOOLEAN_FAULT), (b"test.y", rows.INTEGER_FAULT)):
        how = ["--settings", first, "--settings", second, "-"]
        expect_entries(group, program, how, entries_of(key, [b"red"], reason))
    for file in (str(program.folder / "missing"), str(program.folder)):
        came = program.run(["--settings", file, "-"], b"[test]x=1\n")
        group.expect(["--settings", file], Ended(2, b"", CANNOT), with_errors_cut(came, CANNOT))


def musts(group, program):
    """Settings that one of the files has to have."""
    rows_file = program.settings(b"# mine\nuser.email must text # whose\n remote.*.url must text\n"
                                 b"core.bare since=2.99 must bool\nuser.name must text\n")
    user, remote, both = (program.settings(text) for text in (
        b"[user] name\nemail = a\n", b"[remote \"x\"]\nurl = y\n", b"[user \"x\"] email = b\n[user] name = c\n[remote \"x\"] url=y\n"))
    whole = program.settings(b"[include] path = %s\n[includeIf \"gitdir:/none/\"] path = %s\n" % (user.encode(), remote.encode()))
    cut_off = program.settings(b"[user] email = a\n[user\nname = b\n")
    lines = {place: b"%s:%d:%d: error: %s: no file has this setting, which the row asks for [missing-setting]\n" % (
        rows_file.encode(), *place, key) for place, key in {(2, 1): b"user.email", (3, 2): b"remote.*.url", (5, 1): b"user.name"}.items()}
    no_value = b"%s:1:8: error: user.name: no value [no-value]\n" % user.encode()
    unread = b"%s:2: error: Git cannot read this line, and reads nothing of the file\n" % cut_off.encode()
    for files, output, counts in [
            ([user, remote], no_value, (3, 3, 0, 1)), ([remote, user], no_value, (3, 3, 0, 1)), ([whole], no_value, (5, 5, 0, 1)),
            ([user], no_value + lines[3, 2], (2, 2, 0, 2)), ([remote], lines[2, 1] + lines[5, 1], (1, 1, 0, 2)),
            ([cut_off], unread + lines[3, 2] + lines[5, 1], (1, 1, 0, 3)),
            (["/dev/null"], b"".join(lines.values()), (0, 0, 0, 3))]:
        group.expect(files, ended(output, counts), without_cause(program.run(["--settings", rows_file, *files])))
    came = program.run(["--settings", rows_file, both])
    group.expect(both, (1, lines[2, 1]), (came.status, b"".join(line for line in came.output.splitlines(True) if b"missing" in line)))


def modules(group, program):
    """Files .gitmodules, which Git reads by rules of their own."""
    file = program.folder / "modules" / ".gitmodules"
    file.parent.mkdir()
    for line, severity in rows.MODULES:
        file.write_bytes(b'[submodule "x"]\n\t' + line + b"\n")
        came = program.run(["-q", str(file)])
        told = came.output.removeprefix(f"{file}:2:2: ".encode()).partition(b":")[0].decode() or None
        group.expect(("in .gitmodules", line), (severity, int(severity is not None)), (told, came.status))
    for name, is_right in rows.SUBMODULES:
        file.write_bytes(b'[submodule "' + name + b'"]\n\tpath = x\n\turl = ./x\n')
        came = program.run(["-q", str(file)])
        group.expect(("a submodule", name), (is_right, 0 if is_right else 1), (came.output == b"", came.output.count(b"[submodule-name]\n")))
    came = program.run(["-q", "-"], rows.ALIASES)
    group.expect("aliases", rows.ENDLESS, [int(line.split(b":")[1]) for line in came.output.splitlines() if line.endswith(b"[endless-alias]")])
    one, other, both = (program.settings(text) for text in (b"[alias] a1 = b1\n", b"[alias] b1 = a1\n", b"[alias]\na1 = b1\nb1 = a1\n"))
    for files, count in (([one, other], 0), ([both, program.settings(b"[alias] b1 = status\n")], 2)):
        came = program.run(["-q", *files])
        group.expect(("aliases of files", files), count, came.output.count(b"[endless-alias]"))
    came = program.run(["-q", "-"], b"[includeIf \"gitdri:x\"]\n\tpath = /no/such/file\n")
    group.expect("an unknown condition", [b"[unknown-condition]"], [line.split()[-1] for line in came.output.splitlines()])


def others(group, program):
    """--explain of keys, --exit-zero, and versions that the rows do not know."""
    for key, told in rows.EXPLAINED:
        group.expect(("--explain", key), Ended(0, told.encode(), b""), program.run(["--explain", key]))
    data = b"[core] bare = x\n"
    for more, status in (([], 1), (["--exit-zero"], 0), (["--exit-zero", "no-such-file"], 2)):
        group.expect(more, status, program.run(["-q", *more, "-"], data).status)
    for text, found, ignored in rows.COMMENTS:
        came = program.run(["-"], text)
        counts = came.errors.partition(b" findings" if found != 1 else b" finding")
        group.expect(text, (found, b", %d ignored\n" % ignored if ignored else b"\n"), (came.output.count(b"\n"), counts[2]))
    told = b"config_check: the built-in rows do not know what is new in Git after 2.55: 2.99\n"
    group.expect("--git 2.99", told, program.run(["-q", "--git", "2.99", "-"], data).errors)


def wrong_and_other_arguments(group, program):
    for more, message in rows.WRONG_ARGUMENTS:
        group.expect(more, Ended(2, b"", f"config_check: {message}\n".encode()), program.run(more, b""))
    for more, same in rows.SAME_ARGUMENTS:
        data = b"[core]\nbare = ture\nfileMode = yes\n[pull] autoStash = true\n"
        group.expect((more, same), program.run(same, data), program.run(more, data))
    for text in rows.WRONG_VERSIONS:
        told = f"config_check: not a version of Git, as 2.39 is: {text}\n".encode()
        group.expect(["--git", text], Ended(2, b"", told), program.run(["--git", text, "-"], b"[a]b\n"))
    for text, severity in rows.VERSIONS.items():
        output = b"" if severity is None else finding((1, 8), (b"pull.autoStash", b""), (b"true", b""), severity + b": Git reads it only since 2.51")
        came = program.run(["--git", text, "-"], b"[pull] autoStash = true\n")
        group.expect(["--git", text], ended(output, (1, 1, 0, int(bool(output)))), came._replace(errors=came.errors.splitlines(True)[-1]))
    for more in rows.ILL_FORMED_ARGUMENTS:
        came = program.run(more, b"")
        is_said = came.errors.startswith(CANNOT + b"read the arguments: ") and came.errors.count(b"\n") == 1
        group.expect((more, came.errors), (2, b"", True), (came.status, came.output, is_said))
    for more in (["--help"], ["--version"]):
        came = program.run(more, b"")
        group.expect(more, (0, True, b""), (came.status, came.output.endswith(b"\n"), came.errors))


def check(group, program):
    for part in (values, escapes, keys, slots, files, as_json, fail_on, built_in, settings_files, musts, modules, others,
                 wrong_and_other_arguments):
        part(group, program)
