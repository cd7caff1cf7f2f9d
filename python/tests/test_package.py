"""Tests the package over the stored answers of the Rust crate, and its values as values of Python.

Run in this folder, with the package installed: python -W error -bb -m unittest test_package
"""
import array
import copy
import doctest
import inspect
import itertools
import json
import os
import pathlib
import pickle
import pwd
import re
import shutil
import subprocess
import sys
import tempfile
import threading
import unittest

import gix_config_value as gcv
from gix_config_value import (Attribute, Color, Name, Refused, boolean, integer, integer_parts, interpolate, lookup, over,
                              terminal_depth)

ROOT = pathlib.Path(__file__).resolve().parents[2]
READERS = {"suffix": gcv.suffix, "amount": integer, "boolean": boolean, "name": Name, "attribute": Attribute.parse,
           "color": Color.parse}
# the bit of each word, by rising bit
BITS = {word: int(bit) for bit, word in re.findall(r"^\| `[A-Z_]+` \| (\d+) \| `(\w+)`",
                                                    (ROOT / "docs/GRAMMAR.md").read_text("utf-8"), re.MULTILINE)}
WORDS = list(BITS)
ATTRIBUTES = [Attribute.parse(word) for word in WORDS]
VALUES = [Name("normal"), Name("red"), Name("12"), Name("#abc"), Attribute(), Attribute.UL | Attribute.BOLD,
          ~Attribute.BOLD, Color(), Color.parse("#fff ul"), Color.parse("red blue bold noul")]


def run(*words, **variables):
    return subprocess.run([sys.executable, "-W", "error", *words], env={**os.environ, **variables}, check=False,
                          stdout=subprocess.PIPE, stderr=subprocess.PIPE)


class Stored(unittest.TestCase):
    def test_texts(self):
        lines = (ROOT / "compare/lines.txt").read_bytes().split(b"\n")[:-1]
        answers = (ROOT / "compare/answers.txt").read_bytes().split(b"\n")[:-1]
        self.assertEqual(len(lines), 9729)
        for line, answer in itertools.zip_longest(lines, answers):
            kind, _, text = line.partition(b" ")
            kind = kind.decode(errors="replace")
            if answer == b"unknown kind":
                self.assertRaises(ValueError, gcv.normalize, kind, text)
            elif answer == b"refused":
                for call in (READERS.get(kind, integer_parts), lambda text, kind=kind: gcv.normalize(kind, text),
                             lambda text, kind=kind: lookup(kind, [("a", text)], "a"),
                             lambda text, kind=kind: gcv.same(kind, text, text)):
                    with self.assertRaises(Refused) as caught:
                        call(text)
                    self.assertEqual(caught.exception.input, text)
            else:
                canonical = answer[3:].decode()
                self.assertEqual(gcv.normalize(kind, text), canonical)
                self.assertTrue(gcv.same(kind, text, canonical))
                value = READERS.get(kind, integer_parts)(text)
                if kind == "integer":
                    value = f"{value[0]}{value[1] or ''}"
                self.assertEqual(str(value).lower() if kind == "boolean" else str(value), canonical)

    def test_paths(self):
        calls = (ROOT / "crates/path_answers/stdin").read_text("ascii").splitlines()
        answers = (ROOT / "crates/path_answers/stdout").read_text("ascii").splitlines()
        self.assertEqual(len(calls), 1652)
        for call, answer in itertools.zip_longest(calls, answers):
            value, prefix, home, known = call.split("\t")
            prefix, home = (None if field == "-" else bytes.fromhex(field) for field in (prefix, home))
            users = {} if known == "-" else dict(map(bytes.fromhex, entry.split("=")) for entry in
                                                 filter(None, known.split(",")))
            asked = []

            def find(name):
                asked.append(name)
                return users.get(name.encode())

            flag, rest, count, name, *more = answer.split("\t")
            value = bytes.fromhex(value)
            self.assertEqual(gcv.cut_mark(value), (flag == "1", bytes.fromhex(rest)))
            words = {"prefix": prefix, "home": home, "users": None if known == "-" else find}
            if name == "ok":
                self.assertEqual(interpolate(value, **words), bytes.fromhex(more[0]))
            else:
                with self.assertRaises(Refused) as caught:
                    interpolate(value, **words)
                camel = "".join([name, *more[:1]]).replace("Whole", "Path")
                self.assertEqual(caught.exception.code, re.sub("(?<!^)(?=[A-Z])", "_", camel).lower())
                self.assertEqual(caught.exception.input, value)
            self.assertEqual(len(asked), int(count))


class Texts(unittest.TestCase):
    def test_types(self):
        self.assertIs(boolean(b"yes"), True)
        self.assertIs(boolean("off"), False)
        self.assertIs(type(integer("10m")), int)
        self.assertEqual(integer(bytearray(b"0x10k")), 16384)
        self.assertEqual(integer_parts(memoryview(b"-0x10G")), (-16, "g"))
        self.assertEqual(integer_parts(array.array("B", b"7")), (7, None))
        self.assertEqual(integer(memoryview(b"1-2")[::2]), 12)
        for text in (0, 3, None, ["1"], 1.0, object()):
            for call in (boolean, integer, Color.parse, Name, lambda text: gcv.normalize("boolean", text),
                         lambda text: gcv.same("boolean", "1", text), lambda text: lookup("boolean", [], text),
                         lambda text: lookup("boolean", [("a", text if text is not None else 0)], "a")):
                self.assertRaises(TypeError, call, text)

    def test_no_text_lies(self):
        class Liar(bytes):
            def __len__(self):
                return 1 << 40

            def __bytes__(self):
                return Liar(b"yes")

            def __getitem__(self, index):
                raise AssertionError

        class Text(str):
            def encode(self, *_):
                return Liar(b" " * 262144)

            def __str__(self):
                return "no"

            def __len__(self):
                return 1 << 40

        class Array(bytearray):
            __len__ = Liar.__len__

        for text in (Text("yes"), Liar(b"yes"), Array(b"yes")):
            self.assertIs(boolean(text), True)
            self.assertEqual(gcv.normalize("boolean", text), "true")
            self.assertIs(lookup("boolean", [(Text("a"), text)], "a"), True)
        self.assertRaises(Refused, lookup, "boolean", [("a", Text("maybe"))], "a")
        self.assertRaises(Refused, Color.parse, Text("yes"))

    def test_surrogates(self):
        for text, wanted in (("\udce9", b"\xe9"), ("\ud800", b"\xed\xa0\x80")):
            for kind in gcv.KINDS:
                with self.assertRaises(Refused) as caught:
                    gcv.normalize(kind, text)
                self.assertEqual(caught.exception.input, wanted)

    def test_refused(self):
        for call, text, code in ((boolean, "maybe", "boolean"), (integer, "x", "integer"), (gcv.suffix, "x", "suffix"),
                                 (integer, "9223372036854775807k", "overflow"), (Color.parse, "red x", "color"),
                                 (integer, "9223372036854775808", "integer"), (Name, "x", "color"),
                                 (interpolate, "", "path_missing"), (interpolate, "~u", "lookup_missing")):
            with self.assertRaises(Refused) as caught:
                call(text)
            refused = caught.exception
            self.assertEqual((refused.code, refused.input), (code, text.encode()))
            self.assertEqual(str(refused), f"{refused.fault}: {text.encode()!r}")
            again = pickle.loads(pickle.dumps(refused))
            self.assertEqual((again.code, again.fault, again.input), (code, refused.fault, refused.input))
        with self.assertRaises(Refused) as caught:
            boolean("x" * 10_000_000)
        self.assertLess(len(str(caught.exception)), 250)
        self.assertEqual(len(caught.exception.input), 10_000_000)
        self.assertRaises(ValueError, gcv.normalize, "number", "1")
        self.assertRaises(ValueError, lookup, "number", {}, "a")
        self.assertRaises(TypeError, gcv.normalize, 1, "1")
        self.assertRaises(Refused, gcv.same, "integer", "9223372036854775807k", "x")

    def test_same(self):
        self.assertIs(gcv.same("amount", "1k", "1024"), True)
        self.assertIs(gcv.same("integer", "1k", "1024"), False)
        self.assertIs(gcv.same("boolean", "yes", "no"), False)

    def test_lookup(self):
        entries = [("a", "1"), ("b", "x"), (b"a", "2k"), ("", b""), ("b", "yes"), ("c", None), ("i", "x")]
        for known in (entries, iter(entries)):
            self.assertEqual(lookup("integer", known, "a"), 2048)
        self.assertEqual(lookup("integer", {"a": "2k"}, "a"), 2048)
        self.assertIs(lookup("boolean", entries, b"b"), True)
        self.assertIs(lookup("boolean", entries, ""), False)
        self.assertIs(lookup("boolean", entries, "c"), True)
        self.assertIs(lookup("boolean", {"c": None}, "c"), True)
        self.assertIsNone(lookup("boolean", {"c": None}, "d"))
        self.assertIs(lookup("boolean", os.environ, "no such", False), False)
        self.assertEqual(lookup("color", entries, "d", 5), 5)
        self.assertIsNone(lookup("boolean", [], "a"))
        for name in ("c", "i"):
            self.assertRaises(Refused, lookup, "integer", entries, name)
        for entry in (("a",), ("a", "1", "2")):
            self.assertRaises(ValueError, lookup, "integer", [entry, ("a", "1")], "a")


class Values(unittest.TestCase):
    def test_attributes(self):
        self.assertEqual(list(~Attribute()), ATTRIBUTES)
        self.assertEqual(int(~Attribute.BOLD), sum(1 << bit for word, bit in BITS.items() if word != "bold"))
        self.assertEqual(str(~Attribute.BOLD), " ".join(WORDS[1:]))
        self.assertEqual(str(Color(attributes=~Attribute.BOLD).compose(Color())), " ".join(WORDS[1:]))
        both = Attribute.BOLD | Attribute.UL
        self.assertEqual([*both], [Attribute.BOLD, Attribute.UL])
        self.assertEqual((both & ~Attribute.BOLD, both ^ Attribute.BOLD, both - Attribute.BOLD), (Attribute.UL,) * 3)
        self.assertEqual((len(both), bool(both), bool(Attribute()), int(both)), (2, True, False, 18))
        self.assertTrue(Attribute.UL in both and Attribute() in both and Attribute.DIM not in both)
        for bits in (1, -1, 1 << 31, 1 << 32, 1 << 80, 1 << 200_000):
            with self.assertRaisesRegex(ValueError, "has bits of no attribute"):
                Attribute(bits)
        for call in (lambda: both | 1, lambda: 1 in both, lambda: Attribute("bold"), lambda: both < 1):
            self.assertRaises(TypeError, call)
        for word, attribute in zip(WORDS, ATTRIBUTES):
            self.assertEqual(getattr(Attribute, word.upper().replace("NO", "NO_")), attribute)

    def test_colors(self):
        color = Color.parse("bold red #12aBff")
        self.assertEqual((color.foreground, color.background.rgb, color.attributes),
                         (Name("red"), (0x12, 0xAB, 0xFF), Attribute.BOLD))
        self.assertEqual((Name("12").palette, Name("red").palette, Name("12").rgb), (12, None, None))
        self.assertEqual((Color().foreground, Color(Name("red")).background), (None, None))
        self.assertEqual(color, Color(Name("red"), Name("#12abff"), Attribute.BOLD))
        self.assertEqual(Color(attributes=None), Color())
        self.assertEqual(list(inspect.signature(lookup).parameters), ["kind", "entries", "name", "default"])
        self.assertEqual(list(inspect.signature(boolean).parameters), ["text"])
        self.assertEqual(str(Color.parse("red").compose(Color.parse("ul blue"))), "red blue ul")
        for call in (lambda: color.compose(Color.parse("green")), lambda: Color(None, Name("red")), lambda: Name("")):
            self.assertRaises(ValueError, call)
        for call in (lambda: Color("red"), lambda: Color(0), lambda: Color(attributes=2), lambda: color.compose("red"),
                     lambda: Name(3), lambda: Color(Attribute.BOLD)):
            self.assertRaises(TypeError, call)

    @unittest.skipUnless(shutil.which("git"), "Git is not there")
    def test_escape_sequences(self):
        words = "normal default black red green yellow blue magenta cyan white".split()
        names = [*words, *(f"bright{word}" for word in words[2:]), "0", "7", "8", "15", "16", "255", "#010203", "#0a00ff"]
        texts = [*WORDS, *names, *map(" ".join, itertools.product(names, names)), " ".join(WORDS[:7]), " ".join(WORDS[8:]), "",
                 "reset ul red", "bold #ffffff 231", "normal bold"]
        for text in texts:
            git = subprocess.run(["git", "-c", f"a.b={text}", "config", "--get-color", "a.b"], check=True,
                                 stdout=subprocess.PIPE)
            self.assertEqual(Color.parse(text).escape(), git.stdout.decode(), text)

    def test_depths(self):
        orange = Color.parse("bold #ff8800 #121212")
        self.assertEqual([str(orange.reduced(depth)) for depth in (16, 256, 2 ** 24)],
                         ["3 0 bold", "208 233 bold", str(orange)])
        self.assertEqual((orange.escape(depth=256), orange.escape(None)),
                         ("\x1b[1;38;5;208;48;5;233m", "\x1b[1;38;2;255;136;0;48;2;18;18;18m"))
        for depth in (0, 8, -1, 257, 2 ** 32 + 16, 2 ** 64):
            self.assertRaises(ValueError, orange.escape, depth)
        self.assertRaises(TypeError, orange.escape, "16")
        rows = [((False, {"TERM": "xterm"}), None), ((True, {}), None), ((True, {"TERM": "dumb"}), None),
                ((True, {"TERM": "xterm", "NO_COLOR": "1"}), None), ((True, {"TERM": "xterm", "NO_COLOR": ""}), 16),
                ((True, {"TERM": "linux"}), 16), ((True, {"TERM": "screen-256color"}), 256),
                ((True, {"TERM": "xterm-direct"}), 2 ** 24), ((True, {"TERM": "xterm", "COLORTERM": "truecolor"}), 2 ** 24),
                ((True, {"TERM": "xterm\udcff", "COLORTERM": "yes"}), 16)]
        rows += [((True, variables), wanted) for variables, wanted in TERMINALS]
        rows += [((False, variables), None) for variables, _ in TERMINALS]
        for given, wanted in rows:
            self.assertEqual(terminal_depth(*given), wanted, given)
            self.assertIsNone(terminal_depth(*given, when="never"), given)
        for given, wanted in [({"TERM": "xterm-256color", "NO_COLOR": "1"}, 256), ({}, 16), ({"TERM": "dumb"}, 16)]:
            self.assertEqual(terminal_depth(False, given, when="always"), wanted, given)
        self.assertRaises(ValueError, terminal_depth, True, {}, "yes")
        for text, depth in itertools.product(("normal", "default", "black", "brightwhite", ""), (16, 256, 2 ** 24)):
            color = Color.parse(text)
            self.assertEqual(color.reduced(depth), color, text)

    def test_over(self):
        for base, top, wanted in [("bold red", "nobold blue", "blue nobold"), ("red", "bold", "red bold"), ("", "", ""),
                                  ("red black ul", "normal", "normal black ul"), ("nodim", "dim reset", "dim reset"), *OVERS]:
            self.assertEqual(str(over(Color.parse(base), Color.parse(top))), wanted, (base, top))
        self.assertRaises(TypeError, over, Color.parse("red"), "blue")

    def test_as_values(self):
        for value in VALUES:
            self.assertEqual(eval(repr(value)), value)
            for version in range(pickle.HIGHEST_PROTOCOL + 1):
                self.assertEqual(pickle.loads(pickle.dumps(value, version)), value)
            for again in (copy.copy(value), copy.deepcopy(value)):
                self.assertEqual((again, hash(again)), (value, hash(value)))
            for width in ("", ">40", "^40", "<40.3"):
                self.assertEqual(format(value, width), format(str(value), width))
            self.assertEqual(json.dumps({"a": value}, default=str), json.dumps({"a": str(value)}))
            self.assertRaises(AttributeError, setattr, value, "foreground", None)
            self.assertRaises(AttributeError, setattr, value, "other", None)
            self.assertRaises(TypeError, type, "Sub", (type(value),), {})
            self.assertNotEqual(value, str(value))
        self.assertEqual(len(set(VALUES)), len(VALUES))

    def test_order(self):
        names = "normal default black brightblack red brightred white brightwhite 0 3 255 #000000 #0000ff #010000"
        names = [Name(text) for text in names.split()]
        attributes = [Attribute(), *ATTRIBUTES]
        colors = [Color.parse(text) for text in ("", "bold", "normal", "red", "red ul", "red black", "#000 red")]
        for values in (names, attributes, colors):
            self.assertEqual(sorted(reversed(values)), values)
            for (at, one), (place, other) in itertools.product(enumerate(values), repeat=2):
                self.assertEqual((one < other, one <= other, one == other, one >= other, one > other, one != other),
                                 (at < place, at <= place, at == place, at >= place, at > place, at != place))
        self.assertRaises(TypeError, lambda: names[0] < colors[0])

    def test_references(self):
        objects = [Name, Attribute, Color, Refused, ATTRIBUTES[0]]
        if sys.version_info < (3, 12):  # in later versions these are immortal
            objects += [None, True, False, NotImplemented]
        before = [sys.getrefcount(one) for one in objects]
        for _ in range(2000):
            for value in VALUES:
                self.assertFalse(value < value or value != copy.copy(value) or value == 1)
                self.assertTrue(value <= value and str(value) == f"{value}" and repr(value))
            self.assertEqual((Name("red").palette, Name("red").rgb, Color().foreground), (None, None, None))
            self.assertEqual((boolean("on"), boolean(""), integer_parts("1"), gcv.cut_mark("")[0]),
                             (True, False, (1, None), False))
            self.assertRaises(Refused, interpolate, "~u", users={}.get)
        for one, count in zip(objects, before):
            self.assertLess(abs(sys.getrefcount(one) - count), 100, one)


    @unittest.skipIf(sys.version_info < (3, 10), "types that cannot be changed are in Python 3.10")
    def test_types_cannot_be_changed(self):
        for kind in (Name, Attribute, Color, gcv.Entries):
            for call in (lambda kind=kind: setattr(kind, "other", 1), lambda kind=kind: setattr(kind, "__eq__", None),
                         lambda kind=kind: delattr(kind, "__repr__")):
                self.assertRaises(TypeError, call)
        self.assertRaises(TypeError, setattr, Attribute, "BOLD", 5)


# variables, and how many colors a terminal has with them: the first rule decides that applies
TERMINALS = [
    ({"NO_COLOR": "1", "TERM": "xterm", "COLORTERM": "truecolor"}, None), ({"NO_COLOR": "0", "TERM": "xterm"}, None),
    ({"NO_COLOR": "", "TERM": "xterm"}, 16), ({"COLORTERM": "truecolor"}, None),
    ({"TERM": "dumb", "COLORTERM": "truecolor"}, None), ({"TERM": "dumber"}, 16), ({"TERM": ""}, 16),
    ({"TERM": "xterm", "COLORTERM": "truecolor"}, 2 ** 24), ({"TERM": "xterm", "COLORTERM": "24bit"}, 2 ** 24),
    ({"TERM": "xterm", "COLORTERM": "Truecolor"}, 16), ({"TERM": "xterm", "COLORTERM": "1"}, 16),
    ({"TERM": "xterm-direct"}, 2 ** 24), ({"TERM": "xterm-direct2"}, 16), ({"TERM": "xterm-256color"}, 256),
    ({"TERM": "tmux-256color-italic", "COLORTERM": ""}, 256), ({"TERM": "256color-direct"}, 2 ** 24),
    ({"TERM": "linux"}, 16),
]
# a color, what is put over it, and the result
OVERS = [
    ("bold red", "nobold blue", "blue nobold"), ("nobold", "bold", "bold"),
    ("dim italic ul", "nodim noitalic noul", "nodim noitalic noul"),
    ("blink reverse strike", "noblink noreverse nostrike", "noblink noreverse nostrike"),
    ("nodim noitalic noul", "dim italic ul", "dim italic ul"),
    ("noblink noreverse nostrike", "blink reverse strike", "blink reverse strike"),
    ("red blue bold", "", "red blue bold"), ("", "red blue bold", "red blue bold"),
    ("red blue", "green", "green blue"), ("red blue", "normal normal", "normal normal"),
    ("reset bold", "dim", "bold dim reset"), ("bold dim", "bold nobold", "bold dim nobold"),
]
# what each interpreter, and each module that is imported again, has to do: its own exceptions, types and values
AGAIN = """
import sys
from gix_config_value import Attribute, Color, Configuration, InvalidFile, Refused, boolean, interpolate, read
for call in (lambda: boolean("maybe"), lambda: Color.parse("rde"), lambda: interpolate("~"),
             lambda: Configuration([("f", 1, "a.b", "x")]).value("a.b", boolean)):
    try:
        call()
    except Refused as refused:
        assert type(refused) is Refused
try:
    read("/proc/self/cmdline")
except InvalidFile as invalid:
    assert invalid.code in ("bad_line", "nul")
color = Color.parse("bold red")
assert (repr(color), color.attributes, type(color)) == ("Color(Name('red'), None, Attribute.BOLD)", Attribute.BOLD, Color)
"""


class Interpreters(unittest.TestCase):
    def test_imported_again(self):
        code = f"""
kept = []
for _ in range(20):
    exec({AGAIN!r})
    kept.append(color)
    for name in [name for name in sys.modules if name.startswith("gix_config_value")]:
        del sys.modules[name]
    del Attribute, Color, Configuration, InvalidFile, Refused, boolean, interpolate, read
assert kept[0] != kept[-1] and str(kept[0]) == str(kept[-1]) == "red bold" and kept[0].attributes != kept[1].attributes
import gc
gc.collect()
assert {{str(one.foreground) for one in kept}} == {{"red"}}
kept.clear()
del color
gc.collect()
assert not [one for one in gc.get_objects() if type(one) is type and one.__module__ == "gix_config_value"]
"""
        done = run("-c", code)
        self.assertEqual((done.returncode, done.stderr), (0, b""))

    def test_interpreters(self):
        # the modules that Python's own tests use; one kind of interpreters has a lock of its own since 3.12
        code = f"""
import sys
try:
    import _interpreters as them
except ImportError:
    import _xxsubinterpreters as them
code = "import sys; sys.path[:] = " + repr(sys.path) + chr(10) + {AGAIN!r}
exec(code)
kinds = [{{}}] if sys.version_info < (3, 12) else [{{"isolated": True}}, {{"isolated": False}}]
if sys.version_info >= (3, 13):
    kinds = [{{"config": "isolated"}}, {{"config": "legacy"}}]
for kind in kinds:
    for _ in range(3):
        made = them.create(*kind.values()) if "config" in kind else them.create(**kind)
        failed = them.run_string(made, code)
        assert failed is None, failed
        them.destroy(made)
exec(code)
"""
        done = subprocess.run([sys.executable, "-c", code], check=False, stdout=subprocess.PIPE, stderr=subprocess.PIPE)
        self.assertEqual((done.returncode, done.stderr), (0, b""))

    def test_other_threads_run(self):
        # with this interval no thread has to let another one run: a call that reads many bytes does it by itself
        self.addCleanup(sys.setswitchinterval, sys.getswitchinterval())
        sys.setswitchinterval(100)
        blanks, number, where, seen, done = " " * 9_000_000, f"0x{'0' * 9_000_000}1", [None], set(), threading.Event()

        def look():
            while not done.wait(0.0005):
                seen.add(where[0])

        thread = threading.Thread(target=look)
        thread.start()
        text = b"[a]\n" + b"k = v\n" * 500_000
        calls = [lambda: Color.parse(blanks), lambda: gcv.normalize("color", blanks), lambda: boolean(number),
                 lambda: gcv.same("integer", number, number), lambda: gcv._core.edit("add", "file", text, "a.k", "v")]
        try:
            for at, call in enumerate(calls):
                for _ in range(100):
                    where[0] = at
                    call()
                    where[0] = None
                    if at in seen:
                        break
        finally:
            done.set()
            thread.join()
        self.assertLessEqual({0, 1, 2, 3, 4}, seen)


class Paths(unittest.TestCase):
    def test_directories(self):
        self.assertEqual(interpolate(":(optional)%(prefix)/x", prefix=pathlib.Path("/usr")), "/usr/x")
        self.assertEqual(interpolate(pathlib.Path("~/x"), home=b"/h"), "/h/x")
        self.assertEqual(interpolate(b"~u/x", users=lambda name: f"/home/{name}"), b"/home/u/x")
        self.assertEqual(interpolate("~u", users=lambda name: pathlib.Path("/h")), "/h")
        self.assertEqual(interpolate("/x", home=b"/home/J\xf6rg", users=self.fail), "/x")
        self.assertEqual(interpolate("%(prefix)/x", prefix="/usr", home="/home/J\udcf6rg"), "/usr/x")
        user = pwd.getpwuid(os.getuid())
        self.assertEqual(interpolate(f"~{user.pw_name}/x", users=gcv.home_of_user), os.path.join(user.pw_dir, "x"))
        self.assertIsNone(gcv.home_of_user("no such user"))
        self.assertEqual(interpolate("~u/" + "x" * 5000, users={"u": "/h"}.get), "/h/" + "x" * 5000)
        self.assertRaises(ZeroDivisionError, interpolate, "~u", users=lambda name: 1 // 0)
        self.assertRaises(ValueError, interpolate, "~u", users={"u": "/h\0"}.get)
        self.assertEqual(interpolate("~u/x", users={"u": b"/\xff"}.get), "/\udcff/x")
        for call in (lambda: interpolate("~u", users=lambda name: 3), lambda: interpolate("~", home=3),
                     lambda: interpolate("~u", users=3), lambda: interpolate(3)):
            self.assertRaises(TypeError, call)


class Package(unittest.TestCase):
    def test_examples(self):
        for module in (gcv, sys.modules[lookup.__module__]):
            tested = doctest.testmod(module)
            self.assertTrue(tested.attempted > 0 and tested.failed == 0, tested)
        page = ROOT / "docs/C.md"
        tested = doctest.testfile(str(page), module_relative=False)
        self.assertTrue(tested.attempted > 0 and tested.failed == 0, tested)

    @unittest.skipUnless(shutil.which("git"), "Git is not there")
    def test_readme(self):
        # the block of the README, and what its comments say of it
        block = re.search(r"(?ms)^```python\n(.*?)^```$", (ROOT / "README.md").read_text("utf-8"))[1]
        values, shown = re.search(r"(?m)^(\w+\(.*\w) +# (.*)$", block).groups()
        before, after = (text.replace("\\t", "\t") for text in re.search(r'(?m)# "(.*)" becomes "(.*)"$', block).groups())
        with tempfile.TemporaryDirectory() as folder:
            subprocess.run(["git", "init", "-q", folder], check=True)
            file = pathlib.Path(folder, ".git/config")
            file.write_text(f"[core]\n\tbare = false\n[user]\n{before}\n", encoding="utf-8")
            done = run("-c", f"import os\nos.chdir({folder!r})\n{block}\nprint(repr(({values}))[1:-1])")
            self.assertEqual((done.returncode, done.stdout.decode()), (0, f"{shown}\n"), done.stderr)
            self.assertEqual(file.read_text("utf-8"), f"[core]\n\tbare = false\n[user]\n{after}\n")

    def test_stubs(self):
        stubs = pathlib.Path(gcv.__file__).with_suffix(".pyi").read_text("utf-8")
        compile(stubs, "stubs", "exec")
        for name in gcv.__all__:
            self.assertRegex(stubs, rf"(?m)^(def |class |){name}\b")
        for kind in (Name, Attribute, Color):
            body = re.search(rf"(?ms)^class {kind.__name__}:$(.*?)^(?=\S)", stubs)[1]
            told = set(re.findall(r"^    (?:def )?(\w+)", body, re.MULTILINE))
            here = {name for name in vars(kind) if not name.startswith("_")}
            self.assertEqual({name for name in told if not name.startswith("_")}, here)
            for name in told:
                self.assertTrue(hasattr(kind, name), name)

    def test_import(self):
        code = "import sys, gix_config_value; print(*sorted({'ctypes', 'dataclasses', 'enum', 're', 'typing', 'pwd'}"
        # without `site`, which may load some of them
        done = run("-S", "-c", f"{code} & set(sys.modules)))", PYTHONPATH=str(pathlib.Path(gcv.__file__).parents[1]))
        self.assertEqual((done.returncode, done.stdout), (0, b"\n"))

    def test_command(self):
        for text, wanted in (("0x10k", (0, b"16k\n")), ("x", (1, b""))):
            done = run("-m", "gix_config_value", "integer", text)
            self.assertEqual((done.returncode, done.stdout), wanted)
        # the byte A0 alone is not white space: the bytes of an argument are read as they are
        done = run("-m", "gix_config_value", "color", b"red\xa0blue")
        self.assertEqual((done.returncode, done.stdout), (1, b""))
        done = run("-m", "gix_config_value", "--version")
        self.assertEqual((done.returncode, done.stdout), (0, f"gix_config_value {gcv.__version__}\n".encode()))
        self.assertEqual(run("-m", "gix_config_value").returncode, 2)


if __name__ == "__main__":
    unittest.main()
