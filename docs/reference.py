#!/usr/bin/env python3
"""Writes the reference, a folder of pages for a browser: python3 docs/reference.py FOLDER

A claim rests on each word that its clauses cite, on those that these cite, and so on, down to the toolchain's
library. A type of the code is a word, and the types of its fields are not followed. What the prover itself
has, such as numbers, has no text. Lines of comments are not counted.
"""
import functools
import html
import json
import pathlib
import re
import subprocess
import sys
import textwrap
from urllib.parse import quote

ROOT = pathlib.Path(__file__).resolve().parent.parent
CRATES = ROOT / "crates"
TOOLCHAIN = pathlib.Path(subprocess.check_output(["rt", "doc"], text=True).split("\n")[0]).parent / "rattle"
LIBRARY = ("gix_config_value", "config_text", "config_integer", "config_boolean", "config_word",
           "config_color", "config_path", "config_file", "config_edit", "config_url", "config_search",
           "config_host", "config_checks", "config_answers")
LISTED = (*LIBRARY, "uses")
# the crates whose paths callers write: CHANGELOG promises them
PROMISED = ("gix_config_value", "config_file", "config_edit", "config_url", "config_host")
# the pages that stand in the folder too, and what C and Python declare
PAGES = ("CALLING.md", *(f"docs/{it}.md" for it in ("GRAMMAR", "READING", "C", "CHECKING", "DIFFERENCES")))
OTHERS = {"C": ("crates/gix_config_value_c/include/gix_config_value.h",
                r"\b(gcv_\w+)(?=\()|^}? ?(gcv_\w+)(?=;)|(?<=#define )(GCV_\w+)"),
          "Python": ("python/gix_config_value/__init__.pyi", r"^(?: *def|class) ([a-z]\w*|[A-Z]\w*)")}
# the parts of a list of what a module has, by the kinds of their items
STRING = r'"(?:[^"\\]|\\(?:.|\n))*"'
# a row of an option: its name, its letter, what it takes, and its text or the name of that
OPTION = (r'\(\s*"([a-z][a-z-]+)",\s*"(\w?)",\s*[\w:]+(?:\((?:[^()]|\([^()]*\))*\))?,'
          rf'\s*((?!""){STRING}|[A-Z]+),?\s*\)')
GROUPS = {"Types": ("struct", "enum", "trait", "type", "bitflag_items"), "Calls": ("fn",), "Constants": ("const",),
          "Modules": ("module",), "Laws": ("law",)}
# the parts of the pages, each a function of what is put into it
PARTS = {name: text.strip().format for name, text in re.findall(
    r"(?ms)^<!-- (\w+) -->\n(.*?)(?=^<!-- |\Z)", (ROOT / "docs/reference.html").read_text("utf-8"))}
# modules and items that are public only because another crate of the repository needs them
INNER = """after_mark begins_with_run config_file.bytes config_file.header digit_of EntryParts
    equals equals_ignoring_case exists is_name is_section is_spellable ItemError line_of
    LONGEST_NAME LONGEST_SET normalize_into_as push_as_git push_header push_lower read_bytes read_cow read_entry
    read_owned read_text rgb_bytes same_as""".split()
# the calls whose clauses are the sentences of README: for any kind, for colors, and for settings in files
SENTENCE = {"headline": ("config_text.value.meaning", "config_text.value.one_meaning"),
            "joined": ("config_color.laws.colors.joined",), "setting": ("uses.setting_headline.value_of",)}
SOURCES = sorted(CRATES.glob("*/src/**/*.rt"))
PARTS_OF_STD = ("core", "std_alloc", "std_collections", "std_heap", "std_io", "io")  # std passes them on
MARKS = r"(?:pub|abbrev|unfoldable|record|data|ruleset)"
HEAD = re.compile(rf"(?m)(?:^(?:--|infix|#).*\n)*^(?:(?:{MARKS} )+(?!mod |use |{MARKS} )(\S+)"
                  r"|(?!use |mod |infix|module |unfolding )([^\s-]\S*)(?: \{.*?\})* : )")
USE = re.compile(r"(?m)^ *(?:\w+ )??(pub )?(ghost )?use ([\w.:◌]+?)(?:(?:\.|::)\{([^}]*)\}| as (\w+))?;?$")
# an item of code or of a type, as `rt fmt` lays it out: a head, and in braces what is inside
ITEM = re.compile(r"(?m)(?P<doc>(?:^ *///.*\n)*)(?:^ *#\[(?:.*(?<!\])\n)*.*\]\n)*^(?P<i>(?:    ){0,2})"
                  r"(?P<head>(?:pub |impl\b|fn |trait |ghost (?!use)|const |type |mod |[A-Z]|bitflag_items).*"
                  r"(?:(?<![;{},])(?:\n(?:(?P=i) .*(?<!;))?)*\n(?P=i)(?: .*;|[^ \n].*))*)"
                  r"(?=(?P<inside>(?<=\{)\n(?:(?:(?P=i) .*)?\n)*(?P=i)\}.*)?)")
OWNERS = ("struct", "enum", "trait", "impl", "mod", "bitflag_items")
escape, opened = functools.partial(html.escape, quote=False), functools.cache(lambda file: File(file))
lead = functools.partial(re.sub, r"(?s)(?<=\.)\s.*|\n\n.*", "")
folder_of = functools.cache(lambda it: next(filter(pathlib.Path.is_dir, (CRATES / it, TOOLCHAIN / it))))


@functools.cache
def file_of(module):
    """The file of a module of definitions, by its path. A list above it may pass it on from another path."""
    above, *rest = module.split(".")
    # a library of its own, or a folder of the logic
    tops = (it for name in (above, f"native-{above}") for it in TOOLCHAIN.glob(f"antt/*/{name}/src"))
    top = next(tops, TOOLCHAIN / "logic" / above.capitalize())
    if above == "Rattle":
        top, above, rest = folder_of(rest[0]) / "specs", f"Rattle.{rest[0]}.specs", rest[2:]
    files = [top.joinpath(*rest[:cut] or ["Lib"]).with_suffix(".antt") for cut in range(len(rest) + 1)]
    for cut, listed in enumerate(files[:-1]):
        path = opened(listed).modules.get(rest[cut]) if listed.exists() else None
        if path and path != ".".join([above, *rest[:cut + 1]]):
            return file_of(".".join([path, *rest[cut + 1:]]))
    return files[-1] if files[-1].exists() else None


def without_comments(text):
    return "\n".join(line for line in text.split("\n") if not re.match(r"\s*(--|//|#\[|$)", line))


class Word:
    """A definition, with its text and the comment above it, and where it is."""

    def __init__(self, name, file, line, text=""):
        self.name, self.file, self.text, self.is_here = name, file, text, CRATES in file.parents
        parts = file.relative_to(CRATES if self.is_here else TOOLCHAIN).with_suffix("").parts
        self.crate, self.module = parts[0], ".".join(it for it in parts if it not in ("specs", "src", "lib"))
        self.id = f"{self.module}.{name}"
        self.href = f"words.{self.crate if self.is_here else 'toolchain'}.html#{quote(self.id)}"
        self.source = f"source.{'.'.join(parts)}{file.suffix}.html#L{line}"

    @property
    def doc(self):
        return re.sub(r"(?m)^ *(?:--|///) ?|\n$", "", re.match(r"(?: *(?:--|///).*\n)*", self.text)[0])


class Item(Word):
    """What a file of code declares: its head up to its body, its clauses, and what is inside."""

    def __init__(self, found, file, owner):
        head = textwrap.dedent(found["i"] + found["head"])
        text = textwrap.dedent(found["doc"] + found["i"] + found["head"] + (found["inside"] or ""))
        named = re.match(r"(pub )?(?:(?:const|unsafe)\b (?=fn|trait|impl))?(\w+)!?(?: (?:mut )?(\w+))?", head)
        super().__init__(named[3] or named[2], file, found.string.count("\n", 0, found.start(3)) + 1, text)
        self.kind, self.owner, self.inside = named[2], owner, []
        (owner.inside if owner else []).append(self)
        if self.kind not in ("fn", "type", "const", "use", "ghost", *OWNERS):
            self.kind, self.name = "field" if head[named.end(2):][:1] == ":" else "variant", named[2]
        self.head, self.trait = re.sub(r" ?\{\}?$", "", head).rstrip(), ""
        if self.kind == "impl":
            of = re.sub(r"^impl(<([^<>]|<[^<>]*>)*>)? ", "", " ".join(self.head.split())).rpartition(" for ")
            self.trait, self.name = of[0], re.match(r"\w*", of[2])[0]
        self.key, self.link = (self.crate, self.name), None
        self.is_public = named[1] or owner and (owner.trait or owner.kind not in ("struct", "impl", "mod"))
        self.cut = re.search(r"(?m)^ +(requires|ensures)\b|\Z", self.head).start()


def brought(text, crate):
    """What a text of code brings in, as crate, module and so on: each name, its path, and whether it is passed on."""
    for is_passed, is_ghost, path, listed, alias in USE.findall(re.sub(r",\s*\n\s+", ", ", text)):
        for known, new in () if is_ghost else names_in(listed) or [("", alias)]:
            whole = re.sub(r"^crate\b", crate, f"{path}::{known}".removesuffix("::")).split("::")
            yield new or whole[-1], whole, is_passed


def names_in(listed):
    return [it.partition(" as ")[::2] for it in filter(None, re.split(r",\s*", listed.strip()))]


class Module:
    """A module of code: its comment, what it has, what it passes on, and the modules below it that users may name."""

    def __init__(self, path, doc, file):
        self.path, self.doc, self.file, self.kind, self.link, self.shown = path, doc, file, "module", None, []
        self.items, self.passed, self.below, self.name = {}, {}, [], path.rpartition(".")[2]


class File:
    """A file of definitions or of code: what it brings in, its definitions, and its items."""

    def __init__(self, file):
        self.file, self.text = file, file.read_text("utf-8")
        self.doc = re.sub(r"(?m)^//! ?", "", re.match(r"(?://!.*\n)*", self.text)[0])
        self.names, self.modules, self.words, self.passed = {}, {}, {}, []
        parts = file.relative_to(CRATES).with_suffix("").parts if CRATES in file.parents else [""]
        self.crate, self.path = parts[0], ".".join(it for it in parts if it not in ("src", "lib"))
        self.brought = {name: path for name, path, _ in brought(self.text, self.crate)} if file.suffix == ".rt" else {}
        # an import may go over several lines
        for is_passed, is_ghost, path, listed, alias in USE.findall(re.sub(r",\s*\n\s+", ", ", self.text)):
            names = names_in(listed)
            if file.suffix == ".rt" and not is_ghost:
                continue
            if names:
                self.names |= {new or known: (path, known) for known, new in names}
            elif not path.startswith(("super", "crate")):
                self.modules[alias or path.split(".")[-1]] = path
                self.passed += [path] * bool(is_passed)
        # definitions in a block with parameters stand further in
        text = re.sub(r"(?m)^(?:module _ .*where|mutual)\n((?:  .*\n|\n)*)",
                      lambda found: "\n" + re.sub(r"(?m)^  ", "", found[1]), self.text)
        heads = [*HEAD.finditer(text)] if file.suffix == ".antt" else []
        for head, after in zip(heads, [*(it.start() for it in heads[1:]), None]):
            word = Word(head[1] or head[2], self.file, text.count("\n", 0, head.end()) + 1)
            word = self.words.setdefault(word.name, word)
            word.text += re.sub(rf"(?m)^(?:{MARKS} )*(?:use|mod) .*\n?", "", text[head.start():after])
        # the cases of a type lead to it
        for word in [it for it in self.words.values() if re.search(rf"(?m)^(?:{MARKS} )*data ", it.text)]:
            for names in re.findall(r"(?m)^ +(?:pub )?((?:[^\s:({]+ )+): ", word.text):
                self.words = dict.fromkeys(names.split(), word) | self.words

    @functools.cached_property
    def items(self):
        """The items of a file of code, and those in them, in their order."""
        out, owners = [], []
        for found in ITEM.finditer(self.text):
            depth = len(found["i"]) // 4
            if depth <= len(owners) and all(it.kind in OWNERS for it in owners[:depth]):
                out.append(Item(found, self.file, owners[depth - 1] if depth else None))
                owners = [*owners[:depth], out[-1]]
        return out

    def marks(self, text):
        """The words that a text of this file cites: where each begins and ends, and the word."""
        text, found = re.sub(r'(?m)^ *(?:--|//|#\[).*$|"[^"\n]*"', lambda it: " " * len(it[0]), text), []
        bound = set(" ".join(map(" ".join, re.findall(r"[({]([^:(){}]+) :|λ ([^.]*)\.", text))).split())
        bound |= set(re.findall(r"(?m)^ +(?:pub )?(\S+) : ", text))
        of = {part: name for name in {**self.names, **self.words} if name not in bound
              for part in name.split("◌") if part}
        for it in re.finditer(r"[^\s(){};,.][^\s(){};,]*", text):
            part, word, (head, _, rest) = it[0].rstrip("."), None, it[0].rstrip(".").partition(".")
            if part in of or head in of:
                part = part if part in of else head
                word = self.words.get(of[part]) or looked_up(*self.names[of[part]])
            elif rest and head in self.modules and head not in bound:
                *above, name = rest.split(".")
                word = looked_up(".".join([self.modules[head], *above]), name)
            elif self.file.suffix == ".rt":
                # a member of a trait, in a clause
                name, near = (rest or head).partition(".")[0], SOURCES if head[0].isupper() else ()
                part = f"{head}.{name}" if rest else name
                word = next((of for file in (self.file, *near) for of in opened(file).items if of.name == name
                             and of.kind == "ghost" and of.owner.kind == "trait"), None)
            found += [(it.start(), it.start() + len(part), word)] * bool(word)
        return found


@functools.cache
def looked_up(module, name):
    """The word of that name that a module has or passes on, or None if it is the prover's own."""
    parts = module.split(".")
    if parts[2:4] == ["specs", "declared"]:
        # a type, a variant or a constant of the code leads to what it is declared in
        path = [it for it in (*parts[4:], name) if it not in ("TheVariants", "TheConstants")]
        known = path[-2] if parts[-1] == "TheVariants" else path[-1]
        files = (file for part in (parts[1], *PARTS_OF_STD * (parts[1] == "std")) for file in
                 sorted(folder_of(part).glob("src/**/*.rt"), key=lambda file: (file.stem not in path, file)))
        return next((it for file in files if known in opened(file).text for it in opened(file).items
                     if it.name == known and it.kind in ("struct", "enum", "trait", "type", "const")), None)
    if not file_of(module):
        # the cases of a type, imported by its path
        above, _, name = module.rpartition(".")
        return looked_up(above, name) if above.count(".") > 2 and file_of(above) else None
    known = opened(file_of(module))
    more = [known.names[name]] if name in known.names else [(it, name) for it in known.passed if it != module]
    return known.words.get(name) or next(filter(None, (looked_up(*path) for path in more)), None)


def closure(claims):
    """The words on which items of code rest, each after a text that cites it."""
    words = [word for claim in claims for *_, word in opened(claim.file).marks(claim.head)]
    for word in words:
        more = opened(word.file).marks(word.text) if word.file.suffix == ".antt" else ()
        words += [it for *_, it in more if it not in words]
    return list(dict.fromkeys(words))


def counts(claims):
    """How many lines of definitions some items of code rest on, here and in the toolchain."""
    lines = [(it.is_here, without_comments(it.text).count("\n") + 1) for it in closure(claims)]
    return [sum(count for is_here, count in lines if is_here is side) for side in (True, False)]


def claims_of(sentence):
    return [it for file in SOURCES for it in opened(file).items if it.id in SENTENCE[sentence]]


def linked(text, spans):
    """A piece of code with links in their places."""
    out, at = [], 0
    for begin, end, link in sorted(spans):
        if begin >= at:
            out += [escape(text[at:begin]), f"<a {link}>{escape(text[begin:end])}</a>"]
            at = end
    return "".join([*out, escape(text[at:])])


def code(text, spans=(), kind="", mark=""):
    """A block of code, line by line."""
    lines = textwrap.dedent(linked(text, spans)).rstrip("\n").split("\n")
    shown = (f"<span class=l{mark.format(number)}>{line}</span>" for number, line in enumerate(lines, 1))
    return f'<pre class="{kind}">{"".join(shown)}</pre>'


def grammars():
    """The grammar and the canonical texts of each kind, as the kind's type declares them."""
    out = {}
    for item in (it for crate in LIBRARY for file in sorted((CRATES / crate / "src").glob("**/*.rt"))
                 for it in opened(file).items):
        if item.name in ("grammar", "canonical") and item.owner and item.owner.trait == "Value":
            out.setdefault(item.owner.name, []).append(item)
    return out


def kind_of(thing):
    return "law" if "laws" in (thing.path if isinstance(thing, Module) else thing.module).split(".") else thing.kind


def slug(heading):
    """The anchor of a heading of a page."""
    return re.sub(r"[^\w\- ]", "", heading.lower()).replace(" ", "-")


class Reference:
    """The pages, and what stands on them."""

    def __init__(self, folder):
        self.folder, self.words, self.found = folder, {}, []
        self.anchors = {pathlib.Path(it).stem: ["#", *(f"#{slug(name)}" for name in re.findall(
            r"(?m)^#+ (.*)", (ROOT / it).read_text("utf-8")))] for it in PAGES}
        # below the title and the sentence for those who read that page alone
        signs = (ROOT / "docs/SIGNS.md").read_text("utf-8").split("\n\n", 2)[2]
        # what rows explain, the fewest signs first
        told = re.split(r"\n\n(?:- )?|(?:\A|\n)- |(?<=\.)\s+(?=`)", signs)
        heads = [set(re.findall(r"[^\s(){},`⟦⟧]+", it.partition("`: ")[0])) for it in told]
        self.rows = sorted(zip(heads, told), key=lambda row: len(row[0]))
        self.signs = self.prose(signs)
        self.modules = {}
        for file in (opened(file) for crate in LISTED for file in sorted(CRATES.glob(f"{crate}/src/**/*.rt"))):
            self.fill(file)
        self.impls = [it for file in SOURCES for it in opened(file).items if it.kind == "impl"]
        # the paths of each item and module that a caller may write
        self.paths = {}
        for crate in LISTED:
            self.walk(self.modules[crate], crate)
        for of, paths in self.paths.items():
            paths.sort(key=lambda it: (it.split("::")[0] not in PROMISED, it.count("::"), len(it)))
            if isinstance(of, Module):
                continue
            # an item of a module that nobody may name stands on the page of the first one that passes it on
            own = self.modules[self.container(of)]
            page = own if own.link else next(
                self.modules[above] for it in paths for above in [".".join(it.split("::")[:-1])]
                if above.split(".")[0] == of.crate and above in self.modules)
            of.link = f"{page.path}.html#{of.name}"
            page.shown.append(of)
        self.leads = {it.link: lead(it.doc) for it in self.paths}

    @staticmethod
    def container(item):
        return f"{item.module}.{item.owner.name}" if item.owner else item.module

    def fill(self, file):
        """Takes the modules of a file with all that they have."""
        self.modules[file.path] = Module(file.path, file.doc, file.file)
        for it in (it for it in file.items if not it.owner or it.owner.kind == "mod"):
            module = self.modules[self.container(it)]
            if it.kind == "mod" and it.is_public and it.id not in INNER and it.name not in INNER:
                module.below.append(f"{module.path}.{it.name}")
            if it.kind == "mod" and it.text.rstrip().endswith("}"):
                path = f"{module.path}.{it.name}"
                self.modules[path] = Module(path, it.doc, file.file)
            elif it.kind == "use" and it.is_public:
                module.passed |= {name: path for name, path, _ in brought(it.text, it.crate)}
            elif it.is_public and it.kind not in ("mod", "use", "impl") and it.name not in INNER:
                module.items[it.name] = it

    def meant(self, path):
        """The item or the module that a path means, as crate, module and so on, or None."""
        if ".".join(path) in self.modules:
            return self.modules[".".join(path)]
        of, name = self.meant(path[:-1]) if path[1:] else None, path[-1]
        if not isinstance(of, Module):
            return None
        return self.meant(of.passed[name]) if name in of.passed else of.items.get(name)

    def has(self, module):
        """What a module has for its users: each name, and the item or the module."""
        yield from module.items.items()
        yield from ((path.rpartition(".")[2], self.modules[path]) for path in module.below)
        yield from ((name, of) for name, path in module.passed.items() for of in [self.meant(path)] if of)

    def walk(self, module, path):
        """Finds the paths of a module, and of all that it has and passes on."""
        if path == module.path.replace(".", "::"):
            module.link = f"{module.path}.html"
        self.paths.setdefault(module, []).append(path)
        for name, of in self.has(module):
            if isinstance(of, Module):
                self.walk(of, f"{path}::{name}")
            else:
                self.paths.setdefault(of, []).append(f"{path}::{name}")

    def members(self, item):
        """The fields, variants, constants and calls that have an anchor below an item."""
        blocks = [it for it in self.impls if (it.key, it.trait) == (item.key, "")]
        return {it.name: it for of in (item, *blocks) for it in of.inside
                if it.kind != "ghost" and (it.is_public or it.kind == "const")}

    @functools.cache
    def find(self, path, file):
        """The link to what a path of code means in a file, or None."""
        first, *rest = re.sub(r"[^\w:].*", "", path).split("::")
        whole, near = [*opened(file).brought.get(first, [first]), *rest], opened(file).path.split(".")
        for above in ([], near, near[:1]):
            of, member = self.meant([*above, *whole]), ""
            if not of and len(whole) > 1:
                of, member = self.meant([*above, *whole[:-1]]), whole[-1]
            if of in self.paths and (not member or isinstance(of, Item) and member in self.members(of)):
                return of.link + f".{member}" * bool(member)
        return None

    def page(self, name, title, body):
        (self.folder / f"{name}.html").write_text(PARTS["page"](title=escape(title), body=body), "utf-8")

    def inline(self, text, file=None):
        """A line of prose, with what its code names as links."""
        def put(it):
            if it[5]:
                to = f"{it[5]}.html" + f"#{slug(it[6] or '')}" * (f"#{slug(it[6] or '')}" in self.anchors[it[5]])
                return f'<a href="{to}">{it[0]}</a>' if it[5] in self.anchors else it[0]
            name, page = (it[1] or it[3] or it[4]).strip("`"), re.match(r"(?:\S*/)?(\w+)\.md(#.*)?$", it[2] or "")
            if page:
                to = page[1] in self.anchors and f"{page[1]}.html{page[2] or ''}"
            else:
                to = file and (not it[4] or name[:1].isupper()) and self.find(it[2] or name, file)
            inside = f"<code>{name}</code>".replace("*", "&#42;") if "`" in it[0] else name
            return f'<a href="{to}">{inside}</a>' if to else inside

        text = re.sub(r"\[([^\]]+)\]\((.*?)\)|\[`([^`]+)`\]|`+ ?(.+?) ?`+"
                      r"|docs/(\w+)\.md(?:, ([A-Z][\w ]+))?", put, escape(" ".join(text.split())))
        return re.sub(r"\*(\w+)\*", r"<i>\1</i>", re.sub(r"\*\*(.+?)\*\*", r"<b>\1</b>", text))

    def prose(self, text, file=None):
        """A comment or a part of a page as prose."""
        put, out = functools.partial(self.inline, file=file), []
        for line, name, to in re.findall(r"(?m)^((\[`[^`]+`\]): (\S+))$", text):
            text = text.replace(line, "").replace(name, f"{name}({to})")
        for block in re.findall(r"(?ms)^```.*?^```$|(?:^(?!```)[^\n]+\n?)+", text):
            first, *rest = re.split(r"(?m)^- ", block)
            if block.startswith("```"):
                shown = re.sub(r"(?m)^# ", "", block.split("\n", 1)[1][:-4])
                out.append(code(shown, self.type_spans(shown, file)))
            elif block.startswith("|"):
                rows = [row.strip("| ").split(" | ") for row in block.split("\n") if row.strip("|-")]
                out += ["<table>", *("<tr><td>" + "<td>".join(map(put, row)) for row in rows), "</table>"]
            else:
                out += [f"<p>{put(first)}</p>" * bool(first.strip()),
                        f"<ul>{''.join(f'<li>{put(it)}</li>' for it in rest)}</ul>" * bool(rest)]
        return "".join(out)

    def type_spans(self, text, file):
        found = re.finditer(r"(?m)(^ *)?\b((?:\w+::)*[A-Z]\w*(?:::\w+)?)\b", text) if file else ()
        # a name at the start of a line is that of a variant
        spans = ((*it.span(2), self.find(it[2], file)) for it in found if it[1] is None or "::" in it[2])
        return [(begin, end, f'href="{to}"') for begin, end, to in spans if to]

    def word_spans(self, text, file, own=None):
        found = opened(file).marks(text)
        self.words |= {word.id: word for *_, word in found}
        return [(begin, end, f'class=w href="{word.href}"') for begin, end, word in found if word is not own]

    @functools.cache
    def word(self, word):
        """A definition, with its comment, or with what docs/SIGNS.md says of a word of the toolchain."""
        is_rt, text = word.file.suffix == ".rt", without_comments(word.text)
        told, file = word.doc.split("\n\n")[0] if is_rt else word.doc, word.file if is_rt else None
        place = f'<a href="{word.source}">{word.file.relative_to(CRATES)}</a>' if word.is_here else ""
        if not word.is_here:
            own, place = set(word.name.split("◌")) - {""}, f"toolchain, {word.module.replace('.', '/')}"
            told, file = next((it for of, it in self.rows if own <= of), lead(told) if is_rt else told), None
        spans = self.type_spans(text, file) if is_rt else self.word_spans(text, word.file, word)
        return self.prose(told, file) + code(text, spans) + f"<p class=small>{place}</p>"

    def listed(self, words):
        """Definitions, each with its name."""
        return "".join(PARTS["word"](id=html.escape(it.id), told=self.word(it),
                                     name=escape(it.name).replace("◌", " ").strip()) for it in words)

    def head(self, item):
        """A signature, its comment, and its clauses, whose words unfold."""
        sign, clauses = item.head[:item.cut].rstrip(" ,;\n"), item.head[item.cut:].rstrip(";")
        return (code(sign, self.type_spans(sign, item.file)) + self.prose(item.doc, item.file)
                + code(clauses, self.word_spans(clauses, item.file), "clauses") * bool(clauses.strip()))

    def ghosts(self, listed):
        """The members that clauses cite, but not those of an `impl` that are only proofs of laws."""
        return "".join(self.prose(it.doc, it.file) + code(text, self.word_spans(text, it.file, it), "clauses")
                       for it in listed for text in [without_comments(it.text)] if it.kind == "ghost"
                       and not any("Laws" in word.file.parts for *_, word in opened(it.file).marks(it.text)))

    def item(self, item, owner=None):
        """An item with all that belongs to it."""
        link, fields = f"{owner.link}.{item.name}" if owner else item.link, []
        listed = () if owner else self.members(item).values()
        anchor = link.partition("#")[2]
        name, (use, *others) = anchor.replace(".", "::"), self.paths[owner or item]
        told = f"{item.kind}, use {use}" + f"::{item.name}" * bool(owner)
        self.find_by(name, told, link, *(others if not owner else ()), lead(item.doc))
        for it in (it for it in listed if it.kind != "fn"):
            shown = re.sub(r"^pub |[,;]$", "", " ".join(without_comments(it.text).split()))
            shown = linked(shown, self.type_spans(shown, it.file))
            self.find_by(f"{name}::{it.name}", f"{it.kind} of {use}", f"{link}.{it.name}", lead(it.doc))
            fields.append(f'<dt id="{anchor}.{it.name}"><code>{shown}</code></dt>'
                          f"<dd>{self.prose(it.doc, it.file)}</dd>")
        blocks = [it for it in self.impls if it.trait and (it.key, None) == (item.key, owner)]
        return PARTS["item"](
            level=3 if owner else 2, anchor=anchor, name=name, kind=item.kind, source=item.source,
            use="" if owner else PARTS["use"](path=use), head=self.head(item), fields="".join(fields),
            ghosts=self.ghosts(item.inside), calls="".join(self.item(it, item) for it in listed if it.kind == "fn"),
            blocks="".join(PARTS["block"](
                name=escape(" ".join(it.head.split())), ghosts=self.ghosts(it.inside),
                calls="".join(self.head(of) for of in it.inside if of.kind == "fn")) for it in blocks))

    def find_by(self, name, told, link, *more):
        """Lets the search find this name, and these other texts."""
        self.found.append([name, told, link, " ".join(more).replace("`", "")])

    def module(self, module):
        """The page of a module: what it has and passes on, types first, and its own items."""
        path, (use, *others) = module.path.replace(".", "::"), self.paths[module]
        self.find_by(use, "module", module.link, *others, lead(module.doc))
        above = path.rpartition("::")[0]
        up = f'<p class=small>in <a href="{above.replace("::", ".")}.html">{above}</a></p>' * bool(above)
        also = PARTS["use"](path=use) * (use != path)
        self.page(module.path, path, up + also + self.prose(module.doc, module.file) + self.overview(
            list(self.has(module)), module.file) + "".join(map(self.item, module.shown)))

    def overview(self, rows, file):
        """What a module has, in groups: links, each with the first sentence of what it leads to, and with its calls."""
        out = []
        for group, kinds in GROUPS.items():
            of = [(name, it) for name, it in rows if it in self.paths and kind_of(it) in kinds]
            cells = "".join(PARTS["row"](to=it.link, name=name, told=self.inline(self.leads[it.link], file)
                                         + self.calls(it)) for name, it in of)
            out.append(f"<h3>{group}</h3><dl>{cells}</dl>" * bool(of))
        return "".join(out)

    def calls(self, of):
        """Links to the calls of a type."""
        names = [it.name for it in self.members(of).values() if it.kind == "fn"] if isinstance(of, Item) else ()
        return PARTS["calls"](calls=", ".join(f'<a href="{of.link}.{it}">{it}</a>' for it in names)) if names else ""

    def headline(self, name, title, *sentences):
        """A page on which a headline stands with all that it rests on."""
        items = [it for sentence in sentences for it in claims_of(sentence)]
        every, (own, other) = closure(items), counts(items)
        said = re.findall(r"(?m)^(?:>.*\n)+", (ROOT / "README.md").read_text("utf-8"))[name == "setting"]
        body = PARTS["headline"](
            quote=self.prose(said.replace("> ", "")), own=own, other=other, count=len(every),
            kinds=self.kinds() * (name == "headline"),
            heads="".join(PARTS["claim"](name=it.name, module=it.module.replace(".", "::"), source=it.source,
                                         head=self.head(it)) for it in items),
            signs=self.signs, here=self.listed(it for it in every if it.is_here),
            toolchain=self.listed(it for it in every if not it.is_here))
        # each word of the claims stands on this page
        on_page = {it.href: f"#{quote(it.id)}" for it in every}
        self.page(name, title, re.sub(r'(?<=class=w href=")[^"]*', lambda it: on_page.get(it[0], it[0]), body))
        self.find_by(title, f"statement, on {own} lines", f"{name}.html")

    def kinds(self):
        """The kinds of value as a table: the grammar of each, its canonical texts, and the lines that both rest on."""
        rows = []
        for name, items in grammars().items():
            cells = [linked(text, self.word_spans(text, it.file)) for it in items
                     for text in [re.search(r"\{ *(.*?) *\}", it.text)[1]]]
            own, other = counts(items)
            link = self.find(name, items[0].file)
            rows.append(f'<tr><td><a href="{link}">{name}</a>'
                        + "".join(f"<td><code class=l>{it}</code>" for it in cells) + f"<td>{own}<td>{other}")
        return PARTS["kinds"](rows="".join(rows))

    def settings(self):
        """The built-in rows of `config_check`."""
        text, rows = (CRATES / "config_checks/src/git.rt").read_text("utf-8").replace(r" \\#", " #"), {}
        text = re.sub(r"\\\n *", "", text.partition('SETTINGS: &str = "\\\n')[2].partition('\n";')[0])
        form = r"(?m)^([^#\s]\S*) +(?:since=(\S+) )?((?:(?:\w+=\S+|alone|needs-value|warn) )*)(\S+) ?(.*)"
        for key, since, marks, kind, words in re.findall(form, text):
            cells = "".join(f"<td>{escape(cell)}" for cell in (key, kind, words, since, marks.strip()))
            if key not in rows:
                self.find_by(key, f"setting, {kind}", f"settings.html#{quote(key)}", words)
            rows[key] = rows[key] + f"<tr>{cells}" if key in rows else f'<tr id="{key}">{cells}'
        kinds = re.search(r"(?ms)^## The kinds\n(.*?)^## ", (ROOT / "docs/CHECKING.md").read_text("utf-8"))[1]
        self.page("settings", "Settings that config_check knows",
                  PARTS["settings"](kinds=self.prose(kinds), rows="".join(rows.values())))

    def options(self):
        """The options of the programs that have some, with what `--help` says of each."""
        rows = []
        for program in ("git_settings", "config_check"):
            text = "\n".join(map(without_comments, (opened(it).text for it in (
                CRATES / program / "src/options.rt", CRATES / "config_host/src/options.rt"))))
            known = dict(re.findall(rf'const (\w+): &str =\s*({STRING});', text))
            for name, short, said in re.findall(OPTION, text):
                said, at = re.sub(r"\\\n *", "", known.get(said, said))[1:-1], f"{program}.{name}"
                self.find_by(f"--{name}", f"option of {program}", f"options.html#{at}", said)
                cells = (program, f"<code>{f'-{short}, ' * bool(short)}--{name}</code>", self.inline(said))
                rows.append(f'<tr id="{at}"><td>{"<td>".join(cells)}')
        self.page("options", "Options of the programs", PARTS["options"](rows="".join(rows)))

    def markdown(self, file):
        """A page of the repository, whose headings can be found."""
        title, *blocks = (ROOT / file).read_text("utf-8").split("\n\n")
        out, name, seen = [], pathlib.Path(file).stem, []
        for part in re.split(r"(?m)^(?=#+ )", "\n\n".join(blocks)):
            marks, heading, text = re.match(r"(?s)(?:(#+) ([^\n]*)\n)?(.*)", part).groups()
            if heading:
                count, at = seen.count(slug(heading)), slug(heading)
                at, seen = at + f"-{count}" * bool(count), [*seen, at]
                self.find_by(heading.replace("`", ""), f"part of {file}", f"{name}.html#{at}")
                out.append(f'<h{len(marks)} id="{at}">{self.inline(heading)}</h{len(marks)}>')
            out.append(self.prose(text))
        self.page(name, title.lstrip("# "), "".join(out))

    def declared(self, language, file, form):
        """What C or Python declare, by the lines of the file that does."""
        text, page, seen = (ROOT / file).read_text("utf-8"), f"{language}-declarations", set()
        for it in re.finditer(rf"(?m){form}", text):
            if it[0].strip() and it[it.lastindex] not in seen and not it[it.lastindex].startswith("_"):
                seen.add(it[it.lastindex])
                line = text.count("\n", 0, it.start(it.lastindex)) + 1
                self.find_by(it[it.lastindex], f"declared for {language}", f"{page}.html#L{line}")
        self.page(page, f"What {language} sees", code(text, (), "source", " id=L{}"))

    def definitions(self, crate):
        """The words of a crate, file by file, each file with what readers of it should look for."""
        of, out = {}, []
        for _, it in sorted(self.words.items()):
            if it.href.startswith(f"words.{crate}."):
                of.setdefault(it.module, []).append(it)
                if it not in self.paths:
                    self.find_by(it.name, f"definition of {it.crate}", it.href, lead(it.doc))
        for module, words in of.items():
            look = re.match(r"(?:--.+\n)*--\n((?:--.+\n)+)", opened(words[0].file).text)
            out.append(f"<h2>{module}</h2>" + (self.prose(re.sub("(?m)^-- ", "", look[1])) if look else ""))
            out.append(self.listed(words))
        self.page(f"words.{crate}", f"Definitions of {crate}", "".join(out))

    def write(self):
        self.folder.mkdir(parents=True, exist_ok=True)
        for module in (it for it in self.modules.values() if it.link):
            self.module(module)
        self.headline("headline", "The headline of values", "headline", "joined")
        self.headline("setting", "The headline of settings", "setting")
        self.settings()
        self.options()
        for page in PAGES:
            self.markdown(page)
        for language, (file, form) in OTHERS.items():
            self.declared(language, file, form)
        for file in (file for crate in LISTED for file in sorted((CRATES / crate / "specs").glob("*.antt"))):
            self.words |= {it.id: it for it in opened(file).words.values()}
        # what unfolds cites more words, until no new one comes
        shown = {}
        while len(shown) < len(self.words):
            shown = {key: self.word(word) for key, word in list(self.words.items())}
        for crate in (*LISTED, "toolchain"):
            self.definitions(crate)
        for name, data in ("FOUND", self.found), ("WORDS", shown):
            (self.folder / f"{name.lower()}.js").write_text(f"const {name} = {json.dumps(data)};", "utf-8")
        told = f"{sum(len(it.shown) for it in self.modules.values())} items, and {len(self.words)} definitions"
        crates = "".join(PARTS["row"](to=f"{it}.html", name=it, told=self.inline(lead(self.modules[it].doc)))
                         for it in LISTED)
        words = "".join(f"<li><a href=words.{it}.html>{it}</a></li>" for it in (*LISTED, "toolchain"))
        pages = "".join(f"<li><a href={pathlib.Path(it).stem}.html>{pathlib.Path(it).stem}</a></li>" for it in PAGES)
        pages += "".join(f"<li><a href={it}-declarations.html>{it}</a></li>" for it in OTHERS)
        self.page("index", "Reference",
                  PARTS["top"](told=told, crates=crates, pages=pages, words=words, signs=self.signs))
        for file in (it for crate in LISTED for it in (CRATES / crate).glob("s*/**/*.*t*")):
            at = str(file.relative_to(CRATES))
            self.page(f"source.{at.replace('/', '.')}", at, code(opened(file).text, (), "source", " id=L{}"))
        for name in ("reference.css", "reference.js"):
            (self.folder / name).write_bytes((ROOT / "docs" / name).read_bytes())
        print(told)


if __name__ == "__main__":
    Reference(pathlib.Path(*sys.argv[1:2] or [sys.exit("usage: python3 docs/reference.py FOLDER")])).write()
