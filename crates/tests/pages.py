#!/usr/bin/env python3
"""Compares the pages with the definitions, and runs the examples in comments (examples.py): pages.py [--with-tests]

A word, a bit, a number or a row fails if it is in a table of docs/GRAMMAR.md and not in `specs/`, or the other way
round. So does a claim with other counts than docs/READING.md tells, and a sign or a word of the toolchain
that a definition uses, if neither docs/SIGNS.md nor a comment explains it. The last line is 'N passed, M failed'.
"""
import pathlib
import re
import sys

ROOT = pathlib.Path(__file__).resolve().parent.parent.parent
sys.path.insert(0, str(ROOT / "docs"))
import examples  # noqa: E402
import grammar  # noqa: E402
import reference  # noqa: E402
from grammar import SECTIONS, rows, spans  # noqa: E402

LIBRARY = tuple(examples.CALLS)
KEYWORDS = "abbrev|data|mutual|pub|record|unfoldable|unfolding|Unit|use|where"
NUMBERS = dict(zip("first second third fourth fifth sixth seventh".split(), range(1, 8)))
NUMBERS |= dict(zip("one two three four five six seven".split(), range(1, 8)))


def spec(crate, file, name):
    """The text of a definition, without its comments."""
    defined = reference.opened(reference.CRATES / crate / f"specs/{file}.antt").words
    return reference.without_comments(defined[name].text)


def literals(text):
    return re.findall(r'codes "([^"]*)"', text)


def parts(text):
    """The texts and the numbers of a row, in order."""
    return ["".join(found) for found in re.findall(r'codes "([^"]*)"|(?<![\w^.])(\d+)\b', text)]


def sentence(section, pattern):
    """The first group that a pattern matches in a section, which is searched as one line, or an empty text."""
    found = re.search(pattern, " ".join(SECTIONS[section].split()))
    return found[1] if found else ""


def suffixes():
    texts, factors = spec("config_integer", "Suffix", "SuffixText"), spec("config_integer", "Suffix", "factor")
    known = {name: (literals(more), factors.split(f"factor {name} = ")[1].split("\n")[0])
             for name, more in re.findall(r"^SuffixText t (\w+) = (.*)", texts, re.MULTILINE)}
    yield "suffixes", known, {name: (spans(text), factor) for text, name, factor in rows("Suffixes")}
    shown = spans(sentence("Suffixes", r"Shown, and canonical: ([^.]*)"))
    yield "canonical suffixes", literals(spec("config_integer", "Suffix", "CanonicalSuffix")), shown
    yield "shown suffixes", literals(spec("config_integer", "Suffix", "suffix_shown")), shown


def integers():
    cases = re.split(r"\n  (?=\w+ : )", spec("config_integer", "Integer", "Magnitude"))[1:]
    known = [(literals(case), re.findall(r" (\d+)\b", re.sub('"[^"]*"', "", case))[-1]) for case in cases]
    yield "magnitudes", known, [(spans(form), base.split(" ")[-1]) for form, base in rows("Integers")]
    low, high = re.findall(r"(\d+)", spec("config_text", "Numerals", "IsInI64").split("where")[1])
    yield "the range", [str(-int(low) - 1), high], re.findall(r"(-?\d{9,})", SECTIONS["Numbers"])
    faults = re.findall(r"faults\.(\w+)", spec("config_integer", "Integer", "IntegerFault"))
    yield "faults of integers", faults, re.findall(r"`Fault::(\w+)`", SECTIONS["Integers"])


def booleans():
    for name, end in (("Affirms", "are true"), ("Denies", "are false")):
        known = literals(spec("config_boolean", "Boolean", name))
        yield name, known, spans(sentence("Booleans", rf"((?:`\w+`,? ?)+, ignoring ASCII case,[^.]*?{end})"))
    shown = spans(sentence("Booleans", r"Shown, and canonical: ([^.]*)"))
    yield "canonical booleans", literals(spec("config_boolean", "Boolean", "CanonicalBoolean")), shown


def names():
    table = rows("Color names")
    basic = max((spans(cells[0]) for cells in table), key=len)
    bright = [spans(cells[0])[0] + word for cells in table if "these eight" in cells[0] for word in basic]
    alone = [spans(cells[0])[0] for cells in table if cells[1] in ("Normal", "Default")]
    for name in ("lower_words", "name_shown"):
        known = [text for text in literals(spec("config_word", "Name", name)) if text != "#"]
        yield f"color names of {name}", sorted(known), sorted(alone + basic + bright)
    text = spec("config_word", "Name", "NameText")
    marks = {span for cells in table for span in spans(cells[0]) if not re.fullmatch("[a-z]+", span)}
    yield "other names", set(literals(text)), marks
    yield "palette", re.findall(r"k ≤ (\d+)", text), re.findall(r"number is 0 to (\d+)", SECTIONS["Color names"])


def opposite_bit(name, table):
    """The bit of the form of a constant with `NO_`, or without it, or no bit if there is none."""
    opposite = name.removeprefix("NO_") if name.startswith("NO_") else f"NO_{name}"
    return [str(table[opposite][0])] if opposite in table else []


def attributes():
    known = [parts(line) for line in spec("config_word", "Attribute", "attributes").split("\n") if "codes" in line]
    table = grammar.attributes()
    yield "attributes", known, [[name, str(bit), *texts, *opposite_bit(name, table)] for name, (bit, texts) in table.items()]
    facts = (reference.CRATES / "config_word/proofs/StandardFacts.antt").read_text("utf-8")
    examples_of = [[name, word] for name, word in re.findall(r'\((\w+), 0x\w+, codes "(\w+)",', facts)]
    yield "attributes in examples", examples_of, [[name, texts[0]] for name, (_, texts) in table.items()]


def colors():
    known = [(re.findall(r"2 \^ (\d+)", line), literals(line)[0])
             for line in spec("config_color", "Escape", "attribute_codes").split("\n") if '"' in line]
    yield "codes of attributes", known, [([str(grammar.attributes()[name][0]) for name in names], code)
                                         for names, code in grammar.attribute_codes()]
    shades = re.findall(r"shade 0x(\w\w) 0x(\w\w) 0x(\w\w)", spec("config_color", "Depth", "xterm_colors"))
    told = sentence("Fewer colors", r"XTerm-col\.ad: ([0-9a-f ]*)\.")
    yield "the colors of xterm", ["".join(shade).lower() for shade in shades], told.split()


def spaces():
    text = spec("config_color", "Space", "spellings")
    known = [bytes(int(byte, 0) for byte in row.split(" ∷ ")) for row in re.findall(r"\(([^()]*) ∷ \[\]\)", text)]
    listed = sentence("White space and words", r"UTF-8 spellings are ([^.]*)")
    page = [bytes.fromhex(f"{number:0{len(first)}x}") for first, last in re.findall(r"`(\w+)`(?: to `(\w+)`)?", listed)
            for number in range(int(first, 16), int(last or first, 16) + 1)]
    yield "white space", known, page
    yield "how many spellings", len(known), int(sentence("White space and words", r"is the (\d+) code points"))


def reached(text, file, seen):
    """The text of an equation, and of all definitions of its file that it cites, directly or through others."""
    for *_, word in reference.opened(file).marks(text):
        if word.file == file and word.name not in seen and not word.text.startswith("pub data"):
            seen.add(word.name)
            text += "\n" + reached(reference.without_comments(word.text), file, seen)
    return text


def paths():
    file = reference.CRATES / "config_path/specs/Interpolation.antt"
    yield "the mark", set(literals(spec("config_path", "Path", "Marked"))), {sentence("Paths", "one leading `([^`]*)`")}
    begins = set(literals(spec("config_path", "Interpolation", "HasForm")))
    yield "how values begin", begins, {span for cells in rows("Paths") for span in spans(cells[0])}
    declared = (reference.CRATES / "config_path/src/interpolate.rt").read_text("utf-8")
    variants = [name for kind in ("Error", "Place") for name in re.findall(
        r"^    ([A-Z]\w+)", re.search(rf"enum {kind}\b.*?^\}}", declared, re.DOTALL | re.MULTILINE)[0], re.MULTILINE)]
    table, form = {}, ""
    for value, _, result in rows("Paths"):
        form = value or form
        table.setdefault(form, set()).update(set(spans(result)) & set(variants) - {"IllFormed"})
    known = {}
    for form, more in re.findall(r"^Gives .*?\(?\b(empty|below_\w+|other)\b.*? result =(.*(?:\n(?!Gives ).*)*)",
                                 spec("config_path", "Interpolation", "Gives"), re.MULTILINE):
        cited = set(re.findall(r"\w+", reached(more, file, {"Gives"})))
        known[form] = cited & set(variants) - {"IllFormed", "Memory"}
    yield "the path table", list(known.values()), list(table.values())
    yield "refusals of paths", set(variants) - set().union(*table.values()), {"IllFormed", "Memory"}
    fields = re.search(r"\(([^()]*) ∷ \[\]\)", spec("config_path", "Passwd", "home_of_fields"))[1].split(" ∷ ")
    place, count = re.search(r"home is the (\w+) field .*?exactly (\w+)\s", SECTIONS["Paths"], re.DOTALL).groups()
    yield "the passwd field", (fields.index("home") + 1, len(fields)), (NUMBERS[place], NUMBERS[count])
    yield "the passwd name", fields[0], "user"


def answers():
    listed = spans(sentence("Lines and answers", r"the name of its kind: ([^.]*)"))
    yield "names of kinds", literals(spec("gix_config_value", "Kinds", "kind_name")), listed
    told = [span for _, answer in rows("Lines and answers") for span in spans(answer)]
    yield "answers", literals(spec("gix_config_value", "Answers", "outcome_text")), told


def places():
    """The files of definitions that the pages name, such as `config_text` `Value`."""
    for page in ("docs/GRAMMAR.md", "docs/READING.md"):
        text = " ".join((ROOT / page).read_text("utf-8").split())
        found = re.findall(r"`(\w+)`((?:,? `[A-Z]\w+`)+)", text)
        named = [(crate, file) for crate, files in found for file in spans(files)
                 if (reference.CRATES / crate).is_dir()]
        yield page, [of for of in named if not (reference.CRATES / of[0] / f"specs/{of[1]}.antt").exists()], []


def bodies():
    said = re.findall(r"lays (\d+) wrong bodies", (ROOT / "docs/EVIDENCE.md").read_text("utf-8"))
    yield "wrong bodies", [str(len(list(reference.CRATES.glob("*/wrong_bodies/*.edit"))))], said


def lengths():
    told = sentence("Colors", r"longest has (\d+) bytes")
    yield "the longest text", spec("config_text", "Value", "longest_text").split()[-1], told
    headline = re.findall(r"length s ≤ (\d+)", spec("uses", "Headline", "Headline"))
    yield "the longest text of the headline", headline, [told]
    law = (reference.CRATES / "config_color/src/laws/colors.rt").read_text("utf-8")
    known = re.search(r"LONGEST_ESCAPE ≡ (\d+)", law)[1]
    yield "the longest sequence", known, sentence("Escape sequences", r"longest has (\d+) bytes")


def reading():
    """The line counts in docs/READING.md: of each sentence, and of the grammar and the canonical texts of each kind."""
    page = (ROOT / "docs/READING.md").read_text("utf-8")
    claims = {name: reference.claims_of(name) for name in reference.SENTENCE}
    claims |= reference.grammars()
    known = {name: [str(round(count, -1)) for count in reference.counts(of)] for name, of in claims.items()}
    told = {name: counts for name, *counts in re.findall(r"(?m)^\| `(\w+)` \| (\d+) \| (\d+) \|$", page)}
    yield "docs/READING.md, the lines of claims", known, told


def has_comment(module, name):
    word = reference.looked_up(module, name)
    return word is not None and word.text.startswith("--")


def signs():
    """The signs and the words of the toolchain that docs/SIGNS.md has to explain."""
    explained = " ".join(re.findall("`+([^`]+)`+", (ROOT / "docs/SIGNS.md").read_text("utf-8")))
    own = tuple(f"Rattle.{crate}." for crate in LIBRARY)
    for crate in LIBRARY:
        for file in sorted((reference.CRATES / crate / "specs").glob("*.antt")):
            brought = reference.opened(file).names.items()
            used = [name for name, known in brought if not known[0].startswith(own) and not has_comment(*known)]
            text = re.sub(r'"(?:[^"\\]|\\.)*"|◌', " ", reference.without_comments(file.read_text("utf-8")))
            used += sorted(set(re.findall(r"[^\s\w(){};,.\[\]]+|Type \d|\[\]|\b(?:%s)\b" % KEYWORDS, text)))
            missing = [name for name in used if not all(
                re.search(rf"(?<!\w){re.escape(part)}(?!\w)", explained) for part in name.split("◌"))]
            yield f"docs/SIGNS.md, signs of {crate} {file.stem}", missing, []


def columns():
    rule = re.search(r"have at most (\d+) columns, but for (\w+) in 100", (ROOT / "CONTRIBUTING.md").read_text("utf-8"))
    lines = [line for folder in ("specs", "proofs") for file in reference.CRATES.glob(f"*/{folder}/**/*.antt")
             for line in file.read_text("utf-8").splitlines()]
    wide = sum(len(line) > int(rule[1]) for line in lines)
    yield f"lines over {rule[1]} columns ({wide} of {len(lines)}) are few", 100 * wide <= NUMBERS[rule[2]] * len(lines), True


def main():
    results = examples.results(sys.argv[1:] == ["--with-tests"])
    for compared in (suffixes, integers, booleans, names, attributes, colors, spaces, paths, answers, lengths, places,
                     bodies, reading, signs, columns):
        try:
            for what, known, told in compared():
                results.append((f"{what}: {known} in the code, {told} on the page", known == told))
        except (AttributeError, IndexError, KeyError, TypeError, ValueError) as error:
            results.append((f"{compared.__name__} has another form than this script knows: {error!r}", False))
    for fault, is_right in results:
        if not is_right:
            print(fault)
    passed = sum(is_right for _, is_right in results)
    print(f"{passed} passed, {len(results) - passed} failed")
    return passed != len(results)


sys.exit(main())
