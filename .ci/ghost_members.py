"""Each reader, conversion, default and shown text states its promise in a ghost member, and each public type of a
library its equality, order and clone in a law. The prover does not report a missing one. So each `impl` and `derive` of
these traits is checked here, and fails without a promise of a known form. The last line is 'N passed, M failed'."""
import pathlib
import re
import sys

CRATES = pathlib.Path(__file__).resolve().parent.parent / "crates"
# the member of each trait, and the words, one of which it has to have
MEMBERS = {
    "TryFrom": ("try_from_gives", r"\bReads(?:Bytes|Text|Owned|Or)\b"),
    "FromStr": ("from_str_gives", r"\b(?:ReadsFault|ReadsOr|NamesKind)\b"),
    "From": ("from_gives", r"≡|\bIsPathOf\b"),
    "Default": ("is_default", r"≡"),
    "Display": ("output", r"\b(?:Some|option_map)\b"),
}
# `impl`, type parameters, the path of the trait, its parameters, and the type; and the same by the first line only
IMPL = re.compile(r"^impl(?:<[^>\n]*>)? (?:\w+::)*(\w+)(?:<[^\n]*>)? for ([^\n]*?)(?: \{|\nwhere\b)(.*?)^\}",
                  re.MULTILINE | re.DOTALL)
FIRST_LINE = re.compile(r"^impl\b.*[ :](?:TryFrom|FromStr|From|Default|Display)\b.* for ", re.MULTILINE)
# the traits that a public type derives, and its name; and for each trait the words that its law may have
DERIVED = re.compile(r"^#\[derive\((.*)\)\]\n(?:#\[.*\]\n)*pub (?:struct|enum) (\w+)", re.MULTILINE)
LAWS = {"PartialEq": "(?:HasOrder|Equates)", "Ord": "HasOrder", "Clone": "IsCopied"}


def members(file, text):
    """For each `impl` of MEMBERS: the message if its promise is missing, and whether the promise is there."""
    found = [(trait, of, body) for trait, of, body in IMPL.findall(text) if trait in MEMBERS]
    for trait, of, body in found:
        member, form = MEMBERS[trait]
        promise = re.search(rf"^    ghost {member} = \{{(.*?)\}};$", body, re.MULTILINE | re.DOTALL)
        yield f"{trait} for {of} has no `{member}` of a known form", promise and re.search(form, promise.group(1))
    # no `impl` is missed
    yield f"{file.name} has another count of such impls", len(found) == len(FIRST_LINE.findall(text))


def laws(texts):
    """For each trait of LAWS that a type derives: the message if its law is missing, and whether it is there."""
    for traits, of in [found for text in texts for found in DERIVED.findall(text)]:
        for trait in sorted(LAWS.keys() & set(traits.split(", "))):
            law = rf"{LAWS[trait]}\b[^{{}}]*⟦<{of}(?:<[^⟧]*>)? as {trait}>⟧"
            yield f"{trait} for {of} has no law", any(re.search(law, text) for text in texts)


def main():
    told = []
    for crate in sorted(CRATES.iterdir()):
        texts = {file: file.read_text(encoding="utf-8") for file in sorted(crate.glob("src/**/*.rt"))}
        told += [it for file, text in texts.items() for it in members(file, text)]
        # nothing outside a program or the tests uses their types
        told += laws(texts.values()) if crate / "src/lib.rt" in texts and crate.name != "tests" else []
    missing = [fault for fault, is_there in told if not is_there]
    print(*missing, f"{len(told) - len(missing)} passed, {len(missing)} failed", sep="\n")
    return 1 if missing or not told else 0


sys.exit(main())
