"""Reads docs/GRAMMAR.md for tests: its sections, the rows of their tables, and what these say of attributes."""
import pathlib
import re

PAGE = pathlib.Path(__file__).with_name("GRAMMAR.md").read_text("utf-8")
SECTIONS = dict(re.findall(r"^## ([^(\n]*\w)[^\n]*\n(.*?)(?=^## |\Z)", PAGE, re.MULTILINE | re.DOTALL))


def spans(text):
    return re.findall(r"`([^`]+)`", text)


def rows(section):
    """The cells of each row in a section's table."""
    lines = [line for line in SECTIONS[section].split("\n") if line.startswith("|")]
    return [[cell.strip() for cell in line[1:-1].split("|")] for line in lines[2:]]


def attributes():
    """The name of each constant with its bit and its texts, by rising bit. The first text is the word."""
    return {spans(name)[0]: (int(bit), spans(texts)) for name, bit, texts in rows("Attributes")}


def attribute_words():
    """The word of each attribute, by rising bit."""
    return [texts[0].encode() for _, texts in attributes().values()]


def attribute_codes():
    """The names of the constants of each code of an escape sequence, in the order in which codes are written."""
    return [(spans(cells[0]), "".join(spans(cells[1]))) for cells in rows("Escape sequences")
            if len(cells) == 2 and spans(cells[0])]
