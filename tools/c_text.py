"""C texts for the scripts beside this one: tokens with their places, and the line markers that preprocessors leave.

A text is a string with one character a byte (latin-1), so that its columns are those that `pcc` counts.
"""
import re
from dataclasses import dataclass

TOKEN = re.compile(
    r"""(?P<number>\.?[0-9](?:[eEpP][+-]|[\w.])*)|(?P<word>[A-Za-z_]\w*)"""
    r"""|(?P<text>"(?:\\.|[^"\\\n])*"?)|(?P<character>'(?:\\.|[^'\\\n])*'?)"""
    r"""|(?P<mark><<=|>>=|\.\.\.|\+\+|--|->|&&|\|\||[-+*/%&^|<>=!]=|<<|>>|<:|:>|<%|%>|%:|[-+*/%&^|<>=!~?:;,.(){}\[\]#])"""
    r"""|(?P<other>[^\s])""",
    re.ASCII,
)
COMMENT = re.compile(r"""//[^\n]*|/\*.*?(?:\*/|\Z)|"(?:\\.|[^"\\\n])*"?|'(?:\\.|[^'\\\n])*'?""", re.DOTALL)
MARKER = re.compile(r'^[ \t]*#[ \t]*(?:line[ \t]+)?([0-9]+)(?:[ \t]+"((?:\\.|[^"\\])*)")?')
SKIPPED = re.compile(r"^[ \t]*#[ \t]*(?:[0-9]|pragma\b)")


@dataclass(frozen=True)
class Token:
    """A token with its kind (a group of TOKEN) and the line and column, counted from 1, of its first byte."""

    kind: str
    text: str
    line: int
    column: int


def without_comments(text):
    """The text with a space in place of each character of a comment but its newlines, so that places stay."""

    def blank(found):
        return found[0] if found[0][0] in "\"'" else re.sub(r"[^\n]", " ", found[0])

    return COMMENT.sub(blank, text)


def tokens_of(text):
    """The tokens of a text, in order. Lines that a preprocessor leaves (`# 1 "a.c"`, `#pragma`) have none."""
    found = []
    for number, line in enumerate(without_comments(text).split("\n"), 1):
        if not SKIPPED.match(line):
            found += [Token(it.lastgroup, it[0], number, it.start() + 1) for it in TOKEN.finditer(line)]
    return found


def origins(text, name):
    """For each line of a preprocessed text, from line 1, the file and the line that it came from."""
    file, line, found = name, 1, []
    for row in text.split("\n"):
        marker = MARKER.match(row) if SKIPPED.match(row) else None
        found.append((file, line))
        if marker:
            line = int(marker[1])
            file = re.sub(r"\\(.)", r"\1", marker[2]) if marker[2] is not None else file
        else:
            line += 1
    return found


def column_in_source(made, source, column):
    """The column in a source's line of the token that stands at a column of the line that a preprocessor made of it, or
    None where a macro wrote that token. Both lines are without comments."""
    here = [(it[0], it.start() + 1) for it in TOKEN.finditer(made)]
    there = [(it[0], it.start() + 1) for it in TOKEN.finditer(source)]
    index = next((i for i, (_, start) in enumerate(here) if start == column), None)
    if index is None:
        return len(source.rstrip()) + 1 if column > len(made.rstrip()) else None
    if [text for text, _ in here] == [text for text, _ in there]:
        return there[index][1]
    text = here[index][0]
    places = [start for other, start in there if other == text]
    before = sum(other == text for other, _ in here[:index])
    same_number = len(places) == sum(other == text for other, _ in here)
    return places[before] if same_number else None
