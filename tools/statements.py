"""Where the numbered statements of C files stand, for the scripts beside this one.

Each statement that is no block, and each declared item of a block or of the head of a `for` that isn't `static`, is numbered from 0 in the order
of the text, over all files (docs/USING.md, "How statements are numbered"). A file with directives of the preprocessor goes through it first, as
`bin/pcc-cc` does it, and the places are those of the files that a person wrote.
"""
import argparse
import importlib.machinery
import importlib.util
import re
import tempfile
from dataclasses import dataclass

import c_text
from crates import TOP

SPECIFIERS = {"auto", "register", "static", "extern", "const", "void", "char", "short", "int", "signed", "unsigned"}


@dataclass(frozen=True)
class Statement:
    """A statement or a declared item: the file and line where it begins, and the function that it is in."""

    file: str
    line: int
    function: str


class Walk:
    """Goes over the tokens of a text that the compiler accepted, and notes the token at which each numbered statement begins."""

    def __init__(self, tokens):
        self.tokens, self.at, self.found, self.function = tokens, 0, [], ""

    def text(self, ahead=0):
        return self.tokens[self.at + ahead].text if self.at + ahead < len(self.tokens) else ""

    def note(self):
        self.found.append((self.tokens[self.at], self.function))

    def expect(self, text):
        if self.text() != text:
            raise ValueError(f"`{self.text()}` where `{text}` was awaited")
        self.at += 1

    def until(self, *marks):
        """Goes to the next of these marks that stands in no brackets."""
        depth = 0
        while self.at < len(self.tokens) and (depth or self.text() not in marks):
            depth += (self.text() in ("(", "[", "{", "<:", "<%")) - (self.text() in (")", "]", "}", ":>", "%>"))
            self.at += 1

    def unit(self):
        while self.at < len(self.tokens):
            while self.text() in SPECIFIERS or self.text() == "*":
                self.at += 1
            self.function = self.text()
            self.until(";", "{", "=", "<%")
            if self.text() in ("{", "<%"):
                self.block()
            else:
                self.until(";")
                self.at += 1

    def block(self):
        self.at += 1
        while self.text() not in ("}", "%>", ""):
            if self.text() in SPECIFIERS:
                self.declaration()
            else:
                self.statement()
        self.at += 1

    def declaration(self):
        is_static = False
        while self.text() in SPECIFIERS:
            is_static |= self.text() == "static"
            self.at += 1
        while True:
            if not is_static:
                self.note()
            self.until(",", ";")
            self.at += 1
            if self.tokens[self.at - 1].text == ";":
                return

    def parenthesised(self):
        self.expect("(")
        self.until(")")
        self.at += 1

    def statement(self):
        word = self.text()
        if word in ("{", "<%"):
            self.block()
            return
        self.note()
        if word in ("if", "while", "for", "switch", "do"):
            self.at += 1
            getattr(self, f"{word}_behind")()
        else:
            self.until(";")
            self.at += 1

    def if_behind(self):
        self.parenthesised()
        self.statement()
        if self.text() == "else":
            self.at += 1
            self.statement()

    def while_behind(self):
        self.parenthesised()
        self.statement()

    def do_behind(self):
        self.statement()
        self.expect("while")
        self.parenthesised()
        self.expect(";")

    def for_behind(self):
        self.expect("(")
        if self.text() in SPECIFIERS:
            self.declaration()
        else:
            self.until(";")
            self.at += 1
        self.until(")")
        self.at += 1
        self.statement()

    def switch_behind(self):
        self.parenthesised()
        self.at += 1
        while self.text() not in ("}", "%>", ""):
            if self.text() in ("case", "default"):
                self.label()
            else:
                self.statement()
        self.at += 1

    def label(self):
        """A label ends at the colon that belongs to no `?`."""
        choices = 0
        while choices or self.text() != ":":
            choices += (self.text() == "?") - (self.text() == ":")
            self.at += 1
        self.at += 1


def pcc_cc():
    """The driver `bin/pcc-cc` as a module."""
    loader = importlib.machinery.SourceFileLoader("pcc_cc", f"{TOP}/bin/pcc-cc")
    module = importlib.util.module_from_spec(importlib.util.spec_from_loader("pcc_cc", loader))
    loader.exec_module(module)
    return module


def preprocessed(path, folders=(), macros=()):
    """The text of a file, through the preprocessor where it has directives."""
    with open(path, encoding="latin-1", newline="\n") as file:
        text = file.read()
    if not any(re.match(r"[ \t]*(#|%:)", row) and not c_text.SKIPPED.match(row) for row in text.split("\n")):
        return text
    driver = pcc_cc()
    with tempfile.TemporaryDirectory() as room:
        paths = driver.preprocessed(argparse.Namespace(folders=list(folders), macros=list(macros)), [path], room)
        return text if paths is None else driver.read(paths[0])


def statements_of(paths, folders=(), macros=()):
    """The numbered statements of these files, in order."""
    found = []
    for path in paths:
        text = preprocessed(path, folders, macros)
        places = c_text.origins(text, path)
        walk = Walk(c_text.tokens_of(text))
        walk.unit()
        found += [Statement(*places[token.line - 1], function) for token, function in walk.found]
    return found
