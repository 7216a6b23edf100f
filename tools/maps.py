"""Maps of images, for the scripts beside this one: their text read into a tree, and written again.

The format is that of `crates/map_text/specs/Words.antt`, and its rules are those of `Rules.antt` beside it. `read(text)` gives a Map, or raises
NotMap with the line that isn't one of a map.
"""
import re
from dataclasses import dataclass, field

NUMBER = re.compile(r"(?:0|[1-9][0-9]*)\Z")
SIGNED = re.compile(r"(?:0|-?[1-9][0-9]*)\Z")
ADDRESS = re.compile(r"[0-9a-f]{8}\Z")
NAME = re.compile(r"[A-Za-z_][A-Za-z0-9_]*\Z")
VARIABLE = re.compile(r"(?:-|[A-Za-z_][A-Za-z0-9_]*(?:\.base|\.index)?)\Z")
PIECE = re.compile(r"([XYZ])([12]):(0|[1-9][0-9]*)\Z")
SLOT = re.compile(r"\[ebp-([1-9][0-9]*)\]\Z")
WORDS = ("eax", "ebx", "ecx", "edx")
BYTES = ("al", "bl", "cl", "dl", "ah", "bh", "ch", "dh")
COMPARISONS = ("eq", "ne", "lt", "le", "gt", "ge")
ORDERS = ("lt", "le", "gt", "ge")

# For each op the parts of its text. Of a variable: `d` is written, `a` is read; a digit is its width, and `x` means either, alike for
# both. `n` is a signed number, `k` a frame array, `o` an object, `w` an argument word, `s` a statement, `b` a block, `c` a comparison,
# `u` an order of numbers without sign, `W` the bits of an element.
OPS = {
    "const": "dx n", "copy": "dx ax", "wide": "d2 a1", "zero": "d2 a1", "low": "d1 a2", "low16": "d2 a2", "neg": "d2 a2",
    "not": "d2 a2",
    **{op: "d2 a2 a2" for op in ("add", "sub", "mul", "and", "or", "xor", "div", "rem", "udiv", "urem")},
    **{op: "d2 a2 a1" for op in ("shl", "sar", "shr")},
    "set": "c d2 a2 a2", "setu": "u d2 a2 a2", "frame": "d2 k", "static": "d2 o", "load": "W d2 a2 a2",
    "store": "W a2 a2 a2", "get": "W d2 o", "put": "W o a2", "clear": "k", "param": "d2 w", "putchar": "d2 a2", "getchar": "d2",
    "exit": "a2", "same": "a2 a2", "mark": "s", "turn": "", "jump": "b", "branch": "c a2 a2 b b",
    "branchu": "u a2 a2 b b",
}
ENDS = ("jump", "branch", "branchu", "return", "exit")


class NotMap(Exception):
    """The text is no map's: the line of that number, counted from 1, is no line that may stand there."""

    def __init__(self, line, why):
        super().__init__(f"line {line}: {why}")
        self.line, self.why = line, why


@dataclass
class Op:
    """An op by its words, with the variables that it reads and the one that it writes, and the blocks that it leads to."""

    words: list
    reads: list = field(default_factory=list)
    writes: int | None = None
    blocks: list = field(default_factory=list)

    @property
    def name(self):
        return self.words[0]

    @property
    def is_end(self):
        return self.name in ENDS


@dataclass
class Point:
    number: int
    address: int
    op: Op
    areas: list = field(default_factory=list)
    pieces: list = field(default_factory=list)  # (kind, width, variable)
    before: dict = field(default_factory=dict)  # variable to place
    after: dict = field(default_factory=dict)
    spilled: list = field(default_factory=list)
    line: int = 0  # of its first line


@dataclass
class Function:
    number: int
    name: str
    frame: int
    arrays: list = field(default_factory=list)  # (offset, count, bytes)
    variables: list = field(default_factory=list)  # (width, name)
    blocks: list = field(default_factory=list)  # lists of points
    line: int = 0

    def points(self):
        return [point for block in self.blocks for point in block]


@dataclass
class Map:
    objects: list = field(default_factory=list)  # (address, count, bytes)
    functions: list = field(default_factory=list)

    def marks(self):
        """For each marked statement its function and its point."""
        return {int(p.op.words[1]): (f, p) for f in self.functions for p in f.points() if p.op.name == "mark"}


def number(word, line, most=2**32 - 1, least=0):
    if not NUMBER.match(word) or not least <= int(word) <= most:
        raise NotMap(line, f"`{word}` is no number from {least} to {most}")
    return int(word)


def signed(word, line):
    if not SIGNED.match(word) or not -2**31 <= int(word) < 2**31:
        raise NotMap(line, f"`{word}` is no signed number of 32 bits")
    return int(word)


def address(word, line):
    if not ADDRESS.match(word):
        raise NotMap(line, f"`{word}` is no address of eight hexadecimal digits")
    return int(word, 16)


class Reader:
    """The lines of a text, one after another."""

    def __init__(self, text):
        if not text.endswith("\n"):
            raise NotMap(text.count("\n") + 1, "the last line has no newline")
        self.lines, self.at, self.map = text[:-1].split("\n"), 0, Map()

    def peek(self):
        return self.lines[self.at].split(" ")[0] if self.at < len(self.lines) else ""

    def take(self, first, least=0, most=None):
        """The words behind the first of the next line, which has to be this one."""
        if self.at >= len(self.lines):
            raise NotMap(self.at + 1, f"no line `{first}`")
        words = self.lines[self.at].split(" ")
        self.at += 1
        if words[0] != first or not least <= len(words) - 1 or most is not None and len(words) - 1 > most:
            raise NotMap(self.at, f"no line `{first}` with its words")
        return words[1:]

    def numbered(self, first, many, known):
        """The words of a line behind its number, which is that of the next of its kind."""
        words = self.take(first, many, many)
        if number(words[0], self.at) != known:
            raise NotMap(self.at, f"`{words[0]}` where {known} comes next")
        return words[1:]

    def elements(self, count, size):
        if size not in ("1", "2", "4"):
            raise NotMap(self.at, f"`{size}` bytes of an element")
        return number(count, self.at, least=1), int(size)

    def read(self):
        if self.take("pcc", 2, 2) != ["map", "1"]:
            raise NotMap(1, "no `pcc map 1`")
        while self.peek() == "object":
            words = self.numbered("object", 4, len(self.map.objects))
            self.map.objects.append((address(words[0], self.at), *self.elements(*words[1:])))
        names = sum(line.startswith("function ") for line in self.lines)
        while self.peek() == "function":
            self.function(names)
        self.take("end", 0, 0)
        if self.at != len(self.lines):
            raise NotMap(self.at + 1, "something behind `end`")
        return self.map

    def function(self, functions):
        words = self.numbered("function", 4, len(self.map.functions))
        if not NAME.match(words[0]) or words[1] != "frame":
            raise NotMap(self.at, "no name with `frame` behind it")
        f = Function(len(self.map.functions), words[0], number(words[2], self.at), line=self.at)
        self.map.functions.append(f)
        while self.peek() == "array":
            words = self.numbered("array", 4, len(f.arrays))
            if signed(words[0], self.at) >= 0:
                raise NotMap(self.at, f"`{words[0]}` is no offset below EBP")
            f.arrays.append((int(words[0]), *self.elements(*words[1:])))
        while self.peek() == "var":
            words = self.numbered("var", 3, len(f.variables))
            if words[0] not in ("1", "2") or not VARIABLE.match(words[1]):
                raise NotMap(self.at, "no width with a name behind it")
            f.variables.append((int(words[0]), words[1]))
        count = 0
        for line in self.lines[self.at:]:
            if line.startswith("function "):
                break
            count += line.startswith("block ")
        numbers = set()
        while self.peek() == "block":
            self.numbered("block", 1, len(f.blocks))
            f.blocks.append([])
            while self.peek() == "point":
                f.blocks[-1].append(self.point(f, functions, count, numbers))
            if not f.blocks[-1]:
                raise NotMap(self.at, "a block without a point")
            if not f.blocks[-1][-1].op.is_end:
                raise NotMap(f.blocks[-1][-1].line, "the last op of a block is no end")

    def point(self, f, functions, blocks, numbers):
        if f.blocks[-1] and f.blocks[-1][-1].op.is_end:
            raise NotMap(self.at + 1, "a point behind an end")
        words = self.take("point", 3)
        point = Point(number(words[0], self.at), address(words[1], self.at), None, line=self.at)
        if point.number in numbers:
            raise NotMap(self.at, f"a second point {point.number}")
        numbers.add(point.number)
        point.op = self.op(words[2:], f, functions, blocks)
        words = self.take("board", 5)
        if words[4] != "pieces" or not all(re.match(r"[buln]{2}\Z", it) for it in words[:4]):
            raise NotMap(self.at, "no four areas with `pieces` behind them")
        point.areas, point.pieces = words[:4], [self.piece(it, f) for it in words[5:]]
        for first, second in zip(point.pieces, point.pieces[1:]):
            if not (first[2] < second[2] or first[2] == second[2] and (first[0], second[0]) == ("X", "Z")):
                raise NotMap(self.at, "pieces out of order")
        point.before = self.standings("before", f)
        point.after = self.standings("after", f)
        point.spilled = [number(it, self.at, len(f.variables) - 1) for it in self.take("spilled")]
        if len(set(point.spilled)) != len(point.spilled):
            raise NotMap(self.at, "a variable twice")
        return point

    def piece(self, word, f):
        found = PIECE.match(word)
        if not found or int(found[3]) >= len(f.variables) or f.variables[int(found[3])][0] != int(found[2]):
            raise NotMap(self.at, f"`{word}` is no piece of a variable")
        return found[1], int(found[2]), int(found[3])

    def standings(self, first, f):
        found, last = {}, -1
        for word in self.take(first):
            variable, _, place = word.partition("=")
            v = number(variable, self.at, len(f.variables) - 1)
            if v <= last:
                raise NotMap(self.at, "variables that don't ascend")
            slot = SLOT.match(place)
            if not (slot and int(slot[1]) <= 2**31 or place in (WORDS if f.variables[v][0] == 2 else BYTES)):
                raise NotMap(self.at, f"`{place}` is no place of variable {v}")
            found[v], last = place, v
        return found

    def op(self, words, f, functions, blocks):
        found = Op(words)
        if words[0] in ("call", "return"):
            return self.call_or_return(found, f, functions)
        if words[0] not in OPS or len(OPS[words[0]].split()) != len(words) - 1:
            raise NotMap(self.at, f"`{' '.join(words)}` is no op")
        widths = set()
        for part, word in zip(OPS[words[0]].split(), words[1:]):
            self.part(part, word, found, f, blocks, widths)
        if len(widths) > 1:
            raise NotMap(self.at, "two widths in one copy")
        return found

    def variable(self, word, width, f):
        v = number(word, self.at, len(f.variables) - 1)
        if width and f.variables[v][0] != width:
            raise NotMap(self.at, f"variable {v} has another width")
        return v

    def part(self, part, word, found, f, blocks, widths):
        if part[0] in "da":
            v = self.variable(word, 0 if part[1] == "x" else int(part[1]), f)
            if part == "dx" and found.name == "copy" or part == "ax":
                widths.add(f.variables[v][0])
            if part[0] == "d":
                found.writes = v
            else:
                found.reads.append(v)
        elif part == "n":
            signed(word, self.at)
        elif part == "c" and word not in COMPARISONS or part == "u" and word not in ORDERS:
            raise NotMap(self.at, f"`{word}`")
        elif part == "W" and word not in ("8", "16", "32"):
            raise NotMap(self.at, f"`{word}`")
        elif part == "b":
            found.blocks.append(number(word, self.at, blocks - 1))
        elif part in "ko":
            number(word, self.at, len(f.arrays if part == "k" else self.map.objects) - 1)
        elif part in "ws":
            number(word, self.at)

    def call_or_return(self, found, f, functions):
        words = found.words
        if len(words) < 2 or words[0] == "return" and len(words) != 2 or words[0] == "call" and len(words) < 3:
            raise NotMap(self.at, f"`{' '.join(words)}` is no op")
        if words[0] == "call":
            number(words[2], self.at, functions - 1)
            found.reads = [self.variable(it, 2, f) for it in words[3:]]
            found.writes = None if words[1] == "-" else self.variable(words[1], 2, f)
        elif words[1] != "-":
            found.reads = [self.variable(words[1], 2, f)]
        return found


def read(text):
    """The map whose text this is."""
    return Reader(text).read()


def read_file(name):
    with open(name, encoding="ascii", errors="replace", newline="") as file:
        return read(file.read())
