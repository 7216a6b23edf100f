"""What drawn programs are made of: expressions with what they read and write, variables, arrays and functions."""
import random
from dataclasses import dataclass, field

TYPES = {"char": 8, "short": 16, "int": 32}
SPELLINGS = {
    "char": ["char", "char", "signed char", "char signed"],
    "short": ["short", "short", "short int", "int short", "signed short", "short signed int"],
    "int": ["int", "int", "int", "int", "signed", "signed int"],
}
NUMBERS = [
    0, 1, 2, 3, 7, 8, 10, 31, 32, 63, 127, 128, 129, 255, 256, 32767, 32768, 65535, 65536, 2147483646, 2147483647,
]
WORDS = [
    "a", "word", "0123456789abcdef", "two words\\n", "\\t\\\\\\\"\\'", "\\x7f\\200\\377", "",
    "longer than the others are",
]

# Where an expression stands in the grammar, from the loosest to the tightest
COMMA, ASSIGNMENT, CONDITIONAL, CAST, UNARY, POSTFIX, PRIMARY = 1, 2, 3, 14, 15, 16, 17
BINARY = {
    "||": 4, "&&": 5, "|": 6, "^": 7, "&": 8, "==": 9, "!=": 9, "<": 10, ">": 10, "<=": 10, ">=": 10,
    "<<": 11, ">>": 11, "+": 12, "-": 12, "*": 13, "/": 13, "%": 13,
}

# What an evaluation may read or write besides variables: elements of arrays, input and output with the program's
# end, and all that outlives a call
MEMORY, OUTSIDE, EVERYTHING = "memory", "outside", "everything"

LONGEST_INPUT = 40
# Statements that a call makes at most, and that main makes
CALL_COST, MAIN_COST = 3_000, 15_000
# Calls that are active at once, of 4,096 that may be
DEEPEST = 3_000


@dataclass(frozen=True)
class Expression:
    """A text, its place in the grammar, and the variables and other things that its evaluation reads and writes."""

    text: str
    level: int
    reads: frozenset = frozenset()
    writes: frozenset = frozenset()

    def at(self, level):
        """The text where the grammar wants this level."""
        return self.text if self.level >= level else f"({self.text})"


def made_of(text, level, *parts, reads=(), writes=()):
    """An expression that evaluates these parts, and reads and writes more itself."""
    all_reads = frozenset(reads).union(*(it.reads for it in parts))
    return Expression(text, level, all_reads, frozenset(writes).union(*(it.writes for it in parts)))


def outlives(it):
    return isinstance(it, str) or it.is_shared


def changes(writes, others):
    """Whether one of these writes may change one of the others."""
    return not writes.isdisjoint(others) or EVERYTHING in writes and any(map(outlives, others))


def clash(one, other):
    """Whether it matters which of the two is evaluated first."""
    return changes(one.writes, other.reads | other.writes) or changes(other.writes, one.reads | one.writes)


@dataclass(eq=False)
class Variable:
    """A scalar. What is fixed isn't assigned to; bounds are the least and the greatest value, where they are known."""

    name: str
    type: str
    is_shared: bool = False
    is_fixed: bool = False
    bounds: tuple = None
    definition: str = ""
    home: int = 0
    is_static: bool = False


@dataclass(eq=False)
class Elements:
    """An array, or a pointer to the first of `length` elements; elements that are fixed aren't assigned to."""

    name: str
    type: str
    length: int
    is_pointer: bool = False
    is_shared: bool = False
    is_fixed: bool = False
    has_fixed_elements: bool = False
    ends_in_zero: bool = False
    definition: str = ""
    home: int = 0
    is_static: bool = False


@dataclass(eq=False)
class Function:
    """What a caller knows. `fuel` is the greatest first argument of a function that calls itself."""

    name: str
    type: str
    parameters: list
    home: int
    is_static: bool
    fuel: int = None
    reads: frozenset = frozenset()
    writes: frozenset = frozenset()
    cost: int = 1
    depth: int = 1
    lines: list = field(default_factory=list)
    used: set = field(default_factory=set)


def indented(lines):
    return [f"    {line}" for line in lines]


class Draw(random.Random):
    """Draws with the words that are wanted here."""

    def chance(self, probability):
        return self.random() < probability

    def weighted(self, rows):
        """One of the rows (weight, what), by its weight."""
        return self.choices([what for _, what in rows], [weight for weight, _ in rows])[0]


def wrapped(value, bits=32):
    half = 1 << bits - 1
    return (value + half) % (1 << bits) - half


def spelled(draw, value):
    """A constant of this value, or its negation, as an expression."""
    if value == -2147483648:
        return Expression("-2147483647 - 1", BINARY["-"])
    if value < 0:
        return Expression(f"-{-value}", UNARY)
    forms = [str(value)] * 5 + [hex(value), f"0{value:o}"]
    if 32 <= value < 127 and chr(value) not in "'\\":
        forms += [f"'{chr(value)}'"] * 2
    elif value < 8:
        forms.append(f"'\\{value}'")
    return Expression(draw.choice(forms), PRIMARY)


def constant(draw, depth):
    """An integer constant expression that doesn't trap, and its value."""
    if depth == 0 or draw.chance(0.3):
        value = draw.choice(NUMBERS) if draw.chance(0.3) else draw.randrange(100)
        return spelled(draw, value), value
    one, a = constant(draw, depth - 1)
    other, b = constant(draw, depth - 1)
    form = draw.choice(["+", "-", "*", "&", "|", "^", "<", "==", "<<", ">>", "/", "?", "cast", "~", "!", "-1"])
    if form == "?":
        third, c = constant(draw, depth - 1)
        text = f"{one.at(BINARY['||'])} ? {other.at(COMMA)} : {third.at(CONDITIONAL)}"
        return Expression(text, CONDITIONAL), b if a else c
    if form == "cast":
        name = draw.choice(list(TYPES))
        return Expression(f"({draw.choice(SPELLINGS[name])}){one.at(CAST)}", CAST), wrapped(a, TYPES[name])
    if form in ("~", "!", "-1"):
        return prefixed(form[0], one), wrapped({"~": ~a, "!": int(a == 0), "-1": -a}[form])
    if form in ("<<", ">>"):
        b %= 32
        other = spelled(draw, b)
    if form == "/" and b in (0, -1):
        form = "+"
    level = BINARY[form]
    values = {
        "+": lambda: a + b, "-": lambda: a - b, "*": lambda: a * b, "&": lambda: a & b, "|": lambda: a | b,
        "^": lambda: a ^ b, "<": lambda: int(a < b), "==": lambda: int(a == b), "<<": lambda: a << b,
        ">>": lambda: a >> b,
        "/": lambda: abs(a) // abs(b) * (1 if (a < 0) == (b < 0) else -1),
    }
    value = wrapped(values[form]())
    return Expression(f"{one.at(level)} {form} {other.at(level + 1)}", level), value


def constant_of(draw, value):
    """An integer constant expression of this value."""
    if draw.chance(0.8):
        return spelled(draw, value)
    more = draw.randrange(1, 20)
    return Expression(f"{spelled(draw, value - more).text} + {more}", BINARY["+"])


def prefixed(operator, operand):
    """A unary operator before an operand, with a blank where two marks would be read as one."""
    text = operand.at(CAST)
    blank = " " if text[0] == operator else ""
    return made_of(f"{operator}{blank}{text}", UNARY, operand)
