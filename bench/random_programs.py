#!/usr/bin/env -S python3 -B
"""Draws programs of the language that pcc compiles, each from its kind and a number.

usage: bench/random_programs.py KIND NUMBER FOLDER

writes the sources 1.c, 2.c and so on and the file `input` to FOLDER, which is made. The same words write the same
files.

| KIND | what is drawn |
|---|---|
| scalars | one file with functions, recursion and control flow over char, short and int |
| arrays | one file with arrays, pointers, strings and static objects besides, and every access in bounds |
| faults | the same, and at its end an access out of bounds, a null pointer, two arrays compared or a deep recursion |
| files | as arrays, in one to five files |

Every program ends. But for `faults` a program means the same under C99 with a signed char, sums that wrap, locals that
begin as 0 and conversions that keep the low bits, so gcc can be compared with: where C99 leaves open which of two
operands comes first, neither changes what the other gives; counts of shifts are below 32; a function returns what it
promises. One of ten programs divides by what may be 0, and then traps. A program of `faults` keeps none of this, so
only pcc says what it means.
"""
import os
import sys

from random_parts import (
    ASSIGNMENT, CALL_COST, DEEPEST, EVERYTHING, LONGEST_INPUT, MAIN_COST, OUTSIDE, TYPES, WORDS, Draw, Elements,
    Function, Variable, constant, constant_of, indented,
)
from random_statements import Body

KINDS = ("scalars", "arrays", "faults", "files")


class Program:
    """A program that is drawn: its objects and functions, and the sources that hold them."""

    def __init__(self, kind, number):
        self.kind, self.draw = kind, Draw(f"{kind} {number}")
        self.has_arrays = kind != "scalars"
        self.may_divide_by_zero = kind != "faults" and self.draw.chance(0.1)
        self.files = self.draw.randrange(1, 6) if kind == "files" else 1
        self.objects, self.functions = [], []
        self.names = 0
        self.show = Function("show", "void", [Variable("n", "int")], 1, False, writes=frozenset({OUTSIDE}), cost=30)
        self.show.lines = ["for (int i = 28; i >= 0; i -= 4)", "    putchar('a' + (n >> i & 15));", "putchar('\\n');"]
        if self.has_arrays:
            self.draw_objects()
        for _ in range(self.draw.randrange(1, 7)):
            self.draw_function() if self.draw.chance(0.7) else self.draw_ring()
        self.draw_main()
        self.input = bytes(self.draw.randrange(256) for _ in range(self.draw.randrange(LONGEST_INPUT)))

    def objects_of(self, home):
        """The objects that a file may use."""
        return [it for it in self.objects if not it.is_static or it.home == home]

    def place(self):
        """The file of a new object or function, and whether it is known there alone."""
        return self.draw.randrange(1, self.files + 1), self.draw.chance(0.4)

    def name(self, letter, home, is_static):
        """A name that its file knows alone may stand in other files as well."""
        self.names += 1
        own = sum(1 for it in self.objects + self.functions if it.is_static and it.home == home)
        return f"{letter}_own{own}" if is_static else f"{letter}{self.names}"

    def draw_objects(self):
        """Scalars, and for each type an array that every file knows."""
        for _ in range(self.draw.randrange(1, 6)):
            home, is_static = self.place()
            name, kind = self.name("g", home, is_static), self.draw.choice(list(TYPES))
            it = Variable(name, kind, True, home=home, is_static=is_static)
            if self.draw.chance(0.7):
                it.definition = f" = {constant(self.draw, 2)[0].at(ASSIGNMENT)}"
            self.objects.append(it)
        for kind in list(TYPES) + [self.draw.choice(list(TYPES)) for _ in range(self.draw.randrange(4))]:
            is_first = kind not in (it.type for it in self.objects if isinstance(it, Elements))
            home, is_static = self.place()
            self.objects.append(self.array(kind, home, is_static and not is_first, is_first))

    def array(self, kind, home, is_static, is_long):
        """An array of static storage, for its file or for all."""
        length = self.draw.choice([8, 9, 16, 64] if is_long else [1, 2, 3, 5, 8])
        it = Elements(self.name("t", home, is_static), kind, length, is_shared=True, home=home, is_static=is_static)
        if kind == "char" and not is_long and self.draw.chance(0.6):
            word = self.draw.choice([word for word in WORDS if "\\" not in word])
            it.length, it.definition = len(word) + 1, f' = "{word}"'
            it.has_fixed_elements = it.ends_in_zero = self.draw.chance(0.5)
        elif self.draw.chance(0.6):
            items = [constant(self.draw, 1)[0].at(ASSIGNMENT) for _ in range(self.draw.randrange(1, length + 1))]
            it.definition = f" = {{{', '.join(items)}}}"
        return it

    def parameters(self):
        found = []
        for number in range(self.draw.randrange(0, 5)):
            kind = self.draw.choice(list(TYPES))
            if not self.has_arrays or self.draw.chance(0.6):
                found.append(Variable(f"n{number}", kind))
                continue
            is_constant = self.draw.chance(0.4)
            is_text = is_constant and kind == "char"
            length = 1 if is_text else self.draw.choice([1, 2, 4, 8])
            it = Elements(f"n{number}", kind, length, True, has_fixed_elements=is_constant, ends_in_zero=is_text)
            found.append(it)
        return found

    def new_function(self, type_name, parameters, home, is_static):
        return Function(self.name("f", home, is_static), type_name, parameters, home, is_static)

    def body(self, it, ring=(), ring_calls=0, before=(), count=None):
        """Draws the body of a function, and what a caller knows of it."""
        body = Body(self, it, ring, ring_calls)
        lines = list(before)
        for _ in range(count or self.draw.randrange(2, 9)):
            if body.cost < CALL_COST:
                lines += body.declaration(2) if self.draw.chance(0.35) else body.statement(3)
        if it.type != "void" and not (self.kind == "faults" and self.draw.chance(0.2)):
            lines.append(f"return {body.noted(body.value(3, True)).text};")
        it.lines, it.reads, it.writes = lines, frozenset(body.reads), frozenset(body.writes)
        it.cost, it.depth = body.cost + 1, body.depth + 1

    def draw_function(self):
        home, is_static = self.place()
        result = self.draw.choice(["void", "char", "short", "int", "int", "int"])
        it = self.new_function(result, self.parameters(), home, is_static)
        self.body(it)
        self.functions.append(it)

    def draw_ring(self):
        """One to three functions that call each other, and themselves, with less fuel each time."""
        home, is_static = self.place()
        calls = self.draw.choice([1, 1, 2])
        ring = []
        for number in range(self.draw.choice([1, 1, 2, 3])):
            fuel = Variable("n", "int", is_fixed=True)
            result = self.draw.choice(["void", "int", "short"])
            it = self.new_function(result, [fuel] + self.parameters(), home, is_static)
            it.name += "abc"[number]
            ring.append(it)
        for it in ring:
            stop = "return;" if it.type == "void" else f"return {self.draw.randrange(9)};"
            self.body(it, ring, calls, ["if (n <= 0)", f"    {stop}"], 4)
        reads = frozenset().union(*(it.reads for it in ring)) - {EVERYTHING}
        writes = frozenset().union(*(it.writes for it in ring)) - {EVERYTHING}
        cost, depth = max(it.cost for it in ring), max(it.depth for it in ring)
        if calls == 1:
            fuel = min(CALL_COST // cost, self.draw.choice([10, 100, 900]))
            cost *= fuel + 1
        else:
            fuel = max(0, (CALL_COST // cost).bit_length() - 2)
            cost *= 2 ** (fuel + 1)
        if fuel + depth > DEEPEST:
            return
        for it in ring:
            it.fuel, it.reads, it.writes, it.cost, it.depth = fuel, reads, writes, cost, fuel + depth
        self.functions += ring

    def draw_main(self):
        home, _ = self.place()
        self.main = Function("main", "int", [], home, False)
        body = Body(self, self.main)
        lines = []
        for _ in range(self.draw.randrange(4, 10)):
            if body.cost < MAIN_COST // 2:
                lines += body.declaration(3) if self.draw.chance(0.4) else body.statement(4)
        if self.draw.chance(0.5):
            counter = Variable("c", "int", is_fixed=True)
            lines += ["{", "    int c;", "    while ((c = getchar()) != -1)"]
            lines += indented(body.repeated(LONGEST_INPUT, counter, 1)) + ["}"]
        for it in body.variables():
            lines.append(f"show({body.use(it).text});")
        for it in body.elements():
            if not it.is_pointer:
                lines += [f"for (int i = 0; i < {it.length}; i++)", f"    show({body.use(it).text}[i]);"]
        if self.kind == "faults":
            lines += body.fault()
            self.main.used.add(self.deep())
        if self.draw.chance(0.2):
            lines.append(f"exit({body.value(1).at(ASSIGNMENT)});")
        self.main.used.add(self.show)
        self.main.lines = lines + [f"return {body.value(2, True).text};"]

    def deep(self):
        """A function whose calls are as many as its argument says, and one more."""
        it = Function("deep", "int", [Variable("n", "int")], 1, False)
        it.lines = ["if (n == 0)", "    return 0;", "return 1 + deep(n - 1);"]
        self.functions.append(it)
        return it

    # sources

    def prototype(self, it, is_definition):
        """What stands before the body of a function, or before the `;` of its declaration."""

        def parameter(number, it):
            keeps_name = is_definition or self.draw.chance(0.5)
            name = it.name if keeps_name else ""
            if isinstance(it, Variable):
                return f"{it.type} {name}".strip()
            word = "const " if it.has_fixed_elements else ""
            forms = [f"{word}{it.type} *{name}", f"{word}{it.type} {name}[]", f"{word}{it.type} {name}[{it.length}]"]
            return forms[0] if not keeps_name else self.draw.choice(forms)

        words = ", ".join(parameter(number, one) for number, one in enumerate(it.parameters))
        words = words or self.draw.choice(["void", "void", ""])
        return f"{'static ' if it.is_static else ''}{it.type} {it.name}({words})"

    def object_declaration(self, it):
        size = "" if isinstance(it, Variable) else f"[{constant_of(self.draw, it.length).text}]"
        return f"{it.type} {it.name}{size}"

    def object_lines(self, it):
        """The definition of an object, and sometimes declarations of the same."""
        word = "static " if it.is_static else ""
        lines = [f"{word}{self.object_declaration(it)}{it.definition};"]
        if not it.is_static and self.draw.chance(0.1):
            lines.insert(0, f"extern {self.object_declaration(it)};")
        if self.draw.chance(0.1):
            lines.insert(self.draw.randrange(2), f"{word}{self.object_declaration(it)};")
        return lines

    def source(self, home):
        """The text of one file: declarations of what it uses, and then what it defines."""
        own = [it for it in [self.show] + self.functions + [self.main] if it.home == home]
        used = set().union(*(it.used for it in own)) if own else set()
        lines = ["int putchar(int c);", "int getchar(void);", "void exit(int status);"]
        foreign = sorted((it for it in used if it.home != home), key=lambda it: it.name)
        for it in foreign:
            if isinstance(it, Function):
                lines.append(f"{self.draw.choice(['', 'extern '])}{self.prototype(it, False)};")
            else:
                lines.append(f"extern {self.object_declaration(it)};")
        for it in self.objects:
            if it.home == home:
                lines += self.object_lines(it)
        for it in own:
            if it.fuel is not None or it is not self.main and self.draw.chance(0.3):
                lines.append(f"{self.prototype(it, False)};")
        for it in own:
            lines += ["", self.prototype(it, True), "{"] + indented(it.lines) + ["}"]
        if self.draw.chance(0.2):
            lines = [self.dressed(number, line) for number, line in enumerate(lines)]
        return "\n".join(lines) + "\n"

    def dressed(self, number, line):
        """The same tokens, some of them spelled by digraphs, with comments and white space between them."""
        if "'" not in line and '"' not in line and self.draw.chance(0.5):
            for mark, digraph in {"{": "<%", "}": "%>", "[": "<:", "]": ":>"}.items():
                line = line.replace(mark, digraph)
            line = line.replace(" ", self.draw.choice(["  ", "\t", " /* * / */ ", "\v\f"]))
        return line + self.draw.choice(["", "", f" // {number} /*", f" /* {number} // */", "\r"])

    def sources(self):
        return [self.source(home) for home in range(1, self.files + 1)]


def write_program(kind, number, folder):
    """Writes a program's sources and its input to a folder; the paths of the sources and of the input."""
    program = Program(kind, number)
    os.makedirs(folder, exist_ok=True)
    paths = []
    for place, text in enumerate(program.sources(), 1):
        paths.append(os.path.join(folder, f"{place}.c"))
        with open(paths[-1], "w", encoding="ascii") as file:
            file.write(text)
    entered = os.path.join(folder, "input")
    with open(entered, "wb") as file:
        file.write(program.input)
    return paths, entered


def main(words):
    if len(words) != 3 or words[0] not in KINDS or not words[1].isdecimal():
        sys.exit(__doc__)
    kind, number, folder = words
    paths, _ = write_program(kind, int(number), folder)
    print("\n".join(paths))


if __name__ == "__main__":
    main(sys.argv[1:])
