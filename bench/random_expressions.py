"""Draws expressions, with the calls and pointers in them, for the body of one function."""
from random_parts import (
    ASSIGNMENT, BINARY, CALL_COST, CAST, COMMA, CONDITIONAL, EVERYTHING, MAIN_COST, MEMORY, NUMBERS, OUTSIDE, POSTFIX,
    PRIMARY, SPELLINGS, TYPES, UNARY, WORDS, Elements, Expression, Variable, changes, clash, made_of, outlives,
    prefixed, spelled,
)


class Expressions:
    """Draws expressions where a function's body has come to, and counts what they cost."""

    def __init__(self, program, function, ring=(), ring_calls=0):
        self.program, self.draw, self.function = program, program.draw, function
        self.ring, self.ring_calls = ring, ring_calls
        self.scopes = [{it.name: it for it in function.parameters}]
        self.loops = 0
        # How often the statement that is drawn is made, and how many statements the body makes
        self.times, self.cost, self.depth = 1, 0, 0
        self.reads, self.writes = set(), set()
        self.names = 0

    # names

    def name(self, letter):
        """A new name, or one of a scope further out, but for that of the fuel, which calls further in name."""
        outer = [name for scope in self.scopes[:-1] for name in scope if name not in self.scopes[-1] and name != "n"]
        if outer and self.draw.chance(0.15):
            return self.draw.choice(outer)
        self.names += 1
        return f"{letter}{self.names}"

    def seen(self):
        """The variables and arrays that their names mean here."""
        found = {it.name: it for it in self.program.objects_of(self.function.home)}
        for scope in self.scopes:
            found.update(scope)
        return [it for it in found.values() if it]

    def variables(self, is_assigned=False):
        return [it for it in self.seen() if isinstance(it, Variable) and not (is_assigned and it.is_fixed)]

    def elements(self, name=None, length=1, is_assigned=False, ends_in_zero=False):
        """Arrays and pointers of this type with so many elements."""
        return [
            it for it in self.seen()
            if isinstance(it, Elements) and (name is None or it.type == name) and it.length >= length
            and not (is_assigned and it.has_fixed_elements) and not (ends_in_zero and not it.ends_in_zero)
        ]

    def use(self, it):
        """Its name as an expression; of a pointer the variable is read, of an array nothing."""
        if it.home:
            self.function.used.add(it)
        reads = {it} if isinstance(it, Variable) or it.is_pointer else ()
        return made_of(it.name, PRIMARY, reads=reads)

    def noted(self, expression):
        """The expression of a statement, what of it a caller may notice being kept."""
        self.reads.update(filter(outlives, expression.reads))
        self.writes.update(filter(outlives, expression.writes))
        return expression

    # expressions

    def number(self):
        """A number, and not always a positive one."""
        value = self.draw.choice(NUMBERS) if self.draw.chance(0.4) else self.draw.randrange(20)
        return spelled(self.draw, -value if self.draw.chance(0.2) else value)

    def beside(self, make, *others, small=False):
        """What `make` gives, or a number, where it would matter which of it and the others comes first.

        A small number is one of 1 to 31.
        """
        it = make()
        if self.program.kind == "faults" or not any(clash(it, other) for other in others):
            return it
        return spelled(self.draw, self.draw.randrange(1, 32)) if small else self.number()

    def leaf(self):
        found = self.variables()
        if self.program.has_arrays and self.draw.chance(0.25):
            return self.element_value(0, False)
        return self.use(self.draw.choice(found)) if found and self.draw.chance(0.75) else self.number()

    def value(self, depth, effects=False):
        """An expression of a type that isn't a pointer's; with effects it may write."""
        if depth <= 0:
            return self.leaf()
        rows = [
            (3, self.leaf_value), (3, self.unary), (8, self.arithmetic), (3, self.shift), (3, self.quotient),
            (3, self.comparison), (2, self.logical), (2, self.conditional), (2, self.cast), (0.3, self.chain),
        ]
        if self.program.has_arrays:
            rows += [(4, self.element_value), (1, self.pointer_value)]
        if effects:
            rows += [(3, self.assignment), (3, self.step), (3, self.call), (1, self.comma), (1, self.library_call)]
        return self.draw.weighted(rows)(depth - 1, effects) or self.leaf()

    def leaf_value(self, _depth, _effects):
        return self.leaf()

    def pair(self, depth, effects):
        """Two operands of which neither changes what the other gives."""
        one = self.value(depth, effects)
        other = self.beside(lambda: self.value(depth, effects), one)
        return (one, other) if self.draw.chance(0.5) else (other, one)

    def binary(self, operator, one, other):
        level = BINARY[operator]
        return made_of(f"{one.at(level)} {operator} {other.at(level + 1)}", level, one, other)

    def unary(self, depth, effects):
        return prefixed(self.draw.choice("+--~~!!"), self.value(depth, effects))

    def arithmetic(self, depth, effects):
        return self.binary(self.draw.choice("++--*&|^"), *self.pair(depth, effects))

    def chain(self, _depth, _effects):
        """Many operands, none of which writes anything."""
        it = self.leaf()
        for _ in range(self.draw.randrange(5, 60)):
            it = self.binary(self.draw.choice("++--*^"), it, self.leaf())
        return it

    def count(self, depth, effects):
        """A count of a shift."""
        if self.program.kind == "faults" and self.draw.chance(0.3):
            return self.value(depth, effects)
        if self.draw.chance(0.5):
            return spelled(self.draw, self.draw.randrange(32))
        return self.binary("&", self.value(depth, effects), spelled(self.draw, 31))

    def shift(self, depth, effects):
        one = self.value(depth, effects)
        other = self.beside(lambda: self.count(depth, effects), one, small=True)
        return self.binary(self.draw.choice(["<<", ">>"]), one, other)

    def divisor(self, depth, effects):
        """A divisor that is neither 0 nor -1."""
        form = self.draw.randrange(4)
        if form == 0:
            return spelled(self.draw, self.draw.choice([1, 2, 3, 7, 10, 255, 32768, 2147483647]))
        inner = self.binary("&", self.value(depth, effects), spelled(self.draw, self.draw.choice([7, 15, 255, 32767])))
        if form == 1:
            return self.binary("|", inner, spelled(self.draw, 1))
        inner = self.binary("+", inner, spelled(self.draw, 2))
        return inner if form == 2 else prefixed("-", inner)

    def quotient(self, depth, effects):
        one = self.value(depth, effects)
        other = self.beside(lambda: self.divisor(depth, effects), one, small=True)
        return self.binary(self.draw.choice("/%"), one, other)

    def comparison(self, depth, effects):
        return self.binary(self.draw.choice(["<", ">", "<=", ">=", "==", "!="]), *self.pair(depth, effects))

    def logical(self, depth, effects):
        return self.binary(self.draw.choice(["&&", "||"]), self.value(depth, effects), self.value(depth, effects))

    def conditional(self, depth, effects):
        test, one, other = (self.value(depth, effects) for _ in range(3))
        text = f"{test.at(BINARY['||'])} ? {one.at(COMMA)} : {other.at(CONDITIONAL)}"
        return made_of(text, CONDITIONAL, test, one, other)

    def cast(self, depth, effects):
        inner = self.value(depth, effects)
        return made_of(f"({self.draw.choice(SPELLINGS[self.draw.choice(list(TYPES))])}){inner.at(CAST)}", CAST, inner)

    def comma(self, depth, effects):
        one, other = self.value(depth, effects), self.value(depth, effects)
        return made_of(f"{one.at(COMMA)}, {other.at(ASSIGNMENT)}", COMMA, one, other)

    def place(self, depth, effects):
        """A variable or an element that may be assigned to, and what an assignment to it writes."""
        found = self.variables(is_assigned=True)
        if self.program.has_arrays and self.draw.chance(0.4):
            it = self.element(depth, effects, is_assigned=True)
            if it:
                return it, MEMORY
        if not found:
            return None
        it = self.draw.choice(found)
        return made_of(self.use(it).text, PRIMARY), it

    def assigned(self, depth, effects):
        """The right side of an assignment, with its operator."""
        operator = self.draw.choice("= = = = = = = = += += += -= -= *= &= |= ^= ^= <<= >>= /= %=".split())
        if operator in ("<<=", ">>="):
            return operator, self.count(depth, effects)
        if operator in ("/=", "%="):
            return operator, self.divisor(depth, effects)
        return operator, self.value(depth, effects)

    def assignment(self, depth, effects):
        found = self.place(min(depth, 1), False)
        if not found:
            return None
        place, written = found
        operator, right = self.assigned(depth, effects)
        reads = () if operator == "=" else {written}
        stored = made_of("", PRIMARY, place, writes={written})
        if self.program.kind != "faults" and (clash(place, right) or changes(right.writes, stored.writes)):
            right = self.number() if operator not in ("/=", "%=", "<<=", ">>=") else spelled(self.draw, 3)
        text = f"{place.at(UNARY)} {operator} {right.at(ASSIGNMENT)}"
        return made_of(text, ASSIGNMENT, place, right, reads=reads, writes={written})

    def step(self, depth, effects):
        """An increment or decrement."""
        found = self.place(min(depth, 1), False)
        if not found:
            return None
        place, written = found
        operator = self.draw.choice(["++", "--"])
        if self.draw.chance(0.5):
            return made_of(f"{operator}{place.at(UNARY)}", UNARY, place, reads={written}, writes={written})
        return made_of(f"{place.at(POSTFIX)}{operator}", POSTFIX, place, reads={written}, writes={written})

    def library_call(self, depth, effects):
        if self.draw.chance(0.2):
            return made_of("getchar()", POSTFIX, writes={OUTSIDE})
        inner = self.value(depth, effects)
        return made_of(f"putchar({inner.at(ASSIGNMENT)})", POSTFIX, inner, writes={OUTSIDE})

    # calls

    def called(self, wants_value):
        """A function that may be called here, or none: the cost of all its calls is known."""
        left = (MAIN_COST if self.function.name == "main" else CALL_COST) - self.cost
        found = [
            it for it in self.program.functions
            if it.cost * self.times <= left and (not it.is_static or it.home == self.function.home)
            and not (wants_value and it.type == "void")
        ]
        return self.draw.choice(found) if found else None

    def argument(self, parameter):
        if isinstance(parameter, Variable):
            return self.value(self.draw.choice([0, 1, 2]), True)
        return self.pointer(parameter.type, parameter.length, not parameter.has_fixed_elements, parameter.ends_in_zero)

    def call(self, _depth, _effects, wants_value=True):
        """A call of a function that was drawn before."""
        callee = self.called(wants_value)
        if not callee:
            return None
        arguments = []
        for parameter in callee.parameters:
            if callee.fuel is not None and not arguments:
                make = lambda: self.fuel(callee.fuel)
            else:
                make = lambda: self.argument(parameter)
            it = self.beside(make, *arguments) if isinstance(parameter, Variable) else make()
            if not it or not isinstance(parameter, Variable) and any(clash(it, other) for other in arguments):
                return None
            arguments.append(it)
        self.cost += callee.cost * self.times
        self.depth = max(self.depth, callee.depth)
        self.function.used.add(callee)
        text = ", ".join(it.at(ASSIGNMENT) for it in arguments)
        return made_of(f"{callee.name}({text})", POSTFIX, *arguments, reads=callee.reads, writes=callee.writes)

    def fuel(self, most):
        """A first argument for a function that calls itself."""
        mask = (1 << (most + 1).bit_length() - 1) - 1
        if mask and self.draw.chance(0.4):
            return self.binary("&", self.value(1), spelled(self.draw, mask))
        return spelled(self.draw, self.draw.choice([0, 1, most, self.draw.randrange(most + 1)]))

    def ring_call(self, callee):
        """A call of a function of the ring that this one belongs to, with less fuel."""
        own = self.function.parameters[0]
        arguments = [self.binary("-", self.use(own), spelled(self.draw, self.draw.choice([1, 1, 1, 2])))]
        for parameter in callee.parameters[1:]:
            arguments.append(self.value(1) if isinstance(parameter, Variable) else self.argument(parameter))
        self.function.used.add(callee)
        text = ", ".join(it.at(ASSIGNMENT) for it in arguments)
        everything = {EVERYTHING}
        return made_of(f"{callee.name}({text})", POSTFIX, *arguments, reads=everything, writes=everything)

    # arrays and pointers

    def index(self, length, depth, effects):
        """An expression from 0 to below this length."""
        if self.program.kind == "faults" and self.draw.chance(0.03):
            return self.value(depth, effects)
        counters = [it for it in self.variables() if it.bounds and 0 <= it.bounds[0] and it.bounds[1] < length]
        if counters and self.draw.chance(0.5):
            return self.use(self.draw.choice(counters))
        if depth <= 0 or self.draw.chance(0.3):
            return spelled(self.draw, self.draw.randrange(length))
        inner = self.value(depth, effects)
        if self.draw.chance(0.7):
            return self.binary("&", inner, spelled(self.draw, (1 << length.bit_length() - 1) - 1))
        inner = self.binary("&", inner, spelled(self.draw, 32767))
        return self.binary("%", inner, spelled(self.draw, length))

    def element(self, depth, effects, is_assigned=False):
        """A place of an array's element, or none."""
        found = self.elements(is_assigned=is_assigned)
        if not found:
            return None
        it = self.draw.choice(found)
        base = self.use(it)
        start = self.draw.randrange(it.length) if self.draw.chance(0.15) else 0
        index = self.index(it.length - start, depth, effects)
        if start:
            base = made_of(f"(&{base.text}[{start}])", PRIMARY, base)
        form = self.draw.randrange(10)
        if form < 6:
            return made_of(f"{base.text}[{index.at(COMMA)}]", POSTFIX, base, index)
        if form < 8:
            operands = (base, index) if form == 6 else (index, base)
            return prefixed("*", self.binary("+", *operands))
        if form == 8 and not start:
            return prefixed("*", base)
        return made_of(f"{index.at(POSTFIX)}[{base.text}]", POSTFIX, base, index)

    def element_value(self, depth, effects):
        if self.draw.chance(0.1):
            word = self.draw.choice(WORDS[:4])
            length = len(word.replace("\\n", "n"))
            index = self.index(length + 1, depth, effects)
            return made_of(f'"{word}"[{index.at(COMMA)}]', POSTFIX, index, reads={MEMORY})
        it = self.element(depth, effects)
        return it and made_of(it.text, it.level, it, reads={MEMORY})

    def pointer(self, name, length, is_assigned, ends_in_zero=False):
        """A pointer to at least so many elements of this type, or none."""
        found = self.elements(name, length, is_assigned, ends_in_zero)
        if name == "char" and not is_assigned and (ends_in_zero or not found or self.draw.chance(0.2)):
            words = [word for word in WORDS if len(word) >= length and "\\" not in word] or [WORDS[-1]]
            if len(words[-1]) >= length:
                return Expression(f'"{self.draw.choice(words)}"', PRIMARY)
        if not found:
            return None
        it = self.draw.choice(found)
        base = self.use(it)
        start = self.draw.randrange(it.length - length + 1)
        form = self.draw.randrange(6)
        if form < 2 or start == 0 and form < 4:
            return base
        if form == 2:
            return self.binary("+", spelled(self.draw, start), base)
        if form == 3:
            return made_of(f"&{base.text}[{start}]", UNARY, base)
        if form == 4:
            test, other = self.value(1), self.use(self.draw.choice(found))
            return made_of(f"{test.at(BINARY['||'])} ? {base.text} : {other.text}", CONDITIONAL, test, base, other)
        return self.binary("+", base, spelled(self.draw, start))

    def pointer_value(self, depth, effects):
        """A number that two pointers give."""
        it = self.draw.choice(self.elements() or [None])
        if not it:
            return None
        base = self.use(it)
        one, other = (self.index(it.length, depth, False) for _ in range(2))
        operator = self.draw.choice(["-", "-", "<", ">", "<=", ">=", "==", "!="])
        right = made_of(f"&{base.text}[{other.at(COMMA)}]", UNARY, base, other)
        if operator in ("==", "!=") and self.draw.chance(0.5):
            right = self.draw.choice([Expression("0", PRIMARY), self.use(self.draw.choice(self.elements(it.type)))])
        return self.binary(operator, self.binary("+", base, one), right)
