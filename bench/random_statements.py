"""Draws declarations and statements, for the body of one function."""
from random_expressions import Expressions
from random_parts import (
    ASSIGNMENT, BINARY, CAST, CONDITIONAL, MEMORY, OUTSIDE, PRIMARY, SPELLINGS, TYPES, WORDS, Elements, Variable,
    constant, constant_of, indented, made_of, spelled,
)


class Body(Expressions):
    """Draws the body of one function. A statement is a list of lines."""

    # declarations

    def declared(self, scope, name, it):
        scope[name] = it
        return it

    def scalar_declaration(self, depth):
        name, kind = self.name("x"), self.draw.choice(list(TYPES))
        scope = self.scopes[-1]
        # neither it nor what it hides is seen in its initialiser
        scope[name] = None
        word = self.draw.weighted([(20, ""), (2, "const "), (1, "register "), (1, "auto "), (3, "static ")])
        if word == "static " and (not self.program.has_arrays or self.ring):
            word = ""
        spelling = f"{word}{self.draw.choice(SPELLINGS[kind])} {name}"
        it = Variable(name, kind, is_shared=word == "static ", is_fixed=word == "const ")
        self.declared(scope, name, it)
        if word == "static ":
            return [f"{spelling} = {constant(self.draw, 2)[0].at(ASSIGNMENT)};"]
        if word in ("", "auto ") and self.draw.chance(0.1):
            return [f"{spelling};"]
        scope[name] = None
        first = self.noted(self.value(depth, True))
        scope[name] = it
        return [f"{spelling} = {first.at(ASSIGNMENT)};"]

    def array_declaration(self, depth):
        name, kind = self.name("a"), self.draw.choice(list(TYPES))
        scope = self.scopes[-1]
        scope[name] = None
        length = self.draw.choice([1, 2, 3, 4, 5, 8, 16])
        size = constant_of(self.draw, length).at(CONDITIONAL)
        if kind == "char" and self.draw.chance(0.4):
            word = self.draw.choice([it for it in WORDS if "\\" not in it])
            length = len(word) + 1
            line = f'char {name}[{self.draw.choice(["", str(length)])}] = "{word}";'
        elif self.draw.chance(0.5):
            values = [self.noted(self.value(min(depth, 1))) for _ in range(self.draw.randrange(1, length + 1))]
            items = ", ".join(it.at(ASSIGNMENT) for it in values) + self.draw.choice(["", ","])
            length = len(values) if self.draw.chance(0.3) else length
            line = f"{kind} {name}[{'' if length == len(values) else size}] = {{{items}}};"
        else:
            line = f"{kind} {name}[{size}];"
        self.declared(scope, name, Elements(name, kind, length))
        return [line]

    def pointer_declaration(self, _depth):
        name, kind = self.name("p"), self.draw.choice(list(TYPES))
        scope = self.scopes[-1]
        scope[name] = None
        length, is_constant = self.draw.choice([1, 1, 2, 4]), self.draw.chance(0.3)
        first = self.pointer(kind, length, not is_constant)
        if not first:
            del scope[name]
            return self.scalar_declaration(1)
        self.noted(first)
        self.declared(scope, name, Elements(name, kind, length, is_pointer=True, has_fixed_elements=is_constant))
        return [f"{'const ' if is_constant else ''}{kind} *{name} = {first.at(ASSIGNMENT)};"]

    def declaration(self, depth):
        rows = [(6, self.scalar_declaration)]
        if self.program.has_arrays:
            rows += [(2, self.array_declaration), (2, self.pointer_declaration)]
        return self.draw.weighted(rows)(depth)

    # statements

    def block(self, depth, before=()):
        """The lines between braces, and behind those before them."""
        self.scopes.append({})
        lines = list(before)
        for _ in range(self.draw.randrange(1, 5)):
            lines += self.declaration(2) if self.draw.chance(0.25) else self.statement(depth)
        self.scopes.pop()
        return lines

    def braced(self, depth, before=()):
        return ["{"] + indented(self.block(depth, before)) + ["}"]

    def inner(self, depth):
        """A statement below another."""
        return self.braced(depth) if self.draw.chance(0.7) else indented(self.statement(depth))

    def statement(self, depth):
        self.cost += self.times
        rows = [(10, self.expression_statement), (3, self.show)]
        if self.loops:
            rows.append((1, self.jump))
        if self.program.may_divide_by_zero:
            rows.append((3, self.division_statement))
        if self.ring_calls and self.times == 1:
            rows.append((4, self.ring_statement))
        if depth > 0:
            rows += [(5, self.if_statement), (2, self.switch_statement), (1, self.braced)]
            # a program of faults comes to its last statements
            if self.program.kind != "faults" or self.function.name != "main":
                rows.append((1, self.return_statement))
            if self.times < 100:
                rows += [(4, self.loop)]
            if self.program.has_arrays:
                rows += [(2, self.walk), (1, self.text_walk), (1, self.null_test), (1, self.pointer_assignment)]
        return self.draw.weighted(rows)(depth - 1) or [";"]

    def expression_statement(self, _depth):
        form = self.draw.random()
        if form < 0.5:
            it = self.assignment(3, True)
        elif form < 0.6:
            it = self.step(2, True)
        elif form < 0.9:
            it = self.call(2, True, wants_value=False)
        else:
            it = self.value(3, True)
        if not it:
            return None
        self.noted(it)
        return [f"(void){it.at(CAST)};" if self.draw.chance(0.05) else f"{it.text};"]

    def show(self, _depth):
        it = self.value(2, True)
        if self.draw.chance(0.5):
            self.function.used.add(self.program.show)
            self.cost += self.times * self.program.show.cost
            text = f"show({it.at(ASSIGNMENT)});"
        else:
            text = f"putchar({it.at(ASSIGNMENT)});"
        self.noted(made_of("", PRIMARY, it, writes={OUTSIDE}))
        return [text]

    def division_statement(self, _depth):
        found, places = self.variables(), self.variables(is_assigned=True)
        if not found or not places:
            return None
        divisor, place = self.use(self.draw.choice(found)), self.draw.choice(places)
        self.noted(made_of("", PRIMARY, divisor, writes={place, OUTSIDE}))
        return [f"{self.use(place).text} = {self.draw.randrange(1, 2000)} {self.draw.choice('/%')} {divisor.text};"]

    def jump(self, _depth):
        return [self.draw.choice(["break;", "continue;"])]

    def return_statement(self, _depth):
        if self.program.kind != "faults" and self.draw.chance(0.1):
            test, status = self.noted(self.value(2)), self.noted(self.value(1))
            self.noted(made_of("", PRIMARY, writes={OUTSIDE}))
            return [f"if ({test.at(BINARY['<'])} == 3)", f"    exit({status.at(ASSIGNMENT)});"]
        if self.function.type == "void":
            return [f"if ({self.noted(self.value(2, True)).text}) return;"]
        test = self.noted(self.value(2)).text
        return [f"if ({test})", f"    return {self.noted(self.value(2, True)).text};"]

    def ring_statement(self, _depth):
        """One of the calls that a function makes of its ring."""
        self.ring_calls -= 1
        callee = self.draw.choice(self.ring)
        it = self.noted(self.ring_call(callee))
        places = [place for place in self.variables(is_assigned=True) if not place.is_shared]
        if callee.type == "void" or not places:
            return [f"{it.text};"]
        if self.function.type != "void" and self.draw.chance(0.2):
            local = self.use(self.draw.choice(places))
            return [f"return {self.binary(self.draw.choice('+-^'), local, it).text};"]
        return [f"{self.draw.choice(places).name} {self.draw.choice(['=', '+=', '^='])} {it.text};"]

    def if_statement(self, depth):
        lines = [f"if ({self.noted(self.value(3, True)).text})"] + self.inner(depth)
        return lines + ["else"] + self.inner(depth) if self.draw.chance(0.5) else lines

    def switch_statement(self, depth):
        selector = self.value(2, True)
        if self.draw.chance(0.6):
            selector = self.binary("&", selector, spelled(self.draw, 7))
        values = self.draw.sample(range(-2, 10), self.draw.randrange(1, 6)) + ["default"] * self.draw.randrange(2)
        self.draw.shuffle(values)
        lines = [f"switch ({self.noted(selector).text}) {{"]
        for value in values:
            lines.append("default:" if value == "default" else f"case {constant_of(self.draw, value).text}:")
            if self.draw.chance(0.8):
                lines += indented(self.statement(depth))
                if self.draw.chance(0.6):
                    lines += indented(["break;"])
        return lines + indented([";"]) + ["}"]

    def repeated(self, times, counter, depth, before=()):
        """The body of a loop that is made at most so many times; the counter is a variable of the scope further out."""
        was = self.times
        self.times *= times
        self.loops += 1
        self.scopes.append({counter.name: counter})
        lines = self.braced(depth, before) if before or self.draw.chance(0.7) else indented(self.statement(depth))
        self.scopes.pop()
        self.loops -= 1
        self.times = was
        return lines

    def loop(self, depth):
        times = self.draw.randrange(1, 10)
        name = self.name("i")
        kind = self.draw.choice(["int", "int", "short", "char"])
        form = self.draw.choice([self.for_loop, self.for_loop, self.while_loop, self.do_loop, self.endless_loop])
        return form(times, name, kind, depth)

    def for_loop(self, times, name, kind, depth):
        step = self.draw.choice([1, 1, 1, 2, 5])
        low = self.draw.choice([0, 0, 0, 1, -3])
        last = low + (times - 1) * step
        counter = Variable(name, kind, is_fixed=True, bounds=(low, last))
        if self.draw.chance(0.7):
            start, test = low, self.draw.choice([f"{name} <= {last}", f"{name} < {last + 1}", f"{last} >= {name}"])
            move = self.draw.choice([f"{name}++", f"++{name}"]) if step == 1 else f"{name} += {step}"
        else:
            start, test = last, self.draw.choice([f"{name} >= {low}", f"{name} > {low - 1}"])
            move = self.draw.choice([f"{name}--", f"--{name}"]) if step == 1 else f"{name} -= {step}"
        if self.draw.chance(0.15):
            self.scopes.append({name: counter})
            test = f"{test} && {self.noted(self.value(2)).at(BINARY['|'])}"
            self.scopes.pop()
        head = f"for ({kind} {name} = {constant_of(self.draw, start).text}; {test}; {move})"
        return [head] + self.repeated(times, counter, depth)

    def while_loop(self, times, name, kind, depth):
        counter = Variable(name, kind, is_fixed=True, bounds=(0, times - 1))
        if self.draw.chance(0.5):
            head, before = f"while ({name}-- > 0)", []
        else:
            head, before = f"while ({name})", [f"{name}--;"]
        lines = [f"{kind} {name} = {times};", head] + self.repeated(times, counter, depth, before)
        return ["{"] + indented(lines) + ["}"]

    def do_loop(self, times, name, kind, depth):
        counter = Variable(name, kind, is_fixed=True, bounds=(0, times - 1))
        lines = [f"{kind} {name} = 0;", "do"] + self.repeated(times, counter, depth)
        return ["{"] + indented(lines + [f"while (++{name} < {times});"]) + ["}"]

    def endless_loop(self, times, name, kind, depth):
        counter = Variable(name, kind, is_fixed=True, bounds=(1, times))
        lines = [f"{kind} {name} = 0;", self.draw.choice(["for (;;)", "while (1)", f"for (; {name} < 100;)"])]
        lines += self.repeated(times, counter, depth, [f"if ({name}++ >= {times})", "    break;"])
        return ["{"] + indented(lines) + ["}"]

    def walk(self, depth):
        """A loop with a pointer over an array."""
        found = [it for it in self.elements() if not it.is_pointer and self.times * it.length < 400]
        if not found:
            return None
        it = self.draw.choice(found)
        base, length = self.use(it).text, it.length
        name = f"w{self.names}"
        self.names += 1
        if not it.has_fixed_elements and self.draw.chance(0.3):
            first = self.noted(self.value(1))
            self.noted(made_of("", PRIMARY, writes={MEMORY}))
            lines = [f"{it.type} *{name} = {base};", f"for (int i = 0; i < {length}; i++)"]
            return ["{"] + indented(lines + [f"    *{name}++ = {first.at(BINARY['+'])} + i;"]) + ["}"]
        walker = Elements(name, it.type, 1, is_pointer=True, is_fixed=True, has_fixed_elements=it.has_fixed_elements)
        if self.draw.chance(0.3):
            lines = [f"{it.type} *{name} = {base} + {length};", f"while ({name} > {base})"]
            lines += self.repeated(length, walker, depth, [f"{name}--;"])
            return ["{"] + indented(lines) + ["}"]
        end = f"{base} + {length}"
        tests = [f"{name} < {end}", f"{name} != {end}", f"{end} > {name}", f"{name} - {base} < {length}"]
        test = self.draw.choice(tests)
        move = self.draw.choice([f"{name}++", f"++{name}", f"{name} += 1"])
        return [f"for ({it.type} *{name} = {base}; {test}; {move})"] + self.repeated(length, walker, depth)

    def text_walk(self, _depth):
        """A loop over the bytes of a text, up to its zero."""
        first = self.pointer("char", 1, False, ends_in_zero=True)
        places = [it for it in self.variables(is_assigned=True)]
        self.cost += 30 * self.times
        self.noted(made_of("", PRIMARY, first, reads={MEMORY}, writes={OUTSIDE}))
        head = f"const char *s = {first.at(ASSIGNMENT)};"
        form = self.draw.randrange(3)
        if form == 0 or not places:
            lines = [head, "while (*s)", "    putchar(*s++);"]
        elif form == 1:
            place = self.draw.choice(places)
            self.noted(made_of("", PRIMARY, reads={place}, writes={place}))
            name = self.use(place).text
            lines = [head, "for (; *s != 0; s++)", f"    {name} = {name} * 31 + *s;"]
        else:
            lines = ["char copy[32];", "char *t = copy;", head, "while ((*t++ = *s++) != 0)", "    ;"]
            lines += ["show(t - copy);", "putchar(*copy);"]
            self.function.used.add(self.program.show)
        return ["{"] + indented(lines) + ["}"]

    def null_test(self, _depth):
        """A pointer that is null, or points to an element."""
        kind = self.draw.choice(list(TYPES))
        first = self.pointer(kind, 1, True)
        if not first:
            return None
        test = self.value(2)
        self.noted(made_of("", PRIMARY, first, test, reads={MEMORY}, writes={MEMORY, OUTSIDE}))
        guard = self.draw.choice(["q", "q != 0", "0 != q", "!!q", "!(q == 0)"])
        lines = [f"{kind} *q{self.draw.choice([' = 0', ''])};", f"if ({test.text})", f"    q = {first.at(ASSIGNMENT)};"]
        if self.draw.chance(0.5):
            change = self.draw.choice(["*q += 1", "q[0] ^= 85", "(*q)--"])
            lines += [f"if ({guard})", f"    {change};", "else", "    putchar('n');"]
        else:
            lines += [f"putchar({guard} ? *q : 'n');"]
        return ["{"] + indented(lines) + ["}"]

    def pointer_assignment(self, _depth):
        found = [it for it in self.elements() if it.is_pointer and not it.is_fixed]
        if not found:
            return None
        it = self.draw.choice(found)
        value = self.pointer(it.type, it.length, not it.has_fixed_elements, it.ends_in_zero)
        if not value:
            return None
        self.noted(value)
        return [f"{self.use(it).text} = {value.at(ASSIGNMENT)};"]

    # faults

    def fault(self):
        """Statements that end in a trap, if they are reached and nothing before them traps."""
        it = self.draw.choice([found for found in self.elements() if not found.is_pointer])
        base, length = self.use(it).text, it.length
        others = [found for found in self.elements(it.type) if found is not it and not found.is_pointer]
        forms = [
            [f"{base}[{length}] = 1;"],
            [f"show({base}[-1]);"],
            [f"{base}[2147483647]++;"],
            [f"{{ {it.type} *q = {base} + {length}; putchar('k'); *q = 3; }}"],
            [f"{{ {it.type} *q = {base}; q -= 1; putchar('k'); show(*q); }}"],
            [f"{{ {it.type} *q; putchar('k'); show(*q); }}"],
            [f"{{ {it.type} *q = 0; q++; q--; putchar('k'); q[0] = 7; }}"],
            [f"{{ {it.type} *q = {base} + 2147483647; q += 2147483647; show(q[2]); q[1] = 4; }}"],
            [f"for (int i = 0; i <= {length}; i++)", f"    show({base}[i]);"],
            [f"for ({it.type} *q = {base}; ; q++)", "    *q = *q + 1;"],
            ['{ const char *s = "word"; while (putchar(*s)) s--; show(s[9]); }'],
            ['show("word"[5]);'],
            ["deep(5000);"],
        ]
        if others:
            other = self.use(self.draw.choice(others)).text
            forms += [[f"show({base} {operator} {other});"] for operator in ("<", ">=", "-")] * 2
        return self.draw.choice(forms)
