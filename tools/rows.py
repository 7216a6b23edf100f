"""Whether the instructions of an image do what a map's ops say, for the auditor.

Each op is followed from its point's address to the next one's, from a state in which each live variable is where the map has it before the point,
and holds a term of its own. What the op makes of the variables must then be where the map has them before the next point, and just behind the op
where it has them after it; what is checked, called, read and written must be the op's, and nothing else of memory may change.
"""
import machine
import terms
from graphs import columns_of
from machine import FRAME, Machine, State
from terms import byte, computed, plus

RESULT, INPUT = ("result",), ("input",)
# Where a frame keeps the caller's registers.
KEPT = ((0, machine.EBP), (-4, machine.EBX), (-8, machine.ESI), (-12, machine.EDI))


class Untrue(Exception):
    def __init__(self, line, why):
        super().__init__(f"line {line}: {why}")


def check(holds, line, why):
    if not holds:
        raise Untrue(line, why)


# ---- places


def held(state, place, width):
    """The term in a place of a variable of this width."""
    if place.startswith("["):
        word = state.cell(-int(place[5:-1]))
        return byte(word, 0) if width == 1 else word
    area, columns = columns_of(place)
    word = state.registers[(machine.EAX, machine.EBX, machine.ECX, machine.EDX)[area]]
    return byte(word, columns[0]) if width == 1 else word


def hold(state, place, width, term):
    if place.startswith("["):
        offset = -int(place[5:-1])
        state.frame[offset] = terms.with_byte(state.cell(offset), 0, term) if width == 1 else term
        return
    area, columns = columns_of(place)
    number = (machine.EAX, machine.EBX, machine.ECX, machine.EDX)[area]
    state.registers[number] = terms.with_byte(state.registers[number], columns[0], term) if width == 1 else term


# ---- ops


class Meaning:
    """What an op does: the value of the variable that it writes, what happens in order, and what it stores outside of the frame."""

    def __init__(self, f, found, op):
        self.f, self.map, self.op, self.words = f, found, op, op.words
        self.result, self.events, self.stored, self.cleared = None, [], {}, {}
        getattr(self, f"of_{op.name}", self.of_computed)()

    def value(self, k):
        """The term of the variable that is word k of the op."""
        return ("variable", int(self.words[k]))

    def unless(self, name, first, second):
        holds = terms.condition(name, first, second)
        if not isinstance(holds, bool):
            self.events.append(("unless", holds))

    def of_computed(self):
        self.result = computed(self.op.name, self.value(2), self.value(3))

    def of_const(self):
        self.result = int(self.words[2]) & (0xFF if self.f.variables[int(self.words[1])][0] == 1 else terms.MASK)

    def of_copy(self):
        self.result = self.value(2)

    def of_wide(self):
        self.result = terms.sign_extended(self.value(2))

    def of_low(self):
        self.result = byte(self.value(2), 0)

    def of_low16(self):
        self.result = terms.sign_extended_half(self.value(2))

    def of_neg(self):
        self.result = terms.negated(self.value(2))

    def of_not(self):
        self.result = terms.complement(self.value(2))

    def of_div(self):
        self.result = (self.op.name, self.value(2), self.value(3))

    of_rem = of_shl = of_sar = of_div

    def of_set(self):
        self.result = terms.zero_extended(terms.flag(terms.condition(self.words[1], self.value(3), self.value(4))))

    def of_frame(self):
        self.result = plus(FRAME, self.f.arrays[int(self.words[2])][0])

    def of_static(self):
        self.result = self.map.objects[int(self.words[2])][0]

    def element(self, array, index):
        """The address of an element, which is checked."""
        self.unless("eq", array, 0)
        self.unless("not_below", index, ("memory", 32, plus(array, -4)))
        return plus(array, computed("mul", index, int(self.words[1]) // 8))

    def loaded(self, address):
        bits = int(self.words[1])
        extend = {8: terms.sign_extended, 16: terms.sign_extended_half, 32: lambda term: term}[bits]
        return extend(("memory", bits, address))

    def store(self, address, term):
        bits = int(self.words[1])
        self.stored[address] = bits, {8: byte(term, 0), 16: terms.half(term), 32: term}[bits]

    def of_load(self):
        self.result = self.loaded(self.element(self.value(3), self.value(4)))

    def of_store(self):
        self.store(self.element(self.value(2), self.value(3)), self.value(4))

    def of_get(self):
        self.result = self.loaded(self.map.objects[int(self.words[3])][0])

    def of_put(self):
        self.store(self.map.objects[int(self.words[2])][0], self.value(3))

    def of_clear(self):
        offset, count, size = self.f.arrays[int(self.words[1])]
        self.cleared = dict.fromkeys(range(offset, offset + count * size, 4), 0)

    def of_param(self):
        self.result = ("cell", 8 + 4 * int(self.words[2]))

    def of_call(self):
        depth = ("memory", 32, self.map.depth)
        self.events = [("unless", ("not_below", depth, 4096)), ("call", int(self.words[2]), *map(self.value, range(3, len(self.words))))]
        self.result, self.stored = RESULT, {self.map.depth: (32, depth)}

    def of_putchar(self):
        self.result, self.events = terms.zero_extended(byte(self.value(2), 0)), [("put", byte(self.value(2), 0))]

    def of_getchar(self):
        self.result = INPUT  # or -1, where no byte is left: `expected`

    def of_exit(self):
        self.events = [("exit", self.value(1))]

    def of_same(self):
        self.unless("ne", self.value(1), self.value(2))

    def of_mark(self):
        pass

    of_turn = of_jump = of_return = of_mark

    def of_branch(self):
        pass

    # ---- one path

    def expected(self, path):
        """What is in the variable that the op writes, at the end of this path."""
        if self.op.name == "getchar":
            return terms.zero_extended(INPUT) if ("byte",) in path.events else terms.MASK
        return self.result

    def may_happen(self, path, target):
        """What may have happened on a path to a point: lists of events."""
        if self.op.name == "getchar":
            return [[("byte",)] if ("byte",) in path.events else [("no byte",)]]
        if self.op.name != "branch":
            return [self.events]
        how, first, second = self.words[1], self.value(2), self.value(3)
        taken, other = (self.f.blocks[b][0].address for b in map(int, self.words[4:6]))
        holds = [terms.condition(name, first, second) for name, to in ((how, taken), (terms.opposite(how), other)) if to == target]
        return [[] if it is True else [("if", it)] for it in holds if it is not False]


class Rows:
    """The code of a map's image, with the functions' first instructions and the word that counts the active calls."""

    def __init__(self, found, instructions):
        self.map, self.points = found, {p.address: (f, p) for f in found.functions for p in f.points()}
        self.plain = Machine(instructions)
        entries = {}
        targets = {behind + operands[0] & terms.MASK for name, operands, behind in instructions.values() if name == "call"}
        for target in sorted(targets & set(instructions)):
            number = self.function_at(target)
            if number is not None:
                entries[target] = number
        self.machine = Machine(instructions, entries)

    def function_at(self, address):
        """The number of the function whose frame is made there, or None where that isn't one."""
        state = State(address, [("kept", name) for name in machine.NAMES])
        state.registers[machine.ESP] = plus(FRAME, 4)
        ends = self.plain.paths(state, self.points)
        if len(ends) != 1 or ends[0].end or ends[0].eip not in self.points:
            return None
        f, point = self.points[ends[0].eip]
        if point is not f.blocks[0][0]:
            return None
        self.check_frame(f, ends[0])
        return f.number

    def check_frame(self, f, state):
        registers = state.registers
        is_frame = registers[machine.EBP] == FRAME and registers[machine.ESP] == plus(FRAME, -f.frame)
        check(is_frame, f.line, "the code makes another frame")
        for offset, number in KEPT:
            check(state.cell(offset) == ("kept", machine.NAMES[number]), f.line, f"the code doesn't keep {machine.NAMES[number]}")
        for k, (offset, count, _) in enumerate(f.arrays):
            check(state.cell(offset - 4) == count, f.line + 1 + k, f"array {k} hasn't {count} elements in the code")

    def check_start(self, entry):
        """The first instructions call `main` with no call active, and end with its result."""
        state = State(entry, [("first", name) for name in machine.NAMES])
        ends = self.machine.paths(state, self.points)
        main = [f.number for f in self.map.functions if f.name == "main"]
        calls = [it for it in ends[0].events if it[0] == "call"]
        is_main = len(ends) == 1 and len(main) == 1 and calls == [("call", main[0])] and ends[0].events[-1] == ("exit", RESULT)
        check(is_main, 1, "the code doesn't begin with main")
        counted = [address for address, stored in ends[0].outside.items() if stored == (32, 1)]
        check(len(counted) == 1, 1, "the code doesn't count main as the first call")
        self.map.depth = counted[0]

    def check_point(self, f, point, following):
        """Follows a point's code. `following` is the next point of its block, or None."""
        meaning = Meaning(f, self.map, point.op)
        state = State(point.address, [("register", name) for name in machine.NAMES], floor=-f.frame)
        state.registers[machine.EBP], state.registers[machine.ESP] = FRAME, plus(FRAME, -f.frame)
        for v, place in point.before.items():
            hold(state, place, f.variables[v][0], ("variable", v))

        def value(v, path):
            return meaning.expected(path) if v == point.op.writes else ("variable", v)

        def shows(path, places):
            return all(held(path, place, f.variables[v][0]) == value(v, path) for v, place in places.items())

        def watch(path):
            path.is_seen = path.is_seen or shows(path, point.after)

        ends = self.machine.paths(state, self.points, watch)
        targets = [f.blocks[b][0].address for b in point.op.blocks] if point.op.is_end else [following.address]
        for path in ends:
            check(path.is_seen, point.line + 3, "nowhere in the point's code are the variables there")
            if point.op.name in ("return", "exit"):
                self.check_left(point, path, meaning)
                continue
            check(not path.end and path.eip in targets, point.line, f"its code leads elsewhere: to {path.end or hex(path.eip)}")
            check(path.events in meaning.may_happen(path, path.eip), point.line, "its code checks, calls or writes otherwise")
            after = self.points[path.eip][1]
            for v, place in after.before.items():
                check(shows(path, {v: place}), point.line, f"its code doesn't bring variable {v} to {place} of point {after.number}")
            self.check_kept(f, point, path, meaning)
        reached = {path.eip for path in ends}
        check(point.op.name in ("return", "exit") or reached == set(targets) or point.op.reads[0] == point.op.reads[1], point.line,
              "its code doesn't lead to both blocks")

    def check_left(self, point, path, meaning):
        """The end of a return or an exit."""
        end = "ret" if point.op.name == "return" else "exit"
        check(path.end == end and path.events == meaning.events, point.line, "its code ends otherwise")
        if path.end == "exit":
            return
        for offset, number in KEPT:
            check(path.registers[number] == ("cell", offset), point.line, f"its code doesn't restore {machine.NAMES[number]}")
        check(path.registers[machine.ESP] == plus(FRAME, 8), point.line, "its code doesn't restore esp")
        value = path.registers[machine.EAX]
        check(not point.op.reads or value == ("variable", point.op.reads[0]), point.line, "its code returns another value")

    def check_kept(self, f, point, path, meaning):
        """Nothing of memory has changed but slots, the word of scratch and what the op stores."""
        registers = path.registers
        is_frame = registers[machine.EBP] == FRAME and registers[machine.ESP] == plus(FRAME, -f.frame)
        check(is_frame, point.line, "its code leaves another frame")

        def changed_of(stored):
            return {address: it for address, it in stored.items() if it != (32, ("memory", 32, address))}

        check(changed_of(path.outside) == changed_of(meaning.stored), point.line, "its code stores otherwise")
        slots = len({v for p in f.points() for v in p.spilled})
        own = set(range(-20 - 4 * (slots - 1), -15, 4)) if slots else {-16}
        frame = {offset: it for offset, it in path.frame.items() if offset >= -f.frame and offset not in own}
        changed = {offset: it for offset, it in frame.items() if it != ("cell", offset)}
        check(changed == meaning.cleared, point.line, "its code changes other words of the frame")


def check_rows(found, instructions, entry, data):
    """Follows the whole code. `data` are the bytes behind an address, of a segment that may not be executed."""
    rows = Rows(found, instructions)
    check(sorted(rows.machine.functions.values()) == [f.number for f in found.functions], 1, "the code doesn't make each function's frame, and once")
    rows.check_start(entry)
    for k, (address, count, _) in enumerate(found.objects):
        check(data(address - 4) == count, 2 + k, f"object {k} hasn't {count} elements in the image")
    for f in found.functions:
        for block in f.blocks:
            for point, following in zip(block, [*block[1:], None]):
                try:
                    rows.check_point(f, point, following)
                except machine.Fault as fault:
                    raise Untrue(point.line, f"its code: {fault}") from fault
