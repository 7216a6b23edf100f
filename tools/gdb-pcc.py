"""Commands of gdb for images that pcc compiled: statements by file and line, and locals by the map.

usage: gdb -x tools/gdb-pcc.py IMAGE        (the map is IMAGE.map)

    pcc-sources FILE.c..     the program's sources, in the order of the command that compiled them
    pcc-break FILE:LINE      a breakpoint at the first statement that begins on that line, or on the next line that has one
    pcc-where                the function and the source line of the statement at which the program stands, or at which it trapped
    pcc-locals               the locals that are live there: numbers signed, and pointers as an array with an index
    pcc-trace                notes each statement as it starts, from now on; the program runs slower

All failed checks trap at one UD2 behind the functions, so there the address doesn't tell the statement: `pcc-trace` before `run` does.

An array is `null`, `oK` for static object K, or `dJ.K` for frame array K of the call of depth J (1 is main's); `?` is a word that is none of them.
"""
import bisect
import os
import struct
import sys

import gdb  # pylint: disable=import-error

sys.path.insert(0, os.path.dirname(os.path.realpath(__file__)))

import maps  # noqa: E402
import statements  # noqa: E402


class Program:
    """The map of the image that gdb has, and where the statements of its sources stand."""

    def __init__(self):
        self.name, self.map, self.places, self.numbered = None, None, [], []
        self.started = {}  # for each frame, by its EBP, the statement that started last

    def read(self):
        name = gdb.current_progspace().filename
        if name is None:
            raise gdb.GdbError("no image: gdb IMAGE, or the command file")
        if name != self.name:
            try:
                self.map = maps.read_file(f"{name}.map")
            except (OSError, maps.NotMap) as error:
                raise gdb.GdbError(f"{name}.map: {error}") from error
            self.name = name
            self.places = sorted(((p.address, f, p) for f in self.map.functions for p in f.points()), key=lambda it: it[0])
        return self

    def point_at(self, address):
        """The function and the point with the greatest address up to this one."""
        at = bisect.bisect_right([it[0] for it in self.places], address) - 1
        return self.places[at][1:] if at >= 0 else (None, None)

    def statement_of(self, f, point):
        """The number of the statement that a point of a function belongs to: that of the last mark up to it, in the order of the map."""
        number = None
        for other in f.points():
            if other.op.name == "mark":
                number = int(other.op.words[1])
            if other is point:
                break
        return number


PROGRAM = Program()


def register(name):
    return int(gdb.parse_and_eval(f"${name}")) & 0xFFFFFFFF


def memory(address, size):
    return bytes(gdb.selected_inferior().read_memory(address, size))


def word(address):
    return struct.unpack("<I", memory(address, 4))[0]


def has_failed():
    """Whether the program stands at the trap of failed checks."""
    return memory(register("eip"), 2) == b"\x0f\x0b"


def caller():
    """The function and the point from which the function of this frame was called, or None where that is `main`."""
    f, point = PROGRAM.read().point_at(word(register("ebp") + 4) - 1)
    return (f, point) if point is not None and point.op.name == "call" else None


def function_now():
    """The function of the frame at EBP."""
    program = PROGRAM.read()
    if not has_failed():
        return program.point_at(register("eip"))[0]
    called = caller()
    number = int(called[1].op.words[2]) if called else None
    return next(f for f in program.map.functions if (f.number == number if called else f.name == "main"))


def frames():
    """The frames of the active calls, the youngest first: EBP and the function, by the return addresses above them."""
    program, ebp, f = PROGRAM.read(), register("ebp"), function_now()
    found = []
    while f is not None:
        found.append((ebp, f))
        f, ebp = program.point_at(word(ebp + 4) - 1)[0], word(ebp)
        if not ebp:
            break
    return found


def array_name(address):
    if not address:
        return "null"
    for k, (at, _, _) in enumerate(PROGRAM.map.objects):
        if at == address:
            return f"o{k}"
    active = frames()
    for depth, (ebp, f) in enumerate(reversed(active), 1):
        for k, (offset, _, _) in enumerate(f.arrays):
            if ebp + offset == address:
                return f"d{depth}.{k}"
    return "?"


def value_of(place, width):
    """The bytes of a place, as a number without a sign."""
    if place.startswith("["):
        return int.from_bytes(memory(register("ebp") - int(place[5:-1]), 1 if width == 1 else 4), "little")
    if place in maps.WORDS:
        return register(place)
    whole = register(f"e{place[0]}x")
    return whole >> 8 & 0xFF if place[1] == "h" else whole & 0xFF


def signed(number, width):
    bits = 8 if width == 1 else 32
    return number - (1 << bits) if number >> bits - 1 else number


def locals_at(f, point):
    """A line for each local that is live at a point."""
    rows = []
    for v, place in point.before.items():
        width, name = f.variables[v]
        if name == "-" or name.endswith(".index"):
            continue
        if name.endswith(".base"):
            index = point.before.get(v + 1)
            array = array_name(value_of(place, 2))
            behind = f"[{signed(value_of(index, 2), 2)}]" if index and array != "null" else ""
            rows.append(f"{name[:-5]} = {array}{behind}")
        else:
            rows.append(f"{name} = {signed(value_of(place, width), width)}")
    return rows


def here():
    """The function and the point at which the program stands."""
    f, point = PROGRAM.read().point_at(register("eip"))
    if point is None or has_failed():
        raise gdb.GdbError("the program stands at no point of the map" if point is None else "a check has failed; `pcc-where` says more")
    return f, point


class Sources(gdb.Command):
    """pcc-sources FILE.c..: the program's sources, in the order of the command that compiled them."""

    def __init__(self):
        super().__init__("pcc-sources", gdb.COMMAND_FILES, gdb.COMPLETE_FILENAME)

    def invoke(self, argument, from_tty):
        program = PROGRAM.read()
        try:
            found = statements.statements_of(gdb.string_to_argv(argument))
        except OSError as error:
            raise gdb.GdbError(str(error)) from error
        many = len(program.map.marks())
        if len(found) != many:
            raise gdb.GdbError(f"the sources have {len(found)} statements and the map {many}: they don't belong together")
        program.numbered = found


class Break(gdb.Command):
    """pcc-break FILE:LINE: a breakpoint at the first statement that begins there, or behind it."""

    def __init__(self):
        super().__init__("pcc-break", gdb.COMMAND_BREAKPOINTS)

    def invoke(self, argument, from_tty):
        program = PROGRAM.read()
        file, _, line = argument.strip().rpartition(":")
        if not line.isdigit():
            raise gdb.GdbError("pcc-break FILE:LINE")
        if not program.numbered:
            raise gdb.GdbError("pcc-sources FILE.c.. comes first")
        wanted = [(it.line, k) for k, it in enumerate(program.numbered)
                  if os.path.basename(it.file) == os.path.basename(file) and it.line >= int(line)]
        if not wanted:
            raise gdb.GdbError(f"no statement begins on line {line} of {file} or behind it")
        at, number = min(wanted)
        f, point = program.map.marks()[number]
        gdb.Breakpoint(f"*{point.address:#x}")
        print(f"statement {number} of {f.name}, {file}:{at}, at {point.address:#010x}")


class Where(gdb.Command):
    """pcc-where: the function and the source line of the statement at which the program stands, or at which it trapped."""

    def __init__(self):
        super().__init__("pcc-where", gdb.COMMAND_STACK)

    def invoke(self, argument, from_tty):
        program = PROGRAM.read()
        if not has_failed():
            f, point = here()
            number = program.statement_of(f, point)
            print(f"{f.name}, point {point.number}, statement {number}{place_of(number)}")
            return
        f, called = function_now(), caller()
        started = program.started.get(register("ebp"))
        if started is not None:
            print(f"a check failed in {f.name}, statement {started}{place_of(started)}")
        elif called:
            number = program.statement_of(*called)
            print(f"a check failed in {f.name}, called by statement {number}{place_of(number)}; after `pcc-trace` and `run` the statement is known")
        else:
            print("a check failed in main; after `pcc-trace` and `run` the statement is known")


def place_of(number):
    """The file and line of a statement behind a comma, where the sources are known."""
    if number is None or not PROGRAM.numbered:
        return ""
    return f", {PROGRAM.numbered[number].file}:{PROGRAM.numbered[number].line}"


class Note(gdb.Breakpoint):
    """Keeps the number of a statement that starts, and goes on."""

    def __init__(self, address, number):
        super().__init__(f"*{address:#x}", internal=True)
        self.silent, self.number_of_statement = True, number

    def stop(self):
        PROGRAM.started[register("ebp")] = self.number_of_statement
        return False


class Trace(gdb.Command):
    """pcc-trace: notes each statement as it starts, so that `pcc-where` tells the one whose check failed."""

    def __init__(self):
        super().__init__("pcc-trace", gdb.COMMAND_BREAKPOINTS)

    def invoke(self, argument, from_tty):
        for number, (_, point) in PROGRAM.read().map.marks().items():
            Note(point.address, number)


class Locals(gdb.Command):
    """pcc-locals: the locals that are live at the point at which the program stands."""

    def __init__(self):
        super().__init__("pcc-locals", gdb.COMMAND_STACK)

    def invoke(self, argument, from_tty):
        f, point = here()
        if point.address != register("eip"):
            raise gdb.GdbError(f"the program stands behind point {point.number} of {f.name}, inside its instructions")
        print("\n".join(locals_at(f, point)) or "no local is live here")


for command in (Sources, Break, Where, Locals, Trace):
    command()
