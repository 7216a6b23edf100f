"""Machine code for the auditor: the instructions of an image, and what they do where registers and memory hold terms.

What is known of instructions is the Intel manual's, volume 2, for those of the table in `crates/ia32_insn/README.md`, and of system calls Linux's
`exit`, `read` and `write`. `Machine.paths` goes through code from an address on, along both ways of each jump that isn't decided.
"""
import copy
import functools
import struct
from dataclasses import dataclass, field

import terms
from terms import byte, plus

EAX, ECX, EDX, EBX, ESP, EBP, ESI, EDI = range(8)
NAMES = ("eax", "ecx", "edx", "ebx", "esp", "ebp", "esi", "edi")
BYTE_NAMES = ("al", "cl", "dl", "bl", "ah", "ch", "dh", "bh")
FRAME = ("frame",)  # what EBP holds inside a function
LONGEST = 200_000  # steps along one path: a loop that clears the largest frame takes fewer
ALU = ("add", "or", None, None, "and", "sub", "xor", "cmp")


class Fault(Exception):
    """The code isn't such that the auditor could follow it."""


# ---- instructions by their bytes


class Bytes:
    """Goes over the bytes of an instruction."""

    def __init__(self, code, at):
        self.code, self.at = code, at

    def number(self, size, is_signed=True):
        self.at += size
        return int.from_bytes(self.code[self.at - size:self.at], "little", signed=is_signed)

    def operands(self):
        """The register of a ModRM byte, and its other operand: a register, or base, index, scale and displacement (table 2-2)."""
        first = self.number(1, False)
        mode, low = first >> 6, first & 7
        if mode == 3:
            return first >> 3 & 7, ("register", low)
        base, index, scale = low, None, 1
        if low == 4:
            sib = self.number(1, False)
            base, index, scale = sib & 7, sib >> 3 & 7, 1 << (sib >> 6)
            index = None if index == 4 else index
        if mode == 0 and base == 5:
            return first >> 3 & 7, ("memory", None, index, scale, self.number(4))
        return first >> 3 & 7, ("memory", base, index, scale, self.number(1) if mode == 1 else self.number(4) if mode == 2 else 0)


def read_instruction(code, at):
    """The name, the operands and the length of the instruction whose bytes begin there."""
    it = Bytes(code, at)
    name, *operands = named(it, it.number(1, False))
    if name is None or it.at > len(code):
        raise Fault(f"no instruction of the profile begins with {code[at:at + 2].hex(' ')}")
    return name, operands, it.at - at


def named(it, first):
    if first == 0x0F:
        return named_behind_0f(it, it.number(1, False))
    if first == 0x66 and it.number(1, False) == 0x89:
        register, other = it.operands()
        return "store16", other, register
    if first < 0x40 and first & 7 in (1, 3) and ALU[first >> 3]:
        register, other = it.operands()
        return (ALU[first >> 3], other, ("register", register)) if first & 7 == 1 else (ALU[first >> 3], ("register", register), other)
    if first in (0x81, 0x83):
        which, other = it.operands()
        return ALU[which], other, ("number", it.number(4 if first == 0x81 else 1))
    if 0x50 <= first < 0x58:
        return "push", ("register", first & 7)
    if 0x58 <= first < 0x60:
        return "pop", first & 7
    if first & 0xF0 == 0xB0:
        return "mov" if first & 8 else "mov8", ("register", first & 7), ("number", it.number(4 if first & 8 else 1))
    if first & 0xF0 == 0x70:
        return "jcc", first & 15, it.number(1)
    if first in SIMPLE:
        return (SIMPLE[first],)
    if first in (0xE8, 0xE9, 0xEB, 0x68, 0xCD):
        return {0xE8: "call", 0xE9: "jmp", 0xEB: "jmp", 0x68: "push", 0xCD: "int"}[first], (
            ("number", it.number(4)) if first == 0x68 else it.number(1 if first in (0xEB, 0xCD) else 4))
    return with_operands(it, first)


SIMPLE = {0x90: "nop", 0x99: "cdq", 0xC3: "ret", 0xC9: "leave"}
MOVES = {0x85: "test", 0x86: "xchg8", 0x87: "xchg", 0x88: "mov8", 0x89: "mov", 0x8A: "mov8", 0x8B: "mov", 0x8D: "lea"}
GROUPS = {0xF7: {2: "not", 3: "neg", 6: "div", 7: "idiv"}, 0xFF: {6: "push"}, 0xD3: {4: "shl", 5: "shr", 7: "sar"},
          0xC1: {4: "shl", 5: "shr", 7: "sar"}, 0xC7: {0: "mov"}}


def with_operands(it, first):
    if first not in MOVES and first not in GROUPS:
        return (None,)
    register, other = it.operands()
    if first in MOVES:
        own = ("register", register)
        return (MOVES[first], own, other) if first in (0x8A, 0x8B, 0x8D) else (MOVES[first], other, own)
    name = GROUPS[first].get(register)
    if first in (0xD3, 0xC1):
        return name, other, ("count",) if first == 0xD3 else ("number", it.number(1))
    return (name, other, ("number", it.number(4))) if first == 0xC7 else (name, other)


def named_behind_0f(it, second):
    if second == 0x0B:
        return ("ud2",)
    if 0x80 <= second < 0x90:
        return "jcc", second & 15, it.number(4)
    if 0x90 <= second < 0xA0:
        return "setcc", second & 15, it.operands()[1]
    if second in (0xAF, 0xB6, 0xB7, 0xBE, 0xBF):
        register, other = it.operands()
        return {0xAF: "imul", 0xB6: "movzx8", 0xB7: "movzx16", 0xBE: "movsx8", 0xBF: "movsx16"}[second], register, other
    return (None,)


# ---- images


def segments(image):
    """The segments of an image (ELF, program headers): address, bytes, and whether they may be executed."""
    at, size, many = struct.unpack_from("<I", image, 28)[0], *struct.unpack_from("<HH", image, 42)
    found = [struct.unpack_from("<8I", image, at + k * size) for k in range(many)]
    return [(it[2], image[it[1]:it[1] + it[4]], bool(it[6] & 1)) for it in found if it[0] == 1]


def instructions_of(image):
    """Each instruction of an image's text by its address, as a name, operands and the address behind it."""
    found = {}
    for start, code, is_text in segments(image):
        at = 0
        while is_text and at < len(code):
            try:
                name, operands, length = read_instruction(code, at)
            except Fault as fault:
                raise Fault(f"at {start + at:08x}: {fault}") from fault
            found[start + at] = name, operands, start + at + length
            at += length
    return found


# ---- states


@dataclass
class State:
    """The registers; the words of the frame by how far they stand from EBP; other memory by its address, as the bits that were stored and their
    value; what the last comparison compared; and what happened: conditions, calls, bytes. Below `floor` the frame holds arguments."""

    eip: int
    registers: list
    frame: dict = field(default_factory=dict)
    outside: dict = field(default_factory=dict)
    flags: tuple | None = None
    events: list = field(default_factory=list)
    floor: int = 0
    steps: int = 0
    end: str = ""
    is_seen: bool = False  # for the one who watches

    def copy(self):
        other = copy.copy(self)
        other.registers, other.frame, other.outside, other.events = self.registers[:], dict(self.frame), dict(self.outside), self.events[:]
        return other

    def cell(self, offset):
        return self.frame.get(offset, ("cell", offset))

    def load(self, address, bits=32):
        """The word at an address; the byte; or the half, as the word that it is the lower half of."""
        offset = frame_offset(address)
        if offset is not None:
            return byte(self.cell(offset), 0) if bits == 8 else self.cell(offset)
        if address in self.outside:
            if self.outside[address][0] != bits:
                raise Fault("other bits are loaded than were stored")
            return self.outside[address][1]
        return ("memory", bits, address)

    def store(self, address, bits, value):
        offset = frame_offset(address)
        if offset is None:
            self.outside[address] = bits, value
        elif bits == 16:
            raise Fault("half a word of the frame is stored")
        else:
            self.frame[offset] = terms.with_byte(self.cell(offset), 0, value) if bits == 8 else value

    def byte_register(self, number):
        return byte(self.registers[number & 3], number >> 2)

    def push(self, value):
        self.registers[ESP] = plus(self.registers[ESP], -4)
        self.store(self.registers[ESP], 32, value)

    def pop(self):
        value = self.load(self.registers[ESP])
        self.registers[ESP] = plus(self.registers[ESP], 4)
        return value


def frame_offset(address):
    """How far an address is from EBP, where it is one of the frame."""
    constant, others = terms.summands(address)
    if others != (FRAME,):
        return None
    if constant & 3:
        raise Fault("a word of the frame stands across two")
    return terms.signed(constant)


# ---- steps


class Machine:
    """An image's code. `functions` are the addresses at which functions begin, with their numbers."""

    def __init__(self, instructions, functions=None):
        self.instructions, self.functions = instructions, functions or {}

    def paths(self, state, stops, watch=lambda state: None):
        """The states in which paths from this one end: before an address of `stops`, or as `end` says, by `ret`, `exit` or `trap`. `watch` sees each
        state on the way."""
        found, waiting = [], [state]
        while waiting:
            state = waiting.pop()
            while not state.end and not (state.steps and state.eip in stops):
                if state.steps == LONGEST or state.eip not in self.instructions:
                    raise Fault("the code has no end" if state.steps == LONGEST else f"no instruction begins at {state.eip:08x}")
                watch(state)
                state.steps += 1
                name, operands, behind = self.instructions[state.eip]
                state.eip = behind
                other = getattr(self, f"do_{name}", self.others)(state, *operands)
                if other:
                    waiting.append(other)
            watch(state)
            found.append(state)
        return found

    def others(self, state, *operands):
        raise Fault("DIV, or MOVZX of 16 bits")

    def address(self, state, operand):
        _, base, index, scale, distance = operand
        own = state.registers[base] if base is not None else 0
        return plus(own, terms.computed("mul", state.registers[index], scale) if index is not None else 0, distance)

    def get(self, state, operand, bits=32):
        if operand[0] == "number":
            return operand[1] & (1 << bits) - 1
        if operand[0] == "memory":
            return state.load(self.address(state, operand), bits)
        return state.byte_register(operand[1]) if bits == 8 else state.registers[operand[1]]

    def put(self, state, operand, value, bits=32):
        if operand[0] == "memory":
            state.store(self.address(state, operand), bits, value)
        elif bits == 8:
            state.registers[operand[1] & 3] = terms.with_byte(state.registers[operand[1] & 3], operand[1] >> 2, value)
        else:
            state.registers[operand[1]] = value

    def do_nop(self, state):
        pass

    def do_ud2(self, state):
        state.end = "trap"

    def do_mov(self, state, to, source):
        self.put(state, to, self.get(state, source))

    def do_mov8(self, state, to, source):
        self.put(state, to, self.get(state, source, 8), 8)

    def do_store16(self, state, to, register):
        self.put(state, to, terms.half(state.registers[register]), 16)

    def do_movzx8(self, state, to, source):
        state.registers[to] = terms.zero_extended(self.get(state, source, 8))

    def do_movsx8(self, state, to, source):
        state.registers[to] = terms.sign_extended(self.get(state, source, 8))

    def do_movsx16(self, state, to, source):
        state.registers[to] = terms.sign_extended_half(self.get(state, source, 16))

    def do_xchg(self, state, first, second, bits=32):
        one, two = self.get(state, first, bits), self.get(state, second, bits)
        self.put(state, first, two, bits)
        self.put(state, second, one, bits)

    def do_xchg8(self, state, first, second):
        self.do_xchg(state, first, second, 8)

    def do_lea(self, state, to, source):
        self.put(state, to, self.address(state, source))

    def alu(self, name, state, to, source):
        first, second = self.get(state, to), self.get(state, source)
        state.flags = (first, second) if name == "sub" else None
        self.put(state, to, terms.computed(name, first, second))

    do_add = functools.partialmethod(alu, "add")
    do_sub = functools.partialmethod(alu, "sub")
    do_and = functools.partialmethod(alu, "and")
    do_or = functools.partialmethod(alu, "or")
    do_xor = functools.partialmethod(alu, "xor")

    def do_cmp(self, state, first, second):
        state.flags = self.get(state, first), self.get(state, second)

    def do_test(self, state, first, second):
        one, two = self.get(state, first), self.get(state, second)
        state.flags = (one, 0) if one == two else None

    def do_imul(self, state, to, source):
        state.registers[to], state.flags = terms.computed("mul", state.registers[to], self.get(state, source)), None

    def do_neg(self, state, to):
        self.put(state, to, terms.negated(self.get(state, to)))
        state.flags = None

    def do_not(self, state, to):
        self.put(state, to, terms.complement(self.get(state, to)))

    def shift(self, name, state, to, count):
        by = state.byte_register(ECX) if count == ("count",) else count[1] & 0xFF
        self.put(state, to, (name, self.get(state, to), by))
        state.flags = None

    do_shl = functools.partialmethod(shift, "shl")
    do_shr = functools.partialmethod(shift, "shr")
    do_sar = functools.partialmethod(shift, "sar")

    def do_cdq(self, state):
        state.registers[EDX] = ("sign", state.registers[EAX])

    def do_idiv(self, state, source):
        first, second = state.registers[EAX], self.get(state, source)
        if state.registers[EDX] != ("sign", first):
            raise Fault("IDIV of other than an extended word")
        state.registers[EAX], state.registers[EDX], state.flags = ("div", first, second), ("rem", first, second), None

    def do_push(self, state, source):
        state.push(self.get(state, source))

    def do_pop(self, state, to):
        state.registers[to] = state.pop()

    def do_leave(self, state):
        state.registers[ESP] = state.registers[EBP]
        state.registers[EBP] = state.pop()

    def do_jmp(self, state, distance):
        state.eip = state.eip + distance & terms.MASK

    def do_ret(self, state):
        target = state.pop()
        state.eip, state.end = (target, "") if isinstance(target, int) else (0, "ret")

    def condition(self, state, number):
        if state.flags is None or number not in terms.CONDITIONS:
            raise Fault("a condition of flags that aren't known")
        return terms.condition(terms.CONDITIONS[number], *state.flags)

    def do_setcc(self, state, number, to):
        self.put(state, to, terms.flag(self.condition(state, number)), 8)

    def do_jcc(self, state, number, distance):
        """Where the jump isn't decided, one state goes on and another is given back; a jump to a trap is a check, behind which all goes on."""
        holds, target = self.condition(state, number), state.eip + distance & terms.MASK
        if holds is not True and holds is not False:
            if self.instructions.get(target, ("",))[0] == "ud2":
                state.events.append(("unless", holds))
                return None
            other = state.copy()
            other.events.append(("if", self.condition(state, number ^ 1)))
            state.events.append(("if", holds))
            state.eip = target
            return other
        state.eip = target if holds else state.eip
        return None

    def do_call(self, state, distance):
        target = state.eip + distance & terms.MASK
        if target not in self.functions:
            state.push(state.eip)
            state.eip = target
            return
        # The function takes its arguments off the frame's end, and keeps EBX, ESI, EDI, EBP, ESP (System V ABI for i386) and all else of the frame.
        offset = frame_offset(state.registers[ESP])
        arguments = [] if offset is None else [state.cell(k) for k in range(offset, state.floor, 4)]
        state.events.append(("call", self.functions[target], *arguments))
        many = len(state.events)
        state.registers[EAX], state.registers[ECX], state.registers[EDX] = ("result",), ("left", many, ECX), ("left", many, EDX)
        state.frame = {k: it for k, it in state.frame.items() if k >= state.floor}
        state.flags = None

    def do_int(self, state, number):
        which, first, address, count = (state.registers[k] for k in (EAX, EBX, ECX, EDX))
        if number & 0xFF == 0x80 and which == 1:
            state.events.append(("exit", first))
            state.end = "exit"
        elif number & 0xFF == 0x80 and (which, first, count) == (4, 1, 1):
            state.events.append(("put", state.load(address, 8)))
            state.registers[EAX] = ("written", len(state.events))
        elif number & 0xFF == 0x80 and (which, first, count) == (3, 0, 1):
            other = state.copy()
            other.events.append(("no byte",))
            other.registers[EAX] = 0
            state.events.append(("byte",))
            state.store(address, 8, ("input",))
            state.registers[EAX] = 1
            return other
        else:
            raise Fault("a system call that isn't known")
        return None
