"""Tests of the auditor's machine: what instructions do to terms, and which bytes are none that it knows."""
import os
import sys
import unittest

TOP = os.path.dirname(os.path.dirname(os.path.abspath(__file__)))
sys.path.insert(0, f"{TOP}/tools")

import machine  # noqa: E402
import terms  # noqa: E402

EAX, ECX, EDX, EBX, ESP, EBP, ESI, EDI = (("register", name) for name in machine.NAMES)
LESS = ("lt", EAX, EBX)

# The bytes of instructions, a register, and what is in it behind them (Intel manual, volume 2; the spellings as GNU as has them).
CODE = (
    ("b8 05 00 00 00", "eax", 5), ("c7 c1 fe ff ff ff", "ecx", 0xFFFFFFFE), ("89 d8", "eax", EBX), ("8b c3", "eax", EBX), ("87 d8", "ebx", EAX),
    ("01 d8", "eax", terms.plus(EAX, EBX)), ("03 c3", "eax", terms.plus(EBX, EAX)), ("29 c0", "eax", 0), ("29 d8", "eax", ("-", EAX, EBX)),
    ("83 e8 01", "eax", terms.plus(EAX, -1)), ("81 c0 00 01 00 00 83 e8 7f", "eax", terms.plus(EAX, 129)), ("31 d8", "eax", ("xor", EAX, EBX)),
    ("21 d8", "eax", ("and", EAX, EBX)), ("09 d8", "eax", ("or", EAX, EBX)), ("0f af c3", "eax", ("mul", EAX, EBX)), ("f7 d8", "eax", ("neg", EAX)),
    ("f7 d0", "eax", ("not", EAX)), ("d3 e0", "eax", ("shl", EAX, ("byte", 0, ECX))), ("c1 f8 02", "eax", ("sar", EAX, 2)), ("99 f7 fb", "eax", ("div", EAX, EBX)),
    ("99 f7 fb", "edx", ("rem", EAX, EBX)), ("8d 44 8b fc", "eax", terms.plus(EBX, terms.computed("mul", ECX, 4), -4)), ("0f be c3", "eax", ("sign_extended", ("byte", 0, EBX))),
    ("0f b6 c7", "eax", ("zero_extended", ("byte", 1, EBX))), ("0f bf c3", "eax", ("half_extended", EBX)), ("88 c4 0f be c4", "eax", ("sign_extended", ("byte", 0, EAX))),
    ("b0 05 0f b6 c0", "eax", 5), ("86 c3 0f b6 c0", "eax", ("zero_extended", ("byte", 0, EBX))), ("39 d8 0f 9c c0 0f b6 c0", "eax", ("zero_extended", ("flag", LESS))),
    ("39 c3 0f 9f c0 0f b6 c0", "eax", ("zero_extended", ("flag", LESS))), ("8b 43 fc", "eax", ("memory", 32, terms.plus(EBX, -4))), ("0f be 03", "eax", ("sign_extended", ("memory", 8, EBX))),
    ("89 03 8b 0b", "ecx", EAX), ("50 5b", "ebx", EAX), ("50 89 1c 24 59", "ecx", EBX), ("68 07 00 00 00 5b", "ebx", 7), ("89 45 ec 8b 5d ec", "ebx", EAX),
    ("88 45 ec 0f be 5d ec", "ebx", ("sign_extended", ("byte", 0, EAX))), ("8b 45 08", "eax", ("cell", 8)), ("eb 02 ff ff 90", "eax", EAX),
    ("b8 03 00 00 00 83 e8 01 83 f8 01 75 f8", "eax", 1), ("c9", "ebp", ("cell", 0)),
)
NO_CODE = ("0f 1f 00", "d1 e0", "ff e0", "c2 04 00", "0f ff", "00 c0", "66 90", "f7 e0", "b8 05 00")


def run(text):
    """The states in which code ends that begins with these bytes."""
    code, found, at = bytes.fromhex(text), {}, 0
    while at < len(code):
        if code[at] == 0xFF:  # bytes that a jump passes
            at += 1
            continue
        name, operands, length = machine.read_instruction(code, at)
        found[at] = name, operands, at + length
        at += length
    state = machine.State(0, [("register", name) for name in machine.NAMES])
    state.registers[machine.EBP], state.registers[machine.ESP] = machine.FRAME, terms.plus(machine.FRAME, -64)
    return machine.Machine(found).paths(state, {len(code)})


class Instructions(unittest.TestCase):
    def test_what_they_do(self):
        for text, register, term in CODE:
            with self.subTest(text):
                ends = run(text)
                self.assertEqual([it.registers[machine.NAMES.index(register)] for it in ends], [term])

    def test_others_are_refused(self):
        for text in NO_CODE:
            with self.subTest(text):
                with self.assertRaises(machine.Fault):
                    machine.read_instruction(bytes.fromhex(text), 0)

    def test_both_ways_of_a_jump(self):
        ends = run("39 d8 7c 05 b9 01 00 00 00")
        self.assertEqual(sorted((it.events, it.registers[1]) for it in ends), [([("if", ("ge", EAX, EBX))], 1), ([("if", LESS)], ECX)])

    def test_checks_go_on(self):
        ends = run("85 c0 74 02 eb 02 0f 0b")
        self.assertEqual([it.events for it in ends], [[("unless", ("eq", *terms.in_order(EAX, 0)))]])


if __name__ == "__main__":
    unittest.main()
