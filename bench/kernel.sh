#!/bin/sh
# Runs small images over every row of the instruction table on the machine and on the kernel of this computer,
# which has to run i386 executables, and compares what they write and how they end. It wants python3 and GNU
# as and objcopy. The images are made in a temporary folder, which is removed at the end.
. "$(dirname "$(readlink -f "$0")")/start.sh"
build_pcc

PYTHONPATH=$top/bench python3 -B - "$top/bin/pcc" "$room" <<'PYTHON'
import os
import signal
import subprocess
import sys

from image import PAGE, READ_RUN, READ_WRITE_RUN, STACK, TEXT_ADDRESS, image

PROGRAM, ROOM = sys.argv[1:]
DATA = TEXT_ADDRESS + PAGE

# Each image sets the registers and the memory so, makes the row's lines, and then writes the registers and 64
# bytes of memory. Flags are written by SETcc, where a row asks for it, since a processor knows more of them.
BEFORE = f"""
    movl ${DATA + 1024}, %esp
    movl ${DATA}, %ebp
    movl $0x81828384, (%ebp)
    movl $0x7F0180FF, 4(%ebp)
    movl $0x00000003, 8(%ebp)
    movl $0x80000000, 12(%ebp)
    movl $0x11223344, %eax
    movl $0x00000005, %ecx
    movl $0x8899AABB, %edx
    movl $0x00000007, %ebx
    movl ${DATA + 4}, %esi
    movl $2, %edi
"""
AFTER = f"""
    movl %eax, {DATA + 16}(,%eiz,1)
    movl %ecx, {DATA + 20}
    movl %edx, {DATA + 24}
    movl %ebx, {DATA + 28}
    movl %esp, {DATA + 32}
    movl %ebp, {DATA + 36}
    movl %esi, {DATA + 40}
    movl %edi, {DATA + 44}
    movl $4, %eax
    movl $1, %ebx
    movl ${DATA}, %ecx
    movl $64, %edx
    int $0x80
    movl $1, %eax
    movl $7, %ebx
    int $0x80
"""
CONDITIONS = "o no b ae e ne be a s ns l ge le g".split()
# SETcc of every condition but P and NP, from DATA + 48 on
FLAGS = "".join(f"    set{c} {DATA + 48 + i}\n" for i, c in enumerate(CONDITIONS))

ROWS = [
    # MOV, MOVZX, MOVSX, XCHG, LEA, with every form of a memory operand
    "movl %ecx, %eax", "movl %eax, (%ebp)", "movl 4(%ebp), %edx", "movl $-2, 8(%ebp)", "movl $-2, %ebx",
    "movl %eax, (%esi,%edi,2)", "movl -4(%esi,%edi,4), %eax", "movl (,%edi,8), %eax",
    f"movl {DATA}(,%edi,4), %eax", f"movl {DATA + 8}, %ebx", f"movl {DATA - TEXT_ADDRESS + 4}(%ebx), %eax",
    "movl 4(%esp), %eax", "movl %ebx, 128(%ebp)", "movl %ebx, -4(%esp)",
    "movb %cl, %ah", "movb %ch, 3(%ebp)", "movb 1(%ebp), %dh", "movb $0x9C, %bl", "movb $0x9C, %bh",
    "movw %dx, %ax", "movw %dx, 6(%ebp)",
    "movzbl %dh, %eax", "movzbl 2(%ebp), %ecx", "movzwl %dx, %eax", "movzwl 4(%ebp), %ecx",
    "movsbl %dl, %eax", "movsbl 2(%ebp), %ecx", "movswl %dx, %eax", "movswl 4(%ebp), %ecx",
    "xchgb %ah, %dl", "xchgb %ah, 4(%ebp)", "xchgl %edx, %ecx", "xchgl %edx, 4(%ebp)",
    "leal 5(%esi,%edi,8), %eax", "leal -1(%edx), %ecx",
    # NOT, IMUL, NEG, DIV, IDIV, CDQ
    "imull %edx, %eax", "imull 4(%ebp), %eax", "notl %edx", "notl 4(%ebp)", "negl %edx", "negl (%ebp)",
    "movl $0, %edx\n divl %ecx", "movl $0, %edx\n divl 8(%ebp)", "cltd\n idivl %ebx", "negl %eax\n cltd\n idivl 8(%ebp)",
    "cltd", "negl %eax\n cltd",
    "idivl %ecx", "divl %ecx", "movl $0, %ecx\n divl %ecx", "movl $0, %ecx\n idivl %ecx",
    "movl $0x80000000, %eax\n cltd\n movl $-1, %ecx\n idivl %ecx",
    # shifts
    *[f"{op} %cl, %edx" for op in ("shll", "shrl", "sarl")],
    *[f"{op} %cl, (%ebp)" for op in ("shll", "shrl", "sarl")],
    *[f"{op} ${n}, {place}" for op in ("shll", "shrl", "sarl") for n in (3, 31) for place in ("%edx", "12(%ebp)")],
    "movl $33, %ecx\n shll %cl, %eax", "movl $32, %ecx\n sarl %cl, %edx",
    # the stack and jumps
    "pushl %eax\n popl %edx", "pushl 4(%ebp)\n popl %edx", "pushl $-500\n popl %edx", "pushl %esp\n popl %edx",
    "pushl 4(%esp)\n popl %edx", "popl %esp", "call 1f\n1: popl %ecx\n subl $1b, %ecx",
    "call 1f\n jmp 2f\n1: movl $9, %edi\n ret\n2:", "pushl %ebp\n movl %esp, %ebp\n subl $8, %esp\n leave",
    "jmp 1f\n movl $0, %esi\n1:", "1: subl $1, %ecx\n jne 1b", "nop",
    # calls and ends
    "ud2", "movl 0, %ebx", f"movl %ebx, {TEXT_ADDRESS}", f"movl {DATA + STACK + 2 * PAGE}, %ebx", "hlt",
    *[f"movl $3, %eax\n movl $0, %ebx\n movl ${DATA + 8}, %ecx\n movl ${n}, %edx\n int $0x80" for n in (0, 1)],
    f"movl $4, %eax\n movl $1, %ebx\n movl ${DATA + 1}, %ecx\n movl $0, %edx\n int $0x80",
]
# ADD, OR, AND, SUB, XOR, CMP and TEST, with their flags
WORDS = [0, 1, 5, 0x7FFF_FFFF, 0x8000_0000, 0xFFFF_FFFF]
for op in ("add", "or", "and", "sub", "xor", "cmp", "test"):
    for a in WORDS:
        for b in WORDS:
            ROWS.append(f"movl ${a}, %eax\n movl ${b}, %ecx\n {op}l %ecx, %eax\n{FLAGS}")
    if op != "test":
        ROWS += [f"{op}l %edx, 4(%ebp)\n{FLAGS}", f"{op}l 4(%ebp), %edx\n{FLAGS}"]
        ROWS += [f"{op}l ${n}, {place}\n{FLAGS}" for n in (-3, 0x12345) for place in ("%edx", "8(%ebp)")]
    else:
        ROWS.append(f"testl %edx, 4(%ebp)\n{FLAGS}")
# Jcc after a comparison
for c in CONDITIONS:
    ROWS += [f"cmpl %eax, %edx\n j{c} 1f\n movl $0, %esi\n1:", f"cmpl %eax, %eax\n set{c} %cl\n j{c} 1f\n movl $0, %esi\n1:"]

# Instructions that were executed and are then changed, in a text that may be written: a number, an operation, a distance
# that is jumped, and what stands behind the instruction that changes it
CHANGED = [
    "movl $2, %ecx\n movl $0, %edi\n1: movl $3, %eax\n addl %eax, %edi\n movl $9, 1b+1\n subl $1, %ecx\n jne 1b",
    "movl $2, %ecx\n movl $50, %edi\n movb $0x29, %dl\n1: addl %ecx, %edi\n movb %dl, 1b\n subl $1, %ecx\n jne 1b",
    "movl $2, %ecx\n movb $0, %dl\n1: jmp 2f\n movl $8, %edi\n2: movb %dl, 1b+1\n subl $1, %ecx\n jne 1b",
    "movl $3, %ecx\n1: movb %cl, 2f+1\n2: movl $0x55, %edi\n addl %edi, %esi\n subl $1, %ecx\n jne 1b",
]


def assembled(lines):
    """The text of these lines, at the place where the image has it."""
    source, made, linked, flat = (f"{ROOM}/row{end}" for end in (".s", ".o", ".elf", ".bin"))
    with open(source, "w") as it:
        it.write(f"{BEFORE}\n{lines}\n{AFTER}")
    subprocess.run(["as", "--32", "-mindex-reg", "-o", made, source], check=True)
    subprocess.run(["ld", "-m", "elf_i386", f"-Ttext={TEXT_ADDRESS:#x}", "-e", f"{TEXT_ADDRESS:#x}", "-o", linked, made], check=True)
    subprocess.run(["objcopy", "-O", "binary", "-j", ".text", linked, flat], check=True)
    with open(flat, "rb") as it:
        return it.read()


# How pcc tells an end, and by which signal the kernel ends the same program
SIGNALS = {
    b"trap divide": [signal.SIGFPE],
    b"trap check": [signal.SIGILL],
    b"stopped access": [signal.SIGSEGV],
    # HLT is no instruction of the machine, and the kernel doesn't let a program make it.
    b"stopped instruction": [signal.SIGSEGV, signal.SIGILL],
}
INPUT = b"Q"
different = 0
IMAGES = [(row, READ_RUN) for row in ROWS] + [(row, READ_WRITE_RUN) for row in CHANGED]
for row, text_flags in IMAGES:
    path = f"{ROOM}/image"
    if os.path.exists(path):
        os.remove(path)
    with open(path, "wb") as it:
        it.write(image(assembled(row), text_flags=text_flags))
    os.chmod(path, 0o755)
    here = subprocess.run([PROGRAM, "run", path], input=INPUT, capture_output=True)
    there = subprocess.run([path], input=INPUT, capture_output=True)
    said = here.stderr.strip()
    if there.returncode >= 0:
        same = said == f"exit {there.returncode}".encode() and here.stdout == there.stdout
    else:
        signals = [s for words, those in SIGNALS.items() if said.startswith(words) for s in those]
        same = -there.returncode in signals and here.stdout == there.stdout
    if not same:
        different += 1
        print(f"kernel: {row!r}\n  machine: {said} {here.stdout.hex()}\n  kernel:  {there.returncode} {there.stdout.hex()}")
print(f"{len(IMAGES)} images, {different} of them different")
sys.exit(1 if different else 0)
PYTHON
