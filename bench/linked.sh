#!/bin/sh
# Runs executables that GNU as and ld make of a few lines for i386, with three and four segments, by `pcc run` and on
# the kernel of this computer, which has to run i386 executables, and compares what they write and how they end; and
# runs an image of pcc's own with bytes changed, and compares what is said with a table. It wants python3 and GNU as and
# ld. What it makes stands in a temporary folder, which is removed at the end.
#
# usage: bench/linked.sh
. "$(dirname "$(readlink -f "$0")")/start.sh"
build_pcc

PYTHONPATH=$top/bench python3 -B - "$top/crates/pcc/out/pcc" "$room" <<'PYTHON'
import os
import subprocess
import sys

from beside import by_pcc, compile_by_pcc, on_kernel

PROGRAM, ROOM = sys.argv[1:]

# Reads a byte and adds a constant to it, adds to a byte that is zero at the start, counts, and writes three bytes.
SOURCE = """
        .text
        .globl  _start
_start: movl    $zeros+8192, %esp
        movl    $3, %eax
        movl    $0, %ebx
        movl    $bytes, %ecx
        movl    $1, %edx
        int     $0x80
        movl    $constants, %esi
        movsbl  2(%esi), %eax
        movzbl  bytes, %edx
        addl    %eax, %edx
        movb    %dl, bytes
        call    put
        addl    $1, counted
        movl    $4, %eax
        movl    $1, %ebx
        movl    $bytes, %ecx
        movl    $3, %edx
        int     $0x80
        movl    $1, %eax
        movl    counted, %ebx
        int     $0x80
put:    movzbl  zeros+4000, %ecx
        addl    $'!', %ecx
        movb    %cl, bytes+1
        movb    constants+1, %dh
        movb    %dh, bytes+2
        ret
        .section .rodata
constants: .byte 1, '\\n', 3, 4
        .data
bytes:  .byte   0, 0, 0, 0
counted: .long  40
        .bss
zeros:  .skip   8192
        .section .note.GNU-stack
"""

# What ld is told, and how many segments of memory the file then has
SEGMENTS = """
PHDRS { %s }
SECTIONS
{
    .rodata 0x%x : { *(.rodata) } :constants
    .text   0x%x : { *(.text) } :text
    .data   0x%x : { *(.data) } :data
    .bss    : { *(.bss) } :data
    /DISCARD/ : { *(.note*) }
}
"""
THREE = ["text PT_LOAD FLAGS(5);", "constants PT_LOAD FLAGS(4);", "data PT_LOAD FLAGS(6);"]
OTHER = ["stack PT_GNU_STACK FLAGS(6);"]
LAYOUTS = {
    "ld's own layout": None,
    "three segments": (THREE, 0x0804A000, 0x08048000, 0x0804C000),
    "three segments far apart, in no order": (THREE, 0x10000, 0x08048000, 0x40000000),
    "three segments, and a header of another type": (OTHER + THREE, 0x08050000, 0x08048000, 0x0804C000),
}


def linked(layout):
    """The path of the executable with this layout."""
    source, made, script, path = (f"{ROOM}/linked{end}" for end in (".s", ".o", ".ld", ""))
    with open(source, "w", encoding="ascii") as file:
        file.write(SOURCE)
    words = ["ld", "-m", "elf_i386", "-o", path, made]
    if layout:
        headers, *addresses = layout
        with open(script, "w", encoding="ascii") as file:
            file.write(SEGMENTS % (" ".join(headers), *addresses))
        words += ["-T", script]
    subprocess.run(["as", "--32", "-o", made, source], check=True)
    subprocess.run(words, check=True)
    return path


def beside_kernel():
    """How many layouts do something else on the kernel than in the machine."""
    different = 0
    for name, layout in LAYOUTS.items():
        path = linked(layout)
        for entered in (b"Q", b""):
            here, there = by_pcc([PROGRAM, "run", path], entered), on_kernel(path, entered)
            if here != there:
                different += 1
                print(f"linked: {name} differs: machine {here}, kernel {there}")
    print(f"{len(LAYOUTS)} layouts, each with two inputs, {different} runs of them different")
    return different


# Which bytes of the image change, to what, and what is said then; `last` is the byte at the end of the file.
CHANGES = [
    ({}, "exit 44"),
    ({44: 0, 45: 0}, "not an image"),
    ({44: 255, 45: 255}, "not an image"),
    ({at: 0 for at in range(72, 76)}, "not an image"),
    ({at: 255 for at in range(104, 108)}, "not an image"),
    ({at: at + 32 for at in range(60, 64)}, "not an image"),
    ("last", "not an image"),
    ({7: 3} | {at: 255 for at in range(32, 36)}, "exit 44"),
    ({76: 4}, "stopped access 0x08048000"),
    ({at: 0 for at in range(24, 28)}, "stopped access 0x00000000"),
]
STATUSES = {"not": 7, "exit": 0, "stopped": 9}


def changed(image, change):
    """The image with these bytes changed; from 60 on they are those of the same field in the other header."""
    if change == "last":
        return image[:-1]
    found = bytearray(image)
    for at, value in change.items():
        found[at] = image[value] if 60 <= at < 64 else value
    return bytes(found)


def changed_images():
    """How many changed images are told of otherwise."""
    source, image, other = (f"{ROOM}/{name}" for name in ("a.c", "a", "b"))
    with open(source, "w", encoding="ascii") as file:
        file.write("int main(void){return 300;}")
    refused = compile_by_pcc(PROGRAM, [source], image)
    if refused:
        sys.exit(f"linked: {refused}")
    with open(image, "rb") as file:
        whole = file.read()
    different = 0
    for change, wanted in CHANGES:
        with open(other, "wb") as file:
            file.write(changed(whole, change))
        it = subprocess.run([PROGRAM, "run", other], stdin=subprocess.DEVNULL, capture_output=True)
        if (it.stderr.decode(), it.returncode, it.stdout) != (f"{wanted}\n", STATUSES[wanted.split()[0]], b""):
            different += 1
            print(f"linked: {change} is told of as {it.stderr} with {it.returncode}, and not {wanted}")
    print(f"{len(CHANGES)} changed images, {different} of them different")
    return different


sys.exit(1 if beside_kernel() + changed_images() else 0)
PYTHON
