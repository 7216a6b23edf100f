#!/bin/sh
# Measures the machine: the steps that it makes in a second over NOPs and over a loop of arithmetic, memory and
# jumps, the ratio of that loop's time to its time on the processor, the time that it takes to begin, and the time and
# the memory that it takes to read and load an image of 100 MB. The loop runs several times, each time behind a loop of
# additions in registers on the same processor itself, whose times tell how much that varies. The images
# are made in a temporary folder, which is removed at the end. It wants python3 and GNU time.
. "$(dirname "$(readlink -f "$0")")/start.sh"
build_pcc

PYTHONPATH=$top/bench python3 -B - "$top/crates/pcc/out/pcc" "$room" <<'PYTHON'
import os
import subprocess
import sys
import time

from image import image

PROGRAM, ROOM = sys.argv[1:]
COUNT = 100_000_000
RUNS = 3

# MOV EAX, 1; INT 0x80: the program ends, with the low byte of EBX, which is 0
EXIT = bytes.fromhex("B801000000" "CD80")
NOPS = b"\x90" * COUNT

# What GNU as makes of these lines, where 0x08049000 is the address of the data:
#         movl $10000000, %esi
#         movl $0x08049000, %ebx
#     1:  movl (%ebx), %eax
#         addl %esi, %eax
#         movl %eax, (%ebx)
#         leal 1(%eax,%esi,2), %ecx
#         xorl %ecx, %edx
#         movl %edx, 4(%ebx)
#         subl $1, %esi
#         jne 1b
#         movl $1, %eax
#         movl $0, %ebx
#         int $0x80
TURNS = 10_000_000
TURN_STEPS = 8
LOOP = bytes.fromhex(
    "BE80969800" "BB00900408"
    "8B03" "01F0" "8903" "8D4C7001" "31CA" "895304" "83EE01" "75EC"
    "B801000000" "BB00000000" "CD80"
)

# What GNU as makes of these lines:
#         movl $300000000, %esi
#     1:  addl $1, %eax
#         addl $1, %ebx
#         addl $1, %ecx
#         addl $1, %edx
#         addl $1, %edi
#         addl $1, %ebp
#         subl $1, %esi
#         jne 1b
#         movl $1, %eax
#         movl $0, %ebx
#         int $0x80
ADDITIONS = bytes.fromhex(
    "BE00A3E111"
    "83C001" "83C301" "83C101" "83C201" "83C701" "83C501" "83EE01" "75E9"
    "B801000000" "BB00000000" "CD80"
)
PAIRS = 12


def once(name, words, said):
    """The time of a run of a command, which ends with status 0 and says this."""
    start = time.perf_counter()
    ran = subprocess.run(words, stdin=subprocess.DEVNULL, stderr=subprocess.PIPE)
    taken = time.perf_counter() - start
    if ran.returncode != 0 or ran.stderr != said:
        sys.exit(f"bench: {name} ended with {ran.returncode} and {ran.stderr}")
    return taken


def shortest(name, words, said):
    """The shortest time of some runs of a command, which ends with status 0 and says this."""
    return min(once(name, words, said) for _ in range(RUNS))


def most_bytes(words):
    """The most memory that a run of a command has at once."""
    told = f"{ROOM}/memory"
    subprocess.run(["time", "-f", "%M", "-o", told, *words], stdin=subprocess.DEVNULL, stderr=subprocess.DEVNULL, check=True)
    with open(told, encoding="ascii") as file:
        return int(file.read()) * 1024


def written(name, text):
    """The path of the image with this text."""
    path = f"{ROOM}/{name}"
    with open(path, "wb") as it:
        it.write(image(text))
    os.chmod(path, 0o755)
    return path


def seconds(name, text):
    """The time that the machine takes for the image with this text."""
    return shortest(name, [PROGRAM, "run", written(name, text)], b"exit 0\n")


def on_processor(name, text):
    """The time that the processor takes for it."""
    return shortest(name, [written(name, text)], b"")


load = seconds("loaded", EXIT + NOPS)
whole = seconds("stepped", NOPS + EXIT)
steps = COUNT + 2
print(f"read and load an image of {(len(NOPS) + len(EXIT)) / 1e6:.0f} MB, and make 2 steps: {load:.2f} s")
print(f"the same image with {steps:,} steps: {whole:.2f} s")
print(f"steps: {steps / (whole - load) / 1e6:.1f} million a second")

# What the machine and the processor take to begin, apart from their steps.
begun = seconds("begun", EXIT)
print(f"begin an image of 6 bytes: {begun * 1e3:.1f} ms")
bare = most_bytes([PROGRAM, "run", f"{ROOM}/begun"])
full = most_bytes([PROGRAM, "run", f"{ROOM}/loaded"])
print(f"memory of the machine and its stack: {bare / 1e6:.0f} MB")
print(f"memory for each byte of an image of {COUNT / 1e6:.0f} MB: {(full - bare) / COUNT:.2f} bytes")

# The loop on one processor of those that may be used, each time behind one of additions in registers.
os.sched_setaffinity(0, {max(os.sched_getaffinity(0))})
added_words, looped_words = [written("added", ADDITIONS)], [PROGRAM, "run", written("looped", LOOP)]
added, looped = [], []
for _ in range(PAIRS):
    added.append(once("added", added_words, b""))
    looped.append(once("looped", looped_words, b"exit 0\n"))
least, most = min(looped), max(looped)
begun_there = on_processor("begun there", EXIT)
looped_there = on_processor("looped there", LOOP) - begun_there
loop_steps = TURNS * TURN_STEPS
print(f"a loop of arithmetic, memory and jumps, {loop_steps:,} steps, {PAIRS} times: {least:.2f} s to {most:.2f} s")
print(f"steps of that loop: {loop_steps / most / 1e6:.1f} to {loop_steps / least / 1e6:.1f} million a second")
print(f"a loop of additions in registers between them, on the processor: {min(added):.3f} s to {max(added):.3f} s")
print(f"the same image on the processor: {looped_there:.3f} s, so the machine takes {least / looped_there:.0f} times as long at best")
PYTHON
