"""The crates of crates.txt, for the scripts beside this one."""
import os
import re
import shutil
import subprocess

TOP = os.path.dirname(os.path.dirname(os.path.abspath(__file__)))


def lines():
    """For each crate the libraries that its line names, in the order of crates.txt."""
    rows = {}
    with open(f"{TOP}/crates.txt", encoding="utf-8") as file:
        for line in file:
            found = re.match(r"(\w+)[^:#]*:([^#]*)", line)
            if found:
                rows[found[1]] = found[2].split()
    return rows


def stands_on():
    """For each crate the crates of the repository that its line names, in the order of crates.txt."""
    rows = lines()
    return {name: [it for it in below if it in rows] for name, below in rows.items()}


def below(name, rows):
    """The crate and all that it stands on, each behind what it stands on itself."""
    order = []

    def visit(it):
        if it not in order:
            for other in rows[it]:
                visit(other)
            order.append(it)

    visit(name)
    return order


def copy(room, names):
    """Makes a repository of these crates in an empty folder, without what was built there and without their edits."""
    with open(f"{TOP}/crates.txt", encoding="utf-8") as old, open(f"{room}/crates.txt", "w", encoding="utf-8") as new:
        new.writelines(line for line in old if line.partition(":")[0].strip() in names)
    shutil.copy(f"{TOP}/HANDLES", room)
    for name in names:
        shutil.copytree(f"{TOP}/crates/{name}", f"{room}/crates/{name}",
                        ignore=shutil.ignore_patterns("out", "must-fail"))
    subprocess.run(["git", "init", "-q", room], check=True)
