#!/usr/bin/env python3
"""Holds the instructions that docs/PERFORMANCE.md shows for the line of widths to the archives.
Usage: tests/width.py ARCHIVE..

The compiler puts the line wherever a value is measured. In each archive they stand at least once, and every instruction like the last of them ends all of them,
whichever registers they use and with at most moves between registers among them. The last line says so, and the exit status is 0 then.
"""
import re
import subprocess
import sys
from pathlib import Path

HEADING = "## The width of a value, in a disassembly"
REGISTER = re.compile(r"\b(?:[re]?(?:ax|bx|cx|dx|si|di|bp)|r\d+[dwb]?|[abcd]l|[sd]il|bpl)\b")
MOVE = "mov r,r"
FAR = 8  # as many instructions are looked at, the moves among them


def plain(instruction):
    """An instruction without the registers' names, and without what the document says of it."""
    words = re.split(r"\s+", instruction.split(";")[0].strip(), maxsplit=1)
    return " ".join(REGISTER.sub("r", word).replace(" ", "") for word in words)


def shown():
    """The instructions of the document: the first lines of code under the heading."""
    under = Path("docs/PERFORMANCE.md").read_text(encoding="utf-8").split(HEADING + "\n", 1)
    block = re.search(r"\n\n((?:    .*\n)+)", under[1]) if len(under) == 2 else None
    if not block:
        sys.exit(f"width.py: docs/PERFORMANCE.md shows no instructions under '{HEADING[3:]}'")
    return [plain(line) for line in block[1].splitlines()]


def places(wanted, archive):
    """How often the instructions stand in an archive, and after how many instructions the last of them stands without the others."""
    command = ["objdump", "-d", "-M", "intel", "--no-show-raw-insn", archive]
    listing = subprocess.run(command, capture_output=True, text=True, check=True).stdout
    found = [plain(line) for line in re.findall(r"^ +[0-9a-f]+:\t(.*)", listing, re.M)]
    whole, alone = 0, []
    for i in (i for i, instruction in enumerate(found) if instruction == wanted[-1]):
        before = [instruction for instruction in found[max(0, i + 1 - FAR) : i + 1] if instruction != MOVE]
        if before[-len(wanted) :] == wanted:
            whole += 1
        else:
            alone.append(i)
    return whole, alone


def main():
    wanted, archives, told = shown(), sys.argv[1:], []
    for archive in archives:
        whole, alone = places(wanted, archive)
        if alone or not whole:
            sys.exit(f"width.py: the {len(wanted)} instructions of docs/PERFORMANCE.md are {whole} times in {archive}, and the last without the others {len(alone)} times, as after {alone[:1]}")
        told.append(f"{whole} times in {Path(archive).name}")
    print(f"width.py: the {len(wanted)} instructions of docs/PERFORMANCE.md are {', '.join(told)}, and the last of them nowhere else")
    sys.exit(0 if archives else 1)


main()
