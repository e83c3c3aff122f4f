#!/usr/bin/env python3
"""Holds the reading and writing of frames to bounds on instructions: so many for each byte that is there, and none for what a frame only claims.
Usage: tests/linear.py PROGRAM BENCH [slow|record]; PROGRAM is tests/c/linear.c and BENCH target/bin/bench. With `slow` PROGRAM goes over what is claimed, so that a
fault must be found; with `record` the lines of all that is held to a record are printed, and nothing is held to them.

The instructions are those that valgrind's callgrind counts; they are the same in every run. A reading that goes over the elements which an array claims, if it
ends at all, is over the bound. Besides, tests/linear.txt has what the typical frames and the bodies of 16,384 bytes took when it was recorded: none may take a
tenth more. That was with an older compiler. Of the same sources today's makes more than a tenth more instructions for some: tests/linear_today.txt has these as
they are now, and none may take a tenth more than that. The last line says what was found, and the exit status is 0 where nothing was over its bound.
"""
import re
import subprocess
import sys
import tempfile
from pathlib import Path

# For each way of reading: the instructions of a call, and those of a byte. The most that was seen is about two thirds of that (docs/PERFORMANCE.md).
BOUNDS = {"typical": (1500, 0), "reader": (1500, 52), "engine": (1500, 52), "to-send": (1500, 360), "written": (1500, 0)}

WAYS = ("reader", "engine", "to-send")

# What was recorded; a line of the second file stands for the first's.
RECORDED = (Path("tests/linear.txt"), Path("tests/linear_today.txt"))

SECONDS = 120  # a run takes a few


def run(words, folder):
    """The lines that the program prints, and how many instructions each reading took; of one that does not end there is no number."""
    options = ["--tool=callgrind", f"--callgrind-out-file={folder}/count", "--toggle-collect=measured", "--dump-after=measured"]
    with open(f"{folder}/lines", "w", encoding="utf-8") as lines, open(f"{folder}/said", "w", encoding="utf-8") as said:
        try:
            ended = subprocess.run(["valgrind", *options, *words], stdout=lines, stderr=said, timeout=SECONDS, check=False).returncode
        except subprocess.TimeoutExpired:
            ended = None
    readings = Path(folder, "lines").read_text(encoding="utf-8").splitlines()
    if ended not in (0, None):
        sys.exit(f"linear.py: the program ended with {ended}: {readings[-1:]} {Path(folder, 'said').read_text(encoding='utf-8')}")
    counts = []
    for n in range(1, len(readings) + 1):
        dump = Path(folder, f"count.{n}")
        found = re.search(r"^totals: (\d+)", dump.read_text(encoding="utf-8"), re.M) if dump.is_file() else None
        counts.append(int(found[1]) if found else None)
    return readings, counts


def written(bench):
    """The instructions of writing the typical Transfer: the difference between many rounds and few, by the round."""
    totals = []
    for rounds in (100, 1100):
        command = ["valgrind", "--tool=callgrind", "--callgrind-out-file=/dev/null", bench]
        said = subprocess.run(command, input=f"frame write 1 {rounds}\n", capture_output=True, text=True, timeout=SECONDS, check=True).stderr
        totals.append(int(re.search(r"Collected *: *(\d+)", said)[1]))
    return round((totals[1] - totals[0]) / 1000)


def recorded():
    """What was recorded: the number of each line, by what comes after it, and the file that has it."""
    found = {}
    for file in RECORDED:
        for line in file.read_text(encoding="utf-8").splitlines():
            number, name = line.split(" ", 1)
            found[name] = (int(number), file)
    return found


def is_held(reading):
    """Whether one of the files has a line for a reading: the typical frames, and the longest that an engine takes."""
    way, size, _ = reading.split(" ", 2)
    return way in ("typical", "written") or (way != "engine" and 16000 < int(size) <= 16384)


def over_bound(counts):
    """What is over the bound of its way."""
    faults = []
    for reading, count in counts.items():
        way, size, name = reading.split(" ", 2)
        call, byte = BOUNDS[way]
        if count is None:
            sys.exit(f"linear.py: {way}, {name}: {size} bytes are not read in {SECONDS} seconds")
        if count > call + byte * int(size):
            faults.append(f"{way}, {name}: {count} instructions for {size} bytes are over the bound of {call + byte * int(size)}")
    return faults


def grown(counts):
    """What takes a tenth more than was recorded, or is not measured."""
    faults, held = [], recorded()
    for reading, (before, file) in held.items():
        count = counts.get(reading)
        if count is None:
            faults.append(f"{reading} is in {file} and was not measured")
        elif count * 10 > before * 11:
            faults.append(f"{reading}: {count} instructions are over a tenth more than the {before} of {file}")
    faults += [f"{reading} is in neither of the files" for reading in counts if is_held(reading) and reading not in held]
    return faults


def main():
    program, bench, *how = sys.argv[1:]
    with tempfile.TemporaryDirectory() as folder:
        readings, numbers = run([program, *(word for word in how if word == "slow")], folder)
    counts = dict(zip(readings, numbers))
    counts["written 52 a Transfer"] = written(bench)
    if how == ["record"]:
        print("\n".join(f"{count} {reading}" for reading, count in counts.items() if is_held(reading)))
        sys.exit(0)
    over, more = over_bound(counts), grown(counts)
    faults = over + more
    for fault in over[:5] + more[:5]:
        print(f"linear.py: {fault}")
    most = {way: max((n // int(r.split()[1]) for r, n in counts.items() if r.split()[0] == way and int(r.split()[1]) > 4000), default=0) for way in WAYS}
    if 0 in most.values():
        sys.exit("linear.py: a way of reading was not measured")
    per_byte = ", ".join(f"{n} {way}" for way, n in most.items())
    typical = f"a Transfer is read in {counts['typical 52 a Transfer']} instructions and written in {counts['written 52 a Transfer']}"
    print(f"linear.py: {len(counts)} readings and writings, {len(faults)} over the bound; {typical}; of long frames at most so many instructions a byte: {per_byte}")
    sys.exit(1 if faults else 0)


main()
