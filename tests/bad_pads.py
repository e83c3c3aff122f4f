#!/usr/bin/env python3
"""Damages the bytes of one pad in the recording (examples/pads.amqp), over and over, and holds the example hub to what it owes the others: it plays the recording to
its end, and what it counts and tells of the pads on other lanes is what it counts and tells without the damage. Usage: tests/bad_pads.py HUB [ROUNDS]

The damage is from a fixed pseudo-random sequence: a byte altered, some bytes left out or sent twice, or nothing any more from a place on. Pieces are never left
out, since the hub's ticks go by them; a piece may be empty.
"""
import random
import subprocess
import sys
import tempfile
from pathlib import Path

RECORDING = "examples/pads.amqp"


def records(data):
    """The pieces of a recording: a pad's number, and its bytes."""
    found = []
    while data:
        count = int.from_bytes(data[1:3], "big")
        found.append((data[0], data[3:3 + count]))
        data = data[3 + count:]
    return found


def recorded(pieces):
    return b"".join(bytes([pad]) + len(piece).to_bytes(2, "big") + piece for pad, piece in pieces)


def damaged(pieces, pad, chance):
    """The recording with one pad's bytes damaged."""
    places = [(i, at) for i, (p, piece) in enumerate(pieces) if p == pad for at in range(len(piece))]
    first, at = chance.choice(places)
    piece, n = pieces[first][1], chance.randrange(1, 9)
    how = chance.randrange(4)
    if how == 0:
        piece = piece[:at] + bytes([chance.randrange(256)]) + piece[at + 1:]
    elif how == 1:
        piece = piece[:at] + piece[at + n:]
    elif how == 2:
        piece = piece[:at + n] + piece[at:]
    else:
        piece = piece[:at]
    rest = pieces[first + 1:] if how < 3 else [(p, b"" if p == pad else later) for p, later in pieces[first + 1:]]
    return pieces[:first] + [(pad, piece)] + rest


def told(hub, recording):
    """What the hub prints of each pad: its lane, its sessions' rows without their numbers, and its line."""
    with tempfile.NamedTemporaryFile() as file:
        file.write(recording)
        file.flush()
        run = subprocess.run([hub, file.name], capture_output=True, text=True, check=False)
    if run.returncode != 0 or run.stderr:
        sys.exit(f"bad_pads.py: the hub ended with {run.returncode}: {run.stderr}")
    sessions, _, pads = run.stdout.split("\n\n")
    rows = [line.split() for line in sessions.splitlines()[1:]]
    lines = {line.split()[0]: line for line in pads.splitlines()[1:]}
    return {name: ([row[2:] for row in rows if row[1] == name], line) for name, line in lines.items()}


def main():
    hub, rounds = sys.argv[1], int(sys.argv[2]) if len(sys.argv) > 2 else 400
    lanes = {"A": 1, "B": 2, "C": 3, "D": 2, "E": 4, "F": 5, "G": 5, "H": 6, "I": 4}
    pieces = records(Path(RECORDING).read_bytes())
    whole, chance, errors = told(hub, recorded(pieces)), random.Random(1), 0
    for n in range(rounds):
        pad = n % len(lanes)
        name = list(lanes)[pad]
        now = told(hub, recorded(damaged(pieces, pad, chance)))
        others = [other for other in lanes if lanes[other] != lanes[name] and now[other] != whole[other]]
        if others:
            sys.exit(f"bad_pads.py: round {n}, pad {name} is damaged, and {others[0]} has {now[others[0]]} in the place of {whole[others[0]]}")
        errors += "error: " in now[name][1] and now[name] != whole[name]
    if errors < rounds / 8:
        sys.exit(f"bad_pads.py: only {errors} of {rounds} damaged recordings led to an error: the others say little")
    print(f"{rounds} damaged recordings, {errors} of them with another error of the pad; the other lanes as before")


main()
