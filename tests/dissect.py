#!/usr/bin/env python3
"""Frames that the library writes go through Wireshark's AMQP 1.0 dissector. Run in the repository's top folder.

Usage: tests/dissect.py [FILE]. Without FILE the frames of the recorded lists (tests/oracle.txt): tests/c/replay.c holds the library to the recording, so the bytes in it are the
bytes that the library writes. Each list becomes a TCP stream of its own: the segments are what the events wrote. FILE has a header or frame in hexadecimal on each line, as
`bin/oracle harness .. --frames FILE` writes them; they become the segments of a few streams. A stream without a protocol header is given one in front, since the dissector takes the
version from it.
The payload of a Transfer is a session's, and in the lists it is arbitrary; the dissector takes it for the sections of a message, so it is left out of the frame.
Fails where the dissector finds fault with a frame, or does not show every frame with its length, channel and performative. Needs tshark; installs it where it is missing.
"""
import shutil
import struct
import subprocess
import sys
import tempfile
from collections import Counter
from itertools import zip_longest

RECORDING = "tests/oracle.txt"
MOST_IN_A_STREAM = 200
HEADER = bytes.fromhex("414d515000010000")
PORT = 5672
TRANSFER = 20


def with_header(pieces):
    return pieces if pieces[0] == HEADER else [HEADER] + pieces


def recorded():
    """What each list wrote, event by event."""
    lists = []
    for line in open(RECORDING, encoding="utf-8"):
        words = line.split()
        if words and words[0] == "list":
            lists.append([])
        elif words and words[0] == "is" and words[-1] != "-":
            lists[-1].append(bytes.fromhex(words[-1]))
    return [with_header(pieces) for pieces in lists if pieces]


def listed(file):
    """The headers and frames of a file, some in each stream."""
    pieces = [bytes.fromhex(line) for line in open(file, encoding="utf-8")]
    frames_only = [piece for piece in pieces if piece != HEADER]
    return [with_header(frames_only[at : at + MOST_IN_A_STREAM]) for at in range(0, len(frames_only), MOST_IN_A_STREAM)]


def frames(piece):
    """The frames in a piece. A protocol header has none."""
    while piece and piece != HEADER:
        size = max(int.from_bytes(piece[:4], "big"), 1)
        yield piece[:size]
        piece = piece[size:]


def code(frame):
    """The code of a frame's performative; an empty frame has none."""
    return frame[10] if len(frame) > 8 else None


def bare(frame):
    """A frame without a Transfer's payload. The performative is 00 53 and its code, and a list: 45, or C0 or D0 with its size."""
    if code(frame) != TRANSFER:
        return frame
    width = {0x45: 0, 0xC0: 1, 0xD0: 4}[frame[11]]
    end = 12 + width + int.from_bytes(frame[12 : 12 + width], "big")
    return struct.pack(">I", end) + frame[4:end]


def checksum(data):
    total = sum(struct.unpack(f">{len(data) // 2}H", data))
    total = (total & 0xFFFF) + (total >> 16)
    return ~(total + (total >> 16)) & 0xFFFF


def packet(stream, sequence, payload):
    """An IPv4 packet with a TCP segment from port 5672."""
    tcp = struct.pack(">HHIIBBHHH", PORT, 40000 + stream, sequence, 1, 0x50, 0x18, 65535, 0, 0)
    ip = struct.pack(">BBHHHBBH4s4s", 0x45, 0, 40 + len(payload), 0, 0, 64, 6, 0, bytes([10, 0, 0, 1]), bytes([10, 0, 0, 2]))
    return ip[:10] + struct.pack(">H", checksum(ip)) + ip[12:] + tcp + payload


def capture(lists, out):
    out.write(struct.pack("<IHHiIII", 0xA1B2C3D4, 2, 4, 0, 0, 65535, 101))  # 101: bare IP packets
    for stream, pieces in enumerate(lists):
        sequence = 1
        for piece in pieces:
            payload = b"".join(bare(frame) for frame in frames(piece)) or piece
            data = packet(stream, sequence, payload)
            out.write(struct.pack("<IIII", stream, 0, len(data), len(data)) + data)
            sequence += len(payload)
    out.flush()


def tshark(file, *words):
    command = ["tshark", "-n", "-r", file, "-d", f"tcp.port=={PORT},amqp", "-o", "tcp.check_checksum:FALSE", *words]
    return subprocess.run(command, check=True, capture_output=True, text=True).stdout.splitlines()


def expected(lists):
    """Of each packet the lengths, channels and performatives of its frames."""
    for pieces in lists:
        for piece in pieces:
            inside = [bare(frame) for frame in frames(piece)]
            channels = [int.from_bytes(frame[6:8], "big") for frame in inside]
            yield [len(frame) for frame in inside], channels, [code(frame) for frame in inside if code(frame) is not None]


def shown(file):
    """The same as the dissector shows it."""
    fields = ["amqp.length", "amqp.channel", "amqp.performative"]
    words = [word for field in fields for word in ("-e", field)]
    for line in tshark(file, "-T", "fields", "-E", "occurrence=a", *words):
        columns = line.split("\t") + [""] * len(fields)
        yield tuple([int(number, 0) for number in column.split(",") if number] for column in columns[: len(fields)])


def main():
    if not shutil.which("tshark"):
        install = "apt-get install -y -qq --no-install-recommends tshark"
        subprocess.run(f"apt-get update -qq && DEBIAN_FRONTEND=noninteractive {install} > /dev/null", shell=True, check=True)
    lists = listed(sys.argv[1]) if len(sys.argv) > 1 else recorded()
    written = [code(frame) for pieces in lists for piece in pieces for frame in frames(piece)]
    with tempfile.NamedTemporaryFile(suffix=".pcap") as file:
        capture(lists, file)
        faults = tshark(file.name, "-Y", "_ws.malformed || (amqp && _ws.expert.severity >= 6291456)")
        packets = list(zip_longest(expected(lists), shown(file.name)))
    others = [(number, *pair) for number, pair in enumerate(packets, 1) if pair[0] != pair[1]]
    for line in faults[:10]:
        print("fault:", line)
    for number, meant, seen in others[:10]:
        print(f"packet {number}: written {meant}, shown {seen}")
    kinds = ", ".join(f"{count} of {kind}" for kind, count in sorted(Counter(kind for kind in written if kind).items()))
    print(f"dissect.py: {len(written)} frames ({written.count(None)} empty, {kinds}) in {len(lists)} streams, {len(faults) + len(others)} packets at fault")
    return 1 if faults or others or not written else 0


if __name__ == "__main__":
    sys.exit(main())
