#!/usr/bin/env python3
"""Writes the bytes that a hub hears from its pads to standard output, as examples/pads.amqp has them.

A record is one piece of bytes in the order in which pieces arrive: 1 byte for the pad, 2 bytes for how many bytes there are (big-endian), and these.
A pad's pieces one after the other are what it sends on its connection: a header, then frames, cut at arbitrary places. The cuts, and whose piece comes
next, are from a fixed pseudo-random sequence. The frames are made here by hand from Parts 1 and 2 of the standard.

The story, in five scenes. Pieces of different pads are mixed within a scene, not across scenes.
1. The pads A, B and C connect, begin a session each and send presses. A is on lane 1, B on lane 2, C on lane 3. So do E on lane 4 and H on lane 6.
   Most use low channels; C uses 300, and D later 511, the highest that the hub takes.
2. B is replaced: the pad D connects for lane 2, and begins a session. The hub takes it, and ends B's session. E is replaced too, by the pad I for lane 4. On lane 5 the
   pad F comes, which wants to speak SASL first, and then G, which is no pad: it sends an HTTP request.
3. B and E have not heard of that yet: presses that they sent before still arrive, between those of D, of I and of the others. H sends a press with a message that is
   longer than the hub takes, and goes on too.
4. B hears it, ends its session too and closes. E hears it, ends its session too, and goes on pressing all the same: these presses belong to no session. A ends its
   session and begins a new one on the same channel.
5. A, C, D and I send a few more presses, and E too. A, D and I end their sessions and close; C is switched off. E has heard that the hub has closed its line, and
   closes too.
"""
import struct
import sys

NULL, TRUE, FALSE = b'\x40', b'\x41', b'\x42'
OPEN, BEGIN, ATTACH, FLOW, TRANSFER, DISPOSITION, DETACH, END, CLOSE = range(16, 25)


def listed(fields):
    items = b''.join(fields)
    return bytes([0xC0, len(items) + 1, len(fields)]) + items if fields else b'\x45'


def described(code, *fields):
    return bytes([0, 0x53, code]) + listed(fields)


def frame(channel, body=b''):
    return struct.pack('>IBBH', 8 + len(body), 2, 0, channel) + body


def uint(n):
    return b'\x43' if n == 0 else bytes([0x52, n]) if n < 256 else b'\x70' + struct.pack('>I', n)


def ushort(n):
    return b'\x60' + struct.pack('>H', n)


def string(text):
    return bytes([0xA1, len(text)]) + text.encode()


def symbol(text):
    return bytes([0xA3, len(text)]) + text.encode()


def binary(data):
    return bytes([0xA0, len(data)]) + data


# ---- what a pad sends

def hello(name):
    return b'AMQP\x00\x01\x00\x00' + frame(0, described(OPEN, string(name), string('hub'), uint(1024), ushort(7), uint(30000)))


def session(channel, lane):
    target = described(0x29, string('lane-%d' % lane))
    link = [string('presses'), uint(0), FALSE, NULL, NULL, described(0x28), target, NULL, NULL, uint(0)]
    return frame(channel, described(BEGIN, NULL, uint(0), uint(100), uint(100))) + frame(channel, described(ATTACH, *link))


def presses(channel, first, count):
    """Each is a settled Transfer of a message whose value is 1; a heartbeat after every third."""
    out = b''
    for n in range(first, first + count):
        message = b'\x00\x53\x77' + uint(1)
        out += frame(channel, described(TRANSFER, uint(0), uint(n), binary(bytes([n])), uint(0), TRUE) + message)
        if n % 3 == 2:
            out += frame(0)
    return out


def long_press(channel, n, size):
    """A press whose message is a text of so many bytes."""
    message = b'\x00\x53\x77\xB1' + struct.pack('>I', size) + b'press ' * (size // 6) + b'!' * (size % 6)
    return frame(channel, described(TRANSFER, uint(0), uint(n), binary(bytes([n])), uint(0), TRUE) + message)


def sasl():
    """The header of the SASL layer, and a sasl-init: a frame of type 1."""
    body = described(0x41, symbol('ANONYMOUS'))
    return b'AMQP\x03\x01\x00\x00' + struct.pack('>IBBH', 8 + len(body), 2, 1, 0) + body


def http():
    return b'GET /lanes/5 HTTP/1.1\r\nHost: hub\r\n\r\n'


def end(channel):
    return frame(channel, described(END))


def close():
    return frame(0, described(CLOSE))


A, B, C, D, E, F, G, H, I = range(9)

SCENES = [
    {A: hello('pad-a') + session(0, 1) + presses(0, 0, 9), B: hello('pad-b') + session(0, 2) + presses(0, 0, 7), C: hello('pad-c') + session(300, 3) + presses(300, 0, 8),
     E: hello('pad-e') + session(0, 4) + presses(0, 0, 5), H: hello('pad-h') + session(2, 6) + presses(2, 0, 6)},
    {D: hello('pad-d') + session(511, 2), F: sasl(), G: http(), I: hello('pad-i') + session(1, 4)},
    {A: presses(0, 9, 3), B: presses(0, 7, 5), C: presses(300, 8, 4), D: presses(511, 0, 6), E: presses(0, 5, 3), H: long_press(2, 6, 2000) + presses(2, 7, 3), I: presses(1, 0, 2)},
    {A: end(0) + session(0, 1) + presses(0, 0, 4), B: end(0) + close(), C: presses(300, 12, 2), D: presses(511, 6, 3),
     E: end(0) + presses(0, 8, 4), I: presses(1, 2, 4)},
    {A: presses(0, 4, 2) + end(0) + close(), C: presses(300, 14, 3), D: presses(511, 9, 5) + end(511) + close(),
     E: presses(0, 12, 2) + close(), I: presses(1, 6, 3) + end(1) + close()},
]


# ---- in which pieces it arrives

def numbers(seed):
    """A fixed sequence, so that the file is the same everywhere."""
    while True:
        seed = (seed * 1103515245 + 12345) % 2**31
        yield seed >> 16


def pieces(scene, chance):
    left = dict(scene)
    while left:
        pad = sorted(left)[next(chance) % len(left)]
        size = 1 + next(chance) % 40
        yield pad, left[pad][:size]
        left[pad] = left[pad][size:]
        if not left[pad]:
            del left[pad]


chance = numbers(1)
for scene in SCENES:
    for pad, data in pieces(scene, chance):
        sys.stdout.buffer.write(struct.pack('>BH', pad, len(data)) + data)
