#!/usr/bin/env python3
"""Writes a recorded AMQP 1.0 conversation to standard output, as crates/conversation/stdin has it.

Both sides' headers and frames stand one after the other in the order in which they were sent. The frames are made here by hand from Parts 1 and 2 of the
standard; the last few are damaged on purpose.
"""
import struct
import sys


def header(ident=0, version=(1, 0, 0)):
    return b'AMQP' + bytes([ident, *version])


def frame(channel, body=b'', doff=2, kind=0):
    return struct.pack('>IBBH', 8 + len(body), doff, kind, channel) + body


def listed(fields):
    items = b''.join(fields)
    if not fields:
        return b'\x45'
    if len(items) < 255:
        return bytes([0xC0, len(items) + 1, len(fields)]) + items
    return b'\xD0' + struct.pack('>II', len(items) + 4, len(fields)) + items


def performative(code, *fields):
    return bytes([0, 0x53, code]) + listed(list(fields))


NULL = b'\x40'
TRUE, FALSE = b'\x41', b'\x42'


def uint(n):
    return b'\x43' if n == 0 else bytes([0x52, n]) if n < 256 else b'\x70' + struct.pack('>I', n)


def ushort(n):
    return b'\x60' + struct.pack('>H', n)


def ubyte(n):
    return bytes([0x50, n])


def string(text):
    return bytes([0xA1, len(text)]) + text.encode()


def symbol(text):
    return bytes([0xA3, len(text)]) + text.encode()


def binary(data):
    return bytes([0xA0, len(data)]) + data


def described(code, *fields):
    return bytes([0, 0x53, code]) + listed(list(fields))


def error(condition, description):
    return described(29, symbol(condition), string(description))


OPEN, BEGIN, ATTACH, FLOW, TRANSFER, DISPOSITION, DETACH, END, CLOSE = range(16, 25)

# a press of pad 3: its count, as a message with an AMQP value section
PRESS = described(0x77).replace(b'\x45', b'') + uint(1)

# who sent it (C the client, S the server), and what
conversation = [
    ('C', header()),
    ('S', header()),
    ('C', frame(0, performative(OPEN, string('pad-3'), string('hub'), uint(4096), ushort(7), uint(30000)))),
    ('S', frame(0, performative(OPEN, string('hub'), NULL, uint(16384), ushort(65535)))),
    ('C', frame(0, performative(BEGIN, NULL, uint(0), uint(100), uint(100)))),
    ('S', frame(40004, performative(BEGIN, ushort(0), uint(0), uint(2048), uint(2048), uint(255)))),
    ('C', frame(0, performative(ATTACH, string('presses'), uint(0), FALSE, NULL, NULL, described(0x28), described(0x29, string('lane-3')), NULL, NULL, uint(0)))),
    ('S', frame(40004, performative(ATTACH, string('presses'), uint(0), TRUE, NULL, NULL, described(0x28), described(0x29, string('lane-3'))))),
    ('S', frame(40004, performative(FLOW, uint(0), uint(2048), uint(0), uint(2048), uint(0), uint(0), uint(50)))),
    ('C', frame(0, performative(TRANSFER, uint(0), uint(0), binary(b'\x00'), uint(0), FALSE) + PRESS)),
    ('C', frame(0, performative(TRANSFER, uint(0), uint(1), binary(b'\x01'), uint(0), FALSE) + PRESS)),
    ('S', frame(40004, performative(DISPOSITION, TRUE, uint(0), uint(1), TRUE, described(0x24)))),
    ('S', frame(0)),
    ('C', frame(0, performative(BEGIN, NULL, uint(0), uint(100), uint(100)))),
    ('C', frame(0, performative(DETACH, uint(0), TRUE))),
    ('S', frame(40004, performative(DETACH, uint(0), TRUE, error('amqp:link:detach-forced', 'lane closed')))),
    ('C', frame(0, performative(END))),
    ('S', frame(40004, performative(END))),
    # damaged: an odd map as properties, a doff of 3, a field too many; among them an Attach on the highest channel, whose missing fields are not looked for
    ('C', frame(0, performative(BEGIN, NULL, uint(0), uint(1), uint(1), NULL, NULL, NULL, bytes([0xC1, 2, 1, 0x40])))),
    ('C', frame(0, b'\x00\x00\x00\x00', doff=3)),
    ('C', frame(65535, performative(ATTACH))),
    ('C', frame(0, performative(END, NULL, NULL))),
    ('C', header(3)),
    ('C', b'AMQP\x01\x01\x00\x00'),
    ('S', frame(0, performative(CLOSE, error('amqp:connection:framing-error', 'malformed frame')))),
    ('C', frame(0, performative(CLOSE))),
    # a length of 7 leaves the frame's end unknown
    ('C', bytes([0, 0, 0, 7, 2, 0, 0, 0])),
]

for _side, data in conversation:
    sys.stdout.buffer.write(data)
