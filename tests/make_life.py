#!/usr/bin/env python3
"""Writes the script of crates/life: the calls of a pad that dials and a hub that listens, one a line. Frames are made here from Part 2's tables, and not by the code."""

lines = []


def title(text):
    lines.append("-- " + text)


def call(side, name, number=0, data="-"):
    lines.append(f"{side} {name} {number} {data.upper()}")


def frame(channel, body):
    return ((8 + len(body)).to_bytes(4, "big") + b"\x02\x00" + channel.to_bytes(2, "big") + body).hex()


# ---- bodies of sessions' frames

BEGIN = bytes.fromhex("005311c00704404352645264")
ATTACH_SENDER = bytes.fromhex("005312c0230a") + b"\xa1\x07presses" + bytes.fromhex("434240400053284500" "5329c00901") + b"\xa1\x06lane-3" + bytes.fromhex("404043")
ATTACH_RECEIVER = bytes.fromhex("005312c02007") + b"\xa1\x07presses" + bytes.fromhex("434140400053284500" "5329c00901") + b"\xa1\x06lane-3"
FLOW = bytes.fromhex("005313c011074370000008004370000008004343" "5232")
TRANSFER = bytes.fromhex("005314c008054343a00100" "4342" "0053775201")
LONG_TRANSFER = bytes.fromhex("005314c00905435201a00101" "4342" "005375b000001000") + bytes(4096)
DISPOSITION = bytes.fromhex("005315c00905414343410053" "2445")
DETACH = bytes.fromhex("005316c003024341")
DETACH_FORCED = bytes.fromhex("005316c02f0343410053" "1dc02702") + b"\xa3\x17amqp:link:detach-forced\xa1\x0blane closed"
END = bytes.fromhex("00531745")
END_WITH_ERROR = bytes.fromhex("005317c030010053" "1dc02a02") + b"\xa3\x1damqp:session:window-violation\xa1\x08too many"
BEGIN_WITHOUT_WINDOW = bytes.fromhex("005311c0060440434052" "64")
OPEN = bytes.fromhex("005310c00601") + b"\xa1\x03pad"
CLOSE = bytes.fromhex("00531845")


def begin_for(remote):
    return bytes.fromhex("005311c0110560") + remote.to_bytes(2, "big") + bytes.fromhex("43700000080070000008" "0052ff")


# ---- what goes between the ends

AMQP = "414d515000010000"
SASL = "414d515003010000"
MALFORMED = "414d515001010000"

OTHER = {"pad": "hub", "hub": "pad"}


def passes(side, name, number=0, data="-", spare=0, refused=False):
    """One end sends, and the other takes what it wrote."""
    call(side, name, number, data)
    if not refused:
        call(OTHER[side], "receive_frame", spare, "<")


def header(side):
    call(side, "send_header")
    call(OTHER[side], "receive_header", 0, "<")


def to_hub(channel, body, spare=0, refused=False):
    passes("pad", "send_session_frame", 0, frame(channel, body), spare, refused)


def to_pad(channel, body, refused=False):
    passes("hub", "send_session_frame", 0, frame(channel, body), 0, refused)


def session(channel, spare, back):
    to_hub(channel, BEGIN, spare)
    to_pad(back, begin_for(channel))


def both(name):
    call("pad", name)
    call("hub", name)


def made():
    call("pad", "dialler", 4096)
    call("hub", "listener", 16384)


def in_two(n):
    return n.to_bytes(2, "big").hex()


def allocated(side, handle, count):
    """So many sessions, of which the last is told of."""
    call(side, "allocate_sessions", handle, in_two(count))


# ---- the life

def opening():
    title("two ends that start; a max-frame-size under 512, and calls that come too early")
    call("pad", "dialler", 511)
    made()
    call("pad", "allocate_session", 10)
    call("pad", "send_open")
    call("pad", "tick")
    both("limits")
    title("headers; half of one, one too many, too little output, and a malformed one")
    call("hub", "receive_header", 0, AMQP[:8])
    header("pad")
    call("hub", "receive_header", 0, AMQP)
    call("hub", "send_header", 4096)
    call("pad", "receive_header", 0, MALFORMED)
    header("hub")
    title("opens")
    passes("pad", "send_open")
    call("pad", "allocate_session", 10)
    both("limits")
    passes("hub", "send_open")
    both("limits")


def sessions():
    title("a session that the hub starts: a dialler takes none")
    call("hub", "allocate_session", 90)
    to_pad(0, BEGIN)
    title("sessions that the pad starts, up to the agreed channel-max")
    for channel in range(3):
        call("pad", "allocate_session", 10 + channel)
        session(channel, 100 + channel, channel + 1)
    call("pad", "allocate_session", 13)
    call("pad", "allocate_session", 14)
    title("the hub has no channel left until it frees its own")
    to_hub(3, BEGIN, 103)
    call("hub", "deallocate_session", 0)
    session(3, 103, 0)
    both("channels")


def traffic():
    title("a link on the pad's session 1, and a transfer on its session 2")
    to_hub(1, ATTACH_SENDER)
    to_pad(2, ATTACH_RECEIVER)
    to_pad(2, FLOW)
    to_hub(1, TRANSFER)
    to_hub(2, TRANSFER)
    to_pad(2, DISPOSITION)
    to_hub(1, DETACH)
    to_pad(2, DETACH_FORCED)
    title("ticks while nothing else is sent")
    passes("pad", "tick")
    passes("hub", "tick")


def ends():
    title("two sessions end; a frame on a channel that is tied no more")
    to_hub(1, END)
    to_pad(2, END_WITH_ERROR)
    call("hub", "deallocate_session", 2)
    call("pad", "deallocate_session", 1)
    to_hub(3, END)
    to_pad(0, END)
    call("hub", "deallocate_session", 0)
    call("pad", "deallocate_session", 3)
    to_hub(1, TRANSFER)
    title("channels again, the latest freed first; one freed twice")
    call("pad", "allocate_session", 14)
    call("pad", "allocate_session", 15)
    call("pad", "allocate_session", 16)
    call("pad", "deallocate_session", 1)
    call("pad", "deallocate_session", 1)
    call("pad", "deallocate_session", 9)


def late():
    title("late frames: the pad frees channel 2, and the tie of the hub's channel 3 goes with it, for good")
    call("pad", "deallocate_session", 2)
    to_pad(3, begin_for(2))
    to_pad(3, TRANSFER)
    call("pad", "allocate_session", 17)
    session(2, 107, 0)
    to_pad(3, DISPOSITION)
    to_pad(0, FLOW)
    to_hub(2, TRANSFER)
    both("channels")


def same_handle():
    title("two channels of the pad with one handle: freeing one drops the tie through it, and not the other")
    call("pad", "allocate_session", 10)
    call("hub", "allocate_session", 109)
    to_pad(2, begin_for(1))
    both("channels")
    call("pad", "deallocate_session", 1)
    to_pad(2, FLOW)
    to_pad(1, FLOW)
    title("a tie that the hub's own Begin made goes with the channel that it was sent on")
    call("hub", "deallocate_session", 2)
    to_hub(1, TRANSFER)
    both("channels")


def refusals():
    title("frames that are not sent, and a long one that is")
    to_pad(1, LONG_TRANSFER, refused=True)
    to_hub(0, LONG_TRANSFER)
    to_hub(0, BEGIN_WITHOUT_WINDOW, refused=True)
    to_hub(0, OPEN, refused=True)
    to_pad(1, begin_for(8), refused=True)
    to_pad(5, begin_for(1), refused=True)
    title("frames that are not taken")
    to_pad(4, FLOW)
    call("hub", "receive_frame", 0, frame(0, BEGIN_WITHOUT_WINDOW))
    call("pad", "receive_frame", 0, "0000000702000000")
    call("pad", "receive_frame", 0, "0000100102000000")
    call("hub", "receive_frame", 0, "0000100102000000")
    call("pad", "receive_frame", 0, "0000001002000000")
    call("pad", "receive_frame", 0, "0000000802010000")
    both("channels")


def closing():
    title("the hub closes with an error, and takes a Close alone; the pad takes no frames of sessions")
    passes("hub", "send_close_with_error")
    call("hub", "allocate_session", 108)
    passes("hub", "tick")
    to_hub(0, END)
    call("pad", "receive_frame", 0, frame(1, END))
    to_pad(1, FLOW, refused=True)
    call("pad", "allocate_session", 18)
    call("pad", "send_open")
    title("the pad closes too")
    passes("pad", "send_close")
    call("hub", "receive_frame", 0, frame(0, CLOSE))
    both("tick")
    to_hub(0, TRANSFER, refused=True)
    call("pad", "allocate_session", 19)
    call("pad", "deallocate_session", 0)
    both("channels")


def other_lives():
    title("another life: a header of SASL comes")
    made()
    header("pad")
    call("pad", "receive_header", 0, SASL)
    call("pad", "tick")
    title("another life: the pad waits for no answer")
    made()
    header("pad")
    call("hub", "send_header")
    passes("pad", "send_open")
    call("pad", "receive_header", 0, AMQP)
    passes("pad", "tick")
    passes("pad", "send_close")
    passes("hub", "send_close")
    passes("pad", "send_close")
    title("another life: the hub's Open and the pad's Close cross")
    made()
    header("pad")
    header("hub")
    passes("pad", "send_open")
    call("hub", "send_open")
    call("pad", "send_close")
    call("pad", "receive_frame", 0, "<")
    call("hub", "receive_frame", 0, "<")
    call("pad", "tick")
    call("pad", "allocate_session", 20)
    passes("hub", "send_close")


# The tables of each end have 65,536 bytes, and a channel has 28 of them: there are places for 2,340.
MOST = 2339
LESS = 0x0900


def large_opening():
    title("another life, with large channels: tables of 2,340 places are too short for a channel-max above 2339")
    call("pad", "dialler", 4096, in_two(0xffff))
    call("hub", "listener", 16384, in_two(MOST + 1))
    call("hub", "listener", 16384, in_two(MOST))
    call("pad", "dialler", 4096, in_two(LESS))
    header("pad")
    header("hub")
    passes("pad", "send_open")
    passes("hub", "send_open")
    both("limits")


def large_sessions():
    title("sessions on channels above 255")
    allocated("hub", 1000, 0x0101)
    allocated("pad", 3000, 0x0235)
    session(0x0100, 2000, 0x0101)
    session(0x0234, 2001, 0x0102)
    to_hub(0x0100, TRANSFER)
    to_hub(0x0234, TRANSFER)
    to_pad(0x0101, FLOW)
    to_pad(0x0102, DISPOSITION)
    title("the hub's own channel-max is above the agreed one: it takes channels up to its own, and the pad up to the pad's")
    call("hub", "receive_frame", 2002, frame(MOST, BEGIN))
    call("hub", "receive_frame", 0, frame(MOST, TRANSFER))
    call("hub", "receive_frame", 0, frame(MOST - 1, TRANSFER))
    for channel in (MOST + 1, 0x1234, 0xffff):
        call("hub", "receive_frame", 2003, frame(channel, BEGIN))
    call("pad", "receive_frame", 0, frame(LESS, FLOW))
    call("pad", "receive_frame", 0, frame(LESS + 1, FLOW))
    title("Begins for channels that are not taken, and for one above the hub's channel-max")
    call("pad", "receive_frame", 0, frame(5, begin_for(LESS)))
    call("pad", "receive_frame", 0, frame(5, begin_for(0xffff)))
    to_pad(0x0101, begin_for(MOST + 1), refused=True)
    to_pad(0x0800, begin_for(1), refused=True)
    call("pad", "channels", 4, in_two(0x00ff))
    call("hub", "channels", 8, in_two(0x00fe))
    call("pad", "channels", 4, in_two(0x0232))
    call("hub", "channels", 4, in_two(0x0232))
    call("hub", "channels", 4, in_two(MOST - 2))


def large_ends():
    title("sessions on large channels end")
    to_hub(0x0100, END)
    to_pad(0x0101, END)
    to_hub(0x0100, TRANSFER)
    to_hub(0x0234, TRANSFER)
    call("hub", "receive_frame", 0, frame(MOST, END))
    call("hub", "receive_frame", 0, frame(MOST, END))
    title("large channels again, the latest freed first")
    for channel in (0x0101, 100, 0x0100):
        call("hub", "deallocate_session", channel)
    for channel in (0x0100, LESS, 0xffff):
        call("hub", "deallocate_session", channel)
    for handle in range(4000, 4004):
        call("hub", "allocate_session", handle)
    title("up to the agreed channel-max")
    allocated("hub", 5000, LESS + 1 - 0x0105)
    call("hub", "allocate_session", 4004)
    to_hub(0x0200, BEGIN, 2004)
    call("hub", "deallocate_session", LESS)
    to_hub(0x0200, BEGIN, 2004)
    to_pad(LESS, begin_for(0x0200))
    to_pad(LESS, TRANSFER)
    call("hub", "channels", 4, in_two(LESS - 2))
    call("pad", "channels", 4, in_two(LESS - 2))
    title("a large channel is freed while it is tied")
    call("pad", "deallocate_session", 0x0200)
    to_pad(LESS, TRANSFER)
    call("pad", "channels", 4, in_two(LESS - 2))
    title("another life: the pad's Open names no channel-max, which is 65535")
    call("hub", "listener", 16384, in_two(MOST))
    call("hub", "send_header")
    call("hub", "receive_header", 0, AMQP)
    call("hub", "receive_frame", 0, frame(0, OPEN))
    call("hub", "send_open")
    call("hub", "limits")
    allocated("hub", 1000, MOST + 1)
    call("hub", "allocate_session", 9000)


for part in (opening, sessions, traffic, ends, late, same_handle, refusals, closing, other_lives, large_opening, large_sessions, large_ends):
    part()
print("\n".join(lines))
