#!/usr/bin/env python3
"""Makes crates/drive/stdin and stdout: document 01's stream M1 to M4 as a list of calls in the format of docs/HOST.md, and its answers; then the same put
again, refused bursts, and the stream in one burst; then deliveries with fill.

    python3 tests/make_drive.py
"""
import os

OUT = os.path.join(os.path.dirname(os.path.abspath(__file__)), '..', 'crates', 'drive')


def u(n, v):
    return v.to_bytes(n, 'big')


def wide(width, value):
    return u(1, width) + u(8, value)


entry = wide(1, 2) + u(8, 17) + u(8, 4) + bytes([0, 2, 3])            # packet maximum 17, segment maximum 4, modular, unacknowledged, limit 3
config = wide(1, 1) + bytes([4] * 16) + bytes([3, 1]) + entry + bytes(28 * 7)
put = b'\1' + config + wide(1, 2) + bytes([0, 0]) + u(8, 5) + b'\0\1a\0\1b'
step = b'\3\0' + u(4, 5) + u(4, 17)
file = b'ABCDE'


def burst(count, room):
    return b'\6\0' + u(1, count) + u(4, 5) + u(4, room)


def deliver(delivery):
    return b'\2' + u(4, len(delivery)) + delivery


def made(number):
    """What the steps of the stream make: the PDUs, each behind its length, and the events: transaction; none; none; EOF-sent and finished (no error, complete, unreported)."""
    n, ids = '%02X' % number, wide(1, 1) + wide(1, number)
    pdus = ['24000A0001' + n + '02070000000005016101' + '62', '3400080001' + n + '020000000041424344', '3400050001' + n + '020000000445',
            '24000A0001' + n + '02040086424344' + '00000005']
    events = [b'\1' + ids, b'\0', b'\0', b'\x0a' + ids + bytes([0, 0, 3])]
    return [u(2, len(b)) + b + event for b, event in zip(map(bytes.fromhex, pdus), events)] + [b'\0\0\0']


# five steps: the last, in Idle, emits nothing
calls = wide(1, 7) + put + step * 5
answers = b'\1\0' + b''.join(b'\3\0' + m for m in made(7))
# the number is now 8. A burst of 17 is too long, and one into 16 bytes is too small for the metadata; one of 16 into 61 bytes, which the four PDUs fill, makes five steps
calls += put + burst(17, 61) + burst(16, 16) + burst(16, 61)
answers += b'\1\0' + bytes([6, 32, 0]) + bytes([6, 31, 0]) + bytes([6, 0, 5]) + b''.join(made(8))
# Idle: a Finished of nine bytes, alone and with fill, is accepted; an ACK of ten, with it behind, is refused with 22; the fill, and the Finished a byte short, with 20
finished, ack, fill = bytes.fromhex('2C0002000107020502'), bytes.fromhex('28000300010702064001'), b'\x55' * 300
for delivery, refusal, length in ((finished, 0, 9), (finished + fill, 0, 9), (ack + finished + fill, 22, 10), (fill, 20, 0), (finished[:-1], 20, 0)):
    calls += deliver(delivery)
    answers += bytes([2, refusal]) + u(4, length)
answers += b'\xff\0'
open(os.path.join(OUT, 'stdin'), 'wb').write(u(4, len(file)) + file + calls)
open(os.path.join(OUT, 'stdout'), 'wb').write(answers)
