#!/usr/bin/env python3
"""Writes expected.txt: what host.c and host.rs must print. The answers are the model's (tests/model.py), none is the handler's.

    python3 tests/seam/make_expected.py

The runs here are those of the hosts, call by call. The last lines say how many calls on memory that holds anything must return.
"""
import os, re, sys

HERE = os.path.dirname(os.path.abspath(__file__))
sys.path.insert(0, os.path.dirname(HERE))
import calls
from calls import Run, answer_line, answers, call_line
from model import CHECKSUMS, Config, Entry, Header, Request, be
from random_passes import is_eof

ROOM = 4608
FRAME = calls.ROOM = 65536      # the hosts' out buffer is longer than that of a list of calls
FILE = b'ABCDEFGHIJKLMNOPQRST' + b'abcdefghijklmnopqrst'        # a file, and behind it another
BIG = bytes((i * 7 + i // 256) % 256 for i in range(69400))
M = ['24000a0001070207000000000501610162', '3400080001070200000000' + b'ABCD'.hex(), '3400050001070200000004' + b'E'.hex(), '24000a0001070204008642434400000005']
lines = []


def short(digits):
    """A long PDU: its first sixteen bytes, its length, and a sum over all (FNV-1a)."""
    pdu, total = bytes.fromhex(digits.group(0)), 2166136261
    for b in pdu:
        total = (total ^ b) * 16777619 % 2 ** 32
    return '%s..%d:%08x' % (pdu[:16].hex(), len(pdu), total)


class Host:
    def __init__(self, label, number, size, file=FILE):
        self.run, self.size, self.rests = Run(label, number, file, []), size, set()
        self.entry = Entry((1, 2), packet=17, segment=4, limit=2)
        self.config = dict(local=(1, 1), actions=[1] * 16, entries=[self.entry])

    def call(self, *call):
        self.run.calls.append(call)

    def put(self, unack=None, closure=None, to=(1, 2), names=(b'a', b'b'), **entry):
        e = Entry(**{**self.entry.__dict__, **entry})
        entries = self.config['entries'][:-1] + [e]
        self.call('put', Config(**{**self.config, 'entries': entries}), Request(to, unack, closure), self.size, *names)

    def step(self, length, expired, room):
        self.call('step', expired, length, room)

    def steps(self, n, expired):
        for _ in range(n):
            self.step(self.size, expired, ROOM)

    def burst_in(self, length, expired, count, room):
        self.call('burst', expired, count, length, room)

    def burst(self, count, expired):
        self.burst_in(self.size, expired, count, FRAME)

    def directive(self, number, body):
        self.call('deliver', framed(number, body))

    def nak(self, number, *pairs):
        self.call('deliver', nak(number, *pairs))

    def first_of_frame(self, *parts):
        """Its first PDU; what stands behind it is fill."""
        self.call('deliver', b''.join(parts))

    def all_of_frame(self, pdus, rest):
        """The frame from each of the PDUs on, and then what is left, which must be Malformed."""
        for k in range(len(pdus) + 1):
            self.call('deliver', b''.join(pdus[k:]) + rest)
        self.rests.add(len(self.run.calls) - 1)

    def ack_of_eof(self, number):
        self.directive(number, b'\x06\x40\x01')

    def finished(self, number, values):
        self.directive(number, bytes([5, values]))

    def cancel(self, source, number):
        self.call('cancel', (1, source), (1, number))

    def lend(self, place):
        self.call('lend', place)

    def look(self):
        self.call('look')

    def sums(self):
        """The checksums of the EOFs that leave, in order."""
        given = answers(self.run)
        pdus = [pdu for a in given if a[0] in ('step', 'burst') for pdu in ([a[2]] if a[0] == 'step' else [p for p, _, _ in a[2]])]
        return [pdu[9:13] for pdu in pdus if is_eof(pdu)]

    def done(self):
        lines.append('== ' + self.run.label)
        for k, (call, answer) in enumerate(zip(self.run.calls, answers(self.run))):
            line = call_line(call) if call[0] == 'lend' else answer_line(answer)
            if k in self.rests:
                assert line == 'deliver 20 0', line
                line = 'rest %d' % len(call[1])
            lines.append(re.sub(r'\b[0-9a-f]{129,}\b', short, line))


def framed(number, body):
    return Header((1, 1), (1, number), (1, 2), to_sender=True).to_bytes(body)


def ack(number):
    return framed(number, b'\x06\x40\x01')


def nak(number, *pairs):
    return framed(number, b'\x08' + bytes(8) + b''.join(be(4, v) for pair in pairs for v in pair))


def byte_cases():
    h = Host('M1 to M4', (1, 7), 5)
    h.put(True, False)
    h.steps(5, 0)
    h.done()
    assert [line.split()[2] for line in lines[2:]] == M + ['-'], lines


def acknowledged():
    h = Host('acknowledged, with repairs longer than L', (1, 7), 20)
    h.put(False)
    h.steps(3, 0)
    h.nak(7, (0, 7), (0, 0), (3, 3), (1, 8))
    h.steps(6, 1)
    h.nak(7, (0, 12))
    h.steps(6, 0)
    h.steps(1, 1)
    h.nak(7, (0, 20), (19, 20))
    h.ack_of_eof(7)
    h.steps(7, 1)
    h.finished(7, 0x02)
    h.steps(2, 0)
    h.done()


def refusals():
    h = Host('every refusal', (1, 7), 5)
    h.put(False, False, to=(3, 2))
    h.put(False, False, to=(1, 3))
    h.config['actions'] = [1, 1, 1, 2] + [1] * 12
    h.put(False, False)
    h.config['actions'] = [1] * 16
    h.put(False, False, names=(b'', b'b'))
    h.put(False, False, names=(b'\xc0\x80', b'b'))
    h.put(False, False, names=(b'a', b'\xed\xa0\x80'))
    h.put(False, False, packet=16)
    h.put(False, False)
    h.put(False, False)
    h.step(4, 0, ROOM)
    h.step(5, 0, 16)
    h.step(5, 0, 17)
    h.steps(1, 0)
    h.call('deliver', b'')
    h.directive(7, b'\x06\x40')
    h.directive(7, b'\x04\x00')
    h.ack_of_eof(8)
    h.ack_of_eof(7)
    h.nak(7, (0, 4), (0, 5))
    h.nak(7, *[(0, 0)] * 65)
    h.nak(7, *[(0, 0)] * 64)
    h.nak(7, (0, 0))
    h.steps(1, 0)
    h.nak(7, (0, 0))
    h.step(6, 1, ROOM)
    h.step(5, 1, 3)
    numbers = {a[1] for a in answers(h.run)}
    assert numbers >= set(range(1, 9)) | set(range(20, 26)) | {30, 31}, numbers
    h.done()


def fills():
    h = Host('fill behind deliveries, and what looks like more of the PDU', (1, 7), 5)
    finished = framed(7, b'\5\2')
    h.first_of_frame(ack(7), b'\x55')
    h.put(False)
    h.steps(3, 0)
    h.first_of_frame(nak(7, (0, 4), (0, 0)), bytes(8))
    h.steps(3, 0)
    h.first_of_frame(nak(7, (0, 5)), bytes(300))
    h.steps(3, 0)
    h.first_of_frame(framed(7, b'\6\x40'), b'\1')
    h.first_of_frame(framed(7, b'\4\0'), b'\x55' * 300)
    h.first_of_frame(ack(8), b'\x55' * 3)
    h.first_of_frame(finished, b'\x55' * 3)
    h.first_of_frame(nak(7, (0, 6)), b'\x55' * 3)
    for n in range(10):
        h.first_of_frame(ack(7)[:n])
    h.first_of_frame(ack(7), b'\x55' * 2)
    h.first_of_frame(finished, b'\6')
    h.steps(2, 0)
    long = b'\x38\xff\xff\x77' + b'\1' * 69996
    for n in (65563, 65562, 70000):
        h.first_of_frame(long[:n])
    assert [a[1:] for a in answers(h.run) if a[0] == 'deliver'] == [(22, 10), (0, 32), (0, 24), (20, 0), (21, 9), (23, 10), (22, 9), (24, 24)] + [(20, 0)] * 10 + [
        (0, 10), (0, 9), (21, 65563), (20, 0), (21, 65563)]
    h.done()


def frames():
    h = Host('frames: several PDUs, fill behind, refused ones between, a damaged one', (1, 7), 5)
    finished, keep_alive = framed(7, b'\5\2'), framed(7, b'\x0c' + bytes(4))
    h.all_of_frame([], b'\x55' * 5)
    h.all_of_frame([], b'')
    h.put(False)
    h.steps(4, 0)
    h.all_of_frame([nak(7, (0, 5)), ack(7)], b'\x55' * 5)
    h.steps(3, 0)
    h.all_of_frame([], bytes(300))
    h.all_of_frame([ack(7), nak(7, (0, 0)), ack(8), nak(7, (0, 6)), framed(7, b'\4'), keep_alive], b'')
    h.steps(2, 0)
    h.all_of_frame([keep_alive], b'\x68' + ack(7)[1:] + finished)
    h.steps(1, 0)
    h.all_of_frame([finished, ack(7)], b'\xff' * 9)
    h.steps(2, 0)
    assert [a[1:] for a in answers(h.run) if a[0] == 'deliver' and a[1] != 20] == [(0, 24), (0, 10), (22, 10), (0, 24), (23, 10), (24, 24), (21, 8), (0, 12), (0, 12), (0, 9), (22, 10)]
    h.done()


def cancels():
    h = Host('cancel, reset, second put', (1, 255), 5)
    h.cancel(1, 255)
    h.put(False, False)
    h.steps(2, 0)
    h.cancel(1, 7)
    h.cancel(2, 255)
    h.cancel(1, 255)
    h.cancel(1, 255)
    h.nak(255, (0, 4))
    h.steps(1, 0)
    h.ack_of_eof(255)
    h.finished(255, 0xF5)
    h.cancel(1, 255)
    h.steps(2, 0)
    h.put(True, False)
    h.steps(2, 0)
    h.call('reset')
    h.steps(1, 0)
    h.put(True, True)
    h.steps(5, 0)
    h.steps(2, 1)
    h.done()


def wide():
    h = Host('wide numbers, CRCs, faults', (8, 2 ** 64 - 1), 20)
    to, names = (4, 0x89ABCDEF), ('é'.encode(), '😀'.encode())
    h.entry = Entry((8, to[1]), packet=4096, segment=7, checksum=2, crc=True, limit=1)
    h.config.update(local=(2, 0x1234), count=9, actions=[1, 3] + [1] * 14, entries=[Entry((1, 2), 17, 4)] + [Entry((0, 0), 0, 0)] * 6 + [h.entry])
    h.put(to=to, names=names)
    h.steps(5, 0)
    h.steps(2, 1)
    h.call('reset')
    h.config['actions'] = [1] * 16
    h.put(to=to, names=names, checksum=3)
    h.steps(5, 0)
    h.steps(2, 1)
    h.put(to=to, names=names, checksum=3)
    pdu = Header((4, 0x1234), (8, 1), to, crc=True, to_sender=True).to_bytes(b'\x0c' + bytes(4))
    assert pdu.hex() == KEEP_ALIVE, pdu.hex()
    h.call('deliver', pdu)
    h.first_of_frame(pdu, pdu[-2:])
    h.steps(1, 255)
    h.done()


def bursts():
    h = Host('M1 to M4 in one burst', (1, 7), 5)
    h.put(True, False)
    h.burst(16, 0)
    h.burst(16, 0)
    assert [pdu.hex() for pdu, _, _ in answers(h.run)[1][2]] == M + [''] and [len(p) // 2 for p in M] == [17, 15, 12, 17]
    h.done()
    h = Host('M1 to M4 in a buffer of 60 bytes', (1, 7), 5)
    h.put(True, False)
    h.burst_in(5, 0, 16, 60)
    h.burst_in(5, 0, 16, 60)
    assert [[pdu.hex() for pdu, _, _ in a[2]] for a in answers(h.run)[1:3]] == [M[:3], M[3:] + ['']]
    h.done()


def short_bursts():
    h = Host('bursts that are refused, bursts that end early', (1, 7), 5)
    h.burst(17, 0)
    h.burst(2 ** 64 - 1, 1)
    h.burst_in(0, 0, 17, 0)
    h.burst(0, 0)
    h.burst_in(4, 1, 16, 0)
    h.put(False)
    h.burst(17, 0)
    h.burst_in(4, 1, 17, 0)
    h.burst_in(4, 1, 0, 0)
    h.burst_in(4, 0, 16, ROOM)
    h.burst_in(5, 0, 16, 16)
    h.burst_in(5, 0, 1, 0)
    h.burst_in(5, 0, 16, 17)
    h.burst_in(4, 1, 0, ROOM)
    h.burst_in(5, 0, 16, 26)
    h.nak(7, (0, 4), (0, 0), (1, 4))
    h.burst(2, 1)
    h.burst_in(5, 0, 16, 13)
    h.burst(3, 0)
    h.burst_in(5, 1, 16, 16)
    h.burst_in(5, 1, 16, 17)
    assert [a[1] for a in answers(h.run) if a[0] == 'burst'] == [32, 32, 32, 0, 0, 32, 32, 0, 30, 31, 31, 0, 0, 0, 0, 31, 0, 31, 0]
    h.done()


def bursts_with_expiry():
    h = Host("the expiry of a burst is its first step's", (1, 7), 5)
    h.put(False)
    h.burst(3, 1)
    h.burst(16, 1)
    h.burst(16, 1)
    h.nak(7, (0, 5))
    h.burst(16, 1)
    h.burst(16, 0)
    h.burst(16, 1)
    h.burst(1, 1)
    h.burst(16, 1)
    h.put(False)
    h.burst(16, 0)
    h.nak(8, (0, 5), (0, 0))
    h.ack_of_eof(8)
    h.burst(2, 0)
    h.finished(8, 0x02)
    h.burst(16, 0)
    h.burst(0, 0)
    h.put(True, True)
    h.burst(4, 0)
    h.cancel(1, 9)
    h.burst(1, 1)
    h.burst(16, 1)
    h.done()


def long_bursts():
    h = Host('sixteen data PDUs of 4,096 bytes in 65,536 bytes', (1, 7), 65400, BIG)
    h.entry = Entry((1, 2), packet=4096, segment=4096, checksum=3, limit=2)
    h.config['entries'] = [h.entry]
    h.put(False)
    h.burst(1, 0)
    h.burst(16, 0)
    h.burst(16, 0)
    h.nak(7, (40, 65400))
    h.burst_in(h.size, 1, 16, FRAME - 1)
    h.burst(16, 1)
    h.burst(16, 1)
    assert [[len(pdu) for pdu, _, _ in a[2]] for a in answers(h.run) if a[0] == 'burst'] == [[17], [4096] * 16, [51, 17, 0], [4096] * 15, [4096, 0], [17, 0]]
    h.done()
    h = Host('the same, another file lent for some', (1, 7), 65400, BIG)
    h.entry = Entry((1, 2), packet=4096, segment=4096, checksum=2, limit=2)
    h.config['entries'] = [h.entry]
    h.put(False)
    h.burst(8, 0)
    h.lend(3999)
    h.burst(5, 0)
    h.look()
    h.nak(7, (40, 49000))
    h.burst(14, 0)
    h.look()
    h.lend(0)
    h.burst(1, 0)
    h.lend(3999)
    h.burst(16, 0)
    h.look()
    h.lend(0)
    h.burst(16, 1)
    L, other = 4085, BIG[3999:]
    left = BIG[:7 * L] + other[7 * L:14 * L] + BIG[14 * L:15 * L] + other[15 * L:65400]
    assert h.sums() == [be(4, CHECKSUMS[2](left))] * 2
    h.done()


# ---- another file of the same length

def changed_files():
    h = Host("D28 of docs/DIFFERENCES.md: an EOF, a cancel's, a fault's", (1, 7), 5)
    h.put(True, False)
    h.steps(2, 0)
    h.lend(20)
    h.steps(2, 0)
    h.lend(0)
    h.put(True, False, checksum=3)
    h.steps(2, 0)
    h.cancel(1, 8)
    h.lend(20)
    h.steps(2, 0)
    h.lend(0)
    h.put(False, False)
    h.steps(4, 0)
    h.lend(20)
    h.steps(2, 1)
    assert [sum.hex() for sum in h.sums()] == ['a6424344', 'db1720a5', '86424344', '86424344', '86424344']
    h.done()


def changed_with(label, checksum):
    h = Host(label, (1, 7), 10)
    h.entry = Entry((1, 2), packet=17, segment=3, checksum=checksum, limit=2)
    h.config['entries'] = [h.entry]
    h.look()
    h.put(False)
    h.look()
    h.steps(2, 0)
    h.look()
    h.lend(20)
    h.steps(1, 0)
    h.look()
    h.nak(7, (0, 5), (0, 0))
    h.look()
    h.step(9, 0, ROOM)
    h.step(10, 0, 3)
    h.look()
    h.steps(2, 0)
    h.look()
    h.burst(2, 0)
    h.look()
    h.lend(0)
    h.step(10, 0, 3)
    h.look()
    h.lend(20)
    h.burst(1, 0)
    h.look()
    h.lend(0)
    h.steps(1, 0)
    h.look()
    h.lend(20)
    h.steps(1, 1)
    h.lend(0)
    h.steps(1, 1)
    h.look()
    h.lend(20)
    h.steps(1, 1)
    h.ack_of_eof(7)
    h.finished(7, 0x12)
    h.look()
    h.steps(1, 0)
    h.look()
    h.put(False)
    h.look()
    h.burst(3, 0)
    h.look()
    h.lend(0)
    h.cancel(1, 8)
    h.look()
    h.steps(1, 0)
    h.lend(20)
    h.burst(16, 1)
    h.look()
    h.steps(1, 1)
    h.look()
    h.lend(0)
    h.put(False)
    h.burst(2, 0)
    h.call('reset')
    h.look()
    h.lend(20)
    h.put(True, True)
    h.look()
    h.burst(3, 0)
    h.lend(0)
    h.burst(16, 0)
    h.look()
    h.lend(20)
    h.steps(1, 1)
    h.look()
    first, second, third = b'ABCdefghij', b'abcdef', b'abcdefGHIJ'
    assert h.sums() == [be(4, CHECKSUMS[checksum](left)) for left in [first] * 4 + [second] * 2 + [third] * 2]
    left = [first[:n] for n in (0, 0, 3, 6, 6, 6, 6, 9, 9, 10, 10, 10, 10, 0)] + [second[:n] for n in (0, 6, 6, 6, 0, 0, 0)] + [third, b'']
    assert [a[1:] for a in answers(h.run) if a[0] == 'look'] == [(len(bytes), CHECKSUMS[checksum](bytes)) for bytes in left]
    h.done()


KEEP_ALIVE = '2a00073700001234000000000000000189abcdef0c00000000aab6'     # as the hosts have it

if __name__ == '__main__':
    for run in byte_cases, acknowledged, refusals, fills, frames, cancels, wide, bursts, short_bursts, bursts_with_expiry, long_bursts, changed_files:
        run()
    for name, checksum in (('modular', 0), ('CRC-32C', 2), ('CRC-32', 3), ('no checksum', 15)):
        changed_with('another file of the same length, ' + name, checksum)
    for label, rounds in (('every byte 255', 4), ('random', 200), ('random, near a state', 1000)):
        lines.append('garbage, %s: %d of %d calls returned as they must' % (label, 14 * rounds, 14 * rounds))
    lines.append('one by one: 8000 of 8000 bursts as their steps')
    with open(os.path.join(HERE, 'expected.txt'), 'w') as f:
        f.write('\n'.join(lines) + '\n')
