#!/usr/bin/env python3
"""Makes the calls that the program `passes` runs on the whole handler, crates/passes/stdin, and what it must print, crates/passes/stdout.

    python3 tests/make_passes.py

The answers are the model's (tests/model.py), none is the handler's; `want` in a scripted run is the answer by hand, and the model is held to it.
"""
import copy, os, random
from calls import Run, answer_line, answers, list_bytes
from model import CLOSING, DATA, EOF, EOF_ACK, FINISHED, IDLE, METADATA, Config, Entry, Handler, Header, Request, be
from random_passes import random_run, with_changes
from stream import LIMIT, run_bytes

OUT = os.path.join(os.path.dirname(os.path.abspath(__file__)), '..', 'crates', 'passes')
FILE = b'ABCDE'
MAX = 4608
runs = []


class Pass:
    """A run being written, with the model beside it. The default put is document 01's byte cases, acknowledged. `other` is another file of the same length."""

    def __init__(self, label, number=(1, 7), file=FILE, other=b'', **entry):
        self.model, self.file, self.number, self.run = Handler(number), file, number, Run(label, number, file + other, [])
        self.place = 0
        self.entry = dict(packet=17, segment=4, limit=2)
        self.entry.update(entry)
        runs.append(self.run)

    def call(self, want, *call):
        self.run.calls.append(call)
        got = getattr(self.model, call[0])(*call[1:])
        if want is not None:
            assert got == want, (self.run.label, len(self.run.calls), call, got, want)
        return self

    def at(self, step):
        assert self.model.at == step, (self.run.label, len(self.run.calls), self.model.at, step)
        return self

    def put(self, want=0, S=None, names=(b'a', b'b'), to=(1, 2), unack=None, closure=None, local=(1, 1), actions=None, flags=(True, True),
            entries=None, count=None, **entry):
        if entries is None:
            entries = [Entry(**{**self.entry, 'id': to, **entry})]
        config = Config(local, actions, flags[0], flags[1], entries, count)
        self.before = self.model.number
        return self.call(want, 'put', config, Request(to, unack, closure), len(self.file) if S is None else S, *names)

    def deliver(self, want, pdu, fill=b'', own=None):
        """A PDU and what stands behind it; `own`, by hand, is how many bytes are the PDU's: all of `pdu`, and 0 where it is 20, if not said."""
        return self.call((want, (0 if want == 20 else len(pdu)) if own is None else own), 'deliver', pdu + fill)

    def cuts(self, pdu):
        """Cut in each place it is 20, and the number 0."""
        for n in range(len(pdu)):
            self.deliver(20, pdu[:n])
        return self

    def header(self, **other):
        if self.model.at == IDLE:
            h = Header(to_sender=True)
        else:
            h = copy.copy(self.model.t.header)
            h.to_sender = True
        h.__dict__.update(other)
        return h

    def body(self, want, body, file_data=False, fill=b'', **header):
        return self.deliver(want, self.header(**header).to_bytes(body, file_data), fill)

    def nak(self, *pairs, want=0, fill=b'', **header):
        F = self.header(**header).F
        return self.body(want, b'\x08' + be(F, 0) + be(F, 99) + b''.join(be(F, a) + be(F, b) for a, b in pairs), fill=fill, **header)

    def ack(self, want=0, condition=0, **header):
        return self.body(want, b'\x06\x40' + be(1, condition << 4 | 1), **header)

    def finished(self, want=0, condition=0, delivery=0, status=2, tlvs=b'', **header):
        return self.body(want, b'\x05' + be(1, condition << 4 | delivery << 2 | status) + tlvs, **header)

    def keep(self, want=0, fill=b'', **header):
        return self.body(want, b'\x0c' + be(self.header(**header).F, 1), fill=fill, **header)

    def each(self, nak, ack, finished):
        """The four kinds in a step where none of them moves it."""
        return self.keep().nak((0, 1), want=nak).ack(ack).finished(finished)

    def step(self, n=1, want=0, expired=0, lent=None, room=MAX, pdu=None, last=None):
        """n steps; `pdu` in hex, and `last` the names of the last one's events, by hand."""
        for _ in range(n):
            lent = len(self.file) if lent is None else lent
            call = ('step', expired, lent, room)
            self.run.calls.append(call)
            refusal, got, events = self.model.step(bool(expired), self.lent(lent), room)
            assert refusal == want, (self.run.label, len(self.run.calls), refusal, want)
        if pdu is not None:
            assert got.hex(' ').upper() == pdu, (self.run.label, got.hex(' ').upper(), pdu)
        if last is not None:
            assert ' '.join(e[0] for e in events) == last, (self.run.label, events, last)
        return self

    def burst(self, count, lengths=(), want=0, told=None, pdus=None, expired=0, lent=None, room=MAX):
        """One burst, by hand: the steps' lengths, the names of their events, and their PDUs in hex."""
        lent = len(self.file) if lent is None else lent
        self.run.calls.append(('burst', expired, count, lent, room))
        refusal, made = self.model.burst(bool(expired), count, self.lent(lent), room)
        got = refusal, [len(pdu) for pdu, _, _ in made]
        assert got == (want, list(lengths)), (self.run.label, len(self.run.calls), got, want, lengths)
        if told is not None:
            names = [' '.join(e[0] for e in events) for _, events, _ in made]
            assert names == told, (self.run.label, names, told)
        if pdus is not None:
            assert [pdu.hex(' ').upper() for pdu, _, _ in made] == pdus, (self.run.label, made, pdus)
        return self

    def exact(self, **other):
        """The step that is due, refused for an out buffer one byte short, then made in one that it fills."""
        due = copy.deepcopy(self.model).step(bool(other.get('expired')), self.lent(len(self.file)), MAX)[1]
        assert due
        return self.step(want=31, room=len(due) - 1, **other).step(room=len(due), **other)

    def cancel(self, want=True, source=None, number=None):
        t = self.model.t
        source = source or ((t.header.width, t.header.source) if t else (1, 1))
        number = number or (t.header.number if t else (1, 7))
        return self.call(want, 'cancel', source, number)

    def reset(self):
        return self.call(None, 'reset')

    def lent(self, n):
        return self.run.file[self.place:self.place + n]

    def lend(self, other):
        """From here on the other file, or the file."""
        self.place = len(self.file) * other
        self.run.calls.append(('lend', self.place))
        return self

    def raw(self, data):
        self.run.calls.append(('raw', data))
        return self

    def to(self, step):
        """Accepted calls until a step is reached, in acknowledged mode or unacknowledged with closure."""
        order = [METADATA, DATA, EOF, EOF_ACK, FINISHED, CLOSING]
        while self.model.at != step:
            if self.model.at == EOF_ACK:
                self.ack()
            elif self.model.at == FINISHED:
                self.finished()
            else:
                assert self.model.at in order
                self.step()
        return self


# ---- M1 to M12

p = Pass('M1 to M4: the whole stream, four steps', unack=True).put()
p.step(pdu='24 00 0A 00 01 07 02 07 00 00 00 00 05 01 61 01 62', last='transaction')
p.step(pdu='34 00 08 00 01 07 02 00 00 00 00 41 42 43 44', last='')
p.step(pdu='34 00 05 00 01 07 02 00 00 00 04 45')
p.step(pdu='24 00 0A 00 01 07 02 04 00 86 42 43 44 00 00 00 05', last='eof-sent finished').at(IDLE).step(pdu='')
p = Pass('M5: packet maximum 16', unack=True).put(8, packet=16).put(packet=17)
p = Pass('M6: S = 0, EOF at step 2', file=b'', unack=True).put().step().at(EOF)
p.step(pdu='24 00 0A 00 01 07 02 04 00 00 00 00 00 00 00 00 00').at(IDLE)
p = Pass('M7: sizes 2^32 - 1 and 2^32')
p.put(S=2 ** 32 - 1).step(want=30).reset().put(8, S=2 ** 32).put(8, S=2 ** 32, packet=20).put(S=2 ** 32, packet=21).step(want=30).cancel().step(want=30)
p.reset().put(S=2 ** 64 - 1, packet=21).nak((0, 0), want=22, large=False).keep(large=True)
p = Pass('M8 to M10: acknowledged, a NAK owes two, then 4 and 1, and the ACK of Finished').put().step(3).at(EOF)
p.nak((0, 4), (0, 0)).step(pdu='30 00 08 00 01 07 02 00 00 00 00 41 42 43 44', last='')
p.step(pdu='20 00 0A 00 01 07 02 07 00 00 00 00 05 01 61 01 62', last='').step(last='eof-sent ack-timer').at(EOF_ACK)
p.nak((0, 5)).step(pdu='30 00 08 00 01 07 02 00 00 00 00 41 42 43 44').step(pdu='30 00 05 00 01 07 02 00 00 00 04 45').step(pdu='')
p.ack().finished().step(pdu='20 00 03 00 01 07 02 06 51 01', last='finished').at(IDLE)
p = Pass('M11: limit 1 faults at first expiry', limit=1).put().to(EOF_ACK).step(expired=1, last='eof-sent fault ack-timer')
p = Pass('M12: names C0 80 and ED A0 80')
p.put(6, names=(b'\xc0\x80', b'b')).put(6, names=(b'\xed\xa0\x80', b'b')).put(7, names=(b'a', b'\xc0\x80')).put(7, names=(b'a', b'\xed\xa0\x80'))


# ---- refusals in their order, two causes at once

p = Pass('put, AlreadyBusy to PacketLimit, each with a later cause', packet=40).put()
p.put(1, local=(3, 1)).step().put(1, names=(b'', b'b')).cancel().put(1).reset()
other = [Entry((1, 3), 4096, 4, 0)]
for local, to in [((3, 1), (1, 2)), ((1, 256), (1, 2)), ((1, 300), (1, 2)), ((0, 0), (1, 2)), ((1, 1), (5, 2)), ((1, 1), (2, 65536)), ((8, 1), (1, 256))]:
    p.put(2, local=local, to=to, entries=other)
p.put(3, entries=other, actions=[2] * 16).put(3, entries=[], names=(b'', b'')).put(3, entries=[Entry((1, 2), 40, 4)], count=0)
p.put(4, packet=4097, names=(b'', b'b')).put(4, packet=2 ** 64 - 1).put(4, segment=0, names=(b'\xff', b'b')).put(0, segment=2 ** 64 - 1).reset()
for kind in (1, 4, 14, 16, 255):
    p.put(4, checksum=kind, packet=0)
for condition, action in [(0, 0), (1, 2), (9, 5), (10, 255), (15, 2)]:
    p.put(4, actions=[action if c == condition else (1, 3, 4)[c % 3] for c in range(16)])
p.put(0, actions=[(4, 1, 3)[c % 3] for c in range(16)]).reset()
p.put(5, names=(b'', b'\xff')).put(5, names=(b'\xff', b'')).put(5, names=(b'\xff' * 256, b'b')).put(5, names=(b'a', b'b' * 256), packet=0)
p.put(6, names=(b'\x80', b'\xff')).put(6, names=(b'\xf4\x90\x80\x80', b'b'), packet=0).put(7, names=(b'a', b'b\xe2\x82'), packet=0)
p.put(8, packet=0).put(8, packet=16).put(0, packet=17).reset().put(8, names=(b'a\0', b'\xef\xbf\xbe'), packet=19).put(0, names=(b'a\0', b'\xef\xbf\xbe'), packet=20)
p.step()
p = Pass('put, handler made with width 3', number=(3, 7)).put(2).put(2, entries=[]).step().finished().nak(want=22)
p = Pass('put, handler made with a number that does not fit', number=(1, 256)).put(2).cancel(False, number=(1, 256))
p = Pass('put, names of 255 bytes, packet limit 526 and CRC', crc=True)
p.put(8, names=(b'x' * 255, b'y' * 255), packet=526).put(0, names=(b'x' * 255, b'y' * 255), packet=527, segment=10 ** 6).step(2).at(EOF).nak((0, 0)).step(2)

p = Pass('deliver, Malformed to RetransmitFull, each with a later cause').put()
good = p.header()
ack, finished = b'\x06\x40\x01', b'\x05\x02'
p.deliver(20, b'').deliver(20, b'\x28').deliver(20, b'\x28\0\0\0').deliver(20, good.to_bytes(b'')).deliver(20, good.to_bytes(ack, version=0))
p.deliver(20, good.to_bytes(ack, length=4)).deliver(20, good.to_bytes(ack, length=2)).deliver(22, good.to_bytes(ack), b'\0')
p.body(20, ack + b'\0', source=9).body(20, b'\x06\x40', to_sender=False).body(20, b'\x06\x41\1').body(20, b'\x06\x50\1').body(20, b'\x06\xc0\1')
p.body(20, b'\x06\x40\xc1').body(20, b'\x06\x51\xd1').body(20, b'\x05').body(20, b'\x05\xc2').body(20, b'\x05\2\1').body(20, b'\x05\2\2\0').body(20, b'\x05\2\6\2a')
p.body(20, b'\x05\xd2').body(20, b'\x06\x40\xd1').deliver(20, good.to_bytes(ack, version=2)).deliver(20, good.to_bytes(ack, version=7))
for widths in (b'\x20', b'\x02', b'\x43', b'\x76'):
    bad = b'\x28\0\3' + widths + b'\1' * (3 + 2 * (widths[0] >> 4) + widths[0] % 16) + ack
    p.deliver(20, bad)
p.body(20, b'\x08' + bytes(7)).body(20, b'\x08' + bytes(12)).body(20, b'\x0c' + bytes(3)).body(20, b'\x0c' + bytes(5)).body(20, b'\x0a').body(20, b'\0').body(20, b'\xff')
crc = p.header(crc=True).to_bytes(ack)
p.deliver(22, crc).deliver(20, crc[:-1] + bytes([crc[-1] ^ 1])).deliver(20, crc[:-2] + b'\0\0').deliver(20, bytes([crc[0] ^ 8]) + crc[1:])
p.deliver(20, b'\x2a\0\0\0\1\7\2').deliver(20, b'\x2a\0\1\0\1\7\2\6')
p.body(21, b'\4').body(21, b'\7').body(21, b'\x09\0', source=9).body(21, b'', file_data=True).body(21, b'\0\0\0\0abc', file_data=True, to_sender=False)
p.body(21, b'\x06\x51\1', number=(1, 8)).body(21, ack, to_sender=False, destination=3).body(21, b'\4', to_sender=False)
p.nak((9, 1), want=23, source=9).nak((9, 1), want=23, number=(1, 8)).nak((9, 1), want=23, destination=3).ack(23, source=9).finished(23, destination=1).keep(23, number=(1, 6))
p.finished(22, condition=14, tlvs=b'\x01\x02\x06\x06\x06\x00').finished(22, tlvs=b'\x06\x00')
p.nak((9, 1), want=22).step(2).at(DATA).nak((4, 3), want=24).nak((0, 5), want=24).nak((0, 1), (5, 5), want=24).nak((2, 2), (4, 4), (0, 0), (0, 4))
p.nak((9, 9), want=24).nak((2 ** 32 - 1, 2 ** 32 - 1), want=24).nak((0, 2 ** 40), want=24, large=True)
p.nak(*[(0, 1)] * 63, want=25).nak(*[(0, 1)] * 62 + [(1, 1), (3, 3)]).nak((0, 0), want=25).nak((1, 1), (4, 4)).nak(*[(0, 1)] * 65 + [(3, 2)], want=24)
p.step().nak((0, 1)).nak((0, 1), want=25).step(64).at(DATA).step().at(EOF).step(last='eof-sent ack-timer')

p = Pass('64 requests are taken, 65 are not; a partly served one keeps its place').put().step(3)
p.nak(*[(k % 5, 5) for k in range(65)], want=25).nak(*[(k % 5, 5) for k in range(64)] + [(2, 2)]).nak((0, 0), want=25).step().nak((0, 0), want=25).step().nak((0, 0))
p.nak((0, 0), want=25).step(3).nak((0, 0), (1, 1), (0, 5)).step(40)

p = Pass('a delivery has its own H, F and C', unack=False).put().step(3)
p.nak((0, 4), want=0, large=True, crc=True, width=8, number=(4, 7)).nak((0, 0), width=2, unack=True).step(2).step().at(EOF_ACK)
p.ack(condition=15, width=4, number=(8, 7), crc=True).finished(condition=4, delivery=1, status=3, tlvs=b'\x06\x01\x09\x01\x00\x06\x02ab', width=2)
p.step(pdu='20 00 03 00 01 07 02 06 51 41')
p = Pass('spare bits, segmentation control and segment metadata flag are not judged').put().to(EOF_ACK)
h = p.header().to_bytes(b'\x06\x40\x0e')
p.deliver(0, h[:3] + b'\x88' + h[4:]).at(FINISHED)
h = p.header(unack=True).to_bytes(b'\x05\x0b')
p.deliver(0, h[:3] + b'\x88' + h[4:]).at(CLOSING).step()

p = Pass('step, FileChanged and OutTooSmall').step(want=0, lent=0).put().step(want=30, lent=4, room=0).step(want=31, room=16)
p.step(room=17).step(want=30, lent=0).exact().exact().exact().at(EOF_ACK).step(room=0).step(want=30, lent=4).exact(expired=1)
p.ack().step(room=0).step(want=30, lent=4).nak((0, 5), (0, 0)).exact().exact().exact().finished().step(want=30, lent=4, room=0).exact().at(IDLE)
p.step(lent=0, room=0)
p = Pass('step, OutTooSmall undoes a cancelling fault; nothing due needs no room', limit=1).put().to(EOF_ACK).exact(expired=1)
p.reset().put().step(2).cancel().step(want=30, lent=3).exact().at(EOF_ACK)
p.reset().put(unack=True, closure=True).to(FINISHED).step(room=0).exact(expired=1).at(IDLE).put(unack=True, closure=True).to(FINISHED).finished().step(room=0, last='finished').at(IDLE)


# ---- the step table

p = Pass('table, acknowledged').nak(want=22).ack(22).finished().keep().at(IDLE).put().each(22, 22, 22).step().at(DATA)
p.nak((0, 0)).ack(22).finished(22).keep().step().step().at(DATA).nak((0, 4)).step().step().at(EOF).nak((4, 5), (0, 0)).ack(22).finished(22).keep().step(3).at(EOF_ACK)
p.nak((0, 5)).finished(22).keep().step(expired=1).ack().at(FINISHED).step().ack(22).nak((0, 0)).keep().nak((1, 3)).finished().at(CLOSING).each(22, 22, 22).step().at(IDLE)
p = Pass('table, unacknowledged with closure', unack=True, closure=True).put().each(22, 22, 22).step().each(22, 22, 22).step(2).at(EOF).each(22, 22, 22)
p.step(last='eof-sent check-timer').at(FINISHED).keep().nak((0, 1), want=22).ack(22).step(last='').finished(condition=5, delivery=1, status=0).at(CLOSING).each(22, 22, 22)
p.step(pdu='', last='finished').at(IDLE).nak(want=22).ack(22).finished().keep()
p = Pass('table, cancelled: a NAK is 22').put().step(2).cancel().nak((0, 1), want=22).ack(22).finished(22).keep().step().at(EOF_ACK)
p.nak((0, 1), want=22).finished(22).keep().ack(condition=15).at(FINISHED).nak((0, 1), want=22).ack(22).finished(condition=15).at(CLOSING).each(22, 22, 22).step()


# ---- the items of a step, faults

p = Pass('item 6: the same EOF again, up to the limit', limit=4).put().to(EOF_ACK).step().step(3, expired=1, last='eof-sent ack-timer')
p.step(expired=1, last='eof-sent fault ack-timer').step(3, expired=1, last='eof-sent ack-timer').step(expired=1, last='fault', pdu='').at(IDLE).step(expired=1)
p.put().to(EOF_ACK).step(2, expired=1).nak((0, 4)).step(expired=1, last='').step(2, expired=1, last='eof-sent fault ack-timer')
for limit in (0, 1, 3):
    p = Pass(f'fault 1, ignore, limit {limit}', limit=limit).put(actions=[3] * 16).to(EOF_ACK)
    p.step(expired=1).step(expired=1).step(expired=1, last='fault' if limit < 2 else 'eof-sent ack-timer' if limit > 3 else 'fault').step(2, expired=1).ack().at(FINISHED)
    p.step(expired=1, last='').cancel().step(last='eof-sent ack-timer').step(max(limit, 1), expired=1, last='fault').at(IDLE)
p = Pass('fault 1, abandon; then a second put', limit=1).put(actions=[1, 4] + [1] * 14).to(EOF_ACK).step(expired=1, pdu='', last='fault').at(IDLE).put().step(4)
p = Pass('fault 1, cancel, again expired: abandon; then a second put', limit=2).put(actions=[3, 1] + [3] * 14).to(EOF_ACK).step(2, expired=1, last='eof-sent fault ack-timer')
p.cancel(False).nak((0, 1), want=22).step(expired=1, last='eof-sent ack-timer').step(expired=1, last='fault').at(IDLE).put().step(5)
p = Pass('fault 1, cancel, acknowledged and finished', limit=1).put().to(EOF_ACK).step(expired=1).ack(condition=1).step(expired=1, last='').finished(condition=1, delivery=1).step()
for name, action, events in [('cancel', 1, 'eof-sent fault'), ('ignore', 3, 'fault'), ('abandon', 4, 'fault')]:
    p = Pass(f'fault 10, {name}; then a second put', unack=True, closure=True).put(actions=[1 if c != 10 else action for c in range(16)]).to(FINISHED)
    p.step(last='').step(expired=1, last=events)
    if name == 'ignore':
        p.at(FINISHED).step(2, expired=1, last='fault').finished().step(expired=1, last='finished')
    p.at(IDLE).put(closure=False).step(4).at(IDLE)
p = Pass('WaitingForFinished, acknowledged: expiry is not read').put().to(FINISHED).step(2, expired=1, last='').nak((0, 0)).step(expired=1).finished().step(expired=1)
p = Pass('expiry is not read before an EOF waits').put().step(expired=1).nak((0, 0)).step(expired=1).step(2, expired=1).step(expired=1, last='eof-sent ack-timer')
for eof_sent, fin in [(False, False), (True, False), (False, True)]:
    p = Pass(f'event flags {int(eof_sent)} {int(fin)}', limit=2).put(flags=(eof_sent, fin)).to(EOF_ACK).step(2, expired=1).ack().finished().step().at(IDLE)
    p.put(flags=(eof_sent, fin), unack=True).step(4).at(IDLE).put(flags=(eof_sent, fin), unack=True, closure=True).to(FINISHED).finished(status=3).step().at(IDLE)


# ---- cancel

p = Pass('cancel, acknowledged, in each step').cancel(False)
for step in (METADATA, DATA, EOF, EOF_ACK, FINISHED):
    p.put().to(step).cancel().cancel(False).step(last='eof-sent ack-timer').at(EOF_ACK).cancel(False).ack().finished().cancel(False).step().at(IDLE).cancel(False)
p.put().to(CLOSING).cancel(False).step()
p = Pass('cancel, unacknowledged, in each step; then a second put', unack=True, closure=True)
for step in (METADATA, DATA, EOF, FINISHED):
    p.put().to(step).cancel().step(last='eof-sent').at(IDLE)
p.put().to(CLOSING).cancel(False).step(last='finished').at(IDLE).put().step(2)
p = Pass('cancel, other id or number; by value whatever the width').put().step(2).cancel(False, source=(1, 2)).cancel(False, source=(1, 0)).cancel(False, number=(1, 8)).cancel(False, number=(1, 6)).cancel(False, source=(1, 257))
p.nak((0, 4), (0, 0)).step(want=31, room=3).cancel(source=(8, 1), number=(3, 7)).step(pdu='20 00 0A 00 01 07 02 04 F0 41 42 43 44 00 00 00 04').step(last='')
p = Pass('cancel EOF, modular sum of a padded word', file=b'\xff\xfe\xfd\xfc\xfb\xfa\xf9', segment=3).put().step(2).cancel()
p.step(pdu='20 00 0A 00 01 07 02 04 F0 FF FE FD 00 00 00 00 03').step(expired=1, pdu='20 00 0A 00 01 07 02 04 F0 FF FE FD 00 00 00 00 03')
p = Pass('cancel, then the ACK of the first EOF; a cancel EOF owed is dropped by Finished').put().to(EOF_ACK).cancel().ack().at(FINISHED).step(last='eof-sent ack-timer')
p.at(EOF_ACK).reset().put().to(FINISHED).nak((0, 5)).step().cancel().finished().at(CLOSING).step(last='finished').at(IDLE)
p = Pass('cancel between the pieces of a repair').put().step(3).nak((0, 5)).step().cancel().step(last='eof-sent ack-timer').step(last='')


# ---- second put, numbers, ids, table of entries

p = Pass('number wraps at width 1; a refused put does not move it', number=(1, 254), unack=True)
p.put().step(4).put(8, packet=3).put().step(2).cancel().step().put().step(4).put().reset().put().step()
p = Pass('number wraps at width 2', number=(2, 65535), packet=18).put().step().reset().put().step().cancel(number=(1, 0))
p = Pass('second put after reset, with repairs waiting, starts anew').put().step(3).nak((0, 5), (0, 0)).step().reset().step(lent=0).put().step(3).step(last='eof-sent ack-timer')
p.reset().reset().put().to(EOF_ACK).step(expired=1).reset().put(limit=2).to(EOF_ACK).step(expired=1, last='eof-sent ack-timer').step(expired=1, last='eof-sent fault ack-timer')
p = Pass('second put with another file size, name, checksum', file=b'0123456789', packet=40, segment=10)
p.put(unack=True).step(3).at(IDLE).put(S=4, names=(b'file', b'\xc3\xa9'), checksum=3, unack=True).step(want=30).step(lent=4).step(lent=4).step(lent=4).at(IDLE)
for local, number, to in [((1, 200), (4, 70000), (2, 300)), ((4, 2 ** 32 - 1), (8, 2 ** 64 - 2), (1, 0)), ((8, 2 ** 64 - 1), (2, 5), (8, 2 ** 63))]:
    p = Pass(f'widths {local[0]} {number[0]} {to[0]}', number=number, packet=60, crc=True).put(local=local, to=to).step(2).nak((0, 4), want=0).step(4).at(EOF_ACK)
    p.cancel(False, number=(8, 1)).ack().cancel(source=(8, local[1]), number=number).step().ack(condition=15).finished().step().at(IDLE)
p = Pass('entries: the first of equal values whatever the width, a count above 8, entries past the count', packet=40)
e = [Entry((1, 3), 19, 1), Entry((8, 2), 40, 2, 2, crc=True, unack=True), Entry((1, 2), 40, 3)] + [Entry((1, k), 40, 4) for k in (4, 5, 6, 7, 8)]
p.put(entries=e).step(5).at(IDLE).put(entries=e, count=200, to=(1, 8)).step(2).reset().put(3, entries=e, count=1).put(entries=e, count=2, unack=False).step(2).reset()
p.put(3, entries=e, count=7, to=(1, 8)).put(3, entries=e, count=9, to=(1, 9)).put(entries=e, count=9, to=(2, 3), unack=True).step(2)
p = Pass('mode and closure: the put overrides the entry', packet=40)
for entry_unack, entry_closure, unack, closure in [(0, 1, None, None), (1, 1, None, None), (1, 1, 0, None), (1, 1, None, 0), (0, 0, 1, 1), (1, 0, 0, 1), (0, 1, 1, None)]:
    p.put(unack=None if unack is None else bool(unack), closure=None if closure is None else bool(closure),
          entries=[Entry((1, 2), 40, 9, 15, unack=bool(entry_unack), closure=bool(entry_closure))]).step(3).reset()


# ---- checksums, CRC, sizes

for kind, name in [(0, 'modular'), (2, 'CRC-32C'), (3, 'CRC-32'), (15, 'null')]:
    p = Pass(f'checksum {name}, CRC on and off, cancelled and whole', file=b'123456789', packet=30, segment=6, checksum=kind)
    p.put(unack=True).step(4).put(crc=True).step(2).cancel().step()
for kind, name, part, whole in [(0, 'modular', '66 68 33 34', '9F 68 6A 6C'), (2, 'CRC-32C', '41 35 71 86', 'E3 06 92 83'),
                                (3, 'CRC-32', '09 72 D3 61', 'CB F4 39 26'), (15, 'null', '00 00 00 00', '00 00 00 00')]:
    # the EOFs of the first transaction are of 123456; of the second 123 leaves, and it is reset; the EOFs of the third are of all nine
    p = Pass(f'running checksum {name}: repairs and refused steps leave it, reset and put clear it', file=b'123456789', packet=17, segment=3, checksum=kind).put()
    p.step(3).nak((0, 5), (0, 0)).step(want=31, room=11).step(want=30, lent=8).step(3).cancel().step(pdu='20 00 0A 00 01 07 02 04 F0 %s 00 00 00 06' % part)
    p.step(expired=1, pdu='20 00 0A 00 01 07 02 04 F0 %s 00 00 00 06' % part).reset().put().step(2).reset().put().step(2).nak((1, 3)).burst(4, [13, 14, 14, 17]).at(EOF_ACK)
    p.step(expired=1, pdu='20 00 0A 00 01 09 02 04 00 %s 00 00 00 09' % whole).step(expired=1, pdu='20 00 0A 00 01 09 02 04 10 %s 00 00 00 09' % whole)
for kind, name, mixed, part in [(0, 'modular', 'A6 42 43 44', '41 42 43 44'), (2, 'CRC-32C', '96 12 6F 5D', 'FB 9F 88 72'),
                                (3, 'CRC-32', '49 BD 3A 1D', 'DB 17 20 A5'), (15, 'null', '00 00 00 00', '00 00 00 00')]:
    # ABCD leaves of the file, e of the other; a repair of the other leaves the checksum; the EOF and the repeated one are of ABCDe, that of a cancel behind ABCD of ABCD
    eof = '20 00 0A 00 01 %02X 02 04 %s %s 00 00 00 %02X'
    p = Pass(f'another file of the same length lent on the way, checksum {name}', other=b'abcde', checksum=kind).put().step(2).nak((1, 4)).lend(True)
    p.step(pdu='30 00 07 00 01 07 02 00 00 00 01 62 63 64').step(pdu='30 00 05 00 01 07 02 00 00 00 04 65').lend(False).step(pdu=eof % (7, '00', mixed, 5))
    p.lend(True).step(expired=1, pdu=eof % (7, '00', mixed, 5)).nak((4, 5)).lend(False).step(pdu='30 00 05 00 01 07 02 00 00 00 04 45')
    p.step(expired=1, pdu=eof % (7, '10', mixed, 5)).reset().put().step(2).cancel().lend(True).step(pdu=eof % (8, 'F0', part, 4)).reset().lend(False)
    p.put().burst(2, [17, 15]).lend(True).burst(16, [12, 17, 0], pdus=['30 00 05 00 01 09 02 00 00 00 04 65', eof % (9, '00', mixed, 5), ''])
p = Pass('modular sum that wraps', file=b'\xff' * 14, segment=6).put().to(EOF_ACK)
p = Pass('S = 0, acknowledged', file=b'').put().step().at(EOF).nak((0, 0), (0, 0)).nak((0, 1), want=24).step(3).at(EOF_ACK).nak((0, 0)).step().ack().finished().step()
p.put(checksum=2, packet=30).step().cancel().step()
p = Pass('L: from the segment maximum or from the packet maximum', file=bytes(range(40)), unack=True)
p.put(segment=4096).step(9).at(IDLE).put(segment=7, packet=18).step(2).reset().put(segment=6).step(2).reset().put(segment=40, packet=51).step(3).at(IDLE)
p.put(segment=40, packet=50).step(4).at(IDLE).put(segment=39, packet=51).step(4).at(IDLE).put(segment=8, packet=4096).step(7).at(IDLE)
p = Pass('packet maximum 4,096, filled', file=bytes(k * 7 % 251 for k in range(4086)), packet=4096, segment=4096, checksum=15)
p.put().step().exact().exact().at(EOF).nak((4085, 4086), (0, 0)).exact().exact().step(want=31, room=16)

# ---- the bench sheet's pass: 41 requests in one NAK, several longer than L

file = bytes((k * k + k // 3) % 256 for k in range(500))
pairs = [(k * 12, k * 12 + (1, 8, 9, 16, 17, 24, 3)[k % 7]) for k in range(39)] + [(0, 0), (448, 500)]
p = Pass('the pass of 41 requests, all pieces in order', file=file, packet=19, checksum=3, unack=False).put(segment=8)
p.step(64).at(EOF).nak(*pairs)
owed = sum(1 if pair == (0, 0) else -(-(pair[1] - pair[0]) // 8) for pair in pairs)
p.step(owed).at(EOF).step(last='eof-sent ack-timer').ack().nak(*pairs).step(owed).step(pdu='').finished().step().at(IDLE)

# ---- bursts

M1_to_M4 = ['24 00 0A 00 01 07 02 07 00 00 00 00 05 01 61 01 62', '34 00 08 00 01 07 02 00 00 00 00 41 42 43 44', '34 00 05 00 01 07 02 00 00 00 04 45',
            '24 00 0A 00 01 07 02 04 00 86 42 43 44 00 00 00 05']
p = Pass('burst, M1 to M4 in one, and a step in Idle that emits nothing and ends it', unack=True).put()
p.burst(16, [17, 15, 12, 17, 0], pdus=M1_to_M4 + [''], told=['transaction', '', '', 'eof-sent finished', ''], room=61).at(IDLE).burst(16, [0], told=[''])
p.put().burst(4, [17, 15, 12, 17], told=['transaction', '', '', 'eof-sent finished']).at(IDLE).put().burst(3, [17, 15, 12]).at(EOF).burst(1, [17]).at(IDLE)
p = Pass('burst, refusals: a count above 16 first, a count of 0 tests nothing, then those of the first step')
p.burst(17, want=32).burst(17, want=32, lent=0, room=0).burst(255, want=32).burst(0).burst(0, lent=0, room=0).burst(16, [0], lent=0, room=0).at(IDLE)
p.put().burst(17, want=32).burst(17, want=32, lent=4, room=0).burst(18, want=32).burst(255, want=32, room=0).burst(0).burst(0, lent=4, room=0).at(METADATA)
p.burst(1, want=30, lent=4, room=0).burst(16, want=30, lent=3).burst(16, want=30, lent=0).burst(1, want=31, room=16).burst(16, want=31, room=0).at(METADATA)
p.burst(2, [17, 15], told=['transaction', '']).burst(16, want=30, lent=4).burst(16, want=31, room=11).step(room=12, pdu='30 00 05 00 01 07 02 00 00 00 04 45')
p.burst(5, want=31, room=16).burst(16, want=30, lent=0).burst(16, [17, 0]).at(EOF_ACK).burst(16, want=30, lent=4, room=0).burst(16, [0], room=0)
p = Pass('burst, a later PDU that does not fit the rest is not made; a step that emits nothing needs no room').put()
p.burst(16, [17], room=17).at(DATA).reset().put().burst(16, [17], room=31).reset().put().burst(16, [17, 15], room=32).burst(16, [12], room=28).at(EOF)
p.nak((0, 4), (0, 0)).burst(16, [15], room=31).burst(16, [17], room=33).burst(16, [17, 0], room=17, told=['eof-sent ack-timer', '']).at(EOF_ACK)
p.reset().put().burst(16, [17, 15, 12], room=60).at(EOF).reset().put().burst(16, [17, 15, 12, 17, 0], room=61).reset().put().burst(4, [17, 15, 12, 17], room=61).at(EOF_ACK)
p = Pass('burst, the expiry flag holds for the first step only, read or not', limit=4).put()
p.burst(16, [17, 15, 12, 17, 0], expired=1, told=['transaction', '', '', 'eof-sent ack-timer', '']).burst(16, [17, 0], expired=1, told=['eof-sent ack-timer', ''])
p.nak((0, 5)).burst(16, [15, 12, 0], expired=1, told=['', '', '']).burst(1, [17], expired=1).burst(2, [17, 0], expired=1, told=['eof-sent ack-timer', ''])
p.burst(16, want=31, expired=1, room=16).burst(16, [17, 0], expired=1, told=['eof-sent fault ack-timer', '']).at(EOF_ACK).burst(16, [0], room=0).burst(0, expired=1)
p.ack(condition=1).burst(16, [0], expired=1, told=['']).finished(condition=1, delivery=1).burst(16, [10, 0], told=['finished', '']).at(IDLE)
p = Pass('burst, a fault that sends nothing ends it: ignore, abandon', limit=1).put(actions=[3] * 16).to(EOF_ACK)
p.burst(16, [0], expired=1, room=0, told=['fault']).at(EOF_ACK).burst(16, [0], told=['']).cancel().burst(16, [17, 0], expired=1, told=['eof-sent ack-timer', ''])
p.burst(16, [0], expired=1, told=['fault']).at(IDLE).put(unack=True, closure=True, actions=[4] * 16).burst(16, [17, 15, 12, 17, 0]).at(FINISHED)
p.burst(16, [0], expired=1, told=['fault']).at(IDLE).put(unack=True, closure=True).to(FINISHED).burst(16, [17, 0], expired=1, told=['eof-sent fault', '']).at(IDLE)
p.put(unack=True, closure=True).to(FINISHED).finished().burst(16, [0], room=0, told=['finished']).at(IDLE)
p = Pass('burst, repairs first, in order; one served in part keeps its rest; cancel drops them').put().step(3).nak((0, 4), (0, 5), (0, 0))
p.burst(2, [15, 15]).burst(16, [12, 17, 17, 0], told=['', '', 'eof-sent ack-timer', '']).nak((0, 5)).burst(1, [15]).cancel().burst(16, [17, 0], told=['eof-sent ack-timer', ''])
p = Pass('burst, sixteen and no seventeenth', file=bytes(range(60)), segment=2, checksum=2).put()
p.burst(16, [17] + [13] * 15, room=212).burst(15, [13] * 15).at(EOF).nak(*[(2 * k, 2 * k + 2) for k in range(17)]).burst(16, [13] * 16).burst(16, [13, 17, 0]).at(EOF_ACK)


# ---- fill behind the PDU: what it holds matters to no answer, and each delivery says how many bytes are the PDU's

IDLES = [b'', b'\0', bytes(300), b'\x55' * 7, b'\xff\x00\xff', b'\x28\0', bytes(range(40))]
p = Pass('fill, M8 to M10 with bytes behind each delivery: the same stream').put().step(3)
p.nak((0, 4), (0, 0), fill=bytes(300)).step(pdu='30 00 08 00 01 07 02 00 00 00 00 41 42 43 44').step(pdu='20 00 0A 00 01 07 02 07 00 00 00 00 05 01 61 01 62').step()
p.nak((0, 5), fill=b'\x55' * 300).step(pdu='30 00 08 00 01 07 02 00 00 00 00 41 42 43 44').step(pdu='30 00 05 00 01 07 02 00 00 00 04 45').step(pdu='')
p.keep(fill=b'\xff').ack(fill=b'\x28').finished(fill=b'\6').step(pdu='20 00 03 00 01 07 02 06 51 01', last='finished').at(IDLE)
p = Pass('fill, the number on each refusal but 20, in Idle too, also where the body is unread')
for fill in IDLES:
    p.nak(want=22, fill=fill).ack(22, fill=fill).finished(fill=fill).keep(fill=fill).body(21, b'\4', fill=fill).body(21, b'', file_data=True, fill=fill)
p.put()
for fill in IDLES:
    p.ack(22, fill=fill).ack(23, fill=fill, source=9).body(21, b'\x06\x51\1', fill=fill).body(21, b'\7' + bytes(20), fill=fill).ack(21, fill=fill, to_sender=False)
p.step(2).nak((0, 5), want=24, fill=b'\x55').nak((4, 3), want=24, fill=bytes(8)).nak(*[(0, 1)] * 65, want=25, fill=bytes(99)).nak(*[(0, 1)] * 64, fill=bytes(16))
p.nak((0, 0), want=25, fill=b'\0').keep(23, fill=b'\0', number=(1, 8)).finished(22, fill=b'\6\0', crc=True, width=8, number=(8, 7))
p = Pass('fill, what looks like more of the PDU is none of it: a pair, a TLV, the rest of a body').put().step(3)
p.nak((0, 4), (0, 0), fill=be(4, 0) + be(4, 1)).step(2).at(EOF).step(last='eof-sent ack-timer').nak(fill=be(4, 0) + be(4, 0)).step(last='').at(EOF_ACK)
p.nak((1, 2), fill=be(4, 9) + be(4, 1)).nak((1, 2), fill=be(4, 1)).step(2).step(pdu='').deliver(20, p.header().to_bytes(b'\x08' + bytes(12)), bytes(4))
p.deliver(20, p.header().to_bytes(b'\x06\x40'), b'\1').deliver(20, p.header().to_bytes(b'\x06'), b'\x40\1').deliver(20, p.header().to_bytes(b''), b'\x06\x40\1')
p.deliver(20, p.header().to_bytes(b'\x0c' + bytes(3)), b'\0').deliver(20, p.header().to_bytes(b'\x08' + bytes(7)), bytes(9)).ack(fill=b'\1').at(FINISHED)
p.deliver(20, p.header().to_bytes(b'\5'), b'\2').deliver(20, p.header().to_bytes(b'\5\2\1'), b'\0').deliver(20, p.header().to_bytes(b'\5\2\6\2a'), b'bcd')
p.finished(fill=b'\2\1a').at(CLOSING).step().at(IDLE)
p = Pass('fill, the CRC stands where the data field ends').put().to(EOF_ACK)
h = p.header(crc=True)
crc = h.to_bytes(b'\x06\x40\1')
last = h.to_bytes(b'\x06\x40\1' + bytes(3), length=5)                   # the CRC of all that comes stands at the end of the delivery
p.deliver(20, last).deliver(20, crc[:-2], b'\0\0' + crc[-2:]).deliver(20, crc[:-1] + b'\0', crc[-1:]).deliver(20, crc[:-2]).deliver(20, crc[:-2] + b'\0\0', crc[-2:])
p.deliver(20, b'\x2a\0\0\0\1\7\2', b'\x06\x40').deliver(20, b'\x2a\0\1\0\1\7\2\6', b'\x40\1\0').deliver(0, crc, b'\0\0').at(FINISHED)
crc = p.header(crc=True, width=8, number=(8, 7)).to_bytes(b'\5\2')
p.cuts(crc).deliver(0, crc, crc[-2:]).at(CLOSING).deliver(22, crc, crc).step().at(IDLE)
p = Pass('a PDU cut in each place').put().to(EOF_ACK)
p.cuts(p.header().to_bytes(b'\x06\x40\1')).cuts(p.header().to_bytes(b'\x08' + bytes(16))).cuts(p.header(crc=True, width=2, number=(4, 7)).to_bytes(b'\x0c\0\0\0\1'))
p.cuts(p.header().to_bytes(b'\5\2\6\1\x09')).cuts(p.header().to_bytes(b'\0\0\0\0abc', file_data=True)).step(last='')
p = Pass('a data field length that says one more, or one less').put().to(EOF_ACK)
for body in (b'\x06\x40\1', b'\x08' + bytes(8), b'\x0c' + bytes(4), b'\5\2'):
    n = len(body)
    p.deliver(20, p.header().to_bytes(body, length=n + 1)).deliver(20, p.header().to_bytes(body, length=n + 1), b'\x55').deliver(20, p.header().to_bytes(body, length=n - 1))
p.deliver(21, p.header().to_bytes(b'abc', True, length=2), own=9).deliver(21, p.header().to_bytes(b'abc', True, length=4), b'd', own=11).ack()
p.deliver(0, p.header().to_bytes(b'\5\2', length=4), b'\6\0\x55', own=11).at(CLOSING).step().at(IDLE)       # the two bytes behind are its TLV
p = Pass('a frame: NAK, ACK, Finished, fill, each delivered from the number before on').put().to(EOF_ACK)
nak, ack, finished = (p.header().to_bytes(body) for body in (b'\x08' + bytes(12) + be(4, 5), b'\x06\x40\1', b'\5\2'))
fill = b'\x55' * 5
p.deliver(0, nak, ack + finished + fill, own=24).step(2).deliver(0, ack, finished + fill, own=10).at(FINISHED).deliver(0, finished, fill, own=9).at(CLOSING)
p.deliver(20, fill).step().at(IDLE).deliver(20, b'').deliver(20, bytes(300)).put().to(EOF_ACK)
other, late = (p.header(**h).to_bytes(b'\x06\x40\1') for h in (dict(number=(1, 7)), {}))
p.deliver(23, other, late + late + fill).deliver(0, late, late + fill).deliver(22, late, fill).deliver(20, fill).at(FINISHED)
p.deliver(20, fill + late).deliver(20, b'\x28\xff\xff' + late[3:] + fill)      # nothing says where a PDU behind these would start
p.deliver(22, late[:9], fill, own=10).deliver(20, p.header(crc=True).to_bytes(b'\x06\x40\1')[:-1], b'\x55' * 5)      # a byte lost on the link: the CRC finds it
long = p.header(width=8, number=(8, 7)).to_bytes(b'\x09' + bytes(29999))
p.deliver(21, long, bytes(9), own=30028).deliver(20, long[:-1])


# ---- what is no call

Pass('a kind that is unknown').put().raw(b'\x08\0\0')
Pass('a step cut short').put().step().raw(b'\x03\0\0\0\0\5')
Pass('a delivery cut short').put().raw(b'\x02\0\0\0\5abcd')
Pass('a cancel cut short').put().raw(b'\x04' + bytes(17))
Pass('a burst cut short').put().burst(2, [17, 15]).raw(b'\x06\0\x10' + bytes(7))
Pass('a place to lend from cut short').put().lend(True).raw(b'\x07\0\0\0')
Pass('a put cut short').raw(b'\x01' + bytes(273))
Pass('no calls')

# ---- seeded runs

SEED = 727
for k in range(17):
    runs.append(random_run(random.Random(SEED * 1000 + k), f'random {k}', 1100))
for k in range(8):
    runs.append(random_run(random.Random(SEED * 2000 + k), f'random with bursts {k}', 900, bursts=True))
for k in range(5):
    rng = random.Random(SEED * 3000 + k)
    runs.append(with_changes(rng, random_run(rng, f'random with other files lent {k}', 900, bursts=True), looks=False))


if __name__ == '__main__':
    os.makedirs(OUT, exist_ok=True)
    stream = b''.join(run_bytes(run.label, run.file, list_bytes(run)) for run in runs)
    assert len(stream) < LIMIT, len(stream)
    given = [answers(run) for run in runs]
    open(os.path.join(OUT, 'stdin'), 'wb').write(stream)
    with open(os.path.join(OUT, 'stdout'), 'w') as out:
        for run, lines in zip(runs, given):
            out.write(run.label + '\n' + ''.join('  ' + answer_line(a) + '\n' for a in lines))
        out.write('%d runs\n' % len(runs))
    print(len(stream), 'bytes,', len(runs), 'runs,', sum(len(run.calls) for run in runs), 'calls')
