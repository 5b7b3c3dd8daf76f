"""Random whole passes with their meaning: through the program `drive` (cancels, repairs, expiry at any place) and through `send .. pcap=FILE`.

A pass is what left and what came, in order: pairs (bytes, meaning), where the bytes that left are our handler's own and the meaning is the model's. What
comes has no fill behind it: the dissector is given PDUs.
"""
import os, subprocess
import model
from calls import Run, call_bytes
from model import DATA, EOF_ACK, FINISHED, IDLE, Config, Entry, Handler, Header, Request, be
from random_passes import driven, records, some_id, some_pair, wider
from tshark import CODES, Meaning

CONDITIONS = [0, 0, 0, 1, 2, 3, 4, 5, 6, 7, 8, 9, 10, 11, 14, 15]


# ---- meanings: what the model, or a receiver, meant by the bytes that it wrote

MEANT = {}


def said(header, kind, values, pdu):
    MEANT[pdu] = Meaning(header, kind, values, pdu)
    return pdu


class Telling(model.Transaction):
    """The model's transaction, which also tells what it means by each PDU."""

    def metadata(self):
        return said(self.header, 'Metadata', (self.unack and bool(self.closure), self.checksum, self.S) + self.names, super().metadata())

    def data(self, file, start, end):
        return said(self.header, 'File data', (start, file[start:end]), super().data(file, start, end))

    def eof(self, condition):
        return said(self.header, 'EOF', (condition, self.sum, self.progress), super().eof(condition))

    def ack_of_finished(self):
        return said(self.header, 'ACK', (5, 1, self.finished[0], 0, 1), super().ack_of_finished())


model.Transaction = Telling


# ---- a receiver's answers

def nak_body(F, start, end, requests):
    return b''.join(be(F, n) for pair in [(start, end)] + requests for n in pair)


def ack_body(F, code, subtype, condition, spare, status):
    return bytes([code << 4 | subtype, condition << 4 | spare << 2 | status])


def finished_body(F, condition, spare, delivery, status, locations):
    return bytes([condition << 4 | spare << 3 | delivery << 2 | status]) + b''.join(b'\x06' + be(1, len(e)) + e for e in locations)


def keep_alive_body(F, progress):
    return be(F, progress)


WRITERS = {'NAK': nak_body, 'ACK': ack_body, 'Finished': finished_body, 'Keep Alive': keep_alive_body}


def answer(header, kind, *values):
    return said(header, kind, values, header.to_bytes(be(1, CODES[kind]) + WRITERS[kind](header.F, *values)))


def reply_header(rng, t):
    """That of a receiver of ours: the same ids and number, in widths and flags of its own."""
    ours = t.header
    h = Header(wider(rng, (8, ours.source)), wider(rng, ours.number), wider(rng, (8, ours.destination)), to_sender=True)
    h.unack, h.crc, h.large = ours.unack ^ (rng.random() < 0.1), rng.random() < 0.5, rng.random() < 0.04
    if rng.random() < 0.03:
        h.destination ^= 1
    return h


def some_nak(rng, t):
    n = rng.choice([0, 1, 1, 2, 3, 5] + [30] * (rng.random() < 0.1))
    return answer(reply_header(rng, t), 'NAK', rng.randrange(99), t.progress, [some_pair(rng, t, 0.01) for _ in range(n)])


def some_ack(rng, t):
    return answer(reply_header(rng, t), 'ACK', 4, 0, rng.choice(CONDITIONS), rng.randrange(4), rng.randrange(4))


def some_finished(rng, t):
    locations = [rng.randbytes(rng.choice([1, 2, 4, 8])) for _ in range(rng.choice([0, 0, 1, 2]))]
    return answer(reply_header(rng, t), 'Finished', rng.choice(CONDITIONS), rng.randrange(2), rng.randrange(2), rng.randrange(4), locations)


def some_keep_alive(rng, t):
    return answer(reply_header(rng, t), 'Keep Alive', rng.choice([t.progress, rng.randrange(2 ** 32)]))


# ---- what is sent

def some_name(rng):
    n = rng.choice([1, 2, 3, 5, 8, 13] + [60] * (rng.random() < 0.1))
    return ''.join(rng.choice('abcXYZ089./_- "&<>äßøéЖλ中€😀') for _ in range(n)).encode()


def long_enough(e, width, names):
    """A packet maximum that the metadata fits, and some more."""
    return min(4096, 4 + 2 * width[0] + width[1] + 4 + 2 * e.crc + 4 + sum(map(len, names)) + e.packet)


def some_entry(rng, to, large):
    packet = rng.choice([0, 1, 9, 40, 100, 4096] if large else [0, 1, 9, 40])
    segment = rng.choice([300, 1000, 4096, 10 ** 6] if large else [1, 2, 4, 7, 16, 33, 64, 5000])
    return Entry(to, packet, segment, rng.choice([0, 2, 3, 15]), rng.random() < 0.5, rng.random() < 0.4, rng.random() < 0.5, rng.choice([0, 1, 2, 3]))


# ---- passes through `drive`

class Batch:
    """Some passes on one handler, over one file."""

    def __init__(self, rng, size):
        self.rng, self.number = rng, some_id(rng)
        self.file = rng.randbytes(size)
        self.model, self.calls, self.meant = Handler(self.number), [], []
        self.used = self.answered = self.passes = self.cancels = self.repairs = 0

    def call(self, kind, *values):
        self.calls.append((kind,) + values)
        self.used += len(call_bytes(self.calls[-1]))
        if kind == 'step':
            expired, lent, room = values
            self.repairs += bool(self.model.t.queue)
            pdu = self.model.step(bool(expired), self.file[:lent], room)[1]
            self.answered += 50 + len(pdu)
        else:
            pdu, done = values[0] if kind == 'deliver' else b'', getattr(self.model, kind)(*values)
            self.answered += 6
            self.cancels += kind == 'cancel' and done
        self.meant.append(pdu)

    def step(self, expired=False):
        self.call('step', int(expired), self.model.t.S, 4608)

    def put(self):
        rng, large = self.rng, len(self.file) > 1000
        local, to = some_id(rng), some_id(rng)
        names = some_name(rng), some_name(rng)
        e = some_entry(rng, wider(rng, to), large)
        e.packet = long_enough(e, (max(local[0], to[0]), self.number[0]), names)
        S = rng.randrange(len(self.file) + 1) if large else min(len(self.file), rng.choice([0, 1, 2, 5, 16, 40, 64, 100, 150]))
        config = Config(local, [rng.choice([1, 1, 1, 3, 4]) for _ in range(16)], entries=[e])
        self.call('put', config, Request(to, rng.choice([None, False, False, True]), rng.choice([None, False, True])), S, *names)

    def turn(self, cancels):
        rng, t, at, x = self.rng, self.model.t, self.model.at, self.rng.random()
        if cancels and x < 0.08:
            self.call('cancel', (8, t.header.source), t.header.number)
        elif x < 0.12:
            self.call('deliver', rng.choice([some_keep_alive, some_keep_alive, some_ack, some_finished, some_nak])(rng, t))
        elif at == EOF_ACK and x < 0.65:
            self.call('deliver', rng.choice([some_ack, some_ack, some_nak])(rng, t))
        elif at == FINISHED and x < 0.65:
            self.call('deliver', rng.choice([some_finished, some_finished, some_nak])(rng, t))
        elif at == DATA and x < 0.18:
            self.call('deliver', some_nak(rng, t))
        else:
            self.step(at in (EOF_ACK, FINISHED) and x > 0.75)

    def one_pass(self):
        self.put()
        if self.model.at == IDLE:
            return
        self.passes += 1
        cancels = self.rng.random() < 0.2
        for _ in range(200):
            if self.model.at == IDLE:
                return
            self.turn(cancels)
        self.call('reset')

    def full(self):
        return self.used > 30000 or self.answered > 30000

    def sent(self, program):
        """The pairs of the pass, or what our handler did otherwise than the model."""
        got, pairs = records(driven(program, Run('', self.number, self.file, self.calls))), []
        for call, meant, answer in zip(self.calls, self.meant, got):
            pdu = answer[4:4 + int.from_bytes(answer[2:4], 'big')] if call[0] == 'step' else meant
            if bool(pdu) != bool(meant):
                raise SystemExit('handler and model differ: %s, model %s, handler %s' % (call[0], meant.hex(), pdu.hex()))
            pairs += [(pdu, MEANT[meant])] if meant else []
        if len(got) != len(self.calls) + 1:
            raise SystemExit('drive ran %d of %d calls' % (len(got), len(self.calls)))
        return pairs


def batch(rng, most):
    """At most so many passes."""
    s = Batch(rng, rng.choice([64, 150, 150, 6000]))
    while s.passes < most and not s.full():
        s.one_pass()
    return s


# ---- passes through `send .. pcap=FILE`

class Asked:
    """What the words of a command line ask for, and the pass by the model: docs/SEND.md has the turn of the answers."""

    def __init__(self, rng):
        self.rng, large = rng, rng.random() < 0.2
        width, number = rng.choice([1, 2, 4, 8]), rng.choice([1, 2, 4, 8])
        self.local, self.to, self.number = ((w, rng.randrange(256 ** w)) for w in (width, width, number))
        self.file = rng.randbytes(rng.choice([0, 1, 5, 40, 150]) if not large else rng.randrange(20000))
        self.names = some_name(rng), some_name(rng)
        self.entry = some_entry(rng, self.to, large)
        self.entry.packet = long_enough(self.entry, (width, number), self.names)
        self.timed, self.most = rng.random() < 0.5, rng.randrange(6)
        self.answers, self.meant, self.repairs = [], [], 0

    def meet(self):
        """Runs the model, and makes up the answers on the way."""
        m, expired = Handler(self.number), False
        assert m.put(Config(self.local, entries=[self.entry]), Request(self.to), len(self.file), *self.names) == 0
        while True:
            self.repairs += bool(m.t and m.t.queue)
            pdu = m.step(expired, self.file, 4608)[1]
            if not pdu and m.at != IDLE and len(self.answers) < self.most:
                pdu = self.one_answer(m)
                m.deliver(pdu)
            elif not pdu and (m.at == IDLE or expired or not self.timed):
                return self
            self.meant += [pdu] if pdu else []
            expired = not pdu

    def one_answer(self, m):
        kinds = {EOF_ACK: [some_ack, some_nak], FINISHED: [some_finished, some_nak]}[m.at] * 3 + [some_keep_alive, some_ack, some_finished]
        self.answers.append(self.rng.choice(kinds)(self.rng, m.t))
        return self.answers[-1]

    def words(self):
        e, yes = self.entry, {False: 'no', True: 'yes'}
        given = dict(zip(('from', 'to', 'number'), (self.local[1], self.to[1], self.number[1])), idwidth=self.to[0], seqwidth=self.number[0],
                     mode='unacknowledged' if e.unack else 'acknowledged', closure=yes[e.closure], crc=yes[e.crc], segment=e.segment, packet=e.packet,
                     checksum={0: 'modular', 2: 'crc32c', 3: 'crc32', 15: 'null'}[e.checksum])
        given.update({'limit': e.limit} if self.timed else {})
        return ['%s=%s' % pair for pair in given.items()] + [b'source=' + self.names[0], b'dest=' + self.names[1]]


def framed(pdus):
    return b''.join(be(2, len(pdu)) + pdu for pdu in pdus)


def frames(data):
    out, at = [], 0
    while at < len(data):
        n = int.from_bytes(data[at:at + 2], 'big')
        out.append(data[at + 2:at + 2 + n])
        at += 2 + n
    return out


def sent(program, folder, asked):
    """The pairs of the pass, and the capture that `send` wrote."""
    paths = {word: os.path.join(folder, word) for word in ('file', 'answers', 'out', 'pcap')}
    for word, data in (('file', asked.file), ('answers', framed(asked.answers))):
        with open(paths[word], 'wb') as f:
            f.write(data)
    named = ['%s=%s' % (word, paths[word]) for word in ('answers', 'out', 'pcap')]
    done = subprocess.run(program + [paths['file']] + asked.words() + named, stdout=subprocess.PIPE, stderr=subprocess.PIPE, check=True)
    with open(paths['out'], 'rb') as out, open(paths['pcap'], 'rb') as pcap:
        left, capture = frames(out.read()), pcap.read()
    if len(left) + len(asked.answers) != len(asked.meant):
        raise SystemExit('send and model differ: %s\n%s' % (asked.words(), done.stderr.decode(errors='replace')))
    answers, left = iter(asked.answers), iter(left)
    return [(next(answers if MEANT[pdu].header.to_sender else left), MEANT[pdu]) for pdu in asked.meant], capture
