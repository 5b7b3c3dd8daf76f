"""Document 01, with document 02's burst, running checksum and fill, as a plain Python class, the independent model of the handler.

Written from the papers' words (and docs/DECISIONS.md where they leave a choice) with nothing taken from the crates. An id or a number is a pair
(width, value). Each call gives what the handler's call must give: put a refusal's number or 0; deliver the same, and how many of the bytes are the PDU's; step
a refusal's number, the PDU and the events; burst a refusal's number and the steps made; cancel True or False; look what the record must hold, the progress and
the running checksum.

The running checksum (R-2) is not kept here: the first-pass bytes are, as they left, and its number is taken anew over all of them.
"""
import binascii, copy, zlib

IDLE, METADATA, DATA, EOF, EOF_ACK, FINISHED, CLOSING = (
    'Idle', 'SendingMetadata', 'SendingFileData', 'SendingEof', 'WaitingForEofAck', 'WaitingForFinished', 'Closing')
PLACES = 64


# ---- configuration and request: what the host hands to put

class Entry:
    """A remote entry."""

    def __init__(self, id=(1, 2), packet=4096, segment=4096, checksum=0, crc=False, unack=False, closure=False, limit=3):
        self.__dict__.update({k: v for k, v in locals().items() if k != 'self'})


class Config:
    """The local configuration; `count` may lie about the number of entries, as a host's can."""

    def __init__(self, local=(1, 1), actions=None, eof_sent=True, finished=True, entries=None, count=None):
        self.local, self.actions, self.eof_sent, self.finished = local, list(actions or [1] * 16), eof_sent, finished
        self.entries = list(entries if entries is not None else [Entry()])
        self.count = len(self.entries) if count is None else count


class Request:
    """Mode and closure: None is the entry's."""

    def __init__(self, destination=(1, 2), unack=None, closure=None):
        self.destination, self.unack, self.closure = destination, unack, closure


# ---- numbers and checksums

def be(width, value):
    return value.to_bytes(width, 'big')


def proper(number):
    width, value = number
    return width in (1, 2, 4, 8) and value < 256 ** width


def crc16(data):
    return be(2, binascii.crc_hqx(data, 0xFFFF))


def crc32c(data):
    c = 0xFFFFFFFF
    for byte in data:
        c ^= byte
        for _ in range(8):
            c = (c >> 1) ^ (0x82F63B78 if c & 1 else 0)   # 0x1EDC6F41 read from the other end
    return c ^ 0xFFFFFFFF


def modular(data):
    data = data + bytes(-len(data) % 4)
    return sum(int.from_bytes(data[i:i + 4], 'big') for i in range(0, len(data), 4)) % 2 ** 32


CHECKSUMS = {0: modular, 2: crc32c, 3: zlib.crc32, 15: lambda data: 0}


def is_utf8(name):
    try:
        name.decode('utf-8', 'strict')
        return True
    except UnicodeDecodeError:
        return False


# ---- PDUs

class Header:
    """The header's fields. `to_bytes` is also what the tests make deliveries with."""

    def __init__(self, source=(1, 1), number=(1, 7), destination=(1, 2), unack=False, crc=False, large=False, to_sender=False):
        self.width = max(source[0], destination[0])
        self.source, self.destination, self.number = source[1], destination[1], number
        self.unack, self.crc, self.large, self.to_sender = unack, crc, large, to_sender

    @property
    def H(self):
        return 4 + 2 * self.width + self.number[0]

    @property
    def F(self):
        return 8 if self.large else 4

    @property
    def C(self):
        return 2 if self.crc else 0

    def to_bytes(self, body, file_data=False, version=1, length=None):
        first = version << 5 | file_data << 4 | self.to_sender << 3 | self.unack << 2 | self.crc << 1 | self.large
        length = len(body) + self.C if length is None else length
        pdu = (be(1, first) + be(2, length) + be(1, (self.width - 1) << 4 | (self.number[0] - 1))
               + be(self.width, self.source) + be(*self.number) + be(self.width, self.destination) + body)
        return pdu + crc16(pdu) if self.crc else pdu


class Refused(Exception):
    pass


def need(number, holds):
    if not holds:
        raise Refused(number)


def framed(delivery):
    """A delivery's header, whether it is file data, and its PDU: H and the data field. What stands behind is fill, and nothing else sees it. Refusal 20."""
    need(20, len(delivery) >= 4)
    first, widths = delivery[0], ((delivery[3] >> 4) % 8 + 1, delivery[3] % 8 + 1)
    need(20, first >> 5 == 1)
    need(20, widths[0] in (1, 2, 4, 8) and widths[1] in (1, 2, 4, 8))
    bit = lambda n: bool(first >> n & 1)
    h = Header((widths[0], 0), (widths[1], 0), (widths[0], 0), unack=bit(2), crc=bit(1), large=bit(0), to_sender=bit(3))
    field = int.from_bytes(delivery[1:3], 'big')
    need(20, len(delivery) >= h.H + field)
    at = [4, 4 + widths[0], 4 + widths[0] + widths[1], h.H]
    h.source, value, h.destination = (int.from_bytes(delivery[a:b], 'big') for a, b in zip(at, at[1:]))
    h.number = (widths[1], value)
    return h, bit(4), delivery[:h.H + field]


def read(delivery):
    """A delivery by the layouts: (header, kind, values), kind one of 'NAK', 'ACK', 'Finished', 'KeepAlive'. Refusals 20 and 21."""
    h, file_data, pdu = framed(delivery)
    need(20, len(pdu) >= h.H + h.C)
    body = pdu[h.H:len(pdu) - h.C]
    need(20, not h.crc or crc16(pdu[:-2]) == pdu[-2:])
    need(21, not file_data)
    need(20, len(body) >= 1)
    code, rest = body[0], body[1:]
    need(20, code in (4, 5, 6, 7, 8, 9, 12))
    need(21, code not in (4, 7, 9))
    kind, values = {5: read_finished, 6: read_ack, 8: read_nak, 12: read_keep_alive}[code](h, rest)
    need(21, kind != 'ACK of Finished')
    need(21, h.to_sender)
    return h, kind, values


def read_finished(h, rest):
    need(20, len(rest) >= 1)
    condition, delivery, status = rest[0] >> 4, rest[0] >> 2 & 1, rest[0] & 3
    need(20, condition not in (12, 13))
    tlvs = rest[1:]
    while tlvs:
        need(20, tlvs[0] in (1, 6))
        need(20, len(tlvs) >= 2)
        need(20, len(tlvs) >= 2 + tlvs[1])
        tlvs = tlvs[2 + tlvs[1]:]
    return 'Finished', (condition, delivery, status)


def read_ack(h, rest):
    need(20, len(rest) == 2)
    need(20, rest[0] in (0x40, 0x51))
    need(20, rest[1] >> 4 not in (12, 13))
    return ('ACK' if rest[0] == 0x40 else 'ACK of Finished'), None


def read_nak(h, rest):
    need(20, len(rest) >= 2 * h.F and len(rest) % (2 * h.F) == 0)
    numbers = [int.from_bytes(rest[i:i + h.F], 'big') for i in range(0, len(rest), h.F)]
    return 'NAK', list(zip(numbers[2::2], numbers[3::2]))


def read_keep_alive(h, rest):
    need(20, len(rest) == h.F)
    return 'KeepAlive', None


# ---- the handler

QUEUE, MOVE, NOTHING, WRONG = 'queue', 'move', 'no effect', 22
TABLE = {   # NAK, ACK of EOF, Finished, Keep Alive
    IDLE: (WRONG, WRONG, NOTHING, NOTHING),
    DATA: (QUEUE, WRONG, WRONG, NOTHING),
    EOF: (QUEUE, WRONG, WRONG, NOTHING),
    EOF_ACK: (QUEUE, MOVE, WRONG, NOTHING),
    FINISHED: (QUEUE, WRONG, MOVE, NOTHING),
    METADATA: (WRONG, WRONG, WRONG, NOTHING),
    CLOSING: (WRONG, WRONG, WRONG, NOTHING),
}


class Transaction:
    """All that lives from an accepted put to Idle."""

    def __init__(self, config, entry, request, number, S, source_name, destination_name):
        self.unack = entry.unack if request.unack is None else request.unack
        self.closure = entry.closure if request.closure is None else request.closure
        self.header = Header(config.local, number, request.destination, self.unack, entry.crc, S > 4294967295)
        self.packet, self.checksum, self.limit = entry.packet, entry.checksum, entry.limit
        self.L = min(entry.segment, entry.packet - self.header.H - self.header.F - self.header.C)
        self.actions, self.eof_event, self.finished_event = list(config.actions), config.eof_sent, config.finished
        self.S, self.names = S, (source_name, destination_name)
        self.sent = b''                                     # the first-pass bytes, each from the file that was lent at its own step
        self.queue, self.cancelled, self.owed, self.condition = [], False, False, 0
        self.count, self.finished = 0, None

    @property
    def progress(self):
        return len(self.sent)

    @property
    def sum(self):
        return CHECKSUMS[self.checksum](self.sent)

    def metadata(self):
        closure = 0 if not self.unack else int(self.closure)
        body = b'\x07' + be(1, closure << 6 | self.checksum) + be(self.header.F, self.S)
        return self.header.to_bytes(body + b''.join(be(1, len(name)) + name for name in self.names))

    def data(self, file, start, end):
        return self.header.to_bytes(be(self.header.F, start) + file[start:end], file_data=True)

    def eof(self, condition):
        return self.header.to_bytes(b'\x04' + be(1, condition << 4) + be(4, self.sum) + be(self.header.F, self.progress))

    def ack_of_finished(self):
        return self.header.to_bytes(b'\x06\x51' + be(1, self.finished[0] << 4 | 1))


class Handler:
    def __init__(self, number):
        self.number, self.at, self.t = number, IDLE, None

    # -- put

    def put(self, config, request, S, source_name, destination_name):
        try:
            self._put(config, request, S, source_name, destination_name)
            return 0
        except Refused as e:
            return e.args[0]

    def _put(self, config, request, S, source_name, destination_name):
        need(1, self.at == IDLE)
        need(2, proper(config.local) and proper(request.destination) and proper(self.number))
        found = [e for e in config.entries[:min(config.count, 8)] if e.id[1] == request.destination[1]]
        need(3, found)
        entry = found[0]
        need(4, entry.packet <= 4096 and entry.segment != 0 and entry.checksum in CHECKSUMS)
        need(4, all(action in (1, 3, 4) for action in config.actions))
        need(5, 1 <= len(source_name) <= 255 and 1 <= len(destination_name) <= 255)
        need(6, is_utf8(source_name))
        need(7, is_utf8(destination_name))
        t = Transaction(config, entry, request, self.number, S, source_name, destination_name)
        need(8, len(t.metadata()) <= entry.packet)
        width, value = self.number
        self.number, self.at, self.t = (width, (value + 1) % 256 ** width), METADATA, t

    # -- deliver

    def deliver(self, delivery):
        """(refusal, length): "how many bytes belong to the PDU .. on refusals as well, 0 when Malformed"."""
        try:
            self._deliver(delivery)
            refusal = 0
        except Refused as e:
            refusal = e.args[0]
        return refusal, 0 if refusal == 20 else len(framed(delivery)[2])

    def _deliver(self, delivery):
        h, kind, values = read(delivery)
        t = self.t
        if self.at != IDLE:
            ours = t.header
            need(23, (h.source, h.number[1], h.destination) == (ours.source, ours.number[1], ours.destination))
        cell = TABLE[self.at][('NAK', 'ACK', 'Finished', 'KeepAlive').index(kind)]
        need(22, cell != WRONG)
        if cell == QUEUE:
            need(22, not t.unack and not t.cancelled)
            need(24, all(start <= end <= t.progress for start, end in values))
            owing = [pair for pair in values if pair == (0, 0) or pair[0] != pair[1]]
            need(25, len(owing) <= PLACES - len(t.queue))
            t.queue += owing
        elif cell == MOVE and kind == 'ACK':
            self.at = FINISHED
        elif cell == MOVE:
            t.finished, t.queue, t.owed, self.at = values, [], False, CLOSING

    # -- cancel, reset, look

    def cancel(self, source, number):
        t = self.t
        if self.at in (IDLE, CLOSING) or t.cancelled:
            return False
        if source[1] != t.header.source or number[1] != t.header.number[1]:
            return False
        t.cancelled, t.condition, t.queue, t.owed = True, 15, [], True
        return True

    def reset(self):
        self.idle()

    def idle(self):
        self.at, self.t = IDLE, None

    def look(self):
        """(progress, running checksum): 0 and 0 when Idle."""
        return (self.t.progress, self.t.sum) if self.t else (0, 0)

    # -- step

    def step(self, expired, file, room):
        """(refusal, PDU, events): `file` is what is lent, `room` the out buffer's length."""
        if self.at == IDLE:
            return 0, b'', []
        if len(file) != self.t.S:
            return 30, b'', []
        before = self.at, copy.deepcopy(self.t)
        h = self.t.header
        self.who = (h.width, h.source), h.number
        pdu, events = self._step(expired, file)
        if len(pdu) > room:
            self.at, self.t = before
            return 31, b'', []
        rank = ['transaction', 'eof-sent', 'fault', 'finished', 'ack-timer', 'check-timer']
        return 0, pdu, sorted(events, key=lambda e: rank.index(e[0]))

    def _step(self, expired, file):
        t = self.t
        if t.cancelled and t.owed:                                                      # 1
            return self.cancel_eof()
        if t.queue:                                                                     # 2
            return self.repair(file), []
        if self.at == METADATA:                                                         # 3
            self.at = EOF if t.S == 0 else DATA
            return t.metadata(), [('transaction',)]
        if self.at == DATA:                                                             # 4
            start, end = t.progress, t.progress + min(t.L, t.S - t.progress)
            t.sent += file[start:end]
            if end == t.S:
                self.at = EOF
            return t.data(file, start, end), []
        if self.at == EOF:                                                              # 5
            assert t.progress == t.S
            return t.eof(0), self.sent() + self.after_eof()
        if self.at == EOF_ACK and expired:                                              # 6
            if t.count + 1 >= t.limit:
                return self.fault(1)
            t.count += 1
            return t.eof(t.condition), self.sent() + [('ack-timer',)]
        if self.at == FINISHED and t.unack and expired:                                 # 7
            return self.fault(10)
        if self.at == CLOSING:                                                          # 8
            pdu = b'' if t.unack else t.ack_of_finished()
            events = [('finished',) + t.finished] if t.finished_event else []
            self.idle()
            return pdu, events
        return b'', []                                                                  # 9

    def sent(self):
        return [('eof-sent',)] if self.t.eof_event else []

    def after_eof(self):
        t = self.t
        if not t.unack:
            t.count, self.at = 0, EOF_ACK
            return [('ack-timer',)]
        if t.closure:
            self.at = FINISHED
            return [('check-timer',)]
        self.idle()
        return [('finished', 0, 0, 3)] if t.finished_event else []

    def cancel_eof(self):
        t = self.t
        pdu, events, t.owed = t.eof(t.condition), self.sent(), False
        if t.unack:
            self.idle()
            return pdu, events
        t.count, self.at = 0, EOF_ACK
        return pdu, events + [('ack-timer',)]

    def repair(self, file):
        t = self.t
        start, end = t.queue[0]
        if (start, end) == (0, 0):
            t.queue.pop(0)
            return t.metadata()
        stop = min(start + t.L, end)
        t.queue[0] = (stop, end)
        if stop == end:
            t.queue.pop(0)
        return t.data(file, start, stop)

    def fault(self, condition):
        t = self.t
        action = 4 if t.cancelled else t.actions[condition]
        event = [('fault', action, condition, t.progress)]
        if action == 4:
            self.idle()
            return b'', event
        if action == 3:
            t.count = 0
            return b'', event
        t.cancelled, t.condition, t.queue = True, condition, []
        pdu, events = self.cancel_eof()
        return pdu, events + event

    # -- burst

    def burst(self, expired, count, file, room):
        """(refusal, steps): for each step made its PDU, its events and whose they are; the PDUs lie end to end in `room` bytes."""
        if count > 16:
            return 32, []
        made = []
        while len(made) < count:
            first = not made
            refusal, pdu, events = self.step(expired and first, file, room)
            if refusal and first:
                return refusal, []                  # "If the first step is refused, the burst gives that refusal and changes nothing."
            if refusal:
                assert refusal == 31                # the file cannot have changed in between
                break                               # "one that OutTooSmall would refuse for the rest of the buffer is not made"
            made.append((pdu, events, self.who if events else None))
            room -= len(pdu)
            if not pdu:
                break                               # "A step that emits nothing is made and ends the burst"
        return 0, made
