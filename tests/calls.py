"""Lists of calls in the bytes of docs/HOST.md, what the model answers to them, and both as readable lines.

A call is a tuple: ('put', Config, Request, S, source name, destination name), ('deliver', bytes), ('step', expired, lent, room),
('cancel', source id, number), ('reset',), ('burst', expired, count, lent, room), ('lend', place): from here on files are lent from this place of the run's
file on, so that a step can lend other bytes of the same length; ('raw', bytes) for bytes that are no call. A run is a label, the first number, a file and
calls.

One more is for the seam's hosts alone (tests/seam); crate `host` does not know it: ('look',), what the record holds, progress and running checksum.
"""
from model import Entry, Handler, be

ROOM = 4608     # an out buffer is not made longer
LEND, LOOK = 7, 65
EVENTS = {'transaction': 1, 'eof-sent': 2, 'fault': 4, 'finished': 8, 'ack-timer': 16, 'check-timer': 32}


class Run:
    def __init__(self, label, number, file, calls):
        self.label, self.number, self.file, self.calls = label, number, file, list(calls)


# ---- bytes of the calls

def tagged(id):
    return be(1, id[0]) + be(8, id[1])


def entry_bytes(e):
    return tagged(e.id) + be(8, e.packet) + be(8, e.segment) + bytes([e.checksum, e.crc | e.unack << 1 | e.closure << 2, e.limit])


def choice(value):
    return 0 if value is None else 1 + value


def put_bytes(config, request, S, source_name, destination_name):
    filler = Entry((0, 0), 0, 0, 0, limit=0)
    entries = (config.entries + [filler] * 8)[:8]
    return (tagged(config.local) + bytes(config.actions) + bytes([config.eof_sent | config.finished << 1, config.count])
            + b''.join(map(entry_bytes, entries)) + tagged(request.destination) + bytes([choice(request.unack), choice(request.closure)])
            + be(8, S) + be(2, len(source_name)) + source_name + be(2, len(destination_name)) + destination_name)


def call_bytes(call):
    kind, args = call[0], call[1:]
    if kind == 'put':
        return b'\x01' + put_bytes(*args)
    if kind == 'deliver':
        return b'\x02' + be(4, len(args[0])) + args[0]
    if kind == 'step':
        return b'\x03' + be(1, args[0]) + be(4, args[1]) + be(4, args[2])
    if kind == 'cancel':
        return b'\x04' + tagged(args[0]) + tagged(args[1])
    if kind == 'burst':
        return b'\x06' + be(1, args[0]) + be(1, args[1]) + be(4, args[2]) + be(4, args[3])
    if kind == 'lend':
        return be(1, LEND) + be(4, args[0])
    if kind == 'look':
        return be(1, LOOK)
    return b'\x05' if kind == 'reset' else args[0]


def list_bytes(run):
    return tagged(run.number) + b''.join(map(call_bytes, run.calls))


# ---- what the model answers: (name, value..) for each call, last ('end', status)

def answers(run):
    model, given, place = Handler(run.number), [], 0
    for call in run.calls:
        kind, args = call[0], call[1:]
        if kind == 'raw':
            # an unknown kind, or a known one cut short
            return given + [('end', 2 if args[0][0] in range(1, 8) else 1)]
        if kind == 'step':
            refusal, pdu, events = model.step(bool(args[0]), run.file[place:place + args[1]], min(args[2], ROOM))
            given.append(('step', refusal, pdu, events, model.who if events else None))
        elif kind == 'burst':
            given.append(('burst',) + model.burst(bool(args[0]), args[1], run.file[place:place + args[2]], min(args[3], ROOM)))
        elif kind == 'lend':
            place = args[0]
            given.append(call)
        elif kind == 'look':
            given.append(call + model.look())
        elif kind == 'deliver':
            given.append(('deliver',) + model.deliver(*args))
        else:
            given.append((kind, getattr(model, kind)(*args)))
    return given + [('end', 0)]


def answer_bytes(given):
    out = b''
    for a in given:
        if a[0] == 'put':
            out += bytes([1, a[1]])
        elif a[0] == 'deliver':
            out += bytes([2, a[1]]) + be(4, a[2])
        elif a[0] == 'step':
            out += bytes([3, a[1]]) + made_bytes(*a[2:])
        elif a[0] == 'burst':
            out += bytes([6, a[1], len(a[2])]) + b''.join(made_bytes(*made) for made in a[2])
        elif a[0] == 'cancel':
            out += bytes([4, a[1]])
        elif a[0] == 'reset':
            out += b'\x05'
        elif a[0] == 'lend':
            out += be(1, LEND)
        elif a[0] == 'look':
            out += be(1, LOOK) + be(8, a[1]) + be(4, a[2])
        else:
            out += bytes([255, a[1]])
    return out


def made_bytes(pdu, events, who):
    return be(2, len(pdu)) + pdu + event_bytes(events, who)


def event_bytes(events, who):
    if not events:
        return b'\x00'
    out = be(1, sum(EVENTS[e[0]] for e in events)) + tagged(who[0]) + tagged(who[1])
    for e in events:
        if e[0] == 'fault':
            out += bytes(e[1:3]) + be(8, e[3])
        if e[0] == 'finished':
            out += bytes(e[1:])
    return out


# ---- readable lines

def shown(pdu):
    return pdu.hex() or '-'


def made_line(pdu, events, who):
    words = [str(w) for e in events for w in e]
    if words:
        words.append('of %d:%d %d:%d' % (who[0] + who[1]))
    return ' '.join([shown(pdu)] + words)


def answer_line(a):
    """One line, and of a burst one more for each step made."""
    if a[0] == 'step':
        return 'step %d %s' % (a[1], made_line(*a[2:]))
    if a[0] == 'burst':
        return '\n    '.join(['burst %d %d' % (a[1], len(a[2]))] + [made_line(*made) for made in a[2]])
    if a[0] == 'deliver':
        return 'deliver %d %d' % a[1:]
    if a[0] == 'cancel':
        return 'cancel ' + ('yes' if a[1] else 'no')
    if a[0] == 'look':
        return 'look %d %08x' % a[1:]
    return a[0] if a[0] in ('reset', 'lend') else '%s %d' % a


def call_line(call):
    kind, args = call[0], call[1:]
    if kind == 'put':
        config, request, S, source, destination = args
        entries = ', '.join('%d:%d packet %d segment %d checksum %d%s%s%s limit %d' % (
            e.id[0], e.id[1], e.packet, e.segment, e.checksum, ' crc' * e.crc, ' unack' * e.unack, ' closure' * e.closure, e.limit) for e in config.entries)
        return 'put local %d:%d actions %s events %d%d count %d [%s] to %d:%d mode %s closure %s S %d names %s %s' % (
            *config.local, ''.join(map(str, config.actions)), config.eof_sent, config.finished, config.count, entries, *request.destination,
            request.unack, request.closure, S, source[:8], destination[:8])
    if kind == 'deliver':
        return 'deliver ' + shown(args[0])
    if kind == 'step':
        return 'step expired %d lent %d room %d' % args
    if kind == 'burst':
        return 'burst expired %d count %d lent %d room %d' % args
    if kind == 'cancel':
        return 'cancel %d:%d %d:%d' % (args[0] + args[1])
    if kind == 'lend':
        return 'lend %d' % args
    return 'raw ' + shown(args[0]) if kind == 'raw' else kind
