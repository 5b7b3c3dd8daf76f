"""Runs of cfdp-rs's source.rs, and the calls of our handler that each lines up with. tests/compare and tests/make_beside.py share it.

A run is a list of (line, answer): a line that the harness got (tests/cfdp-rs/harness) and the lines that it printed for it. In an answer: P a PDU,
E an event, in the order of the handler's own calls, = the result, and last . with state and step, or ! with a panic's message.
"""
import os

SAMPLE = os.path.join(os.path.dirname(os.path.abspath(__file__)), 'cfdp-rs', 'sample.txt')


def u(n, v):
    return v.to_bytes(n, 'big')


# ---- what the Rust answered

def sent(answer):
    return [a[2:] for a in answer if a[0] == 'P']


def told(answer):
    return [a[2:] for a in answer if a[0] == 'E' and not a.startswith('E timer')]


def timers(answer):
    return [a[2:] for a in answer if a.startswith('E timer')]


ERRORS = {'AlreadyBusy': 1, 'NoRemoteCfgFound': 3, 'SourceFileNotValidUtf8': 6, 'DestFileNotValidUtf8': 7, 'CantProcessPacketType': 21, 'UnexpectedPdu': 22,
          'InvalidNakPdu': 24}


def result(answer):
    """What a Rust call answered, in our words where there is one."""
    if answer[-1][0] == '!':
        return ['panic: ' + answer[-1][2:]]
    r = [a[2:] for a in answer if a[0] == '=']
    if not r or r[0] in ('Ok(true)', 'Ok(false)'):
        return ['yes' if x == 'Ok(true)' else 'no' for x in r]
    return [] if r[0].startswith('Ok(') else ['refused %d' % n for e, n in ERRORS.items() if r[0].startswith('Err(' + e)] or r


def refused(run):
    """Calls that the domain doesn't have: the Rust refused or panicked."""
    return [(line, answer) for line, answer in run if answer and [x for x in result(answer) if x not in ('yes', 'no')]]


# ---- the calls of ours

def keys(line):
    return dict(w.split('=', 1) for w in line.split()[1:])


def wide(width, value):
    return u(1, int(width)) + u(8, int(value))


def entry_bytes(e):
    flags = int(e['crc']) | (e['mode'] == 'un') << 1 | int(e['closure']) << 2
    segment = 2 ** 64 - 1 if e['seg'] == '-' else int(e['seg'])
    return wide(e['ew'], e['id']) + u(8, int(e['max'])) + u(8, segment) + bytes([int(e['ck']), flags, int(e['limit'])])


def put_bytes(k, entries, size, nosrc):
    actions = [int(a) for a in k['actions'].split(',')]
    table = b''.join(entry_bytes(e) for e in entries).ljust(8 * 28, b'\0')
    config = wide(k['w'], k['src']) + bytes(actions) + bytes([int(k['events']), len(entries)]) + table
    mode, closure = {'-': 0, 'ack': 1, 'un': 2}[k['mode']], {'-': 0, '0': 1, '1': 2}[k['closure']]
    names = [b'' if nosrc else bytes.fromhex(k['name']), bytes.fromhex(k['dname'])]
    return b'\1' + config + wide(k['dw'], k['dst']) + bytes([mode, closure]) + u(8, size) + b''.join(u(2, len(n)) + n for n in names)


class OurCalls:
    """The calls of ours, as docs/HOST.md has them: `number` and `file`; and for each call of the Rust its verb, our bytes, and how many steps are in them.
    Of a file behind the first the verb is `lend`: it stands behind the others in `file`, and is lent from its place on.

    The Rust's calls send 0, 1 or 2 PDUs, and a delivery also steps: a call that sent k PDUs is max(k, 1) of our steps, a delivery
    that many after it; the Rust's cancel sends at once, so ours is a cancel and, if accepted, one step. Expiry is a level: `expire` shows it to every
    step until a timer starts or the step leaves WaitingForEofAck for WaitingForFinished, both by the Rust's own lines.
    """

    def __init__(self, run):
        self.keys = keys(run[0][0])
        self.entries = [keys(line) for line, _ in run if line.startswith('entry ')]
        self.number, self.file, self.calls = wide(self.keys['sw'], self.keys['seq']), b'', []
        size, lent, expired, was = 0, 0, False, 'Idle'
        for line, answer in run:
            verb, _, rest = line.partition(' ')
            if verb in ('case', 'entry'):
                continue
            if verb == 'size':
                size = int(rest)
            if verb == 'file':
                size = lent = len(rest) // 2
                verb, rest = ('lend', len(self.file)) if self.file else (verb, rest)
                self.file += bytes.fromhex(line[5:])
            now = answer[-1].split()[-1]
            if verb == 'expire':
                expired = True
            elif verb == 'deliver' and was == 'WaitingForEofAck' and now == 'WaitingForFinished':
                expired = False                                 # the ack timer is stopped
            call, steps = self.call(verb, rest, size), self.steps(verb, answer)
            step = b'\3' + bytes([expired]) + u(4, lent) + u(4, 4608)
            self.calls.append((verb, call + step * steps, steps))
            if timers(answer):
                expired = False
            was = now

    def call(self, verb, rest, size):
        """Our call in front of the steps, if there is one."""
        if verb == 'put':
            return put_bytes(self.keys, self.entries, size, rest == 'nosrc')
        if verb == 'deliver':
            return b'\2' + u(4, len(rest) // 2) + bytes.fromhex(rest)
        if verb == 'cancel':
            return b'\4' + wide(self.keys['w'], self.keys['src']) + wide(self.keys['sw'], rest)
        if verb == 'lend':
            return b'\7' + u(4, rest)
        return b'\5' if verb == 'reset' else b''

    def steps(self, verb, answer):
        if verb == 'cancel':
            return int('= Ok(true)' in answer)
        if verb == 'deliver' and result(answer):                # a refused one does not step
            return len(sent(answer))
        return max(len(sent(answer)), 1) if verb in ('step', 'deliver') else 0

    def bytes(self):
        return self.number + b''.join(call for _, call, _ in self.calls)


# ---- the stored sample

def stored_runs():
    """The runs of the sample, each with its label."""
    label, run = None, []
    for line in open(SAMPLE).read().splitlines():
        if line.startswith('run '):
            if run:
                yield label, run
            label, run = line[4:], []
        elif line.startswith('> '):
            run.append((line[2:], []))
        elif not line.startswith('#'):
            run[-1][1].append(line)
    yield label, run
