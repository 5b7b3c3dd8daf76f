#!/usr/bin/env python3
"""Runs random lists of calls through the built program `drive` and holds its answers to the model's.

    python3 tests/random_passes.py N SEED [PROGRAM]

N lists, each of about 48,000 bytes: some sixty transactions on one handler over one file, with fill behind many deliveries, which are then delivered from the
reported number on; then N in which other files of the same length are lent within a transaction. PROGRAM is crates/drive/out/drive if not given (./run drive builds it). The first difference is made small by leaving calls out, and printed in
readable form; then the status is 1.
"""
import copy, os, random, subprocess, sys
from calls import LEND, LOOK, Run, answer_bytes, answer_line, answers, call_bytes, call_line, list_bytes
from model import CHECKSUMS, IDLE, Config, Entry, Handler, Header, Request, be, crc16

ROOT = os.path.join(os.path.dirname(os.path.abspath(__file__)), '..')


# ---- random calls, most of them sensible for the state that the model is in

def some_id(rng):
    width = rng.choice([1, 1, 1, 2, 4, 8])
    return width, rng.randrange(256 ** width)


def wider(rng, id):
    """The same value, often in another width that it fits."""
    return rng.choice([w for w in (1, 2, 4, 8) if id[1] < 256 ** w]), id[1]


def some_name(rng):
    n = rng.choice([1, 1, 2, 3, 5, 8, 13] + [60] * (rng.random() < 0.05))
    return ''.join(rng.choice('abcxyz./_é€😀') for _ in range(n)).encode()


def some_entry(rng, id):
    return Entry(id, packet=rng.choice([24, 30, 40, 60, 100, 200]) + rng.randrange(30), segment=rng.choice([1, 2, 4, 7, 16, 33, 64, 5000]),
                 checksum=rng.choice([0, 2, 3, 15]), crc=rng.random() < 0.4, unack=rng.random() < 0.4, closure=rng.random() < 0.5,
                 limit=rng.choice([0, 1, 2, 2, 3, 4, 255]))


def some_put(rng, size):
    local, to = some_id(rng), some_id(rng)
    entries = [some_entry(rng, wider(rng, to))]
    while rng.random() < 0.3 and len(entries) < 8:
        entries.insert(rng.randrange(2), some_entry(rng, some_id(rng)))
    config = Config(local, [rng.choice([1, 1, 3, 4]) for _ in range(16)], rng.random() < 0.8, rng.random() < 0.8, entries)
    mode, closure = rng.choice([None, False, False, True]), rng.choice([None, False, True])
    request = Request(to, mode, closure)
    names = [some_name(rng), some_name(rng)]
    S = min(size, rng.choice([0, 1, 2, 5, 16, 40, 40, 64, 100, 128, 300]) + rng.randrange(3))
    if size > 1000 and rng.random() < 0.6:
        S = rng.randrange(size + 1)
        for e in entries:
            e.packet, e.segment = rng.choice([500, 1024, 4095, 4096]), rng.choice([300, 1000, 4000, 4096, 10 ** 6])
    while rng.random() < 0.12:
        spoil = rng.randrange(11)
        e = rng.choice(entries)
        if spoil == 0:
            config.local = rng.choice([(3, 1), (0, 0), (1, 256), (2, 65536), (9, 1), (4, 2 ** 32)])
        elif spoil == 1:
            request.destination = rng.choice([(5, to[1]), (1, 256), (to[0], to[1] ^ 1)])
        elif spoil == 2:
            e.packet = rng.choice([0, 10, 16, 17, 4096, 4097, 2 ** 64 - 1])
        elif spoil == 3:
            e.segment = rng.choice([0, 2 ** 64 - 1])
        elif spoil == 4:
            e.checksum = rng.choice([1, 4, 5, 14, 16, 255])
        elif spoil == 5:
            config.actions[rng.randrange(16)] = rng.choice([0, 2, 5, 255])
        elif spoil == 6:
            names[rng.randrange(2)] = rng.choice([b'', b'x' * 256, b'y' * 255])
        elif spoil == 7:
            names[rng.randrange(2)] = rng.choice([b'\xc0\x80', b'a\xed\xa0\x80', b'\xff', b'\xe2\x82', b'\xf4\x90\x80\x80'])
        elif spoil == 8:
            config.count = rng.choice([0, 1, 7, 8, 9, 200, 255])
        elif spoil == 9:
            S = rng.choice([2 ** 32 - 1, 2 ** 32, 2 ** 64 - 1])
        else:
            request.destination = entries[-1].id
    return 'put', config, request, S, names[0], names[1]


def some_pair(rng, t, wrong):
    top = t.progress if t else 5
    kind = rng.random()
    if kind < 0.12:
        return 0, 0
    start = rng.randint(0, top)
    if kind < 0.2:
        return start, start
    if kind < 1 - wrong:
        return start, min(top, start + rng.randrange(1, 4 * (t.L if t and t.L < 100 else 20)))
    return rng.choice([(start, top + 1), (start + 1, start), (top + 1, top + 1), (0, 2 ** 31), (1, 0)])


def some_pdu(rng, t):
    """(header, bytes, what the body lacks); a few are cut, or have a wrong bit, or a data field length that is not theirs, and then the CRC, if any, stands where the
    delivery ends."""
    if t is None or rng.random() < 0.04:
        h = Header(some_id(rng), some_id(rng), some_id(rng))
    else:
        ours = t.header
        source, to = wider(rng, (ours.width, ours.source)), wider(rng, (ours.width, ours.destination))
        h = Header(source, wider(rng, ours.number), to)
        while rng.random() < 0.03:
            h.source, h.destination = rng.choice([(h.source ^ 1, h.destination), (h.source, h.destination ^ 1), (h.destination, h.source)])
        if rng.random() < 0.02:
            h.number = h.number[0], h.number[1] ^ 1
        if max(h.source, h.destination) >= 256 ** h.width:
            h.width = 8
    h.unack, h.crc, h.large, h.to_sender = rng.random() < 0.3, rng.random() < 0.5, rng.random() < 0.15, rng.random() < 0.97
    kind = rng.choice('nnnnnnaaaaffffkko')
    if kind == 'n':
        n = rng.choice([0, 1, 1, 2, 3, 5, 8] + [20, 40, 64, 65] * (rng.random() < 0.2))
        pairs = [some_pair(rng, t, 0.001 if n > 10 else 0.02) for _ in range(n)]
        body = b'\x08' + b''.join(be(h.F, min(v, 256 ** h.F - 1)) for pair in [(0, rng.randrange(99))] + pairs for v in pair)
    elif kind == 'a':
        body = b'\x06' + be(1, rng.choice([0x40] * 9 + [0x51, 0x41, 0x50, 0x70])) + be(1, rng.choice([0, 1, 0xF1, 0x12, rng.randrange(256)]))
    elif kind == 'f':
        body = b'\x05' + be(1, rng.choice([0, 2, 0xF7, rng.randrange(256)]))
        while rng.random() < 0.3:
            value = rng.randbytes(rng.randrange(4))
            body += be(1, rng.choice([1, 6, 6, 2])) + be(1, len(value)) + value
    elif kind == 'k':
        body = b'\x0c' + be(h.F, rng.randrange(300))
    else:
        body = be(1, rng.choice([4, 7, 9, 0, 10, 11, 13, 255])) + rng.randbytes(rng.randrange(9))
    whole = body
    if rng.random() < 0.05:
        body = rng.choice([body[:-1], body[:rng.randrange(len(body))], body + b'\0', b''])
    length = max(len(body) + h.C + rng.choice([-1, 1, 2]), 0) if rng.random() < 0.03 else None
    pdu = bytearray(h.to_bytes(body, file_data=rng.random() < 0.01, length=length))
    if rng.random() < 0.05:
        pdu[rng.randrange(len(pdu))] ^= 1 << rng.randrange(8)
    if rng.random() < 0.01:
        del pdu[rng.randrange(len(pdu)):]
    return h, bytes(pdu), whole[len(body):]


def some_fill(rng, t, h, pdu):
    """What stands behind a PDU: 0 to 300 zeros, 0x55s or any bytes; or what looks like more of it, a pair, a TLV, a byte, its CRC; or a PDU, the same or another."""
    n = rng.choice([rng.randrange(12), rng.randrange(301)])
    more = [be(h.F, 0) + be(h.F, rng.randrange(9)), b'\6\0', b'\1', crc16(pdu), pdu, some_pdu(rng, t)[1]]
    return rng.choice([bytes(n), b'\x55' * n, rng.randbytes(n), rng.choice(more), rng.choice(more) + bytes(n)])


def some_delivery(rng, t):
    """A PDU, often with fill; what its body lacks, if anything, may stand behind it."""
    h, pdu, lacks = some_pdu(rng, t)
    if lacks and rng.random() < 0.5:
        return 'deliver', pdu + lacks
    return 'deliver', pdu + (some_fill(rng, t, h, pdu) if rng.random() < 0.4 else b'')


def some_lent(rng, t):
    lent = t.S if t else rng.randrange(9)
    if rng.random() < 0.03:
        lent = rng.choice([0, lent + 1, max(lent, 1) - 1])
    return min(lent, 2 ** 32 - 1)


def some_step(rng, model):
    t = model.t
    expired = rng.random() < 0.35
    lent = some_lent(rng, t)
    room = 4608
    if rng.random() < 0.3 and t and t.S <= 4096:
        due = len(copy.deepcopy(model).step(expired, bytes(t.S), 4608)[1])
        room = rng.choice([due, due, max(due, 1) - 1, 0, 2 ** 32 - 1])
    return 'step', int(expired), lent, room


def some_burst(rng, model):
    """Often in a buffer that ends where one of its PDUs does, one byte before or one behind."""
    t = model.t
    expired = rng.random() < 0.35
    count = rng.choice([rng.randrange(18), rng.randrange(18), 16]) if rng.random() < 0.95 else rng.choice([18, 32, 255])
    lent = some_lent(rng, t)
    room = rng.choice([4608, 4608, 0, 2 ** 32 - 1])
    if rng.random() < 0.6 and t and t.S <= 4096:
        made = copy.deepcopy(model).burst(expired, 16, bytes(t.S), 4608)[1]
        some = made[:rng.randint(0, min(len(made), count + 1))]
        room = max(sum(len(pdu) for pdu, _, _ in some) + rng.choice([-1, 0, 0, 1]), 0)
    return 'burst', int(expired), count, lent, room


def some_cancel(rng, t):
    if t is None or rng.random() < 0.3:
        return 'cancel', some_id(rng), some_id(rng)
    return 'cancel', wider(rng, (8, t.header.source)), wider(rng, t.header.number)


def some_call(rng, model, size, bursts):
    dice, t = rng.random(), model.t
    if model.at == IDLE and dice < 0.7 or dice < 0.01:
        return some_put(rng, size)
    if dice < 0.012 or t and t.S > size and dice < 0.3:     # a file that cannot be lent
        return ('reset',)
    if dice < 0.04 or model.at == IDLE and dice > 0.95:
        return some_cancel(rng, t)
    if dice < 0.3 or model.at == IDLE and dice > 0.8:
        return some_delivery(rng, t)
    return some_burst(rng, model) if bursts and rng.random() < 0.25 else some_step(rng, model)


def random_run(rng, label, budget, size=None, room=60000, bursts=False):
    """A list of about `budget` bytes whose answers stay below `room`, with bursts among the steps or with none."""
    number = rng.choice([(1, 7), (1, 254), (2, 65534), (2, 300), (4, 2 ** 32 - 2), (8, 2 ** 64 - 2), (1, 0), some_id(rng)])
    file = rng.randbytes(rng.choice([5, 16, 40, 64]) if size is None else size)
    model, calls, used, answered, rest = Handler(number), [], 0, 0, b''
    while used < budget and answered < room:
        call = ('deliver', rest) if rest and rng.random() < 0.4 else some_call(rng, model, len(file), bursts)
        calls.append(call)
        if call[0] == 'step':
            answered += 50 + len(model.step(bool(call[1]), file[:call[2]], min(call[3], 4608))[1])
        elif call[0] == 'burst':
            made = model.burst(bool(call[1]), call[2], file[:call[3]], min(call[4], 4608))[1]
            answered += 3 + sum(50 + len(pdu) for pdu, _, _ in made)
        elif call[0] == 'deliver':
            length = model.deliver(call[1])[1]
            rest = call[1][length:] if length else b''
            answered += 6
        else:
            getattr(model, call[0])(*call[1:])
            answered += 2
        used += len(call_bytes(call))
    return Run(label, number, file, calls)


# ---- other files of the same length

def with_changes(rng, run, looks):
    """The same calls over a file three times as long, of which a part is lent: in front of some calls another part than before. And looks at the record, if these
    are wanted. What is lent has no say in which calls are sensible, so they still are."""
    size, often = len(run.file), rng.choice([0.02, 0.1, 0.4])
    calls = []
    for call in run.calls:
        if rng.random() < often:
            calls.append(('lend', rng.randrange(2 * size + 1)))
        calls.append(call)
        if looks and rng.random() < 0.2:
            calls.append(('look',))
    return Run(run.label, run.number, run.file + rng.randbytes(2 * size), calls)


def is_eof(pdu):
    return bool(pdu) and not pdu[0] & 0x10 and pdu[4 + 2 * ((pdu[3] >> 4) % 8 + 1) + pdu[3] % 8 + 1] == 4


def mixed_eofs(run):
    """How many EOFs carry another checksum than the file that is lent with them would give: without such a list these would not be told apart."""
    model, place, count = Handler(run.number), 0, 0
    for call in run.calls:
        kind, args, t = call[0], call[1:], model.t
        if kind == 'lend':
            place = args[0]
        elif kind == 'step':
            lent = run.file[place:place + args[1]]
            pdus = [model.step(bool(args[0]), lent, min(args[2], 4608))[1]]
        elif kind == 'burst':
            lent = run.file[place:place + args[2]]
            pdus = [pdu for pdu, _, _ in model.burst(bool(args[0]), args[1], lent, min(args[3], 4608))[1]]
        else:
            getattr(model, kind)(*args)
        if kind in ('step', 'burst') and any(map(is_eof, pdus)):
            count += t.sum != CHECKSUMS[t.checksum](lent[:t.progress])
    return count


def with_fill(run, given):
    """How many deliveries hold more than their PDU."""
    return sum(call[0] == 'deliver' and 0 < answer[2] < len(call[1]) for call, answer in zip(run.calls, given))


# ---- the program

def built(name, path=None):
    """The words that start a program: the one at `path`, or the one of that name as `rt run` built it. Programs are for x86-64."""
    path = os.path.abspath(path or os.path.join(ROOT, 'crates', name, 'out', name))
    if not os.path.exists(path):
        raise SystemExit('%s is not built: ./run %s < /dev/null' % (name, name))
    return [path]


def driven(program, run):
    """The program's answers; `program` is the words that start it."""
    done = subprocess.run(program, input=be(4, len(run.file)) + run.file + list_bytes(run), stdout=subprocess.PIPE, check=True)
    return done.stdout


def differs(program, run):
    return driven(program, run) != answer_bytes(answers(run))


def smaller(program, run):
    """The same difference with as few calls as leaving some out can make it."""
    part = max(len(run.calls) // 2, 1)
    while True:
        at = 0
        while at < len(run.calls):
            less = Run(run.label, run.number, run.file, run.calls[:at] + run.calls[at + part:])
            if differs(program, less):
                run = less
            else:
                at += part
        if part == 1:
            return run
        part = max(part // 2, 1)


def records(answer):
    """The handler's answers cut into records, one for each call."""
    out, at = [], 0
    while at < len(answer):
        kind, n = answer[at], 2
        if kind in (5, LEND):
            n = 1
        if kind == 2:
            n = 6
        if kind == LOOK:
            n = 13
        if kind == 3:
            n = 2 + made_length(answer, at + 2)
        if kind == 6:
            n = 3
            for _ in range(answer[at + 2] if at + 2 < len(answer) else 0):
                n += made_length(answer, at + n)
        out.append(answer[at:at + n])
        at += n
    return out


def made_length(answer, at):
    """How many bytes tell a step that was made: the PDU's length, the PDU, the events."""
    length = int.from_bytes(answer[at:at + 2], 'big')
    flags = answer[at + 2 + length] if at + 2 + length < len(answer) else 0
    return 3 + length + (18 if flags else 0) + (10 if flags & 4 else 0) + (3 if flags & 8 else 0)


def show(program, run):
    run = smaller(program, run)
    print('handler made with %d:%d, file of %d bytes: %s' % (*run.number, len(run.file), run.file[:40].hex()))
    given = answers(run)
    for call, want, got in zip(run.calls + [('end',)], given, records(driven(program, run))):
        print(call_line(call) if call[0] != 'end' else 'end')
        print('    model   ' + answer_line(want))
        if answer_bytes([want]) != got:
            print('    handler ' + got.hex() + '\n    wanted  ' + answer_bytes([want]).hex())
            return


def compare(program, count, seed, changes=False, looks=False):
    """1 if a list differs. `program` is the words that start it."""
    calls = puts = bursted = filled = changed = mixed = 0
    for k in range(count):
        rng = random.Random(seed * 1000003 + k)
        run = random_run(rng, '', 48000, rng.choice([5, 64, 200, 300, 300, 6000]), bursts=True)
        if changes:
            run = with_changes(rng, run, looks)
            changed += sum(c[0] == 'lend' for c in run.calls)
            mixed += mixed_eofs(run)
        given = answers(run)
        if driven(program, run) != answer_bytes(given):
            print('list %d differs' % k)
            show(program, run)
            return 1
        calls += len(run.calls)
        puts += sum(c[0] == 'put' for c in run.calls)
        bursted += sum(c[0] == 'burst' for c in run.calls)
        filled += with_fill(run, given)
    said = ', the file changed %d times, %d EOFs with a checksum that the file lent then does not have' % (changed, mixed) if changes else ''
    print('%d lists, %d calls, %d of them puts, %d bursts and %d deliveries of a PDU with bytes behind it%s: all as the model says' % (
        count, calls, puts, bursted, filled, said), flush=True)
    return int(count > 0 and not (filled and (mixed or not changes)))       # lists that could not tell count for nothing


def main():
    program = built('drive', *sys.argv[3:4])
    count, seed = int(sys.argv[1]), int(sys.argv[2])
    return compare(program, count, seed) or compare(program, count, seed, changes=True)


if __name__ == '__main__':
    sys.exit(main())
