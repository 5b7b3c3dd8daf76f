#!/usr/bin/env python3
"""Answers of a receiver, for the program `send`: each PDU behind two bytes of its length, highest first.

    python3 tests/make_answers.py OUT WORD ..

The words, in the order in which the answers are to be delivered:

    from=1 to=2 number=7 idwidth=1 seqwidth=1 crc=no    the transaction, for the words behind it
    nak=0-0,8-32    a NAK with these requests; 0-0 asks for the metadata
    ack             ACK of EOF, no error
    finished        Finished, no error, data complete, file retained
    fill=5          so many bytes 0x55 behind the answer before this word, in the same frame

With no word at all it writes the demo: crates/send/data/notes.answers, and crates/send/stdout, the pass that document 01 asks for, PDU by PDU.
Everything is computed from document 01's layouts by Python alone; no code is shared with the crates.
"""
import os, sys

HERE = os.path.dirname(os.path.abspath(__file__))
SEND = os.path.join(HERE, '..', 'crates', 'send')


def u(n, v):
    return v.to_bytes(n, 'big')


def crc16(b):
    c = 0xFFFF
    for x in b:
        c ^= x << 8
        for _ in range(8):
            c = (c << 1 ^ 0x1021 if c & 0x8000 else c << 1) & 0xFFFF
    return c


def pdu(t, body, filedata=0, tosender=0):
    """Acknowledged mode, Normal."""
    crc = 2 if t['crc'] == 'yes' else 0
    i, n = int(t['idwidth']), int(t['seqwidth'])
    b = bytes([1 << 5 | filedata << 4 | tosender << 3 | crc]) + u(2, len(body) + crc) + bytes([(i - 1) << 4 | n - 1])
    b += u(i, int(t['from'])) + u(n, int(t['number'])) + u(i, int(t['to'])) + body
    return b + u(2, crc16(b)) if crc else b


# ---- what a receiver answers

def nak(t, requests):
    scope = max(end for _, end in requests)
    return pdu(t, b'\x08' + u(4, 0) + u(4, scope) + b''.join(u(4, s) + u(4, e) for s, e in requests), tosender=1)


def ack_of_eof(t):
    return pdu(t, bytes([6, 0x40, 0x01]), tosender=1)


def finished(t):
    return pdu(t, bytes([5, 0x02]), tosender=1)


def fill(word):
    return b'\x55' * int(word.partition('=')[2])


def pairs(text):
    return [tuple(int(x) for x in p.split('-')) for p in text.split(',')]


def answer(t, word):
    """The PDU of a word, or None where the word only sets a number."""
    key, _, value = word.partition('=')
    if key in t:
        t[key] = value
        return None
    if key == 'nak':
        return nak(t, pairs(value))
    if word == 'ack':
        return ack_of_eof(t)
    if word == 'finished':
        return finished(t)
    sys.exit('make_answers.py: unknown word: ' + word)


def write(path, b):
    with open(path, 'wb') as f:
        f.write(b)


def transaction():
    return {'from': '1', 'to': '2', 'number': '7', 'idwidth': '1', 'seqwidth': '1', 'crc': 'no'}


def answers(out, words):
    t, found = transaction(), []
    for word in words:
        if word.startswith('fill=') and found:
            found[-1] += fill(word)
        else:
            b = answer(t, word)
            found += [] if b is None else [b]
    write(out, b''.join(u(2, len(b)) + b for b in found))


# ---- the demo

L = 8


def line(arrow, b, said):
    text = arrow + ' ' + b.hex()
    return text.ljust(43) + ' ' + said + '\n'


def metadata(t, name, size, more=''):
    b = pdu(t, bytes([7, 0]) + u(4, size) + 2 * (bytes([len(name)]) + name.encode()))
    return line('->', b, 'Metadata "%s" -> "%s", %d bytes%s' % (name, name, size, more))


def pieces(t, file, start, end, more=''):
    """Lengths L and a last rest."""
    text = ''
    for at in range(start, end, L):
        to = min(at + L, end)
        text += line('->', pdu(t, u(4, at) + file[at:to], filedata=1), 'File data %d..%d%s' % (at, to, more))
    return text


def modular(file):
    padded = file + bytes(-len(file) % 4)
    return sum(int.from_bytes(padded[i:i + 4], 'big') for i in range(0, len(padded), 4)) % 2 ** 32


def repairs(t, name, file, requests):
    text = ''
    for start, end in requests:
        if end == 0:
            text += metadata(t, name, len(file), ', again')
        else:
            text += pieces(t, file, start, end, ', again')
    return text


def demo():
    name, t = 'notes.txt', transaction()
    with open(os.path.join(SEND, 'data', name), 'rb') as f:
        file = f.read()
    size = len(file)
    first, second = '0-0,8-32,40-45,%d-%d' % (size - 2, size), '16-24'
    # the second answer comes too early and is refused; the third has fill behind it
    answers(os.path.join(SEND, 'data', 'notes.answers'), ['nak=' + first, 'finished', 'ack', 'fill=5', 'nak=' + second, 'finished'])
    done = 'no error, data complete, file retained'
    out = metadata(t, name, size) + pieces(t, file, 0, size)
    out += line('->', pdu(t, bytes([4, 0]) + u(4, modular(file)) + u(4, size)), 'EOF no error, %d bytes, checksum %08x' % (size, modular(file)))
    out += line('<-', nak(t, pairs(first)), 'NAK for metadata, 8..32, 40..45, %d..%d' % (size - 2, size))
    out += repairs(t, name, file, pairs(first))
    out += line('<-', finished(t), 'Finished, ' + done + ', refused: 22 UnexpectedPdu')
    out += line('<-', ack_of_eof(t) + fill('fill=5'), 'ACK of EOF')
    out += line('<-', nak(t, pairs(second)), 'NAK for 16..24')
    out += repairs(t, name, file, pairs(second))
    out += line('<-', finished(t), 'Finished, ' + done)
    out += line('->', pdu(t, bytes([6, 0x51, 0x01])), 'ACK of Finished, no error')
    write(os.path.join(SEND, 'stdout'), out.encode())


if len(sys.argv) > 1:
    answers(sys.argv[1], sys.argv[2:])
else:
    demo()
