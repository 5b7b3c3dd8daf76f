#!/usr/bin/env python3
"""Makes the vectors that the program `vectors` runs: crates/vectors/stdin, and what it must print, crates/vectors/stdout.

    python3 tests/make_vectors.py

Everything here is computed from document 01, CCSDS 727.0-B-5 and RFC 3629 by Python alone (binascii, zlib, its own UTF-8 decoder); no code is
shared with the crates. A record is: kind, length of the label, label, then by kind (numbers big-endian, 'blob' = 2 bytes of length and the bytes):

    1 UTF-8       blob; 1 byte: valid
    2 checksum    type; 4 bytes n; blob; 1 byte: known type; 4 bytes: the sum over the first n bytes
    3 CRC-16      blob; 2 bytes
    4 Metadata    head; closure; type; 8 bytes size; blob source; blob destination; blob: the PDU
    5 file data   head; 8 bytes offset; blob; blob: the PDU
    6 EOF         head; condition; 4 bytes sum; 8 bytes size; blob: the PDU
    7 ACK         head; condition; status; blob: the PDU (of Finished)
    8 delivery    blob; 3 bytes: how many of them are the PDU's, 0 if it is 20; answer (20, 21, or 0 and a meaning: 5 condition delivery status, 6, 8 with 2
                  bytes of count and pairs of 8 bytes each, 12 with 8 bytes)
    head: flags (1 unacknowledged, 2 CRC, 4 large), id width, 8 bytes source, sequence width, 8 bytes number, 8 bytes destination
"""
import binascii, os, struct, zlib

HERE = os.path.dirname(os.path.abspath(__file__))
OUT = os.path.join(HERE, '..', 'crates', 'vectors')
records, lines = [], []


def u(n, v):
    return v.to_bytes(n, 'big')


def blob(b):
    return u(2, len(b)) + b


def add(kind, label, body):
    records.append(bytes([kind, len(label)]) + label.encode() + body)
    lines.append(label + ': ok')


# ---- UTF-8

def valid(b):
    try:
        b.decode('utf-8', 'strict')
        return 1
    except UnicodeDecodeError:
        return 0


def utf8(b):
    add(1, 'utf8 ' + (b.hex(' ').upper() or '(empty)'), blob(b) + u(1, valid(b)))


for b in [b'', b'a', b'\0', b'\x7f', b'\x80', b'\xbf', b'\xc0\x80', b'\xc1\xbf', b'\xc2', b'\xc2\x7f', b'\xc2\x80', b'\xc2\xbf', b'\xc2\xc0', b'\xdf\xbf',
          b'\xe0\x80\x80', b'\xe0\x9f\xbf', b'\xe0\xa0', b'\xe0\xa0\x7f', b'\xe0\xa0\x80', b'\xe0\xbf\xbf', b'\xe1\x80\x80', b'\xec\xbf\xbf', b'\xed\x80\x80',
          b'\xed\x9f\xbf', b'\xed\xa0\x80', b'\xed\xbf\xbf', b'\xee\x80\x80', b'\xef\xbf\xbe', b'\xef\xbf\xbf', b'\xf0\x80\x80\x80', b'\xf0\x8f\xbf\xbf',
          b'\xf0\x90\x80\x80', b'\xf0\x90\x80', b'\xf0\x9f\x98\x80', b'\xf1\x80\x80\x80', b'\xf3\xbf\xbf\xbf', b'\xf4\x80\x80\x80', b'\xf4\x8f\xbf\xbf',
          b'\xf4\x90\x80\x80', b'\xf5\x80\x80\x80', b'\xff', b'a\xc3\xa9\xe2\x82\xac\xf0\x9f\x98\x80z', b'a\xc3\xa9\xe2\x82']:
    utf8(b)


# ---- checksums

def modular(b):
    return sum(int.from_bytes(b[i:i + 4].ljust(4, b'\0'), 'big') for i in range(0, len(b), 4)) % 2 ** 32


def reflected(poly, b):
    p, c = int(f'{poly:032b}'[::-1], 2), 0xFFFFFFFF
    for x in b:
        c ^= x
        for _ in range(8):
            c = c >> 1 ^ (p if c & 1 else 0)
    return c ^ 0xFFFFFFFF


def checksum(kind, b):
    return {0: modular, 2: lambda b: reflected(0x1EDC6F41, b), 3: zlib.crc32, 15: lambda b: 0}[kind](b)


def summed(label, kind, n, b):
    known = kind in (0, 2, 3, 15)
    add(2, label, u(1, kind) + u(4, n) + blob(b) + u(1, known) + u(4, checksum(kind, b[:n]) if known else 0))


check9 = b'123456789'
assert zlib.crc32(check9) == 0xCBF43926 and reflected(0x04C11DB7, check9) == 0xCBF43926
assert checksum(2, check9) == 0xE3069283 and binascii.crc_hqx(check9, 0xFFFF) == 0x29B1
for kind in (0, 1, 2, 3, 4, 14, 15, 16, 255):
    summed(f'sum type {kind} of "123456789"', kind, 9, check9)
for n in range(10):
    summed(f'modular sum of {n} bytes', 0, n, bytes([0xFF - k for k in range(10)]))
summed('modular sum that wraps', 0, 12, b'\xff' * 12)
summed('sum past the end is of the whole', 3, 4000000000, check9)
for n in (0, 1, 255):
    summed(f'CRC-32C of {n} bytes', 2, n, bytes(range(256)))
add(3, 'CRC-16 of "123456789"', blob(check9) + u(2, 0x29B1))
add(3, 'CRC-16 of nothing', blob(b'') + u(2, 0xFFFF))
add(3, 'CRC-16 of 300 bytes', blob(bytes(k % 256 for k in range(300))) + u(2, binascii.crc_hqx(bytes(k % 256 for k in range(300)), 0xFFFF)))


# ---- PDUs

class Head:
    def __init__(self, unack=1, crc=0, large=0, idw=1, source=1, seqw=1, number=7, destination=2):
        self.__dict__.update(locals())

    @property
    def F(self):
        return 8 if self.large else 4

    def given(self):
        return (u(1, self.unack | self.crc << 1 | self.large << 2) + u(1, self.idw) + u(8, self.source) + u(1, self.seqw) + u(8, self.number)
                + u(8, self.destination))

    def pdu(self, body, filedata=0, tosender=0, version=1, crcwrong=0, extra=0, widths=None):
        n = len(body) + 2 * self.crc
        bits = f'{version:03b}{filedata}{tosender}{self.unack}{self.crc}{self.large}'
        third = f'0{self.idw - 1:03b}0{self.seqw - 1:03b}' if widths is None else widths
        b = bytes([int(bits, 2)]) + u(2, n + extra) + bytes([int(third, 2)])
        b += u(self.idw, self.source) + u(self.seqw, self.number) + u(self.idw, self.destination) + body
        if self.crc:
            b += u(2, binascii.crc_hqx(b, 0xFFFF) ^ crcwrong)
        return b


def metadata(label, h, closure, kind, size, src, dst):
    body = b'\7' + bytes([closure << 6 | kind]) + u(h.F, size) + bytes([len(src)]) + src + bytes([len(dst)]) + dst
    add(4, 'metadata ' + label, h.given() + bytes([closure, kind]) + u(8, size) + blob(src) + blob(dst) + blob(h.pdu(body)))
    return h.pdu(body)


def data(label, h, offset, b):
    pdu = h.pdu(u(h.F, offset) + b, filedata=1)
    add(5, 'file data ' + label, h.given() + u(8, offset) + blob(b) + blob(pdu))
    return pdu


def eof(label, h, condition, total, size):
    pdu = h.pdu(b'\4' + bytes([condition << 4]) + u(4, total) + u(h.F, size))
    add(6, 'EOF ' + label, h.given() + u(1, condition) + u(4, total) + u(8, size) + blob(pdu))
    return pdu


def ack(label, h, condition, status):
    pdu = h.pdu(b'\6\x51' + bytes([condition << 4 | status]))
    add(7, 'ACK ' + label, h.given() + bytes([condition, status]) + blob(pdu))
    return pdu


plain = Head()
assert metadata('M1', plain, 0, 0, 5, b'a', b'b').hex() == '24000a00010702070000000005016101' + '62'
assert data('M2', plain, 0, b'ABCD').hex() == '340008000107020000000041424344'
assert data('M3', plain, 4, b'E').hex() == '340005000107020000000445'
assert eof('M4', plain, 0, 0x86424344, 5).hex() == '24000a00010702040086424344' + '00000005'
assert ack('M8', Head(unack=0), 0, 1).hex() == '20000300010702065101'

widths = [(i, s) for i in (1, 2, 4, 8) for s in (1, 2, 4, 8)]
for i, s in widths:
    for crc in (0, 1):
        large = crc ^ (i > 2)
        h = Head(unack=crc, crc=crc, large=large, idw=i, seqw=s, source=2 ** (8 * i) - 1, number=2 ** (8 * s) - 2, destination=2 ** (8 * i - 1))
        tag = f'widths {i} and {s}, CRC {crc}, large {large}'
        size = 2 ** (8 * h.F) - 1
        metadata(tag, h, crc, 3, size, b'from', b'to')
        data(tag, h, size - 1, b'\x5a')
        eof(tag, h, 15, 0xDEADBEEF, size)
        ack(tag, h, 4, 2)
long = bytes(97 + k % 26 for k in range(255))
metadata('names of 255', plain, 0, 15, 0, long, long)
metadata('names of 1 and 255, closure, CRC', Head(crc=1), 1, 2, 9, b'x', long)
for c in range(16):
    eof(f'condition {c}', Head(unack=c % 2, crc=c // 2 % 2), c, c, c)
    ack(f'condition {c}', Head(unack=0, crc=c % 2), c, c % 4)
data('empty', plain, 0, b'')
data('256 bytes, CRC', Head(crc=1), 70000, bytes(range(256)))


# ---- deliveries

def delivery(label, pdu, answer, fill=b'', own=None):
    """`own` bytes are the PDU's: all of `pdu` if not said, none if it is Malformed."""
    length = 0 if answer == MALFORMED else len(pdu) if own is None else own
    add(8, 'delivery ' + label, blob(pdu + fill) + u(3, length) + answer)


MALFORMED, CANT = b'\x14', b'\x15'


def finished(c, d, s):
    return bytes([0, 5, c, d, s])


ACKEOF = bytes([0, 6])


def nak(pairs):
    return bytes([0, 8]) + u(2, len(pairs)) + b''.join(u(8, a) + u(8, b) for a, b in pairs)


def keep(p):
    return bytes([0, 12]) + u(8, p)


back = dict(tosender=1)
h = Head(unack=0)
delivery('Finished', h.pdu(b'\5\2', **back), finished(0, 0, 2))
delivery('Finished, all bits', h.pdu(b'\5\xff', **back), finished(15, 1, 3))
delivery('Finished with TLVs 1 and 6', h.pdu(b'\5\x47\6\1\x09\1\0\6\2ab', **back), finished(4, 1, 3))
delivery('Finished with a TLV of type 2', h.pdu(b'\5\2\2\1a', **back), MALFORMED)
delivery('Finished with a lone type byte', h.pdu(b'\5\2\1', **back), MALFORMED)
delivery('Finished with a TLV that runs past the body', h.pdu(b'\5\2\1\3ab', **back), MALFORMED)
delivery('Finished with a TLV of 255', h.pdu(b'\5\2\1\xff' + long, **back), finished(0, 0, 2))
delivery('Finished with a TLV of 255, one byte short', h.pdu(b'\5\2\1\xff' + long[1:], **back), MALFORMED)
delivery('Finished without its byte', h.pdu(b'\5', **back), MALFORMED)
for c in range(16):
    delivery(f'Finished condition {c}', h.pdu(bytes([5, c << 4]), **back), MALFORMED if c in (12, 13) else finished(c, 0, 0))
    delivery(f'ACK of EOF condition {c}', h.pdu(bytes([6, 0x40, c << 4 | c % 4]), **back), MALFORMED if c in (12, 13) else ACKEOF)
delivery('ACK of Finished', h.pdu(b'\6\x51\1', **back), CANT)
delivery('ACK of Finished, reserved condition', h.pdu(b'\6\x51\xc1', **back), MALFORMED)
delivery('ACK of EOF with subtype 1', h.pdu(b'\6\x41\1', **back), MALFORMED)
delivery('ACK of Finished with subtype 0', h.pdu(b'\6\x50\1', **back), MALFORMED)
delivery('ACK of Metadata', h.pdu(b'\6\x70\1', **back), MALFORMED)
delivery('ACK too short', h.pdu(b'\6\x40', **back), MALFORMED)
delivery('ACK too long', h.pdu(b'\6\x40\1\0', **back), MALFORMED)
delivery('ACK towards the receiver', h.pdu(b'\6\x40\1'), CANT)
delivery('ACK towards the receiver, too long', h.pdu(b'\6\x40\1\0'), MALFORMED)


def nakbody(F, pairs, scope=(0, 99)):
    return b'\x08' + u(F, scope[0]) + u(F, scope[1]) + b''.join(u(F, a) + u(F, b) for a, b in pairs)


delivery('NAK without a pair', h.pdu(nakbody(4, []), **back), nak([]))
delivery('NAK of pairs (0, 4), (0, 0)', h.pdu(nakbody(4, [(0, 4), (0, 0)]), **back), nak([(0, 4), (0, 0)]))
delivery('NAK, large, CRC, widths 8', Head(unack=0, crc=1, large=1, idw=8, seqw=8).pdu(nakbody(8, [(2 ** 64 - 2, 2 ** 64 - 1), (1, 2)]), **back),
         nak([(2 ** 64 - 2, 2 ** 64 - 1), (1, 2)]))
pairs41 = [(k * 100, k * 100 + 1 + k) for k in range(41)]
delivery('NAK of 41 pairs', h.pdu(nakbody(4, pairs41), **back), nak(pairs41))
delivery('NAK without its scope', h.pdu(nakbody(4, [])[:-1], **back), MALFORMED)
delivery('NAK with half a pair', h.pdu(nakbody(4, [(0, 4)])[:-4], **back), MALFORMED)
delivery('NAK one byte over', h.pdu(nakbody(4, [(0, 4)]) + b'\0', **back), MALFORMED)
delivery('Keep Alive', h.pdu(b'\x0c' + u(4, 77), **back), keep(77))
delivery('Keep Alive, large', Head(unack=0, large=1).pdu(b'\x0c' + u(8, 2 ** 40), **back), keep(2 ** 40))
delivery('Keep Alive too short', h.pdu(b'\x0c' + u(3, 77), **back), MALFORMED)
delivery('Keep Alive too long', h.pdu(b'\x0c' + u(5, 77), **back), MALFORMED)
for code in range(256):
    want = CANT if code in (4, 7, 9) else MALFORMED
    delivery(f'code {code} alone', h.pdu(bytes([code]), **back), want)
delivery('no code byte', h.pdu(b'', **back), MALFORMED)
delivery('file data, empty', h.pdu(b'', filedata=1, **back), CANT)
delivery('file data towards the receiver', h.pdu(b'\0\0\0\0abc', filedata=1), CANT)
delivery('EOF towards the receiver', h.pdu(b'\4\0\0\0\0\0\0\0\0\0'), CANT)
good = Head(unack=0, crc=1)
delivery('ACK with CRC', good.pdu(b'\6\x40\1', **back), ACKEOF)
delivery('ACK with a wrong CRC', good.pdu(b'\6\x40\1', crcwrong=1, **back), MALFORMED)
delivery('file data with a wrong CRC', good.pdu(b'\0\0\0\0', filedata=1, crcwrong=0x8000, **back), MALFORMED)
delivery('CRC flag, data field of 1', b'\x2a\0\1\0\1\7\2\6', MALFORMED)
delivery('CRC flag, data field of 0', b'\x2a\0\0\0\1\7\2', MALFORMED)
whole = h.pdu(b'\6\x40\1', **back)
for n in range(len(whole)):
    delivery(f'ACK cut to {n} bytes', whole[:n], MALFORMED)
delivery('length field one more', h.pdu(b'\6\x40\1', extra=1, **back), MALFORMED)
delivery('length field one more, a byte behind', h.pdu(b'\6\x40\1', extra=1, **back), MALFORMED, b'\0')
delivery('length field one less', h.pdu(b'\6\x40\1', extra=-1, **back), MALFORMED)
delivery('file data, length field one less', h.pdu(b'abc', filedata=1, extra=-1, **back), CANT, own=9)
for name, fill in [('a byte', b'\0'), ('300 zeros', bytes(300)), ('300 of 0x55', b'\x55' * 300), ('an ACK', whole), ('an ACK cut short', whole[:-1])]:
    delivery(f'ACK with {name} behind', whole, ACKEOF, fill)
    delivery(f'ACK with CRC, {name} behind', good.pdu(b'\6\x40\1', **back), ACKEOF, fill)
    delivery(f'ACK of Finished with {name} behind', h.pdu(b'\6\x51\1', **back), CANT, fill)
    delivery(f'file data, empty, {name} behind', h.pdu(b'', filedata=1, **back), CANT, fill)
    delivery(f'{name} alone', fill, MALFORMED if fill != whole else ACKEOF)
delivery('NAK with a pair behind', h.pdu(nakbody(4, [(0, 4)]), **back), nak([(0, 4)]), u(4, 1) + u(4, 2))
delivery('NAK without a pair, one behind', h.pdu(nakbody(4, []), **back), nak([]), u(4, 1) + u(4, 2))
delivery('NAK with half a pair, the rest behind', h.pdu(nakbody(4, [(0, 4)])[:-4], **back), MALFORMED, u(4, 4))
delivery('NAK, large, CRC, widths 8, a pair behind', Head(unack=0, crc=1, large=1, idw=8, seqw=8).pdu(nakbody(8, [(1, 2)]), **back), nak([(1, 2)]), u(8, 1) + u(8, 2))
delivery('Finished with a TLV of type 2 behind', h.pdu(b'\5\2', **back), finished(0, 0, 2), b'\2\1a')
delivery('Finished with a lone type byte, its length behind', h.pdu(b'\5\2\1', **back), MALFORMED, b'\0')
delivery('Finished with a TLV of 255, its last byte behind', h.pdu(b'\5\2\1\xff' + long[1:], **back), MALFORMED, b'z')
delivery('Finished without its byte, one behind', h.pdu(b'\5', **back), MALFORMED, b'\2')
delivery('ACK too short, a byte behind', h.pdu(b'\6\x40', **back), MALFORMED, b'\1')
delivery('Keep Alive with bytes behind', h.pdu(b'\x0c' + u(4, 77), **back), keep(77), b'\x55' * 4)
delivery('Keep Alive too short, a byte behind', h.pdu(b'\x0c' + u(3, 77), **back), MALFORMED, b'\0')
delivery('no code byte, a PDU behind', h.pdu(b'', **back), MALFORMED, whole)
delivery('CRC at the end of the delivery', good.pdu(b'\6\x40\1\0\0', extra=-2, **back), MALFORMED)
delivery('CRC behind the data field', good.pdu(b'\6\x40\1', **back)[:-2], MALFORMED, b'\0\0' + good.pdu(b'\6\x40\1', **back)[-2:])
delivery('CRC flag, data field of 0, its CRC behind', b'\x2a\0\0\0\1\7\2', MALFORMED, u(2, binascii.crc_hqx(b'\x2a\0\0\0\1\7\2', 0xFFFF)))
for v in range(8):
    delivery(f'version {v}', h.pdu(b'\6\x40\1', version=v, **back), ACKEOF if v == 1 else MALFORMED)
for w in range(1, 9):
    g = Head(unack=0, idw=w)
    delivery(f'id width {w}', g.pdu(b'\6\x40\1', **back), ACKEOF if w in (1, 2, 4, 8) else MALFORMED)
    g = Head(unack=0, seqw=w)
    delivery(f'sequence width {w}', g.pdu(b'\6\x40\1', **back), ACKEOF if w in (1, 2, 4, 8) else MALFORMED)
delivery('segmentation control and segment metadata flag set', h.pdu(b'\6\x40\1', widths='10001000', **back), ACKEOF)
delivery('unacknowledged mode bit', Head(unack=1).pdu(b'\6\x40\1', **back), ACKEOF)

if __name__ == '__main__':
    os.makedirs(OUT, exist_ok=True)
    stream = b''.join(records)
    assert len(stream) <= 65536, len(stream)
    open(os.path.join(OUT, 'stdin'), 'wb').write(stream)
    open(os.path.join(OUT, 'stdout'), 'w').write(''.join(l + '\n' for l in lines) + f'{len(lines)} vectors, 0 differ\n')
    print(len(stream), 'bytes,', len(lines), 'vectors')
