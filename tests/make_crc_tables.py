#!/usr/bin/env python3
"""Prints the constant tables of the crate `checksum`, crates/checksum/src/tables.rt, as `rt fmt` leaves it.

    python3 tests/make_crc_tables.py > crates/checksum/src/tables.rt

They are computed from the polynomials as the standards write them, without the highest term: 0x1EDC6F41 (CRC-32C), 0x04C11DB7 (CRC-32) and
0x1021 (CRC-16). No code is shared with the crates, whose proofs show each number to be the right one.
"""

HEAD = '''\
// The tables of the three CRCs: for each of the 256 bytes that can fall out of a CRC, what is added to the rest.
// Made from the polynomials by tests/make_crc_tables.py. That each number is the right one is proved where its table is lent.'''


def divided(poly, width, v):
    """What the eight highest bits of v leave as they are shifted out."""
    for _ in range(8):
        v = v << 1 ^ (1 << width | poly if v >> width - 1 else 0)
    return v


def turned(width, v):
    """The bits of v in the other order."""
    return int(f'{v:0{width}b}'[::-1], 2)


def reflected(poly):
    """The table of a 32-bit CRC that takes each byte's lowest bit first."""
    return [turned(32, divided(poly, 32, turned(8, k) << 24)) for k in range(256)]


def exchanged(poly):
    """The table of a 16-bit CRC that takes each byte's highest bit first; the two bytes of each number are exchanged."""
    return [int.from_bytes(divided(poly, 16, k << 8).to_bytes(2, 'big'), 'little') for k in range(256)]


def lines(comment, name, digits, numbers):
    yield '\n// ' + comment
    yield f'pub static {name}: [u32; 256] = ['
    a_row = 1 if digits > 4 else 12                      # numbers of up to ten characters stand in rows
    words = ['0x' + '_'.join(f'{n:0{digits}X}'[i:i + 4] for i in range(0, digits, 4)) + ',' for n in numbers]
    for i in range(0, len(words), a_row):
        yield '    ' + ' '.join(words[i:i + a_row])
    yield '];'


def main():
    print(HEAD)
    for table in (('CRC-32C, of 0x1EDC6F41, reflected.', 'EIGHTS_32C', 8, reflected(0x1EDC6F41)),
                  ('CRC-32, of 0x04C11DB7, reflected.', 'EIGHTS_32', 8, reflected(0x04C11DB7)),
                  ('CRC-16, of 0x1021, not reflected; each number has its two bytes exchanged.', 'EIGHTS_16', 4, exchanged(0x1021))):
        print('\n'.join(lines(*table)))


main()
