#!/usr/bin/env python3
"""What a call costs through the seam (docs/SEAM.md): x86-64 instructions counted exactly, bytes of state, deepest stack; a whole pass; and the same data step and pass through source.rs.

    python3 tests/cost.py

One run proves and builds the archive, links tests/seam/cost.c to it, and prints the table of docs/CHECKTIME.md. Instructions are the difference between two runs that
differ in one call, counted by valgrind. Times are not taken. An EOF step that costs more behind more pieces reads the
file again: then the last line is FAILED, and the status 1. The Rust is cfdp-rs's own source.rs over stand-ins (tests/cfdp-rs/cost); where there is no cargo or
no Rust, it says SKIPPED.
"""
import os, re, shutil, sys

HERE = os.path.dirname(os.path.abspath(__file__))
sys.path.insert(0, HERE)
import hosts

# The C library's copies by string instructions are turned off: one counts as many turns.
TUNE = 'GLIBC_TUNABLES=glibc.cpu.x86_rep_stosb_threshold=100000000:glibc.cpu.x86_rep_movsb_threshold=100000000'


def instructions(program, *words):
    """Of the whole process, the loader and the C library with it."""
    if not shutil.which('valgrind'):
        raise hosts.Failed('no valgrind here to count instructions with')
    name, _, value = TUNE.partition('=')
    said = hosts.run(['valgrind', '--tool=callgrind', '--callgrind-out-file=/dev/null', program, *words], env=dict(os.environ, **{name: value}))
    return int(re.search(r'Collected : (\d+)', said).group(1))


def shown(what, number):
    print('%-58s %s' % (what, number), flush=True)


def comma(n):
    return format(n, ',')


PASS = 1024 * 1024
CHECKSUMS = {'modular': '0', 'crc32c': '2', 'crc32': '3', 'null': '15'}
PIECES = 1, 10, 100


def eofs(cost):
    """Prints what an EOF costs behind so many pieces of the file; gives those rows whose numbers are not one number."""
    grown = []
    for name, case in (('step, EOF', 'eof'), ("step, a cancel's EOF", 'cancelled')):
        for kind, number in CHECKSUMS.items():
            took = [cost('%s_%d' % (case, n), number) for n in PIECES]
            row = '%s after 1, 10, 100 pieces, %s' % (name, kind)
            shown(row, ', '.join(map(comma, took)))
            grown += [row] if len(set(took)) > 1 else []
    return grown


def seam():
    """Prints the calls' costs; gives those of the two data steps and of the two passes, and the rows of EOFs that read the file."""
    program = hosts.linked('cost', [hosts.c_object(os.path.join(HERE, 'seam', 'cost.c'), 'cost'), hosts.archive()])

    def cost(case, *checksum):
        return instructions(program, case, '1', *checksum) - instructions(program, case, '0', *checksum)

    copy = cost('copy')
    data, data_crc = cost('data'), cost('data_crc')
    shown('step, data PDU of 4,096 bytes, no CRC', '%s (one copy of its 4,085 bytes of file: %s)' % (comma(data), comma(copy)))
    shown('step, data PDU of 4,096 bytes, CRC', comma(data_crc))
    for name, case in (('step, data PDU with 100 bytes of file', 'data_100'), ('step, data PDU with 1 byte of file', 'data_1'), ('step, repair of 4,096 bytes', 'repair'),
                       ('step, metadata', 'metadata'), ('step, refused (30)', 'refused'), ('deliver, NAK of 64 requests', 'nak_64'),
                       ('deliver, NAK of 1 request', 'nak_1'), ('deliver, ACK of EOF', 'ack'), ('deliver, ACK of EOF, 300 bytes of fill behind it', 'ack_fill'), ('deliver, Finished', 'finished'), ('deliver, Keep Alive', 'keep_alive'),
                       ('deliver, refused (22)', 'ack_refused'), ('put, names of one byte', 'put'), ('cancel', 'cancel'), ('reset', 'reset')):
        shown(name, comma(cost(case)))
    for name, case in (('16 data PDUs with 100 bytes of file', '_100'), ('16 data PDUs of 4,096 bytes, no CRC', ''), ('16 data PDUs of 4,096 bytes, CRC', '_crc'),
                       ('16 PDUs with 100 bytes of one repair', '_repair'), ('16 repairs of one PDU each, 60 bytes', '_lost')):
        one, many = cost('burst' + case), cost('sixteen' + case)
        shown('burst, ' + name, '%s (sixteen calls of step: %s; %.1f percent of that)' % (comma(one), comma(many), 100 * one / many))
    one, many = cost('burst', CHECKSUMS['crc32']), cost('sixteen', CHECKSUMS['crc32'])
    shown('burst, 16 data PDUs of 4,096 bytes, no CRC, checksum crc32', '%s (sixteen calls of step: %s; %.1f percent of that)' % (comma(one), comma(many), 100 * one / many))
    shown('step, EOF with the null checksum', comma(cost('eof_null')))
    grown = eofs(cost)
    steps = {kind: cost('data', number) for kind, number in CHECKSUMS.items()}
    for kind, n in steps.items():
        shown('step, data PDU of 4,096 bytes, checksum %s' % kind, '%s, %.2f a byte of file' % (comma(n), n / 4085))
    for kind in 'modular', 'crc32c', 'crc32':
        shown('checksum %s, instructions a byte' % kind, '%.2f' % ((steps[kind] - steps['null']) / 4085))
    shown('CRC-16 of a PDU, instructions a byte', '%.2f' % ((data_crc - data) / 4094))
    sizes = dict(line.split() for line in hosts.run([program, 'size']).strip().split('\n'))
    shown('bytes: handler', comma(int(sizes['handler'])))
    shown('bytes: its state', '%s (queue %s, names %s)' % tuple(comma(int(sizes[k])) for k in ('state', 'queue', 'names')))
    shown('bytes: its configuration, its report', '%s, %s' % (sizes['configuration'], sizes['report']))
    deepest = {}
    for line in hosts.run([program, 'stack']).strip().split('\n'):
        call, depth, _ = line.split()
        deepest[call] = max(int(depth), deepest.get(call, 0))
    for call, depth in deepest.items():
        shown('deepest stack: ' + call, comma(depth))
    passes = cost('pass'), cost('pass_crc')
    for name, n in zip(('no CRC', 'CRC'), passes):
        shown('a pass of 1 MiB in PDUs of 4,096 bytes, put to EOF, ' + name, comma(n))
    return (data, data_crc), passes, grown


def source_rs(steps, passes):
    """The same data step and the same pass through source.rs over the stand-ins."""
    rust, why = hosts.rust_with_cargo()
    if not rust:
        print('SKIPPED: the step through source.rs: ' + why)
        return
    program = hosts.linked('cost_rs', [rust.package(os.path.join(HERE, 'cfdp-rs'), 'cost', os.path.join(hosts.TARGET, 'cfdp-rs'))])
    for name, crc, step, whole in zip(('no CRC', 'CRC'), '01', steps, passes):
        theirs = instructions(program, '4', crc) - instructions(program, '3', crc)
        shown('source.rs over stand-ins, the same data PDU, ' + name, '%s; ours is %.2f times that' % (comma(theirs), step / theirs))
        theirs = instructions(program, '1000', crc, str(PASS)) - instructions(program, '0', crc, str(PASS))
        shown('source.rs over stand-ins, the same pass, ' + name, '%s; ours is %.2f times that' % (comma(theirs), whole / theirs))


if __name__ == '__main__':
    try:
        *ours, grown = seam()
        source_rs(*ours)
        if grown:
            raise hosts.Failed('an EOF step that reads the file: ' + '; '.join(grown))
    except hosts.Failed as e:
        sys.exit('FAILED: %s' % e)
