#!/usr/bin/env python3
"""Runs the built program `send` with `burst=N` and without it: what it writes must be the same, byte by byte.

    python3 tests/send_bursts.py [N [SEED [PROGRAM]]]

Compared are the PDUs, in one of the three forms, the capture, and standard error. The passes: the demo for every burst from 0 to 16; passes made to meet a
burst's ends (signs of life, repairs of many requests, the longest PDUs, expiry, writes that fail at any place); and N random ones
(default 100, seed 1) with random answers, fill behind some. Words that are no burst must be complained of. PROGRAM is crates/send/out/send if not given (./run send builds it). Status 0,
or 1 where something differs.
"""
import os, random, resource, subprocess, sys, tempfile
from random_passes import ROOT, built
from wireshark_passes import Asked, framed

HERE = os.path.dirname(os.path.abspath(__file__))
DEMO = os.path.join(ROOT, 'crates', 'send', 'data')
FORMS = [[], ['--hex'], ['--say']]


def write(path, data):
    with open(path, 'wb') as f:
        f.write(data)


def content(path):
    with open(path, 'rb') as f:
        return f.read()


class Bench:
    """A folder to run in. Its names are the same for all runs, so what is said of them is too."""

    def __init__(self, program, folder):
        self.program, self.folder = program, folder
        self.compared = self.bad = self.repairs = self.failed = 0

    def path(self, name):
        return os.path.join(self.folder, name)

    def answers(self, words):
        subprocess.run([sys.executable, os.path.join(HERE, 'make_answers.py'), self.path('answers')] + words, check=True)

    def run(self, words, most=None):
        """What one run writes: standard output, the files `out` and `pcap`, standard error. No file gets longer than `most` bytes."""
        for name in ('out', 'pcap'):
            write(self.path(name), b'')
        limit = None if most is None else lambda: resource.setrlimit(resource.RLIMIT_FSIZE, (most, most))
        done = subprocess.run(self.program + words, cwd=self.folder, stdout=subprocess.PIPE, stderr=subprocess.PIPE, check=True,
                              preexec_fn=limit, restore_signals=False)
        return done.stdout, content(self.path('out')), content(self.path('pcap')), done.stderr

    def hold(self, words, bursts, most=None):
        """The run with each of the bursts to the run without; the latter is returned."""
        want = self.run(words, most)
        for n in bursts:
            self.compared += 1
            self.repairs += b' repairs, ' in want[3] and b', 0 repairs, ' not in want[3]
            self.failed += b' ends after ' in want[3]
            got = self.run(words + ['burst=%d' % n], most)
            if got != want:
                self.bad += 1
                self.show(words + ['burst=%d' % n], want, got)
        return want

    def show(self, words, want, got):
        print('DIFFERS: send %s' % ' '.join(str(w) for w in words))
        for name, a, b in zip(('standard output', 'out', 'pcap', 'standard error'), want, got):
            if a != b:
                at = next((i for i, (x, y) in enumerate(zip(a, b)) if x != y), min(len(a), len(b)))
                print('    %s, from byte %d on\n        without %s\n        with    %s' % (name, at, a[at:at + 160], b[at:at + 160]))


# ---- passes

def demo(bench):
    """Also held to the pass that is stored, so that not both are wrong alike."""
    for name in os.listdir(DEMO):
        write(bench.path(name), content(os.path.join(DEMO, name)))
    words = content(os.path.join(DEMO, '..', 'args')).decode().split()
    assert bench.hold(words, range(17))[0] == content(os.path.join(DEMO, '..', 'stdout'))
    for form in FORMS:
        bench.hold(words[:4] + form + ['out=out', 'pcap=pcap'], [1, 2, 3, 7, 16])


def lives(bench, rng):
    """More than 256 PDUs, of the first pass and of repairs."""
    write(bench.path('file'), rng.randbytes(3000))
    bench.answers(['nak=0-0,0-2999', 'nak=' + ','.join('%d-%d' % (k, k + 13) for k in range(0, 1600, 25)), 'ack', 'nak=0-0,0-0,5-6', 'finished'])
    words = ['file', 'mode=acknowledged', 'segment=5', 'answers=answers', 'pcap=pcap']
    for form in FORMS:
        want = bench.hold(words + form, [1, 3, 7, 11, 15, 16])
    assert want[3].count(b' of 3000 bytes\n') == 5 and b', 796 repairs, ' in want[3], want[3]


def long_pdus(bench, rng):
    """The longest, which fill the buffer of a burst of 16."""
    write(bench.path('file'), rng.randbytes(150000))
    want = bench.hold(['file', 'packet=4096', 'segment=5000', 'pcap=pcap'], [1, 4, 15, 16])
    assert want[0].count(b'\x10\x00\x34') >= 36, want[3]


def expiry(bench, rng):
    write(bench.path('file'), rng.randbytes(60))
    for answers in (['nak=0-0,3-50'], ['ack'], ['ack', 'nak=4-44', 'finished']):
        bench.answers(answers)
        for limit in (0, 1, 2, 5):
            for mode in ('mode=acknowledged', 'mode=unacknowledged'):
                bench.hold(['file', mode, 'closure=yes', 'segment=7', 'answers=answers', 'pcap=pcap', '--say', 'limit=%d' % limit], [1, 2, 6, 16])


def failing(bench, rng):
    """The output, then the capture, can be written up to some byte only."""
    write(bench.path('file'), rng.randbytes(70))
    bench.answers(['nak=0-0,8-33,40-41', 'ack', 'finished'])
    words = ['file', 'mode=acknowledged', 'segment=8', 'answers=answers']
    for most in range(0, 700, 13):
        bench.hold(words + ['out=out'] + FORMS[most % 3], [4, 16], most)
        bench.hold(words + ['pcap=pcap'], [5, 16], most)
    bench.hold(words + ['out=/dev/full'], [1, 16])


def at_random(bench, rng):
    asked = Asked(rng).meet()
    write(bench.path('file'), asked.file)
    write(bench.path('answers'), framed([pdu + b'\x55' * rng.choice([0, rng.randrange(301)]) for pdu in asked.answers]))
    bench.hold(['file'] + asked.words() + ['answers=answers', 'out=out', 'pcap=pcap'] + rng.choice(FORMS), rng.sample(range(1, 17), 2))


def bad_words(bench):
    write(bench.path('file'), b'abc')
    for value in ('17', '', 'x', '-1', '1 ', '256', '18446744073709551616', '18446744073709551617'):
        got = bench.run(['file', 'burst=' + value, 'out=out'])
        if got != (b'', b'', b'', b'send: bad value: burst=%s\n' % value.encode()):
            bench.bad += 1
            print('DIFFERS: burst=%s: %s' % (value, got))


def main(words):
    if any(not w.isdigit() for w in words[:2]) or len(words) > 3:
        raise SystemExit(__doc__)
    n, seed = (words + ['100', '1'][len(words):])[:2]
    program = built('send', *words[2:])
    with tempfile.TemporaryDirectory() as folder:
        bench, rng = Bench(program, folder), random.Random('bursts')
        demo(bench)
        for some in (lives, long_pdus, expiry, failing):
            some(bench, rng)
        for i in range(int(n)):
            at_random(bench, random.Random('%s-bursts-%d' % (seed, i)))
        bad_words(bench)
    print('%d runs with a burst, %d of them with repairs and %d with a write that failed: %d differ from the run without' % (
        bench.compared, bench.repairs, bench.failed, bench.bad))
    return bench.bad


sys.exit(1 if main(sys.argv[1:]) else 0)
